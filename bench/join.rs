//! Times `join` (change request E8) beside a plain loop that does the same, and prints their rows. The Rust has no such
//! call. The plain loop makes no check; ours makes 1 to 3 of both sheets, and 1 of the lent ones, in each call.

use crate::calls::call_join;
use crate::sheets::{random, Sheet, ENTRIES};
use crate::{colour, timed, Side};
use std::hint::black_box;

/// A round makes so many calls that they go over so many pixels, and at least so many.
const PIXELS: usize = 1 << 23;
const CALLS: usize = 2_000;

/// A sheet of k colours, from a number on.
fn sheet(side: usize, k: usize, from: usize) -> Sheet {
    let mut s = Sheet::of(side, k, random);
    s.palette = (from..from + ENTRIES)
        .flat_map(|i| colour(i as u32))
        .collect();
    s.lab = color_exact::rgb8_to_lab(&s.palette);
    s
}

/// How many entries are joined, or the number of a refusal past 1,000.
fn join(a: &Sheet, b: &Sheet, x: &mut Sheet, y: &mut Sheet) -> usize {
    let mut states = [[0; 6]; 2];
    let [state, state2] = &mut states;
    let no = call_join(
        a.side,
        a.side,
        a.k,
        &a.palette,
        &a.lab,
        &a.indices,
        &a.locks,
        b.side,
        b.side,
        b.k,
        &b.palette,
        &b.lab,
        &b.indices,
        &b.locks,
        x.side,
        x.side,
        &mut x.palette,
        &mut x.lab,
        &mut x.indices,
        &mut x.locks,
        y.side,
        y.side,
        &mut y.palette,
        &mut y.lab,
        &mut y.indices,
        &mut y.locks,
        state,
        state2,
    );
    if no == 0 {
        state[0]
    } else {
        1_000 + usize::from(no)
    }
}

/// One entry of a sheet written to another.
fn put(from: &Sheet, i: usize, to: &mut Sheet, at: usize) {
    to.palette[3 * at..3 * at + 3].copy_from_slice(&from.palette[3 * i..3 * i + 3]);
    to.lab[3 * at..3 * at + 3].copy_from_slice(&from.lab[3 * i..3 * i + 3]);
    to.locks[at] = from.locks[i];
}

/// The plain loop: the joined palette is made in both lent sheets entry by entry, and a table has where each index goes.
fn plain(a: &Sheet, b: &Sheet, x: &mut Sheet, y: &mut Sheet) -> usize {
    for i in 0..a.k {
        put(a, i, x, i);
        put(a, i, y, i);
    }
    let mut table = [-1; 256];
    let mut k = a.k;
    for i in 0..b.k {
        let c = &b.palette[3 * i..3 * i + 3];
        let mut there = y.palette[..3 * k].chunks_exact(3);
        let at = there.position(|own| own == c).unwrap_or(k);
        if at == k {
            if k == ENTRIES {
                return 1_027;
            }
            put(b, i, x, k);
            put(b, i, y, k);
            k += 1;
        }
        table[i + 1] = at as i16;
    }
    x.indices.copy_from_slice(&a.indices);
    for (to, &z) in y.indices.iter_mut().zip(&b.indices) {
        *to = table[(z + 1) as usize];
    }
    k
}

fn row(side: usize, k: usize, k2: usize, shared: usize, about: &str) {
    let (a, b) = (sheet(side, k, 0), sheet(side, k2, k - shared));
    let mut lent = [1, 2, 3, 4].map(|n| sheet(side, 1, 1_000 * n));
    let [x, y, plain_x, plain_y] = &mut lent;
    let name = format!("join, {side} × {side}, {k} + {k2} entries, {about}");
    let pixels = 2 * side * side;
    let calls = (PIXELS / pixels).clamp(1, CALLS);
    let (mut joined, mut by_plain) = (0, 0);
    let [ours, theirs] = timed([
        Side(calls, &mut || {
            for _ in 0..calls {
                joined = join(black_box(&a), black_box(&b), x, y);
            }
        }),
        Side(calls, &mut || {
            for _ in 0..calls {
                by_plain = plain(black_box(&a), black_box(&b), plain_x, plain_y);
            }
        }),
    ]);
    assert_eq!(joined, by_plain, "{name}");
    if joined < 1_000 {
        for (ours, plain) in [(x, plain_x), (y, plain_y)] {
            assert!(ours.indices == plain.indices, "{name}: indices");
            let (n, same) = (3 * joined, |a: &f64, b: &f64| a.to_bits() == b.to_bits());
            assert!(ours.palette[..n] == plain.palette[..n], "{name}: colours");
            let mut labs = ours.lab[..n].iter().zip(&plain.lab[..n]);
            assert!(labs.all(|(a, b)| same(a, b)), "{name}: LAB");
            assert!(
                ours.locks[..joined] == plain.locks[..joined],
                "{name}: marks"
            );
        }
    }
    println!(
        "| {name:<56} | {ours:>9.0} | {theirs:>9.0} | {:>5.2} | {:>10.3} | {:>10.3} |",
        ours / theirs,
        ours / pixels as f64,
        theirs / pixels as f64
    );
}

pub fn print() {
    println!("| what                                                     |   ours ns | plain ns  | ratio | ours, each | plain, each |");
    println!("|----------------------------------------------------------|-----------|-----------|-------|------------|-------------|");
    row(1024, 255, 255, 255, "all shared");
    row(1024, 170, 170, 85, "half shared");
    row(1024, 16, 16, 8, "half shared");
    row(256, 170, 170, 85, "half shared");
    row(64, 170, 170, 85, "half shared");
    row(16, 16, 16, 8, "half shared");
    row(1, 255, 255, 255, "all shared");
    row(1, 128, 127, 0, "none shared");
    row(1, 255, 255, 127, "half shared: 27");
    row(1, 255, 255, 0, "none shared: 27");
    println!();
    println!("What both leave is the same. Each: a pixel of both sheets.");
}
