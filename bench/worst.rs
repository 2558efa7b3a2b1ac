//! Inputs made to be dear, beside the Rust: tiles that share a few chains of crates/tile_match, strokes whose points lie as
//! far as points may, and a stroke of one dot on the largest sheet. `bench/run` prints their table after that of tools.rs;
//! `target/bench/tools worst`, once it is built, prints it alone.
//!
//! Tiles, and the Rust's far strokes, are timed by one call; all else as in tools.rs. The answers are compared.

use crate::calls::{call_check, call_draw, call_extract, call_mirror_tiles, PENCIL};
use crate::{figures, lines, noise, same, stray, tile_sheets, Draw, Sheet, WHOLE};
use pixelforge::editor::document::Document;
use pixelforge::editor::op::PixelChange;
use pixelforge::editor::tools;
use pixelforge::tiles::{extract, TileConfig};
use std::collections::HashSet;
use std::hint::black_box;
use std::time::Instant;

pub fn print() {
    println!("| what                                                       |   ours ms | scan+call | ratio |");
    println!("|------------------------------------------------------------|-----------|-----------|-------|");
    tiles();
    strokes();
    dot();
}

fn told(name: &str, ours: f64, rust: Option<f64>) {
    match rust {
        Some(rust) => println!("| {name:<58} | {ours:>9.4} | {rust:>9.4} | {:>5.2} |", ours / rust),
        None => println!("| {name:<58} | {ours:>9.4} |           |       |"),
    }
}

fn checked(document: &Document) {
    assert!(black_box(stray(black_box(document))).is_none());
}

// ---- tiles

/// Entries of the palette, so many that a tile of 3 × 3 has room for hostile ones.
const ENTRIES: usize = 255;
/// The tiles of a hostile sheet lie on so many chains.
const CHAINS: u64 = 16;
const FLIPS: [(bool, bool); 4] = [(false, false), (true, false), (false, true), (true, true)];

/// Tiles that are no flips of each other.
struct Distinct {
    t: usize,
    seen: HashSet<Vec<u8>>,
    tiles: Vec<Vec<u8>>,
}

impl Distinct {
    fn of(t: usize) -> Distinct {
        Distinct { t, seen: HashSet::new(), tiles: Vec::new() }
    }

    fn add(&mut self, tile: Vec<u8>) {
        let t = self.t;
        let flipped = |(h, v)| (0..t * t).map(|p| tile[place(t, p, h, v)]).collect::<Vec<u8>>();
        let least = FLIPS.map(flipped).into_iter().min().unwrap();
        if self.seen.insert(least) {
            self.tiles.push(tile);
        }
    }

    /// A sheet cut into these tiles.
    fn sheet(&self, side: usize) -> Sheet {
        let t = self.t;
        let tile = |x: usize, y: usize| &self.tiles[y / t * (side / t) + x / t];
        Sheet::of(side, ENTRIES, |x, y| tile(x, y)[y % t * t + x % t].into())
    }
}

/// The place within a tile at which a flip shows what stands at p.
fn place(t: usize, p: usize, h: bool, v: bool) -> usize {
    let turn = |back: bool, z: usize| if back { t - 1 - z } else { z };
    turn(v, p / t) * t + turn(h, p % t)
}

fn any_tiles(t: usize, count: usize) -> Distinct {
    let (mut draw, mut found) = (Draw(17), Distinct::of(t));
    while found.tiles.len() < count {
        found.add((0..t * t).map(|_| draw.below(ENTRIES) as u8).collect());
    }
    found
}

/// Tiles whose chain, of as many as there are tiles, is one of the first CHAINS. The key is that of
/// crates/tile_cells/src/keys.rt: before its square, the number of a flip is a sum in which each place has a weight. So of a
/// tile drawn at random all fillings of two places are tried, an addition a flip and a try.
fn hostile_tiles(t: usize, count: usize) -> Distinct {
    let (mut draw, mut found) = (Draw(19), Distinct::of(t));
    let power = |n: usize| 1_664_525u32.wrapping_pow(n as u32);
    let weights: Vec<[u32; 4]> = (0..t * t).map(|p| FLIPS.map(|(h, v)| power(t * t - place(t, p, h, v)))).collect();
    let plus = |sums: [u32; 4], p: usize, times: u8| {
        std::array::from_fn(|f| sums[f].wrapping_add(weights[p][f].wrapping_mul(times.into())))
    };
    let number = |n: u32| (u64::from(n) * u64::from(n) >> 16) as u32;
    let chain = |sums: [u32; 4]| {
        let key = sums.iter().fold(0u32, |key, &n| key.wrapping_add(number(n)));
        u64::from(key) * count as u64 >> 32
    };
    while found.tiles.len() < count {
        let mut tile: Vec<u8> = (0..t * t).map(|_| draw.below(ENTRIES) as u8).collect();
        let rest = (2..t * t).fold([7u32.wrapping_mul(power(t * t)); 4], |sums, p| plus(sums, p, tile[p]));
        for first in 0..ENTRIES as u8 {
            let mut sums = plus(rest, 0, first);
            for second in 0..ENTRIES as u8 {
                if chain(sums) < CHAINS {
                    (tile[0], tile[1]) = (first, second);
                    found.add(tile.clone());
                }
                sums = plus(sums, 1, 1);
            }
        }
    }
    found.tiles.truncate(count);
    found
}

fn tiles() {
    for (name, sheet) in tile_sheets() {
        mirror_row(&format!("mirror_tiles, 1024 × 1024, t = 16, {name}"), &sheet, 16);
    }
    for (t, side) in [(4, 1024), (3, 1023)] {
        let count = (side / t) * (side / t);
        for (name, tiles) in [("any tiles", any_tiles(t, count)), ("hostile", hostile_tiles(t, count))] {
            let sheet = tiles.sheet(side);
            extract_row(&format!("extract, {side} × {side}, t = {t}, {name}"), &sheet, t);
            mirror_row(&format!("mirror_tiles, {side} × {side}, t = {t}, {name}"), &sheet, t);
        }
    }
}

/// Milliseconds of one call.
fn once<A>(call: impl FnOnce() -> A) -> (f64, A) {
    let start = Instant::now();
    let answer = call();
    (start.elapsed().as_nanos() as f64 / 1e6, answer)
}

fn extract_row(name: &str, s: &Sheet, t: usize) {
    let (document, places) = (s.document(), s.side * s.side);
    let (mut out, mut map) = (vec![0i16; places], vec![0u32; 3 * (places / (t * t))]);
    let (mut scratch, mut r) = (vec![0u64; places], [0usize; 5]);
    let config = TileConfig { tile_size: t as i64, tile_dedupe_tolerance: 0.0, tileset_columns: 0 };
    let (ours, no) = once(|| {
        call_extract(s.side, s.side, s.k, &s.palette, &s.lab, &s.indices, t, &mut out, &mut map, &mut scratch, &mut r)
    });
    let (rust, made) = once(|| {
        checked(&document);
        extract(&document.indices.indices, s.side, s.side, &document.palette_lab, &config).unwrap()
    });
    assert!(no == 0 && r[..2] == [made.n_tiles, made.tilemap.tiles.len()], "{name}: the counts differ");
    assert!(made.tiles.iter().zip(&out).all(|(a, b)| *a == i64::from(*b)), "{name}: the tiles differ");
    assert!(made.tilemap.tiles.iter().flatten().zip(&map).all(|(a, b)| *a == i64::from(*b)), "{name}: the maps differ");
    told(name, ours, Some(rust));
}

/// One change, in the middle of the sheet.
fn mirror_row(name: &str, s: &Sheet, t: usize) {
    let (mut document, places) = (s.document(), s.side * s.side);
    document.origin.config.tileset = true;
    document.origin.config.tile_size = t as i64;
    let (x, y) = (s.side / 2, s.side / 2);
    let old: i64 = s.indices[y * s.side + x].into();
    let change = PixelChange { x, y, old, new: (old + 1) % s.k as i64 };
    let list = [crate::packed(&change)];
    let (mut scratch, mut out, mut r) = (vec![0u64; places], vec![0u64; places], [0usize; 5]);
    let (w, (scratch, to)) = (s.side, (&mut scratch, &mut out));
    let (ours, no) = once(|| {
        call_mirror_tiles(w, w, s.k, &s.palette, &s.lab, &s.indices, true, &WHOLE, true, t, &list, scratch, to, &mut r)
    });
    let (rust, changes) = once(|| {
        checked(&document);
        tools::mirror_tiles(&document, None, &[change])
    });
    assert_eq!(no, 0, "{name}");
    same(name, &out, r[0], &changes);
    told(name, ours, Some(rust));
}

// ---- strokes

const FAR: i32 = 65_536;

/// Points by turns at the one limit and the other: so the lines between them go by the sheet, above it, ..
fn missing(segments: i32) -> Vec<i32> {
    (0..=segments).flat_map(|i| [if i % 2 == 0 { -FAR } else { FAR }, -10 - i]).collect()
}

/// .. or through it, from corner to corner.
fn crossing(segments: i32) -> Vec<i32> {
    let mut draw = Draw(23);
    let mut point = |i: i32| {
        let aside = draw.below(33) as i32;
        if i % 2 == 0 { [-FAR, aside - FAR] } else { [FAR, FAR - aside] }
    };
    (0..=segments).flat_map(|i| point(i)).collect()
}

/// The Rust keeps every point of a stroke, 16 bytes each, so it is given a hundred lines, and not a thousand.
fn strokes() {
    let sheet = noise(64, 16);
    for (name, made) in [("beside", missing as fn(i32) -> Vec<i32>), ("through", crossing)] {
        for size in [1, 8] {
            for (count, lines, beside) in [("100", 100, true), ("1,000", 1000, false)] {
                let name = format!("pencil of size {size}, {count} far lines {name} 64 × 64");
                stroke_row(&name, &sheet, &made(lines), size, beside);
            }
        }
    }
}

fn pencil(s: &Sheet, points: &[i32], size: usize, scratch: &mut [u64], out: &mut [u64], r: &mut [usize; 5]) -> u8 {
    let (w, index) = (s.side, 5);
    call_draw(w, w, s.k, &s.palette, &s.lab, &s.indices, PENCIL, true, &WHOLE, points, size, index, 0, scratch, out, r)
}

fn stroke_row(name: &str, s: &Sheet, points: &[i32], size: usize, beside: bool) {
    let (document, places) = (s.document(), s.side * s.side);
    let (mut scratch, mut out, mut r) = (vec![0u64; places], vec![0u64; places], [0usize; 5]);
    let figure = figures(&mut [&mut || assert_eq!(pencil(s, points, size, &mut scratch, &mut out, &mut r), 0)])[0];
    if !beside {
        return told(name, figure, None);
    }
    let pairs: Vec<(i64, i64)> = points.chunks_exact(2).map(|p| (p[0].into(), p[1].into())).collect();
    let (rust, _) = once(|| {
        checked(&document);
        black_box(tools::pencil(&document, None, &pairs, size, 5))
    });
    same(name, &out, r[0], &lines::pencil(&document, None, &pairs, size, 5));
    told(name, figure, Some(rust));
}

/// A dot on the largest sheet, beside what checks 1 to 3 alone take.
fn dot() {
    let sheet = noise(1024, 16);
    let (s, document, places) = (&sheet, sheet.document(), 1 << 20);
    let (mut scratch, mut out, mut r) = (vec![0u64; places], vec![0u64; places], [0usize; 5]);
    let check = figures(&mut [
        &mut || assert_eq!(call_check(s.side, s.side, s.k, &s.palette, &s.lab, &s.indices), 0),
        &mut || checked(&document),
    ]);
    let dot = figures(&mut [
        &mut || assert_eq!(pencil(s, &[500, 500], 1, &mut scratch, &mut out, &mut r), 0),
        &mut || {
            checked(&document);
            black_box(tools::pencil(black_box(&document), None, &[(500, 500)], 1, 5));
        },
    ]);
    same("dot", &out, r[0], &tools::pencil(&document, None, &[(500, 500)], 1, 5));
    told("check alone, 1,024 × 1,024", check[0], Some(check[1]));
    told("pencil of size 1, one dot on 1,024 × 1,024", dot[0], Some(dot[1]));
}
