//! Times the proved calls beside the Rust original and prints seven tables; `bench/run` builds and runs it.
//!
//! Ours is the crates of compare/archives.txt, as `rt lib` compiles them. `color_platform`
//! and `color_exact` are one and the same color.rs of pixelforge, built over the two stand-ins for its `libm`;
//! `pixelforge` has its editor. All get the same inputs, and the results are compared bit for bit: a difference from
//! the exact build ends the run.

#[path = "../compare/calls.rs"]
#[allow(dead_code)]
mod calls;
mod forms;
mod join;
mod layers;
mod moves;
mod sheets;

use std::hint::black_box;
use std::time::Instant;

/// Colours, and cube roots.
const MANY: usize = 1_000_000;
/// The exact build converts so many only.
const FEW: usize = 100_000;
const SEARCHES: usize = 20_000;
/// Doubles of LAB storage: three for each of 255 entries.
const STORAGE: usize = 765;

/// A figure is the least of PASSES medians, each of ROUNDS rounds in which the sides take turns.
const PASSES: usize = 3;
const ROUNDS: usize = 7;

// A slice is handed over as its pointer and its length.
extern "C" {
    fn bench_lab(rgb: *const u8, bytes: usize, lab: *mut f64, doubles: usize);
    fn bench_lab_lent(rgb: *const u8, bytes: usize, lab: *mut f64, doubles: usize);
    fn bench_cbrt(t: *const f64, values: usize, roots: *mut f64, places: usize);
    fn bench_nearest(
        targets: *const f64,
        numbers: usize,
        lab: *const f64,
        doubles: usize,
        k: usize,
        found: *mut usize,
        places: usize,
    );
    fn bench_nearest_in(
        targets: *const f64,
        numbers: usize,
        lab: *const f64,
        doubles: usize,
        k: usize,
        found: *mut usize,
        places: usize,
    );
}

type ToLab = unsafe extern "C" fn(*const u8, usize, *mut f64, usize);
type Search = unsafe extern "C" fn(*const f64, usize, *const f64, usize, usize, *mut usize, usize);

// The three below are safe: each pointer goes with its own slice's length, no two slices overlap, and the
// functions called are proved to stay inside.
fn to_lab(call: ToLab, rgb: &[u8], lab: &mut [f64]) {
    unsafe { call(rgb.as_ptr(), rgb.len(), lab.as_mut_ptr(), lab.len()) }
}

fn roots_of(t: &[f64], roots: &mut [f64]) {
    unsafe { bench_cbrt(t.as_ptr(), t.len(), roots.as_mut_ptr(), roots.len()) }
}

fn search(call: Search, targets: &[f64], lab: &[f64], k: usize, found: &mut [usize]) {
    unsafe {
        call(
            targets.as_ptr(),
            targets.len(),
            lab.as_ptr(),
            lab.len(),
            k,
            found.as_mut_ptr(),
            found.len(),
        )
    }
}

/// Work on so many.
struct Side<'a>(usize, &'a mut dyn FnMut());

/// The nanoseconds that each side takes for one.
fn timed<const SIDES: usize>(mut sides: [Side; SIDES]) -> [f64; SIDES] {
    figures(|side| {
        let Side(count, work) = &mut sides[side];
        let start = Instant::now();
        work();
        start.elapsed().as_nanos() as f64 / *count as f64
    })
}

/// A figure for each side, from what its rounds give.
fn figures<const SIDES: usize>(mut round_of: impl FnMut(usize) -> f64) -> [f64; SIDES] {
    let mut least = [f64::INFINITY; SIDES];
    for _ in 0..PASSES {
        let mut rounds = [[0.0; ROUNDS]; SIDES];
        for round in 0..ROUNDS {
            for (side, times) in rounds.iter_mut().enumerate() {
                times[round] = round_of(side);
            }
        }
        for (times, least) in rounds.iter_mut().zip(&mut least) {
            times.sort_by(f64::total_cmp);
            *least = least.min(times[ROUNDS / 2]);
        }
    }
    least
}

fn row(name: &str, [ours, platform, exact]: [f64; 3]) {
    println!(
        "| {name:<42} | {ours:>7.1} | {platform:>16.1} | {:>5.2} | {exact:>13.1} | {:>5.2} |",
        ours / platform,
        ours / exact
    );
}

fn main() {
    println!("| what                                       | ours ns | Rust platform ns | ratio | Rust exact ns | ratio |");
    println!("|--------------------------------------------|---------|------------------|-------|---------------|-------|");
    let rgb: Vec<u8> = (0..MANY as u32).flat_map(colour).collect();
    one_colour_rows(&rgb);
    let (lab, colours) = bulk_rows(&rgb);
    sheets::opening_rows();
    let roots = root_row();
    for k in [16, 64, 255] {
        search_rows(k, &lab);
    }
    println!();
    println!("Of {MANY} colours and as many roots none has other bits than in the exact build;");
    println!("{colours} colours and {roots} roots have other bits than in the platform build.");
    let [vec] = timed([Side(MANY, &mut || {
        for _ in 0..MANY {
            black_box(Vec::<f64>::with_capacity(3));
        }
    })]);
    println!(
        "The Rust answers in a Vec: some {vec:.0} ns of its time where a call has one colour."
    );
    println!("A search calls no libm: there the two builds of the Rust are the same code.");
    println!();
    sheets::print();
    println!();
    moves::print();
    println!();
    forms::print();
    println!();
    layers::print();
    println!();
    join::print();
}

/// One of the 2^24 colours, each its own: every step here can be undone.
fn colour(i: u32) -> [u8; 3] {
    let mut x = i;
    for odd in [0x9e_3779, 0x85_ebcb, 0xc2_b2af] {
        x = x.wrapping_mul(odd) % (1 << 24);
        x ^= x >> 12;
    }
    let [r, g, b, _] = x.to_le_bytes();
    [r, g, b]
}

fn one_colour_rows(rgb: &[u8]) {
    let mut lab = [0.0; 3];
    let ns = timed([
        Side(MANY, &mut || {
            for c in rgb.chunks_exact(3) {
                to_lab(bench_lab, c, &mut lab);
            }
        }),
        Side(MANY, &mut || {
            for c in rgb.chunks_exact(3) {
                black_box(color_platform::rgb8_to_lab(c));
            }
        }),
        Side(FEW, &mut || {
            for c in rgb[..3 * FEW].chunks_exact(3) {
                black_box(color_exact::rgb8_to_lab(c));
            }
        }),
    ]);
    row("rgb8_to_lab, a colour a call", ns);
}

/// The LAB of the colours, and how many of them differ from the platform build.
fn bulk_rows(rgb: &[u8]) -> (Vec<f64>, usize) {
    let mut lab = vec![0.0; 3 * MANY];
    let platform = color_platform::rgb8_to_lab(rgb);
    let exact = color_exact::rgb8_to_lab(rgb);
    let ways: [(&str, ToLab); 2] = [
        ("LAB of a million, rgb8_to_lab for each", bench_lab),
        ("LAB of a million, the table lent once", bench_lab_lent),
    ];
    for (name, call) in ways {
        lab.fill(0.0);
        let ns = timed([
            Side(MANY, &mut || to_lab(call, rgb, &mut lab)),
            Side(MANY, &mut || {
                black_box(color_platform::rgb8_to_lab(rgb));
            }),
            Side(FEW, &mut || {
                black_box(color_exact::rgb8_to_lab(&rgb[..3 * FEW]));
            }),
        ]);
        row(name, ns);
        assert_eq!(
            differing(&lab, &exact, 3),
            0,
            "{name}: not the exact build's bits"
        );
    }
    let other = differing(&lab, &platform, 3);
    (lab, other)
}

/// How many roots differ from the platform build.
fn root_row() -> usize {
    let (low, high) = (1.0 / 128.0, 2.0);
    let step = (high - low) / (MANY - 1) as f64;
    let t: Vec<f64> = (0..MANY)
        .map(|i| f64::min(low + i as f64 * step, high))
        .collect();
    let [mut ours, mut platform, mut exact] = [(); 3].map(|_| vec![0.0; MANY]);
    let name = "cube root of a million from 1/128 to 2";
    let ns = timed([
        Side(MANY, &mut || roots_of(&t, &mut ours)),
        Side(MANY, &mut || {
            for (root, t) in platform.iter_mut().zip(&t) {
                *root = libm_platform::cbrt(*t);
            }
        }),
        Side(MANY, &mut || {
            for (root, t) in exact.iter_mut().zip(&t) {
                *root = libm_exact::cbrt(*t);
            }
        }),
    ]);
    row(name, ns);
    assert_eq!(
        differing(&ours, &exact, 1),
        0,
        "{name}: not the exact build's bits"
    );
    differing(&ours, &platform, 1)
}

/// How many groups of so many numbers differ in a bit.
fn differing(ours: &[f64], theirs: &[f64], size: usize) -> usize {
    let other_bits = |(x, y): (&f64, &f64)| x.to_bits() != y.to_bits();
    ours.chunks_exact(size)
        .zip(theirs.chunks_exact(size))
        .filter(|(a, b)| a.iter().zip(*b).any(other_bits))
        .count()
}

/// Searches for the first colours among k of the last.
fn search_rows(k: usize, lab: &[f64]) {
    let targets = &lab[..3 * SEARCHES];
    let storage = &lab[lab.len() - STORAGE..];
    let entries = &storage[..3 * k];
    let expected = color_exact::nearest_index(targets, entries);
    let ways: [(&str, Search); 2] = [
        ("nearest_index", bench_nearest),
        ("without its checks", bench_nearest_in),
    ];
    for (name, call) in ways {
        let mut found = vec![usize::MAX; SEARCHES];
        let ns = timed([
            Side(SEARCHES, &mut || {
                for (p, place) in targets.chunks_exact(3).zip(found.chunks_exact_mut(1)) {
                    search(call, p, storage, k, place);
                }
            }),
            Side(SEARCHES, &mut || {
                for p in targets.chunks_exact(3) {
                    black_box(color_platform::nearest_index(p, entries));
                }
            }),
            Side(SEARCHES, &mut || {
                for p in targets.chunks_exact(3) {
                    black_box(color_exact::nearest_index(p, entries));
                }
            }),
        ]);
        row(&format!("{name}, k {k}, a colour a call"), ns);
        let same = found
            .iter()
            .zip(&expected)
            .all(|(ours, theirs)| *ours as i64 == *theirs);
        assert!(same, "{name}, k {k}: not the Rust's entries");
    }
}
