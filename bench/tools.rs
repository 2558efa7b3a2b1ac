//! Times the drawing tools beside tools.rs and op.rs of pixelforge, and prints a table; `bench/run` builds and runs it.
//!
//! Ours is the crates of compare/archives.txt, as `rt lib` compiles them, buffers lent and warm. The Rust as it stands;
//! it answers in a new Vec. Ours makes checks 1 to 3 in every call: the Rust has two figures, the call with `with_lab`'s
//! scan before it, and the call alone. The changes are compared, too; along lines with those of E4's rule.

#[path = "../compare/calls.rs"]
#[allow(dead_code)]
mod calls;
#[path = "../compare/lines.rs"]
#[allow(dead_code)]
mod lines;
mod worst;

use pixelforge::config::Config;
use pixelforge::editor::document::{Document, Origin};
use pixelforge::editor::op::{normalize, PixelChange};
use pixelforge::editor::selection::Selection;
use pixelforge::editor::tools;
use pixelforge::pipeline::IndexImage;
use pixelforge::pyjson::Json;
use std::hint::black_box;
use std::time::Instant;

/// A figure is the least of PASSES medians, each of ROUNDS rounds in which the sides take turns.
const PASSES: usize = 3;
const ROUNDS: usize = 7;
const STORAGE: usize = 765;

struct Sheet {
    side: usize,
    k: usize,
    palette: Vec<u8>,
    lab: Vec<f64>,
    indices: Vec<i16>,
}

impl Sheet {
    fn of(side: usize, k: usize, picture: impl Fn(usize, usize) -> i16) -> Sheet {
        let mut draw = Draw(7);
        let palette: Vec<u8> = (0..STORAGE).map(|_| draw.next() as u8).collect();
        let lab = pixelforge::color::rgb8_to_lab(&palette);
        let indices = (0..side * side).map(|p| picture(p % side, p / side)).collect();
        Sheet { side, k, palette, lab, indices }
    }

    fn document(&self) -> Document {
        let image = || IndexImage {
            indices: self.indices.iter().map(|&i| i.into()).collect(),
            h: self.side,
            w: self.side,
        };
        let palette: Vec<[u8; 3]> =
            self.palette.chunks_exact(3).take(self.k).map(|c| [c[0], c[1], c[2]]).collect();
        Document {
            indices: image(),
            palette_lab: self.lab[..3 * self.k].to_vec(),
            palette: palette.clone(),
            fixed: None,
            origin: Origin::new(Config::default(), String::new(), Json::Null),
            baseline: image(),
            baseline_palette: palette,
        }
    }
}

struct Draw(u64);

impl Draw {
    fn next(&mut self) -> u64 {
        self.0 = self.0.wrapping_mul(6_364_136_223_846_793_005).wrapping_add(1_442_695_040_888_963_407);
        self.0 >> 33
    }

    fn below(&mut self, n: usize) -> usize {
        self.next() as usize % n
    }
}

/// document.rs's scan in `with_lab`, written out: that one cannot be called from outside, and copies the indices.
fn stray(document: &Document) -> Option<&i64> {
    let k = document.palette.len() as i64;
    document.indices.indices.iter().find(|&&i| i < -1 || i >= k)
}

/// Milliseconds of each side.
fn figures(sides: &mut [&mut dyn FnMut()]) -> Vec<f64> {
    let mut least = vec![f64::INFINITY; sides.len()];
    for _ in 0..PASSES {
        let mut times = vec![[0.0; ROUNDS]; sides.len()];
        for round in 0..ROUNDS {
            for (side, times) in sides.iter_mut().zip(&mut times) {
                let start = Instant::now();
                side();
                times[round] = start.elapsed().as_nanos() as f64 / 1e6;
            }
        }
        for (times, least) in times.iter_mut().zip(&mut least) {
            times.sort_by(f64::total_cmp);
            *least = least.min(times[ROUNDS / 2]);
        }
    }
    least
}

fn row(name: &str, sides: &mut [&mut dyn FnMut()]) {
    let f = figures(sides);
    print!("| {name:<58} | {:>9.4} | {:>9.4} | {:>5.2} |", f[0], f[1], f[0] / f[1]);
    match f.get(2) {
        Some(alone) => println!(" {alone:>9.4} | {:>5.2} |", f[0] / alone),
        None => println!("           |       |"),
    }
}

fn packed(c: &PixelChange) -> u64 {
    c.x as u64 | (c.y as u64) << 16 | (c.old as i16 as u16 as u64) << 32 | (c.new as i16 as u16 as u64) << 48
}

fn same(name: &str, out: &[u64], count: usize, rust: &[PixelChange]) {
    let rust: Vec<u64> = rust.iter().map(packed).collect();
    assert!(out[..count] == rust[..], "{name}: the changes differ");
}

type Ours<'a> = &'a mut dyn FnMut(&mut [u64], &mut [u64], &mut [usize; 5]) -> u8;
type Rust<'a> = &'a dyn Fn(&Document) -> Vec<PixelChange>;

/// A tool that returns changes.
fn tool(name: &str, sheet: &Sheet, ours: Ours, rust: Rust) {
    tool_by(name, sheet, ours, rust, rust);
}

/// A tool beside the Rust's, whose changes are those of `expected`.
fn tool_by(name: &str, sheet: &Sheet, ours: Ours, rust: Rust, expected: Rust) {
    let document = sheet.document();
    let places = sheet.side * sheet.side;
    let (mut scratch, mut out, mut r) = (vec![0u64; places], vec![0u64; places], [0usize; 5]);
    row(
        name,
        &mut [
            &mut || assert_eq!(ours(&mut scratch, &mut out, &mut r), 0),
            &mut || {
                assert!(black_box(stray(black_box(&document))).is_none());
                black_box(rust(black_box(&document)));
            },
            &mut || {
                black_box(rust(black_box(&document)));
            },
        ],
    );
    same(name, &out, r[0], &expected(&document));
}

const WHOLE: [u16; 4] = [0; 4];

fn fills() {
    let blank = Sheet::of(1024, 16, |_, _| 3);
    let b = &blank;
    tool(
        "flood_fill, 1,024 × 1,024, blank",
        b,
        &mut |scratch, out, r| {
            calls::call_draw(b.side, b.side, b.k, &b.palette, &b.lab, &b.indices, calls::FLOOD_FILL, true, &WHOLE, &[500, 500], 0, 5, 0, scratch, out, r)
        },
        &|d| tools::flood_fill(d, None, (500, 500), 5),
    );
    let maze = Sheet::of(1024, 16, |x, y| if y % 2 == 1 && x != (y / 2 % 2) * 1023 { 1 } else { 3 });
    let m = &maze;
    tool(
        "flood_fill, 1,024 × 1,024, one winding way",
        m,
        &mut |scratch, out, r| {
            calls::call_draw(m.side, m.side, m.k, &m.palette, &m.lab, &m.indices, calls::FLOOD_FILL, true, &WHOLE, &[0, 0], 0, 5, 0, scratch, out, r)
        },
        &|d| tools::flood_fill(d, None, (0, 0), 5),
    );
    let noise = noise(1024, 16);
    let n = &noise;
    tool(
        "replace_color, 1,024 × 1,024, 16 entries mixed",
        n,
        &mut |scratch, out, r| {
            calls::call_draw(n.side, n.side, n.k, &n.palette, &n.lab, &n.indices, calls::REPLACE_COLOR, true, &WHOLE, &[], 0, 5, 3, scratch, out, r)
        },
        &|d| tools::replace_color(d, None, 3, 5),
    );
}

fn noise(side: usize, k: usize) -> Sheet {
    let mut draw = Draw(3);
    let mut sheet = Sheet::of(side, k, |_, _| 0);
    for index in &mut sheet.indices {
        *index = draw.below(k + 1) as i16 - 1;
    }
    sheet
}

fn strokes() {
    let sheet = noise(1024, 16);
    let s = &sheet;
    let mut draw = Draw(11);
    let (mut x, mut y) = (500i32, 500i32);
    let points: Vec<i32> = (0..1000)
        .flat_map(|_| {
            x = (x + draw.below(41) as i32 - 20).clamp(0, 1023);
            y = (y + draw.below(41) as i32 - 20).clamp(0, 1023);
            [x, y]
        })
        .collect();
    let pairs: Vec<(i64, i64)> = points.chunks_exact(2).map(|p| (p[0].into(), p[1].into())).collect();
    for size in [1, 8] {
        tool_by(
            &format!("pencil of size {size}, 1,000 points, 1,024 × 1,024"),
            s,
            &mut |scratch, out, r| {
                calls::call_draw(s.side, s.side, s.k, &s.palette, &s.lab, &s.indices, calls::PENCIL, true, &WHOLE, &points, size, 5, 0, scratch, out, r)
            },
            &|d| tools::pencil(d, None, &pairs, size, 5),
            &|d| lines::pencil(d, None, &pairs, size, 5),
        );
    }
    tool(
        "rectangle, filled, 1,000 × 1,000 of 1,024 × 1,024",
        s,
        &mut |scratch, out, r| {
            let corners = [10, 10, 1009, 1009];
            calls::call_draw(s.side, s.side, s.k, &s.palette, &s.lab, &s.indices, calls::RECTANGLE, true, &WHOLE, &corners, 1, 5, 0, scratch, out, r)
        },
        &|d| tools::rectangle(d, None, (10, 10), (1009, 1009), true, 5),
    );
    let part = Selection { x: 100, y: 100, w: 512, h: 512 };
    let mut moved = [0u16; 4];
    tool(
        "move_selection, 512 × 512 of 1,024 × 1,024",
        s,
        &mut |scratch, out, r| {
            calls::call_move_selection(s.side, s.side, s.k, &s.palette, &s.lab, &s.indices, &[100, 100, 512, 512], 100, 50, scratch, out, &mut moved, r)
        },
        &|d| tools::move_selection(d, &part, 100, 50).0,
    );
    let clip: Vec<i16> = (0..512 * 512).map(|p| (p % 16) as i16).collect();
    let rust_clip = tools::Clip { w: 512, h: 512, indices: clip.iter().map(|&i| i.into()).collect() };
    let mut placed = [0u16; 4];
    tool(
        "paste of 512 × 512 onto 1,024 × 1,024",
        s,
        &mut |scratch, out, r| {
            calls::call_paste(s.side, s.side, s.k, &s.palette, &s.lab, &s.indices, 512, 512, &clip, 100, 100, scratch, out, &mut placed, r)
        },
        &|d| tools::paste(d, &rust_clip, (100, 100)).0,
    );
}

/// A list of its own: no sheet is looked at.
fn normal() {
    let n = 1 << 20;
    let mut draw = Draw(5);
    for (name, side) in [("mixed places of 1,024 × 1,024", 1024), ("all on 256 places", 16)] {
        let list: Vec<PixelChange> = (0..n)
            .map(|_| PixelChange {
                x: draw.below(side),
                y: draw.below(side),
                old: draw.below(16) as i64,
                new: draw.below(16) as i64,
            })
            .collect();
        let flat: Vec<u64> = list.iter().map(packed).collect();
        let (mut scratch, mut out, mut r) = (vec![0u64; n], vec![0u64; n], [0usize; 5]);
        let name = format!("normalize, 1,048,576 changes, {name}");
        row(
            &name,
            &mut [
                &mut || assert_eq!(calls::call_normalize(&flat, &mut scratch, &mut out, &mut r), 0),
                &mut || {
                    black_box(normalize(black_box(list.clone())));
                },
            ],
        );
        same(&name, &out, r[0], &normalize(list.clone()));
    }
}

fn snap() {
    let sheet = Sheet::of(256, 64, |_, _| 0);
    let s = &sheet;
    let document = s.document();
    let mut draw = Draw(9);
    let few: Vec<[u8; 3]> = (0..16).map(|_| [draw.next() as u8, draw.next() as u8, draw.next() as u8]).collect();
    let pictures: [(&str, Vec<u8>); 3] = [
        ("every pixel its own colour", (0..256 * 256u32).flat_map(|p| [p as u8, (p >> 8) as u8, (p * 7) as u8, 255]).collect()),
        ("16 colours mixed", (0..256 * 256).flat_map(|_| { let c = few[draw.below(16)]; [c[0], c[1], c[2], 255] }).collect()),
        ("16 colours in runs", (0..256 * 256).flat_map(|p| { let c = few[p / 64 % 16]; [c[0], c[1], c[2], 255] }).collect()),
    ];
    for (name, rgba) in pictures {
        let (mut out, mut r) = (vec![0i16; 256 * 256], [0usize; 5]);
        let name = format!("snap_rgba, 256 × 256, 64 entries, {name}");
        row(
            &name,
            &mut [
                &mut || assert_eq!(calls::call_snap_rgba(s.side, s.side, s.k, &s.palette, &s.lab, &s.indices, false, &[], &rgba, 256, 256, &mut out, &mut r), 0),
                &mut || {
                    assert!(black_box(stray(black_box(&document))).is_none());
                    black_box(tools::snap_rgba(black_box(&document), &rgba, 256, 256));
                },
                &mut || {
                    black_box(tools::snap_rgba(black_box(&document), &rgba, 256, 256));
                },
            ],
        );
        let rust = tools::snap_rgba(&document, &rgba, 256, 256).unwrap();
        assert!(out.iter().zip(&rust.indices).filter(|(a, b)| i64::from(**a) != **b).count() == 0, "{name}: differs");
    }
}

/// Sheets that are cut into tiles of 8 or 16: noise, 200 tiles, one tile.
fn tile_sheets() -> [(&'static str, Sheet); 3] {
    let mut draw = Draw(13);
    let few: Vec<i16> = (0..200 * 256).map(|_| draw.below(16) as i16).collect();
    let one = Sheet::of(1024, 16, |x, y| (x % 16 + y % 16) as i16 / 2);
    let mixed = Sheet::of(1024, 16, |x, y| few[(x / 16 * 7 + y / 16 * 13) % 200 * 256 + y % 16 * 16 + x % 16]);
    [("noise", noise(1024, 16)), ("200 tiles", mixed), ("one tile", one)]
}

/// Unique tiles and their map, at tolerance 0.
fn tiles() {
    use pixelforge::tiles::{extract, TileConfig};
    for (name, sheet) in tile_sheets() {
        let (s, document) = (&sheet, sheet.document());
        for t in [8, 16] {
            let (mut out, mut map) = (vec![0i16; 1 << 20], vec![0u32; 3 * (1 << 20) / (t * t)]);
            let (mut scratch, mut r) = (vec![0u64; 1 << 20], [0usize; 5]);
            let config = TileConfig { tile_size: t as i64, tile_dedupe_tolerance: 0.0, tileset_columns: 0 };
            let rust = |d: &Document| extract(&d.indices.indices, 1024, 1024, &d.palette_lab, &config).unwrap();
            row(
                &format!("extract, 1,024 × 1,024, t = {t}, {name}"),
                &mut [
                    &mut || assert_eq!(calls::call_extract(s.side, s.side, s.k, &s.palette, &s.lab, &s.indices, t, &mut out, &mut map, &mut scratch, &mut r), 0),
                    &mut || {
                        assert!(black_box(stray(black_box(&document))).is_none());
                        black_box(rust(black_box(&document)));
                    },
                    &mut || {
                        black_box(rust(black_box(&document)));
                    },
                ],
            );
            let made = rust(&document);
            assert!(r[..2] == [made.n_tiles, made.tilemap.tiles.len()]);
            assert!(made.tiles.iter().zip(&out).all(|(a, b)| *a == i64::from(*b)));
            assert!(made.tilemap.tiles.iter().flatten().zip(&map).all(|(a, b)| *a == i64::from(*b)));
        }
    }
}

fn main() {
    if std::env::args().nth(1).as_deref() == Some("worst") {
        return worst::print();
    }
    println!("| what                                                       |   ours ms | scan+call | ratio |      call | ratio |");
    println!("|------------------------------------------------------------|-----------|-----------|-------|-----------|-------|");
    fills();
    strokes();
    normal();
    snap();
    tiles();
}
