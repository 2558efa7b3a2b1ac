//! Times the calls on a sheet beside document.rs's, and prints their rows.
//!
//! Ours makes checks 1 to 3 in every call, and writes where its caller says; the Rust checks when a document is
//! made, and answers in a new Vec. An index has two bytes in ours and eight in the Rust.

use crate::calls::{
    call_check, call_counts, call_diff_mask, call_linear, call_load_curve, call_new,
};
use crate::{colour, differing, row, timed, Side, STORAGE};
use pixelforge::config::Config;
use pixelforge::editor::{Document, Origin};
use pixelforge::pipeline::IndexImage;
use pixelforge::pyjson::Json;
use std::hint::black_box;

/// A round makes so many calls that they go over so many pixels.
const PIXELS: usize = 1 << 22;
/// A round makes so many calls of `new` or `load_curve`.
const NEWS: usize = 100;
pub const ENTRIES: usize = STORAGE / 3;

/// A square sheet as our calls are lent it.
#[derive(Clone)]
pub struct Sheet {
    pub side: usize,
    pub k: usize,
    pub palette: Vec<u8>,
    pub lab: Vec<f64>,
    pub indices: Vec<i16>,
    pub locks: Vec<bool>,
}

impl Sheet {
    pub fn of(side: usize, k: usize, picture: Picture) -> Sheet {
        let palette: Vec<u8> = (0..ENTRIES as u32).flat_map(colour).collect();
        Sheet {
            side,
            k,
            lab: color_exact::rgb8_to_lab(&palette),
            palette,
            indices: (0..side * side).map(|p| picture(p, side, k)).collect(),
            locks: vec![false; ENTRIES],
        }
    }

    fn check(&self) -> u8 {
        call_check(
            self.side,
            self.side,
            self.k,
            &self.palette,
            &self.lab,
            &self.indices,
        )
    }

    fn new(&mut self) -> u8 {
        call_new(
            self.side,
            self.side,
            self.k,
            &self.palette,
            &mut self.lab,
            &self.indices,
            &mut self.locks,
        )
    }

    /// Loads sRGB's own values as a curve, on a history with no records.
    fn load_curve(&mut self, values: &[f64]) -> u8 {
        call_load_curve(
            self.side,
            self.side,
            &self.palette,
            &mut self.lab,
            &self.indices,
            0,
            &[],
            &[self.k, 0, 0, 0, 0, 0],
            values,
        )
    }

    /// How many counts there are, or 0 for a refusal.
    fn counts(&self, out: &mut [u32]) -> usize {
        let mut r = [0; 5];
        call_counts(
            self.side,
            self.side,
            self.k,
            &self.palette,
            &self.lab,
            &self.indices,
            out,
            &mut r,
        );
        r[0]
    }

    /// How many pixels were compared, or 0 for a refusal.
    fn diff_mask(&self, base: &Sheet, mask: &mut [u8]) -> usize {
        let (side, k, mut r) = (self.side, self.k, [0; 5]);
        let (palette, indices) = (&base.palette, &base.indices);
        call_diff_mask(
            side,
            side,
            k,
            &self.palette,
            &self.lab,
            &self.indices,
            side,
            side,
            k,
            palette,
            indices,
            mask,
            &mut r,
        );
        r[0]
    }
}

/// The document of a sheet, with its k entries for a palette.
pub fn document_of(sheet: &Sheet, base: &Sheet) -> Document {
    let image = |s: &Sheet| IndexImage {
        indices: s.indices.iter().map(|&i| i.into()).collect(),
        h: s.side,
        w: s.side,
    };
    let entries = |s: &Sheet| {
        let colours = s.palette.chunks_exact(3).take(s.k);
        colours.map(|c| [c[0], c[1], c[2]]).collect()
    };
    Document {
        indices: image(sheet),
        palette_lab: sheet.lab[..3 * sheet.k].to_vec(),
        palette: entries(sheet),
        fixed: None,
        origin: Origin::new(Config::default(), String::new(), Json::Null),
        baseline: image(base),
        baseline_palette: entries(base),
    }
}

/// The scan of document.rs's `with_lab`, written out: that one cannot be called from outside, and copies the indices.
pub fn stray(document: &Document) -> Option<&i64> {
    let k = document.palette.len() as i64;
    let mut indices = document.indices.indices.iter();
    indices.find(|&&i| i < -1 || i >= k)
}

/// The index of pixel p in a picture of this side with k entries.
pub type Picture = fn(usize, usize, usize) -> i16;

fn flat(_: usize, _: usize, k: usize) -> i16 {
    k as i16 / 2
}

/// One entry a row.
fn rows(p: usize, side: usize, k: usize) -> i16 {
    (p / side % k) as i16
}

/// The indices from -1 on, each about as often.
pub fn random(p: usize, _: usize, k: usize) -> i16 {
    let [low, high, _] = colour(p as u32);
    (usize::from(u16::from_le_bytes([low, high])) % (k + 1)) as i16 - 1
}

pub fn print() {
    println!("| what                                       | ours ns | Rust ns | ratio | ours a pixel | Rust a pixel |");
    println!("|--------------------------------------------|---------|---------|-------|--------------|--------------|");
    for side in [64, 256, 1024] {
        check_row(side, 255);
        check_row(side, 16);
    }
    for side in [1024, 16] {
        counts_row(side, "flat", flat);
        counts_row(side, "rows", rows);
        counts_row(side, "random", random);
    }
    for side in [1024, 16] {
        diff_row(side, "rows", rows);
        diff_row(side, "random", random);
    }
    println!();
    println!(
        "Every answer is the Rust's. check stands beside with_lab's scan, which looks at no LAB;"
    );
    println!("counts and diff_mask make checks 1 to 3 besides, and the Rust's a new Vec.");
}

fn pixel_row(name: &str, side: usize, ours: &mut dyn FnMut(), theirs: &mut dyn FnMut()) {
    let pixels = side * side;
    let calls = PIXELS / pixels;
    let [ours, theirs] = timed([
        Side(calls, &mut || (0..calls).for_each(|_| ours())),
        Side(calls, &mut || (0..calls).for_each(|_| theirs())),
    ]);
    println!(
        "| {name:<42} | {ours:>7.0} | {theirs:>7.0} | {:>5.2} | {:>12.3} | {:>12.3} |",
        ours / theirs,
        ours / pixels as f64,
        theirs / pixels as f64
    );
}

fn check_row(side: usize, k: usize) {
    let mut sheet = Sheet::of(side, k, random);
    let mut document = document_of(&sheet, &sheet);
    let name = format!("check, {side} × {side}, k {k}");
    pixel_row(
        &name,
        side,
        &mut || {
            black_box(sheet.check());
        },
        &mut || {
            black_box(stray(black_box(&document)));
        },
    );
    assert_eq!((sheet.check(), stray(&document)), (0, None), "{name}");
    // one stray pixel, at a place of each remainder by 16
    for p in (0..side * side).step_by(side - 1) {
        let outside = if p % 2 == 0 { k as i16 } else { -2 };
        let kept = std::mem::replace(&mut sheet.indices[p], outside);
        document.indices.indices[p] = outside.into();
        let answers = (sheet.check(), stray(&document));
        assert_eq!(answers, (2, Some(&outside.into())), "{name}, pixel {p}");
        sheet.indices[p] = kept;
        document.indices.indices[p] = kept.into();
    }
}

fn counts_row(side: usize, picture_name: &str, picture: Picture) {
    let sheet = Sheet::of(side, ENTRIES, picture);
    let document = document_of(&sheet, &sheet);
    let name = format!("counts, {side} × {side}, {picture_name}");
    let (mut counts, mut count) = ([0; ENTRIES], 0);
    pixel_row(
        &name,
        side,
        &mut || count = sheet.counts(&mut counts),
        &mut || {
            black_box(black_box(&document).counts());
        },
    );
    assert_eq!(count, ENTRIES, "{name}");
    assert_eq!(counts.map(|n| n as usize)[..], document.counts(), "{name}");
}

/// One pixel of eight differs from the baseline, and so do those of entry 0, whose colour does.
fn diff_row(side: usize, picture_name: &str, picture: Picture) {
    let mut base = Sheet::of(side, ENTRIES, picture);
    base.palette[..3].copy_from_slice(&colour(ENTRIES as u32));
    let mut sheet = Sheet::of(side, ENTRIES, picture);
    for index in sheet.indices.iter_mut().step_by(8) {
        *index = (*index + 100) % ENTRIES as i16;
    }
    let document = document_of(&sheet, &base);
    let name = format!("diff_mask, {side} × {side}, {picture_name}");
    let (mut mask, mut count) = (vec![2; side * side], 0);
    pixel_row(
        &name,
        side,
        &mut || count = sheet.diff_mask(&base, &mut mask),
        &mut || {
            black_box(black_box(&document).diff_mask());
        },
    );
    assert_eq!(count, side * side, "{name}");
    let theirs: Vec<u8> = document.diff_mask().into_iter().map(u8::from).collect();
    assert!(mask == theirs, "{name}: not the Rust's mask");
}

/// sRGB's values as a maker's own curve: the LAB by them is that of the exact build.
pub fn srgb_curve() -> Vec<f64> {
    (0..=255).map(call_linear).collect()
}

/// Rows of the driver's first table: `new` and `load_curve` on a small sheet.
pub fn opening_rows() {
    let values = srgb_curve();
    opening_row("LAB of 255 a call; ours is new, 8 × 8", |s| s.new());
    opening_row("LAB of 255; ours is load_curve, 8 × 8", |s| {
        s.load_curve(&values)
    });
}

/// A call of ours on all entries beside color.rs's conversion of as many colours in one call.
fn opening_row(name: &str, call: impl Fn(&mut Sheet) -> u8) {
    let mut sheet = Sheet::of(8, ENTRIES, random);
    let colours = sheet.palette.clone();
    let exact = sheet.lab.clone();
    sheet.lab.fill(0.0);
    let mut number = 1;
    let ns = timed([
        Side(NEWS * ENTRIES, &mut || {
            for _ in 0..NEWS {
                number = call(&mut sheet);
            }
        }),
        Side(NEWS * ENTRIES, &mut || {
            for _ in 0..NEWS {
                black_box(color_platform::rgb8_to_lab(black_box(&colours)));
            }
        }),
        Side(NEWS * ENTRIES, &mut || {
            for _ in 0..NEWS {
                black_box(color_exact::rgb8_to_lab(black_box(&colours)));
            }
        }),
    ]);
    row(name, ns);
    assert_eq!(number, 0, "{name}");
    assert_eq!(
        differing(&sheet.lab, &exact, 3),
        0,
        "{name}: not the exact build's bits"
    );
}
