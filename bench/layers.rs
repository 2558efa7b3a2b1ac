//! Times `flatten` and `repaint`, and prints their rows.
//!
//! Of one layer the Rust is tools.rs's `clip_rgba` of the whole picture, which answers in a new Vec. Of more layers, and of
//! a repaint, the Rust has nothing: beside ours is a plain loop over the same buffers, from the top down until a layer shows
//! something. It looks at no LAB and tests no index; ours makes checks 1 to 3 of every layer in each call.

use crate::calls::{call_flatten, call_repaint};
use crate::sheets::{document_of, Sheet, ENTRIES};
use crate::{colour, timed, Side, STORAGE};
use pixelforge::editor::tools::{clip_rgba, Clip};
use std::hint::black_box;

/// A round makes so many calls that they go over so many pixels of layers.
const PIXELS: usize = 1 << 23;

/// The index of place p of layer i, with 255 entries: in runs of 32, half of them transparent; each place by itself, one in
/// 256 transparent, half, or none.
type Picture = fn(usize, usize) -> i16;
const RUNS: (&str, Picture) = ("runs", |p, i| halved(p / 32, i));
const RANDOM: (&str, Picture) = ("random", |p, i| dealt(p, i) as i16 % 256 - 1);
const HALF: (&str, Picture) = ("half random", halved);
const OPAQUE: (&str, Picture) = ("opaque", |p, i| dealt(p, i) as i16 % 255);

fn dealt(p: usize, i: usize) -> usize {
    let [low, high, _] = colour((p + (i << 20)) as u32);
    usize::from(u16::from_le_bytes([low, high])) % 32_640
}

fn halved(p: usize, i: usize) -> i16 {
    let n = dealt(p, i);
    if n % 2 == 0 {
        -1
    } else {
        (n / 2 % 255) as i16
    }
}

/// Layers as our calls are lent them.
struct Symbol {
    side: usize,
    sizes: Vec<usize>,
    palettes: Vec<u8>,
    labs: Vec<f64>,
    indices: Vec<i16>,
}

impl Symbol {
    fn of(side: usize, count: usize, picture: Picture) -> Symbol {
        let palettes: Vec<u8> = (0..(ENTRIES * count) as u32).flat_map(colour).collect();
        let layer = |i: usize| (0..side * side).map(move |p| picture(p, i));
        Symbol {
            side,
            sizes: [side, side, ENTRIES].repeat(count),
            labs: color_exact::rgb8_to_lab(&palettes),
            palettes,
            indices: (0..count).flat_map(layer).collect(),
        }
    }

    fn count(&self) -> usize {
        self.sizes.len() / 3
    }

    fn pixels(&self) -> usize {
        self.side * self.side
    }

    /// How many bytes were written, or 0 for a refusal.
    fn flatten(&self, out: &mut [u8]) -> usize {
        let mut r = [0; 5];
        call_flatten(
            &self.sizes,
            &self.palettes,
            &self.labs,
            &self.indices,
            out,
            &mut r,
        );
        r[0]
    }

    fn repaint(&self, edited: usize, earlier: &Sheet, out: &mut [u8]) -> usize {
        let mut r = [0; 5];
        call_repaint(
            &self.sizes,
            &self.palettes,
            &self.labs,
            &self.indices,
            edited,
            earlier.side,
            earlier.side,
            earlier.k,
            &earlier.palette,
            &earlier.lab,
            &earlier.indices,
            out,
            &mut r,
        );
        r[0]
    }

    fn layer(&self, i: usize) -> Sheet {
        let (a, b) = (STORAGE * i, self.pixels() * i);
        Sheet {
            side: self.side,
            k: self.sizes[3 * i + 2],
            palette: self.palettes[a..a + STORAGE].to_vec(),
            lab: self.labs[a..a + STORAGE].to_vec(),
            indices: self.indices[b..b + self.pixels()].to_vec(),
            locks: vec![false; STORAGE / 3],
        }
    }

    /// The plain loop's pixel.
    fn top(&self, p: usize) -> [u8; 4] {
        for i in (0..self.count()).rev() {
            if let Some([r, g, b]) = shown(
                &self.palettes[STORAGE * i..],
                self.indices[self.pixels() * i + p],
            ) {
                return [r, g, b, 255];
            }
        }
        [0; 4]
    }

    fn plain_flatten(&self, out: &mut [u8]) {
        for (p, pixel) in out.chunks_exact_mut(4).enumerate() {
            pixel.copy_from_slice(&self.top(p));
        }
    }

    fn plain_repaint(&self, edited: usize, earlier: &Sheet, out: &mut [u8]) {
        let palette = &self.palettes[STORAGE * edited..];
        let indices = &self.indices[self.pixels() * edited..];
        for (p, pixel) in out.chunks_exact_mut(4).enumerate() {
            if shown(palette, indices[p]) != shown(&earlier.palette, earlier.indices[p]) {
                pixel.copy_from_slice(&self.top(p));
            }
        }
    }
}

fn shown(palette: &[u8], index: i16) -> Option<[u8; 3]> {
    let at = 3 * usize::try_from(index).ok()?;
    Some([palette[at], palette[at + 1], palette[at + 2]])
}

/// Two sides on a symbol; each figure is divided by the pixels, and by the layers where they are told.
fn row(name: &str, pixels: usize, layers: usize, ours: &mut dyn FnMut(), theirs: &mut dyn FnMut()) {
    let calls = (PIXELS / (pixels * layers)).max(1);
    let [ours, theirs] = timed([
        Side(calls, &mut || (0..calls).for_each(|_| ours())),
        Side(calls, &mut || (0..calls).for_each(|_| theirs())),
    ]);
    let each = (pixels * layers) as f64;
    println!(
        "| {name:<50} | {ours:>9.0} | {theirs:>9.0} | {:>5.2} | {:>10.3} | {:>10.3} |",
        ours / theirs,
        ours / each,
        theirs / each
    );
}

fn flatten_row(side: usize, count: usize, (name, picture): (&str, Picture)) {
    let symbol = Symbol::of(side, count, picture);
    let n = symbol.pixels();
    let (mut ours, mut theirs) = (vec![1; 4 * n], vec![2; 4 * n]);
    let name = format!("flatten, {side} × {side}, {count} layers, {name}");
    let mut answer = 0;
    row(
        &name,
        n,
        count,
        &mut || answer = symbol.flatten(black_box(&mut ours)),
        &mut || symbol.plain_flatten(black_box(&mut theirs)),
    );
    assert_eq!(answer, 4 * n, "{name}");
    assert!(ours == theirs, "{name}: not the plain loop's pixels");
}

fn one_layer_row(side: usize, (name, picture): (&str, Picture)) {
    let symbol = Symbol::of(side, 1, picture);
    let sheet = symbol.layer(0);
    let document = document_of(&sheet, &sheet);
    let clip = Clip {
        w: side,
        h: side,
        indices: document.indices.indices.clone(),
    };
    let mut ours = vec![1; 4 * symbol.pixels()];
    let name = format!("flatten, {side} × {side}, 1 layer, {name}");
    row(
        &name,
        symbol.pixels(),
        1,
        &mut || {
            symbol.flatten(black_box(&mut ours));
        },
        &mut || {
            black_box(clip_rgba(black_box(&document), black_box(&clip)));
        },
    );
    assert!(
        ours == clip_rgba(&document, &clip),
        "{name}: not the Rust's pixels"
    );
}

/// A repaint after an edit of the layer in the middle. The buffer holds the flattening before the edit at first, and ours the
/// one after it from then on, which a repaint does not look at.
fn repaint_row(name: &str, side: usize, count: usize, edit: fn(&mut Symbol, usize)) {
    let mut symbol = Symbol::of(side, count, RUNS.1);
    let n = symbol.pixels();
    let (edited, mut ours) = (count / 2, vec![0; 4 * n]);
    symbol.flatten(&mut ours);
    let mut theirs = ours.clone();
    let earlier = symbol.layer(edited);
    edit(&mut symbol, edited);
    let name = format!("repaint, {side} × {side}, {count} layers, {name}");
    let mut answer = 0;
    row(
        &name,
        n,
        1,
        &mut || answer = symbol.repaint(edited, black_box(&earlier), &mut ours),
        &mut || symbol.plain_repaint(edited, black_box(&earlier), &mut theirs),
    );
    let mut afresh = vec![3; 4 * n];
    symbol.flatten(&mut afresh);
    assert_eq!(answer, 4 * n, "{name}");
    assert!(
        ours == afresh && theirs == afresh,
        "{name}: not the flattening"
    );
}

fn one_pixel(symbol: &mut Symbol, i: usize) {
    let n = symbol.pixels();
    let index = &mut symbol.indices[n * i + n / 2];
    *index = (*index + 2) % ENTRIES as i16;
}

fn one_entry(symbol: &mut Symbol, i: usize) {
    symbol.palettes[STORAGE * i + 30] ^= 1;
}

/// Entry 10 goes: its pixels take entry 11, and the indices past it go down by one.
fn removal(symbol: &mut Symbol, i: usize) {
    let (n, at) = (symbol.pixels(), STORAGE * i);
    for index in &mut symbol.indices[n * i..n * (i + 1)] {
        *index -= i16::from(*index > 10);
    }
    symbol.palettes.copy_within(at + 33..at + STORAGE, at + 30);
    symbol.labs.copy_within(at + 33..at + STORAGE, at + 30);
    symbol.sizes[3 * i + 2] -= 1;
}

pub fn print() {
    println!("| what                                               |   ours ns |   Rust ns | ratio | ours, each | Rust, each |");
    println!("|----------------------------------------------------|-----------|-----------|-------|------------|------------|");
    for picture in [RUNS, RANDOM, HALF, OPAQUE] {
        one_layer_row(1024, picture);
    }
    for count in [3, 8] {
        for picture in [RUNS, RANDOM, HALF, OPAQUE] {
            flatten_row(1024, count, picture);
        }
    }
    for side in [16, 64, 256] {
        flatten_row(side, 3, RUNS);
    }
    for count in [1, 2, 4, 6] {
        flatten_row(1024, count, RUNS);
    }
    for count in [1, 3, 8] {
        repaint_row("one pixel", 1024, count, one_pixel);
        repaint_row("one entry set", 1024, count, one_entry);
        repaint_row("one entry removed", 1024, count, removal);
    }
    for side in [16, 64, 256] {
        repaint_row("one pixel", side, 3, one_pixel);
    }
    println!();
    println!("Every buffer is the Rust's. Each: of a flattening a pixel and layer, of a repaint a pixel.");
}
