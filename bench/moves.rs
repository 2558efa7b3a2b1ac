//! Times push, undo and redo, in both forms of a journal (change request E9), beside history.rs's, and prints their rows.
//!
//! Ours is lent a sheet, which it checks in every call, and a journal; the Rust checks when a document is made, and
//! keeps its edits in a Vec. So the Rust has two figures: the call alone, and the call with `with_lab`'s scan before it.

use crate::calls::{call_push, call_redo, call_undo};
use crate::figures;
use crate::sheets::{document_of, random, srgb_curve, stray, Sheet, ENTRIES};
use crate::{colour, differing};
use pixelforge::editor::{Document, History, Op, PixelChange};
use std::hint::black_box;
use std::time::Instant;

/// Pixels, the removal of an entry with its remap, or a set of one.
#[derive(Clone, Copy)]
enum Kind {
    Pixels,
    Removal(usize),
    Set(usize, [u8; 3]),
}

#[derive(Clone)]
pub struct Edit {
    kind: Kind,
    changes: Vec<PixelChange>,
}

impl Edit {
    fn op(&self) -> Op {
        let changes = self.changes.clone();
        match self.kind {
            Kind::Pixels => Op::Pixels {
                tool: String::new(),
                changes,
            },
            Kind::Removal(index) => Op::PaletteRemove {
                index,
                rgb: [0; 3],
                lab: [0.0; 3],
                remap: changes,
            },
            Kind::Set(index, new) => Op::PaletteSet {
                index,
                old: [0; 3],
                new,
                old_lab: [0.0; 3],
            },
        }
    }

    /// As ours is lent it.
    pub fn flat(&self) -> Flat {
        let (kind, index, [r, g, b]) = match self.kind {
            Kind::Pixels => (1, 0, [0; 3]),
            Kind::Removal(index) => (4, index, [0; 3]),
            Kind::Set(index, rgb) => (2, index, rgb),
        };
        ([kind, 0, 0, 0, 0, r, g, b], index, self.list())
    }

    /// Two bytes each for x, y, old and new.
    fn list(&self) -> Vec<u64> {
        let field = |z: i64| u64::from(z as u16);
        let packed = |c: &PixelChange| {
            c.x as u64 + ((c.y as u64) << 16) + (field(c.old) << 32) + (field(c.new) << 48)
        };
        self.changes.iter().map(packed).collect()
    }
}

/// One side of a row: a history of some edits.
pub trait Side {
    /// Takes back what is done, and starts a history anew.
    fn restart(&mut self);
    fn push(&mut self);
    fn undo(&mut self);
    fn redo(&mut self);
}

/// The palette count, and the handle's five numbers.
pub type State = [usize; 6];

/// An edit's kind and colours, its entry, and its list.
pub type Flat = ([u8; 8], usize, Vec<u64>);

/// The forms of a journal, as our calls are told them.
pub const COORDINATES: u8 = 0;
pub const PLACES: u8 = 1;

pub struct Ours {
    pub sheet: Sheet,
    pub form: u8,
    /// The curve that is loaded, or none.
    curve: Option<Vec<f64>>,
    edits: Vec<Flat>,
    pub journal: Vec<u8>,
    scratch: Vec<u8>,
    pub state: State,
    pub refused: usize,
}

impl Ours {
    pub fn of(sheet: Sheet, form: u8, curve: Option<Vec<f64>>, edits: Vec<Flat>) -> Ours {
        let size = edits.iter().map(|(_, _, list)| 37 + 8 * list.len()).sum();
        Ours {
            state: [sheet.k, 0, 0, 0, 0, 0],
            edits,
            form,
            curve,
            journal: vec![0; size],
            scratch: vec![0; sheet.indices.len()],
            sheet,
            refused: 0,
        }
    }

    fn back(&mut self) -> u8 {
        let s = &mut self.sheet;
        call_undo(
            s.side,
            s.side,
            &mut s.palette,
            &mut s.lab,
            &mut s.indices,
            &mut s.locks,
            self.form,
            &self.journal,
            &mut self.state,
        )
    }

    fn forth(&mut self) -> u8 {
        let s = &mut self.sheet;
        let (journal, scratch) = (&self.journal, &mut self.scratch);
        call_redo(
            s.side,
            s.side,
            &mut s.palette,
            &mut s.lab,
            &mut s.indices,
            &mut s.locks,
            self.curve.is_some(),
            self.curve.as_deref().unwrap_or(&[]),
            self.form,
            journal,
            scratch,
            &mut self.state,
        )
    }

    fn pushed(&mut self, i: usize) -> u8 {
        let s = &mut self.sheet;
        let (bytes, index, list) = &self.edits[i];
        call_push(
            s.side,
            s.side,
            &mut s.palette,
            &mut s.lab,
            &mut s.indices,
            &mut s.locks,
            false,
            &[],
            self.curve.is_some(),
            self.curve.as_deref().unwrap_or(&[]),
            bytes,
            *index,
            &[0.0; 3],
            list,
            self.form,
            &mut self.journal,
            &mut self.scratch,
            &mut self.state,
        )
    }
}

impl Side for Ours {
    fn restart(&mut self) {
        while self.back() == 0 {}
        self.state = [self.state[0], 0, 0, 0, 0, 0];
    }

    fn push(&mut self) {
        for i in 0..self.edits.len() {
            self.refused += usize::from(self.pushed(i) != 0);
        }
    }

    fn undo(&mut self) {
        for _ in 0..self.edits.len() {
            self.refused += usize::from(self.back() != 0);
        }
    }

    fn redo(&mut self) {
        for _ in 0..self.edits.len() {
            self.refused += usize::from(self.forth() != 0);
        }
    }
}

struct Theirs {
    document: Document,
    edits: Vec<Edit>,
    /// The edits as `push` takes them: by value.
    ops: Vec<Op>,
    history: History,
    scans: bool,
    refused: usize,
}

impl Theirs {
    fn of(sheet: &Sheet, edits: &[Edit], scans: bool) -> Theirs {
        Theirs {
            document: document_of(sheet, sheet),
            edits: edits.to_vec(),
            ops: Vec::new(),
            history: History::new(),
            scans,
            refused: 0,
        }
    }

    fn scan(&mut self) {
        if self.scans {
            self.refused += usize::from(stray(black_box(&self.document)).is_some());
        }
    }
}

impl Side for Theirs {
    fn restart(&mut self) {
        while self.history.undo(&mut self.document) {}
        self.history = History::new();
        self.ops = self.edits.iter().rev().map(Edit::op).collect();
    }

    fn push(&mut self) {
        while let Some(op) = self.ops.pop() {
            self.scan();
            let done = self.history.push(&mut self.document, op);
            self.refused += usize::from(done != Ok(true));
        }
    }

    fn undo(&mut self) {
        for _ in 0..self.edits.len() {
            self.scan();
            self.refused += usize::from(!self.history.undo(&mut self.document));
        }
    }

    fn redo(&mut self) {
        for _ in 0..self.edits.len() {
            self.scan();
            self.refused += usize::from(!self.history.redo(&mut self.document));
        }
    }
}

/// The steps of a round, in order.
type Step = fn(&mut dyn Side);
const STEPS: [(&str, Step); 3] = [
    ("push", |side| side.push()),
    ("undo", |side| side.undo()),
    ("redo", |side| side.redo()),
];

pub fn print() {
    println!("| what                                       | ours ns | in places ns | ratio | Rust ns | ratio | with scan ns | ratio |");
    println!("|--------------------------------------------|---------|--------------|-------|---------|-------|--------------|-------|");
    for k in [ENTRIES, 16] {
        let edits: Vec<Edit> = (0..100).map(|turn| scattered(64, 64, k, turn)).collect();
        rows(
            &format!("64 changes, 64 × 64, k {k}"),
            Sheet::of(64, k, random),
            None,
            &edits,
        );
    }
    let edits: Vec<Edit> = (0..100).map(|turn| set(turn, 16)).collect();
    for (name, curve) in [("", None), (", a curve loaded", Some(srgb_curve()))] {
        rows(
            &format!("set, 64 × 64, k 16{name}"),
            Sheet::of(64, 16, random),
            curve,
            &edits,
        );
    }
    let sheet = Sheet::of(256, ENTRIES, often);
    let edits = [removal(&sheet, OFTEN as usize)];
    rows("removal, 8,192 of 256 × 256", sheet, None, &edits);
    let edits: Vec<Edit> = (0..4)
        .map(|turn| scattered(1, 1024, ENTRIES, turn))
        .collect();
    rows(
        "one change, 1024 × 1024",
        Sheet::of(1024, ENTRIES, random),
        None,
        &edits,
    );
    println!();
    println!("Pictures, palettes and LAB are the Rust's after every step, LAB that a set works out the exact build's. Ours makes");
    println!("checks 1 to 4 in every call, and 25 where a curve is loaded (the Rust has none); the Rust has made with_lab's when");
    println!("the document was made, and makes none at undo and redo. In places: with E9's records; its ratio is to ours.");
}

/// So many pixels of a square sheet set, each turn to another entry.
pub fn scattered(count: usize, side: usize, k: usize, turn: usize) -> Edit {
    let change = |i: usize| {
        let p = i * 61 % (side * side);
        PixelChange {
            x: p % side,
            y: p / side,
            old: 0,
            new: ((i + turn) % k) as i64,
        }
    };
    Edit {
        kind: Kind::Pixels,
        changes: (0..count).map(change).collect(),
    }
}

/// One of the entries set, each turn to another colour.
pub fn set(turn: usize, k: usize) -> Edit {
    Edit {
        kind: Kind::Set(turn % k, colour(1000 + turn as u32)),
        changes: Vec::new(),
    }
}

/// The entry that is on every eighth pixel.
pub const OFTEN: i16 = 100;

pub fn often(p: usize, side: usize, k: usize) -> i16 {
    match random(p, side, k) {
        _ if (p + p / side) % 8 == 0 => OFTEN,
        OFTEN => OFTEN + 1,
        other => other,
    }
}

/// The removal of an entry, its pixels moved to the next one.
pub fn removal(sheet: &Sheet, index: usize) -> Edit {
    let used = (0..sheet.indices.len()).filter(|&p| sheet.indices[p] as usize == index);
    let change = |p: usize| PixelChange {
        x: p % sheet.side,
        y: p / sheet.side,
        old: index as i64,
        new: index as i64 + 1,
    };
    Edit {
        kind: Kind::Removal(index),
        changes: used.map(change).collect(),
    }
}

fn rows(name: &str, sheet: Sheet, curve: Option<Vec<f64>>, edits: &[Edit]) {
    let mut alone = Theirs::of(&sheet, edits, false);
    let mut scanned = Theirs::of(&sheet, edits, true);
    let [mut ours, mut placed] = [COORDINATES, PLACES].map(|form| {
        let edits = edits.iter().map(Edit::flat).collect();
        Ours::of(sheet.clone(), form, curve.clone(), edits)
    });
    for (timed, (step_name, _)) in STEPS.iter().enumerate() {
        let [ours, placed, alone, scanned] = figures(|side| {
            let side: &mut dyn Side = match side {
                0 => &mut ours,
                1 => &mut placed,
                2 => &mut alone,
                _ => &mut scanned,
            };
            round(side, timed, edits.len())
        });
        println!(
            "| {:<42} | {ours:>7.0} | {placed:>12.0} | {:>5.2} | {alone:>7.0} | {:>5.2} | {scanned:>12.0} | {:>5.2} |",
            format!("{step_name}: {name}"),
            placed / ours,
            ours / alone,
            ours / scanned
        );
    }
    ours.restart();
    placed.restart();
    alone.restart();
    for (step_name, step) in STEPS {
        step(&mut ours);
        step(&mut placed);
        step(&mut alone);
        for ours in [&ours, &placed] {
            assert!(
                same(ours, &alone),
                "{step_name}: {name}: not the Rust's sheet"
            );
        }
    }
    assert_eq!(
        [ours.refused, placed.refused, alone.refused, scanned.refused],
        [0; 4],
        "{name}"
    );
}

/// The nanoseconds that one of the steps takes for one call.
fn round(side: &mut dyn Side, timed: usize, calls: usize) -> f64 {
    side.restart();
    let mut ns = 0.0;
    for (i, (_, step)) in STEPS.iter().enumerate() {
        let start = Instant::now();
        step(side);
        if i == timed {
            ns = start.elapsed().as_nanos() as f64 / calls as f64;
        }
    }
    ns
}

/// Whether both have the same sheet, LAB bit for bit. The LAB of an entry that was set is the exact build's; the
/// document has the platform build's.
fn same(ours: &Ours, theirs: &Theirs) -> bool {
    let (sheet, document) = (&ours.sheet, &theirs.document);
    let n = 3 * ours.state[0];
    let indices = sheet.indices.iter().map(|&i| i64::from(i));
    let set = |e: &Edit| matches!(e.kind, Kind::Set(..));
    let lab = if theirs.edits.iter().any(set) {
        color_exact::rgb8_to_lab(&sheet.palette[..n])
    } else {
        document.palette_lab.clone()
    };
    indices.eq(document.indices.indices.iter().copied())
        && sheet.palette[..n] == document.palette.concat()
        && differing(&sheet.lab[..n], &lab, 1) == 0
}
