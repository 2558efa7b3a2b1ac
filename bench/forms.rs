//! Times `convert` (change request E9) beside a copy of the same bytes, and prints how long the records of typical
//! strokes are in either form. The Rust has no such call.

use crate::calls::{call_convert, call_draw, call_remove_entry, FLOOD_FILL, LINE, PENCIL};
use crate::moves::{
    often, removal, scattered, set, Edit, Flat, Ours, Side as _, State, COORDINATES, OFTEN, PLACES,
};
use crate::sheets::{random, Sheet, ENTRIES};
use crate::{timed, Side};
use std::hint::black_box;

/// A round goes over so many bytes.
const BYTES: usize = 1 << 23;

pub fn print() {
    println!("| convert                                    | bytes   | to places, ns a byte | a copy | bytes   | to coordinates, ns a byte | a copy |");
    println!("|--------------------------------------------|---------|----------------------|--------|---------|---------------------------|--------|");
    let strokes: Vec<Edit> = (0..100).map(|turn| scattered(64, 64, 16, turn)).collect();
    row(
        "100 of 64 changes, 64 × 64",
        Sheet::of(64, 16, random),
        &strokes,
    );
    let sets: Vec<Edit> = (0..100).map(|turn| set(turn, 16)).collect();
    row("100 sets, 64 × 64", Sheet::of(64, 16, random), &sets);
    let sheet = Sheet::of(256, ENTRIES, often);
    let removals = [removal(&sheet, OFTEN as usize)];
    row("removal, 8,192 of 256 × 256", sheet, &removals);
    let all = [scattered(1 << 20, 1024, 16, 1)];
    row(
        "1,048,576 changes, 1,024 × 1,024",
        Sheet::of(1024, 16, random),
        &all,
    );
    println!();
    println!("Bytes of what is given. There and back restores every byte of it, and the handle.");
    println!();
    lengths();
}

/// A history in coordinates, all its edits pushed.
fn pushed(sheet: Sheet, edits: Vec<Flat>) -> Ours {
    let mut ours = Ours::of(sheet, COORDINATES, None, edits);
    ours.push();
    assert_eq!(ours.refused, 0, "a push");
    ours
}

fn convert(side: usize, from: u8, journal: &[u8], state: State, out: &mut [u8]) -> State {
    let mut after = state;
    let no = call_convert(side, side, from, journal, out, &mut after);
    assert_eq!(no, 0, "a conversion");
    after
}

fn row(name: &str, sheet: Sheet, edits: &[Edit]) {
    let side = sheet.side;
    let ours = pushed(sheet, edits.iter().map(Edit::flat).collect());
    let given = &ours.journal[..ours.state[2]];
    let mut out = vec![0; given.len()];
    let state = convert(side, COORDINATES, given, ours.state, &mut out);
    let placed = out[..state[2]].to_vec();
    let mut back = vec![0; given.len()];
    let again = convert(side, PLACES, &placed, state, &mut back);
    assert!(
        again == ours.state && back == given,
        "{name}: there and back"
    );
    let [there, copy] = figures(side, COORDINATES, given, ours.state);
    let [back, copy_back] = figures(side, PLACES, &placed, state);
    println!(
        "| {name:<42} | {:>7} | {there:>20.2} | {copy:>6.2} | {:>7} | {back:>25.2} | {copy_back:>6.2} |",
        given.len(),
        placed.len()
    );
}

/// The nanoseconds a byte of a conversion, and of a copy.
fn figures(side: usize, from: u8, journal: &[u8], state: State) -> [f64; 2] {
    let rounds = (BYTES / journal.len()).max(1);
    let count = rounds * journal.len();
    // the old form is the longer
    let mut out = vec![0; 2 * journal.len()];
    let mut copy = vec![0; journal.len()];
    timed([
        Side(count, &mut || {
            for _ in 0..rounds {
                black_box(convert(side, from, black_box(journal), state, &mut out));
            }
        }),
        Side(count, &mut || {
            for _ in 0..rounds {
                copy.copy_from_slice(black_box(journal));
                black_box(&copy);
            }
        }),
    ])
}

/// The list of a tool on a blank sheet.
fn drawn(sheet: &Sheet, tool: u8, points: &[i32], size: usize) -> Flat {
    let n = sheet.indices.len();
    let (mut scratch, mut out, mut r) = (vec![0; n], vec![0; n], [0; 5]);
    let no = call_draw(
        sheet.side,
        sheet.side,
        sheet.k,
        &sheet.palette,
        &sheet.lab,
        &sheet.indices,
        tool,
        true,
        &[0; 4],
        points,
        size,
        5,
        0,
        &mut scratch,
        &mut out,
        &mut r,
    );
    assert_eq!(no, 0, "a tool");
    ([1, tool, 0, 0, 0, 0, 0, 0], 0, out[..r[0]].to_vec())
}

fn removed(sheet: &Sheet, index: usize) -> Flat {
    let (mut list, mut bytes, mut doubles) = (vec![0; sheet.indices.len()], [0; 8], [0.0; 3]);
    let (mut r, mut away) = ([0; 5], [0.0]);
    let no = call_remove_entry(
        sheet.side,
        sheet.side,
        sheet.k,
        &sheet.palette,
        &sheet.lab,
        &sheet.indices,
        &sheet.locks,
        index,
        &mut list,
        &mut bytes,
        &mut doubles,
        &mut r,
        &mut away,
    );
    assert_eq!(no, 0, "a removal");
    (bytes, r[0], list[..r[1]].to_vec())
}

/// A drag along a wave, from the one side to the other.
fn wave(side: i32) -> Vec<i32> {
    let row = |x: i32| side / 2 + ((f64::from(x) / 6.0).sin() * f64::from(side / 4)) as i32;
    (0..side).step_by(3).flat_map(|x| [x, row(x)]).collect()
}

/// The bytes of one edit's record in either form.
fn lengths() {
    println!("| what                                       | changes | in coordinates | in places | shorter by |");
    println!("|--------------------------------------------|---------|----------------|-----------|------------|");
    let (blank, mixed) = (Sheet::of(64, 16, |_, _, _| 0), Sheet::of(64, 16, random));
    let line = [3, 7, 60, 41];
    for (name, sheet, edit) in [
        (
            "pencil of size 1, a dot",
            &blank,
            drawn(&blank, PENCIL, &[9, 9], 1),
        ),
        (
            "pencil of size 1, a wave",
            &blank,
            drawn(&blank, PENCIL, &wave(64), 1),
        ),
        (
            "pencil of size 4, a wave",
            &blank,
            drawn(&blank, PENCIL, &wave(64), 4),
        ),
        ("line of size 1", &blank, drawn(&blank, LINE, &line, 1)),
        (
            "flood_fill of a blank sheet",
            &blank,
            drawn(&blank, FLOOD_FILL, &[9, 9], 0),
        ),
        ("remove_entry, 16 entries mixed", &mixed, removed(&mixed, 3)),
        ("remove_entry, no pixel on it", &blank, removed(&blank, 3)),
    ] {
        let changes = edit.2.len();
        let [old, new] = [COORDINATES, PLACES].map(|form| {
            let mut ours = Ours::of(sheet.clone(), form, None, vec![edit.clone()]);
            ours.push();
            assert_eq!(ours.refused, 0, "{name}");
            ours.state[2]
        });
        println!(
            "| {:<42} | {changes:>7} | {old:>14} | {new:>9} | {:>8.1} % |",
            format!("{name}, 64 × 64"),
            100.0 * (old - new) as f64 / old as f64
        );
    }
}
