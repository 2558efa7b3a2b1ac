//! Times `journal_need` (change request E11), which has no twin in the Rust: whole sessions, and a frame of them.

#[path = "../compare/calls.rs"]
#[allow(dead_code)]
mod calls;

use calls::call_journal_need;
use std::time::Instant;

const FORMS: [u8; 2] = [0, 1];

/// A stroke of 24 changes from somewhere on, in a colour of its own.
fn stroke(side: usize, turn: usize) -> String {
    let (x, y) = (turn * 37 % side, turn * 11 % side);
    let change = |i: usize| {
        let (x, y) = ((x + i) % side, (y + i / 3) % side);
        let [a, b] = (x as u16).to_le_bytes();
        let [c, d] = (y as u16).to_le_bytes();
        format!("{a:02X}{b:02X}{c:02X}{d:02X}{:02X}00", turn % 16)
    };
    let changes: String = (0..24).map(change).collect();
    format!("0101{changes}\n")
}

/// Of ten frames eight are strokes, one of which is undone and a new one written over it, and one sets a colour.
fn session(side: usize, frames: usize) -> String {
    let frame = |turn: usize| match turn % 10 {
        7 => "05\n".to_string(),
        9 => format!("02{:02X}{:02X}4080\n", turn % 16, turn % 256),
        _ => stroke(side, turn),
    };
    (0..frames).map(frame).collect()
}

/// The median of seven calls, in nanoseconds, and the need.
fn timed(side: usize, form: u8, text: &str) -> (f64, usize) {
    let n = side * side;
    let palette: Vec<u8> = (0..765).map(|i| (i * 37 % 256) as u8).collect();
    let (lab, indices, locks) = (vec![1.5; 765], vec![0i16; n], vec![false; 255]);
    let (mut work_palette, mut work_lab) = (palette.clone(), lab.clone());
    let (mut work_indices, mut work_locks) = (indices.clone(), locks.clone());
    let mut journal = vec![0; 1 << 24];
    let (mut list, mut scratch, mut r) = (vec![0; n], vec![0; n], [0; 2]);
    let mut rounds: Vec<f64> = (0..7)
        .map(|_| {
            let start = Instant::now();
            let no = call_journal_need(
                side,
                side,
                16,
                &palette,
                &lab,
                &indices,
                &locks,
                text.as_bytes(),
                side,
                side,
                &mut work_palette,
                &mut work_lab,
                &mut work_indices,
                &mut work_locks,
                form,
                &mut journal,
                &mut list,
                &mut scratch,
                &mut r,
            );
            assert_eq!(no, 0);
            start.elapsed().as_nanos() as f64
        })
        .collect();
    rounds.sort_by(f64::total_cmp);
    (rounds[3], r[0])
}

fn main() {
    println!("| `journal_need`: sheet, frames | text, bytes | need in coordinates, in places | ms | µs a frame |");
    println!("|---|---:|---:|---:|---:|");
    for (side, frames) in [
        (64, 1_000),
        (64, 10_000),
        (64, 20_000),
        (32, 10_000),
        (128, 10_000),
        (256, 10_000),
    ] {
        let text = session(side, frames);
        let [(ns, old), (_, new)] = FORMS.map(|form| timed(side, form, &text));
        println!(
            "| {side} × {side}, {frames} | {} | {old}, {new} | {:.1} | {:.2} |",
            text.len(),
            ns / 1e6,
            ns / 1e3 / frames as f64
        );
    }
}
