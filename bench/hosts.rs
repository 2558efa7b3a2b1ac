//! Times the calls for C hosts (change request E12) beside the core's calls that they make: push, undo and redo of one
//! edit.

#[allow(dead_code)]
#[path = "../compare/calls.rs"]
mod calls;

use calls::*;
use std::time::Instant;

/// The median of 21 rounds of 200 calls, in nanoseconds a call.
fn median(mut call: impl FnMut()) -> f64 {
    let mut rounds: Vec<f64> = (0..21)
        .map(|_| {
            let start = Instant::now();
            for _ in 0..200 {
                call();
            }
            start.elapsed().as_nanos() as f64 / 200.0
        })
        .collect();
    rounds.sort_by(f64::total_cmp);
    rounds[10]
}

/// The core's sheet, and the same in one buffer.
struct Sheet {
    w: usize,
    h: usize,
    palette: Vec<u8>,
    lab: Vec<f64>,
    indices: Vec<i16>,
    locks: Vec<bool>,
}

impl Sheet {
    fn new(w: usize, h: usize) -> Sheet {
        Sheet {
            w,
            h,
            palette: (0..765).map(|i| (i * 37 % 256) as u8).collect(),
            lab: vec![1.5; 765],
            indices: (0..w * h).map(|i| (i % 3) as i16).collect(),
            locks: vec![false; 255],
        }
    }

    fn flat(&self) -> Vec<u8> {
        let mut to: Vec<u8> = [self.w, self.h, 16]
            .iter()
            .flat_map(|&n| (n as u16).to_le_bytes())
            .collect();
        to.extend(&self.palette);
        to.extend(self.lab.iter().flat_map(|x| x.to_bits().to_le_bytes()));
        to.extend(self.indices.iter().flat_map(|i| i.to_le_bytes()));
        to.extend(self.locks.iter().map(|&m| u8::from(m)));
        to
    }
}

/// Push, undo and redo of one edit by the core, a call each.
fn core(s: &mut Sheet, edit: [u8; 8], list: &[u64]) -> [f64; 3] {
    let (mut journal, mut scratch) = (vec![0; 40_000], vec![0; 4096]);
    let mut at = [16, 0, 0, 0, 0, 0];
    let mut push = |s: &mut Sheet, at: &mut [usize; 6]| {
        let no = call_push(
            s.w,
            s.h,
            &mut s.palette,
            &mut s.lab,
            &mut s.indices,
            &mut s.locks,
            false,
            &[],
            false,
            &[],
            &edit,
            1,
            &[0.0; 3],
            list,
            0,
            &mut journal,
            &mut scratch,
            at,
        );
        assert_eq!(no, 0);
    };
    let pushed = median(|| {
        at = [16, 0, 0, 0, 0, 0];
        push(s, &mut at);
    });
    let mut steps = [Vec::new(), Vec::new()];
    for _ in 0..4200 {
        for (back, times) in [true, false].into_iter().zip(&mut steps) {
            let start = Instant::now();
            let no = if back {
                call_undo(
                    s.w,
                    s.h,
                    &mut s.palette,
                    &mut s.lab,
                    &mut s.indices,
                    &mut s.locks,
                    0,
                    &journal,
                    &mut at,
                )
            } else {
                call_redo(
                    s.w,
                    s.h,
                    &mut s.palette,
                    &mut s.lab,
                    &mut s.indices,
                    &mut s.locks,
                    false,
                    &[],
                    0,
                    &journal,
                    &mut scratch,
                    &mut at,
                )
            };
            times.push(start.elapsed().as_nanos() as f64);
            assert_eq!(no, 0);
        }
    }
    [pushed, middle(&mut steps[0]), middle(&mut steps[1])]
}

/// The same through the calls for C hosts.
fn host(s: &Sheet, edit: [u8; 8], list: &[u8]) -> [f64; 3] {
    let (mut sheet, mut journal, mut handle) = (s.flat(), vec![0; 40_000], vec![0; 40]);
    let pushed = median(|| {
        handle.fill(0);
        let no = match edit[0] {
            1 => wh_push_pixels(&mut sheet, &mut journal, &mut handle, edit[1], list),
            _ => wh_push_set(&mut sheet, &mut journal, &mut handle, 1, 9, 8, 7),
        };
        assert_eq!(no, 0);
    });
    let mut steps = [Vec::new(), Vec::new()];
    for _ in 0..4200 {
        for (back, times) in [true, false].into_iter().zip(&mut steps) {
            let start = Instant::now();
            let no = if back {
                wh_undo(&mut sheet, &journal, &mut handle)
            } else {
                wh_redo(&mut sheet, &journal, &mut handle)
            };
            times.push(start.elapsed().as_nanos() as f64);
            assert_eq!(no, 0);
        }
    }
    [pushed, middle(&mut steps[0]), middle(&mut steps[1])]
}

fn middle(times: &mut [f64]) -> f64 {
    times.sort_by(f64::total_cmp);
    times[times.len() / 2]
}

fn main() {
    println!("| | push, core / for C | undo, core / for C | redo, core / for C |");
    println!("|---|---|---|---|");
    for (w, h) in [(3, 1), (64, 64)] {
        for (name, kind, n) in [
            ("an entry set", 2, 0),
            ("1 change", 1, 1),
            ("4,096 changes", 1, 4096),
        ] {
            let changes: Vec<u64> = (0..n)
                .map(|i: usize| (i % w) as u64 + (((i / w % h) as u64) << 16) + (2 << 48))
                .collect();
            let bytes: Vec<u8> = changes.iter().flat_map(|c| c.to_le_bytes()).collect();
            let edit = [kind, 1, 0, 0, 0, 9, 8, 7];
            let mut s = Sheet::new(w, h);
            let ours = core(&mut s, edit, &changes);
            let theirs = host(&Sheet::new(w, h), edit, &bytes);
            let cell = |i: usize| format!("{:.0} / {:.0}", ours[i], theirs[i]);
            println!(
                "| {w} × {h}, {name} | {} | {} | {} |",
                cell(0),
                cell(1),
                cell(2)
            );
        }
    }
}
