//! Times `spell` and `read_sheet` (change request E10), which have no twin in the Rust, a digit of the line.

use std::time::Instant;

#[link(name = "c_spell", kind = "static")]
extern "C" {
    fn call_spell(
        w: usize,
        h: usize,
        k: usize,
        palette: *const u8,
        palette_len: usize,
        lab: *const f64,
        lab_len: usize,
        indices: *const i16,
        indices_len: usize,
        text: *mut u8,
        text_len: usize,
        r: &mut [usize; 3],
    ) -> u8;
    fn call_read_sheet(
        line: *const u8,
        line_len: usize,
        palette: *mut u8,
        palette_len: usize,
        lab: *mut f64,
        lab_len: usize,
        indices: *mut i16,
        indices_len: usize,
        r: &mut [usize; 3],
    ) -> u8;
}

/// The median of 21 rounds of 200 calls, in nanoseconds a call.
fn median(mut call: impl FnMut()) -> f64 {
    let mut rounds: Vec<f64> = (0..21)
        .map(|_| {
            let start = Instant::now();
            for _ in 0..200 {
                call();
            }
            start.elapsed().as_nanos() as f64 / 200.0
        })
        .collect();
    rounds.sort_by(f64::total_cmp);
    rounds[10]
}

fn main() {
    println!("| | `spell` | a digit | `read_sheet` | a digit |");
    println!("|---|---|---|---|---|");
    for (side, k) in [(8, 2), (64, 16), (64, 255)] {
        let mut palette: Vec<u8> = (0..765).map(|i| (i * 37 % 256) as u8).collect();
        let mut lab = vec![1.5; 765];
        let mut indices: Vec<i16> = (0..side * side)
            .map(|i| (i * 7 % (k + 1)) as i16 - 1)
            .collect();
        let mut text = vec![0; 9_735];
        let mut r = [0; 3];
        let spelt = median(|| {
            let no = unsafe {
                call_spell(
                    side,
                    side,
                    k,
                    palette.as_ptr(),
                    palette.len(),
                    lab.as_ptr(),
                    lab.len(),
                    indices.as_ptr(),
                    indices.len(),
                    text.as_mut_ptr(),
                    text.len(),
                    &mut r,
                )
            };
            assert_eq!(no, 0);
        });
        let digits = r[0] - 1;
        let line = text[..r[0]].to_vec();
        let read = median(|| {
            let no = unsafe {
                call_read_sheet(
                    line.as_ptr(),
                    line.len(),
                    palette.as_mut_ptr(),
                    palette.len(),
                    lab.as_mut_ptr(),
                    lab.len(),
                    indices.as_mut_ptr(),
                    indices.len(),
                    &mut r,
                )
            };
            assert_eq!(no, 0);
        });
        println!(
            "| {side} × {side}, k {k}, {digits} digits | {spelt:.0} | {:.2} | {read:.0} | {:.2} |",
            spelt / digits as f64,
            read / digits as f64
        );
    }
}
