//! Compares `rgb8_to_lab`, and `rgb8_to_lab_by` under two curves, with the Rust original on every colour there is;
//! `compare/run FOLDER colours` builds and runs it.
//!
//! Ours is crates/c_exports, which calls `color::rgb8_to_lab` colour by colour, and crates/c_curve, as `rt lib`
//! compiles them.

#[allow(dead_code)]
mod curve;
#[allow(dead_code)]
mod draw;

use std::thread;

#[link(name = "c_exports", kind = "static")]
extern "C" {
    fn bench_lab(rgb: *const u8, bytes: usize, lab: *mut f64, doubles: usize);
}

#[link(name = "c_curve", kind = "static")]
extern "C" {
    fn call_rgb8_to_lab_by(
        loaded: bool,
        curve: *const f64,
        values: usize,
        rgb: *const u8,
        lab: *mut f64,
    ) -> u8;
}

/// The 65,536 colours of one red.
fn colours(red: u8) -> Vec<u8> {
    (0..=u16::MAX)
        .flat_map(|rest| [red, (rest >> 8) as u8, rest as u8])
        .collect()
}

/// The LAB numbers of some colours, a call a colour. Each pointer goes with its own slice's length, or points to three.
fn ours(curve: Option<&[f64]>, rgb: &[u8]) -> Vec<f64> {
    let mut lab = vec![0.0; rgb.len()];
    let Some(values) = curve else {
        unsafe { bench_lab(rgb.as_ptr(), rgb.len(), lab.as_mut_ptr(), lab.len()) }
        return lab;
    };
    for (rgb, lab) in rgb.chunks_exact(3).zip(lab.chunks_exact_mut(3)) {
        let (rgb, lab) = (rgb.as_ptr(), lab.as_mut_ptr());
        let no = unsafe { call_rgb8_to_lab_by(true, values.as_ptr(), values.len(), rgb, lab) };
        assert_eq!(no, 0, "a curve");
    }
    lab
}

/// How many of the colours of one red have other bits than in the Rust.
fn differing(curve: Option<&[f64]>, red: u8) -> usize {
    let rgb = colours(red);
    let expected = libm_exact::under(curve, || color_exact::rgb8_to_lab(&rgb));
    let pairs = ours(curve, &rgb)
        .into_iter()
        .zip(expected)
        .collect::<Vec<_>>();
    pairs
        .chunks(3)
        .filter(|lab| lab.iter().any(|(a, b)| a.to_bits() != b.to_bits()))
        .count()
}

/// The same of all colours.
fn differing_in_all(curve: Option<&[f64]>) -> usize {
    let half = |reds: std::ops::RangeInclusive<u8>| -> usize {
        reds.map(|red| differing(curve, red)).sum()
    };
    thread::scope(|s| {
        let [a, b] = [0..=127, 128..=255].map(|reds| s.spawn(move || half(reds)));
        a.join().unwrap() + b.join().unwrap()
    })
}

fn main() {
    let mut all = 0;
    let (gamma, any) = (curve::gamma(2.2), curve::any_fit(&mut draw::Draw::new(71)));
    for (name, curve) in [
        ("`rgb8_to_lab`", None),
        ("`rgb8_to_lab_by`, gamma 2.2", Some(&gamma[..])),
        ("`rgb8_to_lab_by`, any curve", Some(&any)),
    ] {
        let found = differing_in_all(curve);
        println!(
            "{name}: {} colours, {found} with other bits than the Rust's.",
            1 << 24
        );
        all += found;
    }
    if all != 0 {
        std::process::exit(1);
    }
}
