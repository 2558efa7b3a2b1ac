//! A stand-in for the crate `libm` that color.rs names: a platform's pow and cbrt, by way of std.
//!
//! With rustc 1.95 on Linux pow is the C library's, and cbrt is linked from `libm` itself, out of the compiler's
//! own support library; it rounds exactly.

pub fn pow(x: f64, y: f64) -> f64 {
    x.powf(y)
}

pub fn cbrt(t: f64) -> f64 {
    t.cbrt()
}
