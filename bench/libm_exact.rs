//! A stand-in for the crate `libm` that color.rs names: document 01's rules for pow and cbrt, and the curve of the
//! moment.
//!
//! Both answer the double nearest to an exact value. The platform's function only gives a place to start
//! from: whole numbers decide, and step to the next double until the answer is right.

use std::cell::RefCell;
use std::cmp::Ordering;

thread_local! {
    static CURVE: RefCell<Option<Vec<f64>>> = const { RefCell::new(None) };
}

/// What `rust` answers where a maker's own curve is loaded (document 02, E6), one value a byte, or where none is.
pub fn under<T>(curve: Option<&[f64]>, rust: impl FnOnce() -> T) -> T {
    let before = CURVE.replace(curve.map(<[f64]>::to_vec));
    let answer = rust();
    CURVE.set(before);
    answer
}

/// The loaded curve's value of a byte, given as c/255 in doubles; none where no curve is loaded.
pub fn of_curve(unit: f64) -> Option<f64> {
    CURVE.with_borrow(|curve| {
        let c = (255.0 * unit).round();
        assert!(
            (0.0..=255.0).contains(&c) && c / 255.0 == unit,
            "of_curve: not a byte"
        );
        curve.as_ref().map(|values| values[c as usize])
    })
}

/// x to the 2.4 for the arguments that the sRGB curve has: x is (c/255 + 0.055)/1.055 in doubles, for a byte c
/// from 11 on, and stands for n/10761 with n = 40c + 561. The answer is the double nearest to (n/10761)^(12/5).
pub fn pow(x: f64, y: f64) -> f64 {
    assert_eq!(y, 2.4, "pow: another exponent");
    let c = ((x * 1.055 - 0.055) * 255.0).round();
    assert!(
        (11.0..=255.0).contains(&c) && (c / 255.0 + 0.055) / 1.055 == x,
        "pow: not the argument of a byte"
    );
    let n = 40 * c as u64 + 561;
    let over = Whole::power_12(n);
    let under = Whole::power_12(10761);
    // above the middle h 2^e: its fifth power, times 10761^12, is below n^12
    nearest((n as f64 / 10761.0).powf(2.4), |h, e| {
        let h = Whole::of(h);
        let h2 = h.times(&h);
        let h5 = h2.times(&h2).times(&h);
        exceeds(over, under.times(&h5), 5 * e)
    })
}

/// The double nearest to the cube root of t, a normal double above 0.
pub fn cbrt(t: f64) -> f64 {
    assert!(
        t.is_normal() && t > 0.0,
        "cbrt: not a normal double above 0"
    );
    let (m, e_t) = parts(t.to_bits());
    // above the middle h 2^e: its cube is below t
    nearest(t.cbrt(), |h, e| {
        let h = Whole::of(h);
        exceeds(Whole::of(m), h.times(&h).times(&h), 3 * e - e_t)
    })
}

/// The double nearest to a value above 0, from a guess that is one too. `above(h, e)` tells whether the value
/// lies above h 2^e, which is asked of the middles of neighbouring doubles. No value here is such a middle:
/// h is odd and has 54 digits, so its cube is no double, and its fifth power no fraction n^12 / 10761^12.
fn nearest(guess: f64, above: impl Fn(u64, i32) -> bool) -> f64 {
    // the middle of the double with this pattern, m 2^e, and the next one
    let above_middle = |pattern: u64| {
        let (m, e) = parts(pattern);
        above(2 * m + 1, e - 1)
    };
    let mut pattern = guess.to_bits();
    while above_middle(pattern) {
        pattern += 1;
    }
    while !above_middle(pattern - 1) {
        pattern -= 1;
    }
    f64::from_bits(pattern)
}

/// A normal double above 0 as m 2^e, m of 53 binary digits.
fn parts(pattern: u64) -> (u64, i32) {
    let m = pattern % (1 << 52) + (1 << 52);
    (m, (pattern >> 52) as i32 - 1075)
}

/// Whether a > b 2^e.
fn exceeds(a: Whole, b: Whole, e: i32) -> bool {
    let (a, b) = if e < 0 {
        (a.shifted(e.unsigned_abs()), b)
    } else {
        (a, b.shifted(e as u32))
    };
    a.compare(&b) == Ordering::Greater
}

/// A whole number of up to 512 binary digits: `len` limbs, the lowest first, the highest not 0.
#[derive(Clone, Copy)]
struct Whole {
    limbs: [u64; 8],
    len: usize,
}

impl Whole {
    fn of(n: u64) -> Whole {
        let mut limbs = [0; 8];
        limbs[0] = n;
        Whole { limbs, len: 1 }.trimmed()
    }

    /// n^12, for an n whose fourth power fits a limb.
    fn power_12(n: u64) -> Whole {
        let n4 = Whole::of(n * n * n * n);
        n4.times(&n4).times(&n4)
    }

    fn trimmed(mut self) -> Whole {
        while self.len > 0 && self.limbs[self.len - 1] == 0 {
            self.len -= 1;
        }
        self
    }

    fn times(&self, other: &Whole) -> Whole {
        let len = self.len + other.len;
        assert!(len <= 8, "Whole: past 512 digits");
        let mut limbs = [0; 8];
        for i in 0..self.len {
            let mut carry = 0;
            for j in 0..other.len {
                let sum = u128::from(self.limbs[i]) * u128::from(other.limbs[j])
                    + u128::from(limbs[i + j])
                    + carry;
                limbs[i + j] = sum as u64;
                carry = sum >> 64;
            }
            limbs[i + other.len] = carry as u64;
        }
        Whole { limbs, len }.trimmed()
    }

    /// The number times 2^by.
    fn shifted(&self, by: u32) -> Whole {
        let whole = (by / 64) as usize;
        let len = self.len + whole + 1;
        assert!(len <= 8, "Whole: past 512 digits");
        let mut limbs = [0; 8];
        for i in 0..self.len {
            let wide = u128::from(self.limbs[i]) << (by % 64);
            limbs[i + whole] |= wide as u64;
            limbs[i + whole + 1] = (wide >> 64) as u64;
        }
        Whole { limbs, len }.trimmed()
    }

    fn compare(&self, other: &Whole) -> Ordering {
        self.len.cmp(&other.len).then_with(|| {
            let ours = self.limbs[..self.len].iter().rev();
            ours.cmp(other.limbs[..other.len].iter().rev())
        })
    }
}
