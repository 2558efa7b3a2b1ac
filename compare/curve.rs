//! A maker's own curve as our calls are lent it, document 02, E6: when it is one, what the Rust answers under it, and
//! curves to compare over.

use crate::draw::Draw;
use std::cell::Cell;
use std::rc::Rc;

/// The values of a curve: one a byte.
pub const VALUES: usize = 256;

/// "256 doubles: the first 0, the last 1, each greater than the one before".
pub fn fits(values: &[f64]) -> bool {
    values.len() == VALUES
        && values[0] == 0.0
        && values[VALUES - 1] == 1.0
        && values.windows(2).all(|two| two[1] > two[0])
}

/// A session's curve. Not loaded it is sRGB's, whatever the values are.
#[derive(Clone)]
pub struct Curve {
    pub loaded: bool,
    pub values: Rc<[f64]>,
}

thread_local! {
    /// Handed beside sRGB's in turns: nothing, no curve, a curve.
    static BESIDE: (Cell<usize>, [Rc<[f64]>; 3]) = {
        let mut unfit = gamma(1.8);
        unfit[7] = f64::NAN;
        (Cell::new(0), [[].into(), unfit.into(), gamma(1.8).into()])
    };
}

impl Curve {
    pub fn of(values: Vec<f64>) -> Curve {
        Curve {
            loaded: true,
            values: values.into(),
        }
    }

    /// sRGB's, with values that must not be looked at.
    pub fn none() -> Curve {
        BESIDE.with(|(turn, beside)| {
            turn.set((turn.get() + 1) % beside.len());
            Curve {
                loaded: false,
                values: beside[turn.get()].clone(),
            }
        })
    }

    /// 25: "when there are not 256 or one of the three rules fails, also in each later call that takes a curve".
    pub fn is_unfit(&self) -> bool {
        self.loaded && !fits(&self.values)
    }

    /// "the oracle takes the curve too": what the Rust answers under it.
    pub fn under<T>(&self, rust: impl FnOnce() -> T) -> T {
        libm_exact::under(self.loaded.then_some(&self.values[..]), rust)
    }

    pub fn about(&self) -> String {
        let n = self.values.len();
        let wrong = (1..n).find(|&i| !(self.values[i] > self.values[i - 1]));
        let about = (self.values.first(), self.values.last(), wrong);
        let loaded = if self.loaded { "loaded" } else { "not loaded" };
        format!("curve {loaded}, {n} values, first, last and where it does not rise {about:?}")
    }
}

// Curves.

pub fn gamma(power: f64) -> Vec<f64> {
    (0..VALUES)
        .map(|i| (i as f64 / 255.0).powf(power))
        .collect()
}

/// The pattern of 1; the doubles from 0 to 1 have the patterns up to it, in their order.
const ONE: u64 = 0x3ff0_0000_0000_0000;

/// The double before 1, and the one after it.
pub const BELOW_ONE: f64 = f64::from_bits(ONE - 1);
pub const ABOVE_ONE: f64 = f64::from_bits(ONE + 1);
/// The least double above 0.
pub const LEAST: f64 = f64::from_bits(1);

/// A curve whose 254 values between 0 and 1 have these patterns, each another one.
fn of_patterns(mut between: Vec<u64>) -> Vec<f64> {
    between.sort_unstable();
    let mut values = vec![0.0];
    values.extend(between.into_iter().map(f64::from_bits));
    values.push(1.0);
    values
}

/// Patterns of doubles between 0 and 1 from what is drawn, until there are 254 of them.
fn patterns(mut pattern: impl FnMut() -> u64) -> Vec<u64> {
    let mut some = std::collections::BTreeSet::new();
    while some.len() < VALUES - 2 {
        some.insert(pattern().clamp(1, ONE - 1));
    }
    some.into_iter().collect()
}

/// 254 doubles one after the other, the first with this pattern.
fn neighbours(from: u64) -> Vec<f64> {
    of_patterns((from..from + 254).collect())
}

/// A curve: of any doubles of any size, of a gamma, crowded, with neighbours one unit in the last place apart. Half of
/// them begin with -0.0, which is 0.
pub fn any_fit(draw: &mut Draw) -> Vec<f64> {
    let unit = |x: u64| (x >> 11) as f64 / (1u64 << 53) as f64;
    let mut values = match draw.below(10) {
        0..=2 => of_patterns(patterns(|| unit(draw.next()).to_bits())),
        // of any exponent, subnormal ones among them
        3 => of_patterns(patterns(|| draw.next() % ONE)),
        4 | 5 => gamma(draw.from(&[0.5, 1.0, 1.8, 2.2, 2.4, 2.8, 5.0, 40.0])),
        // the 254 least doubles, 254 just below 1, and 254 neighbours anywhere
        6 => neighbours(1),
        7 => neighbours(ONE - 254),
        8 => neighbours(1 + draw.next() % (ONE - 255)),
        // some near 0, some near 1, and between them some one unit apart
        _ => {
            let from = unit(draw.next()).to_bits();
            of_patterns(patterns(|| match draw.below(3) {
                0 => draw.next() % 1000,
                1 => ONE - draw.next() % 1000,
                _ => from + draw.next() % 200,
            }))
        }
    };
    if draw.once_in(2) {
        values[0] = -0.0;
    }
    assert!(fits(&values), "a curve that is none");
    values
}

/// A curve with each rule broken in each way.
pub fn broken(fit: &[f64]) -> Vec<Vec<f64>> {
    let mut all = Vec::new();
    let mut add = |change: &dyn Fn(&mut Vec<f64>)| {
        let mut values = fit.to_vec();
        change(&mut values);
        assert!(!fits(&values), "broken, and a curve");
        all.push(values);
    };
    let last = VALUES - 1;
    // not 256: too few, the other rules kept or not, none, and too many
    add(&|v| v.truncate(0));
    add(&|v| v.truncate(1));
    add(&|v| v.truncate(last));
    add(&|v| v.retain(|x| *x != fit[0]));
    add(&|v| v.retain(|x| *x != fit[100]));
    add(&|v| v.insert(last, BELOW_ONE));
    add(&|v| v.insert(1, LEAST));
    add(&|v| v.push(2.0));
    add(&|v| v.push(1.0));
    add(&|v| v.extend_from_within(..));
    // the first not 0, the last not 1
    for first in [
        LEAST,
        -LEAST,
        -1.0,
        1e-300,
        f64::NAN,
        f64::NEG_INFINITY,
        f64::INFINITY,
    ] {
        add(&|v| v[0] = first);
    }
    for end in [
        BELOW_ONE,
        ABOVE_ONE,
        2.0,
        0.0,
        -1.0,
        f64::NAN,
        f64::INFINITY,
        f64::NEG_INFINITY,
    ] {
        add(&|v| v[last] = end);
    }
    // the first both ways, the second one equal to it
    add(&|v| (v[0], v[1]) = (0.0, 0.0));
    add(&|v| (v[0], v[1]) = (-0.0, 0.0));
    add(&|v| (v[0], v[1]) = (0.0, -0.0));
    // equal neighbours, a fall, and what is no number, at the first place, in the middle and at the last
    for at in [1, 2, 10, 11, 128, last - 1, last] {
        add(&|v| v[at] = v[at - 1]);
        add(&|v| v[at - 1] = v[at]);
        add(&|v| v.swap(at - 1, at));
        add(&|v| v[at] = f64::NAN);
        add(&|v| v[at] = f64::NEG_INFINITY);
        add(&|v| v[at - 1] = f64::INFINITY);
    }
    all
}

/// What is no curve.
pub fn any_unfit(draw: &mut Draw) -> Vec<f64> {
    let mut all = broken(&any_fit(draw));
    all.swap_remove(draw.below(all.len()))
}

/// Any curve of a session: mostly one that fits; else none, with any values beside it, or one that does not fit.
pub fn any_curve(draw: &mut Draw) -> Curve {
    let unfit = draw.once_in(3);
    let values = if unfit {
        any_unfit(draw)
    } else {
        any_fit(draw)
    };
    Curve {
        loaded: !draw.once_in(4),
        values: values.into(),
    }
}
