//! A maker's own curve: document 02, E6, read from its text. "The oracle takes the curve too": the linear value of a
//! byte in color.rs is the curve's (bench/color), so what a call answers under a curve is the Rust's own answer under
//! it. Sessions are opened by `new`, loaded, and held to the Rust's history and to the ledger, which use the curve
//! throughout.

use crate::calls::*;
use crate::curve::*;
use crate::draw::Draw;
use crate::drawn::{self, Pair};
use crate::histories::*;
use crate::inputs::{any_edit, tell};
use crate::journal::{self, Form, Handle, State, MAX_JOURNAL, NOWHERE};
use crate::locks::{any_edit_or_lock, any_lock};
use crate::sheet::*;
use crate::sheets::Permitted;
use crate::table::Table;
use pixelforge::color;
use pixelforge::editor::{History, Op, PixelChange};

// The two calls of E6.

/// What is expected of loading, and the LAB after it: "25 .. and in loading before it 26 .., when the record count is
/// not 0; both after 1 to 4". "Loading works out the LAB of the k entries anew from that curve": the Rust's `new`
/// under it.
pub fn loaded(st: &State, values: &[f64]) -> (u8, Vec<f64>) {
    let s = &st.sheet;
    let no = match s.number(st.journal.len() > MAX_JOURNAL) {
        0 => first(&[
            (4, !st.handle.sound(st.journal.len())),
            (26, st.handle.count != 0),
            (25, !fits(values)),
        ]),
        no => no,
    };
    let mut lab = s.lab.clone();
    if no == 0 {
        let doc = Curve::of(values.to_vec()).under(|| new(s));
        lab[..3 * s.k].copy_from_slice(&doc.expect("a well-formed sheet").palette_lab);
    }
    (no, lab)
}

/// The number and all of the LAB storage. What is lent to be read keeps.
pub fn load_curve(st: &State, values: &[f64]) -> Pair {
    let words = |no: u8, lab: &[f64]| {
        let mut words = vec![no.into()];
        doubles(&mut words, lab);
        words
    };
    let (no, lab) = loaded(st, values);
    let expected = words(no, &lab);
    let kept = || {
        let mut words = Vec::new();
        doubles(&mut words, values);
        words.extend(std::hint::black_box(st).words());
        words
    };
    let (before, s) = (kept(), &st.sheet);
    let ours = in_either_form(st, |form| {
        let mut lab = s.lab.clone();
        let no = call_load_curve(
            s.w,
            s.h,
            &s.palette,
            &mut lab,
            &s.indices,
            form,
            &st.journal,
            &st.numbers(),
            values,
        );
        words(no, &lab)
    });
    assert!(before == kept(), "lent to be read: {}", s.about());
    [expected, ours]
}

pub fn rgb8_to_lab_by(curve: &Curve, rgb: [u8; 3]) -> Pair {
    let told = |no: u8, lab: &[f64]| {
        let mut words = vec![no.into()];
        doubles(&mut words, lab);
        words
    };
    let expected = if curve.is_unfit() {
        told(25, &DOUBLES)
    } else {
        told(0, &curve.under(|| color::rgb8_to_lab(&rgb)))
    };
    let mut out = DOUBLES;
    let no = call_rgb8_to_lab_by(curve.loaded, &curve.values, &rgb, &mut out);
    [expected, told(no, &out)]
}

/// sRGB's own values, which are a curve, too.
fn srgb() -> Vec<f64> {
    (0..=255).map(call_linear).collect()
}

/// Colours under curves: of each some random ones, some dark ones and some greys. Each rule broken. sRGB's values as a
/// curve, and beside no curve what must not be looked at: both have the LAB of `rgb8_to_lab`.
fn colours(t: &mut Table) {
    let mut draw = Draw::new(61);
    let mut one = |curve: &Curve, rgb: [u8; 3]| {
        let about = || format!("{rgb:?}, {}", curve.about());
        tell!(
            t,
            "rgb8_to_lab_by",
            rgb8_to_lab_by(curve, rgb),
            "{}",
            about()
        );
    };
    for i in 0..800 {
        let curve = any_curve(&mut draw);
        for _ in 0..80 {
            one(&curve, draw.rgb());
            one(&curve, draw.rgb().map(|c| c % 16));
        }
        if i % 20 == 0 {
            (0..=255).for_each(|c| one(&curve, [c; 3]));
        }
    }
    let fits = [any_fit(&mut draw), gamma(2.2), srgb()];
    for values in fits.iter().flat_map(|fit| broken(fit)) {
        let mut curve = Curve::of(values);
        one(&curve, draw.rgb());
        curve.loaded = false;
        let rgb = draw.rgb();
        one(&curve, rgb);
        let of_srgb = Curve::of(srgb());
        one(&of_srgb, rgb);
        let same = |[expected, _]: Pair| expected;
        assert_eq!(
            same(rgb8_to_lab_by(&curve, rgb)),
            same(rgb8_to_lab_by(&of_srgb, rgb)),
            "sRGB's values as a curve"
        );
    }
}

// Refusals in the document's order.

/// What the calls that take a curve are lent, whole, before something is made wrong.
#[derive(Clone)]
struct Lent {
    st: State,
    p: Permitted,
    e: Flat,
    list: Vec<u64>,
    scratch: usize,
    rgba: Vec<u8>,
    image: (usize, usize),
    out: usize,
}

impl Lent {
    /// A sheet of 2 x 1 whose history has one record, which is undone, or none.
    fn whole(form: Form, record: bool, draw: &mut Draw) -> Lent {
        let mut sheet = good(2, 1, 2, draw);
        sheet.indices = vec![0, -1];
        sheet.curve = Curve::of(any_fit(draw));
        let handle = if record {
            Handle::of([0, 8, 0, 1, 0])
        } else {
            Handle::FRESH
        };
        let mut journal = journal::record(form, sheet.w, &Op::PaletteAdd { rgb: draw.rgb() });
        journal.resize(60, BYTE);
        let [r, g, b] = draw.rgb();
        Lent {
            e: Flat {
                bytes: [3, 0, 0, 0, 0, r, g, b],
                index: 0,
                lab: [0.0; 3],
            },
            p: Permitted {
                limited: false,
                list: Vec::new(),
            },
            list: Vec::new(),
            scratch: 2,
            rgba: vec![200; 8],
            image: (2, 1),
            out: 2,
            st: State {
                sheet,
                form,
                journal,
                handle,
            },
        }
    }

    fn unfit(&mut self, change: impl FnOnce(&mut Vec<f64>)) {
        let mut values = self.st.sheet.curve.values.to_vec();
        change(&mut values);
        self.st.sheet.curve = Curve::of(values);
    }
}

/// Its number, and what it makes wrong.
type Fault = (u8, fn(&mut Lent));

const SHEET: [Fault; 6] = [
    (1, |l| l.st.sheet.k = 256),
    (1, |l| l.st.sheet.w = 1025),
    (1, |l| l.st.sheet.lab.truncate(STORAGE - 1)),
    (2, |l| l.st.sheet.indices[1] = 2),
    (3, |l| l.st.sheet.lab[5] = f64::NAN),
    (3, |l| l.st.sheet.lab[0] = f64::INFINITY),
];
const MARKED: [Fault; 1] = [(1, |l| l.st.sheet.locks.truncate(MARKS - 1))];
const LISTED: [Fault; 1] = [(1, |l| (l.p.limited, l.p.list) = (true, vec![7]))];
const HANDLE: [Fault; 2] = [
    (4, |l| l.st.handle.end = 61),
    (4, |l| (l.st.handle.count, l.st.handle.saved) = (1, 2)),
];
/// Records that are undone count, too.
const IN_USE: [Fault; 2] = [
    (26, |l| l.st.handle = Handle::of([0, 8, 0, 1, 1])),
    (26, |l| l.st.handle = Handle::of([8, 8, 1, 1, NOWHERE])),
];
const UNFIT: [Fault; 6] = [
    (25, |l| l.unfit(|v| v.truncate(255))),
    (25, |l| l.unfit(|v| v[0] = LEAST)),
    (25, |l| l.unfit(|v| v[255] = BELOW_ONE)),
    (25, |l| l.unfit(|v| v[1] = v[0])),
    (25, |l| l.unfit(|v| v[128] = v[127])),
    (25, |l| l.unfit(|v| v[77] = f64::NAN)),
];
const LONG: [Fault; 1] = [(21, |l| l.list = vec![0; MAX_CHANGES + 1])];
const SHORT: [Fault; 1] = [(16, |l| l.scratch = 1)];
const IMAGE: [Fault; 3] = [
    (17, |l| l.image = (1025, 0)),
    (19, |l| l.rgba.truncate(7)),
    (16, |l| l.out = 1),
];
/// After the checks of the handle and the curve: no entry of that index, and a record that is none.
const ENTRY: [Fault; 1] = [(7, |l| (l.e.bytes[0], l.e.index) = (2, 2))];
const RECORD: [Fault; 1] = [(4, |l| l.st.journal[4] = 9)];

/// What is told of a call that is lent these.
type Told = fn(&Lent) -> Pair;

fn told_push(l: &Lent) -> Pair {
    let doc = if push_entry(&l.st, &l.p) == 0 {
        journal::document(&l.st.sheet)
    } else {
        journal::document(&good(1, 1, 1, &mut Draw::new(1)))
    };
    let twin = (&History::new(), &doc);
    let (no, expected, _) = push(&l.st, twin, &l.p, &l.e, &l.list, l.scratch);
    let mut after = l.st.clone();
    let ours = our_push(&mut after, &l.p, &l.e, &l.list, l.scratch);
    [told(no, &expected), told(ours, &after)]
}

fn told_redo(l: &Lent) -> Pair {
    let (no, expected) = journal::redo(&l.st, l.scratch);
    let mut after = l.st.clone();
    let ours = our_redo(&mut after, l.scratch);
    [told(no, &expected), told(ours, &after)]
}

/// Takes no curve, whatever the sheet's is.
fn told_undo(l: &Lent) -> Pair {
    let (no, expected) = journal::undo(&l.st);
    let mut after = l.st.clone();
    let ours = our_undo(&mut after);
    [told(no, &expected), told(ours, &after)]
}

fn told_replay(l: &Lent) -> Pair {
    replay(&l.st.sheet, &l.p, &l.e, &l.list, l.scratch)
}

fn told_snap(l: &Lent) -> Pair {
    let c = Case::new(l.st.sheet.clone());
    drawn::snap_rgba(&c, &l.rgba, l.image.0, l.image.1, l.out)
}

fn told_load(l: &Lent) -> Pair {
    load_curve(&l.st, &l.st.sheet.curve.values)
}

/// The calls that take a curve.
const CALLS: [(&str, Told); 5] = [
    ("load_curve", told_load),
    ("push, with a curve", told_push),
    ("redo, with a curve", told_redo),
    ("replay, with a curve", told_replay),
    ("snap_rgba, with a curve", told_snap),
];

/// Each rule broken in each way, in every call that takes a curve; and the curve itself.
fn each_rule(t: &mut Table) {
    let form = t.form;
    let mut draw = Draw::new(66);
    for _ in 0..4 {
        let fit = any_fit(&mut draw);
        let with_none = [(0, fit.clone())].into_iter();
        let unfit = broken(&fit).into_iter().map(|values| (25, values));
        for (no, values) in with_none.chain(unfit) {
            for (name, call) in CALLS {
                let mut l = Lent::whole(form, name != "load_curve", &mut draw);
                l.st.sheet.curve = Curve::of(values.clone());
                let pair = call(&l);
                assert_eq!(pair[0][0], no, "{name}: {}", l.st.sheet.about());
                tell!(t, name, pair, "{}", l.st.sheet.about());
            }
        }
    }
}

/// Every fault of a call alone, and every pair: the first in the document's order is told.
fn refusals(t: &mut Table) {
    let form = t.form;
    let mut draw = Draw::new(62);
    let calls: [(&str, Told, bool, &[&[Fault]]); 5] = [
        (
            "load_curve",
            told_load,
            false,
            &[&SHEET, &HANDLE, &IN_USE, &UNFIT],
        ),
        (
            "push, with a curve",
            told_push,
            true,
            &[
                &LISTED, &MARKED, &SHEET, &HANDLE, &UNFIT, &LONG, &SHORT, &ENTRY,
            ],
        ),
        (
            "redo, with a curve",
            told_redo,
            true,
            &[&MARKED, &SHEET, &HANDLE, &UNFIT, &SHORT, &RECORD],
        ),
        (
            "replay, with a curve",
            told_replay,
            true,
            &[&LISTED, &MARKED, &SHEET, &UNFIT, &LONG, &SHORT, &ENTRY],
        ),
        (
            "snap_rgba, with a curve",
            told_snap,
            true,
            &[&SHEET, &UNFIT, &IMAGE],
        ),
    ];
    for (name, call, record, groups) in calls {
        let faults = groups.concat();
        for (i, (one, make)) in faults.iter().enumerate() {
            for (j, (two, make_two)) in faults.iter().enumerate().skip(i) {
                let mut l = Lent::whole(form, record, &mut draw);
                // the later one first: a fault may undo one of its own number
                if j != i {
                    make_two(&mut l);
                }
                make(&mut l);
                let about = || format!("{name}: fault {i} with {one}, fault {j} with {two}");
                let pair = call(&l);
                if i == j || one != two {
                    assert_eq!(pair[0][0], u64::from(*one), "{}", about());
                }
                tell!(t, name, pair, "{}", about());
            }
        }
    }
}

/// Sentences that can be read in two ways, each with the smallest input that tells them apart.
fn readings(t: &mut Table) {
    let form = t.form;
    let mut draw = Draw::new(63);
    let mut one = |name: &'static str, call: Told, no: u8, record: bool, make: fn(&mut Lent)| {
        let mut l = Lent::whole(form, record, &mut draw);
        make(&mut l);
        let pair = call(&l);
        assert_eq!(pair[0][0], u64::from(no), "{name}");
        tell!(t, name, pair, "a reading of {name}, {no}");
    };
    let nan: fn(&mut Lent) = |l| l.unfit(|v| v[9] = f64::NAN);
    const PUSH: &str = "push, with a curve";
    const REDO: &str = "redo, with a curve";
    // "one of the three rules fails": before "still", whatever kind is pushed, and before the record is read
    one(PUSH, told_push, 25, false, |l| {
        l.unfit(|v| v[9] = f64::NAN);
        l.e.bytes[0] = 1;
    });
    one(PUSH, told_push, 25, false, |l| {
        l.unfit(|v| v[9] = f64::NAN);
        (l.e.bytes[0], l.list) = (1, vec![1 << 48]);
    });
    one(PUSH, told_push, 25, false, |l| {
        l.unfit(|v| v[9] = f64::NAN);
        l.e.bytes[0] = 5;
    });
    one(PUSH, told_push, 25, false, |l| {
        l.unfit(|v| v[9] = f64::NAN);
        l.e.bytes[0] = 4;
    });
    one(REDO, told_redo, 25, false, nan);
    one(REDO, told_redo, 255, false, |_| {});
    one(REDO, told_redo, 25, true, |l| {
        l.unfit(|v| v[9] = f64::NAN);
        l.st.journal[4] = 9;
    });
    one(REDO, told_redo, 4, true, |l| l.st.journal[4] = 9);
    // undo takes no curve
    one("undo, with a curve", told_undo, 0, true, |l| {
        l.unfit(|v| v[9] = f64::NAN);
        l.st.handle = Handle::of([8, 8, 1, 1, 0]);
    });
    one("undo, with a curve", told_undo, 255, false, nan);
    // "the first 0": by value
    one("load_curve", told_load, 0, false, |l| {
        l.unfit(|v| v[0] = -0.0)
    });
    one(PUSH, told_push, 0, false, |l| l.unfit(|v| v[0] = -0.0));
    // "while the history has no records": a saved position that is none is no record
    one("load_curve", told_load, 0, false, |l| {
        l.st.handle.saved = NOWHERE
    });
    // locked entries get their LAB anew, and marks are not lent: any number of them
    one("load_curve", told_load, 0, false, |l| {
        l.st.sheet.locks = vec![true; 3]
    });
    // LAB that is not finite is 3, though it would be written over; past the entries it is not looked at
    one("load_curve", told_load, 3, false, |l| {
        l.st.sheet.lab[1] = f64::NAN
    });
    one("load_curve", told_load, 0, false, |l| {
        l.st.sheet.lab[6] = f64::NAN
    });
    // not loaded: what is handed is not looked at
    for (name, call) in &CALLS[1..] {
        one(name, *call, 0, true, |l| {
            l.unfit(|v| v.clear());
            l.st.sheet.curve.loaded = false;
        });
    }
}

/// The journal's limit, in loading.
fn limits(t: &mut Table) {
    let form = t.form;
    let mut draw = Draw::new(64);
    let sheet = good(3, 2, 2, &mut draw);
    let values = any_fit(&mut draw);
    // untouched pages take no memory
    for (length, expected) in [(MAX_JOURNAL, 0), (MAX_JOURNAL + 1, 1)] {
        let journal = vec![0u8; length];
        let (s, state) = (&sheet, [sheet.k, 0, 0, 0, 0, 0]);
        let mut lab = s.lab.clone();
        let no = call_load_curve(
            s.w,
            s.h,
            &s.palette,
            &mut lab,
            &s.indices,
            form.number(),
            &journal,
            &state,
            &values,
        );
        t.tell("load_curve", &[expected], &[no.into()], || {
            format!("a journal of {length} bytes")
        });
    }
}

// Any inputs.

/// A record of any kind, by an index about k.
fn any_record(form: Form, s: &Sheet, draw: &mut Draw) -> Vec<u8> {
    let index = draw.below(s.k.min(254) + 1);
    let edit = match draw.below(6) {
        0 => Edit::Lock {
            index,
            old: draw.once_in(2),
            new: draw.once_in(2),
        },
        1 => Edit::Op(Op::Pixels {
            tool: "3".into(),
            changes: vec![PixelChange {
                x: 0,
                y: 0,
                old: 0,
                new: draw.below(2) as i64 - 1,
            }],
        }),
        2 | 3 => Edit::Op(Op::PaletteAdd { rgb: draw.rgb() }),
        _ => Edit::Op(Op::PaletteSet {
            index,
            old: draw.rgb(),
            new: draw.rgb(),
            old_lab: [draw.number(), draw.number(), draw.number()],
        }),
    };
    journal::record_of(form, s.w, &edit)
}

/// A history of two records, of which some are undone; now and then its handle or a byte of it is wrong.
fn any_history(form: Form, s: &Sheet, draw: &mut Draw) -> (Vec<u8>, Handle) {
    let (one, two) = (any_record(form, s, draw), any_record(form, s, draw));
    let (a, b) = (one.len(), one.len() + two.len());
    let mut journal = [one, two].concat();
    journal.resize(b + draw.from(&[0, 4, 40]), BYTE);
    if draw.once_in(12) {
        let at = draw.below(b);
        journal[at] ^= 1 << draw.below(8);
    }
    let handles = [
        [0, 0, 0, 0, 0],
        [0, 0, 0, 0, NOWHERE],
        [0, a, 0, 1, 1],
        [a, a, 1, 1, 0],
        [0, b, 0, 2, 2],
        [a, b, 1, 2, NOWHERE],
        [b, b, 2, 2, 1],
        [a, b, 0, 2, 0],
        [a, a, 1, 1, 2],
    ];
    (journal, Handle::of(draw.from(&handles)))
}

/// An image of the palette's colours and others.
fn any_image(s: &Sheet, draw: &mut Draw) -> (Vec<u8>, (usize, usize)) {
    let side = [0, 1, 2, 3, 5, 8];
    let (w, h) = match draw.below(30) {
        0 => (draw.from(&[1023, 1024, 1025]), draw.below(2)),
        _ => (draw.from(&side), draw.from(&side)),
    };
    let mut rgba = Vec::new();
    for _ in 0..w * h {
        let own = s.k > 0 && s.palette.len() == STORAGE && draw.once_in(4);
        let at = 3 * draw.below(s.k.clamp(1, 255));
        rgba.extend(if own {
            [s.palette[at], s.palette[at + 1], s.palette[at + 2]]
        } else {
            draw.rgb()
        });
        rgba.push(draw.from(&[0, 127, 128, 255]));
    }
    if draw.once_in(20) {
        rgba.pop();
    }
    (rgba, (w, h))
}

/// Every call that takes a curve, and undo, on any sheets with any marks, histories and curves.
fn any_state(t: &mut Table, draw: &mut Draw) {
    let form = t.form;
    let mut sheet = any(draw).with_any_locks(draw);
    sheet.curve = any_curve(draw);
    let (k, n) = (sheet.k, sheet.w * sheet.h);
    // half of the sheets have the LAB of their curve
    if sheet.number(false) == 0 && !sheet.curve.is_unfit() && draw.once_in(2) {
        let doc = sheet.curve.under(|| new(&sheet)).expect("well-formed");
        sheet.lab[..3 * k].copy_from_slice(&doc.palette_lab);
    }
    let (journal, handle) = any_history(form, &sheet, draw);
    let (rgba, image) = any_image(&sheet, draw);
    let e = match draw.below(8) {
        0 => any_lock(k, draw),
        _ => any_edit(k, draw),
    };
    let count = draw.below(3);
    let mut l = Lent {
        list: any_changes(&sheet, count, draw),
        p: any_permitted(&sheet, draw),
        out: draw.room(image.0.min(sheet.w) * image.1.min(sheet.h)),
        scratch: draw.room(n),
        st: State {
            sheet,
            form,
            journal,
            handle,
        },
        e,
        rgba,
        image,
    };
    let undo: [(&str, Told); 1] = [("undo, with a curve", told_undo)];
    for (name, call) in CALLS.into_iter().chain(undo) {
        tell!(
            t,
            name,
            call(&l),
            "{} with {:?} in {:x?}, {:?} {:x?} {:?}, scratch {}, image {:?} in {}",
            l.st.sheet.about(),
            l.st.handle,
            l.st.journal,
            l.e,
            l.list,
            l.p,
            l.scratch,
            l.image,
            l.out
        );
    }
    // a set of an entry that is there, with the old colour that it has
    let s = &l.st.sheet;
    if s.number(false) == 0 && k > 0 {
        l.e.bytes[0] = 2;
        l.e.index = draw.below(k);
        l.e.bytes[2..5].copy_from_slice(&s.palette[3 * l.e.index..3 * l.e.index + 3]);
        l.p.limited = false;
        tell!(
            t,
            "replay, with a curve",
            told_replay(&l),
            "{:?} on {}",
            l.e,
            l.st.sheet.about()
        );
    }
}

// Sessions.

/// A sheet that was opened by `new`, now and then with a first curve loaded, then with one that stays.
fn opened(t: &mut Table, draw: &mut Draw) -> State {
    let form = t.form;
    let k = draw.from(&[0, 1, 1, 2, 2, 3, 4, 5, 253, 254, 255]);
    let mut sheet = good(draw.below(5), draw.below(5), k, draw);
    let (mut lab, mut locks) = (sheet.lab.clone(), sheet.locks.clone());
    let s = &sheet;
    let no = call_new(s.w, s.h, s.k, &s.palette, &mut lab, &s.indices, &mut locks);
    assert_eq!(no, 0, "new on a good sheet");
    (sheet.lab, sheet.locks) = (lab, locks);
    let room = draw.from(&[0, 8, 36, 60, 120, 300, 300, 700, 2000]);
    let mut st = State {
        journal: (0..room).map(|_| draw.next() as u8).collect(),
        handle: Handle::FRESH,
        sheet,
        form,
    };
    for _ in 0..1 + draw.below(2) {
        let values = any_fit(draw);
        tell!(
            t,
            "load_curve",
            load_curve(&st, &values),
            "{}",
            st.sheet.about()
        );
        (_, st.sheet.lab) = loaded(&st, &values);
        st.sheet.curve = Curve::of(values);
    }
    st
}

/// One loaded session, call by call. Beside each state the calls with another curve: any that fits, which redo is
/// answered with though the record was pushed under the session's, one that does not fit, and none.
fn session(t: &mut Table, draw: &mut Draw) {
    let mut st = opened(t, draw);
    let curve = st.sheet.curve.clone();
    let mut ledger = Ledger::open(&st.sheet);
    let mut history = History::new();
    let mut doc = journal::document(&st.sheet);
    for _ in 0..4 + draw.below(30) {
        let n = st.sheet.w * st.sheet.h;
        let scratch = if draw.once_in(25) {
            n.saturating_sub(1)
        } else {
            n + draw.below(2)
        };
        let before = st.clone();
        let about = |what: &str| {
            format!(
                "{what} on {} with {:?} in {}",
                before.sheet.about(),
                before.handle,
                before.journal.len()
            )
        };
        match draw.below(10) {
            0..=5 => {
                let p = any_permitted(&st.sheet, draw);
                let (e, list) = any_push(&st.sheet, &doc, draw);
                let (no, after, twin) = push(&st, (&history, &doc), &p, &e, &list, scratch);
                let ours = our_push(&mut st, &p, &e, &list, scratch);
                t.tell(
                    "push, with a curve",
                    &told(no, &after),
                    &told(ours, &st),
                    || about(&format!("{e:?} {list:x?} {p:?} {scratch}")),
                );
                // calls answered "journal full" are struck
                if no != 14 && no != 16 {
                    let answer = ledger.push(&p, &e.edit(&list));
                    assert_eq!(
                        answer,
                        no,
                        "the ledger's answer: {}",
                        about(&format!("{e:?}"))
                    );
                }
                if let Some((h, d)) = twin {
                    (history, doc) = (h, d);
                }
                if no == 0 {
                    // the edit with the olds that the sheet had, replayed on it
                    let (bytes, _, _, list) = flat_of(history.next_undo().unwrap());
                    let e = Flat { bytes, ..e };
                    tell!(
                        t,
                        "replay, with a curve",
                        replay(&before.sheet, &p, &e, &list, scratch),
                        "{}",
                        about(&format!("{e:?} {list:x?} {p:?}"))
                    );
                }
            }
            6 | 7 => {
                let (no, after) = journal::undo(&st);
                let ours = our_undo(&mut st);
                t.tell(
                    "undo, with a curve",
                    &told(no, &after),
                    &told(ours, &st),
                    || about("undo"),
                );
                assert_eq!(no == 0, history.undo(&mut doc), "the Rust's undo");
                assert_eq!(ledger.undo(), no, "the ledger's undo");
            }
            8 => {
                let (no, after) = journal::redo(&st, scratch);
                let ours = our_redo(&mut st, scratch);
                t.tell(
                    "redo, with a curve",
                    &told(no, &after),
                    &told(ours, &st),
                    || about("redo"),
                );
                if no != 16 {
                    let stepped = curve.under(|| history.redo(&mut doc));
                    assert_eq!(no == 0, stepped, "the Rust's redo");
                    assert_eq!(ledger.redo(), no, "the ledger's redo");
                }
            }
            _ => {
                let [expected, ours] = mark_saved(&st);
                t.tell("mark_saved, with a curve", &expected, &ours, || {
                    about("mark")
                });
                st.handle.saved = ours[5] as usize;
                history.mark_saved();
                ledger.mark();
            }
        }
        assert!(ledger.agrees(&st), "the ledger: {}", about("after a call"));
        let twin = journal::shown(&doc, &st.sheet).expect("well-formed");
        assert!(
            twin.k == st.sheet.k && twin.same(&st.sheet),
            "the Rust's document: {}",
            about("after a call")
        );
        beside(t, &st, scratch, draw);
    }
}

/// The calls at a state of a session, with another curve than the session's.
fn beside(t: &mut Table, st: &State, scratch: usize, draw: &mut Draw) {
    let mut st = st.clone();
    st.sheet.curve = any_curve(draw);
    let (e, list) = any_edit_or_lock(&st.sheet, draw);
    let l = Lent {
        p: any_permitted(&st.sheet, draw),
        rgba: Vec::new(),
        image: (0, 0),
        out: 0,
        st,
        e,
        list,
        scratch,
    };
    for (name, call) in &CALLS[..3] {
        tell!(
            t,
            name,
            call(&l),
            "beside a session: {} with {:?}, {:?} {:x?} {:?}",
            l.st.sheet.about(),
            l.st.handle,
            l.e,
            l.list,
            l.p
        );
    }
}

pub fn run(t: &mut Table) {
    colours(t);
    histories(t);
}

/// The calls beside a history, in the table's form.
pub fn histories(t: &mut Table) {
    readings(t);
    each_rule(t);
    refusals(t);
    limits(t);
    let mut draw = Draw::new(65);
    for _ in 0..20_000 {
        any_state(t, &mut draw);
    }
    for _ in 0..4_000 {
        session(t, &mut draw);
    }
}
