//! `join`, read from document 02's text, E8. Each outcome goes through the Rust's `Document::new`, and in it `with_lab`; what
//! its pixels show is the Rust's own `clip_rgba` of the whole sheet, before and after.

use crate::calls::call_join;
use crate::curve::Curve;
use crate::draw::Draw;
use crate::drawn::Pair;
use crate::inputs::tell;
use crate::journal;
use crate::sheet::*;
use crate::table::Table;
use pixelforge::editor::tools::{clip_rgba, Clip};

const STATE: [usize; 6] = [7777; 6];
const FRESH: [usize; 5] = [0; 5];

/// A sheet that is lent to be written.
#[derive(Clone)]
struct Lent {
    w: usize,
    h: usize,
    palette: Vec<u8>,
    lab: Vec<f64>,
    indices: Vec<i16>,
    locks: Vec<bool>,
}

impl Lent {
    /// One for a sheet of w by h, with whatever in it.
    fn of(w: usize, h: usize, draw: &mut Draw) -> Lent {
        Lent {
            w,
            h,
            palette: (0..STORAGE).map(|_| draw.next() as u8).collect(),
            lab: (0..STORAGE).map(|_| draw.double()).collect(),
            indices: (0..w * h).map(|_| draw.next() as i16).collect(),
            locks: any_locks(MARKS, draw),
        }
    }

    /// "1 for a lent one of another size"
    fn is_bad(&self, w: usize, h: usize) -> bool {
        (self.w, self.h) != (w, h)
            || self.palette.len() != STORAGE
            || self.lab.len() != STORAGE
            || self.indices.len() != w * h
            || self.locks.len() != MARKS
    }

    fn words(&self, to: &mut Vec<u64>) {
        bytes(to, &self.palette);
        doubles(to, &self.lab);
        indices(to, &self.indices);
        flags(to, &self.locks);
    }

    /// What it holds, as a sheet of k entries.
    fn sheet(&self, k: usize) -> Sheet {
        Sheet {
            w: self.w,
            h: self.h,
            k,
            palette: self.palette.clone(),
            lab: self.lab.clone(),
            indices: self.indices.clone(),
            locks: self.locks.clone(),
            curve: Curve::none(),
        }
    }
}

/// A colour with what travels with it.
#[derive(Clone, Copy, Debug, PartialEq)]
struct Entry {
    rgb: [u8; 3],
    lab: [f64; 3],
    lock: bool,
}

fn entry(s: &Sheet, i: usize) -> Entry {
    let [a, b, c] = [3 * i, 3 * i + 1, 3 * i + 2];
    Entry {
        rgb: [s.palette[a], s.palette[b], s.palette[c]],
        lab: [s.lab[a], s.lab[b], s.lab[c]],
        lock: s.locks[i],
    }
}

/// "the first's entries in order, then each colour of the second that is not yet there, in its order"
fn joined(a: &Sheet, b: &Sheet) -> Vec<Entry> {
    let mut all: Vec<Entry> = (0..a.k).map(|i| entry(a, i)).collect();
    for e in (0..b.k).map(|i| entry(b, i)) {
        if all.iter().all(|there| there.rgb != e.rgb) {
            all.push(e);
        }
    }
    all
}

/// "Turned away: 27 .., over 255 entries, after 1 to 3 of both sheets and 1 for a lent one of another size."
fn number(a: &Sheet, b: &Sheet, x: &Lent, y: &Lent) -> u8 {
    for s in [a, b] {
        let no = s.marked_number(false);
        if no != 0 {
            return no;
        }
    }
    first(&[
        (1, x.is_bad(a.w, a.h)),
        (1, y.is_bad(b.w, b.h)),
        (27, joined(a, b).len() > 255),
    ])
}

/// A lent sheet with these entries at its front, and these indices.
fn written(x: &Lent, all: &[Entry], indices: Vec<i16>) -> Lent {
    let mut to = x.clone();
    for (i, e) in all.iter().enumerate() {
        to.palette[3 * i..3 * i + 3].copy_from_slice(&e.rgb);
        to.lab[3 * i..3 * i + 3].copy_from_slice(&e.lab);
        to.locks[i] = e.lock;
    }
    to.indices = indices;
    to
}

/// "First indices are unchanged; a second index goes to the first joined entry of its colour."
fn outcomes(a: &Sheet, b: &Sheet, x: &Lent, y: &Lent) -> [Lent; 2] {
    let all = joined(a, b);
    let place = |&z: &i16| match usize::try_from(z) {
        Ok(i) => {
            let rgb = entry(b, i).rgb;
            all.iter().position(|e| e.rgb == rgb).expect("joined") as i16
        }
        Err(_) => z,
    };
    [
        written(x, &all, a.indices.clone()),
        written(y, &all, b.indices.iter().map(place).collect()),
    ]
}

fn told(no: u8, states: [[usize; 6]; 2], x: &Lent, y: &Lent) -> Vec<u64> {
    let mut words = vec![no.into()];
    sizes(&mut words, &states.concat());
    x.words(&mut words);
    y.words(&mut words);
    words
}

/// What ours answers and leaves.
fn ours(a: &Sheet, b: &Sheet, x: &Lent, y: &Lent) -> (u8, [[usize; 6]; 2], Lent, Lent) {
    let (mut x, mut y) = (x.clone(), y.clone());
    let [mut state, mut state2] = [STATE; 2];
    let no = call_join(
        a.w,
        a.h,
        a.k,
        &a.palette,
        &a.lab,
        &a.indices,
        &a.locks,
        b.w,
        b.h,
        b.k,
        &b.palette,
        &b.lab,
        &b.indices,
        &b.locks,
        x.w,
        x.h,
        &mut x.palette,
        &mut x.lab,
        &mut x.indices,
        &mut x.locks,
        y.w,
        y.h,
        &mut y.palette,
        &mut y.lab,
        &mut y.indices,
        &mut y.locks,
        &mut state,
        &mut state2,
    );
    (no, [state, state2], x, y)
}

/// The bytes of every pixel, by the Rust.
fn shown(s: &Sheet) -> Vec<u8> {
    let indices = s.image().indices;
    let clip = Clip {
        w: s.w,
        h: s.h,
        indices,
    };
    clip_rgba(&journal::document(s), &clip)
}

fn about(a: &Sheet, b: &Sheet) -> String {
    format!("{}; {}", a.about(), b.about())
}

/// One call: the answer and every lent byte, then what the outcomes are to the Rust.
fn join(t: &mut Table, a: &Sheet, b: &Sheet, x: &Lent, y: &Lent) -> u8 {
    let no = number(a, b, x, y);
    let (expected, k) = if no == 0 {
        let [first, second] = outcomes(a, b, x, y);
        let k = joined(a, b).len();
        let mut state = [k; 6];
        state[1..].copy_from_slice(&FRESH);
        (told(0, [state; 2], &first, &second), k)
    } else {
        (told(no, [STATE; 2], x, y), 0)
    };
    let kept = [a, b].map(words);
    let (answer, states, x, y) = ours(a, b, x, y);
    assert!(
        [a, b].map(words) == kept,
        "lent to be read: {}",
        about(a, b)
    );
    let pair: Pair = [expected, told(answer, states, &x, &y)];
    tell!(t, "join", pair, "{}", about(a, b));
    if no == 0 && answer == 0 {
        for (s, after) in [(a, x.sheet(k)), (b, y.sheet(k))] {
            assert_eq!(after.marked_number(false), 0, "1 to 3: {}", about(a, b));
            assert!(after.document(None).is_some(), "with_lab: {}", about(a, b));
            let mut pair: Pair = [vec![0], vec![0]];
            bytes(&mut pair[0], &shown(s));
            bytes(&mut pair[1], &shown(&after));
            tell!(t, "join, shown", pair, "{}", about(a, b));
        }
    }
    no
}

fn words(s: &Sheet) -> Vec<u64> {
    let mut words = Vec::new();
    s.words(&mut words);
    words
}

/// The colour that a number stands for, each another.
fn colour(n: usize) -> [u8; 3] {
    [n as u8, (n >> 8) as u8, 7]
}

/// The sheet with its entries' colours by number.
fn coloured(mut s: Sheet, numbers: impl Iterator<Item = usize>) -> Sheet {
    for (at, n) in numbers.enumerate() {
        s.palette[3 * at..3 * at + 3].copy_from_slice(&colour(n));
    }
    s
}

/// Lent sheets of the right sizes.
fn lent(a: &Sheet, b: &Sheet, draw: &mut Draw) -> [Lent; 2] {
    [a, b].map(|s| Lent::of(s.w, s.h, draw))
}

/// Every pair of well-formed sheets of 0 to 2 by 0 to 2 with 0 to 2 entries, of three colours.
fn tiny_pairs(t: &mut Table) {
    let mut draw = Draw::new(81);
    let sheets = tiny();
    for a in &sheets {
        for b in &sheets {
            let [a, b] = [a, b].map(|s| {
                let numbers: Vec<usize> = (0..s.k).map(|_| draw.below(3)).collect();
                let mut s = coloured(s.clone(), numbers.into_iter());
                s.locks = any_locks(MARKS, &mut draw);
                s
            });
            let [x, y] = lent(&a, &b, &mut draw);
            join(t, &a, &b, &x, &y);
        }
    }
}

/// A sheet on few colours, or on many, with any marks; now and then damaged.
fn side(colours: usize, draw: &mut Draw) -> Sheet {
    let mut s = match draw.below(16) {
        0 => any(draw),
        1 => edge(draw),
        2 => good(
            draw.below(4),
            draw.below(4),
            draw.from(&[127, 128, 200, 254, 255]),
            draw,
        ),
        _ => small(draw),
    };
    if draw.once_in(20) {
        s = s.with_any_locks(draw);
    } else {
        s.locks = any_locks(MARKS, draw);
    }
    if s.palette.len() == STORAGE {
        let numbers: Vec<usize> = (0..s.k.min(255)).map(|_| draw.below(colours)).collect();
        s = coloured(s, numbers.into_iter());
    }
    s
}

fn any_pairs(t: &mut Table) {
    let mut draw = Draw::new(82);
    for _ in 0..60_000 {
        let colours = draw.from(&[1, 2, 3, 8, 300, 1_000, 60_000]);
        let (a, b) = (side(colours, &mut draw), side(colours, &mut draw));
        let size = |s: &Sheet| (s.w.min(1_025), s.h.min(1_025));
        let [mut x, mut y] = [size(&a), size(&b)].map(|(w, h)| Lent::of(w, h, &mut draw));
        if draw.once_in(12) {
            let z = if draw.once_in(2) { &mut x } else { &mut y };
            spoil(z, &mut draw);
        }
        join(t, &a, &b, &x, &y);
    }
}

/// A lent sheet of another size, storage or count of marks.
fn spoil(x: &mut Lent, draw: &mut Draw) {
    let storage = draw.from(&[0, 3, STORAGE - 1, STORAGE + 1]);
    match draw.below(8) {
        0 => x.w += 1,
        1 => x.h = x.h.wrapping_sub(1),
        2 => (x.w, x.h) = (x.h, x.w),
        3 => x.palette.resize(storage, 1),
        4 => x.lab.resize(storage, 1.0),
        5 => x.indices.push(0),
        6 => drop(x.indices.pop()),
        _ => x.locks.resize(draw.from(&[0, MARKS - 1, MARKS + 1]), true),
    }
}

/// Every count of the first with 254 to 257 joined, where the second can bring so many. Some of the second's are the
/// first's, or twice its own; some of the first's are there twice.
fn limits(t: &mut Table) {
    let mut draw = Draw::new(83);
    for k in 0..=255 {
        for total in 254..=257 {
            let brought = total - k;
            if brought > 255 {
                continue;
            }
            for twice in [1, 9, 255] {
                // the first's colours, and so many of them
                let own = k.min(twice.max(k / 2));
                let mut a = coloured(good(2, 2, k, &mut draw), (0..k).map(|i| i % own));
                let more = draw.below(256 - brought);
                let mut numbers: Vec<usize> = (1_000..1_000 + brought).collect();
                for _ in 0..more {
                    let its_own = own == 0 || brought > 0 && draw.once_in(2);
                    let n = if its_own {
                        1_000 + draw.below(brought)
                    } else {
                        draw.below(own)
                    };
                    numbers.insert(draw.below(numbers.len() + 1), n);
                }
                let k2 = brought + more;
                let mut b = coloured(good(3, 1, k2, &mut draw), numbers.into_iter());
                a.locks = any_locks(MARKS, &mut draw);
                b.locks = any_locks(MARKS, &mut draw);
                let [x, y] = lent(&a, &b, &mut draw);
                let no = join(t, &a, &b, &x, &y);
                assert_eq!(no, if total > 255 { 27 } else { 0 }, "{total} joined");
            }
        }
    }
}

/// Document 02's sentences, each by values of its own.
fn readings(t: &mut Table) {
    let mut draw = Draw::new(84);
    let made = |indices: &[i16], colours: &[usize], lab: f64, locks: &[usize], draw: &mut Draw| {
        let mut s = coloured(
            good(indices.len(), 1, colours.len(), draw),
            colours.iter().copied(),
        );
        s.indices = indices.to_vec();
        s.lab[..3 * s.k].fill(lab);
        s.locks = (0..MARKS).map(|i| locks.contains(&i)).collect();
        s
    };
    // both have 5, the first unlocked, the second locked; the first has 6 twice; the second has 7 twice, and 8 that no
    // pixel shows
    let a = made(&[0, -1, 2], &[5, 6, 6], 1.0, &[2], &mut draw);
    let b = made(&[0, 1, 2, 3, -1], &[7, 5, 7, 6, 8], 2.0, &[0, 1], &mut draw);
    let [x, y] = lent(&a, &b, &mut draw);
    assert_eq!(join(t, &a, &b, &x, &y), 0);
    let (_, states, first, second) = ours(&a, &b, &x, &y);
    assert_eq!(states, [[5, 0, 0, 0, 0, 0]; 2]);
    for s in [first.sheet(5), second.sheet(5)] {
        assert_eq!(s.colours(), [5, 6, 6, 7, 8].map(colour));
        assert_eq!(s.lab[..9], [1.0; 9]);
        assert_eq!(s.lab[9..15], [2.0; 6]);
        assert_eq!(s.locks[..5], [false, false, true, true, false]);
    }
    assert_eq!(first.indices, [0, -1, 2]);
    assert_eq!(second.indices, [3, 0, 3, 1, -1]);
    assert_eq!(first.palette[15..], x.palette[15..]);
    assert_eq!(second.locks[5..], y.locks[5..]);
    // 27 is after 1 of the lent sheets
    let whole: Vec<usize> = (0..255).collect();
    let a = made(&[0], &whole, 1.0, &[], &mut draw);
    let b = made(&[0], &[900], 2.0, &[], &mut draw);
    let [x, mut y] = lent(&a, &b, &mut draw);
    assert_eq!(join(t, &a, &b, &x, &y), 27);
    y = Lent::of(2, 1, &mut draw);
    assert_eq!(join(t, &a, &b, &x, &y), 1);
    // a duplicate of the first counts
    let mut doubled = whole;
    doubled[254] = 0;
    let a = made(&[254], &doubled, 1.0, &[], &mut draw);
    let b = made(&[0], &[254], 2.0, &[], &mut draw);
    let [x, y] = lent(&a, &b, &mut draw);
    assert_eq!(join(t, &a, &b, &x, &y), 27);
    // no entries and no pixels on either side
    let none = made(&[], &[], 0.0, &[], &mut draw);
    let [x, y] = lent(&none, &none, &mut draw);
    assert_eq!(join(t, &none, &none, &x, &y), 0);
}

/// A good setting in which things are made wrong.
#[derive(Clone)]
struct Setting {
    sheets: [Sheet; 2],
    lent: [Lent; 2],
}

/// Where it stands in the order of refusals, its number, whether it is made before the others, and what is done.
struct Fault {
    rank: usize,
    no: u8,
    early: bool,
    about: String,
    make: Box<dyn Fn(&mut Setting)>,
}

type Wrong = fn(&mut Sheet);
type Amiss = fn(&mut Lent);

fn faults() -> Vec<Fault> {
    let sheet: &[(u8, &str, Wrong)] = &[
        (1, "w 1025", |s| s.w = 1025),
        (1, "h 1025", |s| s.h = 1025),
        (1, "w over all", |s| s.w = usize::MAX),
        (1, "k 256", |s| s.k = 256),
        (1, "palette short", |s| s.palette.truncate(STORAGE - 1)),
        (1, "palette long", |s| s.palette.push(0)),
        (1, "lab short", |s| s.lab.truncate(STORAGE - 1)),
        (1, "lab long", |s| s.lab.push(0.0)),
        (1, "indices short", |s| s.indices.truncate(2)),
        (1, "indices long", |s| s.indices.push(0)),
        (1, "no marks", |s| s.locks.clear()),
        (1, "marks short", |s| s.locks.truncate(MARKS - 1)),
        (1, "marks long", |s| s.locks.push(true)),
        (2, "index -2", |s| s.indices[0] = -2),
        (2, "index k", |s| s.indices[1] = s.k as i16),
        (2, "index least", |s| s.indices[1] = i16::MIN),
        (3, "lab nan", |s| s.lab[3] = f64::NAN),
        (3, "lab infinite", |s| s.lab[5] = f64::NEG_INFINITY),
    ];
    let lent: &[(&str, Amiss)] = &[
        ("w less", |x| x.w -= 1),
        ("w more", |x| x.w += 1),
        ("h less", |x| x.h -= 1),
        ("h over all", |x| x.h = usize::MAX),
        ("turned", |x| (x.w, x.h) = (x.h, x.w)),
        ("palette short", |x| x.palette.truncate(STORAGE - 1)),
        ("palette long", |x| x.palette.push(0)),
        ("lab short", |x| x.lab.truncate(STORAGE - 3)),
        ("lab long", |x| x.lab.push(0.0)),
        ("indices short", |x| x.indices.truncate(2)),
        ("indices long", |x| x.indices.push(0)),
        ("no marks", |x| x.locks.clear()),
        ("marks short", |x| x.locks.truncate(MARKS - 1)),
        ("marks long", |x| x.locks.push(true)),
    ];
    let mut all = vec![Fault {
        rank: 9,
        no: 27,
        early: true,
        about: "256 joined".into(),
        make: Box::new(|s| {
            let [a, b] = &mut s.sheets;
            a.k = 255;
            a.lab[..].fill(0.5);
            *a = coloured(a.clone(), 0..255);
            *b = coloured(b.clone(), 255..255 + b.k);
        }),
    }];
    for i in 0..2 {
        for &(no, about, wrong) in sheet {
            all.push(Fault {
                rank: 3 * i + usize::from(no),
                no,
                early: false,
                about: format!("sheet {i}: {about}"),
                make: Box::new(move |s| wrong(&mut s.sheets[i])),
            });
        }
        for &(about, amiss) in lent {
            all.push(Fault {
                rank: 7 + i,
                no: 1,
                early: false,
                about: format!("lent {i}: {about}"),
                make: Box::new(move |s| amiss(&mut s.lent[i])),
            });
        }
    }
    all
}

/// Every fault alone, and every pair: the first in the document's order is told, and every lent byte keeps.
fn refusals(t: &mut Table) {
    let mut draw = Draw::new(85);
    let sheets = [good(2, 3, 3, &mut draw), good(4, 2, 2, &mut draw)];
    let lent = [Lent::of(2, 3, &mut draw), Lent::of(4, 2, &mut draw)];
    let whole = Setting { sheets, lent };
    let faults = faults();
    for (i, one) in faults.iter().enumerate() {
        for two in &faults[i..] {
            let mut s = whole.clone();
            let mut made = vec![one];
            if one.about != two.about {
                made.push(two);
            }
            made.sort_by_key(|f| !f.early);
            made.iter().for_each(|f| (f.make)(&mut s));
            let Setting {
                sheets: [a, b],
                lent: [x, y],
            } = &s;
            let no = join(t, a, b, x, y);
            let least = if one.rank <= two.rank { one } else { two };
            // two of one rank may undo each other
            if made.len() == 1 || one.rank != two.rank {
                assert_eq!(no, least.no, "{}, {}", one.about, two.about);
            }
        }
    }
}

/// Sheets of 1,024 × 1,024.
fn large(t: &mut Table) {
    let mut draw = Draw::new(86);
    for (k, k2, shared) in [(255, 255, 255), (170, 170, 85), (255, 1, 0), (0, 255, 0)] {
        let mut sheets = [k, k2].map(|k| {
            let mut s = good(1024, 1024, k, &mut draw);
            let places = s.indices.len();
            s.indices = (0..places).map(|_| draw.below(k + 1) as i16 - 1).collect();
            s
        });
        sheets = sheets.map(|s| coloured(s.clone(), 0..s.k));
        let from = k - shared;
        let [a, b] = sheets;
        let b = coloured(b, from..from + k2);
        let [x, y] = lent(&a, &b, &mut draw);
        let no = join(t, &a, &b, &x, &y);
        assert_eq!(no, if k + k2 - shared > 255 { 27 } else { 0 });
    }
}

pub fn run(t: &mut Table) {
    readings(t);
    tiny_pairs(t);
    limits(t);
    refusals(t);
    any_pairs(t);
    large(t);
}
