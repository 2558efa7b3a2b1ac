//! The lines that the program `test_sample` must print. Its inputs are dealt from seeds, here as in
//! crates/test_inputs and crates/test_sample, and the answers are the ones that the comparison expects: document 01's
//! checks, the Rust, E3's distances, E5's locks, the Rust under E6's curves, and E9's forms of a journal.

use crate::curve::{Curve, VALUES};
use crate::curves;
use crate::drawn;
use crate::forms::{self, Given};
use crate::histories;
use crate::journal::{self, Form, Handle, State, NOWHERE};
use crate::sheet::*;
use crate::sheets::{self, Permitted};
use crate::tiled;
use pixelforge::editor::op::normalize;
use pixelforge::editor::palette as rust_palette;
use pixelforge::editor::History;

const EACH: u64 = 60;
const HISTORIES: u64 = 24;
const STEPS: u64 = 60;
const NAMES: [&str; 66] = [
    "check",
    "with_lab",
    "new",
    "get_at",
    "counts",
    "diff_mask",
    "nearest_index",
    "eyedropper",
    "pencil",
    "eraser",
    "line",
    "rectangle",
    "flood_fill",
    "replace_color",
    "fill_global",
    "move_selection",
    "paste",
    "copy",
    "clip_rgba",
    "snap_rgba",
    "fixed_choices",
    "set_color",
    "add_color",
    "nearest_other",
    "remove_entry",
    "merge_entries",
    "rgb8_to_lab",
    "cbrt",
    "all",
    "from_corners",
    "contains",
    "contains_i",
    "translated",
    "grown",
    "positions",
    "region",
    "bresenham",
    "normalize",
    "pixels",
    "is_empty",
    "kind",
    "extend",
    "Stroke",
    "check_color",
    "fresh",
    "push",
    "undo",
    "redo",
    "mark_saved",
    "is_dirty",
    "can_undo",
    "can_redo",
    "next_undo",
    "next_redo",
    "applied",
    "replay",
    "flip",
    "extract",
    "mirror_tiles",
    "linear",
    "dist2",
    "permitted_no",
    "any_stray_below",
    "load_curve",
    "rgb8_to_lab_by",
    "convert",
];

// As in crates/test_inputs.

type Deck = [u64; 32];

fn next(x: u64) -> u64 {
    let a = x ^ (x << 13);
    let b = a ^ (a >> 7);
    b ^ (b << 17)
}

fn mix(h: u64, word: u64) -> u64 {
    next((h ^ word).wrapping_add(0x9e37_79b9_7f4a_7c15))
}

fn deck(seed: u64) -> Deck {
    let mut x = mix(mix(mix(0, seed), seed), seed);
    [(); 32].map(|_| {
        x = next(x);
        x
    })
}

fn pick(x: u64, n: usize) -> usize {
    (x >> 11) as usize % n
}

fn once_in(x: u64, n: usize) -> bool {
    pick(x, n) == 0
}

fn form(x: u64) -> Form {
    if once_in(x, 2) {
        Form::Places
    } else {
        Form::Coordinates
    }
}

fn near(x: u64) -> i32 {
    [-1, 0, 0, 0, 1, 1, 2, 5][pick(x, 8)]
}

fn coordinate(x: u64) -> i32 {
    match pick(x, 24) {
        0 => 65_536,
        1 => 65_537,
        2 => -65_536,
        3 => -65_537,
        _ => near(x >> 8),
    }
}

fn side(x: u64) -> usize {
    match pick(x, 12) {
        0 => 1023,
        1 => 1024,
        2 => 1025,
        _ => pick(x >> 8, 4),
    }
}

fn kind(x: u64) -> u8 {
    pick(x, 5) as u8 + 1
}

fn index(x: u64) -> i16 {
    pick(x, 6) as i16 - 2
}

/// The sides of a picture of six pixels, or with a width that none has.
fn sides(x: u64) -> (usize, usize) {
    match pick(x, 16) {
        0..=3 => (1, 6),
        4..=7 => (2, 3),
        8..=11 => (3, 2),
        12..=14 => (6, 1),
        _ => (7, 1),
    }
}

/// n values, each from the next number after a seed.
fn dealt<T>(seed: u64, n: usize, value: impl Fn(u64) -> T) -> Vec<T> {
    let mut x = seed;
    let one = |_| {
        x = next(x);
        value(x)
    };
    (0..n).map(one).collect()
}

fn bytes_of(seed: u64, n: usize) -> Vec<u8> {
    dealt(seed, n, |x| x as u8)
}

fn indices_of(seed: u64, k: usize, n: usize) -> Vec<i16> {
    dealt(seed, n, |x| pick(x, k + 1) as i16 - 1)
}

fn locks_of(seed: u64) -> Vec<bool> {
    dealt(seed, MARKS, |x| once_in(x, 2))
}

/// A curve, loaded or not, of which a rule may be broken.
fn curve(d: &Deck) -> Curve {
    let rise = |x: u64| f64::powi(2.0, [-8, -9, -16, -30][pick(x, 4)]);
    let rises = dealt(d[17], VALUES - 2, rise);
    let mut values = vec![0.0];
    rises
        .iter()
        .for_each(|x| values.push(values[values.len() - 1] + x));
    values.push(1.0);
    match pick(d[18], 12) {
        0 => values[255] = 0.9999999999999999,
        1 => values[128] = values[127],
        2 => values[0] = -0.5,
        3 => values[64] = f64::NAN,
        4 => values[0] = -0.0,
        5 => values.truncate(255),
        _ => {}
    }
    Curve {
        loaded: once_in(d[16], 3),
        values: values.into(),
    }
}

fn change(x: u64) -> u64 {
    let field = |n: u64| if n == 3 { 0xffff } else { n };
    (x >> 11 & 0x0003_0003) | field(x >> 31 & 3) << 32 | field(x >> 41 & 3) << 48
}

/// The fingerprint of an answer's words.
fn print_of(words: &[u64]) -> u64 {
    words.iter().fold(0, |h, w| mix(h, *w))
}

fn line(c: usize, expected: &[u64]) {
    println!("{} {} {:016x}", NAMES[c], expected[0], print_of(expected));
}

// As in crates/test_calls and crates/test_sample.

/// A sheet of six pixels.
fn sheet(d: &Deck, (w, h): (usize, usize)) -> Sheet {
    let k = pick(d[10], 4);
    let palette = bytes_of(d[12], STORAGE);
    let mut lab = vec![0.0; STORAGE];
    let indices = indices_of(d[13], k, 6);
    if w * h == 6 {
        lab[..3 * k].copy_from_slice(&pixelforge::color::rgb8_to_lab(&palette[..3 * k]));
    }
    Sheet {
        w,
        h,
        k,
        palette,
        lab,
        indices,
        locks: locks_of(d[9]),
        curve: curve(d),
    }
}

/// An edit of the kind, with the tool, the entry, the colours or the marks that are dealt.
fn flat(kind: u8, d: &Deck) -> Flat {
    let rgb = colour(d);
    let (old, new) = if kind == 5 {
        (once_in(d[26], 2).into(), once_in(d[27], 2).into())
    } else {
        (d[25] as u8, rgb[0])
    };
    Flat {
        bytes: [kind, d[24] as u8, old, 0, 0, new, rgb[1], rgb[2]],
        index: pick(d[20], 4),
        lab: [0.0; 3],
    }
}

fn colour(d: &Deck) -> [u8; 3] {
    let seed = if once_in(d[30], 2) { d[12] } else { d[30] };
    bytes_of(seed, 3).try_into().unwrap()
}

fn permitted(d: &Deck, limited: bool) -> Permitted {
    let seed = if once_in(d[31], 2) { d[30] } else { d[12] };
    Permitted {
        limited,
        list: bytes_of(seed, 6),
    }
}

fn selected(d: &Deck) -> [u16; 4] {
    let corner = |x: u64| [0, 0, 1, 2][pick(x, 4)];
    let extent = |x: u64| pick(x, 4) as u16;
    [corner(d[15]), corner(d[16]), extent(d[17]), extent(d[18])]
}

fn over_sheet(c: usize, d: &Deck) -> Vec<u64> {
    let mut s = sheet(d, sides(d[8]));
    match pick(d[11], 24) {
        0 => s.indices[0] = 3,
        1 => s.lab[0] = f64::INFINITY,
        2 => s.k = 256,
        _ => {}
    }
    if c == 2 {
        s.lab = vec![REAL; STORAGE];
    }
    if c == 63 {
        return load_curve(s, d);
    }
    let case = &Case::new(s);
    let a = Area {
        whole: once_in(d[14], 3),
        s: selected(d),
    };
    let (x, y, size, i) = (coordinate(d[19]), near(d[20]), pick(d[24], 5), index(d[23]));
    let (from, into) = (pick(d[20], 4), pick(d[21], 4));
    let (cw, ch) = sides(d[21]);
    let clip = indices_of(d[25], 3, 6);
    let p = permitted(d, once_in(d[28], 3));
    let [expected, _] = match c {
        0 => sheets::check(case),
        1 => sheets::with_lab(case),
        2 => sheets::new_sheet(case),
        3 => sheets::get_at(case, x, coordinate(d[20])),
        4 => sheets::counts(case, 2),
        5 => {
            let (w, h) = sides(if once_in(d[26], 8) { d[27] } else { d[8] });
            let k = pick(d[31], 4);
            let base = Sheet {
                w,
                h,
                k: if once_in(d[26], 2) { 2 } else { k },
                palette: bytes_of(d[12], STORAGE),
                lab: Vec::new(),
                indices: indices_of(d[25], k, 6),
                locks: Vec::new(),
                curve: Curve::none(),
            };
            sheets::diff_mask(case, &base, 7)
        }
        6 => {
            let lab = pixelforge::color::rgb8_to_lab(&colour(d));
            sheets::nearest_index(lab.try_into().unwrap(), &case.sheet.lab, case.sheet.k)
        }
        7 => drawn::eyedropper(case, x, coordinate(d[20])),
        8 | 9 => {
            let points = [x, y, near(d[21]), near(d[22])];
            if c == 8 {
                drawn::pencil(case, a, &points, size, i, 6, 4)
            } else {
                drawn::eraser(case, a, &points, size, 6, 4)
            }
        }
        10 => drawn::line(
            case,
            a,
            [x, y, near(d[21]), coordinate(d[22])],
            size,
            i,
            6,
            4,
        ),
        11 => drawn::rectangle(
            case,
            a,
            [x, y, near(d[21]), near(d[22])],
            once_in(d[26], 2),
            i,
            6,
            4,
        ),
        12 => drawn::flood_fill(case, a, x, y, i, 6, 4),
        13 => drawn::replace_color(case, a, index(d[31]), i, 4),
        14 => drawn::fill_global(case, a, x, y, i, 4),
        15 => drawn::move_selection(case, a.s, x, y, 6, 4),
        16 => drawn::paste(case, cw, ch, &clip, x, y, 6, 4),
        17 => drawn::copy(case, a, 5),
        18 => drawn::clip_rgba(case, cw, ch, &clip, 25),
        19 => drawn::snap_rgba(case, &bytes_of(d[25], 25), cw, ch, 5),
        20 => sheets::fixed_choices(case, &permitted(d, !once_in(d[28], 3)), 3),
        21 => sheets::set_color(case, &p, from, colour(d)),
        22 => sheets::add_color(case, &p, colour(d)),
        23 => sheets::nearest_other(case, from),
        24 => sheets::remove_entry(case, from, 3),
        25 => sheets::merge_entries(case, from, into, 3),
        57 => tiled::extract(case, size, 6, 4, 19),
        _ => tiled::mirror_tiles(
            case,
            a,
            !once_in(d[29], 12),
            size,
            &dealt(d[25], 2, change),
            6,
            4,
        ),
    };
    expected
}

/// With no records, mostly; with two or with one that is undone, or with a handle that is not sound.
fn load_curve(sheet: Sheet, d: &Deck) -> Vec<u64> {
    let handle = Handle::of(match pick(d[19], 8) {
        0 => [0, 8, 0, 1, 0],
        1 => [16, 16, 2, 2, NOWHERE],
        2 => [8, 8, 0, 0, 0],
        3 => [0, 0, 0, 0, NOWHERE],
        _ => [0; 5],
    });
    let st = State {
        sheet,
        form: form(d[15]),
        journal: vec![0; 16],
        handle,
    };
    let [expected, _] = curves::load_curve(&st, &st.sheet.curve.values);
    expected
}

const RADICANDS: [f64; 12] = [
    0.0,
    0.0078125,
    0.007812499999999999,
    2.0,
    2.0000000000000004,
    -1.0,
    1.0,
    0.008856,
    0.3333333333333333,
    1.9999999999999998,
    0.125,
    0.7,
];

fn loose(c: usize, d: &Deck) -> Vec<u64> {
    let s = selected(d);
    let (w, h) = (side(d[8]), side(d[9]));
    let (x, y) = (coordinate(d[19]), coordinate(d[20]));
    let rgb = colour(d);
    let edit = flat(kind(d[23]), d);
    let list = |seed: u64, n: usize| dealt(seed, n, change);
    let normal = || list_of(&normalize(changes_of(&list(d[25], 4))));
    let [expected, _] = match c {
        26 => sheets::rgb8_to_lab(rgb),
        27 => sheets::cbrt(RADICANDS[pick(d[12], 12)]),
        28 => sheets::all(w, h),
        29 => sheets::from_corners([x, y, near(d[21]), coordinate(d[22])], w, h),
        30 => sheets::contains(s, pick(d[19], 8), pick(d[20], 8)),
        31 => sheets::contains_i(s, x, y),
        32 => sheets::translated(s, x, y, w, h),
        33 => {
            let margin = match pick(d[21], 6) {
                0 => 65_536,
                1 => 65_537,
                _ => pick(d[21] >> 8, 4),
            };
            sheets::grown(s, margin, w, h)
        }
        34 => sheets::positions(s, 7),
        35 => sheets::region(
            Area {
                whole: once_in(d[14], 3),
                s,
            },
            w,
            h,
        ),
        36 => sheets::bresenham([x, near(d[20]), near(d[21]), near(d[22])], 11),
        37 => sheets::normalize(&list(d[25], 5), 5, 4),
        38 => sheets::pixels(d[24] as u8, &list(d[25], 5), 5, 4),
        39 => {
            // beside a list of one change, and none
            let [one, _] = sheets::is_empty(&edit, &[0]);
            let [mut none, _] = sheets::is_empty(&edit, &[]);
            none.insert(1, one[1]);
            [none, Vec::new()]
        }
        40 => sheets::kind(&edit),
        41 => {
            let front = normal();
            sheets::extend(&over(&front, 5, WORD), front.len(), &list(d[24], 3), 7)
        }
        42 => {
            // the fingerprint is without the buffer, whose changes are in normal form and stay as they are
            let buffer: Vec<u64> = (0..4).map(|x| x | 1 << 48).collect();
            let [mut words, _] = sheets::stroke(d[24] as u8, &buffer, pick(d[20], 4), 4);
            words.truncate(words.len() - buffer.len());
            [words, Vec::new()]
        }
        59 => sheets::linear(d[25] as u8),
        60 => {
            let lab = |rgb: &[u8]| pixelforge::color::rgb8_to_lab(rgb).try_into().unwrap();
            sheets::dist2(lab(&rgb), lab(&bytes_of(d[12], 3)))
        }
        61 => {
            let list = permitted(d, once_in(d[26], 2));
            sheets::permitted_no(list.limited, &list.list[..pick(d[24], 5)])
        }
        62 => sheets::any_stray_below(&indices_of(d[25], 3, 6), index(d[23])),
        64 => curves::rgb8_to_lab_by(&curve(d), rgb),
        _ => {
            // any well-formed sheet: the call looks at none
            let case = Case::new(sheet(&deck(1), (3, 2)));
            sheets::check_color(&permitted(d, once_in(d[28], 3)), rgb, &case)
        }
    };
    expected
}

fn call_of(x: u64) -> usize {
    match pick(x, 26) {
        0..=9 => 45,
        10..=12 => 46,
        13..=15 => 47,
        n @ 16..=23 => n + 32,
        _ => 65,
    }
}

fn told(no: u8, st: &State) -> Vec<u64> {
    let mut words = vec![no.into()];
    words.extend(st.words());
    words
}

/// One call of a history, after which the state is what is expected.
fn step(c: usize, d: &Deck, st: &mut State) -> Vec<u64> {
    if once_in(d[29], 12) {
        st.journal[pick(d[30], 120)] = d[25] as u8;
    }
    st.sheet.curve = curve(d);
    let p = permitted(d, once_in(d[28], 3));
    let [expected, _] = match c {
        45 => {
            let kind = kind(d[23]);
            let list = if kind == 4 {
                let (from, into) = (pick(d[20], 4), pick(d[21], 4));
                match rust_palette::merge_entries(&journal::document(&st.sheet), from, into) {
                    Ok(op) if !st.sheet.is_locked(from) => flat_of(&op).3,
                    _ => Vec::new(),
                }
            } else {
                dealt(d[25], pick(d[24], 5), change)
            };
            let doc = journal::document(&st.sheet);
            let (no, after, _) =
                histories::push(st, (&History::new(), &doc), &p, &flat(kind, d), &list, 6);
            *st = after;
            return told(no, st);
        }
        46 => {
            let (no, after) = journal::undo(st);
            *st = after;
            return told(no, st);
        }
        47 => {
            let (no, after) = journal::redo(st, 6);
            *st = after;
            return told(no, st);
        }
        48 => {
            let [mut expected, _] = histories::mark_saved(st);
            st.handle.saved = expected[5] as usize;
            expected.insert(1, st.sheet.k as u64);
            return expected;
        }
        49 => histories::is_dirty(st),
        50 => histories::can_undo(st),
        51 => histories::can_redo(st),
        52 => histories::next_undo(st),
        53 => histories::next_redo(st),
        54 => histories::applied(st, pick(d[21], 4)),
        65 => {
            let room = if once_in(d[26], 2) { 40 } else { 140 };
            forms::convert(&Given::of(st), &vec![BYTE; room])
        }
        _ => {
            let list = dealt(d[25], 2, change);
            let edit = flat(kind(d[23]), d);
            let (no, after) = histories::replayed(&st.sheet, &p, &edit, &list, 6);
            st.sheet = after;
            return told(no, st);
        }
    };
    expected
}

fn history(seed: u64) {
    let d = deck(seed);
    let mut opened = sheet(&d, (3, 2));
    opened.locks[..opened.k].fill(false);
    let mut st = State {
        sheet: opened,
        form: form(d[15]),
        journal: bytes_of(d[14], 120),
        handle: Handle::FRESH,
    };
    line(44, &[0, 1, 0, 0, 0, 0, 0]);
    for i in 1..STEPS {
        let d = deck(seed + i);
        let c = call_of(d[8]);
        line(c, &step(c, &d, &mut st));
    }
}

fn flip(d: &Deck) -> Vec<u64> {
    let t = if once_in(d[26], 2) { 2 } else { pick(d[24], 5) };
    let [expected, _] = tiled::flip(
        &indices_of(d[25], 3, 4),
        t,
        once_in(d[14], 3),
        once_in(d[28], 3),
        5,
    );
    expected
}

pub fn print() {
    for c in 0..53 {
        for i in 0..EACH {
            let d = deck(1000 * c as u64 + i);
            match c {
                26..=43 => line(c, &loose(c, &d)),
                44 => line(56, &flip(&d)),
                45 | 46 | 51 => line(c + 12, &over_sheet(c + 12, &d)),
                47.. => line(c + 12, &loose(c + 12, &d)),
                _ => line(c, &over_sheet(c, &d)),
            }
        }
    }
    for i in 0..HISTORIES {
        history(1_000_000 + 1000 * i);
    }
}
