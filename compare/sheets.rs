//! The calls of document.rs, color.rs, selection.rs, palette.rs and op.rs that return no sheet: what is expected of each,
//! and what ours answers and leaves.

use crate::calls::*;
use crate::drawn::{looked, marked, sheet, with_bytes, Pair};
use crate::lines;
use crate::sheet::*;
use pixelforge::color;
use pixelforge::editor::op::normalize as rust_normalize;
use pixelforge::editor::palette as rust_palette;
use pixelforge::editor::selection::region as rust_region;
use pixelforge::editor::tools::Stroke;
use pixelforge::editor::{Document, EditError, Op, Selection};
use std::sync::atomic::{AtomicUsize, Ordering::Relaxed};

pub fn check(c: &Case) -> Pair {
    let s = &c.sheet;
    [vec![c.no.into()], vec![sheet!(call_check, s,).into()]]
}

/// The marks after an opening: "false at opening", those of the k entries.
fn opened(s: &Sheet, no: u8) -> Vec<bool> {
    let mut locks = s.locks.clone();
    if no == 0 {
        locks[..s.k].fill(false);
    }
    locks
}

pub fn with_lab(c: &Case) -> Pair {
    let s = &c.sheet;
    let no = s.marked_number(false);
    let mut expected = vec![no.into()];
    flags(&mut expected, &opened(s, no));
    let mut locks = s.locks.clone();
    let mut ours = vec![sheet!(call_with_lab, s, &mut locks).into()];
    flags(&mut ours, &locks);
    [expected, ours]
}

/// LAB storage is written over, so 3 is no check of it.
pub fn new_sheet(c: &Case) -> Pair {
    let s = &c.sheet;
    let mut lab = s.lab.clone();
    let mut no = u8::from(s.is_bad() || s.locks.len() != MARKS);
    if no == 0 {
        match new(s) {
            Some(doc) => lab[..3 * s.k].copy_from_slice(&doc.palette_lab),
            None => no = 2,
        }
    }
    let mut expected = vec![no.into()];
    doubles(&mut expected, &lab);
    flags(&mut expected, &opened(s, no));
    let (mut lab, mut locks) = (s.lab.clone(), s.locks.clone());
    let no = call_new(s.w, s.h, s.k, &s.palette, &mut lab, &s.indices, &mut locks);
    let mut ours = vec![no.into()];
    doubles(&mut ours, &lab);
    flags(&mut ours, &locks);
    [expected, ours]
}

pub fn get_at(c: &Case, x: i32, y: i32) -> Pair {
    let s = &c.sheet;
    let no = if c.no != 0 {
        c.no
    } else {
        first(&[(15, far(x) || far(y))])
    };
    let found = if no == 0 {
        c.doc().get_at(x.into(), y.into())
    } else {
        None
    };
    let mut got = [INDEX];
    let told = sheet!(call_get_at, s, x, y, &mut got);
    [looked(no, found), vec![told.into(), got[0] as u16 as u64]]
}

pub fn counts(c: &Case, out: usize) -> Pair {
    let s = &c.sheet;
    let told = |no: u8, r: &[usize], out: &[u32]| {
        let mut words = vec![u64::from(no)];
        sizes(&mut words, r);
        words.extend(out.iter().map(|&n| u64::from(n)));
        words
    };
    let blank = vec![HALF as u32; out];
    let expected = if c.no != 0 {
        told(c.no, &R, &blank)
    } else if s.k > out {
        told(16, &R, &blank)
    } else {
        let result: Vec<u32> = c.doc().counts().iter().map(|&n| n as u32).collect();
        told(0, &numbers(&[s.k]), &over(&result, out, HALF as u32))
    };
    let (mut list, mut r) = (blank, R);
    let no = sheet!(call_counts, s, &mut list, &mut r);
    [expected, told(no, &r, &list)]
}

/// The baseline has no LAB; it is a sheet here whose LAB is not looked at.
pub fn diff_mask(c: &Case, base: &Sheet, out: usize) -> Pair {
    let s = &c.sheet;
    let bad = base.w > 1024
        || base.h > 1024
        || base.k > 255
        || base.palette.len() != STORAGE
        || base.indices.len() != base.w * base.h;
    let mut no = first(&[
        (c.no, c.no != 0),
        (1, bad || (base.w, base.h) != (s.w, s.h)),
    ]);
    let mut doc = None;
    if no == 0 {
        // the baseline's 2 is `with_lab`'s refusal of it
        let made = new(base);
        no = if made.is_none() { 2 } else { 0 };
        doc = made.map(|b| Document {
            baseline: b.indices,
            baseline_palette: b.palette,
            ..c.doc().clone()
        });
    }
    let expected = with_bytes(no, out, || {
        doc.unwrap()
            .diff_mask()
            .iter()
            .map(|&d| u8::from(d))
            .collect()
    });
    let (mut mask, mut r) = (vec![BYTE; out], R);
    let no = sheet!(
        call_diff_mask,
        s,
        base.w,
        base.h,
        base.k,
        &base.palette,
        &base.indices,
        &mut mask,
        &mut r
    );
    [expected, marked(no, &r, &mask)]
}

/// Number 1 of the permitted colours: present, at most 4,096 of three bytes each.
pub fn permitted_no(limited: bool, permitted: &[u8]) -> Pair {
    let bad = limited && (permitted.len() % 3 != 0 || permitted.len() > 3 * 4096);
    let ours = call_permitted_no(limited, permitted);
    [vec![bad.into()], vec![ours.into()]]
}

/// Whether `with_lab` finds a stray index; the number 0 is that of an answer.
pub fn any_stray_below(indices: &[i16], k: i16) -> Pair {
    let stray = indices.iter().any(|&i| i < -1 || i >= k);
    let ours = call_any_stray_below(indices, k);
    [vec![0, stray.into()], vec![0, ours.into()]]
}

// color.rs

/// `srgb_to_linear`, which is private in color.rs, in its own words.
pub fn linear(c: u8) -> Pair {
    let unit = f64::from(c) / 255.0;
    let value = if unit > 0.04045 {
        libm_exact::pow((unit + 0.055) / 1.055, 2.4)
    } else {
        unit / 12.92
    };
    [vec![0, value.to_bits()], vec![0, call_linear(c).to_bits()]]
}

/// A double's bits, and one word for every NaN. The word is no NaN's bits, since rustc may take one NaN for another.
fn one(x: f64) -> u64 {
    if x.is_nan() {
        1
    } else {
        x.to_bits()
    }
}

/// `dist2`, which is private in color.rs, in its own words; its root is the Rust's `delta_e`.
fn own_dist2(p: &[f64], q: &[f64]) -> f64 {
    let d = [p[0] - q[0], p[1] - q[1], p[2] - q[2]];
    let value = d[0] * d[0] + d[1] * d[1] + d[2] * d[2];
    assert_eq!(
        one(color::delta_e(p, q)[0]),
        one(value.sqrt()),
        "the Rust's delta_e"
    );
    value
}

pub fn dist2(p: [f64; 3], q: [f64; 3]) -> Pair {
    let (expected, ours) = (own_dist2(&p, &q), call_dist2(&p, &q));
    [vec![0, one(expected)], vec![0, one(ours)]]
}

/// How many distances were held to the words above, and how many of them are infinite.
pub static DISTANCES: AtomicUsize = AtomicUsize::new(0);
pub static INFINITE: AtomicUsize = AtomicUsize::new(0);

/// What is expected beside an entry that the Rust names: it has no distance to hand back, so `own_dist2` of that entry.
fn expected_distance(target: &[f64], lab: &[f64], entry: usize) -> [f64; 1] {
    let value = own_dist2(target, &lab[3 * entry..3 * entry + 3]);
    DISTANCES.fetch_add(1, Relaxed);
    INFINITE.fetch_add(value.is_infinite().into(), Relaxed);
    [value]
}

pub fn rgb8_to_lab(rgb: [u8; 3]) -> Pair {
    let mut out = DOUBLES;
    call_rgb8_to_lab(&rgb, &mut out);
    let (mut expected, mut ours) = (vec![0], vec![0]);
    doubles(&mut expected, &color::rgb8_to_lab(&rgb));
    doubles(&mut ours, &out);
    [expected, ours]
}

pub fn cbrt(t: f64) -> Pair {
    let mut out = DOUBLES;
    let no = call_cbrt(t, &mut out);
    let inside = (1.0 / 128.0..=2.0).contains(&t);
    let root = if inside { libm_exact::cbrt(t) } else { REAL };
    let mut ours = vec![no.into()];
    doubles(&mut ours, &out);
    let mut expected = vec![if inside { 0 } else { 20 }];
    doubles(&mut expected, &[root, REAL, REAL]);
    [expected, ours]
}

/// An entry, and its distance.
fn found(no: u8, r: [usize; 5], away: [f64; 1]) -> Vec<u64> {
    let mut words = vec![no.into()];
    sizes(&mut words, &r);
    doubles(&mut words, &away);
    words
}

pub fn nearest_index(target: [f64; 3], lab: &[f64], k: usize) -> Pair {
    let bad = k > 255 || lab.len() != STORAGE;
    let no = if bad {
        1
    } else {
        let unfit = target.iter().chain(&lab[..3 * k]).any(|x| !x.is_finite());
        first(&[(3, unfit), (7, k == 0)])
    };
    let (mut r, mut away) = (R, AWAY);
    if no == 0 {
        r[0] = color::nearest_index(&target, &lab[..3 * k])[0] as usize;
        away = expected_distance(&target, lab, r[0]);
    }
    let expected = found(no, r, away);
    let (mut r, mut away) = (R, AWAY);
    let no = call_nearest_index(&target, lab, k, &mut r, &mut away);
    [expected, found(no, r, away)]
}

// selection.rs

fn chosen(no: u8, s: Option<Selection>) -> Vec<u64> {
    let told = if no != 0 {
        no
    } else if s.is_some() {
        0
    } else {
        255
    };
    let mut words = vec![told.into()];
    // a part's numbers have 16 bits in ours; that they fit is looked at here
    match s.filter(|_| no == 0) {
        Some(s) => sizes(&mut words, &[s.x, s.y, s.w, s.h]),
        None => shorts(&mut words, &S),
    }
    words
}

fn told_part(no: u8, s: [u16; 4]) -> Vec<u64> {
    let mut words = vec![no.into()];
    shorts(&mut words, &s);
    words
}

fn wide(w: usize, h: usize) -> bool {
    w > 1024 || h > 1024
}

pub fn all(w: usize, h: usize) -> Pair {
    let mut out = S;
    let no = call_all(w, h, &mut out);
    [
        chosen(first(&[(1, wide(w, h))]), Some(Selection::all(w, h))),
        told_part(no, out),
    ]
}

pub fn from_corners(at: [i32; 4], w: usize, h: usize) -> Pair {
    let no = first(&[(1, wide(w, h)), (15, at.iter().any(|&z| far(z)))]);
    let [ax, ay, bx, by] = at.map(i64::from);
    let s = if no == 0 {
        Selection::from_corners((ax, ay), (bx, by), w, h)
    } else {
        None
    };
    let mut out = S;
    let told = call_from_corners(at[0], at[1], at[2], at[3], w, h, &mut out);
    [chosen(no, s), told_part(told, out)]
}

pub fn contains(s: [u16; 4], x: usize, y: usize) -> Pair {
    let expected = selection(s).contains(x, y);
    [
        vec![0, expected.into()],
        vec![0, call_contains(&s, x, y).into()],
    ]
}

/// 1 inside, as ours has it; the word after the number tells it apart from a refusal.
pub fn contains_i(s: [u16; 4], x: i32, y: i32) -> Pair {
    let expected = if far(x) || far(y) {
        vec![15, 15]
    } else if selection(s).contains_i(x.into(), y.into()) {
        vec![0, 1]
    } else {
        vec![255, 255]
    };
    let told = u64::from(call_contains_i(&s, x, y));
    [expected, vec![if told == 1 { 0 } else { told }, told]]
}

pub fn translated(s: [u16; 4], dx: i32, dy: i32, w: usize, h: usize) -> Pair {
    let no = first(&[
        (1, wide(w, h)),
        (15, far(dx) || far(dy)),
        (5, !inside(s, w, h)),
    ]);
    let moved = if no == 0 {
        selection(s).translated(dx.into(), dy.into(), w, h)
    } else {
        None
    };
    let mut out = S;
    let told = call_translated(&s, dx, dy, w, h, &mut out);
    [chosen(no, moved), told_part(told, out)]
}

pub fn grown(s: [u16; 4], margin: usize, w: usize, h: usize) -> Pair {
    let no = first(&[
        (1, wide(w, h)),
        (15, margin > 65_536),
        (5, !inside(s, w, h)),
    ]);
    let more = if no == 0 {
        Some(selection(s).grown(margin, w, h))
    } else {
        None
    };
    let mut out = S;
    let told = call_grown(&s, margin, w, h, &mut out);
    [chosen(no, more), told_part(told, out)]
}

/// The words of an answer with points in a buffer, two numbers each.
fn pointed(no: u8, r: &[usize], out: &[i32]) -> Vec<u64> {
    let mut words = vec![no.into()];
    sizes(&mut words, r);
    halves(&mut words, out);
    words
}

fn with_points(no: u8, out: usize, result: impl FnOnce() -> Vec<i32>) -> Vec<u64> {
    if no != 0 {
        return pointed(no, &R, &vec![HALF; out]);
    }
    let list = result();
    if list.len() > out {
        return pointed(16, &R, &vec![HALF; out]);
    }
    pointed(0, &numbers(&[list.len() / 2]), &over(&list, out, HALF))
}

pub fn positions(s: [u16; 4], out: usize) -> Pair {
    let expected = if usize::from(s[2]) * usize::from(s[3]) > out / 2 {
        pointed(16, &R, &vec![HALF; out])
    } else {
        with_points(0, out, || {
            selection(s)
                .positions()
                .flat_map(|(x, y)| [x as i32, y as i32])
                .collect()
        })
    };
    let (mut list, mut r) = (vec![HALF; out], R);
    let no = call_positions(&s, &mut list, &mut r);
    [expected, pointed(no, &r, &list)]
}

pub fn region(a: Area, w: usize, h: usize) -> Pair {
    let no = first(&[(1, wide(w, h)), (5, a.is_off(w, h))]);
    let mut out = S;
    let told = call_region(a.whole, &a.s, w, h, &mut out);
    [
        chosen(no, Some(rust_region(a.chosen().as_ref(), w, h))),
        told_part(told, out),
    ]
}

// tools.rs and op.rs on lists

pub fn bresenham(at: [i32; 4], out: usize) -> Pair {
    let [ax, ay, bx, by] = at.map(i64::from);
    let no = first(&[(15, at.iter().any(|&z| far(z)))]);
    let expected = with_points(no, out, || {
        lines::bresenham((ax, ay), (bx, by))
            .iter()
            .flat_map(|&(x, y)| [x as i32, y as i32])
            .collect()
    });
    let (mut list, mut r) = (vec![HALF; out], R);
    let no = call_bresenham(at[0], at[1], at[2], at[3], &mut list, &mut r);
    [expected, pointed(no, &r, &list)]
}

/// E4: ours from a to b, beside ours from b to a, reversed.
pub fn both_ways([ax, ay, bx, by]: [i32; 4]) -> Pair {
    let count = 1 + (ax - bx).abs().max((ay - by).abs()) as usize;
    let (mut there, mut back) = (vec![HALF; 2 * count], vec![HALF; 2 * count]);
    let (mut r, mut s) = (R, R);
    let no = call_bresenham(ax, ay, bx, by, &mut there, &mut r);
    let no_back = call_bresenham(bx, by, ax, ay, &mut back, &mut s);
    let turned: Vec<i32> = back.chunks(2).rev().flatten().copied().collect();
    [pointed(no_back, &s, &turned), pointed(no, &r, &there)]
}

fn listed(no: u8, r: &[usize], out: &[u64]) -> Vec<u64> {
    let mut words = vec![no.into()];
    sizes(&mut words, r);
    words.extend_from_slice(out);
    words
}

pub fn normalize(list: &[u64], scratch: usize, out: usize) -> Pair {
    let no = first(&[(21, list.len() > MAX_CHANGES), (16, scratch < list.len())]);
    let normal = if no == 0 {
        list_of(&rust_normalize(changes_of(list)))
    } else {
        Vec::new()
    };
    let no = if no == 0 && normal.len() > out {
        16
    } else {
        no
    };
    let expected = if no == 0 {
        listed(0, &numbers(&[normal.len()]), &over(&normal, out, WORD))
    } else {
        listed(no, &R, &vec![WORD; out])
    };
    let (mut room, mut to, mut r) = (vec![WORD; scratch], vec![WORD; out], R);
    let no = call_normalize(list, &mut room, &mut to, &mut r);
    [expected, listed(no, &r, &to)]
}

/// The words of an answer that is an edit, with its list in a buffer.
fn made(no: u8, b: [u8; 8], f: [f64; 3], r: [usize; 5], out: &[u64]) -> Vec<u64> {
    let mut words = listed(no, &r, &[]);
    bytes(&mut words, &b);
    doubles(&mut words, &f);
    words.extend_from_slice(out);
    words
}

/// What is expected of a call that makes an edit, its list in a buffer of so many places.
fn with_edit(no: u8, out: usize, counted: bool, op: impl FnOnce() -> Op) -> Vec<u64> {
    let refused = |no| made(no, BYTES, DOUBLES, R, &vec![WORD; out]);
    if no != 0 {
        return refused(no);
    }
    let (b, f, mut r, list) = flat_of(&op());
    if list.len() > out {
        return refused(16);
    }
    if counted {
        r[1] = list.len();
    }
    made(0, b, f, r, &over(&list, out, WORD))
}

pub fn pixels(tool: u8, list: &[u64], scratch: usize, out: usize) -> Pair {
    let no = first(&[(21, list.len() > MAX_CHANGES), (16, scratch < list.len())]);
    let expected = with_edit(no, out, true, || {
        Op::pixels(&tool.to_string(), changes_of(list))
    });
    let (mut room, mut to, mut b, mut f, mut r) =
        (vec![WORD; scratch], vec![WORD; out], BYTES, DOUBLES, R);
    let no = call_pixels(tool, list, &mut room, &mut to, &mut b, &mut f, &mut r);
    [expected, made(no, b, f, r, &to)]
}

pub fn is_empty(e: &Flat, list: &[u64]) -> Pair {
    let expected = if list.len() > MAX_CHANGES {
        vec![21, R[0] as u64]
    } else {
        vec![0, e.edit(list).is_empty().into()]
    };
    let mut r = R;
    let no = call_is_empty(&e.bytes, e.index, &e.lab, list, &mut r);
    [expected, vec![no.into(), r[0] as u64]]
}

pub fn kind(e: &Flat) -> Pair {
    let names = ["pixels", "palette_set", "palette_add", "palette_remove"];
    let expected = match e.edit(&[]) {
        Edit::Op(op) => names.iter().position(|n| *n == op.kind()).unwrap() as u64 + 1,
        Edit::Lock { .. } => 5,
    };
    [
        vec![0, expected],
        vec![0, call_kind(&e.bytes, e.index, &e.lab).into()],
    ]
}

/// A stroke that stands in the first `count` places of a buffer. The Rust's stroke is brought there by extending a new
/// one, which normalises; so the front of the buffer is in normal form.
pub fn extend(buffer: &[u64], count: usize, list: &[u64], scratch: usize) -> Pair {
    let no = first(&[
        (21, count > MAX_CHANGES || list.len() > MAX_CHANGES),
        (16, count > buffer.len() || scratch < count + list.len()),
    ]);
    let mut expected = None;
    if no == 0 {
        let mut stroke = Stroke::new("");
        stroke.extend(changes_of(&buffer[..count]));
        stroke.extend(changes_of(list));
        let joined = list_of(stroke.changes());
        if joined.len() <= buffer.len() {
            let mut out = buffer.to_vec();
            out[..joined.len()].copy_from_slice(&joined);
            expected = Some(listed(0, &numbers(&[joined.len()]), &out));
        }
    }
    let expected = expected.unwrap_or_else(|| listed(if no == 0 { 16 } else { no }, &R, buffer));
    let (mut to, mut room, mut r) = (buffer.to_vec(), vec![WORD; scratch], R);
    let no = call_extend(&mut to, count, list, &mut room, &mut r);
    [expected, listed(no, &r, &to)]
}

/// `Stroke::new`, `tool`, `changes` and `into_op`, of a stroke of the first `count` changes of a buffer, whatever they are:
/// the Rust's `into_op` is `Op::pixels`. The buffer is at the end of the words.
pub fn stroke(tool: u8, buffer: &[u64], count: usize, scratch: usize) -> Pair {
    let held = first(&[(21, count > MAX_CHANGES), (16, count > buffer.len())]);
    let mut expected_r = R;
    expected_r[2] = Stroke::new(&tool.to_string()).changes().len();
    if held == 0 {
        expected_r[3] = count;
    }
    let no = if held == 0 && scratch < count {
        16
    } else {
        held
    };
    let expected = if no == 0 {
        let op = Op::pixels(&tool.to_string(), changes_of(&buffer[..count]));
        let (b, f, _, normal) = flat_of(&op);
        expected_r[1] = normal.len();
        let mut out = buffer.to_vec();
        out[..normal.len()].copy_from_slice(&normal);
        made(0, b, f, expected_r, &out)
    } else {
        made(no, BYTES, DOUBLES, expected_r, buffer)
    };
    let (mut to, mut room, mut b, mut f, mut r) =
        (buffer.to_vec(), vec![WORD; scratch], BYTES, DOUBLES, R);
    let no = call_stroke(tool, &mut to, count, &mut room, &mut b, &mut f, &mut r);
    [expected, made(no, b, f, r, &to)]
}

// palette.rs

/// The permitted colours: absent, or a list of bytes.
#[derive(Clone, Debug)]
pub struct Permitted {
    pub limited: bool,
    pub list: Vec<u8>,
}

impl Permitted {
    pub fn is_bad(&self) -> bool {
        self.limited && (self.list.len() % 3 != 0 || self.list.len() > 3 * 4096)
    }

    pub fn fixed(&self) -> Option<Vec<[u8; 3]>> {
        self.limited.then(|| colours(&self.list))
    }
}

/// The number of a sheet with a list, and the Rust's document with it.
fn with_permitted(c: &Case, p: &Permitted) -> (u8, Option<Document>) {
    let no = c.sheet.number(p.is_bad());
    let doc = (no == 0).then(|| Document {
        fixed: p.fixed(),
        ..c.doc().clone()
    });
    (no, doc)
}

pub fn check_color(p: &Permitted, rgb: [u8; 3], c: &Case) -> Pair {
    // a method of the document, of which it reads the list alone
    let no = if p.is_bad() {
        1
    } else {
        let doc = Document {
            fixed: p.fixed(),
            ..c.doc().clone()
        };
        doc.check_color(rgb).err().map_or(0, |e| refusal(&e.0))
    };
    [
        vec![no.into()],
        vec![call_check_color(p.limited, &p.list, &rgb).into()],
    ]
}

pub fn fixed_choices(c: &Case, p: &Permitted, out: usize) -> Pair {
    let s = &c.sheet;
    let (no, doc) = with_permitted(c, p);
    let choices = doc.as_ref().map(rust_palette::fixed_choices);
    let expected = match choices {
        Some(None) => marked(255, &R, &vec![BYTE; out]),
        Some(Some(list)) => {
            assert!(list.iter().map(|c| c.0).eq(colours(&p.list)));
            with_bytes(0, out, || list.iter().map(|c| u8::from(c.1)).collect())
        }
        None => marked(no, &R, &vec![BYTE; out]),
    };
    let (mut used, mut r) = (vec![BYTE; out], R);
    let no = sheet!(call_fixed_choices, s, p.limited, &p.list, &mut used, &mut r);
    [expected, marked(no, &r, &used)]
}

/// An edit of the Rust's, or its refusal.
fn op_or_number(
    no: u8,
    op: impl FnOnce() -> Result<Op, EditError>,
    refused: impl FnOnce(&EditError) -> u8,
) -> (u8, Option<Op>) {
    if no != 0 {
        return (no, None);
    }
    match op() {
        Ok(op) => (0, Some(op)),
        Err(e) => (refused(&e), None),
    }
}

/// The number so far of a call that takes the marks, with 24 of an entry where there is none before it.
fn with_lock(s: &Sheet, no: u8, index: usize) -> u8 {
    if s.locks.len() != MARKS {
        1
    } else if no == 0 && s.is_locked(index) {
        24
    } else {
        no
    }
}

pub fn set_color(c: &Case, p: &Permitted, index: usize, rgb: [u8; 3]) -> Pair {
    let s = &c.sheet;
    let (no, doc) = with_permitted(c, p);
    let no = with_lock(s, no, index);
    let (no, op) = op_or_number(
        no,
        || rust_palette::set_color(doc.as_ref().unwrap(), index, rgb),
        |e| refusal(&e.0),
    );
    let expected = with_edit(no, 0, false, || op.unwrap());
    let (mut b, mut f, mut r) = (BYTES, DOUBLES, R);
    let no = sheet!(
        call_set_color,
        s,
        &s.locks,
        p.limited,
        &p.list,
        index,
        &rgb,
        &mut b,
        &mut f,
        &mut r
    );
    [expected, made(no, b, f, r, &[])]
}

pub fn add_color(c: &Case, p: &Permitted, rgb: [u8; 3]) -> Pair {
    let s = &c.sheet;
    let (no, doc) = with_permitted(c, p);
    let (no, op) = op_or_number(
        no,
        || rust_palette::add_color(doc.as_ref().unwrap(), rgb),
        |e| refusal(&e.0),
    );
    let expected = with_edit(no, 0, false, || op.unwrap());
    let (mut b, mut f, mut r) = (BYTES, DOUBLES, R);
    let no = sheet!(
        call_add_color,
        s,
        p.limited,
        &p.list,
        &rgb,
        &mut b,
        &mut f,
        &mut r
    );
    [expected, made(no, b, f, r, &[])]
}

/// The Rust says of a removal only that it cannot be: 7 where there is no such entry, else 9.
fn none_other(c: &Case, index: usize) -> u8 {
    if index >= c.sheet.k {
        7
    } else {
        9
    }
}

pub fn nearest_other(c: &Case, index: usize) -> Pair {
    let s = &c.sheet;
    let (mut r, mut away) = (R, AWAY);
    let mut no = c.no;
    if no == 0 {
        match rust_palette::nearest_other(c.doc(), index) {
            Some(i) => {
                r[0] = i;
                away = expected_distance(&s.lab[3 * index..3 * index + 3], &s.lab, i);
            }
            None => no = none_other(c, index),
        }
    }
    let expected = found(no, r, away);
    let (mut r, mut away) = (R, AWAY);
    let no = sheet!(call_nearest_other, s, index, &mut r, &mut away);
    [expected, found(no, r, away)]
}

/// An edit, the count of its changes and the entry that they move to, that entry's distance, and the list.
fn removed(
    no: u8,
    b: [u8; 8],
    f: [f64; 3],
    r: [usize; 5],
    away: [f64; 1],
    out: &[u64],
) -> Vec<u64> {
    let mut words = made(no, b, f, r, &[]);
    doubles(&mut words, &away);
    words.extend_from_slice(out);
    words
}

pub fn remove_entry(c: &Case, index: usize, out: usize) -> Pair {
    let s = &c.sheet;
    let (no, op) = op_or_number(
        with_lock(s, c.no, index),
        || rust_palette::remove_entry(c.doc(), index),
        |_| none_other(c, index),
    );
    let refused = |no| removed(no, BYTES, DOUBLES, R, AWAY, &vec![WORD; out]);
    let expected = op.map_or_else(
        || refused(no),
        |op| {
            let (b, f, mut r, list) = flat_of(&op);
            if list.len() > out {
                return refused(16);
            }
            let into = rust_palette::nearest_other(c.doc(), index).unwrap();
            (r[1], r[2]) = (list.len(), into);
            let away = expected_distance(&s.lab[3 * index..3 * index + 3], &s.lab, into);
            removed(0, b, f, r, away, &over(&list, out, WORD))
        },
    );
    let (mut list, mut b, mut f, mut r, mut away) = (vec![WORD; out], BYTES, DOUBLES, R, AWAY);
    let no = sheet!(
        call_remove_entry,
        s,
        &s.locks,
        index,
        &mut list,
        &mut b,
        &mut f,
        &mut r,
        &mut away
    );
    [expected, removed(no, b, f, r, away, &list)]
}

pub fn merge_entries(c: &Case, from: usize, into: usize, out: usize) -> Pair {
    let s = &c.sheet;
    let (no, op) = op_or_number(
        c.no,
        || rust_palette::merge_entries(c.doc(), from, into),
        |e| refusal(&e.0),
    );
    // "after 18 in a merge": of the entry that goes
    let no = with_lock(s, no, from);
    let expected = with_edit(no, out, true, || op.unwrap());
    let (mut list, mut b, mut f, mut r) = (vec![WORD; out], BYTES, DOUBLES, R);
    let no = sheet!(
        call_merge_entries,
        s,
        &s.locks,
        from,
        into,
        &mut list,
        &mut b,
        &mut f,
        &mut r
    );
    [expected, made(no, b, f, r, &list)]
}
