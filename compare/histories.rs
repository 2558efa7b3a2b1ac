//! Histories: push, undo, redo, mark and what is asked of a history, beside history.rs and op.rs, and beside document 01's
//! ledger of whole pictures, in both forms of a journal. Small journals, short scratch and damaged sheets are among them.

use crate::calls::*;
use crate::curve::Curve;
use crate::draw::Draw;
use crate::drawn::Pair;
use crate::inputs::{any_edit, tell};
use crate::journal::{self, Handle, State, MAX_JOURNAL, NOWHERE};
use crate::sheet::*;
use crate::sheets::Permitted;
use crate::table::Table;
use pixelforge::editor::palette as rust_palette;
use pixelforge::editor::{Document, History, Op, PixelChange};

// Ours, over a state.

pub fn our_push(st: &mut State, p: &Permitted, e: &Flat, list: &[u64], scratch: usize) -> u8 {
    let mut n = st.numbers();
    let (s, mut room) = (&mut st.sheet, vec![BYTE; scratch]);
    let no = call_push(
        s.w,
        s.h,
        &mut s.palette,
        &mut s.lab,
        &mut s.indices,
        &mut s.locks,
        p.limited,
        &p.list,
        s.curve.loaded,
        &s.curve.values,
        &e.bytes,
        e.index,
        &e.lab,
        list,
        st.form.number(),
        &mut st.journal,
        &mut room,
        &mut n,
    );
    take(st, n);
    no
}

pub fn our_undo(st: &mut State) -> u8 {
    let mut n = st.numbers();
    let s = &mut st.sheet;
    let no = call_undo(
        s.w,
        s.h,
        &mut s.palette,
        &mut s.lab,
        &mut s.indices,
        &mut s.locks,
        st.form.number(),
        &st.journal,
        &mut n,
    );
    take(st, n);
    no
}

pub fn our_redo(st: &mut State, scratch: usize) -> u8 {
    let mut n = st.numbers();
    let (s, mut room) = (&mut st.sheet, vec![BYTE; scratch]);
    let no = call_redo(
        s.w,
        s.h,
        &mut s.palette,
        &mut s.lab,
        &mut s.indices,
        &mut s.locks,
        s.curve.loaded,
        &s.curve.values,
        st.form.number(),
        &st.journal,
        &mut room,
        &mut n,
    );
    take(st, n);
    no
}

fn take(st: &mut State, n: [usize; 6]) {
    st.sheet.k = n[0];
    st.handle = Handle::of([n[1], n[2], n[3], n[4], n[5]]);
}

pub fn told(no: u8, st: &State) -> Vec<u64> {
    let mut words = vec![no.into()];
    words.extend(st.words());
    words
}

// What is asked of a history, from its journal and its handle.

fn handle_number(st: &State) -> u8 {
    let long = st.journal.len() > MAX_JOURNAL;
    first(&[(1, long), (4, !st.handle.sound(st.journal.len()))])
}

pub fn mark_saved(st: &State) -> Pair {
    let no = handle_number(st);
    let saved = if no == 0 {
        st.handle.position
    } else {
        st.handle.saved
    };
    let mut expected = vec![no.into()];
    sizes(&mut expected, &Handle { saved, ..st.handle }.numbers());
    let ours = in_either_form(st, |form| {
        let mut n = st.numbers();
        let no = call_mark_saved(form, &st.journal, &mut n);
        truth(no, &n[1..])
    });
    [expected, ours]
}

/// What is answered in the state's form, which is what is answered in the other.
pub fn in_either_form(st: &State, call: impl Fn(u8) -> Vec<u64>) -> Vec<u64> {
    let ours = call(st.form.number());
    assert!(ours == call(st.form.other().number()), "the other form");
    ours
}

fn truth(no: u8, r: &[usize]) -> Vec<u64> {
    let mut words = vec![no.into()];
    sizes(&mut words, r);
    words
}

fn asked(st: &State, question: u8, yes: bool) -> Pair {
    let no = handle_number(st);
    let expected = if no == 0 {
        truth(0, &numbers(&[yes.into()]))
    } else {
        truth(no, &R)
    };
    let ours = in_either_form(st, |form| {
        let mut r = R;
        let no = call_asked(question, form, &st.journal, &st.numbers(), &mut r);
        truth(no, &r)
    });
    [expected, ours]
}

pub fn is_dirty(st: &State) -> Pair {
    let h = st.handle;
    asked(st, IS_DIRTY, h.saved == NOWHERE || h.saved != h.position)
}

pub fn can_undo(st: &State) -> Pair {
    asked(st, CAN_UNDO, st.handle.position > 0)
}

pub fn can_redo(st: &State) -> Pair {
    asked(st, CAN_REDO, st.handle.position < st.handle.count)
}

/// The words of a record that is shown. A LAB that is no number is shown as one NaN.
fn next(no: u8, b: [u8; 8], f: [f64; 3], r: [usize; 5]) -> Vec<u64> {
    let mut words = truth(no, &r);
    bytes(&mut words, &b);
    doubles(
        &mut words,
        &f.map(|x| if x.is_nan() { f64::NAN } else { x }),
    );
    words
}

fn record_shown(r: &journal::Read) -> Vec<u64> {
    let (b, f, mut n, list) = flat_of_edit(&r.edit);
    assert_eq!(list.len(), r.count);
    n[1..].copy_from_slice(&[r.start, r.length, r.list, r.count]);
    next(0, b, f, n)
}

/// Nothing, or a sound record after whose step the handle is sound, or 4.
fn shown_or(st: &State, none: bool, read: impl FnOnce() -> Option<journal::Read>) -> Vec<u64> {
    let no = handle_number(st);
    if no != 0 || none {
        return next(if no == 0 { 255 } else { no }, BYTES, DOUBLES, R);
    }
    read().map_or(next(4, BYTES, DOUBLES, R), |r| record_shown(&r))
}

/// What is expected, and what ours shows.
fn shown(st: &State, question: u8, number: usize, expected: Vec<u64>) -> Pair {
    let (mut b, mut f, mut r) = (BYTES, DOUBLES, R);
    let no = call_next(
        question,
        st.form.number(),
        &st.journal,
        &st.numbers(),
        number,
        &mut b,
        &mut f,
        &mut r,
    );
    [expected, next(no, b, f, r)]
}

pub fn next_undo(st: &State) -> Pair {
    let h = st.handle;
    let expected = shown_or(st, h.position == 0, || {
        journal::read_back(st).filter(|r| journal::back(h, r).sound(st.journal.len()))
    });
    shown(st, NEXT_UNDO, 0, expected)
}

pub fn next_redo(st: &State) -> Pair {
    let h = st.handle;
    let expected = shown_or(st, h.position == h.count, || {
        journal::read_forth(st, h.offset, h.end)
            .filter(|r| journal::forth(h, r).sound(st.journal.len()))
    });
    shown(st, NEXT_REDO, 0, expected)
}

/// An applied record by its number: the oldest starts at 0, each next one where the one before ends, and the records that
/// the position still counts have room before the standing offset, where the last one ends.
pub fn applied(st: &State, number: usize) -> Pair {
    let h = st.handle;
    let expected = shown_or(st, h.position <= number, || {
        let mut at = 0;
        for i in 0..=number {
            let r = journal::read_forth(st, at, h.offset)?;
            let (left, room) = (h.position - i - 1, h.offset - at - r.length);
            if room < 8 * left || (room == 0) != (left == 0) {
                return None;
            }
            if i == number {
                return Some(r);
            }
            at += r.length;
        }
        None
    });
    shown(st, APPLIED, number, expected)
}

// An edit on a sheet, by the Rust.

/// The number of the sheet with a list of colours; then 4 of the handle, then 25 of the curve.
pub fn push_entry(st: &State, p: &Permitted) -> u8 {
    let bad = p.is_bad() || st.journal.len() > MAX_JOURNAL;
    match st.sheet.marked_number(bad) {
        0 => first(&[
            (4, !st.handle.sound(st.journal.len())),
            (25, st.sheet.curve.is_unfit()),
        ]),
        no => no,
    }
}

/// What is expected of a push onto a history whose Rust twin is given: the number, what is left, and the twin after it. A
/// lock, which the Rust has not, leaves the twin as it is.
pub fn push(
    st: &State,
    twin: (&History, &Document),
    p: &Permitted,
    e: &Flat,
    list: &[u64],
    scratch: usize,
) -> (u8, State, Option<(History, Document)>) {
    let kept = |no: u8| (no, st.clone(), None);
    let no = push_entry(st, p);
    if no != 0 {
        return kept(no);
    }
    let edit = e.edit(list);
    if edit.is_empty() {
        let (mut history, mut doc) = (twin.0.clone(), twin.1.clone());
        if let Edit::Op(op) = edit {
            assert_eq!(history.push(&mut doc, op), Ok(false));
        }
        return kept(255);
    }
    let no = first(&[
        (21, list.len() > MAX_CHANGES),
        (16, scratch < st.sheet.w * st.sheet.h),
    ]);
    if no != 0 {
        return kept(no);
    }
    // "directly after 7"
    if edit.recoloured().is_some_and(|i| st.sheet.is_locked(i)) {
        return kept(24);
    }
    let (mut history, mut doc) = (twin.0.clone(), twin.1.clone());
    doc.fixed = p.fixed();
    let pushed = match edit.clone() {
        Edit::Op(op) => {
            match st.sheet.curve.under(|| history.push(&mut doc, op)) {
                Err(told) => return kept(refusal(&told.0)),
                Ok(pushed) => assert!(pushed),
            }
            Edit::Op(history.next_undo().unwrap().clone())
        }
        Edit::Lock { index, .. } if index >= st.sheet.k => return kept(7),
        // the sheet's own mark is the old one
        Edit::Lock { index, new, .. } => Edit::Lock {
            index,
            old: st.sheet.locks[index],
            new,
        },
    };
    // "'journal full' uses the lengths of the form in use"
    let record = journal::record_of(st.form, st.sheet.w, &pushed);
    let h = st.handle;
    let end = h.offset + record.len();
    if end > st.journal.len() {
        return kept(14);
    }
    let mut after = st.clone();
    after.sheet = journal::shown(&doc, &st.sheet).expect("what a push makes is well-formed");
    journal::marks_done(&mut after.sheet.locks, st.sheet.k, &edit);
    after.journal[h.offset..end].copy_from_slice(&record);
    after.handle = Handle {
        offset: end,
        end,
        position: h.position + 1,
        count: h.position + 1,
        saved: if h.saved != NOWHERE && h.saved > h.position {
            NOWHERE
        } else {
            h.saved
        },
    };
    (0, after, Some((history, doc)))
}

/// What is expected of `replay` of an edit on a sheet, and the sheet after it.
pub fn replayed(s: &Sheet, p: &Permitted, e: &Flat, list: &[u64], scratch: usize) -> (u8, Sheet) {
    let mut no = s.marked_number(p.is_bad());
    if no == 0 {
        no = first(&[
            (25, s.curve.is_unfit()),
            (21, list.len() > MAX_CHANGES),
            (16, scratch < s.w * s.h),
        ]);
    }
    if no != 0 {
        return (no, s.clone());
    }
    let edit = e.edit(list);
    if edit.recoloured().is_some_and(|i| s.is_locked(i)) {
        return (24, s.clone());
    }
    let mut doc = journal::document(s);
    doc.fixed = p.fixed();
    let no = match &edit {
        Edit::Op(op) => {
            let done = s.curve.under(|| doc.replay(op));
            done.err().map_or(0, |told| refusal(&told.0))
        }
        Edit::Lock { index, .. } if *index >= s.k => 7,
        Edit::Lock { index, old, .. } => first(&[(11, s.locks[*index] != *old)]),
    };
    if no != 0 {
        return (no, s.clone());
    }
    let mut after = journal::shown(&doc, s).expect("what a replay makes is well-formed");
    journal::marks_done(&mut after.locks, s.k, &edit);
    (0, after)
}

/// `replay` of an edit on a sheet.
pub fn replay(s: &Sheet, p: &Permitted, e: &Flat, list: &[u64], scratch: usize) -> Pair {
    let (no, after) = replayed(s, p, e, list, scratch);
    let words = |no: u8, s: &Sheet| {
        let mut words = vec![no.into(), s.k as u64];
        s.words(&mut words);
        words
    };
    let expected = words(no, &after);
    let (mut s, mut room) = (s.clone(), vec![BYTE; scratch]);
    let mut n = [s.k, 9, 9, 9, 9, 9];
    let no = call_replay(
        s.w,
        s.h,
        &mut s.palette,
        &mut s.lab,
        &mut s.indices,
        &mut s.locks,
        p.limited,
        &p.list,
        s.curve.loaded,
        &s.curve.values,
        &e.bytes,
        e.index,
        &e.lab,
        list,
        &mut room,
        &mut n,
    );
    s.k = n[0];
    [expected, words(no, &s)]
}

// Document 01's ledger, whose pictures include the marks (document 02, E5), and which uses the session's curve
// throughout (E6).

#[derive(Clone, PartialEq)]
struct Picture {
    indices: Vec<i16>,
    palette: Vec<[u8; 3]>,
    lab: Vec<[u64; 3]>,
    locks: Vec<bool>,
}

pub struct Ledger {
    w: usize,
    h: usize,
    curve: Curve,
    pictures: Vec<Picture>,
    standing: usize,
    saved: Option<usize>,
}

fn picture(s: &Sheet) -> Picture {
    let triple = |c: &[f64]| [c[0].to_bits(), c[1].to_bits(), c[2].to_bits()];
    Picture {
        indices: s.indices.clone(),
        palette: s.colours(),
        lab: s.lab[..3 * s.k].chunks_exact(3).map(triple).collect(),
        locks: s.locks[..s.k].to_vec(),
    }
}

fn lab_bits(curve: &Curve, rgb: [u8; 3]) -> [u64; 3] {
    let lab = curve.under(|| pixelforge::color::rgb8_to_lab(&rgb));
    [lab[0].to_bits(), lab[1].to_bits(), lab[2].to_bits()]
}

impl Ledger {
    /// Fed the opening sheet.
    pub fn open(s: &Sheet) -> Ledger {
        Ledger {
            w: s.w,
            h: s.h,
            curve: s.curve.clone(),
            pictures: vec![picture(s)],
            standing: 0,
            saved: Some(0),
        }
    }

    fn place(&self, c: &PixelChange) -> Option<usize> {
        (c.x < self.w && c.y < self.h).then(|| c.y * self.w + c.x)
    }

    /// The number of the first of a push's own checks that applies to the standing picture, or 0.
    fn own_number(&self, p: &Permitted, edit: &Edit) -> u8 {
        let now = &self.pictures[self.standing];
        let k = now.palette.len();
        let permitted = |rgb: &[u8; 3]| p.fixed().is_none_or(|list| list.contains(rgb));
        let locked = |index: usize| now.locks.get(index) == Some(&true);
        let op = match edit {
            Edit::Op(op) => op,
            Edit::Lock { index, .. } => return first(&[(7, *index >= k)]),
        };
        match op {
            Op::Pixels { changes, .. } => {
                let wrong = |c: &PixelChange| {
                    first(&[
                        (5, self.place(c).is_none()),
                        (6, c.new < -1 || c.new >= k as i64),
                    ])
                };
                changes.iter().map(wrong).find(|no| *no != 0).unwrap_or(0)
            }
            Op::PaletteSet { index, new, .. } => first(&[
                (7, *index >= k),
                (24, locked(*index)),
                (10, !permitted(new)),
            ]),
            Op::PaletteAdd { rgb } => first(&[(8, k == 255), (10, !permitted(rgb))]),
            Op::PaletteRemove { index, remap, .. } => {
                let no = first(&[(7, *index >= k), (24, locked(*index)), (9, k < 2)]);
                if no != 0 {
                    return no;
                }
                let entry = *index as i64;
                let mut left = now.indices.clone();
                for c in remap {
                    let Some(at) = self.place(c) else { return 5 };
                    let target = (0..k as i64).contains(&c.new) && c.new != entry;
                    if i64::from(now.indices[at]) != entry || c.old != entry || !target {
                        return 12;
                    }
                    left[at] = -1;
                }
                first(&[(13, left.iter().any(|&i| i64::from(i) == entry))])
            }
        }
    }

    /// The picture that an accepted edit makes.
    fn made(&self, edit: &Edit) -> Picture {
        let mut p = self.pictures[self.standing].clone();
        let op = match edit {
            Edit::Op(op) => op,
            Edit::Lock { index, new, .. } => {
                p.locks[*index] = *new;
                return p;
            }
        };
        let paint = |p: &mut Picture, list: &[PixelChange]| {
            list.iter()
                .for_each(|c| p.indices[c.y * self.w + c.x] = c.new as i16)
        };
        match op {
            Op::Pixels { changes, .. } => paint(&mut p, changes),
            Op::PaletteSet { index, new, .. } => {
                (p.palette[*index], p.lab[*index]) = (*new, lab_bits(&self.curve, *new))
            }
            Op::PaletteAdd { rgb } => {
                p.palette.push(*rgb);
                p.lab.push(lab_bits(&self.curve, *rgb));
                p.locks.push(false);
            }
            Op::PaletteRemove { index, remap, .. } => {
                paint(&mut p, remap);
                p.indices
                    .iter_mut()
                    .filter(|i| i64::from(**i) > *index as i64)
                    .for_each(|i| *i -= 1);
                p.palette.remove(*index);
                p.lab.remove(*index);
                p.locks.remove(*index);
            }
        }
        p
    }

    pub fn push(&mut self, p: &Permitted, edit: &Edit) -> u8 {
        let list = match edit {
            Edit::Op(Op::Pixels { changes, .. }) => changes.len(),
            Edit::Op(Op::PaletteRemove { remap, .. }) => remap.len(),
            _ => 0,
        };
        let no = first(&[(1, p.is_bad()), (21, list > MAX_CHANGES)]);
        if no != 0 {
            return no;
        }
        let no = self.own_number(p, edit);
        if no != 0 {
            return no;
        }
        if edit.is_empty() {
            return 255;
        }
        let made = self.made(edit);
        self.pictures.truncate(self.standing + 1);
        self.saved = self.saved.filter(|s| *s <= self.standing);
        self.pictures.push(made);
        self.standing += 1;
        0
    }

    pub fn undo(&mut self) -> u8 {
        if self.standing == 0 {
            return 255;
        }
        self.standing -= 1;
        0
    }

    pub fn redo(&mut self) -> u8 {
        if self.standing + 1 == self.pictures.len() {
            return 255;
        }
        self.standing += 1;
        0
    }

    pub fn mark(&mut self) {
        self.saved = Some(self.standing);
    }

    /// A sheet that shows the standing picture.
    pub fn sheet(&self) -> Sheet {
        let p = &self.pictures[self.standing];
        let lab: Vec<f64> = p.lab.concat().into_iter().map(f64::from_bits).collect();
        Sheet {
            w: self.w,
            h: self.h,
            k: p.palette.len(),
            palette: over(&p.palette.concat(), STORAGE, 0),
            lab: over(&lab, STORAGE, 0.0),
            indices: p.indices.clone(),
            locks: over(&p.locks, MARKS, false),
            curve: self.curve.clone(),
        }
    }

    /// That a state shows the standing picture at the ledger's positions.
    pub fn agrees(&self, st: &State) -> bool {
        let saved = if st.handle.saved == NOWHERE {
            None
        } else {
            Some(st.handle.saved)
        };
        picture(&st.sheet) == self.pictures[self.standing]
            && st.handle.position == self.standing
            && saved == self.saved
    }
}

// Sessions.

/// A list of changes that a push may take: mostly inside, news mostly of the palette.
pub fn any_changes(s: &Sheet, n: usize, draw: &mut Draw) -> Vec<u64> {
    let bad = draw.once_in(5);
    let change = |draw: &mut Draw| {
        let wrong = if bad && draw.once_in(3) {
            1 + draw.below(3)
        } else {
            0
        };
        PixelChange {
            x: if wrong == 1 {
                draw.from(&[s.w, s.w + 1, 65_535])
            } else {
                draw.below(s.w.max(1))
            },
            y: if wrong == 2 {
                draw.from(&[s.h, 65_535])
            } else {
                draw.below(s.h.max(1))
            },
            old: draw.within(-1, 3),
            new: if wrong == 3 {
                draw.from(&[-2, s.k as i64, 32_767, -32_768])
            } else {
                draw.below(s.k + 1) as i64 - 1
            },
        }
    };
    (0..n).map(|_| packed(&change(draw))).collect()
}

/// A removal: mostly a whole remap, which is sometimes damaged.
fn any_removal(doc: &Document, draw: &mut Draw) -> (usize, Vec<u64>) {
    let k = doc.palette.len();
    let (index, into) = (draw.below(k + 1), draw.below(k + 1));
    let made = if draw.once_in(2) {
        rust_palette::remove_entry(doc, index)
    } else {
        rust_palette::merge_entries(doc, index, into)
    };
    let mut list = match made {
        Ok(op) => flat_of(&op).3,
        Err(_) => Vec::new(),
    };
    if draw.once_in(4) && !list.is_empty() {
        let at = draw.below(list.len());
        match draw.below(6) {
            0 => {
                list.remove(at);
            }
            1 => list[at] ^= 1 << 32,
            2 => {
                list[at] = list[at] & 0xffff_ffff_ffff
                    | (draw.from(&[k as u64, index as u64, 0xffff, 0]) << 48)
            }
            3 => list[at] |= 0xffff,
            // a place named twice, with another target
            4 => list.push(list[at] & 0xffff_ffff_ffff | (draw.below(k) as u64) << 48),
            _ => list[at] ^= 1,
        }
    }
    (index, list)
}

pub fn any_push(s: &Sheet, doc: &Document, draw: &mut Draw) -> (Flat, Vec<u64>) {
    let mut e = any_edit(s.k, draw);
    let n = draw.from(&[0, 1, 1, 2, 3, 5, 9]);
    let list = match e.bytes[0] {
        4 => {
            let (index, list) = any_removal(doc, draw);
            e.index = index;
            list
        }
        _ => any_changes(s, n, draw),
    };
    (e, list)
}

pub fn any_permitted(s: &Sheet, draw: &mut Draw) -> Permitted {
    let n = draw.below(4);
    let mut list: Vec<u8> = (0..n).flat_map(|_| draw.rgb()).collect();
    if s.k > 0 && s.palette.len() == STORAGE && draw.once_in(2) {
        list.extend_from_slice(&s.palette[..3]);
    }
    if draw.once_in(60) {
        list.push(1);
    }
    if draw.once_in(200) {
        list.resize(3 * 4097, 7);
    }
    Permitted {
        limited: draw.once_in(3),
        list,
    }
}

/// Everything that is asked of a history.
fn questions(t: &mut Table, st: &State, history: &History, draw: &mut Draw) {
    let about = || format!("{:?} in {}", st.handle, st.journal.len());
    let pairs = [
        ("is_dirty", is_dirty(st)),
        ("can_undo", can_undo(st)),
        ("can_redo", can_redo(st)),
        ("next_undo", next_undo(st)),
        ("next_redo", next_redo(st)),
    ];
    // the Rust's own answers
    let yes = |pair: &Pair| pair[0][1] == 1;
    assert_eq!(yes(&pairs[0].1), history.is_dirty());
    assert_eq!(yes(&pairs[1].1), history.can_undo());
    assert_eq!(yes(&pairs[2].1), history.can_redo());
    for (pair, op) in [
        (&pairs[3].1, history.next_undo()),
        (&pairs[4].1, history.next_redo()),
    ] {
        match op {
            None => assert_eq!(pair[0][0], 255),
            Some(op) => {
                let at = pair[0][2] as usize;
                let record = journal::record(st.form, st.sheet.w, op);
                assert!(
                    st.journal[at..at + record.len()] == record[..],
                    "not the Rust's record"
                );
            }
        }
    }
    for (name, [expected, ours]) in pairs {
        t.tell(name, &expected, &ours, about);
    }
    if draw.once_in(4) {
        let mut at = 0;
        for (number, op) in history.applied().iter().enumerate() {
            let [expected, ours] = applied(st, number);
            assert_eq!(expected[2], at as u64, "not where the record starts");
            let record = journal::record(st.form, st.sheet.w, op);
            assert!(
                st.journal[at..at + record.len()] == record[..],
                "not the Rust's applied record"
            );
            t.tell("applied", &expected, &ours, about);
            at += record.len();
        }
        assert_eq!(at, st.handle.offset);
        let past = history.applied().len() + draw.below(9);
        tell!(t, "applied", applied(st, past), "{}, {past}", about());
        let any = draw.below(history.applied().len() + 1);
        tell!(t, "applied", applied(st, any), "{}, {any}", about());
    }
}

fn opening(draw: &mut Draw) -> Sheet {
    match draw.below(12) {
        0 => good(
            draw.below(4),
            draw.below(4),
            draw.from(&[253, 254, 255]),
            draw,
        ),
        1 => good(draw.below(20), draw.below(20), draw.below(9), draw),
        _ => good(draw.below(5), draw.below(5), draw.below(5), draw),
    }
}

/// One history, call by call.
fn session(t: &mut Table, draw: &mut Draw) {
    let form = t.form;
    let sheet = opening(draw);
    // of one change with its record, and one byte short of it
    let one = 10 + form.stride();
    let room = draw.from(&[
        0,
        7,
        8,
        9,
        one - 1,
        one,
        36,
        60,
        120,
        300,
        300,
        700,
        700,
        2000,
    ]);
    let mut st = State {
        journal: (0..room).map(|_| draw.next() as u8).collect(),
        handle: Handle::FRESH,
        sheet,
        form,
    };
    let mut fresh = [st.sheet.k, 1, 1, 1, 1, 1];
    call_fresh(&mut fresh);
    let expected = [st.sheet.k, 0, 0, 0, 0, 0].map(|n| n as u64);
    t.tell(
        "fresh",
        &[&[0], &expected[..]].concat(),
        &[&[0], &fresh.map(|n| n as u64)[..]].concat(),
        String::new,
    );
    let mut ledger = Ledger::open(&st.sheet);
    let mut history = History::new();
    let mut doc = journal::document(&st.sheet);
    let calls = 4 + draw.below(30);
    let undoing = draw.from(&[2, 3, 6]);
    for _ in 0..calls {
        let scratch = st.sheet.w * st.sheet.h + draw.from(&[0, 0, 0, 0, 1, 9]);
        let scratch = if draw.once_in(25) {
            scratch.saturating_sub(1 + draw.below(3))
        } else {
            scratch
        };
        let before = st.clone();
        let about = |what: &str| {
            format!(
                "{what} on {} with {:?} in {}",
                before.sheet.about(),
                before.handle,
                before.journal.len()
            )
        };
        match draw.below(10) {
            0..=5 if !draw.once_in(undoing) => {
                let p = any_permitted(&st.sheet, draw);
                let (e, list) = any_push(&st.sheet, &doc, draw);
                let (no, after, twin) = push(&st, (&history, &doc), &p, &e, &list, scratch);
                let ours = our_push(&mut st, &p, &e, &list, scratch);
                t.tell("push", &told(no, &after), &told(ours, &st), || {
                    about(&format!("{e:?} {list:x?} {p:?} {scratch}"))
                });
                if no != 14 && no != 16 {
                    assert_eq!(
                        ledger.push(&p, &e.edit(&list)),
                        no,
                        "the ledger's answer: {}",
                        about(&format!("{e:?} {list:x?}"))
                    );
                }
                if no == 0 {
                    tight(
                        t,
                        &before,
                        (&history, &doc),
                        &p,
                        &e,
                        &list,
                        after.handle.end,
                    );
                }
                if let Some((h, d)) = twin {
                    (history, doc) = (h, d);
                }
                if no == 0 && draw.once_in(3) {
                    // the edit with the olds that the sheet had, replayed on it, and on what it made
                    let op = history.next_undo().unwrap();
                    let (mut b, _, _, mut list) = flat_of(op);
                    if draw.once_in(4) {
                        b[2] ^= 1;
                    }
                    if draw.once_in(4) && !list.is_empty() {
                        let at = draw.below(list.len());
                        list[at] ^= 1 << 32;
                    }
                    let e = Flat { bytes: b, ..e };
                    tell!(
                        t,
                        "replay",
                        replay(&before.sheet, &p, &e, &list, scratch),
                        "{}",
                        about(&format!("{e:?} {list:x?} {p:?}"))
                    );
                    tell!(
                        t,
                        "replay",
                        replay(&st.sheet, &p, &e, &list, scratch),
                        "{}",
                        about(&format!("{e:?} {list:x?} {p:?} after"))
                    );
                }
            }
            0..=2 | 6 | 7 => {
                let (no, after) = journal::undo(&st);
                let ours = our_undo(&mut st);
                t.tell("undo", &told(no, &after), &told(ours, &st), || {
                    about("undo")
                });
                let stepped = history.undo(&mut doc);
                assert_eq!(no, if stepped { 0 } else { 255 }, "the Rust's undo");
                assert_eq!(ledger.undo(), no, "the ledger's undo");
            }
            3 | 4 | 8 => {
                let (no, after) = journal::redo(&st, scratch);
                let ours = our_redo(&mut st, scratch);
                t.tell("redo", &told(no, &after), &told(ours, &st), || {
                    about("redo")
                });
                if no != 16 {
                    let stepped = history.redo(&mut doc);
                    assert_eq!(no, if stepped { 0 } else { 255 }, "the Rust's redo");
                    assert_eq!(ledger.redo(), no, "the ledger's redo");
                }
            }
            _ => {
                let [expected, ours] = mark_saved(&st);
                t.tell("mark_saved", &expected, &ours, || about("mark"));
                st.handle.saved = ours[5] as usize;
                history.mark_saved();
                ledger.mark();
            }
        }
        assert!(ledger.agrees(&st), "the ledger: {}", about("after a call"));
        let twin = journal::shown(&doc, &st.sheet).expect("well-formed");
        assert!(
            twin.k == st.sheet.k && twin.same(&st.sheet),
            "the Rust's document: {}",
            about("after a call")
        );
        questions(t, &st, &history, draw);
    }
}

/// A push that is accepted, into a journal that ends where its record does, and into one that is a byte shorter.
fn tight(
    t: &mut Table,
    before: &State,
    twin: (&History, &Document),
    p: &Permitted,
    e: &Flat,
    list: &[u64],
    end: usize,
) {
    for (room, number) in [(end, 0), (end - 1, 14)] {
        let mut st = before.clone();
        st.journal.truncate(room);
        // what is undone does not lie past the journal
        st.handle = Handle {
            end: st.handle.offset,
            count: st.handle.position,
            saved: NOWHERE,
            ..st.handle
        };
        let scratch = st.sheet.w * st.sheet.h;
        let (no, after, _) = push(&st, twin, p, e, list, scratch);
        assert_eq!(no, number, "a record of its length");
        let ours = our_push(&mut st, p, e, list, scratch);
        t.tell(
            "push, exact and one byte short",
            &told(no, &after),
            &told(ours, &st),
            || format!("{e:?} {list:x?} in {room}, {:?}", st.form),
        );
    }
}

/// Pushes, replays, undos and redos on sheets and handles that are wrong from the start.
fn wrong(t: &mut Table, draw: &mut Draw) {
    let form = t.form;
    let sheet = any(draw);
    let journal = vec![3, 1, 2, 3, 8, 0, 0, 0, 3, 4, 5, 6, 8, 0, 0, 0, 0, 0, 0, 0];
    let handles = [
        [0, 0, 0, 0, 0],
        [8, 8, 1, 1, 0],
        [8, 16, 1, 2, NOWHERE],
        [0, 16, 0, 2, 2],
        [16, 16, 2, 2, 1],
        [8, 8, 1, 1, 2],
        [9, 8, 1, 1, 0],
        [0, 8, 1, 1, 0],
        [16, 16, 3, 3, 0],
        [8, 24, 1, 2, 0],
    ];
    let st = State {
        sheet,
        form,
        journal,
        handle: Handle::of(draw.from(&handles)),
    };
    let n = st.sheet.w * st.sheet.h;
    let scratch = draw.room(n);
    let about = || {
        format!(
            "{} with {:?}, scratch {scratch}",
            st.sheet.about(),
            st.handle
        )
    };
    let mut after = st.clone();
    let (no, expected) = journal::undo(&st);
    let ours = our_undo(&mut after);
    t.tell("undo", &told(no, &expected), &told(ours, &after), about);
    let mut after = st.clone();
    let (no, expected) = journal::redo(&st, scratch);
    let ours = our_redo(&mut after, scratch);
    t.tell("redo", &told(no, &expected), &told(ours, &after), about);
    for (name, [expected, ours]) in [
        ("is_dirty", is_dirty(&st)),
        ("can_undo", can_undo(&st)),
        ("can_redo", can_redo(&st)),
        ("next_undo", next_undo(&st)),
        ("next_redo", next_redo(&st)),
        ("mark_saved", mark_saved(&st)),
    ] {
        t.tell(name, &expected, &ours, about);
    }
    let number = draw.below(4);
    tell!(t, "applied", applied(&st, number), "{}, {number}", about());
    let p = any_permitted(&st.sheet, draw);
    let e = any_edit(st.sheet.k, draw);
    let count = draw.below(3);
    let list = any_changes(&st.sheet, count, draw);
    tell!(
        t,
        "replay",
        replay(&st.sheet, &p, &e, &list, scratch),
        "{} {e:?} {list:x?} {p:?}",
        about()
    );
    // the Rust's history starts anew; only its answer and its document are looked at
    let number = push_entry(&st, &p);
    let doc = if number == 0 {
        journal::document(&st.sheet)
    } else {
        journal::document(&good(1, 1, 1, draw))
    };
    let (no, expected, _) = push(&st, (&History::new(), &doc), &p, &e, &list, scratch);
    let mut after = st.clone();
    let ours = our_push(&mut after, &p, &e, &list, scratch);
    t.tell("push", &told(no, &expected), &told(ours, &after), || {
        format!("{} {e:?} {list:x?} {p:?}", about())
    });
}

/// The limits: 1,048,576 changes and one more, pushed and replayed; a journal of one byte too many.
fn limits(t: &mut Table, draw: &mut Draw) {
    let form = t.form;
    let sheet = good(3, 2, 2, draw);
    let e = Flat {
        bytes: [1, 5, 0, 0, 0, 0, 0, 0],
        index: 0,
        lab: [0.0; 3],
    };
    let p = Permitted {
        limited: false,
        list: Vec::new(),
    };
    for n in [MAX_CHANGES, MAX_CHANGES + 1] {
        let list: Vec<u64> = (0..n)
            .map(|i| (i % 3) as u64 + ((i % 2) as u64) * (1 << 48))
            .collect();
        let length = 10 + form.stride() * n;
        for room in [length, length - 1] {
            let st = State {
                sheet: sheet.clone(),
                form,
                journal: vec![0; room],
                handle: Handle::FRESH,
            };
            let doc = journal::document(&sheet);
            let (no, expected, _) = push(&st, (&History::new(), &doc), &p, &e, &list, 6);
            let mut after = st.clone();
            let ours = our_push(&mut after, &p, &e, &list, 6);
            t.tell("push", &told(no, &expected), &told(ours, &after), || {
                format!("{n} changes in {room} bytes")
            });
            if no == 0 {
                let mut st = after;
                let (no, expected) = journal::undo(&st);
                let ours = our_undo(&mut st);
                t.tell("undo", &told(no, &expected), &told(ours, &st), || {
                    format!("{n} changes")
                });
                let (no, expected) = journal::redo(&st, 6);
                let ours = our_redo(&mut st, 6);
                t.tell("redo", &told(no, &expected), &told(ours, &st), || {
                    format!("{n} changes")
                });
            }
        }
        let set = Flat {
            bytes: [
                2,
                0,
                sheet.palette[0],
                sheet.palette[1],
                sheet.palette[2],
                1,
                2,
                3,
            ],
            ..e
        };
        tell!(
            t,
            "replay",
            replay(&sheet, &p, &set, &list, 6),
            "set beside {n} changes"
        );
        tell!(
            t,
            "replay",
            replay(&sheet, &p, &e, &list, 5),
            "{n} changes, short scratch"
        );
    }
    // records of more changes than a push takes: undo has no such limit, redo has
    let n = MAX_CHANGES + 1;
    let op = Op::Pixels {
        tool: "1".into(),
        changes: vec![
            PixelChange {
                x: 1,
                y: 1,
                old: 0,
                new: 1
            };
            n
        ],
    };
    let journal = journal::record(form, sheet.w, &op);
    for (offset, position) in [(journal.len(), 1), (0, 0)] {
        let handle = Handle {
            offset,
            end: journal.len(),
            position,
            count: 1,
            saved: 0,
        };
        let mut st = State {
            sheet: sheet.clone(),
            form,
            journal: journal.clone(),
            handle,
        };
        let (no, expected) = if position == 1 {
            journal::undo(&st)
        } else {
            journal::redo(&st, 6)
        };
        let name = if position == 1 { "undo" } else { "redo" };
        let ours = if position == 1 {
            our_undo(&mut st)
        } else {
            our_redo(&mut st, 6)
        };
        t.tell(name, &told(no, &expected), &told(ours, &st), || {
            format!("a record of {n} changes")
        });
    }
    // untouched pages take no memory
    for (length, expected) in [(MAX_JOURNAL, 0), (MAX_JOURNAL + 1, 1)] {
        let mut journal = vec![0u8; length];
        let mut s = sheet.clone();
        let (mut n, mut r, mut room) = ([s.k, 0, 0, 0, 0, 0], R, [0; 6]);
        let f = form.number();
        let add = [3, 0, 0, 0, 0, 9, 9, 9];
        let ours = [
            (
                "push",
                call_push(
                    3,
                    2,
                    &mut s.palette,
                    &mut s.lab,
                    &mut s.indices,
                    &mut s.locks,
                    false,
                    &[],
                    s.curve.loaded,
                    &s.curve.values,
                    &add,
                    0,
                    &[0.0; 3],
                    &[],
                    f,
                    &mut journal,
                    &mut room,
                    &mut n,
                ),
            ),
            (
                "undo",
                call_undo(
                    3,
                    2,
                    &mut s.palette,
                    &mut s.lab,
                    &mut s.indices,
                    &mut s.locks,
                    f,
                    &journal,
                    &mut n,
                ),
            ),
            (
                "redo",
                call_redo(
                    3,
                    2,
                    &mut s.palette,
                    &mut s.lab,
                    &mut s.indices,
                    &mut s.locks,
                    s.curve.loaded,
                    &s.curve.values,
                    f,
                    &journal,
                    &mut room,
                    &mut n,
                ),
            ),
            ("mark_saved", call_mark_saved(f, &journal, &mut n)),
            ("is_dirty", call_asked(IS_DIRTY, f, &journal, &n, &mut r)),
            ("can_undo", call_asked(CAN_UNDO, f, &journal, &n, &mut r)),
            ("can_redo", call_asked(CAN_REDO, f, &journal, &n, &mut r)),
        ];
        for (name, no) in ours {
            t.tell(name, &[expected], &[no.into()], || {
                format!("a journal of {length} bytes")
            });
        }
        let (mut b, mut d) = (BYTES, DOUBLES);
        let looks = [
            ("next_undo", NEXT_UNDO),
            ("next_redo", NEXT_REDO),
            ("applied", APPLIED),
        ]
        .map(|(name, q)| {
            (
                name,
                call_next(q, f, &journal, &n, 0, &mut b, &mut d, &mut r),
            )
        });
        for ((name, no), within) in looks.into_iter().zip([0, 255, 0]) {
            let expected = if expected == 0 { within } else { 1 };
            t.tell(name, &[expected], &[no.into()], || {
                format!("a journal of {length} bytes")
            });
        }
    }
}

pub fn run(t: &mut Table) {
    let mut draw = Draw::new(9);
    for _ in 0..9_000 {
        session(t, &mut draw);
    }
    for _ in 0..20_000 {
        wrong(t, &mut draw);
    }
    limits(t, &mut draw);
}
