//! Document 01's journal, read from its text: the handle and when it is sound, the four kinds of a record, and when a
//! record is sound to undo or redo. What a sound step does to the sheet is the Rust's `revert` and `apply`. The record of a
//! lock, and what a step does to the lock marks, are document 02's, E5, read from its text; so is the form with place
//! numbers, E9.

use crate::sheet::*;
use pixelforge::config::Config;
use pixelforge::editor::{Document, Op, Origin, PixelChange};
use pixelforge::pyjson::Json;

/// A saved position that is none.
pub const NOWHERE: usize = usize::MAX;

#[derive(Clone, Copy, Debug, PartialEq, Eq)]
pub struct Handle {
    pub offset: usize,
    pub end: usize,
    pub position: usize,
    pub count: usize,
    pub saved: usize,
}

impl Handle {
    pub const FRESH: Handle = Handle {
        offset: 0,
        end: 0,
        position: 0,
        count: 0,
        saved: 0,
    };

    /// Sound in a journal of so many bytes.
    pub fn sound(&self, length: usize) -> bool {
        let wide = |n: usize| n as u128;
        self.offset <= self.end
            && self.end <= length
            && self.position <= self.count
            && (self.saved == NOWHERE || self.saved <= self.count)
            && 8 * wide(self.position) <= wide(self.offset)
            && 8 * wide(self.count - self.position) <= wide(self.end - self.offset)
            && (self.offset == 0) == (self.position == 0)
            && (self.offset == self.end) == (self.position == self.count)
    }

    pub fn numbers(&self) -> [usize; 5] {
        [self.offset, self.end, self.position, self.count, self.saved]
    }

    pub fn of(n: [usize; 5]) -> Handle {
        let [offset, end, position, count, saved] = n;
        Handle {
            offset,
            end,
            position,
            count,
            saved,
        }
    }
}

/// How a history's records hold a change: document 01's column and row, or document 02's place (E9). "A history is in
/// one form throughout, which each core call on a journal is told".
#[derive(Clone, Copy, Debug, Default, PartialEq, Eq)]
pub enum Form {
    #[default]
    Coordinates,
    Places,
}

impl Form {
    pub const BOTH: [Form; 2] = [Form::Coordinates, Form::Places];

    pub fn other(self) -> Form {
        match self {
            Form::Coordinates => Form::Places,
            Form::Places => Form::Coordinates,
        }
    }

    /// As ours is told it.
    pub fn number(self) -> u8 {
        u8::from(self == Form::Places)
    }

    /// The byte of document 01's kind: "17 for pixels and 20 for remove ..; other kinds do not change".
    pub fn kind_byte(self, kind: u8) -> u8 {
        match (self, kind) {
            (Form::Places, 1) => 17,
            (Form::Places, 4) => 20,
            _ => kind,
        }
    }

    /// Document 01's kind, or 5 for a lock, of a record's first byte; none for a kind of the other form.
    pub fn kind(self, byte: u8) -> Option<u8> {
        (1..=5).find(|&kind| self.kind_byte(kind) == byte)
    }

    /// The bytes of a change: "lengths 10+7n and 37+7n".
    pub fn stride(self) -> usize {
        match self {
            Form::Coordinates => 8,
            Form::Places => 7,
        }
    }

    /// "place y × w + x in three bytes, then old and new in two each".
    pub fn change_bytes(self, w: usize, c: &PixelChange) -> Vec<u8> {
        let bytes = packed(c).to_le_bytes();
        match self {
            Form::Coordinates => bytes.to_vec(),
            Form::Places => {
                let place = (c.y * w + c.x).to_le_bytes();
                [&place[..3], &bytes[4..]].concat()
            }
        }
    }

    /// The change of so many bytes, on a sheet of this width. Without a width every place is off the sheet.
    pub fn change(self, w: usize, b: &[u8]) -> PixelChange {
        let field = |at: usize| i64::from(i16::from_le_bytes([b[at], b[at + 1]]));
        match self {
            Form::Coordinates => unpacked(u64::from_le_bytes(b.try_into().unwrap())),
            Form::Places => {
                let place =
                    usize::from(b[0]) + (usize::from(b[1]) << 8) + (usize::from(b[2]) << 16);
                PixelChange {
                    x: place.checked_rem(w).unwrap_or(place),
                    y: place.checked_div(w).unwrap_or(0),
                    old: field(3),
                    new: field(5),
                }
            }
        }
    }
}

/// What the history's calls are lent.
#[derive(Clone)]
pub struct State {
    pub sheet: Sheet,
    pub form: Form,
    pub journal: Vec<u8>,
    pub handle: Handle,
}

pub const MAX_JOURNAL: usize = 2_147_483_647;

impl State {
    pub fn same(&self, other: &State) -> bool {
        self.sheet.k == other.sheet.k
            && self.handle == other.handle
            && self.journal == other.journal
            && self.sheet.same(&other.sheet)
    }

    /// The palette count and the handle as ours is lent them.
    pub fn numbers(&self) -> [usize; 6] {
        let h = self.handle;
        [self.sheet.k, h.offset, h.end, h.position, h.count, h.saved]
    }

    pub fn words(&self) -> Vec<u64> {
        let mut words = Vec::new();
        sizes(&mut words, &self.numbers());
        self.sheet.words(&mut words);
        bytes(&mut words, &self.journal);
        words
    }
}

/// An edit's record on a sheet of this width: "kind 5, index, old mark, new mark, length, 8 bytes" of a lock.
pub fn record_of(form: Form, w: usize, e: &Edit) -> Vec<u8> {
    match e {
        Edit::Op(op) => record(form, w, op),
        Edit::Lock { index, old, new } => {
            vec![5, *index as u8, u8::from(*old), u8::from(*new), 8, 0, 0, 0]
        }
    }
}

/// The record of one of the Rust's edits.
pub fn record(form: Form, w: usize, op: &Op) -> Vec<u8> {
    let mut to = Vec::new();
    let changes = |to: &mut Vec<u8>, list: &[PixelChange]| {
        to.extend((list.len() as u32).to_le_bytes());
        list.iter().for_each(|c| to.extend(form.change_bytes(w, c)));
    };
    let lab = |to: &mut Vec<u8>, lab: &[f64; 3]| {
        lab.iter()
            .for_each(|x| to.extend(x.to_bits().to_le_bytes()))
    };
    match op {
        Op::Pixels {
            tool,
            changes: list,
        } => {
            to.extend([form.kind_byte(1), tool.parse().unwrap()]);
            changes(&mut to, list);
        }
        Op::PaletteSet {
            index,
            old,
            new,
            old_lab,
        } => {
            to.extend([2, *index as u8]);
            to.extend(old);
            to.extend(new);
            lab(&mut to, old_lab);
        }
        Op::PaletteAdd { rgb } => {
            to.push(3);
            to.extend(rgb);
        }
        Op::PaletteRemove {
            index,
            rgb,
            lab: old,
            remap,
        } => {
            to.extend([form.kind_byte(4), *index as u8]);
            to.extend(rgb);
            lab(&mut to, old);
            changes(&mut to, remap);
        }
    }
    let length = to.len() as u32 + 4;
    to.extend(length.to_le_bytes());
    to
}

/// A record that was read: where it starts, its length, its edit, how many changes, and where they start.
pub struct Read {
    pub start: usize,
    pub length: usize,
    pub edit: Edit,
    pub count: usize,
    pub list: usize,
}

fn four(b: &[u8], at: usize) -> Option<usize> {
    let four = b.get(at..at.checked_add(4)?)?;
    Some(u32::from_le_bytes(four.try_into().unwrap()) as usize)
}

/// The record at the front of some bytes, which start at `start` in the journal of a sheet of this width. Kind, count and
/// length agree, or none; "a recorded mark other than 0 or 1 gets 4".
fn read(form: Form, w: usize, b: &[u8], start: usize) -> Option<Read> {
    let kind = form.kind(*b.first()?)?;
    let (count_at, fixed) = match kind {
        1 => (Some(2), 10),
        2 => (None, 36),
        4 => (Some(29), 37),
        _ => (None, 8),
    };
    let count = count_at.map_or(Some(0), |at| four(b, at))?;
    if kind == 1 && count == 0 {
        return None;
    }
    let length = fixed + form.stride() * count;
    if length > b.len() || four(b, length - 4)? != length {
        return None;
    }
    let rgb = |at: usize| [b[at], b[at + 1], b[at + 2]];
    let lab = |at: usize| {
        [0, 8, 16].map(|i| {
            f64::from_bits(u64::from_le_bytes(
                b[at + i..at + i + 8].try_into().unwrap(),
            ))
        })
    };
    let list_at = length - 4 - form.stride() * count;
    let changes: Vec<PixelChange> = b[list_at..length - 4]
        .chunks_exact(form.stride())
        .map(|c| form.change(w, c))
        .collect();
    if kind == 5 && (b[2] > 1 || b[3] > 1) {
        return None;
    }
    let op = match kind {
        5 => None,
        1 => Some(Op::Pixels {
            tool: b[1].to_string(),
            changes,
        }),
        2 => Some(Op::PaletteSet {
            index: b[1].into(),
            old: rgb(2),
            new: rgb(5),
            old_lab: lab(8),
        }),
        3 => Some(Op::PaletteAdd { rgb: rgb(1) }),
        _ => Some(Op::PaletteRemove {
            index: b[1].into(),
            rgb: rgb(2),
            lab: lab(5),
            remap: changes,
        }),
    };
    let lock = Edit::Lock {
        index: b[1].into(),
        old: b[2] == 1,
        new: b[3] == 1,
    };
    Some(Read {
        start,
        length,
        edit: op.map_or(lock, Edit::Op),
        count,
        list: start + list_at,
    })
}

/// The record that ends at the standing offset.
pub fn read_back(st: &State) -> Option<Read> {
    let (journal, offset) = (&st.journal, st.handle.offset);
    let length = four(journal, offset.checked_sub(4)?)?;
    let start = offset.checked_sub(length)?;
    read(st.form, st.sheet.w, &journal[start..offset], start).filter(|r| r.length == length)
}

/// The record that starts at an offset, inside the bytes before an end.
pub fn read_forth(st: &State, offset: usize, end: usize) -> Option<Read> {
    read_at(st.form, st.sheet.w, &st.journal[..end], offset)
}

/// The same of the bytes of a journal.
pub fn read_at(form: Form, w: usize, journal: &[u8], offset: usize) -> Option<Read> {
    read(form, w, &journal[offset..], offset)
}

/// The handle one record back, or forth.
pub fn back(h: Handle, r: &Read) -> Handle {
    Handle {
        offset: h.offset - r.length,
        position: h.position - 1,
        ..h
    }
}

pub fn forth(h: Handle, r: &Read) -> Handle {
    Handle {
        offset: h.offset + r.length,
        position: h.position + 1,
        ..h
    }
}

/// The Rust's document of a well-formed sheet, its LAB as it is.
pub fn document(s: &Sheet) -> Document {
    Document {
        baseline: s.image(),
        baseline_palette: Vec::new(),
        indices: s.image(),
        palette_lab: s.lab[..3 * s.k].to_vec(),
        palette: s.colours(),
        fixed: None,
        origin: Origin::new(Config::default(), String::new(), Json::Null),
    }
}

/// The sheet that shows a document: "a call leaves storage past the larger of k before and after; a removal or undone add
/// leaves the last old entry's storage". None where it is not well-formed.
pub fn shown(doc: &Document, before: &Sheet) -> Option<Sheet> {
    let k = doc.palette.len();
    let stray = |&i: &i64| i < -1 || i >= k as i64;
    if k > 255
        || doc.indices.indices.iter().any(stray)
        || doc.palette_lab.iter().any(|x| !x.is_finite())
    {
        return None;
    }
    let mut s = before.clone();
    s.k = k;
    s.palette[..3 * k].copy_from_slice(&doc.palette.concat());
    s.lab[..3 * k].copy_from_slice(&doc.palette_lab);
    s.indices = doc.indices.indices.iter().map(|&i| i as i16).collect();
    Some(s)
}

/// The marks after an edit is done on k entries: false "for an added entry", and "removal moves the marks with their
/// entries". The last old entry's storage is left.
pub fn marks_done(locks: &mut [bool], k: usize, e: &Edit) {
    match e {
        Edit::Op(Op::PaletteAdd { .. }) => locks[k] = false,
        Edit::Op(Op::PaletteRemove { index, .. }) => locks.copy_within(index + 1..k, *index),
        Edit::Op(_) => {}
        Edit::Lock { index, new, .. } => locks[*index] = *new,
    }
}

/// The marks after an edit is undone on k entries: false "for one brought back by undo".
fn marks_undone(locks: &mut [bool], k: usize, e: &Edit) {
    match e {
        Edit::Op(Op::PaletteRemove { index, .. }) => {
            locks.copy_within(*index..k, index + 1);
            locks[*index] = false;
        }
        Edit::Op(_) => {}
        Edit::Lock { index, old, .. } => locks[*index] = *old,
    }
}

/// `can_revert` of document.rs, which is private there: the shape alone. That "of kind 5 asks for an index below k bearing
/// the new mark".
fn can_revert(doc: &Document, locks: &[bool], e: &Edit) -> bool {
    let k = doc.palette.len();
    let inside = |c: &PixelChange| c.x < doc.width() && c.y < doc.height();
    match e {
        Edit::Op(Op::Pixels { changes, .. }) => changes.iter().all(inside),
        Edit::Op(Op::PaletteSet { index, .. }) => *index < k,
        Edit::Op(Op::PaletteAdd { .. }) => k > 0,
        Edit::Op(Op::PaletteRemove { index, remap, .. }) => *index <= k && remap.iter().all(inside),
        Edit::Lock { index, new, .. } => *index < k && locks[*index] == *new,
    }
}

/// 1 to 4, as undo and redo have them. Undo takes no curve.
fn entry_number(st: &State) -> u8 {
    match st.sheet.marked_number(st.journal.len() > MAX_JOURNAL) {
        0 => first(&[(4, !st.handle.sound(st.journal.len()))]),
        no => no,
    }
}

/// What document 01 has undo answer, and what it leaves.
pub fn undo(st: &State) -> (u8, State) {
    let kept = |no: u8| (no, st.clone());
    let no = entry_number(st);
    if no != 0 {
        return kept(no);
    }
    if st.handle.position == 0 {
        return kept(255);
    }
    let Some(r) = read_back(st) else {
        return kept(4);
    };
    let handle = back(st.handle, &r);
    let mut doc = document(&st.sheet);
    if !handle.sound(st.journal.len()) || !can_revert(&doc, &st.sheet.locks, &r.edit) {
        return kept(4);
    }
    if let Edit::Op(op) = &r.edit {
        doc.revert(op);
    }
    let Some(mut sheet) = shown(&doc, &st.sheet) else {
        return kept(4);
    };
    marks_undone(&mut sheet.locks, st.sheet.k, &r.edit);
    (
        0,
        State {
            sheet,
            journal: st.journal.clone(),
            handle,
            ..*st
        },
    )
}

/// Whether an edit that was read passes push's checks, and if so what it does, under the session's curve. The Rust's
/// `apply` makes document 01's; 10 is left out, since the document has no list of colours. Before it comes 24, and of
/// a lock there is 7 alone.
fn applies(doc: &mut Document, s: &Sheet, e: &mut Edit) -> bool {
    if e.recoloured().is_some_and(|index| s.is_locked(index)) {
        return false;
    }
    match e {
        Edit::Op(op) => s.curve.under(|| doc.apply(op).is_ok()),
        Edit::Lock { index, .. } => *index < s.k,
    }
}

/// What document 01 has redo answer with so much scratch, and what it leaves. "25 .. also in each later call that
/// takes a curve", after 4 of the handle and before the record is read.
pub fn redo(st: &State, scratch: usize) -> (u8, State) {
    let kept = |no: u8| (no, st.clone());
    let no = entry_number(st);
    if no != 0 {
        return kept(no);
    }
    if st.sheet.curve.is_unfit() {
        return kept(25);
    }
    if st.handle.position == st.handle.count {
        return kept(255);
    }
    if scratch < st.sheet.w * st.sheet.h {
        return kept(16);
    }
    let Some(mut r) = read_forth(st, st.handle.offset, st.handle.end) else {
        return kept(4);
    };
    let handle = forth(st.handle, &r);
    let mut doc = document(&st.sheet);
    if !handle.sound(st.journal.len())
        || r.count > MAX_CHANGES
        || !applies(&mut doc, &st.sheet, &mut r.edit)
    {
        return kept(4);
    }
    let mut sheet = shown(&doc, &st.sheet).expect("what push's checks accept is well-formed");
    marks_done(&mut sheet.locks, st.sheet.k, &r.edit);
    (
        0,
        State {
            sheet,
            journal: st.journal.clone(),
            handle,
            ..*st
        },
    )
}
