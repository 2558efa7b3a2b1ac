//! Conversion of a journal from one form to the other: document 02, E9, read from its text; the Rust has none. Sessions
//! are converted, there and back, and undone and redone beside the ones that were not; damaged journals and handles,
//! records that do not add up, and any bytes are held to the same reading.

use crate::calls::*;
use crate::damage;
use crate::draw::Draw;
use crate::drawn::Pair;
use crate::histories::*;
use crate::inputs::tell;
use crate::journal::{self, Form, Handle, Read, State, MAX_JOURNAL, NOWHERE};
use crate::locks::any_edit_or_lock;
use crate::sheet::*;
use crate::sheets::Permitted;
use crate::table::Table;
use pixelforge::editor::{Op, PixelChange};

// The call.

/// What a conversion is given beside the journal that is lent for its outcome.
#[derive(Clone)]
pub struct Given {
    pub w: usize,
    pub h: usize,
    pub from: Form,
    pub journal: Vec<u8>,
    pub handle: Handle,
}

impl Given {
    pub fn of(st: &State) -> Given {
        Given {
            w: st.sheet.w,
            h: st.sheet.h,
            from: st.form,
            journal: st.journal.clone(),
            handle: st.handle,
        }
    }

    /// A record in the other form: kind, changes and length are written anew, all else is copied. None with a place off
    /// the sheet.
    fn rewritten(&self, r: &Read) -> Option<Vec<u8>> {
        let to = self.from.other();
        let list = &self.journal[r.list..r.start + r.length - 4];
        let mut record = vec![to.kind_byte(self.from.kind(self.journal[r.start])?)];
        record.extend(&self.journal[r.start + 1..r.list]);
        for c in list.chunks_exact(self.from.stride()) {
            let c = self.from.change(self.w, c);
            if c.x >= self.w || c.y >= self.h {
                return None;
            }
            record.extend(to.change_bytes(self.w, &c));
        }
        let length = record.len() as u32 + 4;
        record.extend(length.to_le_bytes());
        Some(record)
    }

    /// The outcome's bytes and handle. None for "a wrong kind, mark, count or length, a place off the sheet, or records
    /// that do not add up to the handle's offsets and counts": the standing offset is where exactly `position` records
    /// end, the end where exactly `count` do.
    fn outcome(&self) -> Option<(Vec<u8>, Handle)> {
        let h = self.handle;
        let (mut at, mut bytes, mut edges) = (0, Vec::new(), vec![(0, 0)]);
        for _ in 0..h.count {
            let r = journal::read_at(self.from, self.w, &self.journal[..h.end], at)?;
            bytes.extend(self.rewritten(&r)?);
            at += r.length;
            edges.push((at, bytes.len()));
        }
        let (offset, end) = (edges[h.position], edges[h.count]);
        let adds_up = offset.0 == h.offset && end.0 == h.end;
        let (offset, end) = (offset.1, end.1);
        adds_up.then_some((bytes, Handle { offset, end, ..h }))
    }

    /// What is expected: the number, the handle, and the bytes that were lent.
    fn converted(&self, out: &[u8]) -> (u8, Handle, Vec<u8>) {
        let kept = |no: u8| (no, self.handle, out.to_vec());
        let large = self.w > 1024 || self.h > 1024;
        let long = self.journal.len() > MAX_JOURNAL || out.len() > MAX_JOURNAL;
        let unsound = !self.handle.sound(self.journal.len());
        match first(&[(1, large), (1, long), (4, unsound)]) {
            0 => match self.outcome() {
                None => kept(4),
                Some((bytes, _)) if bytes.len() > out.len() => kept(14),
                Some((bytes, handle)) => {
                    let mut left = out.to_vec();
                    left[..bytes.len()].copy_from_slice(&bytes);
                    (0, handle, left)
                }
            },
            no => kept(no),
        }
    }

    fn about(&self) -> String {
        let few = &self.journal[..self.journal.len().min(120)];
        format!(
            "{} x {}, {:?}, {:?} in {} bytes {few:x?}",
            self.w,
            self.h,
            self.from,
            self.handle,
            self.journal.len()
        )
    }
}

fn words(no: u8, handle: Handle, out: &[u8]) -> Vec<u64> {
    let mut words = vec![no.into()];
    sizes(&mut words, &handle.numbers());
    bytes(&mut words, out);
    words
}

/// Ours: the number, the handle, and the bytes that were lent. What is given keeps.
fn our_convert(g: &Given, out: &[u8]) -> (u8, Handle, Vec<u8>) {
    let before = g.journal.clone();
    let h = g.handle;
    let mut n = [9, h.offset, h.end, h.position, h.count, h.saved];
    let mut left = out.to_vec();
    let no = call_convert(g.w, g.h, g.from.number(), &g.journal, &mut left, &mut n);
    let kept = std::hint::black_box(&g.journal);
    assert!(before == *kept && n[0] == 9, "lent to be read");
    (no, Handle::of([n[1], n[2], n[3], n[4], n[5]]), left)
}

pub fn convert(g: &Given, out: &[u8]) -> Pair {
    let (no, handle, left) = g.converted(out);
    let expected = words(no, handle, &left);
    let (no, handle, left) = our_convert(g, out);
    [expected, words(no, handle, &left)]
}

fn noise(n: usize, draw: &mut Draw) -> Vec<u8> {
    (0..n).map(|_| draw.next() as u8).collect()
}

// Sentences that can be read in two ways, each with the smallest input that tells them apart.

/// The record of one change at a place, which need not lie on a sheet.
fn placed(place: u32) -> Vec<u8> {
    let [a, b, c, _] = place.to_le_bytes();
    vec![17, 3, 1, 0, 0, 0, a, b, c, 0, 0, 1, 0, 17, 0, 0, 0]
}

fn at_column_and_row(x: u16, y: u16) -> Vec<u8> {
    let ([a, b], [c, d]) = (x.to_le_bytes(), y.to_le_bytes());
    vec![1, 3, 1, 0, 0, 0, a, b, c, d, 0, 0, 1, 0, 18, 0, 0, 0]
}

fn added(rgb: [u8; 3]) -> Vec<u8> {
    let [r, g, b] = rgb;
    vec![3, r, g, b, 8, 0, 0, 0]
}

/// A history of these records, of which so many are applied.
fn history(from: Form, (w, h): (usize, usize), records: &[Vec<u8>], position: usize) -> Given {
    let length = |some: &[Vec<u8>]| some.iter().map(Vec::len).sum();
    Given {
        w,
        h,
        from,
        journal: records.concat(),
        handle: Handle {
            offset: length(&records[..position]),
            end: length(records),
            position,
            count: records.len(),
            saved: NOWHERE,
        },
    }
}

fn readings(t: &mut Table, draw: &mut Draw) {
    let from = t.form;
    let size = (3, 2);
    let change = |x: usize, y: usize, old: i64, new: i64| PixelChange { x, y, old, new };
    let record = |op: &Op| journal::record(from, size.0, op);
    let pixels = |changes: Vec<PixelChange>| {
        record(&Op::Pixels {
            tool: "255".into(),
            changes,
        })
    };
    let removal = |remap: Vec<PixelChange>| {
        record(&Op::PaletteRemove {
            index: 255,
            rgb: [1, 2, 3],
            lab: [f64::from_bits(0x7ff8_0000_0000_0abc), f64::NAN, -0.0],
            remap,
        })
    };
    let set = record(&Op::PaletteSet {
        index: 254,
        old: [4; 3],
        new: [5; 3],
        old_lab: [f64::from_bits(0xfff0_0000_0000_0001), f64::INFINITY, 1e-310],
    });
    let mark = |old: u8, new: u8| vec![5, 255, old, new, 8, 0, 0, 0];
    let mut one = |no: u8, g: &Given, room: usize| {
        let out = noise(room, draw);
        let pair = convert(g, &out);
        assert_eq!(pair[0][0], u64::from(no), "a reading: {}", g.about());
        tell!(t, "convert", pair, "a reading: {} into {room}", g.about());
    };
    let whole = [
        pixels(vec![change(2, 1, -1, 0), change(0, 1, 5, -1)]),
        set,
        added([7; 3]),
        removal(vec![change(1, 1, 255, 3)]),
        mark(1, 0),
        removal(Vec::new()),
        // "a wrong kind, mark, count or length, a place off the sheet": no value is judged
        pixels(vec![change(2, 0, -32_768, 32_767)]),
    ];
    // the records that are undone, too; the lent journal past the outcome keeps; 14 by the byte
    for position in 0..=whole.len() {
        let mut g = history(from, size, &whole, position);
        let length = g.outcome().expect("a whole history").0.len();
        for saved in [NOWHERE, 0, position, whole.len()] {
            g.handle.saved = saved;
            one(0, &g, length);
            one(0, &g, length + 9);
            one(14, &g, length - 1);
            one(14, &g, 0);
        }
        // what is past the end is not read, and 4 comes before 14
        g.journal.extend([0xee; 3]);
        one(0, &g, length);
        g.journal[g.handle.end - 1] ^= 1;
        one(4, &g, length);
        one(4, &g, 0);
    }
    let empty = history(from, size, &[], 0);
    one(0, &empty, 0);
    one(0, &empty, 5);
    // sides: 1 before 4
    for (w, h, no) in [
        (1024, 1024, 0),
        (1025, 2, 1),
        (3, 1025, 1),
        (0, 0, 0),
        (usize::MAX, 0, 1),
    ] {
        let mut g = history(from, (w, h), &[added([1; 3])], 1);
        one(no, &g, 8);
        one(if no == 0 { 14 } else { no }, &g, 7);
        g.handle.end = 9;
        one(if no == 0 { 4 } else { no }, &g, 8);
    }
    // a kind of the other form with this form's body, of which the kind alone is wrong, with a list or with none
    for (mut record, kind) in [
        (pixels(vec![change(0, 0, 0, 1)]), 1),
        (removal(vec![change(0, 0, 0, 1)]), 4),
        (removal(Vec::new()), 4),
    ] {
        one(0, &history(from, size, &[record.clone()], 1), 99);
        record[0] = from.other().kind_byte(kind);
        one(4, &history(from, size, &[record.clone()], 1), 99);
        one(4, &history(from, size, &[added([1; 3]), record], 1), 99);
    }
    // the other form's record whole
    let other = journal::record(
        from.other(),
        size.0,
        &Op::Pixels {
            tool: "1".into(),
            changes: vec![change(0, 0, 0, 1)],
        },
    );
    one(4, &history(from, size, &[other], 1), 99);
    // pixels of no change, whose length agrees
    let none = vec![from.kind_byte(1), 3, 0, 0, 0, 0, 10, 0, 0, 0];
    one(4, &history(from, size, &[none], 1), 99);
    // a mark
    for (old, new, no) in [(0, 1, 0), (1, 1, 0), (2, 0, 4), (0, 2, 4), (255, 255, 4)] {
        one(no, &history(from, size, &[mark(old, new)], 0), 8);
    }
    // a handle is sound, and the records do not add up to it: the standing offset, the end
    let three = [added([1; 3]), added([2; 3]), added([3; 3])];
    for (offset, end, position, count, no) in [
        (16, 24, 2, 3, 0),
        (16, 24, 1, 2, 4),
        (8, 24, 1, 2, 4),
        (24, 24, 2, 2, 4),
        (24, 24, 3, 3, 0),
        (24, 24, 1, 1, 4),
        (0, 24, 0, 2, 4),
        (0, 24, 0, 3, 0),
        (8, 16, 1, 2, 0),
        (9, 24, 1, 2, 4),
        (8, 17, 1, 2, 4),
    ] {
        let mut g = history(from, size, &three, 3);
        g.handle = Handle::of([offset, end, position, count, 0]);
        assert!(g.handle.sound(24), "sound, and records that do not add up");
        one(no, &g, 24);
    }
    // a place off the sheet; a row does not wrap to 16 bits; without a width every place is off
    let off: &[(usize, usize, Vec<u8>, u8)] = &match from {
        Form::Coordinates => vec![
            (3, 2, at_column_and_row(2, 1), 0),
            (3, 2, at_column_and_row(3, 0), 4),
            (3, 2, at_column_and_row(0, 2), 4),
            (3, 2, at_column_and_row(65_535, 65_535), 4),
            (1024, 1024, at_column_and_row(1023, 1023), 0),
            (1024, 1024, at_column_and_row(0, 1024), 4),
            (0, 1024, at_column_and_row(0, 0), 4),
            (1024, 0, at_column_and_row(0, 0), 4),
            (0, 0, at_column_and_row(0, 0), 4),
        ],
        Form::Places => vec![
            (3, 2, placed(5), 0),
            (3, 2, placed(6), 4),
            (3, 2, placed(65_536), 4),
            (1, 1, placed(0), 0),
            (1, 1, placed(65_536), 4),
            (1, 1, placed(16_777_215), 4),
            (1, 1024, placed(1023), 0),
            (1, 1024, placed(1024), 4),
            (1, 1024, placed(65_536), 4),
            (1, 1024, placed(66_559), 4),
            (1024, 1, placed(1023), 0),
            (1024, 1, placed(1024), 4),
            (1024, 1024, placed(1_048_575), 0),
            (1024, 1024, placed(1_048_576), 4),
            (1024, 1024, placed(16_777_215), 4),
            (0, 1024, placed(0), 4),
            (0, 1024, placed(65_536), 4),
            (1024, 0, placed(0), 4),
            (0, 0, placed(0), 4),
        ],
    };
    for (w, h, record, no) in off {
        for position in [0, 1] {
            one(
                *no,
                &history(from, (*w, *h), &[record.clone()], position),
                20,
            );
        }
    }
    // a count of more changes than a push takes is not wrong by itself
    let changes = vec![change(1, 1, 0, 1); MAX_CHANGES + 1];
    let long = history(from, size, &[pixels(changes)], 1);
    let length = 10 + from.other().stride() * (MAX_CHANGES + 1);
    one(0, &long, length);
    one(14, &long, length - 1);
}

/// Undo, redo and what is shown of records whose place is off the sheet, the smallest of each sort.
fn far_places(t: &mut Table, draw: &mut Draw) {
    for (w, h, place, off) in [
        (1, 1, 0, false),
        (1, 1, 1, true),
        (1, 1, 65_536, true),
        (1, 1, 16_777_215, true),
        (1, 3, 65_538, true),
        (3, 2, 5, false),
        (3, 2, 6, true),
        (0, 3, 0, true),
        (0, 3, 65_536, true),
        (3, 0, 0, true),
        (1024, 2, 2047, false),
        (1024, 2, 2048, true),
    ] {
        for position in [1, 0] {
            let mut st = State {
                sheet: good(w, h, 2, draw),
                form: Form::Places,
                journal: placed(place),
                handle: Handle::of([17 * position, 17, position, 1, 0]),
            };
            let about = || format!("place {place} on {w} x {h}");
            tell!(t, "next_undo", next_undo(&st), "{}", about());
            tell!(t, "next_redo", next_redo(&st), "{}", about());
            tell!(t, "applied", applied(&st, 0), "{}", about());
            let scratch = w * h;
            let (name, (no, after)) = if position == 1 {
                ("undo", journal::undo(&st))
            } else {
                ("redo", journal::redo(&st, scratch))
            };
            assert_eq!(no, if off { 4 } else { 0 }, "{name}: {}", about());
            let ours = if position == 1 {
                our_undo(&mut st)
            } else {
                our_redo(&mut st, scratch)
            };
            t.tell(name, &told(no, &after), &told(ours, &st), about);
        }
    }
}

// Limits, of the journal that is given and of the one that is lent.

fn limits(t: &mut Table) {
    let from = t.form;
    // untouched pages take no memory
    for (given, lent, no) in [
        (MAX_JOURNAL, 0, 0),
        (MAX_JOURNAL + 1, 0, 1),
        (0, MAX_JOURNAL, 0),
        (0, MAX_JOURNAL + 1, 1),
    ] {
        let (journal, mut out, mut n) = (vec![0u8; given], vec![0u8; lent], [0; 6]);
        let ours = call_convert(3, 2, from.number(), &journal, &mut out, &mut n);
        t.tell("convert", &[no], &[ours.into()], || {
            format!("{given} bytes into {lent}")
        });
    }
}

// Sessions.

fn free() -> Permitted {
    Permitted {
        limited: false,
        list: Vec::new(),
    }
}

/// A session of edits of every kind, locks too, of which some are undone, saved anywhere.
fn session_state(form: Form, draw: &mut Draw) -> State {
    let k = draw.from(&[0, 1, 2, 3, 4, 5, 254]);
    let (w, h) = match draw.below(12) {
        0 => (draw.below(20), draw.below(20)),
        1 => (draw.from(&[1, 1024]), draw.from(&[1, 2])),
        _ => (draw.below(5), draw.below(5)),
    };
    let mut sheet = good(w, h, k, draw);
    sheet.locks = any_locks(MARKS, draw);
    let room = draw.from(&[60, 300, 700, 2000]);
    let mut st = State {
        sheet,
        form,
        journal: noise(room, draw),
        handle: Handle::FRESH,
    };
    for _ in 0..draw.below(24) {
        let scratch = w * h;
        match draw.below(8) {
            0 => our_undo(&mut st),
            1 => our_redo(&mut st, scratch),
            2 => {
                st.handle.saved = st.handle.position;
                0
            }
            _ => {
                let (e, list) = any_edit_or_lock(&st.sheet, draw);
                our_push(&mut st, &free(), &e, &list, scratch)
            }
        };
    }
    for _ in 0..draw.from(&[0, 0, 1, 2, 5, 99]) {
        our_undo(&mut st);
    }
    st
}

/// The sheet, and where the history stands: all that a user finds after a call that answered this number.
fn found(no: u8, st: &State) -> Vec<u64> {
    let h = st.handle;
    let mut words = vec![no.into()];
    sizes(&mut words, &[st.sheet.k, h.position, h.count, h.saved]);
    st.sheet.words(&mut words);
    words
}

/// A history, and beside it its conversion: each call is made on both, and finds the same.
struct Beside {
    one: State,
    two: State,
}

impl Beside {
    fn tell(&mut self, t: &mut Table, name: &'static str, call: impl Fn(&mut State) -> u8) -> u8 {
        let (one, two) = (call(&mut self.one), call(&mut self.two));
        let about = || format!("{:?} and {:?}", self.one.handle, self.two.handle);
        t.tell(name, &found(one, &self.one), &found(two, &self.two), about);
        one
    }

    fn undo(&mut self, t: &mut Table) -> u8 {
        self.tell(t, "undo, after conversion", our_undo)
    }

    fn redo(&mut self, t: &mut Table) -> u8 {
        self.tell(t, "redo, after conversion", |st| {
            our_redo(st, st.sheet.w * st.sheet.h)
        })
    }

    /// To the bottom, and to the top.
    fn walk(&mut self, t: &mut Table) {
        while self.undo(t) == 0 {}
        assert_eq!(self.one.handle.position, 0, "the bottom");
        while self.redo(t) == 0 {}
        assert_eq!(self.one.handle.position, self.one.handle.count, "the top");
    }
}

/// The state after a conversion that is answered, into a journal of so many bytes more than it needs.
fn turned(t: &mut Table, st: &State, more: usize, draw: &mut Draw) -> State {
    let g = Given::of(st);
    let length = g.outcome().expect("a session's records").0.len();
    let out = noise(length + more, draw);
    let pair = convert(&g, &out);
    assert_eq!(pair[0][0], 0, "a session converts: {}", g.about());
    tell!(t, "convert", pair, "{}", g.about());
    let (_, handle, journal) = our_convert(&g, &out);
    State {
        sheet: st.sheet.clone(),
        form: st.form.other(),
        journal,
        handle,
    }
}

/// One session converted: there and back, one byte short, and then in both forms, side by side.
fn session(t: &mut Table, draw: &mut Draw) {
    let from = t.form;
    let st = session_state(from, draw);
    let more = draw.from(&[0, 0, 1, 40]);
    let two = turned(t, &st, more, draw);
    if two.handle.end > 0 {
        let g = Given::of(&st);
        let pair = convert(&g, &noise(two.handle.end - 1, draw));
        assert_eq!(pair[0][0], 14, "one byte short: {}", g.about());
        tell!(t, "convert", pair, "one byte short: {}", g.about());
    }
    let (end, g) = (st.handle.end, Given::of(&two));
    let (no, handle, back) = our_convert(&g, &noise(end + draw.below(3), draw));
    t.tell(
        "convert, there and back",
        &words(0, st.handle, &st.journal[..end]),
        &words(no, handle, &back[..end]),
        || Given::of(&st).about(),
    );
    let mut both = Beside { one: st, two };
    both.walk(t);
    // anywhere, with room for all: undo, redo, mark and new edits
    let room = 8 * (100 + 8 * both.one.sheet.indices.len());
    for st in [&mut both.one, &mut both.two] {
        st.journal.resize(st.handle.end + room, BYTE);
    }
    for _ in 0..draw.below(both.one.handle.count + 1) {
        both.undo(t);
    }
    for _ in 0..draw.below(8) {
        match draw.below(6) {
            0 => both.undo(t),
            1 => both.redo(t),
            2 => both.tell(t, "mark_saved, after conversion", |st| {
                let [_, ours] = mark_saved(st);
                st.handle.saved = ours[5] as usize;
                ours[0] as u8
            }),
            _ => {
                let (e, list) = any_edit_or_lock(&both.one.sheet, draw);
                both.tell(t, "push, after conversion", |st| {
                    our_push(st, &free(), &e, &list, st.sheet.w * st.sheet.h)
                })
            }
        };
    }
    both.walk(t);
    // the two are each other's conversions still
    let again = turned(t, &both.one, 0, draw);
    let end = again.handle.end;
    assert!(
        again.handle == both.two.handle && again.journal[..end] == both.two.journal[..end],
        "the conversion of a history that went on"
    );
}

// Damage.

/// Some histories of edits of every kind, of which every byte, then every field of the handle, is given every other
/// value.
fn damaged(t: &mut Table, draw: &mut Draw) {
    let from = t.form;
    for _ in 0..12 {
        let st = damage::history(from, true, draw);
        let g = Given::of(&st);
        let length = g.outcome().expect("a history's records").0.len();
        let out = noise(length + draw.below(3), draw);
        let mut wrong = g.clone();
        for at in 0..g.journal.len() {
            for value in (0..=255).filter(|v| *v != g.journal[at]) {
                wrong.journal[at] = value;
                tell!(
                    t,
                    "convert, a byte changed",
                    convert(&wrong, &out),
                    "byte {at} made {value:x}: {}",
                    g.about()
                );
            }
            wrong.journal[at] = g.journal[at];
        }
        let mut at = st;
        loop {
            let g = Given::of(&at);
            let numbers = g.handle.numbers();
            for field in 0..5 {
                for value in (0..g.journal.len() + 9).chain(damage::WIDE) {
                    let mut n = numbers;
                    n[field] = value;
                    let mut wrong = g.clone();
                    wrong.handle = Handle::of(n);
                    tell!(
                        t,
                        "convert, a field of the handle changed",
                        convert(&wrong, &out),
                        "field {field} made {value}: {}",
                        g.about()
                    );
                }
            }
            if our_undo(&mut at) != 0 {
                break;
            }
        }
    }
}

// Any inputs.

/// A record of any kind and any values, some with one thing wrong.
fn any_record(from: Form, (w, h): (usize, usize), draw: &mut Draw) -> Vec<u8> {
    let n = draw.from(&[0, 1, 1, 2, 5]);
    let off = draw.once_in(8);
    let list: Vec<PixelChange> = (0..n)
        .map(|_| PixelChange {
            x: draw.below(w.max(1)),
            y: draw.below(h.max(1)) + usize::from(off && draw.once_in(3)) * h,
            old: draw.next() as i16 as i64,
            new: draw.next() as i16 as i64,
        })
        .collect();
    let form = if draw.once_in(20) { from.other() } else { from };
    let kind = 1 + draw.below(5) as u8;
    let mut record = vec![form.kind_byte(kind)];
    match kind {
        1 => record.push(draw.next() as u8),
        2 => record.extend(noise(31, draw)),
        3 => record.extend(noise(3, draw)),
        4 => record.extend(noise(28, draw)),
        _ => record.extend([draw.next() as u8, draw.below(2) as u8, draw.below(2) as u8]),
    }
    if kind == 1 || kind == 4 {
        let n = list.len() as u32;
        record.extend(n.to_le_bytes());
        list.iter()
            .for_each(|c| record.extend(form.change_bytes(w, c)));
    }
    let length = record.len() as u32 + 4;
    record.extend(length.to_le_bytes());
    if draw.once_in(10) {
        let at = draw.below(record.len());
        record[at] ^= 1 << draw.below(8);
    }
    if draw.once_in(30) {
        record.pop();
    }
    record
}

/// Some records, whose handle mostly adds up to them.
fn any_history(t: &mut Table, draw: &mut Draw) {
    let from = t.form;
    let side = |draw: &mut Draw| match draw.below(16) {
        0 => draw.from(&[1023, 1024, 1025]),
        1 => 0,
        _ => 1 + draw.below(6),
    };
    let size = (side(draw), side(draw));
    let count = draw.below(6);
    let records: Vec<Vec<u8>> = (0..count).map(|_| any_record(from, size, draw)).collect();
    let mut g = history(from, size, &records, draw.below(count + 1));
    g.handle.saved = draw.from(&[NOWHERE, 0, g.handle.position, count, count + 1]);
    if draw.once_in(6) {
        let mut n = g.handle.numbers();
        let field = draw.below(4);
        n[field] =
            (n[field] + draw.from(&[1, 7, 8, 16, 0])).wrapping_sub(draw.from(&[0, 1, 8, 16]));
        g.handle = Handle::of(n);
    }
    let past = draw.below(12);
    g.journal.extend(noise(past, draw));
    let needed = match g.converted(&vec![0; 2 * g.journal.len()]) {
        (0, handle, _) => handle.end,
        _ => g.journal.len(),
    };
    let out = noise(draw.room(needed), draw);
    tell!(
        t,
        "convert, any records",
        convert(&g, &out),
        "{}",
        g.about()
    );
}

/// Any bytes under a handle that is mostly sound; small numbers, so that now and then a record is one.
fn any_bytes(t: &mut Table, draw: &mut Draw) {
    let from = t.form;
    let n = draw.below(60);
    let count = draw.below(4).min(n / 8);
    let position = draw.below(count + 1);
    let end = if count == 0 { 0 } else { n };
    let offset = match position {
        0 => 0,
        p if p == count => end,
        p => 8 * p + draw.below(end - 8 * count + 1),
    };
    let small = [0, 0, 0, 1, 2, 3, 5, 8, 10, 17, 20, 36, 37];
    let g = Given {
        w: draw.below(4),
        h: draw.below(4),
        from,
        journal: (0..n).map(|_| draw.from(&small)).collect(),
        handle: Handle::of([offset, end, position, count, 0]),
    };
    let out = noise(draw.below(80), draw);
    tell!(t, "convert, any bytes", convert(&g, &out), "{}", g.about());
}

/// From the table's form to the other.
pub fn run(t: &mut Table) {
    let mut draw = Draw::new(90);
    readings(t, &mut draw);
    if t.form == Form::Places {
        far_places(t, &mut draw);
    }
    limits(t);
    for _ in 0..6_000 {
        session(t, &mut draw);
    }
    damaged(t, &mut draw);
    for _ in 0..60_000 {
        any_history(t, &mut draw);
        any_bytes(t, &mut draw);
    }
}
