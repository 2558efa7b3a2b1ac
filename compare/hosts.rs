//! The calls for C hosts: document 02, E12, read from its text. Buffers are made and read here, and what a call on them
//! is expected to do is the core's, as histories.rs and journal.rs have it from the Rust and from document 01, under
//! E12's limits. Sessions stand beside the Rust's `History`, where they have no locks, and beside the ledger of whole
//! pictures. Every byte of sheet, journal and handle is compared after each call.

use crate::calls::*;
use crate::curve::Curve;
use crate::damage;
use crate::draw::Draw;
use crate::histories::*;
use crate::journal::{self, Form, Handle, State, MAX_JOURNAL, NOWHERE};
use crate::locks::any_edit_or_lock;
use crate::sheet::*;
use crate::sheets::Permitted;
use crate::table::Table;
use pixelforge::editor::{Document, History};

/// Places of the crate's own scratch, "lists to 4,096 changes", "sides go to 64".
const SCRATCH: usize = 4096;
const LIST: usize = 4096;
const SIDE: usize = 64;
const MISFIT: u8 = 28;

/// What a C host holds.
#[derive(Clone, PartialEq)]
struct Buffers {
    sheet: Vec<u8>,
    journal: Vec<u8>,
    handle: Vec<u8>,
}

#[derive(Clone, Debug)]
enum Call {
    Pixels { tool: u8, list: Vec<u8> },
    Set { index: usize, rgb: [u8; 3] },
    Add { rgb: [u8; 3] },
    Remove { index: usize, list: Vec<u8> },
    Lock { index: usize, mark: u8 },
    Undo,
    Redo,
    Mark,
}

// The form.

fn two(n: usize) -> [u8; 2] {
    (n as u16).to_le_bytes()
}

fn flat_sheet(s: &Sheet) -> Vec<u8> {
    let mut to: Vec<u8> = [s.w, s.h, s.k].into_iter().flat_map(two).collect();
    to.extend(&s.palette);
    to.extend(s.lab.iter().flat_map(|x| x.to_bits().to_le_bytes()));
    to.extend(s.indices.iter().flat_map(|i| i.to_le_bytes()));
    to.extend(s.locks.iter().map(|&m| u8::from(m)));
    to
}

fn flat_handle(h: &Handle) -> Vec<u8> {
    h.numbers()
        .iter()
        .flat_map(|&n| (n as u64).to_le_bytes())
        .collect()
}

fn flat_list(list: &[u64]) -> Vec<u8> {
    list.iter().flat_map(|c| c.to_le_bytes()).collect()
}

/// None where "the length does not suit w and h", or "a lock byte .. is neither 0 nor 1".
fn sheet_in(b: &[u8]) -> Option<Sheet> {
    let two = |at: usize| -> Option<usize> {
        Some(u16::from_le_bytes(b.get(at..at + 2)?.try_into().unwrap()).into())
    };
    let (w, h, k) = (two(0)?, two(2)?, two(4)?);
    let (lab, indices) = (6 + STORAGE, 6 + 9 * STORAGE);
    let locks = indices + 2 * w * h;
    if b.len() != locks + MARKS || b[locks..].iter().any(|&m| m > 1) {
        return None;
    }
    let double = |c: &[u8]| f64::from_bits(u64::from_le_bytes(c.try_into().unwrap()));
    let index = |c: &[u8]| i16::from_le_bytes([c[0], c[1]]);
    Some(Sheet {
        w,
        h,
        k,
        palette: b[6..lab].to_vec(),
        lab: b[lab..indices].chunks_exact(8).map(double).collect(),
        indices: b[indices..locks].chunks_exact(2).map(index).collect(),
        locks: b[locks..].iter().map(|&m| m == 1).collect(),
        curve: Curve::none(),
    })
}

/// None where "the handle is not 40 bytes".
fn handle_in(b: &[u8]) -> Option<Handle> {
    let numbers: [usize; 5] = b
        .chunks(8)
        .map(|c| Some(u64::from_le_bytes(c.try_into().ok()?) as usize))
        .collect::<Option<Vec<usize>>>()?
        .try_into()
        .ok()?;
    Some(Handle::of(numbers))
}

impl Buffers {
    fn of(st: &State) -> Buffers {
        Buffers {
            sheet: flat_sheet(&st.sheet),
            journal: st.journal.clone(),
            handle: flat_handle(&st.handle),
        }
    }

    fn state(&self) -> Option<State> {
        Some(State {
            sheet: sheet_in(&self.sheet)?,
            form: Form::Coordinates,
            journal: self.journal.clone(),
            handle: handle_in(&self.handle)?,
        })
    }

    fn words(&self, no: u8) -> Vec<u64> {
        let mut words = vec![no.into()];
        for part in [&self.sheet, &self.journal, &self.handle] {
            bytes(&mut words, part);
        }
        words
    }

    fn about(&self) -> String {
        match self.state() {
            None => format!(
                "buffers of {}, {} and {}",
                self.sheet.len(),
                self.journal.len(),
                self.handle.len()
            ),
            Some(st) => format!(
                "{} with {:?} in {}",
                st.sheet.about(),
                st.handle,
                st.journal.len()
            ),
        }
    }
}

// The calls.

fn free() -> Permitted {
    Permitted {
        limited: false,
        list: Vec::new(),
    }
}

impl Call {
    fn name(&self) -> &'static str {
        match self {
            Call::Pixels { .. } => "wh_push_pixels",
            Call::Set { .. } => "wh_push_set",
            Call::Add { .. } => "wh_push_add",
            Call::Remove { .. } => "wh_push_remove",
            Call::Lock { .. } => "wh_push_lock",
            Call::Undo => "wh_undo",
            Call::Redo => "wh_redo",
            Call::Mark => "wh_mark",
        }
    }

    /// The push of an edit of compare/'s, and its list.
    fn of(e: &Flat, list: &[u64]) -> Call {
        let [kind, tool, _, _, _, d, x, f] = e.bytes;
        let (index, rgb, list) = (e.index, [d, x, f], flat_list(list));
        match kind {
            1 => Call::Pixels { tool, list },
            2 => Call::Set { index, rgb },
            3 => Call::Add { rgb },
            4 => Call::Remove { index, list },
            _ => Call::Lock {
                index,
                mark: u8::from(d != 0),
            },
        }
    }

    /// "a list's length is not a multiple of eight or .. a mark pushed, is neither 0 nor 1".
    fn misfits(&self) -> bool {
        match self {
            Call::Pixels { list, .. } | Call::Remove { list, .. } => list.len() % 8 != 0,
            Call::Lock { mark, .. } => *mark > 1,
            _ => false,
        }
    }

    /// The core's edit and its list, "eight bytes each as in a record".
    fn edit(&self) -> (Flat, Vec<u64>) {
        let flat = |kind: u8, tool: u8, index: usize, [r, g, b]: [u8; 3]| Flat {
            bytes: [kind, tool, 0, 0, 0, r, g, b],
            index,
            lab: [0.0; 3],
        };
        let changes = |list: &[u8]| {
            list.chunks_exact(8)
                .map(|c| u64::from_le_bytes(c.try_into().unwrap()))
                .collect()
        };
        match self {
            Call::Pixels { tool, list } => (flat(1, *tool, 0, [0; 3]), changes(list)),
            Call::Set { index, rgb } => (flat(2, 0, *index, *rgb), Vec::new()),
            Call::Add { rgb } => (flat(3, 0, 0, *rgb), Vec::new()),
            Call::Remove { index, list } => (flat(4, 0, *index, [0; 3]), changes(list)),
            Call::Lock { index, mark } => (flat(5, 0, *index, [*mark, 0, 0]), Vec::new()),
            Call::Undo | Call::Redo | Call::Mark => unreachable!("no push"),
        }
    }

    /// What is expected: the number, what is left, and the Rust's history and document after a push that is done.
    fn expected(
        &self,
        b: &Buffers,
        history: &History,
    ) -> (u8, Buffers, Option<(History, Document)>) {
        let kept = |no: u8| (no, b.clone(), None);
        let Some(st) = b.state().filter(|_| !self.misfits()) else {
            return kept(MISFIT);
        };
        let long = st.journal.len() > MAX_JOURNAL;
        if let Call::Mark = self {
            let no = first(&[(1, long), (4, !st.handle.sound(st.journal.len()))]);
            let saved = st.handle.position;
            let handle = flat_handle(&Handle { saved, ..st.handle });
            return match no {
                0 => (0, Buffers { handle, ..b.clone() }, None),
                no => kept(no),
            };
        }
        if st.sheet.w > SIDE || st.sheet.h > SIDE {
            return kept(1);
        }
        let (no, after, twin) = match self {
            Call::Undo => {
                let (no, after) = journal::undo(&st);
                (no, after, None)
            }
            Call::Redo => {
                let (no, after) = journal::redo(&st, SCRATCH);
                (no, after, None)
            }
            _ => {
                let no = push_entry(&st, &free());
                if no != 0 {
                    return kept(no);
                }
                let (e, list) = self.edit();
                if list.len() > LIST {
                    return kept(21);
                }
                let doc = journal::document(&st.sheet);
                push(&st, (history, &doc), &free(), &e, &list, SCRATCH)
            }
        };
        match no {
            0 => (0, Buffers::of(&after), twin),
            no => kept(no),
        }
    }

    fn ours(&self, b: &mut Buffers) -> u8 {
        let (s, j, h) = (&mut b.sheet, &mut b.journal, &mut b.handle);
        match self {
            Call::Pixels { tool, list } => wh_push_pixels(s, j, h, *tool, list),
            Call::Set {
                index,
                rgb: [r, g, b],
            } => wh_push_set(s, j, h, *index, *r, *g, *b),
            Call::Add { rgb: [r, g, b] } => wh_push_add(s, j, h, *r, *g, *b),
            Call::Remove { index, list } => wh_push_remove(s, j, h, *index, list),
            Call::Lock { index, mark } => wh_push_lock(s, j, h, *index, *mark),
            Call::Undo => wh_undo(s, j, h),
            Call::Redo => wh_redo(s, j, h),
            Call::Mark => wh_mark(s, j, h),
        }
    }
}

/// One call on some buffers, compared: the number, and the Rust's history after a push. The buffers are then ours.
fn one(
    t: &mut Table,
    b: &mut Buffers,
    c: &Call,
    history: &History,
) -> (u8, Option<(History, Document)>) {
    let (no, after, twin) = c.expected(b, history);
    let before = b.clone();
    let ours = c.ours(b);
    t.tell(c.name(), &after.words(no), &b.words(ours), || {
        format!("{c:x?} on {}", before.about())
    });
    (no, twin)
}

// Sessions.

fn opening(locks: bool, draw: &mut Draw) -> Sheet {
    let mut sheet = match draw.below(14) {
        0 => good(
            draw.below(4),
            draw.below(4),
            draw.from(&[253, 254, 255]),
            draw,
        ),
        1 => good(draw.below(20), draw.below(20), draw.below(9), draw),
        2 => good(
            draw.from(&[63, 64, 64]),
            draw.from(&[1, 63, 64]),
            draw.below(6),
            draw,
        ),
        _ => good(draw.below(5), draw.below(5), draw.below(5), draw),
    };
    if locks {
        sheet.locks = any_locks(MARKS, draw);
    }
    sheet
}

/// One history, call by call, beside the ledger, and beside the Rust's where it has no locks.
fn session(t: &mut Table, locks: bool, draw: &mut Draw) {
    let sheet = opening(locks, draw);
    let room = draw.from(&[0, 7, 8, 17, 18, 36, 60, 120, 300, 700, 2000, 40_000]);
    let st = State {
        journal: (0..room).map(|_| draw.next() as u8).collect(),
        handle: Handle::FRESH,
        sheet,
        form: Form::Coordinates,
    };
    let mut b = Buffers::of(&st);
    let mut ledger = Ledger::open(&st.sheet);
    let mut history = History::new();
    let mut doc = journal::document(&st.sheet);
    for _ in 0..4 + draw.below(30) {
        let now = b.state().expect("a sheet that was fit stays fit");
        let call = match draw.below(10) {
            0..=4 => {
                let (e, mut list) = if locks {
                    any_edit_or_lock(&now.sheet, draw)
                } else {
                    any_push(&now.sheet, &doc, draw)
                };
                if e.bytes[0] == 1 && draw.once_in(25) {
                    let n = draw.from(&[LIST - 1, LIST, LIST + 1]);
                    list = any_changes(&now.sheet, n, draw);
                }
                Call::of(&e, &list)
            }
            5..=6 => Call::Undo,
            7..=8 => Call::Redo,
            _ => Call::Mark,
        };
        let (no, twin) = one(t, &mut b, &call, &history);
        let about = || format!("{call:x?} on {}", b.about());
        let told = match &call {
            Call::Undo => ledger.undo(),
            Call::Redo => ledger.redo(),
            Call::Mark => {
                ledger.mark();
                0
            }
            // pushes answered "journal full" are struck
            _ if no == 14 => no,
            push => {
                let (e, list) = push.edit();
                match list.len() > LIST {
                    true => 21,
                    false => ledger.push(&free(), &e.edit(&list)),
                }
            }
        };
        assert_eq!(told, no, "the ledger's answer: {}", about());
        let st = b.state().expect("a sheet that was fit stays fit");
        assert!(ledger.agrees(&st), "the ledger: {}", about());
        if locks {
            continue;
        }
        let stepped = match &call {
            Call::Undo => history.undo(&mut doc),
            Call::Redo => history.redo(&mut doc),
            Call::Mark => {
                history.mark_saved();
                true
            }
            _ => {
                if let Some((h, d)) = twin {
                    (history, doc) = (h, d);
                }
                no == 0
            }
        };
        assert_eq!(no == 0, stepped, "the Rust's history: {}", about());
        let twin = journal::shown(&doc, &st.sheet).expect("well-formed");
        let same = twin.k == st.sheet.k && twin.same(&st.sheet);
        assert!(same, "the Rust's document: {}", about());
    }
}

// 28, and what comes after it.

/// A call of every kind, its list and its mark fit or not.
fn any_call(s: &Sheet, draw: &mut Draw) -> Call {
    let list = |draw: &mut Draw| {
        let n = draw.below(4);
        let mut list = flat_list(&any_changes(s, n, draw));
        let odd = draw.from(&[0, 0, 0, 1, 4, 7]);
        list.extend(vec![0; odd]);
        list
    };
    let index = draw.from(&[0, 0, 1, s.k, 255, 256, usize::MAX]);
    match draw.below(8) {
        0 => Call::Pixels {
            tool: draw.next() as u8,
            list: list(draw),
        },
        1 => Call::Set {
            index,
            rgb: draw.rgb(),
        },
        2 => Call::Add { rgb: draw.rgb() },
        3 => Call::Remove {
            index,
            list: list(draw),
        },
        4 => Call::Lock {
            index,
            mark: draw.from(&[0, 1, 1, 2, 3, 255]),
        },
        5 => Call::Undo,
        6 => Call::Redo,
        _ => Call::Mark,
    }
}

/// Buffers with anything wrong, and some with nothing: each misfit alone and with each other number, in every order.
fn wrong(t: &mut Table, draw: &mut Draw) {
    let mut sheet = match draw.below(6) {
        0 => good(
            draw.from(&[64, 65, 66]),
            draw.from(&[0, 1, 65]),
            draw.below(4),
            draw,
        ),
        1 => good(draw.from(&[0, 1]), draw.from(&[64, 65, 1025]), 2, draw),
        _ => good(draw.below(4), draw.below(4), draw.below(4), draw),
    };
    sheet.locks = any_locks(MARKS, draw);
    if draw.once_in(5) && !sheet.indices.is_empty() {
        let at = draw.below(sheet.indices.len());
        sheet.indices[at] = draw.from(&[-2, sheet.k as i16, 32_767, -32_768]);
    }
    if draw.once_in(5) && sheet.k > 0 {
        let at = draw.below(3 * sheet.k);
        sheet.lab[at] = draw.from(&[f64::NAN, f64::INFINITY, f64::NEG_INFINITY]);
    }
    if draw.once_in(12) {
        sheet.k = draw.from(&[256, 257, 65_535]);
    }
    let handles = [
        [0, 0, 0, 0, 0],
        [8, 8, 1, 1, 0],
        [8, 16, 1, 2, NOWHERE],
        [0, 16, 0, 2, 2],
        [16, 16, 2, 2, 1],
        [9, 8, 1, 1, 0],
        [0, 8, 1, 1, 0],
        [8, 24, 1, 2, 0],
        [NOWHERE, NOWHERE, 1, 1, 0],
    ];
    let call = any_call(&sheet, draw);
    let mut b = Buffers::of(&State {
        sheet,
        form: Form::Coordinates,
        journal: vec![3, 1, 2, 3, 8, 0, 0, 0, 3, 4, 5, 6, 8, 0, 0, 0, 0, 0, 0, 0],
        handle: Handle::of(draw.from(&handles)),
    });
    match draw.below(9) {
        0 => {
            let n = b.sheet.len();
            b.sheet
                .resize(draw.from(&[0, 1, 5, 6, 7145, n - 1, n + 1, n + 2]), 0);
        }
        1 => b.handle.resize(draw.from(&[0, 39, 41, 48]), 0),
        2 => {
            let at = b.sheet.len() - 1 - draw.below(MARKS);
            b.sheet[at] = draw.from(&[2, 3, 255]);
        }
        // the last entry's lock byte
        3 => *b.sheet.last_mut().unwrap() = 2,
        // sides that the length does not suit
        4 => b.sheet[draw.below(4)] ^= draw.from(&[1, 64, 255]),
        _ => {}
    }
    one(t, &mut b, &call, &History::new());
}

/// Sides of 16 bits, whose places do not fit 32; a list at its limit, before and behind other numbers.
fn readings(t: &mut Table, draw: &mut Draw) {
    let (history, mut fresh) = (History::new(), vec![0; 40]);
    let mut told = |no: u8, b: &Buffers, c: &Call| {
        let (expected, _) = one(t, &mut b.clone(), c, &history);
        assert_eq!(expected, no, "a reading: {c:?} on {}", b.about());
    };
    for (w, h) in [
        (65_535, 65_535),
        (32_768, 32_768),
        (256, 256),
        (65_535, 1),
        (0, 65_535),
    ] {
        let mut sheet: Vec<u8> = [w, h, 0].into_iter().flat_map(two).collect();
        sheet.resize(7146, 0);
        let b = Buffers {
            sheet,
            journal: Vec::new(),
            handle: fresh.clone(),
        };
        let no = if h == 65_535 && w == 0 { 1 } else { MISFIT };
        told(no, &b, &Call::Undo);
        told(no, &b, &Call::Redo);
        told(if no == 1 { 0 } else { no }, &b, &Call::Mark);
    }
    let st = State {
        sheet: good(3, 2, 3, draw),
        form: Form::Coordinates,
        journal: vec![0xee; 40_000],
        handle: Handle::FRESH,
    };
    let long = |n: usize, new: i64| {
        let c = pixelforge::editor::PixelChange {
            x: 2,
            y: 1,
            old: 0,
            new,
        };
        Call::Pixels {
            tool: 9,
            list: flat_list(&vec![packed(&c); n]),
        }
    };
    let b = Buffers::of(&st);
    told(0, &b, &long(LIST, 1));
    told(6, &b, &long(LIST, 9));
    told(21, &b, &long(LIST + 1, 1));
    told(21, &b, &long(LIST + 1, 9));
    let removal = |n: usize| Call::Remove {
        index: 7,
        list: vec![0; 8 * n],
    };
    told(7, &b, &removal(LIST));
    told(21, &b, &removal(LIST + 1));
    let mut damaged = b.clone();
    damaged.handle[0] = 1;
    told(4, &damaged, &long(LIST + 1, 1));
    let mut large = st.clone();
    large.sheet = good(65, 1, 2, draw);
    told(1, &Buffers::of(&large), &long(LIST + 1, 1));
    let mut stray = b.clone();
    stray.sheet[6 + 9 * STORAGE] = 77;
    told(2, &stray, &long(LIST + 1, 1));
    // an index of 256 or 300 is not that of a byte
    for index in [256, 300, 1 << 32, usize::MAX] {
        told(7, &b, &Call::Lock { index, mark: 1 });
        told(7, &b, &Call::Set { index, rgb: [0; 3] });
    }
    told(MISFIT, &b, &Call::Lock { index: 0, mark: 2 });
    // "before all others": the pushed mark and the list before 1 to 4
    told(MISFIT, &damaged, &Call::Lock { index: 0, mark: 2 });
    told(
        MISFIT,
        &stray,
        &Call::Pixels {
            tool: 0,
            list: vec![0; 7],
        },
    );
    // all ones is "none" in the fifth number alone
    fresh[32..].fill(255);
    let b = Buffers { handle: fresh, ..b };
    told(0, &b, &Call::Mark);
    told(0, &b, &long(1, 1));
}

/// Some histories, of which every byte of the journal is given some other values; undo to the one end, redo to the other.
fn damaged(t: &mut Table, draw: &mut Draw) {
    let history = History::new();
    for locks in [false, true] {
        for _ in 0..12 {
            let st = damage::history(Form::Coordinates, locks, draw);
            let whole = Buffers::of(&st);
            for at in 0..whole.journal.len() {
                let mut b = whole.clone();
                b.journal[at] ^= draw.from(&[1, 2, 4, 8, 16, 32, 64, 128, 255]);
                while one(t, &mut b, &Call::Undo, &history).0 == 0 {}
                while one(t, &mut b, &Call::Redo, &history).0 == 0 {}
            }
            for at in 0..40 {
                let mut b = whole.clone();
                b.handle[at] ^= draw.from(&[1, 2, 8, 128, 255]);
                for call in [Call::Undo, Call::Redo, Call::Mark] {
                    one(t, &mut b, &call, &history);
                }
            }
        }
    }
}

pub fn run(t: &mut Table) {
    let mut draw = Draw::new(61);
    for _ in 0..3000 {
        session(t, false, &mut draw);
        session(t, true, &mut draw);
    }
    for _ in 0..40_000 {
        wrong(t, &mut draw);
    }
    readings(t, &mut draw);
    damaged(t, &mut draw);
}
