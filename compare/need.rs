//! `journal_need` (change request E11) and the program `panel_need`, beside E11's words: the ledger of histories.rs and the
//! lengths of records give the need, and `push` itself, in a journal of that length and of shorter ones, is answered
//! "journal full" in the shorter ones alone.

use crate::calls::call_journal_need;
use crate::draw::Draw;
use crate::histories::{mark_saved, our_push, our_redo, our_undo, Ledger};
use crate::journal::{Form, Handle, State, MAX_JOURNAL};
use crate::panel;
use crate::sheet::*;
use crate::sheets::Permitted;
use crate::table::Table;
use pixelforge::editor::PixelChange;

const PROGRAM: &str = "crates/panel_need/out/panel_need";
const UNREAD: u8 = 22;
const FULL: u8 = 14;

fn free() -> Permitted {
    Permitted {
        limited: false,
        list: Vec::new(),
    }
}

// What a frame asks, and the need.

enum Asks {
    Push(Flat, Vec<u64>),
    Undo,
    Redo,
    Mark,
    Refused,
}

/// What a frame's bytes ask of a history that shows this sheet. A merge moves every pixel of the entry, row by row; 18
/// comes first, then 24 of the entry that goes.
fn asked(b: &[u8], s: &Sheet) -> Asks {
    let edit = |kind: u8, tool: u8, index: u8, rgb: &[u8]| Flat {
        bytes: [kind, tool, 0, 0, 0, rgb[0], rgb[1], rgb[2]],
        index: index.into(),
        lab: [0.0; 3],
    };
    match b[0] {
        1 => {
            let change = |c: &[u8]| {
                let [x, y, new] = [0, 2, 4].map(|at| panel::two(c, at) as u64);
                x | y << 16 | new << 48
            };
            let list = b[2..].chunks_exact(6).map(change).collect();
            Asks::Push(edit(1, b[1], 0, &[0; 3]), list)
        }
        2 => Asks::Push(edit(2, 0, b[1], &b[2..]), Vec::new()),
        3 => Asks::Push(edit(3, 0, 0, &b[1..]), Vec::new()),
        4 => {
            let (from, into) = (usize::from(b[1]), usize::from(b[2]));
            let bad = from >= s.k || into >= s.k || from == into;
            match first(&[(18, bad), (24, s.is_locked(from))]) {
                0 => {
                    let moved = |at: usize| PixelChange {
                        x: at % s.w,
                        y: at / s.w,
                        old: from as i64,
                        new: into as i64,
                    };
                    let on = |at: &usize| s.indices[*at] == from as i16;
                    let list = (0..s.indices.len()).filter(on).map(|at| packed(&moved(at)));
                    Asks::Push(edit(4, 0, b[1], &[0; 3]), list.collect())
                }
                _ => Asks::Refused,
            }
        }
        5 => Asks::Undo,
        6 => Asks::Redo,
        _ => Asks::Mark,
    }
}

/// The bytes of a record, from the two documents.
fn length(form: Form, kind: u8, changes: usize) -> usize {
    match kind {
        1 => 10 + form.stride() * changes,
        2 => 36,
        3 => 8,
        _ => 37 + form.stride() * changes,
    }
}

/// The ledger, the lengths of its records, and the most bytes that its standing records had.
struct Need {
    form: Form,
    ledger: Ledger,
    lengths: Vec<usize>,
    standing: usize,
    need: usize,
}

impl Need {
    fn of(form: Form, s: &Sheet) -> Need {
        Need {
            form,
            ledger: Ledger::open(s),
            lengths: Vec::new(),
            standing: 0,
            need: 0,
        }
    }

    fn act(&mut self, b: &[u8]) {
        match asked(b, &self.ledger.sheet()) {
            Asks::Push(e, list) => {
                if self.ledger.push(&free(), &e.edit(&list)) == 0 {
                    self.lengths.truncate(self.standing);
                    self.lengths.push(length(self.form, e.bytes[0], list.len()));
                    self.standing += 1;
                    self.need = self.need.max(self.lengths.iter().sum());
                }
            }
            Asks::Undo => self.standing -= usize::from(self.ledger.undo() == 0),
            Asks::Redo => self.standing += usize::from(self.ledger.redo() == 0),
            Asks::Mark => self.ledger.mark(),
            Asks::Refused => {}
        }
    }
}

/// The frames of a text, or none where a line is malformed or an opening. The last newline may lack.
fn frames(text: &[u8]) -> Option<Vec<Vec<u8>>> {
    let mut lines: Vec<&[u8]> = text.split(|&c| c == b'\n').collect();
    if lines.last().is_some_and(|l| l.is_empty()) {
        lines.pop();
    }
    lines.into_iter().map(panel::call_bytes).collect()
}

// The call.

/// All that is lent.
#[derive(Clone)]
struct Lent {
    sheet: Sheet,
    text: Vec<u8>,
    work: Sheet,
    form: Form,
    journal: usize,
    list: usize,
    scratch: usize,
}

impl Lent {
    /// For a session, with a working sheet of the same size that holds whatever, and a journal of some length.
    fn of(sheet: &Sheet, text: &[u8], form: Form, journal: usize) -> Lent {
        let n = sheet.w * sheet.h;
        Lent {
            sheet: sheet.clone(),
            text: text.to_vec(),
            work: Sheet {
                palette: vec![BYTE; STORAGE],
                lab: vec![f64::NAN; STORAGE],
                indices: vec![INDEX; n],
                locks: vec![true; MARKS],
                k: 256,
                ..sheet.clone()
            },
            form,
            journal,
            list: n,
            scratch: n,
        }
    }

    /// "After 1 to 3 of the opening sheet, and 1 when the working sheet has another size, all frames are read ..".
    fn number(&self) -> u8 {
        let no = self.sheet.marked_number(self.journal > MAX_JOURNAL);
        if no != 0 {
            return no;
        }
        let (s, work) = (&self.sheet, &self.work);
        let n = s.w * s.h;
        let other = (work.w, work.h) != (s.w, s.h)
            || work.palette.len() != STORAGE
            || work.lab.len() != STORAGE
            || work.indices.len() != n
            || work.locks.len() != MARKS;
        first(&[
            (1, other),
            (UNREAD, frames(&self.text).is_none()),
            (16, self.list < n),
            (16, self.scratch < n),
        ])
    }

    /// What is expected: the number, and on success the need and what the working sheet shows.
    fn expected(&self) -> Vec<u64> {
        match self.number() {
            0 => {
                let mut need = Need::of(self.form, &self.sheet);
                let session = frames(&self.text).expect("frames");
                session.iter().for_each(|b| need.act(b));
                if self.journal < need.need {
                    return vec![FULL.into()];
                }
                told(need.need, &need.ledger.sheet())
            }
            no => vec![no.into()],
        }
    }

    /// Ours. The opening sheet keeps its bits.
    fn ours(&self) -> Vec<u64> {
        let (s, mut work) = (self.sheet.clone(), self.work.clone());
        let mut journal = vec![0; self.journal];
        let few = journal.len().min(4_096);
        journal[..few].fill(BYTE);
        let (mut list, mut scratch) = (vec![WORD; self.list], vec![BYTE; self.scratch]);
        let mut r = [7777; 2];
        let no = call_journal_need(
            s.w,
            s.h,
            s.k,
            &s.palette,
            &s.lab,
            &s.indices,
            &s.locks,
            &self.text,
            work.w,
            work.h,
            &mut work.palette,
            &mut work.lab,
            &mut work.indices,
            &mut work.locks,
            self.form.number(),
            &mut journal,
            &mut list,
            &mut scratch,
            &mut r,
        );
        assert!(s.same(&self.sheet), "the opening sheet");
        if no != 0 {
            assert_eq!(r, [7777; 2], "a number and an answer");
            return vec![no.into()];
        }
        work.k = r[1];
        told(r[0], &work)
    }

    fn tell(&self, t: &mut Table, name: &'static str) -> Vec<u64> {
        let expected = self.expected();
        t.tell(name, &expected, &self.ours(), || self.about());
        expected
    }

    fn about(&self) -> String {
        let few = &self.text[..self.text.len().min(400)];
        let lens = (self.journal, self.list, self.scratch);
        format!(
            "{}, lengths {lens:?}, {}",
            self.sheet.about(),
            String::from_utf8_lossy(few)
        )
    }
}

/// The need, and the sheet up to its k entries.
fn told(need: usize, s: &Sheet) -> Vec<u64> {
    let mut words = vec![0];
    sizes(&mut words, &[need, s.k]);
    indices(&mut words, &s.indices);
    let k = s.k.min(255);
    bytes(&mut words, &s.palette[..3 * k]);
    doubles(&mut words, &s.lab[..3 * k]);
    flags(&mut words, &s.locks[..k]);
    words
}

// Through `push` itself.

/// Whether some push of the session is answered "journal full" in a journal of this length.
fn fills(s: &Sheet, session: &[Vec<u8>], form: Form, length: usize) -> u8 {
    let mut st = State {
        sheet: s.clone(),
        form,
        journal: vec![BYTE; length],
        handle: Handle::FRESH,
    };
    let (n, mut full) = (s.w * s.h, 0);
    for b in session {
        match asked(b, &st.sheet) {
            Asks::Push(e, list) => {
                if our_push(&mut st, &free(), &e, &list, n) == FULL {
                    full = FULL;
                }
            }
            Asks::Undo => {
                our_undo(&mut st);
            }
            Asks::Redo => {
                our_redo(&mut st, n);
            }
            Asks::Mark => {
                let [_, ours] = mark_saved(&st);
                st.handle.saved = ours[5] as usize;
            }
            Asks::Refused => {}
        }
    }
    full
}

// Sessions.

/// A frame that is a call: strokes, recolourings, merges, and undo in runs, so that a tail is written over.
fn call(s: &Sheet, draw: &mut Draw) -> Vec<u8> {
    let entry = |draw: &mut Draw| match draw.below(10) {
        0 => draw.next() as u8,
        1 => s.k as u8,
        _ => draw.below(s.k.max(1)) as u8,
    };
    let [r, g, b] = draw.rgb();
    match draw.below(18) {
        0..=4 => panel::pixels(s, draw),
        5 | 6 => vec![2, entry(draw), r, g, b],
        7 | 8 => vec![3, r, g, b],
        9..=11 => vec![4, entry(draw), entry(draw)],
        12..=14 => vec![5],
        15 | 16 => vec![6],
        _ => vec![7],
    }
}

fn opening(draw: &mut Draw) -> Sheet {
    let (w, h) = match draw.below(16) {
        0 => (draw.below(20), draw.below(20)),
        1 => (draw.from(&[1, 1024]), draw.from(&[1, 2])),
        2 => (draw.from(&[64, 65]), 3),
        _ => (draw.below(6), draw.below(6)),
    };
    let k = draw.from(&[0, 1, 2, 2, 3, 3, 4, 6, 253, 254, 255]);
    let mut s = good(w, h, k, draw);
    s.locks = match draw.below(3) {
        0 => any_locks(MARKS, draw),
        _ => vec![false; MARKS],
    };
    s
}

fn digits(b: &[u8], lower: bool) -> Vec<u8> {
    let text = |b: &u8| {
        if lower {
            format!("{b:02x}")
        } else {
            format!("{b:02X}")
        }
    };
    b.iter().map(text).collect::<String>().into_bytes()
}

/// A session of calls, drawn by the pictures that they meet.
fn session(s: &Sheet, draw: &mut Draw) -> Vec<Vec<u8>> {
    let mut need = Need::of(Form::Coordinates, s);
    let many = 1 + draw.from(&[0, 3, 12, 20, 40, 60]);
    let mut session = Vec::new();
    while session.len() < many {
        let b = call(&need.ledger.sheet(), draw);
        let again = if b[0] == 5 { draw.from(&[1, 1, 2, 4]) } else { 1 };
        for _ in 0..again {
            need.act(&b);
            session.push(b.clone());
        }
    }
    session
}

fn text_of(session: &[Vec<u8>], draw: &mut Draw) -> Vec<u8> {
    let lines: Vec<Vec<u8>> = session
        .iter()
        .map(|b| digits(b, draw.once_in(2)))
        .collect();
    let mut text = lines.join(&b'\n');
    if !draw.once_in(3) && !text.is_empty() {
        text.push(b'\n');
    }
    text
}

/// A session in a journal of its need, of one byte less, of none, and of more; and the same through `push`.
fn sessions(t: &mut Table, draw: &mut Draw) {
    let form = t.form;
    let s = opening(draw);
    let calls = session(&s, draw);
    let text = text_of(&calls, draw);
    let mut need = Need::of(form, &s);
    calls.iter().for_each(|b| need.act(b));
    let least = need.need;
    for length in [least, least + draw.below(300)] {
        let told = Lent::of(&s, &text, form, length).tell(t, "journal_need");
        assert_eq!(told[..2], [0, least as u64], "the need");
    }
    t.tell(
        "push, in a journal of the need",
        &[0],
        &[fills(&s, &calls, form, least).into()],
        || Lent::of(&s, &text, form, least).about(),
    );
    if least == 0 {
        return;
    }
    for length in [least - 1, 0, draw.below(least)] {
        let short = Lent::of(&s, &text, form, length);
        let told = short.tell(t, "journal_need, in a shorter journal");
        assert_eq!(told, [u64::from(FULL)], "a shorter journal");
        t.tell(
            "push, in a shorter journal",
            &[u64::from(FULL)],
            &[fills(&s, &calls, form, length).into()],
            || short.about(),
        );
    }
}

/// A text with lines that may be wrong, openings among them, and a journal and scratch of any length.
fn damaged(t: &mut Table, draw: &mut Draw) {
    let s = opening(draw);
    let calls = session(&s, draw);
    let mut lines: Vec<Vec<u8>> = calls.iter().map(|b| panel::line(b, draw)).collect();
    for _ in 0..draw.below(3) {
        let at = draw.below(lines.len() + 1);
        let line = match draw.below(4) {
            0 => digits(&panel::opening(draw), false),
            1 => Vec::new(),
            2 => digits(&[8 + draw.below(248) as u8], false),
            _ => panel::line(&[draw.next() as u8, draw.next() as u8], draw),
        };
        lines.insert(at, line);
    }
    let mut text = lines.join(&b'\n');
    if draw.once_in(2) {
        text.push(b'\n');
    }
    let mut lent = Lent::of(&s, &text, t.form, draw.below(3_000));
    let n = s.w * s.h;
    (lent.list, lent.scratch) = (draw.room(n), draw.room(n));
    lent.tell(t, "journal_need, any text");
}

// Refusals.

/// Every set of faults, each of which has a number of its own place in the order.
fn orders(t: &mut Table, draw: &mut Draw) {
    let form = t.form;
    let s = good(3, 2, 2, draw);
    let text = b"0100000000000100\n030A0B0C\n05\n".to_vec();
    let faults: [fn(&mut Lent); 17] = [
        |l| l.sheet.w = 4,
        |l| l.sheet.locks.truncate(254),
        |l| l.sheet.indices[5] = 2,
        |l| l.sheet.lab[5] = f64::INFINITY,
        |l| l.work.w = 2,
        |l| l.work.h = 3,
        |l| l.work.palette.push(0),
        |l| l.work.lab.truncate(764),
        |l| l.work.indices.push(0),
        |l| l.work.locks.clear(),
        |l| l.text.extend(b"5\n"),
        |l| l.text.extend(b"\n"),
        |l| l.text.extend(b"00010001000000"),
        |l| l.list = 5,
        |l| l.scratch = 5,
        |l| l.journal = 17,
        |l| l.text.extend(b"04FF00\n"),
    ];
    for set in 0..1usize << faults.len() {
        let mut lent = Lent::of(&s, &text, form, 100);
        let chosen = faults.iter().enumerate();
        chosen
            .filter(|(i, _)| set >> i & 1 == 1)
            .for_each(|(_, fault)| fault(&mut lent));
        lent.tell(t, "journal_need, every set of faults");
    }
}

/// The sentences of E11 and of the readings, on the smallest inputs.
fn readings(t: &mut Table, draw: &mut Draw) {
    let form = t.form;
    let stride = form.stride();
    let mut one = good(1, 1, 2, draw);
    one.indices = vec![0];
    one.locks = vec![false; MARKS];
    let mut locked = one.clone();
    locked.locks[..2].fill(true);
    let dot = "0100000000000100";
    let (d, set) = (10 + stride, "0200C8C8C8");
    for (s, text, need) in [
        (&one, String::new(), 0),
        (&one, dot.to_string(), d),
        (&one, format!("{dot}\n"), d),
        (&one, "0100\n".to_string(), 0),
        (&one, set.to_string(), 36),
        (&locked, set.to_string(), 0),
        (&locked, "040001".to_string(), 0),
        (&locked, format!("{dot}\n{set}\n"), d),
        (&one, "040001".to_string(), 37 + stride),
        (&one, format!("{dot}\n040001"), d + 37),
        (&one, format!("{dot}\n040100"), d + 37 + stride),
        (&one, "040000\n0402FF".to_string(), 0),
        (&one, "03010203".to_string(), 8),
        (&one, format!("{set}\n05\n{dot}"), 36),
        (&one, format!("{dot}\n05\n{set}"), 36),
        (&one, format!("{set}\n05\n06\n{dot}"), 36 + d),
        (&one, format!("{set}\n{set}\n05\n05\n{dot}"), 72),
        (&one, "05\n06\n07".to_string(), 0),
        (&one, format!("{dot}{}", "000000000100".repeat(2)), 10 + 3 * stride),
    ] {
        let told = Lent::of(s, text.as_bytes(), form, need).tell(t, "journal_need");
        assert_eq!(told[..2], [0, need as u64], "{text}");
        if need > 0 {
            let told = Lent::of(s, text.as_bytes(), form, need - 1).tell(t, "journal_need");
            assert_eq!(told, [u64::from(FULL)], "{text}");
        }
    }
    // short scratch without a frame; sides past 64; the largest sheet; no pixel
    let mut lent = Lent::of(&one, b"", form, 0);
    lent.scratch = 0;
    assert_eq!(lent.tell(t, "journal_need"), [16]);
    for (w, h) in [(65, 1), (1, 65), (1024, 1024), (0, 0), (0, 1024)] {
        let s = good(w, h, 3, draw);
        let told = Lent::of(&s, b"03010203\n040100", form, 9_000_000).tell(t, "journal_need");
        assert_eq!(told[0], 0, "{w} x {h}");
    }
    // 1,365 changes, the most of a frame, on one pixel
    let many = format!("01FF{}", "000000000100".repeat(1_365));
    let told = Lent::of(&one, many.as_bytes(), form, 20_000).tell(t, "journal_need");
    assert_eq!(told[..2], [0, 10 + 1_365 * stride as u64], "the longest frame");
    // untouched pages take no memory
    for length in [MAX_JOURNAL, MAX_JOURNAL + 1] {
        let lent = Lent::of(&one, dot.as_bytes(), form, length);
        let no = u64::from(length > MAX_JOURNAL);
        assert_eq!(lent.tell(t, "journal_need")[0], no, "the limit");
    }
}

/// The call, on histories of the table's form.
pub fn run(t: &mut Table) {
    let mut draw = Draw::new(111);
    readings(t, &mut draw);
    orders(t, &mut draw);
    for _ in 0..4_000 {
        sessions(t, &mut draw);
        damaged(t, &mut draw);
    }
}

// The program.

/// What it prints of an opening line and its frames.
fn printed(line: &[u8], text: &[u8]) -> String {
    let bytes = panel::opening_bytes(line);
    let open = match bytes.map_or(Err(UNREAD), |b| panel::opened(&b)) {
        Ok(open) => open,
        Err(no) => return format!("opening refused {no}\n"),
    };
    let said = |name: &str, form: Form| {
        let told = Lent::of(&open.st.sheet, text, form, 65_536).expected();
        match told[0] {
            0 => format!("{name} {}\n", told[1]),
            no => format!("{name} refused {no}\n"),
        }
    };
    said("coordinates", Form::Coordinates) + &said("places", Form::Places)
}

/// Sessions one after the other, an empty line between them.
pub fn programs(t: &mut Table) {
    t.form = Form::Coordinates;
    let mut draw = Draw::new(112);
    for _ in 0..600 {
        let (mut input, mut expected) = (Vec::new(), String::new());
        for _ in 0..1 + draw.below(4) {
            let line = panel::line(&panel::opening(&mut draw), &mut draw);
            if line.is_empty() {
                continue;
            }
            let mut lines = vec![line.clone()];
            if let Some(Ok(open)) = panel::opening_bytes(&line).map(|b| panel::opened(&b)) {
                let calls = session(&open.st.sheet, &mut draw);
                let wrong = draw.once_in(4);
                lines.extend(calls.iter().map(|b| match wrong {
                    true => panel::line(b, &mut draw),
                    false => digits(b, false),
                }));
                lines.retain(|l| !l.is_empty());
            }
            if !input.is_empty() {
                input.extend(b"\n\n".repeat(1 + draw.below(2)));
            }
            input.extend(lines.join(&b'\n'));
            expected += &printed(&line, &lines[1..].join(&b'\n'));
        }
        let out = panel::printed_by(PROGRAM, input.clone());
        let words = |said: &[u8]| [vec![0], panel::words(said)].concat();
        t.tell("panel_need", &words(expected.as_bytes()), &words(&out), || {
            String::from_utf8_lossy(&input[..input.len().min(300)]).into_owned()
        });
    }
}
