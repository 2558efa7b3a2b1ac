//! The program `panel`, run as a process on sessions of lines, beside document 01's rules for frames, the Rust's document and
//! history, and the journal of journal.rs.

use crate::curve::Curve;
use crate::draw::Draw;
use crate::histories;
use crate::journal::{self, Form, Handle, State};
use crate::sheet::*;
use crate::sheets::Permitted;
use crate::table::Table;
use pixelforge::editor::palette as rust_palette;
use pixelforge::editor::{Document, History};
use std::io::{Read, Write};
use std::process::{Command, Stdio};

const PROGRAM: &str = "crates/panel/out/panel";
const DIGITS: usize = 16_384;
const JOURNAL: usize = 4_096;
const SIDE: usize = 64;
const UNREAD: u8 = 22;

/// "hexadecimal lines, either case, .. at most 16,384 digits": the bytes of a line, or none.
fn bytes_of(line: &[u8]) -> Option<Vec<u8>> {
    if line.is_empty() || line.len() > DIGITS || line.len() % 2 != 0 {
        return None;
    }
    let digit = |c: u8| (c as char).to_digit(16).map(|d| d as u8);
    line.chunks_exact(2)
        .map(|c| Some(16 * digit(c[0])? + digit(c[1])?))
        .collect()
}

pub fn two(b: &[u8], at: usize) -> usize {
    usize::from(u16::from_le_bytes([b[at], b[at + 1]]))
}

/// Whether the bytes of a frame have the length that its code asks for.
fn well_formed(b: &[u8]) -> bool {
    match b[0] {
        0 => b.len() >= 6 && b.len() == 6 + 3 * usize::from(b[5]) + two(b, 1) * two(b, 3),
        1 => b.len() >= 2 && (b.len() - 2) % 6 == 0,
        2 => b.len() == 5,
        3 => b.len() == 4,
        4 => b.len() == 3,
        5..=7 => b.len() == 1,
        _ => false,
    }
}

/// The bytes of a line that is an opening frame, or none.
pub fn opening_bytes(line: &[u8]) -> Option<Vec<u8>> {
    bytes_of(line).filter(|b| b[0] == 0 && well_formed(b))
}

/// The bytes of a line that is a call, neither malformed nor an opening.
pub fn call_bytes(line: &[u8]) -> Option<Vec<u8>> {
    bytes_of(line).filter(|b| b[0] != 0 && well_formed(b))
}

/// A sheet that is open: ours, and the Rust's history and document.
pub struct Open {
    pub st: State,
    history: History,
    doc: Document,
}

/// The sheet of an opening frame, or its number.
pub fn opened(b: &[u8]) -> Result<Open, u8> {
    let (w, h, k) = (two(b, 1), two(b, 3), usize::from(b[5]));
    if w > SIDE || h > SIDE {
        return Err(1);
    }
    let colours = &b[6..6 + 3 * k];
    let mut sheet = Sheet {
        w,
        h,
        k,
        palette: over(colours, STORAGE, 0),
        lab: over(&pixelforge::color::rgb8_to_lab(colours), STORAGE, 0.0),
        indices: Vec::new(),
        locks: vec![false; MARKS],
        curve: Curve::none(),
    };
    let index = |&i: &u8| if i == 0xff { -1 } else { i16::from(i) };
    sheet.indices = b[6 + 3 * k..].iter().map(index).collect();
    match sheet.number(false) {
        0 => Ok(Open {
            doc: journal::document(&sheet),
            history: History::new(),
            st: State {
                sheet,
                form: Form::Coordinates,
                journal: vec![0; JOURNAL],
                handle: Handle::FRESH,
            },
        }),
        no => Err(no),
    }
}

impl Open {
    fn push(&mut self, e: &Flat, list: &[u64]) -> u8 {
        let free = Permitted {
            limited: false,
            list: Vec::new(),
        };
        let room = SIDE * SIDE;
        let (no, after, twin) =
            histories::push(&self.st, (&self.history, &self.doc), &free, e, list, room);
        self.st = after;
        if let Some((history, doc)) = twin {
            (self.history, self.doc) = (history, doc);
        }
        no
    }

    fn act(&mut self, b: &[u8]) -> u8 {
        let edit = |kind: u8, tool: u8, index: u8, rgb: &[u8]| Flat {
            bytes: [kind, tool, 0, 0, 0, rgb[0], rgb[1], rgb[2]],
            index: index.into(),
            lab: [0.0; 3],
        };
        match b[0] {
            1 => {
                let change = |c: &[u8]| (two(c, 0) | two(c, 2) << 16 | two(c, 4) << 48) as u64;
                let list: Vec<u64> = b[2..].chunks_exact(6).map(change).collect();
                self.push(&edit(1, b[1], 0, &[0; 3]), &list)
            }
            2 => self.push(&edit(2, 0, b[1], &b[2..]), &[]),
            3 => self.push(&edit(3, 0, 0, &b[1..]), &[]),
            4 => match rust_palette::merge_entries(&self.doc, b[1].into(), b[2].into()) {
                Ok(op) => self.push(&edit(4, 0, b[1], &[0; 3]), &flat_of(&op).3),
                Err(told) => refusal(&told.0),
            },
            5 => {
                let (no, after) = journal::undo(&self.st);
                assert_eq!(no == 0, self.history.undo(&mut self.doc), "the Rust's undo");
                self.st = after;
                no
            }
            6 => {
                let (no, after) = journal::redo(&self.st, SIDE * SIDE);
                assert_eq!(no == 0, self.history.redo(&mut self.doc), "the Rust's redo");
                self.st = after;
                no
            }
            _ => {
                self.history.mark_saved();
                self.st.handle.saved = self.st.handle.position;
                0
            }
        }
    }

    /// "answer .., position (2), dirty, k, indices", dirty and the picture as the Rust has them.
    fn told(&self, no: u8) -> Vec<u8> {
        let [low, high] = (self.history.applied().len() as u16).to_le_bytes();
        let k = self.doc.palette.len() as u8;
        let mut told = vec![no, low, high, self.history.is_dirty().into(), k];
        told.extend(self.doc.indices.indices.iter().map(|&i| i as u8));
        told
    }
}

/// What a line prints, as bytes; the sheet may be open after it.
fn answered(open: &mut Option<Open>, line: &[u8]) -> Vec<u8> {
    let Some(b) = bytes_of(line).filter(|b| well_formed(b)) else {
        return vec![UNREAD];
    };
    match (open.as_mut(), b[0]) {
        (None, 0) => match opened(&b) {
            Ok(new) => open.insert(new).told(0),
            Err(no) => vec![no],
        },
        (Some(o), 1..) => {
            let no = o.act(&b);
            o.told(no)
        }
        _ => vec![UNREAD],
    }
}

// Lines.

pub fn opening(draw: &mut Draw) -> Vec<u8> {
    let side = |draw: &mut Draw| draw.from(&[0, 1, 1, 2, 3, 3, 4, 5, 8]);
    let (w, h) = match draw.below(24) {
        0 => (64, draw.from(&[1, 2, 64])),
        1 => (draw.from(&[1, 3]), 64),
        2 => (65, draw.from(&[0, 1])),
        3 => (draw.from(&[0, 1]), 65),
        4 => (0, 65_535),
        _ => (side(draw), side(draw)),
    };
    let k = draw.from(&[0, 1, 2, 2, 3, 3, 4, 6, 253, 254, 255]);
    let mut b = vec![0];
    b.extend((w as u16).to_le_bytes());
    b.extend((h as u16).to_le_bytes());
    b.push(k as u8);
    b.extend((0..3 * k).map(|_| draw.next() as u8));
    let few = 1 + draw.below(k.min(3) + 1);
    b.extend((0..w * h).map(|_| (draw.below(few) as u8).wrapping_sub(1)));
    if draw.once_in(12) && w * h > 0 {
        let at = b.len() - 1 - draw.below(w * h);
        b[at] = draw.from(&[k as u8, 254, 255]);
    }
    b
}

pub fn pixels(s: &Sheet, draw: &mut Draw) -> Vec<u8> {
    let mut b = vec![1, draw.next() as u8];
    let n = draw.from(&[0, 1, 1, 1, 2, 3, 5, 9, 40, 130, 510, 511, 1_365]);
    let wrong = draw.once_in(8);
    for _ in 0..n {
        let (mut x, mut y) = (draw.below(s.w.max(1)), draw.below(s.h.max(1)));
        let mut new = draw.below(s.k + 1) as i64 - 1;
        if wrong && draw.once_in(n.min(6)) {
            match draw.below(3) {
                0 => x = draw.from(&[s.w, 256, 65_535]),
                1 => y = draw.from(&[s.h, 256, 65_535]),
                _ => new = draw.from(&[-2, s.k as i64, 255, 256, 32_767, -32_768]),
            }
        }
        for number in [x as u16, y as u16, new as u16] {
            b.extend(number.to_le_bytes());
        }
    }
    b
}

fn frame(open: &Option<Open>, draw: &mut Draw) -> Vec<u8> {
    let Some(o) = open else {
        return if draw.once_in(8) {
            draw.from(&[&[5][..], &[6], &[7], &[3, 1, 2, 3], &[4, 0, 1], &[1, 0]])
                .to_vec()
        } else {
            opening(draw)
        };
    };
    let s = &o.st.sheet;
    let entry = |draw: &mut Draw| match draw.below(10) {
        0 => draw.next() as u8,
        1 => s.k as u8,
        _ => draw.below(s.k.max(1)) as u8,
    };
    let [r, g, b] = draw.rgb();
    match draw.below(20) {
        0..=4 => pixels(s, draw),
        5 | 6 => vec![2, entry(draw), r, g, b],
        7 | 8 => vec![3, r, g, b],
        9..=11 => vec![4, entry(draw), entry(draw)],
        12..=14 => vec![5],
        15 | 16 => vec![6],
        17 => vec![7],
        18 => opening(draw),
        _ => (0..1 + draw.below(9)).map(|_| draw.next() as u8).collect(),
    }
}

/// A frame's digits, of either case, now and then with something wrong.
pub fn line(bytes: &[u8], draw: &mut Draw) -> Vec<u8> {
    let case = draw.below(3);
    let digits = b"0123456789ABCDEF0123456789abcdef";
    let digit = |d: u8, draw: &mut Draw| {
        let lower = case == 1 || case == 2 && draw.once_in(2);
        digits[usize::from(d) + if lower { 16 } else { 0 }]
    };
    let mut line = Vec::new();
    for b in bytes {
        line.extend([digit(b >> 4, draw), digit(b & 15, draw)]);
    }
    if !draw.once_in(12) {
        return line;
    }
    let at = draw.below(line.len());
    match draw.below(8) {
        0 => {
            line.pop();
        }
        1 => line.push(b'\r'),
        2 => line[at] = draw.from(b"gG/:@`\x00 \t+-xZ\xff"),
        3 => line.extend(b"00"),
        4 => line.truncate(line.len().saturating_sub(2)),
        5 => line.insert(at, b' '),
        6 => line.resize(
            draw.from(&[DIGITS - 2, DIGITS, DIGITS + 1, DIGITS + 2, 70_000]),
            b'0',
        ),
        _ => line.clear(),
    }
    line
}

/// What the program prints on an input.
fn printed(input: Vec<u8>) -> Vec<u8> {
    printed_by(PROGRAM, input)
}

pub fn printed_by(program: &str, input: Vec<u8>) -> Vec<u8> {
    let mut program = Command::new(program)
        .stdin(Stdio::piped())
        .stdout(Stdio::piped())
        .spawn()
        .expect("the program that rt built");
    let mut to = program.stdin.take().unwrap();
    let writer = std::thread::spawn(move || to.write_all(&input));
    let mut out = Vec::new();
    let mut from = program.stdout.take().unwrap();
    from.read_to_end(&mut out).expect("what it prints");
    writer.join().unwrap().expect("it reads its input");
    assert!(program.wait().unwrap().success());
    out
}

pub fn words(told: &[u8]) -> Vec<u64> {
    told.iter().map(|&b| b.into()).collect()
}

/// What is printed for a line, as words: its bytes if they are upper-case digits, else a word that no answer has.
pub fn words_of(line: &[u8]) -> Vec<u64> {
    let upper = !line.iter().any(u8::is_ascii_lowercase);
    bytes_of(line)
        .filter(|_| upper)
        .map_or(vec![256], |b| words(&b))
}

fn session(t: &mut Table, draw: &mut Draw) {
    let mut open = None;
    let mut lines = Vec::new();
    let mut expected = Vec::new();
    for _ in 0..1 + draw.from(&[0, 3, 20, 20, 40, 40, 80]) {
        let bytes = frame(&open, draw);
        let line = line(&bytes, draw);
        expected.push(answered(&mut open, &line));
        lines.push(line);
    }
    let mut input = lines.join(&b'\n');
    let last_has_newline = input.is_empty() || input.ends_with(b"\n") || !draw.once_in(3);
    if last_has_newline {
        input.push(b'\n');
    }
    let out = printed(input);
    let mut got: Vec<&[u8]> = out.split(|&c| c == b'\n').collect();
    // every line that is printed ends with a newline
    assert_eq!(got.pop(), Some(&[][..]), "panel's last newline");
    assert_eq!(got.len(), expected.len(), "a line for a line");
    for ((line, expected), got) in lines.iter().zip(&expected).zip(got) {
        t.tell("panel", &words(expected), &words_of(got), || {
            String::from_utf8_lossy(&line[..line.len().min(200)]).into_owned()
        });
    }
}

pub fn run(t: &mut Table) {
    assert!(printed(Vec::new()).is_empty(), "no line, no answer");
    let mut draw = Draw::new(11);
    for _ in 0..6_000 {
        session(t, &mut draw);
    }
}
