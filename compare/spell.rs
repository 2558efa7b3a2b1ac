//! `spell` and `read_sheet` (change request E10) and the programs `panel` and `panel_library`, beside E10's rule in words of
//! its own: the bytes of the opening frame, two upper-case digits each, and one newline. What a line is read as is what
//! panel.rs has of document 01's frames; LAB is the Rust's.

use crate::curve::Curve;
use crate::draw::Draw;
use crate::panel;
use crate::sheet::*;
use crate::table::Table;

const SIDE: usize = 64;
const ANSWER: [usize; 3] = [7777; 3];

extern "C" {
    fn call_spell(
        w: usize,
        h: usize,
        k: usize,
        palette: *const u8,
        palette_len: usize,
        lab: *const f64,
        lab_len: usize,
        indices: *const i16,
        indices_len: usize,
        text: *mut u8,
        text_len: usize,
        r: &mut [usize; 3],
    ) -> u8;
    fn call_read_sheet(
        line: *const u8,
        line_len: usize,
        palette: *mut u8,
        palette_len: usize,
        lab: *mut f64,
        lab_len: usize,
        indices: *mut i16,
        indices_len: usize,
        r: &mut [usize; 3],
    ) -> u8;
}

/// A pointer goes with its own slice's length, no two slices overlap, and the functions are proved to stay inside.
fn ours_spell(s: &Sheet, text: &mut [u8], r: &mut [usize; 3]) -> u8 {
    let (p, l, i) = (&s.palette, &s.lab, &s.indices);
    unsafe {
        call_spell(
            s.w,
            s.h,
            s.k,
            p.as_ptr(),
            p.len(),
            l.as_ptr(),
            l.len(),
            i.as_ptr(),
            i.len(),
            text.as_mut_ptr(),
            text.len(),
            r,
        )
    }
}

/// The buffers that a line is read into.
#[derive(Clone)]
struct Lent {
    palette: Vec<u8>,
    lab: Vec<f64>,
    indices: Vec<i16>,
}

impl Lent {
    fn words(&self, to: &mut Vec<u64>) {
        bytes(to, &self.palette);
        doubles(to, &self.lab);
        indices(to, &self.indices);
    }
}

fn ours_read(line: &[u8], lent: &mut Lent, r: &mut [usize; 3]) -> u8 {
    let (p, l, i) = (&mut lent.palette, &mut lent.lab, &mut lent.indices);
    unsafe {
        call_read_sheet(
            line.as_ptr(),
            line.len(),
            p.as_mut_ptr(),
            p.len(),
            l.as_mut_ptr(),
            l.len(),
            i.as_mut_ptr(),
            i.len(),
            r,
        )
    }
}

/// The bytes of a sheet's opening frame.
fn frame(s: &Sheet) -> Vec<u8> {
    let mut b = vec![0];
    b.extend((s.w as u16).to_le_bytes());
    b.extend((s.h as u16).to_le_bytes());
    b.push(s.k as u8);
    b.extend(&s.palette[..3 * s.k]);
    b.extend(s.indices.iter().map(|&i| i as u8));
    b
}

/// The one spelling.
fn line_of(s: &Sheet) -> Vec<u8> {
    let mut line: String = frame(s).iter().map(|b| format!("{b:02X}")).collect();
    line.push('\n');
    line.into_bytes()
}

fn answer(no: u8, r: [usize; 3]) -> Vec<u64> {
    let mut words = vec![no.into()];
    words.extend(r.map(|n| n as u64));
    words
}

/// Spells a sheet into a text of some length, and answers its line where it has one.
fn spell(t: &mut Table, s: &Sheet, room: impl FnOnce(usize) -> usize) -> Option<Vec<u8>> {
    let mut no = s.number(s.w > SIDE || s.h > SIDE);
    let line = if no == 0 { line_of(s) } else { Vec::new() };
    let mut text = vec![BYTE; room(line.len())];
    let mut left = text.clone();
    let mut r = ANSWER;
    if no == 0 && text.len() < line.len() {
        no = 16;
    }
    if no == 0 {
        r[0] = line.len();
        left[..line.len()].copy_from_slice(&line);
    }
    let mut expected = answer(no, r);
    bytes(&mut expected, &left);
    let mut r = ANSWER;
    let told = ours_spell(s, &mut text, &mut r);
    let mut ours = answer(told, r);
    bytes(&mut ours, &text);
    t.tell("spell", &expected, &ours, || s.about());
    (no == 0).then_some(line)
}

/// Reads a line into buffers.
fn read(t: &mut Table, line: &[u8], lent: &Lent) {
    let bare = line.strip_suffix(b"\n").unwrap_or(line);
    let mut left = lent.clone();
    let mut r = ANSWER;
    let no = match panel::opening_bytes(bare) {
        None => 22,
        Some(b) => match panel::opened(&b) {
            _ if lent.palette.len() != STORAGE || lent.lab.len() != STORAGE => 1,
            Err(no) => no,
            Ok(open) => {
                let s = &open.st.sheet;
                let n = s.w * s.h;
                if lent.indices.len() < n {
                    16
                } else {
                    r = [s.w, s.h, s.k];
                    left.palette[..3 * s.k].copy_from_slice(&s.palette[..3 * s.k]);
                    left.lab[..3 * s.k].copy_from_slice(&s.lab[..3 * s.k]);
                    left.indices[..n].copy_from_slice(&s.indices);
                    0
                }
            }
        },
    };
    let mut expected = answer(no, r);
    left.words(&mut expected);
    let mut got = lent.clone();
    let mut r = ANSWER;
    let told = ours_read(line, &mut got, &mut r);
    let mut ours = answer(told, r);
    got.words(&mut ours);
    t.tell("read_sheet", &expected, &ours, || {
        String::from_utf8_lossy(&line[..line.len().min(200)]).into_owned()
    });
}

/// Buffers with something in them, now and then of a wrong length.
fn lent(draw: &mut Draw) -> Lent {
    let storage = |draw: &mut Draw| match draw.below(20) {
        0 => draw.from(&[0, 3, STORAGE - 1, STORAGE + 1]),
        _ => STORAGE,
    };
    let places = draw.from(&[0, 1, 8, 63, 4_095, 4_096, 4_096, 4_096, 4_096, 5_000]);
    Lent {
        palette: vec![BYTE; storage(draw)],
        lab: vec![REAL; storage(draw)],
        indices: vec![INDEX; places],
    }
}

/// A well-formed sheet, but for its sides and its palette count.
fn sheet_of(w: usize, h: usize, k: usize, draw: &mut Draw) -> Sheet {
    let few = k.min(255).min(1 + draw.below(4)) + 1;
    let mut s = Sheet {
        w,
        h,
        k,
        palette: (0..STORAGE).map(|_| draw.next() as u8).collect(),
        lab: (0..STORAGE).map(|_| draw.number()).collect(),
        indices: (0..w * h).map(|_| draw.below(few) as i16 - 1).collect(),
        locks: unlocked(k),
        curve: Curve::none(),
    };
    if w * h > 0 && k > 0 && k <= 255 {
        let at = draw.below(w * h);
        s.indices[at] = k as i16 - 1;
    }
    s
}

fn side(draw: &mut Draw) -> usize {
    draw.from(&[0, 1, 1, 2, 3, 4, 5, 8, 13, 31, 63, 64, 65, 66])
}

fn count(draw: &mut Draw) -> usize {
    draw.from(&[0, 1, 1, 2, 2, 3, 4, 16, 127, 128, 253, 254, 255, 256])
}

/// A sheet with something wrong, or two things.
fn damage(s: &mut Sheet, draw: &mut Draw) {
    for _ in 0..1 + draw.below(2) {
        match draw.below(6) {
            0 => s.palette.resize(draw.from(&[0, 764, 766]), 0),
            1 => s.lab.resize(draw.from(&[0, 764, 766]), 0.0),
            2 => s.indices.push(0),
            3 => drop(s.indices.pop()),
            4 if !s.indices.is_empty() => {
                let at = draw.below(s.indices.len());
                s.indices[at] = draw.from(&[-2, s.k as i16, 254, 255, 256, i16::MIN, i16::MAX]);
            }
            _ if !s.lab.is_empty() => {
                let at = draw.below(s.lab.len().min(3 * s.k + 3));
                s.lab[at] = draw.from(&[f64::NAN, f64::INFINITY, f64::NEG_INFINITY]);
            }
            _ => {}
        }
    }
}

/// The line of a sheet, read back and given to `panel`, which prints the state of the sheet that it opened.
fn back(t: &mut Table, s: &Sheet, line: &[u8], draw: &mut Draw) {
    let all = Lent {
        palette: vec![BYTE; STORAGE],
        lab: vec![REAL; STORAGE],
        indices: vec![INDEX; 4_096],
    };
    read(t, line, &all);
    if draw.once_in(3) {
        read(t, &line[..line.len() - 1], &all);
        let mut state = vec![0, 0, 0, 0, s.k as u8];
        state.extend(s.indices.iter().map(|&i| i as u8));
        let out = panel::printed_by("crates/panel/out/panel", line.to_vec());
        let shown = out.strip_suffix(b"\n").unwrap_or(b"");
        t.tell(
            "spell, panel",
            &panel::words(&state),
            &panel::words_of(shown),
            || s.about(),
        );
    }
}

/// Sheets that differ in one part: the lines are equal exactly where size, indices, count and colours are.
fn one_part(t: &mut Table, draw: &mut Draw) {
    let mut sides = || draw.from(&[1, 2, 3, 8]);
    let (w, h) = (sides(), sides());
    let k = draw.from(&[1, 2, 3, 254]);
    let s = sheet_of(w, h, k, draw);
    let mut other = s.clone();
    let same = match draw.below(7) {
        0 => {
            other.lab[draw.below(3 * k)] += 1.0;
            true
        }
        1 => {
            other.palette[3 * k] ^= 1;
            true
        }
        2 => true,
        3 => {
            let at = draw.below(w * h);
            other.indices[at] = if s.indices[at] < 0 { 0 } else { -1 };
            false
        }
        4 => {
            other.palette[draw.below(3 * k)] ^= 1 << draw.below(8);
            false
        }
        5 => {
            (other.w, other.h) = (h, w);
            w == h
        }
        _ => {
            other.k += 1;
            false
        }
    };
    let lines = [&s, &other].map(|s| {
        let mut text = vec![BYTE; 10_000];
        let mut r = ANSWER;
        ours_spell(s, &mut text, &mut r);
        text[..r[0]].to_vec()
    });
    let told = |same: bool| vec![0, same.into()];
    t.tell(
        "spell, equal",
        &told(same),
        &told(lines[0] == lines[1]),
        || s.about(),
    );
}

/// A line, its newline or none, now and then one too many or one inside.
fn newlines(mut line: Vec<u8>, draw: &mut Draw) -> Vec<u8> {
    match draw.below(12) {
        0..=4 => line.push(b'\n'),
        5 => line.extend(b"\n\n"),
        6 => line.insert(0, b'\n'),
        7 => {
            let at = draw.below(line.len() + 1);
            line.insert(at, b'\n');
        }
        8 => line.extend(b"\r\n"),
        _ => {}
    }
    line
}

/// Lines of either case, damaged ones among them, through the keepers' program.
fn library(t: &mut Table, draw: &mut Draw) {
    let mut input = Vec::new();
    let mut lines = Vec::new();
    for _ in 0..2_000 {
        let bytes = if draw.once_in(8) {
            draw.from(&[&[5][..], &[7], &[3, 1, 2, 3], &[0], &[1, 0], &[9, 9]])
                .to_vec()
        } else {
            panel::opening(draw)
        };
        let line = panel::line(&bytes, draw);
        input.extend(&line);
        input.push(b'\n');
        lines.push(line);
    }
    if draw.once_in(2) && !lines.last().unwrap().is_empty() {
        input.pop();
    }
    let out = panel::printed_by("crates/panel_library/out/panel_library", input);
    let mut got: Vec<&[u8]> = out.split(|&c| c == b'\n').collect();
    assert_eq!(got.pop(), Some(&[][..]), "panel_library's last newline");
    assert_eq!(got.len(), lines.len(), "a line for a line");
    for (line, got) in lines.iter().zip(got) {
        let expected = match panel::opening_bytes(line) {
            None => vec![22],
            Some(b) => match panel::opened(&b) {
                Err(no) => vec![no],
                Ok(_) => b,
            },
        };
        t.tell(
            "panel_library",
            &panel::words(&expected),
            &panel::words_of(got),
            || String::from_utf8_lossy(&line[..line.len().min(200)]).into_owned(),
        );
    }
}

pub fn run(t: &mut Table) {
    let mut draw = Draw::new(10);
    // every size to 66 by 66, and every palette count to 256
    for w in 0..=66 {
        for h in 0..=66 {
            let k = count(&mut draw);
            let s = sheet_of(w, h, k, &mut draw);
            if let Some(line) = spell(t, &s, |n| n) {
                back(t, &s, &line, &mut draw);
            }
        }
    }
    for k in 0..=256 {
        let s = sheet_of(2, 3, k, &mut draw);
        if let Some(line) = spell(t, &s, |n| n) {
            back(t, &s, &line, &mut draw);
        }
    }
    for _ in 0..20_000 {
        let (w, h, k) = (side(&mut draw), side(&mut draw), count(&mut draw));
        let mut s = sheet_of(w, h, k, &mut draw);
        if draw.once_in(2) {
            damage(&mut s, &mut draw);
        }
        let mut room = draw.clone();
        spell(t, &s, |n| room.room(n));
        draw.next();
        one_part(t, &mut draw);
    }
    for _ in 0..40_000 {
        let bytes = panel::opening(&mut draw);
        let line = panel::line(&bytes, &mut draw);
        let line = newlines(line, &mut draw);
        read(t, &line, &lent(&mut draw));
    }
    for _ in 0..6 {
        library(t, &mut draw);
    }
}
