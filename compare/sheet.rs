//! A sheet as our calls are lent it, with document 01's checks of it and the Rust's document.

use crate::curve::Curve;
use crate::draw::Draw;
use pixelforge::config::Config;
use pixelforge::editor::{Document, Op, Origin, PixelChange, Selection};
use pixelforge::pipeline::IndexImage;
use pixelforge::pyjson::Json;

pub const STORAGE: usize = 765;
pub const MAX_CHANGES: usize = 1_048_576;
/// Lock marks of a sheet: document 02, E5.
pub const MARKS: usize = 255;

// What buffers hold before a call.
pub const WORD: u64 = 0x5a5a_5a5a_5a5a_5a5a;
pub const HALF: i32 = 0x5a5a_5a5a;
pub const INDEX: i16 = 0x5a5a;
pub const BYTE: u8 = 0x5a;
pub const REAL: f64 = 1.5;
pub const R: [usize; 5] = [7777; 5];
pub const S: [u16; 4] = [7777; 4];
pub const BYTES: [u8; 8] = [BYTE; 8];
pub const DOUBLES: [f64; 3] = [REAL; 3];
pub const AWAY: [f64; 1] = [REAL];

/// The first number whose test applies, or 0.
pub fn first(checks: &[(u8, bool)]) -> u8 {
    checks
        .iter()
        .find(|(_, applies)| *applies)
        .map_or(0, |(no, _)| *no)
}

/// A sheet with its marks and its session's curve.
#[derive(Clone)]
pub struct Sheet {
    pub w: usize,
    pub h: usize,
    pub k: usize,
    pub palette: Vec<u8>,
    pub lab: Vec<f64>,
    pub indices: Vec<i16>,
    pub locks: Vec<bool>,
    pub curve: Curve,
}

impl Sheet {
    /// Number 1.
    pub fn is_bad(&self) -> bool {
        self.w > 1024
            || self.h > 1024
            || self.k > 255
            || self.palette.len() != STORAGE
            || self.lab.len() != STORAGE
            || self.indices.len() != self.w * self.h
    }

    /// Number 2.
    pub fn is_stray(&self) -> bool {
        self.indices
            .iter()
            .any(|&i| i < -1 || i64::from(i) >= self.k as i64)
    }

    /// Number 3.
    pub fn is_unfit(&self) -> bool {
        self.lab[..3 * self.k].iter().any(|x| !x.is_finite())
    }

    /// The checks 1 to 3, with what else a call holds to number 1.
    pub fn number(&self, bad: bool) -> u8 {
        if self.is_bad() || bad {
            return 1;
        }
        first(&[(2, self.is_stray()), (3, self.is_unfit())])
    }

    /// The same in a call that takes the marks, which holds their length to number 1, too.
    pub fn marked_number(&self, bad: bool) -> u8 {
        self.number(bad || self.locks.len() != MARKS)
    }

    /// Whether 24 applies to an entry that is there.
    pub fn is_locked(&self, index: usize) -> bool {
        index < self.k && self.locks[index]
    }

    /// The same sheet with any marks, now and then too many or too few.
    pub fn with_any_locks(mut self, draw: &mut Draw) -> Sheet {
        let n = match draw.below(40) {
            0 => draw.from(&[0, 1, MARKS - 1, MARKS + 1]),
            _ => MARKS,
        };
        self.locks = any_locks(n, draw);
        self
    }

    pub fn image(&self) -> IndexImage {
        IndexImage {
            indices: self.indices.iter().map(|&i| i64::from(i)).collect(),
            h: self.h,
            w: self.w,
        }
    }

    pub fn colours(&self) -> Vec<[u8; 3]> {
        colours(&self.palette[..3 * self.k])
    }

    /// What the Rust's `new`, and in it `with_lab`, makes of the sheet; then its LAB is the sheet's own.
    pub fn document(&self, permitted: Option<Vec<[u8; 3]>>) -> Option<Document> {
        let mut doc = new(self)?;
        doc.palette_lab = self.lab[..3 * self.k].to_vec();
        doc.fixed = permitted;
        Some(doc)
    }

    pub fn same(&self, other: &Sheet) -> bool {
        self.palette == other.palette
            && self.indices == other.indices
            && self.locks == other.locks
            && self
                .lab
                .iter()
                .map(|x| x.to_bits())
                .eq(other.lab.iter().map(|x| x.to_bits()))
    }

    /// All that is lent, as words.
    pub fn words(&self, to: &mut Vec<u64>) {
        bytes(to, &self.palette);
        doubles(to, &self.lab);
        indices(to, &self.indices);
        flags(to, &self.locks);
    }

    pub fn about(&self) -> String {
        let few: Vec<i16> = self.indices.iter().copied().take(16).collect();
        let lens = (self.palette.len(), self.lab.len(), self.indices.len());
        let locked: Vec<usize> = (0..self.k.min(self.locks.len()))
            .filter(|&i| self.locks[i])
            .collect();
        format!(
            "{} x {}, k {}, lengths {lens:?}, indices {few:?}, locked {locked:?} of {}, {}",
            self.w,
            self.h,
            self.k,
            self.locks.len(),
            self.curve.about()
        )
    }
}

/// The Rust's `Document::new`.
pub fn new(s: &Sheet) -> Option<Document> {
    let origin = Origin::new(Config::default(), String::new(), Json::Null);
    Document::new(s.image(), s.colours(), origin).ok()
}

pub fn colours(flat: &[u8]) -> Vec<[u8; 3]> {
    flat.chunks_exact(3).map(|c| [c[0], c[1], c[2]]).collect()
}

/// A sheet, its number, and the Rust's document of it where it has none.
pub struct Case {
    pub sheet: Sheet,
    pub no: u8,
    pub doc: Option<Document>,
}

impl Case {
    pub fn new(sheet: Sheet) -> Case {
        let no = sheet.number(false);
        // inside the domain 2 is the Rust's own refusal
        let doc = if no == 1 { None } else { sheet.document(None) };
        assert_eq!(
            doc.is_none(),
            no == 1 || no == 2,
            "the Rust's with_lab: {}",
            sheet.about()
        );
        Case {
            sheet,
            no,
            doc: doc.filter(|_| no == 0),
        }
    }

    pub fn doc(&self) -> &Document {
        self.doc.as_ref().expect("a well-formed sheet")
    }
}

// Words of an answer.

pub fn bytes(to: &mut Vec<u64>, from: &[u8]) {
    to.extend(from.iter().map(|&x| u64::from(x)));
}

pub fn doubles(to: &mut Vec<u64>, from: &[f64]) {
    to.extend(from.iter().map(|x| x.to_bits()));
}

pub fn indices(to: &mut Vec<u64>, from: &[i16]) {
    to.extend(from.iter().map(|&x| x as u16 as u64));
}

pub fn flags(to: &mut Vec<u64>, from: &[bool]) {
    to.extend(from.iter().map(|&x| u64::from(x)));
}

pub fn halves(to: &mut Vec<u64>, from: &[i32]) {
    to.extend(from.iter().map(|&x| x as u32 as u64));
}

pub fn shorts(to: &mut Vec<u64>, from: &[u16]) {
    to.extend(from.iter().map(|&x| u64::from(x)));
}

pub fn sizes(to: &mut Vec<u64>, from: &[usize]) {
    to.extend(from.iter().map(|&x| x as u64));
}

/// A buffer of n places with a result at its front.
pub fn over<T: Copy>(result: &[T], n: usize, blank: T) -> Vec<T> {
    let mut out = vec![blank; n];
    out[..result.len()].copy_from_slice(result);
    out
}

/// The numbers of an answer, the others blank.
pub fn numbers(some: &[usize]) -> [usize; 5] {
    let mut r = R;
    r[..some.len()].copy_from_slice(some);
    r
}

// Changes: two bytes each for x, y, old and new.

pub fn packed(c: &PixelChange) -> u64 {
    let field = |z: i64| u64::from(z as i16 as u16);
    c.x as u64 + ((c.y as u64) << 16) + (field(c.old) << 32) + (field(c.new) << 48)
}

pub fn unpacked(n: u64) -> PixelChange {
    let field = |at: u32| i64::from((n >> at) as u16 as i16);
    PixelChange {
        x: usize::from(n as u16),
        y: usize::from((n >> 16) as u16),
        old: field(32),
        new: field(48),
    }
}

pub fn list_of(changes: &[PixelChange]) -> Vec<u64> {
    changes.iter().map(packed).collect()
}

pub fn changes_of(list: &[u64]) -> Vec<PixelChange> {
    list.iter().map(|&n| unpacked(n)).collect()
}

/// A selection or all.
#[derive(Clone, Copy, Debug)]
pub struct Area {
    pub whole: bool,
    pub s: [u16; 4],
}

pub fn selection(s: [u16; 4]) -> Selection {
    let [x, y, w, h] = s.map(usize::from);
    Selection { x, y, w, h }
}

/// A selection's numbers as ours has them.
pub fn part(s: Selection) -> [u16; 4] {
    [s.x, s.y, s.w, s.h].map(|n| n as u16)
}

pub fn inside(s: [u16; 4], w: usize, h: usize) -> bool {
    let [x, y, sw, sh] = s.map(usize::from);
    x + sw <= w && y + sh <= h
}

impl Area {
    pub fn is_off(&self, w: usize, h: usize) -> bool {
        !self.whole && !inside(self.s, w, h)
    }

    pub fn chosen(&self) -> Option<Selection> {
        (!self.whole).then(|| selection(self.s))
    }
}

pub fn far(z: i32) -> bool {
    !(-65_536..=65_536).contains(&z)
}

/// An edit: one of the Rust's, or document 02's lock, which the Rust has not.
#[derive(Clone)]
pub enum Edit {
    Op(Op),
    Lock { index: usize, old: bool, new: bool },
}

impl Edit {
    pub fn is_empty(&self) -> bool {
        match self {
            Edit::Op(op) => op.is_empty(),
            Edit::Lock { .. } => false,
        }
    }

    /// The entry that is set or removed: "set and remove of a locked entry are refused".
    pub fn recoloured(&self) -> Option<usize> {
        match self {
            Edit::Op(Op::PaletteSet { index, .. } | Op::PaletteRemove { index, .. }) => {
                Some(*index)
            }
            _ => None,
        }
    }
}

/// An edit flat: kind, tool, old and new colour; index; LAB. A lock's marks stand where the colours' reds do.
#[derive(Clone, Copy, Debug)]
pub struct Flat {
    pub bytes: [u8; 8],
    pub index: usize,
    pub lab: [f64; 3],
}

impl Flat {
    pub fn edit(&self, list: &[u64]) -> Edit {
        match self.bytes[0] {
            5 => Edit::Lock {
                index: self.index,
                old: self.bytes[2] != 0,
                new: self.bytes[5] != 0,
            },
            _ => Edit::Op(self.op(list)),
        }
    }

    fn op(&self, list: &[u64]) -> Op {
        let [kind, tool, a, b, c, d, e, f] = self.bytes;
        match kind {
            1 => Op::Pixels {
                tool: tool.to_string(),
                changes: changes_of(list),
            },
            2 => Op::PaletteSet {
                index: self.index,
                old: [a, b, c],
                new: [d, e, f],
                old_lab: self.lab,
            },
            3 => Op::PaletteAdd { rgb: [d, e, f] },
            _ => Op::PaletteRemove {
                index: self.index,
                rgb: [a, b, c],
                lab: self.lab,
                remap: changes_of(list),
            },
        }
    }
}

/// What ours writes of an edit, over the blanks, and its list.
pub fn flat_of(op: &Op) -> ([u8; 8], [f64; 3], [usize; 5], Vec<u64>) {
    let (mut b, mut f, mut r) = (BYTES, DOUBLES, R);
    let mut list = Vec::new();
    match op {
        Op::Pixels { tool, changes } => {
            (b[0], b[1]) = (1, tool.parse().unwrap());
            list = list_of(changes);
        }
        Op::PaletteSet {
            index,
            old,
            new,
            old_lab,
        } => {
            (b[0], r[0], f) = (2, *index, *old_lab);
            b[2..5].copy_from_slice(old);
            b[5..8].copy_from_slice(new);
        }
        Op::PaletteAdd { rgb } => {
            b[0] = 3;
            b[5..8].copy_from_slice(rgb);
        }
        Op::PaletteRemove {
            index,
            rgb,
            lab,
            remap,
        } => {
            (b[0], r[0], f) = (4, *index, *lab);
            b[2..5].copy_from_slice(rgb);
            list = list_of(remap);
        }
    }
    (b, f, r, list)
}

/// The same of any edit.
pub fn flat_of_edit(e: &Edit) -> ([u8; 8], [f64; 3], [usize; 5], Vec<u64>) {
    match e {
        Edit::Op(op) => flat_of(op),
        Edit::Lock { index, old, new } => {
            let mut b = BYTES;
            (b[0], b[2], b[5]) = (5, u8::from(*old), u8::from(*new));
            (b, DOUBLES, numbers(&[*index]), Vec::new())
        }
    }
}

/// Document 01's number for what the Rust says when it refuses.
pub fn refusal(told: &str) -> u8 {
    let words = [
        ("the log expects", 11),
        (" image", 5),
        ("is outside the palette", 6),
        ("does not exist", 7),
        ("is full", 8),
        ("the only palette entry", 9),
        ("is not a color", 10),
        ("names pixel", 12),
        ("cannot be remapped", 12),
        ("still used", 13),
        ("cannot merge", 18),
    ];
    let found = words.iter().find(|(word, _)| told.contains(word));
    found.unwrap_or_else(|| panic!("no number for: {told}")).1
}

// Sheets to compare over.

/// Marks of which none of k entries has one, past them any: sheets that the Rust can show.
pub fn unlocked(k: usize) -> Vec<bool> {
    (0..MARKS).map(|i| i >= k && i % 3 != 1).collect()
}

/// Any marks.
pub fn any_locks(n: usize, draw: &mut Draw) -> Vec<bool> {
    let seldom = draw.from(&[2, 3, 5]);
    (0..n).map(|_| draw.once_in(seldom)).collect()
}

/// Storage of k distinct colours and their LAB; past them whatever, no numbers among it.
fn storage(k: usize, draw: &mut Draw) -> (Vec<u8>, Vec<f64>) {
    let mut palette: Vec<u8> = (0..STORAGE).map(|_| draw.next() as u8).collect();
    for i in 1..k.min(255) {
        if draw.once_in(8) {
            let j = 3 * draw.below(i);
            palette.copy_within(j..j + 3, 3 * i);
        }
    }
    let mut lab: Vec<f64> = (0..STORAGE).map(|_| draw.double()).collect();
    for i in 0..k.min(255) {
        let own = !draw.once_in(4);
        if own {
            let of = pixelforge::color::rgb8_to_lab(&palette[3 * i..3 * i + 3]);
            lab[3 * i..3 * i + 3].copy_from_slice(&of);
        } else {
            for x in &mut lab[3 * i..3 * i + 3] {
                *x = draw.number();
            }
        }
    }
    (palette, lab)
}

/// Every well-formed sheet of 0 to 2 by 0 to 2 with 0 to 2 entries.
pub fn tiny() -> Vec<Sheet> {
    sheets_of(0)
}

/// The same with every index one past the range on either side, too.
pub fn tiny_stray() -> Vec<Sheet> {
    sheets_of(1).into_iter().filter(Sheet::is_stray).collect()
}

fn sheets_of(past: usize) -> Vec<Sheet> {
    let mut draw = Draw::new(1);
    let mut sheets = Vec::new();
    for (w, h, k) in (0..27).map(|i| (i / 9, i / 3 % 3, i % 3)) {
        let values = k + 1 + 2 * past;
        for n in 0..values.pow((w * h) as u32) {
            let (palette, lab) = storage(k, &mut draw);
            let index = |p: usize| (n / values.pow(p as u32) % values) as i16 - 1 - past as i16;
            let indices = (0..w * h).map(index).collect();
            sheets.push(Sheet {
                w,
                h,
                k,
                palette,
                lab,
                indices,
                locks: unlocked(k),
                curve: Curve::none(),
            });
        }
    }
    sheets
}

/// A well-formed sheet of these sizes.
pub fn good(w: usize, h: usize, k: usize, draw: &mut Draw) -> Sheet {
    let (palette, lab) = storage(k, draw);
    // few different indices, so that areas of one index are met
    let some: Vec<i16> = (0..1 + draw.below(4))
        .map(|_| draw.below(k.min(255) + 1) as i16 - 1)
        .collect();
    let indices = (0..w * h).map(|_| draw.from(&some)).collect();
    Sheet {
        w,
        h,
        k,
        palette,
        lab,
        indices,
        locks: unlocked(k),
        curve: Curve::none(),
    }
}

pub fn small(draw: &mut Draw) -> Sheet {
    let w = draw.from(&[0, 1, 1, 2, 3, 4, 5, 7, 8, 9, 13]);
    let h = draw.from(&[0, 1, 1, 2, 3, 4, 5, 7, 8, 9, 13]);
    let k = draw.from(&[0, 1, 1, 2, 2, 3, 3, 4, 6]);
    good(w, h, k, draw)
}

/// A sheet with a side or a palette at the limits, or past them.
pub fn edge(draw: &mut Draw) -> Sheet {
    let long = draw.from(&[1023, 1024, 1024, 1025]);
    let short = draw.from(&[0, 1, 2, 3]);
    let k = draw.from(&[0, 1, 254, 255, 256]);
    match draw.below(6) {
        0 => good(long, short, k, draw),
        1 => good(short, long, k, draw),
        _ => good(draw.below(5), draw.below(5), k, draw),
    }
}

/// A good sheet with one thing made wrong.
pub fn damaged(draw: &mut Draw) -> Sheet {
    let mut s = small(draw);
    let used = 3 * s.k;
    match draw.below(8) {
        0 => s.palette.truncate(draw.from(&[0, 1, STORAGE - 1])),
        1 => s.lab.truncate(draw.from(&[0, 1, STORAGE - 1])),
        2 => s.palette.push(0),
        3 => s.lab.push(0.0),
        4 => s.indices.push(-1),
        5 => {
            s.indices.pop();
        }
        6 if !s.indices.is_empty() => {
            let at = draw.below(s.indices.len());
            s.indices[at] = draw.from(&[-2, s.k as i16, i16::MIN, i16::MAX, -3]);
        }
        _ if used > 0 => {
            let at = draw.below(used);
            s.lab[at] = draw.from(&[f64::NAN, f64::INFINITY, f64::NEG_INFINITY]);
        }
        _ => s.w += 1,
    }
    s
}

/// Mostly small sheets; some damaged, some at the limits.
pub fn any(draw: &mut Draw) -> Sheet {
    match draw.below(20) {
        0 | 1 => damaged(draw),
        2 => edge(draw),
        3 => {
            let mut s = damaged(draw);
            if !s.indices.is_empty() {
                s.indices[0] = -2;
            }
            s
        }
        _ => small(draw),
    }
}

pub fn any_area(s: &Sheet, draw: &mut Draw) -> Area {
    let whole = draw.once_in(3);
    Area {
        whole,
        s: any_part(s.w, s.h, draw),
    }
}

/// A selection, mostly inside and touching the edges.
pub fn any_part(w: usize, h: usize, draw: &mut Draw) -> [u16; 4] {
    let mut axis = |side: usize| -> (u16, u16) {
        let side = side.min(2000);
        let x = draw.below(side + 1);
        let n = match draw.below(12) {
            0 => side - x + 1,
            1 => draw.from(&[65_535, 40_000]),
            2 | 3 => 0,
            4..=7 => side - x,
            _ => draw.below(side - x + 1),
        };
        let x = if draw.once_in(30) { 65_535 } else { x };
        (x as u16, n as u16)
    };
    let (x, sw) = axis(w);
    let (y, sh) = axis(h);
    [x, y, sw, sh]
}

/// An index: mostly of the palette or transparent.
pub fn any_index(k: usize, draw: &mut Draw) -> i16 {
    match draw.below(16) {
        0 => draw.from(&[i16::MIN, i16::MAX, -2, 255, 256]),
        1 => k as i16,
        _ => draw.below(k.min(255) + 1) as i16 - 1,
    }
}
