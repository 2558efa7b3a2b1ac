//! The drawing tools. Each function answers what is expected of a call and what ours answers and leaves: document 01's
//! checks in its order, then the Rust's own result (along lines, lines.rs's), then number 16. Sheet and lists are lent to be
//! read; that they keep every bit is compared, too.

use crate::calls::*;
use crate::lines;
use crate::sheet::*;
use pixelforge::editor::tools::{self, Clip, Stroke};
use pixelforge::editor::{Document, PixelChange, Selection};

/// What is expected, and what ours gives, in words.
pub type Pair = [Vec<u64>; 2];

/// A sheet's six arguments.
macro_rules! sheet {
    ($call:ident, $s:expr, $($rest:expr),*) => {
        $call($s.w, $s.h, $s.k, &$s.palette, &$s.lab, &$s.indices, $($rest),*)
    };
}
pub(crate) use sheet;

/// The words of an answer that is a count with a list in a buffer.
pub fn listed(no: u8, r: &[usize], out: &[u64]) -> Vec<u64> {
    let mut words = vec![u64::from(no)];
    sizes(&mut words, r);
    words.extend_from_slice(out);
    words
}

/// What is expected of a call whose result is a list: 16 where the buffer or the scratch is too short.
pub fn with_list(
    no: u8,
    out: usize,
    short: bool,
    result: impl FnOnce() -> Vec<PixelChange>,
) -> Vec<u64> {
    if no != 0 {
        return listed(no, &R, &vec![WORD; out]);
    }
    let list = list_of(&result());
    if short || list.len() > out {
        return listed(16, &R, &vec![WORD; out]);
    }
    listed(0, &numbers(&[list.len()]), &over(&list, out, WORD))
}

fn pairs(points: &[i32]) -> Vec<(i64, i64)> {
    points
        .chunks_exact(2)
        .map(|p| (p[0].into(), p[1].into()))
        .collect()
}

fn points_number(c: &Case, points: &[i32], a: Area) -> u8 {
    let s = &c.sheet;
    let no = s.number(points.len() % 2 != 0);
    let own = first(&[
        (21, points.len() / 2 > MAX_CHANGES),
        (15, points.iter().any(|&z| far(z))),
        (5, a.is_off(s.w, s.h)),
    ]);
    if no != 0 {
        no
    } else {
        own
    }
}

/// The number of a sheet, then 15 of the points, then 5 of the area.
fn placed_number(c: &Case, at: &[i32], a: Area) -> u8 {
    let own = first(&[
        (15, at.iter().any(|&z| far(z))),
        (5, a.is_off(c.sheet.w, c.sheet.h)),
    ]);
    if c.no != 0 {
        c.no
    } else {
        own
    }
}

/// A tool that paints, by its number, on points or corners; `indices` are the one that it paints with and the one that it
/// replaces, `room` the places of scratch and buffer.
fn paint(
    c: &Case,
    a: Area,
    tool: u8,
    points: &[i32],
    size: usize,
    indices: [i16; 2],
    room: [usize; 2],
    rust: impl FnOnce(&Document, Option<&Selection>) -> Vec<PixelChange>,
) -> Pair {
    let s = &c.sheet;
    let no = if tool <= ERASER {
        points_number(c, points, a)
    } else {
        placed_number(c, points, a)
    };
    let short = tool < REPLACE_COLOR && room[0] < s.w * s.h;
    let expected = with_list(no, room[1], short, || rust(c.doc(), a.chosen().as_ref()));
    let [mut scratch, mut list] = room.map(|n| vec![WORD; n]);
    let mut r = R;
    let no = sheet!(
        call_draw,
        s,
        tool,
        a.whole,
        &a.s,
        points,
        size,
        indices[0],
        indices[1],
        &mut scratch,
        &mut list,
        &mut r
    );
    [expected, listed(no, &r, &list)]
}

pub fn pencil(
    c: &Case,
    a: Area,
    points: &[i32],
    size: usize,
    index: i16,
    scratch: usize,
    out: usize,
) -> Pair {
    let room = [scratch, out];
    paint(c, a, PENCIL, points, size, [index, 0], room, |doc, sel| {
        lines::pencil(doc, sel, &pairs(points), size, index.into())
    })
}

pub fn eraser(c: &Case, a: Area, points: &[i32], size: usize, scratch: usize, out: usize) -> Pair {
    let room = [scratch, out];
    paint(c, a, ERASER, points, size, [0, 0], room, |doc, sel| {
        lines::eraser(doc, sel, &pairs(points), size)
    })
}

/// A drag with the pencil on a good sheet: the list of each event, all of the same sheet, joined to a stroke.
pub fn drag(c: &Case, a: Area, events: &[Vec<i32>], size: usize, index: i16) -> Pair {
    let s = &c.sheet;
    let places = s.w * s.h;
    let mut expected = Stroke::new("");
    let (mut stroke, mut count) = (vec![WORD; places], 0);
    let (mut list, mut room, mut r) = (stroke.clone(), vec![WORD; 2 * places], R);
    for points in events {
        let sel = a.chosen();
        expected.extend(lines::pencil(
            c.doc(),
            sel.as_ref(),
            &pairs(points),
            size,
            index.into(),
        ));
        let no = sheet!(
            call_draw, s, PENCIL, a.whole, &a.s, points, size, index, 0, &mut room, &mut list,
            &mut r
        );
        assert_eq!(no, 0, "pencil on a good sheet");
        let no = call_extend(&mut stroke, count, &list[..r[0]], &mut room, &mut r);
        assert_eq!(no, 0, "extend with room for every place");
        count = r[0];
    }
    let expected = list_of(expected.changes());
    [
        listed(0, &[expected.len()], &expected),
        listed(0, &[count], &stroke[..count]),
    ]
}

fn point(x: i32, y: i32) -> (i64, i64) {
    (x.into(), y.into())
}

fn ends(at: [i32; 4]) -> [(i64, i64); 2] {
    [point(at[0], at[1]), point(at[2], at[3])]
}

pub fn line(
    c: &Case,
    a: Area,
    at: [i32; 4],
    size: usize,
    index: i16,
    scratch: usize,
    out: usize,
) -> Pair {
    let [from, to] = ends(at);
    let room = [scratch, out];
    paint(c, a, LINE, &at, size, [index, 0], room, |doc, sel| {
        lines::line(doc, sel, from, to, size, index.into())
    })
}

pub fn rectangle(
    c: &Case,
    a: Area,
    at: [i32; 4],
    filled: bool,
    index: i16,
    scratch: usize,
    out: usize,
) -> Pair {
    let [from, to] = ends(at);
    let (size, room) = (filled.into(), [scratch, out]);
    paint(c, a, RECTANGLE, &at, size, [index, 0], room, |doc, sel| {
        tools::rectangle(doc, sel, from, to, filled, index.into())
    })
}

pub fn flood_fill(
    c: &Case,
    a: Area,
    x: i32,
    y: i32,
    index: i16,
    scratch: usize,
    out: usize,
) -> Pair {
    let room = [scratch, out];
    paint(
        c,
        a,
        FLOOD_FILL,
        &[x, y],
        0,
        [index, 0],
        room,
        |doc, sel| tools::flood_fill(doc, sel, point(x, y), index.into()),
    )
}

pub fn replace_color(c: &Case, a: Area, from: i16, to: i16, out: usize) -> Pair {
    paint(
        c,
        a,
        REPLACE_COLOR,
        &[],
        0,
        [to, from],
        [0, out],
        |d, sel| tools::replace_color(d, sel, from.into(), to.into()),
    )
}

pub fn fill_global(c: &Case, a: Area, x: i32, y: i32, index: i16, out: usize) -> Pair {
    let at = [x, y];
    paint(c, a, FILL_GLOBAL, &at, 0, [index, 0], [0, out], |d, sel| {
        tools::fill_global(d, sel, point(x, y), index.into())
    })
}

/// The words of an answer with a list and a selection.
fn shifted(no: u8, r: &[usize], out: &[u64], s: [u16; 4]) -> Vec<u64> {
    let mut words = listed(no, r, &[]);
    shorts(&mut words, &s);
    words.extend_from_slice(out);
    words
}

fn with_selection(
    no: u8,
    out: usize,
    short: bool,
    result: impl FnOnce() -> (Vec<PixelChange>, Option<Selection>),
) -> Vec<u64> {
    let refused = |no| shifted(no, &R, &vec![WORD; out], S);
    if no != 0 {
        return refused(no);
    }
    let (changes, moved) = result();
    let list = list_of(&changes);
    if short || list.len() > out {
        return refused(16);
    }
    let told = if moved.is_some() { 0 } else { 255 };
    shifted(
        0,
        &numbers(&[list.len(), told]),
        &over(&list, out, WORD),
        moved.map_or(S, part),
    )
}

pub fn move_selection(c: &Case, s: [u16; 4], dx: i32, dy: i32, scratch: usize, out: usize) -> Pair {
    let sheet = &c.sheet;
    let a = Area { whole: false, s };
    let expected = with_selection(
        placed_number(c, &[dx, dy], a),
        out,
        scratch < sheet.w * sheet.h,
        || tools::move_selection(c.doc(), &selection(s), dx.into(), dy.into()),
    );
    let (mut room, mut list, mut moved, mut r) = (vec![WORD; scratch], vec![WORD; out], S, R);
    let no = sheet!(
        call_move_selection,
        sheet,
        &s,
        dx,
        dy,
        &mut room,
        &mut list,
        &mut moved,
        &mut r
    );
    [expected, shifted(no, &r, &list, moved)]
}

fn bad_clip(w: usize, h: usize, clip: &[i16]) -> bool {
    w > 1024 || h > 1024 || clip.len() != w * h
}

fn clip_of(w: usize, h: usize, clip: &[i16]) -> Clip {
    let indices = clip.iter().map(|&i| i.into()).collect();
    Clip { w, h, indices }
}

pub fn paste(
    c: &Case,
    w: usize,
    h: usize,
    clip: &[i16],
    x: i32,
    y: i32,
    scratch: usize,
    out: usize,
) -> Pair {
    let s = &c.sheet;
    let own = first(&[(15, far(x) || far(y)), (17, bad_clip(w, h, clip))]);
    let no = if c.no != 0 { c.no } else { own };
    let expected = with_selection(no, out, scratch < s.w * s.h, || {
        tools::paste(c.doc(), &clip_of(w, h, clip), point(x, y))
    });
    let (mut room, mut list, mut placed, mut r) = (vec![WORD; scratch], vec![WORD; out], S, R);
    let no = sheet!(
        call_paste,
        s,
        w,
        h,
        clip,
        x,
        y,
        &mut room,
        &mut list,
        &mut placed,
        &mut r
    );
    [expected, shifted(no, &r, &list, placed)]
}

/// The words of an answer with indices in a buffer.
fn clipped(no: u8, r: &[usize], out: &[i16]) -> Vec<u64> {
    let mut words = vec![u64::from(no)];
    sizes(&mut words, r);
    indices(&mut words, out);
    words
}

fn with_clip(no: u8, out: usize, result: impl FnOnce() -> Clip) -> Vec<u64> {
    if no != 0 {
        return clipped(no, &R, &vec![INDEX; out]);
    }
    let clip = result();
    if clip.indices.len() > out {
        return clipped(16, &R, &vec![INDEX; out]);
    }
    let list: Vec<i16> = clip.indices.iter().map(|&i| i as i16).collect();
    clipped(0, &numbers(&[clip.w, clip.h]), &over(&list, out, INDEX))
}

pub fn copy(c: &Case, a: Area, out: usize) -> Pair {
    let s = &c.sheet;
    let expected = with_clip(placed_number(c, &[], a), out, || {
        tools::copy(c.doc(), a.chosen().as_ref())
    });
    let (mut list, mut r) = (vec![INDEX; out], R);
    let no = sheet!(call_copy, s, a.whole, &a.s, &mut list, &mut r);
    [expected, clipped(no, &r, &list)]
}

pub fn snap_rgba(c: &Case, rgba: &[u8], w: usize, h: usize, out: usize) -> Pair {
    let s = &c.sheet;
    // 19 has no +: inside the limits it is the Rust's None
    let wide = w > 1024 || h > 1024;
    let no = if c.no != 0 {
        c.no
    } else {
        first(&[(25, s.curve.is_unfit()), (17, wide)])
    };
    let clip = if no == 0 {
        s.curve.under(|| tools::snap_rgba(c.doc(), rgba, w, h))
    } else {
        None
    };
    let no = if no == 0 && clip.is_none() { 19 } else { no };
    let expected = with_clip(no, out, || clip.unwrap());
    let (mut list, mut r) = (vec![INDEX; out], R);
    let no = sheet!(
        call_snap_rgba,
        s,
        s.curve.loaded,
        &s.curve.values,
        rgba,
        w,
        h,
        &mut list,
        &mut r
    );
    [expected, clipped(no, &r, &list)]
}

/// The words of an answer with bytes in a buffer.
pub fn marked(no: u8, r: &[usize], out: &[u8]) -> Vec<u64> {
    let mut words = vec![u64::from(no)];
    sizes(&mut words, r);
    bytes(&mut words, out);
    words
}

pub fn with_bytes(no: u8, out: usize, result: impl FnOnce() -> Vec<u8>) -> Vec<u64> {
    if no != 0 {
        return marked(no, &R, &vec![BYTE; out]);
    }
    let list = result();
    if list.len() > out {
        return marked(16, &R, &vec![BYTE; out]);
    }
    marked(0, &numbers(&[list.len()]), &over(&list, out, BYTE))
}

pub fn clip_rgba(c: &Case, w: usize, h: usize, clip: &[i16], out: usize) -> Pair {
    let s = &c.sheet;
    let no = if c.no != 0 {
        c.no
    } else {
        first(&[(17, bad_clip(w, h, clip))])
    };
    let expected = with_bytes(no, out, || tools::clip_rgba(c.doc(), &clip_of(w, h, clip)));
    let (mut list, mut r) = (vec![BYTE; out], R);
    let no = sheet!(call_clip_rgba, s, w, h, clip, &mut list, &mut r);
    [expected, marked(no, &r, &list)]
}

pub fn eyedropper(c: &Case, x: i32, y: i32) -> Pair {
    let s = &c.sheet;
    let no = if c.no != 0 {
        c.no
    } else {
        first(&[(15, far(x) || far(y))])
    };
    let found = if no == 0 {
        tools::eyedropper(c.doc(), point(x, y))
    } else {
        None
    };
    let mut got = [INDEX];
    let told = sheet!(call_eyedropper, s, x, y, &mut got);
    [looked(no, found), vec![told.into(), got[0] as u16 as u64]]
}

/// The words of an index that was looked up.
pub fn looked(no: u8, found: Option<i64>) -> Vec<u64> {
    match found {
        Some(i) => vec![0, i as i16 as u16 as u64],
        None => vec![if no == 0 { 255 } else { no.into() }, INDEX as u16 as u64],
    }
}
