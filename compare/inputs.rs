//! Inputs for the calls that return no sheet: tiny ones exhaustively, then random ones, at the limits and past them, and
//! damaged copies of good ones. Those of tiles.rs stand in tiled.rs.

use crate::draw::Draw;
use crate::drawn;
use crate::sheet::*;
use crate::sheets::{self, Permitted};
use crate::table::Table;
use pixelforge::editor::op::normalize;

/// Compares one call: `tell!(table, "name", call, about)`.
macro_rules! tell {
    ($t:expr, $name:expr, $pair:expr, $($about:tt)*) => {{
        let [expected, ours] = $pair;
        $t.tell($name, &expected, &ours, || format!($($about)*));
    }};
}
pub(crate) use tell;

pub fn run(t: &mut Table) {
    parts(t);
    colours(t);
    selections(t);
    lists(t);
    tiny_sheets(t);
    some_sheets(t);
    large_sheets(t);
    long_lists(t);
}

/// The parts of other calls that are exported by themselves.
fn parts(t: &mut Table) {
    let mut draw = Draw::new(21);
    for c in 0..=255 {
        tell!(t, "linear", sheets::linear(c), "{c}");
    }
    for _ in 0..20_000 {
        let mut triple = || [draw.number(), draw.number(), draw.number()];
        let (mut p, q) = (triple(), triple());
        if draw.once_in(6) {
            p[draw.below(3)] = draw.double();
        }
        tell!(t, "dist2", sheets::dist2(p, q), "{p:?} {q:?}");
    }
    for bytes in (0..40).chain(3 * 4096 - 4..3 * 4096 + 7) {
        for limited in [false, true] {
            let about = (limited, bytes);
            tell!(
                t,
                "permitted_no",
                sheets::permitted_no(limited, &vec![7; bytes]),
                "{about:?}"
            );
        }
    }
    for _ in 0..20_000 {
        let k = draw.within(-3, 300) as i16;
        let count = draw.below(40);
        let mut indices: Vec<i16> = (0..count)
            .map(|_| draw.within(-1, 254) as i16 % k.max(1))
            .collect();
        if count > 0 && draw.once_in(2) {
            indices[draw.below(count)] = draw.from(&[-2, -1, k - 1, k, k + 1, i16::MIN, i16::MAX]);
        }
        tell!(
            t,
            "any_stray_below",
            sheets::any_stray_below(&indices, k),
            "{indices:?} {k}"
        );
    }
}

/// Every colour with a ratio above 0.008856 and at most 216/24389, red first: E7's new threshold decides them.
#[rustfmt::skip]
const BETWEEN: [u32; 27] = [
    0x010b54, 0x013810, 0x064f01, 0x08152d, 0x081b26, 0x0d1045, 0x11092f, 0x121c17, 0x130b4b,
    0x160256, 0x17152a, 0x173710, 0x1c0519, 0x1c3f0c, 0x1e0a1b, 0x1f1516, 0x1f420a, 0x231124,
    0x24083d, 0x240903, 0x241026, 0x2e062b, 0x564304, 0x650d14, 0x810211, 0x970d0b, 0xa71b03,
];

/// The colours between the two thresholds, those whose bytes are at most 4, a grid of all, and random ones.
fn colours(t: &mut Table) {
    let mut draw = Draw::new(2);
    let between = BETWEEN.map(|c| [c >> 16, c >> 8 & 255, c & 255]);
    let dark = (0..125).map(|i| [i / 25, i / 5 % 5, i % 5]);
    let grid = (0..4096).map(|i| [i >> 8, i >> 4 & 15, i & 15].map(|c| 17 * c));
    let fixed = between.into_iter().chain(dark).chain(grid);
    let mut all: Vec<[u8; 3]> = fixed.map(|rgb| rgb.map(|c| c as u8)).collect();
    all.resize_with(60_000, || draw.rgb());
    for rgb in all {
        tell!(t, "rgb8_to_lab", sheets::rgb8_to_lab(rgb), "{rgb:?}");
    }
    let edges = [
        0.0,
        -0.0,
        -1.0,
        0.0078125,
        2.0,
        f64::NAN,
        f64::INFINITY,
        f64::NEG_INFINITY,
        1.0,
        0.5,
        0.125,
        1e-310,
        1e308,
    ];
    for i in 0..50_000 {
        let near = f64::from_bits(
            draw.from(&edges[2..])
                .to_bits()
                .wrapping_add(draw.below(7) as u64)
                .wrapping_sub(3),
        );
        let x = match i % 8 {
            0 => draw.from(&edges),
            1 => near,
            2 => draw.double(),
            _ => 0.0078125 + (2.0 - 0.0078125) * (draw.next() >> 11) as f64 / (1u64 << 53) as f64,
        };
        tell!(t, "cbrt", sheets::cbrt(x), "{x:e}");
    }
    for _ in 0..25_000 {
        let s = any(&mut draw);
        let mut target = [draw.number(), draw.number(), draw.number()];
        if draw.once_in(12) {
            target[draw.below(3)] = draw.double();
        }
        if draw.once_in(3) && s.k > 0 && s.lab.len() == STORAGE {
            let at = 3 * draw.below(s.k.min(255));
            target.copy_from_slice(&s.lab[at..at + 3]);
        }
        tell!(
            t,
            "nearest_index",
            sheets::nearest_index(target, &s.lab, s.k),
            "{target:?} in {}",
            s.about()
        );
    }
}

fn selections(t: &mut Table) {
    let mut draw = Draw::new(3);
    let sides = [0, 1, 2, 3, 1023, 1024, 1025, usize::MAX];
    for (w, h) in sides.iter().flat_map(|&w| sides.map(|h| (w, h))) {
        tell!(t, "all", sheets::all(w, h), "{w} {h}");
    }
    // every corner from -1 to 3 on every size to 2 x 2
    for n in 0..9 * 625 {
        let (w, h) = (n / 625 / 3, n / 625 % 3);
        let at = [n / 125 % 5, n / 25 % 5, n / 5 % 5, n % 5].map(|z| z as i32 - 1);
        tell!(
            t,
            "from_corners",
            sheets::from_corners(at, w, h),
            "{at:?} {w} {h}"
        );
    }
    // every selection of 0 to 2 in each number, on every size to 2 x 2
    for n in 0..9 * 81 {
        let (w, h) = (n / 81 / 3, n / 81 % 3);
        let s = [n / 27 % 3, n / 9 % 3, n / 3 % 3, n % 3].map(|z| z as u16);
        for m in 0..25 {
            let (x, y) = (m / 5 - 1, m % 5 - 1);
            tell!(
                t,
                "translated",
                sheets::translated(s, x, y, w, h),
                "{s:?} {x} {y} {w} {h}"
            );
            tell!(
                t,
                "contains_i",
                sheets::contains_i(s, x, y),
                "{s:?} {x} {y}"
            );
            if x >= 0 && y >= 0 {
                tell!(
                    t,
                    "contains",
                    sheets::contains(s, x as usize, y as usize),
                    "{s:?} {x} {y}"
                );
            }
        }
        for margin in 0..4 {
            tell!(
                t,
                "grown",
                sheets::grown(s, margin, w, h),
                "{s:?} {margin} {w} {h}"
            );
            tell!(
                t,
                "positions",
                sheets::positions(s, 2 * margin + w),
                "{s:?} {margin}"
            );
        }
        for whole in [false, true] {
            tell!(
                t,
                "region",
                sheets::region(Area { whole, s }, w, h),
                "{s:?} {whole} {w} {h}"
            );
        }
    }
    for _ in 0..20_000 {
        let w = draw.from(&[0, 1, 2, 5, 16, 100, 1023, 1024, 1025]);
        let h = draw.from(&[0, 1, 2, 5, 16, 100, 1023, 1024, 1025]);
        let s = any_part(w, h, &mut draw);
        let at = [w, h, w, h].map(|side| draw.coordinate(side));
        let margin = draw.from(&[0, 1, 2, 17, 1023, 1024, 65_535, 65_536, 65_537, usize::MAX]);
        let (x, y) = (
            draw.below(70_000),
            draw.from(&[0, 1, 1024, 65_535, 65_536, 131_070, usize::MAX]),
        );
        let whole = draw.once_in(4);
        tell!(
            t,
            "from_corners",
            sheets::from_corners(at, w, h),
            "{at:?} {w} {h}"
        );
        tell!(
            t,
            "translated",
            sheets::translated(s, at[0], at[1], w, h),
            "{s:?} {at:?} {w} {h}"
        );
        tell!(
            t,
            "grown",
            sheets::grown(s, margin, w, h),
            "{s:?} {margin} {w} {h}"
        );
        tell!(t, "contains", sheets::contains(s, x, y), "{s:?} {x} {y}");
        tell!(
            t,
            "contains_i",
            sheets::contains_i(s, at[0], at[1]),
            "{s:?} {at:?}"
        );
        tell!(
            t,
            "region",
            sheets::region(Area { whole, s }, w, h),
            "{s:?} {whole} {w} {h}"
        );
        if draw.once_in(2) {
            let s = [s[0], s[1], s[2] % 40, s[3] % 40];
            let places = 2 * usize::from(s[2]) * usize::from(s[3]);
            let room = draw.room(places);
            tell!(t, "positions", sheets::positions(s, room), "{s:?} {room}");
        }
    }
    let far = [
        [65_535, 65_535, 3, 2],
        [65_535, 0, 65_535, 65_535],
        [0, 0, 1024, 1024],
    ];
    for s in far {
        tell!(t, "positions", sheets::positions(s, 2_097_152), "{s:?}");
    }
}

/// A list of changes at few places, olds and news of a small range, so that places meet and pairs are equal.
pub fn any_list(n: usize, draw: &mut Draw) -> Vec<u64> {
    let side = draw.from(&[1, 2, 3, 300]);
    let values: [i64; 6] = [-1, 0, 1, 2, -32_768, 32_767];
    let change = |draw: &mut Draw| {
        let place = |draw: &mut Draw| {
            if draw.once_in(40) {
                65_535
            } else {
                draw.below(side)
            }
        };
        pixelforge::editor::PixelChange {
            x: place(draw),
            y: place(draw),
            old: draw.from(&values),
            new: draw.from(&values),
        }
    };
    (0..n).map(|_| packed(&change(draw))).collect()
}

pub fn any_edit(k: usize, draw: &mut Draw) -> Flat {
    let mut bytes = draw.next().to_le_bytes();
    bytes[0] = 1 + draw.below(4) as u8;
    let index = if draw.once_in(20) {
        draw.from(&[255, 256, usize::MAX])
    } else {
        draw.below(k + 2)
    };
    let lab = [draw.number(), draw.number(), draw.number()];
    Flat { bytes, index, lab }
}

fn lists(t: &mut Table) {
    let mut draw = Draw::new(4);
    // every line between corners from 0 to 5, and some far ones
    for n in 0..1296 {
        let at: [i32; 4] = [n / 216, n / 36 % 6, n / 6 % 6, n % 6];
        let points = 1 + (at[0] - at[2]).abs().max((at[1] - at[3]).abs()) as usize;
        for out in [2 * points, 2 * points - 1, 2 * points + 3] {
            tell!(t, "bresenham", sheets::bresenham(at, out), "{at:?} {out}");
        }
        tell!(t, "bresenham, both ways", sheets::both_ways(at), "{at:?}");
    }
    for i in 0..14_000 {
        let side = if i % 20 == 0 { 1024 } else { 40 };
        let at = [side; 4].map(|side| draw.coordinate(side));
        let long = |a: i32, b: i32| (i64::from(a) - i64::from(b)).unsigned_abs() as usize;
        let points = 1 + long(at[0], at[2]).max(long(at[1], at[3])).min(200_000);
        let out = draw.room(2 * points);
        tell!(t, "bresenham", sheets::bresenham(at, out), "{at:?} {out}");
    }
    for i in 0..20_000 {
        let n = if i % 100 == 0 {
            draw.below(3000)
        } else {
            draw.below(12)
        };
        let list = any_list(n, &mut draw);
        let normal = normalize(changes_of(&list)).len();
        let (scratch, out) = (draw.room(n), draw.room(normal));
        let tool = draw.next() as u8;
        tell!(
            t,
            "normalize",
            sheets::normalize(&list, scratch, out),
            "{list:x?} {scratch} {out}"
        );
        tell!(
            t,
            "pixels",
            sheets::pixels(tool, &list, scratch, out),
            "{list:x?} {scratch} {out}"
        );
        let e = any_edit(3, &mut draw);
        tell!(
            t,
            "is_empty",
            sheets::is_empty(&e, &list[..n.min(draw.below(2))]),
            "{e:?}"
        );
        tell!(t, "kind", sheets::kind(&e), "{e:?}");
        // a stroke whose front is in normal form, and an event
        let front = list_of(&normalize(changes_of(&list)));
        let more = draw.below(8);
        let event = any_list(more, &mut draw);
        let mut buffer = front.clone();
        buffer.resize(front.len() + draw.room(event.len()), WORD);
        let count = if draw.once_in(20) {
            buffer.len() + draw.below(3)
        } else {
            front.len()
        };
        let scratch = draw.room(count + event.len());
        if count == front.len() || count > buffer.len() {
            tell!(
                t,
                "extend",
                sheets::extend(&buffer, count, &event, scratch),
                "{buffer:x?} {count} {event:x?} {scratch}"
            );
        }
        // a stroke of any changes, as many as its buffer has, fewer, or more
        let mut apart = draw.clone();
        let count = if apart.once_in(20) {
            n + apart.below(3)
        } else {
            apart.room(n).min(n)
        };
        let scratch = apart.room(count);
        tell!(
            t,
            "Stroke",
            sheets::stroke(tool, &list, count, scratch),
            "{tool} {list:x?} {count} {scratch}"
        );
    }
    // every list of up to three changes at two places, olds and news 0 or 1
    for n in 0..3 {
        for m in 0..8usize.pow(n + 1) {
            let change = |i: u32| {
                let c = (m / 8usize.pow(i) % 8) as u64;
                (c & 1) + ((c >> 1 & 1) << 32) + ((c >> 2 & 1) << 48)
            };
            let list: Vec<u64> = (0..=n).map(change).collect();
            for out in 0..3 {
                tell!(
                    t,
                    "normalize",
                    sheets::normalize(&list, 3, out),
                    "{list:x?} {out}"
                );
                tell!(
                    t,
                    "pixels",
                    sheets::pixels(9, &list, 3, out),
                    "{list:x?} {out}"
                );
            }
        }
    }
}

/// Every selection of 0 to 2 in each number, and all.
fn areas() -> Vec<Area> {
    let part = |n: u16| Area {
        whole: false,
        s: [n / 27 % 3, n / 9 % 3, n / 3 % 3, n % 3],
    };
    let mut areas: Vec<Area> = (0..81).map(part).collect();
    areas.push(Area {
        whole: true,
        s: [0; 4],
    });
    areas
}

fn tiny_sheets(t: &mut Table) {
    let mut draw = Draw::new(5);
    let cases: Vec<Case> = tiny().into_iter().map(Case::new).collect();
    for c in &cases {
        let n = c.sheet.w * c.sheet.h;
        looks(t, c, &mut draw);
        for (x, y) in (0..25).map(|i| (i / 5 - 1, i % 5 - 1)) {
            tell!(
                t,
                "get_at",
                sheets::get_at(c, x, y),
                "{} {x} {y}",
                c.sheet.about()
            );
            tell!(
                t,
                "eyedropper",
                drawn::eyedropper(c, x, y),
                "{} {x} {y}",
                c.sheet.about()
            );
        }
        for out in 0..4 {
            tell!(
                t,
                "counts",
                sheets::counts(c, out),
                "{} {out}",
                c.sheet.about()
            );
        }
        // all the sheet, every point and index
        let whole = Area {
            whole: true,
            s: [0; 4],
        };
        for (x, y) in (0..16).map(|i| (i / 4 - 1, i % 4 - 1)) {
            for index in -1..2 {
                for size in 0..4 {
                    tell!(
                        t,
                        "pencil",
                        drawn::pencil(c, whole, &[x, y], size, index, n, n),
                        "{} {x} {y} {size} {index}",
                        c.sheet.about()
                    );
                }
                tell!(
                    t,
                    "flood_fill",
                    drawn::flood_fill(c, whole, x, y, index, n, n),
                    "{} {x} {y} {index}",
                    c.sheet.about()
                );
                tell!(
                    t,
                    "fill_global",
                    drawn::fill_global(c, whole, x, y, index, n),
                    "{} {x} {y} {index}",
                    c.sheet.about()
                );
            }
            for size in 0..4 {
                tell!(
                    t,
                    "eraser",
                    drawn::eraser(c, whole, &[x, y, y, x], size, n, n),
                    "{} {x} {y} {size}",
                    c.sheet.about()
                );
            }
            for (bx, by) in (0..16).map(|i| (i / 4 - 1, i % 4 - 1)) {
                let at = [x, y, bx, by];
                let (size, index, filled) =
                    (draw.below(4), draw.below(3) as i16 - 1, draw.once_in(2));
                tell!(
                    t,
                    "line",
                    drawn::line(c, whole, at, size, index, n, n),
                    "{} {at:?} {size} {index}",
                    c.sheet.about()
                );
                tell!(
                    t,
                    "rectangle",
                    drawn::rectangle(c, whole, at, filled, index, n, n),
                    "{} {at:?} {filled} {index}",
                    c.sheet.about()
                );
            }
        }
        // every selection
        for a in areas() {
            with_area(t, c, a, &mut draw);
            for (dx, dy) in (0..9).map(|i| (i / 3 - 1, i % 3 - 1)) {
                tell!(
                    t,
                    "move_selection",
                    drawn::move_selection(c, a.s, dx, dy, n, n),
                    "{} {a:?} {dx} {dy}",
                    c.sheet.about()
                );
            }
            for (from, to) in (0..9).map(|i| (i / 3 - 1, i % 3 - 1)) {
                tell!(
                    t,
                    "replace_color",
                    drawn::replace_color(c, a, from, to, n),
                    "{} {a:?} {from} {to}",
                    c.sheet.about()
                );
            }
            for out in [n, n.saturating_sub(1), n + 2] {
                tell!(
                    t,
                    "copy",
                    drawn::copy(c, a, out),
                    "{} {a:?} {out}",
                    c.sheet.about()
                );
            }
        }
        // every clip of up to 2 x 1 with indices -1 and 0
        for (x, y) in (0..25).map(|i| (i / 5 - 2, i % 5 - 2)) {
            for m in 0..8 {
                let clip = [(m & 1) as i16 - 1, (m >> 1 & 1) as i16 - 1];
                let w = 1 + (m >> 2);
                tell!(
                    t,
                    "paste",
                    drawn::paste(c, w, 1, &clip[..w], x, y, n, n),
                    "{} {clip:?} {x} {y}",
                    c.sheet.about()
                );
            }
        }
        for (a, b) in (0..16).map(|i| (i / 4, i % 4)) {
            tell!(
                t,
                "merge_entries",
                sheets::merge_entries(c, a, b, n),
                "{} {a} {b}",
                c.sheet.about()
            );
            tell!(
                t,
                "remove_entry",
                sheets::remove_entry(c, a, b),
                "{} {a} {b}",
                c.sheet.about()
            );
            tell!(
                t,
                "nearest_other",
                sheets::nearest_other(c, a),
                "{} {a}",
                c.sheet.about()
            );
        }
        for _ in 0..20 {
            others(t, c, &mut draw);
        }
    }
    for c in cases.iter().filter(|c| c.sheet.w * c.sheet.h > 0) {
        for d in cases
            .iter()
            .filter(|d| d.sheet.w == c.sheet.w && d.sheet.h == c.sheet.h)
        {
            let out = c.sheet.indices.len();
            tell!(
                t,
                "diff_mask",
                sheets::diff_mask(c, &d.sheet, out),
                "{} over {}",
                c.sheet.about(),
                d.sheet.about()
            );
        }
    }
    for c in tiny_stray().into_iter().map(Case::new) {
        looks(t, &c, &mut draw);
        others(t, &c, &mut draw);
        let a = any_area(&c.sheet, &mut draw);
        with_area(t, &c, a, &mut draw);
    }
}

/// That the calls of a group leave the sheet that is lent to be read.
fn kept(before: &Sheet, after: &Sheet) {
    assert!(
        std::hint::black_box(before).same(std::hint::black_box(after)),
        "written to: {}",
        after.about()
    );
}

/// The calls that take a sheet alone.
fn looks(t: &mut Table, c: &Case, draw: &mut Draw) {
    let s = &c.sheet;
    let before = s.clone();
    tell!(t, "check", sheets::check(c), "{}", s.about());
    tell!(t, "with_lab", sheets::with_lab(c), "{}", s.about());
    tell!(t, "new", sheets::new_sheet(c), "{}", s.about());
    let out = draw.room(s.k);
    tell!(t, "counts", sheets::counts(c, out), "{} {out}", s.about());
    kept(&before, s);
}

/// A corner of a rectangle or a line: far ones only along one axis, or the Rust has too much to do.
fn any_corners(s: &Sheet, draw: &mut Draw) -> [i32; 4] {
    let mut at = [s.w, s.h, s.w, s.h].map(|side| draw.coordinate(side));
    let span = |a: i32, b: i32| (i64::from(a) - i64::from(b)).abs();
    if !at.iter().any(|&z| far(z)) && span(at[0], at[2]) * span(at[1], at[3]) > 3_000_000 {
        at[1] = at[3];
    }
    at
}

/// The tools that take a selection.
fn with_area(t: &mut Table, c: &Case, a: Area, draw: &mut Draw) {
    let s = &c.sheet;
    let before = s.clone();
    let n = s.w * s.h;
    let about = |s: &Sheet| s.about();
    let index = any_index(s.k, draw);
    let size = draw.from(&[0, 1, 1, 2, 3, 7, 8, 9, usize::MAX]);
    let at = any_corners(s, draw);
    let count = 2 * draw.below(5) + usize::from(draw.once_in(30));
    let near = draw.once_in(2);
    let points: Vec<i32> = (0..count)
        .map(|i| {
            if near {
                draw.within(-1, 4) as i32
            } else {
                draw.coordinate(if i % 2 == 0 { s.w } else { s.h })
            }
        })
        .collect();
    // room for what is changed in a first run with much room, or beside it
    let room = |draw: &mut Draw, pair: &drawn::Pair| {
        let count = pair[0][1] as usize;
        if pair[0][0] == 0 {
            draw.room(count)
        } else {
            draw.below(4)
        }
    };
    let scratch = draw.room(n);

    let pair = drawn::pencil(c, a, &points, size, index, n, n);
    let out = room(draw, &pair);
    tell!(
        t,
        "pencil",
        pair,
        "{} {a:?} {points:?} {size} {index}",
        about(s)
    );
    tell!(
        t,
        "pencil",
        drawn::pencil(c, a, &points, size, index, scratch, out),
        "{} {a:?} {points:?} {size} {index} {scratch} {out}",
        about(s)
    );
    if c.no == 0 && !a.is_off(s.w, s.h) {
        let mut point = || [draw.within(-1, 6) as i32, draw.within(-1, 6) as i32];
        let events: Vec<Vec<i32>> = (0..3).map(|_| [point(), point()].concat()).collect();
        let about = (about(s), a, &events, size, index);
        tell!(
            t,
            "Stroke of pencil",
            drawn::drag(c, a, &events, size, index),
            "{about:?}"
        );
    }
    let pair = drawn::eraser(c, a, &points, size, n, n);
    let out = room(draw, &pair);
    tell!(t, "eraser", pair, "{} {a:?} {points:?} {size}", about(s));
    tell!(
        t,
        "eraser",
        drawn::eraser(c, a, &points, size, scratch, out),
        "{} {a:?} {points:?} {size} {scratch} {out}",
        about(s)
    );
    let pair = drawn::line(c, a, at, size, index, n, n);
    let out = room(draw, &pair);
    tell!(t, "line", pair, "{} {a:?} {at:?} {size} {index}", about(s));
    tell!(
        t,
        "line",
        drawn::line(c, a, at, size, index, scratch, out),
        "{} {a:?} {at:?} {size} {index} {scratch} {out}",
        about(s)
    );
    let filled = draw.once_in(2);
    let pair = drawn::rectangle(c, a, at, filled, index, n, n);
    let out = room(draw, &pair);
    tell!(
        t,
        "rectangle",
        pair,
        "{} {a:?} {at:?} {filled} {index}",
        about(s)
    );
    tell!(
        t,
        "rectangle",
        drawn::rectangle(c, a, at, filled, index, scratch, out),
        "{} {a:?} {at:?} {filled} {index} {scratch} {out}",
        about(s)
    );
    let (x, y) = (draw.coordinate(s.w), draw.coordinate(s.h));
    let pair = drawn::flood_fill(c, a, x, y, index, n, n);
    let out = room(draw, &pair);
    tell!(t, "flood_fill", pair, "{} {a:?} {x} {y} {index}", about(s));
    tell!(
        t,
        "flood_fill",
        drawn::flood_fill(c, a, x, y, index, scratch, out),
        "{} {a:?} {x} {y} {index} {scratch} {out}",
        about(s)
    );
    let pair = drawn::fill_global(c, a, x, y, index, n);
    let out = room(draw, &pair);
    tell!(t, "fill_global", pair, "{} {a:?} {x} {y} {index}", about(s));
    tell!(
        t,
        "fill_global",
        drawn::fill_global(c, a, x, y, index, out),
        "{} {a:?} {x} {y} {index} {out}",
        about(s)
    );
    let from = any_index(s.k, draw);
    let pair = drawn::replace_color(c, a, from, index, n);
    let out = room(draw, &pair);
    tell!(
        t,
        "replace_color",
        pair,
        "{} {a:?} {from} {index}",
        about(s)
    );
    tell!(
        t,
        "replace_color",
        drawn::replace_color(c, a, from, index, out),
        "{} {a:?} {from} {index} {out}",
        about(s)
    );
    let out = draw.room(usize::from(a.s[2] % 2000) * usize::from(a.s[3] % 2000));
    tell!(
        t,
        "copy",
        drawn::copy(c, a, out),
        "{} {a:?} {out}",
        about(s)
    );
    let (dx, dy) = (draw.coordinate(2), draw.coordinate(2));
    let pair = drawn::move_selection(c, a.s, dx, dy, n, n);
    let out = room(draw, &pair);
    tell!(t, "move_selection", pair, "{} {a:?} {dx} {dy}", about(s));
    tell!(
        t,
        "move_selection",
        drawn::move_selection(c, a.s, dx, dy, scratch, out),
        "{} {a:?} {dx} {dy} {scratch} {out}",
        about(s)
    );
    kept(&before, s);
}

fn any_permitted(s: &Sheet, draw: &mut Draw) -> Permitted {
    let n = draw.from(&[0, 1, 2, 5, 5, 4095, 4096, 4097]);
    let n = if n > 9 && !draw.once_in(20) { 3 } else { n };
    let mut list: Vec<u8> = (0..n).flat_map(|_| draw.rgb()).collect();
    // some of the palette's own colours
    for i in 0..n {
        if s.k > 0 && s.palette.len() == STORAGE && draw.once_in(2) {
            let at = 3 * draw.below(s.k.min(255));
            list[3 * i..3 * i + 3].copy_from_slice(&s.palette[at..at + 3]);
        }
    }
    if draw.once_in(25) {
        list.push(0);
    }
    Permitted {
        limited: !draw.once_in(4),
        list,
    }
}

fn any_colour(s: &Sheet, p: &Permitted, draw: &mut Draw) -> [u8; 3] {
    let from = if draw.once_in(2) { &p.list } else { &s.palette };
    if from.len() < 3 || draw.once_in(4) {
        return draw.rgb();
    }
    let at = 3 * draw.below(from.len() / 3);
    [from[at], from[at + 1], from[at + 2]]
}

/// The calls on clips, the palette and a baseline.
fn others(t: &mut Table, c: &Case, draw: &mut Draw) {
    let s = &c.sheet;
    let before = s.clone();
    let n = s.w * s.h;
    let (x, y) = (draw.coordinate(s.w), draw.coordinate(s.h));
    tell!(
        t,
        "get_at",
        sheets::get_at(c, x, y),
        "{} {x} {y}",
        s.about()
    );
    tell!(
        t,
        "eyedropper",
        drawn::eyedropper(c, x, y),
        "{} {x} {y}",
        s.about()
    );

    // clips, some of a wrong length
    let (cw, ch) = (
        draw.from(&[0, 1, 2, 3, 5, 8]),
        draw.from(&[0, 1, 2, 3, 5, 8]),
    );
    let (cw, ch) = if draw.once_in(40) {
        (draw.from(&[1023, 1024, 1025]), draw.below(2))
    } else {
        (cw, ch)
    };
    let many = if draw.once_in(15) {
        draw.room(cw * ch)
    } else {
        cw * ch
    };
    let clip: Vec<i16> = (0..many).map(|_| any_index(s.k, draw)).collect();
    let out = draw.room(4 * many);
    tell!(
        t,
        "clip_rgba",
        drawn::clip_rgba(c, cw, ch, &clip, out),
        "{} {cw} {ch} {} {out}",
        s.about(),
        clip.len()
    );
    let pair = drawn::paste(c, cw, ch, &clip, x, y, n, n);
    let out = if pair[0][0] == 0 {
        draw.room(pair[0][1] as usize)
    } else {
        3
    };
    let scratch = draw.room(n);
    tell!(t, "paste", pair, "{} {cw} {ch} {clip:?} {x} {y}", s.about());
    tell!(
        t,
        "paste",
        drawn::paste(c, cw, ch, &clip, x, y, scratch, out),
        "{} {cw} {ch} {clip:?} {x} {y} {scratch} {out}",
        s.about()
    );
    let pixels = if draw.once_in(10) {
        draw.room(cw * ch)
    } else {
        cw * ch
    };
    let mut rgba: Vec<u8> = Vec::new();
    for _ in 0..pixels {
        let p = Permitted {
            limited: true,
            list: Vec::new(),
        };
        rgba.extend(any_colour(s, &p, draw));
        rgba.push(draw.from(&[0, 127, 128, 255]));
    }
    if draw.once_in(20) {
        rgba.pop();
    }
    let out = draw.room(cw.min(s.w) * ch.min(s.h));
    tell!(
        t,
        "snap_rgba",
        drawn::snap_rgba(c, &rgba, cw, ch, out),
        "{} {cw} {ch} {} {out}",
        s.about(),
        rgba.len()
    );

    // a baseline: the sheet with some pixels, another palette, another size, damaged
    let mut base = if draw.once_in(8) {
        any(draw)
    } else {
        s.clone()
    };
    if draw.once_in(2) && s.k <= 255 && s.palette.len() == STORAGE {
        let other = good(s.w.min(1024), s.h.min(1024), s.k, draw);
        base.palette = if draw.once_in(2) {
            other.palette
        } else {
            base.palette
        };
        base.indices = if draw.once_in(2) {
            other.indices
        } else {
            base.indices
        };
    }
    if draw.once_in(15) && !base.indices.is_empty() {
        let at = draw.below(base.indices.len());
        base.indices[at] = draw.from(&[-2, base.k as i16, 300]);
    }
    let out = draw.room(n);
    tell!(
        t,
        "diff_mask",
        sheets::diff_mask(c, &base, out),
        "{} over {} {out}",
        s.about(),
        base.about()
    );

    let p = any_permitted(s, draw);
    let rgb = any_colour(s, &p, draw);
    let index = if draw.once_in(12) {
        draw.from(&[255, 256, usize::MAX])
    } else {
        draw.below(s.k + 2)
    };
    let out = draw.room(p.list.len() / 3);
    tell!(
        t,
        "fixed_choices",
        sheets::fixed_choices(c, &p, out),
        "{} {} {out}",
        s.about(),
        p.list.len()
    );
    tell!(
        t,
        "set_color",
        sheets::set_color(c, &p, index, rgb),
        "{} {p:?} {index} {rgb:?}",
        s.about()
    );
    tell!(
        t,
        "add_color",
        sheets::add_color(c, &p, rgb),
        "{} {p:?} {rgb:?}",
        s.about()
    );
    if c.no == 0 {
        tell!(
            t,
            "check_color",
            sheets::check_color(&p, rgb, c),
            "{p:?} {rgb:?}"
        );
    }
    tell!(
        t,
        "nearest_other",
        sheets::nearest_other(c, index),
        "{} {index}",
        s.about()
    );
    let of = s.indices.iter().filter(|&&i| i as usize == index).count();
    let out = draw.room(of);
    tell!(
        t,
        "remove_entry",
        sheets::remove_entry(c, index, out),
        "{} {index} {out}",
        s.about()
    );
    let into = draw.below(s.k + 2);
    tell!(
        t,
        "merge_entries",
        sheets::merge_entries(c, index, into, out),
        "{} {index} {into} {out}",
        s.about()
    );
    kept(&before, s);
}

fn some_sheets(t: &mut Table) {
    let mut draw = Draw::new(6);
    for _ in 0..12_000 {
        let c = Case::new(any(&mut draw));
        looks(t, &c, &mut draw);
        others(t, &c, &mut draw);
        let a = any_area(&c.sheet, &mut draw);
        with_area(t, &c, a, &mut draw);
    }
}

/// Sheets with both sides at the limit, or past it.
fn large_sheets(t: &mut Table) {
    let mut draw = Draw::new(7);
    let sizes = [
        (1024, 1024),
        (1023, 1024),
        (1024, 1025),
        (1025, 1024),
        (1024, 1023),
    ];
    for (i, (w, h)) in sizes.into_iter().enumerate() {
        let k = [255, 254, 3, 256, 1][i];
        let c = Case::new(good(w, h, k, &mut draw));
        looks(t, &c, &mut draw);
        for _ in 0..4 {
            others(t, &c, &mut draw);
            let a = any_area(&c.sheet, &mut draw);
            with_area(t, &c, a, &mut draw);
        }
        let whole = [0, 0, w.min(1024) as u16, h.min(1024) as u16];
        let n = w * h;
        tell!(
            t,
            "move_selection",
            drawn::move_selection(&c, whole, 1, 0, n, n),
            "{w} {h}"
        );
        tell!(
            t,
            "copy",
            drawn::copy(
                &c,
                Area {
                    whole: true,
                    s: [0; 4]
                },
                n
            ),
            "{w} {h}"
        );
    }
}

/// Lists of 1,048,576 and one more.
fn long_lists(t: &mut Table) {
    let mut draw = Draw::new(8);
    let c = Case::new(good(9, 7, 3, &mut draw));
    let all = Area {
        whole: true,
        s: [0; 4],
    };
    for n in [MAX_CHANGES, MAX_CHANGES + 1] {
        let points: Vec<i32> = (0..2 * n).map(|_| draw.within(-2, 9) as i32).collect();
        tell!(
            t,
            "pencil",
            drawn::pencil(&c, all, &points, 1, 1, 63, 63),
            "{n} points"
        );
        tell!(
            t,
            "eraser",
            drawn::eraser(&c, all, &points, 2, 63, 63),
            "{n} points"
        );
        let list = any_list(n, &mut draw);
        tell!(
            t,
            "normalize",
            sheets::normalize(&list, n, n),
            "{n} changes"
        );
        tell!(t, "pixels", sheets::pixels(7, &list, n, n), "{n} changes");
        let mut apart = draw.clone();
        for e in [any_edit(3, &mut apart), any_edit(3, &mut apart)] {
            tell!(t, "is_empty", sheets::is_empty(&e, &list), "{e:?} {n}");
        }
        tell!(
            t,
            "Stroke",
            sheets::stroke(7, &list, n, n),
            "a stroke of {n}"
        );
        let front = list_of(&normalize(changes_of(&list[..1000])));
        let mut buffer = front.clone();
        buffer.resize(n, WORD);
        tell!(
            t,
            "extend",
            sheets::extend(&buffer, front.len(), &list, n + front.len()),
            "{n} changes"
        );
        tell!(
            t,
            "extend",
            sheets::extend(&buffer, n, &[], 0),
            "a stroke of {n}"
        );
    }
    let far = [-65_537, 0];
    tell!(
        t,
        "pencil",
        drawn::pencil(&c, all, &vec![far[0]; 2 * MAX_CHANGES + 2], 1, 1, 63, 63),
        "21 before 15"
    );
}
