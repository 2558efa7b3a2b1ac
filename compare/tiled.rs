//! `flip`, `extract` at tolerance 0 and `mirror_tiles`, as in drawn.rs.

use crate::calls::*;
use crate::draw::Draw;
use crate::drawn::{listed, sheet, with_list, Pair};
use crate::sheet::*;
use crate::table::Table;
use pixelforge::editor::tools;
use pixelforge::tiles::{self, TileConfig};

const HALVES: u32 = 0x5a5a_5a5a;

pub fn flip(tile: &[i16], t: usize, h: bool, v: bool, out: usize) -> Pair {
    let words = |no: u8, r: &[usize], out: &[i16]| {
        let mut words = vec![u64::from(no)];
        sizes(&mut words, r);
        indices(&mut words, out);
        words
    };
    let blank = vec![INDEX; out];
    let expected = if t > 1024 || tile.len() != t * t {
        words(17, &R, &blank)
    } else if out < t * t {
        words(16, &R, &blank)
    } else {
        let wide: Vec<i64> = tile.iter().map(|&i| i.into()).collect();
        let flipped: Vec<i16> = tiles::flip(&wide, t, h, v)
            .iter()
            .map(|&i| i as i16)
            .collect();
        words(0, &numbers(&[t * t]), &over(&flipped, out, INDEX))
    };
    let (mut ours, mut r) = (blank, R);
    let no = call_flip(tile, t, h, v, &mut ours, &mut r);
    [expected, words(no, &r, &ours)]
}

fn divides(s: &Sheet, t: usize) -> bool {
    t != 0 && s.w % t == 0 && s.h % t == 0
}

pub fn extract(c: &Case, t: usize, scratch: usize, out: usize, map: usize) -> Pair {
    let s = &c.sheet;
    let words = |no: u8, r: &[usize], out: &[i16], map: &[u32]| {
        let mut words = vec![u64::from(no)];
        sizes(&mut words, r);
        indices(&mut words, out);
        words.extend(map.iter().map(|&n| u64::from(n)));
        words
    };
    let refused = |no| words(no, &R, &vec![INDEX; out], &vec![HALVES; map]);
    let expected = if c.no != 0 {
        refused(c.no)
    } else if !divides(s, t) {
        refused(17)
    } else {
        let config = TileConfig {
            tile_size: t as i64,
            tile_dedupe_tolerance: 0.0,
            tileset_columns: 0,
        };
        let doc = c.doc();
        let made =
            tiles::extract(&doc.indices.indices, s.h, s.w, &doc.palette_lab, &config).unwrap();
        let entries: Vec<u32> = made
            .tilemap
            .tiles
            .iter()
            .flatten()
            .map(|&n| n as u32)
            .collect();
        let unique: Vec<i16> = made.tiles.iter().map(|&i| i as i16).collect();
        if scratch < s.w * s.h || out < unique.len() || map < entries.len() {
            refused(16)
        } else {
            let r = numbers(&[made.n_tiles, entries.len() / 3]);
            words(
                0,
                &r,
                &over(&unique, out, INDEX),
                &over(&entries, map, HALVES),
            )
        }
    };
    let (mut unique, mut entries, mut r) = (vec![INDEX; out], vec![HALVES; map], R);
    let mut work = vec![WORD; scratch];
    let no = sheet!(
        call_extract,
        s,
        t,
        &mut unique,
        &mut entries,
        &mut work,
        &mut r
    );
    [expected, words(no, &r, &unique, &entries)]
}

pub fn mirror_tiles(
    c: &Case,
    a: Area,
    on: bool,
    t: usize,
    list: &[u64],
    scratch: usize,
    out: usize,
) -> Pair {
    let s = &c.sheet;
    let off = |n: &u64| usize::from(*n as u16) >= s.w || usize::from((*n >> 16) as u16) >= s.h;
    let untouched = !on || list.is_empty() || !divides(s, t);
    let own = first(&[
        (21, list.len() > MAX_CHANGES),
        (5, a.is_off(s.w, s.h)),
        (5, !untouched && list.iter().any(off)),
    ]);
    let no = if c.no != 0 { c.no } else { own };
    let expected = with_list(no, out, scratch < s.w * s.h, || {
        let mut doc = c.doc().clone();
        doc.origin.config.tileset = on;
        doc.origin.config.tile_size = t as i64;
        tools::mirror_tiles(&doc, a.chosen().as_ref(), &changes_of(list))
    });
    let (mut ours, mut r) = (vec![WORD; out], R);
    let mut work = vec![WORD; scratch];
    let no = sheet!(
        call_mirror_tiles,
        s,
        a.whole,
        &a.s,
        on,
        t,
        list,
        &mut work,
        &mut ours,
        &mut r
    );
    [expected, listed(no, &r, &ours)]
}

/// A sheet of few tiles, some of them flips of others, and a side that fits it.
fn tiled(draw: &mut Draw) -> (Sheet, usize) {
    let t = draw.from(&[1, 1, 2, 2, 3, 4]);
    let (cw, ch) = (draw.below(5), draw.below(5));
    let mut s = good(cw * t, ch * t, 1 + draw.below(3), draw);
    let few: Vec<Vec<i16>> = (0..1 + draw.below(3))
        .map(|_| (0..t * t).map(|_| draw.below(s.k + 1) as i16 - 1).collect())
        .collect();
    for cell in 0..cw * ch {
        let (tile, h, v) = (
            &few[draw.below(few.len())],
            draw.once_in(2),
            draw.once_in(2),
        );
        let changed = draw.once_in(6);
        for p in 0..t * t {
            let turned = |flip: bool, i: usize| if flip { t - 1 - i } else { i };
            let from = turned(v, p / t) * t + turned(h, p % t);
            let at = (cell / cw * t + p / t) * s.w + cell % cw * t + p % t;
            s.indices[at] = if changed && p == 0 { -1 } else { tile[from] };
        }
    }
    (s, t)
}

pub fn run(t: &mut Table) {
    let mut draw = Draw::new(12);
    for side in 0..4usize {
        for n in 0..side * side + 2 {
            for flips in 0..4 {
                for out in [
                    side * side,
                    (side * side).saturating_sub(1),
                    side * side + 1,
                ] {
                    let tile: Vec<i16> = (0..n as i16).collect();
                    let pair = flip(&tile, side, flips % 2 == 1, flips / 2 == 1, out);
                    t.tell("flip", &pair[0], &pair[1], || {
                        format!("{n} {side} {flips} {out}")
                    });
                }
            }
        }
    }
    for (side, n) in [
        (1024, 1 << 20),
        (1025, 1025 * 1025),
        (usize::MAX, 1),
        (1 << 32, 0),
    ] {
        let tile: Vec<i16> = (0..n).map(|i| i as i16).collect();
        let pair = flip(&tile, side, true, false, n);
        t.tell("flip", &pair[0], &pair[1], || format!("{n} {side}"));
    }
    for _ in 0..40_000 {
        let (mut sheet, side) = tiled(&mut draw);
        if draw.once_in(40) && !sheet.indices.is_empty() {
            sheet.indices[0] = draw.from(&[-2, sheet.k as i16]);
        }
        let c = Case::new(sheet);
        let s = &c.sheet;
        let n = s.w * s.h;
        let side = if draw.once_in(8) {
            draw.from(&[0, 1, 5, 1024, 2000])
        } else {
            side
        };
        let pair = extract(&c, side, n, n, 3 * n);
        let (tiles, entries) = match pair[0][0] {
            0 => (pair[0][1] as usize * side * side, 3 * pair[0][2] as usize),
            _ => (draw.below(5), draw.below(7)),
        };
        t.tell("extract", &pair[0], &pair[1], || {
            format!("{} {side}", s.about())
        });
        let (scratch, out, map) = (draw.room(n), draw.room(tiles), draw.room(entries));
        let pair = extract(&c, side, scratch, out, map);
        t.tell("extract", &pair[0], &pair[1], || {
            format!("{} {side} {scratch} {out} {map}", s.about())
        });

        let on = !draw.once_in(10);
        let a = match draw.below(3) {
            0 => Area {
                whole: false,
                s: [0, 0, (s.w / 2) as u16, s.h as u16],
            },
            1 => any_area(s, &mut draw),
            _ => Area {
                whole: true,
                s: [0; 4],
            },
        };
        let list: Vec<u64> = (0..draw.below(5))
            .map(|_| {
                let beyond = usize::from(draw.once_in(30));
                let x = draw.below(s.w.max(1) + beyond) as u64;
                let y = draw.below(s.h.max(1) + beyond) as u64;
                let (old, new) = (draw.below(4) as u64, draw.below(4) as u64);
                x | y << 16 | old << 32 | new << 48
            })
            .collect();
        let pair = mirror_tiles(&c, a, on, side, &list, n, n + list.len());
        let count = if pair[0][0] == 0 {
            pair[0][1] as usize
        } else {
            draw.below(4)
        };
        t.tell("mirror_tiles", &pair[0], &pair[1], || {
            format!("{} {a:?} {on} {side} {list:x?}", s.about())
        });
        let (scratch, out) = (draw.room(n), draw.room(count));
        let pair = mirror_tiles(&c, a, on, side, &list, scratch, out);
        t.tell("mirror_tiles", &pair[0], &pair[1], || {
            format!("{} {a:?} {on} {side} {list:x?} {scratch} {out}", s.about())
        });
    }
    // one tile of side 1 on a large sheet: a copy of each change at every place
    let c = Case::new(good(1024, 1024, 1, &mut draw));
    let all = Area {
        whole: true,
        s: [0; 4],
    };
    let pair = mirror_tiles(&c, all, true, 1, &[5 << 16 | 1 << 48], 1 << 20, 1 << 20);
    t.tell("mirror_tiles", &pair[0], &pair[1], || {
        "1,024 x 1,024, side 1".into()
    });
    for side in [8, 16] {
        let pair = extract(&c, side, 1 << 20, 1 << 20, 3 << 20);
        t.tell("extract", &pair[0], &pair[1], || {
            format!("1,024 x 1,024, side {side}")
        });
    }
}
