//! `flatten` and `repaint`, read from document 02's text, E1; and sessions of push, undo, redo and mark on the layers of one
//! symbol, with a repaint after each call, beside a Rust `History` and a ledger for each layer.
//!
//! What one layer shows is the Rust's own `clip_rgba` of the whole sheet, and the places whose shown colour changed are its
//! own `diff_mask`. (`Document::rgba` says the same, through a file of pixelforge that is not given.)

use crate::calls::*;
use crate::curve::Curve;
use crate::draw::Draw;
use crate::drawn::{marked, Pair};
use crate::histories::{any_permitted, any_push, push, Ledger};
use crate::inputs::tell;
use crate::journal::{self, Handle, State};
use crate::sheet::*;
use crate::table::Table;
use pixelforge::editor::tools::{clip_rgba, Clip};
use pixelforge::editor::{Document, History};

/// As our calls are lent it: a buffer a kind, the layers one after the other, the bottom one first.
#[derive(Clone)]
struct Lent {
    sizes: Vec<usize>,
    palettes: Vec<u8>,
    labs: Vec<f64>,
    indices: Vec<i16>,
}

impl Lent {
    fn of(layers: &[Sheet]) -> Lent {
        let joined = |part: fn(&Sheet) -> &[u8]| layers.iter().flat_map(part).copied().collect();
        Lent {
            sizes: layers.iter().flat_map(|s| [s.w, s.h, s.k]).collect(),
            palettes: joined(|s| &s.palette),
            labs: layers.iter().flat_map(|s| &s.lab).copied().collect(),
            indices: layers.iter().flat_map(|s| &s.indices).copied().collect(),
        }
    }

    /// The layers in the buffers: each has 765 bytes, 765 doubles and w × h indices, and the last what is left.
    fn layers(&self) -> Vec<Sheet> {
        fn part<T: Clone>(from: &mut &[T], n: usize, last: bool) -> Vec<T> {
            let n = if last { from.len() } else { n.min(from.len()) };
            let (own, rest) = from.split_at(n);
            *from = rest;
            own.to_vec()
        }
        let (mut palettes, mut labs, mut indices) =
            (&self.palettes[..], &self.labs[..], &self.indices[..]);
        let count = self.sizes.len() / 3;
        let layer = |(i, c): (usize, &[usize])| Sheet {
            w: c[0],
            h: c[1],
            k: c[2],
            palette: part(&mut palettes, STORAGE, i + 1 == count),
            lab: part(&mut labs, STORAGE, i + 1 == count),
            indices: part(&mut indices, c[0].saturating_mul(c[1]), i + 1 == count),
            locks: unlocked(c[2]),
            curve: Curve::none(),
        };
        self.sizes.chunks_exact(3).enumerate().map(layer).collect()
    }

    fn words(&self) -> Vec<u64> {
        let mut words = Vec::new();
        sizes(&mut words, &self.sizes);
        bytes(&mut words, &self.palettes);
        doubles(&mut words, &self.labs);
        indices(&mut words, &self.indices);
        words
    }

    fn about(&self) -> String {
        let lengths = (self.palettes.len(), self.labs.len(), self.indices.len());
        let few: Vec<i16> = self.indices.iter().copied().take(16).collect();
        format!("sizes {:?}, lengths {lengths:?}, {few:?}", self.sizes)
    }
}

// Document 02's text.

/// "Turned away: 23 .. before all others when the count is not 1 to 8, and after 1 to 3 of each layer, then the earlier
/// sheet (here and later sheet by sheet) when a size differs or the edited layer is not among them. A short buffer gets 16."
fn number(lent: &Lent, edit: Option<(usize, &Sheet)>, out: usize) -> u8 {
    let layers = lent.layers();
    if lent.sizes.len() % 3 != 0 || !(1..=8).contains(&layers.len()) {
        return 23;
    }
    let sheets = || layers.iter().chain(edit.map(|(_, earlier)| earlier));
    if let Some(no) = sheets().map(|s| s.number(false)).find(|no| *no != 0) {
        return no;
    }
    let (w, h) = (layers[0].w, layers[0].h);
    let differs = sheets().any(|s| (s.w, s.h) != (w, h));
    let amiss = edit.is_some_and(|(edited, _)| edited >= layers.len());
    first(&[(23, differs || amiss), (16, out < 4 * w * h)])
}

/// "each pixel takes the topmost layer (the last is topmost) that is not -1, alpha 255, or four zero bytes"
fn pixel(colours: &[Vec<[u8; 3]>], layers: &[Sheet], p: usize) -> [u8; 4] {
    let opaque = |i: &usize| layers[*i].indices[p] != -1;
    match (0..layers.len()).rev().find(opaque) {
        Some(i) => {
            let [r, g, b] = colours[i][layers[i].indices[p] as usize];
            [r, g, b, 255]
        }
        None => [0; 4],
    }
}

/// The flattening of well-formed layers of one size; of one layer the Rust's own.
fn flat(layers: &[Sheet]) -> Vec<u8> {
    if let [s] = layers {
        let indices = s.image().indices;
        let clip = Clip {
            w: s.w,
            h: s.h,
            indices,
        };
        return clip_rgba(&journal::document(s), &clip);
    }
    let colours: Vec<_> = layers.iter().map(Sheet::colours).collect();
    let places = 0..layers[0].indices.len();
    places.flat_map(|p| pixel(&colours, layers, p)).collect()
}

/// "only the places whose shown colour on that layer changed are repainted"
fn repainted(layers: &[Sheet], edited: usize, earlier: &Sheet, out: &[u8]) -> Vec<u8> {
    let mut doc = journal::document(&layers[edited]);
    doc.baseline = earlier.image();
    doc.baseline_palette = earlier.colours();
    let (mut out, afresh) = (out.to_vec(), flat(layers));
    for (p, changed) in doc.diff_mask().into_iter().enumerate() {
        if changed {
            out[4 * p..4 * p + 4].copy_from_slice(&afresh[4 * p..4 * p + 4]);
        }
    }
    out
}

/// What is expected, and what ours gives, where the buffer holds some bytes before the call. Lent memory keeps.
fn flatten(lent: &Lent, out: &[u8]) -> Pair {
    let no = number(lent, None, out.len());
    let expected = if no != 0 {
        marked(no, &R, out)
    } else {
        let result = flat(&lent.layers());
        marked(
            0,
            &numbers(&[result.len()]),
            &[&result, &out[result.len()..]].concat(),
        )
    };
    let (kept, mut r, mut out) = (lent.words(), R, out.to_vec());
    let no = call_flatten(
        &lent.sizes,
        &lent.palettes,
        &lent.labs,
        &lent.indices,
        &mut out,
        &mut r,
    );
    assert!(lent.words() == kept, "lent to be read: {}", lent.about());
    [expected, marked(no, &r, &out)]
}

fn repaint(lent: &Lent, edited: usize, earlier: &Sheet, out: &[u8]) -> Pair {
    let no = number(lent, Some((edited, earlier)), out.len());
    let expected = if no != 0 {
        marked(no, &R, out)
    } else {
        let layers = lent.layers();
        let result = repainted(&layers, edited, earlier, out);
        marked(0, &numbers(&[4 * earlier.indices.len()]), &result)
    };
    let told = |s: &Sheet| {
        let mut words = Vec::new();
        s.words(&mut words);
        words
    };
    let (kept, kept_earlier) = (lent.words(), told(earlier));
    let (mut r, mut out) = (R, out.to_vec());
    let no = call_repaint(
        &lent.sizes,
        &lent.palettes,
        &lent.labs,
        &lent.indices,
        edited,
        earlier.w,
        earlier.h,
        earlier.k,
        &earlier.palette,
        &earlier.lab,
        &earlier.indices,
        &mut out,
        &mut r,
    );
    let same = lent.words() == kept && told(earlier) == kept_earlier;
    assert!(same, "lent to be read: {}", lent.about());
    [expected, marked(no, &r, &out)]
}

/// The buffer in the words of an answer: after its number and five more.
fn buffer(words: &[u64]) -> Vec<u8> {
    words[1 + R.len()..].iter().map(|&b| b as u8).collect()
}

// Symbols.

fn noise(n: usize, draw: &mut Draw) -> Vec<u8> {
    (0..n).map(|_| draw.next() as u8).collect()
}

/// A layer, some of them mostly transparent.
fn layer(w: usize, h: usize, draw: &mut Draw) -> Sheet {
    let k = draw.from(&[0, 1, 1, 2, 2, 3, 3, 4, 6, 254, 255]);
    let mut s = good(w, h, k, draw);
    let seen = draw.from(&[1, 2, 2, 4, 9]);
    for index in &mut s.indices {
        if !draw.once_in(seen) {
            *index = -1;
        }
    }
    s
}

fn symbol(count: usize, draw: &mut Draw) -> Vec<Sheet> {
    let side = [0, 1, 1, 2, 3, 4, 5, 8, 13];
    let (w, h) = match draw.below(60) {
        0 => (1024, draw.below(3)),
        1 => (draw.below(3), 1024),
        _ => (draw.from(&side), draw.from(&side)),
    };
    (0..count).map(|_| layer(w, h, draw)).collect()
}

/// What a layer may have been before an edit.
fn before(s: &Sheet, draw: &mut Draw) -> Sheet {
    let mut e = s.clone();
    match draw.below(8) {
        0 => {}
        1 | 2 if !e.indices.is_empty() => {
            for _ in 0..1 + draw.below(3) {
                let at = draw.below(e.indices.len());
                e.indices[at] = draw.below(e.k + 1) as i16 - 1;
            }
        }
        3 if e.k > 0 => {
            let at = 3 * draw.below(e.k);
            e.palette[at..at + 3].copy_from_slice(&draw.rgb());
        }
        // an entry of the same or another colour, and the indices past it moved: what a removal takes back
        4 | 5 if e.k < 255 => {
            let at = draw.below(e.k + 1);
            e.palette.copy_within(3 * at..3 * e.k, 3 * at + 3);
            e.lab.copy_within(3 * at..3 * e.k, 3 * at + 3);
            e.lab[3 * at..3 * at + 3].fill(0.5);
            e.k += 1;
            if draw.once_in(2) {
                e.palette[3 * at..3 * at + 3].copy_from_slice(&draw.rgb());
            }
            for index in &mut e.indices {
                if *index >= at as i16 {
                    *index += i16::from(*index > at as i16 || !draw.once_in(3));
                }
            }
        }
        6 => e = layer(s.w, s.h, draw),
        // storage past the entries
        _ => e.palette[3 * e.k..].fill(9),
    }
    e
}

/// Every symbol of one pixel with one to three layers of 0 to 2 entries, and every earlier layer of that kind, with the
/// entries' colours the same, equal to each other, and others.
fn tiny(t: &mut Table) {
    let mut draw = Draw::new(31);
    let kinds: Vec<(usize, i16)> = (0..3)
        .flat_map(|k| (-1..k as i16).map(move |z| (k, z)))
        .collect();
    let one = |(k, z): (usize, i16), colours: usize, draw: &mut Draw| {
        let mut s = good(1, 1, k, draw);
        let two = [[1, 2, 3, 4, 5, 6], [1, 2, 3, 1, 2, 3], [4, 5, 6, 1, 2, 7]];
        s.palette[..6].copy_from_slice(&two[colours]);
        s.indices[0] = z;
        s
    };
    for count in 1..=3 {
        for n in 0..kinds.len().pow(count as u32) {
            let kind = |i: usize| kinds[n / kinds.len().pow(i as u32) % kinds.len()];
            let layers: Vec<Sheet> = (0..count).map(|i| one(kind(i), 0, &mut draw)).collect();
            let lent = Lent::of(&layers);
            for room in [0, 3, 4, 5] {
                let out = noise(room, &mut draw);
                tell!(
                    t,
                    "flatten",
                    flatten(&lent, &out),
                    "{} {out:x?}",
                    lent.about()
                );
            }
            for edited in 0..=count {
                for &kind in &kinds {
                    for colours in 0..3 {
                        let earlier = one(kind, colours, &mut draw);
                        let out = noise(4, &mut draw);
                        tell!(
                            t,
                            "repaint",
                            repaint(&lent, edited, &earlier, &out),
                            "{} {edited} {} {out:x?}",
                            lent.about(),
                            earlier.about()
                        );
                    }
                }
            }
        }
    }
}

/// Sentences that can be read in two ways, each with the smallest input that tells them apart.
fn readings(t: &mut Table) {
    let mut draw = Draw::new(32);
    let mut one = |k: usize, palette: &[u8], z: i16| {
        let mut s = good(1, 1, k, &mut draw);
        s.palette[..palette.len()].copy_from_slice(palette);
        s.indices[0] = z;
        s
    };
    let wrong = [0xde, 0xad, 0xbe, 0xef];
    let mut told = |name, lent: &Lent, edited, earlier: &Sheet, no: u8, after: [u8; 4]| {
        let pair = repaint(lent, edited, earlier, &wrong);
        assert_eq!(
            (pair[0][0], buffer(&pair[0])),
            (no.into(), after.to_vec()),
            "{name}"
        );
        tell!(t, "repaint", pair, "{name}");
    };
    let twice = one(2, &[7, 8, 9, 7, 8, 9], 1);
    let once = one(1, &[7, 8, 9], 0);
    told(
        "renumbered, same colour",
        &Lent::of(&[once.clone()]),
        0,
        &twice,
        0,
        wrong,
    );
    let over = [one(1, &[1, 1, 1], 0), once.clone()];
    told(
        "hidden, yet changed",
        &Lent::of(&over),
        0,
        &twice,
        0,
        [7, 8, 9, 255],
    );
    told(
        "shown on another layer",
        &Lent::of(&over),
        1,
        &once,
        0,
        wrong,
    );
    let mut stray = once.clone();
    (stray.w, stray.h) = (2, 1);
    stray.indices = vec![5, 0];
    let (mut wide, mut high) = (one(1, &[3; 3], 0), once.clone());
    (wide.w, wide.indices) = (2, vec![0; 2]);
    (high.h, high.indices) = (2, vec![0; 2]);
    told(
        "sizes differ, earlier one stray",
        &Lent::of(&[wide.clone(), high.clone()]),
        0,
        &stray,
        2,
        wrong,
    );
    told(
        "earlier one turned",
        &Lent::of(&[wide.clone()]),
        0,
        &high,
        23,
        wrong,
    );
    let (mut unfit, mut full) = (once.clone(), once.clone());
    unfit.lab[0] = f64::NAN;
    full.k = 256;
    told(
        "3 below 1",
        &Lent::of(&[unfit.clone(), full.clone()]),
        0,
        &once,
        3,
        wrong,
    );
    told("1 below 3", &Lent::of(&[full, unfit]), 0, &once, 1, wrong);
}

// Refusals.

/// What a repaint is lent, whole, before something is made wrong.
#[derive(Clone)]
struct Setting {
    layers: Vec<Sheet>,
    lent: Option<Lent>,
    edited: usize,
    earlier: Sheet,
    out: usize,
}

impl Setting {
    /// The buffers, joined when first asked for: what is made wrong in them comes after what is made wrong in a layer.
    fn lent(&mut self) -> &mut Lent {
        self.lent.get_or_insert_with(|| Lent::of(&self.layers))
    }
}

/// Where it stands in the order, its number, and what it does. Those with a later `turn` are done after all others.
struct Fault {
    rank: usize,
    no: u8,
    turn: u8,
    about: String,
    make: Box<dyn Fn(&mut Setting)>,
}

/// Things that can be wrong, with their ranks: the count, then 1, 2, 3 layer by layer, then those of the earlier sheet, then
/// a size or the edited layer, then the buffer.
fn faults(count: usize) -> Vec<Fault> {
    let mut all = Vec::new();
    let mut add = |rank, no, turn, about: String, make: Box<dyn Fn(&mut Setting)>| {
        all.push(Fault {
            rank,
            no,
            turn,
            about,
            make,
        });
    };
    add(
        0,
        23,
        1,
        "none".into(),
        Box::new(|s| {
            s.lent = Some(Lent::of(&[]));
        }),
    );
    add(
        0,
        23,
        1,
        "nine".into(),
        Box::new(|s| {
            let first = s.layers[0].clone();
            s.layers.resize(9, first);
            s.lent = Some(Lent::of(&s.layers));
        }),
    );
    for more in 1..3 {
        let about = format!("{more} sizes more");
        add(
            0,
            23,
            2,
            about,
            Box::new(move |s| s.lent().sizes.extend(vec![1; more])),
        );
    }
    type Wrong = fn(&mut Sheet);
    let wrongs: [(u8, &str, Wrong); 9] = [
        (1, "k 256", |s| s.k = 256),
        (1, "w 1025", |s| s.w = 1025),
        (1, "sides past any", |s| {
            (s.w, s.h) = (usize::MAX, usize::MAX)
        }),
        (1, "h so that w × h wraps to 0", |s| {
            (s.w, s.h) = (1 << 32, 1 << 32)
        }),
        (2, "first index k", |s| s.indices[0] = s.k as i16),
        (2, "last index -2", |s| *s.indices.last_mut().unwrap() = -2),
        (2, "an index far off", |s| s.indices[1] = i16::MIN),
        (3, "NaN", |s| s.lab[0] = f64::NAN),
        (3, "an infinity", |s| {
            s.lab[3 * s.k.min(255) - 1] = f64::NEG_INFINITY
        }),
    ];
    for (no, about, wrong) in wrongs {
        for i in 0..count {
            let about = format!("layer {i}: {about}");
            add(
                3 * i + no as usize,
                no,
                0,
                about,
                Box::new(move |s| {
                    if let Some(layer) = s.layers.get_mut(i) {
                        wrong(layer);
                    }
                }),
            );
        }
        let about = format!("earlier: {about}");
        add(
            3 * count + no as usize,
            no,
            0,
            about,
            Box::new(move |s| wrong(&mut s.earlier)),
        );
    }
    // a buffer of another length is number 1 of the last layer
    type Cut = fn(&mut Lent);
    let cuts: [(&str, Cut); 6] = [
        ("palettes short", |l| {
            l.palettes.truncate(l.palettes.len().saturating_sub(1))
        }),
        ("palettes long", |l| l.palettes.push(0)),
        ("labs short", |l| {
            l.labs.truncate(l.labs.len().saturating_sub(1))
        }),
        ("labs long", |l| l.labs.push(0.0)),
        ("indices short", |l| {
            l.indices.truncate(l.indices.len().saturating_sub(1))
        }),
        ("indices long", |l| l.indices.push(0)),
    ];
    for (about, cut) in cuts {
        let rank = 3 * (count - 1) + 1;
        add(rank, 1, 2, about.into(), Box::new(move |s| cut(s.lent())));
    }
    let lengths: [(&str, Wrong); 6] = [
        ("earlier: palette short", |s| {
            s.palette.truncate(STORAGE - 1)
        }),
        ("earlier: palette long", |s| {
            s.palette.resize(STORAGE + 1, 0)
        }),
        ("earlier: lab short", |s| s.lab.truncate(STORAGE - 1)),
        ("earlier: lab long", |s| s.lab.resize(STORAGE + 1, 0.0)),
        ("earlier: indices short", |s| s.indices.truncate(1)),
        ("earlier: indices long", |s| s.indices.resize(99, 0)),
    ];
    for (about, wrong) in lengths {
        add(
            3 * count + 1,
            1,
            0,
            about.into(),
            Box::new(move |s| wrong(&mut s.earlier)),
        );
    }
    let rank = 3 * count + 4;
    let turned: Wrong = |s| (s.w, s.h) = (s.h, s.w);
    if count > 1 {
        for i in 0..count {
            let about = format!("layer {i} turned");
            add(
                rank,
                23,
                0,
                about,
                Box::new(move |s| {
                    if let Some(layer) = s.layers.get_mut(i) {
                        turned(layer);
                    }
                }),
            );
        }
    }
    add(
        rank,
        23,
        0,
        "earlier turned".into(),
        Box::new(move |s| turned(&mut s.earlier)),
    );
    for edited in [count, count + 1, usize::MAX] {
        add(
            rank,
            23,
            0,
            format!("edited {edited}"),
            Box::new(move |s| s.edited = edited),
        );
    }
    for out in [0, 23] {
        add(
            rank + 1,
            16,
            0,
            format!("room for {out}"),
            Box::new(move |s| s.out = out),
        );
    }
    all
}

/// Every fault alone, and every pair: the first in the document's order is told, and the buffer keeps.
fn refusals(t: &mut Table) {
    let mut draw = Draw::new(33);
    for count in 1..=8 {
        let layers: Vec<Sheet> = (0..count).map(|_| good(2, 3, 2, &mut draw)).collect();
        let whole = Setting {
            earlier: good(2, 3, 2, &mut draw),
            edited: draw.below(count),
            out: 24 + draw.below(3),
            layers,
            lent: None,
        };
        let faults = faults(count);
        for (i, one) in faults.iter().enumerate() {
            for (j, two) in faults.iter().enumerate().skip(i) {
                let mut s = whole.clone();
                let mut made = if i == j { vec![one] } else { vec![one, two] };
                made.sort_by_key(|f| f.turn);
                made.iter().for_each(|f| (f.make)(&mut s));
                let out = noise(s.out, &mut draw);
                let (edited, earlier) = (s.edited, s.earlier.clone());
                let lent = s.lent();
                let about = || format!("{count} layers, {}, {}", one.about, two.about);
                let least = if one.rank <= two.rank { one } else { two };
                let pair = repaint(lent, edited, &earlier, &out);
                // two of one rank may undo each other
                if i == j || one.rank != two.rank {
                    assert_eq!(pair[0][0], least.no.into(), "{}", about());
                }
                tell!(t, "repaint", pair, "{}", about());
                tell!(t, "flatten", flatten(lent, &out), "{}", about());
            }
        }
    }
}

/// Mostly good symbols; some with one thing wrong somewhere, buffers of any length.
fn any_symbols(t: &mut Table) {
    let mut draw = Draw::new(34);
    for _ in 0..12_000 {
        let count = draw.from(&[0, 1, 1, 2, 2, 3, 3, 4, 5, 6, 7, 8, 8, 9]);
        let mut layers = symbol(count, &mut draw);
        let edited = draw.below(count + 1);
        let mut earlier = match layers.get(edited) {
            Some(s) => before(s, &mut draw),
            None => good(1, 1, 1, &mut draw),
        };
        match draw.below(12) {
            0 if count > 0 => {
                let at = draw.below(count);
                layers[at] = any(&mut draw);
            }
            1 => earlier = any(&mut draw),
            _ => {}
        }
        let mut lent = Lent::of(&layers);
        if draw.once_in(12) {
            let n = draw.below(lent.palettes.len() + 1);
            lent.palettes.truncate(n);
        }
        if draw.once_in(12) {
            let n = draw.below(lent.indices.len() + 1);
            lent.indices.truncate(n);
        }
        let n = layers.first().map_or(0, |s| s.w.min(1025) * s.h.min(1025));
        let room = draw.room(4 * n);
        let mut out = noise(room, &mut draw);
        let about = || lent.about();
        tell!(t, "flatten", flatten(&lent, &out), "{} in {room}", about());
        // now and then the buffer holds the flattening before the edit: then afterwards the one after it
        let good = number(&lent, Some((edited, &earlier)), room) == 0;
        let held = good && draw.once_in(2);
        if held {
            let mut were = layers.clone();
            were[edited] = earlier.clone();
            out[..4 * n].copy_from_slice(&flat(&were));
        }
        let pair = repaint(&lent, edited, &earlier, &out);
        if held {
            out[..4 * n].copy_from_slice(&flat(&layers));
            assert!(buffer(&pair[0]) == out, "afresh: {}", about());
        }
        tell!(
            t,
            "repaint",
            pair,
            "{} {edited} {} in {room}",
            about(),
            earlier.about()
        );
    }
}

/// Eight layers of 1,024 × 1,024.
fn large(t: &mut Table) {
    let mut draw = Draw::new(35);
    let layers: Vec<Sheet> = (0..8).map(|_| layer(1024, 1024, &mut draw)).collect();
    let mut out = noise((4 << 20) + 3, &mut draw);
    for count in [1, 2, 8] {
        let lent = Lent::of(&layers[..count]);
        tell!(t, "flatten", flatten(&lent, &out), "{}", lent.about());
        for _ in 0..3 {
            let edited = draw.below(count);
            let earlier = before(&layers[edited], &mut draw);
            let pair = repaint(&lent, edited, &earlier, &out);
            out = buffer(&pair[0]);
            tell!(
                t,
                "repaint",
                pair,
                "{} {edited} {}",
                lent.about(),
                earlier.about()
            );
        }
    }
}

// Sessions.

/// A layer as it is to be: its state, the Rust's history and document, and its ledger.
struct Twin {
    st: State,
    history: History,
    doc: Document,
    ledger: Ledger,
}

/// Ours: the layers' buffers, a journal and a palette count with a handle for each.
struct Ours {
    lent: Lent,
    locks: Vec<Vec<bool>>,
    journals: Vec<Vec<u8>>,
    states: Vec<[usize; 6]>,
}

/// A layer's own part of the buffers.
macro_rules! part {
    ($ours:expr, $i:expr, $n:expr) => {{
        let l = &mut $ours.lent;
        (
            &mut l.palettes[STORAGE * $i..STORAGE * ($i + 1)],
            &mut l.labs[STORAGE * $i..STORAGE * ($i + 1)],
            &mut l.indices[$n * $i..$n * ($i + 1)],
        )
    }};
}

/// All that all layers have, so that a call on one is seen to leave the others.
fn told_all(
    no: u8,
    lent: &Lent,
    locks: &[Vec<bool>],
    states: &[[usize; 6]],
    journals: &[Vec<u8>],
) -> Vec<u64> {
    let mut words = vec![no.into()];
    words.extend(lent.words());
    flags(&mut words, &locks.concat());
    sizes(&mut words, &states.concat());
    bytes(&mut words, &journals.concat());
    words
}

fn expected_all(no: u8, twins: &[Twin]) -> Vec<u64> {
    let layers: Vec<Sheet> = twins.iter().map(|t| t.st.sheet.clone()).collect();
    let states: Vec<[usize; 6]> = twins.iter().map(|t| t.st.numbers()).collect();
    let journals: Vec<Vec<u8>> = twins.iter().map(|t| t.st.journal.clone()).collect();
    let locks: Vec<Vec<bool>> = layers.iter().map(|s| s.locks.clone()).collect();
    told_all(no, &Lent::of(&layers), &locks, &states, &journals)
}

/// One symbol, call by call.
fn session(t: &mut Table, draw: &mut Draw) {
    let form = t.form;
    let (w, h) = (draw.below(6), draw.below(6));
    let (n, count) = (w * h, 1 + draw.below(8));
    let mut twins: Vec<Twin> = (0..count)
        .map(|_| {
            let sheet = layer(w, h, draw);
            let room = draw.from(&[0, 8, 18, 60, 120, 300, 300, 700]);
            Twin {
                history: History::new(),
                doc: journal::document(&sheet),
                ledger: Ledger::open(&sheet),
                st: State {
                    sheet,
                    form,
                    journal: noise(room, draw),
                    handle: Handle::FRESH,
                },
            }
        })
        .collect();
    let sheets =
        |twins: &[Twin]| -> Vec<Sheet> { twins.iter().map(|t| t.st.sheet.clone()).collect() };
    let mut ours = Ours {
        lent: Lent::of(&sheets(&twins)),
        locks: twins.iter().map(|t| t.st.sheet.locks.clone()).collect(),
        journals: twins.iter().map(|t| t.st.journal.clone()).collect(),
        states: twins.iter().map(|t| t.st.numbers()).collect(),
    };
    let start = noise(4 * n + draw.below(6), draw);
    let pair = flatten(&ours.lent, &start);
    let mut out = buffer(&pair[1]);
    tell!(t, "flatten", pair, "{}", ours.lent.about());
    for _ in 0..4 + draw.below(24) {
        let i = draw.below(count);
        let scratch = if draw.once_in(25) {
            n.saturating_sub(1)
        } else {
            n + draw.below(2)
        };
        let (earlier, twin) = (twins[i].st.sheet.clone(), &mut twins[i]);
        let (palette, lab, indices) = part!(ours, i, n);
        let (locks, journal, state) = (
            &mut ours.locks[i],
            &mut ours.journals[i],
            &mut ours.states[i],
        );
        let mut room = vec![BYTE; scratch];
        let name;
        let (no, told) = match draw.below(10) {
            0..=4 => {
                name = "push on a layer";
                let p = any_permitted(&twin.st.sheet, draw);
                let (e, list) = any_push(&twin.st.sheet, &twin.doc, draw);
                let (no, after, made) =
                    push(&twin.st, (&twin.history, &twin.doc), &p, &e, &list, scratch);
                twin.st = after;
                if let Some((history, doc)) = made {
                    (twin.history, twin.doc) = (history, doc);
                }
                if no != 14 && no != 16 {
                    assert_eq!(
                        twin.ledger.push(&p, &e.edit(&list)),
                        no,
                        "the ledger's answer"
                    );
                }
                let curve = &twin.st.sheet.curve;
                let told = call_push(
                    w,
                    h,
                    palette,
                    lab,
                    indices,
                    locks,
                    p.limited,
                    &p.list,
                    curve.loaded,
                    &curve.values,
                    &e.bytes,
                    e.index,
                    &e.lab,
                    &list,
                    form.number(),
                    journal,
                    &mut room,
                    state,
                );
                (no, told)
            }
            5..=6 => {
                name = "undo on a layer";
                let (no, after) = journal::undo(&twin.st);
                twin.st = after;
                assert_eq!(twin.history.undo(&mut twin.doc), no == 0, "the Rust's undo");
                assert_eq!(twin.ledger.undo(), no, "the ledger's undo");
                let told = call_undo(
                    w,
                    h,
                    palette,
                    lab,
                    indices,
                    locks,
                    form.number(),
                    journal,
                    state,
                );
                (no, told)
            }
            7..=8 => {
                name = "redo on a layer";
                let (no, after) = journal::redo(&twin.st, scratch);
                twin.st = after;
                if no != 16 {
                    assert_eq!(twin.history.redo(&mut twin.doc), no == 0, "the Rust's redo");
                    assert_eq!(twin.ledger.redo(), no, "the ledger's redo");
                }
                let curve = &twin.st.sheet.curve;
                let told = call_redo(
                    w,
                    h,
                    palette,
                    lab,
                    indices,
                    locks,
                    curve.loaded,
                    &curve.values,
                    form.number(),
                    journal,
                    &mut room,
                    state,
                );
                (no, told)
            }
            _ => {
                name = "mark_saved on a layer";
                twin.st.handle.saved = twin.st.handle.position;
                twin.history.mark_saved();
                twin.ledger.mark();
                (0, call_mark_saved(form.number(), journal, state))
            }
        };
        ours.lent.sizes[3 * i + 2] = ours.states[i][0];
        let expected = expected_all(no, &twins);
        let all = told_all(told, &ours.lent, &ours.locks, &ours.states, &ours.journals);
        t.tell(name, &expected, &all, || {
            format!("layer {i} of {count}: {}", earlier.about())
        });
        for twin in &twins {
            assert!(twin.ledger.agrees(&twin.st), "the ledger of a layer");
            let s = journal::shown(&twin.doc, &twin.st.sheet).expect("well-formed");
            assert!(
                s.k == twin.st.sheet.k && s.same(&twin.st.sheet),
                "the Rust's document"
            );
        }
        // a byte that is wrong stays so where the layer shows what it did
        let spoilt = (n > 0 && draw.once_in(8)).then(|| draw.below(4 * n));
        if let Some(at) = spoilt {
            out[at] ^= 1;
        }
        let about = || format!("layer {i} of {count}, {name}: {}", earlier.about());
        let pair = repaint(&ours.lent, i, &earlier, &out);
        let after = buffer(&pair[1]);
        tell!(t, "repaint", pair, "{}", about());
        let afresh = flatten(&ours.lent, &start);
        if spoilt.is_none() {
            assert!(
                after[..4 * n] == flat(&sheets(&twins)),
                "afresh: {}",
                about()
            );
            assert!(
                buffer(&afresh[1])[..4 * n] == after[..4 * n],
                "ours afresh: {}",
                about()
            );
        }
        assert!(
            after[4 * n..] == start[4 * n..],
            "past the pixels: {}",
            about()
        );
        out[..4 * n].copy_from_slice(&flat(&sheets(&twins)));
        tell!(t, "flatten", afresh, "{}", about());
    }
}

pub fn run(t: &mut Table) {
    tiny(t);
    readings(t);
    refusals(t);
    any_symbols(t);
    large(t);
    histories(t);
}

/// Sessions, in the table's form.
pub fn histories(t: &mut Table) {
    let mut draw = Draw::new(36);
    for _ in 0..3_000 {
        session(t, &mut draw);
    }
}
