//! Lines by document 02, E4, in words of this folder, and the brush along them.
//!
//! At an exact half `bresenham` goes on toward the line's end, and E4 takes the smaller coordinate: the two part where the
//! shorter axis goes up. A result whose lines have no such step is the Rust's own.

use pixelforge::editor::op::normalize;
use pixelforge::editor::selection::region;
use pixelforge::editor::{tools, Document, PixelChange, Selection};
use std::sync::atomic::{AtomicU64, Ordering::Relaxed};

type Point = (i64, i64);

/// How many results were judged by the Rust's own answer, and how many by the rule.
pub static BY_RUST: AtomicU64 = AtomicU64::new(0);
pub static BY_RULE: AtomicU64 = AtomicU64::new(0);

/// The whole number nearest to p / m, the smaller of two that are as near.
fn nearest(p: i64, m: i64) -> i64 {
    -(m - 2 * p).div_euclid(2 * m)
}

fn longer_side(a: Point, b: Point) -> i64 {
    (b.0 - a.0).abs().max((b.1 - a.1).abs())
}

/// Each step is the place nearest to the straight line between the two ends.
fn straight(a: Point, b: Point) -> Vec<Point> {
    let m = longer_side(a, b);
    if m == 0 {
        return vec![a];
    }
    let at = |from: i64, to: i64, j: i64| nearest(from * m + (to - from) * j, m);
    (0..=m)
        .map(|j| (at(a.0, b.0, j), at(a.1, b.1, j)))
        .collect()
}

/// Whether a step lies at an exact half on an axis that goes up.
fn half_going_up(a: Point, b: Point) -> bool {
    let m = longer_side(a, b);
    let at_half = |up: i64| (0..m).any(|j| 2 * up * j % (2 * m) == m);
    [b.0 - a.0, b.1 - a.1].iter().any(|&d| d > 0 && at_half(d))
}

/// What is expected along the lines through these points: the rule's, which off the half has to be the Rust's.
fn judged<T: PartialEq>(points: &[Point], rule: T, rust: impl FnOnce() -> T) -> T {
    if points.windows(2).any(|p| half_going_up(p[0], p[1])) {
        BY_RULE.fetch_add(1, Relaxed);
        return rule;
    }
    BY_RUST.fetch_add(1, Relaxed);
    let rust = rust();
    assert!(rule == rust, "{points:?}: off the half nothing moves");
    rust
}

pub fn bresenham(a: Point, b: Point) -> Vec<Point> {
    judged(&[a, b], straight(a, b), || tools::bresenham(a, b))
}

/// The changes of a brush at every step along the lines through these points.
fn brushed(
    doc: &Document,
    sel: Option<&Selection>,
    points: &[Point],
    size: usize,
    index: i64,
) -> Vec<PixelChange> {
    let inside = region(sel, doc.width(), doc.height());
    let size = size.clamp(1, 8) as i64;
    let mut steps = points[..points.len().min(1)].to_vec();
    for ends in points.windows(2) {
        steps.extend(straight(ends[0], ends[1]));
    }
    let mut changes = Vec::new();
    for (left, top) in steps
        .iter()
        .map(|p| (p.0 - (size - 1) / 2, p.1 - (size - 1) / 2))
    {
        for place in 0..size * size {
            let (x, y) = (left + place % size, top + place / size);
            if inside.contains_i(x, y) {
                let (x, y) = (x as usize, y as usize);
                let old = doc.get(x, y);
                changes.push(PixelChange {
                    x,
                    y,
                    old,
                    new: index,
                });
            }
        }
    }
    normalize(changes)
}

pub fn pencil(
    doc: &Document,
    sel: Option<&Selection>,
    points: &[Point],
    size: usize,
    index: i64,
) -> Vec<PixelChange> {
    judged(points, brushed(doc, sel, points, size, index), || {
        tools::pencil(doc, sel, points, size, index)
    })
}

pub fn eraser(
    doc: &Document,
    sel: Option<&Selection>,
    points: &[Point],
    size: usize,
) -> Vec<PixelChange> {
    judged(points, brushed(doc, sel, points, size, -1), || {
        tools::eraser(doc, sel, points, size)
    })
}

pub fn line(
    doc: &Document,
    sel: Option<&Selection>,
    a: Point,
    b: Point,
    size: usize,
    index: i64,
) -> Vec<PixelChange> {
    judged(&[a, b], brushed(doc, sel, &[a, b], size, index), || {
        tools::line(doc, sel, a, b, size, index)
    })
}
