//! Sheets on which the two modes may part: parabolas and hyperbolas whose range is lost, and composites, most of them under trims,
//! whose joints are no ends of their segments' ranges, or lie so near beside a wide range that the Rust would merge them.

use crate::beyond::{arc_box, edge_on, within_rules};
use crate::damage;
use crate::generate::{damaged, drafted as usual, unbounded};
use crate::random::Random;
use crate::shapes::{Draft, Shape};
use crate::sheet::{Sheet, write};
use crate::tables::{Options, OwnedTables, Segment};

/// The bytes of sheet `index` of a run.
pub fn bytes(seed: u64, index: u64) -> Vec<u8> {
    let mut random = source(seed, index);
    let text = write(&drafted(&mut random, index)).into_bytes();
    damage::text(&mut random, text)
}

/// What sheet `index` of a run holds, before its text is damaged.
pub fn contents(seed: u64, index: u64) -> Sheet {
    drafted(&mut source(seed, index), index)
}

/// Other numbers than those of the usual sheet that has this number.
fn source(seed: u64, index: u64) -> Random {
    Random::new(seed ^ 0x7374726963740000, index)
}

fn drafted(random: &mut Random, index: u64) -> Sheet {
    let sheet = match random.below(20) {
        0..=5 => lost(random),
        6..=12 => joined(random),
        13..=14 => wide(random),
        15..=17 => redrawn(random),
        _ => return usual(random, index),
    };
    damaged(random, sheet)
}

/// An edge on a parabola or hyperbola, most often its own row, and most often with a range that says nothing.
fn lost(random: &mut Random) -> Sheet {
    let mut draft = Draft::new(random);
    if draft.random.percent(10) {
        draft.size = 1e-9; // so flat that the sweep over a parabola's natural range tells vertices apart
    }
    let conic = if draft.random.percent(50) { draft.parabola() } else { draft.hyperbola() };
    let shape = match draft.random.below(12) {
        0..=7 => conic,
        8 => draft.trimmed(conic),
        9 => draft.trimmed_to(conic),
        10 => {
            let trim = draft.trimmed_to(conic);
            draft.trimmed(trim)
        }
        _ => draft.composite(conic),
    };
    let (tables, size) = (draft.tables, draft.size);
    let (lo, hi) = lost_range(random, shape);
    let at = |t: f64| within_rules(tables.lent().curve(shape.row).point_at(t));
    let ends = match random.below(5) {
        0 => [[0.0; 3], [size, 0.0, 0.0]],
        1 => [at(0.0), at(3906.25)],
        2 => [at(shape.hi), at(shape.lo)],
        3 => [at(shape.lo); 2],
        _ => [at(shape.lo), at(shape.hi)],
    };
    let far = ends[0].map(|x| (x + 1e3 * size).min(1e9));
    let bounds = match random.below(6) {
        0..=1 => [ends[0], ends[1]],
        2 => [far; 2],
        3 => [far, far.map(|x| (x + size).min(1e9))],
        4 => [[1.0; 3], [0.0; 3]],
        _ => [[-1e9; 3], [1e9; 3]],
    };
    let options = options(random, size);
    edge_on(tables, Shape { lo, hi, ..shape }, ends, bounds, options, random)
}

/// A NaN or an infinity in either place, an equal or a reversed range; or one just good, or good and outside every curve's own.
fn lost_range(random: &mut Random, shape: Shape) -> (f64, f64) {
    let next = |t: f64| if t > 0.0 { t.to_bits() + 1 } else { 1 };
    match random.below(16) {
        0..=2 => (unbounded(random), unbounded(random)),
        3..=4 => (shape.lo, unbounded(random)),
        5..=6 => (unbounded(random), shape.hi),
        7 => (shape.lo, shape.lo),
        8 => random.pick(&[(0.0, -0.0), (-0.0, 0.0), (0.0, 0.0), (1e9, 1e9), (5e-324, 0.0)]),
        9..=10 => (shape.hi, shape.lo),
        11 => (shape.hi.max(0.0), f64::from_bits(next(shape.hi))),
        12 => {
            random.pick(&[(2e6, 3e6), (-3e6, -2e6), (1e6, 1000001.0), (1000000.0005, 1000000.001)])
        }
        13 => (-1e9, 1e9),
        _ => (shape.lo, shape.hi),
    }
}

/// An edge on a composite or on trims of one.
fn joined(random: &mut Random) -> Sheet {
    let hyperbolas = random.percent(15);
    let mut draft = Draft::new(random);
    draft.hyperbolas = hyperbolas;
    draft.size = draft.random.pick(&[1.0, 1.0, 10.0, 1e-3]);
    draft.origin = [0.0; 3];
    let count = draft.random.pick(&[0, 1, 1, 2, 2, 3, 4, 5, 6, 8, 9, 13, 20, 40]);
    let mut shape = match draft.random.below(4) {
        0 => straight(&mut draft, count),
        _ => mixed(&mut draft, count),
    };
    if draft.random.percent(30) {
        shape = composed_again(&mut draft, shape);
    }
    let count = shape.hi;
    let trims = draft.random.pick(&[0, 0, 0, 1, 1, 1, 1, 2, 3]);
    for _ in 0..trims {
        let (lo, hi) = about(draft.random, count);
        shape = draft.trimmed_to(Shape { lo, hi, ..shape });
    }
    let (tables, size) = (draft.tables, draft.size);
    let (lo, hi) = match random.below(10) {
        0..=2 => (shape.lo, shape.hi),
        3 => (unbounded(random), count),
        4 if trims == 0 => (0.0, count),
        _ => about(random, count),
    };
    let options = options(random, size);
    placed(random, tables, Shape { lo, hi, ..shape }, count, options)
}

/// A composite that bends, under a trim of 2e9, over so much of it that joints count as one, or nearly; drawn with few parameters more than
/// its joints.
fn wide(random: &mut Random) -> Sheet {
    let mut draft = Draft::new(random);
    draft.size = 1.0;
    draft.origin = [0.0; 3];
    let count = draft.random.pick(&[3, 3, 4, 5, 6, 8, 9, 13]);
    let whole = match draft.random.below(4) {
        0 => mixed(&mut draft, count),
        _ => zigzag(&mut draft, count, 1.0),
    };
    let mut shape = draft.trimmed_to(Shape { lo: -1e9, hi: 1e9, ..whole });
    if draft.random.percent(20) {
        shape = draft.trimmed_to(shape);
    }
    let tables = draft.tables;
    let (lo, hi) = far(random, whole.hi);
    let options = Options {
        deflection: random.pick(&[1e-3, 1e-2, 0.1]),
        segments: random.pick(&[1, 1, 1, 1, 5]),
        depth: random.pick(&[1, 1, 2]),
        relative: 0,
        ..options(random, 1.0)
    };
    placed(random, tables, Shape { lo, hi, ..shape }, whole.hi, options)
}

/// An edge on a curve of n segments, with vertices on it, in a box that says nothing more often than not.
fn placed(
    random: &mut Random,
    tables: OwnedTables,
    shape: Shape,
    n: f64,
    options: Options,
) -> Sheet {
    let at = |t: f64| within_rules(tables.lent().curve(shape.row).point_at(t));
    let ends = match random.below(4) {
        0 => [at(n), at(0.0)],
        1 => [at(shape.lo), at(0.5 * n)],
        _ => [at(shape.lo), at(shape.hi)],
    };
    let bounds = match random.below(6) {
        0 => [ends[0], ends[1]],
        1 => [[-1e9; 3], [1e9; 3]],
        _ => [[1.0; 3], [0.0; 3]],
    };
    edge_on(tables, shape, ends, bounds, options, random)
}

/// A range about 0..n: the whole, a part, past it, or with an end from which a whole number is just told, or is not.
fn about(random: &mut Random, n: f64) -> (f64, f64) {
    let whole = random.below(n as usize + 1) as f64;
    let quarter = random.below(4 * n as usize + 1) as f64 * 0.25;
    let least = n * 1e-9;
    match random.below(15) {
        0..=1 => (0.0, n),
        2 => (n, 0.0),
        3..=4 => (-2.0, n + 2.0),
        5 => (n + 1.0, -1.0),
        6 => (-0.25, n + 0.75),
        7 => (whole, n),
        8 => (0.0, quarter),
        9 => (quarter, n),
        10 => (whole - least, n + random.pick(&[0.0, 1.0])),
        11 => (quarter - 1e-9, quarter + 1.0 + random.pick(&[0.0, 1e-9, 2e-9])),
        _ => far(random, n),
    }
}

/// A range so wide that the Rust would merge joints, or nearly, or would not tell one from an end. Where both ends lie far off, the
/// middle is asked for too.
fn far(random: &mut Random, n: f64) -> (f64, f64) {
    let near = random.pick(&[-0.5, -0.5, -1.0, 0.0, 0.25, 0.5, 1.5, -2.0, -2.5]);
    let middle = 2.0 * random.below(n as usize + 1) as f64;
    match random.below(10) {
        0..=4 => (near, 1e9),
        5 => (near, 1e9 + near.min(0.0)),
        6 => (near, random.pick(&[5e8, 999999999.0, 2e8])),
        7 => (-1e9 + middle, 1e9),
        8 => random.pick(&[(-1e9, 1e9), (-1e9, n - 0.5), (1e9, near)]),
        _ => (-1e9, 1e9 - middle),
    }
}

/// Segments of some curves in any order, most over ranges that are not 0 to n.
fn mixed(draft: &mut Draft, count: usize) -> Shape {
    let mut shapes = Vec::new();
    for _ in 0..1 + draft.random.below(4) {
        shapes.push(draft.simple());
        let direction = draft.random.pick(&[[1.0, 0.0, 0.0], [0.0, 1.0, 0.0], [-0.5, 0.5, 0.0]]);
        shapes.push(draft.line_along(direction.map(|x| x * draft.size)));
    }
    let segments: Vec<Segment> = (0..count)
        .map(|_| {
            let chosen = draft.random.pick(&shapes);
            let from = -3.0 - draft.random.below(5) as f64;
            let (lo, hi) = match draft.random.below(8) {
                0..=1 => (chosen.lo, chosen.hi),
                2 => (chosen.hi, chosen.lo),
                3..=5 => (from, from + 1.0),
                6 => (from, from),
                _ => return draft.segment(chosen, count),
            };
            Segment { curve: chosen.row, lo, hi, sense: draft.random.pick(&[1, 1, 0]) }
        })
        .collect();
    draft.composite_of(&segments)
}

/// One line in segments that follow one another: its joints do not bend.
fn straight(draft: &mut Draft, count: usize) -> Shape {
    let line = draft.line_along([draft.size, 0.0, 0.0]);
    let from = draft.random.pick(&[0.0, -100.0, 100.0]);
    let segments: Vec<Segment> = (0..count)
        .map(|k| Segment {
            curve: line.row,
            lo: from + k as f64,
            hi: from + k as f64 + 1.0,
            sense: 1,
        })
        .collect();
    draft.composite_of(&segments)
}

/// A composite of which one is a segment, alone or several times, whole or in part.
fn composed_again(draft: &mut Draft, shape: Shape) -> Shape {
    let segments: Vec<Segment> = (0..1 + draft.random.below(4))
        .map(|_| {
            let (lo, hi) =
                draft.random.pick(&[(0.0, shape.hi), (0.5, 1.5), (shape.hi, 0.0), (0.0, 1.0)]);
            Segment { curve: shape.row, lo, hi, sense: draft.random.pick(&[1, 1, 0]) }
        })
        .collect();
    draft.composite_of(&segments)
}

/// A zigzag over the whole, in a box that holds a part of it alone: the short arc between the vertices is drawn, over a joint or
/// more.
fn redrawn(random: &mut Random) -> Sheet {
    let mut draft = Draft::new(random);
    draft.origin = [0.0; 3];
    let size = draft.random.pick(&[1.0, 8.0, 100.0]);
    let count = draft.random.pick(&[4, 6, 8, 16, 16, 24]);
    let whole = zigzag(&mut draft, count, size);
    let n = whole.hi;
    let shape = match draft.random.below(6) {
        0 => draft.trimmed_to(Shape { lo: -1.0, hi: n + 1.0, ..whole }),
        1 => draft.trimmed_to(Shape { lo: n, hi: 0.0, ..whole }),
        2 => draft.trimmed_to(whole),
        _ => whole,
    };
    let tables = draft.tables;
    let curve = tables.lent().curve(shape.row);
    // places that the sweep over 0 to n meets
    let step = n / 512.0;
    let from = step * random.below(400) as f64;
    let to = (from + step * (20 + random.below(140)) as f64).min(n);
    let bounds = if random.percent(80) {
        arc_box(&curve, from, to)
    } else {
        arc_box(&curve, from, from + step)
    };
    let ends = [from, to].map(|t| within_rules(curve.point_at(t)));
    let ends = if random.percent(30) { [ends[1], ends[0]] } else { ends };
    let (lo, hi) =
        random.pick(&[(0.0, n), (0.0, n), (0.0, n), (f64::NAN, n), (-1.0, n + 1.0), (n, 0.0)]);
    let options = Options {
        deflection: size * random.pick(&[1e-3, 1e-2, 0.05]),
        segments: random.pick(&[1, 1, 3]),
        relative: 0,
        ..options(random, size)
    };
    edge_on(tables, Shape { lo, hi, ..shape }, ends, bounds, options, random)
}

/// Lines end to end, up and down by turns, each over a range of its own.
fn zigzag(draft: &mut Draft, count: usize, size: f64) -> Shape {
    let segments: Vec<Segment> = (0..count)
        .map(|k| {
            let up = if k % 2 == 0 { size } else { -size };
            let start = [k as f64 * size, if k % 2 == 0 { 0.0 } else { size }];
            let sense = draft.random.pick(&[1, 1, 0]);
            let from = draft.random.pick(&[-7.0, -1.0, 0.0, k as f64, 40.0]);
            let step = if sense == 1 { [size, up] } else { [-size, -up] };
            // the point at `from` where it runs upwards, and at `from` + 1 where it runs back
            let first = from + if sense == 1 { 0.0 } else { 1.0 };
            draft.origin = [start[0] - step[0] * first, start[1] - step[1] * first, 0.0];
            let line = draft.line_along([step[0], step[1], 0.0]);
            Segment { curve: line.row, lo: from, hi: from + 1.0, sense }
        })
        .collect();
    draft.composite_of(&segments)
}

/// Of few parameters more often than not, so that a break more or less shows.
fn options(random: &mut Random, size: f64) -> Options {
    Options {
        deflection: (size * random.pick(&[1e-4, 1e-2, 0.1, 0.1, 0.5, 3.0, 1e3, 1e9])).min(1e9),
        angle: random.pick(&[0.14, 0.5, 8.0, 8.0]),
        relative: random.pick(&[0, 0, 1]),
        segments: random.pick(&[1, 1, 1, 1, 2, 7, 30, 2047, u64::MAX]),
        depth: random.pick(&[1, 1, 1, 2, 2, 4, 12, 24]),
        scale: random.pick(&[0.0, 1.0, 100.0]),
    }
}
