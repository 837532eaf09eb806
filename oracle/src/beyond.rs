//! Sheets in which a hyperbola is asked for parameters about 100 and beyond, at each step of the road that can be the first to ask.

use crate::random::Random;
use crate::shapes::{Draft, NEXT, Point, Shape, WIDE};
use crate::sheet::Sheet;
use crate::tables::{Edge, Options, OwnedTables, Segment};
use road::brep::Curve;
use road::math::{Aabb, Vec3};

pub fn sheet(random: &mut Random) -> Sheet {
    match random.below(10) {
        0..=2 => redrawn(random),
        3..=4 => hidden(random),
        _ => reaching(random),
    }
}

/// An edge that reaches about the limit in any form.
fn reaching(random: &mut Random) -> Sheet {
    let mut draft = Draft::with_hyperbolas(random);
    draft.size = 1.0;
    let major = draft.random.pick(&AXES);
    let minor = draft.random.pick(&[major, major, 1.0, 0.0, 1e-43]);
    let hyperbola = draft.hyperbola_of(major, minor);
    let shape = match draft.random.below(10) {
        0 => Shape { hi: reach(draft.random), ..hyperbola },
        1..=2 => trimmed(&mut draft, hyperbola),
        _ => composed(&mut draft, hyperbola),
    };
    let shape = match draft.random.below(12) {
        0 => draft.trimmed(shape),
        1 => draft.composite(shape),
        2 => draft.trimmed_to(shape),
        _ => shape,
    };
    let tables = draft.tables;
    let (lo, hi) = range(random, shape);
    let ends = [shape.lo, shape.hi].map(|t| tables.lent().curve(shape.row).point_at(t));
    let ends = match random.below(3) {
        0 => [[0.0; 3], [1.0, 0.0, 0.0]],
        _ => ends.map(within_rules),
    };
    let bounds = match random.below(6) {
        0 => [[-1e9; 3], [1e9; 3]],
        1..=2 => [ends[0], ends[1]],
        3 => [[0.0; 3], [1e-3; 3]],
        _ => [[1.0; 3], [0.0; 3]],
    };
    let options = options(random);
    edge_on(tables, Shape { lo, hi, ..shape }, ends, bounds, options, random)
}

/// Semi-axes; with the least, points at 100 are not far off.
const AXES: [f64; 8] = [1.0, 1.0, 2.5, 1e-40, 1e-43, 1e-43, 0.0, -1.0];

/// A parameter at the limit, a little beyond it, or far.
fn reach(random: &mut Random) -> f64 {
    let above = f64::from_bits(NEXT.to_bits() + 1 + random.below(3) as u64);
    let few = [100.0, 100.0, 99.5, NEXT, NEXT, above, 100.25, 101.0, 110.0, 150.0, 1e3, 1e6];
    let sign = random.pick(&[1.0, 1.0, -1.0]);
    sign * random.pick(&few)
}

/// Trims of a hyperbola, either way round: within the limit, over it, or so wide that they are no range to draw.
fn trimmed(draft: &mut Draft, hyperbola: Shape) -> Shape {
    let (lo, hi) = match draft.random.below(5) {
        0 => (hyperbola.lo, reach(draft.random)),
        1 => draft.random.pick(&WIDE),
        2 => (-100.0, 100.0),
        3 => (reach(draft.random), hyperbola.lo),
        _ => (hyperbola.lo, hyperbola.hi),
    };
    let trim = draft.trimmed_to(Shape { lo, hi, ..hyperbola });
    match draft.random.below(3) {
        0 => draft.trimmed_to(Shape { lo: hyperbola.lo, hi: hyperbola.hi, ..trim }),
        _ => trim,
    }
}

/// A composite with one segment that reaches about the limit. Its far end is at a whole parameter where it is the segment's first,
/// and only neared where it is the last of one that another follows.
fn composed(draft: &mut Draft, hyperbola: Shape) -> Shape {
    let count = draft.random.pick(&[1, 2, 2, 3, 3, 5, 8, 9, 9, 16, 24, 40]);
    let place = draft.random.below(count);
    let straight = draft.line_along([1.0, 0.0, 0.0]);
    let other = if draft.random.percent(50) { hyperbola } else { draft.simple() };
    let mut segments: Vec<Segment> = (0..count)
        .map(|_| {
            let chosen = draft.random.pick(&[straight, hyperbola, other]);
            let within = Shape { lo: chosen.lo.max(-5.0), hi: chosen.hi.min(5.0), ..chosen };
            match draft.random.below(4) {
                0 => draft.segment(within, count),
                _ => Segment { curve: chosen.row, lo: within.lo, hi: within.hi, sense: 1 },
            }
        })
        .collect();
    let near = draft.random.pick(&[0.0, 1.0, -1.0, 2.0, 0.5, 99.0]);
    let far = reach(draft.random);
    let sense = draft.random.pick(&[1, 1, 0]);
    let last = draft.random.percent(65) == (sense == 1);
    let (lo, hi) = if last { (near, far) } else { (far, near) };
    segments[place] = Segment { curve: hyperbola.row, lo, hi, sense };
    draft.composite_of(&segments)
}

/// A composite whose probes do not come to the far end of a segment that another follows, in a box that is empty. A break may ask
/// for it first, bisection, or the segment floor's points; and an arc before it that is drawn finely may fill the room first.
fn hidden(random: &mut Random) -> Sheet {
    let mut draft = Draft::with_hyperbolas(random);
    draft.size = 1.0;
    let coarse = draft.random.percent(40);
    let axis = if coarse { 1e-43 } else { draft.random.pick(&AXES) };
    let hyperbola = draft.hyperbola_of(axis, axis);
    let straight = draft.line_along([1.0, 0.0, 0.0]);
    let before = if coarse { straight } else { draft.circle() };
    let far = draft.random.pick(&[100.25, 101.0, 104.0, 112.0, 125.0]);
    let (lo, hi, sense) = draft.random.pick(&[(0.0, far, 1), (-far, -1.0, 0), (-1.0, far, 1)]);
    // the ends of segments past the composite's are no breaks of it
    let line = Segment { curve: straight.row, lo: -3.0, hi: -1.0, sense: 1 };
    let mut segments = vec![Segment { curve: hyperbola.row, lo, hi, sense }, line];
    if draft.random.percent(60) {
        segments.insert(0, Segment { curve: before.row, lo: -2.0, hi: -0.5, sense: 1 });
    }
    if draft.random.percent(25) {
        // a break a little before the segment's end
        let last = segments.len() - 1;
        segments[last].hi = last as f64 - draft.random.pick(&[0.01, 0.003, 0.03]);
    }
    let shape = draft.composite_of(&segments);
    let tables = draft.tables;
    let ends = [[0.0; 3], [1.0, 0.0, 0.0]];
    let options = Options {
        deflection: if coarse { 1e9 } else { random.pick(&[1e-3, 1e-2, 1e-7, 1e-8]) },
        angle: 8.0,
        segments: random.pick(&[1, 1, 40, 100, 300, 2047]),
        depth: random.pick(&[8, 12, 12, 24]),
        ..options(random)
    };
    edge_on(tables, shape, ends, [[1.0; 3], [0.0; 3]], options, random)
}

/// The whole, a part, or none.
fn range(random: &mut Random, shape: Shape) -> (f64, f64) {
    let (a, b) = (random.unit(), random.unit());
    let span = shape.hi - shape.lo;
    match random.below(10) {
        0 => (shape.lo + span * a * 0.5, shape.hi - span * b * 0.5),
        1 => (f64::NAN, shape.hi),
        2 => (shape.hi, shape.lo),
        3 => (shape.lo, shape.lo),
        4 => (-random.between(0.0, 3.0), random.between(0.0, 3.0)),
        _ => (shape.lo, shape.hi),
    }
}

/// Sometimes so coarse that few parameters are asked for, sometimes so fine that lists grow long.
fn options(random: &mut Random) -> Options {
    Options {
        deflection: random.pick(&[1e-7, 1e-3, 0.1, 10.0, 1e6, 1e9, 1e9]),
        angle: random.pick(&[8.0, 8.0, 8.0, 0.5, 0.14]),
        relative: random.below(2) as u32,
        segments: random.pick(&[1, 1, 1, 1, 2, 5, 9, 20, 100, 2047]),
        depth: random.pick(&[1, 1, 2, 4, 8, 12, 24]),
        scale: random.pick(&[0.0, 1.0, 100.0]),
    }
}

/// A hyperbola, most often in trims, over more than the arc between the vertices, in a box that holds that arc alone. Where its own
/// range passes the limit, the edge's does not, so that the sweep is the first to ask beyond.
fn redrawn(random: &mut Random) -> Sheet {
    let mut draft = Draft::with_hyperbolas(random);
    let axis = draft.size;
    let minor = axis * draft.random.pick(&[1.0, 0.5, -1.0]);
    let hyperbola = draft.hyperbola_of(axis, minor);
    let wide = draft.random.pick(&[2.0, 4.0, 4.0, 8.0, 8.0, 100.0, NEXT, 150.0, 1e9]);
    let plain = draft.random.percent(12);
    let mut trim = match plain {
        true => Shape { lo: -4.0, hi: 4.0, ..hyperbola },
        false => draft.trimmed_to(Shape { lo: -wide, hi: wide, ..hyperbola }),
    };
    if !plain && draft.random.percent(30) {
        trim = draft.trimmed_to(trim);
    }
    if !plain && wide <= 8.0 && draft.random.percent(30) {
        let segment = Segment { curve: trim.row, lo: -wide, hi: wide, sense: 1 };
        trim = draft.composite_of(&[segment]);
    }
    let tables = draft.tables;
    let curve = tables.lent().curve(trim.row);
    let (reach, middle) = ((trim.hi - trim.lo).min(16.0) * 0.5, 0.5 * (trim.lo + trim.hi));
    let span = 2.0 * reach;
    // places that the sweep meets, not too far off
    let from = middle + span * (random.below(9) as f64 - 4.0) / 64.0;
    let to = from + span * random.pick(&[1.0 / 512.0, 2.0 / 512.0, 1.0 / 64.0, 0.03, 0.1]);
    let bounds = match random.below(5) {
        0 => arc_box(&curve, from, from),
        1 => arc_box(&curve, from, 0.5 * (from + to)),
        _ => arc_box(&curve, from, to),
    };
    let ends = [from, to].map(|t| within_rules(curve.point_at(t)));
    let ends = if random.percent(30) { [ends[1], ends[0]] } else { ends };
    let (lo, hi) = match random.below(6) {
        0 => (f64::NAN, to),
        1 => (to, from),
        2 => (from, middle + reach),
        _ => (middle - reach, middle + reach),
    };
    let size = (bounds[1][0] - bounds[0][0]).abs().clamp(1e-9, 1e6);
    let options = Options {
        deflection: size * random.pick(&[1e-2, 1e-3, 1e-1]),
        relative: 0,
        segments: random.pick(&[1, 1, 4]),
        ..options(random)
    };
    edge_on(tables, Shape { lo, hi, ..trim }, ends, bounds, options, random)
}

/// The box of some points of the curve between two parameters.
pub fn arc_box(curve: &Curve, from: f64, to: f64) -> [Point; 2] {
    let mut bounds = Aabb::EMPTY;
    for i in 0..=8 {
        let p = within_rules(curve.point_at(from + (to - from) * (i as f64 * 0.125)));
        bounds.add_point(Vec3::new(p[0], p[1], p[2]));
    }
    [bounds.min.to_array(), bounds.max.to_array()]
}

/// An edge over a shape's range, between vertices and in a box.
pub fn edge_on(
    mut tables: OwnedTables,
    shape: Shape,
    [start, end]: [Point; 2],
    [low, high]: [Point; 2],
    options: Options,
    random: &mut Random,
) -> Sheet {
    let edge = Edge {
        curve: shape.row,
        start: tables.push_point(start),
        end: tables.push_point(end),
        sense: random.pick(&[1, 1, 0]),
        lo: shape.lo,
        hi: shape.hi,
        tolerance: random.pick(&[0.0, 0.0, 0.0, 1e-3, 0.1]),
        low: tables.push_point(low),
        high: tables.push_point(high),
    };
    Sheet { tables, edge, options }
}

/// A point that cause 2 lets pass.
pub fn within_rules(p: Vec3) -> Point {
    p.to_array().map(|x| if x.is_nan() { 0.0 } else { x.clamp(-1e9, 1e9) })
}
