//! Sheets in which the road's comparisons meet equal values: shapes on a grid of binary fractions, and
//! tolerances, angles and boxes taken from the very values that they are compared with.

use crate::random::Random;
use crate::shapes::{Draft, Point, Shape};
use crate::sheet::Sheet;
use crate::tables::{Edge, Options, Segment};
use road::brep::Curve;
use road::math::{Interval, Vec3};
use road::steps::acos;

pub fn sheet(random: &mut Random) -> Sheet {
    if random.percent(15) {
        return thinned(random);
    }
    let mut draft = Draft::new(random);
    (draft.size, draft.origin) = (1.0, [0.0; 3]);
    let round = draft.random.percent(15);
    let shape = if round { draft.circle() } else { on_grid(&mut draft) };
    let mut tables = draft.tables;
    let curve = tables.lent().curve(shape.row);
    let deflection = if round { own_sag(random, &curve, shape) } else { grid_sag(random) };
    let (start, end) = vertices(random, &curve, shape);
    let (low, high) = boxed(random, &[start, end, middle(&curve, shape)], deflection);
    let edge = Edge {
        curve: shape.row,
        start: tables.push_point(start),
        end: tables.push_point(end),
        sense: random.pick(&[0, 1]),
        lo: shape.lo,
        hi: shape.hi,
        tolerance: random.pick(&[0.0, 0.0625, 0.125, 0.25, 0.25, 0.5, 0.1, 0.2]),
        low: tables.push_point(low),
        high: tables.push_point(high),
    };
    let depth = random.pick(&[1, 2, 4, 12]);
    let angle = match random.below(4) {
        _ if round => 8.0,
        0 => own_turn(&curve, shape, depth).unwrap_or(0.14),
        _ => grid_angle(random),
    };
    let segments = random.pick(&[1, 1, 2, 3, 3, 4, 8]);
    let options = Options { deflection, angle, relative: 0, segments, depth, scale: 0.0 };
    Sheet { tables, edge, options }
}

/// A bump halved once and no more, whose middle thinning drops for a distance or a turn that equals
/// what is allowed.
fn thinned(random: &mut Random) -> Sheet {
    let mut draft = Draft::new(random);
    let (slope, width) = draft.random.pick(&BUMPS);
    let step = draft.random.pick(&[0.25, 0.5, 1.0, 2.0]);
    let shape = draft.polyline_of(&bump(step, slope, width));
    let mut tables = draft.tables;
    let turn = own_turn(&tables.lent().curve(shape.row), shape, 1);
    let edge = Edge {
        curve: shape.row,
        start: 0,
        end: 3,
        sense: 1,
        lo: shape.lo,
        hi: shape.hi,
        tolerance: 0.0,
        low: tables.push_point([-1e8; 3]),
        high: tables.push_point([1e8; 3]),
    };
    let options = Options {
        deflection: step * random.pick(&[100.0, 400.0]),
        angle: random.pick(&[turn.unwrap_or(0.14), 1.5]),
        relative: 0,
        segments: 1,
        depth: 1,
        scale: 0.0,
    };
    Sheet { tables, edge, options }
}

/// A polyline on the grid, or a trim or a composite of one, over a range on the grid.
fn on_grid(draft: &mut Draft) -> Shape {
    let points = grid_points(draft.random);
    let shape = draft.polyline_of(&points);
    let shape = match draft.random.below(8) {
        0 => draft.trimmed(shape),
        1 => draft.composite(shape),
        2..=4 => halves(draft, shape),
        _ => shape,
    };
    match draft.random.below(4) {
        0 if shape.hi > 1.0 => Shape { lo: shape.lo + 0.5, hi: shape.hi - 0.5, ..shape },
        _ => shape,
    }
}

/// A composite of the shape's two halves.
fn halves(draft: &mut Draft, shape: Shape) -> Shape {
    let middle = 0.5 * (shape.lo + shape.hi);
    draft.composite_of(&[
        Segment { curve: shape.row, lo: shape.lo, hi: middle, sense: 1 },
        Segment { curve: shape.row, lo: middle, hi: shape.hi, sense: 1 },
    ])
}

fn grid_points(random: &mut Random) -> Vec<Point> {
    let step = random.pick(&[0.25, 0.5, 1.0, 2.0]);
    if random.percent(35) {
        let (slope, width) = random.pick(&BUMPS);
        return bump(step, slope, width).to_vec();
    }
    let mut at = [0.0; 3];
    let mut points = vec![at];
    for _ in 0..2 + random.below(7) {
        let axis = random.below(2);
        at[axis] += step * random.pick(&[1.0, 1.0, 1.0, 2.0, -1.0]);
        points.push(at);
    }
    match random.below(8) {
        0 => points.push(points[0]),
        1 => points.extend(points.clone().iter().rev()),
        _ => {}
    }
    points
}

/// The slope and the width of a bump.
const BUMPS: [(f64, f64); 4] = [(0.0, 1.0), (0.0, 4.0), (1.0, 4.0), (2.0, 8.0)];

/// A bump: its corners are exactly its height from the chord.
fn bump(height: f64, slope: f64, width: f64) -> [Point; 4] {
    [[0.0; 3], [slope, height, 0.0], [width - slope, height, 0.0], [width, 0.0, 0.0]]
}

/// A deviation that a corner on the grid has, or a hundred times one: thinning takes a hundredth.
fn grid_sag(random: &mut Random) -> f64 {
    random.pick(&[0.25, 0.5, 1.0, 2.0, 4.0, 25.0, 50.0, 100.0, 200.0])
}

/// The largest gap between the curve and an even division of its range, by the road's own steps.
fn own_sag(random: &mut Random, curve: &Curve, shape: Shape) -> f64 {
    let range = Interval::new(shape.lo, shape.hi);
    let n = 2 + random.below(12);
    let params: Vec<f64> = (0..=n).map(|i| range.at(i as f64 / n as f64)).collect();
    let gaps = params.windows(2).map(|w| {
        let (a, b) = (curve.point_at(w[0]), curve.point_at(w[1]));
        (curve.point_at(0.5 * (w[0] + w[1])) - (a + b) * 0.5).length()
    });
    gaps.fold(0.0, f64::max).min(1e9)
}

/// The turn of a right angle, as bisection and as thinning see it, a half turn, or a small one.
fn grid_angle(random: &mut Random) -> f64 {
    let chord = Vec3::new(1.0, 1.0, 0.0).normalized_or(Vec3::X);
    let half = acos(chord.dot(Vec3::X));
    random.pick(&[acos(0.0), half + half, half, acos(-1.0), acos(-1.0), 0.14])
}

/// The turn that thinning sees over the whole curve, where bisection spent its depth everywhere.
fn own_turn(curve: &Curve, shape: Shape, depth: u32) -> Option<f64> {
    let last = 1 << depth.min(6);
    let range = Interval::new(shape.lo, shape.hi);
    let point = |i: i32| curve.point_at(range.at(i as f64 / last as f64));
    let direction = |a: i32, b: i32| (point(b) - point(a)).try_normalized();
    let chord = direction(0, last)?;
    let turn = |v: Vec3| acos(v.dot(chord).clamp(-1.0, 1.0));
    Some(turn(direction(0, 1)?) + turn(direction(last - 1, last)?))
}

/// The curve's ends, exchanged, or a start as far from the one as from the other.
fn vertices(random: &mut Random, curve: &Curve, shape: Shape) -> (Point, Point) {
    let first = within_rules(curve.point_at(shape.lo));
    let last = within_rules(curve.point_at(shape.hi));
    match random.below(8) {
        0..=1 => (last, first),
        2 => ([0, 1, 2].map(|i| (first[i] + last[i]) * 0.5), last),
        3 => (first, [first[0] + 1.0, first[1], first[2]]),
        _ => (first, last),
    }
}

fn middle(curve: &Curve, shape: Shape) -> Point {
    within_rules(curve.point_at(0.5 * (shape.lo + shape.hi)))
}

fn within_rules(p: Vec3) -> Point {
    p.to_array().map(|x| if x.is_nan() { 0.0 } else { x.clamp(-1e8, 1e8) })
}

/// A box along x from whose centre one of the points is exactly as far as repair's limit allows, or
/// one that holds all.
fn boxed(random: &mut Random, points: &[Point], sag: f64) -> (Point, Point) {
    if random.percent(60) {
        return ([-1e8; 3], [1e8; 3]);
    }
    let p = random.pick(points);
    let width = random.pick(&[0.5, 1.0, 2.0, 4.0]);
    let limit = width + sag * 16.0;
    let centre = p[0] + random.pick(&[limit, -limit]);
    ([centre - 0.5 * width, p[1], p[2]], [centre + 0.5 * width, p[1], p[2]])
}
