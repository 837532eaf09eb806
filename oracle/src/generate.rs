//! Seeded sheets, valid and damaged. Each is made alone from the run's seed and its own number.

use crate::beyond;
use crate::damage;
use crate::exact;
use crate::random::Random;
use crate::shapes::{Draft, Point, Shape};
use crate::sheet::{Sheet, write};
use crate::tables::{Edge, Options, OwnedTables};
use road::brep::Curve;
use road::math::{Aabb, TAU, Vec3};

/// The bytes of sheet `index` of a run.
pub fn bytes(seed: u64, index: u64) -> Vec<u8> {
    let mut random = Random::new(seed, index);
    let sheet = drafted(&mut random, index);
    let text = write(&sheet).into_bytes();
    damage::text(&mut random, text)
}

/// What sheet `index` of a run holds, before its text is damaged.
pub fn contents(seed: u64, index: u64) -> Sheet {
    drafted(&mut Random::new(seed, index), index)
}

/// Every so many-th sheet may have hyperbolas; the others have none, and are what they were before there were any.
const EVERY: u64 = 6;

pub fn drafted(random: &mut Random, index: u64) -> Sheet {
    let hyperbolas = index % EVERY == 4;
    let sheet = match random.below(100) {
        0..=39 if hyperbolas => beyond::sheet(random),
        _ if hyperbolas => sound(Draft::with_hyperbolas(random)),
        0..=1 => redrawn(random),
        2..=14 => exact::sheet(random),
        _ => sound(Draft::new(random)),
    };
    damaged(random, sheet)
}

/// Some with values at boundaries, some with a rule of causes 2 to 6 broken.
pub fn damaged(random: &mut Random, mut sheet: Sheet) -> Sheet {
    damage::tweak(random, &mut sheet);
    damage::contents(random, &mut sheet);
    sheet
}

/// A sheet as a reader would write it, or as its mistakes would.
fn sound(mut draft: Draft) -> Sheet {
    if draft.random.percent(20) {
        draft.simple(); // a row and points that the edge may not use
    }
    let shape = shape(&mut draft);
    if draft.random.percent(5) {
        draft.stray_segment();
    }
    let (mut tables, size, random) = (draft.tables, draft.size, draft.random);
    if tables.points.is_empty() {
        tables.push_point([0.0; 3]);
    }
    let curve = tables.lent().curve(shape.row);
    let plan = if random.percent(14) {
        runaway(random, &curve)
    } else {
        usual(random, &curve, shape, size)
    };
    let extent = largest_side(&plan.path, size);
    let options = options(random, extent);
    let edge = Edge {
        curve: shape.row,
        start: vertex(random, &mut tables, plan.start),
        end: vertex(random, &mut tables, plan.end),
        sense: random.pick(&[1, 1, 0]),
        lo: plan.lo,
        hi: plan.hi,
        tolerance: tolerance(random, extent, options.deflection),
        low: vertex(random, &mut tables, plan.bounds.min),
        high: vertex(random, &mut tables, plan.bounds.max),
    };
    Sheet { tables, edge, options }
}

/// An edge that escapes its box and is drawn again between its vertices, where a random one seldom is.
fn redrawn(random: &mut Random) -> Sheet {
    let mut draft = Draft::new(random);
    let (shape, start, end) = match draft.random.below(4) {
        0..=1 => far_polyline(&mut draft),
        2 => swept_line(&mut draft),
        _ => whole_turn(&mut draft),
    };
    let mut tables = draft.tables;
    let quarter = |k: f64| [0, 1, 2].map(|i| start[i] + (end[i] - start[i]) * 0.25 * k);
    let edge = Edge {
        curve: shape.row,
        start: tables.push_point(start),
        end: tables.push_point(end),
        sense: 1,
        lo: shape.lo,
        hi: shape.hi,
        tolerance: 0.0,
        low: tables.push_point(quarter(1.0)),
        high: tables.push_point(quarter(3.0)),
    };
    let options = Options {
        deflection: random.pick(&[1.0, 1e-3]),
        angle: random.pick(&[0.01, 0.14]),
        relative: 0,
        segments: 2 + random.below(3) as u64,
        depth: 1,
        scale: 0.0,
    };
    Sheet { tables, edge, options }
}

/// Two points a few units in the last place apart, then three far off. Between the two, thinning may
/// meet a span that it would split for ever.
fn far_polyline(draft: &mut Draft) -> (Shape, Point, Point) {
    let close = draft.units_in_the_last_place();
    let far = [[1e3, 0.0, 0.0], [0.0, 1e3, 0.0], [0.0, 0.0, 1e3]];
    let shape = draft.polyline_of(&[&close[1..3], &far].concat());
    (shape, close[1], close[2])
}

/// A line so slow that the sweep over its natural range of 2e12 tells its vertices apart.
fn swept_line(draft: &mut Draft) -> (Shape, Point, Point) {
    let speed = draft.random.decade(-7, -3);
    draft.origin = [0.0; 3];
    let shape = draft.line_along([speed, 0.0, 0.0]);
    let end = 2e12 / 512.0 * speed;
    (Shape { lo: -1e9, hi: 0.0, ..shape }, [0.0; 3], [end, 0.0, 0.0])
}

/// A short trim of a circle, over a whole turn: no complement is left.
fn whole_turn(draft: &mut Draft) -> (Shape, Point, Point) {
    draft.origin = [0.0; 3];
    let circle = draft.circle();
    let trim = draft.trimmed_to(Shape { lo: 0.0, hi: 0.1, ..circle });
    let curve = draft.tables.lent().curve(trim.row);
    let ends = [0.025, 0.075].map(|t| within_rules(curve.point_at(t)).to_array());
    let lo = draft.random.pick(&[0.0, 1.0, -0.5]);
    (Shape { lo, hi: lo + TAU, ..trim }, ends[0], ends[1])
}

/// Where an edge runs, before its points are put into the table.
struct Plan {
    lo: f64,
    hi: f64,
    start: Vec3,
    end: Vec3,
    bounds: Aabb,
    /// Points of the curve that the tolerances are sized by.
    path: Vec<Vec3>,
}

/// An edge over the curve's own range, or over one that a file got wrong.
fn usual(random: &mut Random, curve: &Curve, shape: Shape, size: f64) -> Plan {
    let (lo, hi) = range(random, shape);
    let bounded = lo.is_finite() && hi.is_finite();
    let path = if bounded { path(curve, lo, hi) } else { path(curve, shape.lo, shape.hi) };
    let (start, end) = vertices(random, &path, size);
    let bounds = bounds(random, start, end, &path, largest_side(&path, size));
    Plan { lo, hi, start, end, bounds, path }
}

/// An edge whose range is not the arc between its vertices, in a box that holds that arc alone.
fn runaway(random: &mut Random, curve: &Curve) -> Plan {
    let natural = curve.natural_range();
    let span = curve.period().unwrap_or(natural.span());
    // Places that the sweep for the nearest parameter meets.
    let from = natural.lo + span * random.below(8) as f64 * 0.125;
    let to = from + span * random.pick(&[0.25, 1.0 / 512.0, 0.1, 0.01, 1e-3, 1e-5]);
    let (lo, hi) = match random.below(10) {
        0..=4 => (to, from + span),
        5..=6 => (natural.lo, natural.hi),
        7 => (from, to),
        8 if random.percent(50) => (from, from + span),
        8 => (from - span, to + span),
        _ => (unbounded(random), to),
    };
    let within = |t: f64| if t.is_finite() { t.clamp(-1e9, 1e9) } else { t };
    let near = path(curve, from, to);
    let (start, end) = (near[0], near[near.len() - 1]);
    let mut bounds = Aabb { min: start, max: start };
    near.iter().for_each(|p| bounds.add_point(*p));
    match random.below(10) {
        0..=1 => bounds = Aabb { min: near[2], max: near[3] },
        2..=3 => bounds = Aabb { min: near[4].min(near[12]), max: near[4].max(near[12]) },
        _ => {}
    }
    let (start, end) = if random.percent(30) { (end, start) } else { (start, end) };
    Plan {
        lo: within(lo),
        hi: within(hi),
        start,
        end,
        bounds,
        path: path(curve, from, from + span),
    }
}

/// A new point of the table, or now and then any point that is there.
fn vertex(random: &mut Random, tables: &mut OwnedTables, p: Vec3) -> u32 {
    if random.percent(2) {
        return random.below(tables.lent().point_count()) as u32;
    }
    tables.push_point(within_rules(p).to_array())
}

fn shape(draft: &mut Draft) -> Shape {
    if draft.hyperbolas {
        let depth = draft.random.pick(&[0, 0, 0, 1, 1, 1, 1, 2, 2, 2, 3, 4, 5, 6, 7, 8]);
        return draft.nested(depth);
    }
    match draft.random.below(100) {
        0..=4 => draft.line(),
        5..=19 => draft.circle(),
        20..=29 => draft.ellipse(),
        30..=36 => draft.parabola(),
        37..=57 => draft.polyline(),
        58..=69 => draft.nested(1),
        70..=81 => draft.nested(2),
        _ => {
            let depth = 3 + draft.random.below(7);
            draft.nested(depth)
        }
    }
}

/// The edge's lo and hi.
fn range(random: &mut Random, shape: Shape) -> (f64, f64) {
    let span = shape.hi - shape.lo;
    if span == 0.0 && random.percent(30) {
        // Clamped to a natural range of one zero, or backwards to it.
        return random.pick(&[(-1.0, -0.0), (-0.0, 1.0), (2.0, 5.0)]);
    }
    let (a, b) = (random.unit(), random.unit());
    match random.below(40) {
        0..=19 => (shape.lo, shape.hi),
        20..=25 => (shape.lo + span * a * 0.5, shape.hi - span * b * 0.5),
        26..=27 => (shape.hi, shape.lo),
        28 => (shape.lo, shape.lo),
        29..=30 => (shape.lo - span * a, shape.hi + span * b * 3.0),
        31 => (shape.hi + span * a, shape.hi + span * (1.0 + b)),
        32 => (shape.lo, f64::from_bits(shape.lo.abs().to_bits() + 1)),
        33 => (random.boundary(), random.boundary()),
        34..=35 => (-f64::from_bits(1 + random.below(4) as u64), shape.hi),
        36 => (unbounded(random), unbounded(random)),
        37 => (shape.lo, unbounded(random)),
        38 => (unbounded(random), shape.hi),
        _ => (0.0, random.decade(0, 8)),
    }
}

/// An infinity, or a NaN with any sign and payload, quiet or not.
pub fn unbounded(random: &mut Random) -> f64 {
    match random.below(5) {
        0 => f64::INFINITY,
        1 => f64::NEG_INFINITY,
        2 => f64::NAN,
        _ => f64::from_bits(0x7ff0000000000001 | random.bits()),
    }
}

/// Points of the curve over a range.
fn path(curve: &Curve, lo: f64, hi: f64) -> Vec<Vec3> {
    const STEPS: usize = 16;
    (0..=STEPS)
        .map(|i| within_rules(curve.point_at(lo + (hi - lo) * (i as f64 / STEPS as f64))))
        .collect()
}

/// A point that cause 2 lets pass.
fn within_rules(p: Vec3) -> Vec3 {
    let within = |x: f64| if x.is_nan() { 0.0 } else { x.clamp(-1e9, 1e9) };
    Vec3::new(within(p.x), within(p.y), within(p.z))
}

fn largest_side(path: &[Vec3], size: f64) -> f64 {
    let mut bounds = Aabb::EMPTY;
    path.iter().for_each(|p| bounds.add_point(*p));
    let side = bounds.size();
    let largest = side.x.max(side.y).max(side.z);
    if largest > 0.0 { largest } else { size }
}

fn vertices(random: &mut Random, path: &[Vec3], size: f64) -> (Vec3, Vec3) {
    let (first, last) = (path[0], path[path.len() - 1]);
    match random.below(20) {
        0..=9 => (first, last),
        10..=12 => (last, first),
        13 => (first, first),
        14..=15 => (near(random, first, size), near(random, last, size)),
        16..=17 => (random.pick(path), random.pick(path)),
        18 => (path[7], path[8]),
        _ => (near(random, first, size * 1e3), near(random, last, size * 1e3)),
    }
}

/// A point off by anything from rounding to the size itself.
fn near(random: &mut Random, p: Vec3, size: f64) -> Vec3 {
    let off = size * random.decade(-12, 1);
    let shift = Vec3::new(random.between(-1.0, 1.0), random.between(-1.0, 1.0), 0.0);
    within_rules(p + shift * off)
}

/// The caller's box: round the path, round the vertices alone, too small, empty, or a point.
fn bounds(random: &mut Random, start: Vec3, end: Vec3, path: &[Vec3], extent: f64) -> Aabb {
    let mut ends = Aabb { min: start, max: start };
    ends.add_point(end);
    let mut whole = ends;
    path.iter().for_each(|p| whole.add_point(*p));
    match random.below(20) {
        0..=10 => wider(random, whole, extent),
        11..=15 => wider(random, ends, extent),
        16 => Aabb { min: start, max: start },
        17 => Aabb { min: ends.max, max: ends.min },
        18 => Aabb { min: near(random, start, extent), max: start },
        _ => Aabb { min: path[3], max: near(random, path[3], extent) },
    }
}

fn wider(random: &mut Random, bounds: Aabb, extent: f64) -> Aabb {
    let margin = extent * random.pick(&[0.0, 0.0, 1e-3, 0.05, 0.5]);
    let margin = Vec3::new(margin, margin, margin);
    Aabb { min: bounds.min - margin, max: bounds.max + margin }
}

fn options(random: &mut Random, extent: f64) -> Options {
    let relative = random.below(2) as u32;
    let scale = match random.below(12) {
        0 => 0.0,
        1 => -extent,
        2 => unbounded(random),
        3 => random.boundary(),
        4..=6 => extent,
        _ => extent * random.decade(0, 4),
    };
    let deflection = match random.below(16) {
        0 => random.boundary(),
        1 => -random.decade(-3, 1),
        2 => extent * random.decade(-9, -5),
        3 => extent * 10.0,
        _ if relative == 1 => random.decade(-4, 0),
        _ => extent * random.decade(-4, 0),
    };
    let angle = match random.below(16) {
        0 => random.boundary(),
        1 => 8.0,
        2 => random.decade(-6, -2),
        3..=5 => random.between(0.0, 4.0),
        6..=8 => 0.5,
        _ => 0.14,
    };
    let segments = match random.below(40) {
        0 => 0,
        1 => random.bits() >> random.below(64),
        2 => random.pick(&[2046, 2047, 2048, 16383, 16384, u64::MAX]),
        3 => 100,
        4..=12 => 2 + random.below(8) as u64,
        _ => 1,
    };
    let depth = random.pick(&[0, 1, 1, 2, 3, 5, 8, 12, 12, 12, 24, 25, u32::MAX]);
    let within = |x: f64| if x.is_finite() { x.clamp(-1e9, 1e9) } else { x };
    Options {
        deflection: within(deflection),
        angle,
        relative,
        segments,
        depth,
        scale: within(scale),
    }
}

fn tolerance(random: &mut Random, extent: f64, deflection: f64) -> f64 {
    let tolerance = match random.below(12) {
        0..=3 => 0.0,
        4 => random.boundary(),
        5 => -extent,
        6 => extent * random.decade(-9, -5),
        7..=8 => deflection.abs() * random.decade(-3, 1),
        _ => extent * random.decade(-4, 0),
    };
    tolerance.clamp(-1e9, 1e9)
}
