//! Curve rows of every kind, drafted at random.

use crate::random::Random;
use crate::tables::{
    CIRCLE, COMPOSITE, ELLIPSE, HYPERBOLA, LINE, OwnedTables, PARABOLA, POLYLINE, Row, Segment,
    TRIMMED,
};
use road::math::TAU;
use road::steps::{cos, sin};

/// A drafted row and a range that a file would draw it over.
#[derive(Debug, Clone, Copy)]
pub struct Shape {
    pub row: u32,
    pub lo: f64,
    pub hi: f64,
}

/// Ranges of trims about the span of 1e9 from which on a natural range is none to draw.
pub const WIDE: [(f64, f64); 4] = [(-1e9, 1e9), (0.0, 1e9), (1e9, 0.0), (0.0, 999999999.9999999)];

/// The least parameter that is too large for a hyperbola.
pub const NEXT: f64 = 100.00000000000001;

/// Tables that grow row by row.
pub struct Draft<'a> {
    pub random: &'a mut Random,
    pub tables: OwnedTables,
    /// The scale of this part.
    pub size: f64,
    pub origin: [f64; 3],
    /// Whether rows that refer to no other are hyperbolas more often than not; else none is.
    pub hyperbolas: bool,
}

pub type Point = [f64; 3];

fn add(a: Point, b: Point) -> Point {
    [a[0] + b[0], a[1] + b[1], a[2] + b[2]]
}

fn scaled(a: Point, s: f64) -> Point {
    [a[0] * s, a[1] * s, a[2] * s]
}

impl<'a> Draft<'a> {
    pub fn new(random: &'a mut Random) -> Draft<'a> {
        let size = match random.below(10) {
            0 => 1.0,
            1 => random.decade(-12, -5),
            // So small that squares lose bits, and lengths come near the least with a direction.
            2 if random.percent(40) => random.decade(-158, -150),
            2 => random.decade(5, 8),
            _ => random.decade(-2, 4),
        };
        let origin = match random.below(10) {
            0..=5 => [0.0; 3],
            6 => [random.decade(6, 8), -random.decade(6, 8), 0.0],
            _ => [0, 1, 2].map(|_| random.between(-10.0, 10.0) * size),
        };
        Draft { random, tables: OwnedTables::default(), size, origin, hyperbolas: false }
    }

    pub fn with_hyperbolas(random: &'a mut Random) -> Draft<'a> {
        Draft { hyperbolas: true, ..Draft::new(random) }
    }

    /// A row of any kind that refers to no other.
    pub fn simple(&mut self) -> Shape {
        if self.hyperbolas && self.random.percent(70) {
            return self.hyperbola();
        }
        match self.random.below(16) {
            0..=1 => self.line(),
            2..=5 => self.circle(),
            6..=8 => self.ellipse(),
            9..=10 => self.parabola(),
            _ => self.polyline(),
        }
    }

    /// A row nested `depth` deep: trims and composites round a row that refers to no other.
    pub fn nested(&mut self, depth: usize) -> Shape {
        let mut shape = self.simple();
        for _ in 0..depth {
            shape =
                if self.random.percent(55) { self.trimmed(shape) } else { self.composite(shape) };
        }
        shape
    }

    pub fn line(&mut self) -> Shape {
        let direction = match self.random.below(12) {
            0 => [0.0; 3],
            1 => [self.random.boundary(), self.random.boundary(), 0.0],
            // So short that the sweep over a line's natural range finds more than one place.
            2 => scaled(self.direction(), self.random.decade(-9, -3)),
            3..=5 => [self.random.pick(&[1.0, 2.0, -1.0]), 0.0, 0.0],
            6..=7 => self.direction(),
            _ => self.vector(),
        };
        self.line_along(direction)
    }

    pub fn line_along(&mut self, direction: Point) -> Shape {
        let first = self.tables.push_point(self.origin);
        self.tables.push_point(direction);
        let row = self.row(LINE, first, 2, 0.0, 0.0);
        let hi = self.random.pick(&[1.0, 5.0, 100.0, 1e-3]);
        Shape { row, lo: 0.0, hi }
    }

    pub fn circle(&mut self) -> Shape {
        let radius = self.radius();
        let first = self.frame();
        let row = self.row(CIRCLE, first, 3, radius, 0.0);
        self.arc(row)
    }

    pub fn ellipse(&mut self) -> Shape {
        let major = self.radius();
        let minor = match self.random.below(6) {
            0 => major,
            1 => major * self.random.decade(-6, 0),
            2 => self.radius(),
            _ => major * self.random.between(0.1, 1.5),
        };
        let first = self.frame();
        let row = self.row(ELLIPSE, first, 3, major, minor);
        self.arc(row)
    }

    pub fn parabola(&mut self) -> Shape {
        let focal = self.radius();
        let first = self.frame();
        let row = self.row(PARABOLA, first, 3, focal, 0.0);
        let reach = self.random.pick(&[0.5, 1.0, 3.0, 40.0, 1e3]);
        let lo = self.random.pick(&[-1.0, 0.0, -0.25]) * reach;
        Shape { row, lo, hi: reach }
    }

    pub fn hyperbola(&mut self) -> Shape {
        let major = self.radius();
        let minor = match self.random.below(6) {
            0 => major,
            1..=2 => self.radius(),
            _ => major * self.random.between(0.1, 1.5),
        };
        let shape = self.hyperbola_of(major, minor);
        let (a, b) = (self.random.between(-5.0, 5.0), self.random.between(-5.0, 5.0));
        let wide = self.random.pick(&[30.0, 99.0, 150.0, 1e3]);
        let (lo, hi) = match self.random.below(20) {
            0..=8 => (a.min(b), a.max(b)),
            9..=10 => (a * 6.0, a * 6.0 + b.abs()),
            11 => (-wide, wide),
            12 => (-100.0, 100.0),
            // lo + (hi - lo) * 1 is not always hi
            13 => (a * 10.0, 100.0),
            14 => (-100.0, b * 10.0),
            15 => (a, NEXT),
            16 => (-NEXT, b),
            _ => (shape.lo, shape.hi),
        };
        Shape { lo, hi, ..shape }
    }

    /// With these semi-axes, over the range of a cone's cut.
    pub fn hyperbola_of(&mut self, major: f64, minor: f64) -> Shape {
        let first = self.frame();
        let row = self.row(HYPERBOLA, first, 3, major, minor);
        let hi = self.random.pick(&[0.5, 1.0, 2.0, 3.0]);
        let lo = self.random.pick(&[-1.0, -1.0, 0.0, -0.25]) * hi;
        Shape { row, lo, hi }
    }

    pub fn polyline(&mut self) -> Shape {
        let known = self.tables.lent().point_count();
        if known > 0 && self.random.percent(5) {
            let (first, count) = self.any_run(known); // points that other rows use too
            return self.polyline_over(first, count);
        }
        let points = self.polyline_points();
        self.polyline_of(&points)
    }

    pub fn polyline_of(&mut self, points: &[Point]) -> Shape {
        let first = self.tables.lent().point_count();
        self.tables.points.extend(points.as_flattened());
        self.polyline_over(first, points.len())
    }

    fn polyline_over(&mut self, first: usize, count: usize) -> Shape {
        let row = self.row(POLYLINE, first as u32, count as u32, 0.0, 0.0);
        Shape { row, lo: 0.0, hi: count.saturating_sub(1) as f64 }
    }

    pub fn trimmed(&mut self, base: Shape) -> Shape {
        let span = base.hi - base.lo;
        let (a, b) = (self.random.unit(), self.random.unit());
        let (p, q) = match self.random.below(10) {
            0 => (base.lo, base.lo),
            1..=2 => (base.hi, base.lo),
            3 => (base.lo + span * a, base.lo + span * b),
            4 => (base.lo - span, base.hi + span * 2.0),
            5 if self.random.percent(50) => self.random.pick(&WIDE),
            5 => (self.random.boundary(), self.random.boundary()),
            6..=7 => (base.lo + span * a * 0.5, base.hi - span * b * 0.5),
            _ => (base.lo, base.hi),
        };
        self.trimmed_to(Shape { lo: p, hi: q, ..base })
    }

    /// The trim to the very range of a shape.
    pub fn trimmed_to(&mut self, base: Shape) -> Shape {
        let row = self.row(TRIMMED, base.row, 1, base.lo, base.hi);
        Shape { row, ..base }
    }

    /// A composite that `shape` is one of the segments of.
    pub fn composite(&mut self, shape: Shape) -> Shape {
        let count = match self.random.below(20) {
            0 => 0,
            1 => 40,
            2..=7 => 1,
            8..=13 => 2,
            _ => 3 + self.random.below(4),
        };
        let mut shapes = vec![shape];
        if count > 1 && self.random.percent(70) {
            shapes.push(self.simple());
        }
        let known = self.tables.lent().segment_count();
        if known > 0 && self.random.percent(10) {
            let (first, count) = self.any_run(known); // segments that other rows use too
            return self.composite_over(first, count);
        }
        let segments: Vec<Segment> = (0..count)
            .map(|_| {
                let chosen = self.random.pick(&shapes);
                self.segment(chosen, count)
            })
            .collect();
        self.composite_of(&segments)
    }

    pub fn composite_of(&mut self, segments: &[Segment]) -> Shape {
        let first = self.tables.lent().segment_count();
        segments.iter().for_each(|segment| self.tables.push_segment(*segment));
        self.composite_over(first, segments.len())
    }

    fn composite_over(&mut self, first: usize, count: usize) -> Shape {
        let row = self.row(COMPOSITE, first as u32, count as u32, 0.0, 0.0);
        Shape { row, lo: 0.0, hi: count as f64 }
    }

    /// A segment in no composite's run, its curve in any row.
    pub fn stray_segment(&mut self) {
        let curve = self.random.below(self.tables.lent().row_count()) as u32;
        self.tables.push_segment(Segment { curve, lo: 0.0, hi: 1.0, sense: 1 });
    }

    /// The first and the count of a run in a table of this size.
    fn any_run(&mut self, size: usize) -> (usize, usize) {
        let first = self.random.below(size);
        (first, self.random.below(size - first + 1).min(40))
    }

    /// A segment with its curve's own range, or with one whose ends are breaks of the composite.
    pub fn segment(&mut self, shape: Shape, count: usize) -> Segment {
        let breaks = |draft: &mut Self| draft.random.below(4 * count + 3) as f64 * 0.25;
        // What breaks must be away from the range's ends by, where the edge runs over the whole.
        let least = count as f64 * 1e-9;
        let (lo, hi) = match self.random.below(20) {
            0..=7 => (shape.lo, shape.hi),
            8..=15 => (breaks(self), breaks(self)),
            16..=17 => (breaks(self), breaks(self) + self.random.decade(-12, -6)),
            18 => (least, count as f64 - least),
            _ => (shape.hi, shape.lo),
        };
        Segment { curve: shape.row, lo, hi, sense: self.random.pick(&[1, 1, 0]) }
    }

    fn row(&mut self, kind: u32, first: u32, count: u32, p: f64, q: f64) -> u32 {
        self.tables.push_row(Row { kind, first, count, p, q })
    }

    /// The whole turn, a part of one, or the mistakes that files make: degrees, turns past the seam.
    fn arc(&mut self, row: u32) -> Shape {
        let start = self.random.between(-1.0, 1.0) * TAU;
        let (lo, hi) = match self.random.below(12) {
            0..=2 => (0.0, TAU),
            3 => (0.0, 360.0),
            4 => (start, start + 90.0),
            5 => (start, start + TAU),
            6 => (start, start + TAU * 3.0),
            7 => (start, start + self.random.decade(-9, -2)),
            _ => (start, start + self.random.unit() * TAU),
        };
        Shape { row, lo, hi }
    }

    fn radius(&mut self) -> f64 {
        match self.random.below(20) {
            0 => 0.0,
            1 => -self.size,
            2 => self.random.boundary(),
            3..=5 => self.size * self.random.decade(0, 3),
            6 => self.size * self.random.decade(-6, 0),
            _ => self.size,
        }
    }

    /// Origin, axis and ref_dir: mostly orthonormal, as a reader would make them.
    fn frame(&mut self) -> u32 {
        let angle = self.random.between(-3.0, 3.0);
        let (c, s) = (cos(angle), sin(angle));
        let (axis, ref_dir) = match self.random.below(20) {
            0 => ([0.0; 3], [1.0, 0.0, 0.0]),
            1 => ([0.0, 0.0, 1.0], [0.0; 3]),
            2 => (self.vector(), self.vector()),
            3 => (self.direction(), self.direction()),
            4..=7 => ([0.0, 0.0, 1.0], [c, s, 0.0]),
            8..=11 => ([s, 0.0, c], [c, 0.0, -s]),
            _ => ([0.0, 0.0, 1.0], [1.0, 0.0, 0.0]),
        };
        let first = self.tables.push_point(self.origin);
        self.tables.push_point(axis);
        self.tables.push_point(ref_dir);
        first
    }

    /// Components up to the part's size.
    fn vector(&mut self) -> Point {
        scaled(self.direction(), self.size)
    }

    /// Components from -1 to 1, in a plane more often than not.
    fn direction(&mut self) -> Point {
        let z = if self.random.percent(60) { 0.0 } else { self.random.between(-1.0, 1.0) };
        [self.random.between(-1.0, 1.0), self.random.between(-1.0, 1.0), z]
    }

    fn polyline_points(&mut self) -> Vec<Point> {
        let count = self.random.pick(&[0, 1, 2, 3, 3, 4, 4, 5, 6, 8, 8, 13, 20, 30, 60, 150]);
        match self.random.below(14) {
            0 => self.straight(count),
            1 => self.with_repeats(count),
            2..=3 => self.turning(count, 0.0),
            4 => self.turning(count, 0.3),
            5 => self.walk(count),
            6 => self.spikes(count),
            7..=8 => self.closed(count),
            9 => vec![self.origin; count],
            10..=11 => self.units_in_the_last_place(),
            12 => self.clustered(count),
            _ => self.there_and_back(count),
        }
    }

    fn straight(&mut self, count: usize) -> Vec<Point> {
        let step = self.vector();
        (0..count).map(|i| add(self.origin, scaled(step, i as f64))).collect()
    }

    fn with_repeats(&mut self, count: usize) -> Vec<Point> {
        let mut points = self.walk(count);
        for i in 1..points.len() {
            if self.random.percent(40) {
                points[i] = points[i - 1];
            }
        }
        points
    }

    /// Samples of an arc, or of a spiral where the radius grows by `growth` a step.
    fn turning(&mut self, count: usize, growth: f64) -> Vec<Point> {
        let step = self.random.pick(&[0.01, 0.1, 0.5, 1.0, 2.0]);
        (0..count)
            .map(|i| {
                let radius = self.size * (1.0 + growth * i as f64);
                let angle = step * i as f64;
                add(self.origin, [radius * cos(angle), radius * sin(angle), 0.0])
            })
            .collect()
    }

    fn walk(&mut self, count: usize) -> Vec<Point> {
        let mut at = self.origin;
        (0..count)
            .map(|_| {
                let step = self.vector();
                at = add(at, step);
                at
            })
            .collect()
    }

    /// A straight run with points far out to the side.
    fn spikes(&mut self, count: usize) -> Vec<Point> {
        let mut points = self.straight(count);
        for p in &mut points {
            if self.random.percent(30) {
                p[1] += self.size * self.random.decade(-3, 2);
            }
        }
        points
    }

    /// Closed to the bit, to less than 1e-10 or to a little more.
    fn closed(&mut self, count: usize) -> Vec<Point> {
        let mut points = self.turning(count.max(1), 0.0);
        let gap = self.random.pick(&[0.0, 0.0, 0.0, 0.0, 5e-11, 1e-10, 2e-10]);
        points.push(add(points[0], [gap, 0.0, 0.0]));
        points
    }

    /// Points that differ by a few units in the last place: distances and turns that rounding makes.
    pub fn units_in_the_last_place(&mut self) -> Vec<Point> {
        let far: f64 = self.random.pick(&[6e8, 1e6, 1.0, 3e8]);
        let unit = f64::from_bits(far.to_bits() + 1) - far;
        let count = 3 + self.random.below(4);
        let mut steps = [0.0, 0.0];
        (0..count)
            .map(|_| {
                let p = [far + steps[0] * unit, far + steps[1] * unit, 0.0];
                steps[0] += self.random.below(12) as f64 - 1.0;
                steps[1] += self.random.below(4) as f64;
                p
            })
            .collect()
    }

    /// Pairs and triples of points far closer together than the steps between them.
    fn clustered(&mut self, count: usize) -> Vec<Point> {
        let close = self.random.decade(-7, -1);
        let mut points = self.walk(count);
        for i in 1..points.len() {
            if self.random.percent(60) {
                points[i] = add(points[i - 1], scaled(self.vector(), close));
            }
        }
        points
    }

    fn there_and_back(&mut self, count: usize) -> Vec<Point> {
        let mut points = self.walk(count);
        let back: Vec<Point> = points.iter().rev().copied().collect();
        points.extend(back);
        points
    }
}
