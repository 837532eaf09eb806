//! The tables, the edge and the options as the scope lends them.

use road::brep::{CompositeSegment, Curve};
use road::math::{Frame, Interval, Vec3};
use std::sync::Arc;

pub const LINE: u32 = 1;
pub const CIRCLE: u32 = 2;
pub const ELLIPSE: u32 = 3;
pub const PARABOLA: u32 = 4;
pub const POLYLINE: u32 = 5;
pub const TRIMMED: u32 = 6;
pub const COMPOSITE: u32 = 7;
pub const HYPERBOLA: u32 = 8;

/// The kinds' words, kind 1 first.
pub const KIND_WORDS: [&str; 8] =
    ["line", "circle", "ellipse", "parabola", "polyline", "trimmed", "composite", "hyperbola"];

/// Points, curve rows and segments as five lent slices.
#[derive(Debug, Clone, Copy)]
pub struct Tables<'a> {
    /// x y z of each point.
    pub points: &'a [f64],
    /// kind first count of each curve row.
    pub curves: &'a [u32],
    /// p q of each curve row.
    pub reals: &'a [f64],
    /// curve sense of each segment.
    pub parts: &'a [u32],
    /// lo hi of each segment.
    pub ranges: &'a [f64],
}

/// The same five slices, owned.
#[derive(Debug, Clone, Default)]
pub struct OwnedTables {
    pub points: Vec<f64>,
    pub curves: Vec<u32>,
    pub reals: Vec<f64>,
    pub parts: Vec<u32>,
    pub ranges: Vec<f64>,
}

#[derive(Debug, Clone, Copy)]
pub struct Edge {
    pub curve: u32,
    pub start: u32,
    pub end: u32,
    pub sense: u32,
    pub lo: f64,
    pub hi: f64,
    pub tolerance: f64,
    pub low: u32,
    pub high: u32,
}

#[derive(Debug, Clone, Copy)]
pub struct Options {
    pub deflection: f64,
    pub angle: f64,
    pub relative: u32,
    pub segments: u64,
    pub depth: u32,
    pub scale: f64,
}

/// A curve row's numbers.
#[derive(Debug, Clone, Copy)]
pub struct Row {
    pub kind: u32,
    pub first: u32,
    pub count: u32,
    pub p: f64,
    pub q: f64,
}

/// A segment's numbers.
#[derive(Debug, Clone, Copy)]
pub struct Segment {
    pub curve: u32,
    pub lo: f64,
    pub hi: f64,
    pub sense: u32,
}

impl OwnedTables {
    pub fn lent(&self) -> Tables<'_> {
        Tables {
            points: &self.points,
            curves: &self.curves,
            reals: &self.reals,
            parts: &self.parts,
            ranges: &self.ranges,
        }
    }

    pub fn push_point(&mut self, p: [f64; 3]) -> u32 {
        self.points.extend(p);
        self.lent().point_count() as u32 - 1
    }

    pub fn push_row(&mut self, row: Row) -> u32 {
        self.curves.extend([row.kind, row.first, row.count]);
        self.reals.extend([row.p, row.q]);
        self.lent().row_count() as u32 - 1
    }

    pub fn push_segment(&mut self, segment: Segment) {
        self.parts.extend([segment.curve, segment.sense]);
        self.ranges.extend([segment.lo, segment.hi]);
    }
}

impl<'a> Tables<'a> {
    pub fn point_count(&self) -> usize {
        self.points.len() / 3
    }

    pub fn row_count(&self) -> usize {
        self.curves.len() / 3
    }

    pub fn segment_count(&self) -> usize {
        self.parts.len() / 2
    }

    pub fn point(&self, i: u32) -> Vec3 {
        Vec3::from_slice(&self.points[3 * i as usize..])
    }

    pub fn row(&self, i: usize) -> Row {
        Row {
            kind: self.curves[3 * i],
            first: self.curves[3 * i + 1],
            count: self.curves[3 * i + 2],
            p: self.reals[2 * i],
            q: self.reals[2 * i + 1],
        }
    }

    pub fn segment(&self, i: usize) -> Segment {
        Segment {
            curve: self.parts[2 * i],
            lo: self.ranges[2 * i],
            hi: self.ranges[2 * i + 1],
            sense: self.parts[2 * i + 1],
        }
    }

    pub fn rows(&self) -> impl Iterator<Item = Row> + use<'a> {
        let tables = *self;
        (0..tables.row_count()).map(move |i| tables.row(i))
    }

    pub fn segments(&self) -> impl Iterator<Item = Segment> + use<'a> {
        let tables = *self;
        (0..tables.segment_count()).map(move |i| tables.segment(i))
    }

    /// The Rust's curve that a row stands for. The tables have passed causes 1 to 5.
    pub fn curve(&self, row: u32) -> Curve {
        let mut known = vec![None; row as usize];
        self.curve_of(row, &mut known)
    }

    /// A lower row, built once however many rows share it.
    fn shared(&self, row: u32, known: &mut [Option<Arc<Curve>>]) -> Arc<Curve> {
        if let Some(curve) = &known[row as usize] {
            return curve.clone();
        }
        let curve = Arc::new(self.curve_of(row, known));
        known[row as usize] = Some(curve.clone());
        curve
    }

    fn curve_of(&self, row: u32, known: &mut [Option<Arc<Curve>>]) -> Curve {
        let Row { kind, first, count, p, q } = self.row(row as usize);
        match kind {
            LINE => Curve::Line { origin: self.point(first), direction: self.point(first + 1) },
            CIRCLE => Curve::Circle { frame: self.frame(first), radius: p },
            ELLIPSE => Curve::Ellipse { frame: self.frame(first), semi_major: p, semi_minor: q },
            PARABOLA => Curve::Parabola { frame: self.frame(first), focal_dist: p },
            POLYLINE => {
                Curve::Polyline { points: (first..first + count).map(|i| self.point(i)).collect() }
            }
            TRIMMED => {
                Curve::Trimmed { base: self.shared(first, known), range: Interval::new(p, q) }
            }
            COMPOSITE => Curve::Composite {
                segments: (first..first + count)
                    .map(|i| self.composite_segment(i as usize, known))
                    .collect(),
            },
            _ => Curve::Hyperbola { frame: self.frame(first), semi_major: p, semi_minor: q },
        }
    }

    fn composite_segment(&self, i: usize, known: &mut [Option<Arc<Curve>>]) -> CompositeSegment {
        let segment = self.segment(i);
        CompositeSegment {
            curve: self.shared(segment.curve, known),
            range: Interval::new(segment.lo, segment.hi),
            same_sense: segment.sense == 1,
        }
    }

    /// The row's own three vectors, as they are.
    fn frame(&self, first: u32) -> Frame {
        Frame {
            origin: self.point(first),
            axis: self.point(first + 1),
            ref_dir: self.point(first + 2),
        }
    }
}
