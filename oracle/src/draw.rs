//! Drawing one edge: the causes, the published road, and what both buffers hold afterwards.

use crate::causes::cause;
use crate::tables::{Edge, Options, Tables};
use road::asks;
use road::brep::{CurveId, Edge as RoadEdge, Solid, VertexId};
use road::edge::{Chain, Way, discretise_all};
use road::math::{Aabb, Interval, Vec3};
use road::mode::Mode;
use road::options::{Options as RoadOptions, Resolved};

/// Floats of a point in a chain buffer: x y z t.
pub const WIDTH: usize = 4;
const MOST_ROOM: usize = 16_384;

/// The answer: a refusal's number, or how the chain was got and how many points it has.
#[derive(Debug, Clone, Copy, PartialEq, Eq)]
pub enum Drawn {
    Refused(u32),
    Chain(Way, usize),
}

/// Draws an edge into one of two lent buffers, as the published Rust does.
pub fn draw(
    tables: &Tables,
    edge: &Edge,
    options: &Options,
    first: &mut [f64],
    second: &mut [f64],
) -> Drawn {
    draw_in(tables, edge, options, Mode::Reference, first, second)
}

/// Draws an edge into one of two lent buffers, in a mode.
///
/// Causes 1 to 7 leave both as they were, 8, 9 and 11 leave them all +0.0. A chain starts its buffer, the
/// first if kept as first drawn and the second if repair replaced it; every other float is +0.0.
pub fn draw_in(
    tables: &Tables,
    edge: &Edge,
    options: &Options,
    mode: Mode,
    first: &mut [f64],
    second: &mut [f64],
) -> Drawn {
    if let Some(number) = cause(tables, edge, options, first.len(), second.len()) {
        return Drawn::Refused(number);
    }
    let room = room(first.len(), second.len());
    first.fill(0.0);
    second.fill(0.0);
    match draw_chain(tables, edge, options, mode, room) {
        Err(number) => Drawn::Refused(number),
        Ok(chain) => {
            let buffer = if in_first(chain.way) { first } else { second };
            for (record, (p, &t)) in
                buffer.chunks_exact_mut(WIDTH).zip(chain.points.iter().zip(&chain.params))
            {
                record.copy_from_slice(&[p.x, p.y, p.z, t]);
            }
            Drawn::Chain(chain.way, chain.len())
        }
    }
}

/// Room R: the smallest of 16,384 and the whole fours in either buffer.
pub fn room(first: usize, second: usize) -> usize {
    MOST_ROOM.min(first / WIDTH).min(second / WIDTH)
}

/// Whether a chain got this way lies in the first buffer.
pub fn in_first(way: Way) -> bool {
    matches!(way, Way::AsDrawn | Way::ChordForWantOfARange)
}

/// The chain of an edge to which none of causes 1 to 7 applies.
pub fn draw_chain(
    tables: &Tables,
    edge: &Edge,
    options: &Options,
    mode: Mode,
    room: usize,
) -> Result<Chain, u32> {
    let solid = solid(tables, edge);
    let chains = road(&solid, &resolved(options), mode, &reference(tables, edge), room)?;
    let chain = chains.into_iter().next().expect("the solid has one edge");
    Ok(with_made_nans(chain))
}

/// The published road, with cause 11: of 8, 9 and 11 the first that it meets.
pub fn road(
    solid: &Solid,
    options: &Resolved,
    mode: Mode,
    reference: &Aabb,
    room: usize,
) -> Result<Vec<Chain>, u32> {
    asks::drawing(|| discretise_all(solid, options, reference, room, mode))
}

/// A solid with the edge's two vertices, its curve and itself.
pub fn solid(tables: &Tables, edge: &Edge) -> Solid {
    Solid {
        vertices: vec![tables.point(edge.start), tables.point(edge.end)],
        curves: vec![tables.curve(edge.curve)],
        edges: vec![RoadEdge {
            start: VertexId(0),
            end: VertexId(1),
            curve: CurveId(0),
            same_sense: edge.sense == 1,
            range: Interval::new(edge.lo, edge.hi),
            tolerance: edge.tolerance,
        }],
        ..Solid::default()
    }
}

/// The caller's box, as it is.
pub fn reference(tables: &Tables, edge: &Edge) -> Aabb {
    Aabb { min: tables.point(edge.low), max: tables.point(edge.high) }
}

pub fn resolved(options: &Options) -> Resolved {
    RoadOptions {
        linear_deflection: options.deflection,
        angular_deflection: options.angle,
        relative: options.relative == 1,
        min_edge_segments: options.segments as usize,
        max_depth: options.depth,
        ..RoadOptions::default()
    }
    .resolve(options.scale)
}

/// The two chords copy the edge's lo and hi, a NaN with its bits; any other NaN an operation made.
fn with_made_nans(mut chain: Chain) -> Chain {
    for p in &mut chain.points {
        *p = Vec3::new(made(p.x), made(p.y), made(p.z));
    }
    if !matches!(chain.way, Way::ChordForWantOfARange | Way::RunawayChord) {
        chain.params.iter_mut().for_each(|t| *t = made(*t));
    }
    chain
}

/// A float that an operation gave: its NaN counts as 7ff8000000000000.
pub fn made(x: f64) -> f64 {
    if x.is_nan() { f64::from_bits(0x7ff8000000000000) } else { x }
}
