//! A perforated plate: an outline with rounded corners and a grid of holes, summed to the length that a cutter runs.
//! bindings/c/plate.c draws the same plate and prints the same.
use cornsunset::{Angle, CheckedPart, Edge, Options, Part, PartError, Refusal, Row};
use std::error::Error;

const COLUMNS: u32 = 12;
const ROWS: u32 = 7;

/// Millimetres.
const LENGTH: f64 = 400.0;
const BREADTH: f64 = 250.0;
const CORNER: f64 = 12.0;
const HOLE: f64 = 5.0;
const MARGIN: f64 = 35.0;
const PITCH: f64 = 30.0;

/// A straight edge.
fn side(part: &mut Part, [x0, y0]: [f64; 2], [x1, y1]: [f64; 2]) -> Result<Edge, PartError> {
    let line = part.line([x0, y0, 0.0], [x1 - x0, y1 - y0, 0.0])?;
    let (start, end) = (part.point([x0, y0, 0.0]), part.point([x1, y1, 0.0]));
    Ok(part.edge(line, start, end, 0.0..1.0))
}

fn circle(part: &mut Part, [x, y]: [f64; 2], radius: f64) -> Result<Row<Angle>, PartError> {
    part.circle([x, y, 0.0], [0.0, 0.0, 1.0], [1.0, 0.0, 0.0], radius)
}

/// The quarter of a corner, from so many degrees on.
fn corner(part: &mut Part, centre: [f64; 2], degrees: f64, [start, end]: [[f64; 2]; 2]) -> Result<Edge, PartError> {
    let circle = circle(part, centre, CORNER)?;
    let [start, end] = [start, end].map(|[x, y]| part.point([x, y, 0.0]));
    Ok(part.edge(circle, start, end, Angle::degrees(degrees)..Angle::degrees(degrees + 90.0)))
}

fn hole(part: &mut Part, [x, y]: [f64; 2]) -> Result<Edge, PartError> {
    let circle = circle(part, [x, y], HOLE)?;
    let vertex = part.point([x + HOLE, y, 0.0]);
    Ok(part.edge(circle, vertex, vertex, Angle::ZERO..Angle::FULL_TURN))
}

/// Each corner and the side that leads on to the next.
fn outline(part: &mut Part) -> Result<Vec<Edge>, PartError> {
    let (l, b, r) = (LENGTH, BREADTH, CORNER);
    let starts = [[l - r, 0.0], [l, b - r], [r, b], [0.0, r]];
    let ends = [[l, r], [l - r, b], [0.0, b - r], [r, 0.0]];
    let centres = [[l - r, r], [l - r, b - r], [r, b - r], [r, r]];
    let mut edges = Vec::new();
    for i in 0..4 {
        edges.push(corner(part, centres[i], 270.0 + 90.0 * i as f64, [starts[i], ends[i]])?);
        edges.push(side(part, ends[i], starts[(i + 1) % 4])?);
    }
    Ok(edges)
}

fn holes(part: &mut Part) -> Result<Vec<Edge>, PartError> {
    let places = (0..ROWS).flat_map(|j| (0..COLUMNS).map(move |i| [i, j]));
    places.map(|place| hole(part, place.map(|n| MARGIN + PITCH * f64::from(n)))).collect()
}

/// The length of these edges, and a line about them.
fn cut(part: &CheckedPart, name: &str, edges: &[Edge], options: &Options) -> Result<f64, Refusal> {
    let (mut length, mut points) = (0.0, 0);
    for edge in edges {
        let chain = part.draw(edge, options)?;
        length += chain.length();
        points += chain.len();
    }
    println!("{name}: {} edges, {points} points, {length:.9} mm", edges.len());
    Ok(length)
}

fn main() -> Result<(), Box<dyn Error>> {
    let mut part = Part::new([0.0; 3], [LENGTH, BREADTH, 0.0]);
    let (outline, holes) = (outline(&mut part)?, holes(&mut part)?);
    let part = part.check()?;

    let scale = (LENGTH * LENGTH + BREADTH * BREADTH).sqrt();
    let options = Options { scale, ..Options::default() };
    let total = cut(&part, "outline", &outline, &options)? + cut(&part, "holes", &holes, &options)?;
    let turn = Angle::FULL_TURN.to_radians();
    let truth = 2.0 * (LENGTH + BREADTH - 4.0 * CORNER) + turn * CORNER + f64::from(COLUMNS * ROWS) * turn * HOLE;
    let short = 100.0 * (truth - total) / truth;
    println!("cut length: {total:.9} mm, {short:.3} % under the true {truth:.9} mm");
    Ok(())
}
