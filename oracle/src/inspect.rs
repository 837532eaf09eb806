//! Single modules asked alone: the edge's curve at given parameters, options at given extents.

use crate::causes::cause;
use crate::draw::{made, resolved, room, solid};
use crate::sheet::{LENT, Sheet, float, hex, options, read, refusal};
use road::asks::farthest;
use road::brep::{Curve, Edge};
use road::edge::{edge_extent, sample_params, usable_range};
use road::knots::{curve_breaks, thin_breaks};
use road::math::{Interval, Vec3};
use road::mode::Mode;
use road::options::{Options, Resolved};
use std::fmt::Write;

/// The edge's curve and its sampling, then its point, derivative and tangent at each parameter.
pub fn eval(bytes: &[u8], parameters: &str) -> String {
    let Some(sheet) = read(bytes) else {
        return refusal(10);
    };
    if let Some(number) = cause(&sheet.tables.lent(), &sheet.edge, &sheet.options, 8, 8) {
        return refusal(number);
    }
    farthest(); // what was asked before
    let (mut text, curve) = sampling(&sheet);
    for line in parameters.lines() {
        text += &float(line).map_or("?\n".to_string(), |t| at(&curve, t));
    }
    text
}

fn sampling(sheet: &Sheet) -> (String, Curve) {
    let mut solid = solid(&sheet.tables.lent(), &sheet.edge);
    let edge: Edge = solid.edges[0].clone();
    let extent = edge_extent(&solid, &edge);
    let options = resolved(&sheet.options).for_extent(extent);
    let curve = solid.curves.remove(0);
    let natural = curve.natural_range();
    let mut text = String::new();
    writeln!(text, "natural {}", bits(&[natural.lo, natural.hi])).unwrap();
    writeln!(text, "closed {}", u8::from(curve.is_closed())).unwrap();
    writeln!(text, "period {}", maybe(curve.period().map(|p| vec![p]))).unwrap();
    writeln!(text, "extent {}", bits(&[extent])).unwrap();
    writeln!(text, "sag {}", bits(&[options.sag])).unwrap();
    let usable = usable_range(&curve, edge.range);
    writeln!(text, "usable {}", maybe(usable.map(|r| vec![r.lo, r.hi]))).unwrap();
    if let Some(range) = usable {
        text += &samples(&curve, range, &options);
    }
    (text, curve)
}

/// A line where a hyperbola was asked for a parameter beyond the limit, since this was last called.
fn beyond() -> String {
    farthest().map_or(String::new(), |t| format!("beyond {}\n", bits(&[t])))
}

/// The breaks inside a range, those that thinning keeps, and the parameters sampled.
fn samples(curve: &Curve, range: Interval, options: &Resolved) -> String {
    let breaks = curve_breaks(curve, range.lo, range.hi, Mode::Reference);
    let kept = thin_breaks(&breaks, range.lo, range.hi, options.sag, &|t| curve.point_at(t));
    let asked = beyond();
    let room = room(LENT, LENT);
    let sampled = match sample_params(curve, range, options, room, Mode::Reference) {
        Ok(params) => list(&params),
        Err(number) => format!("refusal {number}"),
    };
    farthest(); // sampling is told of by its list alone
    format!("breaks {}\nkept {}\n{asked}sampled {sampled}\n", list(&breaks), list(&kept))
}

fn at(curve: &Curve, t: f64) -> String {
    let vector = |v: Vec3| v.to_array().to_vec();
    let values = format!(
        "at {}\npoint {}\nderivative {}\ntangent {}\n",
        hex(&[t]),
        bits(&vector(curve.point_at(t))),
        bits(&vector(curve.derivative_at(t))),
        maybe(curve.tangent_at(t).map(vector))
    );
    values + &beyond()
}

/// The first line holds options as a sheet does, or a preset's name; each other an extent, a radius and an arc's total, or
/// an angle in degrees.
pub fn resolve(text: &str) -> String {
    let mut lines = text.lines();
    let Some(resolved) = lines.next().and_then(begun) else {
        return "?\n".to_string();
    };
    let Resolved { sag, model, relative, angle, min_edge_segments, max_depth, .. } = resolved;
    let floats = bits(&[sag, model, relative, angle]);
    let mut answer = format!("{floats} {min_edge_segments} {max_depth}\n");
    for line in lines {
        answer += &arc(&resolved, line).or_else(|| degrees(line)).unwrap_or("?\n".to_string());
    }
    answer
}

/// The options of a first line, resolved; a preset has no scale.
fn begun(line: &str) -> Option<Resolved> {
    match line {
        "default" => Some(Options::default().resolve(0.0)),
        "draft" => Some(Options::draft().resolve(0.0)),
        "fine" => Some(Options::fine().resolve(0.0)),
        _ => options(line).map(|o| resolved(&o)),
    }
}

/// An angle in degrees: as radians, and 1 where resolving changes those, else 0.
fn degrees(line: &str) -> Option<String> {
    let angle = float(line.strip_prefix("degrees ")?)?.to_radians();
    let options = Options { angular_deflection: angle, ..Options::default() };
    let clamped = bits(&[options.resolve(0.0).angle]) != bits(&[angle]);
    Some(format!("{} {}\n", bits(&[angle]), clamped as u32))
}

/// The sag at an extent, and there the step and the segments of an arc.
fn arc(resolved: &Resolved, line: &str) -> Option<String> {
    let fields = line.split(' ').map(float).collect::<Option<Vec<f64>>>()?;
    let [extent, radius, total] = fields.try_into().ok()?;
    let local = resolved.for_extent(extent);
    let step = local.angle_step_for_radius(radius);
    let segments = local.segments_for_arc(radius, total);
    Some(format!("{} {segments}\n", bits(&[local.sag, step])))
}

/// Floats by their bits, every NaN as one that an operation made.
fn bits(floats: &[f64]) -> String {
    hex(&floats.iter().map(|x| made(*x)).collect::<Vec<f64>>())
}

/// A count, then that many floats.
fn list(floats: &[f64]) -> String {
    let counted = format!("{} {}", floats.len(), bits(floats));
    counted.trim_end().to_string()
}

fn maybe(floats: Option<Vec<f64>>) -> String {
    floats.map_or("none".to_string(), |floats| bits(&floats))
}
