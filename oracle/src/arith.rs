//! The fixed arithmetic asked alone: lines `NAME BITS..`, a line of bits for each.

use crate::sheet::float;
use road::steps;

/// The answer to one line: 16 hex digits, or `?` where the line is malformed.
pub fn answer(line: &str) -> String {
    match value(line) {
        Some(x) if x.is_nan() => "7ff8000000000000".to_string(),
        Some(x) => format!("{:016x}", x.to_bits()),
        None => "?".to_string(),
    }
}

fn value(line: &str) -> Option<f64> {
    let mut fields = line.split(' ');
    let name = fields.next()?;
    let operands = fields.map(float).collect::<Option<Vec<f64>>>()?;
    match (name, &operands[..]) {
        ("root", &[x]) => Some(x.sqrt()),
        ("sin", &[x]) => Some(steps::sin(x)),
        ("cos", &[x]) => Some(steps::cos(x)),
        ("acos", &[x]) => Some(steps::acos(x)),
        ("exp", &[x]) => Some(steps::exp(x)),
        ("cosh", &[x]) => Some(steps::cosh(x)),
        ("sinh", &[x]) => Some(steps::sinh(x)),
        ("floor", &[x]) => Some(x.floor()),
        ("ceil", &[x]) => Some(x.ceil()),
        ("abs", &[x]) => Some(x.abs()),
        ("min", &[a, b]) => Some(steps::min(a, b)),
        ("max", &[a, b]) => Some(steps::max(a, b)),
        ("clamp", &[x, lower, upper]) => Some(clamp(x, lower, upper)),
        _ => None,
    }
}

/// Rust's own clamp panics unless lower <= upper; there the scope's words decide, below first.
fn clamp(x: f64, lower: f64, upper: f64) -> f64 {
    if lower <= upper {
        x.clamp(lower, upper)
    } else if x < lower {
        lower
    } else if x > upper {
        upper
    } else {
        x
    }
}
