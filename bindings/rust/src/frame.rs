//! Directions made unit and frames made square, which the library takes as they are handed.
use crate::part::PartError;

/// How near a ref_dir may come to its axis, as the sine of the angle between them: below it, what is left beside the axis is
/// mostly rounding.
const LEAST_SINE: f64 = 1e-9;

/// The axis and ref_dir of a frame: the axis made unit, ref_dir made perpendicular to it and unit.
pub(crate) fn square(axis: [f64; 3], ref_dir: [f64; 3]) -> Result<[[f64; 3]; 2], PartError> {
    let (axis, along) = (unit(axis)?, unit(ref_dir)?);
    let beside = without(along, axis);
    if dot(beside, beside).sqrt() < LEAST_SINE {
        return Err(PartError::Parallel);
    }
    // Twice, since the first leaves more along the axis the shorter it is.
    Ok([axis, unit(without(unit(beside)?, axis))?])
}

/// Refuses a direction that has no length or is not finite.
pub(crate) fn directed(v: [f64; 3]) -> Result<[f64; 3], PartError> {
    unit(v).map(|_| v)
}

fn unit(v: [f64; 3]) -> Result<[f64; 3], PartError> {
    let most = v.iter().fold(0.0, |most: f64, x| most.max(x.abs()));
    if most == 0.0 || !v.iter().all(|x| x.is_finite()) {
        return Err(PartError::NoDirection);
    }
    // Scaled first, so that no square is too large or too small to have a root.
    let scaled = v.map(|x| x / most);
    let length = dot(scaled, scaled).sqrt();
    Ok(scaled.map(|x| x / length))
}

/// What is left of v beside a unit axis.
fn without(v: [f64; 3], axis: [f64; 3]) -> [f64; 3] {
    let height = dot(v, axis);
    [0, 1, 2].map(|i| v[i] - height * axis[i])
}

fn dot(a: [f64; 3], b: [f64; 3]) -> f64 {
    a[0] * b[0] + a[1] * b[1] + a[2] * b[2]
}
