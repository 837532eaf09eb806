//! Stands for `eval/nurbs.rs`. No table holds a NURBS, so nothing asks these.

const NO_NURBS: &str = "no table holds a NURBS";

pub fn domain(_knots: &[f64], _degree: usize) -> Option<(f64, f64)> {
    unreachable!("{NO_NURBS}")
}

pub fn de_boor_with_derivative(
    _degree: usize,
    _points: &[[f64; 3]],
    _knots: &[f64],
    _t: f64,
) -> ([f64; 3], [f64; 3]) {
    unreachable!("{NO_NURBS}")
}

pub fn to_homogeneous(_points: &[[f64; 3]], _weights: &[f64]) -> Vec<[f64; 4]> {
    unreachable!("{NO_NURBS}")
}

pub fn rational_point_and_derivative(
    _degree: usize,
    _points: &[[f64; 4]],
    _knots: &[f64],
    _t: f64,
) -> ([f64; 3], [f64; 3]) {
    unreachable!("{NO_NURBS}")
}
