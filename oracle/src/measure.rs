//! A point's distance to a chord, and the place on the chord, 0 to 1, at which it was measured.

use crate::batch::split;
use crate::sheet::float;
use road::math::Vec3;

/// Distance and place.
pub type Measured = [f64; 2];

/// The most points of a part `every`.
const MOST_POINTS: usize = 64;

/// As thinning measures, of breaks and of points.
pub fn thinning(a: Vec3, b: Vec3, p: Vec3) -> Measured {
    let axis = b - a;
    let len2 = axis.length_squared();
    if len2 > 0.0 { along(a, axis, p, len2) } else { at_start(a, p) }
}

/// As bisection measures.
pub fn bisection(a: Vec3, b: Vec3, p: Vec3) -> Measured {
    let axis = b - a;
    let len = axis.length();
    if len > 1e-300 { along(a, axis, p, len * len) } else { at_start(a, p) }
}

fn along(a: Vec3, axis: Vec3, p: Vec3, divisor: f64) -> Measured {
    let place = ((p - a).dot(axis) / divisor).clamp(0.0, 1.0);
    [(p - (a + axis * place)).length(), place]
}

/// Where the chord has no length.
fn at_start(a: Vec3, p: Vec3) -> Measured {
    [(p - a).length(), 0.0]
}

fn both(a: Vec3, b: Vec3, p: Vec3) -> [Measured; 2] {
    [thinning(a, b, p), bisection(a, b, p)]
}

/// The answers to parts, each ended by a separator as its part is. A part that none ended has no
/// answer.
pub fn answers(bytes: &[u8]) -> String {
    let mut parts: Vec<&[u8]> = split(bytes).collect();
    parts.pop();
    parts.into_iter().map(|part| answer(part) + "====\n").collect()
}

fn answer(part: &[u8]) -> String {
    let text = String::from_utf8_lossy(part);
    let mut lines = text.split_inclusive('\n');
    let answer = match lines.next() {
        Some("measure\n") => {
            Some(lines.map(|line| measured(line).unwrap_or("?\n".to_string())).collect())
        }
        Some("every\n") => every(&lines.collect::<Vec<_>>()),
        _ => None,
    };
    answer.unwrap_or("?\n".to_string())
}

/// The answer to one line, none where it is malformed.
fn measured(line: &str) -> Option<String> {
    let [ax, ay, az, bx, by, bz, px, py, pz] = floats(line)?;
    let measured = both(Vec3::new(ax, ay, az), Vec3::new(bx, by, bz), Vec3::new(px, py, pz));
    let digits = measured.concat().into_iter().map(|x| format!("{:016x}", plain(x)));
    Some(digits.collect::<Vec<_>>().join(" ") + "\n")
}

/// For each chord from one of the points to one of them, digests over the points.
fn every(lines: &[&str]) -> Option<String> {
    let points = lines
        .iter()
        .map(|line| floats(line).map(|[x, y, z]| Vec3::new(x, y, z)))
        .collect::<Option<Vec<_>>>()?;
    if points.len() > MOST_POINTS {
        return None;
    }
    let mut text = String::new();
    for &a in &points {
        for &b in &points {
            let [first, second] = digests(a, b, &points);
            text += &format!("{first:016x} {second:016x}\n");
        }
    }
    Some(text)
}

fn digests(a: Vec3, b: Vec3, points: &[Vec3]) -> [u64; 2] {
    points.iter().fold([0; 2], |[first, second], p| {
        let [thinned, bisected] = both(a, b, *p);
        [thinned.into_iter().fold(first, mixed), bisected.into_iter().fold(second, mixed)]
    })
}

fn mixed(digest: u64, x: f64) -> u64 {
    (digest.rotate_left(5) ^ plain(x)).wrapping_mul(0x517cc1b727220a95)
}

/// A float's bits, those of any NaN as 7ff8000000000000. The choice is between bits: where it is
/// between floats, rustc 1.95 may let through the sign of the NaN that a root is.
fn plain(x: f64) -> u64 {
    if x.is_nan() { 0x7ff8000000000000 } else { x.to_bits() }
}

/// So many floats, one space between; none where the line has no end.
fn floats<const N: usize>(line: &str) -> Option<[f64; N]> {
    let fields = line.strip_suffix('\n')?.split(' ').map(float).collect::<Option<Vec<f64>>>()?;
    fields.try_into().ok()
}
