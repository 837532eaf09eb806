//! How far a point lies from a chord, and from which place on the chord that is measured.
use crate::raw;

/// What [`measure_for_thinning`] and [`measure_for_bisection`] say of a point p and the chord from a to b: numbers that drawing
/// itself works with, bit for bit.
///
/// Any floats may be measured. Where none is NaN or beyond 1e150 in magnitude, both are finite; else both may be NaN, and the
/// distance infinite.
///
/// Who wants the very numbers of a drawing hands over what it measured: breaks and spans are measured on the curve, in the order
/// of its parameters, while a chain's ends are the vertices, and it may run against its curve; a polyline's points are measured
/// on the chain.
///
/// ```
/// use cornsunset::{measure_for_thinning, Walk};
/// // The start, the middle and the end of a chain.
/// let floats = [0., 0., 0., 0., 2., 3., 0., 1., 8., 0., 0., 2.];
/// let chain: Vec<_> = Walk::new(&floats, true).collect();
/// let [a, p, b] = [0, 1, 2].map(|i| chain[i].position());
/// let measured = measure_for_thinning(a, b, p);
/// assert_eq!((measured.distance, measured.place), (3.0, 0.25));
/// // Where that was measured from, with the bits of drawing itself.
/// let foot = [0, 1, 2].map(|i| a[i] + (b[i] - a[i]) * measured.place);
/// assert_eq!(foot, [2.0, 0.0, 0.0]);
/// ```
#[derive(Debug, Clone, Copy, PartialEq)]
#[non_exhaustive]
pub struct Measured {
    /// From p to the place on the chord, or to a where the chord has no length.
    pub distance: f64,
    /// Where the foot of the perpendicular from p lies, held to the chord: it counts from 0 at a to 1 at b, and is +0.0 where the
    /// chord has no length. If it is a number it lies in 0..=1, and it may be -0.0. The foot is
    /// `a[i] + (b[i] - a[i]) * place` for each coordinate.
    pub place: f64,
}

/// Measures as thinning does a composite's breaks and a polyline's points: the chord has a length where its square, the sum of
/// x x, y y and z z of b - a, is above zero, and the place is worked out by dividing by that square.
///
/// ```
/// use cornsunset::measure_for_thinning;
/// let (a, b) = ([0.0; 3], [4.0, 0.0, 0.0]);
/// let beyond = measure_for_thinning(a, b, [7.0, 0.0, 4.0]);
/// assert_eq!((beyond.distance, beyond.place), (5.0, 1.0));
/// let without_length = measure_for_thinning(a, a, b);
/// assert_eq!((without_length.distance, without_length.place), (4.0, 0.0));
/// ```
pub fn measure_for_thinning(a: [f64; 3], b: [f64; 3], p: [f64; 3]) -> Measured {
    measured(raw::cs_flat_measure_for_thinning, a, b, p)
}

/// Measures as bisection does a span's sag, from the curve's points at the span's ends, in the order of their parameters, to p,
/// that at its middle parameter: the chord has a length where the root of its square is above 1e-300, and the divisor is the
/// root times itself, so that last bits may differ from [`measure_for_thinning`].
///
/// ```
/// # use cornsunset::{measure_for_bisection, Angle, Options, Part};
/// # let mut part = Part::new([0.0, -4.0, 0.0], [2.0, 4.0, 0.0]);
/// let dish = part.parabola([0.0; 3], [0.0, 0.0, 1.0], [1.0, 0.0, 0.0], 2.0)?;
/// let (rim, other) = ([2.0, -4.0, 0.0], [2.0, 4.0, 0.0]);
/// # let (start, end) = (part.point(rim), part.point(other));
/// let profile = part.edge(dish, start, end, -1.0..1.0);
/// let sag = measure_for_bisection(rim, other, [0.0; 3]).distance;
/// # let part = part.check()?;
/// // With this sag allowed the profile is not halved, and with less it is.
/// # let angle = Angle::degrees(180.0);
/// let options = Options { deflection: sag, relative: 0, angle, ..Options::default() };
/// assert_eq!(part.draw(&profile, &options)?.len(), 2);
/// let options = Options { deflection: 0.999 * sag, ..options };
/// assert!(part.draw(&profile, &options)?.len() > 2);
/// # Ok::<(), Box<dyn std::error::Error>>(())
/// ```
pub fn measure_for_bisection(a: [f64; 3], b: [f64; 3], p: [f64; 3]) -> Measured {
    measured(raw::cs_flat_measure_for_bisection, a, b, p)
}

fn measured(measure: raw::Measure, a: [f64; 3], b: [f64; 3], p: [f64; 3]) -> Measured {
    let mut place = 0.0;
    // SAFETY: three arrays are lent for the call, and a value of its own to write.
    let distance = unsafe { measure(&a, &b, &p, &mut place) };
    Measured { distance, place }
}
