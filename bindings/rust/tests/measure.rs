//! Measures of a point and a chord: beside it, beyond its ends, without a length, of any floats, and that drawing works with them.
use cornsunset::{measure_for_bisection, measure_for_thinning, Angle, Edge, Measured, Options, Part, Segment};
use std::f64::consts::PI;

type Vector = [f64; 3];

const O: Vector = [0.0; 3];
const BOTH: [fn(Vector, Vector, Vector) -> Measured; 2] = [measure_for_thinning, measure_for_bisection];

/// Distance and place by their bits.
fn bits(measured: Measured) -> [u64; 2] {
    [measured.distance, measured.place].map(f64::to_bits)
}

/// That both measures are these two numbers, by their bits.
fn both_are(a: Vector, b: Vector, p: Vector, distance: f64, place: f64) {
    for measure in BOTH {
        assert_eq!(bits(measure(a, b, p)), [distance, place].map(f64::to_bits), "{a:?} {b:?} {p:?}");
    }
}

/// The next float nearer to zero.
fn below(x: f64) -> f64 {
    f64::from_bits(x.to_bits() - 1)
}

#[test]
fn the_place_is_held_to_the_chord() {
    let b = [8.0, 0.0, 0.0];
    for (p, distance, place) in
        [([2.0, 3.0, 0.0], 3.0, 0.25), ([-3.0, 4.0, 0.0], 5.0, 0.0), ([11.0, 0.0, 4.0], 5.0, 1.0), (b, 0.0, 1.0)]
    {
        both_are(O, b, p, distance, place);
        both_are(b, O, p, distance, 1.0 - place);
    }
}

#[test]
fn the_place_may_be_negative_zero() {
    let falling = [-1.0, -2.0, -2.0];
    both_are(O, falling, O, 0.0, -0.0);
    both_are(O, falling, falling, 0.0, 1.0);
    both_are(O, falling, [1.0, 2.0, 2.0], 3.0, 0.0);
}

#[test]
fn without_a_length_the_distance_is_from_the_start_and_the_place_zero() {
    let p = [0.0, -3.0, -4.0];
    // The same point, zeros of other signs, and squares that vanish.
    for b in [O, [-0.0, 0.0, -0.0], [-0.0; 3], [1e-170, 0.0, 0.0]] {
        both_are(O, b, p, 5.0, 0.0);
        both_are(b, O, p, 5.0, 0.0);
    }
    both_are(p, p, O, 5.0, 0.0);
    both_are(p, p, p, 0.0, 0.0);
}

#[test]
fn the_two_differ_in_their_last_bits() {
    let (b, p) = ([1.0, 0.0, 2.0], [1.0; 3]);
    assert_eq!(bits(measure_for_thinning(O, b, p)), [1.0954451150103324, 0.6].map(f64::to_bits));
    assert_eq!(bits(measure_for_bisection(O, b, p)), [1.0954451150103321, 0.5999999999999999].map(f64::to_bits));
}

/// Bits by lot.
struct Lot(u64);

impl Lot {
    fn bits(&mut self) -> u64 {
        self.0 ^= self.0 << 13;
        self.0 ^= self.0 >> 7;
        self.0 ^= self.0 << 17;
        self.0
    }

    fn below(&mut self, n: u64) -> i32 {
        (self.bits() % n) as i32
    }

    /// Below 2 to this power in magnitude.
    fn float(&mut self, power: i32) -> f64 {
        (self.bits() as i64) as f64 * 2f64.powi(power - 63)
    }
}

#[test]
fn a_place_that_is_a_number_lies_on_the_chord() {
    let mut lot = Lot(2026);
    let mut numbers = 0;
    for _ in 0..8_000 {
        let [a, b, p] = [0; 3].map(|_| [0; 3].map(|_| f64::from_bits(lot.bits())));
        for measure in BOTH {
            let place = measure(a, b, p).place;
            assert!(place.is_nan() || (0.0..=1.0).contains(&place), "{a:?} {b:?} {p:?}");
            numbers += u32::from(!place.is_nan());
        }
    }
    assert!(numbers > 1_000, "{numbers}");
    // NaN passes; a chord that has NaN has no length.
    let (endless, lost, beside) = ([f64::INFINITY, 0.0, 0.0], [f64::NAN, 0.0, 0.0], [0.0, 3.0, 4.0]);
    for measure in BOTH {
        assert!(measure(O, endless, beside).place.is_nan() && measure(O, beside, lost).place.is_nan());
    }
    both_are(O, lost, beside, 5.0, 0.0);
    // Each coordinate NaN, infinite or the largest.
    for i in 0..9 {
        for odd in [f64::NAN, f64::INFINITY, -f64::INFINITY, f64::MAX] {
            let mut floats = [0.0, 1.0, 2.0, 3.0, 4.0, 5.0, 6.0, 7.0, 8.0];
            floats[i] = odd;
            let [a, b, p] = [0, 3, 6].map(|k| [floats[k], floats[k + 1], floats[k + 2]]);
            for measure in BOTH {
                let place = measure(a, b, p).place;
                assert!(place.is_nan() || (0.0..=1.0).contains(&place), "{a:?} {b:?} {p:?}");
            }
        }
    }
}

#[test]
fn the_distance_is_measured_from_the_foot() {
    let mut lot = Lot(2027);
    for n in 0..8_000 {
        // Of one magnitude, but for some binades.
        let (power, more) = (lot.below(800) - 400, if n % 2 == 0 { 1 } else { 60 });
        let [a, b, p] = [0; 3].map(|_| {
            [0; 3].map(|_| {
                let power = power + lot.below(more);
                lot.float(power)
            })
        });
        for measure in BOTH {
            let Measured { distance, place, .. } = measure(a, b, p);
            assert!((0.0..=1.0).contains(&place), "{a:?} {b:?} {p:?}");
            let [x, y, z] = [0, 1, 2].map(|i| p[i] - (a[i] + (b[i] - a[i]) * place));
            assert_eq!(distance.to_bits(), (x * x + y * y + z * z).sqrt().to_bits(), "{a:?} {b:?} {p:?}");
        }
    }
}

/// How many points the chain has at this deflection and angle, where a span is halved once at most.
fn points(part: &Part, edge: &Edge, deflection: f64, angle: f64) -> usize {
    let angle = Angle::radians(angle);
    let options = Options { deflection, angle, relative: 0, depth: 1, ..Options::default() };
    part.clone().check().unwrap().draw(edge, &options).unwrap().len()
}

#[test]
fn bisection_halves_a_span_where_its_sag_is_above_the_deflection() {
    // The number for thinning is greater on the one parabola, and less on the other.
    for (hi, thinning_is_greater) in [(3.0, true), (3.5, false)] {
        let (end, middle) = ([hi * hi, 2.0 * hi, 0.0], [hi * hi / 4.0, hi, 0.0]);
        let mut part = Part::new(O, end);
        let parabola = part.parabola(O, [0.0, 0.0, 1.0], [1.0, 0.0, 0.0], 1.0).unwrap();
        let (start, stop) = (part.point(O), part.point(end));
        let edge = part.edge(parabola, start, stop, 0.0..hi);
        let sag = measure_for_bisection(O, end, middle).distance;
        let other = measure_for_thinning(O, end, middle).distance;
        assert!(sag != other && (sag < other) == thinning_is_greater);
        assert_eq!(points(&part, &edge, sag, PI), 2);
        assert_eq!(points(&part, &edge, below(sag), PI), 3);
    }
}

#[test]
fn thinning_keeps_a_break_above_the_deflection() {
    let (corner, end) = ([3.0, 1.0, 0.0], [2.0, 4.0, 0.0]);
    let mut part = Part::new(O, end);
    let (there, on) = (part.line(O, corner).unwrap(), part.line(corner, [-1.0, 3.0, 0.0]).unwrap());
    let both = part.composite(&[Segment::new(there, 0.0..1.0), Segment::new(on, 0.0..1.0)]);
    let (start, stop) = (part.point(O), part.point(end));
    let edge = part.edge(both, start, stop, 0.0..2.0);
    let bend = measure_for_thinning(O, end, corner).distance;
    // By bisection's number, which is less, the corner would not be kept.
    assert!(measure_for_bisection(O, end, corner).distance <= below(bend));
    assert_eq!(points(&part, &edge, bend, PI), 2);
    assert_eq!(points(&part, &edge, below(bend), PI), 3);
}

#[test]
fn thinning_keeps_a_point_above_a_hundredth_of_the_deflection() {
    // A polyline up to halfway down its second leg, which is halved for its turn: its middle lies before the corner.
    let (end, middle) = ([6.0, 0.625, 0.0], [3.0, 0.9375, 0.0]);
    let mut part = Part::new(O, end);
    let run = part.points(&[O, [4.0, 1.25, 0.0], [8.0, 0.0, 0.0]]);
    let (polyline, stop) = (part.polyline(run), part.point(end));
    let edge = part.edge(polyline, run.at(0), stop, 0.0..1.5);
    let height = measure_for_thinning(O, end, middle).distance;
    assert!(measure_for_bisection(O, end, middle).distance < height);
    let deflection = height / 0.01;
    assert_eq!([deflection * 0.01, below(deflection) * 0.01], [height, below(height)]);
    assert_eq!(points(&part, &edge, deflection, 0.5), 2);
    assert_eq!(points(&part, &edge, below(deflection), 0.5), 3);
}
