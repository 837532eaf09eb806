//! Lines for the measures: a chord's ends, and a point.

use crate::random::Random;
use crate::shapes::Point;
use crate::sheet::hex;

/// What the C function takes too.
const WILD: [f64; 10] = [
    f64::INFINITY,
    f64::NEG_INFINITY,
    f64::NAN,
    -f64::NAN,
    f64::MAX,
    -f64::MAX,
    1e200,
    -1e200,
    1e154, // its square is just finite
    -1e-200,
];

/// The line of a seed with this number.
pub fn line(seed: u64, index: u64) -> String {
    let mut random = Random::new(seed, index);
    hex(&triple(&mut random).concat())
}

fn triple(random: &mut Random) -> [Point; 3] {
    let [mut a, mut b] = chord(random);
    if random.percent(15) {
        signed_zeros(random, &mut a);
        signed_zeros(random, &mut b);
    }
    let mut triple = [a, b, point(random, a, b)];
    if random.percent(8) {
        for _ in 0..=random.below(3) {
            let value = if random.percent(20) { random.any_float() } else { random.pick(&WILD) };
            triple[random.below(3)][random.below(3)] = value;
        }
    }
    triple
}

/// Two ends.
fn chord(random: &mut Random) -> [Point; 2] {
    let size = random.decade(-4, 6);
    let a = within(random, size);
    match random.below(16) {
        0 => [a, a],
        1 => {
            let mut a = a;
            signed_zeros(random, &mut a);
            [a, a.map(|x| if x == 0.0 { -x } else { x })]
        }
        2 => [grid(random), grid(random)],
        3 => {
            let mut b = a;
            b[random.below(3)] = random.between(-size, size);
            [a, b]
        }
        // its length or the square of it is subnormal, or the square is zero
        4 | 5 => {
            let (least, most) =
                random.pick(&[(0, 1), (15, 40), (485, 525), (485, 525), (485, 525)]);
            let a = if random.percent(40) { [0.0; 3] } else { tiny(random, least, most) };
            [a, tiny(random, least, most)]
        }
        6 => [within(random, 1e9), within(random, 1e9)],
        7 => [[0; 3].map(|_| corner(random)), [0; 3].map(|_| corner(random))],
        8 => [a, a.map(|x| x - size * random.unit())],
        // short beside its distance from the origin
        9 => {
            let step = size * random.decade(-17, -1);
            [a, a.map(|x| x + random.between(-step, step))]
        }
        _ => [a, within(random, size)],
    }
}

/// The point that is measured: at an end, on the chord, on its line, beside it, or anywhere.
fn point(random: &mut Random, a: Point, b: Point) -> Point {
    let along = |t: f64| [0, 1, 2].map(|i| a[i] + (b[i] - a[i]) * t);
    let longest = (0..3).fold(0.0, |most: f64, i| most.max((b[i] - a[i]).abs()));
    match random.below(18) {
        0 => a,
        1 => b,
        2 => along(random.unit()),
        3 => along(random.pick(&[0.125, 0.25, 0.5, 0.75, 1e-17, 1.0 - 1e-16])),
        4 => along(-4.0 * random.unit()),
        5 => along(1.0 + 4.0 * random.unit()),
        6 => within(random, 1e9),
        7 => grid(random),
        8 => tiny(random, 0, 525),
        near => {
            let t = random.between(-0.5, 1.5);
            let size = if near == 9 { 1e3 } else { 0.5 } * longest;
            along(t).map(|x| x + random.between(-size, size))
        }
    }
}

fn within(random: &mut Random, size: f64) -> Point {
    [0; 3].map(|_| random.between(-size, size))
}

/// On a grid of eighths.
fn grid(random: &mut Random) -> Point {
    [0; 3].map(|_| (random.below(33) as f64 - 16.0) * 0.125)
}

fn corner(random: &mut Random) -> f64 {
    random.pick(&[1e9, -1e9, 1e9_f64.next_down(), 0.0, -0.0, 1.0])
}

/// Coordinates with biased exponents from the least to below the most, of either sign.
fn tiny(random: &mut Random, least: usize, most: usize) -> Point {
    [0; 3].map(|_| {
        let exponent = (least + random.below(most - least)) as u64;
        f64::from_bits(random.bits() >> 63 << 63 | exponent << 52 | random.bits() >> 12)
    })
}

fn signed_zeros(random: &mut Random, point: &mut Point) {
    for x in point {
        if random.percent(50) {
            *x = random.pick(&[0.0, -0.0]);
        }
    }
}
