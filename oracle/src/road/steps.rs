//! The fixed steps for sin, cos, acos, min and max, and for e^t, cosh and sinh. Every operation rounds once.

/// 2 / π, π / 2 in two parts, and π.
const TWO_OVER_PI: f64 = f64::from_bits(0x3FE45F306DC9C883);
const HALF_PI_HIGH: f64 = f64::from_bits(0x3FF921FB54400000);
const HALF_PI_LOW: f64 = f64::from_bits(0x3DD0B4611A626331);
const PI: f64 = f64::from_bits(0x400921FB54442D18);
/// 1 / ln 2, and ln 2 in two parts.
const ONE_OVER_LN_2: f64 = 1.4426950408889634;
const LN_2_HIGH: f64 = f64::from_bits(0x3FE62E42FEE00000);
const LN_2_LOW: f64 = f64::from_bits(0x3DEA39EF35793C76);

const SINE_DIVISORS: [f64; 8] = [272.0, 210.0, 156.0, 110.0, 72.0, 42.0, 20.0, 6.0];
const COSINE_DIVISORS: [f64; 8] = [240.0, 182.0, 132.0, 90.0, 56.0, 30.0, 12.0, 2.0];

/// The other operand when one is NaN; the first of equal zeros.
pub fn min(a: f64, b: f64) -> f64 {
    if a.is_nan() || b < a { b } else { a }
}

/// The other operand when one is NaN; the first of equal zeros.
pub fn max(a: f64, b: f64) -> f64 {
    if a.is_nan() || b > a { b } else { a }
}

pub fn sin(t: f64) -> f64 {
    let (quarter, r) = reduced(t);
    match quarter {
        0 => sine_kernel(r),
        1 => cosine_kernel(r),
        2 => -sine_kernel(r),
        _ => -cosine_kernel(r),
    }
}

pub fn cos(t: f64) -> f64 {
    let (quarter, r) = reduced(t);
    match quarter {
        0 => cosine_kernel(r),
        1 => -sine_kernel(r),
        2 => -cosine_kernel(r),
        _ => sine_kernel(r),
    }
}

/// k mod 4, from 0 to 3 for a k below zero too, and what is left of `t` after k quarter turns.
fn reduced(t: f64) -> (u8, f64) {
    let k = (t * TWO_OVER_PI + 0.5).floor();
    let r = (t - k * HALF_PI_HIGH) - k * HALF_PI_LOW;
    (k.rem_euclid(4.0) as u8, r)
}

fn sine_kernel(r: f64) -> f64 {
    r * stepped(r * r, SINE_DIVISORS)
}

fn cosine_kernel(r: f64) -> f64 {
    stepped(r * r, COSINE_DIVISORS)
}

fn stepped(z: f64, divisors: [f64; 8]) -> f64 {
    divisors.into_iter().fold(1.0, |w, d| 1.0 - (z / d) * w)
}

pub fn acos(a: f64) -> f64 {
    if a == 1.0 {
        return 0.0;
    }
    if a == -1.0 {
        return PI;
    }
    // The tangent of half the angle.
    let y = ((1.0 - a) / (1.0 + a)).sqrt();
    if y > 1.0 { PI - arc(1.0 / y) } else { arc(y) }
}

/// Twice the arc tangent of `y`, its angle halved three times before the series.
fn arc(y: f64) -> f64 {
    let y = halved(halved(halved(y)));
    let z = y * y;
    let v =
        [13.0, 11.0, 9.0, 7.0, 5.0, 3.0, 1.0].into_iter().fold(1.0 / 15.0, |v, d| 1.0 / d - z * v);
    16.0 * (y * v)
}

/// The tangent of half the angle whose tangent is `y`.
fn halved(y: f64) -> f64 {
    y / (1.0 + (1.0 + y * y).sqrt())
}

pub fn cosh(t: f64) -> f64 {
    (exp(t) + exp(-t)) * 0.5
}

pub fn sinh(t: f64) -> f64 {
    (exp(t) - exp(-t)) * 0.5
}

/// e^t.
pub fn exp(t: f64) -> f64 {
    let k = (t * ONE_OVER_LN_2 + 0.5).floor();
    let r = (t - k * LN_2_HIGH) - k * LN_2_LOW;
    let w = (1..=16).rev().fold(1.0, |w, d| 1.0 + (r / d as f64) * w);
    w * power_of_two(k)
}

/// 2^k, for a whole k. Past the floats' range, which no parameter up to 100 comes near, infinity or zero.
fn power_of_two(k: f64) -> f64 {
    if k > 1023.0 {
        f64::INFINITY
    } else if k >= -1022.0 {
        f64::from_bits(((k + 1023.0) as u64) << 52)
    } else {
        0.0
    }
}
