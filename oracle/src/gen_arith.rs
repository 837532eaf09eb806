//! Lines for the fixed arithmetic: boundaries, floats of all magnitudes, and a few malformed lines.

use crate::random::Random;
use crate::sheet::hex;

const ONE_OPERAND: [&str; 7] = ["root", "sin", "cos", "acos", "floor", "ceil", "abs"];

/// Of one operand too, but asked only up to so large a magnitude.
const GROWING: [&str; 3] = ["exp", "cosh", "sinh"];
const LARGEST: f64 = 100.0;

const SPECIAL: [u64; 16] = [
    0x0000000000000000, // 0
    0x0000000000000001, // the least subnormal
    0x000fffffffffffff, // the greatest subnormal
    0x0010000000000000, // the least normal
    0x2000000000000000, // 2^-511
    0x3fe0000000000000, // 1/2
    0x3ff0000000000000, // 1
    0x3ff921fb54442d18, // π/2
    0x400921fb54442d18, // π
    0x401921fb54442d18, // 2π
    0x41cdcd6500000000, // 1e9
    0x4330000000000000, // 2^52: from here on every float is whole
    0x4340000000000000, // 2^53
    0x43e0000000000000, // 2^63
    0x7fefffffffffffff, // the greatest
    0x7ff0000000000000, // infinity
];

const MALFORMED: [&str; 23] = [
    "",
    " ",
    "sin",
    "sin ",
    "tan 3ff0000000000000",
    "tanh 3ff0000000000000",
    "exp",
    "sinhh 3ff0000000000000",
    "cosh 3ff0000000000000 3ff0000000000000",
    "Sin 3ff0000000000000",
    "sin 3FF0000000000000",
    "sin 3ff000000000000",
    "sin 3ff00000000000000",
    "sin  3ff0000000000000",
    "sin 3ff0000000000000 ",
    " sin 3ff0000000000000",
    "sin 3ff000000000000g",
    "sin\t3ff0000000000000",
    "sin 3ff0000000000000 3ff0000000000000",
    "min 3ff0000000000000",
    "clamp 3ff0000000000000 0000000000000000",
    "clamp 3ff0000000000000 0000000000000000 3ff0000000000000 3ff0000000000000",
    "root +ff0000000000000",
];

/// A few thousand lines for `arith`.
pub fn lines(seed: u64) -> Vec<String> {
    let mut random = Random::new(seed, 0);
    let mut lines: Vec<String> = Vec::new();
    for name in ONE_OPERAND {
        lines.extend(operands(&mut random, name).iter().map(|x| line(name, &[*x])));
    }
    for name in GROWING {
        lines.extend(growing(&mut random).iter().map(|x| line(name, &[*x])));
    }
    for name in ["min", "max"] {
        lines.extend(pairs(&mut random).iter().map(|pair| line(name, pair)));
    }
    lines.extend(clamps(&mut random).iter().map(|triple| line("clamp", triple)));
    for text in MALFORMED {
        let at = random.below(lines.len());
        lines.insert(at, text.to_string());
    }
    lines
}

fn line(name: &str, operands: &[f64]) -> String {
    format!("{name} {}", hex(operands))
}

/// The specials and their neighbours, of both signs; NaN; all magnitudes; and where the function bends.
fn operands(random: &mut Random, name: &str) -> Vec<f64> {
    let mut operands = boundaries(random);
    for exponent in 0..2048 {
        let fraction = random.bits() >> 12;
        // below 0 every root is NaN
        let sign = if name == "root" { 0 } else { random.bits() >> 63 };
        operands.push(f64::from_bits(sign << 63 | exponent << 52 | fraction));
    }
    operands.extend((0..200).map(|_| bend(random, name)));
    operands
}

/// Those of the boundaries that are not too large; all magnitudes, few of the least; and about the halves of ln 2, where k turns.
fn growing(random: &mut Random) -> Vec<f64> {
    let mut operands = boundaries(random);
    let limit = LARGEST.to_bits();
    operands.extend([limit - 1, limit, limit - 1 | 1 << 63, limit | 1 << 63].map(f64::from_bits));
    let small = (0..960).step_by(16);
    for exponent in small.chain(960..1030) {
        let (sign, fraction) = (random.bits() >> 63, random.bits() >> 12);
        operands.push(f64::from_bits(sign << 63 | exponent << 52 | fraction));
    }
    for _ in 0..150 {
        let nudge = (random.below(7) as f64 - 3.0) * random.decade(-17, -1);
        let half = (random.below(578) as f64 - 289.0) * (0.5 * std::f64::consts::LN_2);
        operands.extend([half + nudge, random.between(-LARGEST, LARGEST)]);
    }
    operands.extend((-100..=100).step_by(4).map(f64::from));
    operands.retain(|x| x.abs() <= LARGEST);
    operands
}

fn boundaries(random: &mut Random) -> Vec<f64> {
    let sign = 1u64 << 63;
    let neighbours = |bits: u64| [bits.wrapping_sub(1) & !sign, bits, bits + 1];
    let payload = 0x7ff0000000000001 | random.bits();
    SPECIAL
        .into_iter()
        .flat_map(neighbours)
        .flat_map(|bits| [bits, bits | sign])
        .chain([0x7ff8000000000000, 0xfff8000000000000, payload])
        .map(f64::from_bits)
        .collect()
}

/// An operand where the function's own steps turn from one case to another.
fn bend(random: &mut Random, name: &str) -> f64 {
    let quarter = std::f64::consts::FRAC_PI_2;
    let nudge = (random.below(7) as f64 - 3.0) * random.decade(-17, -1);
    let whole = random.below(4000) as f64 - 2000.0;
    match name {
        "root" => {
            let near = random.bits() >> 11;
            (near as f64 * near as f64) + nudge
        }
        "sin" | "cos" if random.percent(30) => random.between(-2e9, 2e9),
        "sin" | "cos" => whole * 0.5 * quarter + nudge,
        "acos" if random.percent(20) => random.pick(&[0.0, -1.0, 1.0]) + nudge,
        "acos" => random.between(-1.0, 1.0),
        _ if random.percent(30) => (random.bits() >> 10) as f64 * 0.25,
        _ => whole + random.pick(&[0.0, 0.5, nudge, -0.5]),
    }
}

fn pairs(random: &mut Random) -> Vec<[f64; 2]> {
    let some = boundaries(random);
    let mut pairs = Vec::new();
    for a in some.iter().step_by(3) {
        pairs.extend(some.iter().step_by(7).map(|b| [*a, *b]));
    }
    for (a, b) in [(0.0, -0.0), (-0.0, 0.0), (f64::NAN, -0.0), (-0.0, f64::NAN)] {
        pairs.push([a, b]);
    }
    for _ in 0..200 {
        let a = random.any_float();
        pairs.push([a, a]);
        pairs.push([a, random.any_float()]);
    }
    pairs
}

/// Rust's clamp wants ordered ends, so these are.
fn clamps(random: &mut Random) -> Vec<[f64; 3]> {
    const ENDS: [(f64, f64); 5] =
        [(0.0, 1.0), (-1.0, 1.0), (0.5, 2.0), (1e-4, std::f64::consts::PI), (0.0, 7.0)];
    let mut triples = Vec::new();
    for x in boundaries(random) {
        triples.extend(ENDS.map(|(lower, upper)| [x, lower, upper]));
    }
    for _ in 0..300 {
        let (lower, upper) = random.pick(&ENDS);
        triples.push([random.between(-4.0, 8.0), lower, upper]);
        let (a, b) = (random.any_float(), random.any_float());
        if !a.is_nan() && !b.is_nan() {
            triples.push([random.any_float(), a.min(b), a.max(b)]);
        }
    }
    triples
}
