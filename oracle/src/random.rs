//! A seeded source of random numbers (SplitMix64), the same on every machine.

#[derive(Debug, Clone)]
pub struct Random(u64);

impl Random {
    /// The source of item `index` of a run: each item can be made alone.
    pub fn new(seed: u64, index: u64) -> Random {
        let mut random = Random(seed);
        let start = random.bits() ^ index.wrapping_mul(0xd1342543de82ef95);
        Random(start)
    }

    pub fn bits(&mut self) -> u64 {
        self.0 = self.0.wrapping_add(0x9e3779b97f4a7c15);
        let mut z = self.0;
        z = (z ^ (z >> 30)).wrapping_mul(0xbf58476d1ce4e5b9);
        z = (z ^ (z >> 27)).wrapping_mul(0x94d049bb133111eb);
        z ^ (z >> 31)
    }

    /// A whole number below `n`, which is above 0.
    pub fn below(&mut self, n: usize) -> usize {
        (self.bits() % n as u64) as usize
    }

    pub fn percent(&mut self, chance: usize) -> bool {
        self.below(100) < chance
    }

    pub fn pick<T: Copy>(&mut self, from: &[T]) -> T {
        from[self.below(from.len())]
    }

    /// From 0 up to, not at, 1.
    pub fn unit(&mut self) -> f64 {
        (self.bits() >> 11) as f64 / (1u64 << 53) as f64
    }

    pub fn between(&mut self, lo: f64, hi: f64) -> f64 {
        lo + (hi - lo) * self.unit()
    }

    /// A power of ten, its exponent even over lo..hi, by products so that no library rounds it.
    pub fn decade(&mut self, lo: i32, hi: i32) -> f64 {
        let whole = lo + self.below((hi - lo).max(1) as usize) as i32;
        let power = (0..whole.unsigned_abs()).fold(1.0, |x, _| x * 10.0);
        let part = self.between(1.0, 10.0);
        if whole < 0 { part / power } else { part * power }
    }

    /// Any 64 bits, or bits with every exponent as likely as the next.
    pub fn any_float(&mut self) -> f64 {
        f64::from_bits(self.bits())
    }

    /// A float at a boundary of the rules: all finite and at most 1e9 in magnitude.
    pub fn boundary(&mut self) -> f64 {
        let value = self.pick(&BOUNDARIES);
        let value = match self.below(4) {
            0 => f64::from_bits(value.to_bits() + 1),
            1 if value > 0.0 => f64::from_bits(value.to_bits() - 1),
            _ => value,
        };
        let value = value.min(1e9);
        if self.percent(30) { -value } else { value }
    }
}

const BOUNDARIES: [f64; 24] = [
    0.0,
    0.0,
    5e-324,
    f64::MIN_POSITIVE,
    1e-300,
    // 2^-511: the least length with a direction.
    f64::from_bits(0x2000000000000000),
    1e-20,
    1e-12,
    1e-10,
    1e-9,
    1e-4,
    1e-3,
    0.125,
    0.5,
    1.0,
    2.0,
    3.0,
    4.0,
    std::f64::consts::FRAC_PI_2,
    std::f64::consts::PI,
    std::f64::consts::TAU,
    1e6,
    1e9,
    1e9,
];
