//! Inputs for the lists: a small generator of pseudo-random numbers with a fixed seed, and the
//! floats that every list wants (NaN, infinities, zeros, subnormals, neighbours).

/// SplitMix64: the same numbers on every run and every machine.
pub struct Random(u64);

impl Random {
    pub fn new(seed: u64) -> Self {
        Self(seed)
    }

    /// The next 64 bits.
    pub fn bits(&mut self) -> u64 {
        self.0 = self.0.wrapping_add(0x9e37_79b9_7f4a_7c15);
        let mut z = self.0;
        z = (z ^ (z >> 30)).wrapping_mul(0xbf58_476d_1ce4_e5b9);
        z = (z ^ (z >> 27)).wrapping_mul(0x94d0_49bb_1331_11eb);
        z ^ (z >> 31)
    }

    /// Any float at all.
    pub fn any(&mut self) -> f64 {
        f64::from_bits(self.bits())
    }

    /// A finite float that is not negative, of any size.
    pub fn any_positive(&mut self) -> f64 {
        loop {
            let x = f64::from_bits(self.bits() >> 1);
            if x.is_finite() {
                return x;
            }
        }
    }

    /// A number in [0, 1).
    pub fn unit(&mut self) -> f64 {
        (self.bits() >> 11) as f64 / (1u64 << 53) as f64
    }

    /// A number in [low, high], evenly spread.
    pub fn between(&mut self, low: f64, high: f64) -> f64 {
        low + self.unit() * (high - low)
    }

    /// A number in [low, high], evenly spread over the exponents; both must be positive.
    pub fn scaled(&mut self, low: f64, high: f64) -> f64 {
        // Even over the bit patterns, which is near enough and needs no logarithm.
        let (a, b) = (low.to_bits(), high.to_bits());
        f64::from_bits(a + self.bits() % (b - a + 1))
    }

    /// A subnormal number above 0.
    pub fn subnormal(&mut self) -> f64 {
        let keep = 1 + self.bits() % 52;
        f64::from_bits((self.bits() >> (64 - keep)).max(1))
    }

    /// One of `choices`.
    pub fn pick(&mut self, choices: &[f64]) -> f64 {
        choices[(self.bits() % choices.len() as u64) as usize]
    }
}

/// The next float up, over all bit patterns but NaN.
pub fn up(x: f64) -> f64 {
    x.next_up()
}

/// The next float down.
pub fn down(x: f64) -> f64 {
    x.next_down()
}

/// A number with its two neighbours.
pub fn around(x: f64) -> [f64; 3] {
    [down(x), x, up(x)]
}

/// The largest finite number.
pub const MAX: f64 = f64::MAX;
/// The smallest number above 0.
pub const TINY: f64 = f64::from_bits(1);

/// NaNs of either sign and several payloads, signalling ones too.
pub const NANS: [f64; 8] = [
    f64::from_bits(0x7ff8_0000_0000_0000),
    f64::from_bits(0xfff8_0000_0000_0000),
    f64::from_bits(0x7ff0_0000_0000_0001),
    f64::from_bits(0xfff0_0000_0000_0001),
    f64::from_bits(0x7fff_ffff_ffff_ffff),
    f64::from_bits(0xffff_ffff_ffff_ffff),
    f64::from_bits(0x7ff8_0000_dead_beef),
    f64::from_bits(0xfff4_0000_0000_0000),
];

/// What every argument of every function meets: NaN, infinities, zeros, the ends of the subnormal
/// and of the normal range, ones, negatives.
pub fn specials() -> Vec<f64> {
    let mut list = NANS.to_vec();
    for x in [
        0.0,
        TINY,
        f64::from_bits(2),
        f64::from_bits(0x0008_0000_0000_0000),
        f64::from_bits(0x000f_ffff_ffff_ffff),
        f64::MIN_POSITIVE,
        up(f64::MIN_POSITIVE),
        f64::EPSILON,
        0.5,
        down(1.0),
        1.0,
        up(1.0),
        2.0,
        1e10,
        1e300,
        down(MAX),
        MAX,
        f64::INFINITY,
    ] {
        list.push(x);
        list.push(-x);
    }
    list
}

/// Machs where a formula changes, or overflows inside.
pub const MACHS: [f64; 9] = [
    0.1,
    0.8,
    1.0,
    1.3,
    5.0,
    25.0,
    1e77,
    1.3407807929942596e154,
    1e200,
];
