//! The fixed steps (docs/REFERENCE.md, Fixed steps) in Rust: SQRT, LN, EXP, POW and SIN, written
//! from the project's scope alone.
//!
//! One rounding per operation, in the order written; no fused multiply and add anywhere. `1/21`
//! and `1/k` are rounded quotients. These stand in for `ln`, `powf` and `sin` in the build of the
//! original that the port is compared with (`original_fixed`).

/// LN_2, by its bits.
pub const LN_2: f64 = f64::from_bits(0x3fe6_2e42_fefa_39ef);

/// LN halves the significand above this.
const HALVING: f64 = 1.4142135623730951;

/// SQRT: the nearest binary64 number to the exact root, ties to even, which is what the hardware
/// gives. +0, -0 and +infinity give themselves, a negative or a NaN gives NaN.
pub fn sqrt(x: f64) -> f64 {
    x.sqrt()
}

/// `x = m × 2^e` with `1 ≤ m < 2`, for a finite `x > 0`, subnormals included.
pub fn split(x: f64) -> (f64, i32) {
    const FRACTION: u64 = (1 << 52) - 1;
    const ONE: u64 = 1023 << 52;
    let bits = x.to_bits();
    let biased = (bits >> 52) as i32;
    if biased == 0 {
        // The leading one moves up to bit 52; each place costs one in the exponent.
        let shift = bits.leading_zeros() - 11;
        let m = f64::from_bits(ONE | ((bits << shift) & FRACTION));
        (m, -1022 - shift as i32)
    } else {
        (f64::from_bits(ONE | (bits & FRACTION)), biased - 1023)
    }
}

/// LN: NaN for a NaN, for a negative number and for 0 of either sign.
pub fn ln(x: f64) -> f64 {
    if x.is_nan() || x <= 0.0 {
        return f64::NAN;
    }
    if x == f64::INFINITY {
        return x;
    }
    let (mut m, mut e) = split(x);
    if m > HALVING {
        m = m / 2.0;
        e += 1;
    }
    let t = (m - 1.0) / (m + 1.0);
    let u = t * t;
    let mut p = 1.0 / 21.0;
    let mut k = 19;
    while k >= 1 {
        p = p * u + 1.0 / f64::from(k);
        k -= 2;
    }
    f64::from(e) * LN_2 + (2.0 * t) * p
}

/// `2^n`, for an `n` whose power is a normal number.
fn power_of_two(n: i32) -> f64 {
    assert!((-1022..=1023).contains(&n));
    f64::from_bits(((n + 1023) as u64) << 52)
}

/// EXP: the quotient is rounded, the sum with 0.5 is rounded, then comes the floor. The scaling by
/// `2^k` goes in two steps, so that a subnormal answer is rounded once.
pub fn exp(y: f64) -> f64 {
    if y.is_nan() {
        return f64::NAN;
    }
    if y >= 710.0 {
        return f64::INFINITY;
    }
    if y <= -746.0 {
        return 0.0;
    }
    let k = (y / LN_2 + 0.5).floor();
    let r = y - k * LN_2;
    let mut p = 1.0;
    let mut j = 13;
    while j >= 1 {
        p = 1.0 + (r * p) / f64::from(j);
        j -= 1;
    }
    let k = k as i32;
    // Whole division in Rust drops the fraction, toward zero.
    let h = k / 2;
    (p * power_of_two(h)) * power_of_two(k - h)
}

/// POW. In this order: `x` below 0 gives NaN (-0 is not below 0), `y` = 0 gives 1, `x` = 1 gives 1,
/// a NaN argument gives NaN, `x` = 0 gives 0 or +infinity, anything else EXP(y × LN(x)).
pub fn powf(x: f64, y: f64) -> f64 {
    if x < 0.0 {
        return f64::NAN;
    }
    if y == 0.0 || x == 1.0 {
        return 1.0;
    }
    if x.is_nan() || y.is_nan() {
        return f64::NAN;
    }
    if x == 0.0 {
        return if y > 0.0 { 0.0 } else { f64::INFINITY };
    }
    exp(y * ln(x))
}

/// SIN: no special case, the steps alone.
pub fn sin(x: f64) -> f64 {
    let z = x * x;
    let mut p = 1.0;
    let mut k = 22;
    while k >= 2 {
        p = 1.0 - (z * p) / f64::from(k * (k + 1));
        k -= 2;
    }
    x * p
}

/// The fixed steps as methods, under names that the original's text is rewritten to.
pub trait Fixed {
    fn fixed_ln(self) -> f64;
    fn fixed_powf(self, y: f64) -> f64;
    fn fixed_sin(self) -> f64;
}

impl Fixed for f64 {
    fn fixed_ln(self) -> f64 {
        ln(self)
    }
    fn fixed_powf(self, y: f64) -> f64 {
        powf(self, y)
    }
    fn fixed_sin(self) -> f64 {
        sin(self)
    }
}
