//! Arguments of the fixed steps (docs/REFERENCE.md, Fixed steps).

use cobalnis::Formula;
use compare::fixed;
use compare::inputs::{around, down, specials, up, Random, NANS, TINY};

use crate::Answers;

impl Answers {
    fn sqrt(&mut self, x: f64) {
        self.formula(Formula::Sqrt, &[x]);
    }
    fn ln(&mut self, x: f64) {
        self.formula(Formula::Ln, &[x]);
    }
    fn exp(&mut self, x: f64) {
        self.formula(Formula::Exp, &[x]);
    }
    fn powf(&mut self, x: f64, y: f64) {
        self.formula(Formula::Powf, &[x, y]);
    }
    fn sin(&mut self, x: f64) {
        self.formula(Formula::Sin, &[x]);
    }
}

/// `2^n` for any n from -1074 to 1023.
fn two_to(n: i32) -> f64 {
    if n >= -1022 {
        f64::from_bits(((n + 1023) as u64) << 52)
    } else {
        f64::from_bits(1 << (n + 1074))
    }
}

/// A 53-bit significand times `2^n`, for a result in the normal range.
fn float(significand: u64, n: i32) -> f64 {
    assert!(significand >> 52 == 1 && (-1074..=971).contains(&n));
    f64::from_bits(((n + 1075) as u64) << 52 | (significand & ((1 << 52) - 1)))
}

/// The odd numbers whose square is `c` modulo `2^n`, below `2^n`, for `c` that is 1 modulo 8.
fn roots_modulo(c: i64, n: u32) -> [u64; 4] {
    let modulus = 1u128 << n;
    let c = (i128::from(c).rem_euclid(modulus as i128)) as u128;
    let mut y: u128 = 1;
    for i in 3..n {
        // The square is right in its low i bits; adding 2^(i-1) turns bit i.
        if (y * y).wrapping_sub(c) >> i & 1 == 1 {
            y += 1 << (i - 1);
        }
    }
    let half = modulus / 2;
    [
        y,
        modulus - y,
        (y + half) % modulus,
        (2 * modulus - y - half) % modulus,
    ]
    .map(|r| {
        assert!(r * r % modulus == c);
        r as u64
    })
}

/// Numbers whose exact root lies as near as can be to halfway between two floats, on either side.
///
/// Halfway between neighbouring roots is s/2 with s odd and of 54 bits. Where s² ends in n zeros
/// up to a small c, the number (s² - c)/2^n has 53 bits, and its root misses the midpoint by the
/// least amount there is.
fn near_halfway(list: &mut Answers, random: &mut Random) {
    for c in [1i64, 9, 17, 25, 33, 41, -7, -15, -23, -31, -39, -47] {
        for n in [54u32, 55] {
            for base in roots_modulo(c, n) {
                // s needs 54 bits: a root modulo 2^54 may be one with bit 53 set.
                let s = if base >> 53 == 0 { continue } else { base };
                if s >> 54 != 0 {
                    continue;
                }
                let square = u128::from(s) * u128::from(s);
                let x = ((square as i128 - i128::from(c)) >> n) as u64;
                if x >> 52 != 1 {
                    continue;
                }
                // s²/4 × 2^(2e) = x × 2^(n - 2 + 2e).
                for e in [-26 - 27, random.bits() as i32 % 400] {
                    list.sqrt(float(x, n as i32 - 2 + 2 * e));
                }
            }
        }
    }
    // Any midpoint's square, cut down and cut up to 53 bits.
    for _ in 0..60 {
        let s = (random.bits() >> 10) | (1 << 53) | 1;
        let square = u128::from(s) * u128::from(s);
        let n = 128 - square.leading_zeros() - 53;
        let x = (square >> n) as u64;
        let e = random.bits() as i32 % 400;
        list.sqrt(float(x, n as i32 - 2 + 2 * e));
        list.sqrt(up(float(x, n as i32 - 2 + 2 * e)));
    }
}

fn square_roots(list: &mut Answers, random: &mut Random) {
    specials().into_iter().for_each(|x| list.sqrt(x));
    for n in (-1074..=1023).step_by(17) {
        list.sqrt(two_to(n));
    }
    for n in [
        -1074, -1073, -1072, -1023, -1022, -1021, -2, -1, 1, 2, 3, 1022, 1023,
    ] {
        around(two_to(n)).into_iter().for_each(|x| list.sqrt(x));
    }
    // Exact squares of small and of 26-bit numbers, and their neighbours.
    for r in [
        3.0,
        5.0,
        7.0,
        9.0,
        1e6 + 1.0,
        67108863.0,
        67108865.0,
        94906265.0,
    ] {
        around(r * r).into_iter().for_each(|x| list.sqrt(x));
    }
    // Rounded squares of odd 53-bit numbers, and their neighbours.
    for _ in 0..40 {
        let r = float((random.bits() >> 12) | (1 << 52) | 1, -52);
        around(r * r).into_iter().for_each(|x| list.sqrt(x));
    }
    near_halfway(list, random);
    // A subnormal for each number of leading zeros.
    for place in 0..52 {
        let leading = 1u64 << place;
        list.sqrt(f64::from_bits(leading | (random.bits() & (leading - 1))));
        list.sqrt(f64::from_bits(2 * leading - 1));
    }
    for _ in 0..60 {
        list.sqrt(random.any());
        list.sqrt(random.any_positive());
        let mach = random.between(1.0, 25.0);
        list.sqrt(mach * mach - 1.0);
        let tangent = 0.5 / random.scaled(1.0, 50.0);
        list.sqrt(1.0 + tangent * tangent);
    }
}

fn logarithms(list: &mut Answers, random: &mut Random) {
    specials().into_iter().for_each(|x| list.ln(x));
    for n in (-1074..=1023).step_by(19) {
        list.ln(two_to(n));
    }
    // The threshold where the significand is halved, at normal exponents.
    let threshold = 1.4142135623730951f64.to_bits() & ((1 << 52) - 1);
    for n in [
        -1022, -1021, -1000, -500, -52, -3, -2, -1, 0, 1, 2, 3, 13, 23, 52, 511, 1000, 1022, 1023,
    ] {
        let x = f64::from_bits(((n + 1023) as u64) << 52 | threshold);
        for x in [down(down(x)), down(x), x, up(x), up(up(x))] {
            list.ln(x);
        }
    }
    // And at subnormal ones: the threshold's leading bits, cut, and the next numbers.
    let whole = threshold | (1 << 52);
    for cut in 1..=52 {
        let bits = whole >> cut;
        list.ln(f64::from_bits(bits));
        list.ln(f64::from_bits(bits + 1));
    }
    for place in 0..52 {
        let leading = 1u64 << place;
        list.ln(f64::from_bits(leading | (random.bits() & (leading - 1))));
    }
    // Both sides of 1, far and near.
    let mut gap = f64::EPSILON;
    while gap < 0.5 {
        list.ln(1.0 + gap);
        list.ln(1.0 - gap);
        gap *= 5.0;
    }
    for _ in 0..60 {
        list.ln(random.any());
        list.ln(random.any_positive());
        list.ln(random.scaled(1e4, 1e10));
        list.ln(random.between(1.0, 30.0));
        list.ln(random.scaled(1e-9, 1.0));
        list.ln(random.subnormal());
    }
}

fn exponentials(list: &mut Answers, random: &mut Random) {
    specials().into_iter().for_each(|x| list.exp(x));
    for y in [
        710.0,
        709.7827128933841,
        709.436139303104,
        709.782712893384,
        -746.0,
        -745.1332191019412,
        -745.1332191019411,
        -744.4400719213812,
        -708.3964185322641,
        -708.396418532264,
        -709.0895657128241,
        -1e5,
        1e5,
    ] {
        around(y).into_iter().for_each(|y| list.exp(y));
    }
    // Where k goes up by one: all small k, so every change of parity and of sign, then wide steps.
    let ks = (-12..=12)
        .chain((-1080..=-13).step_by(37))
        .chain((13..=1024).step_by(37))
        .chain([
            -1076, -1075, -1074, -1073, -1023, -1022, -1021, 1022, 1023, 1024,
        ]);
    for k in ks {
        let y = (f64::from(k) - 0.5) * fixed::LN_2;
        for y in [down(down(y)), down(y), y, up(y), up(up(y))] {
            list.exp(y);
        }
        list.exp(f64::from(k) * fixed::LN_2);
    }
    for _ in 0..60 {
        list.exp(random.any());
        list.exp(random.between(-60.0, 60.0));
        list.exp(random.between(-745.5, 710.0));
        // Answers in the subnormal range, and below it.
        list.exp(random.between(-746.0, -708.0));
        list.exp(random.between(709.0, 710.0));
        list.exp(-random.scaled(1e-20, 1.0));
        list.exp(random.scaled(1e-20, 1.0));
    }
    for _ in 0..20 {
        list.exp(random.subnormal());
        list.exp(-random.subnormal());
    }
}

fn powers(list: &mut Answers, random: &mut Random) {
    let cases = [
        NANS[0],
        NANS[3],
        f64::INFINITY,
        f64::NEG_INFINITY,
        0.0,
        -0.0,
        1.0,
        up(1.0),
        down(1.0),
        -1.0,
        -2.5,
        0.5,
        2.0,
        3.0,
        TINY,
        -TINY,
        f64::from_bits(0x000a_bcde_f012_3456),
        f64::MIN_POSITIVE,
        1e300,
        f64::MAX,
        -f64::MAX,
    ];
    for x in cases {
        for y in cases {
            list.powf(x, y);
        }
    }
    for nan in NANS {
        list.powf(nan, 0.0);
        list.powf(1.0, nan);
        list.powf(nan, -0.0);
        list.powf(-0.0, nan);
    }
    // The formulas' own exponents.
    for x in [
        0.0,
        -0.0,
        TINY,
        1e-9,
        1e-4,
        0.5,
        down(1.0),
        1.0,
        up(1.0),
        1e4,
        f64::MAX,
    ] {
        for y in [-1.039, 0.2, 0.58] {
            list.powf(x, y);
        }
    }
    for _ in 0..60 {
        let roughness = random.scaled(1e-9, 1.0);
        list.powf(roughness, -1.039);
        list.powf(roughness, 0.2);
        let mach = random.between(1.0, 25.0);
        list.powf(1.0 + 0.15 * mach * mach, 0.58);
        list.powf(random.scaled(1e-3, 1.5), random.between(0.0, 5.0));
        list.powf(random.any(), random.any());
        list.powf(random.any_positive(), random.between(-3.0, 3.0));
        list.powf(random.subnormal(), random.between(-1.5, 1.5));
        // y × LN(x) near 710 and near -746, so on both sides of EXP's two tests.
        let x = random.scaled(1e-300, 1e300);
        list.powf(x, random.between(709.0, 711.0) / fixed::ln(x));
        list.powf(x, random.between(-747.0, -700.0) / fixed::ln(x));
    }
}

fn sines(list: &mut Answers, random: &mut Random) {
    specials().into_iter().for_each(|x| list.sin(x));
    let half_pi = std::f64::consts::FRAC_PI_2;
    for n in 1..=16 {
        for x in around(half_pi * f64::from(n) / 8.0) {
            list.sin(x);
            list.sin(-x);
        }
    }
    for n in (-1074..=1023).step_by(29) {
        list.sin(two_to(n));
    }
    for n in -30..=30 {
        list.sin(1.5 * two_to(n));
    }
    for _ in 0..100 {
        list.sin(random.between(0.0, half_pi));
        list.sin(random.any());
    }
    for _ in 0..40 {
        list.sin(random.scaled(1e-9, 1.0));
        list.sin(random.between(-10.0, 10.0));
        list.sin(random.subnormal());
        list.sin(random.scaled(1e10, 1e160));
    }
}

pub fn all(list: &mut Answers) {
    let mut random = Random::new(0x5eed_0001);
    square_roots(list, &mut random);
    logarithms(list, &mut random);
    exponentials(list, &mut random);
    powers(list, &mut random);
    sines(list, &mut random);
}
