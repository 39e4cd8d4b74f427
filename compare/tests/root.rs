//! The library's root held to whole numbers. `side_by_side` compares it with Rust's `sqrt`, which asks
//! the same instruction of the same processor, so neither would tell a processor whose root is wrong.

use cobalnis::{words, Formula};
use compare::inputs::Random;

/// A float from +0 up as a whole number of 2^-1074: significand and shift.
fn units(x: f64) -> (u128, i32) {
    let (field, exponent) = (x.to_bits() & ((1 << 52) - 1), (x.to_bits() >> 52) as i32);
    match exponent {
        0 => (field.into(), 0),
        _ => ((field | 1 << 52).into(), exponent - 1),
    }
}

/// Whether y, a normal number, is the nearest to the root of x: with x = n × 2^(2k) and y = r × 2^k the root of n
/// lies between r - 1/2 and r + 1/2, so that r² - r < n ≤ r² + r.
fn is_nearest(x: f64, y: f64) -> bool {
    let ((r, up), (significand, shift)) = (units(y), units(x));
    // y × y counts units of 2^-2148, x units of 2^-1074.
    let n = significand << (shift + 1074 - 2 * up);
    r * r - r < n && n <= r * r + r
}

fn root(x: f64) -> f64 {
    let (status, bits) = words::formula(Formula::Sqrt.number(), [x, 0.0, 0.0, 0.0, 0.0]);
    assert_eq!(status, 0);
    f64::from_bits(bits)
}

#[track_caller]
fn check(x: f64) {
    let y = root(x);
    assert!(is_nearest(x, y), "√{x:e} is {y:e}");
}

#[test]
fn the_test_tells_neighbours() {
    for x in [2.0, 3.0, 0.1, 1e300, 1e-310, 5e-324] {
        let y = root(x);
        assert!(is_nearest(x, y));
        assert!(!is_nearest(x, y.next_up()));
        assert!(!is_nearest(x, y.next_down()));
    }
}

#[test]
fn any_number() {
    let mut random = Random::new(0x0f00_d5ed);
    for _ in 0..2_000_000 {
        check(random.any_positive().max(f64::from_bits(1)));
    }
}

#[test]
fn subnormal_numbers() {
    let mut random = Random::new(0x5ab5_5eed);
    for _ in 0..500_000 {
        check(random.subnormal());
    }
}

/// Where it is hardest: beside squares, and beside the squares of what lies midway between two
/// numbers of 53 digits, which no number of 53 digits is.
#[test]
fn near_squares() {
    let mut random = Random::new(0x5a5a_5eed);
    for _ in 0..500_000 {
        let root = random.scaled(1e-150, 1e150);
        let square = root * root;
        let midway = square + root * (root.next_up() - root);
        for x in [square, midway] {
            for y in [x.next_down(), x, x.next_up()] {
                check(y);
            }
        }
    }
}

/// The first and the last numbers of each power of two.
#[test]
fn ends_of_binades() {
    for exponent in 0..2047u64 {
        for step in 0..500 {
            check(f64::from_bits((exponent << 52) + step.max(1)));
            check(f64::from_bits(((exponent + 1) << 52) - 1 - step));
        }
    }
}

#[test]
fn what_is_no_positive_number() {
    for x in [0.0, -0.0, f64::INFINITY] {
        assert_eq!(root(x).to_bits(), x.to_bits());
    }
    for x in [f64::NAN, -1.0, -5e-324, f64::NEG_INFINITY] {
        assert!(root(x).is_nan());
    }
}
