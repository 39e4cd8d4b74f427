//! Measures how far the fixed steps (docs/REFERENCE.md, Fixed steps) lie from this machine's own
//! ln, exp, powf and sin (Rust's std), over the ranges that the formulas use, and prints a table in
//! markdown.
//!
//!     cargo run --release --offline --bin ulps
//!
//! A distance counts the floats from one answer to the other, so 0 means equal bits.

use compare::inputs::Random;
use compare::{distance, fixed};

/// A million and a bit: both ends, then random ones.
const SAMPLES: usize = 2_000_000;

fn measure(
    what: &str,
    mut sample: impl FnMut(usize, &mut Random) -> (f64, f64),
    fixed: impl Fn(f64, f64) -> f64,
    std: impl Fn(f64, f64) -> f64,
) {
    let mut random = Random::new(0x5eed_0002);
    let (mut most, mut at, mut equal) = (0, (0.0, 0.0), 0usize);
    for i in 0..SAMPLES {
        let (x, y) = sample(i, &mut random);
        let (a, b) = (fixed(x, y), std(x, y));
        assert!(!a.is_nan() && !b.is_nan(), "{what}: NaN at {x} {y}");
        let distance = distance(a, b);
        if distance == 0 {
            equal += 1;
        }
        if distance > most {
            most = distance;
            at = (x, y);
        }
    }
    println!(
        "| {what} | {SAMPLES} | {:.2} % | {most} | {:016x} {:016x} |",
        100.0 * equal as f64 / SAMPLES as f64,
        at.0.to_bits(),
        at.1.to_bits()
    );
}

/// The range's two ends first, then numbers spread evenly over it or over its exponents.
fn ends(i: usize, low: f64, high: f64, rest: f64) -> f64 {
    match i {
        0 => low,
        1 => high,
        _ => rest,
    }
}

fn main() {
    println!(
        "| step and range | samples | equal | largest distance in ulps | first found at (x, y) |"
    );
    println!("|---|---|---|---|---|");
    measure(
        "LN(x), x from 1e4 to 1e10 (Reynolds)",
        |i, r| (ends(i, 1e4, 1e10, r.scaled(1e4, 1e10)), 0.0),
        |x, _| fixed::ln(x),
        |x, _| x.ln(),
    );
    measure(
        "LN(x), x from 1 to 1000 (fineness + 1)",
        |i, r| (ends(i, 1.0, 1e3, r.scaled(1.0, 1e3)), 0.0),
        |x, _| fixed::ln(x),
        |x, _| x.ln(),
    );
    measure(
        "EXP(y), y from -60 to 60",
        |i, r| (ends(i, -60.0, 60.0, r.between(-60.0, 60.0)), 0.0),
        |y, _| fixed::exp(y),
        |y, _| y.exp(),
    );
    measure(
        "POW(x, -1.039), x from 1e-9 to 1 (roughness)",
        |i, r| (ends(i, 1e-9, 1.0, r.scaled(1e-9, 1.0)), -1.039),
        fixed::powf,
        f64::powf,
    );
    measure(
        "POW(x, 0.2), x from 1e-9 to 1 (roughness)",
        |i, r| (ends(i, 1e-9, 1.0, r.scaled(1e-9, 1.0)), 0.2),
        fixed::powf,
        f64::powf,
    );
    measure(
        "POW(1 + 0.15 M², 0.58), M from 1 to 25",
        |i, r| {
            let mach = ends(i, 1.0, 25.0, r.between(1.0, 25.0));
            (1.0 + 0.15 * (mach * mach), 0.58)
        },
        fixed::powf,
        f64::powf,
    );
    measure(
        "POW(x, y), x from 1e-3 to 1.5 (c3/c0), y from 0 to 5",
        |i, r| {
            let x = ends(i, 1e-3, 1.5, r.scaled(1e-3, 1.5));
            (x, ends(i / 2, 0.0, 5.0, r.between(0.0, 5.0)))
        },
        fixed::powf,
        f64::powf,
    );
    measure(
        "SIN(x), x from 0 to π/2",
        |i, r| {
            let half_pi = std::f64::consts::FRAC_PI_2;
            (ends(i, 0.0, half_pi, r.between(0.0, half_pi)), 0.0)
        },
        |x, _| fixed::sin(x),
        |x, _| x.sin(),
    );
}
