//! The formulas, at numbers of a club's rockets.

use std::hint::black_box;

use cobalnis::{raw, Formula};
use compare::builds;
use compare::inputs::Random;
use compare::mirror_c as theirs;

use crate::timing::{measure, row};
use crate::INPUTS;

const HALF_PI: f64 = std::f64::consts::FRAC_PI_2;

/// What a formula is asked at the table: numbers of a club's rockets.
fn plausible(which: Formula, r: &mut Random) -> [f64; 5] {
    let mut x = [0.0; 5];
    match which {
        Formula::Sqrt => x[0] = r.scaled(1e-3, 1e3),
        Formula::Ln => x[0] = r.scaled(1e-3, 1e10),
        Formula::Exp => x[0] = r.between(-60.0, 60.0),
        Formula::Powf => (x[0], x[1]) = (r.scaled(1e-3, 1.5), r.between(0.0, 5.0)),
        Formula::Sin | Formula::JointPressureDragCoefficient => x[0] = r.between(0.0, HALF_PI),
        Formula::CriticalReynolds => x[0] = r.scaled(1e-7, 1e-2),
        Formula::IncompressibleSkinFriction | Formula::SkinFrictionCoefficient => {
            (x[0], x[1]) = (r.scaled(1e4, 1e9), r.scaled(1e-7, 1e-2));
            x[2] = r.between(0.0, 3.0);
        }
        Formula::BodyFrictionFormFactor => x[0] = r.between(1.0, 30.0),
        Formula::BoattailFactor => {
            x[1] = r.between(0.05, 0.3);
            x[2] = x[1] * r.between(0.0, 0.95);
            x[0] = (x[1] - x[2]) * r.between(0.0, 4.0);
        }
        Formula::SubsonicPressureDragCoefficient => {
            (x[0], x[1]) = (r.between(0.0, 0.1), r.between(0.0, 0.9));
            (x[2], x[3]) = (r.between(0.0, 4.0), r.pick(&[0.8, 1.0]));
            x[4] = r.between(0.0, x[3]);
        }
        Formula::OgivePressureDragFactor => x[0] = r.between(0.0, 1.0),
        Formula::FinenessScaledPressureDrag => {
            (x[0], x[1], x[2]) = (
                r.between(0.01, 0.3),
                r.between(0.85, 1.5),
                r.between(0.5, 8.0),
            )
        }
        Formula::EllipsoidSubsonicPressureDrag => {
            (x[0], x[1]) = (r.between(0.1, 3.0), r.between(0.0, 0.79))
        }
        _ => x[0] = r.between(0.0, 3.0),
    }
    x
}

type Numbered = unsafe extern "C" fn(u32, f64, f64, f64, f64, f64, *mut u64) -> u32;

fn formula_pass(f: Numbered, which: u32, inputs: &[[f64; 5]]) -> u64 {
    let mut sum = 0u64;
    for &[a, b, c, d, e] in inputs {
        let mut bits = 0;
        // SAFETY: `bits` is a word of our own.
        let status = unsafe { f(which, a, b, c, d, e, &mut bits) };
        assert_eq!(status, 0);
        sum = sum.wrapping_add(bits);
    }
    sum
}

pub fn formulas(random: &mut Random) {
    let (port, original) = black_box((
        raw::cobalnis_formula_raw as Numbered,
        theirs::formula as Numbered,
    ));
    for formula in builds::formulas() {
        let inputs: Vec<_> = (0..INPUTS).map(|_| plausible(formula, random)).collect();
        let which = formula.number();
        let times = measure(
            INPUTS,
            &mut || formula_pass(port, which, &inputs),
            &mut || formula_pass(original, which, &inputs),
        );
        row(&format!("`{}`", formula.name()), times);
    }
}
