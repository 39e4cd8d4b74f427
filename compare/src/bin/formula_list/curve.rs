//! Arguments of the original's nose_drag.rs: curves.

use compare::builds::STEP;
use compare::inputs::{down, specials, up, Random, MAX, NANS, TINY};

use crate::nose::{
    bad_finenesses, bad_machs, bad_parameters, finenesses, machs, parameters, plausible_fineness,
    THIRD,
};
use crate::Answers;

const HALF_PI: f64 = std::f64::consts::FRAC_PI_2;

impl Answers {
    fn coefficient(&mut self, number: u64, parameter: f64, fineness: f64, angle: f64, mach: f64) {
        let parameter = own_parameter(number, parameter);
        self.curve(number, [parameter, fineness, angle], mach);
    }

    /// A curve for what is said about it, at a Mach number that is never refused.
    fn built(&mut self, number: u64, parameter: f64, fineness: f64, angle: f64) {
        let mach = if self.random.bits() % 3 == 0 {
            1.0
        } else {
            0.0
        };
        self.coefficient(number, parameter, fineness, angle, mach);
    }
}

/// A cone and an ellipsoid have no parameter.
fn own_parameter(number: u64, parameter: f64) -> f64 {
    if number == 0 || number == 2 {
        0.0
    } else {
        parameter
    }
}

fn angles() -> Vec<f64> {
    vec![
        0.0,
        -0.0,
        TINY,
        1e-200,
        1e-8,
        0.05,
        0.1,
        0.16514867741462683,
        0.3,
        0.5,
        0.785398163397448,
        1.0,
        1.3,
        down(HALF_PI),
        HALF_PI,
    ]
}

fn bad_angles() -> Vec<f64> {
    vec![
        up(HALF_PI),
        2.0,
        -TINY,
        -0.5,
        MAX,
        f64::INFINITY,
        -f64::INFINITY,
        NANS[0],
        NANS[3],
    ]
}

fn plausible_mach(random: &mut Random) -> f64 {
    match random.bits() % 4 {
        0 => random.between(0.0, 0.8),
        1 => random.between(0.8, 1.3),
        2 => random.between(1.0, 4.0),
        _ => random.between(0.0, 25.0),
    }
}

fn plausible_angle(random: &mut Random) -> f64 {
    match random.bits() % 3 {
        0 => 0.0,
        1 => random.between(0.0, 0.3),
        _ => random.between(0.0, HALF_PI),
    }
}

fn plausible_parameter(number: u64, random: &mut Random) -> f64 {
    match number {
        1 => random.between(1.0, 4.0),
        3 | 4 => random.between(0.0, 1.0),
        5 => random.between(0.0, THIRD),
        _ => 0.0,
    }
}

fn step(answers: &mut Answers) {
    let mut list = machs();
    list.extend(bad_machs());
    list.extend(specials());
    list.extend((0..100).map(|_| plausible_mach(&mut answers.random)));
    list.extend((0..40).map(|_| answers.random.any()));
    for mach in list {
        answers.curve(STEP, [0.0; 3], mach);
    }
}

fn curves(answers: &mut Answers) {
    for number in 0..6 {
        let good = parameters(number);
        // Every fineness, with two of the parameters.
        for fineness in finenesses() {
            for _ in 0..2.min(good.len()) {
                let parameter = answers.random.pick(&good);
                let angle = answers.random.pick(&angles());
                answers.built(number, parameter, fineness, angle);
                let mach = answers.random.pick(&machs());
                answers.coefficient(number, parameter, fineness, angle, mach);
                let mach = plausible_mach(&mut answers.random);
                answers.coefficient(number, parameter, fineness, 0.0, mach);
            }
        }
        // Every parameter.
        for &parameter in &good {
            for fineness in [0.5, 3.0] {
                let angle = plausible_angle(&mut answers.random);
                answers.built(number, parameter, fineness, angle);
            }
            for mach in [0.8, 1.2, 2.0] {
                answers.coefficient(number, parameter, 3.0, 0.0, mach);
                let fineness = plausible_fineness(&mut answers.random);
                let mach = plausible_mach(&mut answers.random);
                answers.coefficient(number, parameter, fineness, 0.1, mach);
            }
        }
        // Every Mach number.
        for mach in machs().into_iter().chain(bad_machs()) {
            for fineness in [answers.random.pick(&[0.4, 0.55]), 3.0] {
                let parameter = plausible_parameter(number, &mut answers.random);
                let angle = plausible_angle(&mut answers.random);
                answers.coefficient(number, parameter, fineness, angle, mach);
            }
        }
        // Every joint angle.
        for angle in angles().into_iter().chain(bad_angles()) {
            let fineness = answers.random.pick(&[0.3, 0.8, 2.0]);
            let parameter = answers.random.pick(&good);
            answers.built(number, parameter, fineness, angle);
            let mach = plausible_mach(&mut answers.random);
            answers.coefficient(number, parameter, fineness, angle, mach);
        }
        // What is refused, alone and with others, for the order of the tests: fineness, joint
        // angle, the step at fineness 0, the shape's parameter, and last the Mach number.
        for parameter in bad_parameters(number) {
            answers.built(number, parameter, 2.0, 0.1);
            answers.built(number, parameter, 0.7, HALF_PI);
            answers.built(number, parameter, -0.0, 0.0);
            answers.coefficient(number, parameter, 0.0, 0.0, 1.5);
            answers.coefficient(number, parameter, 3.0, 0.0, -1.0);
            answers.coefficient(number, parameter, 3.0, -1.0, 0.5);
            answers.coefficient(number, parameter, -3.0, -1.0, 0.5);
        }
        for fineness in bad_finenesses() {
            let parameter = good[0];
            answers.built(number, parameter, fineness, 0.1);
            answers.built(number, parameter, fineness, -1.0);
            answers.coefficient(number, parameter, fineness, NANS[0], NANS[0]);
        }
        for angle in bad_angles() {
            answers.built(number, good[0], 0.0, angle);
            answers.coefficient(number, good[0], -0.0, angle, -1.0);
        }
        // The step at fineness 0, with Machs of its own refusal.
        for mach in [0.0, 0.5, 1.0, 2.0, -1.0] {
            answers.coefficient(number, NANS[0], 0.0, 0.0, mach);
        }
        for _ in 0..40 {
            let parameter = plausible_parameter(number, &mut answers.random);
            let fineness = plausible_fineness(&mut answers.random);
            let angle = plausible_angle(&mut answers.random);
            let mach = plausible_mach(&mut answers.random);
            answers.built(number, parameter, fineness, angle);
            answers.coefficient(number, parameter, fineness, angle, mach);
        }
        for _ in 0..30 {
            let parameter = plausible_parameter(number, &mut answers.random);
            let fineness = answers.random.any_positive();
            let mach = answers.random.any_positive();
            let angle = plausible_angle(&mut answers.random);
            answers.coefficient(number, parameter, fineness, angle, mach);
            let random = &mut answers.random;
            let (parameter, fineness, angle, mach) = (
                random.any(),
                random.any_positive(),
                random.unit(),
                random.any(),
            );
            answers.coefficient(number, parameter, fineness, angle, mach);
        }
    }
}

pub fn all(answers: &mut Answers) {
    step(answers);
    curves(answers);
}
