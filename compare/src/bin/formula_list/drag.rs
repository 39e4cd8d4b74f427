//! Arguments of the original's drag.rs and of `check_dimension`.

use cobalnis::{Formula, Quantity};
use compare::inputs::{around, down, specials, up, Random, MACHS, MAX, NANS, TINY};
use compare::original_fixed::critical_reynolds;

use crate::Answers;

impl Answers {
    /// A function of one argument: what every argument meets, these boundaries with their
    /// neighbours, numbers from a plausible range, any bits, subnormals.
    fn one(
        &mut self,
        ask: impl Fn(&mut Self, f64),
        boundaries: &[f64],
        plausible: fn(&mut Random) -> f64,
    ) {
        for x in specials() {
            ask(self, x);
        }
        for &boundary in boundaries {
            for x in [down(down(boundary)), up(up(boundary))]
                .into_iter()
                .chain(around(boundary))
            {
                ask(self, x);
            }
        }
        for _ in 0..100 {
            let x = plausible(&mut self.random);
            ask(self, x);
        }
        for _ in 0..60 {
            let x = self.random.any();
            ask(self, x);
            let x = self.random.any_positive();
            ask(self, x);
        }
        for _ in 0..10 {
            let x = self.random.subnormal();
            ask(self, x);
            ask(self, -x);
        }
    }
}

fn plausible_mach(random: &mut Random) -> f64 {
    match random.bits() % 3 {
        0 => random.between(0.0, 1.0),
        1 => random.between(0.9, 1.4),
        _ => random.between(1.0, 25.0),
    }
}

fn plausible_roughness(random: &mut Random) -> f64 {
    match random.bits() % 3 {
        0 => random.scaled(1e-9, 1.0),
        1 => random.scaled(1e-7, 1e-3),
        _ => random.between(0.0, 1.0),
    }
}

/// Roughness where 51 × roughness^-1.039 is about 10000, and so the least Reynolds number that
/// takes the roughness branch changes.
const LIMIT_ROUGHNESS: f64 = 0.0062175;

/// Arguments of one place for functions of several: specials, boundaries, plausible, any.
fn mixed(random: &mut Random, boundaries: &[f64], plausible: fn(&mut Random) -> f64) -> f64 {
    match random.bits() % 8 {
        0 => random.pick(&specials()),
        1 | 2 => {
            let x = random.pick(boundaries);
            random.pick(&around(x))
        }
        3 => random.any(),
        _ => plausible(random),
    }
}

fn plausible_reynolds(random: &mut Random) -> f64 {
    match random.bits() % 3 {
        0 => random.between(0.0, 2e4),
        _ => random.scaled(1e4, 1e10),
    }
}

const REYNOLDS: [f64; 6] = [0.0, 9999.0, 10000.0, 1e7, 1e10, MAX];
const ROUGHNESSES: [f64; 7] = [0.0, TINY, 1e-6, 1e-3, LIMIT_ROUGHNESS, 1.0, MAX];

fn friction(answers: &mut Answers) {
    // Refused arguments two at a time and three at a time show the order of the tests; below
    // Reynolds 10000 roughness is not looked at.
    let odd = [
        NANS[0],
        NANS[5],
        f64::INFINITY,
        -f64::INFINITY,
        -1.0,
        -TINY,
        -0.0,
        0.0,
    ];
    for reynolds in odd.into_iter().chain([9999.0, down(10000.0), 10000.0, 1e6]) {
        for roughness in odd.into_iter().chain([1e-4]) {
            answers.formula(Formula::IncompressibleSkinFriction, &[reynolds, roughness]);
            for mach in [0.0, 2.0, NANS[1], -1.0] {
                if !(reynolds == 1e6 && mach == 0.0) || roughness == 1e-4 {
                    answers.formula(
                        Formula::SkinFrictionCoefficient,
                        &[reynolds, roughness, mach],
                    );
                }
            }
        }
    }
    // Both sides of the critical Reynolds number, and of 10000, at every speed.
    for i in 0..60 {
        let roughness = if i < 10 {
            LIMIT_ROUGHNESS * (0.9 + 0.02 * f64::from(i))
        } else {
            answers.random.scaled(1e-8, 1e-1)
        };
        let critical = critical_reynolds(roughness).unwrap();
        for reynolds in around(critical).into_iter().chain(around(1e4)) {
            answers.formula(Formula::IncompressibleSkinFriction, &[reynolds, roughness]);
            let mach = plausible_mach(&mut answers.random);
            answers.formula(
                Formula::SkinFrictionCoefficient,
                &[reynolds, roughness, mach],
            );
        }
    }
    // The two sides of Mach 1, and of the larger of the two supersonic values.
    for mach in MACHS {
        for mach in around(mach) {
            for (reynolds, roughness) in [(5e3, 0.1), (1e6, 1e-9), (1e8, 1e-3), (1e6, 0.0)] {
                answers.formula(
                    Formula::SkinFrictionCoefficient,
                    &[reynolds, roughness, mach],
                );
            }
        }
    }
    for _ in 0..150 {
        let random = &mut answers.random;
        let reynolds = mixed(random, &REYNOLDS, plausible_reynolds);
        let roughness = mixed(random, &ROUGHNESSES, plausible_roughness);
        let mach = mixed(random, &MACHS, plausible_mach);
        answers.formula(Formula::IncompressibleSkinFriction, &[reynolds, roughness]);
        answers.formula(
            Formula::SkinFrictionCoefficient,
            &[reynolds, roughness, mach],
        );
    }
    for _ in 0..150 {
        let random = &mut answers.random;
        let roughness = random.scaled(1e-7, 1e-2);
        let reynolds = random.scaled(1e4, 1e9);
        let mach = plausible_mach(random);
        answers.formula(Formula::IncompressibleSkinFriction, &[reynolds, roughness]);
        answers.formula(
            Formula::SkinFrictionCoefficient,
            &[reynolds, roughness, mach],
        );
    }
}

fn boattails(answers: &mut Answers) {
    for length in [1.0, 2.0, 3.0] {
        for length in around(length) {
            for fore in around(2.0) {
                answers.formula(Formula::BoattailFactor, &[length, fore, 1.0]);
            }
            answers.formula(Formula::BoattailFactor, &[length, 1.0, -0.0]);
            answers.formula(Formula::BoattailFactor, &[length * 1e-300, 1e-300, 0.0]);
        }
    }
    // The order of the tests: length, aft, fore.
    let odd = [
        NANS[0],
        NANS[7],
        f64::INFINITY,
        -f64::INFINITY,
        -1.0,
        -0.0,
        0.0,
        1.0,
    ];
    for length in odd {
        for fore in odd {
            for aft in [NANS[4], f64::INFINITY, -TINY, -0.0, 1.0] {
                answers.formula(Formula::BoattailFactor, &[length, fore, aft]);
            }
        }
    }
    for diameter in [TINY, f64::MIN_POSITIVE, 0.1, 1.0, down(MAX)] {
        for fore in around(diameter) {
            answers.formula(Formula::BoattailFactor, &[0.5, fore, diameter]);
            answers.formula(Formula::BoattailFactor, &[MAX, fore, diameter]);
            answers.formula(Formula::BoattailFactor, &[TINY, fore, diameter]);
        }
    }
    for _ in 0..150 {
        let random = &mut answers.random;
        let fore = random.between(0.01, 0.3);
        let aft = fore * random.between(0.0, 1.1);
        // Length ratios from 0 to 4, so all three branches.
        let length = (fore - aft) * random.between(0.0, 4.0);
        answers.formula(Formula::BoattailFactor, &[length, fore, aft]);
        let random = &mut answers.random;
        let any = [
            random.any_positive(),
            random.any_positive(),
            random.any_positive(),
        ];
        answers.formula(Formula::BoattailFactor, &any);
    }
    for _ in 0..40 {
        let random = &mut answers.random;
        let any = [random.any(), random.any(), random.any()];
        answers.formula(Formula::BoattailFactor, &any);
        let random = &mut answers.random;
        let small = [random.subnormal(), random.subnormal(), random.subnormal()];
        answers.formula(Formula::BoattailFactor, &small);
    }
}

/// Asks a formula of one argument.
fn of(formula: Formula) -> impl Fn(&mut Answers, f64) {
    move |answers, x| answers.formula(formula, &[x])
}

/// Asks `check_dimension`.
fn test(what: Quantity, allow_zero: bool) -> impl Fn(&mut Answers, f64) {
    move |answers, x| answers.check_dimension(what as u32, x, allow_zero)
}

pub fn all(answers: &mut Answers) {
    answers.one(of(Formula::CheckMachAny), &MACHS, plausible_mach);
    answers.one(
        of(Formula::CriticalReynolds),
        &[1e-9, 1e-6, LIMIT_ROUGHNESS, 0.1, 1e4, 1e296],
        plausible_roughness,
    );
    friction(answers);
    let finenesses = [0.25, 3.0, 20.0, 2.8e-309, 1e-300];
    answers.one(of(Formula::BodyFrictionFormFactor), &finenesses, |r| {
        r.scaled(0.1, 1e3)
    });
    for formula in [
        Formula::StagnationPressureRatio,
        Formula::StagnationDragCoefficient,
        Formula::BaseDragCoefficient,
    ] {
        answers.one(of(formula), &MACHS, plausible_mach);
    }
    let half_pi = std::f64::consts::FRAC_PI_2;
    let angles = [0.1, 0.5, half_pi / 2.0, half_pi];
    answers.one(of(Formula::JointPressureDragCoefficient), &angles, |r| {
        r.between(0.0, std::f64::consts::FRAC_PI_2 * 1.05)
    });
    boattails(answers);
    for test in [
        test(Quantity::Fineness, true),
        test(Quantity::BodyFineness, false),
    ] {
        answers.one(test, &[0.5, 3.0], |r| r.between(-5.0, 20.0));
    }
    answers.one(of(Formula::StagnationRatio), &MACHS, plausible_mach);
    answers.formula(Formula::VonKarman, &[]);
    answers.formula(Formula::LvHaack, &[]);
}
