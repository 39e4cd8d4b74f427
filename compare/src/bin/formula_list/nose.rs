//! Arguments of the original's nose_drag.rs: the formulas and Stoney's noses. The curves are in
//! curve.rs.

use cobalnis::Formula;
use compare::inputs::{around, down, specials, up, Random, MAX, NANS, TINY};
use compare::original_fixed::StoneyNose;

use crate::Answers;

pub const THIRD: f64 = 1.0 / 3.0;

impl Answers {
    fn subsonic(&mut self, x: [f64; 5]) {
        self.formula(Formula::SubsonicPressureDragCoefficient, &x);
    }

    fn ogive_factor(&mut self, kappa: f64) {
        self.formula(Formula::OgivePressureDragFactor, &[kappa]);
    }

    fn scaled(&mut self, x: [f64; 3]) {
        self.formula(Formula::FinenessScaledPressureDrag, &x);
    }

    fn ellipsoid(&mut self, fineness: f64, mach: f64) {
        self.formula(Formula::EllipsoidSubsonicPressureDrag, &[fineness, mach]);
    }
}

/// Parameters that a shape takes: where Stoney measured, their neighbours, and between.
pub fn parameters(number: u64) -> Vec<f64> {
    let mut list = Vec::new();
    match number {
        1 => {
            list.extend([1.0, up(1.0), 1.1, 1.5, 2.0, up(2.0), 10.0, 1e300, MAX]);
        }
        3 | 4 => {
            list.extend([
                0.0, -0.0, TINY, 0.05, 0.125, 0.3, 0.4, 0.625, 0.7, 0.875, 0.99,
            ]);
            list.extend([0.25, 0.5, 0.75].into_iter().flat_map(around));
            list.extend([down(1.0), 1.0]);
        }
        5 => list.extend([0.0, -0.0, TINY, 0.1, 1.0 / 6.0, 0.25, down(THIRD), THIRD]),
        _ => list.push(0.0),
    }
    list
}

/// Parameters that a shape refuses.
pub fn bad_parameters(number: u64) -> Vec<f64> {
    let ends: &[f64] = match number {
        1 => &[0.9, 0.5, 0.0, -0.0, -1.0, -2.0],
        3 | 4 => &[2.0, -1.0, 1.5],
        5 => &[0.4, 2.0 / 3.0, 1.0, -0.1],
        _ => return Vec::new(),
    };
    let mut list = ends.to_vec();
    list.push(match number {
        1 => down(1.0),
        5 => up(THIRD),
        _ => up(1.0),
    });
    list.extend([-TINY, -MAX, f64::INFINITY, f64::NEG_INFINITY]);
    if number != 1 {
        list.push(MAX);
    }
    list.extend(NANS.into_iter().take(4));
    list
}

/// Finenesses on both sides of every branch.
pub fn finenesses() -> Vec<f64> {
    let mut list = vec![
        0.0,
        -0.0,
        TINY,
        f64::MIN_POSITIVE,
        1e-20,
        0.01,
        0.25,
        0.4,
        0.577,
        0.7,
        0.9,
        1.5,
        2.0,
        5.0,
        10.0,
        20.0,
        1e3,
        1e16,
        1e300,
        MAX,
    ];
    list.extend([0.5, 7.0 / 12.0, 1.0, 3.0].into_iter().flat_map(around));
    list
}

pub fn bad_finenesses() -> Vec<f64> {
    vec![
        -TINY,
        -1.0,
        -MAX,
        f64::INFINITY,
        f64::NEG_INFINITY,
        NANS[0],
        NANS[1],
        NANS[6],
    ]
}

/// Machs on both sides of every branch and of some table points.
pub fn machs() -> Vec<f64> {
    let mut list = vec![
        0.0,
        -0.0,
        TINY,
        f64::MIN_POSITIVE,
        1e-9,
        0.1,
        0.3,
        0.5,
        0.7,
        0.81,
        0.85,
        0.9,
        0.95,
        1.05,
        1.1,
        1.15,
        1.25,
        1.4,
        1.5,
        1.6,
        1.8,
        2.0,
        2.4,
        3.0,
        5.0,
        10.0,
        25.0,
        1e10,
        1e77,
        1e155,
        1e200,
        MAX,
    ];
    list.extend(
        [0.8, 1.0, 1.2, 1.3, 1.967, 3.587]
            .into_iter()
            .flat_map(around),
    );
    list
}

pub fn bad_machs() -> Vec<f64> {
    vec![
        -TINY,
        -0.8,
        -MAX,
        f64::INFINITY,
        -f64::INFINITY,
        NANS[0],
        NANS[2],
        NANS[5],
    ]
}

pub fn plausible_fineness(random: &mut Random) -> f64 {
    match random.bits() % 4 {
        0 => random.between(0.0, 1.0),
        1 => random.between(0.45, 0.65),
        _ => random.between(0.5, 10.0),
    }
}

fn subsonic(answers: &mut Answers) {
    // Each argument in turn, the others plain, then pairs of refused ones for the tests' order.
    let plain = [0.02, 0.16, 1.5, 1.0, 0.5];
    for place in 0..5 {
        for x in specials() {
            let mut args = plain;
            args[place] = x;
            answers.subsonic(args);
        }
    }
    let odd = [NANS[0], f64::INFINITY, -f64::INFINITY, -1.0];
    for first in 0..5 {
        for second in first + 1..5 {
            for x in odd {
                for y in odd {
                    let mut args = plain;
                    args[first] = x;
                    args[second] = y;
                    answers.subsonic(args);
                }
            }
        }
    }
    // The ends of the Mach range; Mach 0 in a power and in a square.
    for low in [TINY, 0.8, 1.0, MAX] {
        for mach in [0.0, -0.0, TINY, down(low), low, up(low)] {
            answers.subsonic([0.02, 0.16, 1.5, low, mach]);
            answers.subsonic([0.3, 0.16, 1.5, low, mach]);
        }
    }
    // b on both sides of 1, a rise of 0 and of either sign.
    for slope in around(0.125)
        .into_iter()
        .chain([0.0, -0.0, -1.0, 1e300, TINY])
    {
        for c_low in [0.125, 0.25, 0.375, down(0.25), up(0.25)] {
            answers.subsonic([0.25, c_low, slope, 1.0, 0.5]);
            answers.subsonic([0.25, c_low, slope, 0.8, 0.3]);
        }
    }
    for _ in 0..80 {
        let random = &mut answers.random;
        let low = random.pick(&[0.8, 1.0, 1.2]);
        let args = [
            random.between(0.0, 0.8),
            random.between(0.0, 0.9),
            random.between(-0.5, 4.0),
            low,
            random.between(0.0, low),
        ];
        answers.subsonic(args);
        let random = &mut answers.random;
        let args = [
            random.any(),
            random.any(),
            random.any(),
            random.any_positive(),
            random.any_positive(),
        ];
        answers.subsonic(args);
    }
}

fn small_formulas(answers: &mut Answers) {
    answers.takes_cone_formula(0, 0.0);
    answers.takes_cone_formula(2, 0.0);
    for number in [1, 3, 4, 5] {
        let mut list = parameters(number);
        list.extend(bad_parameters(number));
        list.extend(specials());
        list.extend((0..20).map(|_| answers.random.between(0.0, 1.0)));
        list.extend((0..10).map(|_| answers.random.any()));
        for parameter in list {
            answers.takes_cone_formula(number, parameter);
        }
    }

    for kappa in specials() {
        answers.ogive_factor(kappa);
    }
    for kappa in [0.0, 0.25, 0.5, 0.75, 1.0].into_iter().flat_map(around) {
        answers.ogive_factor(kappa);
    }
    for _ in 0..80 {
        let kappa = answers.random.between(0.0, 1.0);
        answers.ogive_factor(kappa);
        let kappa = answers.random.any();
        answers.ogive_factor(kappa);
        let kappa = 1.0 / answers.random.scaled(1.0, 1e6);
        answers.ogive_factor(kappa);
    }

    // The order of the tests, and zeros of either sign.
    let odd = [NANS[0], f64::INFINITY, -1.0, -0.0, 0.0, TINY, 1.0, MAX];
    for c3 in odd {
        for c0 in odd {
            for fineness in [NANS[1], f64::INFINITY, -TINY, -0.0, 3.0] {
                answers.scaled([c3, c0, fineness]);
            }
        }
    }
    for fineness in finenesses().into_iter().chain(bad_finenesses()) {
        answers.scaled([0.0, 1.0, fineness]);
        answers.scaled([0.1, 0.85, fineness]);
        answers.scaled([1.2, 0.85, fineness]);
    }
    for _ in 0..80 {
        let random = &mut answers.random;
        let args = [
            random.between(0.0, 0.9),
            random.between(0.85, 1.6),
            plausible_fineness(random),
        ];
        answers.scaled(args);
        let random = &mut answers.random;
        let any = [random.any(), random.any_positive(), random.any_positive()];
        answers.scaled(any);
    }

    for fineness in finenesses().into_iter().chain(bad_finenesses()) {
        for mach in [0.0, 0.5, down(0.8)] {
            answers.ellipsoid(fineness, mach);
        }
        // Both refused: the fineness comes first.
        answers.ellipsoid(fineness, NANS[0]);
    }
    for mach in machs().into_iter().chain(bad_machs()).chain(specials()) {
        answers.ellipsoid(0.25, mach);
        answers.ellipsoid(0.55, mach);
    }
    for _ in 0..80 {
        let fineness = plausible_fineness(&mut answers.random);
        let mach = answers.random.between(0.0, 0.85);
        answers.ellipsoid(fineness, mach);
        let (fineness, mach) = (answers.random.any(), answers.random.any());
        answers.ellipsoid(fineness, mach);
        let (fineness, mach) = (
            answers.random.any_positive(),
            answers.random.between(0.0, 0.8),
        );
        answers.ellipsoid(fineness, mach);
    }
}

fn stoney(answers: &mut Answers) {
    for nose in 0..StoneyNose::ALL.len() {
        let points = StoneyNose::ALL[nose].points();
        answers.nose_point(nose, points.len());
        for (index, &(mach, _)) in points.iter().enumerate() {
            answers.nose_point(nose, index);
            for mach in around(mach) {
                answers.nose_lookup(nose, mach);
            }
            // Within the segment to the right.
            if let Some(next) = points.get(index + 1) {
                let mach = answers.random.between(mach, next.0);
                answers.nose_lookup(nose, mach);
            }
        }
        for mach in around(0.8).into_iter().chain([
            0.0,
            -0.0,
            0.5,
            1.0,
            5.0,
            1e10,
            MAX,
            f64::INFINITY,
            -1.0,
            f64::NEG_INFINITY,
            TINY,
        ]) {
            answers.nose_lookup(nose, mach);
        }
        for _ in 0..6 {
            let mach = answers.random.between(0.7, 1.3);
            answers.nose_lookup(nose, mach);
            let mach = answers.random.any_positive();
            answers.nose_lookup(nose, mach);
        }
    }
}

pub fn all(answers: &mut Answers) {
    subsonic(answers);
    small_formulas(answers);
    stoney(answers);
}
