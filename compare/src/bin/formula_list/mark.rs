//! Where a lookup and a curve are beyond a table: below, at and above each table's last Mach number,
//! for every nose, every shape and every pair of references that a shape is interpolated between.

use compare::builds::STEP;
use compare::inputs::{around, down, up, MAX, NANS, TINY};
use compare::original_fixed::StoneyNose;

use crate::nose::{bad_machs, bad_parameters, plausible_fineness, THIRD};
use crate::Answers;

/// The last Mach number of each table, by the nose's number.
fn last_machs() -> Vec<f64> {
    let noses = StoneyNose::ALL.iter();
    noses
        .map(|nose| nose.points()[nose.points().len() - 1].0)
        .collect()
}

/// All tables' last Mach numbers with their neighbours, and numbers below and above them all.
fn machs() -> Vec<f64> {
    let mut list: Vec<f64> = last_machs().into_iter().flat_map(around).collect();
    for mach in [0.8, 1.0, 1.2] {
        list.extend(around(mach));
    }
    list.extend([
        0.0, -0.0, TINY, 0.5, 1.1, 1.5, 1.9, 1.95, 1.97, 1.98, 2.0, 2.5, 3.5, 3.6, 5.0, 25.0, 1e77,
        1e200, MAX,
    ]);
    list
}

/// Parameters at both ends of each pair of references and between them.
fn brackets(number: u64) -> Vec<f64> {
    match number {
        1 => vec![1.0, 2.0],
        3 => vec![
            0.0,
            -0.0,
            0.1,
            down(0.25),
            0.25,
            0.3,
            down(0.5),
            0.5,
            0.6,
            down(0.75),
            0.75,
            0.9,
            1.0,
        ],
        4 => vec![
            0.0,
            -0.0,
            0.2,
            down(0.5),
            0.5,
            0.6,
            down(0.75),
            0.75,
            0.9,
            1.0,
        ],
        5 => vec![0.0, -0.0, 0.1, down(THIRD), THIRD],
        _ => vec![0.0],
    }
}

fn lookups(answers: &mut Answers) {
    for (nose, last) in last_machs().into_iter().enumerate() {
        for mach in machs() {
            answers.nose_mark(nose, mach);
        }
        for mach in [f64::INFINITY, f64::NEG_INFINITY, -1.0, -last, -TINY] {
            answers.nose_mark(nose, mach);
        }
        for _ in 0..6 {
            let mach = answers.random.between(0.9 * last, last);
            answers.nose_mark(nose, mach);
            let mach = answers.random.between(last, 1.1 * last);
            answers.nose_mark(nose, mach);
            let mach = answers.random.any_positive();
            answers.nose_mark(nose, mach);
        }
    }
}

fn curves(answers: &mut Answers) {
    for number in 0..6 {
        for parameter in brackets(number) {
            for mach in machs() {
                answers.curve_mark(number, [parameter, 3.0, 0.0], mach);
            }
            // Cones below fineness 1, round heads below 0.5, and finenesses far away.
            for fineness in [0.3, 0.7, 8.0, 1e300] {
                for mach in [0.9, 1.95, 2.5, 3.587, up(3.587)] {
                    answers.curve_mark(number, [parameter, fineness, 0.1], mach);
                }
            }
            for _ in 0..6 {
                let fineness = plausible_fineness(&mut answers.random);
                let angle = answers.random.between(0.0, 1.5);
                let mach = answers.random.between(1.9, 3.7);
                answers.curve_mark(number, [parameter, fineness, angle], mach);
            }
        }
    }
}

/// The step reads no table, whatever the shape that has fineness 0; and what is refused.
fn unmarked(answers: &mut Answers) {
    for mach in [0.0, 1.0, 2.0, 5.0, MAX] {
        answers.curve_mark(STEP, [0.0; 3], mach);
        for number in 0..6 {
            answers.curve_mark(number, [NANS[0], 0.0, 0.0], mach);
        }
    }
    for mach in bad_machs() {
        answers.curve_mark(STEP, [0.0; 3], mach);
        for number in 0..6 {
            let parameter = brackets(number)[0];
            answers.curve_mark(number, [parameter, 3.0, 0.0], mach);
        }
    }
    for number in 0..6 {
        for parameter in bad_parameters(number) {
            answers.curve_mark(number, [parameter, 3.0, 0.0], 5.0);
        }
        let parameter = brackets(number)[0];
        answers.curve_mark(number, [parameter, -1.0, 0.0], 5.0);
        answers.curve_mark(number, [parameter, 3.0, NANS[0]], 5.0);
    }
}

pub fn all(answers: &mut Answers) {
    lookups(answers);
    curves(answers);
    unmarked(answers);
}
