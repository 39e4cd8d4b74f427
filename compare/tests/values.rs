//! The values of docs/REFERENCE.md, Values, and a few facts of the original, asked of both builds
//! of it: they say that the right text was cut and that the fixed steps stand where they should.

use compare::inputs::{up, NANS};
use compare::mirror::nose_walk;
use compare::refusals::{code, Answer, CODES};
use compare::{fixed, original_fixed as rust, original_plain as plain};
use rust::{NoseShape, PressureDragCurve, StoneyNose};

const TEXT: &str = include_str!(concat!(env!("OUT_DIR"), "/original_plain.rs"));

#[test]
fn step_and_base() {
    let step = PressureDragCurve::step();
    assert_eq!(step.coefficient(0.0).unwrap(), 0.85);
    assert_eq!(step.rest_coefficient(), 0.85);
    assert_eq!(step.transonic_lower_bound(), 0.0);
    assert_eq!(rust::base_drag_coefficient(0.0).unwrap(), 0.12);
    assert_eq!(rust::base_drag_coefficient(1.0).unwrap(), 0.25);
}

#[test]
fn boattail() {
    assert_eq!(rust::boattail_factor(1.0, 2.0, 1.0).unwrap(), 1.0);
    assert_eq!(rust::boattail_factor(2.0, 2.0, 1.0).unwrap(), 0.5);
    assert_eq!(rust::boattail_factor(3.0, 2.0, 1.0).unwrap(), 0.0);
}

#[test]
fn ellipsoid_table() {
    let at = |mach: f64| StoneyNose::Ellipsoid.value_and_slope(mach).0;
    assert_eq!(at(0.8), 0.0);
    assert_eq!(at(1.2), 0.111);
    assert_eq!(at(5.0), 0.158);
}

#[test]
fn scaling() {
    assert_eq!(
        rust::fineness_scaled_pressure_drag(0.0, 1.0, 0.0).unwrap(),
        1.0
    );
    assert_eq!(
        rust::fineness_scaled_pressure_drag(0.0, 1.0, 3.0).unwrap(),
        0.0
    );
}

#[test]
fn skin_friction_looks_at_roughness_from_10000_up() {
    let low = rust::skin_friction_coefficient(9999.0, f64::NAN, 0.0);
    assert_eq!(low.unwrap(), 0.0148);
    let refused = Answer::of(rust::skin_friction_coefficient(10000.0, f64::NAN, 0.0));
    assert_eq!((refused.refusal, refused.code), (1, 18));
    assert_eq!(rust::critical_reynolds(0.0).unwrap(), f64::INFINITY);
}

#[test]
fn fineness_zero_is_the_step_whatever_the_parameter() {
    let shape = NoseShape::PowerSeries { exponent: NANS[0] };
    let curve = PressureDragCurve::new(shape, -0.0, 0.0).unwrap();
    assert_eq!(curve, PressureDragCurve::step());
}

#[test]
fn boundaries() {
    let right_angle = f64::from_bits(0x3ff9_21fb_5444_2d18);
    assert!(rust::joint_pressure_drag_coefficient(right_angle).is_ok());
    let refused = Answer::of(rust::joint_pressure_drag_coefficient(up(right_angle)));
    assert_eq!((refused.refusal, refused.code), (1, 3));
    let haack = |parameter: f64| {
        let curve = PressureDragCurve::new(NoseShape::Haack { parameter }, 3.0, 0.0);
        let answer = Answer::of(curve.map(|c| c.rest_coefficient()));
        (answer.refusal, answer.code)
    };
    assert_eq!(haack(1.0 / 3.0), (0, 0));
    assert_eq!(haack(up(1.0 / 3.0)), (3, 0));
    assert_eq!(haack(f64::INFINITY), (3, 0));
    assert_eq!(haack(-0.1), (1, 6));
    assert_eq!(haack(f64::NAN), (1, 6));
    let ogive = |radius_ratio: f64| {
        let curve = PressureDragCurve::new(NoseShape::Ogive { radius_ratio }, 3.0, 0.0);
        Answer::of(curve.map(|c| c.rest_coefficient())).refusal
    };
    assert_eq!(ogive(1.0), 0);
    for bad in [0.9, f64::NAN, f64::INFINITY] {
        assert_eq!(ogive(bad), 2);
    }
    assert_eq!(NoseShape::VON_KARMAN, NoseShape::Haack { parameter: 0.0 });
    assert_eq!(
        NoseShape::LV_HAACK,
        NoseShape::Haack {
            parameter: 1.0 / 3.0
        }
    );
}

/// The example of docs/REFERENCE.md for `sheet`: one cone card with only an aft diameter of 1, so
/// fineness 0.
#[test]
fn example_sheet() {
    let part = PressureDragCurve::new(NoseShape::Conical {}, 0.0, 0.0).unwrap();
    let part = part.coefficient(0.0).unwrap();
    let base = rust::base_drag_coefficient(0.0).unwrap();
    assert_eq!(part.to_bits(), 0x3feb_3333_3333_3333);
    assert_eq!(base.to_bits(), 0x3fbe_b851_eb85_1eb8);
    assert_eq!((0.0 + part + 0.0 + base).to_bits(), 0x3fef_0a3d_70a3_d70a);
}

#[test]
fn stoney_tables() {
    let mut points = 0;
    for nose in StoneyNose::ALL {
        points += nose.points().len();
        assert!(nose.points().windows(2).all(|pair| pair[0].0 < pair[1].0));
        assert_eq!(nose.first_mach(), nose.points()[0].0);
    }
    assert_eq!((StoneyNose::ALL.len(), points), (9, 149));
}

/// The walk that docs/REFERENCE.md, Walk, tells point by point, and its refusals in their order.
#[test]
fn walk_on_paper() {
    let walk = |machs: &[f64], cells: usize| {
        let (mut values, mut compared) = (vec![7.0; cells], 7);
        let status = nose_walk(8, machs, &mut values, &mut compared).0;
        (status, compared)
    };
    let machs = [0.5, 0.8, 0.8, 0.9, 2.0, 3.0];
    for (asked, compared) in [(0, 0), (1, 1), (2, 3), (3, 4), (4, 7), (5, 22), (6, 22)] {
        assert_eq!(walk(&machs[..asked], 6), (0, compared));
    }
    assert_eq!(walk(&[1.0, 0.9], 2), (16, 7));
    assert_eq!(walk(&[1.0, 0.9, -1.0], 3), (257, 7));
    assert_eq!(walk(&[1.0, 0.9, -1.0], 2), (10, 7));
    assert_eq!(walk(&[1.0; 257], 257), (10, 7));
}

/// The original's own worked example: a 5:1 von Kármán nose at Mach 1.5 drags 0.0407.
#[test]
fn worked_example_of_the_original() {
    let curve = PressureDragCurve::new(NoseShape::VON_KARMAN, 5.0, 0.0).unwrap();
    assert!((curve.coefficient(1.5).unwrap() - 0.0407).abs() < 5e-5);
}

/// The two builds differ only where a fixed step stands, and there by little.
#[test]
fn both_builds_agree_but_for_the_steps() {
    for i in 0..200 {
        let mach = f64::from(i) * 0.05;
        let (a, b) = (rust::stagnation_ratio(mach), plain::stagnation_ratio(mach));
        assert_eq!(a, b);
        let a = rust::skin_friction_coefficient(1e6, 1e-5, mach).unwrap();
        let b = plain::skin_friction_coefficient(1e6, 1e-5, mach).unwrap();
        assert!((a / b - 1.0).abs() < 1e-13);
        let a = PressureDragCurve::new(NoseShape::PowerSeries { exponent: 0.6 }, 4.0, 0.2);
        let b = plain::PressureDragCurve::new(
            plain::NoseShape::PowerSeries { exponent: 0.6 },
            4.0,
            0.2,
        );
        let (a, b) = (
            a.unwrap().coefficient(mach).unwrap(),
            b.unwrap().coefficient(mach).unwrap(),
        );
        assert!((a - b).abs() <= 1e-13 * b.abs());
    }
}

/// Each code's text stands in the original, and codes are told apart.
#[test]
fn codes() {
    for (place, what) in CODES.iter().enumerate() {
        assert!(TEXT.contains(&format!("\"{what}\"")), "{what}");
        assert_eq!(usize::from(code(what)), place + 1);
    }
}

#[test]
fn fixed_steps_special_cases() {
    let inf = f64::INFINITY;
    assert_eq!(fixed::sqrt(-0.0).to_bits(), (-0.0f64).to_bits());
    assert!(fixed::sqrt(-1.0).is_nan());
    assert_eq!(fixed::ln(1.0), 0.0);
    assert_eq!(fixed::ln(inf), inf);
    assert!(fixed::ln(0.0).is_nan() && fixed::ln(-0.0).is_nan() && fixed::ln(-1.0).is_nan());
    assert_eq!(fixed::ln(2.0), fixed::LN_2);
    assert_eq!(fixed::exp(0.0), 1.0);
    assert_eq!(fixed::exp(710.0), inf);
    assert_eq!(fixed::exp(-746.0), 0.0);
    assert!(fixed::exp(f64::NAN).is_nan());
    assert_eq!(fixed::powf(f64::NAN, 0.0), 1.0);
    assert_eq!(fixed::powf(1.0, f64::NAN), 1.0);
    assert!(fixed::powf(-1.0, 0.0).is_nan());
    assert_eq!(fixed::powf(-0.0, 0.0), 1.0);
    assert_eq!(fixed::powf(-0.0, 2.0).to_bits(), 0);
    assert_eq!(fixed::powf(-0.0, -2.0), inf);
    assert!(fixed::powf(0.0, f64::NAN).is_nan());
    assert_eq!(fixed::sin(-0.0).to_bits(), (-0.0f64).to_bits());
    assert_eq!(fixed::split(f64::from_bits(1)), (1.0, -1074));
    assert_eq!(fixed::split(f64::from_bits(3)), (1.5, -1073));
    assert_eq!(fixed::split(6.0), (1.5, 2));
}
