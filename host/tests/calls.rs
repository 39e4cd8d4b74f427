//! Each function of the wrapper, accepted and refused, with the values of docs/REFERENCE.md,
//! Values. The sheet, the cards and `print` are in sheets.rs, burning and coasting in burning.rs,
//! finishes in finishes.rs, marks in marks.rs.

mod common;

use std::num::FpCategory;

use cobalnis::formulas::*;
use cobalnis::{check_dimension, classify, takes_cone_formula};
use cobalnis::{Curve, FloatClass, Nose, Quantity, Refusal, Shape, QUERIES};

use common::{domain, stream, INFINITY, NAN};

const RIGHT_ANGLE: f64 = f64::from_bits(0x3ff9_21fb_5444_2d18);

#[test]
fn fixed_steps() {
    assert_eq!(sqrt(2.0), 2.0f64.sqrt());
    assert_eq!(sqrt(-0.0).to_bits(), (-0.0f64).to_bits());
    assert_eq!(sqrt(-1.0).to_bits(), 0x7ff8_0000_0000_0000);
    assert_eq!((ln(1.0), ln(INFINITY)), (0.0, INFINITY));
    assert!(ln(0.0).is_nan());
    assert_eq!((exp(0.0), exp(710.0), exp(-746.0)), (1.0, INFINITY, 0.0));
    assert_eq!((powf(NAN, 0.0), powf(1.0, NAN)), (1.0, 1.0));
    assert_eq!(powf(-0.0, -2.0), INFINITY);
    assert!(powf(-1.0, 2.0).is_nan());
    assert_eq!(sin(0.0), 0.0);
    assert!(sin(NAN).is_nan());
}

#[test]
fn classes() {
    use FloatClass::{Infinity, NaN, Normal, Subnormal, Zero};
    let edges = [
        (0, Zero),
        (1, Subnormal),                     // 2^-1074
        (0x000f_ffff_ffff_ffff, Subnormal), // the largest
        (0x0010_0000_0000_0000, Normal),    // 2^-1022
        (0x3ff0_0000_0000_0000, Normal),    // 1
        (0x7fef_ffff_ffff_ffff, Normal),    // the largest finite number
        (0x7ff0_0000_0000_0000, Infinity),
        (0x7ff0_0000_0000_0001, NaN), // signalling, the least payload
        (0x7ff7_ffff_ffff_ffff, NaN), // signalling, the greatest
        (0x7ff8_0000_0000_0000, NaN), // quiet, payload 0
        (0x7fff_ffff_ffff_ffff, NaN), // quiet, the greatest payload
    ];
    for (bits, class) in edges {
        assert_eq!(classify(bits), class, "{bits:016x}");
        assert_eq!(classify(bits | 1 << 63), class, "-{bits:016x}");
    }
}

/// Every exponent field with the ends and the middle of the significand field.
#[test]
fn classes_of_every_exponent() {
    for exponent in 0..4096 {
        for significand in [0, 1, (1 << 51) - 1, 1 << 51, (1 << 52) - 1] {
            let bits = exponent << 52 | significand;
            let class = match f64::from_bits(bits).classify() {
                FpCategory::Zero => FloatClass::Zero,
                FpCategory::Subnormal => FloatClass::Subnormal,
                FpCategory::Normal => FloatClass::Normal,
                FpCategory::Infinite => FloatClass::Infinity,
                FpCategory::Nan => FloatClass::NaN,
            };
            assert_eq!(classify(bits), class, "{bits:016x}");
        }
    }
}

#[test]
fn friction() {
    assert_eq!(check_mach_any(-0.0), Ok(()));
    assert_eq!(check_mach_any(-1.0), Err(domain(Quantity::Mach, -1.0)));
    assert_eq!(critical_reynolds(0.0), Ok(INFINITY));
    let refused = domain(Quantity::Roughness, INFINITY);
    assert_eq!(critical_reynolds(INFINITY), Err(refused));
    assert_eq!(incompressible_skin_friction(1.0, NAN), Ok(0.0148));
    let refused = domain(Quantity::Reynolds, -1.0);
    assert_eq!(incompressible_skin_friction(-1.0, 0.0), Err(refused));
    assert_eq!(skin_friction_coefficient(9999.0, NAN, 0.0), Ok(0.0148));
    let refused = domain(Quantity::Roughness, NAN);
    assert_eq!(skin_friction_coefficient(1e4, NAN, 0.0), Err(refused));
    assert_eq!(body_friction_form_factor(1.0), Ok(1.5));
    let refused = domain(Quantity::BodyFineness, 0.0);
    assert_eq!(body_friction_form_factor(0.0), Err(refused));
}

#[test]
fn pressure() {
    assert_eq!(stagnation_pressure_ratio(0.0), Ok(1.0));
    assert_eq!(stagnation_ratio(0.0), 1.0);
    let refused = domain(Quantity::Mach, -1.0);
    assert_eq!(stagnation_pressure_ratio(-1.0), Err(refused));
    assert_eq!(stagnation_drag_coefficient(0.0), Ok(0.85));
    assert_eq!(stagnation_drag_coefficient(-1.0), Err(refused));
    assert_eq!(base_drag_coefficient(0.0), Ok(0.12));
    assert_eq!(base_drag_coefficient(1.0), Ok(0.25));
    assert_eq!(base_drag_coefficient(-1.0), Err(refused));
    let joint = joint_pressure_drag_coefficient;
    assert_eq!(joint(0.0), Ok(0.0));
    assert!(joint(RIGHT_ANGLE).is_ok());
    let past = RIGHT_ANGLE.next_up();
    assert_eq!(joint(past), Err(domain(Quantity::JointAngle, past)));
    assert_eq!(boattail_factor(1.0, 2.0, 1.0), Ok(1.0));
    assert_eq!(boattail_factor(2.0, 2.0, 1.0), Ok(0.5));
    assert_eq!(boattail_factor(3.0, 2.0, 1.0), Ok(0.0));
    let refused = domain(Quantity::BoattailFore, 1.0);
    assert_eq!(boattail_factor(1.0, 1.0, 2.0), Err(refused));
}

#[test]
fn noses_formulas() {
    let subsonic = subsonic_pressure_drag_coefficient;
    assert_eq!(subsonic(0.5, 1.0, 1.0, 1.0, 1.0), Ok(1.0));
    let refused = domain(Quantity::MachBelowLowerBound, 2.0);
    assert_eq!(subsonic(0.5, 1.0, 1.0, 1.0, 2.0), Err(refused));
    assert_eq!(ogive_pressure_drag_factor(1.0), Ok(1.0));
    let refused = domain(Quantity::OgiveKappa, 2.0);
    assert_eq!(ogive_pressure_drag_factor(2.0), Err(refused));
    assert_eq!(fineness_scaled_pressure_drag(0.0, 1.0, 0.0), Ok(1.0));
    assert_eq!(fineness_scaled_pressure_drag(0.0, 1.0, 3.0), Ok(0.0));
    let refused = domain(Quantity::BluntDrag, 0.0);
    assert_eq!(fineness_scaled_pressure_drag(0.0, 0.0, 3.0), Err(refused));
    assert_eq!(ellipsoid_subsonic_pressure_drag(0.5, 0.0), Ok(0.01));
    let refused = domain(Quantity::EllipsoidMach, 0.8);
    assert_eq!(ellipsoid_subsonic_pressure_drag(0.5, 0.8), Err(refused));
    assert!(takes_cone_formula(Shape::Conical));
    assert!(takes_cone_formula(Shape::PowerSeries { exponent: NAN }));
    assert!(!takes_cone_formula(Shape::VON_KARMAN));
}

#[test]
fn dimensions() {
    for what in Quantity::ALL {
        assert_eq!(check_dimension(what, 1.0, false), Ok(()));
        assert_eq!(check_dimension(what, -0.0, true), Ok(()));
        let refused = check_dimension(what, -0.0, false).unwrap_err();
        assert_eq!(refused, domain(what, -0.0));
        assert_eq!((refused.number(), refused.code()), (1, what.code()));
    }
}

#[test]
fn measured_noses() {
    let points: usize = Nose::ALL.iter().map(|nose| nose.points().count()).sum();
    assert_eq!(points, 149);
    for nose in Nose::ALL {
        let points: Vec<_> = nose.points().collect();
        assert!(points.windows(2).all(|pair| pair[0].0 < pair[1].0));
        assert_eq!(nose.first_mach(), points[0].0);
        assert_eq!(nose.point(points.len()), Err(Refusal::NoPlace));
        assert_eq!(nose.point(usize::MAX), Err(Refusal::NoPlace));
        for (mach, drag) in points {
            assert_eq!(nose.value_and_slope(mach).0, drag);
        }
    }
    let at = |mach: f64| Nose::Ellipsoid.value_and_slope(mach).0;
    assert_eq!((at(0.8), at(1.2), at(5.0)), (0.0, 0.111, 0.158));
}

#[test]
fn curves() {
    let step = Curve::step();
    assert_eq!(step.coefficient(0.0), Ok(0.85));
    assert_eq!(step.rest_coefficient(), 0.85);
    assert_eq!(step.transonic_lower_bound(), 0.0);
    // Fineness -0, angle 0, power exponent NaN: the step.
    let flat = Curve::new(Shape::PowerSeries { exponent: NAN }, -0.0, 0.0).unwrap();
    assert_eq!(
        flat.coefficients(&[0.0, 2.0]),
        step.coefficients(&[0.0, 2.0])
    );
    // The original's worked example: a 5:1 von Karman nose at Mach 1.5 drags 0.0407.
    let nose = Curve::new(Shape::VON_KARMAN, 5.0, 0.0).unwrap();
    assert!((nose.coefficient(1.5).unwrap() - 0.0407).abs() < 5e-5);
    assert_eq!(nose.transonic_lower_bound(), 0.8);
    let machs: Vec<f64> = (0..200).map(|i| f64::from(i) * 0.02).collect();
    let together = nose.coefficients(&machs).unwrap();
    for (mach, coefficient) in machs.iter().zip(together) {
        assert_eq!(nose.coefficient(*mach), Ok(coefficient));
    }
    assert_eq!(nose.coefficients(&[]), Ok(vec![]));
    let refused = domain(Quantity::Mach, -1.0);
    assert_eq!(nose.coefficient(-1.0), Err(refused));
    assert_eq!(nose.coefficients(&[1.0, -1.0, NAN]), Err(refused));
}

#[test]
fn curves_refused() {
    let new = |shape| Curve::new(shape, 3.0, 0.0).map(|_| ());
    assert_eq!(
        new(Shape::Ogive { radius_ratio: 0.9 }),
        Err(Refusal::OgiveRatio)
    );
    assert_eq!(
        new(Shape::Haack { parameter: 0.4 }),
        Err(Refusal::HaackAbove)
    );
    assert_eq!(new(Shape::LV_HAACK), Ok(()));
    let above = (1.0f64 / 3.0).next_up();
    assert_eq!(
        new(Shape::Haack { parameter: above }),
        Err(Refusal::HaackAbove)
    );
    let refused = domain(Quantity::HaackParameter, -0.1);
    assert_eq!(new(Shape::Haack { parameter: -0.1 }), Err(refused));
    let refused = domain(Quantity::Fineness, -1.0);
    assert_eq!(Curve::new(Shape::Conical, -1.0, NAN), Err(refused));
    let refused = domain(Quantity::JointAngle, NAN);
    assert_eq!(Curve::new(Shape::Elliptical, 1.0, NAN), Err(refused));
}

/// The walk that docs/REFERENCE.md, Walk, tells point by point.
#[test]
fn walk_by_hand() {
    let machs = [0.5, 0.8, 0.8, 0.9, 2.0, 3.0];
    for (asked, compared) in [(0, 0), (1, 1), (2, 3), (3, 4), (4, 7), (5, 22), (6, 22)] {
        let mut drags = [7.0; 6];
        let walk = Nose::VonKarman.walk(&machs[..asked], &mut drags).unwrap();
        assert_eq!(walk.compared(), compared);
        assert_eq!(walk.drags().len(), asked);
        assert_eq!(drags[asked..], [7.0; 6][asked..]);
    }
}

/// Each drag is the single lookup's, for every nose; the pairs can be gone through.
#[test]
fn walk_of_single_lookups() {
    for nose in Nose::ALL {
        let machs: Vec<f64> = (0..QUERIES).map(|at| at as f64 / 100.0).collect();
        let mut drags = [7.0; QUERIES];
        let walk = nose.walk(&machs, &mut drags).unwrap();
        assert_eq!(walk.machs(), machs);
        assert!(walk.compared() <= QUERIES + nose.points().count());
        for (mach, drag) in &walk {
            assert_eq!(drag.to_bits(), nose.value_and_slope(mach).0.to_bits());
        }
        assert_eq!(walk.into_iter().len(), QUERIES);
    }
}

/// Refused: the number, and no cell written.
#[test]
fn walks_refused() {
    let refused = |machs: &[f64], cells: usize| {
        let mut drags = vec![7.0; cells];
        let answer = Nose::LvHaack.walk(machs, &mut drags).map(|_| ());
        assert_eq!(drags, vec![7.0; cells]);
        answer.expect_err("a refusal")
    };
    assert_eq!(refused(&[1.0; QUERIES + 1], QUERIES + 1), Refusal::FewCells);
    assert_eq!(
        refused(&[-1.0; QUERIES + 1], QUERIES + 1),
        Refusal::FewCells
    );
    assert_eq!(refused(&[1.0, NAN], 1), Refusal::FewCells);
    assert_eq!(refused(&[1.0, 0.9], 2), Refusal::FallingMach);
    assert_eq!(
        refused(&[0.5, 1.0, 1.0f64.next_down()], 9),
        Refusal::FallingMach
    );
    for bad in [NAN, -1.0, INFINITY, -INFINITY] {
        let first_bad = domain(Quantity::Mach, bad);
        assert_eq!(refused(&[bad, 1.0], 2), first_bad);
        assert_eq!(refused(&[1.0, 0.9, bad], 3), first_bad);
        assert_eq!(refused(&[bad, -2.0], 3), first_bad);
    }
    let mut drags = [7.0; 2];
    assert!(Nose::LvHaack.walk(&[0.0, -0.0], &mut drags).is_ok());
}

/// What the types can't say is tested by the library: numbers that name nothing.
#[test]
fn words_that_name_nothing() {
    use cobalnis::words;
    assert_eq!(
        words::formula(Formula::ALL.len() as u32, [1.0; 5]),
        (65535, 0)
    );
    assert_eq!(words::check_dimension(0, 1.0, true), (65535, 0));
    assert_eq!(words::check_dimension(23, 1.0, true), (65535, 0));
    assert_eq!(words::takes_cone_formula(6, 1.0), (65535, 0));
    assert_eq!(words::takes_cone_formula(0, 1.0), (0, 1));
    assert_eq!(words::nose_point(9, 0), (65535, [0; 2]));
    assert_eq!(words::nose_lookup(9, 1.0), (65535, [0; 4]));
    let mut count = 7;
    assert_eq!(words::nose_walk(9, &[], &mut [], &mut count), (65535, 0));
    assert_eq!(count, 7);
    let none = words::curve(7, [1.0; 3], &[], &mut [], &mut []);
    assert_eq!(none, (65535, [0; 3]));
    let (mut longer, mut marks) = ([7; 2], [7; 3]);
    let step = |out: &mut [u64], marks: &mut [u8]| words::curve(6, [1.0; 3], &[0.0], out, marks);
    assert_eq!(step(&mut longer, &mut marks).0, 0);
    assert_eq!((longer, marks), ([0.85f64.to_bits(), 7], [0, 7, 7]));
    for (status, about) in [step(&mut [], &mut [7]), step(&mut [7], &mut [])] {
        assert_eq!((status, about[1]), (10, 0.85f64.to_bits()));
    }
    let mut sheet = [0; words::SHEET_WORDS];
    sheet[words::SHEET_WORDS - words::PART_WORDS] = 6;
    assert_eq!(words::remove(&mut sheet, 0, &mut [], &mut []), (5, 0));
    assert_eq!(
        words::print(&stream(), &mut [0; words::LONGEST_TEXT - 1]),
        0
    );
}
