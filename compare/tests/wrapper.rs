//! The wrapper's functions for programs in Rust against the original's of the same name: the same
//! order of arguments, the same answers.

use cobalnis::{formulas, Curve, Nose, Refusal, Shape};
use compare::inputs::Random;
use compare::refusals::Answer;
use compare::{answer_bits, original_fixed as original};
use original::AeroError;

/// What the wrapper answers, as the lists write it.
fn ours(result: Result<f64, Refusal>) -> Answer {
    match result {
        Ok(x) => Answer::accepted(x.to_bits()),
        Err(refusal) => Answer {
            refusal: refusal.number(),
            code: refusal.code(),
            bits: refusal.value().to_bits(),
        },
    }
}

fn theirs(result: Result<f64, AeroError>) -> Answer {
    Answer::of(result)
}

/// An argument: plausible, or seldom anything.
fn argument(random: &mut Random) -> f64 {
    match random.bits() % 8 {
        0 => random.any(),
        1 => random.scaled(1e-6, 1e7),
        _ => random.between(0.0, 1.5),
    }
}

macro_rules! same {
    ($random:ident: $($name:ident($($x:ident),*);)*) => {
        $(
            let mut accepted = 0;
            for _ in 0..20_000 {
                $(let $x = argument($random);)*
                let port = ours(formulas::$name($($x),*));
                assert_eq!(port, theirs(original::$name($($x),*)), stringify!($name));
                accepted += usize::from(port.refusal == 0);
            }
            assert!(accepted > 1000, stringify!($name));
        )*
    };
}

#[test]
fn formulas_of_the_same_name() {
    let random = &mut Random::new(6);
    same! { random:
        critical_reynolds(a);
        incompressible_skin_friction(a, b);
        skin_friction_coefficient(a, b, c);
        body_friction_form_factor(a);
        stagnation_pressure_ratio(a);
        stagnation_drag_coefficient(a);
        base_drag_coefficient(a);
        joint_pressure_drag_coefficient(a);
        boattail_factor(a, b, c);
        subsonic_pressure_drag_coefficient(a, b, c, d, e);
        ogive_pressure_drag_factor(a);
        fineness_scaled_pressure_drag(a, b, c);
        ellipsoid_subsonic_pressure_drag(a, b);
    }
    for _ in 0..20_000 {
        let x = argument(random);
        let ratio = formulas::stagnation_ratio(x);
        assert_eq!(ratio.to_bits(), answer_bits(original::stagnation_ratio(x)));
        let port = ours(formulas::check_mach_any(x).map(|()| 0.0));
        assert_eq!(port, Answer::of_check(original::check_mach_any(x)));
    }
}

#[test]
fn steps_of_the_same_name() {
    use compare::fixed;
    let random = &mut Random::new(7);
    for _ in 0..20_000 {
        let (x, y) = (argument(random), argument(random));
        for (ours, theirs) in [
            (formulas::sqrt(x), fixed::sqrt(x)),
            (formulas::ln(x), fixed::ln(x)),
            (formulas::exp(x), fixed::exp(x)),
            (formulas::powf(x, y), fixed::powf(x, y)),
            (formulas::sin(x), fixed::sin(x)),
        ] {
            assert_eq!(ours.to_bits(), answer_bits(theirs), "{x} {y}");
        }
    }
}

#[test]
fn noses_of_the_same_name() {
    assert_eq!(Nose::ALL.len(), original::StoneyNose::ALL.len());
    for (ours, theirs) in Nose::ALL.into_iter().zip(original::StoneyNose::ALL) {
        assert_eq!(format!("{ours:?}"), format!("{theirs:?}"));
        assert_eq!(ours.points().collect::<Vec<_>>(), theirs.points());
        assert_eq!(ours.first_mach(), theirs.first_mach());
        for i in 0..500 {
            let mach = f64::from(i) * 0.01;
            assert_eq!(ours.value_and_slope(mach), theirs.value_and_slope(mach));
            let last = theirs.points()[theirs.points().len() - 1].0;
            assert_eq!(ours.reading(mach).beyond, mach > last);
        }
        let machs: Vec<f64> = (0..256).map(|i| f64::from(i) * 0.01).collect();
        let mut drags = [0.0; 256];
        for (mach, drag) in ours.walk(&machs, &mut drags).expect("rising") {
            assert_eq!(drag, theirs.value_and_slope(mach).0);
        }
    }
}

/// Each shape with the original's of the same name.
fn shapes(x: f64) -> [(Shape, original::NoseShape); 8] {
    use original::NoseShape;
    [
        (Shape::Conical, NoseShape::Conical {}),
        (
            Shape::Ogive { radius_ratio: x },
            NoseShape::Ogive { radius_ratio: x },
        ),
        (Shape::Elliptical, NoseShape::Elliptical {}),
        (
            Shape::PowerSeries { exponent: x },
            NoseShape::PowerSeries { exponent: x },
        ),
        (
            Shape::ParabolicSeries { parameter: x },
            NoseShape::ParabolicSeries { parameter: x },
        ),
        (
            Shape::Haack { parameter: x },
            NoseShape::Haack { parameter: x },
        ),
        (Shape::VON_KARMAN, NoseShape::VON_KARMAN),
        (Shape::LV_HAACK, NoseShape::LV_HAACK),
    ]
}

#[test]
fn curves_of_the_same_name() {
    let random = &mut Random::new(8);
    let mut accepted = 0;
    for _ in 0..5000 {
        let [x, fineness, angle, mach] = [(); 4].map(|()| argument(random));
        for (shape, same) in shapes(x) {
            let port = Curve::new(shape, fineness, angle);
            let rust = original::PressureDragCurve::new(same, fineness, angle);
            let rest = ours(port.map(|curve| curve.rest_coefficient()));
            assert_eq!(rest, theirs(rust.clone().map(|c| c.rest_coefficient())));
            let low = ours(port.map(|curve| curve.transonic_lower_bound()));
            assert_eq!(low, theirs(rust.clone().map(|c| c.transonic_lower_bound())));
            let at = ours(port.and_then(|curve| curve.coefficient(mach)));
            assert_eq!(at, theirs(rust.and_then(|c| c.coefficient(mach))));
            accepted += usize::from(at.refusal == 0);
            let cone = cobalnis::takes_cone_formula(shape);
            assert_eq!(cone, original::takes_cone_formula(same));
        }
    }
    assert!(accepted > 5000);
}
