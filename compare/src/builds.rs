//! The builds of the original under the port's interface: formulas by the wrapper's `Formula`,
//! shapes by number, curves. One text makes them all, so that they can't drift apart.
//!
//! - `fixed_steps`: the original with the fixed steps (docs/REFERENCE.md, Fixed steps), which the
//!   port must equal. It is the one that is measured.
//! - `watched`: the same with each lookup in a table noted, from which the marks come.
//! - `plain`: the original as it stands, with the machine's own ln, exp, powf and sin.

use cobalnis::Formula;

/// The shapes of a card, by their numbers.
pub const SHAPES: [&str; 6] = [
    "conical",
    "ogive",
    "elliptical",
    "power",
    "parabolic",
    "Haack",
];

/// The formulas that have arguments.
pub fn formulas() -> impl Iterator<Item = Formula> {
    let constants = [Formula::VonKarman, Formula::LvHaack];
    let all = Formula::ALL.iter().copied();
    all.filter(move |formula| !constants.contains(formula))
}

/// The number of a shape that stands for the step curve, where a curve is asked.
pub const STEP: u64 = 6;

macro_rules! build {
    ($(#[$about:meta])* $name:ident, $original:ident, $steps:path) => {
        $(#[$about])*
        pub mod $name {
            use cobalnis::Formula;

            use crate::refusals::Answer;
            use crate::$original as original;
            use original::{NoseShape, PressureDragCurve, StoneyNose};
            use $steps as steps;

            /// A formula's value or refusal; a test that passes has the value +0.
            pub fn formula(which: Formula, [a, b, c, d, e]: [f64; 5]) -> Result<f64, Answer> {
                let answer = match which {
                    Formula::Sqrt => Ok(steps::sqrt(a)),
                    Formula::Ln => Ok(steps::ln(a)),
                    Formula::Exp => Ok(steps::exp(a)),
                    Formula::Powf => Ok(steps::powf(a, b)),
                    Formula::Sin => Ok(steps::sin(a)),
                    Formula::CheckMachAny => original::check_mach_any(a).map(|()| 0.0),
                    Formula::CriticalReynolds => original::critical_reynolds(a),
                    Formula::IncompressibleSkinFriction => original::incompressible_skin_friction(a, b),
                    Formula::SkinFrictionCoefficient => original::skin_friction_coefficient(a, b, c),
                    Formula::BodyFrictionFormFactor => original::body_friction_form_factor(a),
                    Formula::StagnationPressureRatio => original::stagnation_pressure_ratio(a),
                    Formula::StagnationDragCoefficient => original::stagnation_drag_coefficient(a),
                    Formula::BaseDragCoefficient => original::base_drag_coefficient(a),
                    Formula::JointPressureDragCoefficient => original::joint_pressure_drag_coefficient(a),
                    Formula::BoattailFactor => original::boattail_factor(a, b, c),
                    Formula::SubsonicPressureDragCoefficient => original::subsonic_pressure_drag_coefficient(a, b, c, d, e),
                    Formula::OgivePressureDragFactor => original::ogive_pressure_drag_factor(a),
                    Formula::FinenessScaledPressureDrag => original::fineness_scaled_pressure_drag(a, b, c),
                    Formula::EllipsoidSubsonicPressureDrag => original::ellipsoid_subsonic_pressure_drag(a, b),
                    Formula::StagnationRatio => Ok(original::stagnation_ratio(a)),
                    Formula::VonKarman => Ok(haack_parameter(NoseShape::VON_KARMAN)),
                    Formula::LvHaack => Ok(haack_parameter(NoseShape::LV_HAACK)),
                };
                answer.map_err(Answer::from)
            }

            fn haack_parameter(shape: NoseShape) -> f64 {
                match shape {
                    NoseShape::Haack { parameter } => parameter,
                    other => panic!("{other:?} is no Haack series"),
                }
            }

            /// "0 conical, 1 ogive, 2 elliptical, 3 power, 4 parabolic, 5 Haack"; the parameter is
            /// not used for 0 and 2.
            pub fn shape_of(number: u64, parameter: f64) -> NoseShape {
                match number {
                    0 => NoseShape::Conical {},
                    1 => NoseShape::Ogive {
                        radius_ratio: parameter,
                    },
                    2 => NoseShape::Elliptical {},
                    3 => NoseShape::PowerSeries {
                        exponent: parameter,
                    },
                    4 => NoseShape::ParabolicSeries { parameter },
                    5 => NoseShape::Haack { parameter },
                    _ => unreachable!("there are six shapes"),
                }
            }

            /// The shape's number and parameter, 0 where it has none.
            pub fn of_shape(shape: NoseShape) -> (u64, f64) {
                match shape {
                    NoseShape::Conical {} => (0, 0.0),
                    NoseShape::Ogive { radius_ratio } => (1, radius_ratio),
                    NoseShape::Elliptical {} => (2, 0.0),
                    NoseShape::PowerSeries { exponent } => (3, exponent),
                    NoseShape::ParabolicSeries { parameter } => (4, parameter),
                    NoseShape::Haack { parameter } => (5, parameter),
                }
            }

            /// A curve by its shape's number, `STEP` among them.
            pub fn curve(
                shape: u64,
                [parameter, fineness, angle]: [f64; 3],
            ) -> Result<PressureDragCurve, Answer> {
                if shape == super::STEP {
                    return Ok(PressureDragCurve::step());
                }
                let built = PressureDragCurve::new(shape_of(shape, parameter), fineness, angle);
                built.map_err(Answer::from)
            }

            /// The lookup in a measured nose's table, value and slope. It panics at NaN.
            pub fn lookup(nose: usize, mach: f64) -> (f64, f64) {
                StoneyNose::ALL[nose].value_and_slope(mach)
            }
        }
    };
}

build!(
    /// With the fixed steps (docs/REFERENCE.md, Fixed steps).
    fixed_steps,
    original_fixed,
    crate::fixed
);
build!(
    /// With the fixed steps, each lookup in a table noted.
    watched,
    original_watched,
    crate::fixed
);
build!(
    /// As it stands.
    plain,
    original_plain,
    crate::builds::machine
);

/// The machine's own steps, under the fixed ones' names.
pub mod machine {
    pub fn sqrt(x: f64) -> f64 {
        x.sqrt()
    }
    pub fn ln(x: f64) -> f64 {
        x.ln()
    }
    pub fn exp(x: f64) -> f64 {
        x.exp()
    }
    pub fn powf(x: f64, y: f64) -> f64 {
        x.powf(y)
    }
    pub fn sin(x: f64) -> f64 {
        x.sin()
    }
}
