//! The formulas and their numbers, and one function for each, under the original's name and with its
//! order of arguments.

use crate::{c, Refusal};

macro_rules! numbered {
    ($($formula:ident $name:literal),* $(,)?) => {
        /// A formula. Its number in the C interface is its place here; include/cobalnis/numbers.h
        /// lists them in the same order, which tests/numbers.rs holds them to.
        #[derive(Debug, Clone, Copy, PartialEq, Eq)]
        pub enum Formula {
            $(#[doc = concat!("`", $name, "`.")] $formula),*
        }

        impl Formula {
            /// All of them, in the order of their numbers.
            pub const ALL: &'static [Self] = &[$(Self::$formula),*];

            /// The original's name.
            #[must_use]
            pub fn name(self) -> &'static str {
                match self {
                    $(Self::$formula => $name),*
                }
            }

            /// The formula of a number, if it has one.
            #[must_use]
            pub fn of(number: u32) -> Option<Self> {
                $(if number == Self::$formula as u32 {
                    return Some(Self::$formula);
                })*
                None
            }
        }
    };
}

numbered! {
    Sqrt "sqrt",
    Ln "ln",
    Exp "exp",
    Powf "powf",
    Sin "sin",
    CheckMachAny "check_mach_any",
    CriticalReynolds "critical_reynolds",
    IncompressibleSkinFriction "incompressible_skin_friction",
    SkinFrictionCoefficient "skin_friction_coefficient",
    BodyFrictionFormFactor "body_friction_form_factor",
    StagnationPressureRatio "stagnation_pressure_ratio",
    StagnationDragCoefficient "stagnation_drag_coefficient",
    BaseDragCoefficient "base_drag_coefficient",
    JointPressureDragCoefficient "joint_pressure_drag_coefficient",
    BoattailFactor "boattail_factor",
    SubsonicPressureDragCoefficient "subsonic_pressure_drag_coefficient",
    OgivePressureDragFactor "ogive_pressure_drag_factor",
    FinenessScaledPressureDrag "fineness_scaled_pressure_drag",
    EllipsoidSubsonicPressureDrag "ellipsoid_subsonic_pressure_drag",
    StagnationRatio "stagnation_ratio",
    VonKarman "VON_KARMAN",
    LvHaack "LV_HAACK",
}

impl Formula {
    /// The number that `words::formula` takes.
    #[must_use]
    pub fn number(self) -> u32 {
        self as u32
    }
}

/// A formula's answer, the arguments that it doesn't look at being 0.
fn ask<const N: usize>(formula: Formula, arguments: [f64; N]) -> Result<f64, Refusal> {
    let mut all = [0.0; 5];
    all[..N].copy_from_slice(&arguments);
    let (status, bits) = c::formula(formula.number(), all);
    Refusal::of(status, bits)?;
    Ok(f64::from_bits(bits))
}

/// One of the fixed steps, which refuse nothing.
fn step<const N: usize>(formula: Formula, arguments: [f64; N]) -> f64 {
    match ask(formula, arguments) {
        Ok(value) => value,
        Err(_) => unreachable!("a fixed step refuses nothing"),
    }
}

/// SQRT: the binary64 number nearest the exact root.
#[must_use]
pub fn sqrt(x: f64) -> f64 {
    step(Formula::Sqrt, [x])
}

/// LN.
#[must_use]
pub fn ln(x: f64) -> f64 {
    step(Formula::Ln, [x])
}

/// EXP.
#[must_use]
pub fn exp(y: f64) -> f64 {
    step(Formula::Exp, [y])
}

/// POW: `x` to the power `y`.
#[must_use]
pub fn powf(x: f64, y: f64) -> f64 {
    step(Formula::Powf, [x, y])
}

/// SIN.
#[must_use]
pub fn sin(x: f64) -> f64 {
    step(Formula::Sin, [x])
}

/// Passes a finite Mach number that isn't below 0.
pub fn check_mach_any(mach: f64) -> Result<(), Refusal> {
    ask(Formula::CheckMachAny, [mach]).map(|_| ())
}

/// The Reynolds number from which roughness decides the friction.
pub fn critical_reynolds(relative_roughness: f64) -> Result<f64, Refusal> {
    ask(Formula::CriticalReynolds, [relative_roughness])
}

/// Skin friction without the effect of speed.
pub fn incompressible_skin_friction(
    reynolds: f64,
    relative_roughness: f64,
) -> Result<f64, Refusal> {
    ask(
        Formula::IncompressibleSkinFriction,
        [reynolds, relative_roughness],
    )
}

/// Skin friction at a Mach number.
pub fn skin_friction_coefficient(
    reynolds: f64,
    relative_roughness: f64,
    mach: f64,
) -> Result<f64, Refusal> {
    ask(
        Formula::SkinFrictionCoefficient,
        [reynolds, relative_roughness, mach],
    )
}

/// The factor of a body's friction for its fineness.
pub fn body_friction_form_factor(fineness_ratio: f64) -> Result<f64, Refusal> {
    ask(Formula::BodyFrictionFormFactor, [fineness_ratio])
}

/// Stagnation pressure over dynamic pressure.
pub fn stagnation_pressure_ratio(mach: f64) -> Result<f64, Refusal> {
    ask(Formula::StagnationPressureRatio, [mach])
}

/// The drag of a blunt cylinder.
pub fn stagnation_drag_coefficient(mach: f64) -> Result<f64, Refusal> {
    ask(Formula::StagnationDragCoefficient, [mach])
}

/// The drag of a blunt end.
pub fn base_drag_coefficient(mach: f64) -> Result<f64, Refusal> {
    ask(Formula::BaseDragCoefficient, [mach])
}

/// The drag at rest of a joint of this angle, in radians.
pub fn joint_pressure_drag_coefficient(joint_angle_rad: f64) -> Result<f64, Refusal> {
    ask(Formula::JointPressureDragCoefficient, [joint_angle_rad])
}

/// A boattail's share of the base drag.
pub fn boattail_factor(
    length_m: f64,
    fore_diameter_m: f64,
    aft_diameter_m: f64,
) -> Result<f64, Refusal> {
    ask(
        Formula::BoattailFactor,
        [length_m, fore_diameter_m, aft_diameter_m],
    )
}

/// The drag between rest and the transonic method's lower bound.
pub fn subsonic_pressure_drag_coefficient(
    c_rest: f64,
    c_low: f64,
    slope_low: f64,
    mach_low: f64,
    mach: f64,
) -> Result<f64, Refusal> {
    ask(
        Formula::SubsonicPressureDragCoefficient,
        [c_rest, c_low, slope_low, mach_low, mach],
    )
}

/// An ogive's drag over that of a cone as long and wide.
pub fn ogive_pressure_drag_factor(kappa: f64) -> Result<f64, Refusal> {
    ask(Formula::OgivePressureDragFactor, [kappa])
}

/// The drag at fineness 3 scaled to another.
pub fn fineness_scaled_pressure_drag(
    c3: f64,
    c0: f64,
    fineness_ratio: f64,
) -> Result<f64, Refusal> {
    ask(
        Formula::FinenessScaledPressureDrag,
        [c3, c0, fineness_ratio],
    )
}

/// An elliptical nose's drag below Mach 0.8.
pub fn ellipsoid_subsonic_pressure_drag(fineness_ratio: f64, mach: f64) -> Result<f64, Refusal> {
    ask(
        Formula::EllipsoidSubsonicPressureDrag,
        [fineness_ratio, mach],
    )
}

/// [`stagnation_pressure_ratio`] without its test.
#[must_use]
pub fn stagnation_ratio(mach: f64) -> f64 {
    step(Formula::StagnationRatio, [mach])
}
