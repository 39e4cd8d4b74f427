//! Nose shapes, their pressure drag curves, and Stoney's nine measured noses.

use crate::{c, Refusal};

/// A nose's shape.
#[derive(Debug, Clone, Copy, PartialEq)]
pub enum Shape {
    /// A cone.
    Conical,
    /// An arc of a circle turned about the axis.
    Ogive {
        /// The arc's radius over that of the tangent ogive: 1 is tangent, more is secant.
        radius_ratio: f64,
    },
    /// Half an ellipsoid.
    Elliptical,
    /// A radius that grows as a power of the length.
    PowerSeries {
        /// The power, from 0 to 1: 1 is a cone.
        exponent: f64,
    },
    /// A piece of a parabola.
    ParabolicSeries {
        /// From 0, a cone, to 1, the whole parabola.
        parameter: f64,
    },
    /// A nose of the Haack series.
    Haack {
        /// From 0, von Kármán's, to 1/3, the LV-Haack.
        parameter: f64,
    },
}

impl Shape {
    /// The Haack series nose of least drag for its length and diameter.
    pub const VON_KARMAN: Self = Self::Haack { parameter: 0.0 };
    /// The Haack series nose of least drag for its length and volume.
    pub const LV_HAACK: Self = Self::Haack {
        parameter: 1.0 / 3.0,
    };

    /// The shape's number and parameter, which is 0 where it has none.
    pub(crate) fn number_and_parameter(self) -> (u64, f64) {
        match self {
            Self::Conical => (0, 0.0),
            Self::Ogive { radius_ratio } => (1, radius_ratio),
            Self::Elliptical => (2, 0.0),
            Self::PowerSeries { exponent } => (3, exponent),
            Self::ParabolicSeries { parameter } => (4, parameter),
            Self::Haack { parameter } => (5, parameter),
        }
    }

    /// The shape of a number up to 5.
    pub(crate) fn of(number: u64, parameter: f64) -> Option<Self> {
        Some(match number {
            0 => Self::Conical,
            1 => Self::Ogive {
                radius_ratio: parameter,
            },
            2 => Self::Elliptical,
            3 => Self::PowerSeries {
                exponent: parameter,
            },
            4 => Self::ParabolicSeries { parameter },
            5 => Self::Haack { parameter },
            _ => return None,
        })
    }
}

/// Whether a nose of this shape takes any of the closed form for cones.
#[must_use]
pub fn takes_cone_formula(shape: Shape) -> bool {
    let (number, parameter) = shape.number_and_parameter();
    // The number is one of the six, so the status is 0.
    c::takes_cone_formula(number, parameter).1 == 1
}

/// The number that stands for the step where the C interface asks for a shape.
const STEP: u64 = 6;

/// The pressure drag of a nose, a shoulder or a step against Mach number.
///
/// The C interface keeps no curve: it builds one in each call. So ask [`Curve::coefficients`] for
/// many Mach numbers at once rather than [`Curve::coefficient`] for each.
#[derive(Debug, Clone, Copy, PartialEq)]
pub struct Curve {
    shape: u64,
    arguments: [f64; 3],
    rest: f64,
    low: f64,
}

impl Curve {
    /// The curve of a shape, its length over its rise in diameter, and the angle of the joint at
    /// its aft end in radians.
    pub fn new(shape: Shape, fineness_ratio: f64, joint_angle_rad: f64) -> Result<Self, Refusal> {
        let (number, parameter) = shape.number_and_parameter();
        Self::build(number, [parameter, fineness_ratio, joint_angle_rad])
    }

    /// A flat face.
    #[must_use]
    pub fn step() -> Self {
        match Self::build(STEP, [0.0; 3]) {
            Ok(curve) => curve,
            Err(_) => unreachable!("the step is never refused"),
        }
    }

    fn build(shape: u64, arguments: [f64; 3]) -> Result<Self, Refusal> {
        let (status, about) = c::curve(shape, arguments, &[], &mut [], &mut []);
        Refusal::of(status, about[0])?;
        Ok(Self {
            shape,
            arguments,
            rest: f64::from_bits(about[1]),
            low: f64::from_bits(about[2]),
        })
    }

    /// The coefficient at Mach 0.
    #[must_use]
    pub fn rest_coefficient(&self) -> f64 {
        self.rest
    }

    /// The Mach number from which the transonic method holds.
    #[must_use]
    pub fn transonic_lower_bound(&self) -> f64 {
        self.low
    }

    /// The coefficient at a Mach number.
    pub fn coefficient(&self, mach: f64) -> Result<f64, Refusal> {
        Ok(self.drag(mach)?.value)
    }

    /// The coefficient at each Mach number, or the refusal of the first one that is refused.
    pub fn coefficients(&self, machs: &[f64]) -> Result<Vec<f64>, Refusal> {
        let drags = self.drags(machs)?;
        Ok(drags.into_iter().map(|drag| drag.value).collect())
    }

    /// The coefficient at a Mach number, and whether a table was read for it beyond its last point.
    pub fn drag(&self, mach: f64) -> Result<Drag, Refusal> {
        let (mut bits, mut marks) = ([0], [0]);
        self.ask(&[mach], &mut bits, &mut marks)?;
        Ok(Drag::of(bits[0], marks[0]))
    }

    /// The same at each Mach number, or the refusal of the first one that is refused.
    pub fn drags(&self, machs: &[f64]) -> Result<Vec<Drag>, Refusal> {
        let (mut bits, mut marks) = (vec![0; machs.len()], vec![0; machs.len()]);
        self.ask(machs, &mut bits, &mut marks)?;
        let drags = bits.into_iter().zip(marks);
        Ok(drags.map(|(bits, mark)| Drag::of(bits, mark)).collect())
    }

    fn ask(&self, machs: &[f64], bits: &mut [u64], marks: &mut [u8]) -> Result<(), Refusal> {
        let (status, about) = c::curve(self.shape, self.arguments, machs, bits, marks);
        Refusal::of(status, about[0])
    }
}

/// A drag coefficient: a curve's, or a cell of a sheet with its mark.
#[derive(Debug, Clone, Copy, PartialEq)]
pub struct Drag {
    /// The coefficient.
    pub value: f64,
    /// Whether any table that was read for it was asked above its last Mach number, whatever the
    /// weight of what it answered.
    pub beyond: bool,
}

impl Drag {
    fn of(bits: u64, mark: u8) -> Self {
        Self {
            value: f64::from_bits(bits),
            beyond: mark != 0,
        }
    }
}

/// A nose that Stoney measured at fineness 3.
#[derive(Debug, Clone, Copy, PartialEq, Eq, Hash)]
pub enum Nose {
    /// Power series, exponent 1/4.
    PowerQuarter,
    /// Power series, exponent 1/2.
    PowerHalf,
    /// Power series, exponent 3/4.
    PowerThreeQuarters,
    /// Parabolic series, parameter 1/2.
    ParabolaHalf,
    /// Parabolic series, parameter 3/4.
    ParabolaThreeQuarters,
    /// Parabolic series, parameter 1.
    Parabola,
    /// Half an ellipsoid.
    Ellipsoid,
    /// Haack series, parameter 1/3.
    LvHaack,
    /// Haack series, parameter 0.
    VonKarman,
}

impl Nose {
    /// All nine, in the order of their numbers.
    pub const ALL: [Self; 9] = [
        Self::PowerQuarter,
        Self::PowerHalf,
        Self::PowerThreeQuarters,
        Self::ParabolaHalf,
        Self::ParabolaThreeQuarters,
        Self::Parabola,
        Self::Ellipsoid,
        Self::LvHaack,
        Self::VonKarman,
    ];

    /// Mach number and drag of a measured point, or refusal 8 past the last.
    pub fn point(self, place: usize) -> Result<(f64, f64), Refusal> {
        let (status, [mach, drag]) = c::nose_point(self as u32, place);
        Refusal::of(status, 0)?;
        Ok((f64::from_bits(mach), f64::from_bits(drag)))
    }

    /// All measured points, in rising Mach number.
    pub fn points(self) -> impl Iterator<Item = (f64, f64)> {
        (0..).map_while(move |place| self.point(place).ok())
    }

    /// The first measured Mach number.
    #[must_use]
    pub fn first_mach(self) -> f64 {
        f64::from_bits(self.lookup(0.0)[2])
    }

    /// Drag and slope between the points. At a finite Mach number from 0 up the drag is within
    /// 2^-50 of the exact broken line through the points, and on it at their Mach numbers.
    #[must_use]
    pub fn value_and_slope(self, mach: f64) -> (f64, f64) {
        let Reading { value, slope, .. } = self.reading(mach);
        (value, slope)
    }

    /// The same, and whether the Mach number is beyond the table.
    #[must_use]
    pub fn reading(self, mach: f64) -> Reading {
        let [value, slope, _, beyond] = self.lookup(mach);
        Reading {
            value: f64::from_bits(value),
            slope: f64::from_bits(slope),
            beyond: beyond != 0,
        }
    }

    fn lookup(self, mach: f64) -> [u64; 4] {
        // The number is one of the nine, so the status is 0.
        c::nose_lookup(self as u32, mach).1
    }
}

/// What a nose's table says at a Mach number.
#[derive(Debug, Clone, Copy, PartialEq)]
pub struct Reading {
    /// The drag.
    pub value: f64,
    /// How fast it grows with the Mach number; 0 beyond the last point.
    pub slope: f64,
    /// Whether the Mach number is above the table's last one, so that the last drag is held.
    pub beyond: bool,
}
