//! Refusals: their numbers and the codes of refusal 1 (docs/REFERENCE.md, Refusals and Codes), and
//! their plain words.

use std::error::Error;
use std::fmt;

use crate::c;
use crate::sheet::{COLUMNS, FINISHES, PLACES};
use crate::walk::QUERIES;

/// Why a call was refused. Nothing was changed by it.
///
/// Its words are those of the table in README.md, "What a refusal means at the table".
#[derive(Debug, Clone, Copy)]
#[must_use]
#[non_exhaustive]
pub enum Refusal {
    /// 1: a number that no formula takes.
    Domain {
        /// What the number was given as.
        quantity: Quantity,
        /// The number.
        value: f64,
    },
    /// 2: an ogive's radius ratio is below 1, infinite or NaN.
    OgiveRatio,
    /// 3: a Haack parameter is above 1/3.
    HaackAbove,
    /// 4: the bytes end inside a card, or before it.
    Ended,
    /// 5: a reserved bit stands, or a shape isn't one of the six.
    Reserved,
    /// 6: a field of the card is missing or doesn't belong there.
    Field,
    /// 7: more than [`COLUMNS`] columns.
    ManyColumns,
    /// 8: no such place, column or point.
    NoPlace,
    /// 9: more than [`PLACES`] parts.
    ManyParts,
    /// 10: too few cells or marks, or more than [`QUERIES`] Mach numbers in a walk.
    FewCells,
    /// 11: a size outside what the clubs allow.
    HouseInterval,
    /// 16: a walk's Mach number is below the one before it.
    FallingMach,
    /// 19: no finish, or more than [`FINISHES`].
    FinishCount,
}

impl Refusal {
    /// A status and the bits of a value as a refusal, or nothing where the status is 0.
    #[inline]
    pub(crate) fn of(status: u32, bits: u64) -> Result<(), Self> {
        if status == 0 {
            return Ok(());
        }
        Err(Self::refused(status, bits))
    }

    /// The refusal of a status that isn't 0; kept apart, so that an accepted call tests no more.
    #[cold]
    #[inline(never)]
    fn refused(status: u32, bits: u64) -> Self {
        match status as u8 {
            1 => Self::Domain {
                quantity: Quantity::of(status >> 8),
                value: f64::from_bits(bits),
            },
            2 => Self::OgiveRatio,
            3 => Self::HaackAbove,
            4 => Self::Ended,
            5 => Self::Reserved,
            6 => Self::Field,
            7 => Self::ManyColumns,
            8 => Self::NoPlace,
            9 => Self::ManyParts,
            10 => Self::FewCells,
            11 => Self::HouseInterval,
            16 => Self::FallingMach,
            19 => Self::FinishCount,
            number => unreachable!("an archive of this layout has no refusal {number}"),
        }
    }

    /// Its number (docs/REFERENCE.md, Refusals).
    #[must_use]
    pub const fn number(&self) -> u8 {
        match self {
            Self::Domain { .. } => 1,
            Self::OgiveRatio => 2,
            Self::HaackAbove => 3,
            Self::Ended => 4,
            Self::Reserved => 5,
            Self::Field => 6,
            Self::ManyColumns => 7,
            Self::NoPlace => 8,
            Self::ManyParts => 9,
            Self::FewCells => 10,
            Self::HouseInterval => 11,
            Self::FallingMach => 16,
            Self::FinishCount => 19,
        }
    }

    /// For number 1 the quantity's code, 1 to 22 (docs/REFERENCE.md, Codes), else 0.
    #[must_use]
    pub const fn code(&self) -> u8 {
        match self {
            Self::Domain { quantity, .. } => quantity.code(),
            _ => 0,
        }
    }

    /// For number 1 the value refused, else 0.
    #[must_use]
    pub const fn value(&self) -> f64 {
        match self {
            Self::Domain { value, .. } => *value,
            _ => 0.0,
        }
    }
}

/// Two refusals are equal with equal bits of their values: a NaN equals itself here.
impl PartialEq for Refusal {
    fn eq(&self, other: &Self) -> bool {
        let key = |refusal: &Self| (refusal.number(), refusal.code(), refusal.value().to_bits());
        key(self) == key(other)
    }
}

impl Eq for Refusal {}

impl fmt::Display for Refusal {
    fn fmt(&self, f: &mut fmt::Formatter<'_>) -> fmt::Result {
        f.write_str(match self {
            Self::Domain { quantity, value } => {
                return write!(f, "a number that no formula takes: {quantity} {value}")
            }
            Self::OgiveRatio => "an ogive's radius ratio is not a finite number of at least 1",
            Self::HaackAbove => "a Haack parameter is above 1/3",
            Self::Ended => "the card is cut short",
            Self::Reserved => "a bit or a shape that no card has",
            Self::Field => {
                "the reference diameter or the body fineness is missing, a shape parameter is \
                 missing or not wanted, or the roughness is given twice, alone and by finish"
            }
            Self::ManyColumns => return write!(f, "more than {COLUMNS} columns"),
            Self::NoPlace => {
                "no such place in the design, no such column, or no such point of a nose"
            }
            Self::ManyParts => return write!(f, "a {}th part", PLACES + 1),
            Self::FewCells => {
                return write!(
                    f,
                    "too few cells or marks were lent, or more than {QUERIES} Mach numbers asked \
                     in one walk"
                )
            }
            Self::HouseInterval => {
                "a size outside what the clubs allow: D in 0.001 to 100, roughness 0 to 1 (a \
                 part's own too), L and d 0 to 100, w 0 to 10000; a nozzle diameter 0 to 100"
            }
            Self::FallingMach => "a Mach number of a walk is below the one before",
            Self::FinishCount => return write!(f, "no finish, or more than {FINISHES}"),
        })
    }
}

impl Error for Refusal {}

/// What refusal 1 is about, with its code as the number.
#[derive(Debug, Clone, Copy, PartialEq, Eq, Hash)]
#[non_exhaustive]
#[repr(u8)]
pub enum Quantity {
    /// A Mach number.
    Mach = 1,
    /// A fineness ratio.
    Fineness = 2,
    /// A joint angle.
    JointAngle = 3,
    /// A power series exponent.
    PowerExponent = 4,
    /// A parabolic series parameter.
    ParabolicParameter = 5,
    /// A Haack series parameter.
    HaackParameter = 6,
    /// An ellipsoid's fineness ratio.
    EllipsoidFineness = 7,
    /// A Mach number of an ellipsoid's low-speed drag.
    EllipsoidMach = 8,
    /// An ogive's kappa.
    OgiveKappa = 9,
    /// The pressure drag at fineness 3.
    FinenessThreeDrag = 10,
    /// A blunt cylinder's pressure drag.
    BluntDrag = 11,
    /// A transonic lower bound.
    TransonicLowerBound = 12,
    /// The pressure drag at rest.
    DragAtRest = 13,
    /// The pressure drag at the lower bound.
    DragAtLowerBound = 14,
    /// The slope of the drag at the lower bound.
    SlopeAtLowerBound = 15,
    /// A Mach number below the lower bound.
    MachBelowLowerBound = 16,
    /// A Reynolds number.
    Reynolds = 17,
    /// A relative roughness.
    Roughness = 18,
    /// The body's fineness ratio.
    BodyFineness = 19,
    /// A boattail's length.
    BoattailLength = 20,
    /// A boattail's aft diameter.
    BoattailAft = 21,
    /// A boattail's fore diameter.
    BoattailFore = 22,
}

impl Quantity {
    /// All of them, by their codes.
    pub const ALL: [Self; 22] = [
        Self::Mach,
        Self::Fineness,
        Self::JointAngle,
        Self::PowerExponent,
        Self::ParabolicParameter,
        Self::HaackParameter,
        Self::EllipsoidFineness,
        Self::EllipsoidMach,
        Self::OgiveKappa,
        Self::FinenessThreeDrag,
        Self::BluntDrag,
        Self::TransonicLowerBound,
        Self::DragAtRest,
        Self::DragAtLowerBound,
        Self::SlopeAtLowerBound,
        Self::MachBelowLowerBound,
        Self::Reynolds,
        Self::Roughness,
        Self::BodyFineness,
        Self::BoattailLength,
        Self::BoattailAft,
        Self::BoattailFore,
    ];

    /// The quantity of a code that the archive answers.
    fn of(code: u32) -> Self {
        match (code as usize).checked_sub(1) {
            Some(place) if place < Self::ALL.len() => Self::ALL[place],
            _ => unreachable!("an archive of this layout has no code {code}"),
        }
    }

    /// Its code (docs/REFERENCE.md, Codes).
    #[must_use]
    pub const fn code(self) -> u8 {
        self as u8
    }
}

impl fmt::Display for Quantity {
    fn fmt(&self, f: &mut fmt::Formatter<'_>) -> fmt::Result {
        f.write_str(match self {
            Self::Mach => "Mach number",
            Self::Fineness => "fineness ratio",
            Self::JointAngle => "joint angle",
            Self::PowerExponent => "power series exponent",
            Self::ParabolicParameter => "parabolic series parameter",
            Self::HaackParameter => "Haack series parameter",
            Self::EllipsoidFineness => "ellipsoid's fineness ratio",
            Self::EllipsoidMach => "Mach number of an ellipsoid's low-speed drag",
            Self::OgiveKappa => "ogive's kappa",
            Self::FinenessThreeDrag => "pressure drag at fineness 3",
            Self::BluntDrag => "blunt cylinder's pressure drag",
            Self::TransonicLowerBound => "transonic lower bound",
            Self::DragAtRest => "pressure drag at rest",
            Self::DragAtLowerBound => "pressure drag at the lower bound",
            Self::SlopeAtLowerBound => "slope of the drag at the lower bound",
            Self::MachBelowLowerBound => "Mach number below the lower bound",
            Self::Reynolds => "Reynolds number",
            Self::Roughness => "relative roughness",
            Self::BodyFineness => "body fineness ratio",
            Self::BoattailLength => "boattail's length",
            Self::BoattailAft => "boattail's aft diameter",
            Self::BoattailFore => "boattail's fore diameter",
        })
    }
}

/// Passes a finite number above 0, and a zero of either sign where `allow_zero` says so.
pub fn check_dimension(what: Quantity, value: f64, allow_zero: bool) -> Result<(), Refusal> {
    let (status, bits) = c::check_dimension(u32::from(what.code()), value, allow_zero);
    Refusal::of(status, bits)
}
