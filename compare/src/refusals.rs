//! Refusal numbers and codes (docs/REFERENCE.md, Refusals and Codes) for the original's errors, and
//! an answer with them.

use crate::answer_bits;
use crate::{original_fixed, original_plain, original_watched};

/// The code (docs/REFERENCE.md, Codes) of each of the Rust's `what` texts, 1 to 22 in order.
pub const CODES: [&str; 22] = [
    "Mach number",
    "fineness ratio",
    "joint angle",
    "power series exponent",
    "parabolic series parameter",
    "Haack series parameter",
    "ellipsoid fineness ratio",
    "Mach number below 0.8 for an ellipsoid's measured pressure drag",
    "ogive κ (tangent-ogive radius over arc radius)",
    "fineness-3 pressure drag",
    "blunt-cylinder pressure drag",
    "transonic lower bound",
    "pressure drag at rest",
    "pressure drag at the lower bound",
    "pressure drag slope at the lower bound",
    "Mach number below the transonic lower bound",
    "Reynolds number",
    "relative roughness",
    "body fineness ratio",
    "boattail length",
    "boattail aft diameter",
    "boattail fore diameter",
];

/// The code of a `what`.
pub fn code(what: &str) -> u8 {
    let place = CODES.iter().position(|known| *known == what);
    place.unwrap_or_else(|| panic!("there is no code for `{what}`")) as u8 + 1
}

/// An answer: refusal number (0 accepted), code (0 none), and the bits of
/// the value, or of the value refused (0 where refusal 2 and 3 carry none).
#[derive(Debug, Clone, Copy, PartialEq, Eq)]
pub struct Answer {
    pub refusal: u8,
    pub code: u8,
    pub bits: u64,
}

impl Answer {
    /// Accepted, with these bits.
    pub fn accepted(bits: u64) -> Self {
        Self {
            refusal: 0,
            code: 0,
            bits,
        }
    }

    /// Accepted, with this number.
    pub fn value(x: f64) -> Self {
        Self::accepted(answer_bits(x))
    }

    /// A number or the original's error.
    pub fn of<E: Into<Answer>>(result: Result<f64, E>) -> Self {
        match result {
            Ok(x) => Self::value(x),
            Err(error) => error.into(),
        }
    }

    /// The answer of a test, which carries no value when it passes.
    pub fn of_check<E: Into<Answer>>(result: Result<(), E>) -> Self {
        match result {
            Ok(()) => Self::accepted(0),
            Err(error) => error.into(),
        }
    }

    /// A refusal without a code and a value.
    pub fn refused(number: u8) -> Self {
        Self {
            refusal: number,
            code: 0,
            bits: 0,
        }
    }

    /// Refusal 1.
    fn domain(what: &str, value: f64) -> Self {
        Self {
            refusal: 1,
            code: code(what),
            bits: answer_bits(value),
        }
    }

    /// `Unsupported` is refusal 2 for an ogive and 3 for a Haack series, which its text tells apart.
    fn unsupported(text: &str) -> Self {
        if text.starts_with("an ogive of radius ratio") {
            Self::refused(2)
        } else if text.starts_with("a Haack series nose") {
            Self::refused(3)
        } else {
            panic!("there is no number for `{text}`")
        }
    }
}

/// The errors of a build of the original as answers.
macro_rules! errors_of {
    ($($original:ident),*) => {
        $(
            impl From<$original::AeroError> for Answer {
                #[cold]
                fn from(error: $original::AeroError) -> Self {
                    match error {
                        $original::AeroError::Domain { what, value } => Self::domain(what, value),
                        $original::AeroError::Unsupported(text) => Self::unsupported(&text),
                    }
                }
            }
        )*
    };
}

errors_of!(original_fixed, original_watched, original_plain);
