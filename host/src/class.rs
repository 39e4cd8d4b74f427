//! The five classes of IEEE 754.

use crate::c;

/// The class of an `f64`, by the exponent field and the significand field of its bits. Its number in
/// the C interface is its place here; include/cobalnis/numbers.h lists them in the same order, which
/// tests/numbers.rs holds them to.
#[derive(Debug, Clone, Copy, PartialEq, Eq)]
pub enum FloatClass {
    /// Either zero.
    Zero,
    /// Not zero, and smaller than 2^-1022.
    Subnormal,
    /// From 2^-1022 on, and finite.
    Normal,
    /// Either infinity.
    Infinity,
    /// No number, whatever its sign and its payload are.
    NaN,
}

impl FloatClass {
    /// All of them, in the order of their numbers.
    pub const ALL: [Self; 5] = [
        Self::Zero,
        Self::Subnormal,
        Self::Normal,
        Self::Infinity,
        Self::NaN,
    ];
}

/// The class of any 64 bits, whatever their sign and a NaN's payload are. It takes bits and not an
/// `f64`, since a signalling NaN may turn quiet on its way.
#[must_use]
pub fn classify(bits: u64) -> FloatClass {
    FloatClass::ALL[c::classify(bits) as usize]
}
