//! A whole flight along one of Stoney's tables: the drag at many Mach numbers in one pass.

use std::iter::{Copied, Zip};
use std::slice::Iter;

use crate::{c, Nose, Refusal};

/// The most Mach numbers that one walk takes.
pub const QUERIES: usize = 256;

/// What a walk answered: a drag for each Mach number, to go through as pairs, and how many
/// comparisons it took.
#[derive(Debug, Clone, Copy, PartialEq)]
pub struct Walk<'a> {
    machs: &'a [f64],
    drags: &'a [f64],
    compared: usize,
}

impl<'a> Walk<'a> {
    /// The Mach numbers that were asked.
    #[must_use]
    pub fn machs(&self) -> &'a [f64] {
        self.machs
    }

    /// The drags, one for each Mach number.
    #[must_use]
    pub fn drags(&self) -> &'a [f64] {
        self.drags
    }

    /// How many times a Mach number was set against a point of the table: at most as many as there
    /// are Mach numbers and points together.
    #[must_use]
    pub fn compared(&self) -> usize {
        self.compared
    }

    /// Mach number and drag, one after the other.
    pub fn iter(&self) -> Zip<Copied<Iter<'a, f64>>, Copied<Iter<'a, f64>>> {
        self.machs.iter().copied().zip(self.drags.iter().copied())
    }
}

impl<'a> IntoIterator for Walk<'a> {
    type Item = (f64, f64);
    type IntoIter = Zip<Copied<Iter<'a, f64>>, Copied<Iter<'a, f64>>>;

    fn into_iter(self) -> Self::IntoIter {
        self.iter()
    }
}

impl<'a> IntoIterator for &Walk<'a> {
    type Item = (f64, f64);
    type IntoIter = Zip<Copied<Iter<'a, f64>>, Copied<Iter<'a, f64>>>;

    fn into_iter(self) -> Self::IntoIter {
        self.iter()
    }
}

impl Nose {
    /// The drag at each of up to [`QUERIES`] Mach numbers, each at or above the one before, in one
    /// walk along the table. Each drag is the value that [`Nose::value_and_slope`] gives, bit for
    /// bit. They are written to the first cells of `drags`; the cells after them stay.
    ///
    /// Refused, with no cell written: 10 for more Mach numbers than that or fewer cells than Mach
    /// numbers, then 1 for the first Mach number that is negative or not finite, then 16 for one
    /// below its forerunner.
    ///
    /// ```
    /// # fn main() -> Result<(), cobalnis::Refusal> {
    /// let machs = [0.5, 0.9, 1.0, 1.1];
    /// let mut drags = [0.0; 4];
    /// let walk = cobalnis::Nose::VonKarman.walk(&machs, &mut drags)?;
    /// for (mach, drag) in walk {
    ///     println!("{mach} {drag}");
    /// }
    /// assert_eq!(walk.drags()[2], 0.0253);
    /// # Ok(())
    /// # }
    /// ```
    pub fn walk<'a>(self, machs: &'a [f64], drags: &'a mut [f64]) -> Result<Walk<'a>, Refusal> {
        let mut compared = 0;
        let (status, bits) = c::nose_walk(self as u32, machs, drags, &mut compared);
        Refusal::of(status, bits)?;
        Ok(Walk {
            machs,
            drags: &drags[..machs.len()],
            compared,
        })
    }
}
