//! The drag of a model rocket's noses, skin and base, and the sheet that adds them: the
//! functions of docs/REFERENCE.md, proved for all inputs, for programs in Rust.
//!
//! Every function takes every input and answers a value or a [`Refusal`]; none waits or allocates
//! behind your back (the few that answer a `Vec` or a `String` aside). The one panic is for an
//! archive that this package isn't for: the first call looks, and [`fits_archive`] asks beforehand.
//!
//! **Threads.** The library keeps nothing between calls: its functions may be called on any number
//! of threads at once, and a [`Sheet`], which holds what it was lent, is `Send` and `Sync`.
//!
//! **Platforms.** The archive is for Linux on x86-64, version 2 of it and later. It reckons in the
//! processor's default mode: rounding to nearest, subnormals kept. A program that changes the mode,
//! or is linked with C's `-ffast-math`, which makes subnormals 0 at its start, gets other numbers.
//!
//! **Aliasing.** What C asks of its pointers, Rust's references already say, so nothing is asked of
//! you.
//!
//! **NaN.** Any NaN is taken, and one that is answered or stands in a cell of a [`Sheet`] is always
//! the one of bits 7ff8000000000000. Only cells that the functions of [`words`] were lent are as C
//! writes them, and a NaN's bits are any there.
//!
//! - [`formulas`]: one function for each formula, under the original's name.
//! - [`Curve`]: the pressure drag of a nose against Mach number; [`Nose`]: Stoney's measured ones,
//!   with [`Nose::walk`] for a whole flight. Both tell where a table is held past its last point.
//! - [`Sheet`]: parts and columns, and the drag of each part at each column with its mark, kept right
//!   by edits, burning or coasting, with up to four finishes side by side; [`Row`]: its rows by name.
//! - [`classify`]: which of IEEE 754's five classes any 64 bits are in.
//! - [`Settings::read`], [`Part::read`], [`print()`]: cards.
//! - [`words`]: the same by numbers and words, as the C interface has them.

#![deny(missing_docs)]

mod c;
mod class;
mod curve;
pub mod formulas;
mod refusal;
mod rows;
mod sheet;
mod walk;

pub use c::fits_archive;
pub use class::{classify, FloatClass};
pub use curve::{takes_cone_formula, Curve, Drag, Nose, Reading, Shape};
pub use formulas::Formula;
pub use refusal::{check_dimension, Quantity, Refusal};
pub use rows::{Cells, Row, RowName};
pub use sheet::{print, rows, Column, Part, Settings, Sheet, CELLS, COLUMNS, FINISHES, PLACES};
pub use walk::{Walk, QUERIES};

/// The C functions themselves, for programs that measure them.
#[doc(hidden)]
pub use c::raw;

/// The C interface in safe Rust: statuses, floats by their bits, parts and sheets by their words.
/// The types above are made of these; a host has them for sheets that it keeps as plain memory.
pub mod words {
    pub use crate::c::{
        burnout, check_dimension, classify, curve, formula, ignite, insert, nose_lookup,
        nose_point, nose_walk, open, print, read_part, read_settings, remove, replace, set_column,
        takes_cone_formula, PartWords, SheetWords, COLUMNS_AT, FINENESS_AT, FINISHES_AT,
        FIRST_PART, MACHS_AT, NOZZLE_AT, PARTS_AT, PART_WORDS, REYNOLDS_AT, ROUGHNESSES_AT,
        SHEET_WORDS,
    };
    pub use crate::sheet::LONGEST_TEXT;
}

/// The README's example is compiled and run as a test.
#[cfg(doctest)]
#[doc = include_str!("../README.md")]
struct Readme;
