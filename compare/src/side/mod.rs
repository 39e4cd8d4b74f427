//! Port and original side by side, on the same inputs: what the program `side_by_side` runs.
//!
//! The port is asked by `cobalnis::words`, the other side by `crate::mirror`: the original with the
//! fixed steps, and the models of the sheet and the cards over it.

pub mod asked;
pub mod cards;
pub mod curves;
pub mod formulas;
pub mod sheets;
pub mod tally;
pub mod walks;
