//! The sheet's calls with their arguments, on either side.

use cobalnis::words::{self, PartWords, SheetWords};

use crate::mirror;
use crate::model::Lent;

/// The calls, as a row counts them.
pub const CALLS: [&str; 7] = [
    "open",
    "insert",
    "replace",
    "remove",
    "set column",
    "ignite",
    "burnout",
];

/// A call with its arguments.
#[derive(Debug, Clone, Copy)]
pub enum Call {
    Open,
    Insert(usize, PartWords),
    Replace(usize, PartWords),
    Remove(usize),
    SetColumn(usize, f64, f64),
    Ignite(f64),
    Burnout,
}

impl Call {
    pub fn row(self) -> usize {
        match self {
            Call::Open => 0,
            Call::Insert(..) => 1,
            Call::Replace(..) => 2,
            Call::Remove(..) => 3,
            Call::SetColumn(..) => 4,
            Call::Ignite(..) => 5,
            Call::Burnout => 6,
        }
    }

    pub fn of_port(
        self,
        sheet: &mut SheetWords,
        cells: &mut [f64],
        marks: &mut [u8],
    ) -> (u32, u64) {
        match self {
            Call::Open => words::open(sheet, cells, marks),
            Call::Insert(place, part) => words::insert(sheet, place, &part, cells, marks),
            Call::Replace(place, part) => words::replace(sheet, place, &part, cells, marks),
            Call::Remove(place) => words::remove(sheet, place, cells, marks),
            Call::SetColumn(at, mach, reynolds) => {
                words::set_column(sheet, at, mach, reynolds, cells, marks)
            }
            Call::Ignite(n) => words::ignite(sheet, n, cells, marks),
            Call::Burnout => words::burnout(sheet, cells, marks),
        }
    }

    pub fn of_model(self, sheet: &mut SheetWords, lent: Lent) -> (u32, u64) {
        match self {
            Call::Open => mirror::open(sheet, lent),
            Call::Insert(place, part) => mirror::insert(sheet, place, &part, lent),
            Call::Replace(place, part) => mirror::replace(sheet, place, &part, lent),
            Call::Remove(place) => mirror::remove(sheet, place, lent),
            Call::SetColumn(at, mach, reynolds) => {
                mirror::set_column(sheet, at, mach, reynolds, lent)
            }
            Call::Ignite(n) => mirror::ignite(sheet, n, lent),
            Call::Burnout => mirror::burnout(sheet, lent),
        }
    }
}
