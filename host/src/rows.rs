//! The rows of a sheet by their names, each cell with its mark beside it.

use std::fmt;
use std::iter::Zip;
use std::slice::Iter;

use crate::{Drag, Sheet, PLACES};

/// Which row of a sheet: a part's by its place, the nose being 0, a friction or total row by its
/// finish, the first being 0, or the base row.
#[derive(Debug, Clone, Copy, PartialEq, Eq, Hash)]
pub enum RowName {
    /// The pressure drag of the part at a place.
    Part(usize),
    /// The skin friction of the whole body in a finish.
    Friction(usize),
    /// The drag of the blunt end, less what the nozzle fills of it.
    Base,
    /// All part rows, a finish's friction, and the base.
    Total(usize),
}

/// A row of a sheet: a cell for each column, and beside each cell its mark. It is displayed as the
/// program `sheet` names it.
#[derive(Debug, Clone, Copy, PartialEq)]
pub struct Row<'a> {
    name: RowName,
    finishes: usize,
    values: &'a [f64],
    marks: &'a [u8],
}

impl<'a> Row<'a> {
    /// Which row it is.
    #[must_use]
    pub fn name(&self) -> RowName {
        self.name
    }

    /// The cells, one for each column.
    #[must_use]
    pub fn values(&self) -> &'a [f64] {
        self.values
    }

    /// The marks, one for each column.
    #[must_use]
    pub fn marks(&self) -> &'a [u8] {
        self.marks
    }

    /// Each cell with its mark, column by column.
    #[must_use]
    pub fn iter(&self) -> Cells<'a> {
        Cells(self.values.iter().zip(self.marks))
    }
}

impl fmt::Display for Row<'_> {
    fn fmt(&self, f: &mut fmt::Formatter<'_>) -> fmt::Result {
        match self.name {
            RowName::Part(place) => write!(f, "part {place}"),
            RowName::Friction(finish) if self.finishes > 1 => write!(f, "friction {finish}"),
            RowName::Friction(_) => f.write_str("friction"),
            RowName::Base => f.write_str("base"),
            RowName::Total(finish) if self.finishes > 1 => write!(f, "total {finish}"),
            RowName::Total(_) => f.write_str("total"),
        }
    }
}

/// Goes through the cells of a row.
#[derive(Debug, Clone)]
pub struct Cells<'a>(Zip<Iter<'a, f64>, Iter<'a, u8>>);

impl Iterator for Cells<'_> {
    type Item = Drag;

    fn next(&mut self) -> Option<Drag> {
        let (value, mark) = self.0.next()?;
        Some(Drag {
            value: *value,
            beyond: *mark != 0,
        })
    }

    fn size_hint(&self) -> (usize, Option<usize>) {
        self.0.size_hint()
    }
}

impl ExactSizeIterator for Cells<'_> {}

impl<'a> IntoIterator for Row<'a> {
    type Item = Drag;
    type IntoIter = Cells<'a>;

    fn into_iter(self) -> Cells<'a> {
        self.iter()
    }
}

impl<'a> IntoIterator for &Row<'a> {
    type Item = Drag;
    type IntoIter = Cells<'a>;

    fn into_iter(self) -> Cells<'a> {
        self.iter()
    }
}

impl Sheet<'_> {
    /// A row by its name; none where the sheet has no such part or finish.
    #[must_use]
    pub fn row(&self, name: RowName) -> Option<Row<'_>> {
        let finishes = self.finish_count();
        let (stands, number) = match name {
            RowName::Part(place) => (place < self.part_count(), place),
            RowName::Friction(finish) => (finish < finishes, PLACES.wrapping_add(finish)),
            RowName::Base => (true, PLACES + finishes),
            RowName::Total(finish) => (
                finish < finishes,
                (PLACES + finishes + 1).wrapping_add(finish),
            ),
        };
        stands.then(|| Row {
            name,
            finishes,
            values: self.span(number, self.cells()),
            marks: self.span(number, self.marks()),
        })
    }

    /// A row's cells or marks, by its number.
    fn span<'a, T>(&self, row: usize, all: &'a [T]) -> &'a [T] {
        let count = self.column_count();
        &all[row * count..(row + 1) * count]
    }

    /// The pressure drag of the part at a place, a cell for each column.
    #[must_use]
    pub fn part_row(&self, place: usize) -> Option<&[f64]> {
        Some(self.row(RowName::Part(place))?.values)
    }

    /// The marks of the part at a place, one for each column.
    #[must_use]
    pub fn part_marks(&self, place: usize) -> Option<&[u8]> {
        Some(self.row(RowName::Part(place))?.marks)
    }

    /// Skin friction of the whole body in a finish, the first being 0.
    #[must_use]
    pub fn friction(&self, finish: usize) -> Option<&[f64]> {
        Some(self.row(RowName::Friction(finish))?.values)
    }

    /// Drag of the blunt end, less what the nozzle fills of it.
    #[must_use]
    pub fn base(&self) -> &[f64] {
        self.span(PLACES + self.finish_count(), self.cells())
    }

    /// All part rows, a finish's friction, and base.
    #[must_use]
    pub fn total(&self, finish: usize) -> Option<&[f64]> {
        Some(self.row(RowName::Total(finish))?.values)
    }

    /// The marks of the parts together, the same beside every finish's total.
    #[must_use]
    pub fn total_marks(&self, finish: usize) -> Option<&[u8]> {
        Some(self.row(RowName::Total(finish))?.marks)
    }

    /// All rows in the order in which the program `sheet` prints them: the parts, friction by
    /// finish, base, total by finish.
    pub fn rows(&self) -> impl Iterator<Item = Row<'_>> {
        let finishes = self.finish_count();
        let parts = (0..self.part_count()).map(RowName::Part);
        let frictions = (0..finishes).map(RowName::Friction);
        let totals = (0..finishes).map(RowName::Total);
        let names = parts.chain(frictions).chain([RowName::Base]).chain(totals);
        names.filter_map(|name| self.row(name))
    }
}
