//! The sheet, its settings and parts, and cards.

use crate::c::{
    self, PartWords, SheetWords, COLUMNS_AT, FINENESS_AT, FINISHES_AT, FIRST_PART, MACHS_AT,
    NOZZLE_AT, PARTS_AT, PART_WORDS, REYNOLDS_AT, ROUGHNESSES_AT, SHEET_WORDS,
};
use crate::{Refusal, Shape};

/// Columns that a sheet has room for.
pub const COLUMNS: usize = 32;
/// Parts that a sheet has room for.
pub const PLACES: usize = 16;
/// Finishes that a sheet has room for.
pub const FINISHES: usize = 4;
/// The most cells that a sheet needs, and as many marks.
pub const CELLS: usize = rows(FINISHES) * COLUMNS;

/// Rows of cells of a sheet with so many finishes: a row for each place, a friction row for each
/// finish, base, a total for each finish.
#[must_use]
pub const fn rows(finishes: usize) -> usize {
    finishes.saturating_mul(2).saturating_add(PLACES + 1)
}

/// What [`print()`] needs: a line for Mach, each place, base, and the friction and the total of each
/// finish, of a name, a space and two digits where there are several of them, a space, 16 digits and a
/// sign a column (the line for Mach has no signs, but counts as the others), and a line feed.
pub const LONGEST_TEXT: usize = 4
    + (4 + 3) * PLACES
    + (8 + 3 + 5 + 3) * FINISHES
    + 4
    + (1 + rows(FINISHES)) * (COLUMNS * 18 + 1);

/// One column: what the drag is asked at.
#[derive(Debug, Clone, Copy, PartialEq)]
pub struct Column {
    /// Its Mach number.
    pub mach: f64,
    /// Its Reynolds number, on the body's length.
    pub reynolds: f64,
}

/// What a sheet is opened with.
#[derive(Debug, Clone, PartialEq)]
pub struct Settings {
    /// From 0.001 to 100.
    pub reference_diameter: f64,
    /// The finishes: from one to [`FINISHES`], each from 0 to 1.
    pub roughnesses: Vec<f64>,
    /// The body's length over its diameter, above 0.
    pub body_fineness: f64,
    /// At most [`COLUMNS`].
    pub columns: Vec<Column>,
}

impl Settings {
    /// The cells that a sheet of these settings needs: [`rows`] a column. It needs as many marks.
    #[must_use]
    pub fn cell_count(&self) -> usize {
        rows(self.roughnesses.len()).saturating_mul(self.columns.len())
    }

    /// The settings' words in a sheet without parts. Columns past the 32nd and roughnesses past the
    /// fourth have no room; their number alone has them refused.
    fn words(&self) -> SheetWords {
        let mut words = [0; SHEET_WORDS];
        words[0] = self.reference_diameter.to_bits();
        words[FINISHES_AT] = self.roughnesses.len() as u64;
        for (at, roughness) in self.roughnesses.iter().take(FINISHES).enumerate() {
            words[ROUGHNESSES_AT + at] = roughness.to_bits();
        }
        words[FINENESS_AT] = self.body_fineness.to_bits();
        words[COLUMNS_AT] = self.columns.len() as u64;
        for (at, column) in self.columns.iter().take(COLUMNS).enumerate() {
            words[MACHS_AT + at] = column.mach.to_bits();
            words[REYNOLDS_AT + at] = column.reynolds.to_bits();
        }
        words
    }

    /// The settings out of a sheet's words.
    fn of(words: &SheetWords) -> Self {
        let float = |at: usize| f64::from_bits(words[at]);
        let columns = (words[COLUMNS_AT] as usize).min(COLUMNS);
        let column = |at: usize| Column {
            mach: float(MACHS_AT + at),
            reynolds: float(REYNOLDS_AT + at),
        };
        let finishes = (words[FINISHES_AT] as usize).min(FINISHES);
        Self {
            reference_diameter: float(0),
            roughnesses: (0..finishes).map(|at| float(ROUGHNESSES_AT + at)).collect(),
            body_fineness: float(FINENESS_AT),
            columns: (0..columns).map(column).collect(),
        }
    }

    /// Reads a settings card from the byte `at` on, and tells where it ends. Its numbers are
    /// tested when a sheet is opened.
    pub fn read(bytes: &[u8], at: usize) -> Result<(Self, usize), Refusal> {
        let mut words = [0; SHEET_WORDS];
        let (status, next) = c::read_settings(bytes, at, &mut words);
        Refusal::of(status, 0)?;
        Ok((Self::of(&words), next))
    }
}

/// A part of the rocket.
#[derive(Debug, Clone, Copy, PartialEq)]
pub struct Part {
    /// Looked at where the part widens.
    pub shape: Shape,
    /// From 0 to 100.
    pub length: f64,
    /// The diameter at its aft end, from 0 to 100; its fore one is that of the part before, and 0
    /// for the nose.
    pub aft_diameter: f64,
    /// The joint's angle at its aft end, in radians, from 0 to π/2 where the part widens.
    pub joint_angle: f64,
    /// Wetted area over reference area, from 0 to 10000.
    pub wetted_ratio: f64,
    /// Its own in every finish, from 0 to 1; none: the settings' roughness.
    pub roughness: Option<f64>,
}

impl Part {
    fn words(&self) -> PartWords {
        let (number, parameter) = self.shape.number_and_parameter();
        [
            number,
            parameter.to_bits(),
            self.length.to_bits(),
            self.aft_diameter.to_bits(),
            self.joint_angle.to_bits(),
            self.wetted_ratio.to_bits(),
            u64::from(self.roughness.is_some()),
            self.roughness.map_or(0, f64::to_bits),
        ]
    }

    /// A part out of its words, if they name a shape.
    fn of(words: &[u64]) -> Option<Self> {
        let float = |at: usize| f64::from_bits(words[at]);
        Some(Self {
            shape: Shape::of(words[0], float(1))?,
            length: float(2),
            aft_diameter: float(3),
            joint_angle: float(4),
            wetted_ratio: float(5),
            roughness: (words[6] != 0).then(|| float(7)),
        })
    }

    /// Reads a part card from the byte `at` on, and tells where it ends. Its numbers are tested
    /// when it is put into a sheet.
    pub fn read(bytes: &[u8], at: usize) -> Result<(Self, usize), Refusal> {
        let mut words = [0; PART_WORDS];
        let (status, next) = c::read_part(bytes, at, &mut words);
        Refusal::of(status, 0)?;
        let part = Self::of(&words).expect("an accepted card has one of the six shapes");
        Ok((part, next))
    }
}

/// An open sheet. It holds the lent cells and marks as long as it lives, so nobody else writes them:
/// after every list of calls its rows are those of a sheet built from nothing.
///
/// A mark lies beside each cell, a byte 0 or 1. It is 1 in a part's row where the cell rests on one
/// of Stoney's tables held past its last point, and in a total's where a part of that column has
/// one; friction, base and parts that don't widen have none.
///
/// A refused call changes neither the sheet nor a cell nor a mark.
#[derive(Debug)]
pub struct Sheet<'lent> {
    words: SheetWords,
    cells: &'lent mut [f64],
    marks: &'lent mut [u8],
}

impl<'lent> Sheet<'lent> {
    /// Opens a sheet without parts, coasting, over these cells and marks, of which it needs
    /// [`Settings::cell_count`] each; those past them are never written.
    pub fn open(
        settings: &Settings,
        cells: &'lent mut [f64],
        marks: &'lent mut [u8],
    ) -> Result<Self, Refusal> {
        let mut words = settings.words();
        let answer = c::open(&mut words, cells, marks);
        let mut sheet = Self {
            words,
            cells,
            marks,
        };
        sheet.accept(answer)?;
        Ok(sheet)
    }

    /// Puts a part in at a place; the parts from that place on move up one.
    pub fn insert(&mut self, place: usize, part: &Part) -> Result<(), Refusal> {
        let answer = c::insert(
            &mut self.words,
            place,
            &part.words(),
            self.cells,
            self.marks,
        );
        self.accept(answer)
    }

    /// Puts a part in at the end.
    pub fn push(&mut self, part: &Part) -> Result<(), Refusal> {
        self.insert(self.part_count(), part)
    }

    /// Puts another part at a place.
    pub fn replace(&mut self, place: usize, part: &Part) -> Result<(), Refusal> {
        let answer = c::replace(
            &mut self.words,
            place,
            &part.words(),
            self.cells,
            self.marks,
        );
        self.accept(answer)
    }

    /// Takes a part out; those after it move down one.
    pub fn remove(&mut self, place: usize) -> Result<(), Refusal> {
        let answer = c::remove(&mut self.words, place, self.cells, self.marks);
        self.accept(answer)
    }

    /// Asks a column at another Mach and Reynolds number.
    pub fn set_column(&mut self, at: usize, column: Column) -> Result<(), Refusal> {
        let Column { mach, reynolds } = column;
        let answer = c::set_column(&mut self.words, at, mach, reynolds, self.cells, self.marks);
        self.accept(answer)
    }

    /// The powered climb: a nozzle of this diameter, from 0 to 100, fills part of the base, or all
    /// of it where the last part is no wider. It stays through edits until burnout.
    pub fn ignite(&mut self, nozzle_diameter: f64) -> Result<(), Refusal> {
        let answer = c::ignite(&mut self.words, nozzle_diameter, self.cells, self.marks);
        self.accept(answer)
    }

    /// Coasting again: the nozzle diameter is put back to 0.
    pub fn burnout(&mut self) -> Result<(), Refusal> {
        let answer = c::burnout(&mut self.words, self.cells, self.marks);
        self.accept(answer)
    }

    /// What it was opened with, and the columns that were set since.
    #[must_use]
    pub fn settings(&self) -> Settings {
        Settings::of(&self.words)
    }

    /// 0 when coasting.
    #[must_use]
    pub fn nozzle_diameter(&self) -> f64 {
        f64::from_bits(self.words[NOZZLE_AT])
    }

    /// How many finishes it has.
    #[must_use]
    pub fn finish_count(&self) -> usize {
        self.words[FINISHES_AT] as usize
    }

    /// How many columns it has.
    #[must_use]
    pub fn column_count(&self) -> usize {
        self.words[COLUMNS_AT] as usize
    }

    /// How many parts it has.
    #[must_use]
    pub fn part_count(&self) -> usize {
        self.words[PARTS_AT] as usize
    }

    /// The part at a place.
    #[must_use]
    pub fn part(&self, place: usize) -> Option<Part> {
        if place >= self.part_count() {
            return None;
        }
        let at = FIRST_PART + PART_WORDS * place;
        Part::of(&self.words[at..at + PART_WORDS])
    }

    /// All lent cells.
    #[must_use]
    pub fn cells(&self) -> &[f64] {
        self.cells
    }

    /// All lent marks, which lie as the cells do.
    #[must_use]
    pub fn marks(&self) -> &[u8] {
        self.marks
    }

    /// The sheet's words, as the C interface has them.
    #[must_use]
    pub fn words(&self) -> &SheetWords {
        &self.words
    }

    /// A call's answer; an accepted call's NaN cells get the bits of docs/REFERENCE.md, Numbers.
    fn accept(&mut self, (status, bits): (u32, u64)) -> Result<(), Refusal> {
        Refusal::of(status, bits)?;
        let used = rows(self.finish_count()) * self.column_count();
        c::settle(&mut self.cells[..used]);
        Ok(())
    }
}

/// What the program `sheet` prints for a stream of cards, with a `+` right after each marked cell; for
/// no bytes the names of a sheet with no columns and no parts.
#[must_use]
pub fn print(stream: &[u8]) -> String {
    let mut text = vec![0; LONGEST_TEXT];
    let length = c::print(stream, &mut text);
    text.truncate(length);
    String::from_utf8(text).expect("it prints ASCII alone")
}
