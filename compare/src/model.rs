//! A straightforward model of the sheet (docs/REFERENCE.md, Sheet) over the original's own
//! functions (with the fixed steps): every call recomputes what it writes, row by row, in the order
//! of docs/REFERENCE.md.
//!
//! It is written from the project's scope and requests alone, which docs/REFERENCE.md tells. A sheet
//! may be any sheet at all, so the counts stand beside arrays that have room for what a sheet can
//! have.

mod lent;
mod rows;

use crate::original_fixed::{
    body_friction_form_factor, check_dimension, check_mach_any, AeroError, NoseShape,
};
use crate::refusals::Answer;
pub use lent::{Buffers, Lent};
use rows::{write, write_all, write_base};

/// "C columns (0 to 32)", "0 to 16 parts".
pub const COLUMNS: usize = 32;
pub const PLACES: usize = 16;
/// "F = 1 to 4 settings' roughnesses".
pub const FINISHES: usize = 4;

/// "All friction rows before base and all totals after it": the first friction row, and by the number
/// of finishes the base row, the first total row, and how many rows there are.
pub const FRICTION: usize = PLACES;
pub const fn base_row(finishes: usize) -> usize {
    PLACES + finishes
}
pub const fn total_row(finishes: usize) -> usize {
    base_row(finishes) + 1
}
pub const fn rows(finishes: usize) -> usize {
    PLACES + 1 + 2 * finishes
}

#[derive(Debug, Clone, Copy)]
pub struct Column {
    pub mach: f64,
    pub reynolds: f64,
}

#[derive(Debug, Clone, Copy)]
pub struct Settings {
    pub reference_diameter: f64,
    pub finishes: usize,
    pub roughnesses: [f64; FINISHES],
    pub body_fineness: f64,
    pub count: usize,
    pub columns: [Column; COLUMNS],
}

#[derive(Debug, Clone, Copy)]
pub struct Part {
    pub shape: NoseShape,
    pub length: f64,
    pub aft_diameter: f64,
    pub joint_angle: f64,
    pub wetted_ratio: f64,
    /// Its own in every finish; none: the settings' roughness.
    pub roughness: Option<f64>,
}

#[derive(Debug, Clone, Copy)]
pub struct Design {
    pub count: usize,
    pub parts: [Part; PLACES],
}

#[derive(Debug, Clone, Copy)]
pub struct Sheet {
    pub settings: Settings,
    /// "0 when coasting".
    pub nozzle_diameter: f64,
    pub design: Design,
}

/// What stands in the room of a part that isn't there; nothing looks at it.
pub const NO_PART: Part = Part {
    shape: NoseShape::Conical {},
    length: 0.0,
    aft_diameter: 0.0,
    joint_angle: 0.0,
    wetted_ratio: 0.0,
    roughness: None,
};

/// A call that is refused, as a list writes it.
type Refusal = Answer;

/// An error of the original as a refusal.
fn of_error(error: AeroError) -> Refusal {
    error.into()
}

impl Settings {
    pub fn columns(&self) -> &[Column] {
        &self.columns[..self.count]
    }

    /// "(17 + 2 × F) × C" cells, and as many marks; F and C are tested.
    pub fn cells(&self) -> usize {
        rows(self.finishes) * self.count
    }
}

impl Design {
    pub fn parts(&self) -> &[Part] {
        &self.parts[..self.count]
    }

    /// "Fore diameter f is the previous part's d, 0 for place 0."
    fn fore(&self, place: usize) -> f64 {
        if place == 0 {
            0.0
        } else {
            self.parts[place - 1].aft_diameter
        }
    }
}

// ---- the tests, in the order of "Order"

/// 11: "outside a house interval, NaN too".
fn house(low: f64, x: f64, high: f64) -> Result<(), Refusal> {
    if low <= x && x <= high {
        Ok(())
    } else {
        Err(Answer::refused(11))
    }
}

/// 1 for M, then R.
fn test_column(column: Column) -> Result<(), Refusal> {
    check_mach_any(column.mach).map_err(of_error)?;
    check_dimension("Reynolds number", column.reynolds, true).map_err(of_error)
}

/// "Open: 7, 11 for D, then roughness, 1 for B, 1 for each column (M, R), 10", with 19 "after D and
/// before 11 for any roughness"; "fewer" marks "is 10 too".
fn test_settings(settings: &Settings, room: usize) -> Result<(), Refusal> {
    if settings.count > COLUMNS {
        return Err(Answer::refused(7));
    }
    house(0.001, settings.reference_diameter, 100.0)?;
    if settings.finishes == 0 || settings.finishes > FINISHES {
        return Err(Answer::refused(19));
    }
    for &roughness in &settings.roughnesses[..settings.finishes] {
        house(0.0, roughness, 1.0)?;
    }
    body_friction_form_factor(settings.body_fineness).map_err(of_error)?;
    for &column in settings.columns() {
        test_column(column)?;
    }
    if room < settings.cells() {
        return Err(Answer::refused(10));
    }
    Ok(())
}

/// "11 for L, d, w", and "checked after w" for a roughness of its own.
fn test_part(part: &Part) -> Result<(), Refusal> {
    house(0.0, part.length, 100.0)?;
    house(0.0, part.aft_diameter, 100.0)?;
    house(0.0, part.wetted_ratio, 10000.0)?;
    part.roughness.map_or(Ok(()), |own| house(0.0, own, 1.0))
}

/// "An n outside [0, 100], NaN too, is refusal 11."
fn test_nozzle(nozzle_diameter: f64) -> Result<(), Refusal> {
    house(0.0, nozzle_diameter, 100.0)
}

/// "Edits and set column first test the sheet given: its settings as at open (10 last), 9 for a
/// count above 16, 11 for held L, d, w by place", and for a held roughness after w; a held n
/// "right after 10".
fn test_sheet(sheet: &Sheet, room: usize) -> Result<(), Refusal> {
    test_settings(&sheet.settings, room)?;
    test_nozzle(sheet.nozzle_diameter)?;
    if sheet.design.count > PLACES {
        return Err(Answer::refused(9));
    }
    for part in sheet.design.parts() {
        test_part(part)?;
    }
    Ok(())
}

// ---- the calls: the answer, and the sheet handed back

/// Open: no parts yet, and it "starts coasting". A refused one hands back its settings and no parts
/// as well.
pub fn open(settings: &Settings, mut lent: Lent) -> (Answer, Sheet) {
    let sheet = Sheet {
        settings: *settings,
        nozzle_diameter: 0.0,
        design: Design {
            count: 0,
            parts: [NO_PART; PLACES],
        },
    };
    match test_settings(settings, lent.room()) {
        Ok(()) => (write_all(&sheet, &mut lent), sheet),
        Err(refusal) => (refusal, sheet),
    }
}

/// The sheet after a call, or the sheet given where it is refused.
fn handed_back(answer: Answer, given: &Sheet, after: Sheet) -> (Answer, Sheet) {
    (answer, if answer.refusal == 0 { after } else { *given })
}

/// Replace: "only the rows named": its own, the next part's, each friction, base and each total.
pub fn replace(sheet: &Sheet, place: usize, part: &Part, mut lent: Lent) -> (Answer, Sheet) {
    let test = || {
        test_sheet(sheet, lent.room())?;
        if place >= sheet.design.count {
            return Err(Answer::refused(8));
        }
        test_part(part)
    };
    if let Err(refusal) = test() {
        return (refusal, *sheet);
    }
    let mut after = *sheet;
    after.design.parts[place] = *part;
    let mut places = vec![place];
    if place + 1 < sheet.design.count {
        places.push(place + 1);
    }
    let columns: Vec<usize> = (0..sheet.settings.count).collect();
    let answer = write(&after, &places, &columns, &mut lent);
    handed_back(answer, sheet, after)
}

/// Insert: the parts from that place on move up one; all rows are written.
pub fn insert(sheet: &Sheet, place: usize, part: &Part, mut lent: Lent) -> (Answer, Sheet) {
    let count = sheet.design.count;
    let test = || {
        test_sheet(sheet, lent.room())?;
        if place > count {
            return Err(Answer::refused(8));
        }
        if count == PLACES {
            return Err(Answer::refused(9));
        }
        test_part(part)
    };
    if let Err(refusal) = test() {
        return (refusal, *sheet);
    }
    let mut after = *sheet;
    after.design.count = count + 1;
    for i in place..count {
        after.design.parts[i + 1] = sheet.design.parts[i];
    }
    after.design.parts[place] = *part;
    let answer = write_all(&after, &mut lent);
    handed_back(answer, sheet, after)
}

/// Remove: the parts after it move down one; all rows are written.
pub fn remove(sheet: &Sheet, place: usize, mut lent: Lent) -> (Answer, Sheet) {
    let count = sheet.design.count;
    if let Err(refusal) = test_sheet(sheet, lent.room()) {
        return (refusal, *sheet);
    }
    if place >= count {
        return (Answer::refused(8), *sheet);
    }
    let mut after = *sheet;
    after.design.count = count - 1;
    for i in place + 1..count {
        after.design.parts[i - 1] = sheet.design.parts[i];
    }
    let answer = write_all(&after, &mut lent);
    handed_back(answer, sheet, after)
}

/// Set column: every place at the new column alone.
pub fn set_column(sheet: &Sheet, column: usize, new: Column, mut lent: Lent) -> (Answer, Sheet) {
    let test = || {
        test_sheet(sheet, lent.room())?;
        if column >= sheet.settings.count {
            return Err(Answer::refused(8));
        }
        test_column(new)
    };
    if let Err(refusal) = test() {
        return (refusal, *sheet);
    }
    let mut after = *sheet;
    after.settings.columns[column] = new;
    let places: Vec<usize> = (0..PLACES).collect();
    let answer = write(&after, &places, &[column], &mut lent);
    handed_back(answer, sheet, after)
}

/// Ignite: "gives n", its own test last; base and totals are written.
pub fn ignite(sheet: &Sheet, nozzle_diameter: f64, mut lent: Lent) -> (Answer, Sheet) {
    let test = || {
        test_sheet(sheet, lent.room())?;
        test_nozzle(nozzle_diameter)
    };
    if let Err(refusal) = test() {
        return (refusal, *sheet);
    }
    let after = Sheet {
        nozzle_diameter,
        ..*sheet
    };
    write_base(&after, &mut lent);
    (Answer::accepted(0), after)
}

/// Burnout: "puts it back to 0"; base and totals are written.
pub fn burnout(sheet: &Sheet, lent: Lent) -> (Answer, Sheet) {
    ignite(sheet, 0.0, lent)
}

/// A build from nothing: the rows of a sheet into cells of +0 and marks of 0, or the refusal of the
/// lowest place.
pub fn build(sheet: &Sheet) -> Result<Buffers, Answer> {
    let mut built = Buffers::new(sheet.settings.cells());
    let answer = write_all(sheet, &mut built.lend());
    if answer.refusal == 0 {
        Ok(built)
    } else {
        Err(answer)
    }
}
