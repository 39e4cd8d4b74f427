//! The original and the models under the port's own interface (`cobalnis::words`): the same calls,
//! the same numbers and words in and out. What is compared and what is measured stands on either
//! side of one signature.
//!
//! A status is 0 accepted, else the refusal's number plus 256 times its code, or `NO_SUCH`. Where
//! the interface says that nothing is written, nothing is.
//!
//! Where an answer has marks, the watched build gives both (`crate::watch`); `measured` has the same
//! answers without them.

mod layout;
pub mod measured;

use std::num::FpCategory;

use cobalnis::words::{PartWords, SheetWords};
use cobalnis::Formula;

use crate::builds::fixed_steps::shape_of;
use crate::builds::{fixed_steps, watched, STEP};
use crate::model::{self, Column, Lent, Part, Sheet};
use crate::original_fixed::{
    check_dimension as check, check_mach_any, takes_cone_formula as takes_cone, StoneyNose,
};
use crate::refusals::{Answer, CODES};
use crate::watch::with_mark;
use crate::{answer_bits, cards, original_watched};

pub use layout::{part_of, part_words};
use layout::{put_settings, put_sheet, settings_of, sheet_of};

/// The status for a number that names no formula, shape, nose or quantity.
pub const NO_SUCH: u32 = 65535;

/// The most Mach numbers of one walk.
pub const QUERIES: usize = 256;

/// The status of an answer.
pub fn status(answer: Answer) -> u32 {
    u32::from(answer.refusal) + 256 * u32::from(answer.code)
}

/// Status and bits.
fn pair(answer: Answer) -> (u32, u64) {
    (status(answer), answer.bits)
}

// ---- formulas

pub fn formula(which: u32, x: [f64; 5]) -> (u32, u64) {
    match Formula::of(which) {
        Some(formula) => pair(Answer::of(fixed_steps::formula(formula, x))),
        None => (NO_SUCH, 0),
    }
}

pub fn check_dimension(what: u32, value: f64, allow_zero: bool) -> (u32, u64) {
    match (what as usize).checked_sub(1).and_then(|at| CODES.get(at)) {
        Some(text) => pair(Answer::of_check(check(text, value, allow_zero))),
        None => (NO_SUCH, 0),
    }
}

pub fn takes_cone_formula(shape: u64, parameter: f64) -> (u32, u64) {
    if shape > 5 {
        return (NO_SUCH, 0);
    }
    (0, u64::from(takes_cone(shape_of(shape, parameter))))
}

/// The class's number; the original has no such function, so this is the standard library's.
pub fn classify(bits: u64) -> u32 {
    match f64::from_bits(bits).classify() {
        FpCategory::Zero => 0,
        FpCategory::Subnormal => 1,
        FpCategory::Normal => 2,
        FpCategory::Infinite => 3,
        FpCategory::Nan => 4,
    }
}

// ---- noses and curves

pub fn nose_point(nose: u32, place: usize) -> (u32, [u64; 2]) {
    let Some(nose) = StoneyNose::ALL.get(nose as usize) else {
        return (NO_SUCH, [0; 2]);
    };
    match nose.points().get(place) {
        Some(&(mach, drag)) => (0, [answer_bits(mach), answer_bits(drag)]),
        None => (8, [0; 2]),
    }
}

/// The original's lookup panics at NaN, so NaN must not be asked.
pub fn nose_lookup(nose: u32, mach: f64) -> (u32, [u64; 4]) {
    let Some(nose) = original_watched::StoneyNose::ALL.get(nose as usize) else {
        return (NO_SUCH, [0; 4]);
    };
    let ((value, slope), beyond) = with_mark(|| nose.value_and_slope(mach));
    let [value, slope, first] = [value, slope, nose.first_mach()].map(answer_bits);
    (0, [value, slope, first, u64::from(beyond)])
}

/// A nose's value at each Mach number by the original's own lookup, and the count of a plain walk.
pub fn nose_walk(nose: u32, machs: &[f64], values: &mut [f64], compared: &mut usize) -> (u32, u64) {
    let Some(nose) = StoneyNose::ALL.get(nose as usize) else {
        return (NO_SUCH, 0);
    };
    if machs.len() > QUERIES || values.len() < machs.len() {
        return (10, 0);
    }
    for &mach in machs {
        if let Err(error) = check_mach_any(mach) {
            return pair(Answer::from(error));
        }
    }
    if machs.windows(2).any(|pair| pair[1] < pair[0]) {
        return (16, 0);
    }
    for (&mach, value) in machs.iter().zip(values) {
        *value = nose.value_and_slope(mach).0;
    }
    *compared = comparisons(nose.points(), machs);
    (0, 0)
}

/// How many times a query is set against a point: the walk starts at the first point, a query moves
/// on while the current point is at or below it, and ends at a higher point or past the last.
fn comparisons(points: &[(f64, f64)], queries: &[f64]) -> usize {
    let (mut current, mut count) = (0, 0);
    for &mach in queries {
        while let Some(&(point, _)) = points.get(current) {
            count += 1;
            if point > mach {
                break;
            }
            current += 1;
        }
    }
    count
}

/// The curve of a shape's number, and its coefficient at each Mach number with its mark.
pub fn curve(
    shape: u64,
    arguments: [f64; 3],
    machs: &[f64],
    out: &mut [u64],
    marks: &mut [u8],
) -> (u32, [u64; 3]) {
    if shape > STEP {
        return (NO_SUCH, [0; 3]);
    }
    let curve = match watched::curve(shape, arguments) {
        Ok(curve) => curve,
        Err(answer) => return (status(answer), [answer.bits, 0, 0]),
    };
    let known = [curve.rest_coefficient(), curve.transonic_lower_bound()];
    let room = out.len().min(marks.len());
    let slots = out.iter_mut().zip(marks);
    at_each(known, machs, room, slots, |mach, (bits, mark)| {
        let (coefficient, beyond) = with_mark(|| curve.coefficient(mach));
        *bits = answer_bits(coefficient?);
        *mark = u8::from(beyond);
        Ok(())
    })
}

/// Asks at each Mach number for what goes into its slot, of which there are `room`; up to the first
/// refusal. `known` is the drag at rest and the lower bound.
fn at_each<T>(
    known: [f64; 2],
    machs: &[f64],
    room: usize,
    slots: impl Iterator<Item = T>,
    mut put: impl FnMut(f64, T) -> Result<(), Answer>,
) -> (u32, [u64; 3]) {
    let [rest, low] = known.map(answer_bits);
    if room < machs.len() {
        return (10, [0, rest, low]);
    }
    for (&mach, slot) in machs.iter().zip(slots) {
        if let Err(answer) = put(mach, slot) {
            return (status(answer), [answer.bits, rest, low]);
        }
    }
    (0, [0, rest, low])
}

// ---- the sheet's calls

/// Puts the sheet handed back where the call was accepted.
fn put_back((answer, sheet): (Answer, Sheet), words: &mut SheetWords) -> (u32, u64) {
    if answer.refusal == 0 {
        put_sheet(&sheet, words);
    }
    pair(answer)
}

pub fn open(words: &mut SheetWords, lent: Lent) -> (u32, u64) {
    put_back(model::open(&settings_of(words), lent), words)
}

/// A call of the model that puts a part at a place.
type Edit = fn(&Sheet, usize, &Part, Lent) -> (Answer, Sheet);

fn edit(
    call: Edit,
    words: &mut SheetWords,
    place: usize,
    part: &PartWords,
    lent: Lent,
) -> (u32, u64) {
    if part[0] > 5 {
        return pair(Answer::refused(5));
    }
    match sheet_of(words) {
        Ok(sheet) => put_back(call(&sheet, place, &part_of(part), lent), words),
        Err(answer) => pair(answer),
    }
}

pub fn insert(words: &mut SheetWords, place: usize, part: &PartWords, lent: Lent) -> (u32, u64) {
    edit(model::insert, words, place, part, lent)
}

pub fn replace(words: &mut SheetWords, place: usize, part: &PartWords, lent: Lent) -> (u32, u64) {
    edit(model::replace, words, place, part, lent)
}

pub fn remove(words: &mut SheetWords, place: usize, lent: Lent) -> (u32, u64) {
    match sheet_of(words) {
        Ok(sheet) => put_back(model::remove(&sheet, place, lent), words),
        Err(answer) => pair(answer),
    }
}

pub fn set_column(
    words: &mut SheetWords,
    column: usize,
    mach: f64,
    reynolds: f64,
    lent: Lent,
) -> (u32, u64) {
    let new = Column { mach, reynolds };
    match sheet_of(words) {
        Ok(sheet) => put_back(model::set_column(&sheet, column, new, lent), words),
        Err(answer) => pair(answer),
    }
}

pub fn ignite(words: &mut SheetWords, nozzle_diameter: f64, lent: Lent) -> (u32, u64) {
    match sheet_of(words) {
        Ok(sheet) => put_back(model::ignite(&sheet, nozzle_diameter, lent), words),
        Err(answer) => pair(answer),
    }
}

pub fn burnout(words: &mut SheetWords, lent: Lent) -> (u32, u64) {
    match sheet_of(words) {
        Ok(sheet) => put_back(model::burnout(&sheet, lent), words),
        Err(answer) => pair(answer),
    }
}

// ---- cards

pub fn read_settings(bytes: &[u8], at: usize, words: &mut SheetWords) -> (u32, usize) {
    match cards::read_settings(bytes, at) {
        Ok((settings, next)) => {
            put_settings(&settings, words);
            (0, next)
        }
        Err(number) => (u32::from(number), 0),
    }
}

pub fn read_part(bytes: &[u8], at: usize, words: &mut PartWords) -> (u32, usize) {
    match cards::read_part(bytes, at) {
        Ok((part, next)) => {
            *words = part_words(&part, answer_bits);
            (0, next)
        }
        Err(number) => (u32::from(number), 0),
    }
}
