//! Parts and sheets out of their words, as the port's interface lays them, and back.

use cobalnis::words::{
    PartWords, SheetWords, COLUMNS_AT, FINENESS_AT, FINISHES_AT, FIRST_PART, MACHS_AT, NOZZLE_AT,
    PARTS_AT, PART_WORDS, REYNOLDS_AT, ROUGHNESSES_AT,
};

use crate::answer_bits;
use crate::builds::fixed_steps::{of_shape, shape_of};
use crate::model::{Column, Design, Part, Settings, Sheet, COLUMNS, FINISHES, NO_PART, PLACES};
use crate::refusals::Answer;

/// A part out of its words; the shape's number must be one.
pub fn part_of(words: &[u64]) -> Part {
    let float = |at: usize| f64::from_bits(words[at]);
    Part {
        shape: shape_of(words[0], float(1)),
        length: float(2),
        aft_diameter: float(3),
        joint_angle: float(4),
        wetted_ratio: float(5),
        roughness: (words[6] != 0).then(|| float(7)),
    }
}

/// A part's words, with a bit function for the floats.
pub fn part_words(part: &Part, bits: impl Fn(f64) -> u64) -> PartWords {
    let (number, parameter) = of_shape(part.shape);
    [
        number,
        bits(parameter),
        bits(part.length),
        bits(part.aft_diameter),
        bits(part.joint_angle),
        bits(part.wetted_ratio),
        u64::from(part.roughness.is_some()),
        part.roughness.map_or(0, bits),
    ]
}

pub(super) fn settings_of(words: &SheetWords) -> Settings {
    let float = |at: usize| f64::from_bits(words[at]);
    let mut columns = [NO_COLUMN; COLUMNS];
    for (at, column) in columns.iter_mut().enumerate() {
        column.mach = float(MACHS_AT + at);
        column.reynolds = float(REYNOLDS_AT + at);
    }
    let mut roughnesses = [0.0; FINISHES];
    for (at, roughness) in roughnesses.iter_mut().enumerate() {
        *roughness = float(ROUGHNESSES_AT + at);
    }
    Settings {
        reference_diameter: float(0),
        finishes: words[FINISHES_AT] as usize,
        roughnesses,
        body_fineness: float(FINENESS_AT),
        count: words[COLUMNS_AT] as usize,
        columns,
    }
}

const NO_COLUMN: Column = Column {
    mach: 0.0,
    reynolds: 0.0,
};

pub(super) fn put_settings(settings: &Settings, words: &mut SheetWords) {
    words[0] = answer_bits(settings.reference_diameter);
    words[FINISHES_AT] = settings.finishes as u64;
    for (at, &roughness) in settings.roughnesses.iter().enumerate() {
        words[ROUGHNESSES_AT + at] = answer_bits(roughness);
    }
    words[FINENESS_AT] = answer_bits(settings.body_fineness);
    words[COLUMNS_AT] = settings.count as u64;
    for (at, column) in settings.columns.iter().enumerate() {
        words[MACHS_AT + at] = answer_bits(column.mach);
        words[REYNOLDS_AT + at] = answer_bits(column.reynolds);
    }
}

pub(super) fn put_sheet(sheet: &Sheet, words: &mut SheetWords) {
    put_settings(&sheet.settings, words);
    words[NOZZLE_AT] = answer_bits(sheet.nozzle_diameter);
    words[PARTS_AT] = sheet.design.count as u64;
    let places = words[FIRST_PART..].chunks_exact_mut(PART_WORDS);
    for (place, part) in places.zip(&sheet.design.parts) {
        place.copy_from_slice(&part_words(part, answer_bits));
    }
}

/// The sheet of these words, or refusal 5 where one of the 16 parts has no shape.
pub(super) fn sheet_of(words: &SheetWords) -> Result<Sheet, Answer> {
    let mut parts = [NO_PART; PLACES];
    for (place, part) in words[FIRST_PART..].chunks_exact(PART_WORDS).zip(&mut parts) {
        if place[0] > 5 {
            return Err(Answer::refused(5));
        }
        *part = part_of(place);
    }
    Ok(Sheet {
        settings: settings_of(words),
        nozzle_diameter: f64::from_bits(words[NOZZLE_AT]),
        design: Design {
            count: words[PARTS_AT] as usize,
            parts,
        },
    })
}
