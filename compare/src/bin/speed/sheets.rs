//! The sheet's calls, on sheets of 16 parts and 32 columns.

use std::hint::black_box;

use cobalnis::raw;
use cobalnis::words::{
    PartWords, SheetWords, COLUMNS_AT, FINENESS_AT, FINISHES_AT, FIRST_PART, MACHS_AT, PARTS_AT,
    PART_WORDS, REYNOLDS_AT, ROUGHNESSES_AT, SHEET_WORDS,
};
use compare::inputs::Random;
use compare::mirror_c as theirs;
use compare::model::{COLUMNS, PLACES};

use crate::curves::parameter;
use crate::passes::{build_pass, column_pass, rebuild_pass, remove_pass, replace_pass};
use crate::passes::{Edit, Open, Remove, SetColumn, CELLS};
use crate::timing::{measure, row, Times};

/// A part behind one of diameter `fore`, without a roughness of its own; `widens` says whether it
/// has to.
pub fn part(random: &mut Random, fore: f64, widens: bool) -> PartWords {
    let shape = random.bits() % 6;
    let aft = if widens {
        fore + random.between(0.005, 0.02)
    } else if random.bits() % 6 == 0 {
        fore
    } else {
        random.between(0.02, 0.2)
    };
    let floats = [
        parameter(shape, random),
        random.between(0.05, 0.6),
        aft,
        random.between(0.0, 0.5),
        random.between(0.0, 30.0),
    ];
    let mut words = [0; PART_WORDS];
    words[0] = shape;
    for (word, x) in words[1..].iter_mut().zip(floats) {
        *word = x.to_bits();
    }
    words
}

/// A sheet of one finish, 32 columns and so many parts.
pub fn sheet(random: &mut Random, parts: usize, widens: bool) -> SheetWords {
    let mut words = [0; SHEET_WORDS];
    words[0] = 0.1f64.to_bits();
    words[FINISHES_AT] = 1;
    words[ROUGHNESSES_AT] = random.scaled(1e-6, 1e-4).to_bits();
    words[FINENESS_AT] = random.between(8.0, 20.0).to_bits();
    words[COLUMNS_AT] = COLUMNS as u64;
    for column in 0..COLUMNS {
        let mach = 0.1 * (column as f64 + random.unit());
        words[MACHS_AT + column] = mach.to_bits();
        words[REYNOLDS_AT + column] = (mach * random.between(5e6, 3e7)).to_bits();
    }
    words[PARTS_AT] = parts as u64;
    let mut fore = 0.0;
    for place in 0..PLACES {
        let new = part(random, fore, widens);
        fore = f64::from_bits(new[3]);
        let at = FIRST_PART + PART_WORDS * place;
        words[at..at + PART_WORDS].copy_from_slice(&new);
    }
    words
}

/// Sheets of 15 parts, with the 16th.
pub fn fifteen(random: &mut Random, widens: bool) -> Vec<(SheetWords, PartWords)> {
    (0..32)
        .map(|_| {
            let words = sheet(random, PLACES - 1, widens);
            let last = *words.last_chunk().expect("a part's words");
            (words, last)
        })
        .collect()
}

/// Opening a sheet and inserting 16 parts, one call after the other.
pub fn rebuilds(random: &mut Random) -> Times {
    let sheets: Vec<_> = (0..32).map(|_| sheet(random, PLACES, false)).collect();
    let (open, insert) = black_box((
        raw::cobalnis_open_raw as Open,
        raw::cobalnis_insert_raw as Edit,
    ));
    let (their_open, their_insert) = black_box((theirs::open as Open, theirs::insert as Edit));
    let times = measure(
        sheets.len(),
        &mut || rebuild_pass(open, insert, &sheets),
        &mut || rebuild_pass(their_open, their_insert, &sheets),
    );
    row("open and insert all 16 parts", times);
    times
}

/// The roughnesses have a generator of their own, so that all other inputs stay as they are.
const OWN_SEED: u64 = 0x5eed_000d;

/// A build of each of these sheets.
fn time_builds(sheets: &[(SheetWords, PartWords)]) -> Times {
    let (port, original) = black_box((raw::cobalnis_insert_raw as Edit, theirs::insert as Edit));
    measure(
        sheets.len(),
        &mut || build_pass(port, CELLS, sheets),
        &mut || build_pass(original, CELLS, sheets),
    )
}

/// Sheets of any parts, sheets in which every part widens, and the first ones again with roughnesses
/// of the parts' own.
pub fn builds(random: &mut Random) -> [Times; 2] {
    let sheets = fifteen(random, false);
    let mixed = time_builds(&sheets);
    row(
        "whole build, 16 parts × 32 columns (insert of the 16th)",
        mixed,
    );
    let widening = time_builds(&fifteen(random, true));
    row("the same, every part widens", widening);
    let mut random = Random::new(OWN_SEED);
    let own = time_builds(&finished(&sheets, || random.scaled(1e-6, 1e-4)));
    row("whole build, 16 roughnesses of their own", own);
    against_without("build", own, mixed);
    let shared = time_builds(&finished(&sheets, || 1e-5));
    row("whole build, one roughness as all 16 parts' own", shared);
    [mixed, widening]
}

/// Gives a part a roughness of its own.
fn finish(part: &mut [u64], roughness: f64) {
    part[6] = 1;
    part[7] = roughness.to_bits();
}

/// The same sheets, each part with a roughness of its own.
fn finished(
    sheets: &[(SheetWords, PartWords)],
    mut roughness: impl FnMut() -> f64,
) -> Vec<(SheetWords, PartWords)> {
    let mut sheets = sheets.to_vec();
    for (sheet, last) in &mut sheets {
        for part in sheet[FIRST_PART..].chunks_exact_mut(PART_WORDS) {
            finish(part, roughness());
        }
        *last = *sheet.last_chunk().expect("a part's words");
    }
    sheets
}

/// Each side's call on parts with roughnesses of their own, against its own without.
fn against_without(call: &str, own: Times, without: Times) {
    let sides = [
        ("port", own.port, without.port),
        ("original", own.original, without.original),
    ];
    for (side, port, original) in sides {
        row(
            &format!("{side}'s {call} with 16 roughnesses / {side}'s {call} without"),
            Times { port, original },
        );
    }
}

/// Each of these parts put at its place in a full sheet.
fn time_replaces(full: &SheetWords, parts: &[(usize, PartWords)]) -> Times {
    let (port, original) = black_box((raw::cobalnis_replace_raw as Edit, theirs::replace as Edit));
    measure(
        parts.len(),
        &mut || replace_pass(port, CELLS, full, parts),
        &mut || replace_pass(original, CELLS, full, parts),
    )
}

/// Replace in a full sheet, and against a whole build of such a sheet. Where every part widens,
/// each is replaced by a part of its own aft diameter, so that they all go on to.
pub fn replaces(random: &mut Random, widens: bool, build: Times) -> Times {
    let full = sheet(random, PLACES, widens);
    let parts: Vec<_> = (0..128)
        .map(|_| {
            let place = (random.bits() % 16) as usize;
            let mut new = part(random, 0.1, widens);
            if widens {
                new[3] = full[FIRST_PART + PART_WORDS * place + 3];
            }
            (place, new)
        })
        .collect();
    let replace = time_replaces(&full, &parts);
    let of = if widens { ", every part widens" } else { "" };
    row(&format!("replace in a full sheet{of}"), replace);
    let against = |port: f64, original: f64| Times { port, original };
    row(
        &format!("port's replace / port's whole build{of}"),
        against(replace.port, build.port),
    );
    row(
        &format!("original's replace / original's whole build{of}"),
        against(replace.original, build.original),
    );
    if !widens {
        own_replaces(full, parts, replace);
    }
    replace
}

/// The same replaces, each part with a roughness of its own, held and new ones.
fn own_replaces(mut full: SheetWords, mut parts: Vec<(usize, PartWords)>, without: Times) {
    let mut random = Random::new(OWN_SEED);
    let held = full[FIRST_PART..].chunks_exact_mut(PART_WORDS);
    for part in held.chain(parts.iter_mut().map(|(_, part)| &mut part[..])) {
        finish(part, random.scaled(1e-6, 1e-4));
    }
    let own = time_replaces(&full, &parts);
    row("replace in a full sheet, 16 roughnesses of their own", own);
    against_without("replace", own, without);
}

pub fn set_columns(random: &mut Random) {
    let full = sheet(random, PLACES, false);
    let columns: Vec<_> = (0..128)
        .map(|_| {
            let mach = random.between(0.05, 3.0);
            let column = (random.bits() % 32) as usize;
            (column, mach, mach * random.between(5e6, 3e7))
        })
        .collect();
    let (port, original) = black_box((
        raw::cobalnis_set_column_raw as SetColumn,
        theirs::set_column as SetColumn,
    ));
    let times = measure(
        columns.len(),
        &mut || column_pass(port, CELLS, &full, &columns),
        &mut || column_pass(original, CELLS, &full, &columns),
    );
    row("set column in a full sheet", times);
}

pub fn removes(random: &mut Random) {
    let sheets = fifteen(random, false);
    let (port, original) =
        black_box((raw::cobalnis_remove_raw as Remove, theirs::remove as Remove));
    let times = measure(
        sheets.len(),
        &mut || remove_pass(port, &sheets),
        &mut || remove_pass(original, &sheets),
    );
    row("remove from a full sheet", times);
}
