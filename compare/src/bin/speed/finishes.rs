//! The sheet's calls with four finishes, against the same calls with one.

use std::hint::black_box;

use cobalnis::raw;
use cobalnis::words::{PartWords, SheetWords, FINISHES_AT, ROUGHNESSES_AT};
use compare::inputs::Random;
use compare::mirror_c as theirs;
use compare::model::{rows, COLUMNS, FINISHES, PLACES};

use crate::passes::{build_pass, column_pass, replace_pass, Edit, SetColumn, CELLS};
use crate::sheets::{fifteen, part, sheet};
use crate::timing::{measure, row, Times};

/// The cells of these sheets.
const ALL_CELLS: usize = rows(FINISHES) * COLUMNS;

/// A generator of their own, so that all other inputs stay as they are.
const SEED: u64 = 0x5eed_0010;

/// The same sheet with four finishes, the first one being as it was.
fn finished(mut words: SheetWords, random: &mut Random) -> SheetWords {
    words[FINISHES_AT] = FINISHES as u64;
    for word in &mut words[ROUGHNESSES_AT + 1..ROUGHNESSES_AT + FINISHES] {
        *word = random.scaled(1e-6, 1e-4).to_bits();
    }
    words
}

/// Four finishes on either side, and the port's against the port's one.
fn rows_of(call: &str, four: Times, one: Times) {
    row(&format!("{call}, 4 finishes"), four);
    let (port, original) = (four.port, one.port);
    row(
        &format!("port's {call} with 4 finishes / with 1"),
        Times { port, original },
    );
}

type Sheets = [(SheetWords, PartWords)];

fn builds(one: &Sheets, four: &Sheets) {
    let (port, original) = black_box((raw::cobalnis_insert_raw as Edit, theirs::insert as Edit));
    let with_one = measure(one.len(), &mut || build_pass(port, CELLS, one), &mut || {
        build_pass(original, CELLS, one)
    });
    let with_four = measure(
        four.len(),
        &mut || build_pass(port, ALL_CELLS, four),
        &mut || build_pass(original, ALL_CELLS, four),
    );
    rows_of("whole build", with_four, with_one);
}

fn replaces(one: &SheetWords, four: &SheetWords, parts: &[(usize, PartWords)]) {
    let (port, original) = black_box((raw::cobalnis_replace_raw as Edit, theirs::replace as Edit));
    let with_one = measure(
        parts.len(),
        &mut || replace_pass(port, CELLS, one, parts),
        &mut || replace_pass(original, CELLS, one, parts),
    );
    let with_four = measure(
        parts.len(),
        &mut || replace_pass(port, ALL_CELLS, four, parts),
        &mut || replace_pass(original, ALL_CELLS, four, parts),
    );
    rows_of("replace", with_four, with_one);
}

fn set_columns(one: &SheetWords, four: &SheetWords, columns: &[(usize, f64, f64)]) {
    let (port, original) = black_box((
        raw::cobalnis_set_column_raw as SetColumn,
        theirs::set_column as SetColumn,
    ));
    let with_one = measure(
        columns.len(),
        &mut || column_pass(port, CELLS, one, columns),
        &mut || column_pass(original, CELLS, one, columns),
    );
    let with_four = measure(
        columns.len(),
        &mut || column_pass(port, ALL_CELLS, four, columns),
        &mut || column_pass(original, ALL_CELLS, four, columns),
    );
    rows_of("set column", with_four, with_one);
}

pub fn four_finishes() {
    let random = &mut Random::new(SEED);
    let one = fifteen(random, false);
    let four: Vec<_> = one
        .iter()
        .map(|&(words, last)| (finished(words, random), last))
        .collect();
    builds(&one, &four);
    let full = sheet(random, PLACES, false);
    let four = finished(full, random);
    let parts: Vec<_> = (0..128)
        .map(|_| ((random.bits() % 16) as usize, part(random, 0.1, false)))
        .collect();
    replaces(&full, &four, &parts);
    let columns: Vec<_> = (0..128)
        .map(|_| {
            let mach = random.between(0.05, 3.0);
            (
                (random.bits() % 32) as usize,
                mach,
                mach * random.between(5e6, 3e7),
            )
        })
        .collect();
    set_columns(&full, &four, &columns);
}
