//! How the calls' cost grows with columns, parts and finishes: one of them from its least to its
//! most, the others at their most, but for the finishes, of which there is one where they are not
//! what grows.

use std::hint::black_box;

use cobalnis::raw;
use cobalnis::words::{
    PartWords, SheetWords, COLUMNS_AT, FINISHES_AT, FIRST_PART, MACHS_AT, PARTS_AT, PART_WORDS,
    REYNOLDS_AT, ROUGHNESSES_AT,
};
use compare::inputs::Random;
use compare::mirror_c as theirs;
use compare::model::{rows, COLUMNS, FINISHES, PLACES};

use crate::passes::{build_pass, column_pass, replace_pass, Edit, SetColumn};
use crate::sheets::{part, sheet};
use crate::timing::{measure, Times};

/// A generator of their own, so that all other inputs stay as they are.
const SEED: u64 = 0x5eed_0016;

const SHEETS: usize = 32;

/// Replaces and set columns of each sheet.
const EDITS: usize = 8;

#[derive(Clone, Copy)]
struct Size {
    columns: usize,
    parts: usize,
    finishes: usize,
}

const FULL: Size = Size {
    columns: COLUMNS,
    parts: PLACES,
    finishes: 1,
};

impl Size {
    /// The cells that are lent.
    fn lent(self) -> usize {
        rows(self.finishes) * self.columns
    }

    /// The cells of so many part rows, and of the frictions, the base and the totals.
    fn cells(self, part_rows: usize) -> usize {
        (part_rows + 1 + 2 * self.finishes) * self.columns
    }

    /// The first columns, parts and finishes of a sheet that has all.
    fn of(self, sheet: &SheetWords) -> SheetWords {
        let mut words = *sheet;
        words[FINISHES_AT] = self.finishes as u64;
        words[COLUMNS_AT] = self.columns as u64;
        words[PARTS_AT] = self.parts as u64;
        words
    }
}

/// A sheet, and what its edits bring: parts of its first part's diameter, and columns.
struct Edited {
    sheet: SheetWords,
    parts: [(usize, PartWords); EDITS],
    columns: [(usize, f64, f64); EDITS],
}

fn any_column(random: &mut Random) -> (f64, f64) {
    let mach = random.between(0.05, 3.0);
    (mach, mach * random.between(5e6, 3e7))
}

fn part_of(words: &SheetWords, place: usize) -> PartWords {
    let at = FIRST_PART + PART_WORDS * place;
    let words = words[at..].first_chunk();
    *words.expect("a part's words")
}

/// Sheets with all columns, parts and finishes, in which every part widens; every size takes its
/// own from these.
fn all_sheets(random: &mut Random) -> Vec<Edited> {
    let edited = |random: &mut Random| {
        let mut words = sheet(random, PLACES, true);
        for word in &mut words[ROUGHNESSES_AT..ROUGHNESSES_AT + FINISHES] {
            *word = random.scaled(1e-6, 1e-4).to_bits();
        }
        for column in 0..COLUMNS {
            let (mach, reynolds) = any_column(random);
            words[MACHS_AT + column] = mach.to_bits();
            words[REYNOLDS_AT + column] = reynolds.to_bits();
        }
        let parts = [(); EDITS].map(|()| {
            let mut new = part(random, 0.0, true);
            new[3] = part_of(&words, 0)[3];
            (0, new)
        });
        let columns = [(); EDITS].map(|()| {
            let (mach, reynolds) = any_column(random);
            (random.bits() as usize, mach, reynolds)
        });
        Edited {
            sheet: words,
            parts,
            columns,
        }
    };
    (0..SHEETS).map(|_| edited(random)).collect()
}

/// The insert of the last part, which writes every row.
fn builds(size: Size, all: &[Edited]) -> Times {
    let without_last = |edited: &Edited| {
        let mut words = size.of(&edited.sheet);
        words[PARTS_AT] -= 1;
        (words, part_of(&words, size.parts - 1))
    };
    let sheets: Vec<_> = all.iter().map(without_last).collect();
    let (port, original) = black_box((raw::cobalnis_insert_raw as Edit, theirs::insert as Edit));
    measure(
        sheets.len(),
        &mut || build_pass(port, size.lent(), &sheets),
        &mut || build_pass(original, size.lent(), &sheets),
    )
}

/// Replaces of the first part.
fn replaces(size: Size, all: &[Edited]) -> Times {
    let sheets: Vec<_> = all
        .iter()
        .map(|edited| (size.of(&edited.sheet), &edited.parts))
        .collect();
    let pass = |f: Edit| {
        let of_one = |(sheet, parts): &(SheetWords, &[_; EDITS])| {
            replace_pass(f, size.lent(), sheet, &parts[..])
        };
        sheets.iter().map(of_one).fold(0, u64::wrapping_add)
    };
    let (port, original) = black_box((raw::cobalnis_replace_raw as Edit, theirs::replace as Edit));
    measure(sheets.len() * EDITS, &mut || pass(port), &mut || {
        pass(original)
    })
}

fn set_columns(size: Size, all: &[Edited]) -> Times {
    let within = |edited: &Edited| {
        let columns = edited.columns;
        let columns = columns.map(|(column, m, r)| (column % size.columns, m, r));
        (size.of(&edited.sheet), columns)
    };
    let sheets: Vec<_> = all.iter().map(within).collect();
    let pass = |f: SetColumn| {
        let of_one = |(sheet, columns): &(SheetWords, [_; EDITS])| {
            column_pass(f, size.lent(), sheet, columns)
        };
        sheets.iter().map(of_one).fold(0, u64::wrapping_add)
    };
    let (port, original) = black_box((
        raw::cobalnis_set_column_raw as SetColumn,
        theirs::set_column as SetColumn,
    ));
    measure(sheets.len() * EDITS, &mut || pass(port), &mut || {
        pass(original)
    })
}

/// What one size costs: nanoseconds of the port, how many that is for each cell worked out, and the
/// ratio to the original.
fn size_row(size: Size, all: &[Edited]) {
    let Size {
        columns,
        parts,
        finishes,
    } = size;
    print!("| {columns} | {parts} | {finishes} |");
    let calls = [
        (builds(size, all), size.cells(parts)),
        (replaces(size, all), size.cells(parts.min(2))),
        (set_columns(size, all), size.cells(parts) / columns),
    ];
    for (Times { port, original }, cells) in calls {
        let (a_cell, ratio) = (port / cells as f64, port / original);
        print!(" {cells} | {port:.0} | {a_cell:.1} | {ratio:.2} |");
    }
    println!();
}

pub fn growth() {
    let all = all_sheets(&mut Random::new(SEED));
    let call = "cells | ns | ns a cell | port/original |";
    println!(
        "\nA whole build, a replace of the first part and a set column, every part widening:\n"
    );
    println!("| C | parts | F | build: {call} replace: {call} set column: {call}");
    println!("|{}", "---|".repeat(15));
    for columns in [1, 2, 4, 8, 16, 32] {
        size_row(Size { columns, ..FULL }, &all);
    }
    for parts in [1, 2, 4, 8, 16] {
        size_row(Size { parts, ..FULL }, &all);
    }
    for finishes in 1..=FINISHES {
        size_row(Size { finishes, ..FULL }, &all);
    }
}
