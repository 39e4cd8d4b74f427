//! Random lists of calls on a sheet against the model: good and bad arguments, held sheets damaged
//! on purpose, too few cells or marks, foreign cells and marks.

mod call;
mod inputs;

use cobalnis::words::{
    SheetWords, COLUMNS_AT, FINENESS_AT, FINISHES_AT, FIRST_PART, MACHS_AT, NOZZLE_AT, PARTS_AT,
    PART_WORDS, REYNOLDS_AT, ROUGHNESSES_AT, SHEET_WORDS,
};

use super::tally::Row;
use crate::answer_bits;
use crate::arguments::Arguments;
use crate::model::{rows, total_row, Buffers, COLUMNS, FINISHES, PLACES};
use call::{Call, CALLS};

const BUFFER: usize = rows(FINISHES) * COLUMNS + 8;

/// A sheet with its cells and marks, on which lists of calls are played.
struct Play {
    args: Arguments,
    sheet: SheetWords,
    held: Buffers,
    rows: Vec<Row>,
}

/// At least so many calls of each kind.
pub fn sheets(count: u64, seed: u64) -> Vec<Row> {
    let mut play = Play {
        args: Arguments::new(seed),
        sheet: [0; SHEET_WORDS],
        held: Buffers::new(BUFFER),
        rows: CALLS.map(|call| Row::new(format!("sheet: {call}"))).into(),
    };
    while play.rows[1..].iter().any(|row| row.inputs() < count) {
        play.list();
    }
    while play.rows[0].inputs() < count {
        play.foreign();
        play.open();
    }
    play.rows
}

/// The number of finishes, as far as there is room.
fn finishes_of(words: &SheetWords) -> usize {
    (words[FINISHES_AT] as usize).min(FINISHES)
}

/// What a sheet's words say: those of finishes, columns and parts past the counts are nobody's.
fn said(words: &SheetWords) -> Vec<u64> {
    let columns = (words[COLUMNS_AT] as usize).min(COLUMNS);
    let parts = (words[PARTS_AT] as usize).min(PLACES);
    let mut list = words[..ROUGHNESSES_AT + finishes_of(words)].to_vec();
    list.extend(&words[FINENESS_AT..MACHS_AT + columns]);
    list.extend(&words[REYNOLDS_AT..REYNOLDS_AT + columns]);
    list.extend(&words[NOZZLE_AT..FIRST_PART + PART_WORDS * parts]);
    list
}

/// The last part's aft diameter, 0 without parts.
fn last_d(words: &SheetWords) -> f64 {
    match (words[PARTS_AT] as usize).min(PLACES) {
        0 => 0.0,
        parts => f64::from_bits(words[FIRST_PART + PART_WORDS * (parts - 1) + 3]),
    }
}

/// Whether a total of an accepted call's sheet has a mark.
fn is_marked(words: &SheetWords, marks: &[u8]) -> bool {
    let (finishes, columns) = (finishes_of(words), words[COLUMNS_AT] as usize);
    let totals = total_row(finishes) * columns..rows(finishes) * columns;
    marks[totals].contains(&1)
}

/// Whether all cells are equal, a NaN being equal to any NaN.
fn same_cells(a: &[f64], b: &[f64]) -> bool {
    a.iter()
        .zip(b)
        .all(|(&x, &y)| answer_bits(x) == answer_bits(y))
}

/// Whether all cells have the same bits.
fn same_bits(a: &[f64], b: &[f64]) -> bool {
    a.iter().zip(b).all(|(x, y)| x.to_bits() == y.to_bits())
}

impl Play {
    /// The call on both sides, from the same sheet and buffers, of which so many cells and so many
    /// marks are lent.
    fn call(&mut self, call: Call, [cells, marks]: [usize; 2]) {
        let (given, before) = (self.sheet, self.held.clone());
        let (mut theirs, mut their_held) = (given, before.clone());
        let Buffers {
            cells: lent,
            marks: with,
        } = &mut self.held;
        let port = call.of_port(&mut self.sheet, &mut lent[..cells], &mut with[..marks]);
        let model = call.of_model(&mut theirs, their_held.lend_first(cells, marks));
        let agree = port == model
            && same_cells(&self.held.cells, &their_held.cells)
            && self.held.marks == their_held.marks
            && if model.0 == 0 {
                said(&self.sheet) == said(&theirs)
            } else {
                self.sheet == given
                    && same_bits(&self.held.cells, &before.cells)
                    && self.held.marks == before.marks
            };
        let row = &mut self.rows[call.row()];
        row.note(model.0, agree, || {
            format!(
                "{call:x?}, {cells} cells, {marks} marks, port {port:x?}, model {model:x?}, \
                 on {given:x?}"
            )
        });
        if let Call::Insert(_, part) | Call::Replace(_, part) = call {
            row.note_part(&part);
        }
        if model.0 == 0 {
            row.note_finishes(finishes_of(&theirs));
            row.note_nozzle(f64::from_bits(theirs[NOZZLE_AT]), last_d(&theirs));
            row.note_mark(is_marked(&theirs, &their_held.marks));
        }
        if !agree {
            // Go on from what the model has, so that one slip isn't told twice.
            (self.sheet, self.held) = (theirs, their_held);
        }
    }

    /// An open, then calls of all kinds.
    fn list(&mut self) {
        self.foreign();
        self.open();
        for _ in 0..20 + self.args.below(60) {
            if self.args.one_in(25) {
                self.foreign();
            }
            let whole = self.sheet;
            let damaged = self.args.one_in(10);
            if damaged {
                self.damage();
            }
            let call = self.a_call();
            let lent = self.lent();
            self.call(call, lent);
            if damaged {
                self.sheet = whole;
            }
        }
    }
}
