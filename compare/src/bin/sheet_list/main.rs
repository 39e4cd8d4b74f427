//! Prints lists of calls on a sheet with the answers and the cells that the model of the
//! sheet (docs/REFERENCE.md, Sheet) gives, for the program that replays them.
//!
//!     cargo run --release --offline --bin sheet_list > ../crates/sheet_vectors/stdin
//!
//! A line is 189 bytes: a tag and eleven words. The first eight are the arguments (zeros where there
//! are fewer), then come the status, the value refused (zeros for none) and the number of the state
//! after the line. The tags and their arguments are listed at the top of
//! crates/sheet_vectors/src/main.rt.
//!
//! The state is a sheet's words and two buffers, of cells and of marks, each one row more than the
//! largest sheet has, all zeros before the first line but for one finish. A call takes the words, the
//! first so many cells and the first so many marks, at first all marks. Lines that change the state by
//! hand are accepted always, so that a call meets any sheet and any buffers. A line has no room for
//! all words of a part: the last two, its roughness, are those of the last `k` line before, at first
//! zeros. A `w` line has its words where a sheet of one finish alone would: D, its roughness, B, the
//! number of columns, Machs and so on; the other finishes have the `e` line.
//!
//! The state's number h is made of 64-bit words x, one after the other, from h = 0xcbf29ce484222325:
//! h is h xor x, turned left by 23 bits, times 0x100000001b3 without carry out of 64 bits. The
//! words: D, the first roughness, B, the count of columns, M and R of each column (32 at most), the
//! nozzle diameter, the count of parts, each part's eight words (16 parts at most); where there is one
//! finish the buffer's first 640 cells; else the count of finishes, each one's roughness (4 at most)
//! and all cells. Every NaN is 7ff8000000000000, and a shape without a parameter has zeros for it, as
//! a part without a roughness of its own has.

mod burning;
mod calls;
mod cases;
mod finishes;
mod lists;
mod marks;

use std::io::{BufWriter, StdoutLock, Write};

use compare::answer_bits;
use compare::arguments::Arguments;
use compare::list::line;
use compare::mirror::{part_words, status};
use compare::model::{rows, Buffers, Column, Design, Part, Settings, Sheet};
use compare::model::{COLUMNS, FINISHES, NO_PART, PLACES};
use compare::refusals::Answer;

/// Cells, and marks, of the largest sheet of so many finishes, and a row more.
const fn room(finishes: usize) -> usize {
    (rows(finishes) + 1) * COLUMNS
}

/// The state's number so far, and one word more.
fn mixed(h: u64, x: u64) -> u64 {
    (h ^ x).rotate_left(23).wrapping_mul(0x100_0000_01b3)
}

/// The word from which on a line has its answer.
const ANSWER: usize = 8;

struct Play {
    out: BufWriter<StdoutLock<'static>>,
    args: Arguments,
    sheet: Sheet,
    held: Buffers,
    /// How many cells and how many marks are lent.
    cell_count: usize,
    mark_count: usize,
    /// Whether the state's number counts marks.
    marked: bool,
    /// With how many finishes `opened` opens a sheet; none: one, without a line for it.
    finishes: Option<usize>,
    /// Words 6 and 7 of the part in `i` and `r` lines.
    given: [u64; 2],
    calls: usize,
    /// Parts given and held, and those with a roughness of their own.
    parts: usize,
    own: usize,
    /// Accepted calls that left a nozzle above 0.
    burning: usize,
    /// Accepted calls that left a sheet of more than one finish.
    several: usize,
    /// Accepted calls that left a mark in a total, since marks count.
    beyond: usize,
}

impl Play {
    /// The state before the first line.
    fn blank() -> Self {
        Self {
            out: BufWriter::new(std::io::stdout().lock()),
            args: Arguments::new(0x5eed_0005),
            sheet: Sheet {
                settings: Settings {
                    reference_diameter: 0.0,
                    finishes: 1,
                    roughnesses: [0.0; FINISHES],
                    body_fineness: 0.0,
                    count: 0,
                    columns: [Column {
                        mach: 0.0,
                        reynolds: 0.0,
                    }; COLUMNS],
                },
                nozzle_diameter: 0.0,
                design: Design {
                    count: 0,
                    parts: [NO_PART; PLACES],
                },
            },
            held: Buffers::new(room(FINISHES)),
            cell_count: 0,
            mark_count: room(FINISHES),
            marked: false,
            finishes: None,
            given: [0; 2],
            calls: 0,
            parts: 0,
            own: 0,
            burning: 0,
            several: 0,
            beyond: 0,
        }
    }

    fn number(&self) -> u64 {
        let mut h = 0xcbf2_9ce4_8422_2325;
        let settings = &self.sheet.settings;
        let [first, ..] = settings.roughnesses;
        for x in [settings.reference_diameter, first, settings.body_fineness] {
            h = mixed(h, answer_bits(x));
        }
        h = mixed(h, settings.count as u64);
        for column in &settings.columns[..settings.count.min(COLUMNS)] {
            h = mixed(h, answer_bits(column.mach));
            h = mixed(h, answer_bits(column.reynolds));
        }
        h = mixed(h, answer_bits(self.sheet.nozzle_diameter));
        let design = &self.sheet.design;
        h = mixed(h, design.count as u64);
        for part in &design.parts[..design.count.min(PLACES)] {
            for word in part_words(part, answer_bits) {
                h = mixed(h, word);
            }
        }
        let mut counted = room(1);
        if settings.finishes != 1 {
            counted = room(FINISHES);
            h = mixed(h, settings.finishes as u64);
            for &roughness in &settings.roughnesses[..settings.finishes.min(FINISHES)] {
                h = mixed(h, answer_bits(roughness));
            }
        }
        for &cell in &self.held.cells[..counted] {
            h = mixed(h, answer_bits(cell));
        }
        if self.marked {
            for &mark in &self.held.marks[..counted] {
                h = mixed(h, mark.into());
            }
        }
        h
    }

    /// The most cells that a list lends.
    fn room(&self) -> usize {
        room(self.finishes.map_or(1, |_| FINISHES))
    }

    fn line(&mut self, tag: char, args: &[u64], answer: Answer) {
        let answer = [status(answer).into(), answer.bits, self.number()];
        let line = line(tag, ANSWER, args, &answer);
        writeln!(self.out, "{line}").expect("standard output");
    }
}

fn main() {
    let mut play = Play::blank();
    // The sheet of docs/REFERENCE.md, Example.
    play.settings(1.0, 0.0, 1.0, 1);
    play.lend(rows(1));
    play.open();
    play.insert(
        0,
        Part {
            aft_diameter: 1.0,
            ..NO_PART
        },
    );
    play.opens();
    play.later_widening();
    play.roughnesses();
    play.burning();
    for columns in 0..=COLUMNS {
        let calls = if columns < 8 { 60 } else { 36 };
        play.list(columns, calls, 40, 40);
    }
    // Long lists on few columns, so that designs fill up; many refusals, then few.
    for turn in 0..16 {
        let columns = turn % 5;
        play.list(
            columns,
            90,
            6 + 60 * (turn as u64 / 8),
            9 + 60 * (turn as u64 / 8),
        );
    }
    for columns in 0..4 {
        play.full(columns);
    }
    play.by_finish();
    play.beyond_the_tables();
    let (own, parts) = (play.own, play.parts);
    eprintln!(
        "{} calls, {} left a burning sheet, {} one of more than one finish",
        play.calls, play.burning, play.several
    );
    eprintln!("{own} of {parts} parts with a roughness of their own");
    eprintln!("{} calls left a mark in a total", play.beyond);
    play.out.flush().expect("standard output");
}
