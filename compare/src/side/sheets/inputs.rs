//! What a list of calls gets: arguments, a sheet damaged on purpose, buffers that are foreign or short.

use cobalnis::words::{
    PartWords, COLUMNS_AT, FINENESS_AT, FINISHES_AT, FIRST_PART, MACHS_AT, NOZZLE_AT, PARTS_AT,
    PART_WORDS, REYNOLDS_AT, ROUGHNESSES_AT, SHEET_WORDS,
};

use super::call::Call;
use super::{finishes_of, last_d, Play, BUFFER};
use crate::inputs::NANS;
use crate::mirror;
use crate::model::{rows, Part, COLUMNS, FINISHES, PLACES};

/// A part's words, NaNs as they come.
fn words_of(part: &Part) -> PartWords {
    mirror::part_words(part, f64::to_bits)
}

impl Play {
    /// A nozzle diameter around the last d.
    fn nozzle(&mut self, bad: u64) -> f64 {
        self.args.a_nozzle(last_d(&self.sheet), bad)
    }

    fn columns(&self) -> usize {
        (self.sheet[COLUMNS_AT] as usize).min(COLUMNS)
    }

    fn parts(&self) -> usize {
        (self.sheet[PARTS_AT] as usize).min(PLACES)
    }

    /// How many cells and how many marks are lent, each for itself: enough, or seldom too few.
    pub(super) fn lent(&mut self) -> [usize; 2] {
        let enough = rows(finishes_of(&self.sheet)) * self.columns();
        [(); 2].map(|()| match self.args.below(60) {
            0 => enough.saturating_sub(1),
            1 => self.args.below(enough + 1),
            2..=20 => enough,
            _ => enough + self.args.below(BUFFER - enough + 1),
        })
    }

    /// Foreign values in all cells and in all marks, or in some of them.
    pub(super) fn foreign(&mut self) {
        let list = [NANS[2], NANS[7], 1.0, -0.0, f64::INFINITY, -3.5, 1e308];
        if self.args.one_in(3) {
            for cell in &mut self.held.cells {
                *cell = self.args.random.any();
            }
        } else {
            for _ in 0..1 + self.args.below(4) {
                let at = self.args.below(BUFFER);
                self.held.cells[at] = self.args.random.pick(&list);
            }
        }
        if self.args.one_in(6) {
            for mark in &mut self.held.marks {
                *mark = self.args.random.bits() as u8;
            }
        } else if self.args.one_in(6) {
            self.held.marks.fill(0);
        }
        for _ in 0..self.args.below(5) {
            let at = self.args.below(BUFFER);
            self.held.marks[at] = [0, 1, 2, 128, 255][self.args.below(5)];
        }
    }

    /// Settings of few columns mostly, and the open call, which is refused now and then. It finds a
    /// nozzle of the list before, or any.
    pub(super) fn open(&mut self) {
        let columns = match self.args.below(12) {
            0 => self.args.below(COLUMNS + 1),
            1 => COLUMNS,
            _ => self.args.below(5),
        };
        let bad = if self.args.one_in(8) { 4 } else { u64::MAX };
        self.body(bad);
        self.sheet[COLUMNS_AT] = match self.args.below(100) {
            0 => 33,
            1 => self.args.random.bits(),
            _ => columns as u64,
        };
        for at in 0..columns {
            let column = self.args.a_column(bad.saturating_mul(columns as u64));
            self.sheet[MACHS_AT + at] = column.mach.to_bits();
            self.sheet[REYNOLDS_AT + at] = column.reynolds.to_bits();
        }
        if self.args.one_in(8) {
            self.sheet[NOZZLE_AT] = self.args.random.bits();
        }
        let lent = self.lent();
        self.call(Call::Open, lent);
    }

    /// D, the finishes and B, refused one time in `bad` each.
    fn body(&mut self, bad: u64) {
        self.sheet[0] = self.args.house(0.001, 100.0, 1.0, bad).to_bits();
        let b = match self.args.below(12) {
            0 => self.args.random.any(),
            1 => self
                .args
                .random
                .pick(&[0.0, -0.0, NANS[5], f64::INFINITY, -1.0]),
            _ => self.args.random.between(0.5, 30.0),
        };
        self.sheet[FINENESS_AT] = b.to_bits();
        self.sheet[FINISHES_AT] = self.args.a_finish_count(bad) as u64;
        self.roughnesses(bad.saturating_mul(FINISHES as u64));
    }

    /// All four roughnesses, of which those past the finishes may be anything.
    fn roughnesses(&mut self, bad: u64) {
        for at in 0..FINISHES {
            let [roughness, ..] = self.args.roughnesses(bad);
            let counts = at < finishes_of(&self.sheet) || self.args.one_in(2);
            let any = self.args.random.bits();
            self.sheet[ROUGHNESSES_AT + at] = if counts { roughness.to_bits() } else { any };
        }
    }

    /// A part's words; the shape's number is none of the six seldom. That it has a roughness of its
    /// own may be said by any number but 0, and where it has none the last word may be any.
    fn part(&mut self) -> PartWords {
        let mut words = words_of(&self.args.a_part(40, 40));
        if self.args.one_in(150) {
            words[0] = [6, 7, 255, 1 << 32, u64::MAX][self.args.below(5)];
        }
        if self.args.one_in(100) {
            let at = 1 + self.args.below(PART_WORDS - 1);
            words[at] = self.args.random.bits();
        }
        if self.args.one_in(4) {
            let other = if words[6] == 0 { 7 } else { 6 };
            words[other] = self.not_one();
        }
        words
    }

    /// A number above 1.
    fn not_one(&mut self) -> u64 {
        let any = self.args.random.bits() | 2;
        [2, 255, 1 << 32, 1 << 63, u64::MAX, any][self.args.below(6)]
    }

    pub(super) fn a_call(&mut self) -> Call {
        let (parts, columns) = (self.parts(), self.columns());
        match self.args.below(24) {
            0..=4 => {
                let place = match self.args.below(6) {
                    0 => self.args.a_place(parts),
                    _ => self.args.below(parts + 1),
                };
                Call::Insert(place, self.part())
            }
            5..=8 => Call::Replace(self.args.a_place(parts), self.part()),
            9..=11 => Call::Remove(self.args.a_place(parts)),
            12 if self.args.one_in(12) => Call::Open,
            16..=20 => Call::Ignite(self.nozzle(30)),
            21..=23 => Call::Burnout,
            _ => {
                let column = self.args.a_column(30);
                let at = self.args.a_place(columns);
                Call::SetColumn(at, column.mach, column.reynolds)
            }
        }
    }

    /// Changes words of the sheet as no call would.
    pub(super) fn damage(&mut self) {
        for _ in 0..1 + self.args.below(3) {
            let any = self.args.random.bits();
            let columns = self.columns().max(1);
            let place = FIRST_PART + PART_WORDS * self.args.below(self.parts().max(1));
            match self.args.below(16) {
                0 => self.sheet[self.args.below(SHEET_WORDS)] = any,
                1 => self.sheet[COLUMNS_AT] = [33, 32, any, 1 << 63, u64::MAX][self.args.below(5)],
                2 => self.sheet[PARTS_AT] = [17, 16, any, 1 << 63, u64::MAX][self.args.below(5)],
                3 => {
                    let at = [0, FINENESS_AT][self.args.below(2)];
                    self.sheet[at] = NANS[self.args.below(8)].to_bits();
                }
                4 => {
                    let column = self.args.a_column(2);
                    let at = self.args.below(columns);
                    self.sheet[MACHS_AT + at] = column.mach.to_bits();
                    self.sheet[REYNOLDS_AT + at] = column.reynolds.to_bits();
                }
                // A shape that isn't there, in use or past the count.
                5 => {
                    let place = FIRST_PART + PART_WORDS * self.args.below(PLACES);
                    self.sheet[place] = [6, 255, 1 << 32, any | 8][self.args.below(4)];
                }
                6 => self.sheet[place + 1 + self.args.below(PART_WORDS - 1)] = any,
                // A roughness of its own by any number but 0, good or bad; the flag alone.
                7 => {
                    let own = self.args.house(0.0, 1.0, 1e-3, 2);
                    self.sheet[place + 6] = [1, self.not_one()][self.args.below(2)];
                    self.sheet[place + 7] = own.to_bits();
                }
                8 => self.sheet[place + 6] = [0, 1, any, self.not_one()][self.args.below(4)],
                // A nozzle outside its interval, or one that no call gave.
                9 | 10 => self.sheet[NOZZLE_AT] = self.nozzle(2).to_bits(),
                // Another number of finishes, or other roughnesses.
                11 => self.sheet[FINISHES_AT] = self.args.a_finish_count(2) as u64,
                12 => self.roughnesses(4),
                _ => {
                    let part = words_of(&self.args.a_part(3, 3));
                    self.sheet[place..place + PART_WORDS].copy_from_slice(&part);
                }
            }
        }
    }
}
