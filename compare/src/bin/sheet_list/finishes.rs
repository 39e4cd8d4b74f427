//! Lists for sheets of one to four finishes: their number and roughnesses refused, the cells that
//! they need, edits and nozzles with several of them, and lists of calls of all kinds.

use compare::arguments::Arguments;
use compare::inputs::{NANS, TINY};
use compare::model::{rows, Column, Part, COLUMNS, FINISHES, NO_PART};

use crate::Play;

/// A generator of their own, so that all lines before stay as they are.
const SEED: u64 = 0x5eed_000f;

/// Numbers of finishes that no sheet has; the low half of some is one that a sheet may have.
const NONE_OR_TOO_MANY: [usize; 5] = [0, 5, 1 << 32, (1 << 32) + 2, usize::MAX];

/// Numbers outside [0, 1].
const BAD: [f64; 5] = [NANS[1], -1.0, -TINY, 1.0f64.next_up(), f64::INFINITY];

/// Polished, painted, painted badly, unfinished.
const GOOD: [f64; FINISHES] = [2e-6, 2e-5, 6e-5, 2e-4];

const COLUMN: Column = Column {
    mach: 0.6,
    reynolds: 1e7,
};

/// A part that ends at this d, with this roughness of its own.
fn part(d: f64, roughness: Option<f64>) -> Part {
    Part {
        length: 0.4,
        aft_diameter: d,
        wetted_ratio: 7.5,
        roughness,
        ..NO_PART
    }
}

impl Play {
    pub fn by_finish(&mut self) {
        self.args = Arguments::new(SEED);
        for finishes in 1..=FINISHES {
            self.finishes = Some(finishes);
            self.count_refused(finishes);
            self.roughness_refused(finishes);
            self.cells_needed(finishes);
            self.polished_parts(finishes);
            self.list(finishes % 3, 16, 40, 40);
        }
        self.before_the_first_part(2);
        self.in_mid_list(2);
        self.down_to_none(1);
        for finishes in [2, 3] {
            self.finishes = Some(finishes);
            self.refused_while_burning(1);
            self.list(3, 24, 8, 9);
        }
        self.finishes = Some(FINISHES);
        self.any_opens();
        self.list(COLUMNS, 20, 40, 40);
        self.full(1);
    }

    /// 19 in a sheet given and at open, after 7 and 11 for D and before anything else.
    fn count_refused(&mut self, finishes: usize) {
        self.opened(1);
        self.every_edit();
        let s = self.sheet.settings;
        let [first, ..] = s.roughnesses;
        for count in NONE_OR_TOO_MANY {
            self.finishes(count, s.roughnesses);
            self.all_refused(19);
            assert_eq!(self.open().refusal, 19);
        }
        self.lend(0);
        self.nozzle(NANS[0]);
        self.finishes(NONE_OR_TOO_MANY[finishes], [NANS[2]; FINISHES]);
        for (d, b, columns, number) in [
            (s.reference_diameter, s.body_fineness, 1, 19),
            (s.reference_diameter, 0.0, 1, 19),
            (0.0, 0.0, 1, 11),
            (0.0, 0.0, COLUMNS + 1, 7),
        ] {
            self.settings(d, -1.0, b, columns);
            self.all_refused(number);
            assert_eq!(self.open().refusal, number);
        }
        self.finishes(finishes, s.roughnesses);
        self.settings(s.reference_diameter, first, s.body_fineness, 1);
        self.all_refused(10);
    }

    /// 11 for each roughness that counts, before 1 for B; one past the finishes isn't looked at.
    fn roughness_refused(&mut self, finishes: usize) {
        self.opened(1);
        self.every_edit();
        let s = self.sheet.settings;
        for at in 0..FINISHES {
            let mut roughnesses = s.roughnesses;
            roughnesses[at] = BAD[(at + finishes) % BAD.len()];
            self.finishes(finishes, roughnesses);
            if at < finishes {
                self.all_refused(11);
                let [first, ..] = roughnesses;
                self.settings(s.reference_diameter, first, -1.0, 1);
                self.all_refused(11);
                self.settings(s.reference_diameter, first, s.body_fineness, 1);
                assert_eq!(self.open().refusal, 11);
            } else {
                self.every_edit();
                assert_eq!(self.open().refusal, 0);
            }
        }
        // The ends of the interval.
        self.finishes(finishes, [0.0, -0.0, 1.0, TINY]);
        assert_eq!(self.open().refusal, 0);
        self.every_edit();
    }

    /// One cell too few, just enough, and too few for one finish more.
    fn cells_needed(&mut self, finishes: usize) {
        for columns in [1, COLUMNS] {
            self.opened(columns);
            self.finishes(finishes, GOOD);
            assert_eq!(self.insert(0, part(0.1, None)).refusal, 0);
            let enough = rows(finishes) * columns;
            self.lend(enough - 1);
            self.all_refused(10);
            assert_eq!(self.open().refusal, 10);
            self.lend(enough);
            assert_eq!(self.replace(0, part(0.2, None)).refusal, 0);
            assert_eq!(self.ignite(0.1).refusal, 0);
            if finishes < FINISHES {
                self.finishes(finishes + 1, GOOD);
                self.all_refused(10);
                self.finishes(finishes, GOOD);
            }
            assert_eq!(self.open().refusal, 0);
        }
    }

    /// Parts with a roughness of their own, which holds in every finish, among parts without; cells
    /// that somebody else wrote are summed.
    fn polished_parts(&mut self, finishes: usize) {
        self.opened(2);
        self.finishes(finishes, GOOD);
        self.column(1, COLUMN);
        assert_eq!(self.open().refusal, 0);
        for (place, own) in [None, Some(1e-6), None, Some(0.0), Some(1.0)]
            .into_iter()
            .enumerate()
        {
            assert_eq!(self.insert(place, part(0.1, own)).refusal, 0);
        }
        for cell in [0, 33, 2 * rows(finishes) - 1] {
            self.poke(cell, -3.5);
            assert_eq!(self.replace(2, part(0.2, Some(GOOD[1]))).refusal, 0);
            assert_eq!(self.replace(2, part(0.2, None)).refusal, 0);
        }
        assert_eq!(self.set_column(0, COLUMN).refusal, 0);
        for place in [1, 0, 2, 1, 0] {
            assert_eq!(self.remove(place).refusal, 0);
        }
    }

    /// Opens that are refused, with several reasons at once, and accepted ones between.
    fn any_opens(&mut self) {
        for _ in 0..40 {
            let columns = [0, 1, 2, 3][self.args.below(4)];
            for at in 0..columns {
                let column = self.args.a_column(8);
                self.column(at, column);
            }
            let (finishes, roughnesses) = (self.args.a_finish_count(5), self.args.roughnesses(12));
            self.finishes(finishes, roughnesses);
            let d = self.args.house(0.001, 100.0, 1.0, 8);
            let b = self.args.random.pick(&[1.0, 12.0, 1e300, 20.0, 0.0]);
            let count = [columns, COLUMNS + 1][usize::from(self.args.one_in(12))];
            let [first, ..] = roughnesses;
            self.settings(d, first, b, count);
            let enough = rows(finishes.min(FINISHES)) * columns;
            let short = usize::from(self.args.one_in(3));
            self.lend(enough.saturating_sub(short));
            self.open();
        }
    }
}
