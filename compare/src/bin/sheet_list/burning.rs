//! Lists for the nozzle: ignite and burnout at every point of a list, around the last d, and a
//! nozzle held that no call would hand back.

use compare::inputs::{around, NANS, TINY};
use compare::model::{Column, Part, NO_PART};
use compare::refusals::Answer;

use crate::Play;

/// Numbers outside [0, 100].
const BAD: [f64; 7] = [
    NANS[0],
    NANS[3],
    -1.0,
    -TINY,
    100.0f64.next_up(),
    101.0,
    f64::INFINITY,
];

const COLUMN: Column = Column {
    mach: 0.9,
    reynolds: 1e6,
};

/// A part that ends at this d.
fn part(d: f64) -> Part {
    Part {
        length: 0.5,
        aft_diameter: d,
        wetted_ratio: 4.0,
        roughness: Some(1e-4),
        ..NO_PART
    }
}

fn accepted(answer: Answer) {
    assert_eq!(answer.refusal, 0);
}

impl Play {
    pub fn burning(&mut self) {
        for columns in [0, 1, 3] {
            self.before_the_first_part(columns);
            self.in_mid_list(columns);
            self.around_the_last_d(columns);
            self.down_to_none(columns);
            self.refused_while_burning(columns);
            self.held_nozzles(columns);
        }
    }

    /// Ignited before there is a base; parts come to it, narrower, as wide and wider.
    pub fn before_the_first_part(&mut self, columns: usize) {
        self.opened(columns);
        for n in [0.0, -0.0, TINY, 100.0, 0.05] {
            accepted(self.ignite(n));
        }
        for (place, d) in [0.04, 0.05, 0.1].into_iter().enumerate() {
            accepted(self.insert(place, part(d)));
        }
        accepted(self.burnout());
    }

    /// Ignited and burnt out between edits, twice each.
    pub fn in_mid_list(&mut self, columns: usize) {
        self.opened(columns);
        self.every_edit();
        for n in [0.25, 0.4] {
            accepted(self.ignite(n));
            self.every_edit();
        }
        for _ in 0..2 {
            accepted(self.burnout());
            self.every_edit();
        }
    }

    /// Every edit, of the last part and of another, and a column set where there is one.
    pub fn every_edit(&mut self) {
        let last = self.sheet.design.count + 1;
        let column = self.set_column(0, COLUMN).refusal;
        assert_eq!(column == 8, self.sheet.settings.count == 0);
        let answers = [
            self.insert(last - 1, part(0.3)),
            self.insert(0, part(0.2)),
            self.replace(last, part(0.5)),
            self.replace(0, part(0.1)),
            self.remove(0),
            self.insert(last, part(0.25)),
            self.remove(last - 1),
        ];
        answers.into_iter().for_each(accepted);
    }

    /// Nozzles below the last d, at it and above it, with its neighbours.
    fn around_the_last_d(&mut self, columns: usize) {
        self.opened(columns);
        accepted(self.insert(0, part(1.0)));
        accepted(self.insert(1, part(1.0)));
        for d in [0.0, 1e-200, 0.1, 1.0, 100.0] {
            accepted(self.replace(1, part(d)));
            for n in [around(d), [0.5 * d, 2.0 * d, -0.0]].concat() {
                let refused = self.ignite(n).refusal;
                assert_eq!(refused == 0, (0.0..=100.0).contains(&n));
            }
        }
    }

    /// The last part taken away until none is left, burning; then coasting, and burning again.
    pub fn down_to_none(&mut self, columns: usize) {
        self.opened(columns);
        for (place, d) in [0.2, 0.3, 0.1, 0.05].into_iter().enumerate() {
            accepted(self.insert(place, part(d)));
        }
        accepted(self.ignite(0.15));
        for place in (0..4).rev() {
            accepted(self.remove(place));
        }
        accepted(self.burnout());
        accepted(self.ignite(0.15));
        accepted(self.insert(0, part(0.2)));
        accepted(self.burnout());
    }

    /// A refused ignite keeps the nozzle that burns, and the edits after it have it.
    pub fn refused_while_burning(&mut self, columns: usize) {
        self.opened(columns);
        accepted(self.insert(0, part(0.1)));
        accepted(self.ignite(0.05));
        for n in BAD {
            assert_eq!(self.ignite(n).refusal, 11);
            accepted(self.replace(0, part(0.1)));
        }
        // A refused open leaves the nozzle too, an accepted one starts coasting.
        self.settings(0.0, 0.0, 1.0, columns);
        assert_eq!(self.open().refusal, 11);
        self.settings(1.0, 0.0, 1.0, columns);
        accepted(self.open());
        accepted(self.insert(0, part(0.1)));
    }

    /// A nozzle held out of range: 11 right after 10 and before 9. -0 held is in range.
    fn held_nozzles(&mut self, columns: usize) {
        self.opened(columns);
        accepted(self.insert(0, part(0.2)));
        accepted(self.insert(1, part(0.1)));
        let enough = self.cell_count;
        for n in BAD {
            self.nozzle(n);
            self.all_refused(11);
            self.parts(17);
            self.all_refused(11);
            if columns > 0 {
                self.lend(self.sheet.settings.cells() - 1);
                self.all_refused(10);
                self.lend(enough);
            }
            self.parts(2);
        }
        self.nozzle(0.05);
        self.parts(17);
        self.all_refused(9);
        self.parts(2);
        for n in [0.05, -0.0, 100.0] {
            self.nozzle(n);
            self.every_edit();
        }
        self.nozzle(-0.0);
        accepted(self.burnout());
        self.nozzle(NANS[6]);
        accepted(self.open());
    }

    /// Each kind of call but open, all refused with this number, whatever else is wrong.
    pub fn all_refused(&mut self, number: u8) {
        let answers = [
            self.insert(99, part(0.1)),
            self.replace(99, part(0.1)),
            self.remove(99),
            self.set_column(99, COLUMN),
            self.ignite(NANS[0]),
            self.burnout(),
        ];
        assert!(answers.iter().all(|answer| answer.refusal == number));
    }
}
