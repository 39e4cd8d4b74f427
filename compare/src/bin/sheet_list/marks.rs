//! Lists for the marks: noses of every shape below, at and above the last Mach numbers of Stoney's
//! tables, marks that somebody else wrote, too few marks, and lists of calls of all kinds.

use compare::arguments::Arguments;
use compare::cards::shape_of;
use compare::inputs::{around, NANS};
use compare::model::{rows, total_row, Column, Part, COLUMNS, FINISHES, FRICTION, NO_PART, PLACES};
use compare::original_fixed::StoneyNose;

use crate::{room, Play};

/// A generator of their own, so that all lines before stay as they are.
const SEED: u64 = 0x5eed_0012;

/// All marks that there is room for.
const ROOM: usize = room(FINISHES);

/// Shapes with both ends of each pair of tables that they are interpolated between.
const SHAPES: [(u64, f64); 20] = [
    (0, 0.0),
    (1, 1.5),
    (2, 0.0),
    (3, 0.0),
    (3, 0.1),
    (3, 0.25),
    (3, 0.4),
    (3, 0.5),
    (3, 0.6),
    (3, 0.75),
    (3, 0.9),
    (3, 1.0),
    (4, 0.0),
    (4, 0.3),
    (4, 0.5),
    (4, 0.75),
    (4, 1.0),
    (5, 0.0),
    (5, 0.2),
    (5, 1.0 / 3.0),
];

/// A nose of this shape, or a shoulder, that ends at this d.
fn nose((number, parameter): (u64, f64), length: f64, d: f64) -> Part {
    Part {
        shape: shape_of(number, parameter),
        length,
        aft_diameter: d,
        joint_angle: 0.1,
        wetted_ratio: 6.0,
        ..NO_PART
    }
}

fn at(mach: f64) -> Column {
    Column {
        mach,
        reynolds: 1e7,
    }
}

impl Play {
    pub fn beyond_the_tables(&mut self) {
        self.args = Arguments::new(SEED);
        self.marks(ROOM, 0, 0);
        for finishes in 1..=FINISHES {
            self.finishes = Some(finishes);
            self.every_kind();
            self.foreign_marks();
            self.short_marks();
            self.list(1 + finishes % 3, 24, 40, 40);
        }
        self.finishes = Some(2);
        self.every_shape();
        self.list(COLUMNS, 12, 40, 40);
        self.finishes = Some(1);
        for columns in [0, 2, 5] {
            self.list(columns, 40, 12, 12);
        }
        self.full(2);
    }

    /// How many marks are lent and what is in them, after an open that is yet to come.
    pub fn any_marks(&mut self) {
        let enough = self.sheet.settings.cells();
        let count = match self.args.below(3) {
            0 => ROOM,
            1 => enough,
            _ => enough + self.args.below(ROOM - enough + 1),
        };
        let any = self.args.random.bits().to_le_bytes();
        let (first, step) =
            [(0, 0), (2, 0), (255, 0), (0, 1), (any[0], any[1])][self.args.below(5)];
        self.marks(count, first, step);
    }

    /// A sheet opened at these Mach numbers.
    fn opened_at(&mut self, machs: &[f64]) {
        self.opened(machs.len());
        for (place, &mach) in machs.iter().enumerate() {
            self.column(place, at(mach));
        }
        assert_eq!(self.open().refusal, 0);
    }

    /// Every shape in turn at the first place, at every table's last Mach number and its neighbours.
    fn every_shape(&mut self) {
        let noses = StoneyNose::ALL.iter();
        let mut machs: Vec<f64> = noses
            .flat_map(|nose| around(nose.points()[nose.points().len() - 1].0))
            .collect();
        machs.sort_by(f64::total_cmp);
        machs.dedup();
        self.opened_at(&machs);
        assert_eq!(self.insert(0, nose(SHAPES[0], 1.0, 0.3)).refusal, 0);
        for shape in SHAPES {
            for length in [0.1, 1.0] {
                assert_eq!(self.replace(0, nose(shape, length, 0.3)).refusal, 0);
            }
        }
    }

    /// Every kind of call with parts that are beyond their tables in some columns.
    fn every_kind(&mut self) {
        let (quarter, half): (f64, f64) = (3.587, 1.941);
        let machs = [1.0, half, half.next_up(), quarter, quarter.next_up()];
        self.opened_at(&machs);
        let power = nose((3, 0.4), 0.6, 0.2);
        let answers = [
            self.insert(0, power),
            self.insert(1, nose((0, 0.0), 1.0, 0.2)),
            self.insert(2, nose((2, 0.0), 0.3, 0.3)),
            self.ignite(0.1),
            self.set_column(0, at(5.0)),
            self.set_column(4, at(0.5)),
            self.replace(0, nose((5, 0.2), 0.6, 0.2)),
            self.insert(0, power),
            self.burnout(),
            self.remove(3),
            self.set_column(4, at(1e200)),
            self.set_column(4, at(1.994)),
            self.replace(1, nose((4, 1.0), 0.4, 0.5)),
            self.ignite(0.5),
            self.replace(0, nose((1, 1.5), 0.6, 0.2)),
            self.remove(0),
            self.remove(1),
            self.remove(0),
            self.burnout(),
            self.insert(0, power),
            self.open(),
        ];
        assert!(answers.iter().all(|answer| answer.refusal == 0));
        // Refused with marks in the buffer.
        self.insert(0, power);
        self.ignite(NANS[0]);
        self.replace(0, nose((3, NANS[1]), 0.6, 0.2));
        self.insert(1, nose((5, 0.4), 0.6, 0.9));
        self.set_column(0, at(f64::INFINITY));
        self.set_column(5, at(5.0));
        self.remove(1);
    }

    /// Marks that no call wrote: those of parts count in a total, all others don't.
    fn foreign_marks(&mut self) {
        self.opened_at(&[0.5, 1.0, 5.0]);
        let finishes = self.sheet.settings.finishes;
        let cone = nose((0, 0.0), 0.5, 0.1);
        let haack = nose((5, 0.0), 0.5, 0.1);
        assert_eq!(self.insert(0, cone).refusal, 0);
        let (base, total) = (FRICTION + finishes, total_row(finishes));
        for (row, column, mark) in [
            (7, 0, 2),
            (PLACES - 1, 1, 255),
            (FRICTION, 0, 2),
            (FRICTION + finishes - 1, 2, 255),
            (base, 1, 255),
            (total, 0, 2),
            (total + finishes - 1, 1, 255),
            (total, 2, 3),
            (0, 2, 128),
        ] {
            self.poke_mark(3 * row + column, mark);
            assert_eq!(self.ignite(0.05).refusal, 0);
        }
        // Past the need.
        self.poke_mark(3 * rows(finishes), 2);
        self.over_foreign_marks(cone, haack);
    }

    /// Every call over such marks, and then over a buffer of them alone.
    fn over_foreign_marks(&mut self, cone: Part, haack: Part) {
        let answers = [
            self.burnout(),
            self.replace(0, haack),
            self.set_column(0, at(1.99)),
            self.replace(0, cone),
            self.set_column(1, at(2.0)),
            self.ignite(0.02),
            self.insert(1, haack),
            self.burnout(),
        ];
        assert!(answers.iter().all(|answer| answer.refusal == 0));
        for byte in [255, 2] {
            self.marks(ROOM, byte, 0);
            assert_eq!(self.replace(1, haack).refusal, 0);
            assert_eq!(self.set_column(2, at(0.3)).refusal, 0);
            assert_eq!(self.remove(1).refusal, 0);
            assert_eq!(self.insert(1, haack).refusal, 0);
        }
    }

    /// One mark too few, none at all and just enough, whatever the cells are.
    fn short_marks(&mut self) {
        for columns in [1, 4] {
            self.opened(columns);
            assert_eq!(self.insert(0, nose((2, 0.0), 0.4, 0.1)).refusal, 0);
            let enough = self.sheet.settings.cells();
            for (cells, marks) in [(ROOM, enough - 1), (enough, 0), (enough - 1, ROOM)] {
                self.lend(cells);
                self.marks(marks, 254, 1);
                self.all_refused(10);
                assert_eq!(self.open().refusal, 10);
            }
            // After the settings' own tests and before the nozzle's.
            let s = self.sheet.settings;
            let [first, ..] = s.roughnesses;
            self.nozzle(NANS[0]);
            self.marks(enough - 1, 0, 0);
            self.lend(enough);
            self.all_refused(10);
            self.settings(s.reference_diameter, first, 0.0, columns);
            self.all_refused(1);
            self.settings(s.reference_diameter, first, s.body_fineness, columns);
            self.marks(enough, 7, 0);
            self.all_refused(11);
            self.nozzle(0.05);
            assert_eq!(self.ignite(0.01).refusal, 0);
            assert_eq!(self.open().refusal, 0);
        }
        // No column needs no mark.
        self.opened(0);
        self.marks(0, 1, 1);
        self.every_edit();
    }
}
