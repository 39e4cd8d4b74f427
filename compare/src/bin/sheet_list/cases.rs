//! Lists that are each for one thing: opens, a part that widens later, roughnesses of the parts' own,
//! a full design.

use compare::cards::shape_of;
use compare::inputs::{specials, NANS};
use compare::model::{rows, Column, Part, COLUMNS, NO_PART, PLACES};
use compare::original_fixed::NoseShape;

use crate::Play;

impl Play {
    /// Opens that are refused, with several reasons at once, and accepted ones between.
    pub fn opens(&mut self) {
        for _ in 0..160 {
            let count = [0, 1, 2, 3, 32][self.args.below(5)];
            for at in 0..count.min(3) {
                let column = self.args.a_column(5);
                self.column(at, column);
            }
            let d = self.args.house(0.001, 100.0, 1.0, 5);
            let roughness = self.args.house(0.0, 1.0, 0.01, 5);
            let b = match self.args.below(5) {
                0 => self
                    .args
                    .random
                    .pick(&[0.0, -0.0, -1.0, NANS[7], f64::INFINITY, -1e-320]),
                _ => self.args.random.pick(&[1.0, 10.0, 1e-320, 1e300]),
            };
            let count = match self.args.below(12) {
                0 => [33, 34, usize::MAX, 1 << 32][self.args.below(4)],
                _ => count,
            };
            self.settings(d, roughness, b, count);
            let enough = rows(1) * count.min(COLUMNS);
            let cell_count = match self.args.below(4) {
                0 => enough.saturating_sub(1),
                1 => self.args.below(enough + 1),
                _ => enough,
            };
            self.lend(cell_count);
            self.open();
        }
        for x in specials() {
            self.settings(x, 0.0, 1.0, 0);
            self.open();
            self.settings(1.0, x, 1.0, 0);
            self.open();
            self.settings(1.0, 0.0, x, 0);
            self.open();
        }
    }

    /// A part whose shape is refused stands untested until an edit before it makes it widen.
    pub fn later_widening(&mut self) {
        let plain = |d: f64| Part {
            shape: NoseShape::Conical {},
            length: 1.0,
            aft_diameter: d,
            joint_angle: 0.2,
            wetted_ratio: 3.0,
            roughness: (d != 0.5).then_some(1e-3 * d),
        };
        let shapes = [
            shape_of(3, NANS[0]),
            shape_of(1, 0.9),
            shape_of(5, 0.4),
            shape_of(4, -1.0),
            shape_of(5, -0.5),
        ];
        for count in [0, 1, 3] {
            for shape in shapes {
                self.opened(count);
                let odd = Part {
                    shape,
                    ..plain(1.0)
                };
                self.insert(0, plain(1.0));
                self.insert(1, odd);
                self.insert(2, plain(0.5));
                self.insert(
                    3,
                    Part {
                        joint_angle: NANS[0],
                        ..odd
                    },
                );
                self.insert(
                    3,
                    Part {
                        joint_angle: NANS[0],
                        ..plain(0.5)
                    },
                );
                // The odd part would widen: refused, and the refusal is its own.
                self.replace(0, plain(0.5));
                self.insert(1, plain(0.9));
                self.remove(0);
                // Two of them would: the lower place decides.
                self.insert(1, odd);
                self.replace(0, plain(0.25));
                self.replace(
                    0,
                    Part {
                        shape: shape_of(1, 0.5),
                        ..plain(0.5)
                    },
                );
                self.replace(1, plain(0.0));
                // L/(d - f) overflows, and the part is stood down again.
                self.replace(0, plain(1.0f64.next_down()));
                self.replace(
                    1,
                    Part {
                        length: 100.0,
                        ..plain(1.0)
                    },
                );
                self.insert(
                    0,
                    Part {
                        length: 100.0,
                        ..plain(1e-310)
                    },
                );
                self.insert(
                    0,
                    Part {
                        length: 0.0,
                        shape: shape_of(3, NANS[0]),
                        ..plain(2.0)
                    },
                );
                let new = Column {
                    mach: 1.5,
                    reynolds: 1e7,
                };
                self.set_column(0, new);
                // Held by hand, a part that can't be built: only the calls that try it are refused.
                self.hold(
                    1,
                    Part {
                        aft_diameter: 3.0,
                        ..odd
                    },
                );
                self.set_column(0, new);
                self.replace(3, plain(0.1));
                self.replace(0, plain(0.1));
                self.replace(2, plain(0.1));
                self.insert(0, plain(0.1));
                self.insert(5, plain(0.1));
                self.remove(2);
                self.remove(1);
            }
        }
    }

    /// Roughnesses of the parts' own: the ends of their interval, and then outside it, in a part
    /// given and alone in a part held, at the first place, in the middle and at the last.
    pub fn roughnesses(&mut self) {
        let finished = |roughness: Option<f64>| Part {
            length: 0.5,
            aft_diameter: 0.1,
            wetted_ratio: 12.5,
            roughness,
            ..NO_PART
        };
        let good = [
            Some(2e-6),
            None,
            Some(0.0),
            Some(-0.0),
            Some(1.0),
            Some(5e-3),
        ];
        let bad = [
            NANS[0],
            NANS[3],
            -1.0,
            -f64::from_bits(1),
            1.0f64.next_up(),
            1.5,
        ];
        for count in [0, 2] {
            self.opened(count);
            for (place, own) in good.into_iter().enumerate() {
                assert_eq!(self.insert(place, finished(own)).refusal, 0);
            }
            for own in bad.map(Some) {
                assert_eq!(self.insert(6, finished(own)).refusal, 11);
                assert_eq!(self.replace(1, finished(own)).refusal, 11);
                for place in [0, 1, 5] {
                    self.held_rough(place, own);
                }
            }
        }
    }

    /// Each kind of call, all refused, on a sheet in which one roughness is changed by hand.
    fn held_rough(&mut self, place: usize, roughness: Option<f64>) {
        let whole = self.sheet.design.parts[place];
        self.hold(place, Part { roughness, ..whole });
        let new = Column {
            mach: 0.5,
            reynolds: 1e6,
        };
        let answers = [
            self.insert(0, whole),
            self.replace(place, whole),
            self.replace(2, whole),
            self.remove(place),
            self.set_column(0, new),
        ];
        assert!(answers.iter().all(|answer| answer.refusal == 11));
        self.hold(place, whole);
    }

    /// A design of 16 parts: 8 and 9 at its end, and the calls at its last places.
    pub fn full(&mut self, columns: usize) {
        self.opened(columns);
        for place in 0..PLACES {
            let part = Part {
                length: 0.5,
                aft_diameter: [0.1, 0.2, 0.2, 0.15][place % 4],
                joint_angle: 0.1,
                wetted_ratio: place as f64,
                roughness: [Some(1e-5), None, Some(5e-3)][place % 3],
                ..NO_PART
            };
            assert_eq!(self.insert(place, part).refusal, 0);
        }
        let bad = Part {
            length: 101.0,
            ..NO_PART
        };
        let rough = Part {
            roughness: Some(1.5),
            ..NO_PART
        };
        for place in [0, 15, 16, 17, 18, usize::MAX] {
            for part in [NO_PART, bad, rough] {
                self.insert(place, part);
                self.replace(place, part);
            }
        }
        for place in [usize::MAX, 17, 16, 15, 15, 14, 0] {
            self.remove(place);
        }
    }
}
