//! Arguments for the sheet's calls out of a generator with a fixed seed: mostly good ones, at the
//! ends of their ranges often, and bad ones as seldom as is asked.

use crate::cards::shape_of;
use crate::inputs::{Random, NANS};
use crate::model::{Column, Part, FINISHES};

pub struct Arguments {
    pub random: Random,
}

impl Arguments {
    pub fn new(seed: u64) -> Self {
        Self {
            random: Random::new(seed),
        }
    }

    /// One in so many.
    pub fn one_in(&mut self, n: u64) -> bool {
        self.random.bits() % n == 0
    }

    pub fn below(&mut self, n: usize) -> usize {
        (self.random.bits() % n as u64) as usize
    }

    /// A number of a house interval, its ends often; outside it, or NaN, one time in `bad`.
    pub fn house(&mut self, low: f64, high: f64, usual: f64, bad: u64) -> f64 {
        if self.one_in(bad) {
            return self.outside(low, high);
        }
        match self.below(8) {
            0 => low,
            1 => high,
            2 if low == 0.0 => -0.0,
            2 => low,
            3 => self.random.between(low, high),
            _ => self.random.between(low, usual),
        }
    }

    /// A number that a house interval hasn't.
    fn outside(&mut self, low: f64, high: f64) -> f64 {
        let list = [
            NANS[1],
            f64::INFINITY,
            f64::NEG_INFINITY,
            high.next_up(),
            if low == 0.0 {
                -f64::from_bits(1)
            } else {
                low.next_down()
            },
            -1.0,
            high + 1.0,
        ];
        self.random.pick(&list)
    }

    pub fn a_column(&mut self, bad: u64) -> Column {
        let mach = if self.one_in(bad) {
            let list = [
                NANS[3],
                f64::INFINITY,
                -1.0,
                -f64::from_bits(1),
                f64::NEG_INFINITY,
            ];
            self.random.pick(&list)
        } else if self.one_in(3) {
            let list = [
                0.0,
                -0.0,
                0.8,
                0.9,
                1.0,
                1.2,
                2.0,
                5.0,
                1e200,
                f64::from_bits(1),
            ];
            self.random.pick(&list)
        } else {
            self.random.between(0.0, 4.0)
        };
        let reynolds = if self.one_in(bad) {
            let list = [NANS[4], f64::INFINITY, -1.0, -f64::from_bits(1), -1e9];
            self.random.pick(&list)
        } else if self.one_in(3) {
            let list = [0.0, -0.0, 9999.0, 10000.0, 1e6, 1e300, f64::from_bits(1)];
            self.random.pick(&list)
        } else {
            self.random.scaled(1e3, 1e9)
        };
        Column { mach, reynolds }
    }

    /// A shape's parameter, refused one time in `odd`.
    fn a_parameter(&mut self, number: u64, odd: u64) -> f64 {
        if self.one_in(odd) {
            let list = [
                NANS[0],
                -1.0,
                0.4,
                0.9,
                1.5,
                f64::INFINITY,
                f64::NEG_INFINITY,
            ];
            return self.random.pick(&list);
        }
        match number {
            1 => self.random.pick(&[1.0, 1.2, 2.0, 1e300, 3.5]),
            5 => self.random.pick(&[0.0, 1.0 / 3.0, 0.2, 0.1]),
            _ => {
                let some = self.random.between(0.0, 1.0);
                self.random.pick(&[0.0, 0.25, 0.5, 0.75, 1.0, some, -0.0])
            }
        }
    }

    /// A joint angle, refused one time in `odd`.
    fn an_angle(&mut self, odd: u64) -> f64 {
        if self.one_in(odd) {
            let list = [NANS[6], 2.0, -0.1, f64::INFINITY];
            return self.random.pick(&list);
        }
        let some = self.random.between(0.0, 1.5);
        self.random
            .pick(&[0.0, some, some, 0.3, std::f64::consts::FRAC_PI_2])
    }

    /// A number of finishes; none, or more than there may be, one time in `bad`.
    pub fn a_finish_count(&mut self, bad: u64) -> usize {
        if self.one_in(bad) {
            return [0, 5, 255, 256, (1 << 32) + 1, usize::MAX][self.below(6)];
        }
        1 + self.below(FINISHES)
    }

    /// A roughness for each finish that there may be, outside its interval one time in `bad`.
    pub fn roughnesses(&mut self, bad: u64) -> [f64; FINISHES] {
        std::array::from_fn(|_| {
            if self.one_in(bad) {
                self.outside(0.0, 1.0)
            } else if self.one_in(3) {
                self.house(0.0, 1.0, 1e-4, u64::MAX)
            } else {
                self.random.scaled(1e-6, 1e-2)
            }
        })
    }

    /// A roughness of a part's own, outside its interval one time in `bad`, or none three times in
    /// eight. Most are from 1e-6 to 1e-2, of which some limit the friction and some don't.
    pub fn own_roughness(&mut self, bad: u64) -> Option<f64> {
        match self.below(8) {
            0..=2 => None,
            3 | 4 => Some(self.house(0.0, 1.0, 1e-2, bad)),
            _ if self.one_in(bad) => Some(self.outside(0.0, 1.0)),
            _ => Some(self.random.scaled(1e-6, 1e-2)),
        }
    }

    /// A part. Its d is often one of a few numbers, so that parts are as wide as their neighbours;
    /// its shape and angle are refused one time in `odd`.
    pub fn a_part(&mut self, bad: u64, odd: u64) -> Part {
        let number = self.random.bits() % 6;
        let parameter = self.a_parameter(number, odd);
        let joint_angle = self.an_angle(odd);
        let aft_diameter = if self.one_in(2) {
            self.random
                .pick(&[0.0, 0.1, 0.5, 1.0, 2.0, 100.0, 0.1, 0.1, 0.5])
        } else {
            self.house(0.0, 100.0, 1.0, bad)
        };
        Part {
            shape: shape_of(number, parameter),
            length: self.house(0.0, 100.0, 3.0, bad),
            aft_diameter,
            joint_angle,
            wetted_ratio: self.house(0.0, 10000.0, 50.0, bad),
            roughness: self.own_roughness(bad),
        }
    }

    /// A nozzle diameter: the last part's d, a neighbour of it, below it or above it, or any;
    /// outside its interval one time in `bad`.
    pub fn a_nozzle(&mut self, d: f64, bad: u64) -> f64 {
        if self.one_in(bad) {
            return self.outside(0.0, 100.0);
        }
        let near = match self.below(8) {
            0 => d,
            1 => d.next_down(),
            2 => d.next_up(),
            3 | 4 => self.random.between(0.0, d),
            5 => self.random.between(d, 100.0),
            _ => self.house(0.0, 100.0, 1.0, u64::MAX),
        };
        near.clamp(-0.0, 100.0)
    }

    /// A place up to `count`, one past it sometimes, and sometimes far away.
    pub fn a_place(&mut self, count: usize) -> usize {
        match self.below(16) {
            0 => count + 1,
            1 => count,
            2 => [usize::MAX, 16, 17, 33, 1 << 32][self.below(5)],
            _ => self.below(count.max(1)),
        }
    }
}
