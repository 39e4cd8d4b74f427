//! Streams of cards out of a generator with a fixed seed: one third are random bytes, one third are
//! well-formed stacks of cards with most numbers in range, and one third are such stacks damaged.

use crate::inputs::{around, specials, Random};
use crate::model::FINISHES;

/// Streams of cards out of one generator.
pub struct Streams {
    random: Random,
    specials: Vec<f64>,
    made: u64,
}

impl Streams {
    pub fn new(seed: u64) -> Self {
        Self {
            random: Random::new(seed),
            specials: specials(),
            made: 0,
        }
    }

    /// How many streams were made.
    pub fn made(&self) -> u64 {
        self.made
    }

    /// A whole number below `end`.
    pub fn below(&mut self, end: usize) -> usize {
        (self.random.bits() % end as u64) as usize
    }

    /// True once in `times`.
    fn once_in(&mut self, times: usize) -> bool {
        self.below(times) == 0
    }

    /// The number, or seldom any number at all, or the neighbour of a bound.
    fn or_any(&mut self, times: usize, x: f64, bounds: &[f64]) -> f64 {
        if !self.once_in(times) {
            return x;
        }
        match self.below(4) {
            0 => self.random.any(),
            1 => self.random.pick(&self.specials),
            2 => self.random.any_positive(),
            _ => {
                let bound = self.random.pick(bounds);
                self.random.pick(&around(bound))
            }
        }
    }

    /// The next stream, with the places where its writing pauses.
    pub fn next_stream(&mut self) -> (Vec<u8>, Vec<usize>) {
        let kind = self.made % 3;
        self.made += 1;
        let stream = match kind {
            0 => {
                let length = self.below(301);
                self.junk(length)
            }
            1 => self.stack().0,
            _ => self.damaged(),
        };
        let mut pauses = Vec::new();
        if self.once_in(8) {
            for _ in 0..1 + self.below(3) {
                pauses.push(self.below(stream.len() + 1));
            }
            pauses.sort();
        }
        (stream, pauses)
    }

    fn junk(&mut self, length: usize) -> Vec<u8> {
        (0..length).map(|_| self.random.bits() as u8).collect()
    }

    /// A well-formed stack, and where its cards end.
    fn stack(&mut self) -> (Vec<u8>, Vec<usize>) {
        let mut stream = Vec::new();
        self.settings(&mut stream);
        let mut ends = vec![stream.len()];
        let mut fore = 0.0;
        for _ in 0..self.below(18) {
            fore = self.part(&mut stream, fore);
            ends.push(stream.len());
        }
        (stream, ends)
    }

    /// A settings card, with a roughness by bit 1 or finishes by bit 4 or neither, seldom both.
    fn settings(&mut self, stream: &mut Vec<u8>) {
        let (rough, finishes) = match self.below(60) {
            0 => (true, true),
            1..=14 => (false, false),
            15..=29 => (true, false),
            _ => (false, true),
        };
        let columns = !self.once_in(10);
        let bits = [(1, rough), (3, columns), (4, finishes)];
        let map = bits.map(|(bit, stands)| u8::from(stands) << bit);
        stream.push(map.iter().fold(0x05, |all, bit| all | bit));
        let diameter = match self.below(4) {
            0 => 1.0,
            1 => self.random.scaled(0.001, 100.0),
            _ => self.random.between(0.01, 2.0),
        };
        let diameter = self.or_any(60, diameter, &[0.001, 100.0]);
        push(stream, diameter);
        if rough {
            self.roughness(stream, 60);
        }
        let fineness = if self.once_in(4) {
            self.random.scaled(1e-3, 1e6)
        } else {
            self.random.between(1.0, 30.0)
        };
        let fineness = self.or_any(60, fineness, &[0.0, 1.0]);
        push(stream, fineness);
        if columns {
            let count = if self.once_in(4) {
                self.below(33)
            } else {
                self.below(6)
            };
            stream.push(count as u8);
            for _ in 0..count {
                self.column(stream);
            }
        }
        if finishes {
            self.finishes(stream);
        }
    }

    /// A count byte of finishes, seldom one of none or of too many, and as many roughnesses.
    fn finishes(&mut self, stream: &mut Vec<u8>) {
        let count = match self.below(40) {
            0 => [0, 5, 255][self.below(3)],
            _ => 1 + self.below(FINISHES),
        };
        stream.push(count as u8);
        for _ in 0..count.min(FINISHES + 1) {
            self.roughness(stream, 100);
        }
    }

    /// A roughness, the settings' or a part's own; any number once in `times`.
    fn roughness(&mut self, stream: &mut Vec<u8>, times: usize) {
        let roughness = match self.below(4) {
            0 => self.random.pick(&[0.0, -0.0, 1.0]),
            1 => self.random.between(0.0, 1.0),
            _ => self.random.scaled(1e-9, 1e-2),
        };
        let roughness = self.or_any(times, roughness, &[0.0, 1.0]);
        push(stream, roughness);
    }

    fn column(&mut self, stream: &mut Vec<u8>) {
        const KNOWN: [f64; 12] = [0.0, 0.6, 0.8, 0.9, 1.0, 1.05, 1.1, 1.2, 1.3, 1.4, 1.6, 2.0];
        let mach = match self.below(8) {
            0 => self.random.pick(&KNOWN),
            1 => {
                let known = self.random.pick(&KNOWN[1..]);
                self.random.pick(&around(known))
            }
            2 => self.random.pick(&[0.0, -0.0, f64::MIN_POSITIVE]),
            3 => self.random.scaled(1e-12, 1e3),
            4 => self.random.between(0.7, 1.5),
            _ => self.random.between(0.0, 6.0),
        };
        let mach = if self.once_in(40) {
            self.random.any_positive()
        } else {
            self.or_any(400, mach, &KNOWN)
        };
        push(stream, mach);
        let reynolds = match self.below(8) {
            0 => self.random.pick(&[0.0, -0.0, 1e4, 5e5]),
            1 => {
                let known = self.random.pick(&[1e4, 5e5]);
                self.random.pick(&around(known))
            }
            2 => self.random.any_positive(),
            3 => self.random.between(0.0, 2e4),
            _ => self.random.scaled(1e3, 1e10),
        };
        let reynolds = self.or_any(400, reynolds, &[0.0, 1e4]);
        push(stream, reynolds);
    }

    /// A part card behind a part of this diameter; the part's own is given back.
    fn part(&mut self, stream: &mut Vec<u8>, fore: f64) -> f64 {
        let shape = self.below(6) as u8;
        let has_parameter = [1, 3, 4, 5].contains(&shape);
        let mut map = u8::from(shape != 0 || self.once_in(2));
        map |= u8::from(has_parameter) << 1;
        for bit in 2..7 {
            // A diameter is left out less often, since it would end in a point, a roughness more.
            let seldom = [5, 12, 5, 5, 3][bit - 2];
            map |= u8::from(!self.once_in(seldom)) << bit;
        }
        stream.push(map);
        if map & 1 != 0 {
            stream.push(shape);
        }
        if has_parameter {
            self.parameter(stream, shape);
        }
        if map >> 2 & 1 != 0 {
            self.length(stream);
        }
        let mut aft = 0.0;
        if map >> 3 & 1 != 0 {
            aft = self.aft_diameter(stream, fore);
        }
        if map >> 4 & 1 != 0 {
            self.joint_angle(stream);
        }
        if map >> 5 & 1 != 0 {
            self.wetted_ratio(stream);
        }
        if map >> 6 & 1 != 0 {
            self.roughness(stream, 200);
        }
        aft
    }

    fn parameter(&mut self, stream: &mut Vec<u8>, shape: u8) {
        let third = 1.0 / 3.0;
        let (low, high) = match shape {
            1 => (1.0, 4.0),
            5 => (0.0, third),
            _ => (0.0, 1.0),
        };
        let parameter = match self.below(4) {
            0 => self.random.pick(&[low, high]),
            1 if shape == 3 => self.random.pick(&[0.25, 0.5, 0.75, 1.0]),
            1 if shape == 4 => self.random.pick(&[0.5, 0.75, 1.0]),
            _ => self.random.between(low, high),
        };
        let parameter = self.or_any(40, parameter, &[low, high]);
        push(stream, parameter);
    }

    fn length(&mut self, stream: &mut Vec<u8>) {
        let length = match self.below(6) {
            0 => self.random.pick(&[0.0, -0.0, 1.0, 3.0, 100.0]),
            1 => self.random.scaled(1e-6, 100.0),
            _ => self.random.between(0.0, 4.0),
        };
        let length = self.or_any(200, length, &[0.0, 100.0]);
        push(stream, length);
    }

    fn aft_diameter(&mut self, stream: &mut Vec<u8>, fore: f64) -> f64 {
        let aft = match self.below(8) {
            0 | 1 => fore,
            2 => self.random.pick(&[0.0, -0.0, 0.5, 1.0, 1.5, 100.0]),
            3 => self.random.scaled(1e-6, 100.0),
            4 => self.random.pick(&around(fore)).abs(),
            _ => self.random.between(0.0, 2.0),
        };
        let aft = self.or_any(200, aft, &[0.0, 100.0]);
        push(stream, aft);
        aft
    }

    fn joint_angle(&mut self, stream: &mut Vec<u8>) {
        let right = f64::from_bits(0x3ff9_21fb_5444_2d18);
        let angle = match self.below(6) {
            0 => self.random.pick(&[0.0, -0.0, right]),
            1 => self.random.scaled(1e-9, right),
            _ => self.random.between(0.0, right),
        };
        let angle = self.or_any(150, angle, &[0.0, right]);
        push(stream, angle);
    }

    fn wetted_ratio(&mut self, stream: &mut Vec<u8>) {
        let wetted = match self.below(6) {
            0 => self.random.pick(&[0.0, -0.0, 1.0, 10000.0]),
            1 => self.random.scaled(1e-9, 10000.0),
            _ => self.random.between(0.0, 30.0),
        };
        let wetted = self.or_any(200, wetted, &[0.0, 10000.0]);
        push(stream, wetted);
    }

    /// A stack with one to three damages.
    fn damaged(&mut self) -> Vec<u8> {
        let (mut stream, ends) = self.stack();
        for _ in 0..1 + self.below(3) {
            self.damage(&mut stream, &ends);
        }
        stream
    }

    fn damage(&mut self, stream: &mut Vec<u8>, ends: &[usize]) {
        let place = self.below(stream.len() + 1);
        match self.below(10) {
            // A byte changed, or one bit of it.
            0 if place < stream.len() => stream[place] = self.random.bits() as u8,
            1 if place < stream.len() => stream[place] ^= 1 << self.below(8),
            // The first byte of a card changed.
            2 => {
                let first = if self.once_in(4) {
                    0
                } else {
                    ends[self.below(ends.len())]
                };
                if first < stream.len() {
                    stream[first] ^= 1 << self.below(8);
                }
            }
            // Cut.
            3 => stream.truncate(place),
            // Cut near the end of the settings card, where the finishes are.
            9 => stream.truncate(ends[0].saturating_sub(self.below(35))),
            // Bytes taken out.
            4 => {
                let end = (place + 1 + self.below(12)).min(stream.len());
                stream.drain(place..end);
            }
            // Bytes put in.
            5 => {
                let length = 1 + self.below(20);
                let junk = self.junk(length);
                stream.splice(place..place, junk);
            }
            // Junk at the end, or right after a card, of which the low bytes look like cards.
            6 => {
                let length = 1 + self.below(200);
                let junk = self.junk(length);
                stream.extend(junk);
            }
            7 => {
                stream.truncate(ends[self.below(ends.len())]);
                let length = 1 + self.below(60);
                let mut junk = self.junk(length);
                junk[0] &= 0x7f;
                if length > 1 {
                    junk[1] %= 7;
                }
                stream.extend(junk);
            }
            // A long stream: junk, or one card's bytes again and again.
            _ if self.once_in(3) => {
                let length = 4001 + self.below(9000);
                let more = if self.once_in(2) {
                    self.junk(length)
                } else {
                    let mut card = Vec::new();
                    self.part(&mut card, 0.0);
                    card.into_iter().cycle().take(length).collect()
                };
                stream.extend(more);
            }
            _ => stream.push(self.random.bits() as u8 & 0x7f),
        }
    }
}

fn push(stream: &mut Vec<u8>, x: f64) {
    stream.extend(x.to_bits().to_le_bytes());
}
