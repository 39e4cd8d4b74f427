//! Prints stored answers of the original's formulas, noses and curves, with ln, powf and sin replaced
//! by the fixed steps (docs/REFERENCE.md, Fixed steps), for the program that replays them.
//!
//!     cargo run --release --offline --bin formula_list > ../crates/formula_vectors/stdin
//!
//! A line is 189 bytes: a tag and eleven words. The tag says which function of the port's interface
//! is called, the first six words are its arguments, and the other five its status and the words that
//! it writes; zeros stand where there are fewer. The tags and their words are listed at the top of
//! crates/formula_vectors/src/main.rt, the numbers in host/include/cobalnis/numbers.h. A NaN
//! answer is 7ff8000000000000; a NaN argument keeps its sign and payload.
//!
//! A nose's number of points is stored as the place past its last point, which is refused.

mod curve;
mod drag;
mod mark;
mod nose;
mod steps;

use cobalnis::Formula;
use compare::inputs::Random;
use compare::list::{line, List};
use compare::mirror;

/// The word from which on a line has its answer.
const ANSWER: usize = 6;

pub struct Answers {
    list: List,
    random: Random,
}

impl Answers {
    fn line(&mut self, tag: char, arguments: &[u64], status: u32, words: &[u64]) {
        let mut answer = vec![u64::from(status)];
        answer.extend(words);
        self.list.once(line(tag, ANSWER, arguments, &answer));
    }

    pub fn formula(&mut self, formula: Formula, arguments: &[f64]) {
        let mut x = [0.0; 5];
        x[..arguments.len()].copy_from_slice(arguments);
        let (status, bits) = mirror::formula(formula.number(), x);
        let mut words = vec![u64::from(formula.number())];
        words.extend(x.map(f64::to_bits));
        self.line('f', &words, status, &[bits]);
    }

    pub fn check_dimension(&mut self, what: u32, value: f64, allow_zero: bool) {
        let (status, bits) = mirror::check_dimension(what, value, allow_zero);
        let arguments = [what.into(), value.to_bits(), allow_zero.into()];
        self.line('d', &arguments, status, &[bits]);
    }

    pub fn takes_cone_formula(&mut self, shape: u64, parameter: f64) {
        let (status, takes) = mirror::takes_cone_formula(shape, parameter);
        self.line('k', &[shape, parameter.to_bits()], status, &[takes]);
    }

    pub fn nose_point(&mut self, nose: usize, place: usize) {
        let (status, words) = mirror::nose_point(nose as u32, place);
        self.line('p', &[nose as u64, place as u64], status, &words);
    }

    /// The lookup is not asked at NaN: there the original stops with an index out of range, and its
    /// callers never do it.
    pub fn nose_lookup(&mut self, nose: usize, mach: f64) {
        let (status, [value, slope, first, _]) = mirror::nose_lookup(nose as u32, mach);
        let arguments = [nose as u64, mach.to_bits()];
        self.line('l', &arguments, status, &[value, slope, first]);
    }

    /// The mark of such a lookup.
    pub fn nose_mark(&mut self, nose: usize, mach: f64) {
        let (status, [.., mark]) = mirror::nose_lookup(nose as u32, mach);
        self.line('a', &[nose as u64, mach.to_bits()], status, &[mark]);
    }

    pub fn curve(&mut self, shape: u64, arguments: [f64; 3], mach: f64) {
        let mut out = [0];
        let (status, about) = mirror::curve(shape, arguments, &[mach], &mut out, &mut [0]);
        self.line(
            'c',
            &curve_words(shape, arguments, mach),
            status,
            &[out[0], about[0], about[1], about[2]],
        );
    }

    /// The mark of a coefficient, 0 where it is refused.
    pub fn curve_mark(&mut self, shape: u64, arguments: [f64; 3], mach: f64) {
        let mut mark = [0];
        let (status, _) = mirror::curve(shape, arguments, &[mach], &mut [0], &mut mark);
        let words = curve_words(shape, arguments, mach);
        self.line('b', &words, status, &mark.map(u64::from));
    }
}

fn curve_words(shape: u64, arguments: [f64; 3], mach: f64) -> [u64; 5] {
    let [parameter, fineness, angle] = arguments.map(f64::to_bits);
    [shape, parameter, fineness, angle, mach.to_bits()]
}

fn main() {
    let mut answers = Answers {
        list: List::new(),
        random: Random::new(0x5eed_0003),
    };
    steps::all(&mut answers);
    drag::all(&mut answers);
    answers.random = Random::new(0x5eed_0004);
    nose::all(&mut answers);
    curve::all(&mut answers);
    answers.random = Random::new(0x5eed_0011);
    mark::all(&mut answers);
    answers.list.finish();
}
