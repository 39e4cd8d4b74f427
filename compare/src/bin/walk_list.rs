//! Prints stored walks along Stoney's tables for the program that replays them: each answer is the
//! original's single lookup's value, each count a plain walk's.
//!
//!     cargo run --release --offline --bin walk_list > ../crates/walk_vectors/stdin
//!
//! The tags and their words are listed at the top of crates/walk_vectors/src/main.rt. Before each
//! walk the cells that are lent, and one more, get numbers of their own; after it all of them are
//! told, so that a cell which has to stay is seen to stay.

use std::io::{BufWriter, Write};

use compare::answer_bits;
use compare::inputs::{around, down, up, Random, MAX, NANS};
use compare::list::{line, WORDS};
use compare::mirror::{nose_walk, QUERIES};
use compare::original_fixed::StoneyNose;

/// How many queries or cells the replaying program has room for.
const ROOM: usize = QUERIES + 1;

/// The word from which on a walk's line has its answer.
const ANSWER: usize = 4;

struct Walks<W: Write> {
    out: W,
    random: Random,
}

impl<W: Write> Walks<W> {
    fn line(&mut self, tag: char, first: usize, arguments: &[u64], answer: &[u64]) {
        let line = line(tag, first, arguments, answer);
        writeln!(self.out, "{line}").expect("standard output");
    }

    /// Lines of a place, how many, and up to nine words.
    fn items(&mut self, tag: char, words: &[u64]) {
        for (turn, some) in words.chunks(WORDS - 2).enumerate() {
            let mut arguments = vec![(turn * (WORDS - 2)) as u64, some.len() as u64];
            arguments.extend(some);
            self.line(tag, WORDS, &arguments, &[]);
        }
    }

    /// One walk with so many cells lent.
    fn lent(&mut self, nose: u32, machs: &[f64], lent: usize) {
        let words: Vec<u64> = machs.iter().map(|mach| mach.to_bits()).collect();
        let held = (lent + 1).min(ROOM);
        let mut cells: Vec<f64> = (0..held).map(|_| self.random.between(1.0, 2.0)).collect();
        let shown = |cells: &[f64]| cells.iter().copied().map(answer_bits).collect::<Vec<_>>();
        let before = self.random.bits() % 1000;
        let mut compared = before as usize;
        self.items('q', &words);
        self.items('c', &shown(&cells));
        let (status, bits) = nose_walk(nose, machs, &mut cells[..lent], &mut compared);
        let arguments = [nose.into(), machs.len() as u64, lent as u64, before];
        let answer = [status.into(), bits, compared as u64];
        self.line('w', ANSWER, &arguments, &answer);
        self.items('x', &shown(&cells));
    }

    /// One walk with just enough cells, as far as there are so many.
    fn walk(&mut self, nose: u32, machs: &[f64]) {
        self.lent(nose, machs, machs.len());
    }

    /// Every table: its own Machs and their neighbours, all below it, all above it, a climb.
    fn tables(&mut self) {
        for nose in 0..StoneyNose::ALL.len() {
            let points = StoneyNose::ALL[nose].points();
            let tabled: Vec<f64> = points.iter().map(|point| point.0).collect();
            let (first, last) = (tabled[0], tabled[tabled.len() - 1]);
            let nose = nose as u32;
            let neighbours: Vec<f64> = tabled.iter().copied().flat_map(around).collect();
            let twice: Vec<f64> = tabled.iter().flat_map(|&mach| [mach, mach]).collect();
            self.walk(nose, &tabled);
            self.walk(nose, &neighbours);
            self.walk(nose, &twice);
            self.walk(nose, &[0.0, 0.1, 0.5, down(0.8), down(first)]);
            self.walk(nose, &[up(last), last + 1.0, 5.0, 1e300, MAX]);
            self.walk(nose, &[0.5, 5.0, 5.0]);
            self.walk(nose, &climb(QUERIES, last + 0.1));
            let mut random: Vec<f64> = (0..40).map(|_| self.random.between(0.5, 2.5)).collect();
            random.sort_by(f64::total_cmp);
            self.walk(nose, &random);
        }
    }

    /// Few, equal and too many queries, zeros of both signs, cells too few and to spare.
    fn sizes(&mut self, nose: u32) {
        self.walk(nose, &[]);
        self.lent(nose, &[], 3);
        for mach in [0.0, -0.0, 0.5, 0.8, 1.0, 1.2, 1.3, 2.0, 4.0, MAX] {
            self.walk(nose, &[mach]);
            self.walk(nose, &[mach; 5]);
        }
        self.walk(nose, &[0.0, -0.0]);
        self.walk(nose, &[-0.0, 0.0]);
        self.walk(nose, &[0.0, -0.0, 0.0, f64::from_bits(1), 1.0]);
        self.lent(nose, &[0.9, 1.3, 1.4], 2);
        self.lent(nose, &[0.9, 1.3, 1.4], 0);
        self.lent(nose, &[0.9, 1.3, 1.4], 7);
        self.walk(nose, &climb(QUERIES - 1, 3.0));
        self.lent(nose, &climb(QUERIES, 3.0), QUERIES + 1);
        self.lent(nose, &climb(QUERIES, 3.0), QUERIES - 1);
        self.walk(nose, &climb(QUERIES + 1, 3.0));
    }

    /// Bad Machs first, last and beside a falling pair, and falling pairs alone.
    fn refused(&mut self, nose: u32) {
        let bad = [NANS[0], NANS[3], NANS[6], -1.0, -f64::from_bits(1)];
        for bad in bad.into_iter().chain([f64::INFINITY, f64::NEG_INFINITY]) {
            self.walk(nose, &[bad]);
            self.walk(nose, &[bad, 0.9, 1.3]);
            self.walk(nose, &[0.9, bad, 1.3]);
            self.walk(nose, &[0.9, 1.3, bad]);
            self.walk(nose, &[1.3, 0.9, bad]);
            self.walk(nose, &[bad, 1.3, 0.9]);
            self.walk(nose, &[1.3, bad, 0.9]);
            self.walk(nose, &[1.3, 0.9, bad, -2.0]);
            self.lent(nose, &[0.9, bad], 1);
        }
        self.walk(nose, &[1.3, 0.9]);
        self.walk(nose, &[1.3, 1.3, down(1.3)]);
        self.walk(nose, &[0.9, 0.5, 1.3, 1.4]);
        self.walk(nose, &[0.5, 0.9, 1.3, 1.2]);
        self.walk(nose, &[f64::from_bits(1), 0.0]);
        self.walk(nose, &[f64::from_bits(1), -0.0]);
        let mut late = climb(QUERIES, 3.0);
        late[QUERIES - 1] = 0.0;
        self.walk(nose, &late);
        late[QUERIES - 1] = -1.0;
        self.walk(nose, &late);
        late.push(0.0);
        self.walk(nose, &late);
    }
}

/// So many Machs from 0 to the last one, evenly.
fn climb(count: usize, last: f64) -> Vec<f64> {
    let step = last / (count - 1) as f64;
    (0..count).map(|place| place as f64 * step).collect()
}

fn main() {
    let mut walks = Walks {
        out: BufWriter::new(std::io::stdout().lock()),
        random: Random::new(0x5eed_000c),
    };
    walks.tables();
    // One table from Mach 0.8 and one from 1.2.
    for nose in [8, 6] {
        walks.sizes(nose);
        walks.refused(nose);
    }
    for nose in [9, 10, 65535] {
        walks.walk(nose, &[0.9, 1.3]);
        walks.walk(nose, &[1.3, 0.9, -1.0]);
    }
    walks.out.flush().expect("standard output");
}
