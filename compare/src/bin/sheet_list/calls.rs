//! A line each: the changes by hand and the calls.

use cobalnis::words::PART_WORDS;
use compare::mirror::part_words;
use compare::model::{burnout, ignite, insert, open, remove, replace, set_column};
use compare::model::{rows, total_row, Column, Lent, Part, Settings, Sheet, COLUMNS, FINISHES};
use compare::refusals::Answer;

use crate::Play;

/// So many words of a part have room in a line beside two others.
const ROOM: usize = 6;

/// Where a `w` line's words lie: D, roughness, B and the number of columns come first.
const MACHS_AT: usize = 4;
const REYNOLDS_AT: usize = MACHS_AT + COLUMNS;
const NOZZLE_AT: usize = REYNOLDS_AT + COLUMNS;
const PARTS_AT: usize = NOZZLE_AT + 1;
const FIRST_PART: usize = PARTS_AT + 1;

impl Play {
    // ---- changes by hand

    /// Words of the sheet from a place on, which the sheet has already.
    fn words(&mut self, at: usize, words: &[u64]) {
        let mut args = vec![at as u64, words.len() as u64];
        args.extend(words);
        self.line('w', &args, Answer::accepted(0));
    }

    /// The settings with the first finish's roughness.
    pub fn settings(&mut self, d: f64, roughness: f64, b: f64, count: usize) {
        let settings = &mut self.sheet.settings;
        settings.reference_diameter = d;
        settings.roughnesses[0] = roughness;
        settings.body_fineness = b;
        settings.count = count;
        self.words(
            0,
            &[d.to_bits(), roughness.to_bits(), b.to_bits(), count as u64],
        );
    }

    /// How many finishes, and all roughnesses that there is room for.
    pub fn finishes(&mut self, finishes: usize, roughnesses: [f64; FINISHES]) {
        self.sheet.settings.finishes = finishes;
        self.sheet.settings.roughnesses = roughnesses;
        let mut args = vec![finishes as u64];
        args.extend(roughnesses.map(f64::to_bits));
        self.line('e', &args, Answer::accepted(0));
    }

    pub fn column(&mut self, at: usize, column: Column) {
        self.sheet.settings.columns[at].mach = column.mach;
        self.words(MACHS_AT + at, &[column.mach.to_bits()]);
        self.sheet.settings.columns[at].reynolds = column.reynolds;
        self.words(REYNOLDS_AT + at, &[column.reynolds.to_bits()]);
    }

    /// A part at a place: its words but for the roughness, then those.
    pub fn hold(&mut self, place: usize, part: Part) {
        self.count(&part);
        let at = FIRST_PART + PART_WORDS * place;
        let words = part_words(&part, f64::to_bits);
        let held = &mut self.sheet.design.parts[place];
        let roughness = held.roughness;
        *held = Part { roughness, ..part };
        self.words(at, &words[..ROOM]);
        self.sheet.design.parts[place] = part;
        self.words(at + ROOM, &words[ROOM..]);
    }

    fn count(&mut self, part: &Part) {
        self.parts += 1;
        self.own += usize::from(part.roughness.is_some());
    }

    /// What the lines of calls to come have for the part's last two words. A roughness of its own is
    /// flagged by any number but 0, and where there is none its word may be any.
    fn give(&mut self, part: &Part) {
        self.count(part);
        let [.., flag, own] = part_words(part, f64::to_bits);
        let any = self.args.random.bits();
        let given = match (flag, self.args.below(4)) {
            (0, 0) => [0, any],
            (1, 0) => [[2, u64::MAX, any | 2][self.args.below(3)], own],
            _ => [flag, own],
        };
        if given != self.given {
            self.given = given;
            self.line('k', &given, Answer::accepted(0));
        }
    }

    pub fn nozzle(&mut self, n: f64) {
        self.sheet.nozzle_diameter = n;
        self.words(NOZZLE_AT, &[n.to_bits()]);
    }

    pub fn parts(&mut self, count: usize) {
        self.sheet.design.count = count;
        self.words(PARTS_AT, &[count as u64]);
    }

    pub fn lend(&mut self, cell_count: usize) {
        self.cell_count = cell_count;
        self.line('l', &[cell_count as u64], Answer::accepted(0));
    }

    pub fn fill(&mut self, first: u64, step: u64) {
        let mut bits = first;
        for cell in &mut self.held.cells {
            *cell = f64::from_bits(bits);
            bits = bits.wrapping_add(step);
        }
        self.line('f', &[first, step], Answer::accepted(0));
    }

    pub fn poke(&mut self, at: usize, value: f64) {
        self.held.cells[at] = value;
        self.line('p', &[at as u64, value.to_bits()], Answer::accepted(0));
    }

    /// So many marks lent; the first one's byte, and what each further one adds. From here on marks
    /// count.
    pub fn marks(&mut self, mark_count: usize, first: u8, step: u8) {
        let mut byte = first;
        for mark in &mut self.held.marks {
            *mark = byte;
            byte = byte.wrapping_add(step);
        }
        (self.mark_count, self.marked) = (mark_count, true);
        let args = [mark_count as u64, first.into(), step.into()];
        self.line('g', &args, Answer::accepted(0));
    }

    pub fn poke_mark(&mut self, at: usize, mark: u8) {
        self.held.marks[at] = mark;
        self.line('h', &[at as u64, mark.into()], Answer::accepted(0));
    }

    // ---- calls

    fn lent(&mut self) -> Lent<'_> {
        self.held.lend_first(self.cell_count, self.mark_count)
    }

    /// The marks of all totals.
    fn total_marks(&self) -> &[u8] {
        let Settings {
            finishes, count, ..
        } = self.sheet.settings;
        &self.held.marks[total_row(finishes) * count..rows(finishes) * count]
    }

    /// A refused call leaves the words as they were, a refused open too.
    fn handed(&mut self, tag: char, args: &[u64], (answer, sheet): (Answer, Sheet)) -> Answer {
        if answer.refusal == 0 {
            self.sheet = sheet;
            self.burning += usize::from(sheet.nozzle_diameter > 0.0);
            self.several += usize::from(sheet.settings.finishes > 1);
            self.beyond += usize::from(self.marked && self.total_marks().contains(&1));
        }
        self.calls += 1;
        self.line(tag, args, answer);
        answer
    }

    pub fn open(&mut self) -> Answer {
        let settings = self.sheet.settings;
        let back = open(&settings, self.lent());
        self.handed('o', &[], back)
    }

    /// A call with a place and a part.
    fn put(&mut self, tag: char, place: usize, part: &Part, back: (Answer, Sheet)) -> Answer {
        let mut args = vec![place as u64];
        args.extend(&part_words(part, f64::to_bits)[..ROOM]);
        self.handed(tag, &args, back)
    }

    pub fn replace(&mut self, place: usize, part: Part) -> Answer {
        self.give(&part);
        let sheet = self.sheet;
        let back = replace(&sheet, place, &part, self.lent());
        self.put('r', place, &part, back)
    }

    pub fn insert(&mut self, place: usize, part: Part) -> Answer {
        self.give(&part);
        let sheet = self.sheet;
        let back = insert(&sheet, place, &part, self.lent());
        self.put('i', place, &part, back)
    }

    pub fn remove(&mut self, place: usize) -> Answer {
        let sheet = self.sheet;
        let back = remove(&sheet, place, self.lent());
        self.handed('m', &[place as u64], back)
    }

    pub fn set_column(&mut self, at: usize, column: Column) -> Answer {
        let sheet = self.sheet;
        let back = set_column(&sheet, at, column, self.lent());
        let args = [at as u64, column.mach.to_bits(), column.reynolds.to_bits()];
        self.handed('t', &args, back)
    }

    pub fn ignite(&mut self, n: f64) -> Answer {
        let sheet = self.sheet;
        let back = ignite(&sheet, n, self.lent());
        self.handed('n', &[n.to_bits()], back)
    }

    pub fn burnout(&mut self) -> Answer {
        let sheet = self.sheet;
        let back = burnout(&sheet, self.lent());
        self.handed('b', &[], back)
    }
}
