//! The counts of one function, and the two tables.

use cobalnis::words::PartWords;

use crate::distance;
use crate::mirror::NO_SUCH;
use crate::model::FINISHES;
use crate::refusals::Answer;

/// How many inputs that disagree are printed.
const SHOWN: usize = 5;

/// What came of one function.
#[derive(Default)]
pub struct Row {
    name: String,
    inputs: u64,
    /// By the other side's refusal number, 0 accepted.
    by_number: [u64; 21],
    /// Numbers that name nothing.
    no_such: u64,
    /// Parts among the inputs, and those with a roughness of their own.
    parts: u64,
    own: u64,
    /// Accepted calls after which a nozzle burns that is narrower than the base, as wide, wider.
    burning: [u64; 3],
    /// Accepted calls that left a sheet of one finish, of two, and so on.
    finishes: [u64; FINISHES],
    /// Accepted calls whose answer has a mark, and those whose has none.
    marks: [u64; 2],
    pub disagreements: u64,
    shown: Vec<String>,
    plain: Option<Plain>,
}

impl Row {
    pub fn new(name: impl Into<String>) -> Self {
        Self {
            name: name.into(),
            ..Self::default()
        }
    }

    pub fn name(&self) -> &str {
        &self.name
    }

    pub fn inputs(&self) -> u64 {
        self.inputs
    }

    /// How many inputs had this refusal number, 0 accepted.
    pub fn seen(&self, number: usize) -> u64 {
        self.by_number[number]
    }

    /// One input with the other side's status; `input` is written out where the sides disagree.
    pub fn note(&mut self, status: u32, agree: bool, input: impl FnOnce() -> String) {
        self.inputs += 1;
        if status == NO_SUCH {
            self.no_such += 1;
        } else {
            self.by_number[(status & 255) as usize] += 1;
        }
        if !agree {
            self.disagreements += 1;
            if self.shown.len() < SHOWN {
                self.shown.push(input());
            }
        }
    }

    /// A part among the inputs.
    pub fn note_part(&mut self, words: &PartWords) {
        self.parts += 1;
        self.own += u64::from(words[6] != 0);
    }

    /// The nozzle and the last d after an accepted call.
    pub fn note_nozzle(&mut self, n: f64, d: f64) {
        if n > 0.0 {
            self.burning[usize::from(n >= d) + usize::from(n > d)] += 1;
        }
    }

    /// The number of finishes after an accepted call.
    pub fn note_finishes(&mut self, finishes: usize) {
        self.finishes[finishes - 1] += 1;
    }

    /// How many accepted calls left a sheet of one finish, of two, and so on.
    pub fn finishes(&self) -> [u64; FINISHES] {
        self.finishes
    }

    /// Whether an accepted call's answer has a mark.
    pub fn note_mark(&mut self, marked: bool) {
        self.marks[usize::from(!marked)] += 1;
    }

    /// How many answers have a mark, and how many have none.
    pub fn marks(&self) -> [u64; 2] {
        self.marks
    }

    /// After how many accepted calls a nozzle burns that is narrower than the base, as wide, wider.
    pub fn burning(&self) -> [u64; 3] {
        self.burning
    }

    /// How many parts were among the inputs, and how many had a roughness of their own.
    pub fn parts(&self) -> (u64, u64) {
        (self.parts, self.own)
    }

    /// The same input against the untouched original, which is measured only.
    pub fn measure(&mut self, plausible: bool, status: u32, bits: u64, plain: Result<f64, Answer>) {
        let to = self.plain.get_or_insert_with(Plain::default);
        match plain {
            Ok(x) if status == 0 => {
                to.all.add(f64::from_bits(bits), x);
                if plausible {
                    to.plausible.add(f64::from_bits(bits), x);
                }
            }
            Err(answer) if crate::mirror::status(answer) == status => {}
            _ => to.refusals += 1,
        }
    }

    fn refusals(&self) -> String {
        let mut list = Vec::new();
        for (number, count) in self.by_number.iter().enumerate().skip(1) {
            if *count > 0 {
                list.push(format!("{number}:{count}"));
            }
        }
        if self.no_such > 0 {
            list.push(format!("no such:{}", self.no_such));
        }
        list.join(" ")
    }
}

/// Port against the untouched original.
#[derive(Default)]
struct Plain {
    all: Distances,
    plausible: Distances,
    /// Inputs that one side refuses and the other doesn't, or that are refused otherwise.
    refusals: u64,
}

#[derive(Default)]
struct Distances {
    compared: u64,
    equal: u64,
    /// In units in the last place, where neither is NaN.
    largest: u64,
    /// One is NaN, the other isn't.
    nan: u64,
}

impl Distances {
    fn add(&mut self, port: f64, plain: f64) {
        self.compared += 1;
        match (port.is_nan(), plain.is_nan()) {
            (true, true) => self.equal += 1,
            (false, false) => {
                self.equal += u64::from(port.to_bits() == plain.to_bits());
                self.largest = self.largest.max(distance(port, plain));
            }
            _ => self.nan += 1,
        }
    }

    fn cells(&self) -> String {
        if self.compared == 0 {
            return "- | -".to_string();
        }
        let share = 100.0 * self.equal as f64 / self.compared as f64;
        let largest = if self.largest > 1_000_000_000 {
            format!("{:.0e}", self.largest as f64)
        } else {
            self.largest.to_string()
        };
        if self.nan > 0 {
            format!("{share:.2} % | {largest}; NaN on one side: {}", self.nan)
        } else {
            format!("{share:.2} % | {largest}")
        }
    }
}

/// The first table: port and original with the fixed steps, which must agree.
pub fn print_agreement(rows: &[Row]) {
    println!("| function | inputs | refused, by number | disagreements |");
    println!("|---|---|---|---|");
    for row in rows {
        println!(
            "| {} | {} | {} | {} |",
            row.name,
            row.inputs,
            row.refusals(),
            row.disagreements
        );
    }
    for row in rows {
        for shown in &row.shown {
            println!("\n{} disagrees at {shown}", row.name);
        }
    }
}

/// How many of the parts had a roughness of their own.
pub fn print_own(rows: &[Row]) {
    for row in rows.iter().filter(|row| row.parts > 0) {
        let Row {
            name, parts, own, ..
        } = row;
        println!("{name}: {own} of {parts} parts with a roughness of their own");
    }
}

/// After how many accepted calls of the sheet a nozzle burnt.
pub fn print_burning(rows: &[Row]) {
    for row in rows.iter().filter(|row| row.burning != [0; 3]) {
        let [below, at, above] = row.burning;
        let (name, all) = (&row.name, row.seen(0));
        println!("{name}: of {all} accepted {below} with n below d, {at} at d, {above} above d");
    }
}

/// How many finishes the sheets of accepted calls had.
pub fn print_finishes(rows: &[Row]) {
    for row in rows.iter().filter(|row| row.finishes() != [0; FINISHES]) {
        let [one, two, three, four] = row.finishes();
        let (name, all) = (&row.name, row.seen(0));
        println!("{name}: of {all} accepted {one}, {two}, {three}, {four} with 1 to 4 finishes");
    }
}

/// How many accepted answers rested on a table held past its last point.
pub fn print_marks(rows: &[Row]) {
    for row in rows.iter().filter(|row| row.marks() != [0; 2]) {
        let [marked, unmarked] = row.marks();
        let (name, all) = (&row.name, marked + unmarked);
        println!("{name}: of {all} accepted {marked} with a mark");
    }
}

/// The second table: port and untouched original, measured.
pub fn print_plain(rows: &[Row]) {
    println!(
        "| function | equal, all inputs | largest distance in ulps | equal, plausible inputs | \
         largest distance in ulps | refusals that differ |"
    );
    println!("|---|---|---|---|---|---|");
    for row in rows {
        if let Some(plain) = &row.plain {
            println!(
                "| {} | {} | {} | {} |",
                row.name,
                plain.all.cells(),
                plain.plausible.cells(),
                plain.refusals
            );
        }
    }
}
