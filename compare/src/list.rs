//! Writes the lines of stored answers: a tag, eleven words of 16 hexadecimal digits with a space in
//! front of each, and a line feed.

use std::collections::HashSet;
use std::io::{BufWriter, StdoutLock, Write};

/// Words of a line.
pub const WORDS: usize = 11;

/// A line of a tag and its words: first the arguments, zeros up to word `first`, from there on the
/// answer, and zeros after it.
pub fn line(tag: char, first: usize, arguments: &[u64], answer: &[u64]) -> String {
    assert!(arguments.len() <= first && answer.len() <= WORDS - first);
    let mut words = [0; WORDS];
    words[..arguments.len()].copy_from_slice(arguments);
    words[first..first + answer.len()].copy_from_slice(answer);
    let words: Vec<String> = words.iter().map(|word| format!(" {word:016x}")).collect();
    tag.to_string() + &words.concat()
}

/// Standard output, each line once, in the order in which they come.
pub struct List {
    out: BufWriter<StdoutLock<'static>>,
    seen: HashSet<String>,
}

impl List {
    #[allow(clippy::new_without_default)]
    pub fn new() -> Self {
        Self {
            out: BufWriter::new(std::io::stdout().lock()),
            seen: HashSet::new(),
        }
    }

    /// A line, unless it was printed before.
    pub fn once(&mut self, line: String) {
        if self.seen.insert(line.clone()) {
            writeln!(self.out, "{line}").expect("standard output");
        }
    }

    /// What is still held back goes out.
    pub fn finish(mut self) {
        self.out.flush().expect("standard output");
    }
}
