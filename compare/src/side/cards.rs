//! Random streams of cards against the model: what is printed, and cards read one at a time.

use cobalnis::words::{self, LONGEST_TEXT, PART_WORDS, SHEET_WORDS};

use super::tally::Row;
use crate::cards::printed;
use crate::mirror;
use crate::streams::Streams;

/// What was there before a card is read.
const BEFORE: u64 = 0x0123_4567_89ab_cdef;

fn hex(bytes: &[u8]) -> String {
    bytes.iter().map(|byte| format!("{byte:02x}")).collect()
}

/// Whole streams by `print`, then the same bytes card by card.
pub fn cards(count: u64, seed: u64) -> Vec<Row> {
    let mut streams = Streams::new(seed);
    let mut rows = [
        Row::new("cards: print"),
        Row::new("cards: read_settings"),
        Row::new("cards: read_part"),
    ];
    let mut out = vec![0; LONGEST_TEXT];
    for _ in 0..count {
        let (stream, _) = streams.next_stream();
        print(&stream, &mut out, &mut rows[0]);
        let from = streams.below(stream.len() + 2);
        let mut at = settings(&stream, 0, &mut rows[1]);
        settings(&stream, from, &mut rows[1]);
        part(&stream, from, &mut rows[2]);
        while let Some(next) = at.filter(|&at| at < stream.len()) {
            at = part(&stream, next, &mut rows[2]);
        }
    }
    rows.into()
}

fn print(stream: &[u8], out: &mut [u8], row: &mut Row) {
    let length = words::print(stream, out);
    let (text, number) = printed(stream);
    row.note(number.into(), &out[..length] == text.as_bytes(), || {
        let port = String::from_utf8_lossy(&out[..length]);
        format!("{}\nport:\n{port}model:\n{text}", hex(stream))
    });
    if number == 0 {
        row.note_mark(text.contains('+'));
    }
}

/// Reads a settings card on both sides; where it ends, if it was accepted.
fn settings(stream: &[u8], at: usize, row: &mut Row) -> Option<usize> {
    let (mut ours, mut theirs) = ([BEFORE; SHEET_WORDS], [BEFORE; SHEET_WORDS]);
    let port = words::read_settings(stream, at, &mut ours);
    let model = mirror::read_settings(stream, at, &mut theirs);
    row.note(model.0, port == model && ours == theirs, || {
        format!("{} from {at}: port {port:?}, model {model:?}", hex(stream))
    });
    (model.0 == 0).then_some(model.1)
}

fn part(stream: &[u8], at: usize, row: &mut Row) -> Option<usize> {
    let (mut ours, mut theirs) = ([BEFORE; PART_WORDS], [BEFORE; PART_WORDS]);
    let port = words::read_part(stream, at, &mut ours);
    let model = mirror::read_part(stream, at, &mut theirs);
    row.note(model.0, port == model && ours == theirs, || {
        format!("{} from {at}: port {port:?}, model {model:?}", hex(stream))
    });
    if model.0 != 0 {
        return None;
    }
    row.note_part(&theirs);
    Some(model.1)
}
