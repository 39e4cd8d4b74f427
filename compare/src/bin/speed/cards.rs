//! Cards: parts and settings decoded.

use std::hint::black_box;

use cobalnis::raw;
use cobalnis::words::{
    PartWords, SheetWords, FINENESS_AT, MACHS_AT, PART_WORDS, REYNOLDS_AT, ROUGHNESSES_AT,
    SHEET_WORDS,
};
use compare::inputs::Random;
use compare::mirror_c as theirs;

use crate::sheets::{part, sheet};
use crate::timing::{measure, row};
use crate::INPUTS;

type ReadPart = unsafe extern "C" fn(*const u8, usize, usize, *mut PartWords, *mut usize) -> u32;
type ReadSettings =
    unsafe extern "C" fn(*const u8, usize, usize, *mut SheetWords, *mut usize) -> u32;

/// Reads cards one behind the other until the bytes end.
fn part_pass(f: ReadPart, bytes: &[u8]) -> u64 {
    let (mut at, mut sum) = (0, 0u64);
    let mut words = [0; PART_WORDS];
    while at < bytes.len() {
        let mut next = 0;
        // SAFETY: the bytes come with their length, the rest is our own.
        let status = unsafe { f(bytes.as_ptr(), bytes.len(), at, &mut words, &mut next) };
        assert_eq!(status, 0);
        sum = sum.wrapping_add(words[2] ^ words[5]);
        at = next;
    }
    sum
}

fn settings_pass(f: ReadSettings, bytes: &[u8]) -> u64 {
    let (mut at, mut sum) = (0, 0u64);
    let mut words = [0; SHEET_WORDS];
    while at < bytes.len() {
        let mut next = 0;
        // SAFETY: as above.
        let status = unsafe { f(bytes.as_ptr(), bytes.len(), at, &mut words, &mut next) };
        assert_eq!(status, 0);
        sum = sum.wrapping_add(words[FINENESS_AT] ^ words[MACHS_AT + 1] ^ words[REYNOLDS_AT + 31]);
        at = next;
    }
    sum
}

/// Part cards, of which most have all fields but the roughness.
fn part_cards(random: &mut Random, count: usize) -> Vec<u8> {
    let mut bytes = Vec::new();
    for _ in 0..count {
        let words = part(random, 0.1, false);
        let has_parameter = words[0] != 0 && words[0] != 2;
        bytes.push(0b11_1101 | u8::from(has_parameter) << 1);
        bytes.push(words[0] as u8);
        let from = if has_parameter { 1 } else { 2 };
        for word in &words[from..6] {
            bytes.extend(word.to_le_bytes());
        }
    }
    bytes
}

fn settings_cards(random: &mut Random, count: usize, columns: usize) -> Vec<u8> {
    let mut bytes = Vec::new();
    for _ in 0..count {
        let words = sheet(random, 0, false);
        bytes.push(0b1111);
        for at in [0, ROUGHNESSES_AT, FINENESS_AT] {
            bytes.extend(words[at].to_le_bytes());
        }
        bytes.push(columns as u8);
        for column in 0..columns {
            bytes.extend(words[MACHS_AT + column].to_le_bytes());
            bytes.extend(words[REYNOLDS_AT + column].to_le_bytes());
        }
    }
    bytes
}

pub fn cards(random: &mut Random) {
    let bytes = part_cards(random, INPUTS);
    let (port, original) = black_box((
        raw::cobalnis_read_part_raw as ReadPart,
        theirs::read_part as ReadPart,
    ));
    let times = measure(INPUTS, &mut || part_pass(port, &bytes), &mut || {
        part_pass(original, &bytes)
    });
    row("decoding a part card", times);
    let (port, original) = black_box((
        raw::cobalnis_read_settings_raw as ReadSettings,
        theirs::read_settings as ReadSettings,
    ));
    for columns in [1, 8, 32] {
        let bytes = settings_cards(random, 64, columns);
        let times = measure(64, &mut || settings_pass(port, &bytes), &mut || {
            settings_pass(original, &bytes)
        });
        let s = if columns == 1 { "" } else { "s" };
        row(
            &format!("decoding a settings card of {columns} column{s}"),
            times,
        );
    }
}
