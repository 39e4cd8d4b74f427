//! Whole flights along one of Stoney's tables, good and bad.

use cobalnis::words;

use super::asked::{self, Argument};
use super::formulas::written;
use super::tally::Row;
use crate::inputs::Random;
use crate::mirror::{self, QUERIES};
use crate::original_fixed::StoneyNose;

/// What stands in the count's word before a call.
const BEFORE: usize = 0x5eed;

/// Flights of up to a few Machs more than are allowed, with answer cells that hold something.
pub fn walks(count: u64, random: &mut Random) -> Row {
    let mut row = Row::new("StoneyNose: a flight in one walk");
    let mach = asked::mach();
    for _ in 0..count {
        let nose = (random.bits() % 37 % 10) as u32;
        let machs = flight(nose, &mach, random);
        let cells = cells(machs.len(), random);
        let (mut port_cells, mut their_cells) = (cells.clone(), cells);
        let (mut port_count, mut their_count) = (BEFORE, BEFORE);
        let port = words::nose_walk(nose, &machs, &mut port_cells, &mut port_count);
        let theirs = mirror::nose_walk(nose, &machs, &mut their_cells, &mut their_count);
        let same = bits(&port_cells) == bits(&their_cells) && port_count == their_count;
        row.note(theirs.0, port == theirs && same, || {
            let mut input = vec![nose.into()];
            input.extend(bits(&machs));
            let of = |answer: (u32, u64), count: usize| [answer.0.into(), answer.1, count as u64];
            written(&input, &of(port, port_count), &of(theirs, their_count))
        });
    }
    row
}

/// How many Machs: few, many, all that are allowed, or too many.
fn length(random: &mut Random) -> usize {
    let any = random.bits() as usize;
    match random.bits() % 64 {
        0 => QUERIES,
        1 => QUERIES + 1 + any % 4,
        2..=5 => any % QUERIES,
        _ => any % 12,
    }
}

/// Machs in rising order: any numbers, the table's own with their neighbours, or a steady climb;
/// one flight in four is then damaged.
fn flight(nose: u32, mach: &Argument, random: &mut Random) -> Vec<f64> {
    let points = StoneyNose::ALL[nose as usize % StoneyNose::ALL.len()].points();
    let kind = random.bits() % 3;
    let mut machs: Vec<f64> = (0..length(random))
        .map(|_| match kind {
            0 => mach.any(random).abs(),
            1 => {
                let tabled = points[random.bits() as usize % points.len()].0;
                f64::from_bits(tabled.to_bits() + random.bits() % 3 - 1)
            }
            _ => random.between(0.0, 2.5),
        })
        .filter(|mach| mach.is_finite())
        .collect();
    machs.sort_by(f64::total_cmp);
    if random.bits() % 4 == 0 {
        damage(&mut machs, mach, random);
    }
    machs
}

/// Two Machs change places, or one becomes anything; sometimes both.
fn damage(machs: &mut [f64], mach: &Argument, random: &mut Random) {
    if machs.is_empty() {
        return;
    }
    let mut place = || random.bits() as usize % machs.len();
    let (one, other, hit) = (place(), place(), place());
    let kind = random.bits() % 3;
    if kind != 0 {
        machs.swap(one, other);
    }
    if kind != 1 {
        machs[hit] = mach.any(random);
    }
}

/// Foreign cells: as many as there are Machs, a few more, or too few.
fn cells(machs: usize, random: &mut Random) -> Vec<f64> {
    let count = match random.bits() % 16 {
        0 => machs.saturating_sub(1),
        1..=4 => machs + random.bits() as usize % 5,
        _ => machs,
    };
    (0..count).map(|_| random.any()).collect()
}

fn bits(floats: &[f64]) -> Vec<u64> {
    floats.iter().map(|x| x.to_bits()).collect()
}
