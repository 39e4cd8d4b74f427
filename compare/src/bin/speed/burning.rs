//! Ignite and burnout, on a sheet of 16 parts and 32 columns.

use std::hint::black_box;

use cobalnis::raw;
use cobalnis::words::{SheetWords, NOZZLE_AT};
use compare::inputs::Random;
use compare::mirror_c as theirs;
use compare::model::PLACES;

use crate::passes::{Lent, Open as Burnout, CELLS};
use crate::sheets::sheet;
use crate::timing::{measure, row};

type Ignite =
    unsafe extern "C" fn(*mut SheetWords, f64, *mut f64, usize, *mut u8, usize, *mut u64) -> u32;

/// A generator of their own, so that all other inputs stay as they are.
const SEED: u64 = 0x5eed_000e;

/// Ignites one full sheet with nozzle after nozzle.
fn ignite_pass(f: Ignite, sheet: &SheetWords, nozzles: &[f64]) -> u64 {
    let mut lent = Lent::new(CELLS);
    let (mut words, mut bits, mut sum) = (*sheet, 0, 0u64);
    for &nozzle in nozzles {
        let (cells, marks, n) = lent.lend();
        // SAFETY: all are our own and apart.
        let status = unsafe { f(&mut words, nozzle, cells, n, marks, n, &mut bits) };
        assert_eq!(status, 0);
        sum = sum.wrapping_add(lent.sum());
    }
    sum
}

/// Burns out each of these sheets.
fn burnout_pass(f: Burnout, sheets: &[SheetWords]) -> u64 {
    let mut lent = Lent::new(CELLS);
    let mut sum = 0u64;
    for sheet in sheets {
        let (mut words, mut bits) = (*sheet, 0);
        let (cells, marks, n) = lent.lend();
        // SAFETY: all are our own and apart.
        let status = unsafe { f(&mut words, cells, n, marks, n, &mut bits) };
        assert_eq!(status, 0);
        sum = sum.wrapping_add(lent.sum());
    }
    sum
}

pub fn ignites_and_burnouts() {
    let random = &mut Random::new(SEED);
    let full = sheet(random, PLACES, false);
    let nozzles: Vec<_> = (0..128).map(|_| random.between(0.01, 0.15)).collect();
    let (port, original) =
        black_box((raw::cobalnis_ignite_raw as Ignite, theirs::ignite as Ignite));
    let times = measure(
        nozzles.len(),
        &mut || ignite_pass(port, &full, &nozzles),
        &mut || ignite_pass(original, &full, &nozzles),
    );
    row("ignite in a full sheet", times);
    let sheets: Vec<_> = nozzles[..32].iter().map(|&n| burning(&full, n)).collect();
    let (port, original) = black_box((
        raw::cobalnis_burnout_raw as Burnout,
        theirs::burnout as Burnout,
    ));
    let times = measure(
        sheets.len(),
        &mut || burnout_pass(port, &sheets),
        &mut || burnout_pass(original, &sheets),
    );
    row("burnout in a full sheet", times);
}

/// A sheet with a nozzle.
fn burning(sheet: &SheetWords, n: f64) -> SheetWords {
    let mut words = *sheet;
    words[NOZZLE_AT] = n.to_bits();
    words
}
