//! Stoney's tables: single lookups, and a flight of 256 rising Machs in one walk.

use std::hint::black_box;

use cobalnis::raw;
use compare::inputs::Random;
use compare::mirror::QUERIES;
use compare::mirror_c as theirs;
use compare::original_fixed::StoneyNose;

use crate::timing::{measure, row, Times};

type Lookup = unsafe extern "C" fn(u32, f64, *mut [u64; 4]) -> u32;
type Walk =
    unsafe extern "C" fn(u32, *const f64, usize, *mut f64, usize, *mut usize, *mut u64) -> u32;

type Flight = (u32, [f64; QUERIES]);

fn lookup_pass(f: Lookup, flights: &[Flight]) -> u64 {
    let mut sum = 0u64;
    for (nose, machs) in flights {
        for &mach in machs {
            let mut out = [0; 4];
            // SAFETY: `out` is our own.
            let status = unsafe { f(*nose, mach, &mut out) };
            assert_eq!(status, 0);
            sum = sum.wrapping_add(out[0]);
        }
    }
    sum
}

fn walk_pass(f: Walk, flights: &[Flight]) -> u64 {
    let mut sum = 0u64;
    let mut values = [0.0; QUERIES];
    for (nose, machs) in flights {
        let (mut compared, mut bits) = (0, 0);
        let (from, to) = (machs.as_ptr(), values.as_mut_ptr());
        // SAFETY: both have QUERIES items, the rest is our own.
        let status = unsafe { f(*nose, from, QUERIES, to, QUERIES, &mut compared, &mut bits) };
        assert_eq!(status, 0);
        sum = sum.wrapping_add(compared as u64);
        for value in &values {
            sum = sum.wrapping_add(value.to_bits());
        }
    }
    sum
}

/// A climb for each nose, from rest to past its table.
fn flights(random: &mut Random) -> Vec<Flight> {
    let climb = |nose: usize| {
        let mut machs = [0.0; QUERIES];
        machs.fill_with(|| random.between(0.0, 2.2));
        machs.sort_by(f64::total_cmp);
        (nose as u32, machs)
    };
    (0..StoneyNose::ALL.len()).map(climb).collect()
}

pub fn walks(random: &mut Random) {
    let flights = flights(random);
    let calls = flights.len() * QUERIES;
    let (port, original) = black_box((
        raw::cobalnis_nose_lookup_raw as Lookup,
        theirs::nose_lookup as Lookup,
    ));
    let lookup = measure(calls, &mut || lookup_pass(port, &flights), &mut || {
        lookup_pass(original, &flights)
    });
    row("a table's single lookup, rising Machs", lookup);
    let (port, original) = black_box((
        raw::cobalnis_nose_walk_raw as Walk,
        theirs::nose_walk as Walk,
    ));
    let walk = measure(calls, &mut || walk_pass(port, &flights), &mut || {
        walk_pass(original, &flights)
    });
    row("one walk of 256 rising Machs, a Mach", walk);
    let (port, original) = (walk.port, lookup.port);
    row(
        "port's walk of 256 / port's 256 single lookups",
        Times { port, original },
    );
}
