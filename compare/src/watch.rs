//! What the watched build of the original (build/main.rs) looks up in Stoney's tables. A lookup is
//! beyond its table if its Mach number is above the Mach number of the last point, so that the
//! table's last drag is held.

use std::cell::RefCell;

use crate::original_watched::StoneyNose;

/// A lookup: the nose and the Mach number.
pub type Lookup = (StoneyNose, f64);

struct Notes {
    /// Whether somebody watches.
    kept: bool,
    lookups: Vec<Lookup>,
}

thread_local! {
    static NOTES: RefCell<Notes> = const {
        RefCell::new(Notes {
            kept: false,
            lookups: Vec::new(),
        })
    };
}

/// The watched build's `StoneyNose::value_and_slope` calls this first of all.
pub fn note(nose: StoneyNose, mach: f64) {
    NOTES.with_borrow_mut(|notes| {
        if notes.kept {
            notes.lookups.push((nose, mach));
        }
    });
}

/// What is answered, and what is made of the lookups on the way.
pub fn watched<T, R>(ask: impl FnOnce() -> T, of: impl FnOnce(&[Lookup]) -> R) -> (T, R) {
    NOTES.with_borrow_mut(|notes| {
        notes.kept = true;
        notes.lookups.clear();
    });
    let answer = ask();
    let made = NOTES.with_borrow_mut(|notes| {
        notes.kept = false;
        of(&notes.lookups)
    });
    (answer, made)
}

/// What is answered, and whether any lookup on the way was beyond its table.
pub fn with_mark<T>(ask: impl FnOnce() -> T) -> (T, bool) {
    watched(ask, |lookups| {
        lookups.iter().any(|&(nose, mach)| mach > last_mach(nose))
    })
}

/// The Mach number of a table's last point.
pub fn last_mach(nose: StoneyNose) -> f64 {
    nose.points().last().expect("a table has points").0
}
