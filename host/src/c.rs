//! The C interface as include/cobalnis/raw.h has it, and a safe function over each of its functions.
//! All of this crate's `unsafe` is here; c/raw.rs has the declarations.
//!
//! What the C side asks of its pointers, Rust's references already say: they are aligned and never
//! null (an empty slice's too), a `&mut` overlaps nothing else, and a slice has as many items as
//! its length. The C side asks nothing of the numbers.

use std::sync::atomic::{AtomicBool, Ordering};

use crate::sheet::CELLS;
use crate::{COLUMNS, FINISHES, PLACES};

/// Where the number of finishes stands among the words of a sheet. Before it is the reference
/// diameter.
pub const FINISHES_AT: usize = 1;
/// Where the finishes' roughnesses stand.
pub const ROUGHNESSES_AT: usize = FINISHES_AT + 1;
/// Where the body fineness stands.
pub const FINENESS_AT: usize = ROUGHNESSES_AT + FINISHES;
/// Where the number of columns stands.
pub const COLUMNS_AT: usize = FINENESS_AT + 1;
/// Where the Mach numbers stand.
pub const MACHS_AT: usize = COLUMNS_AT + 1;
/// Where the Reynolds numbers stand.
pub const REYNOLDS_AT: usize = MACHS_AT + COLUMNS;
/// Where the nozzle diameter stands.
pub const NOZZLE_AT: usize = REYNOLDS_AT + COLUMNS;
/// Where the number of parts stands.
pub const PARTS_AT: usize = NOZZLE_AT + 1;
/// Where the parts stand.
pub const FIRST_PART: usize = PARTS_AT + 1;

/// Words of a part.
pub const PART_WORDS: usize = 8;
/// Words of a sheet.
pub const SHEET_WORDS: usize = FIRST_PART + PLACES * PART_WORDS;

/// A part as words.
pub type PartWords = [u64; PART_WORDS];
/// A sheet as words.
pub type SheetWords = [u64; SHEET_WORDS];

pub mod raw;

/// This package's version as the archive tells its own: three digits each for the second and the
/// third number.
pub const VERSION: u32 = number(env!("CARGO_PKG_VERSION_MAJOR")) * 1_000_000
    + number(env!("CARGO_PKG_VERSION_MINOR")) * 1000
    + number(env!("CARGO_PKG_VERSION_PATCH"));

/// The number of a text of digits.
const fn number(digits: &str) -> u32 {
    let (bytes, mut number, mut at) = (digits.as_bytes(), 0, 0);
    while at < bytes.len() {
        number = number * 10 + (bytes[at] - b'0') as u32;
        at += 1;
    }
    number
}

/// All that this package has to agree with the archive in: the interface's number, then in four
/// digits each the words of a sheet and the most cells (include/cobalnis/numbers.h).
pub const LAYOUT: u32 = INTERFACE * 100_000_000 + SHEET_WORDS as u32 * 10_000 + CELLS as u32;

const INTERFACE: u32 = 1;

/// The archive's version and layout.
fn archive() -> (u32, u32) {
    // SAFETY: no pointer is passed.
    unsafe { (raw::cobalnis_version(), raw::cobalnis_layout()) }
}

/// Whether the archive that is linked is the one that this package is for. A program may ask at its
/// start; the first call of any other function asks as well, and panics where it isn't.
#[must_use]
pub fn fits_archive() -> bool {
    archive() == (VERSION, LAYOUT)
}

/// Asked by each function below, so that no call ever goes to another archive; only the first looks.
#[inline]
fn fits() {
    static ASKED: AtomicBool = AtomicBool::new(false);
    if !ASKED.load(Ordering::Relaxed) {
        look();
        ASKED.store(true, Ordering::Relaxed);
    }
}

/// Kept apart, so that a call after the first costs the test of a flag.
#[cold]
#[inline(never)]
fn look() {
    let (version, layout) = archive();
    assert!(
        fits_archive(),
        "libcobalnis.a has version {version} and layout {layout}, and this package is for \
         {VERSION} and {LAYOUT}: make both from one state of the repository"
    );
}

/// A status, and the bits of the value or of the value refused.
#[must_use]
pub fn formula(which: u32, x: [f64; 5]) -> (u32, u64) {
    fits();
    let mut bits = 0;
    // SAFETY: `bits` is a word of our own.
    let status =
        unsafe { raw::cobalnis_formula_raw(which, x[0], x[1], x[2], x[3], x[4], &mut bits) };
    (status, bits)
}

/// A status, and the bits of the value refused.
#[must_use]
pub fn check_dimension(what: u32, value: f64, allow_zero: bool) -> (u32, u64) {
    fits();
    let mut bits = 0;
    // SAFETY: `bits` is a word of our own.
    let status = unsafe { raw::cobalnis_check_dimension_raw(what, value, allow_zero, &mut bits) };
    (status, bits)
}

/// A status, and 1 yes, 0 no.
#[must_use]
pub fn takes_cone_formula(shape: u64, parameter: f64) -> (u32, u64) {
    fits();
    let mut takes = 0;
    // SAFETY: `takes` is a word of our own.
    let status = unsafe { raw::cobalnis_takes_cone_formula_raw(shape, parameter, &mut takes) };
    (status, takes)
}

/// The number of the class that the bits are in.
#[must_use]
pub fn classify(bits: u64) -> u32 {
    fits();
    // SAFETY: no pointer is passed.
    unsafe { raw::cobalnis_classify(bits) }
}

/// A status, and the bits of a point's Mach number and drag.
#[must_use]
pub fn nose_point(nose: u32, place: usize) -> (u32, [u64; 2]) {
    fits();
    let mut out = [0; 2];
    // SAFETY: `out` is two words of our own.
    let status = unsafe { raw::cobalnis_nose_point_raw(nose, place, &mut out) };
    (status, out)
}

/// A status, the bits of value, slope and the table's first Mach number, and 1 where the Mach number
/// is above the table's last one, else 0.
#[must_use]
pub fn nose_lookup(nose: u32, mach: f64) -> (u32, [u64; 4]) {
    fits();
    let mut out = [0; 4];
    // SAFETY: `out` is four words of our own.
    let status = unsafe { raw::cobalnis_nose_lookup_raw(nose, mach, &mut out) };
    (status, out)
}

/// A status, and the bits of the value refused; the values go to `values`, how many times a Mach
/// number was set against a point to `compared`.
pub fn nose_walk(nose: u32, machs: &[f64], values: &mut [f64], compared: &mut usize) -> (u32, u64) {
    fits();
    let mut bits = 0;
    // SAFETY: each pointer comes with its slice's own length; `values` and `compared` are borrowed
    // mutably and `bits` is our own, so that nothing overlaps.
    let status = unsafe {
        raw::cobalnis_nose_walk_raw(
            nose,
            machs.as_ptr(),
            machs.len(),
            values.as_mut_ptr(),
            values.len(),
            compared,
            &mut bits,
        )
    };
    (status, bits)
}

/// A status, and the bits of the value refused, of the drag at rest and of the lower bound; the
/// coefficients' bits go to `out`, their marks to `marks`.
pub fn curve(
    shape: u64,
    [parameter, fineness, angle]: [f64; 3],
    machs: &[f64],
    out: &mut [u64],
    marks: &mut [u8],
) -> (u32, [u64; 3]) {
    fits();
    let mut about = [0; 3];
    // SAFETY: each pointer comes with its slice's own length, `about` is three words of our own,
    // and `out` and `marks` are borrowed mutably, so that nothing overlaps them.
    let status = unsafe {
        raw::cobalnis_curve_raw(
            shape,
            parameter,
            fineness,
            angle,
            machs.as_ptr(),
            machs.len(),
            out.as_mut_ptr(),
            out.len(),
            marks.as_mut_ptr(),
            marks.len(),
            &mut about,
        )
    };
    (status, about)
}

/// A status, and the bits of the value refused.
pub fn open(sheet: &mut SheetWords, cells: &mut [f64], marks: &mut [u8]) -> (u32, u64) {
    fits();
    let mut bits = 0;
    // SAFETY: `sheet`, `cells` and `marks` are three mutable borrows, so apart; both buffers have
    // their own lengths; any bits are an `f64` and a `u8`, and any of them may be written.
    let status = unsafe {
        raw::cobalnis_open_raw(
            sheet,
            cells.as_mut_ptr(),
            cells.len(),
            marks.as_mut_ptr(),
            marks.len(),
            &mut bits,
        )
    };
    (status, bits)
}

/// A C function that puts a part at a place.
type Edit = unsafe extern "C" fn(
    *mut SheetWords,
    usize,
    *const PartWords,
    *mut f64,
    usize,
    *mut u8,
    usize,
    *mut u64,
) -> u32;

fn edit(
    call: Edit,
    sheet: &mut SheetWords,
    place: usize,
    part: &PartWords,
    cells: &mut [f64],
    marks: &mut [u8],
) -> (u32, u64) {
    fits();
    let mut bits = 0;
    // SAFETY: as for `open`; `part` is borrowed while the others are borrowed mutably, so apart.
    let status = unsafe {
        call(
            sheet,
            place,
            part,
            cells.as_mut_ptr(),
            cells.len(),
            marks.as_mut_ptr(),
            marks.len(),
            &mut bits,
        )
    };
    (status, bits)
}

/// A status, and the bits of the value refused.
pub fn insert(
    sheet: &mut SheetWords,
    place: usize,
    part: &PartWords,
    cells: &mut [f64],
    marks: &mut [u8],
) -> (u32, u64) {
    edit(raw::cobalnis_insert_raw, sheet, place, part, cells, marks)
}

/// A status, and the bits of the value refused.
pub fn replace(
    sheet: &mut SheetWords,
    place: usize,
    part: &PartWords,
    cells: &mut [f64],
    marks: &mut [u8],
) -> (u32, u64) {
    edit(raw::cobalnis_replace_raw, sheet, place, part, cells, marks)
}

/// A status, and the bits of the value refused.
pub fn remove(
    sheet: &mut SheetWords,
    place: usize,
    cells: &mut [f64],
    marks: &mut [u8],
) -> (u32, u64) {
    fits();
    let mut bits = 0;
    // SAFETY: as for `open`.
    let status = unsafe {
        raw::cobalnis_remove_raw(
            sheet,
            place,
            cells.as_mut_ptr(),
            cells.len(),
            marks.as_mut_ptr(),
            marks.len(),
            &mut bits,
        )
    };
    (status, bits)
}

/// A status, and the bits of the value refused.
pub fn set_column(
    sheet: &mut SheetWords,
    column: usize,
    mach: f64,
    reynolds: f64,
    cells: &mut [f64],
    marks: &mut [u8],
) -> (u32, u64) {
    fits();
    let mut bits = 0;
    // SAFETY: as for `open`.
    let status = unsafe {
        raw::cobalnis_set_column_raw(
            sheet,
            column,
            mach,
            reynolds,
            cells.as_mut_ptr(),
            cells.len(),
            marks.as_mut_ptr(),
            marks.len(),
            &mut bits,
        )
    };
    (status, bits)
}

/// A status, and the bits of the value refused.
pub fn ignite(
    sheet: &mut SheetWords,
    nozzle_diameter: f64,
    cells: &mut [f64],
    marks: &mut [u8],
) -> (u32, u64) {
    fits();
    let mut bits = 0;
    // SAFETY: as for `open`.
    let status = unsafe {
        raw::cobalnis_ignite_raw(
            sheet,
            nozzle_diameter,
            cells.as_mut_ptr(),
            cells.len(),
            marks.as_mut_ptr(),
            marks.len(),
            &mut bits,
        )
    };
    (status, bits)
}

/// A status, and the bits of the value refused.
pub fn burnout(sheet: &mut SheetWords, cells: &mut [f64], marks: &mut [u8]) -> (u32, u64) {
    fits();
    let mut bits = 0;
    // SAFETY: as for `open`.
    let status = unsafe {
        raw::cobalnis_burnout_raw(
            sheet,
            cells.as_mut_ptr(),
            cells.len(),
            marks.as_mut_ptr(),
            marks.len(),
            &mut bits,
        )
    };
    (status, bits)
}

/// A status, and where the card ends; the settings' words go to `sheet`.
pub fn read_settings(bytes: &[u8], at: usize, sheet: &mut SheetWords) -> (u32, usize) {
    fits();
    let mut next = 0;
    // SAFETY: `bytes` comes with its own length, `sheet` is borrowed mutably, so apart from it, and
    // `next` is our own.
    let status = unsafe {
        raw::cobalnis_read_settings_raw(bytes.as_ptr(), bytes.len(), at, sheet, &mut next)
    };
    (status, next)
}

/// A status, and where the card ends; the part's words go to `part`.
pub fn read_part(bytes: &[u8], at: usize, part: &mut PartWords) -> (u32, usize) {
    fits();
    let mut next = 0;
    // SAFETY: as for `read_settings`.
    let status =
        unsafe { raw::cobalnis_read_part_raw(bytes.as_ptr(), bytes.len(), at, part, &mut next) };
    (status, next)
}

/// How many bytes of `out` were written; 0 if it has fewer than the longest text needs.
pub fn print(bytes: &[u8], out: &mut [u8]) -> usize {
    fits();
    // SAFETY: each pointer comes with its slice's own length, and `out` is borrowed mutably, so
    // apart from `bytes`.
    unsafe { raw::cobalnis_print(bytes.as_ptr(), bytes.len(), out.as_mut_ptr(), out.len()) }
}

/// Gives every NaN among the cells the bits 7ff8000000000000 (docs/REFERENCE.md, Numbers). Their
/// patterns, above infinity's with either sign, are compared as whole numbers, since a compiler may
/// take any NaN for any other.
pub fn settle(cells: &mut [f64]) {
    const NAN: u64 = 0x7ff8_0000_0000_0000;
    // SAFETY: an `f64` and a `u64` have the same size and alignment, any bits are one of either,
    // and `cells` is borrowed mutably for as long as `words` lives.
    let words =
        unsafe { std::slice::from_raw_parts_mut(cells.as_mut_ptr().cast::<u64>(), cells.len()) };
    for word in words {
        if let 0x7ff0_0000_0000_0001..=0x7fff_ffff_ffff_ffff | 0xfff0_0000_0000_0001.. = *word {
            *word = NAN;
        }
    }
}
