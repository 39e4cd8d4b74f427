//! The original and the models behind `extern "C"` functions with the port's signatures, for
//! measuring: either side then pays the same call. They are in this package's library and never
//! inlined into their caller, while what they call may be inlined into them. The original has no
//! marks: those lent are left as they are, and a lookup's is 0.
//!
//! # Safety
//!
//! As for the port's C interface: pointers are aligned and not null, none overlap, and each slice
//! has as many items as its length says.

#![allow(clippy::missing_safety_doc, clippy::too_many_arguments)]

use std::slice::{from_raw_parts, from_raw_parts_mut};

use cobalnis::words::{PartWords, SheetWords};

use crate::mirror::{self, measured};
use crate::model::Lent;

#[inline(never)]
pub unsafe extern "C" fn formula(
    which: u32,
    a: f64,
    b: f64,
    c: f64,
    d: f64,
    e: f64,
    bits: *mut u64,
) -> u32 {
    let (status, answer) = mirror::formula(which, [a, b, c, d, e]);
    *bits = answer;
    status
}

#[inline(never)]
pub unsafe extern "C" fn nose_lookup(nose: u32, mach: f64, out: *mut [u64; 4]) -> u32 {
    let (status, [value, slope, first]) = measured::nose_lookup(nose, mach);
    *out = [value, slope, first, 0];
    status
}

#[inline(never)]
pub unsafe extern "C" fn nose_walk(
    nose: u32,
    machs: *const f64,
    n: usize,
    values: *mut f64,
    m: usize,
    compared: *mut usize,
    bits: *mut u64,
) -> u32 {
    let (machs, values) = (from_raw_parts(machs, n), from_raw_parts_mut(values, m));
    let (status, answer) = mirror::nose_walk(nose, machs, values, &mut *compared);
    *bits = answer;
    status
}

#[inline(never)]
pub unsafe extern "C" fn curve(
    shape: u64,
    parameter: f64,
    fineness_ratio: f64,
    joint_angle_rad: f64,
    machs: *const f64,
    n: usize,
    out: *mut u64,
    m: usize,
    _marks: *mut u8,
    _mark_count: usize,
    about: *mut [u64; 3],
) -> u32 {
    let arguments = [parameter, fineness_ratio, joint_angle_rad];
    let (machs, out) = (from_raw_parts(machs, n), from_raw_parts_mut(out, m));
    let (status, answer) = measured::curve(shape, arguments, machs, out);
    *about = answer;
    status
}

/// Cells alone.
unsafe fn lent<'a>(cells: *mut f64, cell_count: usize) -> Lent<'a> {
    Lent::measured(from_raw_parts_mut(cells, cell_count))
}

#[inline(never)]
pub unsafe extern "C" fn open(
    sheet: *mut SheetWords,
    cells: *mut f64,
    cell_count: usize,
    _marks: *mut u8,
    _mark_count: usize,
    bits: *mut u64,
) -> u32 {
    let (status, answer) = mirror::open(&mut *sheet, lent(cells, cell_count));
    *bits = answer;
    status
}

#[inline(never)]
pub unsafe extern "C" fn insert(
    sheet: *mut SheetWords,
    place: usize,
    part: *const PartWords,
    cells: *mut f64,
    cell_count: usize,
    _marks: *mut u8,
    _mark_count: usize,
    bits: *mut u64,
) -> u32 {
    let lent = lent(cells, cell_count);
    let (status, answer) = mirror::insert(&mut *sheet, place, &*part, lent);
    *bits = answer;
    status
}

#[inline(never)]
pub unsafe extern "C" fn replace(
    sheet: *mut SheetWords,
    place: usize,
    part: *const PartWords,
    cells: *mut f64,
    cell_count: usize,
    _marks: *mut u8,
    _mark_count: usize,
    bits: *mut u64,
) -> u32 {
    let lent = lent(cells, cell_count);
    let (status, answer) = mirror::replace(&mut *sheet, place, &*part, lent);
    *bits = answer;
    status
}

#[inline(never)]
pub unsafe extern "C" fn remove(
    sheet: *mut SheetWords,
    place: usize,
    cells: *mut f64,
    cell_count: usize,
    _marks: *mut u8,
    _mark_count: usize,
    bits: *mut u64,
) -> u32 {
    let lent = lent(cells, cell_count);
    let (status, answer) = mirror::remove(&mut *sheet, place, lent);
    *bits = answer;
    status
}

#[inline(never)]
pub unsafe extern "C" fn set_column(
    sheet: *mut SheetWords,
    column: usize,
    mach: f64,
    reynolds: f64,
    cells: *mut f64,
    cell_count: usize,
    _marks: *mut u8,
    _mark_count: usize,
    bits: *mut u64,
) -> u32 {
    let lent = lent(cells, cell_count);
    let (status, answer) = mirror::set_column(&mut *sheet, column, mach, reynolds, lent);
    *bits = answer;
    status
}

#[inline(never)]
pub unsafe extern "C" fn ignite(
    sheet: *mut SheetWords,
    nozzle_diameter: f64,
    cells: *mut f64,
    cell_count: usize,
    _marks: *mut u8,
    _mark_count: usize,
    bits: *mut u64,
) -> u32 {
    let lent = lent(cells, cell_count);
    let (status, answer) = mirror::ignite(&mut *sheet, nozzle_diameter, lent);
    *bits = answer;
    status
}

#[inline(never)]
pub unsafe extern "C" fn burnout(
    sheet: *mut SheetWords,
    cells: *mut f64,
    cell_count: usize,
    _marks: *mut u8,
    _mark_count: usize,
    bits: *mut u64,
) -> u32 {
    let (status, answer) = mirror::burnout(&mut *sheet, lent(cells, cell_count));
    *bits = answer;
    status
}

#[inline(never)]
pub unsafe extern "C" fn read_settings(
    bytes: *const u8,
    n: usize,
    at: usize,
    sheet: *mut SheetWords,
    next: *mut usize,
) -> u32 {
    let (status, end) = mirror::read_settings(from_raw_parts(bytes, n), at, &mut *sheet);
    *next = end;
    status
}

#[inline(never)]
pub unsafe extern "C" fn read_part(
    bytes: *const u8,
    n: usize,
    at: usize,
    part: *mut PartWords,
    next: *mut usize,
) -> u32 {
    let (status, end) = mirror::read_part(from_raw_parts(bytes, n), at, &mut *part);
    *next = end;
    status
}
