//! The declarations of include/cobalnis/raw.h, which tests/signatures.rs holds them to.

#![allow(missing_docs)] // the header has them

use super::{PartWords, SheetWords};

extern "C" {
    pub fn cobalnis_version() -> u32;
    pub fn cobalnis_layout() -> u32;
    pub fn cobalnis_formula_raw(
        which: u32,
        a: f64,
        b: f64,
        c: f64,
        d: f64,
        e: f64,
        bits: *mut u64,
    ) -> u32;
    pub fn cobalnis_check_dimension_raw(
        what: u32,
        value: f64,
        allow_zero: bool,
        bits: *mut u64,
    ) -> u32;
    pub fn cobalnis_takes_cone_formula_raw(shape: u64, parameter: f64, takes: *mut u64) -> u32;
    pub fn cobalnis_classify(bits: u64) -> u32;
    pub fn cobalnis_nose_point_raw(nose: u32, place: usize, out: *mut [u64; 2]) -> u32;
    pub fn cobalnis_nose_lookup_raw(nose: u32, mach: f64, out: *mut [u64; 4]) -> u32;
    pub fn cobalnis_nose_walk_raw(
        nose: u32,
        machs: *const f64,
        n: usize,
        values: *mut f64,
        m: usize,
        compared: *mut usize,
        bits: *mut u64,
    ) -> u32;
    pub fn cobalnis_curve_raw(
        shape: u64,
        parameter: f64,
        fineness_ratio: f64,
        joint_angle_rad: f64,
        machs: *const f64,
        n: usize,
        out: *mut u64,
        m: usize,
        marks: *mut u8,
        mark_count: usize,
        about: *mut [u64; 3],
    ) -> u32;
    pub fn cobalnis_open_raw(
        sheet: *mut SheetWords,
        cells: *mut f64,
        cell_count: usize,
        marks: *mut u8,
        mark_count: usize,
        bits: *mut u64,
    ) -> u32;
    pub fn cobalnis_insert_raw(
        sheet: *mut SheetWords,
        place: usize,
        part: *const PartWords,
        cells: *mut f64,
        cell_count: usize,
        marks: *mut u8,
        mark_count: usize,
        bits: *mut u64,
    ) -> u32;
    pub fn cobalnis_replace_raw(
        sheet: *mut SheetWords,
        place: usize,
        part: *const PartWords,
        cells: *mut f64,
        cell_count: usize,
        marks: *mut u8,
        mark_count: usize,
        bits: *mut u64,
    ) -> u32;
    pub fn cobalnis_remove_raw(
        sheet: *mut SheetWords,
        place: usize,
        cells: *mut f64,
        cell_count: usize,
        marks: *mut u8,
        mark_count: usize,
        bits: *mut u64,
    ) -> u32;
    pub fn cobalnis_set_column_raw(
        sheet: *mut SheetWords,
        column: usize,
        mach: f64,
        reynolds: f64,
        cells: *mut f64,
        cell_count: usize,
        marks: *mut u8,
        mark_count: usize,
        bits: *mut u64,
    ) -> u32;
    pub fn cobalnis_ignite_raw(
        sheet: *mut SheetWords,
        nozzle_diameter: f64,
        cells: *mut f64,
        cell_count: usize,
        marks: *mut u8,
        mark_count: usize,
        bits: *mut u64,
    ) -> u32;
    pub fn cobalnis_burnout_raw(
        sheet: *mut SheetWords,
        cells: *mut f64,
        cell_count: usize,
        marks: *mut u8,
        mark_count: usize,
        bits: *mut u64,
    ) -> u32;
    pub fn cobalnis_read_settings_raw(
        bytes: *const u8,
        n: usize,
        at: usize,
        sheet: *mut SheetWords,
        next: *mut usize,
    ) -> u32;
    pub fn cobalnis_read_part_raw(
        bytes: *const u8,
        n: usize,
        at: usize,
        part: *mut PartWords,
        next: *mut usize,
    ) -> u32;
    pub fn cobalnis_print(bytes: *const u8, n: usize, out: *mut u8, m: usize) -> usize;
}
