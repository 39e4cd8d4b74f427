//! One pass through the inputs for each of the sheet's calls, over buffers that it lends.

use cobalnis::words::{PartWords, SheetWords, FIRST_PART, PARTS_AT, PART_WORDS};
use compare::model::{rows, COLUMNS, PLACES};

pub type Edit = unsafe extern "C" fn(
    *mut SheetWords,
    usize,
    *const PartWords,
    *mut f64,
    usize,
    *mut u8,
    usize,
    *mut u64,
) -> u32;
pub type Open =
    unsafe extern "C" fn(*mut SheetWords, *mut f64, usize, *mut u8, usize, *mut u64) -> u32;
pub type Remove =
    unsafe extern "C" fn(*mut SheetWords, usize, *mut f64, usize, *mut u8, usize, *mut u64) -> u32;
pub type SetColumn = unsafe extern "C" fn(
    *mut SheetWords,
    usize,
    f64,
    f64,
    *mut f64,
    usize,
    *mut u8,
    usize,
    *mut u64,
) -> u32;

/// The cells of these sheets, with one finish.
pub const CELLS: usize = rows(1) * COLUMNS;

/// What a pass lends, as many cells as marks.
pub struct Lent {
    cells: Vec<f64>,
    marks: Vec<u8>,
}

impl Lent {
    pub fn new(count: usize) -> Self {
        Self {
            cells: vec![0.0; count],
            marks: vec![0; count],
        }
    }

    /// Cells, marks and how many there are.
    pub fn lend(&mut self) -> (*mut f64, *mut u8, usize) {
        let count = self.cells.len();
        (self.cells.as_mut_ptr(), self.marks.as_mut_ptr(), count)
    }

    /// The last column's total, in the last finish, and a part's cell stand for all cells. Marks are
    /// the port's alone.
    pub fn sum(&self) -> u64 {
        let count = self.cells.len();
        self.cells[count - 1].to_bits() ^ self.cells[count / 4].to_bits()
    }
}

/// Inserts into each sheet its last part, which writes all rows.
pub fn build_pass(f: Edit, count: usize, sheets: &[(SheetWords, PartWords)]) -> u64 {
    let mut lent = Lent::new(count);
    let mut sum = 0u64;
    for (sheet, part) in sheets {
        let mut words = *sheet;
        let last = words[PARTS_AT] as usize;
        accepted(f, &mut words, last, part, &mut lent);
        sum = sum.wrapping_add(lent.sum());
    }
    sum
}

/// One call that puts a part at a place, and is accepted.
fn accepted(f: Edit, words: &mut SheetWords, place: usize, part: &PartWords, lent: &mut Lent) {
    let mut bits = 0;
    let (cells, marks, n) = lent.lend();
    // SAFETY: all are borrowed apart, and cells and marks are as many as is said.
    let status = unsafe { f(words, place, part, cells, n, marks, n, &mut bits) };
    assert_eq!(status, 0);
}

/// Opens each sheet and inserts all of its parts: what a host without replace would do.
pub fn rebuild_pass(open: Open, insert: Edit, sheets: &[SheetWords]) -> u64 {
    let mut lent = Lent::new(CELLS);
    let mut sum = 0u64;
    for sheet in sheets {
        let (mut words, mut bits) = (*sheet, 0);
        let (cells, marks, n) = lent.lend();
        // SAFETY: all are our own and apart.
        let status = unsafe { open(&mut words, cells, n, marks, n, &mut bits) };
        assert_eq!(status, 0);
        let (parts, rest) = sheet[FIRST_PART..].as_chunks::<PART_WORDS>();
        assert!(rest.is_empty());
        for (place, part) in parts.iter().enumerate() {
            accepted(insert, &mut words, place, part, &mut lent);
        }
        sum = sum.wrapping_add(lent.sum());
    }
    sum
}

/// Replaces part after part in one full sheet.
pub fn replace_pass(
    f: Edit,
    count: usize,
    sheet: &SheetWords,
    parts: &[(usize, PartWords)],
) -> u64 {
    let mut lent = Lent::new(count);
    let (mut words, mut sum) = (*sheet, 0u64);
    for (place, part) in parts {
        accepted(f, &mut words, *place, part, &mut lent);
        sum = sum.wrapping_add(lent.sum());
    }
    sum
}

/// Removes a part from each full sheet.
pub fn remove_pass(f: Remove, sheets: &[(SheetWords, PartWords)]) -> u64 {
    let mut lent = Lent::new(CELLS);
    let mut sum = 0u64;
    for (at, (sheet, _)) in sheets.iter().enumerate() {
        let (mut words, mut bits) = (*sheet, 0);
        words[PARTS_AT] = PLACES as u64;
        let (cells, marks, n) = lent.lend();
        // SAFETY: all are our own and apart.
        let status = unsafe { f(&mut words, at % PLACES, cells, n, marks, n, &mut bits) };
        assert_eq!(status, 0);
        sum = sum.wrapping_add(lent.sum());
    }
    sum
}

/// Sets column after column in one full sheet.
pub fn column_pass(
    f: SetColumn,
    count: usize,
    sheet: &SheetWords,
    columns: &[(usize, f64, f64)],
) -> u64 {
    let mut lent = Lent::new(count);
    let (mut words, mut bits, mut sum) = (*sheet, 0, 0u64);
    for &(column, mach, reynolds) in columns {
        let (cells, marks, n) = lent.lend();
        // SAFETY: all are our own and apart.
        let status = unsafe {
            f(
                &mut words, column, mach, reynolds, cells, n, marks, n, &mut bits,
            )
        };
        assert_eq!(status, 0);
        sum = sum.wrapping_add(lent.sum());
    }
    sum
}
