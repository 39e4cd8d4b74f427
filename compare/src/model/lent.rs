//! What a host lends to the model of the sheet: a buffer of cells, and beside it one of marks.
//!
//! "Marks, bytes 0 or 1, lie cell for cell in a second lent buffer", each "written only when its cell
//! is". A part's mark says whether its cell rests on a table held past its last point; the watched
//! build of the original tells (`crate::watch`).

/// The buffers of one call.
pub struct Lent<'a> {
    pub cells: &'a mut [f64],
    /// None: no marks are asked for, and the build of the original that is not watched is asked. So
    /// it is measured.
    pub marks: Option<&'a mut [u8]>,
}

impl<'a> Lent<'a> {
    pub fn new(cells: &'a mut [f64], marks: &'a mut [u8]) -> Self {
        Self {
            cells,
            marks: Some(marks),
        }
    }

    /// Cells alone.
    pub fn measured(cells: &'a mut [f64]) -> Self {
        Self { cells, marks: None }
    }

    /// How many cells there are that have a mark.
    pub fn room(&self) -> usize {
        let marks = self.marks.as_ref().map_or(usize::MAX, |marks| marks.len());
        self.cells.len().min(marks)
    }

    /// Writes a mark.
    pub fn mark(&mut self, at: usize, beyond: bool) {
        if let Some(marks) = &mut self.marks {
            marks[at] = u8::from(beyond);
        }
    }
}

/// Cells and marks that somebody keeps, as many of either.
#[derive(Debug, Clone, PartialEq)]
pub struct Buffers {
    pub cells: Vec<f64>,
    pub marks: Vec<u8>,
}

impl Buffers {
    /// Cells of +0 and marks of 0.
    pub fn new(count: usize) -> Self {
        Self::of(count, 0.0, 0)
    }

    /// So many cells and marks that hold something.
    pub fn of(count: usize, cell: f64, mark: u8) -> Self {
        Self {
            cells: vec![cell; count],
            marks: vec![mark; count],
        }
    }

    /// All of them.
    pub fn lend(&mut self) -> Lent<'_> {
        Lent::new(&mut self.cells, &mut self.marks)
    }

    /// The first so many of either.
    pub fn lend_first(&mut self, cells: usize, marks: usize) -> Lent<'_> {
        Lent::new(&mut self.cells[..cells], &mut self.marks[..marks])
    }
}
