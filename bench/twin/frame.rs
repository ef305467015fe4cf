//! A grid inside a frame one cell wide, so that no inner loop asks where the grid ends.

/// A height in scaled units.
pub type Height = i64;

/// Stands for a cell without data, and for the frame. It is below all heights, and times a number of cells it fits.
pub const NODATA: Height = -(1 << 50);

/// Stands for a cell without data in a map of whole numbers.
pub const NO_NUMBER: i32 = i32::MIN;

/// A value of a map.
pub trait Value: Copy + PartialEq + Into<i64> + Sync {
    /// What stands for a cell without data.
    const NONE: Self;
}

impl Value for Height {
    const NONE: Self = NODATA;
}

impl Value for i32 {
    const NONE: Self = NO_NUMBER;
}

/// Cells of a grid in row order, with a frame round them.
pub struct Frame<T> {
    pub columns: usize,
    pub rows: usize,
    pub cells: Vec<T>,
}

impl<T: Copy> Frame<T> {
    /// A grid in which each cell, and the frame, has one value.
    pub fn new(columns: usize, rows: usize, value: T) -> Self {
        Frame {
            columns,
            rows,
            cells: vec![value; (columns + 2) * (rows + 2)],
        }
    }

    /// The cells of one row and of its frame together.
    pub fn width(&self) -> usize {
        self.columns + 2
    }

    /// The place of a cell in `cells`.
    pub fn place(&self, row: usize, column: usize) -> usize {
        (row + 1) * self.width() + column + 1
    }

    /// The cells of a row, without the frame.
    pub fn row(&self, row: usize) -> &[T] {
        let start = self.place(row, 0);
        &self.cells[start..start + self.columns]
    }

    /// The rows without the frame above and below; each has its frame at both ends.
    pub fn body_mut(&mut self) -> &mut [T] {
        let width = self.width();
        let end = self.cells.len() - width;
        &mut self.cells[width..end]
    }

    /// The places of all cells, in row order.
    pub fn places(&self) -> impl Iterator<Item = usize> {
        let (width, columns) = (self.width(), self.columns);
        (1..=self.rows).flat_map(move |row| row * width + 1..row * width + 1 + columns)
    }

    /// How far in `cells` each of the eight neighbours lies, in the order of the codes: E SE S SW W NW N NE.
    pub fn ways(&self) -> [isize; 8] {
        ways_of_width(self.width())
    }

    /// The grid of what a function makes of each cell, in a frame of one value.
    pub fn map<U: Copy>(&self, frame: U, make: impl Fn(T) -> U) -> Frame<U> {
        let mut made = Frame::new(self.columns, self.rows, frame);
        for place in self.places() {
            made.cells[place] = make(self.cells[place]);
        }
        made
    }
}

/// How far the eight neighbours lie in a list whose rows have this width, frame included.
pub fn ways_of_width(width: usize) -> [isize; 8] {
    let width = width as isize;
    [
        1,
        width + 1,
        width,
        width - 1,
        -1,
        -width - 1,
        -width,
        -width + 1,
    ]
}

/// The place that lies so far from another.
#[inline(always)]
pub fn beside(place: usize, way: isize) -> usize {
    place.wrapping_add_signed(way)
}
