//! A stand-in for the crate `ndarray`: as much of `Array2` as pm-remez uses.

use std::ops::{Index, IndexMut};

/// A matrix, row after row. Both places of an index are checked.
#[derive(Debug, Clone, PartialEq)]
pub struct Array2<T> {
    rows: usize,
    columns: usize,
    entries: Vec<T>,
}

impl<T: Clone + num_traits::Zero> Array2<T> {
    /// The matrix of zeros with this many rows and columns.
    pub fn zeros((rows, columns): (usize, usize)) -> Self {
        Array2 {
            rows,
            columns,
            entries: vec![T::zero(); rows * columns],
        }
    }
}

impl<T> Array2<T> {
    /// The number of rows.
    pub fn nrows(&self) -> usize {
        self.rows
    }

    /// The number of columns.
    pub fn ncols(&self) -> usize {
        self.columns
    }

    fn place(&self, (row, column): (usize, usize)) -> usize {
        assert!(row < self.rows && column < self.columns);
        row * self.columns + column
    }
}

impl<T> Index<(usize, usize)> for Array2<T> {
    type Output = T;

    fn index(&self, at: (usize, usize)) -> &T {
        &self.entries[self.place(at)]
    }
}

impl<T> IndexMut<(usize, usize)> for Array2<T> {
    fn index_mut(&mut self, at: (usize, usize)) -> &mut T {
        let place = self.place(at);
        &mut self.entries[place]
    }
}
