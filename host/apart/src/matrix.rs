//! Matrices of exact integers.

use crate::least_residue;

pub(crate) struct Matrix {
    columns: usize,
    entries: Vec<i128>,
}

impl Matrix {
    /// The matrix with these entries, row by row, in rows of `columns`, at
    /// least 1.
    pub(crate) fn new(columns: usize, entries: Vec<i128>) -> Matrix {
        Matrix { columns, entries }
    }

    pub(crate) fn entries(&self) -> impl Iterator<Item = i128> + '_ {
        self.entries.iter().copied()
    }

    /// The entry at row i, column j.
    pub(crate) fn entry(&self, i: u32, j: u32) -> i128 {
        self.entries[i as usize * self.columns + j as usize]
    }

    /// The row i.
    pub(crate) fn row(&self, i: u32) -> &[i128] {
        let start = i as usize * self.columns;
        &self.entries[start..start + self.columns]
    }

    pub(crate) fn rows(&self) -> impl Iterator<Item = &[i128]> {
        self.entries.chunks(self.columns)
    }

    /// The matrix times a vector, modulo p.
    pub(crate) fn times(&self, vector: &[i128]) -> Vec<i128> {
        self.rows().map(|row| product(row, vector)).collect()
    }
}

/// "For row i, column j let S be the exact integer sum over all k below m of
/// A(i,k)·B(k,j)." A has m columns, and B as many rows.
pub(crate) fn exact_sum(a: &Matrix, b: &Matrix, i: u32, j: u32) -> i128 {
    let m = a.columns as u32;
    (0..m).map(|k| a.entry(i, k) * b.entry(k, j)).sum()
}

/// A row times a vector, modulo p. The sum is exact until its end: with factors
/// below 2^32 and at most 64 products it stays below 2^70.
pub(crate) fn product(row: &[i128], vector: &[i128]) -> i128 {
    least_residue(row.iter().zip(vector).map(|(x, y)| x * y).sum())
}
