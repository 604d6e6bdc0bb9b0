// The chart by rows. Along a row the points' numbers stand at equal distances, so the codec is asked for the first two
// of each row and for its length, and a point costs a sum and two fetches.
use crate::{Grid, Place};

/// The rows of a chart, from north; of a Lambert or polar grid from the greatest y.
#[derive(Clone, Debug)]
pub struct Rows<'b> {
    grid: Grid,
    values: &'b [u32],
    marks: &'b [u8],
    row: u32,
}

impl<'b> Rows<'b> {
    pub(crate) fn new(grid: &Grid, values: &'b [u32], marks: &'b [u8]) -> Rows<'b> {
        Rows { grid: *grid, values, marks, row: 0 }
    }
}

impl<'b> Iterator for Rows<'b> {
    type Item = Row<'b>;

    fn next(&mut self) -> Option<Row<'b>> {
        let at = self.grid.point(Place { row: self.row, column: 0 })? as usize;
        let second = self.grid.point(Place { row: self.row, column: 1 }).map_or(at, |k| k as usize);
        let left = self.grid.row_len(self.row) as usize;
        self.row += 1;
        Some(Row { values: self.values, marks: self.marks, at, step: second.wrapping_sub(at), left })
    }

    fn size_hint(&self) -> (usize, Option<usize>) {
        let left = self.grid.nj as usize - self.row as usize;
        (left, Some(left))
    }
}

impl ExactSizeIterator for Rows<'_> {}

/// A row of a chart, from west, of a Lambert or polar grid from the least x: X, or None where the point is absent.
#[derive(Clone, Debug)]
pub struct Row<'b> {
    values: &'b [u32],
    marks: &'b [u8],
    at: usize,
    step: usize,
    left: usize,
}

impl Iterator for Row<'_> {
    type Item = Option<u32>;

    fn next(&mut self) -> Option<Option<u32>> {
        if self.left == 0 {
            return None;
        }
        let k = self.at;
        self.at = k.wrapping_add(self.step);
        self.left -= 1;
        Some((self.marks[k] == 1).then_some(self.values[k]))
    }

    fn size_hint(&self) -> (usize, Option<usize>) {
        (self.left, Some(self.left))
    }
}

impl ExactSizeIterator for Row<'_> {}
