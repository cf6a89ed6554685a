//! [`Row`], one row of a sheet, and [`Rows`], all of them in order.

use crate::RECORD_LENGTH;
use std::iter::FusedIterator;
use std::slice::ChunksExact;

/// Row i of a sheet: what record i says of the basis.
#[derive(Clone, Copy, Debug, PartialEq, Eq, Hash)]
pub struct Row {
    /// Conjugate i of the element: the element squared i times.
    pub conjugate: u64,
    /// The normal coordinates of x^i.
    pub inverse: u64,
    /// The normal coordinates of conjugate 0 times conjugate i; bit j is
    /// t(i,j).
    pub table: u64,
}

impl Row {
    /// The row that a record holds.
    fn of(record: &[u8]) -> Row {
        Row {
            conjugate: number(&record[8..16]),
            inverse: number(&record[16..24]),
            table: number(&record[24..32]),
        }
    }
}

/// The little-endian number that up to eight bytes hold.
pub(crate) fn number(bytes: &[u8]) -> u64 {
    let mut whole = [0; 8];
    whole[..bytes.len()].copy_from_slice(bytes);
    u64::from_le_bytes(whole)
}

/// The rows of a sheet, from row 0 to row n-1; made by
/// [`Sheet::rows`](crate::Sheet::rows).
#[derive(Clone, Debug)]
pub struct Rows<'a> {
    records: ChunksExact<'a, u8>,
}

impl<'a> Rows<'a> {
    pub(crate) fn new(sheet: &'a [u8]) -> Rows<'a> {
        Rows {
            records: sheet.chunks_exact(RECORD_LENGTH),
        }
    }
}

impl Iterator for Rows<'_> {
    type Item = Row;

    fn next(&mut self) -> Option<Row> {
        self.records.next().map(Row::of)
    }

    fn size_hint(&self) -> (usize, Option<usize>) {
        self.records.size_hint()
    }

    // Both skip rows without reading them.
    fn nth(&mut self, skipped: usize) -> Option<Row> {
        self.records.nth(skipped).map(Row::of)
    }
}

impl DoubleEndedIterator for Rows<'_> {
    fn next_back(&mut self) -> Option<Row> {
        self.records.next_back().map(Row::of)
    }

    fn nth_back(&mut self, skipped: usize) -> Option<Row> {
        self.records.nth_back(skipped).map(Row::of)
    }
}

impl ExactSizeIterator for Rows<'_> {}

impl FusedIterator for Rows<'_> {}

#[cfg(test)]
mod tests {
    use super::*;
    use crate::Sheet;

    /// Document 01's small numbers for f = 19 and the element 8.
    const ROWS: [(u64, u64, u64); 4] = [(8, 15, 2), (12, 9, 8), (15, 3, 15), (10, 1, 4)];

    fn numbers(row: Row) -> (u64, u64, u64) {
        (row.conjugate, row.inverse, row.table)
    }

    #[test]
    fn rows_are_those_of_the_small_numbers() {
        let sheet = Sheet::build(19, 8).unwrap();
        let rows: Vec<_> = sheet.rows().map(numbers).collect();
        assert_eq!(rows, ROWS);
        for (i, row) in ROWS.iter().enumerate() {
            assert_eq!(sheet.row(i).map(numbers), Some(*row));
        }
        assert_eq!(sheet.row(4), None);
        assert_eq!(sheet.row(usize::MAX), None);
    }

    #[test]
    fn rows_are_taken_from_both_ends() {
        let sheet = Sheet::build(19, 8).unwrap();
        let mut rows = sheet.rows();
        assert_eq!(rows.next_back().map(numbers), Some(ROWS[3]));
        assert_eq!(rows.next().map(numbers), Some(ROWS[0]));
        assert_eq!(rows.len(), 2);
        assert_eq!(rows.nth_back(1).map(numbers), Some(ROWS[1]));
        assert_eq!((rows.next(), rows.next_back()), (None, None));
    }

    #[test]
    fn a_row_has_every_byte_of_its_record() {
        let sheet = Sheet::build(1 << 46 | 3, 1 << 45).unwrap();
        assert_eq!(sheet.rows().len(), 46);
        for (row, record) in sheet.rows().zip(sheet.as_bytes().chunks(RECORD_LENGTH)) {
            let numbers = [row.conjugate, row.inverse, row.table];
            let bytes: Vec<u8> = numbers.iter().flat_map(|v| v.to_le_bytes()).collect();
            assert_eq!(bytes, record[8..]);
        }
    }
}
