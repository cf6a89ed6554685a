//! The sheet file and its calls on single values: [`build`], [`read`],
//! [`to_polynomial`], [`to_normal`], [`times`] (document 01, "Sheet file").
//!
//! [`Rows`] is what a sheet says once 7, 8 and 9 are past. Converting and
//! multiplying use it as it stands; only reading rebuilds. Converting from
//! polynomials takes any 64-bit number and answers for its remainder modulo the
//! sheet's f (document 02, §6), whatever that f is.

use crate::accepted::{field_degree, refuse_unaccepted};
use crate::answers::{refuse_if, Issued, Refusal, Value};
use crate::basis::{complexity, grade, product_of_coordinates, sum_of_picked, Basis};
use crate::field::refuse_large;
use crate::polynomial::remainder;
use crate::{MAX_DEGREE, RECORD_LENGTH};

/// A sheet that passed the conditions 7, 8 and 9.
pub struct Rows {
    /// The record count.
    pub degree: u32,
    /// The defining polynomial, its term x^n put back.
    pub f: u64,
    /// The three rows of each record.
    pub basis: Basis,
}

/// A number in little-endian order, of at most 8 bytes.
fn number(bytes: &[u8]) -> u64 {
    bytes
        .iter()
        .rev()
        .fold(0, |sum, byte| sum << 8 | u64::from(*byte))
}

impl Rows {
    /// Takes a sheet apart: 7, then records from 0 upward with 8 before 9 in
    /// each.
    pub fn new(sheet: &[u8]) -> Result<Rows, Refusal> {
        let n = sheet.len() / RECORD_LENGTH;
        let counts = 2..=MAX_DEGREE as usize;
        refuse_if(sheet.len() % RECORD_LENGTH != 0 || !counts.contains(&n), 7)?;
        let mut basis = Basis {
            conjugates: Vec::new(),
            inverses: Vec::new(),
            table: Vec::new(),
        };
        let tail = &sheet[2..8];
        for (i, record) in sheet.chunks(RECORD_LENGTH).enumerate() {
            let head_fits =
                usize::from(record[0]) == n && usize::from(record[1]) == i && &record[2..8] == tail;
            if !head_fits {
                return Err(Refusal::at(8, i));
            }
            let [conjugate, inverse, table] = three_rows(record);
            let numbers = [number(tail), conjugate, inverse, table];
            if numbers.iter().any(|number| *number >= 1 << n) {
                return Err(Refusal::at(9, i));
            }
            basis.conjugates.push(conjugate);
            basis.inverses.push(inverse);
            basis.table.push(table);
        }
        Ok(Rows {
            degree: n as u32,
            f: (1 << n) + number(tail),
            basis,
        })
    }

    /// The sum of the inverse rows that the bits of the remainder pick.
    pub(crate) fn coordinates_of(&self, word: u64) -> u64 {
        sum_of_picked(&self.basis.inverses, remainder(word, self.f))
    }
}

/// Conjugate, inverse and table row of a record.
fn three_rows(record: &[u8]) -> [u64; 3] {
    [
        number(&record[8..16]),
        number(&record[16..24]),
        number(&record[24..32]),
    ]
}

/// Document 01's bytes of a basis.
fn sheet_of(f: u64, basis: &Basis) -> Vec<u8> {
    let n = basis.conjugates.len();
    let tail = f ^ 1 << n;
    let mut sheet = Vec::new();
    for i in 0..n {
        sheet.push(n as u8);
        sheet.push(i as u8);
        sheet.extend_from_slice(&tail.to_le_bytes()[..6]);
        sheet.extend_from_slice(&basis.conjugates[i].to_le_bytes());
        sheet.extend_from_slice(&basis.inverses[i].to_le_bytes());
        sheet.extend_from_slice(&basis.table[i].to_le_bytes());
    }
    sheet
}

/// What building and reading answer of a basis: its element is c_0.
pub(crate) fn issued(f: u64, basis: &Basis) -> Issued {
    let complexity = complexity(&basis.table);
    Issued {
        degree: basis.table.len() as u64,
        complexity,
        grade: grade(f, basis.conjugates[0], complexity),
        ..Issued::default()
    }
}

/// Writes the sheet of f and the element into the first 32n bytes of the
/// buffer: 1, 4, 6, 2, 3, 5.
pub fn build(f: u64, element: u64, buffer: &mut [u8]) -> Issued {
    let basis = basis_to_write(f, element, buffer.len());
    if let Ok(basis) = &basis {
        let sheet = sheet_of(f, basis);
        buffer[..sheet.len()].copy_from_slice(&sheet);
    }
    basis.map(|basis| issued(f, &basis)).into()
}

fn basis_to_write(f: u64, element: u64, room: usize) -> Result<Basis, Refusal> {
    let n = field_degree(f)?;
    refuse_large(n, &[element])?;
    refuse_if(room < RECORD_LENGTH * n as usize, 6)?;
    refuse_unaccepted(f)?;
    Basis::new(f, element).ok_or_else(|| Refusal::new(5))
}

/// Reads a sheet: 7, 8 and 9, then 2, 3, 5, then 10.
pub fn read(sheet: &[u8]) -> Issued {
    compared(sheet).into()
}

/// What reading answers, or why it refuses.
pub(crate) fn compared(sheet: &[u8]) -> Result<Issued, Refusal> {
    let rows = Rows::new(sheet)?;
    refuse_unaccepted(rows.f)?;
    let basis = Basis::new(rows.f, rows.basis.conjugates[0]).ok_or_else(|| Refusal::new(5))?;
    let right = sheet_of(rows.f, &basis);
    let record = |i: usize| RECORD_LENGTH * i..RECORD_LENGTH * (i + 1);
    let differs = |i: &usize| sheet[record(*i)] != right[record(*i)];
    match (0..rows.degree as usize).find(differs) {
        Some(record) => Err(Refusal::at(10, record)),
        None => Ok(issued(rows.f, &basis)),
    }
}

/// A sheet and operands: 7, 8 and 9, then 4.
pub(crate) fn opened(sheet: &[u8], operands: &[u64]) -> Result<Rows, Refusal> {
    let rows = Rows::new(sheet)?;
    refuse_large(rows.degree, operands)?;
    Ok(rows)
}

/// The sum of the conjugate rows that the coordinates pick: 7, 8 and 9, then 4.
pub fn to_polynomial(sheet: &[u8], coordinates: u64) -> Value {
    opened(sheet, &[coordinates])
        .map(|rows| sum_of_picked(&rows.basis.conjugates, coordinates))
        .into()
}

/// The normal coordinates of an element, which may come unreduced: 7, 8 and 9.
pub fn to_normal(sheet: &[u8], element: u64) -> Value {
    Rows::new(sheet)
        .map(|rows| rows.coordinates_of(element))
        .into()
}

/// The product of normal coordinates by the table rows: 7, 8 and 9, then 4.
pub fn times(sheet: &[u8], a: u64, b: u64) -> Value {
    opened(sheet, &[a, b])
        .map(|rows| product_of_coordinates(&rows.basis.table, a, b))
        .into()
}

#[cfg(test)]
pub(crate) mod tests {
    use super::*;

    /// The sheet of f and a normal element.
    pub(crate) fn sheet(f: u64, element: u64) -> Vec<u8> {
        let mut buffer = vec![0; RECORD_LENGTH * MAX_DEGREE as usize];
        let answer = build(f, element, &mut buffer);
        assert_eq!(answer.number, 0);
        buffer.truncate(RECORD_LENGTH * answer.degree as usize);
        buffer
    }

    fn answer(degree: u64, complexity: u64, grade: u64) -> Issued {
        Issued {
            degree,
            complexity,
            grade,
            ..Issued::default()
        }
    }

    fn refused(number: u64, place: u64) -> Issued {
        Err(Refusal { number, place }).into()
    }

    #[test]
    fn builds() {
        let mut buffer = [9; 200];
        assert_eq!(build(7, 2, &mut buffer), answer(2, 3, 3));
        let mut second = vec![2, 1, 3, 0, 0, 0, 0, 0];
        for row in [3u64, 1, 3] {
            second.extend_from_slice(&row.to_le_bytes());
        }
        assert_eq!(buffer[RECORD_LENGTH..2 * RECORD_LENGTH], second);
        assert!(buffer[2 * RECORD_LENGTH..].iter().all(|byte| *byte == 9));
        assert_eq!(build(11, 3, &mut buffer), answer(3, 5, 2));
        assert_eq!(build(19, 8, &mut buffer), answer(4, 7, 1));
        assert_eq!(build(19, 9, &mut buffer), answer(4, 9, 0));
    }

    #[test]
    fn refuses_to_build() {
        let mut buffer = [9; 200];
        assert_eq!(build(7, 1, &mut buffer), refused(5, 0));
        assert_eq!(build(7, 0, &mut buffer), refused(5, 0));
        assert_eq!(build(7, 4, &mut buffer), refused(4, 0));
        assert_eq!(build(11, 2, &mut buffer), refused(5, 0));
        assert_eq!(build(5, 1, &mut buffer), refused(2, 0));
        assert_eq!(build(3, 8, &mut buffer), refused(1, 0));
        let short = &mut buffer[..2 * RECORD_LENGTH - 1];
        assert_eq!(build(5, 1, short), refused(6, 0));
        assert_eq!(build(5, 4, &mut []), refused(4, 0));
        assert!(buffer.iter().all(|byte| *byte == 9));
    }

    #[test]
    fn reads() {
        let good = sheet(11, 3);
        assert_eq!(read(&good), answer(3, 5, 2));
        assert_eq!(read(&sheet(7, 2)[RECORD_LENGTH..]), refused(7, 0));
        let (first, last) = (&good[..RECORD_LENGTH], &good[2 * RECORD_LENGTH..]);
        assert_eq!(read(&[first, last].concat()), refused(8, 0));
        let mut bad = good.clone();
        bad[2 * RECORD_LENGTH + 24] ^= 1;
        bad[RECORD_LENGTH + 16] ^= 1;
        assert_eq!(read(&bad), refused(10, 1));
        bad[RECORD_LENGTH + 10] = 1;
        bad[2 * RECORD_LENGTH] = 4;
        assert_eq!(read(&bad), refused(9, 1));
        bad[RECORD_LENGTH + 1] = 0;
        assert_eq!(read(&bad), refused(8, 1));
        let mut bad = good.clone();
        bad[8] = 2;
        assert_eq!(read(&bad), refused(5, 0));
    }

    #[test]
    fn a_large_f_is_9_in_record_0_and_8_later() {
        let good = sheet(11, 3);
        let mut bad = good.clone();
        bad[7] = 1;
        assert_eq!(read(&bad), refused(9, 0));
        let mut bad = good;
        bad[2 * RECORD_LENGTH + 7] = 1;
        assert_eq!(read(&bad), refused(8, 2));
    }

    #[test]
    fn converts_and_multiplies() {
        let sheet = sheet(11, 3);
        assert_eq!(to_normal(&sheet, 6).value, 3);
        assert_eq!(times(&sheet, 1, 2).value, 5);
        assert_eq!(to_polynomial(&sheet, 5).value, 4);
        assert_eq!(times(&sheet, 1, 8).number, 4);
        assert_eq!(to_normal(&sheet, 11 ^ 6), to_normal(&sheet, 6));
        assert_eq!(to_polynomial(&sheet, 8).number, 4);
        assert_eq!(to_polynomial(&sheet[1..], 8).number, 7);
    }

    #[test]
    fn a_product_through_the_sheet_is_the_product() {
        for (f, element) in [(11, 3), (19, 8), (19, 9)] {
            let sheet = sheet(f, element);
            let n = sheet.len() / RECORD_LENGTH;
            for a in 0..1 << n {
                assert_eq!(to_polynomial(&sheet, to_normal(&sheet, a).value).value, a);
                for b in 0..1 << n {
                    let (v, w) = (to_normal(&sheet, a).value, to_normal(&sheet, b).value);
                    let made = to_polynomial(&sheet, times(&sheet, v, w).value);
                    assert_eq!(made, crate::multiply(f, a, b));
                }
            }
        }
    }
}
