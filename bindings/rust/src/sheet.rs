//! [`Sheet`]: a sheet that the desk built or accepted, with its bytes.

use crate::answer::Summary;
use crate::refusal::Refusal;
use crate::rows::{number, Row, Rows};
use crate::{calls, MAX_DEGREE, RECORD_LENGTH};
use std::fmt;

/// The sheet of one normal basis.
///
/// It holds only bytes that [`build`](crate::build) writes, so converting and
/// converting back returns the value (of an unreduced element, its remainder),
/// multiplying through the sheet is multiplication modulo f, and a quotient times
/// its divisor is the dividend.
///
/// ```
/// use sabrentuglio::Sheet;
///
/// let sheet = Sheet::build(11, 3)?;
/// assert_eq!(sheet.to_normal(6)?, 3);
/// assert_eq!(sheet.times(1, 2)?, 5);
/// assert_eq!(sheet.to_polynomial(5)?, 4);
/// assert_eq!(Sheet::read(sheet.as_bytes())?, sheet);
/// # Ok::<(), sabrentuglio::Refusal>(())
/// ```
#[derive(Clone, Debug, PartialEq, Eq, Hash)]
pub struct Sheet {
    bytes: Vec<u8>,
    summary: Summary,
}

impl Sheet {
    /// Builds the sheet of f and a normal element.
    ///
    /// Refuses 1, 4, 2, 3, 5.
    ///
    /// ```
    /// use sabrentuglio::{Reason, Sheet};
    ///
    /// assert_eq!(Sheet::build(7, 2)?.summary().complexity, 3);
    /// assert_eq!(Sheet::build(7, 1).unwrap_err().reason(), Some(Reason::NotNormal));
    /// assert_eq!(Sheet::build(7, 4).unwrap_err().reason(), Some(Reason::TooLarge));
    /// # Ok::<(), sabrentuglio::Refusal>(())
    /// ```
    pub fn build(f: u64, element: u64) -> Result<Sheet, Refusal> {
        let mut bytes = vec![0; RECORD_LENGTH * MAX_DEGREE];
        let summary = calls::build(f, element, &mut bytes)?;
        bytes.truncate(RECORD_LENGTH * summary.degree as usize);
        Ok(Sheet { bytes, summary })
    }

    /// Takes over the bytes of a sheet file, where the desk accepts them.
    ///
    /// Refuses 7, then 8 and 9 record by record, 2, 3, 5, 10.
    ///
    /// ```
    /// use sabrentuglio::{Reason, Sheet, RECORD_LENGTH};
    ///
    /// let bytes = Sheet::build(11, 3)?.into_bytes();
    /// assert!(Sheet::read(bytes.clone()).is_ok());
    ///
    /// let without_middle = [&bytes[..RECORD_LENGTH], &bytes[2 * RECORD_LENGTH..]].concat();
    /// let refusal = Sheet::read(without_middle).unwrap_err();
    /// assert_eq!((refusal.reason(), refusal.place), (Some(Reason::RecordHead), 0));
    /// # Ok::<(), sabrentuglio::Refusal>(())
    /// ```
    pub fn read(bytes: impl Into<Vec<u8>>) -> Result<Sheet, Refusal> {
        let bytes = bytes.into();
        let summary = calls::read(&bytes)?;
        Ok(Sheet { bytes, summary })
    }

    /// Degree, complexity and grade.
    pub fn summary(&self) -> Summary {
        self.summary
    }

    /// The sheet file, 32 bytes for each record.
    pub fn as_bytes(&self) -> &[u8] {
        &self.bytes
    }

    /// The sheet file, given away.
    pub fn into_bytes(self) -> Vec<u8> {
        self.bytes
    }

    /// The defining polynomial f.
    ///
    /// ```
    /// assert_eq!(sabrentuglio::Sheet::build(11, 3)?.polynomial(), 11);
    /// # Ok::<(), sabrentuglio::Refusal>(())
    /// ```
    pub fn polynomial(&self) -> u64 {
        1 << self.summary.degree | number(&self.bytes[2..8])
    }

    /// The normal element that the sheet was built from, its conjugate row 0.
    ///
    /// ```
    /// assert_eq!(sabrentuglio::Sheet::build(11, 3)?.element(), 3);
    /// # Ok::<(), sabrentuglio::Refusal>(())
    /// ```
    pub fn element(&self) -> u64 {
        number(&self.bytes[8..16])
    }

    /// The n rows, from row 0 on.
    ///
    /// ```
    /// let sheet = sabrentuglio::Sheet::build(11, 3)?;
    /// let conjugates: Vec<u64> = sheet.rows().map(|row| row.conjugate).collect();
    /// assert_eq!(conjugates, [3, 5, 7]);
    ///
    /// let ones: u32 = sheet.rows().map(|row| row.table.count_ones()).sum();
    /// assert_eq!(u64::from(ones), sheet.summary().complexity);
    /// # Ok::<(), sabrentuglio::Refusal>(())
    /// ```
    pub fn rows(&self) -> Rows<'_> {
        Rows::new(&self.bytes)
    }

    /// Row i; `None` where i is n or more.
    ///
    /// ```
    /// let sheet = sabrentuglio::Sheet::build(11, 3)?;
    /// assert_eq!(sheet.row(2).map(|row| row.table), Some(6));
    /// assert_eq!(sheet.row(3), None);
    /// # Ok::<(), sabrentuglio::Refusal>(())
    /// ```
    pub fn row(&self, i: usize) -> Option<Row> {
        self.rows().nth(i)
    }

    /// The element that normal coordinates stand for.
    ///
    /// Refuses 4.
    ///
    /// ```
    /// assert_eq!(sabrentuglio::Sheet::build(19, 8)?.to_polynomial(9)?, 8 ^ 10);
    /// # Ok::<(), sabrentuglio::Refusal>(())
    /// ```
    pub fn to_polynomial(&self, coordinates: u64) -> Result<u64, Refusal> {
        calls::to_polynomial(&self.bytes, coordinates)
    }

    /// The normal coordinates of an element, which may come unreduced: it stands
    /// for its remainder modulo f.
    ///
    /// Refuses nothing.
    ///
    /// ```
    /// let sheet = sabrentuglio::Sheet::build(19, 8)?;
    /// assert_eq!(sheet.to_normal(2)?, 9);
    /// // All 64 bits: modulo 19 this is 15.
    /// assert_eq!(sheet.to_polynomial(sheet.to_normal(u64::MAX)?)?, 15);
    /// # Ok::<(), sabrentuglio::Refusal>(())
    /// ```
    pub fn to_normal(&self, element: u64) -> Result<u64, Refusal> {
        calls::to_normal(&self.bytes, element)
    }

    /// The product of the normal coordinates a and b, in normal coordinates.
    ///
    /// Refuses 4.
    ///
    /// ```
    /// assert_eq!(sabrentuglio::Sheet::build(11, 3)?.times(1, 2)?, 5);
    /// # Ok::<(), sabrentuglio::Refusal>(())
    /// ```
    pub fn times(&self, a: u64, b: u64) -> Result<u64, Refusal> {
        calls::times(&self.bytes, a, b)
    }

    /// The inverse of the normal coordinates a, in normal coordinates.
    ///
    /// Refuses 4, 13.
    ///
    /// ```
    /// assert_eq!(sabrentuglio::Sheet::build(19, 8)?.inverse(3)?, 13);
    /// # Ok::<(), sabrentuglio::Refusal>(())
    /// ```
    pub fn inverse(&self, a: u64) -> Result<u64, Refusal> {
        calls::inverse(&self.bytes, a)
    }

    /// The dividend over the divisor, all in normal coordinates.
    ///
    /// Refuses 4, 13.
    ///
    /// ```
    /// assert_eq!(sabrentuglio::Sheet::build(11, 3)?.quotient(5, 2)?, 1);
    /// # Ok::<(), sabrentuglio::Refusal>(())
    /// ```
    pub fn quotient(&self, dividend: u64, divisor: u64) -> Result<u64, Refusal> {
        calls::quotient(&self.bytes, dividend, divisor)
    }
}

/// The listing, as the lister prints it; the last line is not ended, so that
/// `println!` ends it.
///
/// ```
/// let sheet = sabrentuglio::Sheet::build(11, 3)?;
/// let listing = "0 3 7 2\n1 5 6 5\n2 7 5 6\ncomplexity 5 grade 2";
/// assert_eq!(sheet.to_string(), listing);
/// # Ok::<(), sabrentuglio::Refusal>(())
/// ```
impl fmt::Display for Sheet {
    fn fmt(&self, out: &mut fmt::Formatter<'_>) -> fmt::Result {
        for (i, row) in self.rows().enumerate() {
            writeln!(out, "{} {} {} {}", i, row.conjugate, row.inverse, row.table)?;
        }
        let (complexity, grade) = (self.summary.complexity, self.summary.grade);
        write!(out, "complexity {} grade {}", complexity, grade)
    }
}

impl<'a> IntoIterator for &'a Sheet {
    type Item = Row;
    type IntoIter = Rows<'a>;

    fn into_iter(self) -> Rows<'a> {
        self.rows()
    }
}

/// As [`Sheet::read`]. Bytes that are refused are not copied.
impl TryFrom<&[u8]> for Sheet {
    type Error = Refusal;

    fn try_from(bytes: &[u8]) -> Result<Sheet, Refusal> {
        let summary = calls::read(bytes)?;
        let bytes = bytes.to_vec();
        Ok(Sheet { bytes, summary })
    }
}

/// As [`Sheet::read`].
///
/// ```
/// use sabrentuglio::Sheet;
///
/// let bytes = Sheet::build(11, 3)?.into_bytes();
/// let sheet = Sheet::try_from(bytes)?;
/// assert_eq!(sheet.element(), 3);
/// # Ok::<(), sabrentuglio::Refusal>(())
/// ```
impl TryFrom<Vec<u8>> for Sheet {
    type Error = Refusal;

    fn try_from(bytes: Vec<u8>) -> Result<Sheet, Refusal> {
        Sheet::read(bytes)
    }
}

impl AsRef<[u8]> for Sheet {
    fn as_ref(&self) -> &[u8] {
        &self.bytes
    }
}

#[cfg(test)]
mod tests {
    use super::*;

    /// The page whose section on the lister has the listing of 11 and 3.
    const PAGE: &str = include_str!("../../../docs/CALLS.md");

    #[test]
    fn the_listing_is_that_of_the_page() {
        let lister = PAGE.split("## The lister").nth(1).unwrap();
        let printed = format!("{}\n", Sheet::build(11, 3).unwrap());
        let indented: String = printed.lines().map(|l| format!("    {}\n", l)).collect();
        assert!(lister.contains(&format!("\n\n{}\n", indented)));
    }

    #[test]
    fn bytes_become_a_sheet_where_reading_accepts_them() {
        let sheet = Sheet::build(19, 8).unwrap();
        let mut bytes = sheet.as_bytes().to_vec();
        assert_eq!(Sheet::try_from(&bytes[..]), Ok(sheet.clone()));
        assert_eq!(Sheet::try_from(bytes.clone()), Ok(sheet));
        bytes[RECORD_LENGTH + 24] ^= 1;
        let refused = Err(Refusal {
            number: 10,
            place: 1,
        });
        assert_eq!(Sheet::try_from(&bytes[..]), refused);
        assert_eq!(Sheet::try_from(bytes), refused);
    }
}
