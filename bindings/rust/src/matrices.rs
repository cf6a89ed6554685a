//! The text of all matrices: its size, the calls [`write_matrices`] and
//! [`read_matrices`], and the text of a [`Sheet`].

use crate::answer::Summary;
use crate::raw;
use crate::refusal::Refusal;
use crate::sheet::Sheet;

/// The bytes of the text of all matrices at degree n, 2 to 46: n(n(n+1)+1).
///
/// ```
/// use sabrentuglio::{matrices_size, MAX_DEGREE};
///
/// assert_eq!(matrices_size(2), 14);
/// // Enough for every sheet:
/// assert_eq!(matrices_size(MAX_DEGREE), 99_498);
/// ```
pub const fn matrices_size(degree: usize) -> usize {
    degree * (degree * (degree + 1) + 1)
}

/// Writes the text of all n matrices T_k of a sheet into the first n(n(n+1)+1)
/// bytes of `text`, and leaves the others. [`Sheet::matrices`] brings its own
/// buffer.
///
/// Entry (i,j) of T_k is bit k of the normal coordinates of c_i times c_j. Each
/// row is a line of n digits, j upward, ended by byte 10. The matrices stand in
/// order of k, with an empty line after each. The ones in the text number n
/// times the complexity.
///
/// Refuses 7, then 8 and 9 record by record, 2, 3, 5, 10, 6.
///
/// ```
/// use sabrentuglio::{build, matrices_size, write_matrices, Reason, RECORD_LENGTH};
///
/// let mut sheet = [0; 2 * RECORD_LENGTH];
/// let summary = build(7, 2, &mut sheet)?;
/// let mut text = [b'.'; matrices_size(2) + 3];
/// assert_eq!(write_matrices(&sheet, &mut text)?, summary);
/// assert_eq!(&text, b"01\n11\n\n11\n10\n\n...");
///
/// let refusal = write_matrices(&sheet, &mut text[..13]).unwrap_err();
/// assert_eq!(refusal.reason(), Some(Reason::BufferLength));
/// # Ok::<(), sabrentuglio::Refusal>(())
/// ```
pub fn write_matrices(sheet: &[u8], text: &mut [u8]) -> Result<Summary, Refusal> {
    raw::write_matrices(sheet, text).into()
}

/// Reads the text of all matrices for f and an element: done exactly if
/// [`write_matrices`] writes these bytes on the sheet of f and the element. Any
/// bytes of any length are a legal text.
///
/// Refuses 1, 4, 2, 3, 5, 14; the place of 14 is the first wrong, missing or
/// extra line, counted from 0.
///
/// ```
/// use sabrentuglio::{read_matrices, Reason};
///
/// let summary = read_matrices(7, 2, b"01\n11\n\n11\n10\n\n")?;
/// assert_eq!((summary.degree, summary.complexity), (2, 3));
///
/// // The empty line after the first matrix is line 2.
/// let refusal = read_matrices(7, 2, b"01\n11\n11\n10\n\n").unwrap_err();
/// assert_eq!((refusal.reason(), refusal.place), (Some(Reason::TextDiffers), 2));
/// # Ok::<(), sabrentuglio::Refusal>(())
/// ```
pub fn read_matrices(f: u64, element: u64, text: &[u8]) -> Result<Summary, Refusal> {
    raw::read_matrices(f, element, text).into()
}

impl Sheet {
    /// The text of all n matrices T_k, as [`write_matrices`] writes it.
    ///
    /// ```
    /// use sabrentuglio::{read_matrices, Sheet};
    ///
    /// let sheet = Sheet::build(7, 2)?;
    /// let text = sheet.matrices();
    /// assert_eq!(text, "01\n11\n\n11\n10\n\n");
    /// assert_eq!(read_matrices(7, 2, text.as_bytes())?, sheet.summary());
    ///
    /// let (n, ones) = (sheet.summary().degree, text.matches('1').count() as u64);
    /// assert_eq!(ones, n * sheet.summary().complexity);
    /// # Ok::<(), sabrentuglio::Refusal>(())
    /// ```
    pub fn matrices(&self) -> String {
        let mut text = vec![0; matrices_size(self.summary().degree as usize)];
        // A sheet holds bytes that reading accepts, and the text has its room.
        write_matrices(self.as_bytes(), &mut text).expect("nothing is left to refuse");
        String::from_utf8(text).expect("a text has digits and line ends alone")
    }
}

#[cfg(test)]
mod tests {
    use super::*;
    use crate::{MAX_DEGREE, RECORD_LENGTH};

    #[test]
    fn the_text_of_a_small_sheet() {
        let text = "010\n101\n011\n\n101\n001\n110\n\n011\n110\n100\n\n";
        assert_eq!(Sheet::build(11, 3).unwrap().matrices(), text);
    }

    #[test]
    fn the_text_of_the_largest_sheet() {
        let sheet = Sheet::build(1 << 46 | 3, 1 << 45).unwrap();
        let text = sheet.matrices();
        assert_eq!(text.len(), matrices_size(MAX_DEGREE));
        assert_eq!(text.lines().count(), MAX_DEGREE * (MAX_DEGREE + 1));
        let ones = text.matches('1').count() as u64;
        assert_eq!(ones, 46 * sheet.summary().complexity);
        let read = |text: &str| read_matrices(1 << 46 | 3, 1 << 45, text.as_bytes());
        assert_eq!(read(&text), Ok(sheet.summary()));
        let place = MAX_DEGREE * (MAX_DEGREE + 1) - 1;
        let refused = Err(Refusal { number: 14, place });
        assert_eq!(read(&text[..text.len() - 1]), refused);
    }

    #[test]
    fn a_refused_text_stays() {
        let mut bytes = Sheet::build(11, 3).unwrap().into_bytes();
        let mut text = [9; matrices_size(3)];
        let refused = |number, place| Err(Refusal { number, place });
        assert_eq!(write_matrices(&bytes, &mut text[1..]), refused(6, 0));
        bytes[2 * RECORD_LENGTH + 24] ^= 1;
        assert_eq!(write_matrices(&bytes, &mut text), refused(10, 2));
        assert_eq!(text, [9; matrices_size(3)]);
    }
}
