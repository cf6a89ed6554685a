//! The calls one to one, with results; buffers and lists are lent. The two on
//! the text of all matrices are in `matrices`, the one that names the cause of a
//! refusal is in `why`.
//!
//! Each names its refusals in the order in which they are tested.

use crate::answer::{Best, Summary};
use crate::raw;
use crate::refusal::Refusal;

/// Checks a defining polynomial: done where f is accepted, that is of degree 2
/// to 46 and without a divisor of degree 1 to n-1.
///
/// Refuses 1, 2, 3.
///
/// ```
/// use sabrentuglio::{check, Reason};
///
/// assert!(check(19).is_ok());
/// assert_eq!(check(3).unwrap_err().reason(), Some(Reason::Degree));
/// assert_eq!(check(5).unwrap_err().reason(), Some(Reason::Divisor));
/// ```
pub fn check(f: u64) -> Result<(), Refusal> {
    Result::from(raw::check(f)).map(|_| ())
}

/// a times b modulo f, for any f of degree 2 to 46, accepted or not. Operands
/// may come unreduced: each stands for its remainder modulo f.
///
/// Refuses 1.
///
/// ```
/// use sabrentuglio::multiply;
///
/// assert_eq!(multiply(19, 8, 12)?, 10);
/// // Modulo 19 the words 27, which is 19 + 8, and 2^63 are both 8.
/// assert_eq!(multiply(19, 27, 12)?, 10);
/// assert_eq!(multiply(19, 1 << 63, 12)?, 10);
/// assert_eq!(multiply(19, 27, u64::MAX)?, multiply(19, 8, 15)?);
/// # Ok::<(), sabrentuglio::Refusal>(())
/// ```
pub fn multiply(f: u64, a: u64, b: u64) -> Result<u64, Refusal> {
    raw::multiply(f, a, b).into()
}

/// a times a modulo f, for any f of degree 2 to 46, accepted or not. The operand
/// may come unreduced: it stands for its remainder modulo f.
///
/// Refuses 1.
///
/// ```
/// assert_eq!(sabrentuglio::square(19, 8)?, 12);
/// assert_eq!(sabrentuglio::square(19, 27)?, 12);
/// # Ok::<(), sabrentuglio::Refusal>(())
/// ```
pub fn square(f: u64, a: u64) -> Result<u64, Refusal> {
    raw::square(f, a).into()
}

/// The trace, the sum of the n conjugates of a: 0 or 1. The operand may come
/// unreduced: it stands for its remainder modulo f.
///
/// Refuses 1, 2, 3.
///
/// ```
/// assert_eq!(sabrentuglio::trace(19, 8)?, 1);
/// assert_eq!(sabrentuglio::trace(19, 27)?, 1);
/// # Ok::<(), sabrentuglio::Refusal>(())
/// ```
pub fn trace(f: u64, a: u64) -> Result<u64, Refusal> {
    raw::trace(f, a).into()
}

/// Writes the sheet of f and a normal element into the first 32n bytes of the
/// buffer, and leaves the others. [`Sheet::build`](crate::Sheet::build) brings
/// its own buffer.
///
/// Refuses 1, 4, 6, 2, 3, 5.
///
/// ```
/// use sabrentuglio::{build, RECORD_LENGTH};
///
/// let mut buffer = [9; 3 * RECORD_LENGTH];
/// let summary = build(7, 2, &mut buffer)?;
/// assert_eq!((summary.degree, summary.complexity), (2, 3));
/// assert_eq!(buffer[RECORD_LENGTH..][..8], [2, 1, 3, 0, 0, 0, 0, 0]);
/// assert_eq!(buffer[2 * RECORD_LENGTH..], [9; RECORD_LENGTH]);
/// # Ok::<(), sabrentuglio::Refusal>(())
/// ```
pub fn build(f: u64, element: u64, buffer: &mut [u8]) -> Result<Summary, Refusal> {
    raw::build(f, element, buffer).into()
}

/// Reads a sheet: done exactly where [`build`] writes these bytes.
/// [`why`](fn@crate::why) has the cause of a refusal.
///
/// Refuses 7, then 8 and 9 record by record, 2, 3, 5, 10.
///
/// ```
/// use sabrentuglio::{build, read, Reason, RECORD_LENGTH};
///
/// let mut sheet = [0; 3 * RECORD_LENGTH];
/// let summary = build(11, 3, &mut sheet)?;
/// assert_eq!(read(&sheet)?, summary);
///
/// sheet[2 * RECORD_LENGTH + 24] ^= 1;
/// let refusal = read(&sheet).unwrap_err();
/// assert_eq!((refusal.reason(), refusal.place), (Some(Reason::RecordDiffers), 2));
/// # Ok::<(), sabrentuglio::Refusal>(())
/// ```
pub fn read(sheet: &[u8]) -> Result<Summary, Refusal> {
    raw::read(sheet).into()
}

/// The element that normal coordinates stand for, by the conjugate rows as
/// they stand in the sheet.
///
/// Refuses 7, then 8 and 9 record by record, 4.
///
/// ```
/// let mut sheet = [0; 3 * sabrentuglio::RECORD_LENGTH];
/// sabrentuglio::build(11, 3, &mut sheet)?;
/// assert_eq!(sabrentuglio::to_polynomial(&sheet, 5)?, 4);
/// # Ok::<(), sabrentuglio::Refusal>(())
/// ```
pub fn to_polynomial(sheet: &[u8], coordinates: u64) -> Result<u64, Refusal> {
    raw::to_polynomial(sheet, coordinates).into()
}

/// The normal coordinates of an element, by the inverse rows as they stand in
/// the sheet. The element may come unreduced: it stands for its remainder modulo
/// the polynomial that stands in the sheet, accepted or not.
///
/// Refuses 7, then 8 and 9 record by record.
///
/// ```
/// use sabrentuglio::{build, to_normal, to_polynomial, RECORD_LENGTH};
///
/// let mut sheet = [0; 3 * RECORD_LENGTH];
/// build(11, 3, &mut sheet)?;
/// assert_eq!(to_normal(&sheet, 6)?, 3);
/// // The word 13 is 6 modulo 11, and comes back as 6.
/// assert_eq!(to_normal(&sheet, 13)?, 3);
/// assert_eq!(to_polynomial(&sheet, 3)?, 6);
/// # Ok::<(), sabrentuglio::Refusal>(())
/// ```
pub fn to_normal(sheet: &[u8], element: u64) -> Result<u64, Refusal> {
    raw::to_normal(sheet, element).into()
}

/// [`to_polynomial`] for each value of `from`, written to the same index of
/// `into`, which has the same length, at most 4,096.
///
/// Refuses 7, then 8 and 9 record by record, 11, 4; the place of 4 is the index
/// of the first value that is too large.
///
/// ```
/// use sabrentuglio::{build, list_to_polynomial, Reason, RECORD_LENGTH};
///
/// let mut sheet = [0; 3 * RECORD_LENGTH];
/// build(11, 3, &mut sheet)?;
/// let mut into = [0; 2];
/// list_to_polynomial(&sheet, &[3, 5], &mut into)?;
/// assert_eq!(into, [6, 4]);
///
/// let refusal = list_to_polynomial(&sheet, &[3, 8], &mut into).unwrap_err();
/// assert_eq!((refusal.reason(), refusal.place), (Some(Reason::TooLarge), 1));
/// assert_eq!(into, [6, 4]);
/// # Ok::<(), sabrentuglio::Refusal>(())
/// ```
pub fn list_to_polynomial(sheet: &[u8], from: &[u64], into: &mut [u64]) -> Result<(), Refusal> {
    Result::from(raw::list_to_polynomial(sheet, from, into)).map(|_| ())
}

/// [`to_normal`] for each value of `from`, written to the same index of `into`,
/// which has the same length, at most 4,096. The values may come unreduced.
///
/// Refuses 7, then 8 and 9 record by record, 11.
///
/// ```
/// use sabrentuglio::{build, list_to_normal, Reason, RECORD_LENGTH};
///
/// let mut sheet = [0; 3 * RECORD_LENGTH];
/// build(11, 3, &mut sheet)?;
/// let mut into = [0; 3];
/// list_to_normal(&sheet, &[6, 4, 13], &mut into)?;
/// assert_eq!(into, [3, 5, 3]);
///
/// let refusal = list_to_normal(&sheet, &[6, 4], &mut into).unwrap_err();
/// assert_eq!(refusal.reason(), Some(Reason::ListLength));
/// assert_eq!(into, [3, 5, 3]);
/// # Ok::<(), sabrentuglio::Refusal>(())
/// ```
pub fn list_to_normal(sheet: &[u8], from: &[u64], into: &mut [u64]) -> Result<(), Refusal> {
    Result::from(raw::list_to_normal(sheet, from, into)).map(|_| ())
}

/// The product of the normal coordinates a and b, in normal coordinates, by
/// the table rows as they stand in the sheet.
///
/// Refuses 7, then 8 and 9 record by record, 4.
///
/// ```
/// let mut sheet = [0; 3 * sabrentuglio::RECORD_LENGTH];
/// sabrentuglio::build(11, 3, &mut sheet)?;
/// assert_eq!(sabrentuglio::times(&sheet, 1, 2)?, 5);
/// # Ok::<(), sabrentuglio::Refusal>(())
/// ```
pub fn times(sheet: &[u8], a: u64, b: u64) -> Result<u64, Refusal> {
    raw::times(sheet, a, b).into()
}

/// The inverse of the normal coordinates a, in normal coordinates: a to the
/// power 2^n - 2, by the table rows as they stand in the sheet.
///
/// Refuses 7, then 8 and 9 record by record, 4, 13.
///
/// ```
/// use sabrentuglio::{build, inverse, times, Reason, RECORD_LENGTH};
///
/// let mut sheet = [0; 3 * RECORD_LENGTH];
/// build(11, 3, &mut sheet)?;
/// assert_eq!(inverse(&sheet, 5)?, 4);
/// // The coordinates of the element 1 have all bits set.
/// assert_eq!(times(&sheet, 5, 4)?, 7);
///
/// let refusal = inverse(&sheet, 0).unwrap_err();
/// assert_eq!(refusal.reason(), Some(Reason::DivisionByZero));
/// # Ok::<(), sabrentuglio::Refusal>(())
/// ```
pub fn inverse(sheet: &[u8], a: u64) -> Result<u64, Refusal> {
    raw::inverse(sheet, a).into()
}

/// The quotient of normal coordinates, in normal coordinates: the dividend
/// times the [`inverse`] of the divisor, in this order, by the table rows as
/// they stand in the sheet.
///
/// Refuses 7, then 8 and 9 record by record, 4, 13; zero divided by any other
/// number is zero.
///
/// ```
/// use sabrentuglio::{build, quotient, times, Reason, RECORD_LENGTH};
///
/// let mut sheet = [0; 3 * RECORD_LENGTH];
/// build(11, 3, &mut sheet)?;
/// assert_eq!(quotient(&sheet, 5, 2)?, 1);
/// assert_eq!(times(&sheet, 1, 2)?, 5);
/// assert_eq!(quotient(&sheet, 0, 2)?, 0);
///
/// let refusal = quotient(&sheet, 5, 0).unwrap_err();
/// assert_eq!(refusal.reason(), Some(Reason::DivisionByZero));
/// # Ok::<(), sabrentuglio::Refusal>(())
/// ```
pub fn quotient(sheet: &[u8], dividend: u64, divisor: u64) -> Result<u64, Refusal> {
    raw::quotient(sheet, dividend, divisor).into()
}

/// Searches the elements from first to last, both included, for the normal
/// leader of least complexity; `None` where there is no normal leader.
///
/// A leader is the smallest of its conjugates. All conjugates of a normal
/// element have the same table, so the leaders stand for the whole field.
///
/// Refuses 1, 4, 12, 2, 3.
///
/// ```
/// use sabrentuglio::{search, Best, Grade};
///
/// let best = Best { element: 8, complexity: 7, grade: 1, count: 2 };
/// assert_eq!(search(19, 0, 15)?, Some(best));
/// assert_eq!(best.kind(), Some(Grade::FirstKind));
/// assert_eq!(search(19, 10, 15)?, None);
/// # Ok::<(), sabrentuglio::Refusal>(())
/// ```
pub fn search(f: u64, first: u64, last: u64) -> Result<Option<Best>, Refusal> {
    raw::search(f, first, last).into()
}
