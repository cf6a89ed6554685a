//! What the desk says where it does not do as asked: [`Refusal`], with a number
//! of document 01's refusal table, to which document 02 adds 13 and 14, and
//! [`Reason`], the names of those numbers.

use std::error::Error;
use std::fmt;

/// The conditions of the refusal table, each with its number there: 1 to 12 of
/// document 01, 13 of document 02's division, 14 of its full set of matrices.
///
/// The table can get further numbers and leave some unused, so a number has a
/// name only where [`Reason::try_from`] knows one.
///
/// ```
/// use sabrentuglio::{Reason, UnknownNumber};
///
/// assert_eq!(Reason::try_from(5), Ok(Reason::NotNormal));
/// assert_eq!(Reason::NotNormal.number(), 5);
/// assert_eq!(Reason::try_from(99), Err(UnknownNumber(99)));
/// ```
#[derive(Clone, Copy, Debug, PartialEq, Eq, Hash, PartialOrd, Ord)]
#[non_exhaustive]
pub enum Reason {
    /// 1: the degree of f is below 2 or above 46, or f is zero.
    Degree = 1,
    /// 2: a polynomial of degree 1 to n-1 divides f.
    Divisor = 2,
    /// 3: squaring n times does not return x. No polynomial earns it, since
    /// those that would have a divisor; it stands here because it stands in
    /// the table.
    Squaring = 3,
    /// 4: a candidate element, coordinate number or range end is 2^n or more.
    TooLarge = 4,
    /// 5: the element is not normal.
    NotNormal = 5,
    /// 6: the buffer to be written is shorter than 32n bytes for a sheet,
    /// n(n(n+1)+1) for a text.
    BufferLength = 6,
    /// 7: the length of the sheet is not 32 times a count of 2 to 46.
    SheetLength = 7,
    /// 8: a record's degree is not the record count, its row number is not its
    /// place, or its bytes 2-7 differ from record 0.
    RecordHead = 8,
    /// 9: a record's bytes 2-7 or one of its three rows is 2^n or more.
    RecordTooLarge = 9,
    /// 10: a record differs from the one rebuilt.
    RecordDiffers = 10,
    /// 11: the list lengths differ or exceed 4,096.
    ListLength = 11,
    /// 12: the first of the range is greater than the last.
    RangeOrder = 12,
    /// 13: the divisor, or the number to invert, is zero.
    DivisionByZero = 13,
    /// 14: the text does not match: it is not what writing gives for f and the
    /// element. The place is the first wrong, missing or extra line.
    TextDiffers = 14,
}

impl Reason {
    /// All reasons, in the order of their numbers.
    pub const ALL: &'static [Reason] = &[
        Reason::Degree,
        Reason::Divisor,
        Reason::Squaring,
        Reason::TooLarge,
        Reason::NotNormal,
        Reason::BufferLength,
        Reason::SheetLength,
        Reason::RecordHead,
        Reason::RecordTooLarge,
        Reason::RecordDiffers,
        Reason::ListLength,
        Reason::RangeOrder,
        Reason::DivisionByZero,
        Reason::TextDiffers,
    ];

    /// The number in the table.
    pub fn number(self) -> u64 {
        self as u64
    }

    /// The condition in words.
    pub fn meaning(self) -> &'static str {
        match self {
            Reason::Degree => "the degree of f is below 2 or above 46",
            Reason::Divisor => "some polynomial of degree 1 to n-1 divides f",
            Reason::Squaring => "repeated squaring n times does not return x",
            Reason::TooLarge => {
                "a candidate element, coordinate number or range end is 2^n or more"
            }
            Reason::NotNormal => "the element is not normal",
            Reason::BufferLength => {
                "the buffer to be written is shorter than 32n bytes for a sheet, \
                 n(n(n+1)+1) for a text"
            }
            Reason::SheetLength => "the sheet length is not 32 times a count of 2 to 46",
            Reason::RecordHead => {
                "the record's degree is not the record count, its row number is not its place, \
                 or its bytes 2-7 differ from record 0"
            }
            Reason::RecordTooLarge => "bytes 2-7 or one of the three rows is 2^n or more",
            Reason::RecordDiffers => "the record differs from the one rebuilt",
            Reason::ListLength => "the list lengths differ or exceed 4,096",
            Reason::RangeOrder => "the first of the range is greater than the last",
            Reason::DivisionByZero => "the divisor, or the number to invert, is zero",
            Reason::TextDiffers => {
                "the text does not match: it is not what writing gives for f and the element"
            }
        }
    }
}

impl From<Reason> for u64 {
    fn from(reason: Reason) -> u64 {
        reason.number()
    }
}

impl TryFrom<u64> for Reason {
    type Error = UnknownNumber;

    fn try_from(number: u64) -> Result<Reason, UnknownNumber> {
        let mut all = Reason::ALL.iter().copied();
        all.find(|reason| reason.number() == number)
            .ok_or(UnknownNumber(number))
    }
}

impl fmt::Display for Reason {
    fn fmt(&self, out: &mut fmt::Formatter<'_>) -> fmt::Result {
        out.write_str(self.meaning())
    }
}

/// The number of a refusal or a grade for which these bindings have no name.
/// The archive is then of another version.
#[derive(Clone, Copy, Debug, PartialEq, Eq, Hash)]
pub struct UnknownNumber(pub u64);

impl fmt::Display for UnknownNumber {
    fn fmt(&self, out: &mut fmt::Formatter<'_>) -> fmt::Result {
        write!(out, "these bindings have no name for the number {}", self.0)
    }
}

impl Error for UnknownNumber {}

/// A refused call. Every buffer, list and text it was lent stays as it came.
///
/// ```
/// use sabrentuglio::{check, Reason};
///
/// let refusal = check(5).unwrap_err();
/// assert_eq!((refusal.number, refusal.place), (2, 0));
/// assert_eq!(refusal.reason(), Some(Reason::Divisor));
/// assert_eq!(
///     refusal.to_string(),
///     "refusal 2, place 0: some polynomial of degree 1 to n-1 divides f"
/// );
/// ```
#[derive(Clone, Copy, Debug, PartialEq, Eq, Hash)]
pub struct Refusal {
    /// The number in the table: the first condition of the call's order that
    /// applied.
    pub number: u64,
    /// The record, the list index or the line at fault, where the table names
    /// one; else 0.
    pub place: usize,
}

impl Refusal {
    /// The condition that applied; `None` where these bindings have no name
    /// for the number.
    pub fn reason(&self) -> Option<Reason> {
        Reason::try_from(self.number).ok()
    }

    /// The answer's number and place as a result.
    pub(crate) fn unless_done(number: u64, place: u64) -> Result<(), Refusal> {
        if number == 0 {
            return Ok(());
        }
        let place = usize::try_from(place).expect("a place is an index");
        Err(Refusal { number, place })
    }
}

impl fmt::Display for Refusal {
    fn fmt(&self, out: &mut fmt::Formatter<'_>) -> fmt::Result {
        write!(out, "refusal {}, place {}: ", self.number, self.place)?;
        match Reason::try_from(self.number) {
            Ok(reason) => reason.fmt(out),
            Err(unknown) => unknown.fmt(out),
        }
    }
}

impl Error for Refusal {}

#[cfg(test)]
mod tests {
    use super::*;

    #[test]
    fn numbers_are_those_of_the_table() {
        let numbers: Vec<u64> = Reason::ALL.iter().map(|reason| reason.number()).collect();
        assert_eq!(numbers, [1, 2, 3, 4, 5, 6, 7, 8, 9, 10, 11, 12, 13, 14]);
        for reason in Reason::ALL {
            assert_eq!(Reason::try_from(u64::from(*reason)), Ok(*reason));
        }
        for number in [0, 15, 24, u64::MAX] {
            assert_eq!(Reason::try_from(number), Err(UnknownNumber(number)));
        }
    }

    #[test]
    fn done_is_no_refusal() {
        assert_eq!(Refusal::unless_done(0, 0), Ok(()));
        let refusal = Refusal::unless_done(10, 45).unwrap_err();
        assert_eq!(refusal.reason(), Some(Reason::RecordDiffers));
        assert_eq!(
            refusal.to_string(),
            "refusal 10, place 45: the record differs from the one rebuilt"
        );
    }

    #[test]
    fn an_unknown_number_is_kept() {
        let refusal = Refusal::unless_done(99, 7).unwrap_err();
        assert_eq!((refusal.number, refusal.place), (99, 7));
        assert_eq!(refusal.reason(), None);
        assert_eq!(
            refusal.to_string(),
            "refusal 99, place 7: these bindings have no name for the number 99"
        );
    }
}
