//! Why reading refuses a sheet: [`Cause`], and [`RecordField`], the field of a
//! record that is wrong.

use crate::raw;
use crate::refusal::{Reason, Refusal, UnknownNumber};
use std::fmt;

/// The fields of a record that reading rebuilds, each with its number in a flat
/// answer, in byte order.
///
/// ```
/// use sabrentuglio::{RecordField, UnknownNumber};
///
/// assert_eq!(RecordField::try_from(3), Ok(RecordField::Table));
/// assert_eq!(RecordField::Table.number(), 3);
/// assert_eq!(RecordField::Table.to_string(), "table");
/// assert_eq!(RecordField::try_from(4), Err(UnknownNumber(4)));
/// ```
#[derive(Clone, Copy, Debug, PartialEq, Eq, Hash, PartialOrd, Ord)]
#[non_exhaustive]
pub enum RecordField {
    /// 1: the conjugate row, bytes 8-15.
    Conjugate = 1,
    /// 2: the inverse row, bytes 16-23.
    Inverse = 2,
    /// 3: the table row, bytes 24-31.
    Table = 3,
}

impl RecordField {
    /// All fields, in the order of their numbers and their bytes.
    pub const ALL: &'static [RecordField] = &[
        RecordField::Conjugate,
        RecordField::Inverse,
        RecordField::Table,
    ];

    /// The number in a flat answer.
    pub fn number(self) -> u64 {
        self as u64
    }
}

/// The word that the lister prints.
impl fmt::Display for RecordField {
    fn fmt(&self, out: &mut fmt::Formatter<'_>) -> fmt::Result {
        out.pad(match self {
            RecordField::Conjugate => "conjugate",
            RecordField::Inverse => "inverse",
            RecordField::Table => "table",
        })
    }
}

impl From<RecordField> for u64 {
    fn from(field: RecordField) -> u64 {
        field.number()
    }
}

impl TryFrom<u64> for RecordField {
    type Error = UnknownNumber;

    fn try_from(number: u64) -> Result<RecordField, UnknownNumber> {
        let mut all = RecordField::ALL.iter().copied();
        all.find(|field| field.number() == number)
            .ok_or(UnknownNumber(number))
    }
}

/// Why reading refuses a sheet, or that it does not.
///
/// ```
/// use sabrentuglio::{why, Cause, RecordField, Refusal, Sheet, RECORD_LENGTH};
///
/// let mut sheet = Sheet::build(11, 3)?.into_bytes();
/// assert_eq!(why(&sheet), Cause::Accepted);
///
/// // Table row 2 is 6 = 110 in binary; its lowest bit is turned over.
/// sheet[2 * RECORD_LENGTH + 24] ^= 1;
/// let (record, field) = (2, RecordField::Table);
/// let cause = Cause::Differs { record, field, stored: 7, right: 6 };
/// assert_eq!(why(&sheet), cause);
/// assert_eq!(cause.refusal(), Some(Refusal { number: 10, place: 2 }));
/// assert_eq!(cause.line(), Some(String::from("2 table 7 6")));
/// # Ok::<(), sabrentuglio::Refusal>(())
/// ```
#[derive(Clone, Copy, Debug, PartialEq, Eq, Hash)]
#[non_exhaustive]
pub enum Cause {
    /// Reading accepts the sheet.
    Accepted,
    /// 7, 8 or 9, which have no further cause; or a refusal whose cause these
    /// bindings have no name for.
    Refused(Refusal),
    /// 2: the smallest polynomial of degree at least 1 that divides f. It is
    /// irreducible.
    Divisor(u64),
    /// 3: what x became after n squarings. No polynomial earns it, as
    /// [`Reason::Squaring`] says.
    Became(u64),
    /// 5: the smallest non-zero number whose set bits select conjugates of record
    /// 0's conjugate that sum to zero; 1 for the element 0.
    Dependency(u64),
    /// 10: the first record that differs from the one rebuilt, and in it the
    /// first field in byte order.
    Differs {
        /// The record, which is the place of the refusal.
        record: usize,
        /// The field of that record.
        field: RecordField,
        /// The number that it holds.
        stored: u64,
        /// The number that is right.
        right: u64,
    },
}

impl Cause {
    /// The refusal of reading; `None` where it accepts the sheet.
    ///
    /// ```
    /// use sabrentuglio::{Cause, Reason};
    ///
    /// let refusal = Cause::Divisor(19).refusal().unwrap();
    /// assert_eq!(refusal.reason(), Some(Reason::Divisor));
    /// assert_eq!(Cause::Accepted.refusal(), None);
    /// ```
    pub fn refusal(&self) -> Option<Refusal> {
        let (reason, place) = match *self {
            Cause::Accepted => return None,
            Cause::Refused(refusal) => return Some(refusal),
            Cause::Divisor(_) => (Reason::Divisor, 0),
            Cause::Became(_) => (Reason::Squaring, 0),
            Cause::Dependency(_) => (Reason::NotNormal, 0),
            Cause::Differs { record, .. } => (Reason::RecordDiffers, record),
        };
        let number = reason.number();
        Some(Refusal { number, place })
    }

    /// The second line that the lister prints of the sheet, without its end;
    /// `None` where it prints none.
    ///
    /// ```
    /// use sabrentuglio::Cause;
    ///
    /// assert_eq!(Cause::Divisor(19).line(), Some(String::from("19")));
    /// assert_eq!(Cause::Accepted.line(), None);
    /// ```
    pub fn line(&self) -> Option<String> {
        match *self {
            Cause::Accepted | Cause::Refused(_) => None,
            Cause::Divisor(cause) | Cause::Became(cause) | Cause::Dependency(cause) => {
                Some(cause.to_string())
            }
            Cause::Differs {
                record,
                field,
                stored,
                right,
            } => Some(format!("{} {} {} {}", record, field, stored, right)),
        }
    }
}

/// The refusal and its cause in words.
///
/// ```
/// use sabrentuglio::Cause;
///
/// assert_eq!(
///     Cause::Dependency(7).to_string(),
///     "refusal 5, place 0: the element is not normal; \
///      conjugates selected by the bits of 7 sum to zero"
/// );
/// assert_eq!(Cause::Accepted.to_string(), "accepted");
/// ```
impl fmt::Display for Cause {
    fn fmt(&self, out: &mut fmt::Formatter<'_>) -> fmt::Result {
        match self.refusal() {
            None => return out.write_str("accepted"),
            Some(refusal) => refusal.fmt(out)?,
        }
        match self {
            Cause::Accepted | Cause::Refused(_) => Ok(()),
            Cause::Divisor(divisor) => write!(out, "; the smallest that does is {}", divisor),
            Cause::Became(became) => write!(out, "; x became {}", became),
            Cause::Dependency(set) => write!(
                out,
                "; conjugates selected by the bits of {} sum to zero",
                set
            ),
            Cause::Differs {
                field,
                stored,
                right,
                ..
            } => write!(out, "; its {} row is {}, not {}", field, stored, right),
        }
    }
}

impl From<raw::Cause> for Cause {
    fn from(answer: raw::Cause) -> Cause {
        let refusal = match Refusal::unless_done(answer.number, answer.place) {
            Ok(()) => return Cause::Accepted,
            Err(refusal) => refusal,
        };
        let field = RecordField::try_from(answer.field).ok();
        match (refusal.reason(), field) {
            (Some(Reason::Divisor), _) => Cause::Divisor(answer.cause),
            (Some(Reason::Squaring), _) => Cause::Became(answer.cause),
            (Some(Reason::NotNormal), _) => Cause::Dependency(answer.cause),
            (Some(Reason::RecordDiffers), Some(field)) => Cause::Differs {
                record: refusal.place,
                field,
                stored: answer.stored,
                right: answer.right,
            },
            _ => Cause::Refused(refusal),
        }
    }
}
