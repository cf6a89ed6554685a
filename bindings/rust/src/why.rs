//! The call that tells why reading refuses a sheet.

use crate::cause::Cause;
use crate::raw;

/// The cause of reading's refusal: [`read`](crate::read) says that a sheet is
/// refused, `why` also what makes it so. Number and place are those of reading.
///
/// Refuses nothing: [`Cause::refusal`] has the refusal of reading, which is one
/// of 7, then 8 and 9 record by record, 2, 3, 5, 10.
///
/// ```
/// use sabrentuglio::{why, Cause, Refusal, Sheet, RECORD_LENGTH};
///
/// let good = Sheet::build(11, 3)?.into_bytes();
/// let with = |at: usize, byte: u8| {
///     let mut sheet = good.clone();
///     sheet[at] = byte;
///     sheet
/// };
///
/// // The element 2: 2, 4 and 6 sum to zero, conjugates 0, 1 and 2.
/// assert_eq!(why(&with(8, 2)), Cause::Dependency(0b111));
/// assert_eq!(why(&with(8, 0)), Cause::Dependency(0b001));
///
/// // x^3 + 1 in all records: x + 1 divides it.
/// let mut sheet = good.clone();
/// for record in sheet.chunks_mut(RECORD_LENGTH) {
///     record[2] = 1;
/// }
/// assert_eq!(why(&sheet), Cause::Divisor(0b11));
///
/// // Row number 2 in record 1.
/// let refusal = Refusal { number: 8, place: 1 };
/// assert_eq!(why(&with(RECORD_LENGTH + 1, 2)), Cause::Refused(refusal));
/// # Ok::<(), sabrentuglio::Refusal>(())
/// ```
pub fn why(sheet: &[u8]) -> Cause {
    raw::why(sheet).into()
}

#[cfg(test)]
mod tests {
    use super::*;
    use crate::{Reason, RecordField, Refusal, Sheet, RECORD_LENGTH};

    /// A sheet of f and an element with right heads; all other rows are zero.
    fn heads(f: u64, element: u8) -> Vec<u8> {
        let n = 63 - f.leading_zeros();
        let mut sheet = vec![0; RECORD_LENGTH * n as usize];
        for (i, record) in (0..).zip(sheet.chunks_mut(RECORD_LENGTH)) {
            (record[0], record[1]) = (n as u8, i);
            record[2..8].copy_from_slice(&(f ^ 1 << n).to_le_bytes()[..6]);
        }
        sheet[8] = element;
        sheet
    }

    #[test]
    fn causes_of_small_sheets() {
        assert_eq!(why(&heads(5, 0)), Cause::Divisor(3));
        // x^8 + x^2 + 1 is (x^4 + x + 1)^2.
        assert_eq!(why(&heads(261, 1)), Cause::Divisor(19));
        assert_eq!(why(&heads(11, 0)), Cause::Dependency(1));
        assert_eq!(why(&heads(11, 1)), Cause::Dependency(3));
        assert_eq!(why(&heads(11, 2)), Cause::Dependency(7));
        let cause = Cause::Differs {
            record: 0,
            field: RecordField::Inverse,
            stored: 0,
            right: 7,
        };
        assert_eq!(why(&heads(11, 3)), cause);
    }

    #[test]
    fn each_field_of_each_record() {
        let good = Sheet::build(11, 3).unwrap();
        for (record, row) in good.rows().enumerate() {
            let fields = [row.conjugate, row.inverse, row.table];
            for (i, (right, field)) in fields.iter().zip(RecordField::ALL).enumerate() {
                // The rebuilding starts from record 0's conjugate.
                if (record, i) != (0, 0) {
                    let mut sheet = good.as_bytes().to_vec();
                    sheet[RECORD_LENGTH * record + 8 + 8 * i] ^= 1;
                    let cause = Cause::Differs {
                        record,
                        field: *field,
                        stored: right ^ 1,
                        right: *right,
                    };
                    assert_eq!(why(&sheet), cause);
                }
            }
        }
    }

    #[test]
    fn no_cause_but_a_refusal() {
        let good = Sheet::build(11, 3).unwrap().into_bytes();
        let refused = |number, place| Cause::Refused(Refusal { number, place });
        assert_eq!(why(&[]), refused(7, 0));
        assert_eq!(why(&good[1..]), refused(7, 0));
        let mut bad = good;
        bad[2 * RECORD_LENGTH + 24] = 8;
        assert_eq!(why(&bad), refused(9, 2));
        bad[RECORD_LENGTH] = 4;
        assert_eq!(why(&bad), refused(8, 1));
        assert_eq!(refused(8, 1).line(), None);
    }

    /// Refusal 3, which no sheet earns, and numbers that have no names here.
    #[test]
    fn flat_answers_become_causes() {
        let flat = |number, cause, field| raw::Cause {
            number,
            cause,
            field,
            ..raw::Cause::default()
        };
        let refused = |number| Cause::Refused(Refusal { number, place: 0 });
        assert_eq!(Cause::from(flat(0, 0, 0)), Cause::Accepted);
        assert_eq!(Cause::from(flat(3, 5, 0)), Cause::Became(5));
        assert_eq!(Cause::from(flat(99, 5, 1)), refused(99));
        assert_eq!(Cause::from(flat(10, 0, 4)), refused(10));
        assert_eq!(Cause::Became(5).line(), Some(String::from("5")));
        let refusal = Cause::Became(5).refusal().unwrap();
        assert_eq!(refusal.reason(), Some(Reason::Squaring));
    }

    #[test]
    fn causes_in_words() {
        let cause = Cause::Divisor(3);
        assert_eq!(
            cause.to_string(),
            "refusal 2, place 0: some polynomial of degree 1 to n-1 divides f; \
             the smallest that does is 3"
        );
        let cause = Cause::Differs {
            record: 2,
            field: RecordField::Table,
            stored: 7,
            right: 6,
        };
        assert_eq!(
            cause.to_string(),
            "refusal 10, place 2: the record differs from the one rebuilt; \
             its table row is 7, not 6"
        );
        let refusal = Refusal {
            number: 7,
            place: 0,
        };
        assert_eq!(Cause::Refused(refusal).to_string(), refusal.to_string());
    }
}
