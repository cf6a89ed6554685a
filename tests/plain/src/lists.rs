//! Converting a list both ways: [`list_to_polynomial`], [`list_to_normal`].
//!
//! The order is that of one value, with 11 before 4 on the way to polynomials.
//! The way from polynomials has no 4: it takes any 64-bit numbers and answers
//! for their remainders (document 02, §6). The destination is written only once
//! nothing is left that could refuse.

use crate::answers::{refuse_if, Refusal, Value};
use crate::basis::sum_of_picked;
use crate::sheet::Rows;
use crate::MAX_LIST;

/// What both ways test before the values: 7, 8 and 9, then 11.
fn opened(sheet: &[u8], from: &[u64], into: &[u64]) -> Result<Rows, Refusal> {
    let rows = Rows::new(sheet)?;
    refuse_if(from.len() != into.len() || from.len() > MAX_LIST, 11)?;
    Ok(rows)
}

/// Condition 4, with the first such index.
fn refuse_large(n: u32, from: &[u64]) -> Result<(), Refusal> {
    match from.iter().position(|value| *value >= 1 << n) {
        Some(index) => Err(Refusal::at(4, index)),
        None => Ok(()),
    }
}

fn convert(from: &[u64], into: &mut [u64], one: impl Fn(u64) -> u64) -> u64 {
    for (to, value) in into.iter_mut().zip(from) {
        *to = one(*value);
    }
    0
}

/// Converts every value of `from`, normal coordinates, into an element.
pub fn list_to_polynomial(sheet: &[u8], from: &[u64], into: &mut [u64]) -> Value {
    opened(sheet, from, into)
        .and_then(|rows| refuse_large(rows.degree, from).map(|()| rows))
        .map(|rows| convert(from, into, |v| sum_of_picked(&rows.basis.conjugates, v)))
        .into()
}

/// Converts every value of `from`, an element that may come unreduced, into
/// normal coordinates.
pub fn list_to_normal(sheet: &[u8], from: &[u64], into: &mut [u64]) -> Value {
    opened(sheet, from, into)
        .map(|rows| convert(from, into, |word| rows.coordinates_of(word)))
        .into()
}

#[cfg(test)]
mod tests {
    use super::*;
    use crate::{build, to_normal, RECORD_LENGTH};

    const TOO_MANY: usize = MAX_LIST + 1;

    fn sheet() -> [u8; 3 * RECORD_LENGTH] {
        let mut buffer = [0; 3 * RECORD_LENGTH];
        assert_eq!(build(11, 3, &mut buffer).number, 0);
        buffer
    }

    #[test]
    fn converts_lists() {
        let mut into = [0; 2];
        assert_eq!(list_to_polynomial(&sheet(), &[3, 5], &mut into).number, 0);
        assert_eq!(into, [6, 4]);
        assert_eq!(list_to_normal(&sheet(), &[6, 4], &mut into).number, 0);
        assert_eq!(into, [3, 5]);
        assert_eq!(list_to_normal(&sheet(), &[], &mut []), Value::default());
    }

    #[test]
    fn refuses_lists() {
        let mut into = vec![9; TOO_MANY];
        let refused = |number, place| Value::from(Err(Refusal { number, place }));
        let mut call = |from: &[u64], room| {
            let into = &mut into[..room];
            let answer = list_to_polynomial(&sheet(), from, into);
            if answer.number == 11 {
                assert_eq!(list_to_normal(&sheet(), from, into), answer);
            }
            answer
        };
        assert_eq!(call(&[1, 8, 9], 3), refused(4, 1));
        assert_eq!(call(&[1, 8, 9], 2), refused(11, 0));
        assert_eq!(call(&[1, 2, 3], 4), refused(11, 0));
        assert_eq!(call(&[8; TOO_MANY], TOO_MANY), refused(11, 0));
        assert_eq!(into, [9; TOO_MANY]);
        assert_eq!(list_to_normal(&sheet()[1..], &[8], &mut []), refused(7, 0));
    }

    /// Modulo 11 the powers of x return after 7: x^63 is 1, and all 64 powers
    /// are nine such rounds, which sum to zero, and x^63.
    #[test]
    fn values_may_come_unreduced() {
        let from = [11, 8, 9, 11 ^ 6, 11 << 60, 1 << 63, u64::MAX];
        let mut into = [9; 7];
        assert_eq!(list_to_normal(&sheet(), &from, &mut into), Value::default());
        let rests = [0, 3, 2, 6, 0, 1, 1];
        assert_eq!(into, rests.map(|rest| to_normal(&sheet(), rest).value));
        assert_eq!(into, from.map(|word| to_normal(&sheet(), word).value));
        let mut back = [9; 7];
        assert_eq!(list_to_polynomial(&sheet(), &into, &mut back).number, 0);
        assert_eq!(back, rests);
    }

    /// The remainder is modulo the f that the sheet names: x^3, where the powers
    /// from there on vanish; x^3 + 1, where they return after 3; and all four
    /// terms, where they return after 4.
    #[test]
    fn other_polynomials_are_used_as_they_stand() {
        for (tail, rests) in [(0, [0, 7]), (1, [1, 6]), (7, [7, 0])] {
            let mut sheet = sheet();
            for record in sheet.chunks_mut(RECORD_LENGTH) {
                record[2] = tail;
            }
            let mut into = [9; 3];
            let from = [1 << 63, u64::MAX, 8 | u64::from(tail)];
            assert_eq!(list_to_normal(&sheet, &from, &mut into).number, 0);
            // The inverse rows are those of 11 and 3.
            let rows = [7, 6, 5];
            let expected = rests.map(|rest| sum_of_picked(&rows, rest));
            assert_eq!(into, [expected[0], expected[1], 0], "{}", tail);
            assert_eq!(into, from.map(|word| to_normal(&sheet, word).value));
        }
    }

    #[test]
    fn the_longest_list_is_converted() {
        let (from, mut into) = ([6; MAX_LIST], [0; MAX_LIST]);
        assert_eq!(list_to_normal(&sheet(), &from, &mut into).number, 0);
        assert_eq!(into, [3; MAX_LIST]);
    }
}
