//! Division in normal coordinates: [`inverse`], [`quotient`] (document 02, §1).
//!
//! The order is that of multiplying through the sheet, with 13 after 4. The
//! table rows are used as they stand; where no builder wrote them the product
//! depends on the order of its factors. The rotated factor comes first, and the
//! dividend comes before the inverse.

use crate::answers::{refuse_if, Refusal, Value};
use crate::basis::{moved_up, product_of_coordinates};
use crate::sheet::opened;

/// The power of `a` whose exponent is 2^k-1, k at least 1.
///
/// "For k = 1 it is a. For k = 2h it is the power for h, rotated h places, times
/// that power. For odd k above 1 it is the power for k-1, rotated once, times a."
fn power(table: &[u64], k: usize, a: u64) -> u64 {
    if k == 1 {
        return a;
    }
    let n = table.len();
    if k % 2 == 0 {
        let h = k / 2;
        let that = power(table, h, a);
        return product_of_coordinates(table, moved_up(that, h, n), that);
    }
    let before = power(table, k - 1, a);
    product_of_coordinates(table, moved_up(before, 1, n), a)
}

/// "The inverse is the power for n-1, rotated once."
fn inverse_of_coordinates(table: &[u64], a: u64) -> u64 {
    let n = table.len();
    moved_up(power(table, n - 1, a), 1, n)
}

/// The table rows of a sheet to divide on: 7, 8 and 9, then 4 for any of the
/// operands, then 13 for the divisor.
fn table_to_divide(sheet: &[u8], operands: &[u64], divisor: u64) -> Result<Vec<u64>, Refusal> {
    let rows = opened(sheet, operands)?;
    refuse_if(divisor == 0, 13)?;
    Ok(rows.basis.table)
}

/// The inverse of the normal coordinates `a`.
pub fn inverse(sheet: &[u8], a: u64) -> Value {
    table_to_divide(sheet, &[a], a)
        .map(|table| inverse_of_coordinates(&table, a))
        .into()
}

/// "A quotient is the dividend times the inverse": the one of the divisor.
pub fn quotient(sheet: &[u8], dividend: u64, divisor: u64) -> Value {
    table_to_divide(sheet, &[dividend, divisor], divisor)
        .map(|table| {
            let inverse = inverse_of_coordinates(&table, divisor);
            product_of_coordinates(&table, dividend, inverse)
        })
        .into()
}

#[cfg(test)]
pub(crate) mod tests {
    use super::*;
    use crate::sheet::tests::sheet;
    use crate::{build, multiply, times, to_polynomial, MAX_DEGREE, RECORD_LENGTH};

    fn refused(number: u64, place: u64) -> Value {
        Err(Refusal { number, place }).into()
    }

    #[test]
    fn small_numbers() {
        let known: [(u64, u64, &[u64]); 3] = [
            (7, 2, &[2, 1, 3]),
            (11, 3, &[3, 6, 1, 5, 4, 2, 7]),
            (19, 8, &[4, 8, 13, 1, 10, 11, 12, 2, 14, 5, 6, 7, 3, 9, 15]),
        ];
        for (f, element, inverses) in known {
            let sheet = sheet(f, element);
            let met = (1..=inverses.len() as u64).map(|a| inverse(&sheet, a).value);
            assert!(met.eq(inverses.iter().copied()), "f = {}", f);
        }
        assert_eq!(quotient(&sheet(11, 3), 5, 2), Ok(1).into());
    }

    /// Every quotient of small fields, in the polynomial notation.
    #[test]
    fn a_quotient_times_the_divisor_is_the_dividend() {
        for (f, element) in [(7, 2), (11, 3), (19, 8), (19, 9), (37, 3), (67, 32)] {
            let sheet = sheet(f, element);
            let element_of = |v: Value| to_polynomial(&sheet, v.value).value;
            let size = 1 << (sheet.len() / RECORD_LENGTH);
            for a in 1..size {
                let divisor = to_polynomial(&sheet, a).value;
                let one = multiply(f, element_of(inverse(&sheet, a)), divisor);
                assert_eq!(one, Ok(1).into());
                for b in 0..size {
                    let back = multiply(f, element_of(quotient(&sheet, b, a)), divisor);
                    assert_eq!(back, to_polynomial(&sheet, b), "{} {} {}", f, b, a);
                }
            }
        }
    }

    /// The exponent of the inverse is 2^n-2 at every degree: n-1 squarings, and
    /// the product of what each leaves.
    #[test]
    fn an_inverse_is_the_power_at_every_degree() {
        for n in 2..=MAX_DEGREE {
            let sheet = some_sheet(n);
            let below = (1 << n) - 1;
            for a in [1, 2, below, below / 3, 0x1234_5678_9abc_def1 & below] {
                let mut square = a;
                let mut product = below;
                for _ in 1..n {
                    square = times(&sheet, square, square).value;
                    product = times(&sheet, product, square).value;
                }
                assert_eq!(inverse(&sheet, a), Ok(product).into(), "{} {}", n, a);
                assert_eq!(times(&sheet, product, a).value, below);
            }
        }
    }

    /// The sheet of the smallest accepted f of a degree and a normal element.
    pub(crate) fn some_sheet(n: u32) -> Vec<u8> {
        let f = (1 << n..).find(|f| crate::check(*f).number == 0).unwrap();
        let mut buffer = vec![0; RECORD_LENGTH * n as usize];
        let mut drawn = 1u64;
        while build(f, drawn >> (64 - n), &mut buffer).number != 0 {
            drawn = drawn.wrapping_mul(6364136223846793005).wrapping_add(99991);
        }
        buffer
    }

    /// With a one at t(1,0) alone, bit k of a product is a_k b_(k+1): here the
    /// order of the factors and the direction of a rotation show.
    #[test]
    fn other_rows_are_used_as_they_stand() {
        let sheet = |n: usize| {
            let mut sheet = vec![0; RECORD_LENGTH * n];
            for i in 0..n {
                sheet[RECORD_LENGTH * i] = n as u8;
                sheet[RECORD_LENGTH * i + 1] = i as u8;
            }
            sheet[RECORD_LENGTH + 24] = 1;
            sheet
        };
        let inverse = |n, a| inverse(&sheet(n), a).value;
        // Bit k is a_(k-1).
        assert_eq!(inverse(2, 1), 2);
        // Bit k is a_k a_(k+1).
        assert_eq!((inverse(3, 1), inverse(3, 3)), (0, 1));
        // Bit k is a_(k-1) a_k a_(k+1).
        assert_eq!((inverse(4, 7), inverse(4, 13)), (2, 8));
        // Bit k is a_(k-2) a_(k-1) a_(k+1).
        assert_eq!(inverse(5, 11), 4);
        let over_7 = |dividend| quotient(&sheet(4), dividend, 7).value;
        assert_eq!((over_7(15), over_7(4), over_7(0)), (1, 0, 0));
    }

    #[test]
    fn refuses_to_divide() {
        let good = sheet(11, 3);
        assert_eq!(inverse(&good, 0), refused(13, 0));
        assert_eq!(inverse(&good, 8), refused(4, 0));
        assert_eq!(quotient(&good, 5, 0), refused(13, 0));
        assert_eq!(quotient(&good, 0, 0), refused(13, 0));
        assert_eq!(quotient(&good, 8, 0), refused(4, 0));
        assert_eq!(quotient(&good, 0, 8), refused(4, 0));
        assert_eq!(quotient(&good, 0, 5), Ok(0).into());
        let mut bad = good.clone();
        bad[2 * RECORD_LENGTH + 24] = 8;
        assert_eq!(inverse(&bad, 0), refused(9, 2));
        bad[RECORD_LENGTH] = 2;
        assert_eq!(quotient(&bad, 8, 0), refused(8, 1));
        assert_eq!(inverse(&good[1..], 0), refused(7, 0));
        assert_eq!(quotient(&good[1..], 8, 0), refused(7, 0));
    }
}
