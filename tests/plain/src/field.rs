//! The calls in the polynomial notation: [`check`], [`multiply`], [`square`],
//! [`trace`], each with its order of refusals.
//!
//! The last three "take any 64-bit operand and answer for its remainder modulo
//! f" (document 02, §6).

use crate::accepted::{field_degree, refuse_unaccepted};
use crate::answers::{refuse_if, Refusal, Value};
use crate::basis::conjugates;
use crate::polynomial::{product, remainder, squared};

/// Whether any of the numbers is 2^n or more: condition 4.
pub(crate) fn refuse_large(n: u32, numbers: &[u64]) -> Result<(), Refusal> {
    refuse_if(numbers.iter().any(|number| *number >= 1 << n), 4)
}

/// Check of f: 1, 2, 3. The value is 0.
pub fn check(f: u64) -> Value {
    field_degree(f)
        .and_then(|_| refuse_unaccepted(f))
        .map(|()| 0)
        .into()
}

/// Multiplication modulo any f whose degree is in range: 1.
pub fn multiply(f: u64, a: u64, b: u64) -> Value {
    field_degree(f)
        .map(|_| product(f, remainder(a, f), remainder(b, f)))
        .into()
}

/// Squaring modulo any f whose degree is in range: 1.
pub fn square(f: u64, a: u64) -> Value {
    field_degree(f).map(|_| squared(f, remainder(a, f))).into()
}

/// The sum of all n conjugates: 1, 2, 3.
pub fn trace(f: u64, a: u64) -> Value {
    field_degree(f)
        .and_then(|_| refuse_unaccepted(f))
        .map(|()| conjugates(f, remainder(a, f)))
        .map(|conjugates| conjugates.iter().fold(0, |sum, c| sum ^ c))
        .into()
}

#[cfg(test)]
mod tests {
    use super::*;
    use crate::polynomial::degree;
    use crate::MAX_DEGREE;

    fn done(value: u64) -> Value {
        Ok(value).into()
    }

    fn refused(number: u64) -> Value {
        Err(Refusal::new(number)).into()
    }

    #[test]
    fn checks() {
        for f in [7, 11, 19] {
            assert_eq!(check(f), done(0));
        }
        for f in [0, 1, 2, 3, 1 << (MAX_DEGREE + 1), u64::MAX] {
            assert_eq!(check(f), refused(1));
        }
        assert_eq!(check(5), refused(2));
        // x^8+x^2+1 is (x^4+x+1)^2: "Readings that lead astray".
        assert_eq!(check((1 << 8) + 4 + 1), refused(2));
        assert_eq!(check((1 << 46) + 3), done(0));
    }

    #[test]
    fn products_and_squares() {
        assert_eq!(multiply(19, 8, 12), done(10));
        assert_eq!(square(19, 8), done(12));
        // x divides 4, and the product is still made.
        assert_eq!(multiply(4, 2, 2), done(0));
        assert_eq!(multiply(4, 2, 4), done(0));
        assert_eq!(multiply(3, 9, 9), refused(1));
        assert_eq!(square(3, 9), refused(1));
        assert_eq!(square(7, 4), done(2));
    }

    /// Modulo 19 the powers of x return after 15: x^63 is x^3. All 64 powers
    /// are four such rounds, which sum to zero, and x^60 to x^63.
    #[test]
    fn the_largest_operands() {
        let (top, all) = (1 << 63, u64::MAX);
        assert_eq!(multiply(19, top, 1), done(8));
        assert_eq!(multiply(19, all, 1), done(15));
        assert_eq!(multiply(19, 12, top), done(10));
        assert_eq!(multiply(19, top, all), multiply(19, 8, 15));
        assert_eq!(square(19, top), done(12));
        assert_eq!(trace(19, top), done(1));
        // Modulo a power of x the lower powers are left.
        assert_eq!(multiply(16, all, 1), done(15));
        assert_eq!(square(16, all), done(5));
        assert_eq!(multiply(16, top, all), done(0));
    }

    /// Every f up to degree 4, accepted or not, and every element with a multiple
    /// of f added.
    #[test]
    fn multiples_of_f_change_nothing() {
        for f in 4..32 {
            let size = 1 << degree(f).unwrap();
            let multiples = (0..16).map(|k| f << (59 - k) ^ f << k);
            for (multiple, a) in multiples.flat_map(|m| (0..size).map(move |a| (m, a))) {
                let word = multiple ^ a;
                assert_eq!(square(f, word), square(f, a), "{} {}", f, word);
                assert_eq!(trace(f, word), trace(f, a), "{} {}", f, word);
                for b in 0..size {
                    let product = multiply(f, a, b);
                    assert_eq!(multiply(f, word, b), product, "{} {}", f, word);
                    assert_eq!(multiply(f, b, word), product, "{} {}", f, word);
                    assert_eq!(multiply(f, word, multiple ^ b), product);
                }
            }
        }
    }

    #[test]
    fn traces() {
        assert_eq!(trace(19, 8), done(1));
        assert_eq!(trace(19, 1), done(0));
        assert_eq!(trace(7, 1), done(0));
        assert_eq!(trace(11, 1), done(1));
        assert_eq!(trace(7, 4), trace(7, 3));
        assert_eq!(trace(19, 19), done(0));
        assert_eq!(trace(5, 4), refused(2));
        assert_eq!(trace(5, 3), refused(2));
        assert_eq!(trace(3, 9), refused(1));
    }
}
