//! When f is accepted (document 01, "Two notations"): the conditions 1, 2 and 3
//! of the refusal table.
//!
//! [`field_degree`] is condition 1, [`has_divisor`] condition 2,
//! [`x_became`] condition 3.
//!
//! Condition 2 is decided by Berlekamp's matrix. The polynomials g with
//! g^2 = g modulo f form a space of 2^r members, [`fixed_space`], r the number of
//! different irreducible factors of f. So f is a power of one irreducible exactly
//! when r = 1, and the power is the first exactly when f has no factor in common
//! with its derivative. The tests hold this against trial division.

use crate::answers::{refuse_if, Refusal};
use crate::polynomial::{common_divisor, degree, derivative, squared};
use crate::MAX_DEGREE;

/// The degree n of f, where it is 2 to [`MAX_DEGREE`]; refusal 1
/// otherwise.
pub fn field_degree(f: u64) -> Result<u32, Refusal> {
    match degree(f) {
        Some(n) if (2..=MAX_DEGREE).contains(&n) => Ok(n),
        _ => Err(Refusal::new(1)),
    }
}

/// Whether some polynomial of degree 1 to n-1 divides f, n at least 1.
pub fn has_divisor(f: u64) -> bool {
    common_divisor(f, derivative(f)) != 1 || fixed_space(f).len() != 1
}

/// A basis of the space of all g below f with g^2 = g modulo f.
///
/// Squaring is linear, so a sum of powers x^i is in the space exactly where the
/// vectors (x^i)^2 + x^i of the same i sum to zero.
pub fn fixed_space(f: u64) -> Vec<u64> {
    let n = degree(f).expect("f is not zero");
    // kept[d] is a vector of degree d beside the powers that it is made of, or
    // zeros where there is none yet.
    let mut kept = [(0u64, 0u64); 64];
    let mut fixed = Vec::new();
    for power in (0..n).map(|i| 1 << i) {
        let (mut vector, mut powers) = (squared(f, power) ^ power, power);
        while let Some(d) = degree(vector).map(|d| d as usize) {
            if kept[d] == (0, 0) {
                kept[d] = (vector, powers);
                break;
            }
            vector ^= kept[d].0;
            powers ^= kept[d].1;
        }
        if vector == 0 {
            fixed.push(powers);
        }
    }
    fixed
}

/// What x becomes modulo f where it is squared n times in a row, n at least 2.
pub fn x_became(f: u64) -> u64 {
    let n = degree(f).expect("f is not zero");
    (0..n).fold(2, |power, _| squared(f, power))
}

/// The conditions 2 and 3, for an f that passed 1.
pub fn refuse_unaccepted(f: u64) -> Result<(), Refusal> {
    refuse_if(has_divisor(f), 2)?;
    refuse_if(x_became(f) != 2, 3)
}

#[cfg(test)]
mod tests {
    use super::*;
    use crate::polynomial::remainder;

    fn has_divisor_by_trial(f: u64) -> bool {
        // A divisor has a cofactor, and one of the two has half the degree.
        let half = degree(f).unwrap() / 2;
        (2..1 << (half + 1)).any(|d| remainder(f, d) == 0)
    }

    #[test]
    fn divisor_as_by_trial() {
        for f in 4..1 << 15 {
            assert_eq!(has_divisor(f), has_divisor_by_trial(f), "f = {}", f);
        }
    }

    #[test]
    fn divisor_as_by_trial_at_higher_degrees() {
        for n in 15..26 {
            for low in 0..40 {
                let f = (1 << n) + (low * 0x9e37_79b9) % (1 << n);
                assert_eq!(has_divisor(f), has_divisor_by_trial(f), "f = {}", f);
            }
        }
    }

    #[test]
    fn irreducible_counts_of_small_degrees() {
        // The known number of irreducible polynomials of degrees 2 to 12.
        let known = [1, 2, 3, 6, 9, 18, 30, 56, 99, 186, 335];
        for (n, count) in (2..).zip(known) {
            let met = (1u64 << n..1 << (n + 1)).filter(|f| !has_divisor(*f));
            assert_eq!(met.count(), count, "degree {}", n);
        }
    }

    #[test]
    fn no_polynomial_earns_refusal_3() {
        for f in 4..1 << 13 {
            assert!(has_divisor(f) || x_became(f) == 2, "f = {}", f);
        }
    }
}
