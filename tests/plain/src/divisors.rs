//! The smallest divisor of f, which is the cause of refusal 2 (document 02, §5):
//! "the smallest divisor of degree at least 1 as a number".
//!
//! [`first_divisor`] walks over all numbers from 2 upward, as the sentence has
//! it; [`factors`] finds the irreducible polynomials that divide f;
//! [`smallest_divisor`] takes the walk where it is short, else the smallest
//! factor.
//!
//! The smallest divisor is irreducible: a divisor with a divisor of its own is
//! not the smallest. The tests hold the two ways against each other.

use crate::accepted::fixed_space;
use crate::polynomial::{common_divisor, degree, derivative, quotient, remainder, square_root};

/// Up to this degree the walk is short: where f is reducible, some divisor has
/// at most half the degree, and so is below 2^13.
pub const WALKED: u32 = 24;

/// The smallest divisor of f of degree at least 1; f itself where f is
/// irreducible. The degree of f is at least 1.
pub fn smallest_divisor(f: u64) -> u64 {
    if degree(f) <= Some(WALKED) {
        return first_divisor(f);
    }
    let smallest = factors(f).into_iter().min();
    smallest.expect("f has a factor")
}

/// The first number from 2 on that divides f.
pub fn first_divisor(f: u64) -> u64 {
    let first = (2..=f).find(|d| remainder(f, *d) == 0);
    first.expect("f divides itself")
}

/// The irreducible polynomials that divide f, each once, in no order.
///
/// f is a product of powers of them. A g with g^2 = g modulo f is 0 or 1 modulo
/// each of these powers, and for any two of them some g of a basis is 0 modulo
/// one and 1 modulo the other. So common divisors with g and g + 1 take f apart.
pub fn factors(f: u64) -> Vec<u64> {
    let mut powers = vec![f];
    for g in fixed_space(f) {
        let halves = |power: &u64| [g, g ^ 1].map(|half| common_divisor(*power, half));
        powers = powers.iter().flat_map(halves).collect();
        powers.retain(|power| *power != 1);
    }
    powers.into_iter().map(root).collect()
}

/// The irreducible p of a power p^e, e at least 1.
///
/// The derivative is zero where e is even, and then the power is a square. Where
/// e is odd the derivative has p^(e-1) in common with the power.
fn root(power: u64) -> u64 {
    match derivative(power) {
        0 => root(square_root(power)),
        slope => quotient(power, common_divisor(power, slope)),
    }
}

#[cfg(test)]
mod tests {
    use super::*;
    use crate::accepted::has_divisor;

    #[test]
    fn small_numbers() {
        assert_eq!(smallest_divisor(5), 3);
        // x^8+x^2+1 is (x^4+x+1)^2: "Readings that lead astray".
        assert_eq!(smallest_divisor(261), 19);
        assert_eq!(factors(261), [19]);
        // x^46 is divided by x, x^46 + 1 by x + 1.
        assert_eq!(smallest_divisor(1 << 46), 2);
        assert_eq!(smallest_divisor((1 << 46) + 1), 3);
        // An irreducible f is its own only divisor.
        assert_eq!(smallest_divisor(19), 19);
        assert_eq!(smallest_divisor((1 << 46) + 3), (1 << 46) + 3);
    }

    /// What divides f, is irreducible, and is not divided away by the others.
    fn by_trial(f: u64) -> Vec<u64> {
        let mut rest = f;
        let mut all = Vec::new();
        while rest != 1 {
            let d = first_divisor(rest);
            if all.last() != Some(&d) {
                all.push(d);
            }
            rest = quotient(rest, d);
        }
        all
    }

    #[test]
    fn factors_as_by_trial() {
        for f in 2..1 << 13 {
            let mut met = factors(f);
            met.sort_unstable();
            assert_eq!(met, by_trial(f), "f = {}", f);
        }
    }

    /// Two ways to the smallest divisor, at every degree where the walk is short
    /// and at some above.
    #[test]
    fn the_smallest_factor_is_the_first_divisor() {
        for n in 12..30 {
            for low in 0..200u64 {
                let f = (1 << n) + low.wrapping_mul(0x9e37_79b9_7f4a_7c15) % (1 << n);
                let smallest = factors(f).into_iter().min().unwrap();
                // An irreducible f would be walked to its end.
                if smallest < 1 << 15 {
                    assert_eq!(smallest, first_divisor(f), "f = {}", f);
                } else {
                    assert!(n > WALKED || smallest == f);
                    assert!(!has_divisor(smallest) && remainder(f, smallest) == 0);
                }
                assert_eq!(smallest == f, !has_divisor(f));
            }
        }
    }

    /// The product without reduction.
    fn long_product(a: u64, b: u64) -> u64 {
        (0..47)
            .filter(|i| b >> i & 1 == 1)
            .fold(0, |sum, i| sum ^ (a << i))
    }

    /// Irreducible polynomials of a degree, from eight places all over it.
    fn irreducible(m: u32) -> Vec<u64> {
        let from = |i: u64| (1 << m) + (i << (m - 3));
        let next = |i| (from(i)..).find(|p| !has_divisor(*p));
        (0..8).filter_map(next).collect()
    }

    /// Two irreducible polynomials of degree 15 or 23, and the square of either:
    /// no small number divides the product.
    #[test]
    fn two_large_factors_are_told_apart() {
        for m in [15, 23] {
            let some = irreducible(m);
            for (p, q) in some.iter().flat_map(|p| some.iter().map(move |q| (p, q))) {
                let f = long_product(*p, *q);
                assert_eq!(degree(f), Some(2 * m));
                assert_eq!(smallest_divisor(f), *p.min(q), "{} {}", p, q);
                if m == 15 {
                    assert_eq!(first_divisor(f), *p.min(q));
                }
            }
        }
    }
}
