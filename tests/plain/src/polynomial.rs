//! Polynomials over the two-element field as 64-bit numbers, bit i the
//! coefficient of x^i (document 01, "Two notations").
//!
//! [`degree`], [`remainder`], [`quotient`], [`common_divisor`], [`derivative`],
//! [`square_root`]; then [`product`] and [`squared`] modulo f.

/// The degree; `None` for the zero polynomial.
pub fn degree(a: u64) -> Option<u32> {
    63u32.checked_sub(a.leading_zeros())
}

/// What is left of `a` after division by `b`, which is not zero.
pub fn remainder(mut a: u64, b: u64) -> u64 {
    let below = degree(b).expect("a divisor is not zero");
    while let Some(above) = degree(a) {
        if above < below {
            break;
        }
        a ^= b << (above - below);
    }
    a
}

/// How often `b`, which is not zero, goes into `a`.
pub fn quotient(mut a: u64, b: u64) -> u64 {
    let below = degree(b).expect("a divisor is not zero");
    let mut sum = 0;
    while let Some(above) = degree(a) {
        if above < below {
            break;
        }
        a ^= b << (above - below);
        sum |= 1 << (above - below);
    }
    sum
}

/// The greatest common divisor, by Euclid.
pub fn common_divisor(mut a: u64, mut b: u64) -> u64 {
    while b != 0 {
        let rest = remainder(a, b);
        a = b;
        b = rest;
    }
    a
}

/// The formal derivative: in characteristic 2 only odd powers leave a term.
pub fn derivative(a: u64) -> u64 {
    const ODD: u64 = 0xaaaa_aaaa_aaaa_aaaa;
    (a & ODD) >> 1
}

/// The polynomial whose square is `a`, which has even powers alone.
pub fn square_root(a: u64) -> u64 {
    (0..32).fold(0, |sum, i| sum | (a >> (2 * i) & 1) << i)
}

/// `a` times `b` modulo `f`, both of smaller degree than `f`.
///
/// It goes through `b` from its highest power and reduces after each shift,
/// since the whole product would not fit into 64 bits above degree 32.
pub fn product(f: u64, a: u64, b: u64) -> u64 {
    let n = degree(f).expect("f is not zero");
    let mut sum = 0;
    for i in (0..n).rev() {
        sum <<= 1;
        if sum >> n & 1 == 1 {
            sum ^= f;
        }
        if b >> i & 1 == 1 {
            sum ^= a;
        }
    }
    sum
}

/// `a` times `a` modulo `f`.
pub fn squared(f: u64, a: u64) -> u64 {
    product(f, a, a)
}

#[cfg(test)]
mod tests {
    use super::*;

    #[test]
    fn degrees() {
        assert_eq!(degree(0), None);
        assert_eq!(degree(1), Some(0));
        assert_eq!(degree(19), Some(4));
        assert_eq!(degree(u64::MAX), Some(63));
    }

    /// The product without reduction, where it fits.
    fn long_product(a: u64, b: u64) -> u64 {
        (0..32)
            .filter(|i| b >> i & 1 == 1)
            .fold(0, |sum, i| sum ^ (a << i))
    }

    #[test]
    fn product_is_the_remainder_of_the_long_product() {
        for f in 4..128 {
            let size = 1 << degree(f).unwrap();
            for a in 0..size {
                for b in 0..size {
                    assert_eq!(product(f, a, b), remainder(long_product(a, b), f));
                }
            }
        }
    }

    #[test]
    fn quotient_and_remainder_make_the_dividend() {
        for a in 0..1 << 9 {
            for b in 1..1 << 6 {
                let back = long_product(quotient(a, b), b) ^ remainder(a, b);
                assert_eq!(back, a, "{} over {}", a, b);
                assert!(degree(remainder(a, b)) < degree(b));
            }
        }
        assert_eq!(quotient(u64::MAX, 1), u64::MAX);
    }

    /// The same said otherwise: the sum of what is left of each power of x,
    /// from 1 upward, each x times the one before it.
    fn sum_of_powers(a: u64, b: u64) -> u64 {
        let times_x = |power: u64| remainder(power << 1, b);
        let powers = std::iter::successors(Some(remainder(1, b)), |power| Some(times_x(*power)));
        let picked = powers.take(64).enumerate();
        picked.fold(0, |sum, (i, power)| sum ^ (power * (a >> i & 1)))
    }

    #[test]
    fn remainders_of_the_largest_numbers() {
        let numbers = [u64::MAX, 1 << 63, u64::MAX >> 1, 0x9e37_79b9_7f4a_7c15];
        for n in 2..=46 {
            for b in [1 << n, (1 << n) + 1, (1 << n) + 3, (2 << n) - 1] {
                for a in numbers {
                    assert_eq!(remainder(a, b), sum_of_powers(a, b), "{} over {}", a, b);
                }
                assert_eq!(remainder(b, b), 0);
                assert_eq!(remainder(b << (63 - n), b), 0);
                assert_eq!(remainder(b << (63 - n) ^ b ^ 3, b), 3);
            }
        }
    }

    #[test]
    fn square_root_of_a_square() {
        for a in [0, 1, 2, 19, 0xffff_ffff, 0x9e37_79b9] {
            assert_eq!(square_root(long_product(a, a)), a);
        }
    }

    #[test]
    fn common_divisor_divides_both() {
        let a = long_product(19, 11);
        let b = long_product(19, 7);
        assert_eq!(common_divisor(a, b), 19);
        assert_eq!(common_divisor(0, 19), 19);
    }

    #[test]
    fn derivative_of_a_square_is_zero() {
        assert_eq!(derivative(long_product(19, 19)), 0);
        assert_eq!(derivative(0b1011), 0b101);
    }
}
