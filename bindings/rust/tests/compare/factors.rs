//! Polynomials of known factors: the kinds of f that something divides, each
//! with the smallest factor that it has by its making; and divisors of x^n + 1.
//!
//! The smallest divisor of a product of irreducible polynomials is the smallest
//! of these: a divisor of degree 1 or more has one of them as a factor.

use crate::fields::{any_accepted, polynomial, product};
use crate::random::Random;
use plain::divisors::factors;
use plain::polynomial::{quotient, remainder};

/// A polynomial and its smallest factor. There is none where chance decides it;
/// such a polynomial can be irreducible.
pub type Divided = (u64, Option<u64>);

/// A kind of polynomial of degree n, 2 or more.
pub type Kind = (&'static str, fn(u32, &mut Random) -> Divided);

/// All kinds.
pub const KINDS: [Kind; 11] = [
    ("two factors of half the degree", two_halves),
    ("three factors of a third", three_thirds),
    ("four factors of a quarter", four_quarters),
    ("a square", square),
    ("a power", power),
    ("a power of x", power_of_x),
    ("x^n + 1", x_n_plus_1),
    ("many small factors", many_small),
    ("a small factor and a large one", small_and_large),
    ("two factors of unequal degree", unequal),
    ("any polynomial", any),
];

/// The product of irreducible polynomials.
fn made_of(factors: &[u64]) -> Divided {
    let f = factors.iter().fold(1, |f, factor| product(f, *factor));
    (f, factors.iter().copied().min())
}

/// So many irreducible factors of nearly the same degree; fewer where n is
/// smaller.
fn nearly_equal(n: u32, count: u32, random: &mut Random) -> Divided {
    let degrees = (0..count).map(|i| (n + i) / count);
    let factors = degrees.filter(|m| *m != 0).map(|m| any_accepted(m, random));
    made_of(&factors.collect::<Vec<u64>>())
}

fn two_halves(n: u32, random: &mut Random) -> Divided {
    nearly_equal(n, 2, random)
}

fn three_thirds(n: u32, random: &mut Random) -> Divided {
    nearly_equal(n, 3, random)
}

fn four_quarters(n: u32, random: &mut Random) -> Divided {
    nearly_equal(n, 4, random)
}

/// The square of an irreducible polynomial or of a product of two, and one more
/// factor where n is odd.
fn square(n: u32, random: &mut Random) -> Divided {
    let half = n / 2;
    let low = random.below(u64::from(half)) as u32;
    let degrees = [low, half - low].into_iter().filter(|m| *m != 0);
    let mut factors: Vec<u64> = degrees.map(|m| any_accepted(m, random)).collect();
    factors.extend_from_within(..);
    if n % 2 == 1 {
        factors.push(any_accepted(1, random));
    }
    made_of(&factors)
}

/// A power of one irreducible polynomial.
fn power(n: u32, random: &mut Random) -> Divided {
    let degrees: Vec<u32> = (1..n).filter(|m| n % m == 0).collect();
    let m = random.pick(&degrees);
    made_of(&vec![any_accepted(m, random); (n / m) as usize])
}

fn power_of_x(n: u32, _: &mut Random) -> Divided {
    (1 << n, Some(2))
}

/// x + 1 divides it, and x does not.
fn x_n_plus_1(n: u32, _: &mut Random) -> Divided {
    ((1 << n) + 1, Some(3))
}

/// Factors of degree 1 to 4, some of them several times.
fn many_small(n: u32, random: &mut Random) -> Divided {
    let (mut left, mut factors) = (n, Vec::new());
    while left > 0 {
        let most = (n - 1).min(left).min(4);
        let m = 1 + random.below(u64::from(most)) as u32;
        factors.push(any_accepted(m, random));
        left -= m;
    }
    made_of(&factors)
}

/// Either is irreducible, and the small one has any degree up to half of n.
fn small_and_large(n: u32, random: &mut Random) -> Divided {
    let m = 1 + random.below(u64::from(n / 2)) as u32;
    made_of(&[any_accepted(m, random), any_accepted(n - m, random)])
}

/// The degrees are as near as may be; at degree 2 they are the same.
fn unequal(n: u32, random: &mut Random) -> Divided {
    let m = ((n - 1) / 2).max(1);
    made_of(&[any_accepted(n - m, random), any_accepted(m, random)])
}

fn any(n: u32, random: &mut Random) -> Divided {
    (polynomial(n, random), None)
}

/// Any divisor of x^n + 1 but itself, beside its cofactor.
pub fn of_x_n_plus_1(n: u32, random: &mut Random) -> (u64, u64) {
    let whole = (1 << n) + 1;
    let (mut divisor, mut rest) = (1, whole);
    for factor in factors(whole) {
        let more = |rest| remainder(rest, factor) == 0 && rest != factor;
        while more(rest) && random.once_in(2) {
            divisor = product(divisor, factor);
            rest = quotient(rest, factor);
        }
    }
    assert_eq!(product(divisor, rest), whole);
    (divisor, rest)
}
