//! The calls in the polynomial notation: check, multiply, square, trace.

use crate::fields::{polynomial, wrong_degree, Field, Fields, WIDEST};
use crate::pair::Pair;
use crate::random::Random;

/// Runs the group.
pub fn run(pair: &mut Pair, random: &mut Random, fields: &Fields) {
    every_small_polynomial(pair);
    powers_of_two(pair);
    for field in fields.all() {
        checks(pair, random, field);
        operands(pair, random, field);
    }
    for _ in 0..300 {
        let f = wrong_degree(random);
        let (a, b) = (random.operand(WIDEST), random.operand(WIDEST));
        pair.check(f);
        ask(pair, f, a, b);
    }
}

fn ask(pair: &mut Pair, f: u64, a: u64, b: u64) {
    pair.multiply(f, a, b);
    pair.square(f, a);
    pair.trace(f, a);
}

/// All f up to degree 10; up to degree 4 with all operands, one past the field
/// included.
fn every_small_polynomial(pair: &mut Pair) {
    for f in 0..1 << 11 {
        pair.check(f);
    }
    for f in 0..1 << 5 {
        for a in 0..=1 << 4 {
            for b in 0..=1 << 4 {
                pair.multiply(f, a, b);
            }
            pair.square(f, a);
            pair.trace(f, a);
        }
    }
}

/// The edges of every degree, and of those the desk does not know.
fn powers_of_two(pair: &mut Pair) {
    for k in 0..64 {
        let power = 1u64 << k;
        for f in [power - 1, power, power + 1, power | 3, !power] {
            pair.check(f);
            ask(pair, f, power, power - 1);
            ask(pair, f, power >> 1, (power >> 1).wrapping_sub(1));
        }
    }
    ask(pair, u64::MAX, u64::MAX, u64::MAX);
    // 003's table 6 in document 01: pairs of even numbers are squares.
    for (n, k) in [(8, 2), (12, 2), (46, 1)] {
        pair.check((1 << n) + (1 << k) + 1);
    }
}

fn checks(pair: &mut Pair, random: &mut Random, field: &Field) {
    for f in field.polynomials().iter().chain(&field.divided) {
        pair.check(*f);
        // One term more or less.
        pair.check(f ^ 1 << random.below(u64::from(field.n)));
    }
    for _ in 0..200 {
        pair.check(polynomial(field.n, random));
    }
}

fn operands(pair: &mut Pair, random: &mut Random, field: &Field) {
    let n = field.n;
    for f in field.polynomials().iter().chain(&field.divided) {
        for _ in 0..24 {
            pair.multiply(*f, random.operand(n), random.operand(n));
            pair.square(*f, random.operand(n));
        }
        for _ in 0..6 {
            pair.trace(*f, random.operand(n));
        }
        // Each operand alone unreduced, and both.
        let size = 1 << n;
        for (a, b) in [(size, size - 1), (size - 1, size), (size, size)] {
            ask(pair, *f, a, b);
        }
    }
    // Squares of single powers: each entry of a table of spreads has its turn.
    let f = field.any(random).f;
    for i in 0..n {
        pair.square(f, 1 << i);
        pair.square(f, (1 << (i + 1)) - 1);
    }
}
