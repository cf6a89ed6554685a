//! Searching: small fields as a whole and in parts, large ones over short
//! ranges.

use crate::fields::{wrong_degree, Field, Fields};
use crate::pair::Pair;
use crate::random::Random;

/// Runs the group.
pub fn run(pair: &mut Pair, random: &mut Random, fields: &Fields) {
    every_small_range(pair);
    for field in fields.all() {
        let f = field.any(random).f;
        match field.n {
            2..=9 => whole(pair, random, field),
            10..=12 => pair.search(f, 0, (1 << field.n) - 1),
            _ => short_ranges(pair, random, field),
        }
        refused(pair, random, field);
    }
}

/// Every range of every field up to degree 4, the ends one past it included.
fn every_small_range(pair: &mut Pair) {
    for f in 0..1 << 5 {
        for first in 0..=1 << 4 {
            for last in 0..=1 << 4 {
                pair.search(f, first, last);
            }
        }
    }
}

/// The whole field, its parts at a cut, and single elements.
fn whole(pair: &mut Pair, random: &mut Random, field: &Field) {
    let end = (1 << field.n) - 1;
    for f in field.polynomials() {
        pair.search(f, 0, end);
        let cut = random.below(end);
        pair.search(f, 0, cut);
        pair.search(f, cut + 1, end);
        for _ in 0..10 {
            let (a, b) = (random.element(field.n), random.element(field.n));
            pair.search(f, a.min(b), a.max(b));
            pair.search(f, a, a);
        }
    }
}

/// Leaders are frequent among small elements and rare among large ones.
fn short_ranges(pair: &mut Pair, random: &mut Random, field: &Field) {
    let end = (1 << field.n) - 1;
    for basis in &field.bases {
        let f = basis.f;
        let first = random.below(200);
        pair.search(f, first, first + 24);
        let first = random.below(1 << (field.n / 2));
        pair.search(f, first, first + 24);
        let first = random.element(field.n - 1);
        pair.search(f, first, first + 24);
        pair.search(f, end - 12, end);
        pair.search(f, basis.element, basis.element);
        // The leader of a known normal element is found, alone in its range.
        let leader = plain::basis::conjugates(f, basis.element)
            .into_iter()
            .min()
            .expect("a field has conjugates");
        pair.search(f, leader, leader);
    }
    pair.search(field.any(random).f, 0, 60);
}

/// Every refusal, and several causes at once.
fn refused(pair: &mut Pair, random: &mut Random, field: &Field) {
    let n = field.n;
    let size = 1 << n;
    let first = 1 + random.below(size - 1);
    let divided = random.pick(&field.divided);
    for f in [field.any(random).f, divided, wrong_degree(random)] {
        pair.search(f, first, first - 1);
        pair.search(f, size - 1, 0);
        pair.search(f, 0, size);
        pair.search(f, size, size);
        pair.search(f, size, 0);
        pair.search(f, u64::MAX, u64::MAX);
        pair.search(f, 1, u64::MAX);
    }
    pair.search(divided, 0, size - 1);
    pair.search(divided, first - 1, first);
}
