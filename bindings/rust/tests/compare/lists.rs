//! Converting lists both ways: short, long, empty, bad, of differing lengths.
//!
//! A value of 2^n or more is refused on the way to polynomials, and reduced on
//! the way from there.

use crate::damage::{damaged, invented};
use crate::fields::{Field, Fields, WIDEST};
use crate::pair::Pair;
use crate::random::Random;
use sabrentuglio::MAX_LIST;

/// Runs the group.
pub fn run(pair: &mut Pair, random: &mut Random, fields: &Fields) {
    for field in fields.all() {
        let sheet = &field.any(random).sheet;
        good(pair, random, field.n, sheet);
        large_values(pair, random, field.n, sheet);
        differing_lengths(pair, random, field.n, sheet);
        bad_sheets(pair, random, field);
    }
    for n in [2, 13, 32, WIDEST] {
        let sheet = &fields.of(n).any(random).sheet;
        around_the_longest(pair, random, n, sheet);
    }
}

/// Lists that are converted, on a built sheet and on one with any rows.
fn good(pair: &mut Pair, random: &mut Random, n: u32, sheet: &[u8]) {
    let tail = random.element(n);
    let any_rows = invented(n, tail, random);
    for length in [0, 1, 2, 3, 8, 60] {
        let (from, into) = (random.elements(n, length), random.elements(WIDEST, length));
        pair.lists(sheet, &from, &into);
        pair.lists(&any_rows, &from, &into);
    }
}

/// One value of 2^n or more, at either end and in between, and several.
fn large_values(pair: &mut Pair, random: &mut Random, n: u32, sheet: &[u8]) {
    let length = 2 + random.index(40);
    let good = random.elements(n, length);
    let into = random.elements(WIDEST, length);
    for place in [0, length - 1, random.index(length)] {
        let mut from = good.clone();
        from[place] = 1 << n;
        pair.lists(sheet, &from, &into);
        from[random.index(length)] = u64::MAX;
        pair.lists(sheet, &from, &into);
        // 11 comes before 4.
        pair.lists(sheet, &from, &into[1..]);
    }
    let from: Vec<u64> = (0..length).map(|_| random.operand(n)).collect();
    pair.lists(sheet, &from, &into);
    pair.lists(sheet, &vec![u64::MAX; length], &into);
}

/// The destination shorter or longer, either of them empty.
fn differing_lengths(pair: &mut Pair, random: &mut Random, n: u32, sheet: &[u8]) {
    let length = 2 + random.index(20);
    let from = random.elements(n, length);
    for room in [0, 1, length - 1, length + 1, length + 50] {
        let into = random.elements(WIDEST, room);
        pair.lists(sheet, &from, &into);
        pair.lists(sheet, &[], &into);
    }
}

/// The sheet's fault comes before all faults of the lists.
fn bad_sheets(pair: &mut Pair, random: &mut Random, field: &Field) {
    let sheet = &field.any(random).sheet;
    for _ in 0..6 {
        let mut sheet = damaged(sheet, random);
        if random.once_in(6) {
            sheet.truncate(random.index(sheet.len()));
        }
        let (count, room) = (random.index(4), random.index(4));
        let from: Vec<u64> = (0..count).map(|_| random.operand(field.n)).collect();
        pair.lists(&sheet, &from, &random.elements(WIDEST, room));
        pair.lists(&sheet, &from, &from);
    }
}

/// The longest list is converted, one with a value more is not.
fn around_the_longest(pair: &mut Pair, random: &mut Random, n: u32, sheet: &[u8]) {
    let (below, above, far) = (MAX_LIST - 1, MAX_LIST + 1, 5_000);
    let from = random.elements(n, far);
    let into = random.elements(WIDEST, far);
    for length in [below, MAX_LIST, above, far] {
        pair.lists(sheet, &from[..length], &into[..length]);
    }
    let differing = [
        (MAX_LIST, above),
        (above, MAX_LIST),
        (MAX_LIST, below),
        (0, far),
        (far, 0),
    ];
    for (count, room) in differing {
        pair.lists(sheet, &from[..count], &into[..room]);
    }
    for place in [0, below - 1, below, MAX_LIST] {
        let mut large = from.clone();
        large[place] = u64::MAX;
        pair.lists(sheet, &large[..MAX_LIST], &into[..MAX_LIST]);
        pair.lists(sheet, &large[..above], &into[..above]);
    }
    pair.lists(&sheet[1..], &from, &into[..1]);
}
