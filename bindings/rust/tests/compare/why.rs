//! Why a sheet is refused: the divisors of f, the conjugates that sum to zero,
//! each field of each record, and several causes at once.
//!
//! What the cause is follows from the making of the sheet, and is held against
//! the answer beside what `plain` says.

use crate::damage::{bad_sheets, invented, number_in, put, Column, CONJUGATE, ROWS};
use crate::factors::{of_x_n_plus_1, KINDS};
use crate::fields::{Basis, Fields, WIDEST};
use crate::pair::Pair;
use crate::random::Random;
use plain::accepted::has_divisor;
use plain::basis::{conjugates, sum_of_picked};
use plain::polynomial::{degree, remainder};
use plain::Cause;
use sabrentuglio::RECORD_LENGTH;

/// Causes worked out by hand: f, the element, the refusal and its cause.
const KNOWN: [(u64, u64, u64, u64); 8] = [
    (5, 0, 2, 3),
    (5, 2, 2, 3),
    // x^8 + x^2 + 1 is (x^4 + x + 1)^2.
    (261, 1, 2, 19),
    (1 << WIDEST, 1, 2, 2),
    (7, 0, 5, 1),
    (7, 1, 5, 3),
    (11, 0, 5, 1),
    // 2, 4 and 6 sum to zero.
    (11, 2, 5, 7),
];

/// Runs the group.
pub fn run(pair: &mut Pair, random: &mut Random, fields: &Fields) {
    known(pair, random);
    every_small_sheet(pair, random);
    for field in fields.all() {
        divisors(pair, random, field.n);
        divisors(pair, random, field.n);
        for basis in &field.bases {
            dependencies(pair, random, field.n, basis);
            each_field(pair, random, field.n, basis);
            several_fields(pair, random, field.n, basis);
        }
        for sheet in &bad_sheets(random, field) {
            pair.why(sheet);
        }
    }
    // Two factors of degree 23, three of degree 15: no small number divides f.
    for _ in 0..50 {
        divisors(pair, random, WIDEST);
        divisors(pair, random, WIDEST - 1);
    }
}

/// The answer of a refusal at place 0 that has a number for its cause.
fn of_number(number: u64, cause: u64) -> Cause {
    Cause {
        number,
        cause,
        ..Cause::default()
    }
}

/// A refusal that has no cause beyond its number and place.
fn of_shape(number: u64, place: usize) -> Cause {
    Cause {
        number,
        place: place as u64,
        ..Cause::default()
    }
}

/// A sheet of f and an element with right heads and any other rows.
fn headed(f: u64, element: u64, random: &mut Random) -> Vec<u8> {
    let n = degree(f).expect("f is not zero");
    let mut sheet = invented(n, f ^ 1 << n, random);
    put(&mut sheet, 0, CONJUGATE, element);
    sheet
}

fn known(pair: &mut Pair, random: &mut Random) {
    for (f, element, number, cause) in KNOWN {
        let sheet = headed(f, element, random);
        assert_eq!(pair.why(&sheet), of_number(number, cause));
    }
}

/// All f of degrees 2 to 6 with all elements.
fn every_small_sheet(pair: &mut Pair, random: &mut Random) {
    for f in 4..1 << 7 {
        for element in 0..1 << degree(f).expect("f is not zero") {
            let sheet = headed(f, element, random);
            pair.why(&sheet);
        }
    }
}

/// Refusal 2 for each kind of f. What is found divides f and is irreducible; it
/// is the smallest by the making of f, and by a walk over all numbers in `plain`
/// up to degree 24.
fn divisors(pair: &mut Pair, random: &mut Random, n: u32) {
    for (name, kind) in KINDS {
        let (f, smallest) = kind(n, random);
        assert_eq!(degree(f), Some(n), "{}", name);
        let sheet = headed(f, random.element(n), random);
        let answer = pair.why(&sheet);
        if let Some(smallest) = smallest {
            assert_eq!(answer, of_number(2, smallest), "{}, f {}", name, f);
        }
        if answer.number == 2 {
            assert_eq!(remainder(f, answer.cause), 0, "{}, f {}", name, f);
            assert!(!has_divisor(answer.cause), "{}, f {}", name, f);
            pair.tally.count_kind(name);
        }
    }
}

/// Refusal 5 for elements whose smallest set of conjugates is known.
///
/// The bits of g select a sum of a normal basis, those of h a sum of conjugates
/// of this sum. Conjugate n is conjugate 0 again, so that the second sum is zero
/// exactly where x^n + 1 divides the polynomial g times h. Where g times s is
/// x^n + 1, these h are the multiples of s, and s is the smallest.
fn dependencies(pair: &mut Pair, random: &mut Random, n: u32, basis: &Basis) {
    let mut of_basis = conjugates(basis.f, basis.element);
    of_basis.push(basis.element);
    // The element 1 is the sum of the whole basis.
    let zero_and_one = [(1, 0), (3, (1 << n) - 1)];
    let drawn = [(); 4].map(|()| of_x_n_plus_1(n, random));
    for (smallest, selected) in zero_and_one.into_iter().chain(drawn) {
        let element = sum_of_picked(&of_basis, selected);
        let mut near = basis.sheet.clone();
        put(&mut near, 0, CONJUGATE, element);
        for sheet in [near, headed(basis.f, element, random)] {
            assert_eq!(pair.why(&sheet), of_number(5, smallest), "f {}", basis.f);
        }
    }
}

/// The answer where this is the first field that differs: the record, the field
/// counted from 0 in byte order, and what stands there now.
fn of_field(record: usize, field: usize, stored: u64, right: u64) -> Cause {
    Cause {
        number: 10,
        place: record as u64,
        field: field as u64 + 1,
        stored,
        right,
        ..Cause::default()
    }
}

/// All fields that reading rebuilds, in byte order: record, field and column.
/// Record 0's conjugate is what the rebuilding starts from.
fn rebuilt(n: u32) -> Vec<(usize, usize, Column)> {
    let of_record = |record| (0..).zip(ROWS).map(move |(field, at)| (record, field, at));
    (0..n as usize).flat_map(of_record).skip(1).collect()
}

/// Another number below 2^n than the one that is right: one bit over, or any.
fn another(right: u64, n: u32, random: &mut Random) -> u64 {
    match random.once_in(2) {
        true => right ^ 1 << random.below(u64::from(n)),
        false => right ^ (1 + random.below((1 << n) - 1)),
    }
}

/// Each field of each record alone.
fn each_field(pair: &mut Pair, random: &mut Random, n: u32, basis: &Basis) {
    for (record, field, column) in rebuilt(n) {
        let right = number_in(&basis.sheet, record, column);
        let stored = another(right, n, random);
        let mut sheet = basis.sheet.clone();
        put(&mut sheet, record, column, stored);
        assert_eq!(pair.why(&sheet), of_field(record, field, stored, right));
    }
}

/// Two to four fields, in one record or in several: the first counts. Then all
/// fields from one on.
fn several_fields(pair: &mut Pair, random: &mut Random, n: u32, basis: &Basis) {
    let all = rebuilt(n);
    for _ in 0..8 {
        let mut some = vec![random.index(all.len())];
        for _ in 0..=random.below(3) {
            // Often one that stands near.
            let near = (some[0] + random.index(3)).min(all.len() - 1);
            let far = random.index(all.len());
            some.push(random.pick(&[near, far]));
        }
        first_counts(pair, random, n, basis, &some);
    }
    let from: Vec<usize> = (random.index(all.len())..all.len()).collect();
    first_counts(pair, random, n, basis, &from);
}

/// Spoils these of the fields that reading rebuilds.
fn first_counts(pair: &mut Pair, random: &mut Random, n: u32, basis: &Basis, some: &[usize]) {
    let all = rebuilt(n);
    let mut sheet = basis.sheet.clone();
    for (record, _, column) in some.iter().map(|index| all[*index]) {
        let right = number_in(&basis.sheet, record, column);
        put(&mut sheet, record, column, another(right, n, random));
    }
    let first = some.iter().min().expect("some field is spoilt");
    let (record, field, column) = all[*first];
    let numbers = [&sheet, &basis.sheet].map(|sheet| number_in(sheet, record, column));
    let expected = of_field(record, field, numbers[0], numbers[1]);
    assert_eq!(pair.why(&sheet), expected);
    // Before 10 come 5, 9, 8 and 7, whatever the fields are.
    put(&mut sheet, 0, CONJUGATE, 0);
    assert_eq!(pair.why(&sheet), of_number(5, 1));
    let last = sheet.len() - 1;
    let place = n as usize - 1;
    assert_eq!(pair.why(&sheet[..last]), of_shape(7, 0));
    sheet[last] = 0xff;
    assert_eq!(pair.why(&sheet), of_shape(9, place));
    sheet[last + 1 - RECORD_LENGTH] ^= 1;
    assert_eq!(pair.why(&sheet), of_shape(8, place));
}
