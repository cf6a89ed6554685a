//! Building: into buffers too short, exact and longer, that come with any
//! content.

use crate::fields::{wrong_degree, Field, Fields};
use crate::pair::Pair;
use crate::random::Random;
use sabrentuglio::{MAX_DEGREE, RECORD_LENGTH};

/// The length of the longest sheet.
const LONGEST: usize = RECORD_LENGTH * MAX_DEGREE;

/// Runs the group.
pub fn run(pair: &mut Pair, random: &mut Random, fields: &Fields) {
    every_small_sheet(pair, random);
    for field in fields.all() {
        good(pair, random, field);
        elements(pair, random, field);
        rooms(pair, random, field);
    }
    for _ in 0..100 {
        let buffer = random.bytes(LONGEST);
        let room = random.index(LONGEST + 1);
        pair.build(wrong_degree(random), random.number(), &buffer[..room]);
    }
}

/// All f up to degree 5 with all elements, one past the field included.
fn every_small_sheet(pair: &mut Pair, random: &mut Random) {
    let buffer = random.bytes(RECORD_LENGTH * 5 + 3);
    for f in 0..1 << 6 {
        for element in 0..=1 << 5 {
            pair.build(f, element, &buffer);
        }
    }
}

/// The known normal elements, the buffer exact, one byte longer and as long as
/// the longest sheet.
fn good(pair: &mut Pair, random: &mut Random, field: &Field) {
    let exact = RECORD_LENGTH * field.n as usize;
    for basis in &field.bases {
        for room in [exact, exact + 1, exact.max(LONGEST)] {
            let buffer = random.bytes(room);
            pair.build(basis.f, basis.element, &buffer);
        }
    }
}

/// Elements of all kinds, with f accepted and not; half of random elements are
/// normal or more.
fn elements(pair: &mut Pair, random: &mut Random, field: &Field) {
    let room = RECORD_LENGTH * field.n as usize + random.index(40);
    let buffer = random.bytes(room);
    for f in field.polynomials().iter().chain(&field.divided) {
        for element in [0, 1, 2, (1 << field.n) - 1, 1 << field.n, u64::MAX] {
            pair.build(*f, element, &buffer);
        }
        for _ in 0..6 {
            pair.build(*f, random.operand(field.n), &buffer);
        }
    }
    // The trace of a sum a + a^2 is 0, so it is never normal.
    let f = field.any(random).f;
    let a = random.element(field.n);
    pair.build(f, a ^ plain::square(f, a).value, &buffer);
}

/// Buffers around every edge, beside causes that come before and after 6.
fn rooms(pair: &mut Pair, random: &mut Random, field: &Field) {
    let exact = RECORD_LENGTH * field.n as usize;
    let basis = field.any(random);
    let divided = random.pick(&field.divided);
    let buffer = random.bytes(exact + 64);
    let some = random.index(exact);
    let record = RECORD_LENGTH;
    for room in [0, 1, record - 1, record, exact - record, exact - 1, some] {
        let short = &buffer[..room];
        pair.build(basis.f, basis.element, short);
        pair.build(basis.f, 1 << field.n, short);
        pair.build(basis.f, 0, short);
        pair.build(divided, random.element(field.n), short);
        pair.build(wrong_degree(random), basis.element, short);
    }
}
