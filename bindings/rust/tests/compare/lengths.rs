//! Sheets of every length, from nothing to past the longest.

use crate::damage::{invented, renumber};
use crate::fields::{Fields, DEGREES, WIDEST};
use crate::pair::Pair;
use crate::random::Random;
use sabrentuglio::{MAX_DEGREE, RECORD_LENGTH};

/// One byte more than a sheet with one record too many.
const LONGEST: usize = (MAX_DEGREE + 1) * RECORD_LENGTH + 1;

/// Runs the group.
pub fn run(pair: &mut Pair, random: &mut Random, fields: &Fields) {
    let largest = &fields.of(WIDEST).any(random).sheet;
    let padded = [&largest[..], &[0; 2 * RECORD_LENGTH]].concat();
    for length in 0..=LONGEST {
        every_call(pair, random, &padded[..length]);
        let bytes = random.bytes(length);
        pair.read(&bytes);
    }
    for field in fields.all() {
        let sheet = &field.any(random).sheet;
        for length in [sheet.len() - 1, sheet.len() - RECORD_LENGTH] {
            every_call(pair, random, &sheet[..length]);
        }
        every_call(pair, random, &sheet[1..]);
        every_call(pair, random, &sheet[RECORD_LENGTH..]);
    }
    // Right heads are of no help where the count is wrong.
    for count in [1, MAX_DEGREE + 1, MAX_DEGREE + 2, 64, 256, 2048] {
        let mut sheet = vec![0; RECORD_LENGTH * count];
        renumber(&mut sheet);
        every_call(pair, random, &sheet);
    }
    for n in DEGREES {
        let tail = random.element(n);
        let sheet = invented(n, tail, random);
        every_call(pair, random, &sheet);
    }
}

fn every_call(pair: &mut Pair, random: &mut Random, sheet: &[u8]) {
    pair.read(sheet);
    pair.why(sheet);
    pair.to_polynomial(sheet, random.element(2));
    pair.to_normal(sheet, random.operand(WIDEST));
    pair.times(sheet, random.operand(WIDEST), random.operand(WIDEST));
    pair.inverse(sheet, random.element(2));
    pair.quotient(sheet, random.operand(WIDEST), random.element(2));
    let count = random.index(3);
    let (from, into) = (random.elements(2, count), random.elements(WIDEST, count));
    pair.lists(sheet, &from, &into);
    pair.write_matrices(sheet, &random.bytes(count));
}
