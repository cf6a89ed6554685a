//! Dividing: inverses and quotients on sheets that the builder wrote and on
//! others of good shape, where the order of the factors shows; and zeros, which
//! are refused only if nothing else is wrong.

use crate::damage::{enlarge, invented, COLUMNS};
use crate::fields::{Field, Fields};
use crate::pair::Pair;
use crate::random::Random;
use sabrentuglio::{multiply, Refusal, Sheet, RECORD_LENGTH};

/// The inverses of 1, 2, 3 and so on, on the sheets of f and an element. They
/// were found in the polynomial notation, by trying.
const INVERSES: [(u64, u64, &[u64]); 3] = [
    (7, 2, &[2, 1, 3]),
    (11, 3, &[3, 6, 1, 5, 4, 2, 7]),
    (19, 8, &[4, 8, 13, 1, 10, 11, 12, 2, 14, 5, 6, 7, 3, 9, 15]),
];

/// Runs the group.
pub fn run(pair: &mut Pair, random: &mut Random, fields: &Fields) {
    for (f, element, inverses) in INVERSES {
        every_pair(pair, f, element, inverses).expect("all of it is done");
    }
    // Every degree, and so every step of the power: k is n-1, and 1, even and odd.
    for field in fields.all() {
        for sheet in &sheets(random, field) {
            if field.n <= 4 {
                every_number(pair, field.n, sheet);
            }
            numbers(pair, random, field.n, sheet);
            zeros(pair, random, field.n, sheet);
            bad_sheets(pair, random, field.n, sheet);
        }
    }
}

/// Every inverse and every quotient on a small sheet. In the polynomial
/// notation the divisor times them is 1 and the dividend.
fn every_pair(pair: &mut Pair, f: u64, element: u64, inverses: &[u64]) -> Result<(), Refusal> {
    let sheet = Sheet::build(f, element)?;
    let size = 1 << sheet.summary().degree;
    assert_eq!(inverses.len() as u64, size - 1);
    for (a, inverse) in (1..size).zip(inverses) {
        pair.inverse(sheet.as_bytes(), a);
        assert_eq!(sheet.inverse(a)?, *inverse);
        let divisor = sheet.to_polynomial(a)?;
        assert_eq!(multiply(f, sheet.to_polynomial(*inverse)?, divisor)?, 1);
        for b in 0..size {
            pair.quotient(sheet.as_bytes(), b, a);
            let quotient = sheet.to_polynomial(sheet.quotient(b, a)?)?;
            let dividend = sheet.to_polynomial(b)?;
            assert_eq!(multiply(f, quotient, divisor)?, dividend);
        }
    }
    Ok(())
}

/// The sheets of a degree that the builder wrote, and others with any rows, on
/// most of which the product is not commutative.
fn sheets(random: &mut Random, field: &Field) -> Vec<Vec<u8>> {
    let built = field.bases.iter().map(|basis| basis.sheet.clone());
    let mut sheets: Vec<Vec<u8>> = built.collect();
    for _ in 0..8 {
        let tail = random.element(field.n);
        sheets.push(invented(field.n, tail, random));
    }
    sheets
}

/// All operands of a small degree, one past it included.
fn every_number(pair: &mut Pair, n: u32, sheet: &[u8]) {
    for a in 0..=1 << n {
        pair.inverse(sheet, a);
        for b in 0..=1 << n {
            pair.quotient(sheet, b, a);
        }
    }
}

/// Operands of every kind: single bits, all bits, zero dividends and any.
fn numbers(pair: &mut Pair, random: &mut Random, n: u32, sheet: &[u8]) {
    let ones = (1 << n) - 1;
    for i in 0..n {
        pair.inverse(sheet, 1 << i);
        pair.inverse(sheet, ones ^ 1 << i);
        pair.quotient(sheet, random.element(n), 1 << i);
    }
    pair.inverse(sheet, ones);
    pair.quotient(sheet, ones, ones);
    for _ in 0..8 {
        let divisor = 1 + random.below(ones);
        pair.inverse(sheet, divisor);
        pair.quotient(sheet, 0, divisor);
        pair.quotient(sheet, random.element(n), divisor);
        pair.quotient(sheet, random.operand(n), random.operand(n));
    }
}

/// 13, and 4 before it: then either operand is too large.
fn zeros(pair: &mut Pair, random: &mut Random, n: u32, sheet: &[u8]) {
    let size = 1 << n;
    pair.inverse(sheet, 0);
    for dividend in [0, 1, size - 1, random.element(n)] {
        pair.quotient(sheet, dividend, 0);
    }
    for large in [size, size + random.element(n), u64::MAX] {
        pair.inverse(sheet, large);
        pair.quotient(sheet, large, 0);
        pair.quotient(sheet, 0, large);
    }
}

/// 7, 8 and 9 come before 4 and 13, whatever the operands are.
fn bad_sheets(pair: &mut Pair, random: &mut Random, n: u32, sheet: &[u8]) {
    for bad in &spoilt(random, n, sheet) {
        let numbers = [0, 1 << n, random.element(n)];
        for a in numbers {
            pair.inverse(bad, a);
            for b in numbers {
                pair.quotient(bad, b, a);
            }
        }
    }
}

/// The sheet with a wrong head, a number too large, both, and wrong lengths.
fn spoilt(random: &mut Random, n: u32, sheet: &[u8]) -> Vec<Vec<u8>> {
    let record = random.index(n as usize);
    let mut head = sheet.to_vec();
    head[RECORD_LENGTH * record + random.index(2)] ^= 1;
    let mut large = sheet.to_vec();
    enlarge(&mut large, record, random.pick(&COLUMNS[3..]), n, random);
    let mut both = large.clone();
    both[RECORD_LENGTH * random.index(n as usize)] ^= 1;
    let mut bad = vec![head, large, both, [sheet, &[0]].concat()];
    for length in [0, RECORD_LENGTH, sheet.len() - 1] {
        bad.push(sheet[..length].to_vec());
    }
    bad
}
