//! Reading, converting, multiplying and dividing on sheets good and bad, why they
//! are refused, and writing their texts.

use crate::damage::{
    damaged, enlarge, flip, flip_in, invented, put, rearranged, refound, renumber, COLUMNS,
    CONJUGATE, TAIL,
};
use crate::fields::{Basis, Field, Fields, WIDEST};
use crate::pair::Pair;
use crate::random::Random;
use sabrentuglio::{MAX_DEGREE, RECORD_LENGTH};

/// Runs the group.
pub fn run(pair: &mut Pair, random: &mut Random, fields: &Fields) {
    every_bit(pair, random, fields);
    for field in fields.all() {
        good(pair, random, field);
        for basis in &field.bases {
            every_column(pair, random, field.n, basis);
            moved_records(pair, random, basis);
            other_polynomials(pair, random, field, basis);
            other_elements(pair, random, field.n, basis);
            for _ in 0..20 {
                let sheet = damaged(&basis.sheet, random);
                ask(pair, random, field.n, &sheet);
            }
        }
        any_rows(pair, random, field);
    }
}

/// All calls on a sheet but those on lists, once. Only a text of degree 2 or 3
/// has room.
fn ask(pair: &mut Pair, random: &mut Random, n: u32, sheet: &[u8]) {
    pair.read(sheet);
    pair.why(sheet);
    pair.to_polynomial(sheet, random.operand(n));
    pair.to_normal(sheet, random.operand(n));
    pair.times(sheet, random.operand(n), random.operand(n));
    pair.inverse(sheet, random.operand(n));
    pair.quotient(sheet, random.operand(n), random.operand(n));
    let room = random.index(60);
    pair.write_matrices(sheet, &random.bytes(room));
}

/// Sheets that the builder wrote, with operands of every kind.
fn good(pair: &mut Pair, random: &mut Random, field: &Field) {
    let size = 1 << field.n;
    for basis in &field.bases {
        for _ in 0..8 {
            ask(pair, random, field.n, &basis.sheet);
        }
        for (a, b) in [(size - 1, size - 1), (size, 0), (0, size), (size, size)] {
            pair.to_polynomial(&basis.sheet, a);
            pair.to_normal(&basis.sheet, a);
            pair.times(&basis.sheet, a, b);
        }
        for i in 0..field.n {
            pair.to_polynomial(&basis.sheet, 1 << i);
            pair.to_normal(&basis.sheet, 1 << i);
            pair.times(&basis.sheet, 1, 1 << i);
        }
    }
}

/// Every bit of small sheets, and of three records of the largest.
fn every_bit(pair: &mut Pair, random: &mut Random, fields: &Fields) {
    for n in [2, 3, 4, 7] {
        let basis = fields.of(n).any(random);
        for bit in 0..8 * basis.sheet.len() {
            let mut sheet = basis.sheet.clone();
            flip(&mut sheet, bit);
            ask(pair, random, n, &sheet);
        }
    }
    let basis = fields.of(WIDEST).any(random);
    for record in [0, MAX_DEGREE / 2 - 1, MAX_DEGREE - 1] {
        for bit in 0..8 * RECORD_LENGTH {
            let mut sheet = basis.sheet.clone();
            flip(&mut sheet, 8 * RECORD_LENGTH * record + bit);
            pair.read(&sheet);
            pair.why(&sheet);
            pair.times(&sheet, random.element(WIDEST), random.element(WIDEST));
        }
    }
}

/// Each column of each record: one bit over, and a number that is too large.
fn every_column(pair: &mut Pair, random: &mut Random, n: u32, basis: &Basis) {
    for record in 0..n as usize {
        for column in COLUMNS {
            let mut sheet = basis.sheet.clone();
            flip_in(&mut sheet, record, column, random);
            pair.read(&sheet);
            pair.to_normal(&sheet, random.operand(n));
        }
        let mut sheet = basis.sheet.clone();
        enlarge(&mut sheet, record, random.pick(&COLUMNS[2..]), n, random);
        ask(pair, random, n, &sheet);
        // A right head for another record or another degree.
        let mut sheet = basis.sheet.clone();
        sheet[RECORD_LENGTH * record + random.index(2)] = random.index(MAX_DEGREE + 2) as u8;
        ask(pair, random, n, &sheet);
    }
}

/// Records lost, doubled and moved, also with heads that hide it.
fn moved_records(pair: &mut Pair, random: &mut Random, basis: &Basis) {
    let n = (basis.sheet.len() / RECORD_LENGTH) as u32;
    for _ in 0..3 {
        for mut sheet in rearranged(&basis.sheet, random) {
            ask(pair, random, n, &sheet);
            renumber(&mut sheet);
            ask(pair, random, n, &sheet);
        }
    }
    for more in [
        1,
        RECORD_LENGTH - 1,
        RECORD_LENGTH,
        RECORD_LENGTH + 1,
        2 * RECORD_LENGTH,
    ] {
        let sheet = [&basis.sheet[..], &random.bytes(more)].concat();
        ask(pair, random, n, &sheet);
        let sheet = [&basis.sheet[..], &vec![0; more]].concat();
        ask(pair, random, n, &sheet);
    }
}

/// The same f in all records, but another one.
fn other_polynomials(pair: &mut Pair, random: &mut Random, field: &Field, basis: &Basis) {
    let size = 1 << field.n;
    let mut tails: Vec<u64> = field.polynomials();
    tails.extend(&field.divided);
    tails.push(size + random.element(field.n));
    for tail in tails.iter().map(|f| f - size) {
        let mut sheet = basis.sheet.clone();
        refound(&mut sheet, tail);
        ask(pair, random, field.n, &sheet);
    }
    // The term x^n itself, one above, and the top bit of the bytes of f.
    for tail in [size, size + 1, 1 << (8 * TAIL.length - 1)] {
        let mut sheet = basis.sheet.clone();
        refound(&mut sheet, tail);
        ask(pair, random, field.n, &sheet);
        // From record 1 on it differs from record 0 before it is too large.
        put(&mut sheet, 0, TAIL, basis.f - size);
        ask(pair, random, field.n, &sheet);
    }
}

/// Record 0's conjugate, from which the rebuilding starts, is another.
fn other_elements(pair: &mut Pair, random: &mut Random, n: u32, basis: &Basis) {
    let square = plain::square(basis.f, basis.element).value;
    let never = basis.element ^ square;
    let others = [0, 1, 2, never, square, random.element(n), random.element(n)];
    for other in others {
        let mut sheet = basis.sheet.clone();
        put(&mut sheet, 0, CONJUGATE, other);
        ask(pair, random, n, &sheet);
    }
}

/// Right heads over any rows: converting and multiplying use them as they stand.
fn any_rows(pair: &mut Pair, random: &mut Random, field: &Field) {
    let n = field.n;
    for _ in 0..8 {
        let tail = match random.once_in(2) {
            true => field.any(random).f - (1 << n),
            false => random.element(n),
        };
        let sheet = invented(n, tail, random);
        ask(pair, random, n, &sheet);
        for _ in 0..3 {
            pair.to_polynomial(&sheet, random.element(n));
            pair.to_normal(&sheet, random.element(n));
            pair.times(&sheet, random.element(n), random.element(n));
        }
    }
}
