//! Any call with any inputs, so that several causes of a refusal meet at once
//! and the order decides.

use crate::damage::{damaged, invented};
use crate::fields::{polynomial, wrong_degree, Fields, WIDEST};
use crate::pair::Pair;
use crate::random::Random;
use sabrentuglio::{matrices_size, RECORD_LENGTH};

/// Runs the group.
pub fn run(pair: &mut Pair, random: &mut Random, fields: &Fields) {
    for _ in 0..15_000 {
        on_polynomials(pair, random, fields);
        on_sheets(pair, random, fields);
    }
}

/// A polynomial of any kind, beside the degree that its operands are drawn for.
fn any_polynomial(random: &mut Random, fields: &Fields) -> (u64, u32) {
    let field = fields.any(random);
    let f = match random.below(8) {
        0 => wrong_degree(random),
        1 => random.number(),
        2 => random.pick(&field.divided),
        3 => polynomial(field.n, random),
        _ => field.any(random).f,
    };
    (f, field.n)
}

fn on_polynomials(pair: &mut Pair, random: &mut Random, fields: &Fields) {
    let (f, n) = any_polynomial(random, fields);
    let (a, b) = (random.operand(n), random.operand(n));
    match random.below(7) {
        0 => pair.check(f),
        1 => pair.multiply(f, a, b),
        2 => pair.square(f, a),
        3 => pair.trace(f, a),
        4 => {
            let room = random.index(2 * RECORD_LENGTH * n as usize);
            let buffer = random.bytes(room);
            pair.build(f, a, &buffer);
        }
        5 => {
            let length = random.index(60);
            pair.read_matrices(f, a, &random.bytes(length));
        }
        _ => {
            // A range that is long only where it is refused.
            let last = match a.checked_add(random.below(12)) {
                Some(end) if random.once_in(2) => end,
                _ => a.wrapping_sub(random.below(12)),
            };
            pair.search(f, a, last);
        }
    }
}

fn any_sheet(random: &mut Random, fields: &Fields) -> (Vec<u8>, u32) {
    let field = fields.any(random);
    let mut sheet = match random.below(4) {
        0 => {
            let tail = random.element(field.n);
            invented(field.n, tail, random)
        }
        1 => field.any(random).sheet.clone(),
        _ => damaged(&field.any(random).sheet, random),
    };
    if random.once_in(8) {
        let length = random.index(2 * sheet.len());
        sheet.resize(length, 0);
    }
    (sheet, field.n)
}

fn on_sheets(pair: &mut Pair, random: &mut Random, fields: &Fields) {
    let (sheet, n) = any_sheet(random, fields);
    let (a, b) = (random.operand(n), random.operand(n));
    match random.below(9) {
        0 => pair.read(&sheet),
        1 => pair.to_polynomial(&sheet, a),
        2 => pair.to_normal(&sheet, a),
        3 => pair.times(&sheet, a, b),
        4 => pair.inverse(&sheet, a),
        5 => pair.quotient(&sheet, a, b),
        6 => {
            pair.why(&sheet);
        }
        7 => {
            let room = random.index(2 * matrices_size(n as usize));
            pair.write_matrices(&sheet, &vec![random.number() as u8; room]);
        }
        _ => {
            let count = random.index(5);
            let room = match random.once_in(2) {
                true => count,
                false => random.index(5),
            };
            let from: Vec<u64> = (0..count).map(|_| random.operand(n)).collect();
            pair.lists(&sheet, &from, &random.elements(WIDEST, room));
        }
    }
}
