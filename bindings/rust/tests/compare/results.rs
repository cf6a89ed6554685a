//! The crate's results: each says what the flat answer of the same call says.
//!
//! The flat answers are held against `plain` as in the other groups; here the
//! way from a flat answer to a result, a [`Refusal`] and a [`Sheet`] is tried.

use crate::captures::KINDS;
use crate::damage::damaged;
use crate::fields::{Field, Fields};
use crate::pair::Pair;
use crate::random::Random;
use sabrentuglio::{matrices_size, raw, Cause, Reason, Refusal, Sheet, Summary};
use sabrentuglio::{MAX_DEGREE, MAX_LIST, RECORD_LENGTH};
use std::fmt::Debug;

/// Runs the group.
pub fn run(pair: &mut Pair, random: &mut Random, fields: &Fields) {
    for field in fields.all() {
        for f in field.polynomials().iter().chain(&field.divided) {
            polynomials(pair, random, *f, field.n);
        }
        sheets(pair, random, field);
        texts(pair, random, field);
        lent(random, field);
        owned(random, field);
    }
}

/// Holds a result against number, place and value of the flat answer.
fn same<T: PartialEq + Debug>(
    result: Result<T, Refusal>,
    (number, place): (u64, u64),
    value: impl FnOnce(&T) -> bool,
    (call, inputs): (&str, &[u64]),
) {
    let fits = match &result {
        Ok(done) => number == 0 && value(done),
        Err(refusal) => {
            (refusal.number, refusal.place as u64) == (number, place) && refusal.reason().is_some()
        }
    };
    let flat = (number, place);
    assert!(fits, "{}{:?}: {:?}, flat {:?}", call, inputs, result, flat);
}

fn same_value(result: Result<u64, Refusal>, flat: raw::Value, asked: (&str, &[u64])) {
    let at = (flat.number, flat.place);
    same(result, at, |value| *value == flat.value, asked);
}

fn same_issued(result: Result<Summary, Refusal>, flat: raw::Issued, asked: (&str, &[u64])) {
    let whole = (flat.degree, flat.complexity, flat.grade);
    let fits = |s: &Summary| (s.degree, s.complexity, s.grade) == whole && s.kind().is_some();
    same(result, (flat.number, flat.place), fits, asked);
}

fn polynomials(pair: &mut Pair, random: &mut Random, f: u64, n: u32) {
    let (a, b) = (random.operand(n), random.operand(n));
    pair.check(f);
    same_value(
        sabrentuglio::check(f).map(|()| 0),
        raw::check(f),
        ("check", &[f]),
    );
    pair.multiply(f, a, b);
    same_value(
        sabrentuglio::multiply(f, a, b),
        raw::multiply(f, a, b),
        ("multiply", &[f, a, b]),
    );
    pair.square(f, a);
    same_value(
        sabrentuglio::square(f, a),
        raw::square(f, a),
        ("square", &[f, a]),
    );
    pair.trace(f, a);
    same_value(
        sabrentuglio::trace(f, a),
        raw::trace(f, a),
        ("trace", &[f, a]),
    );
    let last = a.wrapping_add(random.below(8)).wrapping_sub(2);
    pair.search(f, a, last);
    let flat = raw::search(f, a, last);
    let result = sabrentuglio::search(f, a, last);
    let whole = (flat.element, flat.complexity, flat.grade, flat.count);
    let best = |best: &Option<sabrentuglio::Best>| match best {
        Some(b) => (b.element, b.complexity, b.grade, b.count) == whole && b.kind().is_some(),
        None => flat.found == 0,
    };
    same(result, (flat.number, 0), best, ("search", &[f, a, last]));
}

fn sheets(pair: &mut Pair, random: &mut Random, field: &Field) {
    let sheet = match random.once_in(2) {
        true => field.any(random).sheet.clone(),
        false => damaged(&field.any(random).sheet, random),
    };
    let (a, b) = (random.operand(field.n), random.operand(field.n));
    pair.to_polynomial(&sheet, a);
    same_value(
        sabrentuglio::to_polynomial(&sheet, a),
        raw::to_polynomial(&sheet, a),
        ("to_polynomial", &[a]),
    );
    pair.to_normal(&sheet, a);
    same_value(
        sabrentuglio::to_normal(&sheet, a),
        raw::to_normal(&sheet, a),
        ("to_normal", &[a]),
    );
    products(pair, &sheet, a, b);
    pair.read(&sheet);
    let flat = raw::read(&sheet);
    same_issued(sabrentuglio::read(&sheet), flat, ("read", &[]));
    let result = Sheet::read(&sheet[..]).map(|sheet| sheet.summary());
    same_issued(result, flat, ("Sheet::read", &[]));
    pair.why(&sheet);
    same_cause(sabrentuglio::why(&sheet), raw::why(&sheet));
    let refusal = sabrentuglio::why(&sheet).refusal();
    assert_eq!(refusal, sabrentuglio::read(&sheet).err());
}

/// Holds a cause against the flat answer, and its line against the numbers.
fn same_cause(cause: Cause, flat: raw::Cause) {
    let line = match (flat.number, cause) {
        (0, Cause::Accepted) | (7..=9, Cause::Refused(_)) => None,
        (2, Cause::Divisor(number)) | (5, Cause::Dependency(number)) => {
            assert_eq!(number, flat.cause);
            Some(flat.cause.to_string())
        }
        (
            10,
            Cause::Differs {
                record,
                field,
                stored,
                right,
            },
        ) => {
            let met = (record as u64, field.number(), stored, right);
            assert_eq!(met, (flat.place, flat.field, flat.stored, flat.right));
            Some(format!("{} {} {} {}", flat.place, field, stored, right))
        }
        _ => panic!("{:?}, flat {:?}", cause, flat),
    };
    assert_eq!(cause.line(), line);
}

fn products(pair: &mut Pair, sheet: &[u8], a: u64, b: u64) {
    pair.times(sheet, a, b);
    same_value(
        sabrentuglio::times(sheet, a, b),
        raw::times(sheet, a, b),
        ("times", &[a, b]),
    );
    pair.inverse(sheet, a);
    same_value(
        sabrentuglio::inverse(sheet, a),
        raw::inverse(sheet, a),
        ("inverse", &[a]),
    );
    pair.quotient(sheet, a, b);
    same_value(
        sabrentuglio::quotient(sheet, a, b),
        raw::quotient(sheet, a, b),
        ("quotient", &[a, b]),
    );
}

/// Writing a text, and reading it for some element.
fn texts(pair: &mut Pair, random: &mut Random, field: &Field) {
    let basis = field.any(random);
    let exact = matrices_size(field.n as usize);
    let room = exact - random.index(2);
    let mut texts = [vec![9; room], vec![9; room]];
    pair.write_matrices(&basis.sheet, &texts[0]);
    let flat = raw::write_matrices(&basis.sheet, &mut texts[0]);
    let result = sabrentuglio::write_matrices(&basis.sheet, &mut texts[1]);
    same_issued(result, flat, ("write_matrices", &[room as u64]));
    assert_eq!(texts[0], texts[1]);
    let other = random.operand(field.n);
    let element = random.pick(&[basis.element, other]);
    pair.read_matrices(basis.f, element, &texts[0]);
    let flat = raw::read_matrices(basis.f, element, &texts[0]);
    let result = sabrentuglio::read_matrices(basis.f, element, &texts[0]);
    same_issued(result, flat, ("read_matrices", &[basis.f, element]));
}

/// Building and lists through lent memory say and leave the same.
fn lent(random: &mut Random, field: &Field) {
    let basis = field.any(random);
    let element = random.operand(field.n);
    let mut buffers = [[9; RECORD_LENGTH * MAX_DEGREE]; 2];
    let flat = raw::build(basis.f, element, &mut buffers[0]);
    let result = sabrentuglio::build(basis.f, element, &mut buffers[1]);
    same_issued(result, flat, ("build", &[basis.f, element]));
    assert_eq!(buffers[0], buffers[1]);
    let from = [random.element(field.n), random.operand(field.n)];
    let (sheet, mut into) = (&basis.sheet, [[9; 2]; 4]);
    let flat = raw::list_to_normal(sheet, &from, &mut into[0]);
    let result = sabrentuglio::list_to_normal(sheet, &from, &mut into[1]);
    same_value(result.map(|()| 0), flat, ("list_to_normal", &from));
    let flat = raw::list_to_polynomial(sheet, &from, &mut into[2]);
    let result = sabrentuglio::list_to_polynomial(sheet, &from, &mut into[3]);
    same_value(result.map(|()| 0), flat, ("list_to_polynomial", &from));
    assert_eq!((into[0], into[2]), (into[1], into[3]));
}

/// A sheet that owns its bytes does what the calls do on them.
fn owned(random: &mut Random, field: &Field) {
    let basis = field.any(random);
    let sheet = Sheet::build(basis.f, basis.element).expect("the element is normal");
    assert_eq!(sheet.as_bytes(), basis.sheet);
    assert_eq!(
        (sheet.polynomial(), sheet.element()),
        (basis.f, basis.element)
    );
    let conjugates: Vec<u64> = sheet.rows().map(|row| row.conjugate).collect();
    assert_eq!(conjugates, plain::basis::conjugates(basis.f, basis.element));
    let from = random.elements(field.n, 20);
    let there = sheet.list_to_normal(&from).expect("all are elements");
    let back = sheet.list_to_polynomial(&there);
    assert_eq!(back.as_ref(), Ok(&from));
    for (element, coordinates) in from.iter().zip(there) {
        assert_eq!(sheet.to_normal(*element), Ok(coordinates));
        assert_eq!(sheet.to_polynomial(coordinates), Ok(*element));
        let square = plain::square(basis.f, *element).value;
        let twice = sheet.times(coordinates, coordinates);
        assert_eq!(twice.and_then(|v| sheet.to_polynomial(v)), Ok(square));
        divided(random, field.n, &sheet, coordinates);
    }
    let mut text = vec![0; matrices_size(field.n as usize)];
    plain::write_matrices(&basis.sheet, &mut text);
    assert_eq!(sheet.matrices().as_bytes(), text);
    let refusal = sheet.list_to_polynomial(&[0, 1 << field.n]).unwrap_err();
    assert_eq!((refusal.number, refusal.place), (4, 1));
    unreduced(random, field.n, &sheet);
}

/// The way there and back from the polynomial side gives the remainder, which is
/// the product with 1; a list of several calls, with words at its ends too.
fn unreduced(random: &mut Random, n: u32, sheet: &Sheet) {
    let f = sheet.polynomial();
    let (mut words, mut rests) = (Vec::new(), Vec::new());
    for (_, kind) in KINDS {
        let (word, rest) = kind(f, n, random);
        let rest = rest.unwrap_or_else(|| plain::polynomial::remainder(word, f));
        assert_eq!(sabrentuglio::multiply(f, word, 1), Ok(rest));
        let back = sheet.to_normal(word).and_then(|v| sheet.to_polynomial(v));
        assert_eq!(back, Ok(rest), "f {}, word {}", f, word);
        words.push(word);
        rests.push(rest);
    }
    let length = MAX_LIST + random.index(MAX_LIST);
    let elements = random.elements(n, length);
    let from = [&words[..], &elements, &words].concat();
    let there = sheet.list_to_normal(&from).expect("all have remainders");
    let back = sheet.list_to_polynomial(&there);
    assert_eq!(back, Ok([&rests[..], &elements, &rests].concat()));
}

/// On a built sheet the quotient times the divisor is the dividend, and the
/// number with all bits set is 1.
fn divided(random: &mut Random, n: u32, sheet: &Sheet, divisor: u64) {
    let dividend = random.element(n);
    let back = |value| sheet.times(value, divisor);
    if divisor == 0 {
        let refusal = sheet.quotient(dividend, divisor).unwrap_err();
        assert_eq!(refusal.reason(), Some(Reason::DivisionByZero));
        assert_eq!(sheet.inverse(divisor), Err(refusal));
        return;
    }
    let (quotient, inverse) = (sheet.quotient(dividend, divisor), sheet.inverse(divisor));
    assert_eq!(quotient.and_then(back), Ok(dividend));
    assert_eq!(inverse.and_then(back), Ok((1 << n) - 1));
}
