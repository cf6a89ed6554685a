//! Elements that come unreduced: multiply, square, trace and the conversions from
//! polynomials, single and list, work on the remainder of any 64-bit word. The
//! remainder is modulo f, or modulo the polynomial that stands in the sheet,
//! whatever it is.
//!
//! All calls of this group are handed such words. 4 never comes from these five,
//! and comes from the others for words of the same kinds.

use crate::captures::{capture, Capture, KINDS};
use crate::damage::{bad_sheets, invented, refound};
use crate::fields::{polynomial, wrong_degree, Basis, Field, Fields, WIDEST};
use crate::pair::Pair;
use crate::random::Random;
use crate::tally::{Call, OFTEN};
use sabrentuglio::{MAX_LIST, RECORD_LENGTH};

/// The refusals that are left to the five calls; 3 is never met.
const LEFT: [(Call, u64); 11] = [
    (Call::Multiply, 1),
    (Call::Square, 1),
    (Call::Trace, 1),
    (Call::Trace, 2),
    (Call::ToNormal, 7),
    (Call::ToNormal, 8),
    (Call::ToNormal, 9),
    (Call::ListToNormal, 7),
    (Call::ListToNormal, 8),
    (Call::ListToNormal, 9),
    (Call::ListToNormal, 11),
];

/// Runs the group.
pub fn run(pair: &mut Pair, random: &mut Random, fields: &Fields) {
    let before = LEFT.map(|(call, number)| pair.tally.of(call, number));
    for field in fields.all() {
        operands(pair, random, field);
        every_power(pair, random, field);
        sheets(pair, random, field);
        bad_polynomials(pair, random, field);
        bad_shapes(pair, random, field);
        bad_lengths(pair, random, field);
        for basis in [field.any(random), &any_rows(random, field)] {
            still_refused(pair, random, field.n, basis);
        }
    }
    for ((call, number), before) in LEFT.into_iter().zip(before) {
        let met = pair.tally.of(call, number) - before;
        assert!(met >= OFTEN, "{:?} refused {} {} times", call, number, met);
    }
}

/// One word of each kind, counted.
fn each_kind(pair: &mut Pair, random: &mut Random, f: u64, n: u32) -> Vec<Capture> {
    let mut words = Vec::new();
    for (name, kind) in KINDS {
        let (word, rest) = kind(f, n, random);
        assert!(word >> n != 0, "{}: {} is below 2^{}", name, word, n);
        pair.tally.count_kind(name);
        words.push((word, rest));
    }
    words
}

/// Every kind of word, as either operand and as both, for f accepted and not.
fn operands(pair: &mut Pair, random: &mut Random, field: &Field) {
    let n = field.n;
    let mut divided = field.divided.clone();
    divided.push(polynomial(n, random));
    for f in field.polynomials().into_iter().chain(divided) {
        for (word, rest) in each_kind(pair, random, f, n) {
            let (element, (other, _)) = (random.element(n), capture(f, n, random));
            for (a, b) in [(word, element), (element, word), (word, other)] {
                pair.multiply(f, a, b);
            }
            pair.square(f, word);
            if let Some(rest) = rest {
                let product = plain::multiply(f, rest, element);
                assert_eq!(plain::multiply(f, word, element), product);
                assert_eq!(plain::multiply(f, element, word), product);
                assert_eq!(plain::square(f, word), plain::square(f, rest));
            }
        }
    }
    for f in field.polynomials() {
        for (word, rest) in each_kind(pair, random, f, n) {
            pair.trace(f, word);
            if let Some(rest) = rest {
                assert_eq!(plain::trace(f, word), plain::trace(f, rest));
            }
        }
    }
}

/// Every power of x from x^n to x^63. What is left of it is x times what is left
/// of the power before, one step modulo f; all other words are sums of these.
fn every_power(pair: &mut Pair, random: &mut Random, field: &Field) {
    let (n, basis) = (field.n, field.any(random));
    let step = |rest: u64| (rest << 1) ^ (basis.f * (rest >> (n - 1)));
    let mut rest = 1 << (n - 1);
    for word in (n..64).map(|k| 1 << k) {
        rest = step(rest);
        pair.multiply(basis.f, word, 1);
        assert_eq!(plain::multiply(basis.f, word, 1).value, rest);
        pair.square(basis.f, word);
        pair.to_normal(&basis.sheet, word);
        let there = plain::to_normal(&basis.sheet, word);
        assert_eq!(there, plain::to_normal(&basis.sheet, rest));
    }
    let words: Vec<u64> = (n..64).map(|k| 1 << k).collect();
    pair.lists(&basis.sheet, &words, &words);
}

/// Sheets of a degree beside their polynomials: those that the builder wrote;
/// their rows, and any rows, over 2^n, over a polynomial with divisors, and over
/// any.
fn sheets_of(random: &mut Random, field: &Field) -> Vec<(u64, Vec<u8>)> {
    let size = 1 << field.n;
    let built = field.bases.iter();
    let mut sheets: Vec<_> = built.map(|basis| (basis.f, basis.sheet.clone())).collect();
    let any = size + random.element(field.n);
    for f in [size, random.pick(&field.divided), any, 2 * size - 1] {
        let mut sheet = field.any(random).sheet.clone();
        refound(&mut sheet, f - size);
        sheets.push((f, sheet));
        sheets.push((f, invented(field.n, f - size, random)));
    }
    sheets
}

/// Every kind of word, converted alone, and among others in lists.
fn sheets(pair: &mut Pair, random: &mut Random, field: &Field) {
    let sheets = sheets_of(random, field);
    for (f, sheet) in &sheets {
        let mut words = Vec::new();
        for (word, rest) in each_kind(pair, random, *f, field.n) {
            pair.to_normal(sheet, word);
            if let Some(rest) = rest {
                assert_eq!(plain::to_normal(sheet, word), plain::to_normal(sheet, rest));
            }
            words.push(word);
        }
        // All kinds in a short list, and in a long one.
        for words in [words.repeat(1), words.repeat(4)] {
            pair.lists(sheet, &words, &words);
        }
        let length = 3 + random.index(200);
        for length in [1, 2, 47, 48, 49, length] {
            every_place(pair, random, (*f, sheet), length);
        }
    }
    let (f, sheet) = &sheets[random.index(sheets.len())];
    every_place(pair, random, (*f, sheet), MAX_LIST);
}

/// Words first, last, in between, and at every index of a list.
fn every_place(pair: &mut Pair, random: &mut Random, on: (u64, &[u8]), length: usize) {
    let middle = random.index(length);
    for places in [0..1, length - 1..length, middle..middle + 1, 0..length] {
        list(pair, random, on, length, places);
    }
}

/// A list with words at these indices and elements at the others. Coordinates
/// that large are refused at the first of the indices.
fn list(
    pair: &mut Pair,
    random: &mut Random,
    (f, sheet): (u64, &[u8]),
    length: usize,
    places: std::ops::Range<usize>,
) {
    let n = (sheet.len() / RECORD_LENGTH) as u32;
    let mut from = random.elements(n, length);
    let mut rests = from.clone();
    let first = places.start as u64;
    for i in places {
        let (word, rest) = capture(f, n, random);
        (from[i], rests[i]) = (word, rest.unwrap_or(word));
    }
    let into = random.elements(WIDEST, length);
    pair.lists(sheet, &from, &into);
    let (mut there, mut of_rests) = (into.clone(), into.clone());
    plain::list_to_normal(sheet, &from, &mut there);
    plain::list_to_normal(sheet, &rests, &mut of_rests);
    assert_eq!(there, of_rests, "from {:?}", from);
    let refused = plain::list_to_polynomial(sheet, &from, &mut there);
    assert_eq!((refused.number, refused.place), (4, first));
}

/// 1 and 2, whatever the operands are.
fn bad_polynomials(pair: &mut Pair, random: &mut Random, field: &Field) {
    for _ in 0..4 {
        let f = wrong_degree(random);
        let words = [u64::MAX, 1 << 63, f, f ^ random.below(16), random.number()];
        for word in words {
            pair.multiply(f, word, random.pick(&words));
            pair.multiply(f, random.element(field.n), word);
            pair.square(f, word);
            pair.trace(f, word);
        }
    }
    for f in &field.divided {
        pair.trace(*f, capture(*f, field.n, random).0);
    }
}

/// 7, 8 and 9 come first, whatever the words and the lengths of the lists are.
fn bad_shapes(pair: &mut Pair, random: &mut Random, field: &Field) {
    let f = field.any(random).f;
    for sheet in &bad_sheets(random, field) {
        let words = [(); 3].map(|()| capture(f, field.n, random).0);
        let into = random.elements(WIDEST, 4);
        pair.to_normal(sheet, words[0]);
        pair.lists(sheet, &words, &into[..3]);
        pair.lists(sheet, &words, &into);
    }
}

/// 11, whatever the words are.
fn bad_lengths(pair: &mut Pair, random: &mut Random, field: &Field) {
    for (f, sheet) in &sheets_of(random, field) {
        let length = 1 + random.index(60);
        let words: Vec<u64> = (0..length)
            .map(|_| capture(*f, field.n, random).0)
            .collect();
        let into = random.elements(WIDEST, length + 1);
        for room in [0, length - 1, length + 1] {
            pair.lists(sheet, &words, &into[..room]);
        }
    }
    let basis = field.any(random);
    let (word, _) = capture(basis.f, field.n, random);
    let too_many = vec![word; MAX_LIST + 1];
    pair.lists(&basis.sheet, &too_many, &too_many);
    pair.lists(&basis.sheet, &too_many, &too_many[1..]);
    pair.lists(&basis.sheet, &too_many[1..], &too_many);
}

/// f and a normal element, and a sheet of f with any rows.
fn any_rows(random: &mut Random, field: &Field) -> Basis {
    let basis = field.any(random);
    Basis {
        f: basis.f,
        element: basis.element,
        sheet: invented(field.n, basis.f - (1 << field.n), random),
    }
}

/// The five calls are done with a word. Normal coordinates, candidates and range
/// ends are below 2^n, so that all others refuse 4 for the same word.
fn still_refused(pair: &mut Pair, random: &mut Random, n: u32, basis: &Basis) {
    let (f, sheet) = (basis.f, &basis.sheet);
    for (word, _) in each_kind(pair, random, f, n) {
        let (element, (other, _)) = (random.element(n), capture(f, n, random));
        let met = |pair: &Pair| [pair.tally.total(), pair.tally.met(0), pair.tally.met(4)];
        let before = met(pair);
        pair.multiply(f, word, other);
        pair.square(f, word);
        pair.trace(f, word);
        pair.to_normal(sheet, word);
        // One way is done, the other refused.
        pair.lists(sheet, &[element, word, other], &[element; 3]);
        pair.to_polynomial(sheet, word);
        pair.inverse(sheet, word);
        for (a, b) in [(word, element), (element, word), (word, other)] {
            pair.times(sheet, a, b);
            pair.quotient(sheet, a, b);
            pair.search(f, a, b);
        }
        pair.build(f, word, sheet);
        pair.build(f, word, &[]);
        pair.read_matrices(f, word, sheet);
        let after = met(pair);
        let [all, done, refused] = [0, 1, 2].map(|i| after[i] - before[i]);
        assert_eq!((done, refused), (5, all - 5), "f {}, word {}", f, word);
    }
}
