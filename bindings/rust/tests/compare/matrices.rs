//! The text of all matrices: written from sheets good and bad into buffers too
//! short, exact and longer; read for f and an element, right and wrong in every
//! way, with the place that the way of spoiling it gives.

use crate::damage::bad_sheets;
use crate::fields::{wrong_degree, Basis, Field, Fields, DEGREES};
use crate::pair::Pair;
use crate::random::Random;
use crate::texts::{Right, KINDS};
use sabrentuglio::{matrices_size, Sheet, RECORD_LENGTH};

/// Texts worked out by hand, of f and an element.
const KNOWN: [(u64, u64, &str); 3] = [
    (7, 2, "01\n11\n\n11\n10\n\n"),
    (7, 3, "01\n11\n\n11\n10\n\n"),
    (11, 3, "010\n101\n011\n\n101\n001\n110\n\n011\n110\n100\n\n"),
];

/// The best bases of degrees 2 to 7 in source document 000: the minimal
/// polynomial of the element, which is x, and its figure, the ones of all T_k.
const FIGURES: [(u64, usize); 6] = [(7, 6), (13, 15), (31, 28), (55, 45), (115, 66), (229, 133)];

/// Runs the group.
pub fn run(pair: &mut Pair, random: &mut Random, fields: &Fields) {
    known(pair);
    for field in fields.all() {
        for basis in &field.bases {
            written(pair, random, basis);
        }
        for _ in 0..2 {
            read_back(pair, random, field);
            wrong_texts(pair, random, fields, field);
        }
        causes_before_14(pair, random, field);
        for sheet in &bad_sheets(random, field) {
            into_rooms(pair, random, field.n, sheet);
        }
    }
}

/// The right text of a basis. Its ones number n times the complexity.
fn text_of(basis: &Basis) -> Vec<u8> {
    let mut text = vec![0; matrices_size(basis.sheet.len() / RECORD_LENGTH)];
    let answer = plain::write_matrices(&basis.sheet, &mut text);
    assert_eq!(answer.number, 0);
    let ones = text.iter().filter(|byte| **byte == b'1').count() as u64;
    assert_eq!(ones, answer.degree * answer.complexity);
    text
}

/// Sizes, small texts and figures that stand in the documents or follow from
/// them by hand; and every way to spoil one byte of a small text.
fn known(pair: &mut Pair) {
    for n in DEGREES.map(|n| n as usize) {
        assert_eq!(matrices_size(n), plain::matrices::matrices_size(n));
    }
    for (f, element, text) in KNOWN {
        let sheet = Sheet::build(f, element).expect("the element is normal");
        assert_eq!(sheet.matrices(), text);
        every_byte(pair, f, element, text.as_bytes());
    }
    for (f, ones) in FIGURES {
        let sheet = Sheet::build(f, 2).expect("the element is normal");
        assert_eq!(sheet.matrices().matches('1').count(), ones);
    }
}

/// Each byte changed to each other, each byte put in before it, and every
/// beginning, the whole text too.
fn every_byte(pair: &mut Pair, f: u64, element: u64, right: &[u8]) {
    for at in 0..right.len() {
        for byte in 0..=255 {
            let (before, after) = (&right[..at], &right[at..]);
            pair.read_matrices(f, element, &[before, &[byte], &after[1..]].concat());
            pair.read_matrices(f, element, &[before, &[byte], after].concat());
        }
    }
    for length in 0..=right.len() {
        pair.read_matrices(f, element, &right[..length]);
    }
}

/// A good sheet, the buffer exact, one byte longer, longer, and too short.
fn written(pair: &mut Pair, random: &mut Random, basis: &Basis) {
    let exact = matrices_size(basis.sheet.len() / RECORD_LENGTH);
    let (less, more) = (random.index(exact), exact + 1 + random.index(exact));
    let buffer = random.bytes(more);
    for room in [exact, exact + 1, more, exact - 1, less, 1, 0] {
        let answer = pair.write_matrices(&basis.sheet, &buffer[..room]);
        assert_eq!(answer.number, if room < exact { 6 } else { 0 });
    }
}

/// The right text, for the element and for its conjugates, which have the same
/// matrices.
fn read_back(pair: &mut Pair, random: &mut Random, field: &Field) {
    let basis = field.any(random);
    let text = text_of(basis);
    let conjugates = plain::basis::conjugates(basis.f, basis.element);
    for element in [basis.element, random.pick(&conjugates)] {
        assert_eq!(pair.read_matrices(basis.f, element, &text).number, 0);
    }
}

/// Each kind of wrong text.
fn wrong_texts(pair: &mut Pair, random: &mut Random, fields: &Fields, field: &Field) {
    let others = fields.all().iter().filter(|other| other.n != field.n);
    let others: Vec<&Field> = others.collect();
    let stranger = random.pick(&others).any(random);
    let (i, count) = (random.index(field.bases.len()), field.bases.len());
    let (basis, sibling) = (&field.bases[i], &field.bases[(i + 1) % count]);
    let right = Right {
        n: field.n as usize,
        text: &text_of(basis),
        sibling: &text_of(sibling),
        stranger: &text_of(stranger),
    };
    for (name, kind) in KINDS {
        let (text, place) = kind(&right, random);
        let answer = pair.read_matrices(basis.f, basis.element, &text);
        if let Some(place) = place {
            let met = (answer.number, answer.place);
            assert_eq!(met, (14, place as u64), "{} at degree {}", name, field.n);
        }
        if answer.number == 14 {
            pair.tally.count_kind(name);
        }
    }
}

/// 1, 4, 2 and 5 come before 14: f and elements of every kind, each with a text
/// that is right for some basis, wrong for all, and empty.
fn causes_before_14(pair: &mut Pair, random: &mut Random, field: &Field) {
    let basis = field.any(random);
    let right = text_of(basis);
    let length = random.index(60);
    let texts = [&right[..], &random.bytes(length), &[]];
    let size = 1 << field.n;
    // The trace of a sum a + a^2 is 0, so it is never normal.
    let never = basis.element ^ plain::square(basis.f, basis.element).value;
    for f in [basis.f, random.pick(&field.divided), wrong_degree(random)] {
        for element in [basis.element, never, 0, 1, size, random.operand(field.n)] {
            for text in texts {
                pair.read_matrices(f, element, text);
            }
        }
    }
}

/// A bad sheet with room for the text, and without: 6 comes last.
fn into_rooms(pair: &mut Pair, random: &mut Random, n: u32, sheet: &[u8]) {
    let exact = matrices_size(n as usize);
    let less = random.index(exact.min(100));
    let room = random.pick(&[exact, exact - 1, less]);
    let buffer = random.bytes(room);
    pair.write_matrices(sheet, &buffer);
    pair.write_matrices(sheet, &[]);
}
