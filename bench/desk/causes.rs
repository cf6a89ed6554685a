//! Why reading refuses a sheet: a row for each kind of sheet, beside plain's.

use crate::inputs::{Inputs, DEGREE};
use crate::random::Random;
use crate::rounds::{fold, pair};
use sabrentuglio::{raw, RECORD_LENGTH};

/// How many polynomials of a kind are drawn: a few need much more time than the
/// others.
const DRAWN: usize = 64;

/// Two irreducible polynomials of degree 23. To tell the two apart the desk needs
/// the sums of conjugates of all odd powers of x up to x^45, the most there can
/// be. It finds the smaller one last.
const SLOWEST: [u64; 2] = [10_489_921, 11_014_547];

/// Asks about sheets of each kind, from those of the inputs and of drawn
/// polynomials.
pub fn run(inputs: &Inputs) {
    let mut random = Random::new(2);
    let two = drawn(|| irreducible(23, &mut random), 2);
    let three = drawn(|| irreducible(15, &mut random), 3);
    let roots = drawn(|| irreducible(23, &mut random), 1);
    let squares = roots.iter().map(|root| product(*root, *root)).collect();
    let powers = vec![1 << DEGREE, (1 << DEGREE) + 1];
    let slowest = vec![product(SLOWEST[0], SLOWEST[1])];
    for (name, polynomials) in [
        ("why-two", two),
        ("why-three", three),
        ("why-square", squares),
        ("why-power", powers),
        ("why-slowest", slowest),
    ] {
        let sheets: Vec<Vec<u8>> = polynomials.into_iter().map(headed).collect();
        ask(name, 2, &sheets);
    }
    // The normal elements have trace 1, for which the top bit stands.
    ask("why-dependent", 5, &turned(inputs, 8, DEGREE - 1));
    let last_table_row = inputs.sheets[0].len() - 8;
    ask("why-differing", 10, &turned(inputs, last_table_row, 0));
    ask("why-accepted", 0, &inputs.sheets);
}

/// Products, each of `count` factors.
fn drawn(mut factor: impl FnMut() -> u64, count: u32) -> Vec<u64> {
    let mut one = |_| (0..count).fold(1, |f, _| product(f, factor()));
    (0..DRAWN).map(&mut one).collect()
}

/// An irreducible polynomial of this degree, drawn as `ntl.cpp` draws it.
fn irreducible(degree: u32, random: &mut Random) -> u64 {
    loop {
        let f = random.element(degree) | 1 << degree;
        if raw::check(f).number == 0 {
            return f;
        }
    }
}

/// The product of two polynomials, which fits into a word.
fn product(a: u64, b: u64) -> u64 {
    let picked = (0..64).filter(|i| b >> i & 1 == 1);
    picked.fold(0, |sum, i| sum ^ a << i)
}

/// A sheet of f that is right but for its rows, which are zero.
fn headed(f: u64) -> Vec<u8> {
    let degree = 63 - f.leading_zeros();
    let mut sheet = vec![0; RECORD_LENGTH * degree as usize];
    for (row, record) in (0..).zip(sheet.chunks_mut(RECORD_LENGTH)) {
        record[..8].copy_from_slice(&((f ^ 1 << degree) << 16).to_le_bytes());
        record[0] = degree as u8;
        record[1] = row;
    }
    sheet
}

/// The sheets of the inputs with one bit of the number at this byte turned.
fn turned(inputs: &Inputs, at: usize, bit: u32) -> Vec<Vec<u8>> {
    let turn = |sheet: &Vec<u8>| {
        let mut sheet = sheet.clone();
        sheet[at + bit as usize / 8] ^= 1 << (bit % 8);
        sheet
    };
    inputs.sheets.iter().map(turn).collect()
}

/// Asks why each of the sheets is refused, all by the same number.
fn ask(name: &str, number: u64, sheets: &[Vec<u8>]) {
    for sheet in sheets {
        assert_eq!(raw::why(sheet).number, number, "{}", name);
    }
    let sheet = |i: usize| &sheets[i % sheets.len()][..];
    pair(
        name,
        sheets.len() as u64,
        &mut |times| {
            fold(times, |i| {
                let why = raw::why(sheet(i));
                why.cause ^ why.right
            })
        },
        &mut |times| {
            fold(times, |i| {
                let why = plain::why(sheet(i));
                why.cause ^ why.right
            })
        },
    );
}
