//! The text of all matrices, written from a sheet and read back, each beside
//! plain's.

use crate::inputs::{Inputs, SHEETS};
use crate::rounds::{fold, pair};
use sabrentuglio::{matrices_size, raw};

/// Writes and reads at the degree of the inputs.
pub fn run(inputs: &Inputs) {
    let texts = written(inputs);
    println!("answer texts-{} desk {}", inputs.degree, digest(&texts));
    writes(inputs);
    reads(inputs, &texts);
}

/// The texts of all sheets, on which desk and plain have to agree.
fn written(inputs: &Inputs) -> Vec<Vec<u8>> {
    let text = |sheet: &Vec<u8>| {
        let mut by_desk = vec![0; matrices_size(inputs.degree as usize)];
        let mut by_plain = by_desk.clone();
        raw::write_matrices(sheet, &mut by_desk);
        plain::write_matrices(sheet, &mut by_plain);
        assert!(by_desk == by_plain, "desk and plain write differently");
        by_desk
    };
    inputs.sheets.iter().map(text).collect()
}

/// One number for the bytes of all texts, by the hash FNV-1a.
fn digest(texts: &[Vec<u8>]) -> u64 {
    let bytes = texts.iter().flatten();
    bytes.fold(0xcbf29ce484222325, |sum, byte| {
        (sum ^ u64::from(*byte)).wrapping_mul(0x100000001b3)
    })
}

/// Writing; the last eight bytes of a text stand for it in the fold.
fn writes(inputs: &Inputs) {
    let size = matrices_size(inputs.degree as usize);
    let sheet = |i: usize| &inputs.sheets[i % SHEETS][..];
    let last = |text: &[u8]| u64::from_le_bytes(text[size - 8..].try_into().unwrap());
    let mut by_desk = vec![0; size];
    let mut by_plain = vec![0; size];
    pair(
        &format!("write_matrices-{}", inputs.degree),
        SHEETS as u64,
        &mut |times| {
            fold(times, |i| {
                raw::write_matrices(sheet(i), &mut by_desk);
                last(&by_desk)
            })
        },
        &mut |times| {
            fold(times, |i| {
                plain::write_matrices(sheet(i), &mut by_plain);
                last(&by_plain)
            })
        },
    );
}

/// Reading, of texts that are right.
fn reads(inputs: &Inputs, texts: &[Vec<u8>]) {
    let element = |i: usize| inputs.normal[i % SHEETS];
    let text = |i: usize| &texts[i % SHEETS][..];
    pair(
        &format!("read_matrices-{}", inputs.degree),
        SHEETS as u64,
        &mut |times| {
            fold(times, |i| {
                raw::read_matrices(inputs.f, element(i), text(i)).complexity
            })
        },
        &mut |times| {
            fold(times, |i| {
                plain::read_matrices(inputs.f, element(i), text(i)).complexity
            })
        },
    );
}
