//! Elements that arrive as words of 64 bits, and stand for their remainders
//! modulo f: each call that takes them, beside plain's; and the trace of
//! elements, which stands beside that of words.

use crate::calls::list_pair;
use crate::inputs::{Inputs, F, OPERANDS, SHEETS};
use crate::random::Random;
use crate::rounds::{fold, pair};
use sabrentuglio::{raw, MAX_LIST};

/// Asks them at degree 46. `ntl.cpp` draws the same words.
pub fn run(inputs: &Inputs) {
    let mut random = Random::new(64);
    let words: Vec<u64> = (0..MAX_LIST).map(|_| random.number()).collect();
    refuse_none(&inputs.sheets[0], &words);
    products(&words);
    traces("trace", &inputs.a);
    traces("trace-words", &words);
    conversions(inputs, &words);
}

/// A version that refuses words would be timed at refusing.
fn refuse_none(sheet: &[u8], words: &[u64]) {
    let (a, b) = (words[0], words[1]);
    for answer in [
        raw::multiply(F, a, b),
        raw::square(F, a),
        raw::trace(F, a),
        raw::to_normal(sheet, a),
        raw::list_to_normal(sheet, words, &mut [0; MAX_LIST]),
    ] {
        assert_eq!(answer.number, 0, "the desk refuses words");
    }
}

fn products(words: &[u64]) {
    let a = |i: usize| words[i % OPERANDS];
    let b = |i: usize| words[OPERANDS + i % OPERANDS];
    pair(
        "multiply-words",
        OPERANDS as u64,
        &mut |times| fold(times, |i| raw::multiply(F, a(i), b(i)).value),
        &mut |times| fold(times, |i| plain::multiply(F, a(i), b(i)).value),
    );
    pair(
        "square-words",
        OPERANDS as u64,
        &mut |times| fold(times, |i| raw::square(F, a(i)).value),
        &mut |times| fold(times, |i| plain::square(F, a(i)).value),
    );
}

/// Traces, of elements or of words.
fn traces(name: &str, operands: &[u64]) {
    let a = |i: usize| operands[i % OPERANDS];
    pair(
        name,
        OPERANDS as u64,
        &mut |times| fold(times, |i| raw::trace(F, a(i)).value),
        &mut |times| fold(times, |i| plain::trace(F, a(i)).value),
    );
}

/// Single words and a whole list, to normal coordinates: coordinates are no
/// words, so there is no way back.
fn conversions(inputs: &Inputs, words: &[u64]) {
    let a = |i: usize| words[i % OPERANDS];
    let sheet = |i: usize| &inputs.sheets[i % SHEETS][..];
    pair(
        "convert-one-word",
        OPERANDS as u64,
        &mut |times| fold(times, |i| raw::to_normal(sheet(i), a(i)).value),
        &mut |times| fold(times, |i| plain::to_normal(sheet(i), a(i)).value),
    );
    list_pair(
        "convert-4096-words",
        |i, into| {
            raw::list_to_normal(sheet(i), words, into);
        },
        |i, into| {
            plain::list_to_normal(sheet(i), words, into);
        },
    );
}
