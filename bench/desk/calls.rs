//! The calls on numbers, sheets and lists, each beside plain's.

use crate::causes;
use crate::inputs::{Inputs, F, LOWER, OPERANDS, PRODUCT, SHEETS};
use crate::rounds::{fold, pair};
use crate::texts;
use crate::words;
use sabrentuglio::{raw, MAX_LIST};

/// Runs all of them.
pub fn run() {
    let inputs = Inputs::new(F);
    products(&inputs);
    checks();
    sheets(&inputs);
    causes::run(&inputs);
    conversions(&inputs);
    lists(&inputs);
    words::run(&inputs);
    through_table(&inputs);
    texts::run(&inputs);
    for f in LOWER {
        let inputs = Inputs::new(f);
        through_table(&inputs);
        texts::run(&inputs);
    }
}

fn products(inputs: &Inputs) {
    let (a, b) = (&inputs.a, &inputs.b);
    let at = |i: usize| i % OPERANDS;
    pair(
        "multiply",
        OPERANDS as u64,
        &mut |times| fold(times, |i| raw::multiply(F, a[at(i)], b[at(i)]).value),
        &mut |times| fold(times, |i| plain::multiply(F, a[at(i)], b[at(i)]).value),
    );
    pair(
        "square",
        OPERANDS as u64,
        &mut |times| fold(times, |i| raw::square(F, a[at(i)]).value),
        &mut |times| fold(times, |i| plain::square(F, a[at(i)]).value),
    );
}

fn checks() {
    for (name, f) in [("check-irreducible", F), ("check-product", PRODUCT)] {
        pair(
            name,
            1,
            &mut |times| fold(times, |_| raw::check(f).number),
            &mut |times| fold(times, |_| plain::check(f).number),
        );
    }
}

fn sheets(inputs: &Inputs) {
    let (normal, sheets) = (&inputs.normal, &inputs.sheets);
    let at = |i: usize| i % SHEETS;
    let mut by_desk = sheets[0].clone();
    let mut by_plain = sheets[0].clone();
    pair(
        "build",
        SHEETS as u64,
        &mut |times| {
            fold(times, |i| {
                raw::build(F, normal[at(i)], &mut by_desk).complexity
            })
        },
        &mut |times| {
            fold(times, |i| {
                plain::build(F, normal[at(i)], &mut by_plain).complexity
            })
        },
    );
    pair(
        "read",
        SHEETS as u64,
        &mut |times| fold(times, |i| raw::read(&sheets[at(i)]).complexity),
        &mut |times| fold(times, |i| plain::read(&sheets[at(i)]).complexity),
    );
}

/// Single values, to normal coordinates and back by turns.
fn conversions(inputs: &Inputs) {
    let a = &inputs.a;
    let sheet = |i: usize| &inputs.sheets[i % SHEETS][..];
    let at = |i: usize| i % OPERANDS;
    pair(
        "convert-one",
        OPERANDS as u64,
        &mut |times| {
            fold(times, |i| match i % 2 {
                0 => raw::to_normal(sheet(i), a[at(i)]).value,
                _ => raw::to_polynomial(sheet(i), a[at(i)]).value,
            })
        },
        &mut |times| {
            fold(times, |i| match i % 2 {
                0 => plain::to_normal(sheet(i), a[at(i)]).value,
                _ => plain::to_polynomial(sheet(i), a[at(i)]).value,
            })
        },
    );
}

/// A whole list, to normal coordinates and back by turns: beside plain's list,
/// which takes the sheet apart once and then goes bit by bit, and beside a call
/// of plain's for each single value.
fn lists(inputs: &Inputs) {
    let list = &inputs.list[..];
    let sheet = |i: usize| &inputs.sheets[i % SHEETS][..];
    let desk = |i: usize, into: &mut [u64]| {
        match i % 2 {
            0 => raw::list_to_normal(sheet(i), list, into),
            _ => raw::list_to_polynomial(sheet(i), list, into),
        };
    };
    let whole = |i: usize, into: &mut [u64]| {
        match i % 2 {
            0 => plain::list_to_normal(sheet(i), list, into),
            _ => plain::list_to_polynomial(sheet(i), list, into),
        };
    };
    let singly = |i: usize, into: &mut [u64]| {
        for (to, value) in into.iter_mut().zip(list) {
            *to = match i % 2 {
                0 => plain::to_normal(sheet(i), *value).value,
                _ => plain::to_polynomial(sheet(i), *value).value,
            };
        }
    };
    list_pair("convert-4096", desk, whole);
    list_pair("convert-4096-singly", desk, singly);
}

/// Compares whole lists, then times both; the last value of a list stands for
/// it in the fold.
pub fn list_pair(name: &str, desk: impl Fn(usize, &mut [u64]), plain: impl Fn(usize, &mut [u64])) {
    let mut by_desk = [0; MAX_LIST];
    let mut by_plain = [0; MAX_LIST];
    for i in 0..SHEETS {
        desk(i, &mut by_desk);
        plain(i, &mut by_plain);
        assert!(by_desk == by_plain, "desk and plain differ: {}", name);
    }
    let last = |call: &dyn Fn(usize, &mut [u64]), into: &mut [u64], times| {
        fold(times, |i| {
            call(i, into);
            into[MAX_LIST - 1]
        })
    };
    pair(
        name,
        SHEETS as u64,
        &mut |times| last(&desk, &mut by_desk, times),
        &mut |times| last(&plain, &mut by_plain, times),
    );
}

/// Products, inverses and quotients of normal coordinates through the table, at
/// the degree of the inputs.
fn through_table(inputs: &Inputs) {
    let (a, b, divisors) = (&inputs.a, &inputs.b, &inputs.divisors);
    let sheet = |i: usize| &inputs.sheets[i % SHEETS][..];
    let at = |i: usize| i % OPERANDS;
    let name = |call: &str| format!("{}-{}", call, inputs.degree);
    pair(
        &name("times"),
        OPERANDS as u64,
        &mut |times| fold(times, |i| raw::times(sheet(i), a[at(i)], b[at(i)]).value),
        &mut |times| fold(times, |i| plain::times(sheet(i), a[at(i)], b[at(i)]).value),
    );
    pair(
        &name("inverse"),
        OPERANDS as u64,
        &mut |times| fold(times, |i| raw::inverse(sheet(i), divisors[at(i)]).value),
        &mut |times| fold(times, |i| plain::inverse(sheet(i), divisors[at(i)]).value),
    );
    pair(
        &name("quotient"),
        OPERANDS as u64,
        &mut |times| {
            fold(times, |i| {
                raw::quotient(sheet(i), a[at(i)], divisors[at(i)]).value
            })
        },
        &mut |times| {
            fold(times, |i| {
                plain::quotient(sheet(i), a[at(i)], divisors[at(i)]).value
            })
        },
    );
}
