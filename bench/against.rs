//! Times one call of the desk, for `bench/against`, which compiles this program
//! with each of two versions of the library.
//!
//! `against NAME VERSION` asks the call of this name and prints lines as `desk`
//! does, with VERSION for the program: the answer, then a time for each round.
//!
//! A name ends with the degree where it is not 46. The inputs are those of
//! `desk`, so elements and coordinates are below 2^n: a version that refuses
//! others is asked the same.

#[allow(dead_code)]
#[path = "desk/inputs.rs"]
mod inputs;
#[allow(dead_code)]
#[path = "../bindings/rust/tests/compare/random.rs"]
mod random;
#[allow(dead_code)]
#[path = "desk/rounds.rs"]
mod rounds;

use inputs::{Inputs, F, LOWER, OPERANDS, SHEETS};
use rounds::{fold, repetitions, seconds, ROUNDS};
use sabrentuglio::{raw, MAX_LIST};
use std::env;
use std::process::exit;

/// The calls in the order of the table, one to a line, as the script reads them.
/// A list has 4,096 values, a short one has 40.
const CALLS: [&str; 21] = [
    "multiply",
    "square",
    "trace",
    "check",
    "build",
    "read",
    "to_normal",
    "to_polynomial",
    "times",
    "short_list_to_normal",
    "list_to_normal",
    "list_to_polynomial",
    "multiply-8",
    "multiply-16",
    "multiply-32",
    "to_normal-8",
    "to_normal-16",
    "to_normal-32",
    "list_to_normal-8",
    "list_to_normal-16",
    "list_to_normal-32",
];

/// How many values a short list has.
const SHORT: usize = 40;

fn main() {
    let words: Vec<String> = env::args().skip(1).collect();
    let words: Vec<&str> = words.iter().map(String::as_str).collect();
    match words[..] {
        [name, version] if CALLS.contains(&name) => run(name, version),
        _ => {
            eprintln!("against NAME VERSION");
            exit(2);
        }
    }
}

/// Prints the answer of a call and its times.
fn run(name: &str, version: &str) {
    let (call, degree) = name.split_once('-').unwrap_or((name, "46"));
    let polynomial = |f: &&u64| (63 - f.leading_zeros()).to_string() == degree;
    let f = LOWER.iter().find(polynomial).unwrap_or(&F);
    let inputs = Inputs::new(*f);
    let call = &mut |times| repeated(call, &inputs, times);
    println!("answer {} {} {}", name, version, call(OPERANDS as u64));
    let repetitions = repetitions(call);
    for _ in 0..ROUNDS {
        let time = seconds(call, repetitions) / repetitions as f64;
        println!("time {} {} {:.2}", name, version, time * 1e9);
    }
}

/// Asks so many times and folds the answers into one number. The i-th value of a
/// list stands for it the i-th time.
fn repeated(call: &str, inputs: &Inputs, times: u64) -> u64 {
    let f = inputs.f;
    let a = |i: usize| inputs.a[i % OPERANDS];
    let b = |i: usize| inputs.b[i % OPERANDS];
    let normal = |i: usize| inputs.normal[i % SHEETS];
    let sheet = |i: usize| &inputs.sheets[i % SHEETS][..];
    let (list, short) = (&inputs.list[..], &inputs.list[..SHORT]);
    let mut buffer = inputs.sheets[0].clone();
    let mut into = vec![0; MAX_LIST];
    match call {
        "multiply" => fold(times, |i| value(raw::multiply(f, a(i), b(i)))),
        "square" => fold(times, |i| value(raw::square(f, a(i)))),
        "trace" => fold(times, |i| value(raw::trace(f, a(i)))),
        "check" => fold(times, |_| value(raw::check(f))),
        "build" => fold(times, |i| complexity(raw::build(f, normal(i), &mut buffer))),
        "read" => fold(times, |i| complexity(raw::read(sheet(i)))),
        "to_normal" => fold(times, |i| value(raw::to_normal(sheet(i), a(i)))),
        "to_polynomial" => fold(times, |i| value(raw::to_polynomial(sheet(i), a(i)))),
        "times" => fold(times, |i| value(raw::times(sheet(i), a(i), b(i)))),
        "short_list_to_normal" => fold(times, |i| {
            value(raw::list_to_normal(sheet(i), short, &mut into[..SHORT]));
            into[i % SHORT]
        }),
        "list_to_normal" => fold(times, |i| {
            value(raw::list_to_normal(sheet(i), list, &mut into));
            into[i % MAX_LIST]
        }),
        "list_to_polynomial" => fold(times, |i| {
            value(raw::list_to_polynomial(sheet(i), list, &mut into));
            into[i % MAX_LIST]
        }),
        _ => unreachable!("{}", call),
    }
}

/// The value of a call that is done.
fn value(answer: raw::Value) -> u64 {
    assert_eq!(answer.number, 0, "refused");
    answer.value
}

/// The complexity of a basis that is built or read.
fn complexity(answer: raw::Issued) -> u64 {
    assert_eq!(answer.number, 0, "refused");
    answer.complexity
}
