//! Times the calls of the desk's archive beside `plain`, the independent
//! implementation, in one program.
//!
//! `desk calls` times the calls on numbers, sheets, causes, lists, words and
//! texts; `desk search 20` the searches, and gives each about so many seconds.
//! Every line printed is a measurement or an answer; answers of one name are the
//! same for every program that `bench/run` starts:
//!
//! ```text
//! time NAME PROGRAM NANOSECONDS           of one call
//! search NAME PROGRAM K NANOSECONDS       of one element, over 2^K elements
//! answer NAME PROGRAM NUMBERS
//! ```
//!
//! In `desk/`: `rounds` takes times, `inputs` draws what is asked, `calls`,
//! `causes`, `words`, `texts` and `searches` ask it.

#[path = "desk/calls.rs"]
mod calls;
#[path = "desk/causes.rs"]
mod causes;
#[path = "desk/inputs.rs"]
mod inputs;
#[allow(dead_code)]
#[path = "../bindings/rust/tests/compare/random.rs"]
mod random;
#[path = "desk/rounds.rs"]
mod rounds;
#[path = "desk/searches.rs"]
mod searches;
#[path = "desk/texts.rs"]
mod texts;
#[path = "desk/words.rs"]
mod words;

use std::env;
use std::process::exit;

fn main() {
    let words: Vec<String> = env::args().skip(1).collect();
    let words: Vec<&str> = words.iter().map(String::as_str).collect();
    match words[..] {
        ["calls"] => calls::run(),
        ["search", seconds] => match seconds.parse() {
            Ok(seconds) => searches::run(seconds),
            Err(_) => usage(),
        },
        _ => usage(),
    }
}

fn usage() {
    eprintln!("desk calls | desk search SECONDS");
    exit(2);
}
