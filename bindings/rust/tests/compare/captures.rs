//! 64-bit words, as line captures carry them, for elements that come unreduced:
//! the kinds of word, each with the remainder modulo f that it has by its making.
//!
//! Every one is 2^n or more. A multiple of f and a remainder make the word, so
//! that none of these remainders comes from a division.

use crate::fields::product;
use crate::random::Random;

/// A word and its remainder modulo f. There is none where f decides it.
pub type Capture = (u64, Option<u64>);

/// A kind of word, for f of degree n.
pub type Kind = (&'static str, fn(u64, u32, &mut Random) -> Capture);

/// All kinds.
pub const KINDS: [Kind; 14] = [
    ("2^64 - 1", all_bits),
    ("2^63", top_bit),
    ("2^n", first_past),
    ("2^n and an element", past_by_an_element),
    ("a power of two", power_of_two),
    ("any number", any),
    ("f itself", f_itself),
    ("f and a small number", f_and_small),
    ("f and an element", f_and_element),
    ("f times a power of x", shifted),
    ("f times the highest power of x", shifted_to_the_top),
    ("a multiple of f", multiple),
    ("a multiple and a small number", multiple_and_small),
    ("a multiple and an element", multiple_and_element),
];

/// One word of any kind.
pub fn capture(f: u64, n: u32, random: &mut Random) -> Capture {
    random.pick(&KINDS).1(f, n, random)
}

/// A number from 1 to 15 that is below 2^n.
fn small(n: u32, random: &mut Random) -> u64 {
    1 + random.below((1 << n.min(4)) - 1)
}

/// f times a polynomial that is not zero, of any degree for which it fits.
fn any_multiple(f: u64, n: u32, random: &mut Random) -> u64 {
    let most = u64::from(63 - n);
    let any = random.below(most + 1);
    let lead = 1 << random.pick(&[most, any]);
    product(f, lead + random.below(lead))
}

fn all_bits(_: u64, _: u32, _: &mut Random) -> Capture {
    (u64::MAX, None)
}

fn top_bit(_: u64, _: u32, _: &mut Random) -> Capture {
    (1 << 63, None)
}

/// It is f and the other terms of f.
fn first_past(f: u64, n: u32, _: &mut Random) -> Capture {
    (1 << n, Some(f ^ 1 << n))
}

fn past_by_an_element(f: u64, n: u32, random: &mut Random) -> Capture {
    let element = random.element(n);
    ((1 << n) + element, Some(f ^ 1 << n ^ element))
}

fn power_of_two(_: u64, n: u32, random: &mut Random) -> Capture {
    (1 << (n + random.below(u64::from(64 - n)) as u32), None)
}

fn any(_: u64, n: u32, random: &mut Random) -> Capture {
    (random.number() | 1 << n, None)
}

fn f_itself(f: u64, _: u32, _: &mut Random) -> Capture {
    (f, Some(0))
}

fn f_and_small(f: u64, n: u32, random: &mut Random) -> Capture {
    let rest = small(n, random);
    (f ^ rest, Some(rest))
}

fn f_and_element(f: u64, n: u32, random: &mut Random) -> Capture {
    let rest = random.element(n);
    (f ^ rest, Some(rest))
}

fn shifted(f: u64, n: u32, random: &mut Random) -> Capture {
    (f << random.below(u64::from(64 - n)), Some(0))
}

fn shifted_to_the_top(f: u64, n: u32, _: &mut Random) -> Capture {
    (f << (63 - n), Some(0))
}

fn multiple(f: u64, n: u32, random: &mut Random) -> Capture {
    (any_multiple(f, n, random), Some(0))
}

fn multiple_and_small(f: u64, n: u32, random: &mut Random) -> Capture {
    let rest = small(n, random);
    (any_multiple(f, n, random) ^ rest, Some(rest))
}

fn multiple_and_element(f: u64, n: u32, random: &mut Random) -> Capture {
    let rest = random.element(n);
    (any_multiple(f, n, random) ^ rest, Some(rest))
}
