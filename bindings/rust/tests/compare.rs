//! Compares the desk's archive with `plain`, the same rules written a second
//! time from documents 01 and 02.
//!
//! Every group asks both sides the same and stops at the first difference, with
//! the call and its inputs. At the end a table says how often each refusal was
//! met. The seed is printed; DESK_SEED sets it, so that a run can be repeated.
//!
//! In `compare/`: `random` draws numbers, `fields` finds polynomials and
//! sheets, `factors` makes polynomials of known factors and `captures` words of
//! known remainders, `damage` spoils sheets and `texts` texts, `lent` watches
//! lent memory, `flat` has answers in one form, `pair` asks both sides, `tally`
//! counts; the others are the groups.

#[path = "compare/building.rs"]
mod building;
#[path = "compare/captures.rs"]
mod captures;
#[path = "compare/causes.rs"]
mod causes;
#[path = "compare/damage.rs"]
mod damage;
#[path = "compare/dividing.rs"]
mod dividing;
#[path = "compare/factors.rs"]
mod factors;
#[path = "compare/fields.rs"]
mod fields;
#[path = "compare/flat.rs"]
mod flat;
#[path = "compare/lengths.rs"]
mod lengths;
#[path = "compare/lent.rs"]
mod lent;
#[path = "compare/lists.rs"]
mod lists;
#[path = "compare/matrices.rs"]
mod matrices;
#[path = "compare/pair.rs"]
mod pair;
#[path = "compare/polynomials.rs"]
mod polynomials;
#[path = "compare/random.rs"]
mod random;
#[path = "compare/reading.rs"]
mod reading;
#[path = "compare/results.rs"]
mod results;
#[path = "compare/searching.rs"]
mod searching;
#[path = "compare/tally.rs"]
mod tally;
#[path = "compare/texts.rs"]
mod texts;
#[path = "compare/unreduced.rs"]
mod unreduced;
#[path = "compare/why.rs"]
mod why;

use fields::Fields;
use pair::Pair;
use random::Random;
use sabrentuglio::{MAX_DEGREE, MAX_LIST, RECORD_LENGTH};
use std::env;
use std::time::Instant;

/// The name of a group and what runs it.
type Group = (&'static str, fn(&mut Pair, &mut Random, &Fields));

const GROUPS: [Group; 12] = [
    ("polynomials", polynomials::run),
    ("building", building::run),
    ("reading", reading::run),
    ("lengths", lengths::run),
    ("lists", lists::run),
    ("searching", searching::run),
    ("causes", causes::run),
    ("results", results::run),
    ("dividing", dividing::run),
    ("matrices", matrices::run),
    ("why", why::run),
    ("unreduced", unreduced::run),
];

/// The seed of a run that names none: the same run each time.
const SEED: u64 = 20_261_115;

fn seed() -> u64 {
    match env::var("DESK_SEED") {
        Ok(text) => text.parse().expect("DESK_SEED is a number below 2^64"),
        Err(_) => SEED,
    }
}

fn main() {
    let seed = seed();
    println!("comparing the desk with plain, DESK_SEED={}", seed);
    let limits = (
        plain::MAX_DEGREE as usize,
        plain::RECORD_LENGTH,
        plain::MAX_LIST,
    );
    assert_eq!(
        (MAX_DEGREE, RECORD_LENGTH, MAX_LIST),
        limits,
        "the limits differ"
    );
    let fields = Fields::find(&mut Random::new(seed));
    let mut pair = Pair::new(seed);
    for (index, (name, run)) in (1..).zip(GROUPS) {
        // Each group has numbers of its own, so that one can change alone.
        let mut random = Random::new(seed.wrapping_add(index << 32));
        let (begin, before) = (Instant::now(), pair.tally.total());
        run(&mut pair, &mut random, &fields);
        let asked = pair.tally.total() - before;
        let seconds = begin.elapsed().as_secs_f64();
        println!("{:<12}{:>8} calls agree, {:.2} s", name, asked, seconds);
    }
    pair.tally.close();
    println!("{} calls, no difference", pair.tally.total());
}
