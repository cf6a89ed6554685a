//! What was met: for each call how often it was done and how often each number
//! refused it. [`Tally::close`] prints the table and says whether it is full.

use crate::{captures, factors, texts};
use sabrentuglio::{Grade, Reason, RecordField};
use std::collections::BTreeMap;

/// The seventeen calls, in the order of the table.
#[derive(Clone, Copy, Debug)]
pub enum Call {
    Check,
    Multiply,
    Square,
    Trace,
    Build,
    Read,
    Why,
    ToPolynomial,
    ToNormal,
    ListToPolynomial,
    ListToNormal,
    Times,
    Inverse,
    Quotient,
    WriteMatrices,
    ReadMatrices,
    Search,
}

/// The name of each call and the documents' order of its refusals.
const ORDERS: [(&str, &[u64]); 17] = [
    ("check", &[1, 2, 3]),
    ("multiply", &[1]),
    ("square", &[1]),
    ("trace", &[1, 2, 3]),
    ("build", &[1, 4, 6, 2, 3, 5]),
    ("read", &[7, 8, 9, 2, 3, 5, 10]),
    ("why", &[7, 8, 9, 2, 3, 5, 10]),
    ("to_polynomial", &[7, 8, 9, 4]),
    ("to_normal", &[7, 8, 9]),
    ("list_to_polynomial", &[7, 8, 9, 11, 4]),
    ("list_to_normal", &[7, 8, 9, 11]),
    ("times", &[7, 8, 9, 4]),
    ("inverse", &[7, 8, 9, 4, 13]),
    ("quotient", &[7, 8, 9, 4, 13]),
    ("write_matrices", &[7, 8, 9, 2, 3, 5, 10, 6]),
    ("read_matrices", &[1, 4, 2, 3, 5, 14]),
    ("search", &[1, 4, 12, 2, 3]),
];

/// Refusal 3 is in the table, but an f without divisors always returns x.
const NEVER: u64 = 3;

/// How often each of the other numbers is to be met at least, in each call.
pub const OFTEN: u64 = 50;

/// How often each number was met.
type Counts = BTreeMap<u64, u64>;

fn met(counts: &Counts, number: u64) -> u64 {
    counts.get(&number).copied().unwrap_or(0)
}

/// The names of the kinds of polynomials that something divides.
fn divided() -> impl Iterator<Item = &'static str> {
    factors::KINDS.iter().map(|(kind, _)| *kind)
}

/// The names of the kinds of wrong texts.
fn wrong_texts() -> impl Iterator<Item = &'static str> {
    texts::KINDS.iter().map(|(kind, _)| *kind)
}

/// The names of the kinds of words that come unreduced.
fn unreduced() -> impl Iterator<Item = &'static str> {
    captures::KINDS.iter().map(|(kind, _)| *kind)
}

/// The numbers of the refusal table.
fn numbers() -> impl Iterator<Item = u64> {
    Reason::ALL.iter().map(|reason| reason.number())
}

/// Counts for each call: done, as 0, and the numbers of the table.
#[derive(Default)]
pub struct Tally {
    counts: [Counts; 17],
    grades: Counts,
    fields: Counts,
    kinds: BTreeMap<&'static str, u64>,
    nothing: u64,
}

impl Tally {
    /// Counts an answer.
    pub fn count(&mut self, call: Call, number: u64) {
        *self.counts[call as usize].entry(number).or_default() += 1;
    }

    /// Counts the grade of a sheet or of what a search found.
    pub fn count_grade(&mut self, grade: u64) {
        *self.grades.entry(grade).or_default() += 1;
    }

    /// Counts the field that a refusal 10 names.
    pub fn count_field(&mut self, field: u64) {
        *self.fields.entry(field).or_default() += 1;
    }

    /// Counts a wrong text, a polynomial that something divides, or a word that
    /// comes unreduced, of a kind.
    pub fn count_kind(&mut self, kind: &'static str) {
        *self.kinds.entry(kind).or_default() += 1;
    }

    /// Counts a search that found nothing.
    pub fn count_nothing(&mut self) {
        self.nothing += 1;
    }

    /// All answers so far.
    pub fn total(&self) -> u64 {
        self.counts.iter().flat_map(Counts::values).sum()
    }

    /// How often a number was met, over all calls; 0 is done.
    pub fn met(&self, number: u64) -> u64 {
        self.counts.iter().map(|row| met(row, number)).sum()
    }

    /// How often a call met a number.
    pub fn of(&self, call: Call, number: u64) -> u64 {
        met(&self.counts[call as usize], number)
    }

    /// How often a kind of text or polynomial was refused as such, or a kind of
    /// word handed over.
    fn met_kind(&self, kind: &str) -> u64 {
        self.kinds.get(kind).copied().unwrap_or(0)
    }

    /// Prints the table and holds it against what has to be met.
    pub fn close(&self) {
        self.print();
        for number in numbers().filter(|number| *number != NEVER) {
            let met = self.met(number);
            assert!(met >= OFTEN, "refusal {} met {} times", number, met);
        }
        assert_eq!(self.met(NEVER), 0, "refusal 3 was met");
        for grade in Grade::ALL {
            let met = met(&self.grades, grade.number());
            assert!(met >= OFTEN, "{:?} met {} times", grade, met);
        }
        for field in RecordField::ALL {
            let met = met(&self.fields, field.number());
            assert!(met >= OFTEN, "{:?} met {} times", field, met);
        }
        for kind in wrong_texts().chain(divided()).chain(unreduced()) {
            let met = self.met_kind(kind);
            assert!(met >= OFTEN, "{} met {} times", kind, met);
        }
        assert!(self.nothing >= OFTEN, "nothing met {} times", self.nothing);
        for ((name, order), row) in ORDERS.iter().zip(&self.counts) {
            assert!(met(row, 0) > 0, "{} was never done", name);
            for number in order.iter().filter(|number| **number != NEVER) {
                let met = met(row, *number);
                assert!(met >= OFTEN, "{} refused {} {} times", name, number, met);
            }
            let astray = row.keys().find(|n| **n != 0 && !order.contains(n));
            assert_eq!(astray, None, "{} has no such refusal", name);
        }
    }

    fn print(&self) {
        print!("{:<20}{:>8}", "call", "done");
        numbers().for_each(|number| print!("{:>7}", number));
        println!();
        for ((name, order), row) in ORDERS.iter().zip(&self.counts) {
            print!("{:<20}{:>8}", name, met(row, 0));
            for number in numbers() {
                match (order.contains(&number), met(row, number)) {
                    (false, 0) => print!("{:>7}", "."),
                    (_, count) => print!("{:>7}", count),
                }
            }
            println!();
        }
        print!("{:<20}{:>8}", "all", self.met(0));
        numbers().for_each(|number| print!("{:>7}", self.met(number)));
        println!();
        for number in numbers() {
            match number {
                NEVER if self.met(NEVER) == 0 => println!("refusal 3: no polynomial earns it"),
                _ => println!("refusal {}: met {} times", number, self.met(number)),
            }
        }
        for (grade, count) in &self.grades {
            println!("grade {}: met {} times", grade, count);
        }
        for field in RecordField::ALL {
            let count = met(&self.fields, field.number());
            println!("refusal 10, {}: met {} times", field, count);
        }
        self.print_kinds();
        println!("searches that found nothing: {}", self.nothing);
    }

    fn print_kinds(&self) {
        for kind in divided() {
            println!("divided, {}: {}", kind, self.met_kind(kind));
        }
        for kind in wrong_texts() {
            println!("wrong texts, {}: {}", kind, self.met_kind(kind));
        }
        for kind in unreduced() {
            println!("unreduced, {}: {}", kind, self.met_kind(kind));
        }
    }
}
