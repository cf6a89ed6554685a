//! What the calls answer: a number and a place of document 01's refusal table,
//! and values that are zero on a refusal.
//!
//! [`Refusal`] is the inner form, carried by `?`; [`Value`], [`Issued`],
//! [`Cause`] and [`Found`] are the answers themselves, flat, one field for each
//! number.

/// A line of the refusal table with its place.
#[derive(Clone, Copy, Debug, PartialEq, Eq)]
pub struct Refusal {
    /// The number in the table.
    pub number: u64,
    /// The record, list index or line the table speaks of, else 0.
    pub place: u64,
}

impl Refusal {
    /// A refusal for which the table names no place.
    pub fn new(number: u64) -> Refusal {
        Refusal { number, place: 0 }
    }

    /// A refusal at a record, a list index or a line.
    pub fn at(number: u64, place: usize) -> Refusal {
        Refusal {
            number,
            place: place as u64,
        }
    }
}

/// Refuses where the condition holds.
pub fn refuse_if(condition: bool, number: u64) -> Result<(), Refusal> {
    if condition {
        Err(Refusal::new(number))
    } else {
        Ok(())
    }
}

/// The answer of a call with one value, or with none (the value is then 0).
#[derive(Clone, Copy, Debug, Default, PartialEq, Eq)]
pub struct Value {
    /// The refusal's number, 0 for done.
    pub number: u64,
    /// The refusal's place.
    pub place: u64,
    /// What the call answers.
    pub value: u64,
}

/// The answer of building and reading, and of writing and reading a text.
#[derive(Clone, Copy, Debug, Default, PartialEq, Eq)]
pub struct Issued {
    /// The refusal's number, 0 for done.
    pub number: u64,
    /// The refusal's place.
    pub place: u64,
    /// n, the degree of f.
    pub degree: u64,
    /// The number of ones in the table rows.
    pub complexity: u64,
    /// The grade, 0 to 3.
    pub grade: u64,
}

/// The answer of why reading refuses a sheet; all zero where it accepts it.
#[derive(Clone, Copy, Debug, Default, PartialEq, Eq)]
pub struct Cause {
    /// The refusal's number, 0 where reading accepts the sheet.
    pub number: u64,
    /// The refusal's place.
    pub place: u64,
    /// The number that 2, 3 and 5 have for a cause, else 0.
    pub cause: u64,
    /// 1, 2 or 3 for the conjugate, inverse or table row that 10 speaks of,
    /// else 0.
    pub field: u64,
    /// The number that stands there.
    pub stored: u64,
    /// The right one.
    pub right: u64,
}

/// The answer of a search.
#[derive(Clone, Copy, Debug, Default, PartialEq, Eq)]
pub struct Found {
    /// The refusal's number, 0 for found and for nothing.
    pub number: u64,
    /// 1 where a normal leader lies in the range.
    pub found: u64,
    /// The leader of least complexity, the smallest such.
    pub element: u64,
    /// Its complexity.
    pub complexity: u64,
    /// Its grade.
    pub grade: u64,
    /// How many normal leaders lie in the range.
    pub count: u64,
}

impl From<Result<u64, Refusal>> for Value {
    fn from(result: Result<u64, Refusal>) -> Value {
        match result {
            Ok(value) => Value {
                value,
                ..Value::default()
            },
            Err(refusal) => Value {
                number: refusal.number,
                place: refusal.place,
                value: 0,
            },
        }
    }
}

impl From<Result<Issued, Refusal>> for Issued {
    fn from(result: Result<Issued, Refusal>) -> Issued {
        result.unwrap_or_else(|refusal| Issued {
            number: refusal.number,
            place: refusal.place,
            ..Issued::default()
        })
    }
}

impl From<Refusal> for Cause {
    fn from(refusal: Refusal) -> Cause {
        Cause {
            number: refusal.number,
            place: refusal.place,
            ..Cause::default()
        }
    }
}

impl From<Result<Found, Refusal>> for Found {
    fn from(result: Result<Found, Refusal>) -> Found {
        result.unwrap_or_else(|refusal| Found {
            number: refusal.number,
            ..Found::default()
        })
    }
}
