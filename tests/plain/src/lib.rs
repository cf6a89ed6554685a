//! Document 01, and document 02's division, grades, full set of matrices, causes
//! of refusals and unreduced elements, in plain Rust, written from their
//! sentences alone, so that the desk's archive can be compared with something
//! that shares no line with it.
//!
//! In order: [`answers`] has what the calls answer; [`polynomial`] the
//! arithmetic; [`accepted`] the tests of f; [`divisors`] the smallest divisor of
//! f; [`basis`] the three matrices of a normal basis; [`field`], [`sheet`],
//! [`why`](mod@why), [`division`], [`matrices`], [`lists`] and
//! [`search`](mod@search) the seventeen calls.
//!
//! The limits are document 01's too and stand first. Nothing here is quick on
//! purpose. Every 64-bit number is a legal argument of every call; on a refusal
//! what was lent stays as it came.

#![forbid(unsafe_code)]
#![warn(missing_docs)]

/// The highest degree of a defining polynomial, and so the most records of a
/// sheet.
pub const MAX_DEGREE: u32 = 46;

/// The length of one record of a sheet in bytes.
pub const RECORD_LENGTH: usize = 32;

/// The most values of a list.
pub const MAX_LIST: usize = 4096;

pub mod accepted;
pub mod answers;
pub mod basis;
pub mod division;
pub mod divisors;
pub mod field;
pub mod lists;
pub mod matrices;
pub mod polynomial;
pub mod search;
pub mod sheet;
pub mod why;

pub use answers::{Cause, Found, Issued, Refusal, Value};
pub use division::{inverse, quotient};
pub use field::{check, multiply, square, trace};
pub use lists::{list_to_normal, list_to_polynomial};
pub use matrices::{read_matrices, write_matrices};
pub use search::search;
pub use sheet::{build, read, times, to_normal, to_polynomial};
pub use why::why;
