//! The desk: elements of GF(2^n), n from 2 to 46, in two notations.
//!
//! In the polynomial notation an element is a 64-bit number below 2^n whose
//! bit i is the coefficient of x^i, reduced modulo a defining polynomial f. In
//! normal coordinates it is a sum of conjugates of one normal element. A sheet
//! is a file of one normal basis, by which values go from one notation to the
//! other.
//!
//! The work is done by the desk's archive, whose code is proved to meet the
//! project's build description, document 01, and the requests of document 02
//! that are built; this crate only hands calls over.
//! [`Sheet`] owns a sheet that the desk built or accepted. The functions are
//! the seventeen calls one to one, over slices that you lend: [`check`],
//! [`multiply`], [`square`], [`trace`], [`build`], [`read`], [`why`](fn@why),
//! [`to_polynomial`], [`to_normal`], [`list_to_polynomial`], [`list_to_normal`],
//! [`times`], [`inverse`], [`quotient`], [`write_matrices`], [`read_matrices`],
//! [`search`]. [`raw`] has the same with the answers as flat numbers.
//! [`Polynomial`] parses what a designer types, as the command line does.
//!
//! Every number is a legal argument. Elements may come unreduced, as 64-bit
//! words of a line capture do: [`multiply`], [`square`], [`trace`],
//! [`to_normal`] and [`list_to_normal`] work on the remainder modulo f. What the
//! desk does not do it refuses, with a [`Refusal`], and then every buffer, list
//! and text stays as it came.
//!
//! Refusals and grades carry the documents' numbers. [`Reason`] and [`Grade`]
//! have the names of those that this version knows. [`Cause`] says why a sheet is
//! refused: by which divisor of f, by which conjugates, or by which number.
//!
//! ```
//! use sabrentuglio::{multiply, Reason, Sheet};
//!
//! let sheet = Sheet::build(11, 3)?;
//! let (a, b) = (sheet.to_normal(6)?, sheet.to_normal(4)?);
//! let product = sheet.to_polynomial(sheet.times(a, b)?)?;
//! assert_eq!(product, multiply(11, 6, 4)?);
//! assert_eq!(sheet.quotient(sheet.times(a, b)?, b)?, a);
//!
//! // All 64 bits set are 1 modulo x^3 + x + 1.
//! assert_eq!(sheet.to_polynomial(sheet.to_normal(u64::MAX)?)?, 1);
//!
//! let refusal = Sheet::build(11, 2).unwrap_err();
//! assert_eq!(refusal.reason(), Some(Reason::NotNormal));
//! # Ok::<(), sabrentuglio::Refusal>(())
//! ```

#![deny(unsafe_code)]
#![warn(missing_docs)]

mod answer;
mod calls;
mod cause;
mod lists;
mod matrices;
pub mod raw;
mod refusal;
mod rows;
mod sheet;
mod why;
mod words;

pub use answer::{Best, Grade, Summary};
pub use calls::{
    build, check, inverse, list_to_normal, list_to_polynomial, multiply, quotient, read, search,
    square, times, to_normal, to_polynomial, trace,
};
pub use cause::{Cause, RecordField};
pub use matrices::{matrices_size, read_matrices, write_matrices};
pub use refusal::{Reason, Refusal, UnknownNumber};
pub use rows::{Row, Rows};
pub use sheet::Sheet;
pub use why::why;
pub use words::{number_of, polynomial_of, Polynomial, UnclearWord};

/// The version of the crate, which is that of the whole product.
pub const VERSION: &str = env!("CARGO_PKG_VERSION");

/// The length of one record of a sheet in bytes.
pub const RECORD_LENGTH: usize = 32;

/// The highest degree of a defining polynomial, and so the most records of a
/// sheet.
pub const MAX_DEGREE: usize = 46;

/// The most values of a list of one call. A [`Sheet`] converts longer lists by
/// several calls.
pub const MAX_LIST: usize = 4096;

/// The example of the README is run with the others.
#[cfg(doctest)]
#[doc = include_str!("../README.md")]
struct Readme;
