//! The two sides, asked together: each call goes to the archive and to
//! `plain`, and any difference ends the run with the call and its inputs.
//!
//! Compared are number, place and every value, also on a refusal, and the last
//! state of all that was lent.

use crate::flat::{cause, found, issued, value};
use crate::lent::Lent;
use crate::tally::{Call, Tally};
use sabrentuglio::raw;
use std::fmt::Debug;

const BYTE_MARGIN: u8 = 0xa5;
const LIST_MARGIN: u64 = 0xa5a5_5a5a_a5a5_5a5a;

/// A conversion of a list on the archive's side, and one on the plain side.
type RawList = fn(&[u8], &[u64], &mut [u64]) -> raw::Value;
type PlainList = fn(&[u8], &[u64], &mut [u64]) -> plain::Value;

/// The archive and `plain` side by side.
pub struct Pair {
    pub tally: Tally,
    seed: u64,
    asked: usize,
}

/// Bytes in hex, for a message.
fn hex(bytes: &[u8]) -> String {
    bytes.iter().map(|byte| format!("{:02x}", byte)).collect()
}

// The names are those of the calls; asking counts, so that it changes the pair.
#[allow(clippy::wrong_self_convention)]
impl Pair {
    pub fn new(seed: u64) -> Pair {
        Pair {
            tally: Tally::default(),
            seed,
            asked: 0,
        }
    }

    /// Ends the run.
    fn fail(&self, call: Call, inputs: &str, what: &str) -> ! {
        panic!("{:?}, {}: {} (seed {})", call, inputs, what, self.seed)
    }

    /// Holds two answers against each other and counts what was met.
    fn settle<A: PartialEq + Debug>(
        &mut self,
        call: Call,
        number: u64,
        (desk, plain): (A, A),
        inputs: impl FnOnce() -> String,
    ) {
        if desk != plain {
            let what = format!("the desk answers {:?}, plain {:?}", desk, plain);
            self.fail(call, &inputs(), &what);
        }
        self.asked += 1;
        self.tally.count(call, number);
    }

    fn settle_value(
        &mut self,
        call: Call,
        desk: raw::Value,
        plain: plain::Value,
        inputs: impl FnOnce() -> String,
    ) {
        self.settle(call, plain.number, (value(desk), plain), inputs);
    }

    fn settle_issued(
        &mut self,
        call: Call,
        desk: raw::Issued,
        plain: plain::Issued,
        inputs: impl FnOnce() -> String,
    ) {
        self.settle(call, plain.number, (issued(desk), plain), inputs);
        if plain.number == 0 {
            self.tally.count_grade(plain.grade);
        }
    }

    pub fn check(&mut self, f: u64) {
        let (desk, plain) = (raw::check(f), plain::check(f));
        self.settle_value(Call::Check, desk, plain, || format!("f {}", f));
    }

    pub fn multiply(&mut self, f: u64, a: u64, b: u64) {
        let (desk, plain) = (raw::multiply(f, a, b), plain::multiply(f, a, b));
        self.settle_value(Call::Multiply, desk, plain, || {
            format!("f {}, a {}, b {}", f, a, b)
        });
    }

    pub fn square(&mut self, f: u64, a: u64) {
        let (desk, plain) = (raw::square(f, a), plain::square(f, a));
        self.settle_value(Call::Square, desk, plain, || format!("f {}, a {}", f, a));
    }

    pub fn trace(&mut self, f: u64, a: u64) {
        let (desk, plain) = (raw::trace(f, a), plain::trace(f, a));
        self.settle_value(Call::Trace, desk, plain, || format!("f {}, a {}", f, a));
    }

    /// Builds into a buffer that comes with this content.
    pub fn build(&mut self, f: u64, element: u64, buffer: &[u8]) {
        let inputs = || {
            let length = buffer.len();
            format!("f {}, element {}, buffer of {}", f, element, length)
        };
        let mut lent = Lent::new(buffer, BYTE_MARGIN, self.asked);
        let desk = raw::build(f, element, lent.write());
        let mut expected = buffer.to_vec();
        let plain = plain::build(f, element, &mut expected);
        self.settle_issued(Call::Build, desk, plain, inputs);
        if let Some(fault) = lent.fault(&expected) {
            self.fail(Call::Build, &inputs(), &fault);
        }
    }

    /// Asks the archive with a copy of the sheet, which has to stay.
    fn on_sheet<A>(&self, call: Call, sheet: &[u8], ask: impl FnOnce(&[u8]) -> A) -> A {
        let lent = Lent::new(sheet, BYTE_MARGIN, self.asked);
        let answer = ask(lent.read());
        if let Some(fault) = lent.fault(sheet) {
            self.fail(call, &format!("sheet {}", hex(sheet)), &fault);
        }
        answer
    }

    pub fn read(&mut self, sheet: &[u8]) {
        let desk = self.on_sheet(Call::Read, sheet, raw::read);
        let plain = plain::read(sheet);
        self.settle_issued(Call::Read, desk, plain, || format!("sheet {}", hex(sheet)));
    }

    /// Asks why a sheet is refused. Returns the answer of both.
    pub fn why(&mut self, sheet: &[u8]) -> plain::Cause {
        let desk = self.on_sheet(Call::Why, sheet, raw::why);
        let plain = plain::why(sheet);
        self.settle(Call::Why, plain.number, (cause(desk), plain), || {
            format!("sheet {}", hex(sheet))
        });
        if plain.number == 10 {
            self.tally.count_field(plain.field);
        }
        plain
    }

    pub fn to_polynomial(&mut self, sheet: &[u8], coordinates: u64) {
        let call = Call::ToPolynomial;
        let desk = self.on_sheet(call, sheet, |s| raw::to_polynomial(s, coordinates));
        let plain = plain::to_polynomial(sheet, coordinates);
        self.settle_value(call, desk, plain, || {
            format!("coordinates {}, sheet {}", coordinates, hex(sheet))
        });
    }

    pub fn to_normal(&mut self, sheet: &[u8], element: u64) {
        let call = Call::ToNormal;
        let desk = self.on_sheet(call, sheet, |s| raw::to_normal(s, element));
        let plain = plain::to_normal(sheet, element);
        self.settle_value(call, desk, plain, || {
            format!("element {}, sheet {}", element, hex(sheet))
        });
    }

    pub fn times(&mut self, sheet: &[u8], a: u64, b: u64) {
        let desk = self.on_sheet(Call::Times, sheet, |s| raw::times(s, a, b));
        let plain = plain::times(sheet, a, b);
        self.settle_value(Call::Times, desk, plain, || {
            format!("a {}, b {}, sheet {}", a, b, hex(sheet))
        });
    }

    pub fn inverse(&mut self, sheet: &[u8], a: u64) {
        let desk = self.on_sheet(Call::Inverse, sheet, |s| raw::inverse(s, a));
        let plain = plain::inverse(sheet, a);
        self.settle_value(Call::Inverse, desk, plain, || {
            format!("a {}, sheet {}", a, hex(sheet))
        });
    }

    pub fn quotient(&mut self, sheet: &[u8], dividend: u64, divisor: u64) {
        let call = Call::Quotient;
        let desk = self.on_sheet(call, sheet, |s| raw::quotient(s, dividend, divisor));
        let plain = plain::quotient(sheet, dividend, divisor);
        self.settle_value(call, desk, plain, || {
            format!("{} over {}, sheet {}", dividend, divisor, hex(sheet))
        });
    }

    /// Writes the text of all matrices into a buffer that comes with this
    /// content. Returns the answer of both.
    pub fn write_matrices(&mut self, sheet: &[u8], text: &[u8]) -> plain::Issued {
        let call = Call::WriteMatrices;
        let inputs = || format!("room for {} bytes, sheet {}", text.len(), hex(sheet));
        let mut lent = Lent::new(text, BYTE_MARGIN, self.asked);
        let desk = self.on_sheet(call, sheet, |s| raw::write_matrices(s, lent.write()));
        let mut expected = text.to_vec();
        let plain = plain::write_matrices(sheet, &mut expected);
        self.settle_issued(call, desk, plain, inputs);
        if let Some(fault) = lent.fault(&expected) {
            self.fail(call, &inputs(), &fault);
        }
        plain
    }

    /// Reads a text for f and an element. Returns the answer of both.
    pub fn read_matrices(&mut self, f: u64, element: u64, text: &[u8]) -> plain::Issued {
        let call = Call::ReadMatrices;
        let inputs = || format!("f {}, element {}, text {}", f, element, hex(text));
        let lent = Lent::new(text, BYTE_MARGIN, self.asked);
        let desk = raw::read_matrices(f, element, lent.read());
        let plain = plain::read_matrices(f, element, text);
        self.settle_issued(call, desk, plain, inputs);
        if let Some(fault) = lent.fault(text) {
            self.fail(call, &inputs(), &fault);
        }
        plain
    }

    /// Converts a list both ways into a list that comes with this content.
    pub fn lists(&mut self, sheet: &[u8], from: &[u64], into: &[u64]) {
        let ways: [(Call, RawList, PlainList); 2] = [
            (
                Call::ListToPolynomial,
                raw::list_to_polynomial,
                plain::list_to_polynomial,
            ),
            (
                Call::ListToNormal,
                raw::list_to_normal,
                plain::list_to_normal,
            ),
        ];
        for (call, desk_way, plain_way) in ways {
            let inputs = || format!("from {:?}, into {:?}, sheet {}", from, into, hex(sheet));
            let lent_from = Lent::new(from, LIST_MARGIN, self.asked);
            let mut lent_into = Lent::new(into, LIST_MARGIN, self.asked);
            let desk = self.on_sheet(call, sheet, |s| {
                desk_way(s, lent_from.read(), lent_into.write())
            });
            let mut expected = into.to_vec();
            let plain = plain_way(sheet, from, &mut expected);
            self.settle_value(call, desk, plain, inputs);
            let fault = lent_into.fault(&expected).or_else(|| lent_from.fault(from));
            if let Some(fault) = fault {
                self.fail(call, &inputs(), &fault);
            }
        }
    }

    pub fn search(&mut self, f: u64, first: u64, last: u64) {
        let desk = raw::search(f, first, last);
        let plain = plain::search(f, first, last);
        self.settle(Call::Search, plain.number, (found(desk), plain), || {
            format!("f {}, first {}, last {}", f, first, last)
        });
        match (plain.number, plain.found) {
            (0, 0) => self.tally.count_nothing(),
            (0, _) => self.tally.count_grade(plain.grade),
            _ => (),
        }
    }
}
