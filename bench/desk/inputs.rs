//! What the calls are asked, most at degree 46 and f = 2^46 + 3, some at lower
//! degrees too: the same numbers in every run, and in `ntl.cpp` drawn the same
//! way.

use crate::random::Random;
use sabrentuglio::{raw, MAX_LIST, RECORD_LENGTH};

/// The degree of most inputs, which stays where the desk learns higher ones.
pub const DEGREE: u32 = 46;

/// x^46 + x + 1, irreducible.
pub const F: u64 = (1 << DEGREE) + 3;

/// Irreducible ones of degree 4, 8, 16, 20, 24 and 32.
pub const LOWER: [u64; 6] = [
    (1 << 4) + 3,
    (1 << 8) + 27,
    (1 << 16) + 43,
    (1 << 20) + 9,
    (1 << 24) + 27,
    (1 << 32) + 141,
];

/// x^23 + x^5 + 1 times x^23 + x^9 + 1, both irreducible.
pub const PRODUCT: u64 = 1 << DEGREE | 1 << 32 | 1 << 28 | 1 << 14 | 1 << 9 | 1 << 5 | 1;

/// How many operands there are, a power of two.
pub const OPERANDS: usize = 1024;

/// How many sheets there are, a power of two.
pub const SHEETS: usize = 16;

/// One set of inputs.
pub struct Inputs {
    /// Its polynomial.
    pub f: u64,
    /// The degree of the polynomial.
    pub degree: u32,
    /// Left operands of products.
    pub a: Vec<u64>,
    /// Right operands of products.
    pub b: Vec<u64>,
    /// Divisors: the right operands, with 1 in the place of 0.
    pub divisors: Vec<u64>,
    /// Normal elements.
    pub normal: Vec<u64>,
    /// Their sheets.
    pub sheets: Vec<Vec<u8>>,
    /// Values of a whole list.
    pub list: Vec<u64>,
}

impl Inputs {
    /// Draws the set of an irreducible polynomial.
    pub fn new(f: u64) -> Inputs {
        let degree = 63 - f.leading_zeros();
        let mut random = Random::new(u64::from(degree));
        let a = random.elements(degree, OPERANDS);
        let b = random.elements(degree, OPERANDS);
        let divisors = b.iter().map(|operand| *operand.max(&1)).collect();
        let mut normal = Vec::new();
        let mut sheets = Vec::new();
        while normal.len() < SHEETS {
            // Only elements of trace 1 can be normal: at degree 46 those with the top bit. Elsewhere
            // the bit does not matter.
            let element = random.element(degree) | 1 << (degree - 1);
            let mut sheet = vec![0; RECORD_LENGTH * degree as usize];
            if raw::build(f, element, &mut sheet).number == 0 {
                normal.push(element);
                sheets.push(sheet);
            }
        }
        let list = random.elements(degree, MAX_LIST);
        Inputs {
            f,
            degree,
            a,
            b,
            divisors,
            normal,
            sheets,
            list,
        }
    }
}
