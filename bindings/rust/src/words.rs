//! Typed words: [`number_of`] and [`polynomial_of`] read them as the command
//! line does, [`Polynomial`] parses and prints them, [`UnclearWord`] says what
//! is expected.

use crate::raw;
use std::error::Error;
use std::fmt;
use std::str::FromStr;

/// The number that a word means: decimal, or hexadecimal after `0x`, below
/// 2^64. Normal coordinates are typed so; exponents make no sense for them.
///
/// ```
/// use sabrentuglio::number_of;
///
/// assert_eq!(number_of("19")?, 19);
/// assert_eq!(number_of("0x13")?, 19);
/// assert_eq!(number_of("4:1:0").unwrap_err().word(), "4:1:0");
/// # Ok::<(), sabrentuglio::UnclearWord>(())
/// ```
pub fn number_of(word: &str) -> Result<u64, UnclearWord> {
    clear(raw::number_of(word.as_bytes()), word, Kind::Number)
}

/// The polynomial that a word means: a number as [`number_of`] reads it, or
/// two or more falling exponents below 64 with one colon between.
///
/// A word without a colon is a number, so `46` is not x^46. No term 1 is
/// understood: `4:1` is x^4 + x.
///
/// ```
/// use sabrentuglio::polynomial_of;
///
/// assert_eq!(polynomial_of("4:1:0")?, 19);
/// assert_eq!(polynomial_of("0x13")?, 19);
/// assert!(polynomial_of("1:4:0").is_err());
/// # Ok::<(), sabrentuglio::UnclearWord>(())
/// ```
pub fn polynomial_of(word: &str) -> Result<u64, UnclearWord> {
    clear(raw::polynomial_of(word.as_bytes()), word, Kind::Polynomial)
}

/// The value of a word that is clear, else the error that names the word.
fn clear(answer: raw::Word, word: &str, kind: Kind) -> Result<u64, UnclearWord> {
    if answer.clear != 0 {
        return Ok(answer.value);
    }
    let word = word.to_owned();
    Err(UnclearWord { word, kind })
}

/// A polynomial over the two-element field: bit i is the coefficient of x^i.
///
/// It parses as [`polynomial_of`] says. It prints in decimal, and with `{:#}`
/// as falling exponents; zero and a polynomial of one term print in decimal
/// there too, since a lone exponent would be read as a number. `{:#x}` prints
/// hexadecimal. All three are read back as the same polynomial.
///
/// ```
/// use sabrentuglio::{check, Polynomial};
///
/// let f: Polynomial = "4:1:0".parse()?;
/// assert_eq!(f, Polynomial(19));
/// assert!(check(f.into()).is_ok());
/// assert_eq!(format!("{} {:#} {:#x}", f, f, f), "19 4:1:0 0x13");
/// assert_eq!(format!("{:#}", Polynomial(8)), "8");
/// # Ok::<(), sabrentuglio::UnclearWord>(())
/// ```
#[derive(Clone, Copy, Debug, Default, PartialEq, Eq, Hash, PartialOrd, Ord)]
pub struct Polynomial(pub u64);

impl From<u64> for Polynomial {
    fn from(number: u64) -> Polynomial {
        Polynomial(number)
    }
}

impl From<Polynomial> for u64 {
    fn from(polynomial: Polynomial) -> u64 {
        polynomial.0
    }
}

impl FromStr for Polynomial {
    type Err = UnclearWord;

    fn from_str(word: &str) -> Result<Polynomial, UnclearWord> {
        polynomial_of(word).map(Polynomial)
    }
}

impl fmt::Display for Polynomial {
    fn fmt(&self, out: &mut fmt::Formatter<'_>) -> fmt::Result {
        if !out.alternate() || self.0.count_ones() < 2 {
            return fmt::Display::fmt(&self.0, out);
        }
        let falling = (0..64).rev().filter(|e| self.0 >> e & 1 == 1);
        let exponents: Vec<String> = falling.map(|e: u32| e.to_string()).collect();
        out.pad(&exponents.join(":"))
    }
}

impl fmt::LowerHex for Polynomial {
    fn fmt(&self, out: &mut fmt::Formatter<'_>) -> fmt::Result {
        fmt::LowerHex::fmt(&self.0, out)
    }
}

/// What a word was read as.
#[derive(Clone, Copy, Debug, PartialEq, Eq, Hash)]
enum Kind {
    Number,
    Polynomial,
}

/// A word that means nothing: which word, and what is expected in its place.
///
/// ```
/// use sabrentuglio::Polynomial;
///
/// let unclear = "4:4:0".parse::<Polynomial>().unwrap_err();
/// assert_eq!(unclear.word(), "4:4:0");
/// assert_eq!(
///     unclear.to_string(),
///     "'4:4:0' is no polynomial; write it in decimal (19), in hexadecimal (0x13) \
///      or as falling exponents (4:1:0), below 2^64"
/// );
/// ```
#[derive(Clone, Debug, PartialEq, Eq, Hash)]
pub struct UnclearWord {
    word: String,
    kind: Kind,
}

impl UnclearWord {
    /// The word as it was typed.
    pub fn word(&self) -> &str {
        &self.word
    }

    /// How to write what was asked for.
    pub fn expected(&self) -> &'static str {
        match self.kind {
            Kind::Number => "write it in decimal (19) or in hexadecimal (0x13), below 2^64",
            Kind::Polynomial => {
                "write it in decimal (19), in hexadecimal (0x13) \
                 or as falling exponents (4:1:0), below 2^64"
            }
        }
    }
}

impl fmt::Display for UnclearWord {
    fn fmt(&self, out: &mut fmt::Formatter<'_>) -> fmt::Result {
        let kind = match self.kind {
            Kind::Number => "number",
            Kind::Polynomial => "polynomial",
        };
        write!(out, "'{}' is no {}; {}", self.word, kind, self.expected())
    }
}

impl Error for UnclearWord {}

#[cfg(test)]
mod tests {
    use super::*;

    const NUMBERS: [(&str, u64); 7] = [
        ("0", 0),
        ("007", 7),
        ("19", 19),
        ("0x0", 0),
        ("0xaBcDeF", 0xabcdef),
        ("18446744073709551615", u64::MAX),
        ("0xffffffffffffffff", u64::MAX),
    ];

    const EXPONENTS: [(&str, u64); 4] = [
        ("1:0", 3),
        ("4:1:0", 19),
        ("46:1", 1 << 46 | 2),
        ("63:062", 3 << 62),
    ];

    const UNCLEAR: [&str; 19] = [
        "",
        " 19",
        "19 ",
        "+1",
        "-1",
        "0x",
        "0X13",
        "13h",
        "18446744073709551616",
        "0x10000000000000000",
        ":",
        "4:",
        ":0",
        "4::0",
        "1:4",
        "4:4",
        "64:0",
        "x",
        "1\u{662}",
    ];

    #[test]
    fn numbers_are_read() {
        for (word, value) in NUMBERS {
            assert_eq!(number_of(word), Ok(value), "{}", word);
            assert_eq!(word.parse(), Ok(Polynomial(value)), "{}", word);
        }
    }

    #[test]
    fn exponents_are_read_of_polynomials_alone() {
        for (word, value) in EXPONENTS {
            assert_eq!(polynomial_of(word), Ok(value), "{}", word);
            assert!(number_of(word).is_err(), "{}", word);
        }
    }

    #[test]
    fn other_words_are_unclear() {
        for word in UNCLEAR {
            assert_eq!(number_of(word).unwrap_err().word(), word);
            assert_eq!(word.parse::<Polynomial>().unwrap_err().word(), word);
        }
        let unclear = number_of("x").unwrap_err();
        assert!(unclear.to_string().starts_with("'x' is no number; "));
        assert!(!unclear.expected().contains("exponents"));
    }

    #[test]
    fn what_is_printed_is_read_back() {
        let mut value: u64 = 0x9e37_79b9_7f4a_7c15;
        let mixed = std::iter::repeat_with(|| {
            value ^= value << 13;
            value ^= value >> 7;
            value ^= value << 17;
            value
        });
        let single = (0..64).map(|e| 1 << e);
        for number in single.chain([0, 3, u64::MAX]).chain(mixed.take(500)) {
            let p = Polynomial(number);
            for word in [format!("{}", p), format!("{:#}", p), format!("{:#x}", p)] {
                assert_eq!(word.parse(), Ok(p), "{}", word);
            }
        }
    }
}
