//! All n matrices T_k as text: [`write_matrices`], [`read_matrices`] (document
//! 02, §4, after source document 000's definition 12).
//!
//! Every entry comes from its own product c_i c_j, converted to normal
//! coordinates; the table rows of a sheet have no part in it.

use crate::accepted::{field_degree, refuse_unaccepted};
use crate::answers::{refuse_if, Issued, Refusal};
use crate::basis::{Basis, Coordinates};
use crate::field::refuse_large;
use crate::polynomial::product;
use crate::sheet::{compared, issued, Rows};

/// The byte that ends a line.
const LINE_END: u8 = 10;

/// "A buffer below n(n(n+1)+1) bytes" is too short for the text.
pub fn matrices_size(n: usize) -> usize {
    n * (n * (n + 1) + 1)
}

/// The normal coordinates of c_i c_j, for all i and j.
fn coordinates_of_products(f: u64, conjugates: &[u64]) -> Vec<Vec<u64>> {
    let coordinates = Coordinates::new(conjugates).expect("the element is normal");
    let of_product = |a: &u64, b: &u64| coordinates.of(product(f, *a, *b));
    let row = |a: &u64| conjugates.iter().map(|b| of_product(a, b)).collect();
    conjugates.iter().map(row).collect()
}

/// The text of a basis: "each row a line of n digits, j upward, ended by byte
/// 10, matrices in order of k, an empty line after each".
fn text_of(f: u64, conjugates: &[u64]) -> Vec<u8> {
    let products = coordinates_of_products(f, conjugates);
    let mut text = Vec::new();
    for k in 0..conjugates.len() {
        for row in &products {
            // "Entry (i,j) of T_k is bit k of the normal coordinates of c_i c_j".
            let entries = row.iter().map(|coordinates| coordinates >> k & 1 == 1);
            text.extend(entries.map(|one| if one { b'1' } else { b'0' }));
            text.push(LINE_END);
        }
        text.push(LINE_END);
    }
    text
}

/// Writes the text of a sheet's basis: those of reading the sheet, then 6.
/// Bytes after the text stay.
pub fn write_matrices(sheet: &[u8], text: &mut [u8]) -> Issued {
    let written = to_write(sheet, text.len());
    if let Ok((right, _)) = &written {
        text[..right.len()].copy_from_slice(right);
    }
    written.map(|(_, issued)| issued).into()
}

fn to_write(sheet: &[u8], room: usize) -> Result<(Vec<u8>, Issued), Refusal> {
    let issued = compared(sheet)?;
    let rows = Rows::new(sheet)?;
    refuse_if(room < matrices_size(rows.degree as usize), 6)?;
    Ok((text_of(rows.f, &rows.basis.conjugates), issued))
}

/// Reads a text for f and an element: 1, 4, 2, 3, 5, then 14.
pub fn read_matrices(f: u64, element: u64, text: &[u8]) -> Issued {
    matched(f, element, text).into()
}

fn matched(f: u64, element: u64, text: &[u8]) -> Result<Issued, Refusal> {
    let n = field_degree(f)?;
    refuse_large(n, &[element])?;
    refuse_unaccepted(f)?;
    let basis = Basis::new(f, element).ok_or_else(|| Refusal::new(5))?;
    match first_difference(text, &text_of(f, &basis.conjugates)) {
        Some(line) => Err(Refusal::at(14, line)),
        None => Ok(issued(f, &basis)),
    }
}

/// "The first wrong, missing or extra line counted from 0": so many lines before
/// it are right. `None` where the two are the same text.
fn first_difference(text: &[u8], right: &[u8]) -> Option<usize> {
    let same = lines(text).zip(lines(right));
    let before = same.take_while(|(line, right)| line == right).count();
    (text != right).then_some(before)
}

/// The lines of a text, each with the byte 10 that ends it, so that the same
/// digits without it are another line.
fn lines(text: &[u8]) -> impl Iterator<Item = &[u8]> {
    text.split_inclusive(|byte| *byte == LINE_END)
}

#[cfg(test)]
mod tests {
    use super::*;
    use crate::basis::conjugates;
    use crate::division::tests::some_sheet;
    use crate::sheet::tests::sheet;
    use crate::{build, multiply, trace, MAX_DEGREE, RECORD_LENGTH};

    /// The text that writing gives, at its own length.
    fn text(f: u64, element: u64) -> Vec<u8> {
        let sheet = sheet(f, element);
        let mut text = vec![9; matrices_size(sheet.len() / RECORD_LENGTH)];
        assert_eq!(write_matrices(&sheet, &mut text).number, 0);
        text
    }

    fn refused(number: u64, place: u64) -> Issued {
        Err(Refusal { number, place }).into()
    }

    #[test]
    fn small_texts() {
        assert_eq!(text(7, 2), b"01\n11\n\n11\n10\n\n");
        let of_11 = b"010\n101\n011\n\n101\n001\n110\n\n011\n110\n100\n\n";
        assert_eq!(text(11, 3), of_11);
    }

    /// Source document 000's best normal bases, its table D.5: the terms of a
    /// minimal polynomial between the first and the last, and the ones of all
    /// T_k. A root of the polynomial is x.
    const BEST: [(&[u32], u64); 23] = [
        (&[1], 6),
        (&[2], 15),
        (&[3, 2, 1], 28),
        (&[4, 2, 1], 45),
        (&[5, 4, 1], 66),
        (&[6, 5, 2], 133),
        (&[7, 5, 3], 168),
        (&[8, 6, 5, 4, 1], 153),
        (&[9, 8, 7, 6, 5, 4, 3, 2, 1], 190),
        (&[10, 8, 4, 3, 2], 231),
        (&[11, 10, 9, 8, 7, 6, 5, 4, 3, 2, 1], 276),
        (&[12, 10, 7, 4, 3], 585),
        (&[13, 12, 9, 8, 1], 378),
        (&[14, 12, 9, 7, 5, 4, 2], 675),
        (&[15, 13, 12, 11, 10, 8, 7, 5, 3, 2, 1], 1360),
        (&[16, 14, 13, 12, 11, 10, 9, 7, 5, 3, 1], 1377),
        (&[17, 16, 13, 12, 10, 9, 8, 2, 1], 630),
        (&[18, 16, 11, 8, 6, 4, 1], 2223),
        (&[19, 18, 15, 14, 12, 11, 6, 3, 1], 1260),
        (&[20, 19, 17, 15, 14, 13, 9, 5, 4], 1995),
        (&[21, 20, 18, 16, 15, 14, 13, 10, 7, 5, 2], 1386),
        (&[22, 20, 16, 8, 7, 6, 4], 1035),
        (&[23, 21, 20, 19, 18, 17, 9, 8, 7, 5, 3], 2520),
    ];

    #[test]
    fn ones_are_those_of_document_000() {
        for (n, (terms, figure)) in (2..).zip(BEST) {
            let f = terms.iter().fold((1 << n) + 1, |f, term| f + (1 << term));
            let text = text(f, 2);
            let ones = text.iter().filter(|byte| **byte == b'1').count() as u64;
            assert_eq!(ones, figure, "degree {}", n);
            assert_eq!(ones, n * read_matrices(f, 2, &text).complexity);
        }
    }

    /// Its definition 12: entry (i,j) of T_k is the trace of d_k c_i c_j, where
    /// the trace of d_k c_i is 1 for i = k, else 0. The d_k are found by trying.
    #[test]
    fn entries_are_the_traces_of_document_000() {
        for (f, element) in [(7, 2), (7, 3), (11, 3), (13, 2), (19, 8), (19, 9), (37, 3)] {
            let c = conjugates(f, element);
            let n = c.len();
            let of_product = |a, b| trace(f, multiply(f, a, b).value).value;
            let is_dual = |d: &u64, k| (0..n).all(|i| of_product(*d, c[i]) == u64::from(i == k));
            let mut expected = Vec::new();
            for k in 0..n {
                let dual = (0..1 << n).find(|d| is_dual(d, k)).unwrap();
                for a in &c {
                    let entry = |b: &u64| of_product(dual, multiply(f, *a, *b).value);
                    expected.extend(c.iter().map(|b| b'0' + entry(b) as u8));
                    expected.push(LINE_END);
                }
                expected.push(LINE_END);
            }
            assert_eq!(text(f, element), expected, "{} {}", f, element);
        }
    }

    /// At every degree, and for every conjugate: its matrices are the same
    /// (source document 000, theorem 4).
    #[test]
    fn a_text_is_read_back_for_every_conjugate() {
        for n in 2..=MAX_DEGREE as usize {
            let rows = Rows::new(&some_sheet(n as u32)).ok().unwrap();
            let text = text(rows.f, rows.basis.conjugates[0]);
            assert_eq!(text.len(), matrices_size(n));
            assert_eq!(lines(&text).count(), n * (n + 1));
            for element in rows.basis.conjugates {
                let mut buffer = [0; RECORD_LENGTH * MAX_DEGREE as usize];
                let built = build(rows.f, element, &mut buffer);
                assert_eq!(read_matrices(rows.f, element, &text), built);
            }
        }
    }

    #[test]
    fn writes_into_what_is_lent() {
        let (sheet, text) = (sheet(11, 3), text(11, 3));
        let mut buffer = [9; 50];
        assert_eq!(write_matrices(&sheet, &mut buffer), crate::read(&sheet));
        assert_eq!(buffer[..39], text);
        assert_eq!(buffer[39..], [9; 11]);
        let mut buffer = [9; 38];
        assert_eq!(write_matrices(&sheet, &mut buffer), refused(6, 0));
        assert_eq!(write_matrices(&sheet, &mut []), refused(6, 0));
        assert_eq!(buffer, [9; 38]);
    }

    #[test]
    fn refuses_to_write() {
        let good = sheet(11, 3);
        let mut buffer = [9; 38];
        let mut write = |sheet: &[u8]| write_matrices(sheet, &mut buffer);
        let mut bad = good.clone();
        bad[2 * RECORD_LENGTH + 24] ^= 1;
        assert_eq!(write(&bad), refused(10, 2));
        bad[8] = 2;
        assert_eq!(write(&bad), refused(5, 0));
        (0..3).for_each(|i| bad[RECORD_LENGTH * i + 2] = 1);
        assert_eq!(write(&bad), refused(2, 0));
        bad[RECORD_LENGTH + 8] = 8;
        assert_eq!(write(&bad), refused(9, 1));
        bad[RECORD_LENGTH] = 2;
        assert_eq!(write(&bad), refused(8, 1));
        assert_eq!(write(&bad[1..]), refused(7, 0));
        assert_eq!(buffer, [9; 38]);
    }

    #[test]
    fn refuses_to_read() {
        let good = text(11, 3);
        assert_eq!(read_matrices(3, 9, &good), refused(1, 0));
        assert_eq!(read_matrices(9, 8, &good), refused(4, 0));
        assert_eq!(read_matrices(9, 7, &good), refused(2, 0));
        assert_eq!(read_matrices(11, 2, b"?"), refused(5, 0));
        let place = |text: &[u8]| {
            let answer = read_matrices(11, 3, text);
            assert_eq!(answer, refused(14, answer.place));
            answer.place
        };
        // Nothing; another degree; a row too short, too long, in two.
        assert_eq!(place(b""), 0);
        assert_eq!(place(&text(7, 2)), 0);
        assert_eq!(place(b"010\n10\n"), 1);
        assert_eq!(place(b"010\n1011\n"), 1);
        assert_eq!(place(b"010\n10\n1\n"), 1);
        // No empty line; two of them; the last byte missing; one too many.
        assert_eq!(place(b"010\n101\n011\n101\n"), 3);
        assert_eq!(place(b"010\n101\n011\n\n\n101\n"), 4);
        assert_eq!(place(&good[..38]), 11);
        assert_eq!(place(&[&good[..], b"\n"].concat()), 12);
        assert_eq!(place(&[&good[..], &good[..]].concat()), 12);
    }

    /// The same place said otherwise: the number of bytes 10 in the longest
    /// common beginning. Every text with one byte changed, left out or put in,
    /// and every beginning.
    #[test]
    fn the_place_is_that_of_the_common_beginning() {
        for good in [text(7, 2), text(11, 3)] {
            for (at, byte) in (0..good.len()).flat_map(|at| (0..=255).map(move |b| (at, b))) {
                let (before, after) = (&good[..at], &good[at + 1..]);
                let changed = [before, &[byte], after].concat();
                let more = [before, &[byte], &good[at..]].concat();
                for text in [&changed, &more, &[before, after].concat(), before] {
                    let same = text.iter().zip(&good).take_while(|(a, b)| a == b);
                    let ends = same.filter(|(byte, _)| **byte == LINE_END).count();
                    let place = (*text != good).then_some(ends);
                    assert_eq!(first_difference(text, &good), place);
                }
            }
        }
    }
}
