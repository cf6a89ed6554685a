//! Texts of all matrices that are not the right one, made from it: the kinds of
//! wrong text, each with the place that it has by its making.
//!
//! A text has n+1 lines for each matrix: n rows of digits, then an empty one.

use crate::random::Random;

const LINE_END: u8 = 10;

/// What the kinds are made from.
pub struct Right<'a> {
    pub n: usize,
    /// The right text.
    pub text: &'a [u8],
    /// That of another basis of the same degree, which can be the same text.
    pub sibling: &'a [u8],
    /// That of another degree.
    pub stranger: &'a [u8],
}

/// A text and its place. There is none where chance decides it; such a text can
/// be the right one at small degrees.
pub type Wrong = (Vec<u8>, Option<usize>);

/// A kind of wrong text.
pub type Kind = (&'static str, fn(&Right, &mut Random) -> Wrong);

/// All kinds.
pub const KINDS: [Kind; 23] = [
    ("a wrong digit", wrong_digit),
    ("the digit 2", digit_2),
    ("any byte for a digit", other_byte),
    ("two wrong digits", two_wrong_digits),
    ("a digit left out", digit_left_out),
    ("a row cut short", row_cut_short),
    ("a digit too many", digit_too_many),
    ("a byte 10 within a row", end_within_row),
    ("a byte 10 left out", end_left_out),
    ("a row left out", row_left_out),
    ("an empty line left out", gap_left_out),
    ("an empty line doubled", gap_doubled),
    ("no byte 10 at the end", no_last_end),
    ("a byte after the end", byte_after_end),
    ("a long text", long),
    ("a long text, wrong early", long_and_wrong),
    ("a beginning", beginning),
    ("an empty text", empty),
    ("bytes 13 before 10", carriage_returns),
    ("matrices k downward", downward),
    ("another element's text", of_sibling),
    ("another degree's text", of_stranger),
    ("random bytes", random_bytes),
];

impl Right<'_> {
    /// How many lines the text has.
    fn lines(&self) -> usize {
        self.n * (self.n + 1)
    }

    /// The index of a line's first byte: rows have n digits and their end.
    fn start(&self, line: usize) -> usize {
        let (k, i) = (line / (self.n + 1), line % (self.n + 1));
        k * self.matrix() + i * (self.n + 1)
    }

    /// The bytes of one matrix and the empty line after it.
    fn matrix(&self) -> usize {
        self.n * (self.n + 1) + 1
    }

    /// Any row, and a digit of it: the line, and the index of the byte.
    fn digit(&self, random: &mut Random) -> (usize, usize) {
        let line = random.index(self.n) * (self.n + 1) + random.index(self.n);
        (line, self.start(line) + random.index(self.n))
    }

    /// Any empty line.
    fn gap(&self, random: &mut Random) -> usize {
        random.index(self.n) * (self.n + 1) + self.n
    }

    /// The text with these bytes instead of so many from an index on.
    fn with(&self, at: usize, instead_of: usize, bytes: &[u8]) -> Vec<u8> {
        [&self.text[..at], bytes, &self.text[at + instead_of..]].concat()
    }
}

fn wrong_digit(right: &Right, random: &mut Random) -> Wrong {
    let (line, at) = right.digit(random);
    (right.with(at, 1, &[right.text[at] ^ 1]), Some(line))
}

fn digit_2(right: &Right, random: &mut Random) -> Wrong {
    let (line, at) = right.digit(random);
    (right.with(at, 1, b"2"), Some(line))
}

fn other_byte(right: &Right, random: &mut Random) -> Wrong {
    let (line, at) = right.digit(random);
    let byte = right.text[at] ^ (1 + random.below(255)) as u8;
    (right.with(at, 1, &[byte]), Some(line))
}

/// The first of the two counts.
fn two_wrong_digits(right: &Right, random: &mut Random) -> Wrong {
    let ((line, at), (other, there)) = (right.digit(random), right.digit(random));
    let mut text = right.text.to_vec();
    (text[at], text[there]) = (b'2', b'2');
    (text, Some(line.min(other)))
}

fn digit_left_out(right: &Right, random: &mut Random) -> Wrong {
    let (line, at) = right.digit(random);
    (right.with(at, 1, b""), Some(line))
}

/// From a digit on, all digits of the row are left out, and its end stays.
fn row_cut_short(right: &Right, random: &mut Random) -> Wrong {
    let (line, at) = right.digit(random);
    let end = right.start(line) + right.n;
    (right.with(at, end - at, b""), Some(line))
}

fn digit_too_many(right: &Right, random: &mut Random) -> Wrong {
    let (line, at) = right.digit(random);
    (right.with(at, 0, &[random.pick(b"01")]), Some(line))
}

fn end_within_row(right: &Right, random: &mut Random) -> Wrong {
    let (line, _) = right.digit(random);
    let at = right.start(line) + 1 + random.index(right.n - 1);
    (right.with(at, 0, &[LINE_END]), Some(line))
}

/// Two rows are one. It is not a matrix's last row, which would then end with
/// the byte of the empty line: that is an empty line left out.
fn end_left_out(right: &Right, random: &mut Random) -> Wrong {
    let line = random.index(right.n) * (right.n + 1) + random.index(right.n - 1);
    let at = right.start(line) + right.n;
    (right.with(at, 1, b""), Some(line))
}

fn row_left_out(right: &Right, random: &mut Random) -> Wrong {
    let (line, _) = right.digit(random);
    (right.with(right.start(line), right.n + 1, b""), None)
}

fn gap_left_out(right: &Right, random: &mut Random) -> Wrong {
    let line = right.gap(random);
    (right.with(right.start(line), 1, b""), Some(line))
}

fn gap_doubled(right: &Right, random: &mut Random) -> Wrong {
    let line = right.gap(random);
    let text = right.with(right.start(line), 0, &[LINE_END]);
    (text, Some(line + 1))
}

fn no_last_end(right: &Right, _: &mut Random) -> Wrong {
    let text = right.with(right.text.len() - 1, 1, b"");
    (text, Some(right.lines() - 1))
}

fn byte_after_end(right: &Right, random: &mut Random) -> Wrong {
    let byte = match random.below(3) {
        0 => LINE_END,
        1 => b'0',
        _ => random.number() as u8,
    };
    let text = [right.text, &[byte]].concat();
    (text, Some(right.lines()))
}

/// The whole text again, or as many bytes of one value, and some more.
fn long(right: &Right, random: &mut Random) -> Wrong {
    let again = match random.once_in(2) {
        true => right.text.to_vec(),
        false => vec![random.pick(b"\n01\0"); right.text.len()],
    };
    let more = random.index(1000);
    let text = [right.text, &again, &random.bytes(more)].concat();
    (text, Some(right.lines()))
}

fn long_and_wrong(right: &Right, random: &mut Random) -> Wrong {
    let (text, place) = wrong_digit(right, random);
    ([&text, right.text].concat(), place)
}

/// All bytes of it are right, so that its ends of lines are the lines before
/// the one that is cut.
fn beginning(right: &Right, random: &mut Random) -> Wrong {
    let text = right.text[..random.index(right.text.len())].to_vec();
    let place = text.iter().filter(|byte| **byte == LINE_END).count();
    (text, Some(place))
}

fn empty(_: &Right, _: &mut Random) -> Wrong {
    (Vec::new(), Some(0))
}

fn carriage_returns(right: &Right, _: &mut Random) -> Wrong {
    let bytes = right.text.iter().flat_map(|byte| match *byte {
        LINE_END => vec![13, LINE_END],
        digit => vec![digit],
    });
    (bytes.collect(), Some(0))
}

fn downward(right: &Right, _: &mut Random) -> Wrong {
    let matrices: Vec<&[u8]> = right.text.chunks(right.matrix()).rev().collect();
    (matrices.concat(), None)
}

fn of_sibling(right: &Right, _: &mut Random) -> Wrong {
    (right.sibling.to_vec(), None)
}

/// The first line has another length.
fn of_stranger(right: &Right, _: &mut Random) -> Wrong {
    (right.stranger.to_vec(), Some(0))
}

/// Any bytes at all, or digits and ends of lines in any order.
fn random_bytes(right: &Right, random: &mut Random) -> Wrong {
    let length = random.index(2 * right.text.len());
    let text = match random.once_in(2) {
        true => random.bytes(length),
        false => (0..length).map(|_| random.pick(b"01\n")).collect(),
    };
    (text, None)
}
