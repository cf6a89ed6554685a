//! What the desk answers when it does as asked: [`Grade`], [`Summary`] of a
//! sheet, [`Best`] of a search.

use crate::raw;
use crate::refusal::{Refusal, UnknownNumber};
use std::fmt;

/// The kind of a basis, as its grade names it.
///
/// A basis is optimal if its complexity is 2n-1, the least there can be. There
/// are two kinds of optimal basis, and the element tells which one it makes: a
/// degree can have both, as 18 has.
///
/// ```
/// use sabrentuglio::{Grade, Sheet};
///
/// let kind = |f, element| Sheet::build(f, element).map(|sheet| sheet.summary().kind());
/// assert_eq!(kind(19, 9)?, Some(Grade::NotOptimal));
/// assert_eq!(kind(19, 8)?, Some(Grade::FirstKind));
/// assert_eq!(kind(11, 3)?, Some(Grade::SecondKind));
/// assert_eq!(kind(7, 2)?, Some(Grade::BothKinds));
/// assert_eq!(kind(262153, 52434)?, Some(Grade::FirstKind));
/// assert_eq!(kind(262153, 38805)?, Some(Grade::SecondKind));
/// # Ok::<(), sabrentuglio::Refusal>(())
/// ```
#[derive(Clone, Copy, Debug, PartialEq, Eq, Hash)]
#[non_exhaustive]
pub enum Grade {
    /// Grade 0: the complexity is not 2n-1.
    NotOptimal = 0,
    /// Grade 1: the complexity is 2n-1, n is not 2, and the element to the
    /// power n+1 is 1.
    FirstKind = 1,
    /// Grade 2: the complexity is 2n-1, n is not 2, and the element to the
    /// power n+1 is not 1.
    SecondKind = 2,
    /// Grade 3: the complexity is 2n-1, and n is 2.
    BothKinds = 3,
}

impl Grade {
    /// All grades, in the order of their numbers.
    pub const ALL: &'static [Grade] = &[
        Grade::NotOptimal,
        Grade::FirstKind,
        Grade::SecondKind,
        Grade::BothKinds,
    ];

    /// The number in the documents.
    pub fn number(self) -> u64 {
        self as u64
    }
}

/// What the grade's number says.
///
/// ```
/// use sabrentuglio::Grade;
///
/// assert_eq!(Grade::FirstKind.to_string(), "optimal, of the first kind");
/// ```
impl fmt::Display for Grade {
    fn fmt(&self, out: &mut fmt::Formatter<'_>) -> fmt::Result {
        out.pad(match self {
            Grade::NotOptimal => "not optimal",
            Grade::FirstKind => "optimal, of the first kind",
            Grade::SecondKind => "optimal, of the second kind",
            Grade::BothKinds => "optimal, of both kinds",
        })
    }
}

impl From<Grade> for u64 {
    fn from(grade: Grade) -> u64 {
        grade.number()
    }
}

impl TryFrom<u64> for Grade {
    type Error = UnknownNumber;

    fn try_from(number: u64) -> Result<Grade, UnknownNumber> {
        let mut all = Grade::ALL.iter().copied();
        all.find(|grade| grade.number() == number)
            .ok_or(UnknownNumber(number))
    }
}

/// What building and reading a sheet answer, and writing and reading the text
/// of all matrices.
#[derive(Clone, Copy, Debug, PartialEq, Eq, Hash)]
pub struct Summary {
    /// The degree n of f, and so the number of records.
    pub degree: u64,
    /// The number of ones in the n table rows.
    pub complexity: u64,
    /// The grade's number; [`Summary::kind`] has its name.
    pub grade: u64,
}

impl Summary {
    /// The kind of the basis; `None` where these bindings have no name for the
    /// grade.
    pub fn kind(&self) -> Option<Grade> {
        Grade::try_from(self.grade).ok()
    }
}

/// ```
/// let summary = sabrentuglio::Sheet::build(11, 3)?.summary();
/// assert_eq!(summary.to_string(), "degree 3 complexity 5 grade 2");
/// # Ok::<(), sabrentuglio::Refusal>(())
/// ```
impl fmt::Display for Summary {
    fn fmt(&self, out: &mut fmt::Formatter<'_>) -> fmt::Result {
        let (complexity, grade) = (self.complexity, self.grade);
        write!(
            out,
            "degree {} complexity {} grade {}",
            self.degree, complexity, grade
        )
    }
}

/// What a search found: the normal leader of least complexity in its range,
/// the smallest where several tie.
#[derive(Clone, Copy, Debug, PartialEq, Eq, Hash)]
pub struct Best {
    /// The leader, in the polynomial notation.
    pub element: u64,
    /// The complexity of its basis.
    pub complexity: u64,
    /// The grade's number; [`Best::kind`] has its name.
    pub grade: u64,
    /// How many normal leaders lie in the range. The counts of two adjoining
    /// ranges add up.
    pub count: u64,
}

impl Best {
    /// The kind of the basis; `None` where these bindings have no name for the
    /// grade.
    pub fn kind(&self) -> Option<Grade> {
        Grade::try_from(self.grade).ok()
    }

    /// The result of a search over two adjoining ranges of one field, from the
    /// results over each: the better of the two, the left one on a tie, with
    /// the counts of both. Nothing counts as 0.
    ///
    /// The left range is the one of the smaller elements. Parts are folded
    /// from left to right, beginning with nothing.
    ///
    /// ```
    /// use sabrentuglio::{search, Best};
    ///
    /// let (left, right) = (search(19, 0, 8)?, search(19, 9, 15)?);
    /// assert_eq!(Best::joined(left, right), search(19, 0, 15)?);
    ///
    /// let parts = [left, search(19, 9, 11)?, search(19, 12, 15)?];
    /// let whole = parts.into_iter().fold(None, Best::joined);
    /// assert_eq!(whole, search(19, 0, 15)?);
    /// # Ok::<(), sabrentuglio::Refusal>(())
    /// ```
    pub fn joined(left: Option<Best>, right: Option<Best>) -> Option<Best> {
        let (l, r) = match (left, right) {
            (Some(l), Some(r)) => (l, r),
            (found, None) | (None, found) => return found,
        };
        let better = if r.complexity < l.complexity { r } else { l };
        let count = l.count + r.count;
        Some(Best { count, ..better })
    }
}

/// The line that the command line prints.
///
/// ```
/// let best = sabrentuglio::search(19, 0, 15)?.expect("8 is normal");
/// assert_eq!(best.to_string(), "element 8 complexity 7 grade 1 count 2");
/// # Ok::<(), sabrentuglio::Refusal>(())
/// ```
impl fmt::Display for Best {
    fn fmt(&self, out: &mut fmt::Formatter<'_>) -> fmt::Result {
        write!(
            out,
            "element {} complexity {} ",
            self.element, self.complexity
        )?;
        write!(out, "grade {} count {}", self.grade, self.count)
    }
}

impl From<raw::Value> for Result<u64, Refusal> {
    fn from(answer: raw::Value) -> Self {
        Refusal::unless_done(answer.number, answer.place).map(|()| answer.value)
    }
}

impl From<raw::Issued> for Result<Summary, Refusal> {
    fn from(answer: raw::Issued) -> Self {
        Refusal::unless_done(answer.number, answer.place).map(|()| Summary {
            degree: answer.degree,
            complexity: answer.complexity,
            grade: answer.grade,
        })
    }
}

impl From<raw::Found> for Result<Option<Best>, Refusal> {
    fn from(answer: raw::Found) -> Self {
        // Document 01 gives a refused search no place.
        Refusal::unless_done(answer.number, 0)?;
        if answer.found == 0 {
            return Ok(None);
        }
        Ok(Some(Best {
            element: answer.element,
            complexity: answer.complexity,
            grade: answer.grade,
            count: answer.count,
        }))
    }
}

#[cfg(test)]
mod tests {
    use super::*;
    use crate::refusal::Reason;

    #[test]
    fn grades_keep_their_numbers() {
        let numbers: Vec<u64> = Grade::ALL.iter().map(|grade| grade.number()).collect();
        assert_eq!(numbers, [0, 1, 2, 3]);
        for grade in Grade::ALL {
            assert_eq!(Grade::try_from(u64::from(*grade)), Ok(*grade));
        }
        assert_eq!(Grade::try_from(99), Err(UnknownNumber(99)));
    }

    #[test]
    fn an_unknown_grade_is_kept() {
        let answer = raw::Issued {
            degree: 2,
            grade: 99,
            ..raw::Issued::default()
        };
        let summary: Summary = Result::from(answer).unwrap();
        assert_eq!((summary.grade, summary.kind()), (99, None));
    }

    #[test]
    fn flat_answers_become_results() {
        let answer = raw::Value {
            number: 4,
            place: 17,
            value: 0,
        };
        let refusal = Result::from(answer).unwrap_err();
        assert_eq!(refusal.reason(), Some(Reason::TooLarge));
        assert_eq!(refusal.place, 17);
        assert_eq!(Result::from(raw::Found::default()), Ok(None));
    }

    #[test]
    fn joined_parts_are_the_whole() {
        // Every cut of the whole field and of three ranges in it, in fields
        // of degree 5, 6 and 8.
        for (f, size) in [(37, 32), (67, 64), (283, 256)] {
            let part = |first, last| crate::search(f, first, last).unwrap();
            for (first, last) in [(0, size - 1), (0, size / 2), (5, 29), (7, 31)] {
                for cut in first..last {
                    let parts = (part(first, cut), part(cut + 1, last));
                    let joined = Best::joined(parts.0, parts.1);
                    assert_eq!(joined, part(first, last), "{f} {first} {cut} {last}");
                }
            }
        }
    }

    #[test]
    fn the_left_one_is_kept_on_a_tie() {
        let best = |element, complexity, count| {
            let grade = 0;
            Some(Best {
                element,
                complexity,
                grade,
                count,
            })
        };
        let (left, right) = (best(3, 9, 2), best(5, 9, 4));
        assert_eq!(Best::joined(left, right), best(3, 9, 6));
        assert_eq!(Best::joined(left, best(5, 7, 4)), best(5, 7, 6));
        assert_eq!(Best::joined(None, right), right);
        assert_eq!(Best::joined(left, None), left);
        assert_eq!(Best::joined(None, None), None);
    }
}
