//! A [`Sheet`]'s lists: of any length, by calls of at most [`MAX_LIST`] values.

use crate::calls;
use crate::refusal::{Reason, Refusal};
use crate::sheet::Sheet;
use crate::MAX_LIST;

/// One of the two calls that convert a list.
type ListCall = fn(&[u8], &[u64], &mut [u64]) -> Result<(), Refusal>;

impl Sheet {
    /// The elements that a list of normal coordinates stands for.
    ///
    /// The list may have any length. Refuses 4; the place is the index of the
    /// first value that is too large.
    ///
    /// ```
    /// use sabrentuglio::{Reason, Sheet};
    ///
    /// let sheet = Sheet::build(11, 3)?;
    /// assert_eq!(sheet.list_to_polynomial(&[3, 5])?, [6, 4]);
    /// assert_eq!(sheet.list_to_polynomial(&[])?, []);
    ///
    /// let mut coordinates = vec![3; 1_000_000];
    /// assert_eq!(sheet.list_to_polynomial(&coordinates)?, vec![6; 1_000_000]);
    ///
    /// coordinates[700_000] = 8;
    /// let refusal = sheet.list_to_polynomial(&coordinates).unwrap_err();
    /// assert_eq!((refusal.reason(), refusal.place), (Some(Reason::TooLarge), 700_000));
    /// # Ok::<(), sabrentuglio::Refusal>(())
    /// ```
    pub fn list_to_polynomial(&self, from: &[u64]) -> Result<Vec<u64>, Refusal> {
        self.list(from, calls::list_to_polynomial)
    }

    /// The normal coordinates of a list of elements.
    ///
    /// The list may have any length, and its values may come unreduced: each
    /// stands for its remainder modulo f. Refuses nothing.
    ///
    /// ```
    /// let sheet = sabrentuglio::Sheet::build(11, 3)?;
    /// assert_eq!(sheet.list_to_normal(&[6, 4])?, [3, 5]);
    /// // Modulo 11 the word 13 is 6, and 11 is 0.
    /// assert_eq!(sheet.list_to_normal(&[13, 11])?, [3, 0]);
    /// # Ok::<(), sabrentuglio::Refusal>(())
    /// ```
    pub fn list_to_normal(&self, from: &[u64]) -> Result<Vec<u64>, Refusal> {
        self.list(from, calls::list_to_normal)
    }

    /// A list of any length, by calls that take `MAX_LIST` values at most.
    fn list(&self, from: &[u64], call: ListCall) -> Result<Vec<u64>, Refusal> {
        let mut into = vec![0; from.len()];
        let parts = from.chunks(MAX_LIST).zip(into.chunks_mut(MAX_LIST));
        for (before, (from, into)) in (0..).step_by(MAX_LIST).zip(parts) {
            call(self.as_bytes(), from, into).map_err(|refusal| later(refusal, before))?;
        }
        Ok(into)
    }
}

/// A refusal of a list's part, as one of the whole list, where so many values
/// stand before the part. Only the place of 4 is an index of the list.
fn later(refusal: Refusal, before: usize) -> Refusal {
    match refusal.reason() {
        Some(Reason::TooLarge) => Refusal {
            place: before + refusal.place,
            ..refusal
        },
        _ => refusal,
    }
}

#[cfg(test)]
mod tests {
    use super::*;

    #[test]
    fn lists_of_any_length_are_converted_value_by_value() {
        let sheet = Sheet::build(19, 8).unwrap();
        for length in [0, 1, MAX_LIST - 1, MAX_LIST, MAX_LIST + 1, 3 * MAX_LIST + 7] {
            let from: Vec<u64> = (0..length as u64).map(|i| i * 7 % 16).collect();
            let there = sheet.list_to_normal(&from).unwrap();
            let one_by_one = from.iter().map(|v| sheet.to_normal(*v).unwrap());
            assert!(there.iter().copied().eq(one_by_one));
            assert_eq!(sheet.list_to_polynomial(&there), Ok(from));
        }
    }

    #[test]
    fn a_refused_value_is_named_by_its_index_in_the_whole_list() {
        let sheet = Sheet::build(19, 8).unwrap();
        for place in [0, MAX_LIST - 1, MAX_LIST, MAX_LIST + 1, 2 * MAX_LIST] {
            let mut from = vec![1; 2 * MAX_LIST + 2];
            from[place] = 16;
            from[2 * MAX_LIST + 1] = u64::MAX;
            let refused = Err(Refusal { number: 4, place });
            assert_eq!(sheet.list_to_polynomial(&from), refused);
        }
    }

    #[test]
    fn an_unreduced_value_comes_back_as_its_remainder() {
        let sheet = Sheet::build(19, 8).unwrap();
        let mut from = vec![1; 2 * MAX_LIST + 2];
        let mut back = from.clone();
        for place in [0, MAX_LIST - 1, MAX_LIST, MAX_LIST + 1, 2 * MAX_LIST] {
            (from[place], back[place]) = (u64::MAX, 15);
            let there = sheet.list_to_normal(&from).unwrap();
            assert_eq!(sheet.list_to_polynomial(&there).as_ref(), Ok(&back));
        }
    }
}
