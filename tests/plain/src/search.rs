//! The search for the normal basis of least complexity in a range: [`search`]
//! (document 01, "Search").

use crate::accepted::{field_degree, refuse_unaccepted};
use crate::answers::{refuse_if, Found, Refusal};
use crate::basis::{complexity, grade, Basis};
use crate::field::refuse_large;
use crate::polynomial::squared;

/// Whether the element is the smallest of its own conjugates; the test stops
/// at the first that is smaller.
fn is_leader(f: u64, n: u32, element: u64) -> bool {
    let mut conjugate = element;
    for _ in 1..n {
        conjugate = squared(f, conjugate);
        if conjugate < element {
            return false;
        }
    }
    true
}

/// Searches the range, both ends included: 1, 4, 12, 2, 3.
pub fn search(f: u64, first: u64, last: u64) -> Found {
    range(f, first, last)
        .map(|n| best(f, n, first, last))
        .into()
}

fn range(f: u64, first: u64, last: u64) -> Result<u32, Refusal> {
    let n = field_degree(f)?;
    refuse_large(n, &[first, last])?;
    refuse_if(first > last, 12)?;
    refuse_unaccepted(f)?;
    Ok(n)
}

fn best(f: u64, n: u32, first: u64, last: u64) -> Found {
    let leaders = (first..=last).filter(|element| is_leader(f, n, *element));
    let normal = leaders.filter_map(|element| {
        let basis = Basis::new(f, element)?;
        Some((complexity(&basis.table), element))
    });
    let mut found = Found::default();
    for (complexity, element) in normal {
        // Elements rise, so that an equal complexity does not replace.
        if found.found == 0 || complexity < found.complexity {
            found.complexity = complexity;
            found.element = element;
            found.grade = grade(f, element, complexity);
        }
        found.found = 1;
        found.count += 1;
    }
    found
}

#[cfg(test)]
mod tests {
    use super::*;

    fn found(element: u64, complexity: u64, grade: u64, count: u64) -> Found {
        Found {
            number: 0,
            found: 1,
            element,
            complexity,
            grade,
            count,
        }
    }

    #[test]
    fn searches() {
        assert_eq!(search(19, 0, 15), found(8, 7, 1, 2));
        assert_eq!(search(19, 9, 15), found(9, 9, 0, 1));
        assert_eq!(search(19, 10, 15), Found::default());
    }

    #[test]
    fn refuses_to_search() {
        assert_eq!(search(3, 9, 8).number, 1);
        assert_eq!(search(19, 16, 3).number, 4);
        assert_eq!(search(19, 3, 16).number, 4);
        assert_eq!(search(5, 3, 2).number, 12);
        assert_eq!(search(5, 2, 3).number, 2);
    }

    /// Document 000's normal basis column, divided by n.
    #[test]
    fn least_complexities() {
        let known = [(7, 3), (11, 5), (19, 7), (37, 9), (67, 11), (131, 19)];
        for (n, (f, least)) in (2..).zip(known) {
            assert_eq!(search(f, 0, (1 << n) - 1).complexity, least, "f = {}", f);
        }
    }

    #[test]
    fn adjoining_ranges_add_up() {
        let whole = search(131, 0, 127).count;
        for cut in 0..127 {
            let below = search(131, 0, cut).count;
            let above = search(131, cut + 1, 127).count;
            assert_eq!(below + above, whole);
        }
    }
}
