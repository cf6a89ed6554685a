//! Normal elements and the three matrices of a normal basis (document 01, "Two
//! notations" and "What a sheet holds").
//!
//! [`conjugates`]; [`Coordinates`], which solves for normal coordinates;
//! [`Basis`] with its conjugate, inverse and table rows; [`complexity`] and
//! [`product_of_coordinates`] on table rows of any origin; [`grade`].

use crate::polynomial::{degree, product, squared};

/// The conjugates a^(2^i) for i from 0 to n-1.
pub fn conjugates(f: u64, a: u64) -> Vec<u64> {
    let n = degree(f).expect("f is not zero") as usize;
    std::iter::successors(Some(a), |c| Some(squared(f, *c)))
        .take(n)
        .collect()
}

/// Normal coordinates by elimination: for each leading power a sum of
/// conjugates that begins with it, beside the bits that pick the conjugates.
pub struct Coordinates {
    by_degree: Vec<(u64, u64)>,
}

impl Coordinates {
    /// Prepares the elimination. Where a non-empty set of the conjugates sums to
    /// zero, the error is the smallest number whose set bits select such a set.
    /// Its highest bit is the first conjugate that is a sum of earlier ones; no
    /// set of the earlier ones sums to zero, so that there is one such sum alone.
    pub fn new(conjugates: &[u64]) -> Result<Coordinates, u64> {
        let mut solver = Coordinates {
            by_degree: vec![(0, 0); conjugates.len()],
        };
        for (i, conjugate) in conjugates.iter().enumerate() {
            let (rest, picked) = solver.reduce(*conjugate, 1 << i);
            let lead = degree(rest).ok_or(picked)? as usize;
            solver.by_degree[lead] = (rest, picked);
        }
        Ok(solver)
    }

    /// Takes kept sums away from the highest power down, until a leading power
    /// has none; the picks of what was taken away are added to `picked`.
    fn reduce(&self, mut rest: u64, mut picked: u64) -> (u64, u64) {
        while let Some(lead) = degree(rest) {
            let (sum, picks) = self.by_degree[lead as usize];
            if sum == 0 {
                break;
            }
            rest ^= sum;
            picked ^= picks;
        }
        (rest, picked)
    }

    /// The bits that select conjugates which sum to the element.
    pub fn of(&self, element: u64) -> u64 {
        self.reduce(element, 0).1
    }
}

/// The three matrices of a normal basis, n rows each.
#[derive(Clone, Debug, PartialEq, Eq)]
pub struct Basis {
    /// The conjugates c_i.
    pub conjugates: Vec<u64>,
    /// The normal coordinates of x^i.
    pub inverses: Vec<u64>,
    /// The normal coordinates of c_0 times c_i.
    pub table: Vec<u64>,
}

impl Basis {
    /// The basis of an element below 2^n; `None` where it is not normal.
    pub fn new(f: u64, element: u64) -> Option<Basis> {
        let conjugates = conjugates(f, element);
        let coordinates = Coordinates::new(&conjugates).ok()?;
        let n = conjugates.len();
        let inverses = (0..n).map(|i| coordinates.of(1 << i)).collect();
        let table = conjugates
            .iter()
            .map(|c| coordinates.of(product(f, element, *c)))
            .collect();
        Some(Basis {
            conjugates,
            inverses,
            table,
        })
    }
}

/// The number of ones in the table rows.
pub fn complexity(table: &[u64]) -> u64 {
    table.iter().map(|row| u64::from(row.count_ones())).sum()
}

/// The grade of the basis of an element (document 02, §3).
///
/// 0: the complexity is not 2n-1; with 2n-1, 1 where the element to the power
/// n+1 is 1, otherwise 2. At degree 2 both fit, and it is 3.
pub fn grade(f: u64, element: u64, complexity: u64) -> u64 {
    let n = u64::from(degree(f).expect("f is not zero"));
    // The element, multiplied n times by itself.
    let power = (0..n).fold(element, |power, _| product(f, power, element));
    match (complexity == 2 * n - 1, n == 2, power == 1) {
        (false, _, _) => 0,
        (true, true, _) => 3,
        (true, false, true) => 1,
        (true, false, false) => 2,
    }
}

/// The sum of the rows that the bits pick.
pub fn sum_of_picked(rows: &[u64], bits: u64) -> u64 {
    rows.iter()
        .enumerate()
        .filter(|(i, _)| bits >> i & 1 == 1)
        .fold(0, |sum, (_, row)| sum ^ row)
}

/// The product of the normal coordinates `a` and `b`.
///
/// Bit k of it is the sum over all i and j of
/// a_i b_j t((j-i) mod n, (k-i) mod n): for each pair of set bits the table
/// row (j-i) mod n, its bits moved up by i places around n.
pub fn product_of_coordinates(table: &[u64], a: u64, b: u64) -> u64 {
    let n = table.len();
    let mut sum = 0;
    for i in (0..n).filter(|i| a >> i & 1 == 1) {
        for j in (0..n).filter(|j| b >> j & 1 == 1) {
            sum ^= moved_up(table[(n + j - i) % n], i, n);
        }
    }
    sum
}

/// Bit k of the result is bit (k-i) mod n of an n-bit number.
pub(crate) fn moved_up(row: u64, i: usize, n: usize) -> u64 {
    let below = (1 << n) - 1;
    (row << i & below) | row >> (n - i)
}

#[cfg(test)]
mod tests {
    use super::*;
    use crate::MAX_DEGREE;

    /// Document 01's sentence, bit by bit.
    fn product_by_the_sentence(table: &[u64], a: u64, b: u64) -> u64 {
        let n = table.len();
        let mut all = 0;
        for k in 0..n {
            for i in 0..n {
                for j in 0..n {
                    let t = table[(n + j - i) % n] >> ((n + k - i) % n);
                    all ^= (a >> i & b >> j & t & 1) << k;
                }
            }
        }
        all
    }

    #[test]
    fn product_as_the_sentence_on_any_table() {
        let mut seed = 1u64;
        for n in 2..=MAX_DEGREE {
            let below = (1u64 << n) - 1;
            let mut next = || {
                seed = seed.wrapping_mul(6364136223846793005).wrapping_add(99991);
                (seed >> 7) & below
            };
            let table: Vec<u64> = (0..n).map(|_| next()).collect();
            for _ in 0..10 {
                let (a, b) = (next(), next());
                assert_eq!(
                    product_of_coordinates(&table, a, b),
                    product_by_the_sentence(&table, a, b),
                    "{:?} {} {}",
                    table,
                    a,
                    b
                );
            }
        }
    }

    #[test]
    fn normal_exactly_where_no_set_sums_to_zero() {
        for f in [7, 11, 13, 19, 25, 31, 37, 67, 131] {
            let n = degree(f).unwrap();
            for a in 0..1 << n {
                let c = conjugates(f, a);
                let smallest = (1..1 << n).find(|set| sum_of_picked(&c, *set) == 0);
                assert_eq!(Coordinates::new(&c).err(), smallest, "{} {}", f, a);
                assert_eq!(Basis::new(f, a).is_none(), smallest.is_some());
            }
        }
    }

    #[test]
    fn rows_of_a_basis_mean_what_document_01_says() {
        for f in [7, 11, 19, 37, 67, 131] {
            let n = degree(f).unwrap();
            for basis in (0..1 << n).filter_map(|a| Basis::new(f, a)) {
                let c = &basis.conjugates;
                for i in 0..n as usize {
                    assert_eq!(sum_of_picked(c, basis.inverses[i]), 1 << i);
                    let made = product(f, c[0], c[i]);
                    assert_eq!(sum_of_picked(c, basis.table[i]), made);
                }
            }
        }
    }

    #[test]
    fn small_numbers() {
        let basis = Basis::new(7, 2).unwrap();
        assert_eq!(basis.conjugates, [2, 3]);
        assert_eq!(basis.inverses, [3, 1]);
        assert_eq!(basis.table, [2, 3]);
        let basis = Basis::new(11, 3).unwrap();
        assert_eq!(basis.conjugates, [3, 5, 7]);
        assert_eq!(basis.inverses, [7, 6, 5]);
        assert_eq!(basis.table, [2, 5, 6]);
        let basis = Basis::new(19, 8).unwrap();
        assert_eq!(basis.conjugates, [8, 12, 15, 10]);
        assert_eq!(basis.inverses, [15, 9, 3, 1]);
        assert_eq!(basis.table, [2, 8, 15, 4]);
        let basis = Basis::new(19, 9).unwrap();
        assert_eq!(basis.conjugates, [9, 13, 14, 11]);
        assert_eq!(basis.table, [2, 11, 5, 13]);
    }

    #[test]
    fn grades() {
        assert_eq!(grade(19, 8, 7), 1);
        assert_eq!(grade(19, 9, 9), 0);
        assert_eq!(grade(11, 3, 5), 2);
        assert_eq!([grade(7, 2, 3), grade(7, 3, 3)], [3, 3]);
        // 7 is prime, and the optimal basis of degree 6 of the second kind.
        assert_eq!(grade(67, 41, 11), 2);
        // Both kinds at degree 18.
        let optimal = |element| {
            let basis = Basis::new(262153, element).unwrap();
            let complexity = complexity(&basis.table);
            (complexity, grade(262153, element, complexity))
        };
        assert_eq!(optimal(52434), (35, 1));
        assert_eq!(optimal(38805), (35, 2));
    }
}
