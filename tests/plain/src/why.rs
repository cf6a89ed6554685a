//! Why reading refuses a sheet: [`why`] (document 02, §5).
//!
//! Number and place are those of reading. 7, 8 and 9 have no further cause.

use crate::accepted::x_became;
use crate::answers::{Cause, Refusal};
use crate::basis::{conjugates, Basis, Coordinates};
use crate::divisors::smallest_divisor;
use crate::sheet::{compared, Rows};

/// The cause of a refused sheet; zeros where reading accepts it.
///
/// "For refusal 2, the smallest divisor of degree at least 1 as a number. For
/// refusal 3, what x became. For refusal 5, the smallest non-zero number whose
/// set bits select conjugates that sum to zero. For refusal 10, the record, the
/// word conjugate, inverse or table, the stored number and the right one .. the
/// first field in byte order."
pub fn why(sheet: &[u8]) -> Cause {
    let refusal = match compared(sheet) {
        Ok(_) => return Cause::default(),
        Err(refusal) => refusal,
    };
    match Rows::new(sheet) {
        Ok(rows) => cause_of(refusal, &rows),
        // 7, 8 and 9.
        Err(_) => refusal.into(),
    }
}

/// The cause of 2, 3, 5 or 10 on a sheet of good shape.
fn cause_of(refusal: Refusal, rows: &Rows) -> Cause {
    let of_number = |cause| Cause {
        cause,
        ..Cause::from(refusal)
    };
    let element = rows.basis.conjugates[0];
    match refusal.number {
        2 => of_number(smallest_divisor(rows.f)),
        3 => of_number(x_became(rows.f)),
        5 => of_number(dependency(rows.f, element)),
        _ => {
            let right = Basis::new(rows.f, element).expect("10 comes after 5");
            differing(refusal, &rows.basis, &right)
        }
    }
}

/// The smallest set of conjugates that sum to zero, as a number.
fn dependency(f: u64, element: u64) -> u64 {
    let dependent = Coordinates::new(&conjugates(f, element)).err();
    dependent.expect("the element is not normal")
}

/// The first field in byte order that differs in the refusal's record: conjugate
/// row, inverse row, table row.
fn differing(refusal: Refusal, stored: &Basis, right: &Basis) -> Cause {
    let i = refusal.place as usize;
    let fields = |basis: &Basis| [basis.conjugates[i], basis.inverses[i], basis.table[i]];
    let numbers = (1..).zip(fields(stored).into_iter().zip(fields(right)));
    let mut differing = numbers.filter(|(_, (stored, right))| stored != right);
    let (field, (stored, right)) = differing.next().expect("a record that differs");
    Cause {
        field,
        stored,
        right,
        ..Cause::from(refusal)
    }
}

#[cfg(test)]
mod tests {
    use super::*;
    use crate::basis::sum_of_picked;
    use crate::polynomial::{degree, remainder};
    use crate::sheet::tests::sheet;
    use crate::{read, MAX_DEGREE, RECORD_LENGTH};

    /// The fields with their first bytes, in byte order.
    const FIELDS: [(u64, usize); 3] = [(1, 8), (2, 16), (3, 24)];

    fn put(sheet: &mut [u8], record: usize, first: usize, number: u64) {
        let start = RECORD_LENGTH * record + first;
        sheet[start..start + 8].copy_from_slice(&number.to_le_bytes());
    }

    fn get(sheet: &[u8], record: usize, first: usize) -> u64 {
        let start = RECORD_LENGTH * record + first;
        let mut bytes = [0; 8];
        bytes.copy_from_slice(&sheet[start..start + 8]);
        u64::from_le_bytes(bytes)
    }

    /// A sheet of f and an element with right heads; all other rows are zero.
    fn heads(f: u64, element: u64) -> Vec<u8> {
        let n = degree(f).unwrap();
        let mut sheet = vec![0; RECORD_LENGTH * n as usize];
        for (i, record) in sheet.chunks_mut(RECORD_LENGTH).enumerate() {
            record[0] = n as u8;
            record[1] = i as u8;
            record[2..8].copy_from_slice(&(f ^ 1 << n).to_le_bytes()[..6]);
        }
        put(&mut sheet, 0, 8, element);
        sheet
    }

    fn of_number(number: u64, cause: u64) -> Cause {
        Cause {
            cause,
            ..Cause::from(Refusal::new(number))
        }
    }

    fn of_field(place: usize, field: u64, stored: u64, right: u64) -> Cause {
        Cause {
            field,
            stored,
            right,
            ..Cause::from(Refusal::at(10, place))
        }
    }

    #[test]
    fn small_numbers() {
        for (f, element) in [(7, 2), (11, 3), (19, 8), (19, 9)] {
            assert_eq!(why(&sheet(f, element)), Cause::default());
        }
        assert_eq!(why(&heads(5, 0)), of_number(2, 3));
        assert_eq!(why(&heads(5, 3)), of_number(2, 3));
        assert_eq!(why(&heads(261, 1)), of_number(2, 19));
        assert_eq!(why(&heads(7, 0)), of_number(5, 1));
        assert_eq!(why(&heads(7, 1)), of_number(5, 3));
        assert_eq!(why(&heads(11, 0)), of_number(5, 1));
        // 2, 4 and 6 sum to zero.
        assert_eq!(why(&heads(11, 2)), of_number(5, 7));
        // Rows of zeros, and an element that is normal.
        assert_eq!(why(&heads(11, 3)), of_field(0, 2, 0, 7));
    }

    /// Each field of each record with each other number. Record 0's conjugate is
    /// what the rebuilding starts from, so that it is never the field.
    #[test]
    fn a_single_wrong_field() {
        let good = sheet(11, 3);
        for (record, (field, first)) in (0..3).flat_map(|i| FIELDS.map(|at| (i, at))) {
            let right = get(&good, record, first);
            for stored in (0..8).filter(|number| *number != right) {
                let mut bad = good.clone();
                put(&mut bad, record, first, stored);
                if (record, field) == (0, 1) {
                    assert_eq!(why(&bad), of_other_element(stored));
                } else {
                    assert_eq!(why(&bad), of_field(record, field, stored, right));
                }
            }
        }
    }

    /// The sheet of 11 and 3 with another element in record 0. 1 is its own
    /// conjugate; the conjugates of 2, 4 and 6 sum to zero; 5 and 7 are normal.
    fn of_other_element(element: u64) -> Cause {
        match element {
            0 => of_number(5, 1),
            1 => of_number(5, 3),
            2 | 4 | 6 => of_number(5, 7),
            // Record 0 is right for both: its inverse row is 7, the coordinates
            // of 1, and its table row 2, those of the square.
            5 => of_field(1, 1, 5, 7),
            _ => of_field(1, 1, 5, 3),
        }
    }

    /// The first of several: by record, then by byte order.
    #[test]
    fn the_first_of_several_wrong_fields() {
        let good = sheet(19, 8);
        let all = (0..4).flat_map(|i| FIELDS.map(|at| (i, at)));
        let wrong: Vec<(usize, (u64, usize))> = all.skip(1).collect();
        for (i, (record, (field, first))) in wrong.iter().enumerate() {
            let mut bad = good.clone();
            for (record, (_, first)) in &wrong[i..] {
                let right = get(&good, *record, *first);
                put(&mut bad, *record, *first, right ^ 5);
            }
            let right = get(&good, *record, *first);
            assert_eq!(why(&bad), of_field(*record, *field, right ^ 5, right));
        }
    }

    /// 7, 8, 9, 2, 5, 10: each is taken away in turn.
    #[test]
    fn several_causes_at_once() {
        let mut bad = sheet(11, 3);
        put(&mut bad, 1, 16, 1);
        let of_10 = of_field(1, 2, 1, 6);
        assert_eq!(why(&bad), of_10);
        put(&mut bad, 0, 8, 2);
        assert_eq!(why(&bad), of_number(5, 7));
        // x^3 + 1
        (0..3).for_each(|i| bad[RECORD_LENGTH * i + 2] = 1);
        assert_eq!(why(&bad), of_number(2, 3));
        put(&mut bad, 2, 24, 8);
        assert_eq!(why(&bad), Refusal::at(9, 2).into());
        bad[RECORD_LENGTH] = 4;
        assert_eq!(why(&bad), Refusal::at(8, 1).into());
        assert_eq!(why(&bad[1..]), Refusal::new(7).into());
        assert_eq!(why(&[]), Refusal::new(7).into());
    }

    /// Every f of small degree with every element.
    #[test]
    fn the_cause_is_true_and_smallest() {
        for f in 4..1 << 8 {
            let n = degree(f).unwrap();
            for element in 0..1 << n {
                let bad = heads(f, element);
                let met = why(&bad);
                assert_eq!((met.number, met.place), (read(&bad).number, 0));
                let divides = |d: &u64| remainder(f, *d) == 0;
                let c = conjugates(f, element);
                let dependent = |set: &u64| sum_of_picked(&c, *set) == 0;
                let smallest = match met.number {
                    2 => (2..f).find(divides),
                    5 => (1..1 << n).find(dependent),
                    _ => Some(0),
                };
                assert_eq!(Some(met.cause), smallest, "{} {}", f, element);
            }
        }
    }

    /// Squaring n times leaves every element of the field, so that the sets of
    /// conjugates that sum to zero are the multiples of the smallest as
    /// polynomials, and x^n + 1 is one of them.
    #[test]
    fn the_smallest_set_divides_all_others() {
        for f in [11, 19, 37, 67, 131, 283] {
            let n = degree(f).unwrap();
            for element in 0..1 << n {
                let met = why(&heads(f, element));
                if met.number == 5 {
                    let c = conjugates(f, element);
                    let zero = (1..1 << n).filter(|set| sum_of_picked(&c, *set) == 0);
                    for set in zero.chain([(1 << n) + 1]) {
                        assert_eq!(remainder(set, met.cause), 0, "{} {}", f, element);
                    }
                }
            }
        }
    }

    /// At every degree: element 1 has itself for its conjugates.
    #[test]
    fn every_degree() {
        for n in 2..=MAX_DEGREE {
            let f = (1 << n..).find(|f| crate::check(*f).number == 0).unwrap();
            assert_eq!(why(&heads(f, 0)), of_number(5, 1));
            assert_eq!(why(&heads(f, 1)), of_number(5, 3));
            assert_eq!(why(&heads(1 << n, 1)), of_number(2, 2));
            assert_eq!(why(&heads((1 << n) + 1, 1)), of_number(2, 3));
        }
    }
}
