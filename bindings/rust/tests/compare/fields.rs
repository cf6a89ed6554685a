//! What the groups work on: for each degree polynomials that are accepted and
//! that are not, normal elements and the sheets of both.
//!
//! All of it is found with `plain` when the comparison begins.

use crate::random::Random;
use sabrentuglio::{MAX_DEGREE, RECORD_LENGTH};

/// The highest degree, among degrees.
pub const WIDEST: u32 = MAX_DEGREE as u32;

/// The degrees that the desk knows.
pub const DEGREES: std::ops::RangeInclusive<u32> = 2..=WIDEST;

/// One accepted polynomial with a normal element and their sheet.
pub struct Basis {
    pub f: u64,
    pub element: u64,
    pub sheet: Vec<u8>,
}

/// One degree.
pub struct Field {
    pub n: u32,
    /// Of accepted polynomials: the smallest as a number, the largest, one in
    /// between, and those with a basis of complexity 2n-1 that are known.
    pub bases: Vec<Basis>,
    /// Polynomials of this degree that some polynomial divides.
    pub divided: Vec<u64>,
}

/// All degrees.
pub struct Fields {
    fields: Vec<Field>,
}

fn accepted(f: u64) -> bool {
    plain::check(f).number == 0
}

/// The product of two polynomials that fits into 64 bits.
pub fn product(a: u64, b: u64) -> u64 {
    (0..64)
        .filter(|i| b >> i & 1 == 1)
        .fold(0, |sum, i| sum ^ a << i)
}

/// How often a search by chance is tried; each try succeeds at least once in
/// some fifty times, so that only a faulty `plain` uses them up.
const TRIES: usize = 10_000;

/// Any accepted polynomial of degree m.
pub fn any_accepted(m: u32, random: &mut Random) -> u64 {
    // The desk starts at degree 2; x and x + 1 have no divisors either.
    if m == 1 {
        return 2 + random.below(2);
    }
    let found = (0..TRIES)
        .map(|_| polynomial(m, random))
        .find(|f| accepted(*f));
    found.unwrap_or_else(|| panic!("plain accepts nothing of degree {}", m))
}

impl Fields {
    /// Finds polynomials, elements and sheets of every degree.
    pub fn find(random: &mut Random) -> Fields {
        let fields = DEGREES.map(|n| field(n, random)).collect();
        Fields { fields }
    }

    /// The field of a degree that the desk knows.
    pub fn of(&self, n: u32) -> &Field {
        let field = self.fields.iter().find(|field| field.n == n);
        field.expect("every degree has its field")
    }

    /// All fields, by degree.
    pub fn all(&self) -> &[Field] {
        &self.fields
    }

    /// Any field.
    pub fn any(&self, random: &mut Random) -> &Field {
        &self.fields[random.index(self.fields.len())]
    }
}

impl Field {
    /// The accepted polynomials.
    pub fn polynomials(&self) -> Vec<u64> {
        self.bases.iter().map(|basis| basis.f).collect()
    }

    /// Any of the bases.
    pub fn any(&self, random: &mut Random) -> &Basis {
        &self.bases[random.index(self.bases.len())]
    }
}

/// Finds what is needed of degree n.
fn field(n: u32, random: &mut Random) -> Field {
    let size = 1u64 << n;
    let between = size + random.element(n);
    let first = |fs: &mut dyn Iterator<Item = u64>| fs.take(TRIES).find(|f| accepted(*f));
    let found = [
        first(&mut (size..2 * size)),
        first(&mut (size..2 * size).rev()),
        first(&mut (between..2 * size).chain(size..between)),
    ];
    let any = found.into_iter().flatten().map(|f| basis(f, n, random));
    let mut bases: Vec<Basis> = any.collect();
    let optimal = [2 * size - 1, periods(n)].into_iter();
    bases.extend(optimal.filter_map(|f| basis_of(f, 2)));
    Field {
        n,
        bases,
        divided: divided(n, random),
    }
}

/// Polynomials of degree n with divisors of several kinds.
fn divided(n: u32, random: &mut Random) -> Vec<u64> {
    let size = 1u64 << n;
    // By x; by x + 1; a power of x; all terms but the last.
    let even = size + 2 * random.element(n - 1);
    let by_x_plus_1 = product(size / 2 + random.element(n - 1), 3);
    let mut all = vec![even, by_x_plus_1, size, 2 * size - 2];
    // Two factors without divisors, so that mostly no small polynomial divides.
    let low = 1 + random.below(u64::from(n) - 1) as u32;
    let (a, b) = (any_accepted(low, random), any_accepted(n - low, random));
    all.push(product(a, b));
    for m in (1..n).filter(|m| n % m == 0) {
        // A power; and factors of one degree, where n squarings return x.
        let root = any_accepted(m, random);
        all.push((0..n / m).fold(1, |f, _| product(f, root)));
        all.push((0..n / m).fold(1, |f, _| product(f, any_accepted(m, random))));
    }
    all
}

/// The polynomial of a sum of a root of unity of order 2n+1 and its inverse.
/// Where it is accepted, x gives a basis of complexity 2n-1; so it does for the
/// polynomial with all n+1 terms.
fn periods(n: u32) -> u64 {
    let next = |(before, last): (u64, u64), _| (last, last << 1 ^ before);
    (1..n).fold((1, 3), next).1
}

/// The sheet of f and an element, where there is one.
fn basis_of(f: u64, element: u64) -> Option<Basis> {
    let mut sheet = vec![0; RECORD_LENGTH * MAX_DEGREE];
    let answer = plain::build(f, element, &mut sheet);
    sheet.truncate(RECORD_LENGTH * answer.degree as usize);
    let done = answer.number == 0;
    done.then_some(Basis { f, element, sheet })
}

/// A normal element of f and their sheet.
fn basis(f: u64, n: u32, random: &mut Random) -> Basis {
    let found = (0..TRIES).find_map(|_| basis_of(f, random.element(n)));
    found.unwrap_or_else(|| panic!("plain builds no sheet of f {}", f))
}

/// A polynomial of degree n, any at all, or one of few terms.
pub fn polynomial(n: u32, random: &mut Random) -> u64 {
    let size = 1 << n;
    if random.once_in(2) {
        return size + random.element(n);
    }
    (0..random.below(5)).fold(size + 1, |f, _| f ^ 1 << random.below(u64::from(n)))
}

/// A polynomial whose degree the desk refuses.
pub fn wrong_degree(random: &mut Random) -> u64 {
    match random.below(3) {
        0 => random.below(4),
        _ => {
            let above = random.below(u64::from(63 - WIDEST));
            polynomial(WIDEST + 1 + above as u32, random)
        }
    }
}
