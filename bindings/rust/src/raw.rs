//! The archive's functions as they are: flat answers of numbers.
//!
//! First the answers, then the C declarations, then one safe function for each
//! of them. This is the crate's only module with unsafe code. What makes it
//! sound is the same for every call: the desk reads and writes only inside the
//! lengths it is handed, and keeps no pointer after it returns.
//!
//! ```
//! use sabrentuglio::raw;
//!
//! let answer = raw::multiply(19, 8, 12);
//! assert_eq!((answer.number, answer.place, answer.value), (0, 0, 10));
//! let answer = raw::multiply(3, 8, 12);
//! assert_eq!((answer.number, answer.place, answer.value), (1, 0, 0));
//! ```

#![allow(unsafe_code)]

/// The answer of a call with one value; the value is 0 where it has none.
#[repr(C)]
#[derive(Clone, Copy, Debug, Default, PartialEq, Eq)]
pub struct Value {
    /// The number in document 01's refusal table, 0 for done.
    pub number: u64,
    /// The place that goes with the number.
    pub place: u64,
    /// What the call answers, 0 on a refusal.
    pub value: u64,
}

/// The answer of building and reading a sheet, and of writing and reading the
/// text of all matrices; on a refusal the last three are zero.
#[repr(C)]
#[derive(Clone, Copy, Debug, Default, PartialEq, Eq)]
pub struct Issued {
    /// The number in document 01's refusal table, 0 for done.
    pub number: u64,
    /// The place that goes with the number.
    pub place: u64,
    /// The degree n of f.
    pub degree: u64,
    /// The number of ones in the table rows.
    pub complexity: u64,
    /// The grade, 0 to 3.
    pub grade: u64,
}

/// Why reading refuses a sheet; all zero where it accepts it.
#[repr(C)]
#[derive(Clone, Copy, Debug, Default, PartialEq, Eq)]
pub struct Cause {
    /// The number in document 01's refusal table, 0 where reading accepts the
    /// sheet.
    pub number: u64,
    /// The place that goes with the number.
    pub place: u64,
    /// For 2 the smallest divisor of f, for 3 what x became, for 5 the smallest
    /// number above 0 whose set bits select conjugates that sum to zero; else 0.
    pub cause: u64,
    /// For 10 the field that differs: 1 conjugate, 2 inverse, 3 table; else 0.
    pub field: u64,
    /// The number that this field holds.
    pub stored: u64,
    /// The number that is right there.
    pub right: u64,
}

/// The answer of a search; on a refusal and where nothing was found the last
/// five are zero.
#[repr(C)]
#[derive(Clone, Copy, Debug, Default, PartialEq, Eq)]
pub struct Found {
    /// The number in document 01's refusal table, 0 for done.
    pub number: u64,
    /// 1 where a normal leader lies in the range, else 0.
    pub found: u64,
    /// The leader of least complexity, the smallest where several tie.
    pub element: u64,
    /// Its complexity.
    pub complexity: u64,
    /// Its grade, 0 to 3.
    pub grade: u64,
    /// How many normal leaders lie in the range.
    pub count: u64,
}

/// What a typed word means; both are zero where it is unclear.
#[repr(C)]
#[derive(Clone, Copy, Debug, Default, PartialEq, Eq)]
pub struct Word {
    /// 1 where the word means a number, else 0.
    pub clear: u64,
    /// That number.
    pub value: u64,
}

extern "C" {
    fn desk_check(f: u64) -> Value;
    fn desk_multiply(f: u64, a: u64, b: u64) -> Value;
    fn desk_square(f: u64, a: u64) -> Value;
    fn desk_trace(f: u64, a: u64) -> Value;
    fn desk_build(f: u64, element: u64, buffer: *mut u8, length: usize) -> Issued;
    fn desk_read(sheet: *const u8, length: usize) -> Issued;
    fn desk_why(sheet: *const u8, length: usize) -> Cause;
    fn desk_to_polynomial(sheet: *const u8, length: usize, coordinates: u64) -> Value;
    fn desk_to_normal(sheet: *const u8, length: usize, element: u64) -> Value;
    fn desk_list_to_polynomial(
        sheet: *const u8,
        length: usize,
        from: *const u64,
        from_count: usize,
        into: *mut u64,
        into_count: usize,
    ) -> Value;
    fn desk_list_to_normal(
        sheet: *const u8,
        length: usize,
        from: *const u64,
        from_count: usize,
        into: *mut u64,
        into_count: usize,
    ) -> Value;
    fn desk_times(sheet: *const u8, length: usize, a: u64, b: u64) -> Value;
    fn desk_inverse(sheet: *const u8, length: usize, a: u64) -> Value;
    fn desk_quotient(sheet: *const u8, length: usize, dividend: u64, divisor: u64) -> Value;
    fn desk_write_matrices(
        sheet: *const u8,
        length: usize,
        text: *mut u8,
        text_length: usize,
    ) -> Issued;
    fn desk_read_matrices(f: u64, element: u64, text: *const u8, text_length: usize) -> Issued;
    fn desk_search(f: u64, first: u64, last: u64) -> Found;
    fn desk_number_of(word: *const u8, length: usize) -> Word;
    fn desk_polynomial_of(word: *const u8, length: usize) -> Word;
}

/// `desk_check`: whether f is accepted.
pub fn check(f: u64) -> Value {
    // SAFETY: only numbers go over, and every number is a legal argument.
    unsafe { desk_check(f) }
}

/// `desk_multiply`: a times b modulo f, each operand any number.
pub fn multiply(f: u64, a: u64, b: u64) -> Value {
    // SAFETY: only numbers go over, and every number is a legal argument.
    unsafe { desk_multiply(f, a, b) }
}

/// `desk_square`: a times a modulo f, a any number.
pub fn square(f: u64, a: u64) -> Value {
    // SAFETY: only numbers go over, and every number is a legal argument.
    unsafe { desk_square(f, a) }
}

/// `desk_trace`: the sum of the conjugates of a, which is any number.
pub fn trace(f: u64, a: u64) -> Value {
    // SAFETY: only numbers go over, and every number is a legal argument.
    unsafe { desk_trace(f, a) }
}

/// `desk_build`: writes a sheet into the first 32n bytes of the buffer.
pub fn build(f: u64, element: u64, buffer: &mut [u8]) -> Issued {
    // SAFETY: the buffer is lent for writing over its whole length. An empty
    // one is a dangling pointer, which is not followed at length 0.
    unsafe { desk_build(f, element, buffer.as_mut_ptr(), buffer.len()) }
}

/// `desk_read`: whether the sheet is one that building writes.
pub fn read(sheet: &[u8]) -> Issued {
    // SAFETY: the sheet is lent for reading over its whole length. An empty
    // one is a dangling pointer, which is not followed at length 0.
    unsafe { desk_read(sheet.as_ptr(), sheet.len()) }
}

/// `desk_why`: the cause of reading's refusal.
pub fn why(sheet: &[u8]) -> Cause {
    // SAFETY: as in `read`.
    unsafe { desk_why(sheet.as_ptr(), sheet.len()) }
}

/// `desk_to_polynomial`: the element of normal coordinates.
pub fn to_polynomial(sheet: &[u8], coordinates: u64) -> Value {
    // SAFETY: as in `read`.
    unsafe { desk_to_polynomial(sheet.as_ptr(), sheet.len(), coordinates) }
}

/// `desk_to_normal`: the normal coordinates of an element, which is any number.
pub fn to_normal(sheet: &[u8], element: u64) -> Value {
    // SAFETY: as in `read`.
    unsafe { desk_to_normal(sheet.as_ptr(), sheet.len(), element) }
}

/// `desk_list_to_polynomial`: `into` gets the element of each value of `from`.
pub fn list_to_polynomial(sheet: &[u8], from: &[u64], into: &mut [u64]) -> Value {
    // SAFETY: each of the three goes over with its own length, the first two
    // for reading, the last for writing; as slices they do not overlap `into`.
    // An empty one is a dangling pointer, which is not followed at length 0.
    unsafe {
        desk_list_to_polynomial(
            sheet.as_ptr(),
            sheet.len(),
            from.as_ptr(),
            from.len(),
            into.as_mut_ptr(),
            into.len(),
        )
    }
}

/// `desk_list_to_normal`: `into` gets the coordinates of each value of `from`.
pub fn list_to_normal(sheet: &[u8], from: &[u64], into: &mut [u64]) -> Value {
    // SAFETY: as in `list_to_polynomial`.
    unsafe {
        desk_list_to_normal(
            sheet.as_ptr(),
            sheet.len(),
            from.as_ptr(),
            from.len(),
            into.as_mut_ptr(),
            into.len(),
        )
    }
}

/// `desk_times`: the product of normal coordinates.
pub fn times(sheet: &[u8], a: u64, b: u64) -> Value {
    // SAFETY: as in `read`.
    unsafe { desk_times(sheet.as_ptr(), sheet.len(), a, b) }
}

/// `desk_inverse`: the inverse of normal coordinates.
pub fn inverse(sheet: &[u8], a: u64) -> Value {
    // SAFETY: as in `read`.
    unsafe { desk_inverse(sheet.as_ptr(), sheet.len(), a) }
}

/// `desk_quotient`: the dividend times the inverse of the divisor.
pub fn quotient(sheet: &[u8], dividend: u64, divisor: u64) -> Value {
    // SAFETY: as in `read`.
    unsafe { desk_quotient(sheet.as_ptr(), sheet.len(), dividend, divisor) }
}

/// `desk_write_matrices`: writes the text of all matrices into the first
/// n(n(n+1)+1) bytes of `text`.
pub fn write_matrices(sheet: &[u8], text: &mut [u8]) -> Issued {
    // SAFETY: both go over with their own lengths, the sheet for reading, the
    // text for writing; as slices they do not overlap. An empty one is a
    // dangling pointer, which is not followed at length 0.
    unsafe { desk_write_matrices(sheet.as_ptr(), sheet.len(), text.as_mut_ptr(), text.len()) }
}

/// `desk_read_matrices`: whether the text is that of f and the element.
pub fn read_matrices(f: u64, element: u64, text: &[u8]) -> Issued {
    // SAFETY: as in `read`.
    unsafe { desk_read_matrices(f, element, text.as_ptr(), text.len()) }
}

/// `desk_search`: the best normal leader from first to last.
pub fn search(f: u64, first: u64, last: u64) -> Found {
    // SAFETY: only numbers go over, and every number is a legal argument.
    unsafe { desk_search(f, first, last) }
}

/// `desk_number_of`: the number that a word means.
pub fn number_of(word: &[u8]) -> Word {
    // SAFETY: as in `read`.
    unsafe { desk_number_of(word.as_ptr(), word.len()) }
}

/// `desk_polynomial_of`: the polynomial that a word means.
pub fn polynomial_of(word: &[u8]) -> Word {
    // SAFETY: as in `read`.
    unsafe { desk_polynomial_of(word.as_ptr(), word.len()) }
}
