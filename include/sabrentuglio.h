/*
 * The desk's calls for C and C++: fields of 2^n elements, n from 2 to 46, and the sheets of their
 * normal bases. docs/CALLS.md has the same calls with examples.
 *
 * A polynomial over the two-element field is a number: bit i is the coefficient of x^i. f is the
 * defining polynomial and n its degree. An element is a number below 2^n. Conjugate i of an
 * element, written c_i, is the element squared i times, for i from 0 to n-1. An element is normal
 * if no non-empty set of indices picks conjugates of it that sum to zero. Normal coordinates of an
 * element are the number below 2^n whose set bits i pick the conjugates that sum to it.
 *
 * Elements may come unreduced: desk_multiply, desk_square, desk_trace, desk_to_normal and
 * desk_list_to_normal take any 64-bit number for an element, and work on its remainder modulo f. A
 * candidate for a basis, normal coordinates and the ends of a range must be below 2^n.
 *
 * A sheet is n records of 32 bytes, in row order, with nothing before or after them. Its numbers
 * are little-endian:
 *
 *    bytes    content of record i
 *    0        the degree n
 *    1        the row number i
 *    2-7      f without its term x^n
 *    8-15     conjugate row: c_i, the element squared i times
 *    16-23    inverse row: the normal coordinates of x^i
 *    24-31    table row: the normal coordinates of c_0 times c_i
 *
 * The text of a basis has its n matrices T_k, k from 0 to n-1. Entry (i,j) of T_k is bit k of the
 * normal coordinates of c_i times c_j. Row i is a line of n digits 0 and 1, j upward, ended by byte
 * 10. The matrices stand in order of k, with an empty line after each, which is one more byte 10.
 * So a text has n(n+1) lines and n(n(n+1)+1) bytes.
 *
 * Every call takes any numbers. It returns 0 in `number` if it is done, else the number of the
 * first refusal in the call's order that applies:
 *
 *    number  given exactly when                                        place
 *    1       the degree of f is below 2 or above 46; this includes     0
 *            f = 0
 *    2       some polynomial of degree 1 to n-1 divides f              0
 *    3       x squared n times in a row is not x again modulo f        0
 *    4       a candidate element, coordinate number or range end is    the first such index
 *            2^n or more                                               in a list, else 0
 *    5       the element is not normal                                 0
 *    6       the buffer to be written is shorter than 32n bytes for    0
 *            a sheet, n(n(n+1)+1) for a text
 *    7       the sheet's length is not 32 times a count of 2 to 46     0
 *    8       a record's degree is not the number of records, its row   the record
 *            number is not its place, or its bytes 2-7 differ from
 *            those of record 0
 *    9       a record's bytes 2-7, or one of its three rows, is 2^n    the record
 *            or more
 *    10      a record differs from the one rebuilt                     the first such record
 *    11      the lengths of the two lists differ, or exceed 4,096      0
 *    12      the first of the range is greater than the last           0
 *    13      the divisor, or the number to invert, is zero             0
 *    14      the text does not match: it is not what writing gives     the first wrong, missing
 *            for f and the element                                     or extra line, from 0
 *
 * In a call's order "the shape" stands for: 7; then, for each record from 0 upward, 8 before 9.
 *
 * A call that is done has place 0. A refusal has zeros in all but number and place; desk_why alone
 * adds the cause. All memory that the call borrowed is then unchanged.
 *
 * Besides the seventeen calls, desk_number_of and desk_polynomial_of say what a typed word means,
 * as the command line reads it. They refuse nothing: a word is clear or unclear.
 *
 * What the caller must do:
 *   - A pointer is not null, not even at length 0. Nothing in Rattle can test a pointer, and the
 *     compiler may assume that the pointer of a slice is not null. At length 0 any other aligned
 *     address will do: no byte there is read or written.
 *   - A pointer is aligned for its type and valid for its length: for reading if it is `const`,
 *     else for reading and writing. Lengths are in bytes for a sheet, a buffer, a text and a word,
 *     in values for a list.
 *   - Memory that a call writes (`buffer`, `into`, a `text` that is not `const`) overlaps nothing
 *     else that the same call borrows, neither a sheet nor `from`. So no list is converted in
 *     place, with `from` and `into` the same: the proof speaks of two separate memories, and the
 *     compiler may rely on that. Convert into a second list.
 *   - While the call runs, nothing else writes memory that it borrows, or reads memory that it
 *     writes.
 *   - The stack has room: SABRENTUGLIO_STACK below.
 * No call keeps a pointer, allocates, or has state of its own. Within these rules several calls may
 * run at the same time.
 *
 * Link libcapi.a (x86-64 Linux).
 */
#ifndef SABRENTUGLIO_H
#define SABRENTUGLIO_H

#include <stddef.h>
#include <stdint.h>

/* The version of the product, which the archive, the command line and the Rust crate share. */
#define SABRENTUGLIO_VERSION "4.0.0"

/*
 * The bytes of stack that a call may take, rounded up from a measurement, bindings/c/stack.c: no
 * call takes more than the first, and no call but desk_search more than the second. Measured were
 * 67 KiB for desk_search, 18 for desk_list_to_normal, 14 for desk_list_to_polynomial, desk_times,
 * desk_inverse and desk_quotient, 12 for desk_why, 11 for desk_write_matrices, 9 for desk_read, 8
 * for desk_build and desk_read_matrices and less than 1 for each of the others. The amount does not
 * grow with a range, a list or a text. It includes memcpy and memset of the C library, and not the
 * dynamic linker, which may look them up at the first call.
 */
#define SABRENTUGLIO_STACK 73728
#define SABRENTUGLIO_STACK_BUT_SEARCH 20480

#ifdef __cplusplus
extern "C" {
#endif

/* The result of a call with one value. `value` is 0 for a call that has none. */
typedef struct desk_value {
    uint64_t number;
    uint64_t place;
    uint64_t value;
} desk_value;

/*
 * The result of desk_build, desk_read, desk_write_matrices and desk_read_matrices: the degree n,
 * and the complexity and grade of the basis. The complexity is the number of ones in the n table
 * rows; the text of the basis has n times as many. A basis of complexity 2n-1 is optimal: grade 1
 * says of the first kind, 2 of the second kind, 3 of both.
 *
 *    grade   given exactly when
 *    0       the complexity is not 2n-1
 *    1       the complexity is 2n-1, n is not 2, and the element to the power n+1 is 1
 *    2       the complexity is 2n-1, n is not 2, and the element to the power n+1 is not 1
 *    3       the complexity is 2n-1, and n is 2
 *
 * The power is modulo f. Of a sheet that is read the element is the conjugate of record 0.
 */
typedef struct desk_issued {
    uint64_t number;
    uint64_t place;
    uint64_t degree;
    uint64_t complexity;
    uint64_t grade;
} desk_issued;

/*
 * The result of desk_why: number and place as desk_read returns them, and the cause.
 *
 *    number    the cause
 *    0         none: desk_read accepts the sheet
 *    2         cause: the smallest polynomial, as a number, that divides f and has degree 1 or more
 *    3         cause: what x became, that is x squared n times in a row modulo f
 *    5         cause: the smallest number above 0 whose set bits i pick conjugates c_i of the
 *              element that sum to zero; for the element 0 it is 1
 *    7, 8, 9   none but the place
 *    10        field: the first row of record `place`, in byte order, that differs from the one
 *              rebuilt, 1 for the conjugate row, 2 for the inverse row, 3 for the table row;
 *              stored: the number that stands there; right: the number rebuilt
 *
 * Members that the table does not name for a number are 0.
 */
typedef struct desk_cause {
    uint64_t number;
    uint64_t place;
    uint64_t cause;
    uint64_t field;
    uint64_t stored;
    uint64_t right;
} desk_cause;

/*
 * The result of desk_search, one of three:
 *   refused   number is the refusal's and all else is 0; the place is always 0 and has no member;
 *   nothing   all is 0: no normal class leader lies in the range;
 *   found     number is 0 and found is 1; then element, its complexity and grade as above, and
 *             count, the number of normal class leaders in the range.
 */
typedef struct desk_found {
    uint64_t number;
    uint64_t found;
    uint64_t element;
    uint64_t complexity;
    uint64_t grade;
    uint64_t count;
} desk_found;

/*
 * The result of desk_number_of and desk_polynomial_of: clear is 1 and value is what the word means,
 * or both are 0 and the word is unclear.
 */
typedef struct desk_word {
    uint64_t clear;
    uint64_t value;
} desk_word;

/*
 * Checks whether f is accepted: its degree is 2 to 46, no polynomial of degree 1 to n-1 divides it,
 * and x squared n times in a row is x again. number is 0 if it is; value is always 0.
 * Refusals in order: 1, 2, 3.
 */
desk_value desk_check(uint64_t f);

/*
 * Returns a times b modulo f, for any f of degree 2 to 46, accepted or not. a and b are any
 * numbers; each stands for its remainder modulo f.
 * Refusals in order: 1.
 */
desk_value desk_multiply(uint64_t f, uint64_t a, uint64_t b);

/*
 * Returns a times a modulo f, for any f of degree 2 to 46, accepted or not. a is any number; it
 * stands for its remainder modulo f.
 * Refusals in order: 1.
 */
desk_value desk_square(uint64_t f, uint64_t a);

/*
 * Returns the trace of a: the sum of its n conjugates, 0 or 1. a is any number; it stands for its
 * remainder modulo f.
 * Refusals in order: 1, 2, 3.
 */
desk_value desk_trace(uint64_t f, uint64_t a);

/*
 * Writes the sheet of f and the element into the first 32n bytes of `buffer`, and returns its
 * degree, complexity and grade. Bytes after the sheet are unchanged; on a refusal the whole buffer
 * is. 1,472 bytes are enough for every f.
 * Refusals in order: 1, 4, 6, 2, 3, 5.
 */
desk_issued desk_build(uint64_t f, uint64_t element, uint8_t *buffer, size_t length);

/*
 * Returns degree, complexity and grade of a sheet. It is done exactly for the sheets that
 * desk_build writes, at their own length: it rebuilds the sheet and compares. Writes nothing.
 * Refusals in order: the shape, 2 and 3 for the sheet's polynomial, 5 for the conjugate of its
 * record 0, 10.
 */
desk_issued desk_read(const uint8_t *sheet, size_t length);

/*
 * Returns why desk_read refuses a sheet: its number and place, and the cause of 2, 3, 5 and 10. The
 * lister prints the cause on its second line: one number for 2, 3 and 5; for 10 the record, the
 * word conjugate, inverse or table, the number stored and the right one. All is 0 if desk_read
 * accepts the sheet. Writes nothing.
 * Refusals in order: the shape, 2 and 3 for the sheet's polynomial, 5 for the conjugate of its
 * record 0, 10.
 */
desk_cause desk_why(const uint8_t *sheet, size_t length);

/*
 * Returns the element that has these normal coordinates: the sum (exclusive or) of the sheet's
 * conjugate rows that the bits pick. The call uses the rows as they stand and does not rebuild
 * them; they are right on the sheets that desk_read accepts. Writes nothing.
 * Refusals in order: the shape, 4.
 */
desk_value desk_to_polynomial(const uint8_t *sheet, size_t length, uint64_t coordinates);

/*
 * Returns the normal coordinates of an element: the sum of the sheet's inverse rows that its bits
 * pick. The element is any number; it stands for its remainder modulo the sheet's polynomial, which
 * is 2^n plus bytes 2-7 of record 0, accepted or not. The call uses the rows as they stand and does
 * not rebuild them. On the sheets that desk_read accepts, desk_to_polynomial turns the result into
 * that remainder. Writes nothing.
 * Refusals in order: the shape.
 */
desk_value desk_to_normal(const uint8_t *sheet, size_t length, uint64_t element);

/*
 * Converts every value of a list as desk_to_polynomial does: into[i] becomes the element that has
 * the coordinates from[i]. The two lists have the same length, at most 4,096; an empty list becomes
 * an empty list. value is always 0. On a refusal `into` is unchanged.
 * Refusals in order: the shape, 11, 4. The place of 4 is the index of the first value of `from`
 * that is too large.
 */
desk_value desk_list_to_polynomial(const uint8_t *sheet, size_t length, const uint64_t *from, size_t from_count,
                                   uint64_t *into, size_t into_count);

/*
 * Converts every value of a list as desk_to_normal does: into[i] becomes the normal coordinates of
 * from[i], which is any number. Lengths and value are as in desk_list_to_polynomial. On a refusal
 * `into` is unchanged.
 * Refusals in order: the shape, 11.
 */
desk_value desk_list_to_normal(const uint8_t *sheet, size_t length, const uint64_t *from, size_t from_count,
                               uint64_t *into, size_t into_count);

/*
 * Returns the product of normal coordinates a and b, in normal coordinates, by the sheet's table
 * rows. The call uses the rows as they stand and does not rebuild them. Writes nothing.
 * Refusals in order: the shape, 4.
 */
desk_value desk_times(const uint8_t *sheet, size_t length, uint64_t a, uint64_t b);

/*
 * Returns the inverse of normal coordinates a, in normal coordinates, by the sheet's table rows. It
 * is a^(2^n - 2). Rotating by one place moves bit i to bit i+1, and bit n-1 to bit 0. The power for
 * k, whose exponent is 2^k - 1, is a if k = 1. If k = 2h it is the power for h, rotated h places,
 * times that power. If k is odd and above 1 it is the power for k-1, rotated once, times a. The
 * inverse is the power for n-1, rotated once. The call uses the rows as they stand and does not
 * rebuild them. On the sheets that desk_read accepts, a times its inverse is the number with all n
 * bits set, which is element 1. Writes nothing.
 * Refusals in order: the shape, 4, 13.
 */
desk_value desk_inverse(const uint8_t *sheet, size_t length, uint64_t a);

/*
 * Returns the quotient of normal coordinates, in normal coordinates: the dividend times the inverse
 * of the divisor, in this order, as desk_times and desk_inverse return them. The call uses the rows
 * as they stand and does not rebuild them. On the sheets that desk_read accepts, the quotient times
 * the divisor is the dividend. Zero divided by any other number is zero. Writes nothing.
 * Refusals in order: the shape, 4, 13.
 */
desk_value desk_quotient(const uint8_t *sheet, size_t length, uint64_t dividend, uint64_t divisor);

/*
 * Writes the text of the sheet's basis into the first n(n(n+1)+1) bytes of `text`, and returns
 * degree, complexity and grade. It reads the sheet as desk_read does, and refuses what that call
 * refuses. Bytes after the text are unchanged; on a refusal all bytes are. 99,498 bytes are enough
 * for every sheet. No zero byte is written at the end.
 * Refusals in order: the shape, 2 and 3 for the sheet's polynomial, 5 for the conjugate of its
 * record 0, 10, 6.
 */
desk_issued desk_write_matrices(const uint8_t *sheet, size_t length, uint8_t *text, size_t text_length);

/*
 * Returns degree, complexity and grade of the basis of f and the element, if the text is that of
 * the basis. It is done exactly for the text that desk_write_matrices writes on the sheet of f and
 * the element, with a text_length of n(n(n+1)+1). Any bytes of any length are a legal text. Writes
 * nothing.
 * Refusals in order: 1, 4, 2, 3, 5, 14. The place of 14 is the number of bytes 10 in the longest
 * common beginning of the text and the right one. So a line without its byte 10 is a wrong line. A
 * text that is right to the end of line 4 and stops there misses line 5; lines count from 0.
 * Anything after the whole right text is an extra line, line n(n+1).
 */
desk_issued desk_read_matrices(uint64_t f, uint64_t element, const uint8_t *text, size_t text_length);

/*
 * Returns the normal basis of least complexity among the class leaders from first to last, both
 * included; if several have it, the one of the smallest element. A class leader is an element that
 * is the smallest of its own conjugates. The work grows with the range.
 * Refusals in order: 1, 4, 12, 2, 3.
 */
desk_found desk_search(uint64_t f, uint64_t first, uint64_t last);

/*
 * Returns the number that a word means: one or more decimal digits, or `0x` and then one or more
 * hexadecimal digits, small or capital; leading zeros are allowed. It is below 2^64. Any other word
 * is unclear, an empty one too. A word needs no zero byte at its end. Writes nothing.
 * Refusals in order: none.
 */
desk_word desk_number_of(const uint8_t *word, size_t length);

/*
 * Returns the polynomial that a word means: a number as in desk_number_of, or two or more decimal
 * exponents below 64 that fall strictly, with one colon between. 4:1:0 is x^4 + x + 1, which is 19.
 * Any other word is unclear. Writes nothing.
 * Refusals in order: none.
 */
desk_word desk_polynomial_of(const uint8_t *word, size_t length);

#ifdef __cplusplus
}
#endif

#endif
