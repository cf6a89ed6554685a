/*
 * Elements that come unreduced: the calls in the polynomial notation take f itself and 2^64 - 1, and return what they return for the
 * remainders. Normal coordinates and candidates that large are refused.
 *
 * Exit status 1: a call returned something else, which is printed.
 */
#include <stdio.h>
#include <string.h>

#include "sabrentuglio.h"

/* f is x^4 + x + 1. x^15 is 1 modulo f, and the powers up to x^14 sum to zero: of all 64 powers x^60 to x^63 are left, which is 15. The
 * element is 8; 15 is its conjugate 2, whose square is conjugate 3, which is 10. */
enum { F = 19, ELEMENT = 8, SHEET = 128, VALUES = 4 };
static const uint64_t ALL = UINT64_MAX;

static int wrong;

static void expect(const char *call, desk_value answer, uint64_t number, uint64_t value) {
    if (answer.number == number && answer.place == 0 && answer.value == value) return;
    printf("%s: number %llu, place %llu, value %llu\n", call, (unsigned long long)answer.number, (unsigned long long)answer.place,
           (unsigned long long)answer.value);
    wrong++;
}

static void expect_values(const char *call, const uint64_t *values, const uint64_t *right) {
    if (memcmp(values, right, VALUES * sizeof *values) == 0) return;
    printf("%s: the list is not as expected\n", call);
    wrong++;
}

static void numbers(void) {
    expect("multiply, 2^64 - 1", desk_multiply(F, ALL, 1), 0, 15);
    expect("multiply, both", desk_multiply(F, ALL, F ^ 15), 0, 10);
    expect("multiply, f", desk_multiply(F, ALL, F), 0, 0);
    expect("multiply, degree", desk_multiply(3, ALL, ALL), 1, 0);
    expect("square, 2^64 - 1", desk_square(F, ALL), 0, 10);
    expect("square, f", desk_square(F, F), 0, 0);
    expect("square, degree", desk_square(ALL, ALL), 1, 0);
    expect("trace, 2^64 - 1", desk_trace(F, ALL), 0, 1);
    expect("trace, f", desk_trace(F, F), 0, 0);
    expect("trace, degree", desk_trace(3, ALL), 1, 0);
    expect("trace, divisor", desk_trace(5, ALL), 2, 0);
}

static void values(const uint8_t *sheet) {
    expect("to_normal, 2^64 - 1", desk_to_normal(sheet, SHEET, ALL), 0, 4);
    expect("to_normal, f", desk_to_normal(sheet, SHEET, F), 0, 0);
    expect("to_normal, length", desk_to_normal(sheet, SHEET - 1, ALL), 7, 0);
    expect("to_polynomial, 2^64 - 1", desk_to_polynomial(sheet, SHEET, ALL), 4, 0);
    expect("times, f", desk_times(sheet, SHEET, 1, F), 4, 0);
}

static void lists(const uint8_t *sheet) {
    const uint64_t from[VALUES] = {ALL, F, 15, F ^ 15}, right[VALUES] = {4, 0, 4, 4}, before[VALUES] = {9, 9, 9, 9};
    uint64_t into[VALUES] = {9, 9, 9, 9};
    expect("list_to_normal, lengths", desk_list_to_normal(sheet, SHEET, from, VALUES, into, VALUES - 1), 11, 0);
    expect("list_to_polynomial", desk_list_to_polynomial(sheet, SHEET, from, VALUES, into, VALUES), 4, 0);
    expect_values("refused", into, before);
    expect("list_to_normal", desk_list_to_normal(sheet, SHEET, from, VALUES, into, VALUES), 0, 0);
    expect_values("list_to_normal", into, right);
}

int main(void) {
    uint8_t sheet[SHEET];
    if (desk_build(F, ALL, sheet, SHEET).number != 4 || desk_build(F, ELEMENT, sheet, SHEET).number != 0) {
        printf("build: the candidate 2^64 - 1 is not refused, or 8 is\n");
        wrong++;
    }
    numbers();
    values(sheet);
    lists(sheet);
    return wrong == 0 ? 0 : 1;
}
