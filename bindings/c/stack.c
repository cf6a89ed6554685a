/*
 * Measures how much stack each call takes, and compares it with what the header says.
 *
 * Each call runs on a stack of its own that is painted before. The bytes that have changed then, from the deepest one up, were the
 * call's; the small function that makes the call is counted with it. Every call is done at every degree, and refused: which input
 * takes a path that is deeper than another's is not known from outside.
 *
 * It prints a line for each call. Exit status 1: a call took more than the header says, or was not both done and refused.
 */
#include <stdio.h>
#include <string.h>

#include "sabrentuglio.h"

enum { ROOM = 1 << 17, LIMIT = 46, LIST = 4096, SHEET = 32 * LIMIT, TEXT = LIMIT * (LIMIT * (LIMIT + 1) + 1) };

static unsigned char stack[ROOM] __attribute__((aligned(16)));

/* What the calls take, and the number that the last one returned. */
static uint64_t f, a, b;
static uint8_t sheet[SHEET];
static size_t length;
static uint64_t from[LIST + 1], into[LIST + 1];
static size_t count;
static uint8_t text[TEXT];
static size_t text_length;
static const char *word;
static uint64_t number;

static void check(void) { number = desk_check(f).number; }
static void multiply(void) { number = desk_multiply(f, a, b).number; }
static void square(void) { number = desk_square(f, a).number; }
static void trace(void) { number = desk_trace(f, a).number; }
static void search(void) { number = desk_search(f, a, b).number; }
static void build(void) { number = desk_build(f, a, sheet, length).number; }
static void read(void) { number = desk_read(sheet, length).number; }
static void why(void) { number = desk_why(sheet, length).number; }
static void to_polynomial(void) { number = desk_to_polynomial(sheet, length, a).number; }
static void to_normal(void) { number = desk_to_normal(sheet, length, a).number; }
static void times(void) { number = desk_times(sheet, length, a, b).number; }
static void inverse(void) { number = desk_inverse(sheet, length, a).number; }
static void quotient(void) { number = desk_quotient(sheet, length, a, b).number; }
static void list_to_polynomial(void) { number = desk_list_to_polynomial(sheet, length, from, count, into, count).number; }
static void list_to_normal(void) { number = desk_list_to_normal(sheet, length, from, count, into, count).number; }
static void write_matrices(void) { number = desk_write_matrices(sheet, length, text, text_length).number; }
static void read_matrices(void) { number = desk_read_matrices(f, a, text, text_length).number; }
static void number_of(void) { number = !desk_number_of((const uint8_t *)word, strlen(word)).clear; }
static void polynomial_of(void) { number = !desk_polynomial_of((const uint8_t *)word, strlen(word)).clear; }

enum { CHECK, MULTIPLY, SQUARE, TRACE, SEARCH, BUILD, READ, WHY, TO_POLYNOMIAL, TO_NORMAL, TIMES, INVERSE, QUOTIENT,
       LIST_TO_POLYNOMIAL, LIST_TO_NORMAL, WRITE_MATRICES, READ_MATRICES, NUMBER_OF, POLYNOMIAL_OF, CALLS };

static struct {
    const char *name;
    void (*run)(void);
    size_t most;
    unsigned done, refused;
} calls[CALLS] = {
    {"desk_check", check, 0, 0, 0},
    {"desk_multiply", multiply, 0, 0, 0},
    {"desk_square", square, 0, 0, 0},
    {"desk_trace", trace, 0, 0, 0},
    {"desk_search", search, 0, 0, 0},
    {"desk_build", build, 0, 0, 0},
    {"desk_read", read, 0, 0, 0},
    {"desk_why", why, 0, 0, 0},
    {"desk_to_polynomial", to_polynomial, 0, 0, 0},
    {"desk_to_normal", to_normal, 0, 0, 0},
    {"desk_times", times, 0, 0, 0},
    {"desk_inverse", inverse, 0, 0, 0},
    {"desk_quotient", quotient, 0, 0, 0},
    {"desk_list_to_polynomial", list_to_polynomial, 0, 0, 0},
    {"desk_list_to_normal", list_to_normal, 0, 0, 0},
    {"desk_write_matrices", write_matrices, 0, 0, 0},
    {"desk_read_matrices", read_matrices, 0, 0, 0},
    {"desk_number_of", number_of, 0, 0, 0},
    {"desk_polynomial_of", polynomial_of, 0, 0, 0},
};

/* Runs a function on the stack that ends at top. Every function keeps rbx, which so brings the old stack back. */
void run_there(void (*run)(void), void *top);
__asm__(".text\n"
        ".globl run_there\n"
        "run_there:\n"
        "    pushq %rbx\n"
        "    movq %rsp, %rbx\n"
        "    movq %rsi, %rsp\n"
        "    call *%rdi\n"
        "    movq %rbx, %rsp\n"
        "    popq %rbx\n"
        "    ret\n");

/* The bytes that a call changes below the top of a stack painted so. */
static size_t used(int call, int paint) {
    size_t low = 0;
    memset(stack, paint, ROOM);
    run_there(calls[call].run, stack + ROOM);
    while (low < ROOM && stack[low] == paint) low++;
    return ROOM - low;
}

/* Measures a call; a byte that is written may be that of one paint, and not of both. */
static void measure(int call) {
    size_t one = used(call, 0xa5), other = used(call, 0x5a);
    size_t most = one > other ? one : other;
    if (calls[call].most < most) calls[call].most = most;
    if (number == 0) {
        calls[call].done++;
    } else {
        calls[call].refused++;
    }
}

/* Operands in pairs: elements, and words that are none and come unreduced. */
static void measure_numbers(int degree) {
    uint64_t size = (uint64_t)1 << degree, words[] = {size - 2, size - 1, size, f, UINT64_MAX, UINT64_MAX};
    measure(CHECK);
    for (size_t i = 0; i < sizeof words / sizeof *words - 1; i++) {
        a = words[i + 1];
        b = words[i];
        for (int call = MULTIPLY; call <= TRACE; call++) measure(call);
        measure(READ_MATRICES);
    }
    a = 0;
    b = size - 1 < 400 ? size - 1 : 400;
    measure(SEARCH);
    a = b + 1;
    measure(SEARCH);
}

/* The text of the sheet of f and the element a: written, read, spoiled in its last line, and too short. */
static void measure_text(int degree) {
    size_t n = (size_t)degree, size = n * (n * (n + 1) + 1);
    text_length = TEXT;
    measure(WRITE_MATRICES);
    text_length = size;
    measure(READ_MATRICES);
    text[size - 1] ^= 1;
    measure(READ_MATRICES);
    text_length = size - 1;
    measure(READ_MATRICES);
    measure(WRITE_MATRICES);
}

/* The calls that compare a sheet with the one rebuilt. */
static void measure_bad_sheet(void) {
    measure(READ);
    measure(WHY);
    measure(WRITE_MATRICES);
}

/* A sheet of f with right heads and rows of zeros: refused for a divisor of f, or for the element 0. */
static void measure_heads(int degree) {
    uint64_t tail = f - ((uint64_t)1 << degree);
    memset(sheet, 0, SHEET);
    length = 32 * (size_t)degree;
    for (size_t i = 0; i < (size_t)degree; i++) {
        sheet[32 * i] = (uint8_t)degree;
        sheet[32 * i + 1] = (uint8_t)i;
        for (size_t k = 0; k < 6; k++) sheet[32 * i + 2 + k] = (uint8_t)(tail >> (8 * k));
    }
    measure_bad_sheet();
}

/* Both ways of a list of so many values. */
static void measure_lists(size_t values) {
    count = values;
    measure(LIST_TO_POLYNOMIAL);
    measure(LIST_TO_NORMAL);
}

/* The calls on the sheet of f and a normal element; lists have the most values, and few. */
static void measure_sheet(int degree, uint64_t element) {
    uint64_t size = (uint64_t)1 << degree;
    a = element;
    length = SHEET;
    measure(BUILD);
    length = 32 * (size_t)degree;
    measure(READ);
    measure(WHY);
    measure_text(degree);
    b = size - 1;
    for (int call = TO_POLYNOMIAL; call <= QUOTIENT; call++) measure(call);
    for (size_t i = 0; i < LIST; i++) from[i] = i % size;
    measure_lists(LIST);
    measure_lists(7);
    from[LIST - 1] = f;
    measure_lists(LIST);
    for (size_t i = 0; i < LIST; i++) from[i] = UINT64_MAX - i;
    measure_lists(LIST);
    measure_lists(7);
    measure_lists(LIST + 1);
    a = f;
    for (int call = TO_POLYNOMIAL; call <= QUOTIENT; call++) measure(call);
    a = UINT64_MAX;
    measure(TO_NORMAL);
    a = b = 0;
    for (int call = INVERSE; call <= QUOTIENT; call++) measure(call);
    sheet[length - 8] ^= 1;
    measure_bad_sheet();
    sheet[length - 1] ^= 1;
    measure_bad_sheet();
    sheet[length - 31] ^= 1;
    measure_bad_sheet();
    length--;
    for (int call = READ; call <= WRITE_MATRICES; call++) measure(call);
}

/* The polynomial of the degree, from f on, that is accepted first. */
static void next_accepted(void) {
    while (desk_check(f).number != 0) f++;
}

/* Some normal element. Neighbours often fail alike, so it takes elements from all over the field. */
static uint64_t normal_element(int degree) {
    uint64_t drawn = 1, element = 1;
    while (desk_build(f, element, sheet, SHEET).number != 0) {
        drawn = drawn * 6364136223846793005u + 1442695040888963407u;
        element = drawn >> (64 - degree);
    }
    return element;
}

/* The polynomial of the degree that is accepted first; x for degree 1. */
static uint64_t first_accepted(int degree) {
    f = (uint64_t)1 << degree;
    if (degree > 1) next_accepted();
    return f;
}

static uint64_t product(uint64_t left, uint64_t right) {
    uint64_t sum = 0;
    for (int i = 0; i <= LIMIT; i++) {
        if (right >> i & 1) sum ^= left << i;
    }
    return sum;
}

/* Polynomials that others divide: products of two that are accepted, squares among them; the first and the last even number. */
static void measure_divided(int degree) {
    for (int part = 1; part <= degree / 2; part++) {
        f = product(first_accepted(part), first_accepted(degree - part));
        measure_heads(degree);
    }
    f = (uint64_t)1 << degree;
    measure_heads(degree);
    f = ((uint64_t)2 << degree) - 2;
    measure_heads(degree);
}

static void measure_field(int degree) {
    measure_numbers(degree);
    measure_heads(degree);
    a = 0;
    length = SHEET;
    measure(BUILD);
    measure(READ_MATRICES);
    measure_sheet(degree, normal_element(degree));
    a = normal_element(degree);
    length = 32 * (size_t)degree - 1;
    measure(BUILD);
}

static void measure_words(void) {
    static const char *const words[] = {"", "19", "0x13", "4:1:0", "63:62:1:0", "1:1", "18446744073709551615", "18446744073709551616", "0xg"};
    for (size_t i = 0; i < sizeof words / sizeof *words; i++) {
        word = words[i];
        measure(NUMBER_OF);
        measure(POLYNOMIAL_OF);
    }
}

/* Prints what was measured. Returns how many calls are not as the header says. */
static int report(void) {
    int wrong = 0;
    for (int call = CHECK; call < CALLS; call++) {
        size_t told = call == SEARCH ? SABRENTUGLIO_STACK : SABRENTUGLIO_STACK_BUT_SEARCH;
        printf("%-24s %6zu bytes of stack\n", calls[call].name, calls[call].most);
        if (calls[call].most > told) {
            printf("%s takes more stack than the header says, %zu bytes\n", calls[call].name, told);
            wrong++;
        }
        if (calls[call].done == 0 || calls[call].refused == 0) {
            printf("%s was done %u times and refused %u times\n", calls[call].name, calls[call].done, calls[call].refused);
            wrong++;
        }
    }
    return wrong;
}

int main(void) {
    for (int degree = 2; degree <= LIMIT; degree++) {
        measure_divided(degree);
        f = (uint64_t)1 << degree;
        measure_numbers(degree);
        next_accepted();
        measure_field(degree);
        f = (uint64_t)3 << (degree - 1);
        next_accepted();
        measure_field(degree);
    }
    /* A degree out of range: all that multiply and square refuse. */
    f = (uint64_t)2 << LIMIT;
    measure_numbers(LIMIT);
    measure_words();
    return report() == 0 ? 0 : 1;
}
