// Times NTL at what the desk does, and searches by source document 001's algorithms 2 and 3; one core. Its lines are those of
// desk.rs, whose answers they have to match:
//
//   ntl calls            GF2E multiply and square, IterIrredTest, mat_GF2 inversion, and algorithm 3 with the test of f, which is
//                        what the desk's build has to do; GF2E trace with that test; the same on polynomials of 64 bits, which rem
//                        reduces; GF2E inv and div on normal coordinates, which are converted and back; the text of all matrices
//                        from GF2E products of all conjugates; the smallest divisor by CanZass
//   ntl search SECONDS   the four searches, each of the two ways in ntl/conjugates.h with about so many seconds
//
// In ntl/: rounds.h takes times, words.h turns NTL's numbers into words and back, basis.h is algorithm 3, conjugates.h and search.h
// are algorithm 2, sheet.h converts, text.h writes texts, divisors.h has the smallest divisor.
#include "ntl/basis.h"
#include "ntl/conjugates.h"
#include "ntl/divisors.h"
#include "ntl/rounds.h"
#include "ntl/search.h"
#include "ntl/sheet.h"
#include "ntl/text.h"
#include "ntl/words.h"
#include <NTL/GF2E.h>
#include <NTL/GF2XFactoring.h>
#include <NTL/version.h>
#include <algorithm>
#include <cstdlib>
#include <cstring>
#include <string>
#include <vector>

using namespace bench;
using NTL::GF2E;
using NTL::GF2X;

static const word one = 1;
static const word irreducible = (one << 46) + 3;
// Those of degree 46 and lower at which desk/inputs.rs draws its numbers.
static const std::vector<word> by_degree = {
    irreducible,      (one << 4) + 3,   (one << 8) + 27,  (one << 16) + 43,
    (one << 20) + 9,  (one << 24) + 27, (one << 32) + 141,
};

static GF2X polynomial(word value) {
    GF2X f;
    set(f, value);
    return f;
}

// The conjugates of one element, outside a search.
struct Single {
    std::vector<GF2E> at;
    bench::word word(long j) const { return word_of(at[j]); }
    const GF2E &element() const { return at[0]; }
    const GF2E &conjugate(long j) const { return at[j]; }
};

// splitmix64 and desk/inputs.rs: the same numbers, drawn in the same order.
struct Random {
    word state;
    word number() {
        state += 0x9e3779b97f4a7c15;
        word z = state;
        z = (z ^ z >> 30) * 0xbf58476d1ce4e5b9;
        z = (z ^ z >> 27) * 0x94d049bb133111eb;
        return z ^ z >> 31;
    }
    word element(long n) { return number() & ((one << n) - 1); }
};

// The field is the one NTL was told of last.
struct Inputs {
    std::vector<word> a, b, divisors, normal;
    Inputs() {
        const long n = GF2E::degree();
        Random random{word(n)};
        for (auto *operands : {&a, &b})
            while (operands->size() < 1024) operands->push_back(random.element(n));
        for (word operand : b) divisors.push_back(std::max(operand, one));
        Basis basis(n);
        while (normal.size() < 16) {
            const word element = random.element(n) | one << (n - 1);
            Single conjugates{conjugates_of(element)};
            if (basis.complexity(conjugates) != 0) normal.push_back(element);
        }
    }
};

static std::vector<GF2E> elements(const std::vector<word> &values) {
    std::vector<GF2E> elements(values.size());
    for (std::size_t i = 0; i < values.size(); i++) set(elements[i], values[i]);
    return elements;
}

static void run_calls() {
    const GF2X f = polynomial(irreducible);
    // x^23 + x^5 + 1 times x^23 + x^9 + 1.
    const GF2X product = polynomial(one << 23 | 1 << 5 | 1) * polynomial(one << 23 | 1 << 9 | 1);
    GF2E::init(f);
    const Inputs inputs;
    const std::vector<GF2E> a = elements(inputs.a), b = elements(inputs.b);
    GF2E answer;
    measure("multiply", 1024, [&](word i) {
        mul(answer, a[i % 1024], b[i % 1024]);
        return word_of(answer);
    });
    measure("square", 1024, [&](word i) {
        sqr(answer, a[i % 1024]);
        return word_of(answer);
    });
    // NTL keeps the traces of the powers of x from the first call on.
    measure("trace", 1024, [&](word i) -> word {
        if (!IterIrredTest(f)) return 0;
        return !IsZero(trace(a[i % 1024]));
    });
    // 0 is accepted, 2 the desk's refusal.
    measure("check-irreducible", 1, [&](word) { return IterIrredTest(f) ? 0 : 2; });
    measure("check-product", 1, [&](word) { return IterIrredTest(product) ? 0 : 2; });
    Basis basis(46);
    measure("build", 16, [&](word i) -> word {
        if (!IterIrredTest(f)) return 0;
        Single conjugates{conjugates_of(inputs.normal[i % 16])};
        return basis.complexity(conjugates);
    });
    // An inverse has an inverse, so one matrix will do.
    const std::vector<GF2E> conjugates = conjugates_of(inputs.normal[0]);
    for (long i = 0; i < 46; i++) row(basis.conjugates, i) = word_of(conjugates[i]);
    measure("invert", 2, [&](word) { return basis.invert() ? row(basis.conjugates, 0) : 0; });
}

// Elements that arrive as the words of desk/words.rs: they stand ready as polynomials, and `conv` reduces them by rem.
static void run_words() {
    const GF2X f = polynomial(irreducible);
    GF2E::init(f);
    Random random{64};
    std::vector<GF2X> words(2048);
    for (GF2X &arrived : words) set(arrived, random.number());
    GF2E a, b, answer;
    measure("multiply-words", 1024, [&](word i) {
        conv(a, words[i % 1024]);
        conv(b, words[1024 + i % 1024]);
        mul(answer, a, b);
        return word_of(answer);
    });
    measure("square-words", 1024, [&](word i) {
        conv(a, words[i % 1024]);
        sqr(answer, a);
        return word_of(answer);
    });
    measure("trace-words", 1024, [&](word i) -> word {
        if (!IterIrredTest(f)) return 0;
        conv(a, words[i % 1024]);
        return !IsZero(trace(a));
    });
}

// An irreducible polynomial of this degree, drawn as desk/causes.rs draws it.
static GF2X drawn(long degree, Random &random) {
    GF2X f;
    do set(f, random.element(degree) | one << degree);
    while (!IterIrredTest(f));
    return f;
}

// The smallest divisors of the polynomials of desk/causes.rs, in the same order.
static void run_causes() {
    Random random{2};
    std::vector<GF2X> two(64), three(64), squares(64);
    for (GF2X &f : two) f = drawn(23, random) * drawn(23, random);
    for (GF2X &f : three) f = drawn(15, random) * drawn(15, random) * drawn(15, random);
    for (GF2X &f : squares) f = sqr(drawn(23, random));
    const std::vector<GF2X> powers = {polynomial(one << 46), polynomial((one << 46) + 1)};
    const std::vector<GF2X> slowest = {polynomial(10489921) * polynomial(11014547)};
    const auto ask = [](const char *name, const std::vector<GF2X> &of) {
        measure(name, of.size(), [&](word i) { return smallest_divisor(of[i % of.size()]); });
    };
    ask("why-two", two);
    ask("why-three", three);
    ask("why-square", squares);
    ask("why-power", powers);
    ask("why-slowest", slowest);
}

// Division of normal coordinates: they become elements, and NTL's answer normal coordinates again.
static void run_divisions(word f) {
    GF2E::init(polynomial(f));
    const Inputs inputs;
    const std::vector<Sheet> sheets(inputs.normal.begin(), inputs.normal.end());
    const std::string degree = std::to_string(GF2E::degree());
    GF2E dividend, divisor, answer;
    measure(("inverse-" + degree).c_str(), 1024, [&](word i) {
        const Sheet &sheet = sheets[i % 16];
        sheet.to_polynomial(divisor, inputs.divisors[i % 1024]);
        inv(answer, divisor);
        return sheet.to_normal(answer);
    });
    measure(("quotient-" + degree).c_str(), 1024, [&](word i) {
        const Sheet &sheet = sheets[i % 16];
        sheet.to_polynomial(dividend, inputs.a[i % 1024]);
        sheet.to_polynomial(divisor, inputs.divisors[i % 1024]);
        div(answer, dividend, divisor);
        return sheet.to_normal(answer);
    });
}

// One number for the bytes of all texts, as desk/texts.rs has it.
static word digest(const std::vector<std::string> &texts) {
    word sum = 0xcbf29ce484222325;
    for (const std::string &text : texts)
        for (unsigned char byte : text) sum = (sum ^ byte) * 0x100000001b3;
    return sum;
}

// The text of all matrices of a normal element. One that is read is compared with the right one, after the test of f.
static void run_texts(word f) {
    const GF2X modulus = polynomial(f);
    GF2E::init(modulus);
    const Inputs inputs;
    const std::string degree = std::to_string(GF2E::degree());
    Text text(GF2E::degree());
    std::vector<std::string> texts;
    for (word normal : inputs.normal) {
        text.write(normal);
        texts.push_back(text.bytes());
    }
    std::printf("answer texts-%s ntl %llu\n", degree.c_str(), (unsigned long long)digest(texts));
    measure(("write_matrices-" + degree).c_str(), 16, [&](word i) {
        text.write(inputs.normal[i % 16]);
        return text.last();
    });
    measure(("read_matrices-" + degree).c_str(), 16, [&](word i) -> word {
        if (!IterIrredTest(modulus)) return 0;
        const word complexity = text.write(inputs.normal[i % 16]);
        return text.bytes() == texts[i % 16] ? complexity : 0;
    });
}

struct Search {
    const char *name;
    word f;
    word first;
    std::vector<long> steps;
};

// desk/searches.rs says why the ranges at degree 46 are taken in steps.
static const std::vector<Search> searches = {
    {"search-16", (one << 16) + 43, 0, {16}},
    {"search-20", (one << 20) + 9, 0, {20}},
    {"search-46-from-0", (one << 46) + (one << 45) + 1, 0, {10, 12, 14, 16, 18, 20}},
    {"search-46-from-2^45", irreducible, one << 45, {10, 12, 14, 16, 18, 20}},
};

static void run_search(const Search &search, const char *program, Found (*found_in)(word, long), double seconds) {
    GF2E::init(polynomial(search.f));
    std::vector<double> times;
    long done = 0;
    for (long k : search.steps) {
        if (!times.empty() && times[0] * 4 > seconds) break;
        double start = now();
        const Found found = found_in(search.first, k);
        times.assign(1, now() - start);
        done = k;
        std::printf("answer %s/2^%ld %s %llu %llu %llu\n", search.name, k, program, (unsigned long long)found.element,
                    (unsigned long long)found.complexity, (unsigned long long)found.count);
    }
    if (times[0] * 3 <= seconds) {
        for (int round = 1; round < 3; round++) {
            double start = now();
            used = found_in(search.first, done).count;
            times.push_back(now() - start);
        }
    }
    std::printf("search %s %s %ld %.3f\n", search.name, program, done, median(times) * 1e9 / double(one << done));
}

int main(int count, char **words) {
    if (count == 2 && !std::strcmp(words[1], "calls")) {
        std::printf("version ntl %s\n", NTL_VERSION);
        run_calls();
        run_words();
        run_causes();
        for (word f : by_degree) {
            run_divisions(f);
            run_texts(f);
        }
    } else if (count == 3 && !std::strcmp(words[1], "search")) {
        for (const Search &search : searches) {
            run_search(search, "ntl", bench::search<ByElements>, std::atof(words[2]));
            run_search(search, "ntl-words", bench::search<ByWords>, std::atof(words[2]));
        }
    } else {
        std::fprintf(stderr, "ntl calls | ntl search SECONDS\n");
        return 2;
    }
    return 0;
}
