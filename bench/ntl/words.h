// Polynomials of degree at most 63 and elements of their fields as machine words, bit i the coefficient of x^i, and back.
//
// Source document 001 (section 5.2) reads and writes NTL's words through pointers; so do these.
#ifndef BENCH_NTL_WORDS_H
#define BENCH_NTL_WORDS_H

#include <NTL/GF2E.h>
#include <NTL/mat_GF2.h>
#include <cstdint>

namespace bench {

using word = std::uint64_t;

inline word word_of(const NTL::GF2X &polynomial) {
    return polynomial.xrep.length() == 0 ? 0 : polynomial.xrep.elts()[0];
}

inline word word_of(const NTL::GF2E &element) { return word_of(NTL::rep(element)); }

inline void set(NTL::GF2X &polynomial, word value) {
    polynomial.xrep.SetLength(value != 0);
    if (value != 0) polynomial.xrep.elts()[0] = value;
}

inline void set(NTL::GF2E &element, word value) { set(element.LoopHole(), value); }

inline word &row(NTL::mat_GF2 &matrix, long i) { return matrix[i].rep.elts()[0]; }

} // namespace bench

#endif
