// Source document 001's algorithm 2 over the 2^k elements from `first`, a multiple of 2^k: in the order of a Gray code, past
// elements of trace 0, past those that are not the smallest of their conjugates, to algorithm 3.
//
// The paper's search names any element of least complexity; this one names the smallest and counts, as the desk's does.
#ifndef BENCH_NTL_SEARCH_H
#define BENCH_NTL_SEARCH_H

#include "basis.h"
#include "words.h"
#include <NTL/GF2E.h>

namespace bench {

struct Found {
    word element = 0;
    word complexity = 0;
    word count = 0;
};

// Bit i is the trace of x^i.
inline word traces_of_powers() {
    word traces = 0;
    NTL::GF2E power;
    for (long i = 0; i < NTL::GF2E::degree(); i++) {
        set(power, word(1) << i);
        traces |= word(!IsZero(trace(power))) << i;
    }
    return traces;
}

// Whether conjugate 0 is the smallest; the test stops at the first that is smaller.
template <class Conjugates> bool is_leader(const Conjugates &of, long n) {
    word element = of.word(0);
    for (long j = 1; j < n; j++)
        if (of.word(j) < element) return false;
    return true;
}

// The field is the one NTL was told of last.
template <class Conjugates> Found search(word first, long k) {
    const long n = NTL::GF2E::degree();
    const word traces = traces_of_powers();
    Conjugates at(first);
    Basis basis(n);
    Found found;
    word trace = __builtin_parityll(first & traces);
    for (word index = 0; index < word(1) << k; index++) {
        if (index > 0) {
            const int power = __builtin_ctzll(index);
            at.add_power(power);
            trace ^= traces >> power & 1;
        }
        if (trace == 0 || !is_leader(at, n)) continue;
        const word complexity = basis.complexity(at);
        if (complexity == 0) continue;
        found.count++;
        const word element = at.word(0);
        const bool fewer = found.count == 1 || complexity < found.complexity;
        if (fewer || (complexity == found.complexity && element < found.element)) {
            found.element = element;
            found.complexity = complexity;
        }
    }
    return found;
}

} // namespace bench

#endif
