// The smallest divisor of a polynomial (document 02, §5), as one who has NTL gets it: CanZass finds all irreducible factors, and the
// smallest of them as a number is the smallest divisor.
#ifndef BENCH_NTL_DIVISORS_H
#define BENCH_NTL_DIVISORS_H

#include "words.h"
#include <NTL/GF2XFactoring.h>
#include <algorithm>

namespace bench {

inline word smallest_divisor(const NTL::GF2X &f) {
    NTL::vec_pair_GF2X_long factors;
    CanZass(factors, f);
    word smallest = word_of(f);
    for (const NTL::pair_GF2X_long &factor : factors) smallest = std::min(smallest, word_of(factor.a));
    return smallest;
}

} // namespace bench

#endif
