// The conjugates of the element that a search stands at, moved to the next element of a Gray code by adding the conjugates of one
// power of x (source document 001, section 3.1). In two ways:
//
//   ByElements   as elements of NTL's field, added by NTL
//   ByWords      as machine words behind NTL's back, the quicker way where most elements are no leaders
#ifndef BENCH_NTL_CONJUGATES_H
#define BENCH_NTL_CONJUGATES_H

#include "words.h"
#include <NTL/GF2E.h>
#include <vector>

namespace bench {

// The conjugates of an element, n of them.
inline std::vector<NTL::GF2E> conjugates_of(word value) {
    std::vector<NTL::GF2E> conjugates(NTL::GF2E::degree());
    set(conjugates[0], value);
    for (std::size_t j = 1; j < conjugates.size(); j++) sqr(conjugates[j], conjugates[j - 1]);
    return conjugates;
}

class ByElements {
  public:
    explicit ByElements(bench::word first) : at(conjugates_of(first)) {
        for (long i = 0; i < NTL::GF2E::degree(); i++) powers.push_back(conjugates_of(bench::word(1) << i));
    }
    void add_power(long i) {
        for (std::size_t j = 0; j < at.size(); j++) add(at[j], at[j], powers[i][j]);
    }
    bench::word word(long j) const { return word_of(at[j]); }
    const NTL::GF2E &element() const { return at[0]; }
    const NTL::GF2E &conjugate(long j) const { return at[j]; }

  private:
    std::vector<NTL::GF2E> at;
    std::vector<std::vector<NTL::GF2E>> powers;
};

class ByWords {
  public:
    explicit ByWords(bench::word first) : at(words_of(first)) {
        for (long i = 0; i < NTL::GF2E::degree(); i++) powers.push_back(words_of(bench::word(1) << i));
    }
    void add_power(long i) {
        bench::word *to = at.data();
        const bench::word *power = powers[i].data();
        for (std::size_t j = 0, n = at.size(); j < n; j++) to[j] ^= power[j];
    }
    bench::word word(long j) const { return at[j]; }
    const NTL::GF2E &element() {
        set(zeroth, at[0]);
        return zeroth;
    }
    const NTL::GF2E &conjugate(long j) {
        set(other, at[j]);
        return other;
    }

  private:
    static std::vector<bench::word> words_of(bench::word value) {
        std::vector<bench::word> words;
        for (const NTL::GF2E &conjugate : conjugates_of(value)) words.push_back(word_of(conjugate));
        return words;
    }
    std::vector<bench::word> at;
    std::vector<std::vector<bench::word>> powers;
    NTL::GF2E zeroth;
    NTL::GF2E other;
};

} // namespace bench

#endif
