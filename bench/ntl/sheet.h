// What one who holds normal coordinates needs to work in NTL's field: the rows of a sheet that convert, as machine words.
//
// A conversion adds the rows that the bits pick. The rows stand ready; the desk finds them in the sheet's bytes at each call.
#ifndef BENCH_NTL_SHEET_H
#define BENCH_NTL_SHEET_H

#include "basis.h"
#include "conjugates.h"
#include "words.h"
#include <NTL/GF2E.h>
#include <vector>

namespace bench {

class Sheet {
  public:
    // The sheet of a normal element. The rows of the inverse matrix are the inverse rows.
    explicit Sheet(word normal) {
        const long n = NTL::GF2E::degree();
        Basis basis(n);
        for (const NTL::GF2E &conjugate : conjugates_of(normal)) conjugates.push_back(word_of(conjugate));
        for (long i = 0; i < n; i++) row(basis.conjugates, i) = conjugates[i];
        basis.invert();
        for (long i = 0; i < n; i++) inverses.push_back(row(basis.conjugates, i));
    }
    void to_polynomial(NTL::GF2E &element, word coordinates) const { set(element, sum(conjugates, coordinates)); }
    word to_normal(const NTL::GF2E &element) const { return sum(inverses, word_of(element)); }

  private:
    static word sum(const std::vector<word> &rows, word bits) {
        word sum = 0;
        for (; bits != 0; bits &= bits - 1) sum ^= rows[__builtin_ctzll(bits)];
        return sum;
    }
    std::vector<word> conjugates;
    std::vector<word> inverses;
};

} // namespace bench

#endif
