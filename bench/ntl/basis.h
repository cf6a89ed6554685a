// Source document 001's algorithm 3: whether the conjugates of an element are a basis, and its complexity.
//
// As section 5.2 there has it: the two matrices are made once; their rows are written through pointers; one call inverts and says
// whether there is an inverse; inverse and product go where the matrices were; the first product is the first conjugate; ones are
// counted a word at a time.
#ifndef BENCH_NTL_BASIS_H
#define BENCH_NTL_BASIS_H

#include "words.h"
#include <NTL/GF2E.h>
#include <NTL/mat_GF2.h>

namespace bench {

class Basis {
  public:
    explicit Basis(long degree) : n(degree) {
        conjugates.SetDims(n, n);
        products.SetDims(n, n);
    }

    // The complexity, or 0 where the element is not normal. `Conjugates` has them as words and as elements.
    template <class Conjugates> word complexity(Conjugates &of) {
        for (long i = 0; i < n; i++) row(conjugates, i) = of.word(i);
        if (!invert()) return 0;
        row(products, 0) = of.word(1);
        const NTL::GF2E &element = of.element();
        for (long i = 1; i < n; i++) {
            mul(product, element, of.conjugate(i));
            row(products, i) = word_of(product);
        }
        mul(products, products, conjugates);
        word ones = 0;
        for (long i = 0; i < n; i++) ones += __builtin_popcountll(row(products, i));
        return ones;
    }

    // Inverts the matrix of conjugates where it stands, if it can be inverted.
    bool invert() {
        NTL::GF2 determinant;
        inv(determinant, conjugates, conjugates);
        return !IsZero(determinant);
    }

    NTL::mat_GF2 conjugates;

  private:
    long n;
    NTL::mat_GF2 products;
    NTL::GF2E product;
};

} // namespace bench

#endif
