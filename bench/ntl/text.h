// All n matrices T_k as text (document 02, §4), as one who works in NTL's field gets them from a normal element: the coordinates of c_i c_j
// are the product in GF2E, times the inverse of the matrix of conjugates, and bit k of them is a digit of T_k.
//
// For each i the n products are the rows of one matrix, and one product of matrices converts them all.
#ifndef BENCH_NTL_TEXT_H
#define BENCH_NTL_TEXT_H

#include "basis.h"
#include "conjugates.h"
#include "words.h"
#include <NTL/GF2E.h>
#include <NTL/mat_GF2.h>
#include <cstring>
#include <string>
#include <vector>

namespace bench {

class Text {
  public:
    explicit Text(long degree) : n(degree), size(n * (n + 1) + 1), text(n * size, '\n'), basis(n), rows(n) { products.SetDims(n, n); }

    // Writes the text of an element, if it is normal. The complexity, or 0 if it is not.
    word write(word normal) {
        const std::vector<NTL::GF2E> conjugates = conjugates_of(normal);
        for (long i = 0; i < n; i++) row(basis.conjugates, i) = word_of(conjugates[i]);
        if (!basis.invert()) return 0;
        for (long i = 0; i < n; i++) {
            multiply(conjugates, i);
            put_lines(i);
        }
        return ones();
    }

    // What was written last.
    const std::string &bytes() const { return text; }

    // Its last eight bytes.
    word last() const {
        word last;
        std::memcpy(&last, text.data() + text.size() - sizeof last, sizeof last);
        return last;
    }

  private:
    // The coordinates of c_i times each conjugate.
    void multiply(const std::vector<NTL::GF2E> &conjugates, long i) {
        for (long j = 0; j < n; j++) {
            mul(product, conjugates[i], conjugates[j]);
            row(products, j) = word_of(product);
        }
        mul(products, products, basis.conjugates);
        for (long j = 0; j < n; j++) rows[j] = row(products, j);
    }

    // Line i of every matrix; the bytes that end lines stand there from the start.
    void put_lines(long i) {
        for (long k = 0; k < n; k++) {
            char *line = &text[k * size + i * (n + 1)];
            for (long j = 0; j < n; j++) line[j] = '0' + (rows[j] >> k & 1);
        }
    }

    // The complexity: every i has as many ones as 0, since squaring rotates coordinates.
    word ones() const {
        word ones = 0;
        for (word row : rows) ones += __builtin_popcountll(row);
        return ones;
    }

    const long n;
    // The bytes of one matrix and its empty line.
    const long size;
    std::string text;
    Basis basis;
    // The coordinates of the products that stand in `products`.
    std::vector<word> rows;
    NTL::mat_GF2 products;
    NTL::GF2E product;
};

} // namespace bench

#endif
