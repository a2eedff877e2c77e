/* The library of linear algebra, target/staticlib/liblinear.a, for strings and vectors of any length: a byte
 * past the end of an input counts as 0, sizes are those of the output. No part of the interface. */
#ifndef TEST_LINEAR_H
#define TEST_LINEAR_H

#include <stdbool.h>
#include <stddef.h>
#include <stdint.h>

/* A function of two inputs and an output. */
typedef void two_inputs(const uint8_t *a, size_t a_n, const uint8_t *b, size_t b_n, uint8_t *out, size_t out_n);

two_inputs add_bits, circulant_product, add_trits, subtract_trits;
void add_bits_to(const uint8_t *a, size_t a_n, uint8_t *out, size_t out_n);
void inner_share(uint8_t side, const uint8_t *w, size_t w_n, const uint8_t *r, size_t r_n, uint8_t *out,
                 size_t out_n);
void matrix_product(const uint8_t *rows, size_t rows_n, const uint8_t *v, size_t v_n, size_t t, uint8_t *out,
                    size_t out_n);
bool trits_fit(const uint8_t *v, size_t v_n, size_t t);
bool spare_bits_clear(const uint8_t *v, size_t v_n, size_t t);
bool row_is_zero(const uint8_t *row, size_t row_n);

#endif
