/* The functions of linear algebra on secrets: at the sizes of all three sets, which calls of the interface
 * reach, and at every length up to LONGEST, so that no loop and no straight way is left out.
 * Rows are public, and `row_is_zero` leaves at the first trit that is not 0: there what stands behind it is marked. */
#include "inputs.h"
#include "linear.h"
#include "secrets.h"

#include <stdio.h>
#include <string.h>

enum { WORD = 8, LONGEST = 140, FEW_ROWS = 9 };

static uint8_t first[LONGEST + 1], second[LONGEST + 1], out[LONGEST + 1], rows[PAIR_MAX_DIGITS * LONGEST];

static const char *at_length(const char *name, size_t n)
{
    static char text[64];
    snprintf(text, sizeof text, "%s, %zu bytes", name, n);
    return text;
}

/* Both inputs and what the output held, filled anew; the inputs are secret. */
static void fill_all(void)
{
    fill(first, sizeof first);
    fill(second, sizeof second);
    fill(out, sizeof out);
    hide(first, sizeof first);
    hide(second, sizeof second);
}

/* After a call without a number: no report, and what it has written is secret. */
static void expect_written(const char *name, size_t n, size_t written)
{
    expect(at_length(name, n), 0, 0, 0);
    expect_secret(at_length(name, n), out, written);
}

static void try_two_inputs(const char *name, two_inputs *function, size_t a_n, size_t b_n, size_t n, size_t written)
{
    fill_all();
    function(first, a_n, second, b_n, out, n);
    expect_written(name, n, written);
}

static void share_0(const uint8_t *w, size_t w_n, const uint8_t *r, size_t r_n, uint8_t *to, size_t to_n)
{
    inner_share(0, w, w_n, r, r_n, to, to_n);
}

static void share_1(const uint8_t *w, size_t w_n, const uint8_t *r, size_t r_n, uint8_t *to, size_t to_n)
{
    inner_share(1, w, w_n, r, r_n, to, to_n);
}

static void in_place(const uint8_t *a, size_t a_n, const uint8_t *b, size_t b_n, uint8_t *to, size_t to_n)
{
    memcpy(to, b, b_n < to_n ? b_n : to_n);
    add_bits_to(a, a_n, to, to_n);
}

/* Of inputs of `n` bytes, or `n / 2` of bits. Where the output has another length, trits take one of their bits
 * of bytes that are not there and count as 0, so that not every byte of them is secret. */
static void try_sums(size_t n, size_t to_n)
{
    size_t least = n < to_n ? n : to_n, planes = n == to_n ? 2 * (n / 2) : 0;
    try_two_inputs("add_bits", add_bits, n, n, to_n, least);
    try_two_inputs("add_bits_to", in_place, n, n, to_n, least);
    try_two_inputs("add_trits", add_trits, n, n, to_n, planes);
    try_two_inputs("subtract_trits", subtract_trits, n / 2, n, to_n, planes);
    try_two_inputs("inner_share of side 0", share_0, n / 2, n, to_n, planes);
    try_two_inputs("inner_share of side 1", share_1, n / 2, n, to_n, planes);
    try_two_inputs("circulant_product", circulant_product, n, n, to_n, n > 0 ? to_n : 0);
}

/* Both answers of a test of `t` trits. They are told: no jump may come before. */
static void try_truths(size_t n, size_t t)
{
    size_t plane = n / 2;
    fill(first, n);
    if (plane > 0)
        make_fit(first, 2 * plane, plane);
    hide(first, n);
    expect(at_length("trits_fit", n), trits_fit(first, n, t), true, 0);
    memset(first, 0, sizeof first);
    hide(first, n);
    expect(at_length("spare_bits_clear", n), spare_bits_clear(first, n, t), true, 0);
    memset(first, 0xff, sizeof first);
    hide(first, n);
    expect(at_length("trits_fit, unfit", n), trits_fit(first, n, t), t == 0 || plane == 0, 0);
    expect(at_length("spare_bits_clear, set", n), spare_bits_clear(first, n, t), t >= 8 * plane, 0);
}

/* The bytes after a plane's last whole word go through the table of digit products: a look for each of their
 * digits, in each row, and memcheck takes for public what was found there. Vectors of the sets have no such
 * bytes, and their rows may be secret too. */
static void try_rows(size_t n, size_t t, bool secret_rows)
{
    size_t plane = n / 2, rows_n = t * 2 * plane, code_n = 2 * ((t + 7) / 8);
    fill_all();
    fill(rows, rows_n);
    if (secret_rows)
        hide(rows, rows_n);
    matrix_product(rows, rows_n, second, n, t, out, code_n);
    expect(at_length("matrix_product", n), 0, 0, (unsigned)(t * 8 * (plane % WORD)));
    if (plane >= WORD)
        expect_secret(at_length("matrix_product", n), out, code_n / 2);
    show(rows, rows_n);
}

typedef bool row_test(const uint8_t *row, size_t n);

/* A row whose first trit other than 0 is at `place`: what stands behind that trit is not looked at, and the bytes
 * behind its own are not read. */
static void try_row(const char *name, row_test *test, size_t n, size_t place)
{
    size_t plane = n / 2, byte = place / 8;
    unsigned bit = 1U << place % 8, behind = ~(2 * bit - 1), trit = 1 + (unsigned)place % 3;
    fill(first, n);
    forbid(first + 2 * plane, n % 2);
    for (size_t i = 0; i < 2; i++) {
        uint8_t *bits = first + i * plane;
        memset(bits, 0, byte);
        bits[byte] = (uint8_t)((bits[byte] & behind) | (trit >> i & 1) * bit);
        hide_bits(&bits[byte], (uint8_t)behind);
        forbid(bits + byte + 1, plane - byte - 1);
    }
    expect(at_length(name, n), test(first, n), false, 0);
    show(first, n);
}

static void try_row_tests(size_t n)
{
    for (size_t place = 0; place < 8 * (n / 2); place++)
        try_row("row_is_zero", row_is_zero, n, place);
}

static void try_set(uint32_t set)
{
    size_t key = PAIR_KEY_BYTES_OF(set), row = PAIR_ROW_BYTES_OF(set), code = PAIR_CODE_BYTES_OF(set);
    size_t digits = PAIR_DIGITS_OF(set);
    try_sums(key, key);
    try_sums(row, row);
    try_sums(code, code);
    try_truths(row, PAIR_BITS_OF(set));
    try_truths(code, digits);
    try_rows(row, digits, false);
    try_rows(row, digits, true);
    try_row_tests(row);
}

void try_sizes(void)
{
    for (uint32_t set = 1; set <= PAIR_SETS; set++)
        try_set(set);
    for (size_t n = 0; n <= LONGEST; n++) {
        try_sums(n, n);
        if (n > 0) {
            try_sums(n - 1, n);
            try_sums(n, n - 1);
        }
        size_t places = 8 * (n / 2);
        for (size_t less = 0; less <= 9; less += 3)
            try_truths(n, places > less ? places - less : 0);
        try_rows(n, FEW_ROWS, n % (2 * WORD) == 0);
        try_row_tests(n);
    }
}

/* ---- what memcheck must refuse */

/* What a compiler may make of a mask with one use, `-(key bit) & label`: a jump on the key's bit. */
static void branching_product(const uint8_t *key, size_t key_n, const uint8_t *label, size_t label_n, uint8_t *to,
                              size_t to_n)
{
    size_t places = 8 * to_n;
    (void)key_n, (void)label_n;
    memset(to, 0, to_n);
    for (size_t a = 0; a < places; a++)
        if (key[a / 8] >> a % 8 & 1)
            for (size_t i = 0; i < places; i++) {
                size_t j = (i + a) % places;
                to[i / 8] ^= (uint8_t)((label[j / 8] >> j % 8 & 1) << i % 8);
            }
}

void leak_by_mask(void)
{
    enum { BYTES = 64 };
    uint8_t right[BYTES];
    fill(first, BYTES);
    fill(second, BYTES);
    circulant_product(first, BYTES, second, BYTES, right, BYTES);
    branching_product(first, BYTES, second, BYTES, out, BYTES);
    if (memcmp(out, right, BYTES) != 0)
        fail("leak_by_mask", "this is not the product", BYTES);
    try_two_inputs("branching_product", branching_product, BYTES, BYTES, BYTES, BYTES);
}

/* The right answer with no jump on the row, but all of it is read. */
static bool read_to_its_end(const uint8_t *row, size_t n)
{
    uint8_t any = 0;
    for (size_t i = 0; i < 2 * (n / 2); i++)
        any |= row[i];
    return any == 0;
}

void leak_by_row(void)
{
    try_row("read_to_its_end", read_to_its_end, 64, 100);
}
