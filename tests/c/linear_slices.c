/* Every function of linear algebra between guards, under AddressSanitizer and UndefinedBehaviorSanitizer: outputs
 * of all lengths up to LONGEST, with inputs that fit them, that are a byte or a word shorter or longer, and empty
 * ones. What works by words must not touch a byte past a slice's end. What the written bytes should be is for the
 * Rust tests; here they must not depend on where the slices lie. */
#include "lent.h"
#include "linear.h"

enum { SLICES = 3, LONGEST = 140, LONGER = LONGEST + 8, ROWS = 9, CODE = 4 };

/* Two inputs and an output, and what is answered, if anything. */
typedef bool run(const struct lent *s);

struct call {
    const char *name;
    run *run;
    /* the lengths that fit size n */
    void (*fit)(size_t n, size_t *lengths);
};

/* ---- lengths */

static void fit_bits(size_t n, size_t *lengths)
{
    lengths[0] = lengths[1] = lengths[2] = n;
}

static void fit_bits_and_trits(size_t n, size_t *lengths)
{
    lengths[0] = n / 2;
    lengths[1] = lengths[2] = n;
}

static void fit_rows(size_t n, size_t *lengths)
{
    lengths[0] = ROWS * 2 * (n / 2);
    lengths[1] = n;
    lengths[2] = CODE;
}

static void fit_test(size_t n, size_t *lengths)
{
    lengths[0] = n;
    lengths[1] = lengths[2] = 0;
}

/* ---- calls */

static bool run_add_bits(const struct lent *s)
{
    add_bits(s[0].p, s[0].n, s[1].p, s[1].n, s[2].p, s[2].n);
    return true;
}

static bool run_add_bits_to(const struct lent *s)
{
    add_bits_to(s[0].p, s[0].n, s[2].p, s[2].n);
    return true;
}

static bool run_circulant_product(const struct lent *s)
{
    circulant_product(s[0].p, s[0].n, s[1].p, s[1].n, s[2].p, s[2].n);
    return true;
}

static bool run_add_trits(const struct lent *s)
{
    add_trits(s[0].p, s[0].n, s[1].p, s[1].n, s[2].p, s[2].n);
    return true;
}

static bool run_subtract_trits(const struct lent *s)
{
    subtract_trits(s[0].p, s[0].n, s[1].p, s[1].n, s[2].p, s[2].n);
    return true;
}

static bool run_inner_share(const struct lent *s)
{
    inner_share((uint8_t)(s[2].n / 2 % 2), s[0].p, s[0].n, s[1].p, s[1].n, s[2].p, s[2].n);
    return true;
}

static bool run_matrix_product(const struct lent *s)
{
    matrix_product(s[0].p, s[0].n, s[1].p, s[1].n, ROWS, s[2].p, s[2].n);
    return true;
}

/* Zeros up to the last trits: a test that leaves at the first other trit would not come to a slice's end. */
static bool run_trits_fit(const struct lent *s)
{
    return trits_fit(s[0].p, s[0].n, 4 * s[0].n);
}

static bool run_spare_bits_clear(const struct lent *s)
{
    return spare_bits_clear(s[0].p, s[0].n, 2 * s[0].n);
}

static bool run_row_is_zero(const struct lent *s)
{
    return row_is_zero(s[0].p, s[0].n);
}

static const struct call all[] = {
    {"add_bits", run_add_bits, fit_bits},
    {"add_bits_to", run_add_bits_to, fit_bits},
    {"circulant_product", run_circulant_product, fit_bits},
    {"add_trits", run_add_trits, fit_bits},
    {"subtract_trits", run_subtract_trits, fit_bits_and_trits},
    {"inner_share", run_inner_share, fit_bits_and_trits},
    {"matrix_product", run_matrix_product, fit_rows},
    {"trits_fit", run_trits_fit, fit_test},
    {"spare_bits_clear", run_spare_bits_clear, fit_test},
    {"row_is_zero", run_row_is_zero, fit_test},
};

static const uint8_t zeros[LONGER];
static uint8_t contents[SLICES][ROWS * LONGER];

/* One call at one end of the slices' pages; its output is copied. */
static bool try_at(const struct call *call, const size_t *lengths, bool at_end, uint8_t *written)
{
    struct lent s[SLICES];
    for (int i = 0; i < SLICES; i++) {
        s[i] = lend(call->fit == fit_test ? zeros : contents[i], sizeof contents[i], lengths[i], at_end);
        if (i < 2)
            forbid_writing(&s[i]);
    }
    calls++;
    bool answer = call->run(s);
    for (int i = 0; i < SLICES; i++)
        expect(kept(&s[i], i < 2 ? 0 : s[i].n), call->name, "other bytes were written");
    memcpy(written, s[2].p, s[2].n);
    for (int i = 0; i < SLICES; i++)
        give_back(&s[i]);
    return answer;
}

static void try_both(const struct call *call, const size_t *lengths)
{
    uint8_t written[2][LONGER];
    for (int i = 0; i < SLICES; i++)
        fill(contents[i], sizeof contents[i]);
    for (int at_end = 0; at_end < 2; at_end++)
        expect(try_at(call, lengths, at_end, written[at_end]), call->name, "zeros were not taken for zeros");
    expect(memcmp(written[0], written[1], lengths[2]) == 0, call->name, "the output depends on where slices lie");
}

/* Fit inputs, and each of the two alone with other lengths. */
static void try_size(const struct call *call, size_t n)
{
    static const int other[] = {-9, -8, -1, 1, 8};
    size_t lengths[SLICES];
    call->fit(n, lengths);
    try_both(call, lengths);
    for (int i = 0; i < 2; i++) {
        size_t fit = lengths[i];
        for (size_t k = 0; fit > 0 && k < sizeof other / sizeof other[0]; k++) {
            lengths[i] = other[k] < 0 && fit < (size_t)-other[k] ? 0 : fit + (size_t)other[k];
            try_both(call, lengths);
        }
        lengths[i] = fit;
    }
}

int main(void)
{
    for (size_t i = 0; i < sizeof all / sizeof all[0]; i++)
        for (size_t n = 0; n <= LONGEST; n++)
            try_size(&all[i], n);
    printf("linear_slices: %lu calls between guards\n", calls);
    return 0;
}
