/* Inputs of the tests in C: numbers that look random, the same in every run (xorshift), fit trits, rows near to
 * tied, a block's check, a row that is tied to all others, how long frames are, and what pair_run takes. */
#ifndef TEST_INPUTS_H
#define TEST_INPUTS_H

#include "service_pair.h"

#include <stddef.h>
#include <stdint.h>
#include <string.h>

static inline uint64_t draw(void)
{
    static uint64_t x = 0x9e3779b97f4a7c15u;
    x ^= x << 13;
    x ^= x >> 7;
    x ^= x << 17;
    return x;
}

static inline void fill(uint8_t *bytes, size_t n)
{
    for (size_t i = 0; i < n; i++)
        bytes[i] = (uint8_t)(draw() >> 32);
}

/* Vectors with planes of `plane` bytes, one after the other, in which no trit has both bits set: the high
 * plane has a bit only where the low one has none. */
static inline void make_fit(uint8_t *vectors, size_t n, size_t plane)
{
    for (size_t i = 0; i < n; i++)
        vectors[i] &= i % (2 * plane) < plane ? 0xff : (uint8_t)~vectors[i - plane];
}

/* Makes the first two of rows of n bytes near to tied: row 1 is row 0 but for the last column, in which row 0 has 0 and
 * row 1 has 1, so that it takes all columns to see that they are not. */
static inline void make_near(uint8_t *rows, size_t n)
{
    rows[n / 2 - 1] &= 0x7f;
    rows[n - 1] &= 0x7f;
    memcpy(rows + n, rows, n);
    rows[n + n / 2 - 1] |= 0x80;
}

/* A fit block's last two bytes: two sums modulo 255. */
static inline void make_block_check(uint8_t block[PAIR_BLOCK_BYTES])
{
    unsigned first = 0, second = 0;
    for (int i = 0; i < PAIR_BLOCK_BYTES - 2; i++) {
        first = (first + block[i]) % 255;
        second = (second + first) % 255;
    }
    block[PAIR_BLOCK_BYTES - 2] = (uint8_t)first;
    block[PAIR_BLOCK_BYTES - 1] = (uint8_t)second;
}

/* Makes the last row of a file of these rows the sum of all others, so that all rows are in the list of tied ones. No
 * call writes such a file. Byte 2 of a block is how many rows it has, and they begin at byte 4. */
static inline void tie_last_row(uint32_t set, const uint8_t *rows, uint8_t *file)
{
    size_t n = (size_t)PAIR_ROW_BYTES_OF(set), plane = n / 2;
    uint8_t *block = file + PAIR_FILE_BYTES_OF(set) - PAIR_BLOCK_BYTES, *sum = block + 4 + (block[2] - 1u) * n;
    memset(sum, 0, n);
    for (int i = 0; i < PAIR_DIGITS_OF(set) - 1; i++, rows += n) {
        for (size_t k = 0; k < plane; k++) {
            unsigned low = sum[k], high = sum[plane + k], odd = (low | rows[plane + k]) ^ (high | rows[k]);
            sum[k] = (uint8_t)((high | rows[plane + k]) ^ odd);
            sum[plane + k] = (uint8_t)((low | rows[k]) ^ odd);
        }
    }
    make_block_check(block);
}

/* The length of the frame that step 0, 1 or 2 takes, and after them of the share. */
static inline size_t frame_bytes(uint32_t set, int step)
{
    const int bytes[] = {PAIR_DEAL_FRAME_BYTES_OF(set), PAIR_OPEN_FRAME_BYTES_OF(set), PAIR_MASK_FRAME_BYTES_OF(set),
                         PAIR_SHARE_FRAME_BYTES_OF(set)};
    return (size_t)bytes[step];
}

/* Of set 1. The arrays have room for every set. */
static inline void make_input(uint8_t input[PAIR_INPUT_BYTES], uint8_t keys[2][PAIR_MAX_KEY_BYTES],
                              uint8_t labels[2][PAIR_MAX_LABEL_BYTES], const uint8_t tape[PAIR_MAX_TAPE_BYTES],
                              const uint8_t file[PAIR_MAX_FILE_BYTES])
{
    for (int side = 0; side < 2; side++) {
        memcpy(input + side * PAIR_KEY_BYTES, keys[side], PAIR_KEY_BYTES);
        memcpy(input + 2 * PAIR_KEY_BYTES + side * PAIR_LABEL_BYTES, labels[side], PAIR_LABEL_BYTES);
    }
    input += 2 * PAIR_KEY_BYTES + 2 * PAIR_LABEL_BYTES;
    memcpy(input, tape, PAIR_TAPE_BYTES);
    memcpy(input + PAIR_TAPE_BYTES, file, PAIR_FILE_BYTES);
}

#endif
