/* service_pair_text.h, and what service_pair.h has beside its calls, under AddressSanitizer and
 * UndefinedBehaviorSanitizer. Whether a compiler keeps the wipes is tried by stack.c. */
#include "inputs.h"
#include "service_pair_text.h"

#include <stdio.h>
#include <stdlib.h>
#include <string.h>

enum { NUMBERS = PAIR_NOT_TIED + 1, GUARD = 16, TRIALS = 1000 };

_Static_assert(PAIR_VERSION == PAIR_VERSION_OF(PAIR_VERSION_MAJOR, PAIR_VERSION_MINOR, PAIR_VERSION_PATCH), "versions");
_Static_assert(PAIR_VERSION_OF(1, 2, 3) < PAIR_VERSION_OF(1, 3, 0), "a version compares as one number");
_Static_assert(PAIR_VERSION_OF(1, 99, 99) < PAIR_VERSION_OF(2, 0, 0), "a version compares as one number");
_Static_assert(PAIR_OK == 0 && PAIR_DONE == PAIR_OK, "number 0 has two names");
_Static_assert(PAIR_STAGE_IDLE == 0 && (int)PAIR_STAGE_AWAITS_DEAL == (int)PAIR_DEAL &&
                   (int)PAIR_STAGE_AWAITS_OPEN == (int)PAIR_OPEN && (int)PAIR_STAGE_AWAITS_MASK == (int)PAIR_MASK &&
                   PAIR_STAGE_DONE == 4,
               "a stage is the kind that is waited for");

/* A length of set 1, 2 and 3 and of a number that is no set, that it means set 1 without one, and that the longest
 * serves every set. Each must be a constant: else this does not compile. */
#define LENGTH(name, of_1, of_2, of_3, of_none)                                                                       \
    _Static_assert(PAIR_##name##_OF(1) == (of_1) && PAIR_##name##_OF(2) == (of_2) && PAIR_##name##_OF(3) == (of_3) && \
                       PAIR_##name##_OF(0) == (of_none) && PAIR_##name##_OF(UINT32_MAX) == (of_none) &&               \
                       PAIR_##name == (of_1) && PAIR_MAX_##name == (of_3) && (of_3) >= (of_1) && (of_1) >= (of_2),    \
                   #name)
LENGTH(KEY_BYTES, 32, 8, 64, 0);
LENGTH(LABEL_BYTES, 32, 8, 64, 0);
LENGTH(CODE_BYTES, 22, 6, 42, 0);
LENGTH(ROWS_BYTES, 5184, 336, 20736, 0);
LENGTH(FILE_BYTES, 6144, 512, 27648, 0);
LENGTH(TIE_BYTES, 162, 42, 324, 0);
LENGTH(TAPE_BYTES, 256, 64, 512, 0);
LENGTH(DEAL_FRAME_BYTES, 167, 47, 327, PAIR_HEADER_BYTES);
LENGTH(OPEN_FRAME_BYTES, 71, 23, 135, PAIR_HEADER_BYTES);
LENGTH(MASK_FRAME_BYTES, 39, 15, 71, PAIR_HEADER_BYTES);
LENGTH(SHARE_FRAME_BYTES, 29, 13, 49, PAIR_HEADER_BYTES);
LENGTH(DEALT_BYTES, 334, 94, 654, 2 * PAIR_HEADER_BYTES);
LENGTH(STEP_OUTPUT_BYTES, 71, 23, 135, PAIR_HEADER_BYTES);
LENGTH(SOURCE_BYTES, 384, 168, 688, 0);
LENGTH(MORE_SOURCE_BYTES, 288, 72, 576, 0);
_Static_assert(PAIR_CODE_DIGITS == 81 && PAIR_MAX_DIGITS == 162 && PAIR_DIGITS_OF(2) == 21 && PAIR_DIGITS_OF(4) == 0,
               "digits");
_Static_assert(PAIR_ROW_BYTES_OF(1) == 64 && PAIR_ROW_BYTES_OF(2) == 16 && PAIR_MAX_ROW_BYTES == 128, "a row");
_Static_assert(PAIR_INPUT_BYTES == 6528 && PAIR_STATE_BYTES == PAIR_HEADER_BYTES + 1 + 8 * PAIR_MAX_KEY_BYTES,
               "what has one length");
_Static_assert(PAIR_HEADER_BYTES == 7 && PAIR_STATE_BYTES == 520, "the stated header and state");
_Static_assert(PAIR_VERSION == PAIR_VERSION_OF(5, 1, 0), "the stated version");
_Static_assert(PAIR_TIED_ROWS == 12 && PAIR_NOT_TIED == 16, "the stated numbers of rows that are tied and not");
_Static_assert(PAIR_LINE_BIKES == 0 && PAIR_LINE_STORAGE == 1 && PAIR_OTHER_LINE == 15, "the stated lines");
/* Existing hosts may ask the preprocessor. */
#if PAIR_KEY_BYTES != 32 || PAIR_FILE_BYTES != 6144
#error "a length of set 1 has another value to the preprocessor"
#endif

static void expect(int holds, const char *what)
{
    if (holds)
        return;
    fprintf(stderr, "text: %s\n", what);
    exit(1);
}

/* Every number of the table has a text of its own, every other number one and the same. */
static void try_numbers(void)
{
    const char *other = pair_number_text(NUMBERS);
    for (uint32_t i = 0; i < NUMBERS; i++) {
        const char *text = pair_number_text(i);
        expect(strlen(text) > 0 && strchr(text, '\n') == NULL && strcmp(text, other) != 0, "a number has no text");
        for (uint32_t before = 0; before < i; before++)
            expect(strcmp(text, pair_number_text(before)) != 0, "two numbers have the same text");
    }
    expect(strcmp(pair_number_text(PAIR_OK), "done") == 0, "the text of 0");
    expect(strcmp(pair_number_text(UINT32_MAX), other) == 0, "the largest number is in no table");
}

static void try_digits(uint32_t set)
{
    int digits_n = PAIR_DIGITS_OF(set), plane = PAIR_CODE_BYTES_OF(set) / 2;
    for (int trial = 0; trial < TRIALS; trial++) {
        uint8_t code[PAIR_MAX_CODE_BYTES] = {0};
        char right[PAIR_MAX_DIGITS + 1] = {0}, digits[PAIR_MAX_DIGITS + 1 + GUARD];
        memset(digits, 'x', sizeof digits);
        for (int i = 0; i < digits_n; i++) {
            int digit = (int)((draw() >> 32) % 3);
            code[i / 8] |= (uint8_t)((digit == 1) << i % 8);
            code[plane + i / 8] |= (uint8_t)((digit == 2) << i % 8);
            right[i] = (char)('0' + digit);
        }
        pair_code_digits(set, code, digits);
        expect(strlen(digits) == (size_t)digits_n && strcmp(digits, right) == 0, "a code has other digits");
        for (size_t i = (size_t)digits_n + 1; i < sizeof digits; i++)
            expect(digits[i] == 'x', "more than the digits was written");
    }
}

/* Exactly the bytes that are named. */
static void try_wipe(void)
{
    for (size_t n = 0; n <= 64; n++) {
        uint8_t bytes[GUARD + 64 + GUARD];
        memset(bytes, 0xa5, sizeof bytes);
        pair_wipe(bytes + GUARD, n);
        for (size_t i = 0; i < sizeof bytes; i++)
            expect(bytes[i] == (i < GUARD || i >= GUARD + n ? 0xa5 : 0), "a wipe takes other bytes");
    }
    pair_wipe_stack();
}

int main(void)
{
    try_numbers();
    /* 0 and the number after the last set have no digits. */
    for (uint32_t set = 0; set <= PAIR_SETS + 1; set++)
        try_digits(set);
    try_wipe();
    printf("text: %d numbers, %d codes of each set, wipes\n", NUMBERS, TRIALS);
    return 0;
}
