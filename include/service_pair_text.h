/* What a host of the service pair often writes itself: the text of a number, a code's digits, and a wipe of
 * what was secret. For C11 and C++11; nothing to link. These functions are tested, not proved. */
#ifndef SERVICE_PAIR_TEXT_H
#define SERVICE_PAIR_TEXT_H

#include "service_pair.h"

/* A number as a sentence without its full stop. Never NULL, also for a number that is not in the table. */
static inline const char *pair_number_text(uint32_t number)
{
    switch (number) {
    case PAIR_OK:
        return "done";
    case PAIR_WRONG_LENGTH:
        return "an input has another length than stated, or an output slice is too short";
    case PAIR_NO_SIDE:
        return "a side is 0 or 1";
    case PAIR_NO_KIND:
        return "a frame has under 7 bytes, or a kind that is not taken here";
    case PAIR_FRAME_LENGTH:
        return "a frame's length is not its kind's";
    case PAIR_OTHER_SESSION:
        return "a frame is of another session";
    case PAIR_OTHER_SIDE:
        return "a frame names the wrong side";
    case PAIR_NOT_WAITED_FOR:
        return "a frame of this kind is not waited for";
    case PAIR_BLOCK_CHECK:
        return "a block's check differs: the matrix file is damaged";
    case PAIR_BLOCK_LAYOUT:
        return "a block is not laid out as a matrix file's";
    case PAIR_UNFIT_TRIT:
        return "a trit has both bits set";
    case PAIR_UNUSED_BIT:
        return "an unused bit of a share frame is set";
    case PAIR_TIED_ROWS:
        return "the rows of the matrix are tied: multiplied by digits, not all 0, they add to the zero row modulo 3";
    case PAIR_SHORT_SOURCE:
        return "the source has too few usable pairs of bits from the start on";
    case PAIR_NO_SET:
        return "a set is 1, 2 or 3";
    case PAIR_OTHER_LINE:
        return "a frame is of another line";
    case PAIR_NOT_TIED:
        return "the rows of the matrix are not tied: its file is fit";
    default:
        return "no number of the table";
    }
}

/* Writes the digits of a code of this set, PAIR_DIGITS_OF(set) characters of 0, 1 and 2, and a zero byte; of a
 * number that is no set the zero byte alone. Digit i is the low plane's bit i plus twice the high plane's; a 3
 * comes only of bytes that no call has written. */
PAIR_NONNULL
static inline void pair_code_digits(uint32_t set, const uint8_t *code, char *digits)
{
    const uint8_t *high_plane = code + PAIR_CODE_BYTES_OF(set) / 2;
    for (int i = 0; i < PAIR_DIGITS_OF(set); i++) {
        int low = code[i / 8] >> i % 8 & 1;
        int high = high_plane[i / 8] >> i % 8 & 1;
        digits[i] = "0123"[low + 2 * high];
    }
    digits[PAIR_DIGITS_OF(set)] = '\0';
}

/* Overwrites n bytes with zeros. A compiler may drop a memset of what is not read any more; it may not drop
 * a volatile write. */
PAIR_NONNULL
static inline void pair_wipe(void *bytes, size_t n)
{
    volatile uint8_t *byte = (volatile uint8_t *)bytes;
    while (n-- > 0)
        *byte++ = 0;
}

/* Overwrites the next PAIR_STACK_BYTES of the stack below the function that calls it, where calls from that
 * function have left what they worked with. Called there, after the calls; from a function that was called
 * in between it would begin too low. It is a call of its own, never compiled into its caller: there its
 * buffer would have a place that no other call uses. */
#if defined(__GNUC__)
__attribute__((noinline, unused)) static void
#else
static inline void
#endif
pair_wipe_stack(void)
{
    volatile uint64_t below[PAIR_STACK_BYTES / sizeof(uint64_t)];
    for (size_t i = 0; i < sizeof below / sizeof below[0]; i++)
        below[i] = 0;
}

#endif
