/* The service pair: units, dealer, sampler, counter's join, evaluator and matrix file, for C11 and C++.
 *
 * Every function here is proved to meet its contract, for all inputs (crates/protocol_c/src/units.rt for
 * pair_begin and pair_step, interface.rt for all others).
 * Link target/staticlib/libprotocol.a, which `./library protocol` makes, or what `./install PREFIX` has put
 * where pkg-config finds it (service_pair): for x86-64 Linux alone. It needs `memcpy` of the host, and may need
 * `memset`, and no other library. service_pair_text.h has a text for each number, a code's digits, and how to
 * wipe what was secret.
 *
 * SETS. A pair is of one of three sizes, named by a number: set 1 has keys and labels of 256 bits and codes of 81
 * digits, set 2 of 64 and 21, set 3 of 512 and 162. Dealer, units and counter of one pair name the same set. Frames
 * carry none: one of another set is refused by its length. A unit keeps its set in its state, so a step names none,
 * and pair_run is of set 1.
 *
 * LINES. Packs are of a line, a byte: 0 bikes, 1 storage (enum pair_line), and the others are free. Dealer and units of
 * one pair name the same line, every frame carries it, and a unit keeps it in its state. A unit refuses a frame of
 * another line, and the counter two share frames of differing lines; pair_run is of line 0.
 *
 * SLICES. A slice is a pointer and a length. The pointer is never NULL, also where the length is 0, and
 * the memory is the caller's: a function reads or writes it during the call only, and keeps no pointer.
 * The slices and the count or place of one call don't overlap, and nobody else writes them during it. An input
 * (`const`) has exactly the stated length, an output slice at least its length; a frame or a source may
 * have any. With another length a call is refused by number, so lengths need no check before it.
 *
 * NUMBERS. Every function returns a number of `enum pair_number`: 14 before all others, where the set it names is
 * none, and else the lowest one whose condition holds over all that the call reads. 0 is success: the stated bytes
 * are written to the beginning of the output slice, and its further bytes stay as they were. Any other number is a
 * refusal: state and output slice stay as they were, and a count or place is set to 0. The one exception is
 * `pair_begin`.
 *
 * THREADS. There is no memory behind the functions: calls on different slices may run at the same time.
 * No function allocates, blocks, or calls back. How long a call takes is not spoken of by what is proved.
 *
 * SECRETS. Halves, tapes, sources, deal frames and states are secret, each from everyone but the unit or
 * the dealer whose it is; they are the caller's to keep and to overwrite. Open and mask frames go to the
 * other unit, share frames to the counter. A tape is used for one session and never again, and so is each pair
 * of a source's bits: one source serves session after session if each draw begins where the one before ended.
 *
 * STACK. What each call uses at most in any set, arguments and return address included, in KiB, rounded up:
 *
 *     pair_matrix_check  21.5     pair_evaluate     21.8     pair_begin             0.2
 *     pair_matrix_read   21.6     pair_sample        0.7     pair_step, with deal   0.4
 *     pair_matrix_write  22.2     pair_deal          2.8     .. with open           3.1
 *     pair_tied_rows     29.0     pair_deal_source   3.4     .. with mask          21.7
 *                                 pair_join          0.3     pair_run              25.3
 *
 * What judges a matrix has room for all rows of set 3, whichever set is named. A program that looks for memcpy and
 * memset at their first use (lazy binding) takes about 3.1 KiB below where they are called, so pair_tied_rows 31.2 in
 * all where it is the first call; linked with -z now it does not. Measured, not proved: the library was made by the
 * toolchain rattle-kit-13f, its callers by GCC 12 and Clang 14. Some calls of what rattle-kit-5b made took up to 0.2 more,
 * for which there still is room here, and pair_begin 0.1.
 * tests/c/stack.c measures the table again.
 *
 * Calls do not clear the stack that they used, and copies of secrets stay there until something else is
 * written over them: after pair_run some of each half, after pair_deal_source the tape, after pair_evaluate
 * the label, after the steps with an open and a mask frame up to 64 bytes. A host overwrites them with
 * pair_wipe_stack (service_pair_text.h), called from the function that made the calls and after them; then
 * none was found. What it does not reach are vector registers, which keep pieces until other code uses them,
 * and what a signal handler has put further down. */
#ifndef SERVICE_PAIR_H
#define SERVICE_PAIR_H

#include <stddef.h>
#include <stdint.h>

/* The version of this interface, as one number that compares: `#if PAIR_VERSION < PAIR_VERSION_OF(5, 1, 0)`.
 * MAJOR is raised where a host must be looked at again (a parameter, a length, a layout or the meaning of a
 * number is another), MINOR where a call, a number or a name was added, PATCH where neither is. The library
 * has no version of its own: header and library are of one build. */
#define PAIR_VERSION_MAJOR 5
#define PAIR_VERSION_MINOR 1
#define PAIR_VERSION_PATCH 0
#define PAIR_VERSION_OF(major, minor, patch) ((major) * 10000 + (minor) * 100 + (patch))
#define PAIR_VERSION PAIR_VERSION_OF(PAIR_VERSION_MAJOR, PAIR_VERSION_MINOR, PAIR_VERSION_PATCH)

/* Where the compiler has such markings it warns of a number that nobody looks at, and of a NULL pointer. */
#if defined(__cplusplus) ? __cplusplus >= 201703L : defined(__STDC_VERSION__) && __STDC_VERSION__ >= 202311L
#define PAIR_NODISCARD [[nodiscard]]
#elif defined(__GNUC__)
#define PAIR_NODISCARD __attribute__((warn_unused_result))
#else
#define PAIR_NODISCARD
#endif
#if defined(__GNUC__)
#define PAIR_NONNULL __attribute__((nonnull))
#else
#define PAIR_NONNULL
#endif

/* Sets are numbered from 1 to PAIR_SETS. A number that is none has 0 bits and 0 digits, and a call that names it gives
 * 14. What ends in _OF takes a set, looks at it more than once, and is a constant where the set is one. */
#define PAIR_SETS 3
#define PAIR_BITS_OF(set) ((set) == 1 ? 256 : (set) == 2 ? 64 : (set) == 3 ? 512 : 0) /* n: of a key or a label */
#define PAIR_DIGITS_OF(set) ((set) == 1 ? 81 : (set) == 2 ? 21 : (set) == 3 ? 162 : 0) /* t: of a code */

/* Bit j of a string is bit j mod 8 (bit 0 lowest) of byte j div 8. Trits are 0, 1 or 2, in two planes,
 * low bits first, then high bits, each packed like bits; both bits of a trit set is unfit. A plane of a code has
 * t / 8 bytes, rounded up, and its unused bits are 0. Lengths follow from n and t:
 *
 *                                 set 1      2      3
 *     key, label, or its half        32      8     64    n bits
 *     code                           22      6     42    t trits
 *     row of the public matrix       64     16    128    n trits
 *     rows                         5184    336  20736    t rows
 *     matrix file                  6144    512  27648    12, 1 and 54 blocks of 512 bytes, each with a check
 *     room for a list of tied rows  162     42    324    t times row number and digit, a byte each
 *     tape                          256     64    512    3n/4 bytes, then n trits
 *     deal frame                    167     47    327    kind 1, dealer to unit: the unit's deal
 *     both deal frames              334     94    654    unit 0's first
 *     open frame                     71     23    135    kind 2, unit to unit: key half and label half, each masked
 *     mask frame                     39     15     71    kind 3, unit to unit: the masked inner vector's half
 *     share frame                    29     13     49    kind 4, unit to counter: the code's share
 *
 * A frame is kind, side, session (four bytes, lowest first), line, then the body. */
#define PAIR_HEADER_BYTES 7
#define PAIR_KEY_BYTES_OF(set) (PAIR_BITS_OF(set) / 8)
#define PAIR_LABEL_BYTES_OF(set) (PAIR_BITS_OF(set) / 8)
#define PAIR_CODE_BYTES_OF(set) (2 * ((PAIR_DIGITS_OF(set) + 7) / 8))
#define PAIR_ROW_BYTES_OF(set) (PAIR_BITS_OF(set) / 4)
#define PAIR_ROWS_BYTES_OF(set) (PAIR_DIGITS_OF(set) * PAIR_ROW_BYTES_OF(set))
#define PAIR_BLOCK_BYTES 512
#define PAIR_BLOCKS_OF(set) ((set) == 1 ? 12 : (set) == 2 ? 1 : (set) == 3 ? 54 : 0) /* of 7, 28 and 3 rows at most */
#define PAIR_FILE_BYTES_OF(set) (PAIR_BLOCKS_OF(set) * PAIR_BLOCK_BYTES)
#define PAIR_TIE_BYTES_OF(set) (2 * PAIR_DIGITS_OF(set)) /* the least output slice of pair_tied_rows */
#define PAIR_TAPE_BYTES_OF(set) PAIR_BITS_OF(set)
#define PAIR_DEAL_FRAME_BYTES_OF(set) (PAIR_HEADER_BYTES + 5 * PAIR_KEY_BYTES_OF(set))
#define PAIR_OPEN_FRAME_BYTES_OF(set) (PAIR_HEADER_BYTES + 2 * PAIR_KEY_BYTES_OF(set))
#define PAIR_MASK_FRAME_BYTES_OF(set) (PAIR_HEADER_BYTES + PAIR_KEY_BYTES_OF(set))
#define PAIR_SHARE_FRAME_BYTES_OF(set) (PAIR_HEADER_BYTES + PAIR_CODE_BYTES_OF(set))
#define PAIR_DEALT_BYTES_OF(set) (2 * PAIR_DEAL_FRAME_BYTES_OF(set))
#define PAIR_STEP_OUTPUT_BYTES_OF(set) PAIR_OPEN_FRAME_BYTES_OF(set) /* the least output slice, at every stage */

/* Random bytes that make a tape but for less than once in 2^400 times: 384, 168 and 688; and how many more for each
 * further tape, so that all are made but for less than once in 2^290 times, whatever their number: 288, 72 and 576.
 * A tape takes 13n/3 pairs on average, which is 277 1/3, 69 1/3 and 554 2/3 bytes. */
#define PAIR_SOURCE_BYTES_OF(set) ((set) == 1 ? 384 : (set) == 2 ? 168 : (set) == 3 ? 688 : 0)
#define PAIR_MORE_SOURCE_BYTES_OF(set) (PAIR_BITS_OF(set) / 8 * 9)

/* Of set 1. */
#define PAIR_CODE_DIGITS PAIR_DIGITS_OF(1)
#define PAIR_KEY_BYTES PAIR_KEY_BYTES_OF(1)
#define PAIR_LABEL_BYTES PAIR_LABEL_BYTES_OF(1)
#define PAIR_CODE_BYTES PAIR_CODE_BYTES_OF(1)
#define PAIR_ROWS_BYTES PAIR_ROWS_BYTES_OF(1)
#define PAIR_FILE_BYTES PAIR_FILE_BYTES_OF(1)
#define PAIR_TIE_BYTES PAIR_TIE_BYTES_OF(1)
#define PAIR_TAPE_BYTES PAIR_TAPE_BYTES_OF(1)
#define PAIR_DEAL_FRAME_BYTES PAIR_DEAL_FRAME_BYTES_OF(1)
#define PAIR_OPEN_FRAME_BYTES PAIR_OPEN_FRAME_BYTES_OF(1)
#define PAIR_MASK_FRAME_BYTES PAIR_MASK_FRAME_BYTES_OF(1)
#define PAIR_SHARE_FRAME_BYTES PAIR_SHARE_FRAME_BYTES_OF(1)
#define PAIR_DEALT_BYTES PAIR_DEALT_BYTES_OF(1)
#define PAIR_STEP_OUTPUT_BYTES PAIR_STEP_OUTPUT_BYTES_OF(1)
#define PAIR_SOURCE_BYTES PAIR_SOURCE_BYTES_OF(1)
#define PAIR_MORE_SOURCE_BYTES PAIR_MORE_SOURCE_BYTES_OF(1)
#define PAIR_INPUT_BYTES (2 * PAIR_KEY_BYTES + 2 * PAIR_LABEL_BYTES + PAIR_TAPE_BYTES + PAIR_FILE_BYTES) /* 6528 */

/* Of a buffer that serves every set: set 3 has the most of each. */
#define PAIR_MAX_DIGITS PAIR_DIGITS_OF(3)
#define PAIR_MAX_KEY_BYTES PAIR_KEY_BYTES_OF(3)
#define PAIR_MAX_LABEL_BYTES PAIR_LABEL_BYTES_OF(3)
#define PAIR_MAX_CODE_BYTES PAIR_CODE_BYTES_OF(3)
#define PAIR_MAX_ROW_BYTES PAIR_ROW_BYTES_OF(3)
#define PAIR_MAX_ROWS_BYTES PAIR_ROWS_BYTES_OF(3)
#define PAIR_MAX_FILE_BYTES PAIR_FILE_BYTES_OF(3)
#define PAIR_MAX_TIE_BYTES PAIR_TIE_BYTES_OF(3)
#define PAIR_MAX_TAPE_BYTES PAIR_TAPE_BYTES_OF(3)
#define PAIR_MAX_DEAL_FRAME_BYTES PAIR_DEAL_FRAME_BYTES_OF(3)
#define PAIR_MAX_OPEN_FRAME_BYTES PAIR_OPEN_FRAME_BYTES_OF(3)
#define PAIR_MAX_MASK_FRAME_BYTES PAIR_MASK_FRAME_BYTES_OF(3)
#define PAIR_MAX_SHARE_FRAME_BYTES PAIR_SHARE_FRAME_BYTES_OF(3)
#define PAIR_MAX_DEALT_BYTES PAIR_DEALT_BYTES_OF(3)
#define PAIR_MAX_STEP_OUTPUT_BYTES PAIR_STEP_OUTPUT_BYTES_OF(3)
#define PAIR_MAX_SOURCE_BYTES PAIR_SOURCE_BYTES_OF(3)
#define PAIR_MAX_MORE_SOURCE_BYTES PAIR_MORE_SOURCE_BYTES_OF(3)

/* Of every set. */
#define PAIR_STATE_BYTES 520   /* a unit's state: see pair_begin */
#define PAIR_STACK_BYTES 34816 /* more than any call uses of the stack: see STACK */

enum pair_kind { PAIR_DEAL = 1, PAIR_OPEN = 2, PAIR_MASK = 3, PAIR_SHARE = 4 };

/* The lines that are named. Every byte is a line. */
enum pair_line { PAIR_LINE_BIKES = 0, PAIR_LINE_STORAGE = 1 };

/* A unit's stage, the first byte of its state: idle, done, or else the kind of frame it waits for. */
enum pair_stage {
    PAIR_STAGE_IDLE = 0,
    PAIR_STAGE_AWAITS_DEAL = 1,
    PAIR_STAGE_AWAITS_OPEN = 2,
    PAIR_STAGE_AWAITS_MASK = 3,
    PAIR_STAGE_DONE = 4
};

enum pair_number {
    PAIR_OK = 0,              /* done */
    PAIR_DONE = PAIR_OK,      /* the same under its former name; a stage is called done too */
    PAIR_WRONG_LENGTH = 1,    /* an input other than a frame (half, key, label, tape, row set, matrix file) has another
                                 length than stated, or an output slice is shorter than what may be written */
    PAIR_NO_SIDE = 2,         /* at the beginning, side is neither 0 nor 1 */
    PAIR_NO_KIND = 3,         /* frame under 7 bytes, or its kind is not 1 to 3 (step) or 4 (join) */
    PAIR_FRAME_LENGTH = 4,    /* a frame's length is not its kind's */
    PAIR_OTHER_SESSION = 5,   /* session is not the unit's; in join, the two differ */
    PAIR_OTHER_SIDE = 6,      /* side is not this unit's (deal), the other's (open, mask), or in join 0 then 1 */
    PAIR_NOT_WAITED_FOR = 7,  /* the kind is not the one waited for */
    PAIR_BLOCK_CHECK = 8,     /* a block's check differs */
    PAIR_BLOCK_LAYOUT = 9,    /* a block's bytes 0 to 3, of which byte 3 is the set, or its unused bytes differ from
                                 the layout */
    PAIR_UNFIT_TRIT = 10,     /* a trit with both bits set */
    PAIR_UNUSED_BIT = 11,     /* an unused bit set in a share frame */
    PAIR_TIED_ROWS = 12,      /* a choice of digits, not all 0, makes the rows of the matrix, so multiplied, add to the
                                 zero row modulo 3: a zero row, two equal rows, one twice another, or any
                                 row that others, once or twice, add up to. pair_tied_rows alone takes such a file */
    PAIR_SHORT_SOURCE = 13,   /* a source has fewer than 3n pairs from the start, or fewer than n other than 3 after
                                 those, or 2^62 bytes or more, whose pairs 64 bits would not count */
    PAIR_NO_SET = 14,         /* set is not 1, 2 or 3: looked at before all other numbers */
    PAIR_OTHER_LINE = 15,     /* line is not the unit's; in join, the two differ: the last that is looked at */
    PAIR_NOT_TIED = 16        /* the matrix file is fit, so that pair_tied_rows has no rows to tell */
};

#ifdef __cplusplus
extern "C" {
#endif

/* A length that ends in _OF is that of the set which the call names, or which the state has. */

/* Whether a matrix file is fit: checks, layout and trits as they must be, and rows not tied. Gives 0, 1, 8, 9, 10, 12
 * or 14. */
PAIR_NODISCARD PAIR_NONNULL
uint32_t pair_matrix_check(uint32_t set, const uint8_t *file, size_t file_n);

/* Writes the file (PAIR_FILE_BYTES_OF) of t rows (PAIR_ROWS_BYTES_OF). Gives 0, 1, 10, 12 or 14. */
PAIR_NODISCARD PAIR_NONNULL
uint32_t pair_matrix_write(uint32_t set, const uint8_t *rows, size_t rows_n, uint8_t *out, size_t out_n);

/* Writes the t rows (PAIR_ROWS_BYTES_OF) of a file (PAIR_FILE_BYTES_OF). Gives 0, 1, 8, 9, 10, 12 or 14. */
PAIR_NODISCARD PAIR_NONNULL
uint32_t pair_matrix_read(uint32_t set, const uint8_t *file, size_t file_n, uint8_t *out, size_t out_n);

/* Writes which rows of a file (PAIR_FILE_BYTES_OF) are tied, where pair_matrix_check gives 12, and sets *count to how
 * many they are. Each takes two bytes of out (at least PAIR_TIE_BYTES_OF), its row number from 0 and then its digit;
 * the row numbers rise, and what follows the last row stays as it was. The digits are 1 or 2, the first one 1, and the
 * rows so multiplied add to the zero row modulo 3; without any one of these rows the others are not tied. All stand in
 * the shortest beginning of the matrix whose rows are tied, and its last row is one of them: there is just one such
 * list. Ties of later rows are not told: a maker draws one of these rows anew, and asks again. No call writes a file of
 * tied rows: whoever has the rows alone lays out their file, as examples/self_test.c does. Gives 0, 1, 8, 9, 10, 14 or
 * 16: a tied file gives 0 here, a fit one 16. */
PAIR_NODISCARD PAIR_NONNULL
uint32_t pair_tied_rows(uint32_t set, const uint8_t *file, size_t file_n, uint8_t *out, size_t out_n, uint64_t *count);

/* The function in one place, for whoever has a whole key and a whole label: writes the code
 * (PAIR_CODE_BYTES_OF). Gives 0, 1, 8, 9, 10, 12 or 14. */
PAIR_NODISCARD PAIR_NONNULL
uint32_t pair_evaluate(uint32_t set, const uint8_t *key, size_t key_n, const uint8_t *label, size_t label_n,
                       const uint8_t *file, size_t file_n, uint8_t *out, size_t out_n);

/* Writes a tape (PAIR_TAPE_BYTES_OF) made of a source's pairs from `start` on, and sets *next to the first pair
 * that it did not read. Pair k is bits 2k and 2k + 1 of the source; start and *next are both counted from the
 * source's beginning. 3n pairs are copied (768, 192 or 1,536); of those after them each 3 is skipped, and the
 * others are trits, until there are n (256, 64 or 512). Gives 0, 1, 13 or 14.
 *
 * The source is uniformly random, and start is 0 in a new one. The next draw is lent the same source and begins
 * at *next: it shares no pair with this one, and none between them is lost. A host takes *next over only where
 * the number is 0: after a refusal it is 0, and pairs from there on may have been used. After 13 the same
 * source with more random bytes behind it serves, from the same start. Once a draw is done, the bytes before
 * byte *next div 4 are not needed any more and can be wiped. */
PAIR_NODISCARD PAIR_NONNULL
uint32_t pair_sample(uint32_t set, uint64_t start, const uint8_t *source, size_t source_n, uint8_t *out, size_t out_n,
                     uint64_t *next);

/* Writes unit 0's deal frame, then unit 1's (PAIR_DEALT_BYTES_OF), of a session, a line and a tape. Gives 0, 1, 10 or
 * 14. */
PAIR_NODISCARD PAIR_NONNULL
uint32_t pair_deal(uint32_t set, uint32_t session, uint8_t line, const uint8_t *tape, size_t tape_n, uint8_t *out,
                   size_t out_n);

/* The same of the tape that pair_sample makes of this source from `start` on, with its *next. Gives 0, 1, 13 or 14. */
PAIR_NODISCARD PAIR_NONNULL
uint32_t pair_deal_source(uint32_t set, uint32_t session, uint8_t line, uint64_t start, const uint8_t *source,
                          size_t source_n, uint8_t *out, size_t out_n, uint64_t *next);

/* Begins a unit of side 0 or 1 with its halves, and writes its state (exactly PAIR_STATE_BYTES, in every set): it
 * waits for its deal frame. Gives 0, 1, 2 or 14. A refusal writes the idle state, whatever was named: all zero
 * but for its set, which is 1. It accepts no frame, so that an old state does not go on under a host that overlooks
 * the number; a host that wants to keep one lends another slice. Only a state slice of another length (1, or 14 if
 * the set is none) is left as it was.
 *
 * A state is stage 1 byte (enum pair_stage), side 1, session 4 lowest first, line 1, set 1, and then fields with room
 * for every set: key half 64, label half 64, of the deal 64, 64, 64 and 128, the unit's own mask 64. A field has its
 * set's bytes in front, and zeros after them. Done, a unit keeps stage, side, session, line and set, and all else is
 * zero.
 * Nobody else writes a state between two calls, and no copy is stepped again: two answers from one state tell more
 * than the protocol does. Bytes that no beginning made count as set 1 unless their set is 2 or 3, and what stands
 * after a field's bytes is not read. */
PAIR_NODISCARD PAIR_NONNULL
uint32_t pair_begin(uint32_t set, uint32_t side, uint32_t session, uint8_t line, const uint8_t *key_half,
                    size_t key_half_n, const uint8_t *label_half, size_t label_half_n, uint8_t *state,
                    size_t state_n);

/* Hands a unit one frame. Accepted, the frame to send stands in out (at least PAIR_STEP_OUTPUT_BYTES_OF),
 * *written is its length, and the state is the next one:
 *
 *     takes    from               writes    to
 *     deal     the dealer         open      the other unit
 *     open     the other unit     mask      the other unit
 *     mask     the other unit     share     the counter
 *
 * After three accepted frames the unit is done, and its state has no secret left. A refused frame leaves
 * the state as it was, so a host may drop it and go on. The matrix file (PAIR_FILE_BYTES_OF) is read only if
 * the frame's first byte is 3; for other frames it may be empty. Gives 0, 1, 3 to 10, 12 or 15. */
PAIR_NODISCARD PAIR_NONNULL
uint32_t pair_step(uint8_t *state, size_t state_n, const uint8_t *frame, size_t frame_n, const uint8_t *file,
                   size_t file_n, uint8_t *out, size_t out_n, uint64_t *written);

/* Adds side 0's and side 1's share frame to the code (PAIR_CODE_BYTES_OF). Gives 0, 1, 3 to 6, 10, 11, 14
 * or 15. */
PAIR_NODISCARD PAIR_NONNULL
uint32_t pair_join(uint32_t set, const uint8_t *share0, size_t share0_n, const uint8_t *share1, size_t share1_n,
                   uint8_t *out, size_t out_n);

/* A whole run of set 1 in one place, session 1, line 0, for trials: of two key halves, two label halves, tape and
 * matrix file (PAIR_INPUT_BYTES) it writes the code (PAIR_CODE_BYTES). Gives 0, 1, 8, 9, 10 or 12. */
PAIR_NODISCARD PAIR_NONNULL
uint32_t pair_run(const uint8_t *input, size_t input_n, uint8_t *out, size_t out_n);

#ifdef __cplusplus
}
#endif

#endif
