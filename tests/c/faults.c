/* Whether examples/self_test.c sees a fault: it runs over calls that do one thing wrong, and must name the
 * check that this fails first; and it must have wiped all that it held. */
#include "service_pair.h"

#include <stdbool.h>
#include <stdio.h>
#include <stdlib.h>
#include <string.h>

/* Where a frame and a state have their line, and a state its set. */
enum { FRAME_LINE = PAIR_HEADER_BYTES - 1, STATE_SET };

enum fault {
    NO_FAULT,
    NO_SET_IS_SET_1,
    NO_SET_AFTER_LENGTHS,
    NO_SET_WRITES,
    NO_SET_LEAVES_PLACE,
    NO_SET_LEAVES_COUNT,
    BEGIN_NO_SET_AFTER_LENGTHS,
    BEGIN_REFUSED_WRITES_OTHER_LENGTH,
    BEGIN_REFUSED_KEEPS_STATE,
    BEGIN_REFUSED_WRITES_ZEROS,
    BEGIN_REFUSED_KEEPS_SET,
    BEGIN_REFUSED_KEEPS_LINE,
    WRITE_REFUSES,
    WRITE_TAKES_TIED_ROWS,
    CHECK_REFUSES,
    CHECK_TAKES_TIED_ROWS,
    CHECK_TAKES_OTHER_LENGTH,
    CHECK_PASSES_OVER_BYTE_3,
    READ_PASSES_OVER_BYTE_3,
    READ_TAKES_TIED_ROWS,
    LIST_OF_FIT_ROWS,
    LIST_REFUSES_ZERO_ROW,
    LIST_REFUSES_TIED_ROWS,
    LIST_TAKES_LITTLE_ROOM,
    LIST_NOT_TIED_BEFORE_LENGTHS,
    LIST_PASSES_OVER_BYTE_3,
    LIST_REFUSED_WRITES,
    LIST_REFUSED_LEAVES_COUNT,
    LIST_COUNTS_BYTES,
    LIST_FALLS,
    LIST_WITH_FIRST_DIGIT_2,
    LIST_OF_NEXT_ROW,
    LIST_OF_LATER_TIE,
    LIST_WRITES_MORE,
    LIST_FILLS_ITS_ROOM,
    DEAL_REFUSES,
    DEAL_IN_LINE_0,
    BEGIN_REFUSES,
    BEGIN_STAYS_IDLE,
    BEGIN_IN_SET_1,
    BEGIN_IN_LINE_0,
    STEP_TAKES_DAMAGED,
    STEP_TAKES_OTHER_LINE,
    STEP_WRITES_LINE_0,
    STEP_SHARE_OF_LINE_0,
    STEP_TAKES_CUT,
    STEP_TAKES_CUT_HEADER,
    STEP_TAKES_OTHER_SET,
    STEP_TAKES_CUT_STATE,
    STEP_TAKES_LITTLE_ROOM,
    STEP_LEAST_OUTPUT_OF_SET_1,
    STEP_PASSES_OVER_BYTE_3,
    STEP_TAKES_TIED_ROWS,
    STEP_REFUSED_CHANGES_STATE,
    STEP_REFUSED_WRITES,
    STEP_REFUSED_COUNTS,
    STEP_REFUSES,
    STEP_COUNTS_MORE,
    STEP_WRITES_MORE,
    STEP_STAYS,
    STEP_DONE_IN_SET_1,
    STEP_DONE_IN_LINE_0,
    STEP_KEEPS_HALF,
    STEP_TAKES_WHEN_DONE,
    STEP_OTHER_SHARE,
    JOIN_TAKES_DAMAGED,
    JOIN_TAKES_OTHER_LINE,
    JOIN_TAKES_CUT,
    JOIN_TAKES_OTHER_SET,
    JOIN_REFUSED_WRITES,
    JOIN_REFUSES,
    JOIN_OTHER_CODE,
    JOIN_WRITES_MORE,
    RUN_REFUSES,
    RUN_OTHER_CODE,
    EVALUATE_PASSES_OVER_BYTE_3,
    EVALUATE_TAKES_TIED_ROWS,
    EVALUATE_REFUSES,
    EVALUATE_OTHER_CODE,
    EVALUATE_WRITES_MORE,
    FAULTS
};

static const char *const first_failed[FAULTS] = {
    [NO_SET_IS_SET_1] = "a number that is no set is refused before all else",
    [NO_SET_AFTER_LENGTHS] = "a number that is no set is refused before all else",
    [NO_SET_WRITES] = "a call without a set writes nothing",
    [NO_SET_LEAVES_PLACE] = "a call without a set sets a place or count to 0",
    [NO_SET_LEAVES_COUNT] = "a call without a set sets a place or count to 0",
    [BEGIN_NO_SET_AFTER_LENGTHS] = "a beginning is refused by its number",
    [BEGIN_REFUSED_WRITES_OTHER_LENGTH] = "a state slice of another length is left as it was",
    [BEGIN_REFUSED_KEEPS_STATE] = "a refused beginning writes the idle state",
    [BEGIN_REFUSED_WRITES_ZEROS] = "a refused beginning writes the idle state",
    [BEGIN_REFUSED_KEEPS_SET] = "a refused beginning writes the idle state",
    [BEGIN_REFUSED_KEEPS_LINE] = "a refused beginning writes the idle state",
    [WRITE_REFUSES] = "the matrix file is written",
    [WRITE_TAKES_TIED_ROWS] = "a matrix whose rows are tied is refused by its number",
    [CHECK_REFUSES] = "the matrix file is fit",
    [CHECK_TAKES_TIED_ROWS] = "a matrix whose rows are tied is refused by its number",
    [CHECK_TAKES_OTHER_LENGTH] = "a file of another set is refused by its length",
    [CHECK_PASSES_OVER_BYTE_3] = "a block of another set is refused by its number",
    [READ_PASSES_OVER_BYTE_3] = "a block of another set is refused by its number",
    [READ_TAKES_TIED_ROWS] = "a matrix whose rows are tied is refused by its number",
    [LIST_OF_FIT_ROWS] = "a fit matrix has no list of tied rows",
    [LIST_REFUSES_ZERO_ROW] = "a list of tied rows is written",
    [LIST_REFUSES_TIED_ROWS] = "a list of tied rows is written",
    [LIST_TAKES_LITTLE_ROOM] = "a list wants room for all rows of its set",
    [LIST_NOT_TIED_BEFORE_LENGTHS] = "a list wants room for all rows of its set",
    [LIST_PASSES_OVER_BYTE_3] = "a block of another set is refused by its number",
    [LIST_REFUSED_WRITES] = "a refused list writes and counts nothing",
    [LIST_REFUSED_LEAVES_COUNT] = "a refused list writes and counts nothing",
    [LIST_COUNTS_BYTES] = "the rows of a list are counted",
    [LIST_FALLS] = "a list has the tied rows with their digits and no byte more",
    [LIST_WITH_FIRST_DIGIT_2] = "a list has the tied rows with their digits and no byte more",
    [LIST_OF_NEXT_ROW] = "a list has the tied rows with their digits and no byte more",
    [LIST_OF_LATER_TIE] = "the rows of a list are counted",
    [LIST_WRITES_MORE] = "a list has the tied rows with their digits and no byte more",
    [LIST_FILLS_ITS_ROOM] = "a list has the tied rows with their digits and no byte more",
    [DEAL_REFUSES] = "the dealer deals",
    /* seen in line 1, as the other faults named LINE_0 */
    [DEAL_IN_LINE_0] = "a unit takes the frame that it waits for",
    [BEGIN_REFUSES] = "a unit begins",
    [BEGIN_STAYS_IDLE] = "a unit that has begun waits for its deal",
    [BEGIN_IN_SET_1] = "a unit that has begun has its line and its set",
    [BEGIN_IN_LINE_0] = "a unit that has begun has its line and its set",
    [STEP_TAKES_DAMAGED] = "a frame with a damaged header is refused by its number",
    [STEP_TAKES_OTHER_LINE] = "a frame with a damaged header is refused by its number",
    [STEP_WRITES_LINE_0] = "a unit's frame has its line",
    [STEP_SHARE_OF_LINE_0] = "a unit's frame has its line",
    [STEP_TAKES_CUT] = "a cut frame is refused by its number",
    [STEP_TAKES_CUT_HEADER] = "a cut header is refused by its number",
    [STEP_TAKES_OTHER_SET] = "a frame of another set is refused by its length",
    [STEP_TAKES_CUT_STATE] = "a step wants a whole state",
    [STEP_TAKES_LITTLE_ROOM] = "a step wants its set's room for an answer",
    /* in set 2, where every step would be refused with 1 */
    [STEP_LEAST_OUTPUT_OF_SET_1] = "a frame with a damaged header is refused by its number",
    [STEP_PASSES_OVER_BYTE_3] = "a step with a block of another set is refused by its number",
    [STEP_TAKES_TIED_ROWS] = "a step with tied rows is refused by its number",
    [STEP_REFUSED_CHANGES_STATE] = "a refused frame leaves the state as it was",
    [STEP_REFUSED_WRITES] = "a refused frame writes nothing",
    [STEP_REFUSED_COUNTS] = "a refused frame writes nothing",
    [STEP_REFUSES] = "a unit takes the frame that it waits for",
    [STEP_COUNTS_MORE] = "a unit's frame has its kind's length",
    [STEP_WRITES_MORE] = "a unit writes its frame and nothing after it",
    [STEP_STAYS] = "a unit goes on to its next stage",
    [STEP_DONE_IN_SET_1] = "a done unit keeps its side, session, line and set",
    [STEP_DONE_IN_LINE_0] = "a done unit keeps its side, session, line and set",
    [STEP_KEEPS_HALF] = "a done unit keeps no secret",
    [STEP_TAKES_WHEN_DONE] = "a done unit takes no frame",
    [STEP_OTHER_SHARE] = "two units give the sample's code and no byte more",
    [JOIN_TAKES_DAMAGED] = "a share with a damaged header is refused by its number",
    [JOIN_TAKES_OTHER_LINE] = "a share with a damaged header is refused by its number",
    [JOIN_TAKES_CUT] = "a cut share is refused by its number",
    [JOIN_TAKES_OTHER_SET] = "a share of another set is refused by its length",
    [JOIN_REFUSED_WRITES] = "a refused share writes nothing",
    [JOIN_REFUSES] = "the counter joins",
    [JOIN_OTHER_CODE] = "two units give the sample's code and no byte more",
    [JOIN_WRITES_MORE] = "two units give the sample's code and no byte more",
    [RUN_REFUSES] = "a whole run is accepted",
    [RUN_OTHER_CODE] = "a whole run gives the sample's code and no byte more",
    [EVALUATE_PASSES_OVER_BYTE_3] = "a block of another set is refused by its number",
    [EVALUATE_TAKES_TIED_ROWS] = "a matrix whose rows are tied is refused by its number",
    [EVALUATE_REFUSES] = "the evaluator evaluates",
    [EVALUATE_OTHER_CODE] = "the evaluator gives the sample's code and no byte more",
    [EVALUATE_WRITES_MORE] = "the evaluator gives the sample's code and no byte more",
};

static enum fault fault;

/* ---- calls with a fault */

/* Accepts what is refused with this number, while the fault is this one. */
static uint32_t accepting(enum fault which, uint32_t refusal, uint32_t number)
{
    return fault == which && number == refusal ? PAIR_OK : number;
}

static uint32_t refusing(enum fault which, uint32_t number)
{
    return fault == which && number == PAIR_OK ? PAIR_WRONG_LENGTH : number;
}

/* The number that a call answers where it names no set, and what it then writes. */
static uint32_t without_set(uint8_t *out, uint32_t number)
{
    if (number != PAIR_NO_SET)
        return number;
    out[0] ^= fault == NO_SET_WRITES;
    return fault == NO_SET_AFTER_LENGTHS ? PAIR_WRONG_LENGTH : number;
}

/* The set that a call takes, which should be the one that it names. */
static uint32_t set_taken(uint32_t set)
{
    return fault == NO_SET_IS_SET_1 && PAIR_BITS_OF(set) == 0 ? 1 : set;
}

static uint32_t faulty_write(uint32_t set, const uint8_t *rows, size_t rows_n, uint8_t *out, size_t out_n)
{
    uint32_t number = without_set(out, pair_matrix_write(set_taken(set), rows, rows_n, out, out_n));
    return refusing(WRITE_REFUSES, accepting(WRITE_TAKES_TIED_ROWS, PAIR_TIED_ROWS, number));
}

static uint32_t faulty_check(uint32_t set, const uint8_t *file, size_t file_n)
{
    uint32_t number = pair_matrix_check(set, file, file_n);
    number = accepting(CHECK_TAKES_OTHER_LENGTH, PAIR_WRONG_LENGTH, number);
    number = accepting(CHECK_TAKES_TIED_ROWS, PAIR_TIED_ROWS, number);
    return refusing(CHECK_REFUSES, accepting(CHECK_PASSES_OVER_BYTE_3, PAIR_BLOCK_LAYOUT, number));
}

static uint32_t faulty_read(uint32_t set, const uint8_t *file, size_t file_n, uint8_t *out, size_t out_n)
{
    uint32_t number = pair_matrix_read(set, file, file_n, out, out_n);
    number = accepting(READ_TAKES_TIED_ROWS, PAIR_TIED_ROWS, number);
    return accepting(READ_PASSES_OVER_BYTE_3, PAIR_BLOCK_LAYOUT, number);
}

/* What an accepted call has written of which rows are tied. */
static void spoil_list(uint8_t *out, size_t out_n, uint64_t *count)
{
    size_t n = 2 * (size_t)*count;
    if (fault == LIST_FALLS && n == 4) {
        const uint8_t falling[4] = {out[2], out[3], out[0], out[1]};
        memcpy(out, falling, n);
    }
    for (size_t i = 1; fault == LIST_WITH_FIRST_DIGIT_2 && i < n; i += 2)
        out[i] = (uint8_t)(3 - out[i]);
    out[n - 2] += fault == LIST_OF_NEXT_ROW;
    /* the tie of rows 0 and 2, where row 1 is zero */
    if (fault == LIST_OF_LATER_TIE && out[0] == 1) {
        static const uint8_t later[4] = {0, 1, 2, 1};
        memcpy(out, later, sizeof later);
        *count = 2;
    }
    out[n] ^= fault == LIST_WRITES_MORE;
    if (fault == LIST_FILLS_ITS_ROOM)
        memset(out + n, 0, out_n - n);
    if (fault == LIST_COUNTS_BYTES)
        *count = n;
}

static uint32_t faulty_tied_rows(uint32_t set, const uint8_t *file, size_t file_n, uint8_t *out, size_t out_n,
                                 uint64_t *count)
{
    uint64_t before = *count;
    uint32_t number = pair_tied_rows(set, file, file_n, out, out_n, count);
    if (number == PAIR_OK) {
        bool refuses = fault == (*count == 1 ? LIST_REFUSES_ZERO_ROW : LIST_REFUSES_TIED_ROWS);
        spoil_list(out, out_n, count);
        return refuses ? PAIR_TIED_ROWS : number;
    }
    if (fault == (number == PAIR_NO_SET ? NO_SET_LEAVES_COUNT : LIST_REFUSED_LEAVES_COUNT))
        *count = before;
    out[0] ^= fault == LIST_REFUSED_WRITES && number != PAIR_NO_SET;
    if (fault == LIST_NOT_TIED_BEFORE_LENGTHS && pair_matrix_check(set, file, file_n) == PAIR_OK)
        return PAIR_NOT_TIED;
    number = accepting(LIST_OF_FIT_ROWS, PAIR_NOT_TIED, number);
    number = accepting(LIST_TAKES_LITTLE_ROOM, PAIR_WRONG_LENGTH, number);
    return accepting(LIST_PASSES_OVER_BYTE_3, PAIR_BLOCK_LAYOUT, number);
}

static uint32_t faulty_sample(uint32_t set, uint64_t start, const uint8_t *source, size_t source_n, uint8_t *out,
                              size_t out_n, uint64_t *next)
{
    uint64_t before = *next;
    uint32_t number = pair_sample(set, start, source, source_n, out, out_n, next);
    if (number == PAIR_NO_SET && fault == NO_SET_LEAVES_PLACE)
        *next = before;
    return number;
}

/* The line that a call takes, which should be the one that it names. */
static uint8_t line_taken(enum fault which, uint8_t line)
{
    return fault == which ? PAIR_LINE_BIKES : line;
}

static uint32_t faulty_deal(uint32_t set, uint32_t session, uint8_t line, const uint8_t *tape, size_t tape_n,
                            uint8_t *out, size_t out_n)
{
    line = line_taken(DEAL_IN_LINE_0, line);
    return refusing(DEAL_REFUSES, pair_deal(set, session, line, tape, tape_n, out, out_n));
}

/* What a refused beginning has left in its state slice. */
static void spoil_refused(uint32_t set, uint8_t line, uint8_t *state, size_t state_n,
                          const uint8_t before[PAIR_STATE_BYTES])
{
    if (state_n != PAIR_STATE_BYTES) {
        state[0] ^= fault == BEGIN_REFUSED_WRITES_OTHER_LENGTH;
        return;
    }
    if (fault == BEGIN_REFUSED_KEEPS_STATE)
        memcpy(state, before, PAIR_STATE_BYTES);
    if (fault == BEGIN_REFUSED_WRITES_ZEROS)
        state[STATE_SET] = 0;
    if (fault == BEGIN_REFUSED_KEEPS_SET && PAIR_BITS_OF(set) > 0)
        state[STATE_SET] = (uint8_t)set;
    if (fault == BEGIN_REFUSED_KEEPS_LINE)
        state[FRAME_LINE] = line;
}

static uint32_t faulty_begin(uint32_t set, uint32_t side, uint32_t session, uint8_t line, const uint8_t *key_half,
                             size_t key_half_n, const uint8_t *label_half, size_t label_half_n, uint8_t *state,
                             size_t state_n)
{
    uint8_t before[PAIR_STATE_BYTES];
    memcpy(before, state, state_n < sizeof before ? state_n : sizeof before);
    uint32_t number = pair_begin(set, side, session, line_taken(BEGIN_IN_LINE_0, line), key_half, key_half_n,
                                 label_half, label_half_n, state, state_n);
    if (number != PAIR_OK) {
        spoil_refused(set, line, state, state_n, before);
        return number == PAIR_NO_SET && fault == BEGIN_NO_SET_AFTER_LENGTHS ? PAIR_WRONG_LENGTH : number;
    }
    if (fault == BEGIN_STAYS_IDLE)
        state[0] = PAIR_STAGE_IDLE;
    if (fault == BEGIN_IN_SET_1)
        state[STATE_SET] = 1;
    return refusing(BEGIN_REFUSES, number);
}

/* What an accepted step has written. */
static void spoil_accepted(uint8_t *state, uint8_t *out, uint64_t *written)
{
    bool done = state[0] == PAIR_STAGE_DONE;
    /* of side 0 alone: the same in both shares could cancel out */
    out[PAIR_HEADER_BYTES] ^= fault == STEP_OTHER_SHARE && done && state[1] == 0;
    out[*written] ^= fault == STEP_WRITES_MORE;
    *written += fault == STEP_COUNTS_MORE;
    state[0] -= fault == STEP_STAYS;
    state[STATE_SET + 1] |= fault == STEP_KEEPS_HALF;
    if (fault == STEP_DONE_IN_SET_1 && done)
        state[STATE_SET] = 1;
    if (fault == STEP_DONE_IN_LINE_0 && done)
        state[FRAME_LINE] = PAIR_LINE_BIKES;
    out[FRAME_LINE] = line_taken(STEP_WRITES_LINE_0, out[FRAME_LINE]);
    /* of both units: join would see one of them */
    if (done)
        out[FRAME_LINE] = line_taken(STEP_SHARE_OF_LINE_0, out[FRAME_LINE]);
}

static bool is_frame_of_other_set(const uint8_t *state, size_t frame_n)
{
    bool found = false;
    for (uint32_t set = 1; set <= PAIR_SETS; set++)
        found = found || (set != state[STATE_SET] && frame_n == (size_t)PAIR_DEAL_FRAME_BYTES_OF(set));
    return found;
}

static uint32_t faulty_step(uint8_t *state, size_t state_n, const uint8_t *frame, size_t frame_n, const uint8_t *file,
                            size_t file_n, uint8_t *out, size_t out_n, uint64_t *written)
{
    if (fault == STEP_LEAST_OUTPUT_OF_SET_1 && out_n < PAIR_STEP_OUTPUT_BYTES) {
        *written = 0;
        return PAIR_WRONG_LENGTH;
    }
    uint32_t number = pair_step(state, state_n, frame, frame_n, file, file_n, out, out_n, written);
    if (number == PAIR_OK) {
        spoil_accepted(state, out, written);
        return refusing(STEP_REFUSES, number);
    }
    state[STATE_SET + 1] ^= fault == STEP_REFUSED_CHANGES_STATE;
    out[out_n - 1] ^= fault == STEP_REFUSED_WRITES;
    *written += fault == STEP_REFUSED_COUNTS;
    if (frame_n < PAIR_HEADER_BYTES)
        return accepting(STEP_TAKES_CUT_HEADER, PAIR_NO_KIND, number);
    if (is_frame_of_other_set(state, frame_n))
        return accepting(STEP_TAKES_OTHER_SET, PAIR_FRAME_LENGTH, number);
    number = accepting(state_n < PAIR_STATE_BYTES ? STEP_TAKES_CUT_STATE : STEP_TAKES_LITTLE_ROOM, PAIR_WRONG_LENGTH,
                       number);
    number = accepting(STEP_PASSES_OVER_BYTE_3, PAIR_BLOCK_LAYOUT, number);
    number = accepting(STEP_TAKES_TIED_ROWS, PAIR_TIED_ROWS, number);
    number = accepting(STEP_TAKES_DAMAGED, PAIR_OTHER_SESSION, number);
    number = accepting(STEP_TAKES_OTHER_LINE, PAIR_OTHER_LINE, number);
    number = accepting(STEP_TAKES_WHEN_DONE, PAIR_NOT_WAITED_FOR, number);
    return accepting(STEP_TAKES_CUT, PAIR_FRAME_LENGTH, number);
}

static uint32_t faulty_join(uint32_t set, const uint8_t *share0, size_t share0_n, const uint8_t *share1,
                            size_t share1_n, uint8_t *out, size_t out_n)
{
    uint32_t number = pair_join(set, share0, share0_n, share1, share1_n, out, out_n);
    if (number == PAIR_OK) {
        out[0] ^= fault == JOIN_OTHER_CODE;
        out[PAIR_CODE_BYTES_OF(set)] ^= fault == JOIN_WRITES_MORE;
    } else if (fault == JOIN_REFUSED_WRITES && number == PAIR_FRAME_LENGTH)
        out[0] = 0;
    number = accepting(JOIN_TAKES_DAMAGED, PAIR_OTHER_SIDE, number);
    number = accepting(JOIN_TAKES_OTHER_LINE, PAIR_OTHER_LINE, number);
    number = accepting(share0_n == share1_n ? JOIN_TAKES_OTHER_SET : JOIN_TAKES_CUT, PAIR_FRAME_LENGTH, number);
    return refusing(JOIN_REFUSES, number);
}

static uint32_t faulty_run(const uint8_t *input, size_t input_n, uint8_t *out, size_t out_n)
{
    uint32_t number = pair_run(input, input_n, out, out_n);
    out[PAIR_CODE_BYTES - 1] ^= fault == RUN_OTHER_CODE;
    return refusing(RUN_REFUSES, number);
}

static uint32_t faulty_evaluate(uint32_t set, const uint8_t *key, size_t key_n, const uint8_t *label, size_t label_n,
                                const uint8_t *file, size_t file_n, uint8_t *out, size_t out_n)
{
    uint32_t number = pair_evaluate(set, key, key_n, label, label_n, file, file_n, out, out_n);
    if (number == PAIR_OK) {
        out[PAIR_CODE_BYTES_OF(set) - 1] ^= fault == EVALUATE_OTHER_CODE;
        out[PAIR_CODE_BYTES_OF(set)] ^= fault == EVALUATE_WRITES_MORE;
    }
    number = accepting(EVALUATE_TAKES_TIED_ROWS, PAIR_TIED_ROWS, number);
    return refusing(EVALUATE_REFUSES, accepting(EVALUATE_PASSES_OVER_BYTE_3, PAIR_BLOCK_LAYOUT, number));
}

/* ---- the example, over them */

#define pair_matrix_write faulty_write
#define pair_matrix_check faulty_check
#define pair_matrix_read faulty_read
#define pair_tied_rows faulty_tied_rows
#define pair_sample faulty_sample
#define pair_deal faulty_deal
#define pair_begin faulty_begin
#define pair_step faulty_step
#define pair_join faulty_join
#define pair_run faulty_run
#define pair_evaluate faulty_evaluate
#define main self_test_main
#include "../../examples/self_test.c"
#undef main

int main(void)
{
    for (int i = NO_FAULT; i < FAULTS; i++) {
        fault = (enum fault)i;
        const char *found = self_test(), *right = first_failed[i];
        if (found == NULL ? right != NULL : right == NULL || strcmp(found, right) != 0) {
            fprintf(stderr, "faults: fault %d, found: %s\n", i, found == NULL ? "none" : found);
            return 1;
        }
        for (size_t byte = 0; byte < sizeof held; byte++) {
            if (((const uint8_t *)&held)[byte] != 0) {
                fprintf(stderr, "faults: fault %d, byte %zu was not wiped\n", i, byte);
                return 1;
            }
        }
    }
    printf("faults: %d seen by the self-test\n", FAULTS - 1);
    return 0;
}
