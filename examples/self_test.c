/* What a host runs at power-on: in each set, and there in both lines, a sample whose code is known, through matrix
 * writer, dealer, both units and the counter's join, matrices whose tied rows are known, and frames, files, matrices
 * and sets that must be refused.
 *
 *     self_test
 *
 * It needs no file and no random source. Prints that it passed and ends with 0; or says which check failed first, in
 * which set and line, and ends with 1. */
#include "service_pair.h"
#include "service_pair_text.h"

#include <stdbool.h>
#include <stdio.h>
#include <string.h>

/* The interface that this host was written for. Another one does not compile, where the host would else go
 * wrong; and a library of other lengths than this header's refuses the sample with 1. */
#if PAIR_VERSION_MAJOR != 5 || PAIR_VERSION < PAIR_VERSION_OF(5, 1, 0)
#error "this host is written for version 5 of service_pair.h, from 5.1 on"
#endif
_Static_assert(sizeof(size_t) == sizeof(uint64_t), "the library is for 64 bits");

/* A state begins as a frame does, which ends in the line; its set comes next, and then what is secret. */
enum { SESSION = 1, STEPS = 3, LINE_AT = PAIR_HEADER_BYTES - 1, SET_AT, SECRET_AT, UNWRITTEN = 0xa5 };

/* The set and the line that are tested. */
static uint32_t set;
static uint8_t line;

/* All that the test holds, in one place, to be wiped as a unit's own would be. */
static struct {
    uint8_t keys[2][PAIR_MAX_KEY_BYTES], labels[2][PAIR_MAX_LABEL_BYTES], tape[PAIR_MAX_TAPE_BYTES];
    uint8_t rows[PAIR_MAX_ROWS_BYTES], file[PAIR_MAX_FILE_BYTES], dealt[PAIR_MAX_DEALT_BYTES];
    uint8_t states[2][PAIR_STATE_BYTES];
    /* the frame that each unit is handed next; at last its share */
    uint8_t frames[2][PAIR_MAX_DEAL_FRAME_BYTES];
    /* a byte more than a call may write */
    uint8_t out[PAIR_MAX_STEP_OUTPUT_BYTES + 1], code[PAIR_MAX_CODE_BYTES + 1], tie[PAIR_MAX_TIE_BYTES + 1];
    uint8_t key[PAIR_MAX_KEY_BYTES], label[PAIR_MAX_LABEL_BYTES], input[PAIR_INPUT_BYTES];
    char digits[PAIR_MAX_DIGITS + 1];
} held;

static const char *failed;
static uint32_t failed_set;
static uint8_t failed_line;

/* A failed check does not end the test: calls take any bytes, and all that is held is wiped at the end. */
static void check(bool holds, const char *what)
{
    if (holds || failed != NULL)
        return;
    failed = what;
    failed_set = set;
    failed_line = line;
}

static bool all_are(uint8_t value, const uint8_t *bytes, size_t n)
{
    for (size_t i = 0; i < n; i++)
        if (bytes[i] != value)
            return false;
    return true;
}

/* The length of the frame that a step takes, and after the last one of the share, in any set. */
static size_t frame_bytes(uint32_t of_set, int step)
{
    const int bytes[STEPS + 1] = {PAIR_DEAL_FRAME_BYTES_OF(of_set), PAIR_OPEN_FRAME_BYTES_OF(of_set),
                                  PAIR_MASK_FRAME_BYTES_OF(of_set), PAIR_SHARE_FRAME_BYTES_OF(of_set)};
    return (size_t)bytes[step];
}

/* Row i has trit 1 in column i alone, so a code's digits are the inner vector's first bits. The key is
 * 01 and then zeros, the label 05, so the inner vector is 05. The second halves and the tape are zero. */
static void make_sample(void)
{
    for (int i = 0; i < PAIR_DIGITS_OF(set); i++)
        held.rows[i * PAIR_ROW_BYTES_OF(set) + i / 8] = (uint8_t)(1 << i % 8);
    held.keys[0][0] = 1;
    held.labels[0][0] = 5;
    check(pair_matrix_write(set, held.rows, PAIR_ROWS_BYTES_OF(set), held.file, sizeof held.file) == PAIR_OK,
          "the matrix file is written");
    check(pair_matrix_check(set, held.file, PAIR_FILE_BYTES_OF(set)) == PAIR_OK, "the matrix file is fit");
}

/* Whether the code, and no byte after it, was written over what clear_code has left. */
static bool is_code(void)
{
    static const uint8_t known[PAIR_MAX_CODE_BYTES] = {5};
    size_t n = PAIR_CODE_BYTES_OF(set);
    return memcmp(held.code, known, n) == 0 && all_are(UNWRITTEN, held.code + n, sizeof held.code - n);
}

static void clear_code(void)
{
    memset(held.code, UNWRITTEN, sizeof held.code);
}

/* ---- matrices and sets */

/* A block's check: two sums modulo 255. */
static void make_block_check(uint8_t block[PAIR_BLOCK_BYTES])
{
    unsigned first = 0, second = 0;
    for (int i = 0; i < PAIR_BLOCK_BYTES - 2; i++) {
        first = (first + block[i]) % 255;
        second = (second + first) % 255;
    }
    block[PAIR_BLOCK_BYTES - 2] = (uint8_t)first;
    block[PAIR_BLOCK_BYTES - 1] = (uint8_t)second;
}

/* Gives row 1 or 2 this digit in one of the first columns and 0 in all others. Rows begin at byte 4 of a block, and
 * these are in the first one in every set. */
static void make_row(size_t i, int column, int digit)
{
    uint8_t row[PAIR_MAX_ROW_BYTES] = {0};
    size_t n = PAIR_ROW_BYTES_OF(set);
    row[0] = (uint8_t)((digit == 1) << column);
    row[n / 2] = (uint8_t)((digit == 2) << column);
    memcpy(held.rows + i * n, row, n);
    memcpy(held.file + 4 + i * n, row, n);
    make_block_check(held.file);
}

/* Row 2 becomes twice row 0, so that digit 2 of every code would tell digit 0; or what it was. */
static void tie_rows(bool tied)
{
    make_row(2, tied ? 0 : 2, tied ? 2 : 1);
}

static void check_tied_rows(void)
{
    size_t file_n = PAIR_FILE_BYTES_OF(set), rows_n = PAIR_ROWS_BYTES_OF(set), n = PAIR_KEY_BYTES_OF(set);
    tie_rows(true);
    check(pair_matrix_write(set, held.rows, rows_n, held.file, sizeof held.file) == PAIR_TIED_ROWS &&
              pair_matrix_check(set, held.file, file_n) == PAIR_TIED_ROWS &&
              pair_matrix_read(set, held.file, file_n, held.rows, sizeof held.rows) == PAIR_TIED_ROWS &&
              pair_evaluate(set, held.key, n, held.label, n, held.file, file_n, held.code, sizeof held.code) ==
                  PAIR_TIED_ROWS,
          "a matrix whose rows are tied is refused by its number");
    tie_rows(false);
}

/* Asks which rows are tied, with so much room. */
static uint32_t ask_tied_rows(size_t room, uint64_t *count)
{
    *count = UNWRITTEN;
    memset(held.tie, UNWRITTEN, sizeof held.tie);
    return pair_tied_rows(set, held.file, PAIR_FILE_BYTES_OF(set), held.tie, room, count);
}

static void check_list_refused(size_t room, uint32_t right, const char *what)
{
    uint64_t count;
    check(ask_tied_rows(room, &count) == right, what);
    check(all_are(UNWRITTEN, held.tie, sizeof held.tie) && count == 0, "a refused list writes and counts nothing");
}

static void check_list(uint64_t rows, const uint8_t *list)
{
    size_t room = PAIR_TIE_BYTES_OF(set), n = 2 * (size_t)rows;
    uint64_t count;
    check_list_refused(room - 1, PAIR_WRONG_LENGTH, "a list wants room for all rows of its set");
    check(ask_tied_rows(room, &count) == PAIR_OK, "a list of tied rows is written");
    check(count == rows, "the rows of a list are counted");
    check(memcmp(held.tie, list, n) == 0 && all_are(UNWRITTEN, held.tie + n, sizeof held.tie - n),
          "a list has the tied rows with their digits and no byte more");
}

/* Row 2 is made 0, 1 and 2 times row 0. A zero row is tied alone; row 0 and its equal, counted twice, add to the zero
 * row, and so do row 0 and its double, counted once. With a zero row before them they are not told. */
static void check_lists(void)
{
    static const uint8_t zero[] = {2, 1}, equal[] = {0, 1, 2, 2}, doubled[] = {0, 1, 2, 1}, before[] = {1, 1};
    size_t room = PAIR_TIE_BYTES_OF(set);
    check_list_refused(room, PAIR_NOT_TIED, "a fit matrix has no list of tied rows");
    check_list_refused(room - 1, PAIR_WRONG_LENGTH, "a list wants room for all rows of its set");
    make_row(2, 0, 0);
    check_list(1, zero);
    make_row(2, 0, 1);
    check_list(2, equal);
    make_row(2, 0, 2);
    check_list(2, doubled);
    make_row(1, 0, 0);
    check_list(1, before);
    make_row(1, 1, 1);
    tie_rows(false);
}

/* Blocks have their set in byte 3. */
static void name_set_in_file(uint32_t named)
{
    held.file[3] = (uint8_t)named;
    make_block_check(held.file);
}

/* The file of this set under another, which has another length; and a block of another set in it. */
static void check_file_of_other_set(void)
{
    size_t file_n = PAIR_FILE_BYTES_OF(set), n = PAIR_KEY_BYTES_OF(set);
    uint32_t other = set % PAIR_SETS + 1;
    uint64_t count;
    check(pair_matrix_check(other, held.file, file_n) == PAIR_WRONG_LENGTH,
          "a file of another set is refused by its length");
    name_set_in_file(other);
    check(pair_matrix_check(set, held.file, file_n) == PAIR_BLOCK_LAYOUT &&
              pair_matrix_read(set, held.file, file_n, held.rows, sizeof held.rows) == PAIR_BLOCK_LAYOUT &&
              ask_tied_rows(sizeof held.tie, &count) == PAIR_BLOCK_LAYOUT &&
              pair_evaluate(set, held.key, n, held.label, n, held.file, file_n, held.code, sizeof held.code) ==
                  PAIR_BLOCK_LAYOUT,
          "a block of another set is refused by its number");
    name_set_in_file(set);
}

/* A beginning with a wrong side, a line and empty halves, for state slices of two lengths. */
static void check_refused_beginning(uint32_t right)
{
    uint8_t *state = held.states[0];
    size_t n = PAIR_STATE_BYTES;
    memset(state, UNWRITTEN, n);
    check(pair_begin(set, 2, SESSION, PAIR_LINE_STORAGE, held.key, 0, held.label, 0, state, n - 1) == right,
          "a beginning is refused by its number");
    check(all_are(UNWRITTEN, state, n), "a state slice of another length is left as it was");
    check(pair_begin(set, 2, SESSION, PAIR_LINE_STORAGE, held.key, 0, held.label, 0, state, n) == right,
          "a beginning is refused by its number");
    check(state[SET_AT] == 1 && all_are(0, state, SET_AT) && all_are(0, state + SECRET_AT, n - SECRET_AT),
          "a refused beginning writes the idle state");
}

/* The calls that name a set, with a number that is none. Inputs are empty, so 1, 3 or 13 would be right for a set. */
static void check_without_set(void)
{
    const uint8_t *in = held.file;
    uint8_t *out = held.out;
    size_t out_n = sizeof held.out;
    uint64_t next = 1, dealt_next = 1, count = 1;
    memset(out, UNWRITTEN, out_n);
    const uint32_t numbers[] = {
        pair_matrix_check(set, in, 0),
        pair_matrix_write(set, in, 0, out, out_n),
        pair_matrix_read(set, in, 0, out, out_n),
        pair_tied_rows(set, in, 0, out, out_n, &count),
        pair_evaluate(set, in, 0, in, 0, in, 0, out, out_n),
        pair_sample(set, 0, in, 0, out, out_n, &next),
        pair_deal(set, SESSION, line, in, 0, out, out_n),
        pair_deal_source(set, SESSION, line, 0, in, 0, out, out_n, &dealt_next),
        pair_join(set, in, 0, in, 0, out, out_n),
    };
    for (size_t i = 0; i < sizeof numbers / sizeof numbers[0]; i++)
        check(numbers[i] == PAIR_NO_SET, "a number that is no set is refused before all else");
    check(all_are(UNWRITTEN, out, out_n), "a call without a set writes nothing");
    check(next == 0 && dealt_next == 0 && count == 0, "a call without a set sets a place or count to 0");
    check_refused_beginning(PAIR_NO_SET);
}

/* ---- units */

/* The numbers of a frame with one changed byte in its header. */
static const uint32_t header_numbers[PAIR_HEADER_BYTES] = {
    PAIR_NO_KIND,       PAIR_OTHER_SIDE,    PAIR_OTHER_SESSION, PAIR_OTHER_SESSION,
    PAIR_OTHER_SESSION, PAIR_OTHER_SESSION, PAIR_OTHER_LINE};

/* What a unit is handed, and how much of its state and of the room for its answer. */
struct handed {
    const uint8_t *frame;
    size_t frame_n, state_n, out_n;
};

/* A frame, with a whole state and the least room. */
static struct handed a_frame(const uint8_t *frame, size_t n)
{
    return (struct handed){frame, n, PAIR_STATE_BYTES, PAIR_STEP_OUTPUT_BYTES_OF(set)};
}

/* Hands a unit what it must refuse, and looks that it has changed nothing. */
static void check_refused(int side, struct handed handed, uint32_t right, const char *what)
{
    uint8_t state[PAIR_STATE_BYTES];
    uint64_t written = 1;
    memcpy(state, held.states[side], sizeof state);
    memset(held.out, UNWRITTEN, sizeof held.out);
    uint32_t number = pair_step(held.states[side], handed.state_n, handed.frame, handed.frame_n, held.file,
                                PAIR_FILE_BYTES_OF(set), held.out, handed.out_n, &written);
    check(number == right, what);
    check(memcmp(state, held.states[side], sizeof state) == 0, "a refused frame leaves the state as it was");
    check(all_are(UNWRITTEN, held.out, sizeof held.out) && written == 0, "a refused frame writes nothing");
    pair_wipe(state, sizeof state);
}

/* The frame that is waited for, damaged: each byte of its header, cut, and with another set's length. */
static void check_damaged(int side, int step)
{
    uint8_t *frame = held.frames[side];
    size_t n = frame_bytes(set, step), other_n = frame_bytes(set % PAIR_SETS + 1, step);
    for (int i = 0; i < PAIR_HEADER_BYTES; i++) {
        frame[i] ^= 0x80;
        check_refused(side, a_frame(frame, n), header_numbers[i],
                      "a frame with a damaged header is refused by its number");
        frame[i] ^= 0x80;
    }
    check_refused(side, a_frame(frame, n - 1), PAIR_FRAME_LENGTH, "a cut frame is refused by its number");
    check_refused(side, a_frame(frame, PAIR_HEADER_BYTES - 1), PAIR_NO_KIND, "a cut header is refused by its number");
    check_refused(side, a_frame(frame, other_n), PAIR_FRAME_LENGTH, "a frame of another set is refused by its length");
}

/* The frame that is waited for, but too little of the state or of the room, or a file with a block of another set or
 * with tied rows. */
static void check_slices(int side, int step)
{
    const struct handed whole = a_frame(held.frames[side], frame_bytes(set, step));
    struct handed handed = whole;
    handed.state_n--;
    check_refused(side, handed, PAIR_WRONG_LENGTH, "a step wants a whole state");
    handed = whole;
    handed.out_n--;
    check_refused(side, handed, PAIR_WRONG_LENGTH, "a step wants its set's room for an answer");
    if (step < STEPS - 1)
        return;
    name_set_in_file(set % PAIR_SETS + 1);
    check_refused(side, whole, PAIR_BLOCK_LAYOUT, "a step with a block of another set is refused by its number");
    name_set_in_file(set);
    tie_rows(true);
    check_refused(side, whole, PAIR_TIED_ROWS, "a step with tied rows is refused by its number");
    tie_rows(false);
}

static void begin_units(void)
{
    size_t n = frame_bytes(set, 0);
    check(pair_deal(set, SESSION, line, held.tape, PAIR_TAPE_BYTES_OF(set), held.dealt, sizeof held.dealt) == PAIR_OK,
          "the dealer deals");
    for (int side = 0; side < 2; side++) {
        uint8_t *state = held.states[side];
        memcpy(held.frames[side], held.dealt + (size_t)side * n, n);
        check(pair_begin(set, (uint32_t)side, SESSION, line, held.keys[side], PAIR_KEY_BYTES_OF(set), held.labels[side],
                         PAIR_LABEL_BYTES_OF(set), state, PAIR_STATE_BYTES) == PAIR_OK,
              "a unit begins");
        check(state[0] == PAIR_STAGE_AWAITS_DEAL, "a unit that has begun waits for its deal");
        check(state[LINE_AT] == line && state[SET_AT] == set, "a unit that has begun has its line and its set");
    }
}

/* One step of a unit, with an output slice as short as it may be. */
static void step_unit(int side, int step)
{
    static const uint8_t stages[STEPS] = {PAIR_STAGE_AWAITS_OPEN, PAIR_STAGE_AWAITS_MASK, PAIR_STAGE_DONE};
    uint64_t written;
    check_damaged(side, step);
    check_slices(side, step);
    memset(held.out, UNWRITTEN, sizeof held.out);
    check(pair_step(held.states[side], PAIR_STATE_BYTES, held.frames[side], frame_bytes(set, step), held.file,
                    PAIR_FILE_BYTES_OF(set), held.out, PAIR_STEP_OUTPUT_BYTES_OF(set), &written) == PAIR_OK,
          "a unit takes the frame that it waits for");
    size_t n = frame_bytes(set, step + 1);
    check(written == n, "a unit's frame has its kind's length");
    check(held.out[LINE_AT] == line, "a unit's frame has its line");
    check(all_are(UNWRITTEN, held.out + n, sizeof held.out - n), "a unit writes its frame and nothing after it");
    check(held.states[side][0] == stages[step], "a unit goes on to its next stage");
}

/* One step of both units, each with the frame of the one before. */
static void step_units(int step)
{
    uint8_t sent[2][PAIR_MAX_STEP_OUTPUT_BYTES];
    for (int side = 0; side < 2; side++) {
        step_unit(side, step);
        memcpy(sent[side], held.out, sizeof sent[side]);
    }
    /* A share frame goes to the counter, the others to the other unit. */
    for (int side = 0; side < 2; side++)
        memcpy(held.frames[step < STEPS - 1 ? 1 - side : side], sent[side], sizeof sent[side]);
}

static void check_done(void)
{
    size_t n = frame_bytes(set, 0);
    for (int side = 0; side < 2; side++) {
        const uint8_t *state = held.states[side];
        check(state[1] == side && state[2] == SESSION && all_are(0, state + 3, 3) && state[LINE_AT] == line &&
                  state[SET_AT] == set,
              "a done unit keeps its side, session, line and set");
        check(all_are(0, state + SECRET_AT, PAIR_STATE_BYTES - SECRET_AT), "a done unit keeps no secret");
        check_refused(side, a_frame(held.dealt + (size_t)side * n, n), PAIR_NOT_WAITED_FOR,
                      "a done unit takes no frame");
    }
}

/* ---- the counter, and the whole in one place */

static void check_join(void)
{
    uint8_t *share0 = held.frames[0], *share1 = held.frames[1];
    size_t n = frame_bytes(set, STEPS), code_n = PAIR_CODE_BYTES_OF(set);
    clear_code();
    for (int i = 0; i < PAIR_HEADER_BYTES; i++) {
        share1[i] ^= 0x80;
        check(pair_join(set, share0, n, share1, n, held.code, code_n) == header_numbers[i],
              "a share with a damaged header is refused by its number");
        share1[i] ^= 0x80;
    }
    check(pair_join(set, share0, n, share1, n - 1, held.code, code_n) == PAIR_FRAME_LENGTH,
          "a cut share is refused by its number");
    check(pair_join(set % PAIR_SETS + 1, share0, n, share1, n, held.code, sizeof held.code) == PAIR_FRAME_LENGTH,
          "a share of another set is refused by its length");
    check(all_are(UNWRITTEN, held.code, sizeof held.code), "a refused share writes nothing");
    check(pair_join(set, share0, n, share1, n, held.code, code_n) == PAIR_OK, "the counter joins");
    check(is_code(), "two units give the sample's code and no byte more");
    pair_code_digits(set, held.code, held.digits);
    check(strncmp(held.digits, "101", 3) == 0 && strlen(held.digits) == (size_t)PAIR_DIGITS_OF(set) &&
              strspn(held.digits + 3, "0") == strlen(held.digits) - 3,
          "the code's digits are 101 and zeros");
}

/* The evaluator, on the sums of the halves. */
static void check_evaluator(void)
{
    size_t n = PAIR_KEY_BYTES_OF(set);
    for (size_t i = 0; i < n; i++) {
        held.key[i] = held.keys[0][i] ^ held.keys[1][i];
        held.label[i] = held.labels[0][i] ^ held.labels[1][i];
    }
    clear_code();
    check(pair_evaluate(set, held.key, n, held.label, n, held.file, PAIR_FILE_BYTES_OF(set), held.code,
                        sizeof held.code) == PAIR_OK,
          "the evaluator evaluates");
    check(is_code(), "the evaluator gives the sample's code and no byte more");
}

static uint8_t *put(uint8_t *to, const uint8_t *bytes, size_t n)
{
    memcpy(to, bytes, n);
    return to + n;
}

/* A whole run in one place, which set 1 alone has, in line 0. */
static void check_run(void)
{
    uint8_t *to = held.input;
    for (int side = 0; side < 2; side++)
        to = put(to, held.keys[side], PAIR_KEY_BYTES);
    for (int side = 0; side < 2; side++)
        to = put(to, held.labels[side], PAIR_LABEL_BYTES);
    to = put(to, held.tape, PAIR_TAPE_BYTES);
    to = put(to, held.file, PAIR_FILE_BYTES);
    clear_code();
    check(pair_run(held.input, (size_t)(to - held.input), held.code, sizeof held.code) == PAIR_OK,
          "a whole run is accepted");
    check(is_code(), "a whole run gives the sample's code and no byte more");
}

static void test_set(void)
{
    make_sample();
    check_tied_rows();
    check_lists();
    check_file_of_other_set();
    check_refused_beginning(PAIR_WRONG_LENGTH);
    begin_units();
    for (int step = 0; step < STEPS; step++)
        step_units(step);
    check_done();
    check_join();
    check_evaluator();
    if (set == 1 && line == PAIR_LINE_BIKES)
        check_run();
    /* Whatever came out. */
    pair_wipe(&held, sizeof held);
}

/* The first check that failed, or NULL. */
static const char *self_test(void)
{
    static const uint32_t none[] = {0, PAIR_SETS + 1, UINT32_MAX};
    failed = NULL;
    line = PAIR_LINE_BIKES;
    for (size_t i = 0; i < sizeof none / sizeof none[0]; i++) {
        set = none[i];
        check_without_set();
    }
    for (set = 1; set <= PAIR_SETS; set++)
        for (line = PAIR_LINE_BIKES; line <= PAIR_LINE_STORAGE; line++)
            test_set();
    pair_wipe_stack();
    return failed;
}

int main(void)
{
    const char *check_failed = self_test();
    if (check_failed != NULL) {
        fprintf(stderr, "self-test failed with set %u, line %u: %s\n", (unsigned)failed_set, (unsigned)failed_line,
                check_failed);
        return 1;
    }
    printf("self-test passed, interface %d.%d.%d\n", PAIR_VERSION_MAJOR, PAIR_VERSION_MINOR, PAIR_VERSION_PATCH);
    return 0;
}
