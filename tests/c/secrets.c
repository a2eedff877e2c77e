/* Whether time can tell a secret, under valgrind's memcheck: halves, labels, tapes, deals and what states
 * hold are marked as undefined, so memcheck reports every conditional jump and every address that depends
 * on them. What it may report is listed by name in secrets.supp.
 *
 *     secrets            every call in every set, with secrets.supp: no report may be left
 *     secrets reports    every call, without it: a name in secrets.supp stands for a whole function, so
 *                        here each call may make no more reports than what is listed can cause
 *     secrets jump       a jump that depends on a secret, with secrets.supp: memcheck must refuse it
 *     secrets address    an address that does: likewise
 *     secrets mask       a product of 64 bytes that jumps on each bit of a key: likewise
 *     secrets row        a test of a zero row that reads on behind the first trit that is not 0: likewise
 *
 * Not marked: sets, lengths, sides, sessions, lines, stages and the other bytes of headers, the matrix file, starts,
 * and of a sampler's source the bytes that trits are drawn from, also where some pairs of the first one are copied.
 * Which pairs of those are skipped decides where the others go and where the draw ends, and says nothing of
 * the others' values; memcheck can't tell the two apart. */
#include "inputs.h"
#include "secrets.h"
#include "service_pair.h"

#include <stdbool.h>
#include <stdio.h>
#include <stdlib.h>
#include <string.h>
#include <valgrind/memcheck.h>

/* A state is public up to the key half, and each of its fields has the longest set's bytes. */
enum { SESSION = 0x01020304, LINE = PAIR_LINE_STORAGE, LINE_AT = PAIR_HEADER_BYTES - 1 };
enum { STATE_KEY = PAIR_HEADER_BYTES + 1, STATE_LABEL = STATE_KEY + PAIR_MAX_KEY_BYTES };

/* The set that is tried; the bytes of a tape that are copied, and of a plane of the trits after them. */
static uint32_t set;
static size_t copied, plane;
static uint8_t rows[PAIR_MAX_ROWS_BYTES], file[PAIR_MAX_FILE_BYTES], source[PAIR_MAX_SOURCE_BYTES];
static uint8_t tape[PAIR_MAX_TAPE_BYTES], dealt[PAIR_MAX_DEALT_BYTES], input[PAIR_INPUT_BYTES];
static uint8_t keys[2][PAIR_MAX_KEY_BYTES], labels[2][PAIR_MAX_LABEL_BYTES], code[PAIR_MAX_CODE_BYTES];
static uint8_t states[2][PAIR_STATE_BYTES];
/* what each unit has sent last */
static uint8_t sent[2][PAIR_MAX_STEP_OUTPUT_BYTES];
static bool count_reports;
static unsigned calls;

void fail(const char *name, const char *what, unsigned long n)
{
    fprintf(stderr, "secrets: %s: %s (%lu)\n", name, what, n);
    exit(1);
}

void hide(void *bytes, size_t n)
{
    (void)VALGRIND_MAKE_MEM_UNDEFINED(bytes, n);
}

void show(void *bytes, size_t n)
{
    (void)VALGRIND_MAKE_MEM_DEFINED(bytes, n);
}

void hide_bits(uint8_t *byte, uint8_t marks)
{
    if (VALGRIND_SET_VBITS(byte, &marks, 1) != 1)
        fail("hide_bits", "memcheck's marks can't be set", marks);
}

void forbid(void *bytes, size_t n)
{
    (void)VALGRIND_MAKE_MEM_NOACCESS(bytes, n);
}

void expect_public(const char *name, const void *bytes, size_t n)
{
    if (VALGRIND_CHECK_MEM_IS_DEFINED(bytes, n) != 0)
        fail(name, "what should be public depends on a secret", n);
}

void expect_secret(const char *name, const uint8_t *bytes, size_t n)
{
    uint8_t bits[512];
    if (n > sizeof bits || VALGRIND_GET_VBITS(bytes, bits, n) != 1)
        fail(name, "memcheck's marks can't be read", n);
    for (size_t i = 0; i < n; i++)
        if (bits[i] == 0)
            fail(name, "a byte is no longer secret", i);
}

void expect(const char *name, uint32_t number, uint32_t right, unsigned most)
{
    static unsigned before;
    unsigned now = VALGRIND_COUNT_ERRORS, reports = now - before;
    show(&number, sizeof number);
    calls++;
    if (number != right)
        fail(name, "another number", number);
    if (count_reports && reports > most)
        fail(name, "more reports than what is listed can cause", reports);
    if (count_reports && reports == 0 && most > 0)
        fail(name, "no report, but one is listed", most);
    before = now;
}

/* ---- inputs */

static void make_inputs(void)
{
    plane = PAIR_ROW_BYTES_OF(set) / 2;
    copied = PAIR_TAPE_BYTES_OF(set) - 2 * plane;
    fill(rows, sizeof rows);
    make_fit(rows, sizeof rows, plane);
    expect("pair_matrix_write", pair_matrix_write(set, rows, PAIR_ROWS_BYTES_OF(set), file, sizeof file), PAIR_DONE, 0);
    fill(source, sizeof source);
    fill(tape, sizeof tape);
    make_fit(tape + copied, 2 * plane, plane);
    fill(keys[0], sizeof keys);
    fill(labels[0], sizeof labels);
    if (set == 1)
        make_input(input, keys, labels, tape, file);
    hide(tape, sizeof tape);
    hide(keys, sizeof keys);
    hide(labels, sizeof labels);
    hide(input, PAIR_INPUT_BYTES - PAIR_FILE_BYTES);
}

/* ---- calls */

/* A frame whose header tells nothing of a secret, and whose body does. */
static void expect_frame(const char *name, const uint8_t *frame, size_t n)
{
    expect_public(name, frame, PAIR_HEADER_BYTES);
    expect_secret(name, frame + PAIR_HEADER_BYTES, n - PAIR_HEADER_BYTES);
}

/* Draws from a start. Trits are drawn from byte `copied` after the start's own on. */
static void try_draws(uint64_t start)
{
    uint8_t sampled[PAIR_MAX_TAPE_BYTES];
    size_t n = PAIR_SOURCE_BYTES_OF(set);
    uint64_t next;
    show(source, sizeof source);
    hide(source + start / 4, copied);
    expect("pair_deal_source", pair_deal_source(set, SESSION, LINE, start, source, n, dealt, sizeof dealt, &next),
           PAIR_DONE, 0);
    expect_public("pair_deal_source", &next, sizeof next);
    expect("pair_sample", pair_sample(set, start, source, n, sampled, sizeof sampled, &next), PAIR_DONE, 0);
    expect_public("pair_sample", &next, sizeof next);
    expect_secret("pair_sample", sampled, copied);
    n = (size_t)(next - 1) / 4;
    expect("pair_sample, short source", pair_sample(set, start, source, n, sampled, sizeof sampled, &next),
           PAIR_SHORT_SOURCE, 0);
}

static void try_dealer(void)
{
    size_t n = PAIR_TAPE_BYTES_OF(set), frame_n = frame_bytes(set, 0);
    uint8_t unfit[PAIR_MAX_TAPE_BYTES], unread[PAIR_MAX_DEALT_BYTES];
    memcpy(unfit, tape, sizeof unfit);
    unfit[copied] = unfit[copied + plane] = 1;
    hide(unfit + copied, 2 * plane);
    expect("pair_deal, unfit", pair_deal(set, SESSION, LINE, unfit, n, unread, sizeof unread), PAIR_UNFIT_TRIT, 1);
    expect("pair_deal, no set", pair_deal(0, SESSION, LINE, tape, n, unread, sizeof unread), PAIR_NO_SET, 0);
    /* The number tells whether r0 is fit: one jump. */
    expect("pair_deal", pair_deal(set, SESSION, LINE, tape, n, dealt, sizeof dealt), PAIR_DONE, 1);
    expect_frame("pair_deal", dealt, frame_n);
    expect_frame("pair_deal", dealt + frame_n, frame_n);
}

/* A beginning that is refused, and leaves an idle state. */
static void try_idle(const char *name, uint32_t named, uint32_t side, uint32_t right)
{
    uint8_t idle[PAIR_STATE_BYTES];
    expect(name,
           pair_begin(named, side, SESSION, LINE, keys[0], PAIR_KEY_BYTES_OF(set), labels[0],
                      PAIR_LABEL_BYTES_OF(set), idle, sizeof idle),
           right, 0);
    expect_public(name, idle, sizeof idle);
}

static void try_beginnings(void)
{
    for (uint32_t side = 0; side < 2; side++) {
        uint8_t *state = states[side];
        expect("pair_begin",
               pair_begin(set, side, SESSION, LINE, keys[side], PAIR_KEY_BYTES_OF(set), labels[side],
                          PAIR_LABEL_BYTES_OF(set), state, PAIR_STATE_BYTES),
               PAIR_DONE, 0);
        expect_public("pair_begin", state, STATE_KEY);
        expect_secret("pair_begin", state + STATE_KEY, PAIR_KEY_BYTES_OF(set));
        expect_secret("pair_begin", state + STATE_LABEL, PAIR_LABEL_BYTES_OF(set));
    }
    try_idle("pair_begin, no side", set, 2, PAIR_NO_SIDE);
    try_idle("pair_begin, no set", PAIR_SETS + 1, 0, PAIR_NO_SET);
}

/* One step of a unit with a frame, its body secret from the start or made so by the caller. */
static void step(const char *name, int side, const uint8_t *frame, size_t n, uint32_t right, unsigned reports)
{
    uint8_t out[PAIR_MAX_STEP_OUTPUT_BYTES];
    size_t file_n = PAIR_FILE_BYTES_OF(set);
    uint64_t written;
    expect(name,
           pair_step(states[side], PAIR_STATE_BYTES, frame, n, file, file_n, out, sizeof out, &written),
           right, reports);
    expect_public(name, &written, sizeof written);
    expect_public(name, states[side], STATE_KEY);
    if (right == PAIR_DONE) {
        expect_frame(name, out, (size_t)written);
        memcpy(sent[side], out, sizeof out);
    }
}

/* Frames that are refused for their header or their length. */
static void try_refusals(int side, const uint8_t *frame, size_t n)
{
    uint8_t other[PAIR_MAX_DEAL_FRAME_BYTES];
    static const uint32_t numbers[PAIR_HEADER_BYTES] = {
        PAIR_NO_KIND,       PAIR_OTHER_SIDE,    PAIR_OTHER_SESSION, PAIR_OTHER_SESSION,
        PAIR_OTHER_SESSION, PAIR_OTHER_SESSION, PAIR_OTHER_LINE};
    for (size_t i = 0; i < PAIR_HEADER_BYTES; i++) {
        memcpy(other, frame, n);
        other[i] ^= 0x80;
        /* The line comes after a deal's r, whose test is one jump. */
        unsigned reports = i == LINE_AT && frame[0] == PAIR_DEAL;
        step("pair_step, other header", side, other, n, numbers[i], reports);
    }
    step("pair_step, short frame", side, frame, n - 1, PAIR_FRAME_LENGTH, 0);
}

/* r is the last of a deal. */
static void try_unfit_deal(int side)
{
    uint8_t unfit[PAIR_MAX_DEAL_FRAME_BYTES];
    size_t n = frame_bytes(set, 0), r = n - 2 * plane;
    memcpy(unfit, dealt + (size_t)side * n, n);
    unfit[r] = unfit[r + plane] = 1;
    hide(unfit + r, 2 * plane);
    step("pair_step, unfit deal", side, unfit, n, PAIR_UNFIT_TRIT, 1);
}

static void try_steps(void)
{
    static const char *const names[3] = {"pair_step, deal", "pair_step, open", "pair_step, mask"};
    uint8_t frames[2][PAIR_MAX_DEAL_FRAME_BYTES];
    for (int side = 0; side < 2; side++)
        memcpy(frames[side], dealt + (size_t)side * frame_bytes(set, 0), frame_bytes(set, 0));
    for (int kind = 0; kind < 3; kind++) {
        size_t n = frame_bytes(set, kind);
        for (int side = 0; side < 2; side++) {
            try_refusals(side, frames[side], n);
            if (kind == 0)
                try_unfit_deal(side);
            /* A deal's number tells whether its r is fit: one jump. */
            step(names[kind], side, frames[side], n, PAIR_DONE, kind == 0 ? 1 : 0);
        }
        /* The other unit takes it next; a share frame goes to the counter. */
        for (int side = 0; side < 2 && kind < 2; side++)
            memcpy(frames[1 - side], sent[side], sizeof sent[side]);
    }
    for (int side = 0; side < 2; side++) {
        expect_public("a done state", states[side], PAIR_STATE_BYTES);
        step("pair_step, done", side, frames[side], frame_bytes(set, 2), PAIR_NOT_WAITED_FOR, 0);
    }
}

static void try_evaluator(void)
{
    expect("pair_evaluate",
           pair_evaluate(set, keys[0], PAIR_KEY_BYTES_OF(set), labels[0], PAIR_LABEL_BYTES_OF(set), file,
                         PAIR_FILE_BYTES_OF(set), code, sizeof code),
           PAIR_DONE, 0);
    expect_secret("pair_evaluate", code, PAIR_DIGITS_OF(set) / 8);
}

/* Set 1 alone has it. Whether r is fit is asked of the tape, and by each unit of its deal. */
static void try_run(void)
{
    expect("pair_run", pair_run(input, sizeof input, code, sizeof code), PAIR_DONE, 3);
    expect_secret("pair_run", code, PAIR_CODE_DIGITS / 8);
}

static void try_set(void)
{
    make_inputs();
    for (uint64_t start = 0; start < 8; start++)
        try_draws(start);
    try_dealer();
    try_beginnings();
    try_steps();
    try_evaluator();
    if (set == 1)
        try_run();
}

/* ---- what memcheck must refuse */

static void leak_by_jump(void)
{
    uint8_t secret = 7;
    hide(&secret, sizeof secret);
    if (secret == 7)
        calls++;
}

static void leak_by_address(void)
{
    static const volatile uint8_t table[256] = {1};
    uint8_t secret = 7;
    hide(&secret, sizeof secret);
    (void)table[secret];
}

int main(int argc, char **argv)
{
    static const struct {
        const char *name;
        void (*leak)(void);
    } leaks[] = {{"jump", leak_by_jump}, {"address", leak_by_address}, {"mask", leak_by_mask}, {"row", leak_by_row}};
    const char *how = argc > 1 ? argv[1] : "";
    if (!RUNNING_ON_VALGRIND)
        fail("main", "this is a test for valgrind, and proves nothing without it", 0);
    for (size_t i = 0; i < sizeof leaks / sizeof leaks[0]; i++)
        if (strcmp(how, leaks[i].name) == 0) {
            leaks[i].leak();
            return 0;
        }
    count_reports = strcmp(how, "reports") == 0;
    for (set = 1; set <= PAIR_SETS; set++)
        try_set();
    try_sizes();
    printf("secrets: %u calls%s\n", calls, count_reports ? ", reports counted" : "");
    return 0;
}
