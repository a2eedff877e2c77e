/* How deep calls go on the stack, and what they leave there. Each is made in every set on a stack of its own, which is
 * filled with a pattern before and looked at afterwards; with random rows, and with rows that only all columns together
 * tell not to be tied:
 *
 *     stack        no call goes deeper than service_pair.h says, or than it did; pair_wipe_stack leaves no piece of a secret,
 *                  and pair_wipe none of a buffer whose function has returned
 *     stack all    the same, and prints each call's bytes, and the secret bytes that it leaves; then, for the table
 *                  in service_pair.h, the most that each call uses in any set, in tenths of a KiB, rounded up
 *
 * Compiled without sanitizers, which move buffers elsewhere, and optimized as little and as far as can be. */
#define _DEFAULT_SOURCE
#include "inputs.h"
#include "service_pair.h"
#include "service_pair_text.h"

#include <stdbool.h>
#include <stdio.h>
#include <stdlib.h>
#include <string.h>
#include <ucontext.h>

enum { SESSION = 0x01020304, LINE = PAIR_LINE_STORAGE, STACK = 65536, PIECE = 8, KIB = 1024 };

static void fail(const char *name, const char *what)
{
    fprintf(stderr, "stack: %s: %s\n", name, what);
    exit(1);
}

static void made(const char *what, uint32_t number)
{
    if (number != PAIR_OK)
        fail(what, pair_number_text(number));
}

/* ---- what the calls are given */

/* The set of the calls. */
static uint32_t set;
static uint8_t rows[PAIR_MAX_ROWS_BYTES], file[PAIR_MAX_FILE_BYTES], source[PAIR_MAX_SOURCE_BYTES];
/* the file with its last row tied to all others */
static uint8_t tied_file[PAIR_MAX_FILE_BYTES];
static uint8_t tape[PAIR_MAX_TAPE_BYTES], dealt[PAIR_MAX_DEALT_BYTES], input[PAIR_INPUT_BYTES];
static uint8_t keys[2][PAIR_MAX_KEY_BYTES], labels[2][PAIR_MAX_LABEL_BYTES];
/* what a draw that begins inside a byte makes */
static uint8_t inside_tape[PAIR_MAX_TAPE_BYTES], inside_dealt[PAIR_MAX_DEALT_BYTES];
/* unit 0's state before each step, the frame of each step, and both units' shares */
static uint8_t states[3][PAIR_STATE_BYTES], frames[3][PAIR_MAX_DEAL_FRAME_BYTES], shares[2][PAIR_MAX_SHARE_FRAME_BYTES];
/* what a call writes, each large enough for all of them */
static uint8_t out[PAIR_MAX_FILE_BYTES], state[PAIR_STATE_BYTES];
static uint64_t count;

/* The tape from a start, and what is dealt of it. */
static void make_tape(uint64_t start, uint8_t *to_tape, uint8_t *to_dealt)
{
    size_t tape_n = PAIR_TAPE_BYTES_OF(set);
    made("pair_sample", pair_sample(set, start, source, PAIR_SOURCE_BYTES_OF(set), to_tape, tape_n, &count));
    made("pair_deal", pair_deal(set, SESSION, LINE, to_tape, tape_n, to_dealt, PAIR_DEALT_BYTES_OF(set)));
}

/* Random rows; or near to tied ones. */
static void make_rows(bool near)
{
    size_t n = PAIR_ROW_BYTES_OF(set);
    fill(rows, sizeof rows);
    make_fit(rows, sizeof rows, n / 2);
    if (near)
        make_near(rows, n);
}

static void make_inputs(bool near)
{
    make_rows(near);
    made("pair_matrix_write", pair_matrix_write(set, rows, PAIR_ROWS_BYTES_OF(set), file, sizeof file));
    memcpy(tied_file, file, sizeof tied_file);
    tie_last_row(set, rows, tied_file);
    made("pair_tied_rows", pair_tied_rows(set, tied_file, PAIR_FILE_BYTES_OF(set), out, sizeof out, &count));
    fill(source, sizeof source);
    make_tape(0, tape, dealt);
    make_tape(1, inside_tape, inside_dealt);
    fill(keys[0], sizeof keys);
    fill(labels[0], sizeof labels);
    if (set == 1)
        make_input(input, keys, labels, tape, file);
}

static void make_steps(void)
{
    uint8_t now[2][PAIR_STATE_BYTES], taken[2][PAIR_MAX_DEAL_FRAME_BYTES], sent[2][PAIR_MAX_STEP_OUTPUT_BYTES];
    for (int side = 0; side < 2; side++) {
        memcpy(taken[side], dealt + (size_t)side * frame_bytes(set, 0), frame_bytes(set, 0));
        made("pair_begin", pair_begin(set, (uint32_t)side, SESSION, LINE, keys[side], PAIR_KEY_BYTES_OF(set),
                                      labels[side], PAIR_LABEL_BYTES_OF(set), now[side], PAIR_STATE_BYTES));
    }
    for (int step = 0; step < 3; step++) {
        memcpy(states[step], now[0], PAIR_STATE_BYTES);
        memcpy(frames[step], taken[0], frame_bytes(set, step));
        for (int side = 0; side < 2; side++)
            made("pair_step", pair_step(now[side], PAIR_STATE_BYTES, taken[side], frame_bytes(set, step), file,
                                        PAIR_FILE_BYTES_OF(set), sent[side], sizeof sent[side], &count));
        for (int side = 0; side < 2; side++)
            memcpy(taken[1 - side], sent[side], (size_t)count);
    }
    for (int side = 0; side < 2; side++)
        memcpy(shares[side], sent[side], frame_bytes(set, 3));
}

/* ---- a stack of its own */

static uint8_t stack[STACK] __attribute__((aligned(64)));
static ucontext_t here, there;
static void (*work)(void);
static bool wipes;
/* where the stack ended just before the call, and all below it was free */
static uint8_t *volatile end;

#define MARK_END() __asm__ volatile("mov %%rsp, %0" : "=m"(end) : : "memory")

static void enter(void)
{
    work();
    swapcontext(&there, &here);
}

static void on_own_stack(void (*run)(void), uint8_t pattern, bool wiping)
{
    memset(stack, pattern, sizeof stack);
    work = run;
    wipes = wiping;
    if (getcontext(&there) != 0)
        fail("getcontext", "failed");
    there.uc_stack.ss_sp = stack;
    there.uc_stack.ss_size = sizeof stack;
    there.uc_link = NULL;
    makecontext(&there, enter, 0);
    if (swapcontext(&here, &there) != 0)
        fail("swapcontext", "failed");
}

/* How far below `end` the pattern is gone. */
static size_t depth(uint8_t pattern)
{
    const uint8_t *p = stack;
    while (p < end && *p == pattern)
        p++;
    return (size_t)(end - p);
}

/* Marks the bytes below `end` that are a piece of a secret: PIECE bytes in a row as they stand somewhere in
 * it. Pieces that are mostly zero are passed over. */
static void mark(const uint8_t *secret, size_t n, uint8_t marks[STACK])
{
    for (size_t at = 0; at + PIECE <= n; at++) {
        int zeros = 0;
        for (int i = 0; i < PIECE; i++)
            zeros += secret[at + i] == 0;
        if (zeros > PIECE / 2)
            continue;
        for (const uint8_t *p = stack; p + PIECE <= end; p++)
            if (*p == secret[at] && memcmp(p, secret + at, PIECE) == 0)
                memset(marks + (p - stack), 1, PIECE);
    }
}

/* Both deals of a dealer. */
static void mark_dealt(const uint8_t both[PAIR_MAX_DEALT_BYTES], uint8_t marks[STACK])
{
    const size_t n = frame_bytes(set, 0), body = n - PAIR_HEADER_BYTES;
    mark(both + PAIR_HEADER_BYTES, body, marks);
    mark(both + n + PAIR_HEADER_BYTES, body, marks);
}

/* How many bytes below `end` are of a secret: halves, source, tapes, deals, unit 0's mask. */
static size_t secret_bytes(void)
{
    static uint8_t marks[STACK];
    size_t tape_n = PAIR_TAPE_BYTES_OF(set), sum = 0;
    memset(marks, 0, sizeof marks);
    for (int side = 0; side < 2; side++) {
        mark(keys[side], PAIR_KEY_BYTES_OF(set), marks);
        mark(labels[side], PAIR_LABEL_BYTES_OF(set), marks);
    }
    mark(source, PAIR_SOURCE_BYTES_OF(set), marks);
    mark(tape, tape_n, marks);
    mark(inside_tape, tape_n, marks);
    mark_dealt(dealt, marks);
    mark_dealt(inside_dealt, marks);
    /* a state's last field */
    mark(states[2] + PAIR_STATE_BYTES - PAIR_MAX_KEY_BYTES, PAIR_KEY_BYTES_OF(set), marks);
    for (size_t i = 0; i < sizeof marks; i++)
        sum += marks[i];
    return sum;
}

static size_t copies_of(const uint8_t *half)
{
    size_t n = PAIR_KEY_BYTES_OF(set), sum = 0;
    for (const uint8_t *p = stack; p + n <= end; p++)
        sum += memcmp(p, half, n) == 0;
    return sum;
}

/* ---- calls, each as a host makes it: the wipe comes in the same function */

#define CALL(name, call)                                                                                              \
    static void name(void)                                                                                            \
    {                                                                                                                 \
        MARK_END();                                                                                                   \
        uint32_t number = call;                                                                                       \
        if (wipes)                                                                                                    \
            pair_wipe_stack();                                                                                        \
        made(#name, number);                                                                                          \
    }

#define KEY_N PAIR_KEY_BYTES_OF(set)
#define FILE_N PAIR_FILE_BYTES_OF(set)
#define SOURCE_N PAIR_SOURCE_BYTES_OF(set)
#define SHARE_N PAIR_SHARE_FRAME_BYTES_OF(set)
#define STEP(i) pair_step(state, sizeof state, frames[i], frame_bytes(set, i), file, FILE_N, out, sizeof out, &count)

CALL(matrix_check, pair_matrix_check(set, file, FILE_N))
CALL(matrix_write, pair_matrix_write(set, rows, PAIR_ROWS_BYTES_OF(set), out, sizeof out))
CALL(matrix_read, pair_matrix_read(set, file, FILE_N, out, sizeof out))
CALL(tied_rows, pair_tied_rows(set, tied_file, FILE_N, out, sizeof out, &count))
CALL(evaluate, pair_evaluate(set, keys[0], KEY_N, labels[0], KEY_N, file, FILE_N, out, sizeof out))
CALL(sample, pair_sample(set, 0, source, SOURCE_N, out, sizeof out, &count))
CALL(sample_inside, pair_sample(set, 1, source, SOURCE_N, out, sizeof out, &count))
CALL(deal, pair_deal(set, SESSION, LINE, tape, PAIR_TAPE_BYTES_OF(set), out, sizeof out))
CALL(deal_source, pair_deal_source(set, SESSION, LINE, 0, source, SOURCE_N, out, sizeof out, &count))
CALL(deal_source_inside, pair_deal_source(set, SESSION, LINE, 1, source, SOURCE_N, out, sizeof out, &count))
CALL(begin, pair_begin(set, 0, SESSION, LINE, keys[0], KEY_N, labels[0], KEY_N, state, sizeof state))
CALL(step_deal, STEP(0))
CALL(step_open, STEP(1))
CALL(step_mask, STEP(2))
CALL(join, pair_join(set, shares[0], SHARE_N, shares[1], SHARE_N, out, sizeof out))
CALL(whole_run, pair_run(input, sizeof input, out, sizeof out))

static struct call {
    const char *name;
    void (*run)(void);
    unsigned tenths;       /* what service_pair.h says, in tenths of a KiB */
    unsigned taken;        /* what it took with this toolchain, with two tenths at most to spare, so that a change shows */
    const uint8_t *state;  /* what a step begins with */
    size_t deepest;        /* in all sets */
} calls[] = {
    {"pair_matrix_check", matrix_check, 215, 215, NULL, 0},
    {"pair_matrix_write", matrix_write, 222, 216, NULL, 0},
    {"pair_matrix_read", matrix_read, 216, 216, NULL, 0},
    {"pair_tied_rows", tied_rows, 290, 290, NULL, 0},
    {"pair_evaluate", evaluate, 218, 218, NULL, 0},
    {"pair_sample", sample, 7, 7, NULL, 0},
    {"pair_sample, start 1", sample_inside, 7, 7, NULL, 0},
    {"pair_deal", deal, 28, 20, NULL, 0},
    {"pair_deal_source", deal_source, 34, 26, NULL, 0},
    {"pair_deal_source, start 1", deal_source_inside, 34, 26, NULL, 0},
    {"pair_begin", begin, 2, 2, NULL, 0},
    {"pair_step, deal", step_deal, 4, 4, states[0], 0},
    {"pair_step, open", step_open, 31, 25, states[1], 0},
    {"pair_step, mask", step_mask, 217, 217, states[2], 0},
    {"pair_join", join, 3, 3, NULL, 0},
    {"pair_run", whole_run, 253, 247, NULL, 0},
};

static void make_call(const struct call *call, uint8_t pattern, bool wiping)
{
    if (call->state != NULL)
        memcpy(state, call->state, sizeof state);
    on_own_stack(call->run, pattern, wiping);
}

/* How deep it goes. Two patterns, since a call may have written one of them. */
static size_t measure(const struct call *call)
{
    make_call(call, 0xa5, false);
    size_t deep = depth(0xa5);
    make_call(call, 0x5a, false);
    return depth(0x5a) > deep ? depth(0x5a) : deep;
}

static void try_call(struct call *call, bool print)
{
    size_t deep = measure(call);
    if (print)
        printf("set %u, %-25s %4zu bytes deep, leaves %4zu secret ones: key halves %zu and %zu, label halves %zu and "
               "%zu\n",
               (unsigned)set, call->name, deep, secret_bytes(), copies_of(keys[0]), copies_of(keys[1]),
               copies_of(labels[0]), copies_of(labels[1]));
    if (deep > call->deepest)
        call->deepest = deep;
    make_call(call, 0x5a, true);
    if (secret_bytes() != 0)
        fail(call->name, "pair_wipe_stack leaves a piece of a secret");
    if (depth(0x5a) < PAIR_STACK_BYTES)
        fail(call->name, "pair_wipe_stack does not reach PAIR_STACK_BYTES");
}

/* All calls of the set, with rows of one of the two sorts. */
static void try_calls(bool near, bool print)
{
    /* These calls also find memcpy, if the loader has not yet: it goes deeper than they do. */
    make_inputs(near);
    make_steps();
    for (size_t i = 0; i < sizeof calls / sizeof calls[0]; i++)
        if (set == 1 || calls[i].run != whole_run)
            try_call(&calls[i], print);
}

/* What all sets together give for the table, rounded up. */
static size_t tenths_of(const struct call *call)
{
    return (call->deepest * 10 + KIB - 1) / KIB;
}

static void try_deepest(const struct call *call)
{
    if (tenths_of(call) > call->tenths || call->deepest > PAIR_STACK_BYTES)
        fail(call->name, "it goes deeper than service_pair.h says");
    if (tenths_of(call) > call->taken)
        fail(call->name, "it goes deeper than it did");
}

/* ---- a buffer that is never read again, so that a compiler may drop a plain memset of it */

/* where it was on the stack */
static size_t escaped;

__attribute__((noinline)) static void use_buffer(void)
{
    uint8_t buffer[PAIR_MAX_KEY_BYTES];
    memcpy(buffer, keys[0], sizeof buffer);
    escaped = (size_t)((uintptr_t)buffer - (uintptr_t)stack);
    /* A use that the compiler knows nothing of, so that the half is there. */
    __asm__ volatile("" : : "r"(buffer) : "memory");
    if (wipes)
        pair_wipe(buffer, sizeof buffer);
}

static void leave_buffer(void)
{
    MARK_END();
    use_buffer();
}

static void try_wipe(void)
{
    static const uint8_t zeros[PAIR_MAX_KEY_BYTES];
    size_t n = PAIR_KEY_BYTES_OF(set);
    /* Without a wipe it is found: what is looked at is the buffer. */
    on_own_stack(leave_buffer, 0xa5, false);
    if (secret_bytes() < n || memcmp(stack + escaped, keys[0], n) != 0)
        fail("search", "it does not find a half that was left");
    on_own_stack(leave_buffer, 0xa5, true);
    if (secret_bytes() != 0 || memcmp(stack + escaped, zeros, sizeof zeros) != 0)
        fail("pair_wipe", "it was dropped");
}

int main(int argc, char **argv)
{
    bool print = argc > 1 && strcmp(argv[1], "all") == 0;
    size_t n = sizeof calls / sizeof calls[0];
    for (set = 1; set <= PAIR_SETS; set++) {
        for (int near = 0; near < 2; near++)
            try_calls(near, print);
        try_wipe();
    }
    for (size_t i = 0; print && i < n; i++)
        printf("%-25s %zu.%zu KiB\n", calls[i].name, tenths_of(&calls[i]) / 10, tenths_of(&calls[i]) % 10);
    for (size_t i = 0; i < n; i++)
        try_deepest(&calls[i]);
    printf("stack: %zu calls in %d sets as deep as said, nothing left after wipes\n", n, PAIR_SETS);
    return 0;
}
