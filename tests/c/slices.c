/* Every function of the interface in every set, and with numbers that are no set, on fit, short, long and damaged
 * slices, under AddressSanitizer and UndefinedBehaviorSanitizer, between guards and at both ends of their pages. What
 * the written bytes should be is for the Rust tests, but for a state's line and set. */
#include "lent.h"
#include "service_pair.h"

enum { SLICES = 4, SESSION = 0x01020304, LINE = 0x05, LINE_AT = PAIR_HEADER_BYTES - 1, SET_AT };

/* The set whose slices are tried. */
static uint32_t set;

/* ---- calls */

/* What the number says of a slice's length alone. */
enum role {
    INPUT,          /* 1 if another than stated */
    FRAME,          /* 3 if under 7, else 4 if another than its kind's */
    SOURCE,         /* 13 if shorter than what is read */
    FILE_UNREAD,    /* nothing */
    FILE_OF_MASK,   /* as an input, if the frame has a first byte */
    OUTPUT,         /* 1 if shorter */
    STATE           /* 1 if another than stated; written */
};

struct slice {
    enum role role;
    const uint8_t *content;
    size_t fit;
};

struct call {
    const char *name;
    uint32_t set;     /* that the call names, or that its state has */
    uint32_t (*run)(const struct call *call, const struct lent *s, uint64_t *count);
    struct slice slices[SLICES];
    int n;
    size_t writes;    /* to the output slice */
    uint64_t count;   /* what success reports, if the function reports */
    bool counts;
    uint64_t start;   /* a draw's */
    uint32_t side;    /* a beginning's */
    uint32_t number;  /* with fit slices */
};

static uint32_t run_check(const struct call *call, const struct lent *s, uint64_t *count)
{
    (void)count;
    return pair_matrix_check(call->set, s[0].p, s[0].n);
}

static uint32_t run_write(const struct call *call, const struct lent *s, uint64_t *count)
{
    (void)count;
    return pair_matrix_write(call->set, s[0].p, s[0].n, s[1].p, s[1].n);
}

static uint32_t run_read(const struct call *call, const struct lent *s, uint64_t *count)
{
    (void)count;
    return pair_matrix_read(call->set, s[0].p, s[0].n, s[1].p, s[1].n);
}

static uint32_t run_tied_rows(const struct call *call, const struct lent *s, uint64_t *count)
{
    return pair_tied_rows(call->set, s[0].p, s[0].n, s[1].p, s[1].n, count);
}

static uint32_t run_evaluate(const struct call *call, const struct lent *s, uint64_t *count)
{
    (void)count;
    return pair_evaluate(call->set, s[0].p, s[0].n, s[1].p, s[1].n, s[2].p, s[2].n, s[3].p, s[3].n);
}

static uint32_t run_sample(const struct call *call, const struct lent *s, uint64_t *count)
{
    return pair_sample(call->set, call->start, s[0].p, s[0].n, s[1].p, s[1].n, count);
}

static uint32_t run_deal(const struct call *call, const struct lent *s, uint64_t *count)
{
    (void)count;
    return pair_deal(call->set, SESSION, LINE, s[0].p, s[0].n, s[1].p, s[1].n);
}

static uint32_t run_deal_source(const struct call *call, const struct lent *s, uint64_t *count)
{
    return pair_deal_source(call->set, SESSION, LINE, call->start, s[0].p, s[0].n, s[1].p, s[1].n, count);
}

static uint32_t run_begin(const struct call *call, const struct lent *s, uint64_t *count)
{
    (void)count;
    return pair_begin(call->set, call->side, SESSION, LINE, s[0].p, s[0].n, s[1].p, s[1].n, s[2].p, s[2].n);
}

static uint32_t run_step(const struct call *call, const struct lent *s, uint64_t *count)
{
    (void)call;
    return pair_step(s[0].p, s[0].n, s[1].p, s[1].n, s[2].p, s[2].n, s[3].p, s[3].n, count);
}

static uint32_t run_join(const struct call *call, const struct lent *s, uint64_t *count)
{
    (void)count;
    return pair_join(call->set, s[0].p, s[0].n, s[1].p, s[1].n, s[2].p, s[2].n);
}

static uint32_t run_run(const struct call *call, const struct lent *s, uint64_t *count)
{
    (void)call, (void)count;
    return pair_run(s[0].p, s[0].n, s[1].p, s[1].n);
}

static uint32_t length_number(const struct call *call, int i, const size_t *lengths)
{
    size_t n = lengths[i], fit = call->slices[i].fit;
    switch (call->slices[i].role) {
    case FRAME:
        return n == fit ? PAIR_DONE : n < PAIR_HEADER_BYTES ? PAIR_NO_KIND : PAIR_FRAME_LENGTH;
    case SOURCE:
        return n < fit ? PAIR_SHORT_SOURCE : PAIR_DONE;
    case OUTPUT:
        return n < fit ? PAIR_WRONG_LENGTH : PAIR_DONE;
    case FILE_UNREAD:
        return PAIR_DONE;
    case FILE_OF_MASK: /* the frame is the slice before */
        return n != fit && lengths[i - 1] > 0 ? PAIR_WRONG_LENGTH : PAIR_DONE;
    default:
        return n != fit ? PAIR_WRONG_LENGTH : PAIR_DONE;
    }
}

/* 14 where the call names no set, or the lowest number: of each length, and of the fit call. */
static uint32_t expected_number(const struct call *call, const size_t *lengths)
{
    uint32_t lowest = call->number;
    if (PAIR_BITS_OF(call->set) == 0)
        return PAIR_NO_SET;
    for (int i = 0; i < call->n; i++) {
        uint32_t number = length_number(call, i, lengths);
        if (number != PAIR_DONE && (lowest == PAIR_DONE || number < lowest))
            lowest = number;
    }
    return lowest;
}

static bool is_idle(const struct lent *s)
{
    static const uint8_t idle[PAIR_STATE_BYTES] = {[SET_AT] = 1};
    return memcmp(s->p, idle, sizeof idle) == 0;
}

/* The line of the state after an accepted call. A step keeps the state's own, of which a bit may be flipped: that may
 * be the line of a frame that is else refused. */
static uint8_t line_after(const struct call *call, const struct lent *s)
{
    return call->run == run_begin ? LINE : s->before[s->p - s->pages + LINE_AT];
}

/* What a slice must be after the call. */
static void expect_slice(const struct call *call, enum role role, const struct lent *s, uint32_t number)
{
    bool state = role == STATE, done = number == PAIR_DONE;
    if (state && !done && call->run == run_begin && s->n == PAIR_STATE_BYTES) {
        expect(is_idle(s) && kept(s, s->n), call->name, "a refused beginning writes the idle state alone");
        return;
    }
    expect(!state || !done || (s->p[LINE_AT] == line_after(call, s) && s->p[SET_AT] == call->set), call->name,
           "the state has another line or set");
    size_t written = !done ? 0 : state ? s->n : role == OUTPUT ? call->writes : 0;
    expect(kept(s, written), call->name, done ? "other bytes were written" : "a refusal wrote");
}

/* One call with slices of these lengths, at one end of their pages; `damaged` is the slice that gets a
 * flipped bit, or -1. With a flipped bit any number may come. */
static void try_at(const struct call *call, const size_t *lengths, int damaged, bool at_end)
{
    struct lent s[SLICES], count = lend(NULL, 0, sizeof(uint64_t), at_end);
    for (int i = 0; i < call->n; i++) {
        const struct slice *slice = &call->slices[i];
        s[i] = lend(slice->content, slice->fit, lengths[i], at_end);
        if (i == damaged) {
            s[i].p[draw() % lengths[i]] ^= (uint8_t)(1 << draw() % 8);
            memcpy(s[i].before, s[i].pages, s[i].pages_n);
        }
        if (slice->role != OUTPUT && slice->role != STATE)
            forbid_writing(&s[i]);
    }
    calls++;
    uint32_t number = call->run(call, s, (uint64_t *)(void *)count.p);
    uint64_t reported;
    memcpy(&reported, count.p, sizeof reported);
    expect(kept(&count, call->counts ? count.n : 0), call->name, "the count's guards differ");
    expect(!call->counts || number == PAIR_DONE || reported == 0, call->name, "a refusal reports a count");
    if (damaged < 0) {
        expect(number == expected_number(call, lengths), call->name, "the number is another than expected");
        expect(!call->counts || number != PAIR_DONE || reported == call->count, call->name, "the count differs");
    }
    for (int i = 0; i < call->n; i++) {
        expect_slice(call, call->slices[i].role, &s[i], number);
        give_back(&s[i]);
    }
    give_back(&count);
}

static void try_both(const struct call *call, const size_t *lengths, int damaged)
{
    try_at(call, lengths, damaged, false);
    try_at(call, lengths, damaged, true);
}

/* Every length that some slice has in some set. */
static void try_lengths_of_sets(const struct call *call, size_t *lengths, int i)
{
    size_t fit = call->slices[i].fit;
    for (uint32_t other = 1; other <= PAIR_SETS; other++) {
        const int others[] = {PAIR_KEY_BYTES_OF(other),         PAIR_CODE_BYTES_OF(other),
                              PAIR_ROWS_BYTES_OF(other),        PAIR_FILE_BYTES_OF(other),
                              PAIR_TIE_BYTES_OF(other),         PAIR_TAPE_BYTES_OF(other),
                              PAIR_DEALT_BYTES_OF(other),       PAIR_DEAL_FRAME_BYTES_OF(other),
                              PAIR_OPEN_FRAME_BYTES_OF(other),  PAIR_MASK_FRAME_BYTES_OF(other),
                              PAIR_SHARE_FRAME_BYTES_OF(other)};
        for (size_t k = 0; k < sizeof others / sizeof others[0]; k++) {
            lengths[i] = (size_t)others[k];
            try_both(call, lengths, -1);
        }
    }
    lengths[i] = fit;
}

/* Every length near and below a small slice's, and some of a large one's. */
static void try_lengths(const struct call *call, size_t *lengths, int i)
{
    size_t fit = call->slices[i].fit, step = fit / 300 + 1;
    for (size_t n = 0; n < fit + 8; n += n + 8 < fit ? step : 1) {
        lengths[i] = n;
        try_both(call, lengths, -1);
    }
    lengths[i] = 2 * fit + 4096;
    try_both(call, lengths, -1);
    lengths[i] = fit;
}

/* Every slice empty, a byte short, fit or a byte long, in all ways: the lowest number. */
static void try_edges(const struct call *call)
{
    int ways = 1;
    for (int i = 0; i < call->n; i++)
        ways *= 4;
    for (int way = 0; way < ways; way++) {
        size_t lengths[SLICES];
        for (int i = 0; i < call->n; i++) {
            size_t fit = call->slices[i].fit;
            const size_t edges[4] = {0, fit - 1, fit, fit + 1};
            lengths[i] = edges[way >> 2 * i & 3];
        }
        try_both(call, lengths, -1);
    }
}

static void try_call(const struct call *call)
{
    size_t fit[SLICES], lengths[SLICES];
    for (int i = 0; i < call->n; i++)
        fit[i] = call->slices[i].fit;
    try_both(call, fit, -1);
    for (int i = 0; i < call->n; i++) {
        try_lengths(call, fit, i);
        try_lengths_of_sets(call, fit, i);
        for (int trial = 0; call->slices[i].content != NULL && trial < 100; trial++)
            try_both(call, fit, i);
    }
    try_edges(call);
    /* Several other lengths at once: the lowest number. */
    for (int trial = 0; trial < 300; trial++) {
        for (int i = 0; i < call->n; i++)
            lengths[i] = draw() % 2 == 0 ? fit[i] : (size_t)(draw() % (2 * fit[i]));
        try_both(call, lengths, -1);
    }
}

/* ---- fit inputs, made by the functions themselves */

static uint8_t rows[PAIR_MAX_ROWS_BYTES], file[PAIR_MAX_FILE_BYTES], source[PAIR_MAX_SOURCE_BYTES];
static uint8_t tape[PAIR_MAX_TAPE_BYTES], dealt[PAIR_MAX_DEALT_BYTES], input[PAIR_INPUT_BYTES];
static uint8_t keys[2][PAIR_MAX_KEY_BYTES], labels[2][PAIR_MAX_LABEL_BYTES];
/* the file with a block of another set, its check made good */
static uint8_t mixed_file[PAIR_MAX_FILE_BYTES];
/* rows and file where row 1 is row 0, and where they differ in the last column alone, so that it takes all columns to
 * see that they are not tied */
static uint8_t tied_rows[PAIR_MAX_ROWS_BYTES], tied_file[PAIR_MAX_FILE_BYTES];
static uint8_t near_rows[PAIR_MAX_ROWS_BYTES], near_file[PAIR_MAX_FILE_BYTES];
/* a file where the last row is the sum of all others, so that all are in the list of tied rows */
static uint8_t sum_file[PAIR_MAX_FILE_BYTES];
/* each unit's state before each step and when done, and the frame of each step */
static uint8_t states[2][4][PAIR_STATE_BYTES], frames[2][4][PAIR_MAX_DEAL_FRAME_BYTES];

static void made(const char *what, uint32_t number)
{
    expect(number == PAIR_DONE, what, "a fit input was refused");
}

static void make_near_file(void)
{
    size_t rows_n = PAIR_ROWS_BYTES_OF(set);
    memcpy(near_rows, rows, rows_n);
    make_near(near_rows, PAIR_ROW_BYTES_OF(set));
    made("pair_matrix_write", pair_matrix_write(set, near_rows, rows_n, near_file, sizeof near_file));
}

/* No call writes this file. Rows begin at byte 4, and these are in the first block in every set. */
static void make_tied(void)
{
    size_t n = PAIR_ROW_BYTES_OF(set);
    memcpy(tied_rows, rows, sizeof tied_rows);
    memcpy(tied_rows + n, rows, n);
    memcpy(tied_file, file, sizeof tied_file);
    memcpy(tied_file + 4 + n, rows, n);
    make_block_check(tied_file);
}

static void make_matrix(void)
{
    size_t rows_n = PAIR_ROWS_BYTES_OF(set), file_n = PAIR_FILE_BYTES_OF(set);
    fill(rows, rows_n);
    make_fit(rows, rows_n, PAIR_ROW_BYTES_OF(set) / 2);
    made("pair_matrix_write", pair_matrix_write(set, rows, rows_n, file, file_n));
    memcpy(mixed_file, file, file_n);
    uint8_t *block = mixed_file + file_n - PAIR_BLOCK_BYTES;
    block[3] = (uint8_t)(set % PAIR_SETS + 1);
    make_block_check(block);
    make_near_file();
    make_tied();
    memcpy(sum_file, file, file_n);
    tie_last_row(set, rows, sum_file);
}

static void make_steps(void)
{
    for (int step = 0; step < 3; step++) {
        for (int side = 0; side < 2; side++) {
            uint8_t out[PAIR_MAX_STEP_OUTPUT_BYTES], *state = states[side][step + 1];
            uint64_t written;
            memcpy(state, states[side][step], PAIR_STATE_BYTES);
            made("pair_step", pair_step(state, PAIR_STATE_BYTES, frames[side][step], frame_bytes(set, step), file,
                                        PAIR_FILE_BYTES_OF(set), out, sizeof out, &written));
            expect(written == frame_bytes(set, step + 1), "pair_step", "a frame has its kind's length");
            /* The other unit takes it next; the last one is kept as this unit's share. */
            memcpy(frames[step < 2 ? 1 - side : side][step + 1], out, (size_t)written);
        }
    }
}

static void make_run(void)
{
    size_t source_n = PAIR_SOURCE_BYTES_OF(set), tape_n = PAIR_TAPE_BYTES_OF(set), n = frame_bytes(set, 0);
    uint64_t next;
    fill(source, source_n);
    made("pair_sample", pair_sample(set, 0, source, source_n, tape, tape_n, &next));
    made("pair_deal", pair_deal(set, SESSION, LINE, tape, tape_n, dealt, sizeof dealt));
    for (int side = 0; side < 2; side++) {
        fill(keys[side], sizeof keys[side]);
        fill(labels[side], sizeof labels[side]);
        memcpy(frames[side][0], dealt + (size_t)side * n, n);
        made("pair_begin", pair_begin(set, (uint32_t)side, SESSION, LINE, keys[side], PAIR_KEY_BYTES_OF(set),
                                      labels[side], PAIR_LABEL_BYTES_OF(set), states[side][0], PAIR_STATE_BYTES));
    }
    make_steps();
}

/* ---- every call */

/* A call that names its set: also with numbers that are none, which are refused before any length. */
static void try_sets(struct call call)
{
    static const uint32_t none[] = {0, PAIR_SETS + 1, UINT32_MAX};
    try_call(&call);
    for (size_t i = 0; i < sizeof none / sizeof none[0]; i++) {
        call.set = none[i];
        try_edges(&call);
    }
}

static void try_step(int side, int step, const uint8_t *frame, const uint8_t *matrix, uint32_t number)
{
    /* Stage by stage with the frame waited for; done, with the last one again. */
    int taken = step < 3 ? step : 2;
    struct call call = {"pair_step", set, run_step, .n = 4, .counts = true, .number = number};
    call.slices[0] = (struct slice){STATE, states[side][step], PAIR_STATE_BYTES};
    call.slices[1] = (struct slice){FRAME, frame, frame_bytes(set, taken)};
    call.slices[2] = (struct slice){taken < 2 ? FILE_UNREAD : FILE_OF_MASK, matrix, PAIR_FILE_BYTES_OF(set)};
    call.slices[3] = (struct slice){OUTPUT, NULL, PAIR_STEP_OUTPUT_BYTES_OF(set)};
    call.count = call.writes = frame_bytes(set, taken + 1);
    try_call(&call);
}

/* The frame in another line. */
static const uint8_t *in_other_line(const uint8_t *frame)
{
    static uint8_t other[PAIR_MAX_DEAL_FRAME_BYTES];
    memcpy(other, frame, sizeof other);
    other[LINE_AT] ^= 1;
    return other;
}

static void try_steps(void)
{
    for (int side = 0; side < 2; side++) {
        uint8_t (*taken)[PAIR_MAX_DEAL_FRAME_BYTES] = frames[side];
        for (int step = 0; step < 3; step++) {
            try_step(side, step, taken[step], file, PAIR_DONE);
            try_step(side, step, in_other_line(taken[step]), file, PAIR_OTHER_LINE);
        }
        try_step(side, 2, taken[2], mixed_file, PAIR_BLOCK_LAYOUT);
        try_step(side, 2, in_other_line(taken[2]), mixed_file, PAIR_BLOCK_LAYOUT);
        try_step(side, 2, taken[2], tied_file, PAIR_TIED_ROWS);
        try_step(side, 2, in_other_line(taken[2]), tied_file, PAIR_TIED_ROWS);
        try_step(side, 2, taken[2], near_file, PAIR_DONE);
        try_step(side, 3, taken[2], file, PAIR_NOT_WAITED_FOR);
    }
}

static void try_beginnings(void)
{
    static const uint32_t sides[] = {0, 1, 2, 256, UINT32_MAX};
    for (size_t i = 0; i < sizeof sides / sizeof sides[0]; i++) {
        struct call call = {"pair_begin", set, run_begin, .n = 3, .side = sides[i]};
        call.slices[0] = (struct slice){INPUT, keys[0], PAIR_KEY_BYTES_OF(set)};
        call.slices[1] = (struct slice){INPUT, labels[0], PAIR_LABEL_BYTES_OF(set)};
        call.slices[2] = (struct slice){STATE, NULL, PAIR_STATE_BYTES};
        call.number = sides[i] < 2 ? PAIR_DONE : PAIR_NO_SIDE;
        try_sets(call);
    }
}

/* The sampler, and the dealer over its tape, from one start. What the draw reads of the source is its fit length. */
static void try_draws(uint64_t start, uint32_t number)
{
    uint8_t drawn[PAIR_MAX_TAPE_BYTES];
    size_t source_n = PAIR_SOURCE_BYTES_OF(set);
    uint64_t next;
    uint32_t found = pair_sample(set, start, source, source_n, drawn, sizeof drawn, &next);
    expect(found == number, "pair_sample", "the number is another than expected");
    const struct slice a_source = {SOURCE, source, number == PAIR_DONE ? (size_t)(next + 3) / 4 : source_n};
    struct call call = {"pair_sample", set, run_sample, {a_source, {OUTPUT, NULL, PAIR_TAPE_BYTES_OF(set)}}, .n = 2};
    call.start = start;
    call.number = number;
    call.counts = true;
    call.count = next;
    call.writes = call.slices[1].fit;
    try_sets(call);
    call.name = "pair_deal_source";
    call.run = run_deal_source;
    call.writes = call.slices[1].fit = PAIR_DEALT_BYTES_OF(set);
    try_sets(call);
}

/* A source whose pairs 64 bits would not count. No machine has one, so only its length is told: the answer is 13
 * by that alone, where the bytes that are there would make a tape. */
static void try_uncounted(void)
{
    static const size_t lengths[] = {(size_t)1 << 62, ((size_t)1 << 62) + PAIR_MAX_SOURCE_BYTES, SIZE_MAX / 2};
    for (size_t i = 0; i < sizeof lengths / sizeof lengths[0]; i++) {
        uint8_t out[PAIR_MAX_DEALT_BYTES] = {0}, zeros[PAIR_MAX_DEALT_BYTES] = {0};
        uint64_t next = 1, dealt_next = 1;
        uint32_t number = pair_sample(set, 0, source, lengths[i], out, sizeof out, &next);
        uint32_t dealt_number =
            pair_deal_source(set, SESSION, LINE, 0, source, lengths[i], out, sizeof out, &dealt_next);
        calls += 2;
        expect(number == PAIR_SHORT_SOURCE && dealt_number == number, "a source of 2^62 bytes", "it is not refused");
        expect(next == 0 && dealt_next == 0, "a source of 2^62 bytes", "a refusal reports a place");
        expect(memcmp(out, zeros, sizeof out) == 0, "a source of 2^62 bytes", "a refusal wrote");
    }
}

static void try_others(void)
{
    size_t file_n = PAIR_FILE_BYTES_OF(set), rows_n = PAIR_ROWS_BYTES_OF(set), dealt_n = PAIR_DEALT_BYTES_OF(set);
    size_t key_n = PAIR_KEY_BYTES_OF(set), label_n = PAIR_LABEL_BYTES_OF(set), code_n = PAIR_CODE_BYTES_OF(set);
    size_t digits_n = PAIR_DIGITS_OF(set);
    const struct slice a_file = {INPUT, file, file_n}, mixed = {INPUT, mixed_file, file_n};
    const struct slice tied = {INPUT, tied_file, file_n}, near = {INPUT, near_file, file_n};
    const struct slice all_tied = {INPUT, sum_file, file_n}, to_list = {OUTPUT, NULL, PAIR_TIE_BYTES_OF(set)};
    const struct slice a_key = {INPUT, keys[0], key_n}, a_label = {INPUT, labels[0], label_n};
    const struct slice a_tape = {INPUT, tape, PAIR_TAPE_BYTES_OF(set)}, all_rows = {INPUT, rows, rows_n};
    const struct slice to_refuse = {INPUT, tied_rows, rows_n}, to_accept = {INPUT, near_rows, rows_n};
    const struct slice share0 = {FRAME, frames[0][3], frame_bytes(set, 3)};
    const struct slice share1 = {FRAME, frames[1][3], frame_bytes(set, 3)};
    const struct slice other = {FRAME, in_other_line(frames[1][3]), frame_bytes(set, 3)};
    const struct slice to_file = {OUTPUT, NULL, file_n}, to_rows = {OUTPUT, NULL, rows_n};
    const struct slice to_frames = {OUTPUT, NULL, dealt_n}, to_code = {OUTPUT, NULL, code_n};
    const struct call others[] = {
        {"pair_matrix_check", set, run_check, {a_file}, .n = 1},
        {"pair_matrix_check", set, run_check, {mixed}, .n = 1, .number = PAIR_BLOCK_LAYOUT},
        {"pair_matrix_check", set, run_check, {tied}, .n = 1, .number = PAIR_TIED_ROWS},
        {"pair_matrix_check", set, run_check, {near}, .n = 1},
        {"pair_matrix_write", set, run_write, {all_rows, to_file}, .n = 2, .writes = file_n},
        /* One flipped bit unties the rows. */
        {"pair_matrix_write", set, run_write, {to_refuse, to_file}, .n = 2, .writes = file_n, .number = PAIR_TIED_ROWS},
        {"pair_matrix_write", set, run_write, {to_accept, to_file}, .n = 2, .writes = file_n},
        {"pair_matrix_read", set, run_read, {a_file, to_rows}, .n = 2, .writes = rows_n},
        {"pair_matrix_read", set, run_read, {mixed, to_rows}, .n = 2, .number = PAIR_BLOCK_LAYOUT},
        {"pair_matrix_read", set, run_read, {tied, to_rows}, .n = 2, .number = PAIR_TIED_ROWS},
        {"pair_matrix_read", set, run_read, {near, to_rows}, .n = 2, .writes = rows_n},
        {"pair_tied_rows", set, run_tied_rows, {a_file, to_list}, .n = 2, .counts = true, .number = PAIR_NOT_TIED},
        {"pair_tied_rows", set, run_tied_rows, {mixed, to_list}, .n = 2, .counts = true, .number = PAIR_BLOCK_LAYOUT},
        {"pair_tied_rows", set, run_tied_rows, {tied, to_list}, .n = 2, .counts = true, .count = 2, .writes = 4},
        {"pair_tied_rows", set, run_tied_rows, {all_tied, to_list}, .n = 2, .counts = true, .count = digits_n,
         .writes = 2 * digits_n},
        {"pair_tied_rows", set, run_tied_rows, {near, to_list}, .n = 2, .counts = true, .number = PAIR_NOT_TIED},
        {"pair_evaluate", set, run_evaluate, {a_key, a_label, a_file, to_code}, .n = 4, .writes = code_n},
        {"pair_evaluate", set, run_evaluate, {a_key, a_label, mixed, to_code}, .n = 4, .number = PAIR_BLOCK_LAYOUT},
        {"pair_evaluate", set, run_evaluate, {a_key, a_label, tied, to_code}, .n = 4, .number = PAIR_TIED_ROWS},
        {"pair_evaluate", set, run_evaluate, {a_key, a_label, near, to_code}, .n = 4, .writes = code_n},
        {"pair_deal", set, run_deal, {a_tape, to_frames}, .n = 2, .writes = dealt_n},
        {"pair_join", set, run_join, {share0, share1, to_code}, .n = 3, .writes = code_n},
        /* One flipped bit makes the lines equal again. */
        {"pair_join", set, run_join, {share0, other, to_code}, .n = 3, .writes = code_n, .number = PAIR_OTHER_LINE},
    };
    for (size_t i = 0; i < sizeof others / sizeof others[0]; i++)
        try_sets(others[i]);
}

/* Set 1 alone has it. */
static void try_run(const uint8_t *matrix, uint32_t number)
{
    make_input(input, keys, labels, tape, matrix);
    const struct slice whole = {INPUT, input, sizeof input}, to_code = {OUTPUT, NULL, PAIR_CODE_BYTES};
    struct call call = {"pair_run", set, run_run, {whole, to_code}, .n = 2, .writes = PAIR_CODE_BYTES};
    call.number = number;
    try_call(&call);
}

static void try_runs(void)
{
    try_run(file, PAIR_DONE);
    try_run(tied_file, PAIR_TIED_ROWS);
    try_run(near_file, PAIR_DONE);
}

int main(void)
{
    for (set = 1; set <= PAIR_SETS; set++) {
        make_matrix();
        make_run();
        try_others();
        try_draws(0, PAIR_DONE);
        try_draws(1, PAIR_DONE);
        try_draws(UINT64_MAX, PAIR_SHORT_SOURCE);
        try_uncounted();
        try_beginnings();
        try_steps();
        if (set == 1)
            try_runs();
    }
    printf("slices: %lu calls between guards\n", calls);
    return 0;
}
