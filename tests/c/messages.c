/* Messages to a unit of examples/two_units.c that are cut, too long or as long as another set's, in every set and
 * under the sanitizers: the unit must refuse each by its number, and every process must have wiped its secrets when
 * it ends. */
#define main two_units_main
#include "../../examples/two_units.c"
#undef main

#include <fcntl.h>
#include <stdbool.h>

enum { KINDS = 6, MESSAGES = 1 + SESSIONS * (KINDS - 1), LONGEST = PAIR_MAX_FILE_BYTES + 4096, NOT_WIPED = 7 };

/* The first one comes once, the others in each session; those of the other unit last. */
static const struct kind {
    const char *name;
    bool frame, other;
} kinds[KINDS] = {
    {"matrix file", false, false}, {"key half", false, false},  {"label half", false, false},
    {"deal frame", true, false},   {"open frame", true, true},  {"mask frame", true, true},
};

/* What unit 0 is sent, in this order, each with other bytes after it. */
static uint8_t contents[MESSAGES][LONGEST];
static unsigned tried;

static const struct kind *kind_of(int message)
{
    return &kinds[message == 0 ? 0 : 1 + (message - 1) % (KINDS - 1)];
}

/* How long a message is in a set. */
static size_t bytes_of(uint32_t of_set, int message)
{
    const int bytes[KINDS] = {PAIR_FILE_BYTES_OF(of_set),       PAIR_KEY_BYTES_OF(of_set),
                              PAIR_LABEL_BYTES_OF(of_set),      PAIR_DEAL_FRAME_BYTES_OF(of_set),
                              PAIR_OPEN_FRAME_BYTES_OF(of_set), PAIR_MASK_FRAME_BYTES_OF(of_set)};
    return (size_t)bytes[kind_of(message) - kinds];
}

static void wrong(int message, size_t n, const char *what)
{
    fprintf(stderr, "messages: set %u, message %d, %s of %zu bytes: %s\n", (unsigned)set, message,
            kind_of(message)->name, n, what);
    exit(1);
}

/* Begins a unit of this process with halves and hands it its deal: its open frame. */
static void begin_unit(uint32_t side, uint32_t session, const uint8_t *key_half, const uint8_t *label_half,
                       const uint8_t *deal_frame, uint8_t state[PAIR_STATE_BYTES],
                       uint8_t out[PAIR_MAX_STEP_OUTPUT_BYTES])
{
    uint64_t written;
    expect_ok("beginning", pair_begin(set, side, session, line, key_half, PAIR_KEY_BYTES_OF(set), label_half,
                                      PAIR_LABEL_BYTES_OF(set), state, PAIR_STATE_BYTES));
    expect_ok("step", pair_step(state, PAIR_STATE_BYTES, deal_frame, PAIR_DEAL_FRAME_BYTES_OF(set), deal_frame, 0, out,
                                PAIR_MAX_STEP_OUTPUT_BYTES, &written));
}

/* A session in this process, for the frames that unit 1 sends: the messages of this session, the halves drawn
 * already. Gives the pair at which the next one begins. */
static uint64_t make_session(uint32_t session, uint64_t start, uint8_t (*message)[LONGEST])
{
    uint8_t dealt[PAIR_MAX_DEALT_BYTES], key1[PAIR_MAX_KEY_BYTES], label1[PAIR_MAX_LABEL_BYTES];
    uint8_t state[PAIR_STATE_BYTES], open0[PAIR_MAX_STEP_OUTPUT_BYTES], out[PAIR_MAX_STEP_OUTPUT_BYTES];
    size_t deal_n = PAIR_DEAL_FRAME_BYTES_OF(set), open_n = PAIR_OPEN_FRAME_BYTES_OF(set);
    uint64_t written, next;
    expect_ok("dealer", pair_deal_source(set, session, line, start, secret.source, ALL_SOURCE_BYTES_OF(set), dealt,
                                         sizeof dealt, &next));
    memcpy(message[2], dealt, deal_n);
    begin_unit(0, session, message[0], message[1], dealt, state, open0);
    /* unit 1's open and mask frame */
    draw(key1, sizeof key1);
    draw(label1, sizeof label1);
    begin_unit(1, session, key1, label1, dealt + deal_n, state, out);
    memcpy(message[3], out, open_n);
    expect_ok("step", pair_step(state, sizeof state, open0, open_n, open0, 0, out, sizeof out, &written));
    memcpy(message[4], out, (size_t)written);
    return next;
}

static void make_messages(void)
{
    uint64_t start = 0;
    draw(contents[0], sizeof contents);
    draw_matrix(contents[0]);
    draw(secret.source, sizeof secret.source);
    for (uint32_t session = 1; session <= SESSIONS; session++)
        start = make_session(session, start, contents + 1 + (session - 1) * (KINDS - 1));
    wipe_secret();
}

/* Registered before the example registers its wipe, so it runs after it. */
static void expect_wiped(void)
{
    for (size_t i = 0; i < sizeof secret; i++)
        if (((const uint8_t *)&secret)[i] != 0)
            _exit(NOT_WIPED);
}

/* Starts unit 0 with its error output in a pipe; sends all messages, number `other` with n bytes; gives the
 * unit's exit status, and what it said. */
static int run_unit(int other, size_t n, char *said, size_t said_n)
{
    int home[2], between[2], errors[2], status;
    connect_two(home);
    connect_two(between);
    if (pipe(errors) != 0)
        fail("pipe");
    pid_t process = fork();
    if (process < 0)
        fail("fork");
    if (process == 0) {
        close(home[0]);
        close(between[0]);
        if (dup2(errors[1], STDERR_FILENO) < 0 || atexit(expect_wiped) != 0 || atexit(wipe_secret) != 0)
            fail("unit");
        unit(0, home[1], between[1]);
    }
    close(home[1]);
    close(between[1]);
    close(errors[1]);
    for (int i = 0; i < MESSAGES; i++) {
        /* A unit that has refused one is gone, and its end closed. */
        const struct kind *kind = kind_of(i);
        size_t sent_n = i == other ? n : bytes_of(set, i);
        ssize_t sent = send(kind->other ? between[0] : home[0], contents[i], sent_n, MSG_NOSIGNAL);
        if (sent < 0 && errno != EPIPE && errno != ECONNRESET)
            fail("send");
    }
    size_t got = 0;
    for (ssize_t more = 1; more > 0 && got + 1 < said_n; got += (size_t)more)
        if ((more = read(errors[0], said + got, said_n - 1 - got)) < 0)
            fail("read");
    said[got] = '\0';
    if (waitpid(process, &status, 0) < 0)
        fail("waitpid");
    close(home[0]);
    close(between[0]);
    close(errors[0]);
    return WIFEXITED(status) ? WEXITSTATUS(status) : -1;
}

static void try_length(int other, size_t n)
{
    char said[512], right[64];
    int status = run_unit(other, n, said, sizeof said);
    const struct kind *kind = kind_of(other);
    tried++;
    if (status == NOT_WIPED)
        wrong(other, n, "secrets were left");
    if (n == bytes_of(set, other)) {
        if (status != 0 || said[0] != '\0')
            wrong(other, n, "a fit message was refused");
        return;
    }
    unsigned number = !kind->frame ? PAIR_WRONG_LENGTH : n < PAIR_HEADER_BYTES ? PAIR_NO_KIND : PAIR_FRAME_LENGTH;
    snprintf(right, sizeof right, "refused with %u: ", number);
    if (status != 1 || strstr(said, right) == NULL)
        wrong(other, n, status == 0 ? "it was accepted" : said);
}

/* The whole example: two units, dealer, owners and counter. */
static void try_example(void)
{
    char name[] = "two_units", word[] = {(char)('0' + set), '\0'}, *arguments[] = {name, word, NULL};
    int status;
    fflush(stdout);
    pid_t process = fork();
    if (process < 0)
        fail("fork");
    if (process == 0) {
        int nowhere = open("/dev/null", O_WRONLY);
        if (nowhere < 0 || dup2(nowhere, STDOUT_FILENO) < 0 || atexit(expect_wiped) != 0)
            fail("example");
        exit(two_units_main(2, arguments));
    }
    if (waitpid(process, &status, 0) < 0)
        fail("waitpid");
    int ended = WIFEXITED(status) ? WEXITSTATUS(status) : -1;
    if (ended != 0) {
        fprintf(stderr, "messages: the example in set %u %s\n", (unsigned)set,
                ended == NOT_WIPED ? "left secrets" : "failed");
        exit(1);
    }
}

static void try_message(int message)
{
    size_t fit = bytes_of(set, message);
    const size_t lengths[] = {0, 1, fit - 1, fit, fit + 1, fit + 2, fit + 500, LONGEST};
    for (size_t k = 0; k < sizeof lengths / sizeof lengths[0]; k++)
        try_length(message, lengths[k]);
    for (uint32_t other = 1; other <= PAIR_SETS; other++)
        if (other != set)
            try_length(message, bytes_of(other, message));
}

int main(void)
{
    /* A unit that waits for a message that nobody sends is a failure too. */
    alarm(120);
    for (set = 1; set <= PAIR_SETS; set++) {
        make_messages();
        for (int i = 0; i < MESSAGES; i++)
            try_message(i);
        try_example();
    }
    printf("messages: %u runs of a unit, fit, cut and too long\n", tried);
    return 0;
}
