/* Both units in processes of their own, with the dealer and the counter in this one, over sockets:
 *
 *     two_units [SET [LINE [FOLDER]]]
 *
 * It draws a matrix, halves and the dealer's source bytes from the system's random source, lets the units run
 * some sessions, joins their shares and compares each code with the evaluator's. The dealer has one source for
 * all sessions, and goes on in it where the last draw ended. The set is 1 and the line 0, bikes, where none is
 * named. With a folder it also leaves there what a counter has of the last session: `matrix`, `share0` and `share1`,
 * for counter_reader.
 *
 * So that the codes can be compared, this process also plays the owners, who hand each unit its halves.
 * A real dealer or counter never sees a half, and the two units are at two owners. */
#define _POSIX_C_SOURCE 200809L
#include "service_pair.h"
#include "service_pair_text.h"

#include <errno.h>
#include <stdio.h>
#include <stdlib.h>
#include <string.h>
#include <sys/random.h>
#include <sys/socket.h>
#include <sys/wait.h>
#include <unistd.h>

/* A host counts its sessions, and uses no number twice. */
enum { SESSIONS = 3 };

/* The set and the line of all that runs here, chosen before the units start. A host of one set writes its number
 * instead, and its buffers have the lengths of that set. */
static uint32_t set = 1;
static uint8_t line = PAIR_LINE_BIKES;

/* Each session takes some of the dealer's source. */
#define ALL_SOURCE_BYTES_OF(set) (PAIR_SOURCE_BYTES_OF(set) + (SESSIONS - 1) * PAIR_MORE_SOURCE_BYTES_OF(set))

/* All that is secret in this process, in one place, so that every way out of it wipes it. Each process has
 * its own: the units are started before anything is drawn. A message has room for a byte more than it may
 * have, so that one that is too long is seen to be, and the library refuses it. */
static struct {
    /* the owners' */
    uint8_t keys[2][PAIR_MAX_KEY_BYTES], labels[2][PAIR_MAX_LABEL_BYTES];
    uint8_t key[PAIR_MAX_KEY_BYTES], label[PAIR_MAX_LABEL_BYTES];
    /* the dealer's */
    uint8_t source[ALL_SOURCE_BYTES_OF(PAIR_SETS)], dealt[PAIR_MAX_DEALT_BYTES];
    /* a unit's */
    uint8_t key_half[PAIR_MAX_KEY_BYTES + 1], label_half[PAIR_MAX_LABEL_BYTES + 1], state[PAIR_STATE_BYTES];
    uint8_t frame[PAIR_MAX_DEAL_FRAME_BYTES + 1];
} secret;

static void wipe_secret(void)
{
    pair_wipe(&secret, sizeof secret);
}

static void fail(const char *what)
{
    perror(what);
    exit(2);
}

/* Ends the process with 1 and a sentence where a call was refused. */
static void expect_ok(const char *what, uint32_t number)
{
    if (number == PAIR_OK)
        return;
    fprintf(stderr, "%s refused with %u: %s\n", what, (unsigned)number, pair_number_text(number));
    exit(1);
}

static void draw(uint8_t *bytes, size_t n)
{
    for (size_t got = 0; got < n;) {
        ssize_t more = getrandom(bytes + got, n - got, 0);
        if (more < 0 && errno != EINTR)
            fail("getrandom");
        got += more < 0 ? 0 : (size_t)more;
    }
}

/* Each message is one frame: a socket of this type keeps their bounds. */
static void connect_two(int ends[2])
{
    if (socketpair(AF_UNIX, SOCK_SEQPACKET, 0, ends) != 0)
        fail("socketpair");
}

static void send_bytes(int to, const uint8_t *bytes, size_t n)
{
    /* Without a signal where the other end is gone, so that the failure is told. */
    if (send(to, bytes, n, MSG_NOSIGNAL) != (ssize_t)n)
        fail("send");
}

/* A message that is longer than the room arrives cut to it: still a byte longer than any that is fit. */
static size_t receive(int from, uint8_t *bytes, size_t room)
{
    ssize_t n = recv(from, bytes, room, 0);
    if (n < 0)
        fail("recv");
    return (size_t)n;
}

/* One session of a unit: three frames in, three frames out. It shows nothing of what it holds. */
static void unit_session(uint32_t side, uint32_t session, const uint8_t *file, size_t file_n, int home, int other)
{
    uint8_t out[PAIR_MAX_STEP_OUTPUT_BYTES];
    size_t key_n = receive(home, secret.key_half, sizeof secret.key_half);
    size_t label_n = receive(home, secret.label_half, sizeof secret.label_half);
    const char *what = "beginning";
    uint32_t number = pair_begin(set, side, session, line, secret.key_half, key_n, secret.label_half, label_n,
                                 secret.state, sizeof secret.state);
    /* From here on the state has the halves. */
    pair_wipe(secret.key_half, sizeof secret.key_half);
    pair_wipe(secret.label_half, sizeof secret.label_half);
    for (int step = 0; number == PAIR_OK && step < 3; step++) {
        /* The deal comes from the dealer and the share goes to the counter; else it is unit to unit. */
        int from = step == 0 ? home : other;
        int to = step == 2 ? home : other;
        uint64_t written;
        what = "step";
        size_t n = receive(from, secret.frame, sizeof secret.frame);
        number = pair_step(secret.state, sizeof secret.state, secret.frame, n, file, file_n, out, sizeof out, &written);
        if (number == PAIR_OK)
            send_bytes(to, out, (size_t)written);
    }
    pair_wipe_stack();
    expect_ok(what, number);
}

/* One unit, in a process of its own. */
static void unit(uint32_t side, int home, int other)
{
    static uint8_t file[PAIR_MAX_FILE_BYTES + 1];
    size_t file_n = receive(home, file, sizeof file);
    /* The step with the mask frame judges it too, but then two frames have been sent already. */
    expect_ok("matrix file", pair_matrix_check(set, file, file_n));
    for (uint32_t session = 1; session <= SESSIONS; session++)
        unit_session(side, session, file, file_n, home, other);
    exit(0);
}

/* Rows of uniform trits: the last quarter of a tape, which has as many as a row. No dealer uses these tapes, so they
 * are no secret. */
static void draw_rows(uint8_t rows[PAIR_MAX_ROWS_BYTES])
{
    uint8_t source[PAIR_MAX_SOURCE_BYTES], tape[PAIR_MAX_TAPE_BYTES];
    size_t rows_n = PAIR_ROWS_BYTES_OF(set), row_n = PAIR_ROW_BYTES_OF(set), source_n = PAIR_SOURCE_BYTES_OF(set);
    uint64_t next;
    for (size_t at = 0; at < rows_n; at += row_n) {
        draw(source, source_n);
        expect_ok("sampler", pair_sample(set, 0, source, source_n, tape, sizeof tape, &next));
        memcpy(rows + at, tape + PAIR_TAPE_BYTES_OF(set) - row_n, row_n);
    }
}

/* A public matrix for the show. Rows that are tied, less than once in 2^60 times, are drawn anew. */
static void draw_matrix(uint8_t file[PAIR_MAX_FILE_BYTES])
{
    uint8_t rows[PAIR_MAX_ROWS_BYTES];
    uint32_t number;
    do {
        draw_rows(rows);
        number = pair_matrix_write(set, rows, PAIR_ROWS_BYTES_OF(set), file, PAIR_FILE_BYTES_OF(set));
    } while (number == PAIR_TIED_ROWS);
    expect_ok("matrix", number);
}

/* A unit at one owner's: its socket to this process, and its process. */
struct place {
    int socket;
    pid_t process;
};

/* The dealer: deal frame i goes to unit i alone. Gives the pair of its source at which the next draw begins. */
static uint64_t deal(uint32_t session, uint64_t start, const struct place places[2])
{
    size_t n = PAIR_DEAL_FRAME_BYTES_OF(set);
    uint64_t next;
    uint32_t number = pair_deal_source(set, session, line, start, secret.source, ALL_SOURCE_BYTES_OF(set),
                                       secret.dealt, sizeof secret.dealt, &next);
    pair_wipe_stack();
    expect_ok("dealer", number);
    /* The next draw may begin inside a byte, which stays. */
    pair_wipe(secret.source, (size_t)(next / 4));
    for (int side = 0; side < 2; side++)
        send_bytes(places[side].socket, secret.dealt + (size_t)side * n, n);
    pair_wipe(secret.dealt, sizeof secret.dealt);
    return next;
}

static void save(const char *folder, const char *name, const uint8_t *bytes, size_t n)
{
    char path[4096];
    if (snprintf(path, sizeof path, "%s/%s", folder, name) >= (int)sizeof path) {
        errno = ENAMETOOLONG;
        fail(folder);
    }
    FILE *file = fopen(path, "wb");
    if (file == NULL || fwrite(bytes, 1, n, file) != n || fclose(file) != 0)
        fail(path);
}

/* Starts both units. Every process keeps only its own ends, so that a unit that ends is seen. */
static void start_units(struct place places[2])
{
    int homes[2][2], between[2];
    connect_two(homes[0]);
    connect_two(homes[1]);
    connect_two(between);
    for (int side = 0; side < 2; side++) {
        pid_t process = fork();
        if (process < 0)
            fail("fork");
        if (process == 0) {
            close(homes[0][0]);
            close(homes[1][0]);
            close(homes[1 - side][1]);
            close(between[1 - side]);
            unit((uint32_t)side, homes[side][1], between[side]);
        }
        places[side] = (struct place){homes[side][0], process};
    }
    for (int side = 0; side < 2; side++) {
        close(homes[side][1]);
        close(between[side]);
    }
}

static void expect_end(int side, pid_t process)
{
    int status;
    if (waitpid(process, &status, 0) < 0)
        fail("waitpid");
    if (!WIFEXITED(status) || WEXITSTATUS(status) != 0) {
        fprintf(stderr, "unit %d did not end well\n", side);
        exit(1);
    }
}

static void show(const char *what, const uint8_t code[PAIR_MAX_CODE_BYTES])
{
    char digits[PAIR_MAX_DIGITS + 1];
    pair_code_digits(set, code, digits);
    printf("%s  %s\n", what, digits);
}

/* The owners. Halves are drawn after the fork: no unit's memory has the other's. */
static void hand_out_halves(const struct place places[2])
{
    size_t key_n = PAIR_KEY_BYTES_OF(set), label_n = PAIR_LABEL_BYTES_OF(set);
    for (int side = 0; side < 2; side++) {
        draw(secret.keys[side], key_n);
        draw(secret.labels[side], label_n);
        send_bytes(places[side].socket, secret.keys[side], key_n);
        send_bytes(places[side].socket, secret.labels[side], label_n);
    }
}

/* What the counter gets. */
struct shares {
    uint8_t bytes[2][PAIR_MAX_SHARE_FRAME_BYTES + 1];
    size_t n[2];
};

/* The counter. */
static void join(const struct place places[2], struct shares *shares, uint8_t code[PAIR_MAX_CODE_BYTES])
{
    for (int side = 0; side < 2; side++)
        shares->n[side] = receive(places[side].socket, shares->bytes[side], sizeof shares->bytes[side]);
    expect_ok("join", pair_join(set, shares->bytes[0], shares->n[0], shares->bytes[1], shares->n[1], code,
                                PAIR_MAX_CODE_BYTES));
    show("two units", code);
}

/* The evaluator, on the sums of the halves. */
static void evaluate(const uint8_t file[PAIR_MAX_FILE_BYTES], uint8_t code[PAIR_MAX_CODE_BYTES])
{
    size_t n = PAIR_KEY_BYTES_OF(set);
    for (size_t i = 0; i < n; i++) {
        secret.key[i] = secret.keys[0][i] ^ secret.keys[1][i];
        secret.label[i] = secret.labels[0][i] ^ secret.labels[1][i];
    }
    uint32_t number = pair_evaluate(set, secret.key, n, secret.label, n, file, PAIR_FILE_BYTES_OF(set), code,
                                    PAIR_MAX_CODE_BYTES);
    pair_wipe_stack();
    expect_ok("evaluator", number);
    show("evaluator", code);
}

/* A set as a word: one figure. Ends the process with 2 and a sentence where it is none. */
static uint32_t set_of(const char *word)
{
    uint32_t named = (uint32_t)(word[0] - '0');
    if (PAIR_BITS_OF(named) > 0 && word[1] == '\0')
        return named;
    fprintf(stderr, "%s, not '%s'\n", pair_number_text(PAIR_NO_SET), word);
    exit(2);
}

/* A line as a word: a decimal number below 256. Ends the process with 2 and a sentence where it is none. */
static uint8_t line_of(const char *word)
{
    unsigned named = 0;
    size_t n = strspn(word, "0123456789");
    for (size_t i = 0; i < n && named < 256; i++)
        named = 10 * named + (unsigned)(word[i] - '0');
    if (n > 0 && word[n] == '\0' && named < 256)
        return (uint8_t)named;
    fprintf(stderr, "a line is 0 to 255, not '%s'\n", word);
    exit(2);
}

int main(int argc, char **argv)
{
    if (argc > 4) {
        fprintf(stderr, "usage: two_units [SET [LINE [FOLDER]]]\n");
        return 2;
    }
    if (argc > 1)
        set = set_of(argv[1]);
    if (argc > 2)
        line = line_of(argv[2]);
    if (atexit(wipe_secret) != 0)
        fail("atexit");
    struct place places[2];
    start_units(places);

    static uint8_t file[PAIR_MAX_FILE_BYTES];
    uint8_t code[PAIR_MAX_CODE_BYTES], evaluated[PAIR_MAX_CODE_BYTES];
    size_t file_n = PAIR_FILE_BYTES_OF(set);
    struct shares shares;
    uint64_t start = 0;
    int equal = 1;
    draw_matrix(file);
    draw(secret.source, ALL_SOURCE_BYTES_OF(set));
    for (int side = 0; side < 2; side++)
        send_bytes(places[side].socket, file, file_n);
    for (uint32_t session = 1; session <= SESSIONS; session++) {
        hand_out_halves(places);
        start = deal(session, start, places);
        join(places, &shares, code);
        evaluate(file, evaluated);
        equal = equal && memcmp(code, evaluated, PAIR_CODE_BYTES_OF(set)) == 0;
    }
    for (int side = 0; side < 2; side++)
        expect_end(side, places[side].process);

    if (argc > 3) {
        save(argv[3], "matrix", file, file_n);
        save(argv[3], "share0", shares.bytes[0], shares.n[0]);
        save(argv[3], "share1", shares.bytes[1], shares.n[1]);
    }
    puts(equal ? "equal" : "NOT EQUAL");
    return equal ? 0 : 1;
}
