/* The counter: checks a matrix file, adds two share frames to the code and prints its digits.
 *
 *     counter_reader [SET] MATRIX SHARE0 SHARE1
 *
 * The set is 1 where none is named. Ends with 0; with 1 and a sentence if the library refuses; with 2 if it is called
 * with other words, or a file can't be read. */
#include "service_pair.h"
#include "service_pair_text.h"

#include <stdio.h>
#include <stdlib.h>

/* What is for the counter alone, in one place, so that every way out of the program wipes it. */
static struct {
    uint8_t share0[PAIR_MAX_SHARE_FRAME_BYTES + 1], share1[PAIR_MAX_SHARE_FRAME_BYTES + 1];
    uint8_t code[PAIR_MAX_CODE_BYTES];
    char digits[PAIR_MAX_DIGITS + 1];
} held;

static void wipe_held(void)
{
    pair_wipe(&held, sizeof held);
}

/* Ends the program with 1 and a sentence where a call was refused. */
static void expect_ok(const char *what, uint32_t number)
{
    if (number == PAIR_OK)
        return;
    fprintf(stderr, "%s refused with %u: %s\n", what, (unsigned)number, pair_number_text(number));
    exit(1);
}

/* A set as a word: one figure. Ends the program with 2 and a sentence where it is none. */
static uint32_t set_of(const char *word)
{
    uint32_t set = (uint32_t)(word[0] - '0');
    if (PAIR_BITS_OF(set) > 0 && word[1] == '\0')
        return set;
    fprintf(stderr, "%s, not '%s'\n", pair_number_text(PAIR_NO_SET), word);
    exit(2);
}

/* Reads a file into `room` bytes; they are one more than a fit file of any set has, so that the library sees a
 * file that is too long, and judges it. */
static size_t read_file(const char *path, uint8_t *bytes, size_t room)
{
    FILE *file = fopen(path, "rb");
    if (file == NULL) {
        perror(path);
        exit(2);
    }
    size_t n = fread(bytes, 1, room, file);
    if (ferror(file)) {
        perror(path);
        exit(2);
    }
    fclose(file);
    return n;
}

int main(int argc, char **argv)
{
    if (argc != 4 && argc != 5) {
        fprintf(stderr, "usage: counter_reader [SET] MATRIX SHARE0 SHARE1\n");
        return 2;
    }
    if (atexit(wipe_held) != 0) {
        fprintf(stderr, "what is held could not be wiped at the end\n");
        return 2;
    }
    uint32_t set = argc == 5 ? set_of(argv[1]) : 1;
    char **paths = argv + argc - 3;
    static uint8_t file[PAIR_MAX_FILE_BYTES + 1];
    size_t file_n = read_file(paths[0], file, sizeof file);
    expect_ok("matrix file", pair_matrix_check(set, file, file_n));

    size_t share0_n = read_file(paths[1], held.share0, sizeof held.share0);
    size_t share1_n = read_file(paths[2], held.share1, sizeof held.share1);
    uint32_t number = pair_join(set, held.share0, share0_n, held.share1, share1_n, held.code, sizeof held.code);
    pair_wipe_stack();
    expect_ok("share frames", number);

    pair_code_digits(set, held.code, held.digits);
    puts(held.digits);
    return 0;
}
