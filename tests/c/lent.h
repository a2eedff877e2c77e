/* Slices between guards: one end at a page that can't be touched, which stops the program at the first byte past
 * it, the other end at guard bytes. The sanitizers don't see into a library that was compiled without them. */
#ifndef TEST_LENT_H
#define TEST_LENT_H

#define _DEFAULT_SOURCE
#include "inputs.h"

#include <stdbool.h>
#include <stdio.h>
#include <stdlib.h>
#include <string.h>
#include <sys/mman.h>
#include <unistd.h>

/* How many calls were made. */
static unsigned long calls;

static inline void expect(bool holds, const char *name, const char *what)
{
    if (holds)
        return;
    fprintf(stderr, "%s, call %lu: %s\n", name, calls, what);
    exit(1);
}

struct lent {
    uint8_t *pages;   /* the pages between the two that can't be touched */
    uint8_t *before;  /* what they held before the call */
    size_t pages_n;
    uint8_t *p;
    size_t n;
};

static inline size_t page(void)
{
    return (size_t)sysconf(_SC_PAGESIZE);
}

/* Lends n bytes: these, as far as there are so many, and then others. */
static inline struct lent lend(const uint8_t *content, size_t content_n, size_t n, bool at_end)
{
    struct lent s = {.n = n, .pages_n = (n / page() + 1) * page()};
    uint8_t *map = mmap(NULL, s.pages_n + 2 * page(), PROT_NONE, MAP_PRIVATE | MAP_ANONYMOUS, -1, 0);
    s.pages = map + page();
    s.before = malloc(s.pages_n);
    if (map == MAP_FAILED || s.before == NULL || mprotect(s.pages, s.pages_n, PROT_READ | PROT_WRITE) != 0) {
        perror("memory for a slice");
        exit(2);
    }
    memset(s.pages, (int)(draw() >> 56), s.pages_n);
    s.p = at_end ? s.pages + s.pages_n - n : s.pages;
    if (content != NULL)
        memcpy(s.p, content, n < content_n ? n : content_n);
    memcpy(s.before, s.pages, s.pages_n);
    return s;
}

/* An input is in pages that can't be written. */
static inline void forbid_writing(const struct lent *s)
{
    if (mprotect(s->pages, s->pages_n, PROT_READ) != 0) {
        perror("mprotect");
        exit(2);
    }
}

/* Whether all is as it was, but for the first `written` bytes of the slice. */
static inline bool kept(const struct lent *s, size_t written)
{
    size_t from = (size_t)(s->p - s->pages), to = from + written;
    return memcmp(s->pages, s->before, from) == 0 && memcmp(s->pages + to, s->before + to, s->pages_n - to) == 0;
}

static inline void give_back(struct lent *s)
{
    munmap(s->pages - page(), s->pages_n + 2 * page());
    free(s->before);
}

#endif
