/* What the two parts of the test of secrets share: marks, and what is expected of a call. */
#ifndef TEST_SECRETS_H
#define TEST_SECRETS_H

#include <stddef.h>
#include <stdint.h>

void fail(const char *name, const char *what, unsigned long n);

/* Marks bytes as secret, or as public again. */
void hide(void *bytes, size_t n);
void show(void *bytes, size_t n);
/* Marks the bits of a byte that are set in `marks` as secret, and the others as public. */
void hide_bits(uint8_t *byte, uint8_t marks);
/* Bytes that must not even be read, until they are shown. */
void forbid(void *bytes, size_t n);

/* What is public must not depend on a secret. */
void expect_public(const char *name, const void *bytes, size_t n);

/* ... and the test must mark what it means to mark. */
void expect_secret(const char *name, const uint8_t *bytes, size_t n);

/* After a call: its number, and, without secrets.supp, that it made no more than `most` reports, but one if
 * any is listed for it: else the list is longer than it need be. */
void expect(const char *name, uint32_t number, uint32_t right, unsigned most);

/* secret_sizes.c: the functions of linear algebra at all sizes, and what memcheck must refuse: a product, and a
 * test of a row that is not left where it should be. */
void try_sizes(void);
void leak_by_mask(void);
void leak_by_row(void);

#endif
