/* What the parts of the program share: expectations, and bytes to work on. */
#ifndef EXPECT_H
#define EXPECT_H

#include <stddef.h>
#include <stdint.h>

enum {
    AROUND = 16,    /* bytes that are watched on each side of a buffer */
    MOST_SHOWN = 64 /* bytes that can be compared with hexadecimal digits */
};

/* How many expectations didn't hold. */
extern int mismatches;

void expect(int as_it_should_be, const char *what);

/* Prints the bytes too. */
void expect_bytes(const char *what, const uint8_t *bytes, size_t count, const char *hex);

void count_up(uint8_t *bytes, size_t count, uint8_t first);

int all_are(const uint8_t *bytes, size_t count, uint8_t value);

/* An empty byte string as C programs often have it. */
const uint8_t *null_if_empty(const uint8_t *bytes, size_t count);

#endif
