#include "expect.h"

#include <stdio.h>
#include <string.h>

int mismatches = 0;

void expect(int as_it_should_be, const char *what)
{
    if (!as_it_should_be) {
        printf("    MISMATCH: %s\n", what);
        mismatches++;
    }
}

void expect_bytes(const char *what, const uint8_t *bytes, size_t count, const char *hex)
{
    char seen[2 * MOST_SHOWN + 1] = "";
    for (size_t i = 0; i < count && i < MOST_SHOWN; i++)
        snprintf(seen + 2 * i, 3, "%02x", bytes[i]);
    printf("    %s %s\n", what, seen);
    expect(strcmp(seen, hex) == 0, "other bytes were expected");
}

void count_up(uint8_t *bytes, size_t count, uint8_t first)
{
    for (size_t i = 0; i < count; i++)
        bytes[i] = (uint8_t)(first + i);
}

int all_are(const uint8_t *bytes, size_t count, uint8_t value)
{
    for (size_t i = 0; i < count; i++)
        if (bytes[i] != value)
            return 0;
    return 1;
}

const uint8_t *null_if_empty(const uint8_t *bytes, size_t count)
{
    return count == 0 ? NULL : bytes;
}
