#include "expect.h"

#include <inttypes.h>
#include <stdio.h>
#include <stdlib.h>
#include <string.h>

static unsigned comparisons;
static unsigned failures;

static void print_bytes(const char *side, const uint8_t *bytes, size_t length)
{
    printf("  %s", side);
    for (size_t i = 0; i < length; i++)
        printf(" %02x", bytes[i]);
    printf("\n");
}

void expect_number(const char *what, uint64_t got, uint64_t wanted)
{
    comparisons++;
    if (got == wanted)
        return;
    failures++;
    printf("FAILED %s: got %" PRIx64 ", wanted %" PRIx64 " (hex)\n", what, got, wanted);
}

void expect_bytes(const char *what, const uint8_t *got, const uint8_t *wanted, size_t length)
{
    comparisons++;
    if (memcmp(got, wanted, length) == 0)
        return;
    failures++;
    size_t first = 0;
    while (got[first] == wanted[first])
        first++;
    size_t shown = length - first < 16 ? length - first : 16;
    printf("FAILED %s: differs from byte %zu on\n", what, first);
    print_bytes("got   ", got + first, shown);
    print_bytes("wanted", wanted + first, shown);
}

int expect_summary(const char *test)
{
    printf("%s: %u comparisons, %u failed\n", test, comparisons, failures);
    return failures == 0 && comparisons != 0 ? EXIT_SUCCESS : EXIT_FAILURE;
}
