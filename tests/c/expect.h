/* Comparisons of a test program. Each is counted; a failed one is printed with both sides. */
#ifndef EXPECT_H
#define EXPECT_H

#include <stddef.h>
#include <stdint.h>

void expect_number(const char *what, uint64_t got, uint64_t wanted);
void expect_bytes(const char *what, const uint8_t *got, const uint8_t *wanted, size_t length);

/* Prints the test's summary line and answers the exit status of its program. */
int expect_summary(const char *test);

#endif
