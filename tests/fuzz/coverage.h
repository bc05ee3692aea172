/*
 * Which instructions of a compiled object have run. The library and `replay` are fuzzed as they
 * were compiled, with no instrumentation in them: a breakpoint stands on each instruction until it
 * is met for the first time, and the fuzzer keeps the input that met it.
 */
#ifndef COVERAGE_H
#define COVERAGE_H

#include <stddef.h>
#include <stdint.h>

/* From instructions.awk: the address of each instruction, and a counter of the fuzzer for each. */
extern uint8_t *const coverage_instructions[];
extern const size_t coverage_length;
extern uint8_t coverage_counters[];

/*
 * Sets the breakpoints, and says at the end of the program how many were met. If the environment
 * names a file by COVERAGE, it gets a line with 1 or 0 for each instruction, met or not.
 */
void coverage_start(void);

#endif
