#define _GNU_SOURCE

#include "coverage.h"

#include <signal.h>
#include <stdio.h>
#include <stdlib.h>
#include <string.h>
#include <sys/mman.h>
#include <ucontext.h>
#include <unistd.h>

#define BREAKPOINT 0xcc

/* The first byte of an instruction, which its breakpoint covers. */
static uint8_t *covered;
static uint8_t *met;

static void fail(const char *what)
{
    fprintf(stderr, "coverage: %s\n", what);
    abort();
}

/* The instruction at an address; the addresses rise. */
static size_t instruction_at(const uint8_t *address)
{
    size_t low = 0;
    size_t high = coverage_length;
    while (low < high) {
        size_t middle = low + (high - low) / 2;
        if (coverage_instructions[middle] < address)
            low = middle + 1;
        else
            high = middle;
    }
    if (low == coverage_length || coverage_instructions[low] != address)
        fail("a breakpoint that is not ours");
    return low;
}

static void on_breakpoint(int signal, siginfo_t *information, void *context)
{
    greg_t *next = &((ucontext_t *)context)->uc_mcontext.gregs[REG_RIP];
    uint8_t *address = (uint8_t *)(*next - 1);
    size_t place = instruction_at(address);
    (void)signal;
    (void)information;
    *address = covered[place];
    coverage_counters[place] = 1;
    met[place] = 1;
    *next -= 1;
}

/* Answers whether they were written: an old file in their place would tell of another run. */
static int write_places(const char *path)
{
    FILE *places = fopen(path, "w");
    if (places == NULL)
        return 0;
    for (size_t i = 0; i < coverage_length; i++)
        fprintf(places, "%d\n", met[i]);
    int failed = ferror(places);
    return fclose(places) == 0 && !failed;
}

static void report(void)
{
    const char *path = getenv("COVERAGE");
    size_t count = 0;
    for (size_t i = 0; i < coverage_length; i++)
        count += met[i];
    fprintf(stderr, "coverage: %zu of %zu instructions of the compiled code\n", count,
            coverage_length);
    if (path != NULL && !write_places(path)) {
        perror(path);
        _exit(EXIT_FAILURE);
    }
}

static void make_writable(void)
{
    uintptr_t page = (uintptr_t)sysconf(_SC_PAGESIZE);
    uintptr_t first = (uintptr_t)coverage_instructions[0] / page * page;
    uintptr_t last = (uintptr_t)coverage_instructions[coverage_length - 1];
    if (mprotect((void *)first, last + 1 - first, PROT_READ | PROT_WRITE | PROT_EXEC) != 0)
        fail("the code cannot be made writable");
}

void coverage_start(void)
{
    struct sigaction action;
    memset(&action, 0, sizeof action);
    action.sa_sigaction = on_breakpoint;
    action.sa_flags = SA_SIGINFO;
    covered = malloc(coverage_length);
    met = calloc(coverage_length, 1);
    if (covered == NULL || met == NULL || sigaction(SIGTRAP, &action, NULL) != 0)
        fail("no memory or no handler");
    make_writable();
    for (size_t i = 0; i < coverage_length; i++) {
        if (i != 0 && coverage_instructions[i] <= coverage_instructions[i - 1])
            fail("addresses that do not rise");
        covered[i] = *coverage_instructions[i];
        *coverage_instructions[i] = BREAKPOINT;
    }
    if (atexit(report) != 0)
        fail("no report at the end");
}
