#define _DEFAULT_SOURCE
#define _XOPEN_SOURCE 700

#include "painted.h"

#include <stdio.h>
#include <stdlib.h>
#include <string.h>
#include <sys/mman.h>
#include <ucontext.h>

#define GUARD 4096

static ucontext_t here, there;

static void require(int holds, const char *what)
{
    if (!holds) {
        perror(what);
        exit(EXIT_FAILURE);
    }
}

static size_t depth(void (*call)(void), unsigned char *stack, size_t stack_size,
                    unsigned char paint)
{
    memset(stack, paint, stack_size);
    require(getcontext(&there) == 0, "getcontext");
    there.uc_stack.ss_sp = stack;
    there.uc_stack.ss_size = stack_size;
    there.uc_link = &here;
    makecontext(&there, call, 0);
    require(swapcontext(&here, &there) == 0, "swapcontext");
    size_t clean = 0;
    while (clean < stack_size && stack[clean] == paint)
        clean++;
    return stack_size - clean;
}

size_t painted_depth(void (*call)(void), size_t stack_size)
{
    static const unsigned char paints[] = {0x5a, 0xa5};
    unsigned char *memory = mmap(NULL, GUARD + stack_size, PROT_READ | PROT_WRITE,
                                 MAP_PRIVATE | MAP_ANONYMOUS, -1, 0);
    size_t deepest = 0;
    require(memory != MAP_FAILED, "mmap");
    require(mprotect(memory, GUARD, PROT_NONE) == 0, "mprotect");
    for (size_t i = 0; i < sizeof paints; i++) {
        size_t used = depth(call, memory + GUARD, stack_size, paints[i]);
        deepest = used > deepest ? used : deepest;
    }
    require(munmap(memory, GUARD + stack_size) == 0, "munmap");
    return deepest;
}
