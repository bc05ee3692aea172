/*
 * The stack that a whole program needs on each file that is named: it reads the file as its standard
 * input, on a painted stack of its own, and what it prints is dropped. The program's main, read and
 * write are linked under other names.
 */
#include "painted.h"

#include <stdio.h>
#include <stdlib.h>
#include <string.h>

#define STACK_SIZE (1 << 23)
#define INPUT_MAX (1 << 20)

int program_main(void);
ptrdiff_t program_read(int descriptor, void *bytes, size_t count);
ptrdiff_t program_write(int descriptor, const void *bytes, size_t count);

static unsigned char input[INPUT_MAX];
static size_t length, taken;

ptrdiff_t program_read(int descriptor, void *bytes, size_t count)
{
    size_t given = length - taken < count ? length - taken : count;
    (void)descriptor;
    memcpy(bytes, input + taken, given);
    taken += given;
    return (ptrdiff_t)given;
}

ptrdiff_t program_write(int descriptor, const void *bytes, size_t count)
{
    (void)descriptor;
    (void)bytes;
    return (ptrdiff_t)count;
}

static void run_program(void)
{
    taken = 0;
    if (program_main() != 0)
        exit(EXIT_FAILURE);
}

static void read_input(const char *name)
{
    FILE *file = fopen(name, "rb");
    if (file == NULL) {
        perror(name);
        exit(EXIT_FAILURE);
    }
    length = fread(input, 1, sizeof input, file);
    if (length == sizeof input || ferror(file) || fclose(file) != 0) {
        fprintf(stderr, "%s: too long, or not read\n", name);
        exit(EXIT_FAILURE);
    }
}

int main(int count, char **names)
{
    for (int i = 1; i < count; i++) {
        read_input(names[i]);
        run_program();
        printf("%10zu  %s\n", painted_depth(run_program, STACK_SIZE), names[i]);
    }
    return fclose(stdout) == 0 ? EXIT_SUCCESS : EXIT_FAILURE;
}
