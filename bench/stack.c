/*
 * The stack that each call needs: it runs on a painted stack of its own, and the deepest byte that
 * lost its paint counts. What a call of an empty function needs is taken off.
 */
#include "painted.h"
#include "plain.h"
#include "workload.h"

#include <stdio.h>
#include <stdlib.h>

#define STACK_SIZE (1 << 20)
#define MEASURED (WORKLOADS + 1)

/* The call to run stands here, as a call on a stack of its own is passed nothing. */
static workload_call *current_call;
static const struct workload *current_workload;
static volatile uint64_t sink;

static uint64_t empty_call(const struct workload *workload)
{
    return workload->payload_length;
}

static void run_current(void)
{
    sink = current_call(current_workload);
}

/* The most that the call needs on any workload. The first run, uncounted, lets the loader bind what
 * the call uses. */
static size_t most(workload_call *call, const struct workload workloads[MEASURED])
{
    size_t deepest = 0;
    for (int i = 0; i < MEASURED; i++) {
        current_call = call;
        current_workload = &workloads[i];
        run_current();
        size_t used = painted_depth(run_current, STACK_SIZE);
        deepest = used > deepest ? used : deepest;
    }
    return deepest;
}

static void print_row(const struct row *row, const struct workload workloads[MEASURED])
{
    size_t empty = most(empty_call, workloads);
    printf("%-11s", row->name);
    for (int i = 0; row->subjects[i].call != NULL; i++)
        printf("  %s %zu", row->subjects[i].name, most(row->subjects[i].call, workloads) - empty);
    printf("\n");
}

int main(void)
{
    static struct workload workloads[MEASURED];
    crc_tables_start();
    workloads_make(workloads);
    workload_make_deepest(&workloads[WORKLOADS]);
    printf("stack in bytes, the most over all inputs\n");
    print_row(&crc_row, workloads);
    print_row(&write_row, workloads);
    print_row(&check_row, workloads);
    return fclose(stdout) == 0 ? EXIT_SUCCESS : EXIT_FAILURE;
}
