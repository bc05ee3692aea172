/*
 * Time of each call of the library, beside the same call by others. The calls of one row take
 * turns in short rounds. A time is that of the best round; a ratio is the median over the rounds,
 * as both sides of one round met the same load and clock.
 */
#define _POSIX_C_SOURCE 200809L

#include "plain.h"
#include "workload.h"

#include <stdio.h>
#include <stdlib.h>
#include <time.h>

#define ROUNDS 41
#define ROUND_NS 1000000.0

/* Nanoseconds for one call, in each round. */
struct times {
    double ns[SUBJECTS_MAX][ROUNDS];
};

/* Results go here, so that no call is left out. */
static volatile uint64_t sink;

static double now_ns(void)
{
    struct timespec time;
    clock_gettime(CLOCK_MONOTONIC, &time);
    return (double)time.tv_sec * 1e9 + (double)time.tv_nsec;
}

static double time_call(workload_call *call, const struct workload *workload, unsigned calls)
{
    double start = now_ns();
    for (unsigned i = 0; i < calls; i++)
        sink = call(workload);
    return (now_ns() - start) / calls;
}

static unsigned calls_of_round(workload_call *call, const struct workload *workload)
{
    unsigned calls = 16;
    while (time_call(call, workload, calls) * calls < ROUND_NS)
        calls *= 2;
    return calls;
}

static void measure(const struct row *row, const struct workload *workload, struct times *times)
{
    unsigned calls = calls_of_round(row->subjects[0].call, workload);
    for (int round = 0; round < ROUNDS; round++)
        for (int i = 0; row->subjects[i].call != NULL; i++)
            times->ns[i][round] = time_call(row->subjects[i].call, workload, calls);
}

static double best(const struct times *times, int subject)
{
    double least = times->ns[subject][0];
    for (int round = 1; round < ROUNDS; round++)
        least = times->ns[subject][round] < least ? times->ns[subject][round] : least;
    return least;
}

static int compare_doubles(const void *left, const void *right)
{
    double a = *(const double *)left, b = *(const double *)right;
    return (a > b) - (a < b);
}

/* The library's time over that of another subject. */
static double ratio(const struct times *times, int subject)
{
    double ratios[ROUNDS];
    for (int round = 0; round < ROUNDS; round++)
        ratios[round] = times->ns[0][round] / times->ns[subject][round];
    qsort(ratios, ROUNDS, sizeof ratios[0], compare_doubles);
    return ratios[ROUNDS / 2];
}

/* All must give the same answer, or their times mean nothing. */
static void require_alike(const struct row *row, const struct workload *workload)
{
    uint64_t wanted = row->subjects[0].call(workload);
    for (int i = 1; row->subjects[i].call != NULL; i++) {
        if (row->subjects[i].call(workload) == wanted)
            continue;
        fprintf(stderr, "%s: %s answers otherwise\n", row->name, row->subjects[i].name);
        exit(EXIT_FAILURE);
    }
}

static void print_row(const struct row *row, const struct workload *workload)
{
    struct times times;
    require_alike(row, workload);
    measure(row, workload, &times);
    printf("%-11s  %7zu  %-7s  %8.1f", row->name, workload->payload_length, workload->kind,
           best(&times, 0));
    for (int i = 1; row->subjects[i].call != NULL; i++)
        printf("  %8.1f  %5.2f", best(&times, i), ratio(&times, i));
    printf("\n");
}

static void print_table(const struct row *row, const struct workload *workloads, int count)
{
    printf("%-11s  %7s  %-7s  %8s", "call", "payload", "kind", row->subjects[0].name);
    for (int i = 1; row->subjects[i].call != NULL; i++)
        printf("  %8s  %5s", row->subjects[i].name, "ratio");
    printf("\n");
    for (int i = 0; i < count; i++)
        print_row(row, &workloads[i]);
}

int main(void)
{
    static struct workload workloads[WORKLOADS], crc_workloads[CRC_WORKLOADS];
    crc_tables_start();
    workloads_make(workloads);
    crc_workloads_make(crc_workloads);
    printf("ns for one call; a ratio under 1.00 means that the library is faster\n");
    print_table(&crc_row, crc_workloads, CRC_WORKLOADS);
    print_table(&write_row, workloads, WORKLOADS);
    print_table(&check_row, workloads, WORKLOADS);
    return fclose(stdout) == 0 ? EXIT_SUCCESS : EXIT_FAILURE;
}
