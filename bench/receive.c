/*
 * Time of the receiver on streams in pieces of 1, 64 and 4,096 bytes, beside the same in C. All are
 * programs, named as arguments, the library first: they are given a number of rounds, a watch list
 * and a stream, and what counts is the processor time that the system says they took. They take
 * turns. A speed is that of the best turn; a ratio is the median over the turns.
 */
#define _DEFAULT_SOURCE

#include "arznavik.h"

#include "plain.h"

#include <stdio.h>
#include <stdlib.h>
#include <string.h>
#include <sys/resource.h>
#include <sys/types.h>
#include <sys/wait.h>
#include <unistd.h>

#define TURNS 11
#define TURN_NS 1e8
#define STREAM_MAX 16384
#define PROGRAMS 3
#define ALIKE_ROUNDS 3
#define OUTPUT_MAX 2048
#define HIVES_MAX 40
#define FIELD_HEAD 3
#define FIELD_MAX (FIELD_HEAD + 5)

struct program {
    const char *path;
    unsigned rounds;
    double ns_per_byte[TURNS];
};

struct stream {
    const char *kind;
    size_t length;
    FILE *bytes;
};

static void require(int holds, const char *what)
{
    if (holds)
        return;
    fprintf(stderr, "receive: %s\n", what);
    exit(EXIT_FAILURE);
}

static FILE *empty_file(void)
{
    FILE *file = tmpfile();
    require(file != NULL, "no temporary file");
    return file;
}

static void start_program(const char *path, FILE *input, FILE *output)
{
    if (dup2(fileno(input), STDIN_FILENO) >= 0 && dup2(fileno(output), STDOUT_FILENO) >= 0)
        execl(path, path, (char *)NULL);
    _exit(EXIT_FAILURE);
}

static double ns_of(struct timeval time)
{
    return (double)time.tv_sec * 1e9 + (double)time.tv_usec * 1e3;
}

/* A number in four bytes, high byte first. */
static void put_number(FILE *file, size_t number)
{
    for (int shift = 24; shift >= 0; shift -= 8)
        require(fputc((int)(number >> shift & 0xff), file) != EOF, "no room for a number");
}

/* The hives h1, h2 and so on as a watch list, and its length before it. */
static void put_list(FILE *file, unsigned hives)
{
    char list[HIVES_MAX * FIELD_MAX];
    size_t length = 0;
    require(hives <= HIVES_MAX, "too many hives");
    for (unsigned i = 1; i <= hives; i++) {
        int size = snprintf(list + length + FIELD_HEAD, FIELD_MAX - FIELD_HEAD, "h%u", i);
        list[length] = 1;
        list[length + 1] = 0;
        list[length + 2] = (char)size;
        length += FIELD_HEAD + (size_t)size;
    }
    put_number(file, length);
    require(fwrite(list, 1, length, file) == length, "no room for the list");
}

/*
 * Runs a program, its output going into a file, and answers its processor time. Before the watch
 * list and the stream stand the length of a piece and the number of rounds.
 */
static double run(const char *path, size_t size, unsigned rounds, FILE *input, FILE *output)
{
    int status = 0;
    struct rusage usage;
    rewind(input);
    put_number(input, size);
    put_number(input, rounds);
    rewind(input);
    rewind(output);
    fflush(NULL);
    pid_t child = fork();
    require(child >= 0, "no process");
    if (child == 0)
        start_program(path, input, output);
    require(wait4(child, &status, 0, &usage) == child, "no end");
    require(WIFEXITED(status) && WEXITSTATUS(status) == EXIT_SUCCESS, path);
    return ns_of(usage.ru_utime) + ns_of(usage.ru_stime);
}

static void output_of(const char *path, size_t size, FILE *input, char text[OUTPUT_MAX])
{
    FILE *output = empty_file();
    run(path, size, ALIKE_ROUNDS, input, output);
    rewind(output);
    memset(text, 0, OUTPUT_MAX);
    require(fread(text, 1, OUTPUT_MAX - 1, output) != 0, "no output");
    fclose(output);
}

/* All must come to the same counts, or their times mean nothing. */
static void require_alike(const struct program programs[PROGRAMS], size_t size, FILE *input)
{
    char wanted[OUTPUT_MAX], text[OUTPUT_MAX];
    output_of(programs[0].path, size, input, wanted);
    for (int i = 1; i < PROGRAMS; i++) {
        output_of(programs[i].path, size, input, text);
        require(strcmp(text, wanted) == 0, "the counts differ");
    }
}

static void measure(struct program programs[PROGRAMS], size_t size, const struct stream *stream)
{
    FILE *output = empty_file();
    for (int i = 0; i < PROGRAMS; i++) {
        programs[i].rounds = 1;
        while (run(programs[i].path, size, programs[i].rounds, stream->bytes, output) < TURN_NS)
            programs[i].rounds *= 2;
    }
    for (int turn = 0; turn < TURNS; turn++)
        for (int i = 0; i < PROGRAMS; i++) {
            double bytes = (double)stream->length * programs[i].rounds;
            programs[i].ns_per_byte[turn] =
                run(programs[i].path, size, programs[i].rounds, stream->bytes, output) / bytes;
        }
    fclose(output);
}

static int compare_doubles(const void *left, const void *right)
{
    double a = *(const double *)left, b = *(const double *)right;
    return (a > b) - (a < b);
}

static double best_speed(const struct program *program)
{
    double least = program->ns_per_byte[0];
    for (int turn = 1; turn < TURNS; turn++)
        least = program->ns_per_byte[turn] < least ? program->ns_per_byte[turn] : least;
    return 1e9 / least;
}

/* The library's time over that of another program. */
static double ratio(const struct program *library, const struct program *other)
{
    double ratios[TURNS];
    for (int turn = 0; turn < TURNS; turn++)
        ratios[turn] = library->ns_per_byte[turn] / other->ns_per_byte[turn];
    qsort(ratios, TURNS, sizeof ratios[0], compare_doubles);
    return ratios[TURNS / 2];
}

/*
 * As many data frames with this payload as there is room for, to a board of so many hives; no two in
 * a row have one sequence.
 */
static struct stream make_stream(const char *kind, unsigned hives, const uint8_t *payload,
                                 size_t payload_length)
{
    static uint8_t frame[ARZNAVIK_FRAME_MAX];
    struct stream stream = {kind, 0, empty_file()};
    put_number(stream.bytes, 0);
    put_number(stream.bytes, 0);
    put_list(stream.bytes, hives);
    for (unsigned i = 0;; i++) {
        uint64_t report = plain_frame_write(ARZNAVIK_TYPE_DATA, (uint8_t)(1 + i % 255), payload,
                                            payload_length, frame, sizeof frame);
        size_t length = arznavik_length(report);
        if (stream.length + length > STREAM_MAX)
            return stream;
        require(fwrite(frame, 1, length, stream.bytes) == length, "no room for the stream");
        stream.length += length;
    }
}

/* The update of case 6. */
static const uint8_t update[] = {0x01, 0x03, 0x00, 0x00, 0x01, 0x02, 'h',
                                 '1',  0x16, 0x04, 0x00, 0x00, 0x0d, 0x7a};

static struct stream short_updates(void)
{
    return make_stream("update", 2, update, sizeof update);
}

/* The same of the last of forty hives. */
static struct stream fortieth_updates(void)
{
    static const uint8_t fortieth[] = {0x01, 0x03, 0x00, 0x00, 0x01, 0x03, 'h', '4',
                                       '0',  0x16, 0x04, 0x00, 0x00, 0x0d, 0x7a};
    return make_stream("fortieth", HIVES_MAX, fortieth, sizeof fortieth);
}

/* With two items behind it that fill the longest payload. */
static struct stream longest_updates(void)
{
    static const size_t items[] = {sizeof update, sizeof update + 2 + 255};
    uint8_t payload[ARZNAVIK_PAYLOAD_MAX];
    for (size_t i = 0; i < sizeof payload; i++)
        payload[i] = (uint8_t)(i * 37 % 0x7d);
    memcpy(payload, update, sizeof update);
    payload[items[0]] = payload[items[1]] = 0x05;
    payload[items[0] + 1] = 255;
    payload[items[1] + 1] = (uint8_t)(sizeof payload - items[1] - 2);
    return make_stream("longest", 2, payload, sizeof payload);
}

/* With as many empty items behind it as the longest payload has room for. */
static struct stream updates_of_many_items(void)
{
    uint8_t payload[ARZNAVIK_PAYLOAD_MAX - 1] = {0};
    memcpy(payload, update, sizeof update);
    for (size_t i = sizeof update; i < sizeof payload; i += 2)
        payload[i] = 0x05;
    return make_stream("items", 2, payload, sizeof payload);
}

static void print_row(struct program programs[PROGRAMS], size_t size, const struct stream *stream)
{
    require_alike(programs, size, stream->bytes);
    measure(programs, size, stream);
    printf("%-8s  %6zu  %8.1f", stream->kind, size, best_speed(&programs[0]) / 1e6);
    for (int i = 1; i < PROGRAMS; i++)
        printf("  %8.1f  %5.2f", best_speed(&programs[i]) / 1e6, ratio(&programs[0], &programs[i]));
    printf("\n");
}

int main(int argc, char **argv)
{
    static const size_t sizes[] = {1, 64, 4096};
    require(argc == 1 + PROGRAMS, "asks for the library's program, plain C and table C");
    struct program programs[PROGRAMS];
    for (int i = 0; i < PROGRAMS; i++)
        programs[i].path = argv[1 + i];
    const struct stream streams[] = {short_updates(), longest_updates(), updates_of_many_items(),
                                     fortieth_updates()};
    printf("million bytes in a second; a ratio under 1.00 means that the library is faster\n");
    printf("%-8s  %6s  %8s  %8s  %5s  %8s  %5s\n", "frames", "piece", "library", "plain C", "ratio",
           "table C", "ratio");
    for (size_t i = 0; i < sizeof streams / sizeof streams[0]; i++)
        for (size_t j = 0; j < sizeof sizes / sizeof sizes[0]; j++)
            print_row(programs, sizes[j], &streams[i]);
    return fclose(stdout) == 0 ? EXIT_SUCCESS : EXIT_FAILURE;
}
