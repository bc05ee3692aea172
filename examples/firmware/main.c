/*
 * An example of a display's loop: it reads a line, checks each frame and acknowledges each good
 * data frame. It prints one line for each frame and sends its replies if the line is a serial
 * device.
 */
#include "arznavik.h"

#include "collector.h"
#include "line.h"

#include <stdio.h>
#include <stdlib.h>
#include <string.h>

static const char usage[] =
    "usage: display [FILE or DEVICE]\n"
    "Reads a line and acknowledges its data frames: from a recording, a pipe, a serial device, or\n"
    "standard input. A device is put in raw mode and keeps its speed, parity, stop bits and\n"
    "hardware flow control, so they are set before, for a module in its default state by:\n"
    "    stty -F DEVICE 115200 cs8 parenb parodd -cstopb crtscts\n";

/* Says what failed, by errno. */
static int failed(const char *name)
{
    perror(name);
    return -1;
}

static void print_bytes(const char *name, const uint8_t *bytes, size_t length)
{
    printf(" %s ", name);
    for (size_t i = 0; i < length; i++)
        printf("%02x", bytes[i]);
}

static int acknowledge(const struct line *line, uint8_t sequence)
{
    uint8_t reply[ARZNAVIK_ACKNOWLEDGEMENT_MAX];
    uint64_t report = arznavik_write_frame(ARZNAVIK_TYPE_ACKNOWLEDGEMENT, sequence, NULL, 0, reply,
                                           sizeof reply);
    print_bytes("reply", reply, arznavik_length(report));
    if (line_reply(line, reply, arznavik_length(report)) != 0)
        return failed(line->name);
    return 0;
}

/* Prints what a good frame holds, and answers a data frame. */
static int take_good(const struct line *line, uint64_t report, const uint8_t *payload)
{
    printf("type %02x sequence %02x", arznavik_type(report), arznavik_sequence(report));
    if (arznavik_length(report) != 0)
        print_bytes("payload", payload, arznavik_length(report));
    if (arznavik_type(report) != ARZNAVIK_TYPE_DATA)
        return 0;
    return acknowledge(line, arznavik_sequence(report));
}

/* Ends the printed line, and sees that it got out. */
static int end_line(void)
{
    printf("\n");
    if (fflush(stdout) != 0 || ferror(stdout))
        return failed("standard output");
    return 0;
}

/* Prints a refusal and, for whoever looks for a bad connector, where the frame broke. */
static void print_refusal(uint64_t report)
{
    unsigned refusal = arznavik_refusal(report);
    unsigned long place = arznavik_place(report);
    printf("refused %u", refusal);
    if (refusal == ARZNAVIK_BAD_CHECK)
        printf(", content of %lu bytes", place);
    else if (place != 0)
        printf(" at byte %lu", place);
}

static int take_frame(const struct line *line, const uint8_t *frame, size_t length)
{
    uint8_t payload[ARZNAVIK_PAYLOAD_MAX];
    uint64_t report = arznavik_check_frame(frame, length, payload, sizeof payload);
    if (arznavik_refusal(report) != ARZNAVIK_TAKEN)
        print_refusal(report);
    else if (take_good(line, report, payload) != 0)
        return -1;
    return end_line();
}

static int take_piece(const struct line *line, struct collector *collector, const uint8_t *piece,
                      int count)
{
    for (int i = 0; i < count; i++) {
        size_t length = collector_take(collector, piece[i]);
        if (length != 0 && take_frame(line, collector->frame, length) != 0)
            return -1;
    }
    return 0;
}

/* Runs until the line ends. Answers 0, or -1 after a message. */
static int run(const struct line *line)
{
    struct collector collector;
    uint8_t piece[256];
    int count, any = 0;
    collector_start(&collector);
    while ((count = line_read(line, piece, sizeof piece)) > 0) {
        any = 1;
        if (take_piece(line, &collector, piece, count) != 0)
            return -1;
    }
    if (count < 0)
        return failed(line->name);
    if (!any) {
        fprintf(stderr, "%s: not one byte came, or nobody writes to it\n", line->name);
        return -1;
    }
    return 0;
}

int main(int argc, char **argv)
{
    struct line line;
    if (argc > 2 || (argc == 2 && strcmp(argv[1], "--help") == 0)) {
        fputs(usage, stderr);
        return 2;
    }
    if (line_open(&line, argc == 2 ? argv[1] : NULL) != 0) {
        failed(line.name);
        return EXIT_FAILURE;
    }
    if (run(&line) != 0)
        return EXIT_FAILURE;
    if (fclose(stdout) != 0) {
        failed("standard output");
        return EXIT_FAILURE;
    }
    return EXIT_SUCCESS;
}
