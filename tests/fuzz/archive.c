/*
 * Fuzzes the three calls of arznavik.h, and the example's collector. An input is bytes and, at its
 * end, four that say how they are used: the call, the room of the output in two, and more in the
 * last. Each answer and each byte lent is held to the plain C of the benchmark.
 */
#define _DEFAULT_SOURCE

#include "arznavik.h"

#include "collector.h"
#include "coverage.h"
#include "plain.h"

#include <stdio.h>
#include <stdlib.h>
#include <string.h>
#include <sys/mman.h>

#define CONTROL 4
/* Memory that a lent buffer stands in, at its start or its end; a page without access is on both
 * sides, so that a read or a write past the buffer is a fault. */
#define PAGE 4096
#define MEMORY PAGE
#define LENGTH_MAX 2048
/* Pairs that may stand before the bytes of a line: more than any content has bytes. */
#define PAIRS_MAX 400

struct memory {
    uint8_t *start;
    uint8_t before[MEMORY];
};

/* Unlike bytes, so that a byte put back in the wrong place shows. */
static uint8_t pattern[MEMORY];

static struct memory inputs;
static struct memory outputs;
static struct memory payloads;

static void expect(int holds, const char *what)
{
    if (holds)
        return;
    fprintf(stderr, "FAILED %s\n", what);
    abort();
}

static void map(struct memory *memory)
{
    uint8_t *pages = mmap(NULL, MEMORY + 2 * PAGE, PROT_NONE, MAP_PRIVATE | MAP_ANONYMOUS, -1, 0);
    expect(pages != MAP_FAILED, "memory");
    memory->start = pages + PAGE;
    expect(mprotect(memory->start, MEMORY, PROT_READ | PROT_WRITE) == 0, "memory to write");
}

/* A buffer of exactly this length, right before the last page or right behind the first. */
static uint8_t *lend(struct memory *memory, size_t length, int at_end)
{
    memcpy(memory->start, pattern, MEMORY);
    memcpy(memory->before, pattern, MEMORY);
    return at_end ? memory->start + MEMORY - length : memory->start;
}

static uint8_t *lend_copy(struct memory *memory, const uint8_t *bytes, size_t length, int at_end)
{
    uint8_t *copy = lend(memory, length, at_end);
    if (length != 0)
        memcpy(copy, bytes, length);
    memcpy(memory->before, memory->start, MEMORY);
    return copy;
}

/* Of all the memory, the lent buffer and what surrounds it, only `written` bytes are new. */
static void expect_written(struct memory *memory, const uint8_t *lent, const uint8_t *wanted,
                           size_t written)
{
    if (written != 0)
        memcpy(memory->before + (lent - memory->start), wanted, written);
    expect(memcmp(memory->before, memory->start, MEMORY) == 0, "bytes of the output");
}

static void expect_same(const struct memory *memory)
{
    expect(memcmp(memory->before, memory->start, MEMORY) == 0, "bytes of the input");
}

static void fuzz_crc(uint16_t start, const uint8_t *bytes, size_t length, int at_end)
{
    const uint8_t *input = lend_copy(&inputs, bytes, length, at_end);
    uint16_t crc = arznavik_crc_of(start, input, length);
    expect(crc == plain_crc(start, bytes, length), "crc");
    expect(crc == table_crc(start, bytes, length), "crc by the table");
    size_t cut = length / 3;
    uint16_t first = arznavik_crc_of(start, input, cut);
    expect(crc == arznavik_crc_of(first, input + cut, length - cut), "crc in two parts");
    expect_same(&inputs);
}

static uint64_t fuzz_check(const uint8_t *frame, size_t length, size_t room, int at_end)
{
    const uint8_t *input = lend_copy(&inputs, frame, length, at_end);
    uint8_t *output = lend(&outputs, room, at_end);
    uint8_t *payload = malloc(room != 0 ? room : 1);
    expect(payload != NULL, "memory for a payload");
    uint64_t wanted = plain_frame_check(frame, length, payload, room);
    uint64_t report = arznavik_check_frame(input, length, output, room);
    expect(report == wanted, "report of the frame check");
    expect(arznavik_length(report) <= ARZNAVIK_PAYLOAD_MAX, "length of the payload");
    expect_written(&outputs, output, payload, arznavik_length(report));
    expect_same(&inputs);
    free(payload);
    return report;
}

/* What was written is read back as its type, sequence and payload. */
static void read_back(uint8_t type, uint8_t sequence, const uint8_t *payload, size_t length,
                      const uint8_t *frame, size_t frame_length)
{
    uint8_t copy[ARZNAVIK_FRAME_MAX];
    memcpy(copy, frame, frame_length);
    uint64_t report = fuzz_check(copy, frame_length, ARZNAVIK_PAYLOAD_MAX, 1);
    expect(report == ((uint64_t)type << 8 | (uint64_t)sequence << 16 | (uint64_t)length << 24),
           "a written frame is read back");
    const uint8_t *output = outputs.start + MEMORY - ARZNAVIK_PAYLOAD_MAX;
    expect(length == 0 || memcmp(output, payload, length) == 0, "its payload is read back");
}

static void fuzz_write(uint8_t type, uint8_t sequence, const uint8_t *payload, size_t length,
                       size_t room, int at_end)
{
    const uint8_t *input = lend_copy(&payloads, payload, length, at_end);
    uint8_t *output = lend(&outputs, room, at_end);
    uint8_t *frame = malloc(room != 0 ? room : 1);
    expect(frame != NULL, "memory for a frame");
    uint64_t wanted = plain_frame_write(type, sequence, payload, length, frame, room);
    uint64_t report = arznavik_write_frame(type, sequence, input, length, output, room);
    expect(report == wanted, "report of the frame writer");
    expect(arznavik_length(report) <= room, "length of the frame");
    expect_written(&outputs, output, frame, arznavik_length(report));
    expect_same(&payloads);
    if (arznavik_refusal(report) == ARZNAVIK_TAKEN)
        read_back(type, sequence, payload, length, frame, arznavik_length(report));
    free(frame);
}

/* The length of a frame if there is room for any; so that rooms near it are often asked. */
static size_t frame_length(uint8_t type, uint8_t sequence, const uint8_t *payload, size_t length)
{
    uint8_t frame[ARZNAVIK_FRAME_MAX];
    return arznavik_length(
        plain_frame_write(type, sequence, payload, length, frame, sizeof frame));
}

/* A frame with the right check around the bytes, then one byte of it changed if `damage` is not 0:
 * bytes alone would hardly ever have the check 0. */
static void fuzz_sealed(const uint8_t *bytes, size_t length, size_t room, uint8_t damage)
{
    uint8_t frame[ARZNAVIK_FRAME_MAX];
    uint64_t report = plain_frame_write(length > 0 ? bytes[0] : 1, length > 1 ? bytes[1] : 0,
                                        length > 2 ? bytes + 2 : bytes, length > 2 ? length - 2 : 0,
                                        frame, sizeof frame);
    if (arznavik_refusal(report) != ARZNAVIK_TAKEN)
        return;
    if (length != 0)
        frame[bytes[length - 1] % arznavik_length(report)] ^= damage;
    fuzz_check(frame, arznavik_length(report), room, damage & 1);
}

/* A flag and escaped bytes before the bytes of an input, so that long runs are often met. */
static size_t begin_line(uint8_t *line, size_t pairs)
{
    size_t length = 0;
    line[length++] = ARZNAVIK_FLAG;
    for (size_t i = 0; i < pairs; i++) {
        line[length++] = ARZNAVIK_ESCAPE;
        line[length++] = 0x5e;
    }
    return length;
}

/* A frame that the collector cut is refused or taken as the whole run between its flags. */
static void fuzz_line(const uint8_t *bytes, size_t length, size_t pairs)
{
    static uint8_t line[1 + 2 * PAIRS_MAX + LENGTH_MAX];
    uint8_t payload[ARZNAVIK_PAYLOAD_MAX];
    size_t start = begin_line(line, pairs);
    size_t flag = 0;
    struct collector *collector = malloc(sizeof *collector);
    expect(collector != NULL, "memory for a collector");
    memcpy(line + start, bytes, length);
    collector_start(collector);
    for (size_t i = 0; i < start + length; i++) {
        size_t closed = collector_take(collector, line[i]);
        expect((closed != 0) == (line[i] == ARZNAVIK_FLAG && i > flag + 1), "a frame is closed");
        if (closed != 0)
            expect(fuzz_check(collector->frame, closed, ARZNAVIK_PAYLOAD_MAX, 1) ==
                       plain_frame_check(line + flag, i + 1 - flag, payload, sizeof payload),
                   "report on a frame that was collected");
        if (line[i] == ARZNAVIK_FLAG)
            flag = i;
    }
    free(collector);
}

int LLVMFuzzerInitialize(int *argc, char ***argv)
{
    (void)argc;
    (void)argv;
    map(&inputs);
    map(&outputs);
    map(&payloads);
    for (size_t i = 0; i < MEMORY; i++)
        pattern[i] = (uint8_t)(i * 167 + (i >> 8) + 13);
    crc_tables_start();
    coverage_start();
    return 0;
}

int LLVMFuzzerTestOneInput(const uint8_t *data, size_t size)
{
    if (size < CONTROL || size > LENGTH_MAX)
        return 0;
    size_t length = size - CONTROL;
    const uint8_t *control = data + length;
    size_t room = ((size_t)control[1] << 8 | control[2]) % 1024;
    int at_end = control[3] & 1;
    switch (control[0] % 6) {
    case 0:
        fuzz_crc((uint16_t)(control[1] << 8 | control[2]), data, length, at_end);
        break;
    case 1:
        fuzz_check(data, length, room, at_end);
        break;
    case 2:
        fuzz_sealed(data, length, room, control[3]);
        break;
    case 3:
        fuzz_write(control[1], control[3], data, length, control[2] * 4, at_end);
        break;
    case 4:
        fuzz_line(data, length, room % PAIRS_MAX);
        break;
    default:
        room = frame_length(control[1], control[3], data, length) + control[2] % 4;
        fuzz_write(control[1], control[3], data, length, room != 0 ? room - 1 : 0, at_end);
        break;
    }
    return 0;
}
