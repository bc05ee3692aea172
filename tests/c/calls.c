#include "arznavik.h"

#include "calls.h"
#include "expect.h"

#include <string.h>

/* Guard bytes stand on both sides of a lent output. */
#define GUARD 32

/* A lent output with its guards, and what the whole is to be after the call. */
struct lent {
    uint8_t bytes[GUARD + CALLS_ROOM + GUARD];
    uint8_t wanted[GUARD + CALLS_ROOM + GUARD];
};

/* Unlike bytes, so that a byte put back in the wrong place shows; `wanted` gets `written` laid over
 * the start of the output. */
static void lend(struct lent *lent, const uint8_t *written, size_t length)
{
    for (size_t i = 0; i < sizeof lent->bytes; i++)
        lent->bytes[i] = (uint8_t)(i * 167 + 13);
    memcpy(lent->wanted, lent->bytes, sizeof lent->bytes);
    if (length != 0)
        memcpy(lent->wanted + GUARD, written, length);
}

static void expect_lent(const char *what, const struct lent *lent)
{
    expect_bytes(what, lent->bytes, lent->wanted, sizeof lent->bytes);
}

static uint64_t report_of(uint8_t type, uint8_t sequence, size_t length)
{
    return (uint64_t)type << 8 | (uint64_t)sequence << 16 | (uint64_t)length << 24;
}

static uint64_t refused_at(unsigned refusal, size_t place)
{
    return (uint64_t)refusal | (uint64_t)place << 40;
}

static void expect_write(const char *what, struct parts parts, size_t room, uint64_t report,
                         const uint8_t *frame, size_t frame_length)
{
    static uint8_t payload[CALLS_ROOM];
    static struct lent output;
    if (parts.payload_length != 0)
        memcpy(payload, parts.payload, parts.payload_length);
    lend(&output, frame, frame_length);
    expect_number(what,
                  arznavik_write_frame(parts.type, parts.sequence, payload, parts.payload_length,
                                       output.bytes + GUARD, room),
                  report);
    expect_lent(what, &output);
    if (parts.payload_length != 0)
        expect_bytes(what, payload, parts.payload, parts.payload_length);
}

static void expect_check(const char *what, const uint8_t *frame, size_t frame_length, size_t room,
                         uint64_t report, const uint8_t *payload, size_t payload_length)
{
    static uint8_t input[CALLS_ROOM];
    static struct lent output;
    if (frame_length != 0)
        memcpy(input, frame, frame_length);
    lend(&output, payload, payload_length);
    expect_number(what, arznavik_check_frame(input, frame_length, output.bytes + GUARD, room),
                  report);
    expect_lent(what, &output);
    if (frame_length != 0)
        expect_bytes(what, input, frame, frame_length);
}

void expect_written(const char *what, struct parts parts, size_t room, const uint8_t *frame,
                    size_t frame_length)
{
    expect_write(what, parts, room, report_of(0, 0, frame_length), frame, frame_length);
}

void expect_not_written(const char *what, struct parts parts, size_t room, unsigned refusal)
{
    expect_write(what, parts, room, refused_at(refusal, 0), NULL, 0);
}

void expect_taken(const char *what, const uint8_t *frame, size_t frame_length, size_t room,
                  struct parts parts)
{
    expect_check(what, frame, frame_length, room,
                 report_of(parts.type, parts.sequence, parts.payload_length), parts.payload,
                 parts.payload_length);
}

void expect_refused(const char *what, const uint8_t *frame, size_t frame_length, size_t room,
                    unsigned refusal, size_t place)
{
    expect_check(what, frame, frame_length, room, refused_at(refusal, place), NULL, 0);
}
