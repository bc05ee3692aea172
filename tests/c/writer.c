/* The frame writer at its limits, and its refusals. */
#include "arznavik.h"

#include "calls.h"
#include "expect.h"

#include <string.h>

/* A payload of flags, but an escape at each of the first 32 places whose bit of `pattern` is set. */
static void fill_escaped(uint8_t *payload, uint32_t pattern)
{
    memset(payload, ARZNAVIK_FLAG, ARZNAVIK_PAYLOAD_MAX);
    for (unsigned bit = 0; bit < 32; bit++)
        if (pattern >> bit & 1)
            payload[bit] = ARZNAVIK_ESCAPE;
}

/* Some such payload has a check of which both bytes are escaped too, so that every byte is. */
static void longest_frame(void)
{
    static uint8_t payload[ARZNAVIK_PAYLOAD_MAX], frame[ARZNAVIK_FRAME_MAX];
    struct parts parts = {ARZNAVIK_ESCAPE, ARZNAVIK_FLAG, payload, sizeof payload};
    uint64_t report = 0;
    uint32_t pattern = 0;
    while (arznavik_length(report) != ARZNAVIK_FRAME_MAX && pattern < 1000000) {
        fill_escaped(payload, pattern++);
        report = arznavik_write_frame(parts.type, parts.sequence, payload, sizeof payload, frame,
                                      sizeof frame);
    }
    expect_number("a frame of 776 bytes is found", report, (uint64_t)ARZNAVIK_FRAME_MAX << 24);
    expect_not_written("longest frame, one byte short", parts, ARZNAVIK_FRAME_MAX - 1,
                       ARZNAVIK_SHORT_OUTPUT);
    expect_taken("longest frame, read back", frame, sizeof frame, ARZNAVIK_PAYLOAD_MAX, parts);
}

/* Zero bytes are sent as they are, so that the frame is 2 flags and 387 bytes. Its check is 9faa. */
static void longest_payload(void)
{
    static uint8_t payload[ARZNAVIK_PAYLOAD_MAX + 1];
    uint8_t frame[2 + ARZNAVIK_CONTENT_MAX] = {ARZNAVIK_FLAG, ARZNAVIK_TYPE_DATA, 0x20};
    frame[386] = 0x9f;
    frame[387] = 0xaa;
    frame[388] = ARZNAVIK_FLAG;
    struct parts taken = {ARZNAVIK_TYPE_DATA, 0x20, payload, ARZNAVIK_PAYLOAD_MAX};
    struct parts passed = {ARZNAVIK_TYPE_DATA, 0x20, payload, ARZNAVIK_PAYLOAD_MAX + 1};
    expect_written("payload of 383, room to spare", taken, CALLS_ROOM, frame, sizeof frame);
    expect_written("payload of 383, exact room", taken, sizeof frame, frame, sizeof frame);
    expect_not_written("payload of 383, one byte short", taken, sizeof frame - 1,
                       ARZNAVIK_SHORT_OUTPUT);
    expect_not_written("payload of 384", passed, CALLS_ROOM, ARZNAVIK_LONG_PAYLOAD);
    expect_not_written("payload of 384 before the room", passed, 0, ARZNAVIK_LONG_PAYLOAD);
    expect_not_written("payload of 384, room for 383", passed, sizeof frame - 1,
                       ARZNAVIK_LONG_PAYLOAD);
}

/* An escape in the sequence takes one byte more. */
static void exact_room(void)
{
    static const uint8_t plain[] = {0x7e, 0x02, 0x01, 0x6b, 0x4c, 0x7e};
    static const uint8_t escaped[] = {0x7e, 0x02, 0x7d, 0x5d, 0xd4, 0x57, 0x7e};
    struct parts sequence_01 = {ARZNAVIK_TYPE_ACKNOWLEDGEMENT, 0x01, NULL, 0};
    struct parts sequence_7d = {ARZNAVIK_TYPE_ACKNOWLEDGEMENT, 0x7d, NULL, 0};
    expect_written("acknowledgement in 6 bytes", sequence_01, 6, plain, sizeof plain);
    expect_written("acknowledgement in 7 bytes", sequence_01, 7, plain, sizeof plain);
    expect_written("escaped acknowledgement in 7", sequence_7d, 7, escaped, sizeof escaped);
    for (size_t room = 0; room < 6; room++)
        expect_not_written("acknowledgement in under 6", sequence_01, room, ARZNAVIK_SHORT_OUTPUT);
    for (size_t room = 0; room < 7; room++)
        expect_not_written("escaped acknowledgement in under 7", sequence_7d, room,
                           ARZNAVIK_SHORT_OUTPUT);
}

/* The room that the header names is enough for each sequence; the longest take 7 bytes. */
static void acknowledgement_room(void)
{
    uint8_t reply[ARZNAVIK_ACKNOWLEDGEMENT_MAX];
    size_t longest = 0;
    for (unsigned sequence = 0; sequence < 256; sequence++) {
        uint64_t report = arznavik_write_frame(ARZNAVIK_TYPE_ACKNOWLEDGEMENT, (uint8_t)sequence,
                                               NULL, 0, reply, sizeof reply);
        expect_number("an acknowledgement has room", arznavik_refusal(report), ARZNAVIK_TAKEN);
        if (longest < arznavik_length(report))
            longest = arznavik_length(report);
    }
    expect_number("longest acknowledgement", longest, 7);
}

int main(void)
{
    longest_payload();
    longest_frame();
    exact_room();
    acknowledgement_room();
    return expect_summary("writer");
}
