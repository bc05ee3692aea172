/* The frame check's refusals, their order, their places, and the limits at which they begin. */
#include "arznavik.h"

#include "calls.h"
#include "expect.h"

#include <string.h>

#define ENOUGH ARZNAVIK_PAYLOAD_MAX

/* The acknowledgement of known answer 2. */
static const uint8_t good[] = {0x7e, 0x02, 0x01, 0x6b, 0x4c, 0x7e};

static void output_room(void)
{
    static const uint8_t no_flags[] = {0x02, 0x01};
    static const uint8_t bad_pair[] = {0x7e, 0x7d, 0x41, 0x7e};
    struct parts parts = {ARZNAVIK_TYPE_ACKNOWLEDGEMENT, 0x01, NULL, 0};
    expect_taken("output of 383", good, sizeof good, ENOUGH, parts);
    expect_taken("output of 384", good, sizeof good, ENOUGH + 1, parts);
    expect_refused("output of 382", good, sizeof good, ENOUGH - 1, ARZNAVIK_SHORT_OUTPUT, 0);
    expect_refused("output of 0", good, sizeof good, 0, ARZNAVIK_SHORT_OUTPUT, 0);
    expect_refused("room before flags", no_flags, 2, ENOUGH - 1, ARZNAVIK_SHORT_OUTPUT, 0);
    expect_refused("room before no bytes", no_flags, 0, ENOUGH - 1, ARZNAVIK_SHORT_OUTPUT, 0);
    expect_refused("room before a bad pair", bad_pair, sizeof bad_pair, ENOUGH - 1,
                   ARZNAVIK_SHORT_OUTPUT, 0);
}

/* Wrong flags have place 0, also where an escape is wrong too. */
static void expect_wrong_flags(const char *what, const uint8_t *frame, size_t length)
{
    expect_refused(what, frame, length, ENOUGH, ARZNAVIK_BAD_FRAMING, 0);
}

static void flags(void)
{
    static const uint8_t between[] = {0x7e, 0x02, 0x01, 0x7e, 0x6b, 0x4c, 0x7e};
    static const uint8_t two_frames[] = {0x7e, 0x02, 0x01, 0x6b, 0x4c, 0x7e,
                                         0x02, 0x00, 0x7b, 0x6d, 0x7e};
    static const uint8_t three[] = {0x7e, 0x7e, 0x7e};
    static const uint8_t after_escape[] = {0x7e, 0x7d, 0x41, 0x7e, 0x7e};
    static const uint8_t escape_before[] = {0x7e, 0x02, 0x7d, 0x7e, 0x01, 0x7e};
    static const uint8_t bad_pair[] = {0x7e, 0x7d, 0x41, 0x7e};
    expect_wrong_flags("no bytes", good, 0);
    expect_wrong_flags("one flag", good, 1);
    expect_wrong_flags("one byte", good + 1, 1);
    expect_wrong_flags("no first flag", good + 1, sizeof good - 1);
    expect_wrong_flags("no last flag", good, sizeof good - 1);
    expect_wrong_flags("no flag", good + 1, sizeof good - 2);
    expect_wrong_flags("a flag between", between, sizeof between);
    expect_wrong_flags("two frames", two_frames, sizeof two_frames);
    expect_wrong_flags("three flags", three, sizeof three);
    expect_wrong_flags("flags and an escape", after_escape, sizeof after_escape);
    expect_wrong_flags("a flag behind an escape", escape_before, sizeof escape_before);
    expect_wrong_flags("no first flag, a bad pair", bad_pair + 1, sizeof bad_pair - 1);
    expect_wrong_flags("no last flag, a bad pair", bad_pair, sizeof bad_pair - 1);
    expect_wrong_flags("no last flag, a last escape", bad_pair, 2);
}

/* 7d with the closing flag is no escaped byte, whatever stands before it. The place is that of the
 * byte behind the escape. */
static void escapes(void)
{
    static const uint8_t other[] = {0x7e, 0x02, 0x7d, 0x41, 0xd4, 0x57, 0x7e};
    static const uint8_t twice[] = {0x7e, 0x02, 0x7d, 0x7d, 0x5d, 0xd4, 0x57, 0x7e};
    static const uint8_t at_end[] = {0x7e, 0x02, 0x01, 0x6b, 0x4c, 0x7d, 0x7e};
    static const uint8_t alone[] = {0x7e, 0x7d, 0x7e};
    static const uint8_t behind_pairs[] = {0x7e, 0x7d, 0x5e, 0x7d, 0x5d, 0x7d, 0x5c, 0x7d, 0x7e};
    expect_refused("escape and 41", other, sizeof other, ENOUGH, ARZNAVIK_BAD_FRAMING, 3);
    expect_refused("escape and escape", twice, sizeof twice, ENOUGH, ARZNAVIK_BAD_FRAMING, 3);
    expect_refused("escape before the flag", at_end, sizeof at_end, ENOUGH, ARZNAVIK_BAD_FRAMING,
                   6);
    expect_refused("nothing but an escape", alone, sizeof alone, ENOUGH, ARZNAVIK_BAD_FRAMING, 2);
    expect_refused("a bad pair behind pairs", behind_pairs, sizeof behind_pairs, ENOUGH,
                   ARZNAVIK_BAD_FRAMING, 6);
}

/* A frame of so many bytes 41, so many pairs, and then the tail, between flags. */
static void expect_refused_mixed(const char *what, size_t plain, size_t pairs, const char *tail,
                                 unsigned refusal, size_t place)
{
    static uint8_t frame[CALLS_ROOM];
    size_t tail_length = strlen(tail), length = 0;
    frame[length++] = ARZNAVIK_FLAG;
    memset(frame + length, 0x41, plain);
    length += plain;
    for (size_t i = 0; i < pairs; i++) {
        frame[length++] = ARZNAVIK_ESCAPE;
        frame[length++] = 0x5e;
    }
    memcpy(frame + length, tail, tail_length);
    length += tail_length;
    frame[length++] = ARZNAVIK_FLAG;
    expect_refused(what, frame, length, ENOUGH, refusal, place);
}

static void expect_refused_long(const char *what, size_t plain, const char *tail, unsigned refusal,
                                size_t place)
{
    expect_refused_mixed(what, plain, 0, tail, refusal, place);
}

static void long_content(void)
{
    expect_refused_long("content of 387", 387, "", ARZNAVIK_BAD_CHECK, 387);
    expect_refused_long("content of 388", 388, "", ARZNAVIK_LONG_CONTENT, 388);
    expect_refused_long("content of 1,000", 1000, "", ARZNAVIK_LONG_CONTENT, 388);
    expect_refused_long("a pair is the 387th byte", 386, "\x7d\x5e", ARZNAVIK_BAD_CHECK, 387);
    expect_refused_long("a pair is the 388th byte", 387, "\x7d\x5d", ARZNAVIK_LONG_CONTENT, 389);
    expect_refused_long("387 bytes, a bad pair", 387, "\x7d\x41", ARZNAVIK_BAD_FRAMING, 389);
    expect_refused_long("387 bytes, two escapes", 387, "\x7d\x7d", ARZNAVIK_BAD_FRAMING, 389);
    expect_refused_long("387 bytes, a last escape", 387, "\x7d", ARZNAVIK_BAD_FRAMING, 389);
    expect_refused_long("388 bytes, a bad pair", 388, "\x7d\x41", ARZNAVIK_LONG_CONTENT, 388);
    expect_refused_long("388 bytes, a last escape", 388, "\x7d", ARZNAVIK_LONG_CONTENT, 388);
    expect_refused_long("388 bytes, a flag between", 388, "\x7e\x41", ARZNAVIK_BAD_FRAMING, 0);
}

/* Each number of pairs puts the limit one byte further; 776 is the greatest place. */
static void long_content_of_pairs(void)
{
    for (size_t pairs = 0; pairs <= ARZNAVIK_CONTENT_MAX; pairs++) {
        size_t plain = ARZNAVIK_CONTENT_MAX - pairs, sent = ARZNAVIK_CONTENT_MAX + pairs;
        expect_refused_mixed("387 bytes", plain, pairs, "", ARZNAVIK_BAD_CHECK, 387);
        expect_refused_mixed("387 bytes, a byte", plain, pairs, "\x41", ARZNAVIK_LONG_CONTENT,
                             sent + 1);
        expect_refused_mixed("387 bytes, a pair", plain, pairs, "\x7d\x5e", ARZNAVIK_LONG_CONTENT,
                             sent + 2);
        expect_refused_mixed("387 bytes, a bad pair", plain, pairs, "\x7d\x41",
                             ARZNAVIK_BAD_FRAMING, sent + 2);
        expect_refused_mixed("387 bytes, an escape", plain, pairs, "\x7d", ARZNAVIK_BAD_FRAMING,
                             sent + 2);
    }
    expect_refused_mixed("388 pairs", 0, 388, "", ARZNAVIK_LONG_CONTENT, 776);
    expect_refused_mixed("388 pairs, a last escape", 0, 388, "\x7d", ARZNAVIK_LONG_CONTENT, 776);
    expect_refused_mixed("387 pairs, two escapes", 0, 387, "\x7d\x7d", ARZNAVIK_BAD_FRAMING, 776);
}

/* Of two faults the one that comes first in byte order is told. */
static void bad_pair_then_long(void)
{
    static char tail[400] = "\x7d\x41";
    memset(tail + 2, 0x41, 388);
    expect_refused_long("a bad pair, 388 bytes", 0, tail, ARZNAVIK_BAD_FRAMING, 2);
    expect_refused_long("386 bytes, a bad pair, 388 bytes", 386, tail, ARZNAVIK_BAD_FRAMING, 388);
    expect_refused_long("388 bytes, a bad pair, 388 bytes", 388, tail, ARZNAVIK_LONG_CONTENT, 388);
}

static void short_content(void)
{
    static const uint8_t three[] = {0x7e, 0x7d, 0x5e, 0x7d, 0x5d, 0x7d, 0x5e, 0x7e};
    static const uint8_t zero_check[] = {0x7e, 0xff, 0xff, 0x7e};
    expect_refused_long("content of 0", 0, "", ARZNAVIK_SHORT_CONTENT, 0);
    expect_refused_long("content of 1", 1, "", ARZNAVIK_SHORT_CONTENT, 0);
    expect_refused_long("content of 2", 2, "", ARZNAVIK_SHORT_CONTENT, 0);
    expect_refused_long("content of 3", 3, "", ARZNAVIK_SHORT_CONTENT, 0);
    expect_refused("content of 3 pairs", three, sizeof three, ENOUGH, ARZNAVIK_SHORT_CONTENT, 0);
    expect_number("ffff has check 0", arznavik_crc_of(ARZNAVIK_CRC_START, zero_check + 1, 2), 0);
    expect_refused("content of 2 with check 0", zero_check, sizeof zero_check, ENOUGH,
                   ARZNAVIK_SHORT_CONTENT, 0);
    expect_refused_long("content of 4", 4, "", ARZNAVIK_BAD_CHECK, 4);
    expect_refused_mixed("content of 4 pairs", 0, 4, "", ARZNAVIK_BAD_CHECK, 4);
}

/* Each single bit of the content of known answer 2; the flags stay. */
static void bad_check(void)
{
    uint8_t frame[sizeof good];
    for (unsigned bit = 8; bit < 8 * (sizeof good - 1); bit++) {
        memcpy(frame, good, sizeof good);
        frame[bit / 8] ^= (uint8_t)(1 << bit % 8);
        expect_refused("one bit flipped", frame, sizeof frame, ENOUGH, ARZNAVIK_BAD_CHECK, 4);
    }
}

/* The place of a bad check is the content's length, whatever was sent for it. */
static void bad_check_of_each_length(void)
{
    for (size_t length = 4; length <= ARZNAVIK_CONTENT_MAX; length++) {
        expect_refused_mixed("plain content", length, 0, "", ARZNAVIK_BAD_CHECK, length);
        expect_refused_mixed("content of pairs", 1, length - 1, "", ARZNAVIK_BAD_CHECK, length);
    }
}

/* Types outside 01 and 02, and an acknowledgement with a payload, are handed back. */
static void any_type(void)
{
    static const uint8_t payload[] = {0x05, 0x7e};
    uint8_t frame[ARZNAVIK_FRAME_MAX];
    for (unsigned type = 0; type < 256; type++) {
        struct parts parts = {(uint8_t)type, (uint8_t)(255 - type), payload, sizeof payload};
        uint64_t report = arznavik_write_frame(parts.type, parts.sequence, payload, sizeof payload,
                                               frame, sizeof frame);
        expect_number("any type is written", arznavik_refusal(report), ARZNAVIK_TAKEN);
        expect_taken("any type is read back", frame, arznavik_length(report), ENOUGH, parts);
    }
}

int main(void)
{
    output_room();
    flags();
    escapes();
    long_content();
    long_content_of_pairs();
    bad_pair_then_long();
    short_content();
    bad_check();
    bad_check_of_each_length();
    any_type();
    return expect_summary("reader");
}
