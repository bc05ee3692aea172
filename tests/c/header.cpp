// The header as C++: its names, its accessors on a report with every field set and on refused
// calls, calls with NULL.
#include "arznavik.h"

extern "C" {
#include "expect.h"
}

static const uint8_t TYPE = ARZNAVIK_TYPE_ACKNOWLEDGEMENT;

// What programs compiled with this version have built in.
static void names()
{
    expect_number("major version", ARZNAVIK_VERSION_MAJOR, 2);
    expect_number("minor version", ARZNAVIK_VERSION_MINOR, 0);
    expect_number("type of data", ARZNAVIK_TYPE_DATA, 1);
    expect_number("type of an acknowledgement", ARZNAVIK_TYPE_ACKNOWLEDGEMENT, 2);
    expect_number("room of an acknowledgement", ARZNAVIK_ACKNOWLEDGEMENT_MAX, 9);
    expect_number("room of a payload", ARZNAVIK_PAYLOAD_MAX, 383);
    expect_number("room of content", ARZNAVIK_CONTENT_MAX, 4 + ARZNAVIK_PAYLOAD_MAX);
    expect_number("room of a frame", ARZNAVIK_FRAME_MAX, 2 + 2 * ARZNAVIK_CONTENT_MAX);
}

static void accessors()
{
    const uint64_t report = UINT64_C(0xabcdef0123456708);
    expect_number("refusal", arznavik_refusal(report), ARZNAVIK_LONG_PAYLOAD);
    expect_number("type", arznavik_type(report), 0x67);
    expect_number("sequence", arznavik_sequence(report), 0x45);
    expect_number("length", arznavik_length(report), 0x0123);
    expect_number("place", arznavik_place(report), 0xabcdef);
}

// A refused report has its number and its place, and nothing else.
static void expect_place(const char *what, uint64_t report, unsigned refusal, uint32_t place)
{
    expect_number(what, arznavik_refusal(report), refusal);
    expect_number(what, arznavik_place(report), place);
    expect_number(what, arznavik_type(report), 0);
    expect_number(what, arznavik_sequence(report), 0);
    expect_number(what, arznavik_length(report), 0);
}

// For an escape the offset of the byte behind it, for the limit that of the byte that passes it,
// for the check the length of the content.
static void places()
{
    static const uint8_t escape[] = {0x7e, 0x7d, 0x7e};
    static const uint8_t check[] = {0x7e, 0x02, 0x7d, 0x5d, 0xd4, 0x58, 0x7e};
    static const uint8_t content[] = {0x7e, 0x02, 0x01, 0x7e};
    static uint8_t limit[2 + ARZNAVIK_CONTENT_MAX + 1];
    uint8_t output[ARZNAVIK_PAYLOAD_MAX] = {0};
    limit[0] = limit[sizeof limit - 1] = ARZNAVIK_FLAG;
    expect_place("place behind an escape",
                 arznavik_check_frame(escape, sizeof escape, output, sizeof output),
                 ARZNAVIK_BAD_FRAMING, 2);
    expect_place("place of wrong flags",
                 arznavik_check_frame(escape, sizeof escape - 1, output, sizeof output),
                 ARZNAVIK_BAD_FRAMING, 0);
    expect_place("place that passes the limit",
                 arznavik_check_frame(limit, sizeof limit, output, sizeof output),
                 ARZNAVIK_LONG_CONTENT, 388);
    expect_place("place of a bad check",
                 arznavik_check_frame(check, sizeof check, output, sizeof output),
                 ARZNAVIK_BAD_CHECK, 4);
    expect_place("place of short content",
                 arznavik_check_frame(content, sizeof content, output, sizeof output),
                 ARZNAVIK_SHORT_CONTENT, 0);
    expect_place("place of a short output",
                 arznavik_check_frame(escape, sizeof escape, output, sizeof output - 1),
                 ARZNAVIK_SHORT_OUTPUT, 0);
    expect_place("place of a long payload",
                 arznavik_write_frame(TYPE, 1, limit, ARZNAVIK_PAYLOAD_MAX + 1, output, 0),
                 ARZNAVIK_LONG_PAYLOAD, 0);
}

// An empty slice may have the address NULL.
static void null_slices()
{
    static const uint8_t acknowledgement[] = {0x7e, 0x02, 0x01, 0x6b, 0x4c, 0x7e};
    uint8_t output[ARZNAVIK_FRAME_MAX] = {0};
    expect_number("check of NULL", arznavik_crc_of(ARZNAVIK_CRC_START, nullptr, 0), 0xffff);
    expect_number("NULL payload", arznavik_write_frame(TYPE, 1, nullptr, 0, output, sizeof output),
                  uint64_t(sizeof acknowledgement) << 24);
    expect_bytes("NULL payload", output, acknowledgement, sizeof acknowledgement);
    expect_number("NULL frame", arznavik_check_frame(nullptr, 0, output, sizeof output),
                  ARZNAVIK_BAD_FRAMING);
    expect_number("NULL output of the writer",
                  arznavik_write_frame(TYPE, 1, nullptr, 0, nullptr, 0), ARZNAVIK_SHORT_OUTPUT);
    expect_number("NULL output of the check", arznavik_check_frame(output, 6, nullptr, 0),
                  ARZNAVIK_SHORT_OUTPUT);
    expect_bytes("output stays", output, acknowledgement, sizeof acknowledgement);
}

int main()
{
    names();
    accessors();
    places();
    null_slices();
    return expect_summary("header in C++");
}
