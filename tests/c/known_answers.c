/* The known answers of the frame rules, the catalogue's values of the check, and its two laws. */
#include "arznavik.h"

#include "calls.h"
#include "expect.h"

#define ACKNOWLEDGEMENT ARZNAVIK_TYPE_ACKNOWLEDGEMENT

/* Known answers 1 to 4, written and read back. */
static void frames(void)
{
    static const uint8_t payload[] = {0x7a, 0x7b, 0x7c, 0x7d, 0x7e};
    static const uint8_t answer_1[] = {0x7e, 0x02, 0x01, 0x7a, 0x7b, 0x7c, 0x7d,
                                       0x5d, 0x7d, 0x5e, 0x9f, 0xfa, 0x7e};
    static const uint8_t answer_2[] = {0x7e, 0x02, 0x01, 0x6b, 0x4c, 0x7e};
    static const uint8_t answer_3[] = {0x7e, 0x02, 0x00, 0x7b, 0x6d, 0x7e};
    static const uint8_t answer_4[] = {0x7e, 0x02, 0x7d, 0x5d, 0xd4, 0x57, 0x7e};
    static const struct {
        const char *what;
        struct parts parts;
        const uint8_t *frame;
        size_t length;
    } answers[] = {
        {"known answer 1",
         {ACKNOWLEDGEMENT, 0x01, payload, sizeof payload},
         answer_1,
         sizeof answer_1},
        {"known answer 2", {ACKNOWLEDGEMENT, 0x01, NULL, 0}, answer_2, sizeof answer_2},
        {"known answer 3", {ACKNOWLEDGEMENT, 0x00, NULL, 0}, answer_3, sizeof answer_3},
        {"known answer 4", {ACKNOWLEDGEMENT, 0x7d, NULL, 0}, answer_4, sizeof answer_4},
    };
    for (size_t i = 0; i < sizeof answers / sizeof answers[0]; i++) {
        expect_written(answers[i].what, answers[i].parts, ARZNAVIK_FRAME_MAX, answers[i].frame,
                       answers[i].length);
        expect_taken(answers[i].what, answers[i].frame, answers[i].length, ARZNAVIK_PAYLOAD_MAX,
                     answers[i].parts);
    }
}

/* Known answer 6 on the line: the frame that carries its packet. */
static void data_frame(void)
{
    static const uint8_t frame[] = {0x7e, 0x01, 0x00, 0x01, 0x03, 0x00, 0x00, 0x01, 0x02, 0x68,
                                    0x31, 0x16, 0x04, 0x00, 0x00, 0x0d, 0x7a, 0x1a, 0xa4, 0x7e};
    struct parts parts = {ARZNAVIK_TYPE_DATA, 0x00, frame + 3, 14};
    expect_taken("known answer 6, read", frame, sizeof frame, ARZNAVIK_PAYLOAD_MAX, parts);
    expect_written("known answer 6, written", parts, sizeof frame, frame, sizeof frame);
}

static void checks(void)
{
    static const uint8_t digits[] = {'1', '2', '3', '4', '5', '6', '7', '8', '9'};
    static const uint8_t content[] = {0x02, 0x01, 0x7a, 0x7b, 0x7c, 0x7d, 0x7e, 0x9f, 0xfa};
    uint16_t start = ARZNAVIK_CRC_START;
    expect_number("known answer 1, check", arznavik_crc_of(start, content, 7), 0x9ffa);
    expect_number("content with its check", arznavik_crc_of(start, content, 9), 0);
    expect_number("known answer 5", arznavik_crc_of(start, content, 0), 0xffff);
    expect_number("no bytes, start 1234", arznavik_crc_of(0x1234, content, 0), 0x1234);
    expect_number("123456789, start ffff", arznavik_crc_of(start, digits, 9), 0x29b1);
    expect_number("123456789, start 0", arznavik_crc_of(0, digits, 9), 0x31c3);
    expect_number("123456789, start 1d0f", arznavik_crc_of(0x1d0f, digits, 9), 0xe5cc);
    expect_number("123456789 in halves",
                  arznavik_crc_of(arznavik_crc_of(start, digits, 4), digits + 4, 5), 0x29b1);
}

/* The first three and the last of the 256 remainders, one for each byte. */
static void remainders(void)
{
    static const uint8_t bytes[] = {0x00, 0x01, 0x02, 0xff};
    static const uint16_t wanted[] = {0x0000, 0x1021, 0x2042, 0x1ef0};
    for (size_t i = 0; i < sizeof bytes; i++)
        expect_number("one byte, start 0", arznavik_crc_of(0, bytes + i, 1), wanted[i]);
}

/* Strings of 7 to 17 bytes. Byte i is 167 i + 13; the values are of Python's binascii.crc_hqx. */
static void lengths(void)
{
    static const struct {
        size_t length;
        uint16_t check;
    } answers[] = {{7, 0x4026},  {8, 0x0cb3},  {9, 0x6aed},
                   {15, 0x1f10}, {16, 0x5865}, {17, 0x11c7}};
    uint8_t bytes[17];
    for (size_t i = 0; i < sizeof bytes; i++)
        bytes[i] = (uint8_t)(i * 167 + 13);
    for (size_t i = 0; i < sizeof answers / sizeof answers[0]; i++)
        expect_number("7 to 17 bytes, start ffff",
                      arznavik_crc_of(ARZNAVIK_CRC_START, bytes, answers[i].length),
                      answers[i].check);
}

/* The check of the exclusive-or of three strings is that of their checks; of two it is not. */
static void exclusive_or(void)
{
    static const uint8_t strings[3][9] = {
        {'1', '2', '3', '4', '5', '6', '7', '8', '9'},
        {'t', 'o', 'm', 'a', 't', 'o', 'e', 's', '.'},
        {0xff, 0x00, 0xff, 0x00, 0xff, 0x00, 0xff, 0x00, 0xff},
    };
    uint8_t two[9], three[9];
    uint16_t start = ARZNAVIK_CRC_START;
    for (size_t i = 0; i < sizeof two; i++) {
        two[i] = strings[0][i] ^ strings[1][i];
        three[i] = two[i] ^ strings[2][i];
    }
    expect_number("tomatoes., start ffff", arznavik_crc_of(start, strings[1], sizeof two), 0xc915);
    expect_number("ff and 00 in turn", arznavik_crc_of(start, strings[2], sizeof two), 0xba02);
    expect_number("three strings", arznavik_crc_of(start, three, sizeof three),
                  0x29b1 ^ 0xc915 ^ 0xba02);
    expect_number("two strings", arznavik_crc_of(start, two, sizeof two), 0xf8d6);
}

int main(void)
{
    frames();
    data_frame();
    checks();
    remainders();
    lengths();
    exclusive_or();
    return expect_summary("known answers");
}
