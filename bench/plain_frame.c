#include "arznavik.h"

#include "plain.h"

#include <string.h>

#define HEADER 2
#define CHECK 2

static int is_reserved(uint8_t byte)
{
    return byte == ARZNAVIK_FLAG || byte == ARZNAVIK_ESCAPE;
}

static size_t stuffed_length(const uint8_t *content, size_t length)
{
    size_t stuffed = length;
    for (size_t i = 0; i < length; i++)
        stuffed += (size_t)is_reserved(content[i]);
    return stuffed;
}

static uint8_t *stuff(uint8_t *output, const uint8_t *content, size_t length)
{
    for (size_t i = 0; i < length; i++) {
        if (is_reserved(content[i])) {
            *output++ = ARZNAVIK_ESCAPE;
            *output++ = content[i] ^ 0x20;
        } else {
            *output++ = content[i];
        }
    }
    return output;
}

uint64_t plain_frame_write(uint8_t type, uint8_t sequence, const uint8_t *payload,
                           size_t payload_length, uint8_t *output, size_t output_length)
{
    if (payload_length > ARZNAVIK_PAYLOAD_MAX)
        return ARZNAVIK_LONG_PAYLOAD;
    uint8_t header[HEADER] = {type, sequence};
    uint16_t crc =
        plain_crc(plain_crc(ARZNAVIK_CRC_START, header, HEADER), payload, payload_length);
    uint8_t check[CHECK] = {(uint8_t)(crc >> 8), (uint8_t)(crc & 0xff)};
    size_t length = 2 + stuffed_length(header, HEADER) + stuffed_length(payload, payload_length) +
                    stuffed_length(check, CHECK);
    if (output_length < length)
        return ARZNAVIK_SHORT_OUTPUT;
    *output++ = ARZNAVIK_FLAG;
    output = stuff(output, header, HEADER);
    output = stuff(output, payload, payload_length);
    output = stuff(output, check, CHECK);
    *output = ARZNAVIK_FLAG;
    return (uint64_t)length << 24;
}

static uint64_t refused_at(unsigned refusal, size_t place)
{
    return (uint64_t)refusal | (uint64_t)place << 40;
}

/* Puts the content of the bytes between two flags into `content` and its length into `length`.
 * Answers the report of a refusal, or 0. The opening flag has offset 0, so byte i has i + 1. */
static uint64_t unstuff(const uint8_t *sent, size_t sent_length, uint8_t *content, size_t *length)
{
    size_t n = 0;
    for (size_t i = 0; i < sent_length; i++) {
        uint8_t byte = sent[i];
        if (byte == ARZNAVIK_ESCAPE) {
            if (++i == sent_length || (sent[i] != 0x5d && sent[i] != 0x5e))
                return refused_at(ARZNAVIK_BAD_FRAMING, i + 1);
            byte = sent[i] ^ 0x20;
        }
        if (n == ARZNAVIK_CONTENT_MAX)
            return refused_at(ARZNAVIK_LONG_CONTENT, i + 1);
        content[n++] = byte;
    }
    *length = n;
    return 0;
}

uint64_t plain_frame_check(const uint8_t *frame, size_t frame_length, uint8_t *output,
                           size_t output_length)
{
    uint8_t content[ARZNAVIK_CONTENT_MAX];
    size_t length = 0;
    if (output_length < ARZNAVIK_PAYLOAD_MAX)
        return ARZNAVIK_SHORT_OUTPUT;
    if (frame_length < 2 || frame[0] != ARZNAVIK_FLAG || frame[frame_length - 1] != ARZNAVIK_FLAG)
        return ARZNAVIK_BAD_FRAMING;
    if (memchr(frame + 1, ARZNAVIK_FLAG, frame_length - 2) != NULL)
        return ARZNAVIK_BAD_FRAMING;
    uint64_t refused = unstuff(frame + 1, frame_length - 2, content, &length);
    if (refused != 0)
        return refused;
    if (length < HEADER + CHECK)
        return ARZNAVIK_SHORT_CONTENT;
    if (plain_crc(ARZNAVIK_CRC_START, content, length) != 0)
        return refused_at(ARZNAVIK_BAD_CHECK, length);
    size_t payload_length = length - HEADER - CHECK;
    memcpy(output, content + HEADER, payload_length);
    return (uint64_t)content[0] << 8 | (uint64_t)content[1] << 16 | (uint64_t)payload_length << 24;
}
