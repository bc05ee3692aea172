/*
 * Arznavik for C99 and C++11: the check (CRC), the frame writer and the frame check.
 *
 * On the line a frame is the flag 7e, stuffed content and the flag 7e. Content is a type, a
 * sequence, a payload and a 16-bit check, high byte first. Stuffing sends 7e as 7d 5e and 7d as
 * 7d 5d.
 *
 * Call these:
 *
 *   arznavik_crc_of, arznavik_write_frame, arznavik_check_frame
 *   arznavik_refusal, _type, _sequence, _length, _place    to read the report of the last two
 *
 * A program owes them two things: a pointer is valid for the length beside it, and an output
 * overlaps no input. A pointer with length 0 may be NULL. The calls keep no state and allocate
 * nothing. The other functions in this file are raw exports and their helpers, marked so below.
 */
#ifndef ARZNAVIK_H
#define ARZNAVIK_H

#include <stddef.h>
#include <stdint.h>

#ifdef __cplusplus
extern "C" {
#endif

/*
 * The version of this header, with the library of the same sources. A program that was written for
 * one version compiles and means the same with each later one of the same major number: there the
 * minor number has grown, and names were only added.
 */
#define ARZNAVIK_VERSION_MAJOR 2
#define ARZNAVIK_VERSION_MINOR 0

/* ---- Names and limits ---- */

/* Limits in bytes. */
#define ARZNAVIK_PAYLOAD_MAX 383
/* Type, sequence, payload and check. */
#define ARZNAVIK_CONTENT_MAX 387
/* Two flags, and between them the longest content with each of its bytes escaped. */
#define ARZNAVIK_FRAME_MAX 776
/* Room for any acknowledgement: two flags, its type, and sequence and both check bytes escaped. */
#define ARZNAVIK_ACKNOWLEDGEMENT_MAX 9

#define ARZNAVIK_FLAG 0x7e
#define ARZNAVIK_ESCAPE 0x7d

/* Types of a frame. The writer and the check take any other type too. */
#define ARZNAVIK_TYPE_DATA 0x01
#define ARZNAVIK_TYPE_ACKNOWLEDGEMENT 0x02

/* The check of a frame starts here. */
#define ARZNAVIK_CRC_START 0xffff

/* Refusal numbers that these calls give. */
enum arznavik_refusals {
    /* No refusal. */
    ARZNAVIK_TAKEN = 0,
    /* An escape byte is followed by a byte other than 5d or 5e, or the flags are not one first, one
     * last and none between. */
    ARZNAVIK_BAD_FRAMING = 1,
    /* Unstuffed content passes ARZNAVIK_CONTENT_MAX. */
    ARZNAVIK_LONG_CONTENT = 2,
    /* Content has fewer than 4 bytes. */
    ARZNAVIK_SHORT_CONTENT = 3,
    /* The check over the whole content is not 0. */
    ARZNAVIK_BAD_CHECK = 4,
    /* The output is too short. */
    ARZNAVIK_SHORT_OUTPUT = 7,
    /* The payload to be written passes ARZNAVIK_PAYLOAD_MAX. */
    ARZNAVIK_LONG_PAYLOAD = 8
};

/* ---- Reports ---- */

/*
 * The frame writer and the frame check answer a report:
 *
 *   bits  0 to  7   refusal number, 0 if nothing was refused
 *   bits  8 to 15   type (frame check)
 *   bits 16 to 23   sequence (frame check)
 *   bits 24 to 39   length of the frame (frame writer) or of the payload (frame check)
 *   bits 40 to 63   place of the refusal (frame check), 0 if nothing was refused
 *
 * With a refusal type, sequence and length are 0, and no byte of the output has changed. The place
 * says where a frame broke:
 *
 *   ARZNAVIK_BAD_FRAMING    offset of the byte after the escape, 2 to 776, which may be the closing
 *                           flag; 0 if the flags are wrong
 *   ARZNAVIK_LONG_CONTENT   offset of the byte that passes the limit, 388 to 776; of an escaped byte
 *                           that is the second of its pair
 *   ARZNAVIK_BAD_CHECK      no offset but a length: that of the whole content, check included, 4 to
 *                           387
 *   other refusals          0
 *
 * Offsets are counted in sent bytes from the opening flag as 0, so the byte is frame[place].
 */
static inline unsigned arznavik_refusal(uint64_t report)
{
    return (unsigned)(report & 0xff);
}

static inline uint8_t arznavik_type(uint64_t report)
{
    return (uint8_t)(report >> 8 & 0xff);
}

static inline uint8_t arznavik_sequence(uint64_t report)
{
    return (uint8_t)(report >> 16 & 0xff);
}

static inline size_t arznavik_length(uint64_t report)
{
    return (size_t)(report >> 24 & 0xffff);
}

static inline uint32_t arznavik_place(uint64_t report)
{
    return (uint32_t)(report >> 40);
}

/*
 * ---- Raw exports: not to be called from a program ----
 *
 * The functions of the static library. A pointer given to them is never NULL, even where its length
 * is 0; the calls to use, behind them, see to that.
 */
uint16_t arznavik_crc(uint16_t start, const uint8_t *bytes, size_t length);
uint64_t arznavik_frame_write(uint8_t type, uint8_t sequence, const uint8_t *payload,
                              size_t payload_length, uint8_t *output, size_t output_length);
uint64_t arznavik_frame_check(const uint8_t *frame, size_t frame_length, uint8_t *output,
                              size_t output_length);

/* An address that the library takes: the given one or, for no bytes, one that is not NULL. */
static inline const uint8_t *arznavik_input(const uint8_t *bytes, size_t length)
{
    static const uint8_t none = 0;
    return length != 0 ? bytes : &none;
}

static inline uint8_t *arznavik_output(uint8_t *bytes, size_t length)
{
    static uint8_t none;
    return length != 0 ? bytes : &none;
}

/* ---- Calls to use ---- */

/*
 * The check over the bytes: polynomial 1021, high bit first, nothing inverted. Bytes that come in
 * parts are checked part by part: the check of what came before is the next part's start.
 */
static inline uint16_t arznavik_crc_of(uint16_t start, const uint8_t *bytes, size_t length)
{
    return arznavik_crc(start, arznavik_input(bytes, length), length);
}

/*
 * Writes the frame of a type, a sequence and a payload to the start of the output; bytes beyond it
 * stay. Refuses ARZNAVIK_LONG_PAYLOAD, then ARZNAVIK_SHORT_OUTPUT if the output is shorter than the
 * frame. ARZNAVIK_FRAME_MAX bytes are always enough.
 */
static inline uint64_t arznavik_write_frame(uint8_t type, uint8_t sequence, const uint8_t *payload,
                                            size_t payload_length, uint8_t *output,
                                            size_t output_length)
{
    return arznavik_frame_write(type, sequence, arznavik_input(payload, payload_length),
                                payload_length, arznavik_output(output, output_length),
                                output_length);
}

/*
 * Reads one whole frame, flags included, of any type. Its payload goes to the start of the output,
 * which has at least ARZNAVIK_PAYLOAD_MAX bytes; bytes beyond it stay. Refuses, in this order:
 * ARZNAVIK_SHORT_OUTPUT; ARZNAVIK_BAD_FRAMING for the flags; ARZNAVIK_BAD_FRAMING for an escape and
 * ARZNAVIK_LONG_CONTENT, whichever comes first on the line; ARZNAVIK_SHORT_CONTENT;
 * ARZNAVIK_BAD_CHECK.
 */
static inline uint64_t arznavik_check_frame(const uint8_t *frame, size_t frame_length,
                                            uint8_t *output, size_t output_length)
{
    return arznavik_frame_check(arznavik_input(frame, frame_length), frame_length,
                                arznavik_output(output, output_length), output_length);
}

#ifdef __cplusplus
}
#endif

#endif
