/*
 * Calls of the frame writer and the frame check with everything compared: the whole report, the
 * lent output, the bytes around it, and the input.
 */
#ifndef CALLS_H
#define CALLS_H

#include <stddef.h>
#include <stdint.h>

/* The longest input and the longest output that these functions lend. */
#define CALLS_ROOM 2048

/* What one frame carries. */
struct parts {
    uint8_t type;
    uint8_t sequence;
    const uint8_t *payload;
    size_t payload_length;
};

/* The writer writes exactly this frame into an output of `room` bytes and changes nothing else. */
void expect_written(const char *what, struct parts parts, size_t room, const uint8_t *frame,
                    size_t frame_length);

/* The writer refuses with this number and place 0, and changes nothing. */
void expect_not_written(const char *what, struct parts parts, size_t room, unsigned refusal);

/* The frame check hands back exactly these parts and changes nothing else. */
void expect_taken(const char *what, const uint8_t *frame, size_t frame_length, size_t room,
                  struct parts parts);

/* The frame check refuses with this number and this place, and changes nothing. */
void expect_refused(const char *what, const uint8_t *frame, size_t frame_length, size_t room,
                    unsigned refusal, size_t place);

#endif
