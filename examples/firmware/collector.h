/* Cuts the bytes of a line into frames, one at a time and in bounded memory. */
#ifndef COLLECTOR_H
#define COLLECTOR_H

#include "arznavik.h"

/*
 * Sent bytes that are kept of one frame, its flags included. Of a longer run the rest is left out
 * and the frame check still gives the same refusal and place: 776 bytes between the flags already
 * hold a bad escape or a 388th content byte.
 */
#define COLLECTOR_BETWEEN (2 * (ARZNAVIK_CONTENT_MAX + 1))
#define COLLECTOR_ROOM (COLLECTOR_BETWEEN + 2)

struct collector {
    uint8_t frame[COLLECTOR_ROOM];
    /* Bytes kept since the last flag, that flag included; 0 before the first flag. */
    size_t kept;
};

void collector_start(struct collector *collector);

/*
 * Takes one byte from the line. Answers the length of the frame that it closes, or 0. That frame
 * stands in `frame`, flags included, until the next call.
 */
size_t collector_take(struct collector *collector, uint8_t byte);

#endif
