/* The three calls in plain C, as firmware would have them: what the library is measured against. */
#ifndef PLAIN_H
#define PLAIN_H

#include <stddef.h>
#include <stdint.h>

/* Bit by bit; by a table of 256 remainders; and by eight such tables, eight bytes a step. */
uint16_t plain_crc(uint16_t start, const uint8_t *bytes, size_t length);
uint16_t table_crc(uint16_t start, const uint8_t *bytes, size_t length);
uint16_t sliced_crc(uint16_t start, const uint8_t *bytes, size_t length);

/* Fills the tables of the last two; to be called once before them. */
void crc_tables_start(void);

/* Arguments and reports as in arznavik.h, refusals and their places included. */
uint64_t plain_frame_write(uint8_t type, uint8_t sequence, const uint8_t *payload,
                           size_t payload_length, uint8_t *output, size_t output_length);
uint64_t plain_frame_check(const uint8_t *frame, size_t frame_length, uint8_t *output,
                           size_t output_length);

#endif
