#include "plain.h"

#define STEP 8

/* tables[zeros][byte]: the CRC, from 0, of the byte and so many zeros behind it. */
static uint16_t tables[STEP][256];

uint16_t plain_crc(uint16_t start, const uint8_t *bytes, size_t length)
{
    uint16_t crc = start;
    for (size_t i = 0; i < length; i++) {
        crc ^= (uint16_t)(bytes[i] << 8);
        for (int bit = 0; bit < 8; bit++)
            crc = (uint16_t)(crc & 0x8000 ? crc << 1 ^ 0x1021 : crc << 1);
    }
    return crc;
}

void crc_tables_start(void)
{
    for (unsigned i = 0; i < 256; i++) {
        uint8_t bytes[STEP] = {(uint8_t)i};
        for (size_t zeros = 0; zeros < STEP; zeros++)
            tables[zeros][i] = plain_crc(0, bytes, 1 + zeros);
    }
}

uint16_t table_crc(uint16_t start, const uint8_t *bytes, size_t length)
{
    uint16_t crc = start;
    for (size_t i = 0; i < length; i++)
        crc = (uint16_t)(crc << 8 ^ tables[0][crc >> 8 ^ bytes[i]]);
    return crc;
}

uint16_t sliced_crc(uint16_t start, const uint8_t *bytes, size_t length)
{
    uint16_t crc = start;
    for (; length >= STEP; length -= STEP, bytes += STEP)
        crc = (uint16_t)(tables[7][crc >> 8 ^ bytes[0]] ^ tables[6][(crc & 0xff) ^ bytes[1]] ^
                         tables[5][bytes[2]] ^ tables[4][bytes[3]] ^ tables[3][bytes[4]] ^
                         tables[2][bytes[5]] ^ tables[1][bytes[6]] ^ tables[0][bytes[7]]);
    return table_crc(crc, bytes, length);
}
