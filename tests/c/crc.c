/*
 * The check against the plain C of the benchmark: of each byte alone, and of strings that end right
 * before memory without access, or begin right behind it, so that a byte read outside is a fault.
 * The payloads and frames of the other two calls stand there too.
 */
#define _DEFAULT_SOURCE

#include "arznavik.h"

#include "expect.h"
#include "plain.h"

#include <stdio.h>
#include <stdlib.h>
#include <string.h>
#include <sys/mman.h>

/* More than a frame, and a multiple of the page of the systems that this is built for. */
#define PAGE 65536
#define STRING_MAX 48

/* Three pages, of which only the middle one has access. */
static uint8_t *page;

static void map_page(void)
{
    uint8_t *pages = mmap(NULL, 3 * PAGE, PROT_NONE, MAP_PRIVATE | MAP_ANONYMOUS, -1, 0);
    if (pages == MAP_FAILED || mprotect(pages + PAGE, PAGE, PROT_READ | PROT_WRITE) != 0) {
        printf("FAILED no memory\n");
        exit(EXIT_FAILURE);
    }
    page = pages + PAGE;
}

/* Unlike bytes, reserved ones among them, at the end of the page or at its start. */
static uint8_t *unlike(size_t length, int at_end)
{
    uint8_t *bytes = at_end ? page + PAGE - length : page;
    for (size_t i = 0; i < length; i++)
        bytes[i] = (uint8_t)(i * 167 + 13);
    return bytes;
}

/* These are the entries of a table of remainders. */
static void each_byte(void)
{
    for (unsigned i = 0; i < 256; i++) {
        uint8_t byte = (uint8_t)i;
        expect_number("one byte, start 0", arznavik_crc_of(0, &byte, 1), plain_crc(0, &byte, 1));
    }
}

static void strings(int at_end)
{
    static const uint16_t starts[] = {0x0000, 0x0001, 0x1d0f, 0x8000, ARZNAVIK_CRC_START};
    const char *what = at_end ? "string at the end" : "string at the start";
    for (size_t length = 0; length <= STRING_MAX; length++) {
        const uint8_t *bytes = unlike(length, at_end);
        for (size_t i = 0; i < sizeof starts / sizeof starts[0]; i++)
            expect_number(what, arznavik_crc_of(starts[i], bytes, length),
                          plain_crc(starts[i], bytes, length));
    }
}

/* Writes a frame of such a payload; then the frame stands there and is read back. */
static void frames(int at_end)
{
    uint8_t frame[ARZNAVIK_FRAME_MAX], wanted[ARZNAVIK_FRAME_MAX], output[ARZNAVIK_PAYLOAD_MAX];
    for (size_t length = 0; length <= ARZNAVIK_PAYLOAD_MAX; length++) {
        const uint8_t *payload = unlike(length, at_end);
        uint64_t report = plain_frame_write(1, 2, payload, length, wanted, sizeof wanted);
        size_t sent = arznavik_length(report);
        expect_number("frame written",
                      arznavik_write_frame(1, 2, payload, length, frame, sizeof frame), report);
        expect_bytes("frame written", frame, wanted, sent);

        uint8_t *bytes = at_end ? page + PAGE - sent : page;
        memcpy(bytes, wanted, sent);
        report = plain_frame_check(bytes, sent, wanted, sizeof wanted);
        expect_number("frame read", arznavik_check_frame(bytes, sent, output, sizeof output),
                      report);
        expect_number("frame read, length", arznavik_length(report), length);
        expect_bytes("frame read", output, wanted, length);
    }
}

int main(void)
{
    map_page();
    each_byte();
    for (int at_end = 0; at_end < 2; at_end++) {
        strings(at_end);
        frames(at_end);
    }
    return expect_summary("crc");
}
