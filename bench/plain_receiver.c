/*
 * The receiver and the board in plain C, as a program with the input and output of the crate
 * receive_bench, so that both are timed in the same way. The state stands in one place and is
 * changed there; the board keeps values and no ages, refusals 9 to 14 are one answer, and the watch
 * list is taken to be good. Compiled with CONTENT_CRC=table_crc it checks content by the table.
 */
#include "arznavik.h"

#include "plain.h"

#include <stdio.h>
#include <stdlib.h>
#include <string.h>

#ifndef CONTENT_CRC
#define CONTENT_CRC plain_crc
#endif

#define ROWS 40
#define NAME_MAX_LENGTH 27
#define LIST_MAX 2048
#define FIELD_HEAD 3
#define STREAM_MAX 65536
#define NUMBER_BYTES 4
#define UPDATE 0x03
#define NAME_ITEM 0x01
#define INTEGER_ITEM 0x02
#define BOOLEAN_ITEM 0x0f
#define EOF_ITEM 0x14
#define CENTS_ITEM 0x16

enum phase { BEFORE, PLAIN, ESCAPED, FAULTY };

struct row {
    uint8_t name[NAME_MAX_LENGTH];
    size_t length;
    int64_t value;
    int current;
};

struct receiver {
    enum phase phase;
    unsigned fault;
    size_t length;
    /* The offset of the last byte, counted from the last flag as 0; at a fault it stays. */
    size_t place;
    /* Where the last refused frame broke. Nothing here reads it, so it is kept by force. */
    volatile size_t broke_at;
    uint8_t content[ARZNAVIK_CONTENT_MAX];
    int last;
    uint16_t new_frames, again, heard, unread;
    uint16_t refused[6];
    struct row rows[ROWS];
};

static int read_value(const uint8_t *item, int64_t *value)
{
    uint8_t type = item[0], length = item[1];
    if (length != 1 && length != 2 && length != 4 && length != 8)
        return 0;
    if (type == BOOLEAN_ITEM) {
        *value = item[2];
        return length == 1 && item[2] <= 1;
    }
    if (type != INTEGER_ITEM && type != CENTS_ITEM)
        return 0;
    uint64_t bits = item[2] & 0x80 ? UINT64_MAX : 0;
    for (size_t i = 0; i < length; i++)
        bits = bits << 8 | item[2 + i];
    *value = (int64_t)bits;
    return 1;
}

static int is_name(const uint8_t *name, size_t length)
{
    if (length < 1 || length > NAME_MAX_LENGTH)
        return 0;
    for (size_t i = 0; i < length; i++) {
        uint8_t byte = name[i], letter = byte | 0x20;
        int is_letter = letter >= 'a' && letter <= 'z';
        int is_other = (byte >= '0' && byte <= '9') || byte == '-' || byte == '_';
        if (!is_letter && (i == 0 || !is_other))
            return 0;
    }
    return 1;
}

static struct row *find_row(struct row rows[ROWS], const uint8_t *name, size_t length)
{
    for (size_t i = 0; i < ROWS; i++)
        if (rows[i].length == length && memcmp(rows[i].name, name, length) == 0)
            return &rows[i];
    return NULL;
}

/* Whether the board reads the packet: an update of a row, or an end mark. */
static int read_packet(struct row rows[ROWS], const uint8_t *packet, size_t length)
{
    const uint8_t *name = NULL, *value = NULL;
    size_t names = 0, ends = 0, at = 4;
    if (length < 4 || packet[0] != 1)
        return 0;
    while (at < length) {
        const uint8_t *item = packet + at;
        if (length - at < 2 || length - at - 2 < item[1])
            return 0;
        at += 2 + (size_t)item[1];
        if (item[0] == EOF_ITEM && item[1] != 0)
            return 0;
        ends += item[0] == EOF_ITEM;
        if (item[0] == NAME_ITEM) {
            names++;
            name = item;
            value = at < length ? packet + at : NULL;
        }
    }
    if (packet[1] != UPDATE || (names == 0 && ends == 0))
        return 0;
    if (names == 0)
        return 1;
    int64_t number = 0;
    if (names != 1 || !is_name(name + 2, name[1]) || value == NULL || !read_value(value, &number))
        return 0;
    struct row *row = find_row(rows, name + 2, name[1]);
    if (row == NULL)
        return 0;
    row->value = number;
    row->current = 1;
    return 1;
}

static void take_data(struct receiver *receiver, uint8_t *reply, uint8_t *packet)
{
    uint8_t sequence = receiver->content[1];
    size_t length = receiver->length - 4;
    plain_frame_write(ARZNAVIK_TYPE_ACKNOWLEDGEMENT, sequence, NULL, 0, reply,
                      ARZNAVIK_ACKNOWLEDGEMENT_MAX);
    if (sequence != 0 && sequence == receiver->last) {
        receiver->again++;
        return;
    }
    receiver->last = sequence;
    receiver->new_frames++;
    memcpy(packet, receiver->content + 2, length);
    if (!read_packet(receiver->rows, packet, length))
        receiver->unread++;
}

static unsigned refused_at(struct receiver *receiver, unsigned refusal, size_t place)
{
    receiver->broke_at = place;
    return refusal;
}

/* The refusal of the frame that a flag has closed, or 0. */
static unsigned close_frame(struct receiver *receiver, uint8_t *reply, uint8_t *packet)
{
    if (receiver->phase == ESCAPED)
        return refused_at(receiver, ARZNAVIK_BAD_FRAMING, receiver->place + 1);
    if (receiver->phase == FAULTY)
        return refused_at(receiver, receiver->fault, receiver->place);
    if (receiver->length < 4)
        return refused_at(receiver, ARZNAVIK_SHORT_CONTENT, 0);
    if (CONTENT_CRC(ARZNAVIK_CRC_START, receiver->content, receiver->length) != 0)
        return refused_at(receiver, ARZNAVIK_BAD_CHECK, receiver->length);
    if (receiver->content[0] == ARZNAVIK_TYPE_DATA) {
        take_data(receiver, reply, packet);
        return 0;
    }
    if (receiver->content[0] != ARZNAVIK_TYPE_ACKNOWLEDGEMENT)
        return refused_at(receiver, 5, 0);
    if (receiver->length != 4)
        return refused_at(receiver, 6, 0);
    receiver->heard++;
    return 0;
}

static void refuse(struct receiver *receiver, unsigned fault)
{
    receiver->phase = FAULTY;
    receiver->fault = fault;
}

static void take_byte(struct receiver *receiver, uint8_t byte)
{
    if (receiver->phase == BEFORE || receiver->phase == FAULTY)
        return;
    receiver->place++;
    if (receiver->phase == ESCAPED) {
        if (byte != 0x5d && byte != 0x5e) {
            refuse(receiver, ARZNAVIK_BAD_FRAMING);
            return;
        }
        byte ^= 0x20;
    } else if (byte == ARZNAVIK_ESCAPE) {
        receiver->phase = ESCAPED;
        return;
    }
    if (receiver->length == ARZNAVIK_CONTENT_MAX) {
        refuse(receiver, ARZNAVIK_LONG_CONTENT);
        return;
    }
    receiver->phase = PLAIN;
    receiver->content[receiver->length++] = byte;
}

/* Takes bytes up to the flag that closes a frame, or all of them, and says how many. */
static size_t receive(struct receiver *receiver, const uint8_t *piece, size_t length,
                      uint8_t *reply, uint8_t *packet)
{
    for (size_t i = 0; i < length; i++) {
        if (piece[i] != ARZNAVIK_FLAG) {
            take_byte(receiver, piece[i]);
            continue;
        }
        int is_frame = receiver->phase != BEFORE &&
                       (receiver->phase != PLAIN || receiver->length != 0);
        unsigned refusal = is_frame ? close_frame(receiver, reply, packet) : 0;
        if (refusal != 0)
            receiver->refused[refusal - 1]++;
        receiver->phase = PLAIN;
        receiver->length = 0;
        receiver->place = 0;
        if (is_frame)
            return i + 1;
    }
    return length;
}

static void feed(struct receiver *receiver, const uint8_t *stream, size_t length, size_t size)
{
    static uint8_t reply[ARZNAVIK_ACKNOWLEDGEMENT_MAX], packet[ARZNAVIK_PAYLOAD_MAX];
    for (size_t at = 0; at < length;) {
        size_t end = size == 0 || length - at < size ? length : at + size;
        while (at < end)
            at += receive(receiver, stream + at, end - at, reply, packet);
    }
}

/* The names of a watch list, one row each. */
static void watch(struct row rows[ROWS], const uint8_t *list, size_t length)
{
    size_t at = 0;
    for (size_t i = 0; i < ROWS && length - at > FIELD_HEAD; i++) {
        size_t size = list[at + 2];
        if (list[at + 1] != 0 || size > NAME_MAX_LENGTH || length - at - FIELD_HEAD < size)
            return;
        rows[i].length = size;
        memcpy(rows[i].name, list + at + FIELD_HEAD, size);
        at += FIELD_HEAD + size;
    }
}

/* The lines of the crate reports. Nothing ticks here, so every age is 0. */
static void report(const struct receiver *receiver)
{
    printf("new %u again %u heard %u unread %u\nrefused", receiver->new_frames, receiver->again,
           receiver->heard, receiver->unread);
    for (size_t i = 0; i < 6; i++)
        printf(" %u", receiver->refused[i]);
    printf("\n");
    for (size_t i = 0; i < ROWS && receiver->rows[i].length != 0; i++) {
        const struct row *row = &receiver->rows[i];
        printf("%.*s ", (int)row->length, (const char *)row->name);
        if (row->current)
            printf("current %lld 0\n", (long long)row->value);
        else
            printf("never\n");
    }
}

static size_t number(const uint8_t bytes[NUMBER_BYTES])
{
    size_t number = 0;
    for (size_t i = 0; i < NUMBER_BYTES; i++)
        number = number << 8 | bytes[i];
    return number;
}

int main(void)
{
    static uint8_t list[LIST_MAX], stream[STREAM_MAX];
    static struct receiver receiver;
    uint8_t head[3 * NUMBER_BYTES];
    if (fread(head, 1, sizeof head, stdin) != sizeof head)
        return EXIT_FAILURE;
    size_t size = number(head), rounds = number(head + NUMBER_BYTES);
    size_t listed = number(head + 2 * NUMBER_BYTES);
    if (listed > sizeof list || fread(list, 1, listed, stdin) != listed)
        return EXIT_FAILURE;
    size_t length = fread(stream, 1, sizeof stream, stdin);
    crc_tables_start();
    receiver.last = -1;
    watch(receiver.rows, list, listed);
    for (size_t i = 0; i < rounds; i++)
        feed(&receiver, stream, length, size);
    report(&receiver);
    return EXIT_SUCCESS;
}
