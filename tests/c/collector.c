/* The example's collector: how it cuts a line, and that its bounded memory changes no refusal and
 * no place. */
#include "collector.h"

#include "expect.h"

#include <string.h>

/* Longer than anything that the collector keeps. */
#define RUN_MAX 2000

/* Gives the bytes to the collector and answers the length of the last frame closed, or 0. */
static size_t take_all(struct collector *collector, const uint8_t *bytes, size_t length)
{
    size_t closed = 0;
    for (size_t i = 0; i < length; i++) {
        size_t frame = collector_take(collector, bytes[i]);
        if (frame != 0)
            closed = frame;
    }
    return closed;
}

static void cuts(void)
{
    static const uint8_t line[] = {0x00, 0x7d, 0x7e, 0x7e, 0x41, 0x7e, 0x42, 0x43, 0x7e};
    static const size_t closed[] = {0, 0, 0, 0, 0, 3, 0, 0, 4};
    static const uint8_t last[] = {0x7e, 0x42, 0x43, 0x7e};
    struct collector collector;
    collector_start(&collector);
    for (size_t i = 0; i < sizeof line; i++)
        expect_number("a frame is closed", collector_take(&collector, line[i]), closed[i]);
    expect_bytes("both flags are kept", collector.frame, last, sizeof last);
}

/* The frame check refuses what was collected as it refuses the whole run. */
static void expect_same(const uint8_t *run, size_t length)
{
    uint8_t payload[ARZNAVIK_PAYLOAD_MAX];
    struct collector collector;
    collector_start(&collector);
    size_t collected = take_all(&collector, run, length);
    size_t wanted = length < COLLECTOR_ROOM ? length : COLLECTOR_ROOM;
    expect_number("length collected", collected, wanted);
    expect_number("answer for a long run",
                  arznavik_check_frame(collector.frame, collected, payload, sizeof payload),
                  arznavik_check_frame(run, length, payload, sizeof payload));
}

/* A run of `length` sent bytes between flags: pairs first, then plain bytes, a bad escape at
 * `fault` if that is inside. Answers the run. */
static const uint8_t *make_run(size_t length, size_t pairs, size_t fault)
{
    static uint8_t run[RUN_MAX + 2];
    memset(run, 0x41, sizeof run);
    for (size_t i = 0; i < pairs; i++) {
        run[1 + 2 * i] = ARZNAVIK_ESCAPE;
        run[2 + 2 * i] = 0x5e;
    }
    if (fault < length)
        run[1 + fault] = ARZNAVIK_ESCAPE;
    run[0] = ARZNAVIK_FLAG;
    run[1 + length] = ARZNAVIK_FLAG;
    return run;
}

static void expect_same_run(size_t length, size_t pairs, size_t fault)
{
    expect_same(make_run(length, pairs, fault), length + 2);
}

static void bounded_memory(void)
{
    static const size_t lengths[] = {774, 775, 776, 777, 778, 779, 1000, RUN_MAX};
    for (size_t i = 0; i < sizeof lengths / sizeof lengths[0]; i++) {
        size_t length = lengths[i];
        for (size_t pairs = 380; pairs <= length / 2; pairs++) {
            expect_same_run(length, pairs, length);
            expect_same_run(length, pairs, 2 * pairs);
            expect_same_run(length, pairs, 2 * pairs - 1);
        }
        for (size_t fault = 770; fault < length && fault < 785; fault++)
            expect_same_run(length, 0, fault);
    }
}

/* The greatest places stand in the last byte that is kept, the least in the first ones. */
static void places(void)
{
    static const struct {
        size_t pairs, fault;
        unsigned refusal;
        uint32_t place;
    } answers[] = {
        {388, RUN_MAX, ARZNAVIK_LONG_CONTENT, 776},
        {387, RUN_MAX, ARZNAVIK_LONG_CONTENT, 775},
        {0, RUN_MAX, ARZNAVIK_LONG_CONTENT, 388},
        {387, 774, ARZNAVIK_BAD_FRAMING, 776},
        {386, 773, ARZNAVIK_BAD_FRAMING, 775},
        {0, 0, ARZNAVIK_BAD_FRAMING, 2},
    };
    uint8_t payload[ARZNAVIK_PAYLOAD_MAX];
    for (size_t i = 0; i < sizeof answers / sizeof answers[0]; i++) {
        struct collector collector;
        collector_start(&collector);
        const uint8_t *run = make_run(RUN_MAX, answers[i].pairs, answers[i].fault);
        size_t collected = take_all(&collector, run, RUN_MAX + 2);
        uint64_t report =
            arznavik_check_frame(collector.frame, collected, payload, sizeof payload);
        expect_number("refusal of a long run", arznavik_refusal(report), answers[i].refusal);
        expect_number("place in a long run", arznavik_place(report), answers[i].place);
    }
}

int main(void)
{
    cuts();
    bounded_memory();
    places();
    return expect_summary("collector");
}
