#include "workload.h"

#include "plain.h"

#define TYPE ARZNAVIK_TYPE_DATA
#define SEQUENCE 0x05

/* The check bit by bit, of crates/bitwise_bench. */
uint16_t bitwise_crc(uint16_t start, const uint8_t *bytes, size_t length);

#ifdef EARLIER
/* The library of an earlier commit, its calls renamed: make bench EARLIER=COMMIT. */
uint16_t earlier_crc(uint16_t start, const uint8_t *bytes, size_t length);
uint64_t earlier_frame_write(uint8_t type, uint8_t sequence, const uint8_t *payload,
                             size_t payload_length, uint8_t *output, size_t output_length);
uint64_t earlier_frame_check(const uint8_t *frame, size_t frame_length, uint8_t *output,
                             size_t output_length);
#endif

static uint8_t output[ARZNAVIK_FRAME_MAX];

static void fill(struct workload *workload, int escaped, size_t length)
{
    workload->kind = escaped ? "escaped" : "plain";
    workload->payload_length = length;
    for (size_t i = 0; i < length; i++) {
        uint8_t reserved = i % 2 == 0 ? ARZNAVIK_FLAG : ARZNAVIK_ESCAPE;
        workload->payload[i] = escaped ? reserved : (uint8_t)(i * 37 % 0x7d);
    }
    uint64_t report = plain_frame_write(TYPE, SEQUENCE, workload->payload, length, workload->frame,
                                        sizeof workload->frame);
    workload->frame_length = arznavik_length(report);
}

void workloads_make(struct workload workloads[WORKLOADS])
{
    static const size_t plain[PLAIN_WORKLOADS] = {0, 1, 14, 15, 64, ARZNAVIK_PAYLOAD_MAX};
    static const size_t escaped[ESCAPED_WORKLOADS] = {14, 64, ARZNAVIK_PAYLOAD_MAX};
    for (size_t i = 0; i < PLAIN_WORKLOADS; i++)
        fill(&workloads[i], 0, plain[i]);
    for (size_t i = 0; i < ESCAPED_WORKLOADS; i++)
        fill(&workloads[PLAIN_WORKLOADS + i], 1, escaped[i]);
}

void crc_workloads_make(struct workload workloads[CRC_WORKLOADS])
{
    static const size_t lengths[CRC_WORKLOADS] = {0,  1,  4,  7,
                                                  14, 15, 64, ARZNAVIK_PAYLOAD_MAX};
    for (size_t i = 0; i < CRC_WORKLOADS; i++)
        fill(&workloads[i], 0, lengths[i]);
}

void workload_make_deepest(struct workload *workload)
{
    fill(workload, 1, ARZNAVIK_PAYLOAD_MAX);
    workload->frame_length = WORKLOAD_FRAME_MAX;
    for (size_t i = 0; i <= ARZNAVIK_CONTENT_MAX; i++) {
        workload->frame[1 + 2 * i] = ARZNAVIK_ESCAPE;
        workload->frame[2 + 2 * i] = 0x5e;
    }
    workload->frame[WORKLOAD_FRAME_MAX - 1] = ARZNAVIK_FLAG;
}

/* The calls of one side: arznavik, plain, .. */
#define CRC_CALL(side)                                                                             \
    static uint64_t side##_crc_call(const struct workload *workload)                               \
    {                                                                                              \
        return side##_crc(ARZNAVIK_CRC_START, workload->payload, workload->payload_length);        \
    }

#define WRITE_CALL(side)                                                                           \
    static uint64_t side##_write_call(const struct workload *workload)                             \
    {                                                                                              \
        return side##_frame_write(TYPE, SEQUENCE, workload->payload, workload->payload_length,     \
                                  output, sizeof output);                                          \
    }

#define CHECK_CALL(side)                                                                           \
    static uint64_t side##_check_call(const struct workload *workload)                             \
    {                                                                                              \
        return side##_frame_check(workload->frame, workload->frame_length, output, sizeof output); \
    }

#define CALLS(side) CRC_CALL(side) WRITE_CALL(side) CHECK_CALL(side)

CALLS(arznavik)
CALLS(plain)
CRC_CALL(bitwise)
CRC_CALL(table)
CRC_CALL(sliced)

#ifdef EARLIER
CALLS(earlier)
#define EARLIER_SUBJECT(call) {"earlier", earlier_##call},
#else
#define EARLIER_SUBJECT(call)
#endif

const struct row crc_row = {
    "crc",
    {{"library", arznavik_crc_call},
     {"bitwise", bitwise_crc_call},
     {"plain C", plain_crc_call},
     {"table C", table_crc_call},
     {"sliced C", sliced_crc_call},
     EARLIER_SUBJECT(crc_call)},
};

const struct row write_row = {
    "frame write",
    {{"library", arznavik_write_call},
     {"plain C", plain_write_call},
     EARLIER_SUBJECT(write_call)},
};

const struct row check_row = {
    "frame check",
    {{"library", arznavik_check_call},
     {"plain C", plain_check_call},
     EARLIER_SUBJECT(check_call)},
};
