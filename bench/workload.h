/* The calls that speed and stack are measured of, and their inputs. */
#ifndef WORKLOAD_H
#define WORKLOAD_H

#include "arznavik.h"

/* Two flags and one escaped byte more than content may have. */
#define WORKLOAD_FRAME_MAX (ARZNAVIK_FRAME_MAX + 2)

struct workload {
    /* "plain", or "escaped" where every payload byte is 7e or 7d. */
    const char *kind;
    size_t payload_length;
    uint8_t payload[ARZNAVIK_PAYLOAD_MAX];
    /* The payload as a data frame. */
    size_t frame_length;
    uint8_t frame[WORKLOAD_FRAME_MAX];
};

#define PLAIN_WORKLOADS 6
#define ESCAPED_WORKLOADS 3
#define WORKLOADS (PLAIN_WORKLOADS + ESCAPED_WORKLOADS)
#define CRC_WORKLOADS 8

/* Payloads of 0, 1, 14, 15, 64 and 383 bytes, plain, and of 14, 64 and 383, escaped. */
void workloads_make(struct workload workloads[WORKLOADS]);

/* Plain payloads of 0, 1, 4, 7, 14, 15, 64 and 383 bytes, for the crc. */
void crc_workloads_make(struct workload workloads[CRC_WORKLOADS]);

/* The longest payload, and with it the longest run of bytes that the frame check looks at: pairs
 * up to the one that passes the content's limit. */
void workload_make_deepest(struct workload *workload);

/* One call on one workload. */
typedef uint64_t workload_call(const struct workload *workload);

struct subject {
    const char *name;
    workload_call *call;
};

#define SUBJECTS_MAX 6

/* A call by the library, which stands first, and by what it is measured against. The last subject
 * has no call. */
struct row {
    const char *name;
    struct subject subjects[SUBJECTS_MAX + 1];
};

extern const struct row crc_row, write_row, check_row;

#endif
