/* A host in C: what it holds, and how it counts. */
#ifndef HOST_H
#define HOST_H

#include <stdbool.h>
#include <stdio.h>
#include <string.h>

#include "caif.h"

/* Each buffer has one element more than is lent, which must never change. */
struct host {
    struct caif_box held;
    struct caif_log_row log[CAIF_LOG_ROWS + 1];
    struct caif_escrow_row escrow[CAIF_ESCROW_ROWS + 1];
    uint8_t heaps[CAIF_HEAPS + 1];
    uint8_t shared[CAIF_SHARED + 1];
    uint8_t log_values[CAIF_LOG_VALUES + 1];
    uint8_t escrow_values[CAIF_ESCROW_VALUES + 1];
    uint8_t output[CAIF_OUTPUT + 1];
};

/* How much of each buffer is lent. */
struct sizes {
    size_t log, escrow, heaps, shared, log_values, escrow_values, output;
};

extern const struct sizes right_sizes;

/* One assertion, counted. */
void check(bool holds, const char *label, const char *what);

/* A fresh box, the output buffer full of 0xEE. */
void make_fresh(struct host *host);

/* One call; the box record that comes back is kept. */
struct caif_reply call(struct host *host, const struct sizes *sizes, const uint8_t *bytes, size_t count);

/* The same on this box record, which is lent and may stand anywhere; the host's own is passed over. */
struct caif_answer call_lent(struct caif_box *held, struct host *host, const struct sizes *sizes, const uint8_t *bytes,
                             size_t count);

/* The same through the level-one entry. */
struct caif_reply call_level_one(struct host *host, const struct sizes *sizes, const uint8_t *bytes, size_t count);

/* One tank at the desk, and a list of them. */
struct caif_tank_answer desk(const struct host *host, const struct sizes *sizes, struct caif_tank tank);
uint8_t shift(const struct host *host, const struct sizes *sizes, const struct caif_tank *tanks, size_t count,
              struct caif_tank_answer *answers, size_t lent);

/* Asserts each part of the box and of the buffers, and the elements that are not lent. */
void check_host(const struct host *is, const struct host *wanted, const char *label);

/* Asserts each field of an answer but for the box record. */
void check_reply(const struct caif_reply *reply, uint8_t code, uint64_t number, size_t used, uint16_t shown,
                 const char *label);

/* The call on a copy of this box with its record lent: asserts this answer, and the box that is left. With a refusal every
 * byte of the record must stand as it was, and the record may be one that cannot be written. */
void check_call_lent(const struct host *host, const struct sizes *sizes, const uint8_t *bytes, size_t count,
                     struct caif_answer wanted, const struct host *left, const char *label);

/* The example on a fresh box, with no assertions. */
void run_example(struct host *host);

/* Every place taken, every heap, the shared memory and both tables full; place 0, whose identity is 1, runs. Gives the tags
 * of the corrections 7 and 51, which it logged. */
void make_full(struct host *host, uint64_t tags[2]);

/* A copy on pages that cannot be written. */
const void *locked(const void *from, size_t size);

/* Whether this is so, asked in a child, which a fault ends. */
enum outcome { RIGHT, WRONG, FAULTS };
enum outcome in_child(bool (*is_so)(const void *), const void *with);

void check_layout(void);
void check_calls(void);
void check_refusals(void);
void check_lent(void);
void check_level_one(void);
void check_desk(void);
void check_read_only(void);

#endif
