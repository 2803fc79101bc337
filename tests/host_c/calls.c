/* The example paper, then every other kind of call, then hand overs of each sort, then chains, then releases; each with the
 * box record by value and lent. */
#include "host.h"

#define HANDLE 281474976710663u      /* of length 1 and draw 7 */
#define TAG 5952190651599004191u     /* FNV-1a of 01 00 00 00 00 00 00 00 41 */
#define END_TAG 8750169272185725317u /* FNV-1a of 03 00 00 00 00 00 00 00 01 */
#define LINK 4785074604081161u       /* of length 17 and draw 9 */
#define OWN 4785074604081162u        /* of length 17 and draw 10 */
#define AFTER_LINK 4785301538216416u /* of length 17 and the draw after 9, which is 226,934,135,264 */

/* The same as bytes, lowest first. */
#define ID_0 0, 0, 0, 0, 0, 0, 0, 0
#define ID_3 3, 0, 0, 0, 0, 0, 0, 0
#define END_TAG_BYTES 0x85, 0x21, 0x2B, 0xB9, 0x97, 0xD8, 0x6E, 0x79
#define LINK_BYTES 9, 0, 0, 0, 0, 0, 0x11, 0
#define OWN_BYTES 10, 0, 0, 0, 0, 0, 0x11, 0
#define AFTER_LINK_BYTES 0xE0, 0x19, 0x54, 0xD6, 0x34, 0, 0x11, 0

/* The first names the end that identity 3 logged, the second its own handle. */
static const uint8_t link_value[17] = {2, ID_3, END_TAG_BYTES};
static const uint8_t own_value[17] = {3, ID_3, OWN_BYTES};

/* What each step alters, written by hand. */
static void nothing(struct host *host)
{
    (void)host;
}

static void created(struct host *host)
{
    host->held.taken = 1;
    host->held.identities[0] = 1;
}

static void started(struct host *host)
{
    host->held.running = 0;
}

static void heap_written(struct host *host)
{
    host->heaps[0] = 0x41;
}

static void protected(struct host *host)
{
    host->held.escrow = (struct caif_used){.rows = 1, .bytes = 1};
    host->escrow[0] =
        (struct caif_escrow_row){.source = 1, .recipient = 1, .handle = HANDLE, .first = 0, .length = 1};
    host->escrow_values[0] = 0x41;
}

static void yielded(struct host *host)
{
    host->held.running = CAIF_NONE;
}

static void attested(struct host *host)
{
    host->held.log = (struct caif_used){.rows = 1, .bytes = 1};
    host->log[0] = (struct caif_log_row){.identity = 1, .tag = TAG, .first = 0, .length = 1};
    host->log_values[0] = 0x41;
}

static void retrieved(struct host *host)
{
    host->heaps[255] = 0x41;
}

static void heap_shown(struct host *host)
{
    host->output[0] = 0;
    host->output[1] = 0x41;
}

static void shared_written(struct host *host)
{
    host->shared[1023] = 0x42;
}

static void shared_shown(struct host *host)
{
    host->output[0] = 0;
    host->output[1] = 0x42;
}

static void exited(struct host *host)
{
    host->held.taken = 0;
    host->held.running = CAIF_NONE;
    host->held.identities[0] = 0;
    host->heaps[0] = 0;
    host->heaps[255] = 0;
}

static void created_2(struct host *host)
{
    host->held.taken = 4;
    host->held.identities[2] = 3;
}

static void created_15(struct host *host)
{
    host->held.taken = 0x8004;
    host->held.identities[15] = 4;
}

static void started_2(struct host *host)
{
    host->held.running = 2;
}

static void started_15(struct host *host)
{
    host->held.running = 15;
}

static void heap_2_written(struct host *host)
{
    host->heaps[512] = 0x43;
}

static void heap_2_shown(struct host *host)
{
    host->output[0] = 0x43;
}

static void end_written(struct host *host)
{
    host->heaps[512] = 1;
}

static void end_attested(struct host *host)
{
    host->held.log = (struct caif_used){.rows = 2, .bytes = 2};
    host->log[1] = (struct caif_log_row){.identity = 3, .tag = END_TAG, .first = 1, .length = 1};
    host->log_values[1] = 1;
}

static void link_written(struct host *host)
{
    memcpy(host->heaps + 512, link_value, sizeof link_value);
}

static void link_protected(struct host *host)
{
    host->held.escrow = (struct caif_used){.rows = 2, .bytes = 18};
    host->escrow[1] =
        (struct caif_escrow_row){.source = 3, .recipient = 3, .handle = LINK, .first = 1, .length = 17};
    memcpy(host->escrow_values + 1, link_value, sizeof link_value);
}

static void own_written(struct host *host)
{
    memcpy(host->heaps + 512, own_value, sizeof own_value);
}

static void own_protected(struct host *host)
{
    host->held.escrow = (struct caif_used){.rows = 3, .bytes = 35};
    host->escrow[2] =
        (struct caif_escrow_row){.source = 3, .recipient = 3, .handle = OWN, .first = 18, .length = 17};
    memcpy(host->escrow_values + 18, own_value, sizeof own_value);
}

static void link_released(struct host *host)
{
    host->held.escrow = (struct caif_used){.rows = 3, .bytes = 18};
    host->escrow[1].length = 0;
    host->escrow[1].mark = 1;
    host->escrow[2].first = 1;
    memcpy(host->escrow_values + 1, own_value, sizeof own_value);
    memset(host->escrow_values + 18, 0, 17);
}

static void own_retrieved(struct host *host)
{
    memcpy(host->heaps + 612, own_value, sizeof own_value);
}

static void own_released(struct host *host)
{
    host->held.escrow = (struct caif_used){.rows = 3, .bytes = 1};
    host->escrow[2].length = 0;
    host->escrow[2].mark = 1;
    memset(host->escrow_values + 1, 0, 17);
}

static void protected_again(struct host *host)
{
    host->held.escrow = (struct caif_used){.rows = 4, .bytes = 18};
    host->escrow[3] =
        (struct caif_escrow_row){.source = 3, .recipient = 4, .handle = AFTER_LINK, .first = 1, .length = 17};
    memcpy(host->escrow_values + 1, own_value, sizeof own_value);
}

static void others_released(struct host *host)
{
    host->held.escrow = (struct caif_used){.rows = 4, .bytes = 1};
    host->escrow[3].length = 0;
    host->escrow[3].mark = 1;
    memset(host->escrow_values + 1, 0, 17);
}

/* A call: how it is written, its record, its answer, and what it alters. All of the record is used. */
struct step {
    uint8_t kind;
    struct caif_fields fields;
    uint8_t bytes[17];
    size_t bytes_size;
    uint8_t record[32];
    size_t length;
    uint8_t code;
    uint64_t number;
    uint16_t shown;
    void (*alters)(struct host *);
};

#define FIELDS(...) .fields = {__VA_ARGS__}
#define RECORD(...) .record = {__VA_ARGS__}, .length = sizeof((uint8_t[]){__VA_ARGS__})
#define BYTES(...) .bytes = {__VA_ARGS__}, .bytes_size = sizeof((uint8_t[]){__VA_ARGS__})

static const struct step example[] = {
    {CAIF_CREATE, FIELDS(.identity = 1), RECORD(0x07, 0x01, 0, 1, 0, 0, 0, 0, 0, 0, 0), .alters = created},
    {CAIF_HAND_OVER, FIELDS(.place = 0), RECORD(0x03, 0x0E, 0), .alters = started},
    {CAIF_HEAP_WRITE, FIELDS(.place = 0), BYTES(0x41), RECORD(0x4B, 0x05, 0, 0, 0, 1, 0, 0x41), .number = 1,
     .alters = heap_written},
    {CAIF_PROTECT, FIELDS(.identity = 1, .length = 1, .number = 7),
     RECORD(0x3D, 0x0B, 1, 0, 0, 0, 0, 0, 0, 0, 0, 0, 1, 0, 7, 0, 0, 0, 0, 0, 0, 0), .number = HANDLE,
     .alters = protected},
    {CAIF_REPORT, FIELDS(.place = 0), RECORD(0x01, 0x0D), .number = 65537, .alters = nothing},
    {CAIF_HAND_OVER, FIELDS(.place = CAIF_NONE), RECORD(0x03, 0x0E, 0x10), .alters = yielded},
    {CAIF_EXIT, FIELDS(.place = 0), RECORD(0x01, 0x04), .code = CAIF_NONE_RUNS, .alters = nothing},
};

static const struct step other_kinds[] = {
    {CAIF_HAND_OVER, FIELDS(.place = 0), RECORD(0x03, 0x0E, 0), .alters = started},
    {CAIF_ATTEST, FIELDS(.length = 1), RECORD(0x19, 0x09, 0, 0, 1, 0), .number = TAG, .alters = attested},
    {CAIF_CHECK, FIELDS(.identity = 1, .number = TAG), BYTES(0x41),
     RECORD(0x65, 0x0A, 1, 0, 0, 0, 0, 0, 0, 0, 0x1F, 0xA2, 0xF5, 0x8F, 0xDC, 0x6D, 0x9A, 0x52, 1, 0, 0x41),
     .number = 1, .alters = nothing},
    {CAIF_RETRIEVE, FIELDS(.identity = 1, .offset = 255, .number = HANDLE),
     RECORD(0x2D, 0x0C, 1, 0, 0, 0, 0, 0, 0, 0, 0xFF, 0, 7, 0, 0, 0, 0, 0, 1, 0), .number = 1, .alters = retrieved},
    {CAIF_HEAP_READ, FIELDS(.offset = 254, .length = 2), RECORD(0x1B, 0x06, 0, 0xFE, 0, 2, 0), .number = 2,
     .shown = 2, .alters = heap_shown},
    {CAIF_SHARED_WRITE, FIELDS(.offset = 1023), BYTES(0x42), RECORD(0x49, 0x07, 0xFF, 3, 1, 0, 0x42),
     .number = 1, .alters = shared_written},
    {CAIF_SHARED_READ, FIELDS(.offset = 1022, .length = 2), RECORD(0x19, 0x08, 0xFE, 3, 2, 0), .number = 2,
     .shown = 2, .alters = shared_shown},
    {CAIF_REPORT, FIELDS(.place = 0), RECORD(0x01, 0x0D), .number = 65793, .alters = nothing},
    {CAIF_EXIT, FIELDS(.place = 0), RECORD(0x01, 0x04), .alters = exited},
};

/* After an exit: to 16 and refused while none runs; to a place, to the running one, to another, refused and to 16
 * while one runs. What ran keeps its heap. */
static const struct step hand_overs[] = {
    {CAIF_HAND_OVER, FIELDS(.place = CAIF_NONE), RECORD(0x03, 0x0E, 0x10), .alters = nothing},
    {CAIF_HAND_OVER, FIELDS(.place = 0), RECORD(0x03, 0x0E, 0), .code = CAIF_PLACE_STATE, .alters = nothing},
    {CAIF_HAND_OVER, FIELDS(.place = 17), RECORD(0x03, 0x0E, 0x11), .code = CAIF_NO_PLACE, .alters = nothing},
    {CAIF_CREATE, FIELDS(.place = 2, .identity = 3), RECORD(0x07, 0x01, 2, 3, 0, 0, 0, 0, 0, 0, 0), .number = 2,
     .alters = created_2},
    {CAIF_CREATE, FIELDS(.place = 15, .identity = 4), RECORD(0x07, 0x01, 15, 4, 0, 0, 0, 0, 0, 0, 0), .number = 15,
     .alters = created_15},
    {CAIF_HAND_OVER, FIELDS(.place = 2), RECORD(0x03, 0x0E, 2), .alters = started_2},
    {CAIF_HEAP_WRITE, FIELDS(.place = 2), BYTES(0x43), RECORD(0x4B, 0x05, 2, 0, 0, 1, 0, 0x43), .number = 1,
     .alters = heap_2_written},
    {CAIF_HAND_OVER, FIELDS(.place = 2), RECORD(0x03, 0x0E, 2), .alters = nothing},
    {CAIF_HAND_OVER, FIELDS(.place = 0), RECORD(0x03, 0x0E, 0), .code = CAIF_PLACE_STATE, .alters = nothing},
    {CAIF_HAND_OVER, FIELDS(.place = 17), RECORD(0x03, 0x0E, 0x11), .code = CAIF_NO_PLACE, .alters = nothing},
    {CAIF_HAND_OVER, FIELDS(.place = 255), RECORD(0x03, 0x0E, 0xFF), .code = CAIF_NO_PLACE, .alters = nothing},
    {CAIF_HAND_OVER, FIELDS(.place = 15), RECORD(0x03, 0x0E, 15), .alters = started_15},
    {CAIF_HAND_OVER, FIELDS(.place = 2), RECORD(0x03, 0x0E, 2), .alters = started_2},
    {CAIF_HEAP_READ, FIELDS(.place = 2, .length = 1), RECORD(0x1B, 0x06, 2, 0, 0, 1, 0), .number = 1, .shown = 1,
     .alters = heap_2_shown},
    {CAIF_HAND_OVER, FIELDS(.place = CAIF_NONE), RECORD(0x03, 0x0E, 0x10), .alters = yielded},
};

/* After the hand overs: an end that identity 3 logs, a link that it escrows for itself and that names the end, and one
 * that names its own handle. Chains are accepted, and refused with each of their numbers. They alter nothing. */
static const struct step chains[] = {
    {CAIF_CHAIN, FIELDS(.place = CAIF_WAY_LOGGED, .identity = 3, .number = END_TAG), BYTES(1, 0, 1),
     RECORD(0x67, 0x0F, 2, ID_3, END_TAG_BYTES, 3, 0, 1, 0, 1), .code = CAIF_NONE_RUNS, .alters = nothing},
    {CAIF_HAND_OVER, FIELDS(.place = 2), RECORD(0x03, 0x0E, 2), .alters = started_2},
    {CAIF_CHAIN, FIELDS(.place = CAIF_WAY_LOGGED, .identity = 3, .number = END_TAG), BYTES(1, 0, 1),
     RECORD(0x67, 0x0F, 2, ID_3, END_TAG_BYTES, 3, 0, 1, 0, 1), .code = CAIF_NO_LINK, .alters = nothing},
    {CAIF_HEAP_WRITE, FIELDS(.place = 2), BYTES(1), RECORD(0x4B, 0x05, 2, 0, 0, 1, 0, 1), .number = 1,
     .alters = end_written},
    {CAIF_ATTEST, FIELDS(.length = 1), RECORD(0x19, 0x09, 0, 0, 1, 0), .number = END_TAG, .alters = end_attested},
    {CAIF_CHAIN, FIELDS(.place = CAIF_WAY_LOGGED, .identity = 3, .number = END_TAG), BYTES(1, 0, 1),
     RECORD(0x67, 0x0F, 2, ID_3, END_TAG_BYTES, 3, 0, 1, 0, 1), .number = 1, .alters = nothing},
    {CAIF_HEAP_WRITE, FIELDS(.place = 2), BYTES(2, ID_3, END_TAG_BYTES),
     RECORD(0x4B, 0x05, 2, 0, 0, 0x11, 0, 2, ID_3, END_TAG_BYTES), .number = 17, .alters = link_written},
    {CAIF_PROTECT, FIELDS(.identity = 3, .length = 17, .number = 9),
     RECORD(0x3D, 0x0B, ID_3, 0, 0, 0x11, 0, 9, 0, 0, 0, 0, 0, 0, 0), .number = LINK, .alters = link_protected},
    {CAIF_CHAIN, FIELDS(.place = CAIF_WAY_ESCROWED, .identity = 3, .number = LINK), BYTES(1, 0, 1),
     RECORD(0x67, 0x0F, 3, ID_3, LINK_BYTES, 3, 0, 1, 0, 1), .number = 2, .alters = nothing},
    {CAIF_CHAIN, FIELDS(.place = CAIF_WAY_ESCROWED, .identity = 3, .number = LINK),
     RECORD(0x67, 0x0F, 3, ID_3, LINK_BYTES, 0, 0), .code = CAIF_BAD_CHAIN, .alters = nothing},
    {CAIF_CHAIN, FIELDS(.place = CAIF_WAY_ESCROWED, .identity = 3, .number = LINK), BYTES(1, 0),
     RECORD(0x67, 0x0F, 3, ID_3, LINK_BYTES, 2, 0, 1, 0), .code = CAIF_BAD_CHAIN, .alters = nothing},
    {CAIF_CHAIN, FIELDS(.place = CAIF_WAY_ESCROWED, .identity = 3, .number = LINK), BYTES(1, 0, 1, 0),
     RECORD(0x67, 0x0F, 3, ID_3, LINK_BYTES, 4, 0, 1, 0, 1, 0), .code = CAIF_BAD_CHAIN, .alters = nothing},
    {CAIF_CHAIN, FIELDS(.place = CAIF_WAY_ESCROWED, .number = LINK), BYTES(1, 0, 1),
     RECORD(0x67, 0x0F, 3, ID_0, LINK_BYTES, 3, 0, 1, 0, 1), .code = CAIF_IDENTITY_ZERO, .alters = nothing},
    {CAIF_CHAIN, FIELDS(.place = CAIF_WAY_END, .identity = 3, .number = LINK), BYTES(1, 0, 1),
     RECORD(0x67, 0x0F, 1, ID_3, LINK_BYTES, 3, 0, 1, 0, 1), .code = CAIF_BAD_CHAIN, .alters = nothing},
    {CAIF_CHAIN, FIELDS(.place = CAIF_WAY_ESCROWED, .identity = 3, .number = OWN), BYTES(1, 0, 1),
     RECORD(0x67, 0x0F, 3, ID_3, OWN_BYTES, 3, 0, 1, 0, 1), .code = CAIF_NO_LINK, .alters = nothing},
    {CAIF_HEAP_WRITE, FIELDS(.place = 2), BYTES(3, ID_3, OWN_BYTES),
     RECORD(0x4B, 0x05, 2, 0, 0, 0x11, 0, 3, ID_3, OWN_BYTES), .number = 17, .alters = own_written},
    {CAIF_PROTECT, FIELDS(.identity = 3, .length = 17, .number = 10),
     RECORD(0x3D, 0x0B, ID_3, 0, 0, 0x11, 0, 0x0A, 0, 0, 0, 0, 0, 0, 0), .number = OWN, .alters = own_protected},
    {CAIF_CHAIN, FIELDS(.place = CAIF_WAY_ESCROWED, .identity = 3, .number = OWN),
     RECORD(0x67, 0x0F, 3, ID_3, OWN_BYTES, 0, 0), .code = CAIF_LONG_CHAIN, .alters = nothing},
    {CAIF_HAND_OVER, FIELDS(.place = 15), RECORD(0x03, 0x0E, 0x0F), .alters = started_15},
    {CAIF_CHAIN, FIELDS(.place = CAIF_WAY_ESCROWED, .identity = 3, .number = LINK), BYTES(1, 0, 1),
     RECORD(0x67, 0x0F, 3, ID_3, LINK_BYTES, 3, 0, 1, 0, 1), .code = CAIF_NO_LINK, .alters = nothing},
    {CAIF_CHAIN, FIELDS(.place = CAIF_WAY_LOGGED, .identity = 3, .number = END_TAG), BYTES(1, 0, 1),
     RECORD(0x67, 0x0F, 2, ID_3, END_TAG_BYTES, 3, 0, 1, 0, 1), .number = 1, .alters = nothing},
    {CAIF_HAND_OVER, FIELDS(.place = CAIF_NONE), RECORD(0x03, 0x0E, 0x10), .alters = yielded},
};

/* After the chains: identity 3 gives up its first value, between another's and its second, which moves down; then that one,
 * behind it; then identity 4 what 3 protects for it. The spent rows stay, and their handles are not given again. */
static const struct step releases[] = {
    {CAIF_RELEASE, FIELDS(.identity = 3, .number = LINK), RECORD(0x25, 0x10, ID_3, LINK_BYTES), .code = CAIF_NONE_RUNS,
     .alters = nothing},
    {CAIF_HAND_OVER, FIELDS(.place = 15), RECORD(0x03, 0x0E, 0x0F), .alters = started_15},
    {CAIF_RELEASE, FIELDS(.identity = 3, .number = LINK), RECORD(0x25, 0x10, ID_3, LINK_BYTES), .code = CAIF_NO_ROW,
     .alters = nothing},
    {CAIF_HAND_OVER, FIELDS(.place = 2), RECORD(0x03, 0x0E, 2), .alters = started_2},
    {CAIF_RELEASE, FIELDS(.number = LINK), RECORD(0x25, 0x10, ID_0, LINK_BYTES), .code = CAIF_IDENTITY_ZERO,
     .alters = nothing},
    {CAIF_RELEASE, FIELDS(.identity = 1, .number = HANDLE),
     RECORD(0x25, 0x10, 1, 0, 0, 0, 0, 0, 0, 0, 7, 0, 0, 0, 0, 0, 1, 0), .code = CAIF_NO_ROW, .alters = nothing},
    {CAIF_RELEASE, FIELDS(.identity = 3, .number = LINK), RECORD(0x25, 0x10, ID_3, LINK_BYTES), .alters = link_released},
    {CAIF_RELEASE, FIELDS(.identity = 3, .number = LINK), RECORD(0x25, 0x10, ID_3, LINK_BYTES), .code = CAIF_NO_ROW,
     .alters = nothing},
    {CAIF_RETRIEVE, FIELDS(.identity = 3, .number = LINK), RECORD(0x2D, 0x0C, ID_3, 0, 0, LINK_BYTES),
     .code = CAIF_NO_ROW, .alters = nothing},
    {CAIF_CHAIN, FIELDS(.place = CAIF_WAY_ESCROWED, .identity = 3, .number = LINK), BYTES(1, 0, 1),
     RECORD(0x67, 0x0F, 3, ID_3, LINK_BYTES, 3, 0, 1, 0, 1), .code = CAIF_NO_LINK, .alters = nothing},
    {CAIF_RETRIEVE, FIELDS(.identity = 3, .offset = 100, .number = OWN), RECORD(0x2D, 0x0C, ID_3, 100, 0, OWN_BYTES),
     .number = 17, .alters = own_retrieved},
    {CAIF_RELEASE, FIELDS(.identity = 3, .number = OWN), RECORD(0x25, 0x10, ID_3, OWN_BYTES), .alters = own_released},
    {CAIF_PROTECT, FIELDS(.identity = 4, .length = 17, .number = 9),
     RECORD(0x3D, 0x0B, 4, 0, 0, 0, 0, 0, 0, 0, 0, 0, 0x11, 0, 9, 0, 0, 0, 0, 0, 0, 0), .number = AFTER_LINK,
     .alters = protected_again},
    {CAIF_RELEASE, FIELDS(.identity = 3, .number = AFTER_LINK), RECORD(0x25, 0x10, ID_3, AFTER_LINK_BYTES),
     .code = CAIF_NO_ROW, .alters = nothing},
    {CAIF_HAND_OVER, FIELDS(.place = 15), RECORD(0x03, 0x0E, 0x0F), .alters = started_15},
    {CAIF_RELEASE, FIELDS(.identity = 3, .number = AFTER_LINK), RECORD(0x25, 0x10, ID_3, AFTER_LINK_BYTES),
     .alters = others_released},
    {CAIF_REPORT, FIELDS(.place = 0), RECORD(0x01, 0x0D), .number = 262658, .alters = nothing},
};

#define COUNT(table) (sizeof(table) / sizeof *(table))

/* The writer gives the record and alters nothing behind it. */
static void check_written(const struct step *step, const char *label)
{
    uint8_t out[64], wanted[64];
    memset(out, 0xCC, sizeof out);
    memset(wanted, 0xCC, sizeof wanted);
    memcpy(wanted, step->record, step->length);
    struct caif_written written =
        caif_write(step->kind, step->fields, step->bytes, step->bytes_size, out, sizeof out);
    check(written.code == CAIF_ACCEPTED, label, "the writer's code");
    check(written.length == step->length, label, "the record's length");
    check(memcmp(out, wanted, sizeof out) == 0, label, "the record's bytes");
}

static void check_steps(struct host *host, const struct step *steps, size_t count, const char *name)
{
    for (size_t n = 0; n < count; n++) {
        char label[64];
        static struct host wanted;
        snprintf(label, sizeof label, "%s, step %zu", name, n + 1);
        check_written(&steps[n], label);
        wanted = *host;
        steps[n].alters(&wanted);
        struct caif_answer answer = {steps[n].code, steps[n].number, steps[n].length, steps[n].shown};
        check_call_lent(host, &right_sizes, steps[n].record, steps[n].length, answer, &wanted, label);
        struct caif_reply reply = call(host, &right_sizes, steps[n].record, steps[n].length);
        check_reply(&reply, steps[n].code, steps[n].number, steps[n].length, steps[n].shown, label);
        check_host(host, &wanted, label);
    }
}

void run_example(struct host *host)
{
    make_fresh(host);
    for (size_t n = 0; n < COUNT(example); n++)
        call(host, &right_sizes, example[n].record, example[n].length);
}

/* A chain with 65,535 bytes fills a buffer of CAIF_RECORD to the last byte, and one byte fewer is too short. Its record
 * cut by a byte, and cut behind its count, tells what is missing. A check of as many bytes is a byte shorter. */
static void check_longest(void)
{
    static uint8_t bytes[65535], out[CAIF_RECORD];
    struct caif_fields fields = {.place = CAIF_WAY_LOGGED, .identity = 1, .number = 2};
    memset(bytes, 0x5A, sizeof bytes);
    struct caif_written written = caif_write(CAIF_CHAIN, fields, bytes, sizeof bytes, out, CAIF_RECORD - 1);
    check(written.code == CAIF_NO_ROOM && written.length == 0, "the longest record", "one byte too few");
    written = caif_write(CAIF_CHAIN, fields, bytes, sizeof bytes, out, CAIF_RECORD);
    check(written.code == CAIF_ACCEPTED && written.length == CAIF_RECORD, "the longest record", "code and length");
    check(out[0] == 0x67 && out[1] == 15 && out[2] == 2, "the longest record", "front");
    check(out[19] == 0xFF && out[20] == 0xFF, "the longest record", "count");
    check(memcmp(out + 21, bytes, sizeof bytes) == 0, "the longest record", "bytes");
    static struct host host;
    make_fresh(&host);
    struct caif_reply reply = call(&host, &right_sizes, out, CAIF_RECORD);
    check_reply(&reply, CAIF_NONE_RUNS, 0, CAIF_RECORD, 0, "the longest record");
    reply = call(&host, &right_sizes, out, CAIF_RECORD - 1);
    check_reply(&reply, CAIF_CUT, 1, 0, 0, "the longest record cut by a byte");
    reply = call(&host, &right_sizes, out, 21);
    check_reply(&reply, CAIF_CUT, 65535, 0, 0, "the longest record cut behind its count");
    written = caif_write(CAIF_CHECK, fields, bytes, sizeof bytes, out, CAIF_RECORD - 1);
    check(written.code == CAIF_ACCEPTED && written.length == CAIF_RECORD - 1, "the longest check", "code and length");
    reply = call(&host, &right_sizes, out, CAIF_RECORD - 1);
    check_reply(&reply, CAIF_ACCEPTED, 0, CAIF_RECORD - 1, 0, "the longest check");
}

void check_calls(void)
{
    check_longest();
    static struct host host, zeros;
    make_fresh(&host);
    memset(&zeros, 0, sizeof zeros);
    memset(zeros.output, 0xEE, sizeof zeros.output);
    zeros.held.running = 16;
    check_host(&host, &zeros, "a fresh box");
    check_steps(&host, example, COUNT(example), "the example");
    check_steps(&host, other_kinds, COUNT(other_kinds), "other kinds");
    check_steps(&host, hand_overs, COUNT(hand_overs), "hand overs");
    check_steps(&host, chains, COUNT(chains), "chains");
    check_steps(&host, releases, COUNT(releases), "releases");
}
