/* The level-one entry beside the full one, on the same boxes: 21, 22 and 23, each with its neighbours in the order, and
 * the full box's answers and states everywhere else. Every box is written by hand. */
#include "host.h"

#define ID(n) (n), 0, 0, 0, 0, 0, 0, 0 /* a field of 8 bytes */
#define SHORT(n) (n) % 256, (n) / 256  /* one of 2 */

/* FNV-1a of identity and value. */
#define TAG_1_A 5952190651599004191u
#define TAG_1_B 5952191751110632402u
#define TAG_1_AB 5911830792620925959u
#define TAG_1_NONE 9929646806074584996u
#define TAG_2_A 925889899717361906u
#define TAG_2_B 925888800205733695u
#define TAG_3_A 8750098903441519813u
#define TAG_3_B 8750095604906635180u
#define TAG_1_A_BYTES 0x1F, 0xA2, 0xF5, 0x8F, 0xDC, 0x6D, 0x9A, 0x52

#define HANDLE_7 CAIF_DRAWS + 7        /* of length 1 */
#define HANDLE_9 CAIF_DRAWS + 9        /* of length 1 */
#define HANDLE_10 17 * CAIF_DRAWS + 10 /* of length 17 */
#define HANDLE_7_BYTES 7, 0, 0, 0, 0, 0, 1, 0
#define HANDLE_8_BYTES 8, 0, 0, 0, 0, 0, 1, 0
#define HANDLE_10_BYTES 10, 0, 0, 0, 0, 0, 17, 0
#define DRAW_LIMIT_BYTES 0, 0, 0, 0, 0, 0, 1, 0

typedef struct caif_reply entry(struct host *, const struct sizes *, const uint8_t *, size_t);

/* A call: its record, its code through each entry, and where that is 0 the number, the bytes shown and what is
 * altered. All of the record is used. */
struct step {
    const char *label;
    uint8_t record[32];
    size_t length;
    uint8_t level_one, full;
    uint64_t number;
    uint16_t shown;
    void (*alters)(struct host *);
};

#define RECORD(...) {__VA_ARGS__}, sizeof((uint8_t[]){__VA_ARGS__})
#define CODES(by_level_one, by_full) .level_one = by_level_one, .full = by_full
#define COUNT(table) (sizeof(table) / sizeof *(table))

/* The call through one entry, with a byte behind its record or none. */
static void check_entry(entry *by, struct host *host, const struct step *step, uint8_t code, bool followed)
{
    static struct host wanted;
    char label[96];
    uint8_t bytes[sizeof step->record + 1];
    bool accepted = code == CAIF_ACCEPTED;
    snprintf(label, sizeof label, "%s, %s%s", by == call ? "full" : "level one", step->label,
             followed ? ", followed" : "");
    memset(bytes, 0xFF, sizeof bytes);
    memcpy(bytes, step->record, step->length);
    wanted = *host;
    if (accepted && step->alters)
        step->alters(&wanted);
    struct caif_reply reply = by(host, &right_sizes, bytes, step->length + followed);
    check_reply(&reply, code, accepted ? step->number : 0, step->length, accepted ? step->shown : 0, label);
    check_host(host, &wanted, label);
}

/* The steps one after the other, each through both entries. The box goes on as level one leaves it. */
static void check_steps(struct host *host, const struct step *steps, size_t count)
{
    for (size_t n = 0; n < count; n++) {
        static struct host copy;
        const struct step *step = &steps[n];
        copy = *host;
        check_entry(call, &copy, step, step->full, false);
        copy = *host;
        check_entry(call, &copy, step, step->full, true);
        copy = *host;
        check_entry(call_level_one, &copy, step, step->level_one, true);
        check_entry(call_level_one, host, step, step->level_one, false);
    }
}

/* Both entries refuse these bytes with this code and number, no byte used. */
static void refused(const struct host *host, const struct sizes *sizes, const uint8_t *bytes, size_t count,
                    uint8_t code, uint64_t number, const char *label)
{
    static struct host copy;
    entry *entries[] = {call, call_level_one};
    for (size_t n = 0; n < 2; n++) {
        copy = *host;
        struct caif_reply reply = entries[n](&copy, sizes, bytes, count);
        check_reply(&reply, code, number, 0, 0, label);
        check_host(&copy, host, label);
    }
}

static void takes(struct host *host, uint8_t place, uint64_t identity)
{
    host->held.taken |= 1 << place;
    host->held.identities[place] = identity;
}

static uint64_t tag_of(uint64_t identity, const uint8_t *value, size_t length)
{
    uint64_t tag = 14695981039346656037u;
    for (size_t n = 0; n < 8 + length; n++)
        tag = (tag ^ (n < 8 ? identity >> 8 * n & 0xFF : value[n - 8])) * 1099511628211u;
    return tag;
}

static void logs(struct host *host, uint64_t identity, const char *value, uint16_t length)
{
    struct caif_used *used = &host->held.log;
    uint64_t tag = tag_of(identity, (const uint8_t *)value, length);
    host->log[used->rows++] =
        (struct caif_log_row){.identity = identity, .tag = tag, .first = used->bytes, .length = length};
    memcpy(host->log_values + used->bytes, value, length);
    used->bytes += length;
}

static void escrows(struct host *host, uint64_t source, uint64_t handle, const uint8_t *value, uint16_t length)
{
    struct caif_used *used = &host->held.escrow;
    host->escrow[used->rows++] = (struct caif_escrow_row){
        .source = source, .recipient = 1, .handle = handle, .first = used->bytes, .length = length};
    memcpy(host->escrow_values + used->bytes, value, length);
    used->bytes += length;
}

/* Identities 1, 2 and 3 in places 0, 1 and 5; "AAB" at the front of each heap. None runs. */
static void make_services(struct host *host)
{
    make_fresh(host);
    takes(host, 0, 1);
    takes(host, 1, 2);
    takes(host, 5, 3);
    memcpy(host->heaps, "AAB", 3);
    memcpy(host->heaps + 256, "AAB", 3);
    memcpy(host->heaps + 5 * 256, "AAB", 3);
}

/* What the accepted calls alter. */
static void runs_0(struct host *host) { host->held.running = 0; }
static void runs_1(struct host *host) { host->held.running = 1; }
static void runs_3(struct host *host) { host->held.running = 3; }
static void runs_5(struct host *host) { host->held.running = 5; }
static void none_runs(struct host *host) { host->held.running = CAIF_NONE; }
static void takes_2(struct host *host) { takes(host, 2, 4); }
static void takes_3(struct host *host) { takes(host, 3, 4); }
static void takes_4(struct host *host) { takes(host, 4, 4); }
static void takes_5(struct host *host) { takes(host, 5, 4); }
static void takes_15(struct host *host) { takes(host, 15, 4); }
static void escrows_a(struct host *host) { escrows(host, 1, HANDLE_9, (const uint8_t *)"A", 1); }
static void retrieves(struct host *host) { host->heaps[4] = 1; }
static void logs_a(struct host *host) { logs(host, 1, "A", 1); }

/* The first of the two values is released, and the second moves down. */
static void releases(struct host *host)
{
    host->escrow[0].length = 0;
    host->escrow[0].mark = 1;
    host->escrow[1].first = 0;
    memmove(host->escrow_values, host->escrow_values + 1, 17);
    host->escrow_values[17] = 0;
    host->held.escrow.bytes = 17;
}

static void logs_b(struct host *host) { logs(host, 1, "B", 1); }
static void logs_ab(struct host *host) { logs(host, 1, "AB", 2); }
static void logs_none(struct host *host) { logs(host, 1, "", 0); }
static void logs_b_by_2(struct host *host) { logs(host, 2, "B", 1); }
static void logs_a_by_3(struct host *host) { logs(host, 3, "A", 1); }
static void logs_b_by_3(struct host *host) { logs(host, 3, "B", 1); }
static void writes_0(struct host *host) { host->heaps[3] = 0x43; }
static void writes_5(struct host *host) { host->heaps[5 * 256 + 3] = 0x43; }
static void shows_0(struct host *host) { memcpy(host->output, "ABC", 3); }
static void writes_shared(struct host *host) { host->shared[1023] = 0x44; }
static void shows_shared(struct host *host) { memcpy(host->output, "\0D", 2); }

static void exits_0(struct host *host)
{
    host->held.taken &= ~1;
    host->held.identities[0] = 0;
    host->held.running = CAIF_NONE;
    memset(host->heaps, 0, 256);
}

static void exits_5(struct host *host)
{
    host->held.taken &= ~(1 << 5);
    host->held.identities[5] = 0;
    host->held.running = CAIF_NONE;
    memset(host->heaps + 5 * 256, 0, 256);
}

#define PROTECT(identity, offset, length, ...) \
    RECORD(0x3D, 0x0B, ID(identity), SHORT(offset), SHORT(length), __VA_ARGS__)
#define RETRIEVE(identity, offset, ...) RECORD(0x2D, 0x0C, ID(identity), SHORT(offset), __VA_ARGS__)
#define RELEASE(identity, ...) RECORD(0x25, 0x10, ID(identity), __VA_ARGS__)
#define CREATE(place, identity) RECORD(0x07, 0x01, (place), ID(identity))
#define HAND_OVER(place) RECORD(0x03, 0x0E, (place))
#define ATTEST(offset, length) RECORD(0x19, 0x09, SHORT(offset), SHORT(length))
#define REPORT RECORD(0x01, 0x0D)
#define EXIT RECORD(0x01, 0x04)

/* Before 4. */
static const struct step escrow_while_none_runs[] = {
    {"protect", PROTECT(2, 0, 1, ID(9)), CODES(CAIF_NO_ESCROW, CAIF_NONE_RUNS)},
    {"protect for identity 0", PROTECT(0, 0, 1, ID(9)), CODES(CAIF_NO_ESCROW, CAIF_NONE_RUNS)},
    {"protect beyond, with a draw of 2^48", PROTECT(0, 256, 1, DRAW_LIMIT_BYTES),
     CODES(CAIF_NO_ESCROW, CAIF_NONE_RUNS)},
    {"retrieve", RETRIEVE(2, 0, HANDLE_7_BYTES), CODES(CAIF_NO_ESCROW, CAIF_NONE_RUNS)},
    {"retrieve from identity 0", RETRIEVE(0, 0, HANDLE_7_BYTES), CODES(CAIF_NO_ESCROW, CAIF_NONE_RUNS)},
    {"chain", RECORD(0x67, 0x0F, 3, ID(2), HANDLE_7_BYTES, SHORT(0)), CODES(CAIF_NO_ESCROW, CAIF_NONE_RUNS)},
    {"chain by no way", RECORD(0x67, 0x0F, 0, ID(0), ID(0), SHORT(0)), CODES(CAIF_NO_ESCROW, CAIF_NONE_RUNS)},
    {"release", RELEASE(2, HANDLE_7_BYTES), CODES(CAIF_NO_ESCROW, CAIF_NONE_RUNS)},
    {"release from identity 0", RELEASE(0, HANDLE_7_BYTES), CODES(CAIF_NO_ESCROW, CAIF_NONE_RUNS)},
    {"exit", EXIT, CODES(CAIF_NONE_RUNS, CAIF_NONE_RUNS)},
    {"attest", ATTEST(0, 1), CODES(CAIF_NONE_RUNS, CAIF_NONE_RUNS)},
    {"report", REPORT, CODES(CAIF_ACCEPTED, CAIF_ACCEPTED), .number = 3 + 65536 * 2},
    {"hand over to 0", HAND_OVER(0), CODES(CAIF_ACCEPTED, CAIF_ACCEPTED), .alters = runs_0},
};

/* Before every other number. */
static const struct step escrow_while_one_runs[] = {
    {"protect", PROTECT(1, 0, 1, ID(9)), CODES(CAIF_NO_ESCROW, CAIF_ACCEPTED), .number = HANDLE_9, .alters = escrows_a},
    {"protect for identity 0", PROTECT(0, 0, 1, ID(9)), CODES(CAIF_NO_ESCROW, CAIF_IDENTITY_ZERO)},
    {"protect beyond", PROTECT(2, 256, 1, ID(9)), CODES(CAIF_NO_ESCROW, CAIF_BEYOND)},
    {"protect with a draw of 2^48", PROTECT(2, 0, 1, DRAW_LIMIT_BYTES), CODES(CAIF_NO_ESCROW, CAIF_DRAW)},
    {"protect with all of these", PROTECT(0, 256, 1, DRAW_LIMIT_BYTES), CODES(CAIF_NO_ESCROW, CAIF_IDENTITY_ZERO)},
    {"retrieve", RETRIEVE(2, 4, HANDLE_7_BYTES), CODES(CAIF_NO_ESCROW, CAIF_ACCEPTED),
     .number = 1, .alters = retrieves},
    {"retrieve from identity 0", RETRIEVE(0, 4, HANDLE_7_BYTES), CODES(CAIF_NO_ESCROW, CAIF_IDENTITY_ZERO)},
    {"retrieve of no row", RETRIEVE(2, 4, HANDLE_8_BYTES), CODES(CAIF_NO_ESCROW, CAIF_NO_ROW)},
    {"retrieve beyond", RETRIEVE(2, 256, HANDLE_7_BYTES), CODES(CAIF_NO_ESCROW, CAIF_BEYOND)},
    {"chain of a link", RECORD(0x67, 0x0F, 3, ID(2), HANDLE_7_BYTES, SHORT(0)), CODES(CAIF_NO_ESCROW, CAIF_ACCEPTED),
     .number = 1},
    {"chain from identity 0", RECORD(0x67, 0x0F, 3, ID(0), HANDLE_7_BYTES, SHORT(0)),
     CODES(CAIF_NO_ESCROW, CAIF_IDENTITY_ZERO)},
    {"chain of no row", RECORD(0x67, 0x0F, 3, ID(2), HANDLE_8_BYTES, SHORT(0)), CODES(CAIF_NO_ESCROW, CAIF_NO_LINK)},
    {"chain by way 1", RECORD(0x67, 0x0F, 1, ID(2), HANDLE_7_BYTES, SHORT(0)), CODES(CAIF_NO_ESCROW, CAIF_BAD_CHAIN)},
    {"chain with bytes left", RECORD(0x67, 0x0F, 3, ID(2), HANDLE_7_BYTES, SHORT(1), 0),
     CODES(CAIF_NO_ESCROW, CAIF_BAD_CHAIN)},
    {"chain back on itself", RECORD(0x67, 0x0F, 3, ID(2), HANDLE_10_BYTES, SHORT(0)),
     CODES(CAIF_NO_ESCROW, CAIF_LONG_CHAIN)},
    {"chain of a logged link", RECORD(0x67, 0x0F, 2, ID(1), TAG_1_A_BYTES, SHORT(3), 1, 0, 0x41),
     CODES(CAIF_NO_ESCROW, CAIF_NO_LINK)},
    {"release", RELEASE(2, HANDLE_7_BYTES), CODES(CAIF_NO_ESCROW, CAIF_ACCEPTED), .alters = releases},
    {"release from identity 0", RELEASE(0, HANDLE_7_BYTES), CODES(CAIF_NO_ESCROW, CAIF_IDENTITY_ZERO)},
    {"release of no row", RELEASE(2, HANDLE_8_BYTES), CODES(CAIF_NO_ESCROW, CAIF_NO_ROW)},
};

/* The first of the two values was released. */
static const struct step spent_row[] = {
    {"release of a spent row", RELEASE(2, HANDLE_7_BYTES), CODES(CAIF_NO_ESCROW, CAIF_NO_ROW)},
    {"retrieve of a spent row", RETRIEVE(2, 4, HANDLE_7_BYTES), CODES(CAIF_NO_ESCROW, CAIF_NO_ROW)},
    {"chain of a spent row", RECORD(0x67, 0x0F, 3, ID(2), HANDLE_7_BYTES, SHORT(0)),
     CODES(CAIF_NO_ESCROW, CAIF_NO_LINK)},
    {"chain beside a spent row", RECORD(0x67, 0x0F, 3, ID(2), HANDLE_10_BYTES, SHORT(0)),
     CODES(CAIF_NO_ESCROW, CAIF_LONG_CHAIN)},
    {"report of a spent row", REPORT, CODES(CAIF_ACCEPTED, CAIF_ACCEPTED), .number = 3 + 65536 * 2},
};

/* The kinds that have no number of level one's. */
static const struct step other_kinds[] = {
    {"heap write", RECORD(0x4B, 0x05, 0, SHORT(3), SHORT(1), 0x43), CODES(CAIF_ACCEPTED, CAIF_ACCEPTED),
     .number = 1, .alters = writes_0},
    {"heap read", RECORD(0x1B, 0x06, 0, SHORT(1), SHORT(3)), CODES(CAIF_ACCEPTED, CAIF_ACCEPTED),
     .number = 3, .shown = 3, .alters = shows_0},
    {"shared write", RECORD(0x49, 0x07, SHORT(1023), SHORT(1), 0x44), CODES(CAIF_ACCEPTED, CAIF_ACCEPTED),
     .number = 1, .alters = writes_shared},
    {"shared read", RECORD(0x19, 0x08, SHORT(1022), SHORT(2)), CODES(CAIF_ACCEPTED, CAIF_ACCEPTED),
     .number = 2, .shown = 2, .alters = shows_shared},
    {"heap write to 5", RECORD(0x4B, 0x05, 5, SHORT(3), SHORT(1), 0x43), CODES(CAIF_NOT_RUNNING, CAIF_NOT_RUNNING)},
    {"heap write to 16", RECORD(0x4B, 0x05, 16, SHORT(3), SHORT(1), 0x43), CODES(CAIF_NO_PLACE, CAIF_NO_PLACE)},
    {"heap read beyond", RECORD(0x1B, 0x06, 0, SHORT(256), SHORT(1)), CODES(CAIF_BEYOND, CAIF_BEYOND)},
    {"shared read beyond", RECORD(0x19, 0x08, SHORT(1024), SHORT(1)), CODES(CAIF_BEYOND, CAIF_BEYOND)},
    {"check of nothing logged", RECORD(0x65, 0x0A, ID(1), TAG_1_A_BYTES, SHORT(1), 0x41),
     CODES(CAIF_ACCEPTED, CAIF_ACCEPTED), .number = 0},
    {"attest", ATTEST(0, 1), CODES(CAIF_ACCEPTED, CAIF_ACCEPTED), .number = TAG_1_A, .alters = logs_a},
    {"check", RECORD(0x65, 0x0A, ID(1), TAG_1_A_BYTES, SHORT(1), 0x41), CODES(CAIF_ACCEPTED, CAIF_ACCEPTED),
     .number = 1},
    {"check of identity 0", RECORD(0x65, 0x0A, ID(0), TAG_1_A_BYTES, SHORT(1), 0x41),
     CODES(CAIF_IDENTITY_ZERO, CAIF_IDENTITY_ZERO)},
    {"report", REPORT, CODES(CAIF_ACCEPTED, CAIF_ACCEPTED), .number = 3 + 256 + 65536 * 2},
    {"exit", EXIT, CODES(CAIF_ACCEPTED, CAIF_ACCEPTED), .alters = exits_0},
    {"hand over to 0, emptied", HAND_OVER(0), CODES(CAIF_PLACE_STATE, CAIF_PLACE_STATE)},
};

/* A value that ends a chain, and one that names its own handle. */
static void make_escrow(struct host *host)
{
    make_services(host);
    escrows(host, 2, HANDLE_7, (const uint8_t[]){1}, 1);
    escrows(host, 2, HANDLE_10, (const uint8_t[]){3, ID(2), HANDLE_10_BYTES}, 17);
}

static void check_escrow(void)
{
    static struct host host;
    static const struct step full[] = {
        {"protect in a full escrow", PROTECT(2, 0, 0, ID(70)), CODES(CAIF_NO_ESCROW, CAIF_ESCROW_FULL)},
        {"retrieve in a full escrow", RETRIEVE(2, 256, ID(63)), CODES(CAIF_NO_ESCROW, CAIF_ACCEPTED), .number = 0},
    };
    make_escrow(&host);
    check_steps(&host, escrow_while_none_runs, COUNT(escrow_while_none_runs));
    check_steps(&host, escrow_while_one_runs, COUNT(escrow_while_one_runs));
    check_steps(&host, other_kinds, COUNT(other_kinds));
    make_escrow(&host);
    runs_0(&host);
    releases(&host);
    check_steps(&host, spent_row, COUNT(spent_row));
    make_services(&host);
    runs_0(&host);
    for (uint64_t draw = 0; draw < CAIF_ESCROW_ROWS; draw++)
        escrows(&host, 2, draw, (const uint8_t *)"", 0);
    check_steps(&host, full, COUNT(full));
}

/* After 6 and before 7, so before 9 too. */
static const struct step creates[] = {
    {"create at 4", CREATE(4, 4), CODES(CAIF_HIGH_PLACE, CAIF_ACCEPTED), .number = 4, .alters = takes_4},
    {"create at 4 of identity 0", CREATE(4, 0), CODES(CAIF_HIGH_PLACE, CAIF_IDENTITY_ZERO)},
    {"create at 5, taken", CREATE(5, 4), CODES(CAIF_HIGH_PLACE, CAIF_PLACE_STATE)},
    {"create at 5, taken, of identity 0", CREATE(5, 0), CODES(CAIF_HIGH_PLACE, CAIF_PLACE_STATE)},
    {"create at 15", CREATE(15, 4), CODES(CAIF_HIGH_PLACE, CAIF_ACCEPTED), .number = 15, .alters = takes_15},
    {"create at 16", CREATE(16, 4), CODES(CAIF_NO_PLACE, CAIF_NO_PLACE)},
    {"create at 16 of identity 0", CREATE(16, 0), CODES(CAIF_NO_PLACE, CAIF_NO_PLACE)},
    {"create at 255", CREATE(255, 4), CODES(CAIF_NO_PLACE, CAIF_NO_PLACE)},
    {"create at 0, taken", CREATE(0, 4), CODES(CAIF_PLACE_STATE, CAIF_PLACE_STATE)},
    {"create at 0, taken, of identity 0", CREATE(0, 0), CODES(CAIF_PLACE_STATE, CAIF_PLACE_STATE)},
    {"create at 3 of identity 0", CREATE(3, 0), CODES(CAIF_IDENTITY_ZERO, CAIF_IDENTITY_ZERO)},
    {"create at 3", CREATE(3, 4), CODES(CAIF_ACCEPTED, CAIF_ACCEPTED), .number = 3, .alters = takes_3},
    {"create at 3 again", CREATE(3, 4), CODES(CAIF_PLACE_STATE, CAIF_PLACE_STATE)},
    {"create at 2", CREATE(2, 4), CODES(CAIF_ACCEPTED, CAIF_ACCEPTED), .number = 2, .alters = takes_2},
};

/* Place 16 only yields. */
static const struct step hand_overs[] = {
    {"hand over to 4, empty", HAND_OVER(4), CODES(CAIF_HIGH_PLACE, CAIF_PLACE_STATE)},
    {"hand over to 5, taken", HAND_OVER(5), CODES(CAIF_HIGH_PLACE, CAIF_ACCEPTED), .alters = runs_5},
    {"hand over to 15", HAND_OVER(15), CODES(CAIF_HIGH_PLACE, CAIF_PLACE_STATE)},
    {"hand over to 17", HAND_OVER(17), CODES(CAIF_NO_PLACE, CAIF_NO_PLACE)},
    {"hand over to 255", HAND_OVER(255), CODES(CAIF_NO_PLACE, CAIF_NO_PLACE)},
    {"hand over to 16 while none runs", HAND_OVER(16), CODES(CAIF_ACCEPTED, CAIF_ACCEPTED)},
    {"hand over to 3", HAND_OVER(3), CODES(CAIF_ACCEPTED, CAIF_ACCEPTED), .alters = runs_3},
    {"hand over to 4 while 3 runs", HAND_OVER(4), CODES(CAIF_HIGH_PLACE, CAIF_PLACE_STATE)},
    {"hand over to 5 while 3 runs", HAND_OVER(5), CODES(CAIF_HIGH_PLACE, CAIF_ACCEPTED), .alters = runs_5},
    {"hand over to 17 while 3 runs", HAND_OVER(17), CODES(CAIF_NO_PLACE, CAIF_NO_PLACE)},
    {"hand over to 3, which runs", HAND_OVER(3), CODES(CAIF_ACCEPTED, CAIF_ACCEPTED)},
    {"hand over to 16", HAND_OVER(16), CODES(CAIF_ACCEPTED, CAIF_ACCEPTED), .alters = none_runs},
};

/* Place 5 runs: its own calls are the full box's. */
static const struct step high_place_runs[] = {
    {"hand over to 5, which runs", HAND_OVER(5), CODES(CAIF_HIGH_PLACE, CAIF_ACCEPTED)},
    {"create at 5, which runs", CREATE(5, 4), CODES(CAIF_HIGH_PLACE, CAIF_PLACE_STATE)},
    {"hand over to 4 while 5 runs", HAND_OVER(4), CODES(CAIF_HIGH_PLACE, CAIF_PLACE_STATE)},
    {"heap write to 5", RECORD(0x4B, 0x05, 5, SHORT(3), SHORT(1), 0x43), CODES(CAIF_ACCEPTED, CAIF_ACCEPTED),
     .number = 1, .alters = writes_5},
    {"heap read of 5", RECORD(0x1B, 0x06, 5, SHORT(1), SHORT(3)), CODES(CAIF_ACCEPTED, CAIF_ACCEPTED),
     .number = 3, .shown = 3, .alters = shows_0},
    {"heap write to 0", RECORD(0x4B, 0x05, 0, SHORT(3), SHORT(1), 0x43), CODES(CAIF_NOT_RUNNING, CAIF_NOT_RUNNING)},
    {"attest by 5", ATTEST(0, 1), CODES(CAIF_ACCEPTED, CAIF_ACCEPTED), .number = TAG_3_A, .alters = logs_a_by_3},
    {"attest by 5 again", ATTEST(1, 1), CODES(CAIF_ACCEPTED, CAIF_ACCEPTED), .number = TAG_3_A},
    {"attest by 5 of another", ATTEST(2, 1), CODES(CAIF_OTHER_VALUE, CAIF_ACCEPTED),
     .number = TAG_3_B, .alters = logs_b_by_3},
    {"exit of 5", EXIT, CODES(CAIF_ACCEPTED, CAIF_ACCEPTED), .alters = exits_5},
    {"hand over to 5, emptied", HAND_OVER(5), CODES(CAIF_HIGH_PLACE, CAIF_PLACE_STATE)},
    {"create at 5, emptied", CREATE(5, 4), CODES(CAIF_HIGH_PLACE, CAIF_ACCEPTED), .number = 5, .alters = takes_5},
};

/* What a create and a hand over get beside services in places 0, 1 and 5. */
static uint8_t code_at(unsigned place, bool is_create)
{
    bool taken = place == 0 || place == 1;
    if (place == CAIF_NONE && !is_create)
        return CAIF_ACCEPTED;
    if (place >= CAIF_PLACES)
        return CAIF_NO_PLACE;
    if (place > 3)
        return CAIF_HIGH_PLACE;
    return taken == is_create ? CAIF_PLACE_STATE : CAIF_ACCEPTED;
}

/* Every place that a record can name. */
static void check_every_place(void)
{
    static struct host services, host;
    make_services(&services);
    for (unsigned place = 0; place < 256; place++) {
        uint8_t wanted = code_at(place, true);
        host = services;
        struct caif_reply reply =
            call_level_one(&host, &right_sizes, (const uint8_t[]){0x07, 0x01, place, ID(4)}, 11);
        check_reply(&reply, wanted, wanted == 0 ? place : 0, 11, 0, "create at every place");
        check((host.held.taken != services.held.taken) == (wanted == 0), "create at every place", "taken");
        wanted = code_at(place, false);
        host = services;
        reply = call_level_one(&host, &right_sizes, (const uint8_t[]){0x03, 0x0E, place}, 3);
        check_reply(&reply, wanted, 0, 3, 0, "hand over to every place");
        check(host.held.running == (wanted == 0 ? place : CAIF_NONE), "hand over to every place", "running");
    }
}

static void check_places(void)
{
    static struct host host;
    make_services(&host);
    check_steps(&host, creates, COUNT(creates));
    check_steps(&host, hand_overs, COUNT(hand_overs));
    make_services(&host);
    runs_5(&host);
    check_steps(&host, high_place_runs, COUNT(high_place_runs));
    check_every_place();
}

/* Place 0 runs, and identity 2 has logged "A". */
static const struct step attests[] = {
    {"attest beyond, nothing logged", ATTEST(256, 1), CODES(CAIF_BEYOND, CAIF_BEYOND)},
    {"attest of A", ATTEST(0, 1), CODES(CAIF_ACCEPTED, CAIF_ACCEPTED), .number = TAG_1_A, .alters = logs_a},
    {"attest of A again", ATTEST(0, 1), CODES(CAIF_ACCEPTED, CAIF_ACCEPTED), .number = TAG_1_A},
    {"attest of A from elsewhere", ATTEST(1, 1), CODES(CAIF_ACCEPTED, CAIF_ACCEPTED), .number = TAG_1_A},
    {"attest of B", ATTEST(2, 1), CODES(CAIF_OTHER_VALUE, CAIF_ACCEPTED), .number = TAG_1_B, .alters = logs_b},
    {"attest of AB", ATTEST(1, 2), CODES(CAIF_OTHER_VALUE, CAIF_ACCEPTED), .number = TAG_1_AB, .alters = logs_ab},
    {"attest of nothing", ATTEST(0, 0), CODES(CAIF_OTHER_VALUE, CAIF_ACCEPTED),
     .number = TAG_1_NONE, .alters = logs_none},
    {"attest of nothing at 256", ATTEST(256, 0), CODES(CAIF_OTHER_VALUE, CAIF_ACCEPTED),
     .number = TAG_1_NONE, .alters = logs_none},
    {"attest beyond", ATTEST(256, 1), CODES(CAIF_BEYOND, CAIF_BEYOND)},
    {"attest of nothing beyond", ATTEST(257, 0), CODES(CAIF_BEYOND, CAIF_BEYOND)},
    {"attest of 65,535 bytes", ATTEST(1, 65535), CODES(CAIF_BEYOND, CAIF_BEYOND)},
    {"hand over to 1", HAND_OVER(1), CODES(CAIF_ACCEPTED, CAIF_ACCEPTED), .alters = runs_1},
    {"attest of A by 2", ATTEST(0, 1), CODES(CAIF_ACCEPTED, CAIF_ACCEPTED), .number = TAG_2_A},
    {"attest of B by 2", ATTEST(2, 1), CODES(CAIF_OTHER_VALUE, CAIF_ACCEPTED),
     .number = TAG_2_B, .alters = logs_b_by_2},
    {"yield", HAND_OVER(16), CODES(CAIF_ACCEPTED, CAIF_ACCEPTED), .alters = none_runs},
    {"attest while none runs", ATTEST(2, 1), CODES(CAIF_NONE_RUNS, CAIF_NONE_RUNS)},
};

/* Identity 1 has logged both, in one order or the other: its own value is refused too. */
static const struct step both_logged[] = {
    {"attest of A, both logged", ATTEST(0, 1), CODES(CAIF_OTHER_VALUE, CAIF_ACCEPTED), .number = TAG_1_A},
    {"attest of B, both logged", ATTEST(2, 1), CODES(CAIF_OTHER_VALUE, CAIF_ACCEPTED), .number = TAG_1_B},
    {"attest of AB, both logged", ATTEST(1, 2), CODES(CAIF_OTHER_VALUE, CAIF_ACCEPTED),
     .number = TAG_1_AB, .alters = logs_ab},
    {"attest beyond, both logged", ATTEST(255, 2), CODES(CAIF_BEYOND, CAIF_BEYOND)},
};

/* Identity 1's row is one of 64, or there is none of its own. */
static const struct step own_row_in_full_log[] = {
    {"attest of A in a full log", ATTEST(0, 1), CODES(CAIF_ACCEPTED, CAIF_ACCEPTED), .number = TAG_1_A},
    {"attest of B in a full log", ATTEST(2, 1), CODES(CAIF_OTHER_VALUE, CAIF_LOG_FULL)},
    {"attest of nothing in a full log", ATTEST(256, 0), CODES(CAIF_OTHER_VALUE, CAIF_LOG_FULL)},
    {"attest beyond in a full log", ATTEST(256, 1), CODES(CAIF_BEYOND, CAIF_BEYOND)},
};
static const struct step full_log_of_others[] = {
    {"attest of A in a log of others", ATTEST(0, 1), CODES(CAIF_LOG_FULL, CAIF_LOG_FULL)},
    {"attest of nothing in a log of others", ATTEST(256, 0), CODES(CAIF_LOG_FULL, CAIF_LOG_FULL)},
    {"attest beyond in a log of others", ATTEST(256, 1), CODES(CAIF_BEYOND, CAIF_BEYOND)},
};
static const struct step both_in_full_log[] = {
    {"attest of A, both in a full log", ATTEST(0, 1), CODES(CAIF_OTHER_VALUE, CAIF_ACCEPTED), .number = TAG_1_A},
    {"attest of B, both in a full log", ATTEST(2, 1), CODES(CAIF_OTHER_VALUE, CAIF_ACCEPTED), .number = TAG_1_B},
    {"attest of AB, both in a full log", ATTEST(1, 2), CODES(CAIF_OTHER_VALUE, CAIF_LOG_FULL)},
};

/* 64 rows, "A" of identities 100 and on, but "A" of identity 1 at this row and "B" at that; place 0 runs. */
static void make_full_log(struct host *host, unsigned row_of_a, unsigned row_of_b)
{
    make_services(host);
    runs_0(host);
    for (unsigned n = 0; n < CAIF_LOG_ROWS; n++)
        logs(host, n == row_of_a || n == row_of_b ? 1 : 100 + n, n == row_of_b ? "B" : "A", 1);
}

static void check_full_logs(void)
{
    static struct host host;
    static const unsigned rows[] = {0, 1, 31, 62, 63};
    for (size_t n = 0; n < COUNT(rows); n++) {
        make_full_log(&host, rows[n], 64);
        check_steps(&host, own_row_in_full_log, COUNT(own_row_in_full_log));
        make_full_log(&host, rows[n], 63 - rows[n]);
        check_steps(&host, both_in_full_log, COUNT(both_in_full_log));
    }
    make_full_log(&host, 64, 64);
    check_steps(&host, full_log_of_others, COUNT(full_log_of_others));
}

/* All value bytes used, by 16 values of 256 bytes: the first is identity 1's own heap. */
static void check_full_bytes(void)
{
    static struct host host;
    static char values[256];
    static const struct step others[] = {
        {"attest of A, no byte left", ATTEST(0, 1), CODES(CAIF_LOG_FULL, CAIF_LOG_FULL)},
        {"attest of nothing, no byte left", ATTEST(0, 0), CODES(CAIF_ACCEPTED, CAIF_ACCEPTED),
         .number = TAG_1_NONE, .alters = logs_none},
    };
    static const struct step own[] = {
        {"attest of A beside the whole heap", ATTEST(0, 1), CODES(CAIF_OTHER_VALUE, CAIF_LOG_FULL)},
        {"attest of nothing beside the whole heap", ATTEST(0, 0), CODES(CAIF_OTHER_VALUE, CAIF_ACCEPTED),
         .number = TAG_1_NONE, .alters = logs_none},
    };
    for (unsigned mine = 0; mine < 2; mine++) {
        make_services(&host);
        runs_0(&host);
        memset(host.heaps + 3, 0x41, 253);
        memset(values, 0x41, sizeof values);
        values[2] = 0x42;
        for (unsigned n = 0; n < 16; n++)
            logs(&host, n == 0 && mine ? 1 : 100 + n, values, 256);
        uint8_t code = mine ? CAIF_ACCEPTED : CAIF_LOG_FULL;
        struct step whole = {"attest of the whole heap", ATTEST(0, 256), CODES(code, code), .number = host.log[0].tag};
        check_steps(&host, &whole, 1);
        check_steps(&host, mine ? own : others, 2);
    }
}

static void check_values(void)
{
    static struct host host;
    check(tag_of(1, (const uint8_t *)"A", 1) == TAG_1_A && tag_of(2, (const uint8_t *)"B", 1) == TAG_2_B, "tags",
          "by hand");
    make_services(&host);
    runs_0(&host);
    logs(&host, 2, "A", 1);
    check_steps(&host, attests, COUNT(attests));
    make_services(&host);
    runs_0(&host);
    logs(&host, 1, "A", 1);
    logs(&host, 1, "B", 1);
    check_steps(&host, both_logged, COUNT(both_logged));
    make_services(&host);
    runs_0(&host);
    logs(&host, 1, "B", 1);
    logs(&host, 2, "A", 1);
    logs(&host, 1, "A", 1);
    check_steps(&host, both_logged, COUNT(both_logged));
    check_full_logs();
    check_full_bytes();
}

/* Records that level one would refuse with 21, 22 and 23, were the box sound and its buffers of their sizes. */
static const struct step own_numbers[] = {
    {"protect", PROTECT(2, 0, 1, ID(9)), CODES(CAIF_NO_ESCROW, CAIF_ACCEPTED)},
    {"retrieve", RETRIEVE(2, 4, HANDLE_7_BYTES), CODES(CAIF_NO_ESCROW, CAIF_ACCEPTED)},
    {"chain", RECORD(0x67, 0x0F, 3, ID(2), HANDLE_7_BYTES, SHORT(0)), CODES(CAIF_NO_ESCROW, CAIF_ACCEPTED)},
    {"release", RELEASE(2, HANDLE_7_BYTES), CODES(CAIF_NO_ESCROW, CAIF_ACCEPTED)},
    {"create at 4", CREATE(4, 4), CODES(CAIF_HIGH_PLACE, CAIF_ACCEPTED)},
    {"hand over to 5", HAND_OVER(5), CODES(CAIF_HIGH_PLACE, CAIF_ACCEPTED)},
    {"attest", ATTEST(2, 1), CODES(CAIF_OTHER_VALUE, CAIF_ACCEPTED)},
};

/* 15 comes first, on these records, the empty one, and one that can't be read. */
static void check_not_sound(const struct host *host, const struct sizes *sizes, const char *label)
{
    for (size_t n = 0; n < COUNT(own_numbers); n++)
        refused(host, sizes, own_numbers[n].record, own_numbers[n].length, CAIF_NOT_SOUND, 0, label);
    refused(host, sizes, own_numbers[0].record, 0, CAIF_NOT_SOUND, 0, label);
    refused(host, sizes, (const uint8_t[]){0x02}, 1, CAIF_NOT_SOUND, 0, label);
}

static void check_sizes_and_soundness(void)
{
    static struct host sound, host;
    make_escrow(&sound);
    runs_0(&sound);
    logs_a(&sound);
    for (size_t n = 0; n < sizeof right_sizes / sizeof(size_t); n++) {
        size_t right = ((const size_t *)&right_sizes)[n], wrong[] = {0, right - 1, right + 1};
        for (size_t m = 0; m < COUNT(wrong); m++) {
            struct sizes sizes = right_sizes;
            ((size_t *)&sizes)[n] = wrong[m];
            check_not_sound(&sound, &sizes, "a buffer of another size");
        }
    }
    host = sound;
    host.held.running = 3;
    check_not_sound(&host, &right_sizes, "an empty place runs");
    host = sound;
    host.log[0].tag++;
    check_not_sound(&host, &right_sizes, "another tag");
    host = sound;
    host.escrow[1].mark = 1;
    check_not_sound(&host, &right_sizes, "a value's row is marked spent");
    host = sound;
    releases(&host);
    host.escrow[0].mark = 2;
    check_not_sound(&host, &right_sizes, "a mark of 2");
    host = sound;
    host.escrow_values[4095] = 1;
    check_not_sound(&host, &right_sizes, "an unused value byte");
    for (size_t n = 0; n < COUNT(own_numbers); n++) {
        host = sound;
        struct caif_reply reply = call_level_one(&host, &right_sizes, own_numbers[n].record, own_numbers[n].length);
        check_reply(&reply, own_numbers[n].level_one, 0, own_numbers[n].length, 0, "the same on the sound box");
    }
}

/* The reader's numbers come before 21, 22 and 23: each record cut at every byte, another map, another kind. */
static void check_reader(void)
{
    static struct host host;
    static const uint8_t missing[][25] = {
        {1, 1, 8, 7, 6, 5, 4, 3, 2, 1, 2, 1, 2, 1, 8, 7, 6, 5, 4, 3, 2, 1},
        {1, 1, 8, 7, 6, 5, 4, 3, 2, 1, 2, 1, 8, 7, 6, 5, 4, 3, 2, 1},
        {1, 1, 1, 8, 7, 6, 5, 4, 3, 2, 1, 8, 7, 6, 5, 4, 3, 2, 1, 2, 1},
        {1, 1, 8, 7, 6, 5, 4, 3, 2, 1, 8, 7, 6, 5, 4, 3, 2, 1},
        {1, 1, 1, 8, 7, 6, 5, 4, 3, 2, 1},
        {1, 1, 1},
        {1, 1, 2, 1, 2, 1},
    };
    make_escrow(&host);
    for (size_t n = 0; n < COUNT(own_numbers); n++)
        for (size_t end = 0; end < own_numbers[n].length; end++)
            refused(&host, &right_sizes, own_numbers[n].record, end, CAIF_CUT, missing[n][end], own_numbers[n].label);
    for (size_t n = 0; n < COUNT(own_numbers); n++) {
        uint8_t record[32];
        memcpy(record, own_numbers[n].record, sizeof record);
        record[0] ^= 0x80;
        refused(&host, &right_sizes, record, own_numbers[n].length, CAIF_WRONG_MAP, 0, "another map");
        record[0] ^= 0x81;
        refused(&host, &right_sizes, record, own_numbers[n].length, CAIF_UNKNOWN_KIND, 0, "bit 0 down");
        record[0] ^= 0x01;
        record[1] = 17;
        refused(&host, &right_sizes, record, own_numbers[n].length, CAIF_UNKNOWN_KIND, 0, "kind 17");
        record[1] = 2;
        refused(&host, &right_sizes, record, own_numbers[n].length, CAIF_UNKNOWN_KIND, 0, "kind 2, retired");
    }
}

void check_level_one(void)
{
    check_escrow();
    check_places();
    check_values();
    check_sizes_and_soundness();
    check_reader();
}
