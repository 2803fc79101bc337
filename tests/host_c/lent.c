/* The entry to which the box record is lent: it answers as the entry by value does and leaves the same box; an accepted call
 * leaves the new state in the record, and a refusal writes nothing to it, its padding included. No contract can say that,
 * since a contract speaks of entry and exit alone, so refusals also get a record on pages that cannot be written. */
#include "host.h"

#define FILL 0x5A /* what stands in the padding, and beside the record */

/* A box record that is lent, between bytes that are not. */
struct lent {
    uint8_t before[24];
    struct caif_box held;
    uint8_t behind[24];
};

static bool all_filled(const uint8_t *bytes, size_t count)
{
    for (size_t n = 0; n < count; n++)
        if (bytes[n] != FILL)
            return false;
    return true;
}

/* Field by field, so that the padding, between running and the identities, can keep its bytes; that it does is asserted. */
static void lend(struct lent *lent, const struct caif_box *held)
{
    const size_t padding = offsetof(struct caif_box, running) + 1, end = offsetof(struct caif_box, identities);
    memset(lent, FILL, sizeof *lent);
    lent->held.taken = held->taken;
    lent->held.running = held->running;
    memcpy(lent->held.identities, held->identities, sizeof held->identities);
    lent->held.log = held->log;
    lent->held.escrow = held->escrow;
    check(end - padding == 5 && all_filled((const uint8_t *)&lent->held + padding, end - padding), "lent",
          "the padding is filled");
}

static void check_beside(const struct lent *lent, const char *label)
{
    check(all_filled(lent->before, sizeof lent->before) && all_filled(lent->behind, sizeof lent->behind), label,
          "memory beside the lent record");
}

/* The entry as it is, or one that writes. */
typedef struct caif_answer entry(struct caif_box *, struct host *, const struct sizes *, const uint8_t *, size_t);

/* A call on this record, which may be one that cannot be written, and the code that it must get. */
struct trial {
    entry *by;
    const struct caif_box *held;
    struct host *host;
    const struct sizes *sizes;
    const uint8_t *record;
    size_t length;
    uint8_t code;
};

static bool is_answered(const void *with)
{
    const struct trial *trial = with;
    struct caif_box *held = (struct caif_box *)trial->held;
    return trial->by(held, trial->host, trial->sizes, trial->record, trial->length).code == trial->code;
}

/* A refusal on a record that cannot be written. */
static void check_unwritten(struct host *host, const struct sizes *sizes, const uint8_t *bytes, size_t count, uint8_t code,
                            const char *label)
{
    struct trial trial = {call_lent, locked(&host->held, sizeof host->held), host, sizes, bytes, count, code};
    check(in_child(is_answered, &trial) == RIGHT, label, "on a record that cannot be written");
}

void check_call_lent(const struct host *host, const struct sizes *sizes, const uint8_t *bytes, size_t count,
                     struct caif_answer wanted, const struct host *left, const char *label)
{
    static struct host copy;
    struct lent lent;
    uint8_t before[sizeof lent.held];
    char lent_label[96];
    snprintf(lent_label, sizeof lent_label, "lent, %s", label);
    copy = *host;
    lend(&lent, &host->held);
    memcpy(before, &lent.held, sizeof before);
    struct caif_answer answer = call_lent(&lent.held, &copy, sizes, bytes, count);
    check(answer.code == wanted.code, lent_label, "code");
    check(answer.number == wanted.number, lent_label, "number");
    check(answer.used == wanted.used, lent_label, "used");
    check(answer.shown == wanted.shown, lent_label, "shown");
    if (wanted.code != CAIF_ACCEPTED) {
        check(memcmp(&lent.held, before, sizeof before) == 0, lent_label, "every byte of the record");
        check_unwritten(&copy, sizes, bytes, count, wanted.code, lent_label);
    }
    check_beside(&lent, lent_label);
    copy.held = lent.held;
    check_host(&copy, left, lent_label);
}

#define ID(n) (n), 0, 0, 0, 0, 0, 0, 0 /* a field of 8 bytes */

/* The example paper, and after it an attest, a read, a release of what was escrowed, refusals and an exit. */
static const uint8_t paper[] = {
    0x07, 0x01, 0, ID(1),                         /* create */
    0x03, 0x0E, 0,                                /* hand over */
    0x4B, 0x05, 0, 0, 0, 1, 0, 0x41,              /* heap write */
    0x3D, 0x0B, ID(1), 0, 0, 1, 0, ID(7),         /* protect */
    0x01, 0x0D,                                   /* report */
    0x03, 0x0E, 0x10,                             /* hand over to none */
    0x01, 0x04,                                   /* exit, which gets 4 */
    0x07, 0x01, 15, ID(2),                        /* create */
    0x07, 0x01, 15, ID(3),                        /* create, which gets 7 */
    0x03, 0x0E, 0,                                /* hand over */
    0x19, 0x09, 0, 0, 1, 0,                       /* attest */
    0x1B, 0x06, 0, 0, 0, 1, 0,                    /* heap read */
    0x25, 0x10, ID(1), 7, 0, 0, 0, 0, 0, 1, 0,    /* release */
    0x25, 0x10, ID(1), 7, 0, 0, 0, 0, 0, 1, 0,    /* release, which gets 10 */
    0x03, 0x0E, 15,                               /* hand over */
    0x01, 0x04,                                   /* exit */
    0x03, 0x0E, 0,                                /* hand over */
    0x01, 0x04,                                   /* exit */
};
#define RECORDS 18

/* The paper on two boxes, with the record by value and lent: after every record the answers and the boxes are the same. The
 * lent record stays where it is from the first call to the last. */
static void check_paper(void)
{
    static struct host by_value, lending;
    struct lent lent;
    size_t at = 0, records = 0;
    make_fresh(&by_value);
    make_fresh(&lending);
    lend(&lent, &lending.held);
    for (size_t used = 1; at < sizeof paper && used > 0; records++) {
        char label[64];
        snprintf(label, sizeof label, "the paper, lent, record %zu", records + 1);
        struct caif_reply reply = call(&by_value, &right_sizes, paper + at, sizeof paper - at);
        struct caif_answer answer = call_lent(&lent.held, &lending, &right_sizes, paper + at, sizeof paper - at);
        check_reply(&reply, answer.code, answer.number, answer.used, answer.shown, label);
        check_beside(&lent, label);
        lending.held = lent.held;
        check_host(&lending, &by_value, label);
        used = reply.used;
        at += used;
    }
    check(at == sizeof paper && records == RECORDS, "the paper, lent", "it is called to its end");
    check(lent.held.taken == 0 && lent.held.log.rows == 1 && lent.held.escrow.rows == 1 && lent.held.escrow.bytes == 0,
          "the paper, lent", "what it leaves");
}

/* ---- refusals */

/* A record, and what it is refused with where place 0 runs in a full box. */
struct refusal {
    const char *label;
    uint8_t record[24];
    size_t length;
    uint8_t code;
    uint64_t number;
};

#define RECORD(...) {__VA_ARGS__}, sizeof((uint8_t[]){__VA_ARGS__})

static const struct refusal refusals[] = {
    {"1, empty", {0}, 0, CAIF_CUT, 1},
    {"1, a create cut", RECORD(0x07, 0x01, 0, 1, 0), CAIF_CUT, 6},
    {"2, no kind", RECORD(0x02), CAIF_UNKNOWN_KIND, 0},
    {"2, kind 17", RECORD(0x01, 0x11), CAIF_UNKNOWN_KIND, 0},
    {"3", RECORD(0x03, 0x0D, 0), CAIF_WRONG_MAP, 0},
    {"6, a hand over", RECORD(0x03, 0x0E, 17), CAIF_NO_PLACE, 0},
    {"6, a create", RECORD(0x07, 0x01, 16, ID(1)), CAIF_NO_PLACE, 0},
    {"7, a create", RECORD(0x07, 0x01, 15, ID(1)), CAIF_PLACE_STATE, 0},
    {"8", RECORD(0x4B, 0x05, 1, 0, 0, 1, 0, 0x41), CAIF_NOT_RUNNING, 0},
    {"9, a check", RECORD(0x65, 0x0A, ID(0), ID(7), 0, 0), CAIF_IDENTITY_ZERO, 0},
    {"9, a protect", RECORD(0x3D, 0x0B, ID(0), 0, 0, 1, 0, ID(7)), CAIF_IDENTITY_ZERO, 0},
    {"10, a retrieve", RECORD(0x2D, 0x0C, ID(1), 0, 0, ID(99)), CAIF_NO_ROW, 0},
    {"10, a release", RECORD(0x25, 0x10, ID(1), ID(99)), CAIF_NO_ROW, 0},
    {"11, an attest", RECORD(0x19, 0x09, 0, 1, 1, 0), CAIF_BEYOND, 0},
    {"11, a shared read", RECORD(0x19, 0x08, 0, 4, 1, 0), CAIF_BEYOND, 0},
    {"12", RECORD(0x3D, 0x0B, ID(1), 0, 0, 1, 0, 0, 0, 0, 0, 0, 0, 1, 0), CAIF_DRAW, 0},
    {"13", RECORD(0x19, 0x09, 0, 0, 3, 0), CAIF_LOG_FULL, 0},
    {"14", RECORD(0x3D, 0x0B, ID(1), 0, 0, 1, 0, ID(99)), CAIF_ESCROW_FULL, 0},
    {"18", RECORD(0x67, 0x0F, 3, ID(1), ID(99), 0, 0), CAIF_NO_LINK, 0},
    {"19", RECORD(0x67, 0x0F, 1, ID(1), ID(99), 0, 0), CAIF_BAD_CHAIN, 0},
};
static const struct refusal while_none_runs[] = {
    {"4, an exit", RECORD(0x01, 0x04), CAIF_NONE_RUNS, 0},
    {"4, an attest", RECORD(0x19, 0x09, 0, 0, 1, 0), CAIF_NONE_RUNS, 0},
};
static const struct refusal not_sound[] = {
    {"15, a report", RECORD(0x01, 0x0D), CAIF_NOT_SOUND, 0},
    {"15, an exit", RECORD(0x01, 0x04), CAIF_NOT_SOUND, 0},
    {"15, a hand over", RECORD(0x03, 0x0E, 1), CAIF_NOT_SOUND, 0},
    {"15, empty", {0}, 0, CAIF_NOT_SOUND, 0},
};
#define COUNT(table) (sizeof(table) / sizeof *(table))

/* Each of these on this box. */
static void check_refused(const struct host *host, const struct sizes *sizes, const struct refusal *all, size_t count)
{
    for (size_t n = 0; n < count; n++) {
        const struct refusal *refusal = &all[n];
        bool unread = refusal->code <= CAIF_WRONG_MAP || refusal->code == CAIF_NOT_SOUND;
        struct caif_answer wanted = {refusal->code, refusal->number, unread ? 0 : refusal->length, 0};
        check_call_lent(host, sizes, refusal->record, refusal->length, wanted, host, refusal->label);
    }
}

static void frees_place_0(struct host *host) { host->held.taken &= ~1; }
static void runs_17(struct host *host) { host->held.running = 17; }
static void takes_identity_15(struct host *host) { host->held.identities[15] = 0; }
static void uses_65_rows(struct host *host) { host->held.log.rows = 65; }
static void uses_a_byte_less(struct host *host) { host->held.escrow.bytes--; }
static void alters_a_tag(struct host *host) { host->log[63].tag++; }

static void (*const damages[])(struct host *) = {frees_place_0, runs_17,          takes_identity_15,
                                                 uses_65_rows,  uses_a_byte_less, alters_a_tag};

/* 15, by each size, by each part of the record and by a row. */
static void check_not_sound(const struct host *sound)
{
    static struct host host;
    host = *sound;
    for (size_t n = 0; n < sizeof right_sizes / sizeof(size_t); n++) {
        size_t right = ((const size_t *)&right_sizes)[n], wrong[] = {0, right - 1, right + 1};
        for (size_t m = 0; m < COUNT(wrong); m++) {
            struct sizes sizes = right_sizes;
            ((size_t *)&sizes)[n] = wrong[m];
            check_refused(&host, &sizes, not_sound, COUNT(not_sound));
        }
    }
    for (size_t n = 0; n < COUNT(damages); n++) {
        host = *sound;
        damages[n](&host);
        check_refused(&host, &right_sizes, not_sound, COUNT(not_sound));
    }
}

/* ---- an entry that writes back what stands in the record */

static struct caif_answer call_that_writes(struct caif_box *held, struct host *host, const struct sizes *sizes,
                                           const uint8_t *bytes, size_t count)
{
    volatile uint8_t *running = &held->running;
    *running = *running;
    return call_lent(held, host, sizes, bytes, count);
}

/* It faults where the record cannot be written, and so does the entry with a call that moves the record; both are right where
 * it can be. */
static void check_planted(struct host *host)
{
    static const uint8_t hand_over[] = {0x03, 0x0E, 1}, unread[] = {0x02};
    const struct caif_box *pages = locked(&host->held, sizeof host->held), *open = &host->held;
    struct trial writes = {call_that_writes, pages, host, &right_sizes, unread, sizeof unread, CAIF_UNKNOWN_KIND};
    struct trial moves = {call_lent, pages, host, &right_sizes, hand_over, sizeof hand_over, CAIF_ACCEPTED};
    check(in_child(is_answered, &writes) == FAULTS, "lent", "an entry that writes with a refusal faults");
    check(in_child(is_answered, &moves) == FAULTS, "lent", "a call that moves the record faults");
    writes.held = moves.held = open;
    check(in_child(is_answered, &writes) == RIGHT, "lent", "what can be written is written");
    check(in_child(is_answered, &moves) == RIGHT, "lent", "a record that can be written is moved");
}

void check_lent(void)
{
    static struct host full, stopped;
    uint64_t tags[2];
    check_paper();
    make_full(&full, tags);
    stopped = full;
    stopped.held.running = CAIF_NONE;
    check_refused(&full, &right_sizes, refusals, COUNT(refusals));
    check_refused(&stopped, &right_sizes, while_none_runs, COUNT(while_none_runs));
    check_not_sound(&full);
    check_planted(&full);
}
