#include "host.h"

static unsigned passed, failed;

const struct sizes right_sizes = {CAIF_LOG_ROWS,   CAIF_ESCROW_ROWS,   CAIF_HEAPS, CAIF_SHARED,
                                  CAIF_LOG_VALUES, CAIF_ESCROW_VALUES, CAIF_OUTPUT};

void check(bool holds, const char *label, const char *what)
{
    if (holds) {
        passed++;
        return;
    }
    failed++;
    printf("FAILED: %s: %s\n", label, what);
}

void make_fresh(struct host *host)
{
    memset(host, 0, sizeof *host);
    memset(host->output, 0xEE, sizeof host->output);
    host->held = caif_fresh();
}

#define LENT(host, sizes)                                                                              \
    (host)->log, (sizes)->log, (host)->escrow, (sizes)->escrow, (host)->heaps, (sizes)->heaps,         \
        (host)->shared, (sizes)->shared, (host)->log_values, (sizes)->log_values,                      \
        (host)->escrow_values, (sizes)->escrow_values, (host)->output, (sizes)->output

struct caif_reply call(struct host *host, const struct sizes *sizes, const uint8_t *bytes, size_t count)
{
    struct caif_reply reply = caif_call(host->held, LENT(host, sizes), bytes, count);
    host->held = reply.held;
    return reply;
}

struct caif_answer call_lent(struct caif_box *held, struct host *host, const struct sizes *sizes, const uint8_t *bytes,
                             size_t count)
{
    return caif_call_lent(held, LENT(host, sizes), bytes, count);
}

struct caif_reply call_level_one(struct host *host, const struct sizes *sizes, const uint8_t *bytes, size_t count)
{
    struct caif_reply reply = caif_call_level_one(host->held, LENT(host, sizes), bytes, count);
    host->held = reply.held;
    return reply;
}

struct caif_tank_answer desk(const struct host *host, const struct sizes *sizes, struct caif_tank tank)
{
    return caif_desk(tank, host->held, LENT(host, sizes));
}

uint8_t shift(const struct host *host, const struct sizes *sizes, const struct caif_tank *tanks, size_t count,
              struct caif_tank_answer *answers, size_t lent)
{
    return caif_shift(tanks, count, answers, lent, host->held, LENT(host, sizes));
}

/* Fields are compared one by one: what stands in a struct's padding is nobody's concern. */
static bool same_box(const struct caif_box *a, const struct caif_box *b)
{
    for (int place = 0; place < CAIF_PLACES; place++)
        if (a->identities[place] != b->identities[place])
            return false;
    return a->taken == b->taken && a->running == b->running && a->log.rows == b->log.rows &&
           a->log.bytes == b->log.bytes && a->escrow.rows == b->escrow.rows && a->escrow.bytes == b->escrow.bytes;
}

static bool same_log(const struct host *a, const struct host *b)
{
    for (int n = 0; n <= CAIF_LOG_ROWS; n++) {
        const struct caif_log_row *x = &a->log[n], *y = &b->log[n];
        if (x->identity != y->identity || x->tag != y->tag || x->first != y->first || x->length != y->length)
            return false;
    }
    return true;
}

static bool same_escrow(const struct host *a, const struct host *b)
{
    for (int n = 0; n <= CAIF_ESCROW_ROWS; n++) {
        const struct caif_escrow_row *x = &a->escrow[n], *y = &b->escrow[n];
        if (x->source != y->source || x->recipient != y->recipient || x->handle != y->handle ||
            x->first != y->first || x->length != y->length || x->mark != y->mark)
            return false;
    }
    return true;
}

#define SAME(part) check(memcmp(is->part, wanted->part, sizeof is->part) == 0, label, #part)

void check_host(const struct host *is, const struct host *wanted, const char *label)
{
    check(same_box(&is->held, &wanted->held), label, "held");
    check(same_log(is, wanted), label, "log");
    check(same_escrow(is, wanted), label, "escrow");
    SAME(heaps);
    SAME(shared);
    SAME(log_values);
    SAME(escrow_values);
    SAME(output);
}

void check_reply(const struct caif_reply *reply, uint8_t code, uint64_t number, size_t used, uint16_t shown,
                 const char *label)
{
    check(reply->code == code, label, "code");
    check(reply->number == number, label, "number");
    check(reply->used == used, label, "used");
    check(reply->shown == shown, label, "shown");
}

int main(void)
{
    check_layout();
    check_calls();
    check_refusals();
    check_lent();
    check_level_one();
    check_desk();
    check_read_only();
    printf("%u passed, %u failed\n", passed, failed);
    return passed == 0 || failed != 0;
}
