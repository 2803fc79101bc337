/* The boxes, each made by calls of the archive on the ordinary stack. The process that makes them ends before the first
 * trial, so nothing is bound in those that follow. */
#include "stack.h"

const struct sizes right_sizes = {CAIF_LOG_ROWS,   CAIF_ESCROW_ROWS,   CAIF_HEAPS, CAIF_SHARED,
                                  CAIF_LOG_VALUES, CAIF_ESCROW_VALUES, CAIF_OUTPUT};

static struct lent *box;

void copy(void *to, const void *from, size_t count)
{
    volatile uint8_t *bytes = to;
    for (size_t n = 0; n < count; n++)
        bytes[n] = ((const uint8_t *)from)[n];
}

bool same_text(const char *a, const char *b)
{
    while (*a != 0 && *a == *b)
        a++, b++;
    return *a == *b;
}

uint64_t tag_of(uint64_t identity, const uint8_t *value, size_t count)
{
    uint64_t tag = 14695981039346656037u;
    for (int n = 0; n < 8; n++)
        tag = (tag ^ (identity >> 8 * n & 255)) * 1099511628211u;
    for (size_t n = 0; n < count; n++)
        tag = (tag ^ value[n]) * 1099511628211u;
    return tag;
}

/* The handle after so many draws, of which the first is 0, are passed over. */
uint64_t handle_of(uint64_t length, unsigned draws)
{
    uint64_t draw = 0;
    for (unsigned n = 0; n < draws; n++)
        draw = (25214903917u * draw + 11) % CAIF_DRAWS;
    return length * CAIF_DRAWS + draw;
}

void put_value(uint8_t *value, unsigned n)
{
    for (unsigned at = 0; at < VALUE; at++)
        value[at] = at == VALUE - 4 ? n : 9;
}

#define F(...) (struct caif_fields){__VA_ARGS__}

/* A call that the box accepts: its number. Its record goes to the box's script. */
static uint64_t calls(uint8_t kind, struct caif_fields fields, const uint8_t *bytes, size_t count)
{
    uint8_t *record = box->script + box->script_size;
    struct caif_written written =
        caif_write(kind, fields, bytes, count, record, sizeof box->script - box->script_size);
    if (written.code != 0)
        stop("a record is not written", "");
    box->script_size += written.length;
    struct caif_reply reply =
        caif_call(box->held, box->log, CAIF_LOG_ROWS, box->escrow, CAIF_ESCROW_ROWS, box->heaps, CAIF_HEAPS, box->shared,
                  CAIF_SHARED, box->log_values, CAIF_LOG_VALUES, box->escrow_values, CAIF_ESCROW_VALUES, box->output,
                  CAIF_OUTPUT, record, written.length);
    if (reply.code != 0)
        stop("a box is not made: a call was refused", "");
    box->held = reply.held;
    return reply.number;
}

static const uint8_t none[1] = {0};

static void runs(uint8_t place)
{
    calls(CAIF_HAND_OVER, F(.place = place), none, 0);
}

static void writes(uint8_t place, const uint8_t *value, size_t count)
{
    calls(CAIF_HEAP_WRITE, F(.place = place), value, count);
}

static void logs(size_t count)
{
    calls(CAIF_ATTEST, F(.length = count), none, 0);
}

static uint64_t escrows(size_t count)
{
    return calls(CAIF_PROTECT, F(.identity = 1, .length = count), none, 0);
}

/* A new box, a copy of another one or a fresh one, is the one that is made. */
static void begin(unsigned which, const struct lent *from)
{
    if (which != world->boxes_made || which == BOXES)
        stop("the boxes are made in another order, or there are too many", "");
    box = &world->boxes[world->boxes_made++];
    if (from)
        copy(box, from, sizeof *box);
    else
        box->held = caif_fresh();
}

static void services(unsigned count)
{
    uint8_t heap[CAIF_HEAP];
    for (unsigned n = 0; n < CAIF_HEAP; n++)
        heap[n] = 3;
    for (unsigned place = 0; place < count; place++) {
        calls(CAIF_CREATE, F(.place = place, .identity = place + 1), none, 0);
        runs(place);
        writes(place, heap, CAIF_HEAP);
    }
    runs(0);
}

/* Rows from the first to the one before the last number, logged by place 0 or by the others in turn, and as many
 * escrowed, all with draw 0. Place 0 runs afterwards. */
static void fills(unsigned first, unsigned end, bool own)
{
    uint8_t value[VALUE];
    for (unsigned n = first; n < end; n++) {
        uint8_t place = own ? 0 : 1 + n % (box->held.taken == 0xFFFF ? 15 : 1);
        put_value(value, n);
        runs(place);
        writes(place, value, VALUE);
        logs(VALUE);
        runs(0);
        escrows(VALUE);
    }
}

static void make_few(void)
{
    uint8_t value[VALUE];
    begin(FEW, NULL);
    services(2);
    fills(0, 2, false);
    put_value(value, 2);
    writes(0, value, VALUE);
    logs(VALUE);
    calls(CAIF_RELEASE, F(.identity = 1, .number = escrows(VALUE)), none, 0);
}

/* The value that place 0 has in its heap, and logs as the last row where the box is full. */
static void last_row(void)
{
    uint8_t value[VALUE];
    put_value(value, 63);
    writes(0, value, VALUE);
    logs(VALUE);
    escrows(VALUE);
}

static void make_full(void)
{
    begin(FULL, NULL);
    services(16);
    fills(0, 63, false);
    last_row();
    begin(STOPPED, &world->boxes[FULL]);
    runs(CAIF_NONE);
    begin(OWN, NULL);
    services(16);
    fills(0, 63, true);
    last_row();
    begin(ONE_LEFT, NULL);
    services(16);
    fills(0, 63, false);
    runs(3);
    calls(CAIF_EXIT, F(0), none, 0);
    runs(0);
}

static void make_long(void)
{
    uint8_t value[CAIF_VALUE];
    begin(LONG, NULL);
    services(1);
    for (unsigned n = 0; n < 16; n++) {
        for (unsigned at = 0; at < CAIF_VALUE; at++)
            value[at] = at == 250 ? n : 8;
        writes(0, value, CAIF_VALUE);
        logs(CAIF_VALUE);
        escrows(CAIF_VALUE);
    }
}

/* Two corrections of two bytes, after so many rows. */
static void make_corrected(unsigned which, unsigned rows)
{
    static const uint8_t corrections[2][2] = {{7, 0}, {0, 1}};
    begin(which, NULL);
    services(16);
    fills(0, rows, false);
    for (unsigned n = 0; n < 2; n++) {
        writes(0, corrections[n], 2);
        logs(2);
        escrows(VALUE);
    }
}

static void make_damaged(void)
{
    const struct lent *full = &world->boxes[FULL];
    begin(DAMAGED, full);
    box->held.running = CAIF_NONE + 1;
    begin(DAMAGED + 1, full);
    box->held.identities[15] = 0;
    begin(DAMAGED + 2, full);
    box->log[63].tag ^= 1;
    begin(DAMAGED + 3, full);
    box->escrow[63].handle = box->escrow[0].handle;
    begin(DAMAGED + 4, &world->boxes[FEW]);
    box->heaps[CAIF_HEAPS - 1] = 1;
    begin(DAMAGED + 5, &world->boxes[FEW]);
    box->escrow_values[CAIF_ESCROW_VALUES - 1] = 1;
}

const struct chain chains[CHAIN_BOXES] = {
    {"logged", LOGGED, ENDS, 17, 64},
    {"escrowed", ESCROWED, ENDS, 17, 64},
    {"alternating", ALTERNATING, ENDS, 17, 64},
    {"logged, values of 256 bytes", LOGGED, ENDS, 16, 256},
    {"escrowed, values of 256 bytes", ESCROWED, ENDS, 16, 256},
    {"alternating, values of 17 bytes", ALTERNATING, ENDS, 17, 17},
    {"alternating, the last not logged", ALTERNATING, NOT_LOGGED, 15, 64},
    {"alternating, the last not escrowed", ALTERNATING, NOT_ESCROWED, 15, 64},
    {"alternating, the last without a head", ALTERNATING, NO_HEAD, 16, 64},
    {"alternating, identity 0 in the last", ALTERNATING, NO_IDENTITY, 15, 64},
    {"logged, the last not logged", LOGGED, NOT_LOGGED, 15, 64},
};

/* Where the links of a chain stand: the first made is the last of the chain. */
struct link {
    uint8_t way;
    uint64_t number;
    uint8_t value[CAIF_VALUE];
};
static struct link links[CHAIN_BOXES][CAIF_LINKS + 1];

static uint8_t way_of(const struct chain *chain, unsigned n)
{
    bool logged = chain->ways == LOGGED || (chain->ways == ALTERNATING && n % 2 == 0);
    return logged ? CAIF_WAY_LOGGED : CAIF_WAY_ESCROWED;
}

static void put_link(uint8_t *value, uint8_t way, uint64_t identity, uint64_t number)
{
    value[0] = way;
    for (int n = 0; n < 8; n++) {
        value[1 + n] = identity >> 8 * n & 255;
        value[9 + n] = number >> 8 * n & 255;
    }
}

/* The value of link n: payload of this number, and the link made before it, or what the last says. */
static void link_value(const struct chain *chain, unsigned which, unsigned n, uint8_t *value)
{
    static const uint8_t lasts[] = {CAIF_WAY_END, CAIF_WAY_LOGGED, CAIF_WAY_ESCROWED, 9, CAIF_WAY_LOGGED};
    for (unsigned at = 0; at < chain->length; at++)
        value[at] = n;
    if (n > 0)
        put_link(value, links[which][n - 1].way, 1, links[which][n - 1].number);
    else
        put_link(value, lasts[chain->last], chain->last != NO_IDENTITY, 7);
}

/* A box whose last rows are the chain's links; the others are as in the box that is full, where there is room for them. */
static void make_chain(unsigned which)
{
    const struct chain *chain = &chains[which];
    uint8_t value[VALUE];
    begin(CHAINS + which, NULL);
    services(16);
    if (chain->length <= VALUE)
        fills(0, 64 - chain->links, true);
    for (unsigned n = 0; n < chain->links; n++) {
        struct link *link = &links[which][n];
        link_value(chain, which, n, link->value);
        link->way = way_of(chain, n);
        link->number = tag_of(1, link->value, chain->length);
        writes(0, link->value, chain->length);
        if (link->way == CAIF_WAY_LOGGED)
            logs(chain->length);
        else
            link->number = escrows(chain->length);
    }
    while (chain->length <= VALUE && box->held.log.rows < CAIF_LOG_ROWS) {
        put_value(value, 100 + box->held.log.rows);
        writes(0, value, VALUE);
        logs(VALUE);
    }
    while (chain->length <= VALUE && box->held.escrow.rows < CAIF_ESCROW_ROWS)
        escrows(VALUE);
}

void head_of(unsigned which, unsigned count, struct head *head)
{
    const struct chain *chain = &chains[which];
    const struct link *first = &links[which][count - 1];
    head->fields = F(.place = first->way, .identity = 1, .number = first->number);
    head->count = 0;
    for (unsigned n = count; n > 0; n--)
        if (links[which][n - 1].way == CAIF_WAY_LOGGED) {
            head->bytes[head->count++] = chain->length & 255;
            head->bytes[head->count++] = chain->length >> 8;
            copy(head->bytes + head->count, links[which][n - 1].value, chain->length);
            head->count += chain->length;
        }
}

void make_boxes(void)
{
    begin(FRESH_BOX, NULL);
    make_few();
    make_full();
    make_long();
    make_corrected(CORRECTED, 0);
    make_corrected(FULL_CORRECTED, 62);
    make_damaged();
    for (unsigned which = 0; which < CHAIN_BOXES; which++)
        make_chain(which);
}
