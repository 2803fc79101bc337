/* Every trial of the three entries that run a record: each kind on a fresh box, on one with a few rows and on full ones,
 * accepted and refused; chains; malformed records; wrong sizes and boxes that are not sound. */
#include "stack.h"

#define F(...) (struct caif_fields){__VA_ARGS__}

static const uint8_t none[1] = {0};
static uint8_t many[CAIF_RECORD];
static uint8_t record[CAIF_RECORD];

/* An answer of the level-one entry that is the full one's. */
#define ALIKE 255

struct trial *add(enum entry entry, const char *where, const char *name, unsigned box)
{
    if (world->trials_made == TRIALS)
        stop("too many trials", name);
    struct trial *trial = &world->trials[world->trials_made];
    int length = snprintf(trial->name, sizeof trial->name, "%s: %s", where, name);
    if (length < 0 || (size_t)length >= sizeof trial->name)
        stop("too long a name:", name);
    for (unsigned n = 0; n < world->trials_made; n++)
        if (world->trials[n].entry == entry && same_text(world->trials[n].name, trial->name))
            stop("two trials of one name:", name);
    world->trials_made++;
    trial->entry = entry;
    trial->box = box;
    trial->sizes = right_sizes;
    return trial;
}

/* These bytes as a record, to each of the three. The level-one entry has a code of its own, or answers alike. */
static void tries_bytes(const char *where, const char *name, unsigned box, struct sizes sizes, const uint8_t *bytes,
                        size_t count, struct answer wanted, uint8_t level_one)
{
    size_t at = world->bytes_used;
    if (sizeof world->bytes - at < count)
        stop("too many bytes", name);
    copy(world->bytes + at, bytes, count);
    world->bytes_used += count;
    for (enum entry entry = CALL; entry <= LEVEL_ONE; entry++) {
        struct trial *trial = add(entry, where, name, box);
        trial->sizes = sizes;
        trial->at = at;
        trial->count = count;
        trial->wanted = entry != LEVEL_ONE || level_one == ALIKE ? wanted : (struct answer){level_one, 0};
    }
}

/* The box that the next trials are on. */
static unsigned on;
static const char *where;

static void tries(const char *name, uint8_t kind, struct caif_fields fields, const uint8_t *bytes, size_t count,
                  uint8_t code, uint64_t number, uint8_t level_one)
{
    struct caif_written written = caif_write(kind, fields, bytes, count, record, sizeof record);
    if (written.code != 0)
        stop("a record is not written", name);
    tries_bytes(where, name, on, right_sizes, record, written.length, (struct answer){code, number}, level_one);
}

static void plain(const char *name, uint8_t kind, struct caif_fields fields, uint8_t code, uint64_t number)
{
    tries(name, kind, fields, none, 0, code, number, ALIKE);
}

/* Level one has no escrow: it answers 21. */
static void escrow(const char *name, uint8_t kind, struct caif_fields fields, uint8_t code, uint64_t number)
{
    tries(name, kind, fields, none, 0, code, number, CAIF_NO_ESCROW);
}

static void writes(const char *name, uint8_t kind, struct caif_fields fields, size_t count, uint8_t code)
{
    tries(name, kind, fields, many, count, code, code == 0 ? count : 0, ALIKE);
}

/* A check of this value of an identity, with its tag. */
static void checks(const char *name, uint64_t identity, const uint8_t *value, size_t count, uint64_t number)
{
    uint64_t tag = tag_of(identity, value, count);
    tries(name, CAIF_CHECK, F(.identity = identity, .number = tag), value, count, 0, number, ALIKE);
}

static void begin(unsigned box, const char *name)
{
    on = box;
    where = name;
}

static void on_fresh(void)
{
    begin(FRESH_BOX, "fresh box");
    plain("create", CAIF_CREATE, F(.place = 3, .identity = 1), 0, 3);
    plain("create, no such place", CAIF_CREATE, F(.place = 16, .identity = 1), 6, 0);
    plain("create, identity 0", CAIF_CREATE, F(.place = 0), 9, 0);
    plain("exit, none runs", CAIF_EXIT, F(0), 4, 0);
    writes("heap write, none runs", CAIF_HEAP_WRITE, F(0), 256, 4);
    plain("heap read, none runs", CAIF_HEAP_READ, F(.length = 256), 4, 0);
    writes("shared write, 1,024 bytes", CAIF_SHARED_WRITE, F(0), 1024, 0);
    plain("shared read, 1,024 bytes", CAIF_SHARED_READ, F(.length = 1024), 0, 1024);
    plain("attest, none runs", CAIF_ATTEST, F(.length = 64), 4, 0);
    checks("check, no row", 1, many, 64, 0);
    escrow("protect, none runs", CAIF_PROTECT, F(.identity = 1, .length = 64), 4, 0);
    escrow("retrieve, none runs", CAIF_RETRIEVE, F(.identity = 1, .number = handle_of(64, 0)), 4, 0);
    plain("report", CAIF_REPORT, F(0), 0, 0);
    plain("hand over to an empty place", CAIF_HAND_OVER, F(.place = 0), 7, 0);
    plain("hand over to 16", CAIF_HAND_OVER, F(.place = CAIF_NONE), 0, 0);
    escrow("chain, none runs", CAIF_CHAIN, F(.place = CAIF_WAY_ESCROWED, .identity = 1), 4, 0);
    escrow("release, none runs", CAIF_RELEASE, F(.identity = 1), 4, 0);
}

/* What is answered alike on every box on which place 0 runs. */
static void on_running(void)
{
    plain("exit", CAIF_EXIT, F(0), 0, 0);
    writes("heap write, 256 bytes", CAIF_HEAP_WRITE, F(0), 256, 0);
    writes("heap write, beyond", CAIF_HEAP_WRITE, F(.offset = 1), 256, 11);
    writes("heap write, no such place", CAIF_HEAP_WRITE, F(.place = 16), 1, 6);
    writes("heap write, another place", CAIF_HEAP_WRITE, F(.place = 1), 1, 8);
    plain("heap read, 256 bytes", CAIF_HEAP_READ, F(.length = 256), 0, 256);
    plain("heap read, beyond", CAIF_HEAP_READ, F(.offset = 1, .length = 256), 11, 0);
    plain("heap read, another place", CAIF_HEAP_READ, F(.place = 1), 8, 0);
    writes("shared write, 1,024 bytes", CAIF_SHARED_WRITE, F(0), 1024, 0);
    writes("shared write, beyond", CAIF_SHARED_WRITE, F(0), 65535, 11);
    plain("shared read, 1,024 bytes", CAIF_SHARED_READ, F(.length = 1024), 0, 1024);
    plain("shared read, beyond", CAIF_SHARED_READ, F(.offset = 65535, .length = 65535), 11, 0);
    plain("attest, beyond", CAIF_ATTEST, F(.offset = 200, .length = 57), 11, 0);
    checks("check, not logged", 1, many, 64, 0);
    checks("check, 256 bytes", 1, many, 256, 0);
    checks("check, 65,535 bytes", 1, many, 65535, 0);
    tries("check, identity 0", CAIF_CHECK, F(0), many, 64, 9, 0, ALIKE);
    escrow("protect, identity 0", CAIF_PROTECT, F(.length = 64), 9, 0);
    escrow("protect, beyond", CAIF_PROTECT, F(.identity = 1, .offset = 256, .length = 1), 11, 0);
    escrow("protect, no draw", CAIF_PROTECT, F(.identity = 1, .number = CAIF_DRAWS), 12, 0);
    escrow("retrieve, identity 0", CAIF_RETRIEVE, F(.number = 7), 9, 0);
    escrow("retrieve, no row", CAIF_RETRIEVE, F(.identity = 2, .number = handle_of(64, 0)), 10, 0);
    escrow("retrieve, the first row", CAIF_RETRIEVE, F(.identity = 1, .number = handle_of(64, 0)), 0, 64);
    escrow("retrieve, beyond", CAIF_RETRIEVE, F(.identity = 1, .offset = 250, .number = handle_of(64, 0)), 11, 0);
    escrow("release, identity 0", CAIF_RELEASE, F(.number = 7), 9, 0);
    escrow("release, no row", CAIF_RELEASE, F(.identity = 2, .number = handle_of(64, 0)), 10, 0);
    escrow("release, the first row", CAIF_RELEASE, F(.identity = 1, .number = handle_of(64, 0)), 0, 0);
    plain("hand over to the running place", CAIF_HAND_OVER, F(.place = 0), 0, 0);
    plain("hand over to another place", CAIF_HAND_OVER, F(.place = 1), 0, 0);
    plain("hand over to 16", CAIF_HAND_OVER, F(.place = CAIF_NONE), 0, 0);
    plain("hand over, no such place", CAIF_HAND_OVER, F(.place = 17), 6, 0);
    plain("create, taken", CAIF_CREATE, F(.place = 0, .identity = 1), 7, 0);
    escrow("chain, no such way", CAIF_CHAIN, F(.place = 4, .identity = 1), 19, 0);
    escrow("chain, no logged value", CAIF_CHAIN, F(.place = CAIF_WAY_LOGGED, .identity = 1), 19, 0);
    escrow("chain, no row", CAIF_CHAIN, F(.place = CAIF_WAY_ESCROWED, .identity = 1, .number = 7), 18, 0);
}

/* Identity 1 has logged the value 2 and no other. */
static void on_few(void)
{
    uint8_t value[VALUE];
    begin(FEW, "box with a few rows");
    on_running();
    plain("report", CAIF_REPORT, F(0), 0, 2 + 256 * 3 + 65536 * 3);
    plain("create", CAIF_CREATE, F(.place = 2, .identity = 3), 0, 2);
    tries("create in a high place", CAIF_CREATE, F(.place = 15, .identity = 3), none, 0, 0, 15, CAIF_HIGH_PLACE);
    tries("hand over to an empty high place", CAIF_HAND_OVER, F(.place = 15), none, 0, 7, 0, CAIF_HIGH_PLACE);
    put_value(value, 2);
    checks("check, logged", 1, value, VALUE, 1);
    plain("attest, logged already", CAIF_ATTEST, F(.length = VALUE), 0, tag_of(1, value, VALUE));
    tries("attest, another value", CAIF_ATTEST, F(.length = 0), none, 0, 0, tag_of(1, none, 0), CAIF_OTHER_VALUE);
    escrow("protect", CAIF_PROTECT, F(.identity = 2, .length = 256, .number = 0), 0, handle_of(256, 0));
    escrow("protect, three draws passed over", CAIF_PROTECT, F(.identity = 2, .length = VALUE), 0, handle_of(VALUE, 3));
    escrow("retrieve, the spent row", CAIF_RETRIEVE, F(.identity = 1, .number = handle_of(VALUE, 2)), 10, 0);
    escrow("release, the spent row", CAIF_RELEASE, F(.identity = 1, .number = handle_of(VALUE, 2)), 10, 0);
}

/* What is answered alike on every full box. */
static void on_rows(void)
{
    uint8_t value[VALUE];
    put_value(value, 63);
    on_running();
    plain("report", CAIF_REPORT, F(0), 0, 16 + 256 * 64 + 65536 * 64);
    checks("check, the last row", 1, value, VALUE, 1);
    tries("attest, refused 13", CAIF_ATTEST, F(.offset = 64, .length = VALUE), none, 0, 13, 0, CAIF_OTHER_VALUE);
    escrow("protect, refused 14", CAIF_PROTECT, F(.identity = 1, .length = VALUE), 14, 0);
    escrow("retrieve, the last row", CAIF_RETRIEVE, F(.identity = 1, .number = handle_of(VALUE, 63)), 0, VALUE);
    escrow("release, the last row", CAIF_RELEASE, F(.identity = 1, .number = handle_of(VALUE, 63)), 0, 0);
    tries("hand over to a high place", CAIF_HAND_OVER, F(.place = 15), none, 0, 0, 0, CAIF_HIGH_PLACE);
}

static void on_full(void)
{
    uint8_t value[VALUE];
    put_value(value, 63);
    begin(FULL, "full box");
    on_rows();
    plain("attest, logged already", CAIF_ATTEST, F(.length = VALUE), 0, tag_of(1, value, VALUE));
    begin(STOPPED, "full box, none runs");
    plain("hand over", CAIF_HAND_OVER, F(.place = 0), 0, 0);
    plain("attest", CAIF_ATTEST, F(.length = VALUE), 4, 0);
    escrow("release", CAIF_RELEASE, F(.identity = 1, .number = handle_of(VALUE, 0)), 4, 0);
    begin(OWN, "full box of one identity");
    on_rows();
    tries("attest, logged already", CAIF_ATTEST, F(.length = VALUE), none, 0, 0, tag_of(1, value, VALUE), CAIF_OTHER_VALUE);
}

static void on_nearly_full(void)
{
    uint8_t value[CAIF_VALUE];
    for (unsigned at = 0; at < CAIF_VALUE; at++)
        value[at] = 3;
    begin(ONE_LEFT, "box with 63 rows");
    plain("create, 15 services before", CAIF_CREATE, F(.place = 3, .identity = 99), 0, 3);
    plain("attest, the 64th row", CAIF_ATTEST, F(.offset = 9, .length = VALUE), 0, tag_of(1, value, VALUE));
    escrow("protect, 63 draws passed over", CAIF_PROTECT, F(.identity = 1, .length = VALUE), 0, handle_of(VALUE, 63));
    for (unsigned at = 0; at < CAIF_VALUE; at++)
        value[at] = at == 250 ? 15 : 8;
    begin(LONG, "rows of 256 bytes");
    checks("check, the last row", 1, value, CAIF_VALUE, 1);
    escrow("retrieve, the last row", CAIF_RETRIEVE, F(.identity = 1, .number = handle_of(256, 15)), 0, CAIF_VALUE);
    escrow("release, the first row", CAIF_RELEASE, F(.identity = 1, .number = handle_of(256, 0)), 0, 0);
    escrow("protect, bytes are lacking", CAIF_PROTECT, F(.identity = 1, .length = 1), 14, 0);
}

/* So many of a chain's links, with more bytes behind the logged values. */
static void follows(unsigned which, unsigned links, unsigned more, uint8_t code)
{
    static const uint8_t value[3] = {1, 0, CAIF_WAY_END};
    static struct head head;
    char name[64];
    head_of(which, links, &head);
    copy(head.bytes + head.count, value, more);
    snprintf(name, sizeof name, "%u link%s, %s%s", links, links == 1 ? "" : "s", chains[which].name,
             more ? ", bytes behind" : "");
    tries(name, CAIF_CHAIN, head.fields, head.bytes, head.count + more, code, code == 0 ? links : 0, CAIF_NO_ESCROW);
}

static void on_chains(void)
{
    static const uint8_t codes[] = {0, 18, 18, 19, 9};
    for (unsigned which = 0; which < CHAIN_BOXES; which++) {
        const struct chain *chain = &chains[which];
        unsigned most = chain->links < CAIF_LINKS ? chain->links : CAIF_LINKS;
        bool logged = chain->last == NOT_LOGGED || chain->last == NO_IDENTITY;
        begin(CHAINS + which, "chain");
        follows(which, 1, logged ? 3 : 0, codes[chain->last]);
        follows(which, most, logged ? 3 : 0, codes[chain->last]);
        if (logged)
            follows(which, most, 0, 19);
        if (chain->last == ENDS)
            follows(which, most, 3, 19);
        if (chain->links > CAIF_LINKS)
            follows(which, chain->links, 0, 20);
    }
}

/* A record that is not read, on a fresh box and on a full one. */
static void malformed(const char *name, const uint8_t *bytes, size_t count, uint8_t code, uint64_t number)
{
    struct answer wanted = {code, number};
    tries_bytes("malformed record on a fresh box", name, FRESH_BOX, right_sizes, bytes, count, wanted, ALIKE);
    tries_bytes("malformed record on a full box", name, FULL, right_sizes, bytes, count, wanted, ALIKE);
}

static void on_malformed(void)
{
    static const uint8_t kinds[] = {0, 2, 3, 17, 255};
    char name[64];
    malformed("empty", none, 0, 1, 1);
    malformed("no kind", (const uint8_t[]){1}, 1, 1, 1);
    malformed("bit 0 down", (const uint8_t[]){2}, 1, 2, 0);
    for (unsigned n = 0; n < sizeof kinds; n++) {
        snprintf(name, sizeof name, "kind %u", kinds[n]);
        malformed(name, (const uint8_t[]){1, kinds[n]}, 2, 2, 0);
    }
    malformed("another map", (const uint8_t[]){3, CAIF_REPORT, 0}, 3, 3, 0);
    malformed("no place", (const uint8_t[]){3, CAIF_HAND_OVER}, 2, 1, 1);
    struct caif_fields fields = F(.place = 2, .identity = 1, .number = 7);
    struct caif_written written = caif_write(CAIF_CHAIN, fields, many, 65535, record, sizeof record);
    for (size_t cut = 3; cut < 21; cut += 8) {
        snprintf(name, sizeof name, "a chain cut after %zu bytes", cut);
        malformed(name, record, cut, 1, cut == 19 ? 2 : 8);
    }
    malformed("the longest, cut by one byte", record, written.length - 1, 1, 1);
}

/* The longest record, which is read whole: none runs on the fresh box; on the others the first way is none. */
static void on_longest(void)
{
    begin(FRESH_BOX, "fresh box");
    tries("the longest record", CAIF_CHAIN, F(.identity = 1), many, 65535, 4, 0, CAIF_NO_ESCROW);
    begin(FULL, "full box");
    tries("the longest record", CAIF_CHAIN, F(.identity = 1), many, 65535, 19, 0, CAIF_NO_ESCROW);
}

/* One buffer is lent with another size. */
static void lends(const char *name, struct sizes sizes)
{
    static const uint8_t report[2] = {1, CAIF_REPORT};
    tries_bytes("wrong size on a fresh box", name, FRESH_BOX, sizes, report, 2, (struct answer){15, 0}, ALIKE);
    tries_bytes("wrong size on a full box", name, FULL, sizes, report, 2, (struct answer){15, 0}, ALIKE);
}

static void on_sizes(void)
{
    static const char *const names[] = {"log rows",  "escrow rows",   "heaps", "shared memory",
                                        "log values", "escrow values", "output"};
    for (unsigned n = 0; n < 7; n++)
        for (int more = -1; more <= 1; more++) {
            struct sizes sizes = right_sizes;
            char name[64];
            size_t *all[] = {&sizes.log,        &sizes.escrow,        &sizes.heaps, &sizes.shared,
                             &sizes.log_values, &sizes.escrow_values, &sizes.output};
            *all[n] = more == 0 ? 0 : *all[n] + (size_t)more;
            snprintf(name, sizeof name, "%zu of %s", *all[n], names[n]);
            lends(name, sizes);
        }
    for (unsigned n = DAMAGED; n < CHAINS; n++) {
        char name[64];
        snprintf(name, sizeof name, "damage %u", n - DAMAGED + 1);
        begin(n, "box that is not sound");
        plain(name, CAIF_REPORT, F(0), 15, 0);
    }
}

void make_trials(void)
{
    for (size_t n = 0; n < sizeof many; n++)
        many[n] = 5;
    add(FRESH, "no input", "the box record", FRESH_BOX);
    on_fresh();
    on_few();
    on_full();
    on_nearly_full();
    on_chains();
    on_malformed();
    on_longest();
    on_sizes();
    make_writes();
    make_desks();
}
