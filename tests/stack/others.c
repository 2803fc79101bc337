/* Every trial of the writer and of the tank desk. */
#include "stack.h"

#define F(...) (struct caif_fields){__VA_ARGS__}

/* So many bytes, all of one kind, in the world's bytes: where they stand. */
static size_t bytes_of(size_t count)
{
    size_t at = world->bytes_used;
    if (sizeof world->bytes - at < count)
        stop("too many bytes", "the writer");
    for (size_t n = 0; n < count; n++)
        world->bytes[at + n] = 5;
    world->bytes_used += count;
    return at;
}

static void writes(const char *name, uint8_t kind, size_t at, size_t count, size_t room, struct answer wanted)
{
    struct trial *trial = add(WRITE, "writer", name, FRESH_BOX);
    trial->kind = kind;
    trial->fields = F(.place = 2, .identity = ~(uint64_t)0, .offset = 65535, .length = 65535, .number = ~(uint64_t)0);
    trial->at = at;
    trial->count = count;
    trial->room = room;
    trial->wanted = wanted;
}

void make_writes(void)
{
    static const uint8_t lengths[] = {[1] = 11, [4] = 2,   [5] = 71,  [6] = 7,   [7] = 70,  [8] = 6,   [9] = 6,
                                      [10] = 84, [11] = 22, [12] = 20, [13] = 2, [14] = 3, [15] = 85, [16] = 18};
    char name[64];
    size_t at = bytes_of(65536);
    for (unsigned kind = 0; kind < 18; kind++) {
        bool known = kind < sizeof lengths && lengths[kind] != 0;
        snprintf(name, sizeof name, "kind %u", kind);
        writes(name, kind, at, 64, CAIF_RECORD, known ? (struct answer){0, lengths[kind]} : (struct answer){2, 0});
    }
    writes("the longest record", CAIF_CHAIN, at, 65535, CAIF_RECORD, (struct answer){0, CAIF_RECORD});
    writes("the longest record, no room", CAIF_CHAIN, at, 65535, CAIF_RECORD - 1, (struct answer){17, 0});
    writes("too many bytes", CAIF_CHAIN, at, 65536, CAIF_RECORD + 1, (struct answer){17, 0});
    writes("no room at all", CAIF_REPORT, at, 0, 0, (struct answer){17, 0});
}

/* One tank, alone and in lists of one and of eight. */
static void asks(const char *where, const char *name, unsigned box, struct sizes sizes, struct caif_tank tank,
                 uint8_t code, uint64_t number)
{
    for (unsigned tanks = 0; tanks <= CAIF_TANKS; tanks = tanks == 0 ? 1 : tanks + 7) {
        char full[80];
        snprintf(full, sizeof full, "%s%s", name, tanks == 1 ? ", a list of one" : tanks == 8 ? ", a list of eight" : "");
        struct trial *trial = add(tanks == 0 ? DESK : SHIFT, where, full, box);
        trial->sizes = sizes;
        trial->tank = tank;
        trial->tanks = trial->answers = tanks;
        trial->wanted = (struct answer){code, number};
    }
}

static void refuses(unsigned tanks, unsigned answers, uint8_t code)
{
    char name[64];
    snprintf(name, sizeof name, "a list of %u with %u answers", tanks, answers);
    struct trial *trial = add(SHIFT, "full box", name, FULL);
    trial->tanks = tanks;
    trial->answers = answers;
    trial->wanted = (struct answer){code, 0};
}

#define REFUSED(number) (256 * (number))

/* The tanks that every box answers alike, but for the probe, which the box has or has not. */
static void on_box(const char *where, unsigned box)
{
    struct caif_tank bare = {.reading = 1844, .setpoint = 1800};
    struct caif_tank unknown = {.reading = 1844, .setpoint = 1800, .probe = 1, .tag = 7, .given = 1};
    struct caif_tank nobody = unknown, outside = {.reading = 3001, .setpoint = 1800, .given = 1};
    struct sizes sizes = right_sizes;
    nobody.probe = 0;
    asks(where, "no correction", box, right_sizes, bare, 0, CAIF_HOLD);
    asks(where, "out of range", box, right_sizes, outside, CAIF_OUT_OF_RANGE, 0);
    asks(where, "a correction that is not logged", box, right_sizes, unknown, CAIF_NOT_LOGGED, 0);
    asks(where, "a correction of identity 0", box, right_sizes, nobody, CAIF_NOT_LOGGED, REFUSED(9));
    sizes.output--;
    asks(where, "a correction, wrong size", box, sizes, unknown, CAIF_NOT_LOGGED, REFUSED(15));
    sizes = right_sizes;
    sizes.log--;
    asks(where, "a correction, wrong rows", box, sizes, unknown, CAIF_NOT_LOGGED, REFUSED(15));
}

/* A tank whose correction place 0, identity 1, has logged. */
static struct caif_tank logged(uint8_t low, uint8_t high)
{
    struct caif_tank tank = {.reading = 1844, .setpoint = 1800, .probe = 1, .given = 1, .correction = {low, high}};
    tank.tag = tag_of(1, tank.correction, 2);
    return tank;
}

void make_desks(void)
{
    on_box("fresh box", FRESH_BOX);
    on_box("box with a few rows", FEW);
    on_box("full box", FULL);
    asks("box with corrections", "a logged correction", CORRECTED, right_sizes, logged(7, 0), 0, CAIF_COOL);
    asks("box with corrections", "a logged correction that is too large", CORRECTED, right_sizes, logged(0, 1),
         CAIF_CORRECTION_RANGE, 0);
    asks("full box", "a logged correction", FULL_CORRECTED, right_sizes, logged(7, 0), 0, CAIF_COOL);
    asks("full box", "a logged correction that is too large", FULL_CORRECTED, right_sizes, logged(0, 1),
         CAIF_CORRECTION_RANGE, 0);
    for (unsigned n = DAMAGED; n < CHAINS; n++) {
        char name[64];
        snprintf(name, sizeof name, "damage %u", n - DAMAGED + 1);
        asks("box that is not sound", name, n, right_sizes, logged(7, 0), CAIF_NOT_LOGGED, REFUSED(15));
    }
    refuses(0, 0, CAIF_OUT_OF_RANGE);
    refuses(9, 9, CAIF_OUT_OF_RANGE);
    refuses(0, 1, CAIF_NOT_SOUND);
    refuses(1, 0, CAIF_NOT_SOUND);
    refuses(8, 7, CAIF_NOT_SOUND);
    refuses(9, 8, CAIF_NOT_SOUND);
}
