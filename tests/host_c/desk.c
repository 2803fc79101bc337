/* The tank desk: a correction that a program in the box logs, the answers about tanks with it and without one, each of the
 * three refusals, and lists. Nothing of the box and no lent buffer is ever altered. */
#include "host.h"

#define ID_5 5, 0, 0, 0, 0, 0, 0, 0
#define ID_6 6, 0, 0, 0, 0, 0, 0, 0

/* FNV-1a of identity and correction. */
#define TAG_5_7 17199577631704119871u        /* 5, 7 */
#define TAG_5_MINUS_50 17389983358858647599u /* 5, -50 */
#define TAG_5_50 17179489554260678626u       /* 5, 50 */
#define TAG_5_51 17180446129377032971u       /* 5, 51 */
#define TAG_5_MINUS_51 17388857458951548760u /* 5, -51 */
#define TAG_5_263 17199576532192491660u      /* 5, 263: its lowest byte is 7 */
#define TAG_5_MINUS_7 17369717160531436172u  /* 5, -7, which nobody logs */
#define TAG_6_7 4074679888414084644u         /* 6, 7, which nobody logs */

#define COUNT(table) (sizeof(table) / sizeof *(table))

/* What a test sets of a tank; the rest of it, its padding too, is 0xA5. */
struct asked {
    const char *label;
    int32_t reading, setpoint;
    uint8_t given;
    uint64_t probe, tag;
    uint8_t correction[2];
    struct caif_tank_answer wanted;
};

#define NO_CORRECTION .given = 0, .probe = 5, .tag = TAG_5_51, .correction = {51, 0}
#define CORRECTION(by, of, ...) .given = 1, .probe = by, .tag = of, .correction = {__VA_ARGS__}
#define SEVEN CORRECTION(5, TAG_5_7, 7, 0)
#define MINUS_50 CORRECTION(5, TAG_5_MINUS_50, 0xCE, 0xFF)
#define FIFTY CORRECTION(5, TAG_5_50, 50, 0)
#define LARGE CORRECTION(5, TAG_5_51, 51, 0)
#define HOLDS .wanted = {CAIF_ACCEPTED, CAIF_HOLD, 0}
#define COOLS .wanted = {CAIF_ACCEPTED, CAIF_COOL, 0}
#define WARMS .wanted = {CAIF_ACCEPTED, CAIF_WARM, 0}
#define REFUSED(code, refusal) .wanted = {code, CAIF_NO_ACTION, refusal}

static struct caif_tank tank_of(const struct asked *asked)
{
    struct caif_tank tank;
    memset(&tank, 0xA5, sizeof tank);
    tank.reading = asked->reading;
    tank.setpoint = asked->setpoint;
    tank.probe = asked->probe;
    tank.tag = asked->tag;
    tank.given = asked->given;
    memcpy(tank.correction, asked->correction, sizeof tank.correction);
    return tank;
}

static void check_answer(const struct caif_tank_answer *is, const struct caif_tank_answer *wanted, const char *label)
{
    check(is->code == wanted->code, label, "code");
    check(is->action == wanted->action, label, "action");
    check(is->refusal == wanted->refusal, label, "refusal");
}

/* Each tank alone has its answer. */
static void check_tanks(struct host *host, const struct sizes *sizes, const struct asked *asked, size_t count)
{
    for (size_t n = 0; n < count; n++) {
        static struct host before;
        before = *host;
        struct caif_tank_answer answer = desk(host, sizes, tank_of(&asked[n]));
        check_answer(&answer, &asked[n].wanted, asked[n].label);
        check_host(host, &before, asked[n].label);
    }
}

#define MOST 10 /* tanks in a list of these tests */

/* The tanks as a list, with so many answers lent for it: this code, and the tanks' own answers, or none written. */
static void check_list(struct host *host, const struct sizes *sizes, const struct asked *asked, size_t count,
                       size_t lent, uint8_t code, const char *label)
{
    static struct host before;
    struct caif_tank tanks[MOST + 1], tanks_before[MOST + 1];
    struct caif_tank_answer answers[MOST + 1], wanted[MOST + 1];
    before = *host;
    memset(tanks, 0xA5, sizeof tanks);
    memset(answers, 0xCC, sizeof answers);
    memset(wanted, 0xCC, sizeof wanted);
    for (size_t n = 0; n < count; n++) {
        tanks[n] = tank_of(&asked[n]);
        if (code == CAIF_ACCEPTED)
            wanted[n] = asked[n].wanted;
    }
    memcpy(tanks_before, tanks, sizeof tanks);
    check(shift(host, sizes, tanks, count, answers, lent) == code, label, "the list's code");
    for (size_t n = 0; n < COUNT(answers); n++)
        check_answer(&answers[n], &wanted[n], label);
    check(memcmp(tanks, tanks_before, sizeof tanks) == 0, label, "the tanks");
    check_host(host, &before, label);
}

/* Identity 5, in place 2, logs these, each as two bytes from the front of its heap on; 6 is in place 4. */
static void make_probes(struct host *host)
{
    static const uint8_t values[] = {7, 0, 0xCE, 0xFF, 50, 0, 51, 0, 0xCD, 0xFF, 7, 1};
    static const uint64_t tags[] = {TAG_5_7, TAG_5_MINUS_50, TAG_5_50, TAG_5_51, TAG_5_MINUS_51, TAG_5_263};
    const uint8_t create_5[] = {0x07, 0x01, 2, ID_5}, create_6[] = {0x07, 0x01, 4, ID_6};
    const uint8_t start[] = {0x03, 0x0E, 2}, stop[] = {0x03, 0x0E, CAIF_NONE};
    uint8_t heap_write[7 + sizeof values] = {0x4B, 0x05, 2, 0, 0, sizeof values, 0};
    memcpy(heap_write + 7, values, sizeof values);
    make_fresh(host);
    call(host, &right_sizes, create_5, sizeof create_5);
    call(host, &right_sizes, create_6, sizeof create_6);
    call(host, &right_sizes, start, sizeof start);
    call(host, &right_sizes, heap_write, sizeof heap_write);
    for (uint8_t n = 0; n < COUNT(tags); n++) {
        const uint8_t attest[] = {0x19, 0x09, 2 * n, 0, 2, 0};
        struct caif_reply reply = call(host, &right_sizes, attest, sizeof attest);
        check_reply(&reply, CAIF_ACCEPTED, tags[n], sizeof attest, 0, "a correction is logged");
    }
    call(host, &right_sizes, stop, sizeof stop);
}

/* Where no correction is given, the fields around it are not looked at: here they hold one that is too large. */
static const struct asked decided[] = {
    {"0 above", 1800, 1800, NO_CORRECTION, HOLDS},
    {"50 above", 1850, 1800, NO_CORRECTION, HOLDS},
    {"51 above", 1851, 1800, NO_CORRECTION, COOLS},
    {"50 below", 1750, 1800, NO_CORRECTION, HOLDS},
    {"51 below", 1749, 1800, NO_CORRECTION, WARMS},
    {"the lowest", -500, -500, NO_CORRECTION, HOLDS},
    {"the highest", 3000, 3000, NO_CORRECTION, HOLDS},
    {"the farthest above", 3000, -500, NO_CORRECTION, COOLS},
    {"the farthest below", -500, 3000, NO_CORRECTION, WARMS},
};

/* The correction moves the bounds. */
static const struct asked corrected[] = {
    {"43 above, and 7", 1843, 1800, SEVEN, HOLDS},
    {"44 above, and 7", 1844, 1800, SEVEN, COOLS},
    {"57 below, and 7", 1743, 1800, SEVEN, HOLDS},
    {"58 below, and 7", 1742, 1800, SEVEN, WARMS},
    {"100 above, less 50", 1900, 1800, MINUS_50, HOLDS},
    {"101 above, less 50", 1901, 1800, MINUS_50, COOLS},
    {"0 above, and 50", 1800, 1800, FIFTY, HOLDS},
    {"1 above, and 50", 1801, 1800, FIFTY, COOLS},
    {"0 above, less 50", 1800, 1800, MINUS_50, HOLDS},
    {"1 below, less 50", 1799, 1800, MINUS_50, WARMS},
    {"the highest, and 7", 3000, 2957, SEVEN, HOLDS},
    {"the lowest, less 50", -500, -500, MINUS_50, HOLDS},
    {"given as 2", 1844, 1800, .given = 2, .probe = 5, .tag = TAG_5_7, .correction = {7, 0}, COOLS},
    {"given as 255", 1844, 1800, .given = 255, .probe = 5, .tag = TAG_5_7, .correction = {7, 0}, COOLS},
};

/* 24 before 25 before 26. */
static const struct asked refused[] = {
    {"reading -501", -501, 0, NO_CORRECTION, REFUSED(CAIF_OUT_OF_RANGE, 0)},
    {"reading 3,001", 3001, 0, SEVEN, REFUSED(CAIF_OUT_OF_RANGE, 0)},
    {"setpoint -501", 0, -501, SEVEN, REFUSED(CAIF_OUT_OF_RANGE, 0)},
    {"setpoint 3,001", 0, 3001, NO_CORRECTION, REFUSED(CAIF_OUT_OF_RANGE, 0)},
    {"the ends of the type", INT32_MAX, INT32_MIN, LARGE, REFUSED(CAIF_OUT_OF_RANGE, 0)},
    {"24 and 25", 3001, 0, CORRECTION(0, TAG_5_7, 7, 0), REFUSED(CAIF_OUT_OF_RANGE, 0)},
    {"24 and 26", 3001, 0, LARGE, REFUSED(CAIF_OUT_OF_RANGE, 0)},
    {"the probe swapped", 0, 0, CORRECTION(6, TAG_5_7, 7, 0), REFUSED(CAIF_NOT_LOGGED, 0)},
    {"the probe swapped, its own tag", 0, 0, CORRECTION(6, TAG_6_7, 7, 0), REFUSED(CAIF_NOT_LOGGED, 0)},
    {"another tag", 0, 0, CORRECTION(5, TAG_5_7 + 1, 7, 0), REFUSED(CAIF_NOT_LOGGED, 0)},
    {"the bytes swapped", 0, 0, CORRECTION(5, TAG_5_7, 0, 7), REFUSED(CAIF_NOT_LOGGED, 0)},
    {"never logged", 0, 0, CORRECTION(5, TAG_5_MINUS_7, 0xF9, 0xFF), REFUSED(CAIF_NOT_LOGGED, 0)},
    {"identity 0", 0, 0, CORRECTION(0, TAG_5_7, 7, 0), REFUSED(CAIF_NOT_LOGGED, CAIF_IDENTITY_ZERO)},
    {"25 and 26", 0, 0, CORRECTION(6, TAG_5_51, 51, 0), REFUSED(CAIF_NOT_LOGGED, 0)},
    {"25 with 9 and 26", 0, 0, CORRECTION(0, TAG_5_51, 51, 0), REFUSED(CAIF_NOT_LOGGED, CAIF_IDENTITY_ZERO)},
    {"correction 51", 0, 0, LARGE, REFUSED(CAIF_CORRECTION_RANGE, 0)},
    {"correction -51", 0, 0, CORRECTION(5, TAG_5_MINUS_51, 0xCD, 0xFF), REFUSED(CAIF_CORRECTION_RANGE, 0)},
    {"correction 263", 0, 0, CORRECTION(5, TAG_5_263, 7, 1), REFUSED(CAIF_CORRECTION_RANGE, 0)},
};

/* On a box that is not sound, and with a buffer that is not of its size. */
static const struct asked not_sound[] = {
    {"not sound: a logged correction", 0, 0, SEVEN, REFUSED(CAIF_NOT_LOGGED, CAIF_NOT_SOUND)},
    {"not sound: identity 0", 0, 0, CORRECTION(0, TAG_5_7, 7, 0), REFUSED(CAIF_NOT_LOGGED, CAIF_NOT_SOUND)},
    {"not sound: 25 and 26", 0, 0, LARGE, REFUSED(CAIF_NOT_LOGGED, CAIF_NOT_SOUND)},
    {"not sound: 24", -501, 0, SEVEN, REFUSED(CAIF_OUT_OF_RANGE, 0)},
    {"not sound: no correction, hold", 0, 0, NO_CORRECTION, HOLDS},
    {"not sound: no correction, cool", 51, 0, NO_CORRECTION, COOLS},
    {"not sound: no correction, warm", 0, 51, NO_CORRECTION, WARMS},
};

/* Each tank has its own answer, whatever the others have. */
static const struct asked mixed[MOST] = {
    {"1 of a list", 1851, 1800, NO_CORRECTION, COOLS},
    {"2 of a list", 3001, 1800, NO_CORRECTION, REFUSED(CAIF_OUT_OF_RANGE, 0)},
    {"3 of a list", 1843, 1800, SEVEN, HOLDS},
    {"4 of a list", 0, 0, CORRECTION(6, TAG_5_7, 7, 0), REFUSED(CAIF_NOT_LOGGED, 0)},
    {"5 of a list", 1799, 1800, MINUS_50, WARMS},
    {"6 of a list", 0, 0, CORRECTION(0, TAG_5_7, 7, 0), REFUSED(CAIF_NOT_LOGGED, CAIF_IDENTITY_ZERO)},
    {"7 of a list", 0, 0, LARGE, REFUSED(CAIF_CORRECTION_RANGE, 0)},
    {"8 of a list", 1749, 1800, NO_CORRECTION, WARMS},
    {"9 of a list", 0, 0, NO_CORRECTION, HOLDS},
    {"10 of a list", 0, 0, NO_CORRECTION, HOLDS},
};

/* Every count of tanks, with as many answers, one fewer and one more: 15 before 24. */
static void check_lists(struct host *host)
{
    for (size_t count = 0; count <= MOST; count++) {
        uint8_t code = 1 <= count && count <= CAIF_TANKS ? CAIF_ACCEPTED : CAIF_OUT_OF_RANGE;
        char label[32];
        snprintf(label, sizeof label, "a list of %zu", count);
        check_list(host, &right_sizes, mixed, count, count, code, label);
        check_list(host, &right_sizes, mixed, count, count + 1, CAIF_NOT_SOUND, "an answer more");
        if (count > 0)
            check_list(host, &right_sizes, mixed, count, count - 1, CAIF_NOT_SOUND, "an answer fewer");
    }
    for (size_t first = 1; first < MOST; first++) {
        size_t rest = MOST - first, count = rest < CAIF_TANKS ? rest : CAIF_TANKS;
        check_list(host, &right_sizes, mixed + first, count, count, CAIF_ACCEPTED, "a list from another tank on");
    }
}

/* 25 with 15 where a correction is given: every buffer empty, one short and one long, then a damaged box. */
static void check_not_sound(const struct host *probes)
{
    static struct host host;
    for (size_t n = 0; n < sizeof right_sizes / sizeof(size_t); n++) {
        size_t right = ((const size_t *)&right_sizes)[n], wrong[] = {0, right - 1, right + 1};
        for (size_t m = 0; m < COUNT(wrong); m++) {
            struct sizes sizes = right_sizes;
            ((size_t *)&sizes)[n] = wrong[m];
            host = *probes;
            check_tanks(&host, &sizes, not_sound, COUNT(not_sound));
            check_list(&host, &sizes, not_sound, COUNT(not_sound), COUNT(not_sound), CAIF_ACCEPTED, "a wrong size");
        }
    }
    host = *probes;
    host.log[0].tag++;
    check_tanks(&host, &right_sizes, not_sound, COUNT(not_sound));
    check_list(&host, &right_sizes, not_sound, COUNT(not_sound), COUNT(not_sound), CAIF_ACCEPTED, "another tag");
    check_list(&host, &right_sizes, not_sound, 0, 0, CAIF_OUT_OF_RANGE, "an empty list on a box that is not sound");
    check_list(&host, &right_sizes, not_sound, 0, 1, CAIF_NOT_SOUND, "an empty list with an answer, on such a box");
}

void check_desk(void)
{
    static struct host host;
    make_fresh(&host);
    check_tanks(&host, &right_sizes, decided, COUNT(decided));
    make_probes(&host);
    check_tanks(&host, &right_sizes, decided, COUNT(decided));
    check_tanks(&host, &right_sizes, corrected, COUNT(corrected));
    check_tanks(&host, &right_sizes, refused, COUNT(refused));
    check_lists(&host);
    check_not_sound(&host);
}
