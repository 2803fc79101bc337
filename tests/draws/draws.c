/* A host in C that compares the handles of a box with the C library's own draws. POSIX's nrand48 takes a number of 48
 * bits, in three parts of 16, and leaves the next one there; this program does not know the rule.
 *
 *     draws                 the library's next number after each
 *     draws old|12|47       a wrong one, so that the comparison must fail: one more than the number; one more than the
 *                           library's; the library's modulo 2^47
 */
#define _XOPEN_SOURCE 700
#include <stdbool.h>
#include <stdio.h>
#include <stdlib.h>
#include <string.h>

#include "caif.h"

#define LAST (CAIF_DRAWS - 1)
#define BEFORE_0 107048004364969    /* the library's next number after it is 0 */
#define BEFORE_LAST 142368275371844 /* and after this, the last of 48 bits */

static struct caif_box held;
static struct caif_log_row log_rows[CAIF_LOG_ROWS];
static struct caif_escrow_row escrow_rows[CAIF_ESCROW_ROWS];
static uint8_t heaps[CAIF_HEAPS], shared[CAIF_SHARED], output[CAIF_OUTPUT];
static uint8_t log_values[CAIF_LOG_VALUES], escrow_values[CAIF_ESCROW_VALUES];

static unsigned passed, failed;

static void check(bool holds, const char *what, uint64_t draw, uint64_t is, uint64_t wanted)
{
    if (holds) {
        passed++;
        return;
    }
    if (++failed <= 5)
        printf("FAILED: %s, from draw %llu: %llu, and not %llu\n", what, (unsigned long long)draw,
               (unsigned long long)is, (unsigned long long)wanted);
}

/* The library's next number. The lowest part stands first: what nrand48 returns, the 31 highest bits, says so. */
static uint64_t library_next(uint64_t draw)
{
    unsigned short parts[3] = {(unsigned short)draw, (unsigned short)(draw >> 16), (unsigned short)(draw >> 32)};
    long high = nrand48(parts);
    uint64_t next = (uint64_t)parts[2] << 32 | (uint64_t)parts[1] << 16 | parts[0];
    check((uint64_t)high == next >> 17, "the library's parts", draw, (uint64_t)high, next >> 17);
    return next;
}

static uint64_t old_next(uint64_t draw)
{
    return (draw + 1) % CAIF_DRAWS;
}

static uint64_t next_and_1(uint64_t draw)
{
    return (library_next(draw) + 1) % CAIF_DRAWS;
}

static uint64_t next_of_47_bits(uint64_t draw)
{
    return library_next(draw) % (CAIF_DRAWS / 2);
}

static uint64_t (*next)(uint64_t) = library_next;

static struct caif_reply call(uint8_t kind, struct caif_fields fields)
{
    uint8_t record[64];
    struct caif_written written = caif_write(kind, fields, (const uint8_t *)"", 0, record, sizeof record);
    struct caif_reply reply =
        caif_call(held, log_rows, CAIF_LOG_ROWS, escrow_rows, CAIF_ESCROW_ROWS, heaps, CAIF_HEAPS, shared,
                  CAIF_SHARED, log_values, CAIF_LOG_VALUES, escrow_values, CAIF_ESCROW_VALUES, output,
                  CAIF_OUTPUT, record, written.length);
    held = reply.held;
    return reply;
}

static void runs(uint8_t place)
{
    struct caif_reply reply = call(CAIF_HAND_OVER, (struct caif_fields){.place = place});
    check(reply.code == 0, "a hand over", place, reply.code, 0);
}

/* A fresh box with programs 1 and 2 in places 0 and 1, of which the first runs. */
static void begin(void)
{
    held = caif_fresh();
    memset(log_rows, 0, sizeof log_rows);
    memset(escrow_rows, 0, sizeof escrow_rows);
    memset(heaps, 0, sizeof heaps);
    memset(shared, 0, sizeof shared);
    memset(log_values, 0, sizeof log_values);
    memset(escrow_values, 0, sizeof escrow_values);
    for (uint8_t place = 0; place < 2; place++) {
        struct caif_reply reply = call(CAIF_CREATE, (struct caif_fields){.place = place, .identity = place + 1});
        check(reply.code == 0, "a create", place, reply.code, 0);
    }
    runs(0);
}

/* Protects that many bytes with a draw: the handle, in the answer and in the row, has to be that of the wanted draw. */
static void protects(uint64_t recipient, uint16_t length, uint64_t draw, uint64_t wanted, const char *what)
{
    unsigned row = held.escrow.rows;
    struct caif_reply reply =
        call(CAIF_PROTECT, (struct caif_fields){.identity = recipient, .length = length, .number = draw});
    uint64_t handle = length * CAIF_DRAWS + wanted;
    check(reply.code == 0, what, draw, reply.code, 0);
    check(reply.number == handle, what, draw, reply.number, handle);
    uint64_t stored = row < CAIF_ESCROW_ROWS ? escrow_rows[row].handle : 0;
    check(row < CAIF_ESCROW_ROWS && stored == handle, "the row", draw, stored, handle);
}

/* One draw until the box is full: the handles follow the library. */
static void same_draw(uint16_t length, uint64_t draw)
{
    unsigned rows = length * CAIF_ESCROW_ROWS > CAIF_ESCROW_VALUES ? CAIF_ESCROW_VALUES / length : CAIF_ESCROW_ROWS;
    uint64_t wanted = draw;
    begin();
    for (unsigned n = 0; n < rows; n++) {
        protects(2, length, draw, wanted, "the same draw again");
        wanted = next(wanted);
    }
    struct caif_reply full = call(CAIF_PROTECT, (struct caif_fields){.identity = 2, .length = length, .number = draw});
    check(full.code == CAIF_ESCROW_FULL, "a full box", draw, full.code, CAIF_ESCROW_FULL);
}

/* The same with each value released before the next: a spent row's draw is passed over as one in use, and the rows run out
 * though no byte is used. */
static void released_draw(uint16_t length, uint64_t draw)
{
    uint64_t wanted = draw;
    begin();
    for (unsigned n = 0; n < CAIF_ESCROW_ROWS; n++) {
        protects(1, length, draw, wanted, "a released draw again");
        struct caif_reply reply =
            call(CAIF_RELEASE, (struct caif_fields){.identity = 1, .number = length * CAIF_DRAWS + wanted});
        check(reply.code == 0, "a release", draw, reply.code, 0);
        wanted = next(wanted);
    }
    check(held.escrow.bytes == 0, "no byte is used", draw, held.escrow.bytes, 0);
    struct caif_reply full = call(CAIF_PROTECT, (struct caif_fields){.identity = 1, .length = length, .number = draw});
    check(full.code == CAIF_ESCROW_FULL, "a box of spent rows", draw, full.code, CAIF_ESCROW_FULL);
}

/* Of the first 62 draws one is left free, though it is in use under another length; the others are given, every fifth
 * after the other, by two programs for three. The free one is not passed over. Once it is given too, the next is the
 * 63rd, from wherever in the sequence one begins. */
static void one_left_free(uint64_t draw, unsigned left, unsigned from)
{
    uint64_t draws[63];
    draws[0] = draw;
    for (unsigned n = 1; n < 63; n++)
        draws[n] = next(draws[n - 1]);
    begin();
    protects(2, 2, draws[left], draws[left], "a draw of another length");
    for (unsigned n = 0, at = 0; n < 62; n++, at = (at + 5) % 62)
        if (at != left) {
            runs(n % 2);
            protects(1 + n % 3, 1, draws[at], draws[at], "a free draw");
        }
    protects(2, 1, draws[from <= left ? from : 0], draws[left], "the one that is free");
    protects(1, 1, draws[from], draws[62], "past all");
}

static const uint16_t lengths[5] = {0, 1, 5, 64, 256};

/* With every length, and with every sixth draw left free. */
static void try_wholly(uint64_t draw)
{
    for (unsigned n = 0; n < 5; n++) {
        same_draw(lengths[n], draw);
        released_draw(lengths[n], draw);
    }
    for (unsigned left = 0; left < 62; left += 6)
        one_left_free(draw, left, left * left % 62);
}

static void try_once(uint64_t draw, unsigned n)
{
    same_draw(lengths[n % 5], draw);
    one_left_free(draw, n % 62, n / 3 % 62);
}

/* Any numbers, from a generator of another kind (xorshift), below 2^48. */
static uint64_t any(void)
{
    static uint64_t x = 88172645463325252u;
    x ^= x << 13;
    x ^= x >> 7;
    x ^= x << 17;
    return x >> 16;
}

int main(int count, char **words)
{
    static const uint64_t ends[] = {0, 1, 2, 7, LAST / 2, LAST / 2 + 1, LAST - 2, LAST - 1, LAST, BEFORE_0, BEFORE_LAST};
    const char *rule = count > 1 ? words[1] : "";
    if (!strcmp(rule, "old"))
        next = old_next;
    else if (!strcmp(rule, "12"))
        next = next_and_1;
    else if (!strcmp(rule, "47"))
        next = next_of_47_bits;
    for (unsigned n = 0; n < sizeof ends / sizeof *ends; n++)
        try_wholly(ends[n]);
    check(library_next(BEFORE_0) == 0, "the draw before 0", BEFORE_0, library_next(BEFORE_0), 0);
    check(library_next(BEFORE_LAST) == LAST, "the draw before the last", BEFORE_LAST, library_next(BEFORE_LAST), LAST);
    for (unsigned bit = 0; bit < 48; bit++) {
        try_once((uint64_t)1 << bit, bit);
        try_once(LAST - ((uint64_t)1 << bit), bit);
    }
    for (unsigned n = 0; n < 1000; n++)
        try_once(any(), n);
    printf("%u passed, %u failed\n", passed, failed);
    return passed == 0 || failed != 0;
}
