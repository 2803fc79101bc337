/* Refusals through the header, with the box record by value and lent. Each alters nothing. A cut record gets how many bytes
 * finish the field being read, every other refusal number 0. */
#include "host.h"

static const uint8_t report[] = {0x01, 0x0D};

/* This answer, with nothing shown and nothing altered. */
static void answered(struct host *host, const struct sizes *sizes, const uint8_t *bytes, size_t count, uint8_t code,
                     uint64_t number, size_t used, const char *label)
{
    static struct host before;
    before = *host;
    check_call_lent(host, sizes, bytes, count, (struct caif_answer){code, number, used, 0}, &before, label);
    struct caif_reply reply = call(host, sizes, bytes, count);
    check_reply(&reply, code, number, used, 0, label);
    check_host(host, &before, label);
}

/* Not for CAIF_CUT: the number is 0. */
static void refused(struct host *host, const struct sizes *sizes, const uint8_t *bytes, size_t count, uint8_t code,
                    size_t used, const char *label)
{
    answered(host, sizes, bytes, count, code, 0, used, label);
}

static void cut(struct host *host, const uint8_t *bytes, size_t count, uint64_t missing, const char *label)
{
    answered(host, &right_sizes, bytes, count, CAIF_CUT, missing, 0, label);
}

/* The buffer of this size, which is not its own. */
static void wrong_size(size_t offset, size_t size, const char *label)
{
    static struct host host;
    struct sizes sizes = right_sizes;
    *(size_t *)((char *)&sizes + offset) = size;
    run_example(&host);
    refused(&host, &sizes, report, sizeof report, CAIF_NOT_SOUND, 0, label);
}

#define WRONG_SIZES(buffer, right)                                                \
    wrong_size(offsetof(struct sizes, buffer), 0, #buffer " empty");              \
    wrong_size(offsetof(struct sizes, buffer), (right)-1, #buffer " one short");  \
    wrong_size(offsetof(struct sizes, buffer), (right) + 1, #buffer " one long")

static void check_sizes(void)
{
    WRONG_SIZES(log, 64);
    WRONG_SIZES(escrow, 64);
    WRONG_SIZES(heaps, 4096);
    WRONG_SIZES(shared, 1024);
    WRONG_SIZES(log_values, 4096);
    WRONG_SIZES(escrow_values, 4096);
    WRONG_SIZES(output, 1024);
}

static void check_damaged(void)
{
    static struct host host;
    run_example(&host);
    host.held.running = 3;
    refused(&host, &right_sizes, report, sizeof report, CAIF_NOT_SOUND, 0, "an empty place runs");
    run_example(&host);
    host.escrow[0].handle += CAIF_DRAWS;
    refused(&host, &right_sizes, report, sizeof report, CAIF_NOT_SOUND, 0, "a handle of another length");
    for (unsigned mark = 1; mark < 256; mark++) {
        run_example(&host);
        host.escrow[0].mark = mark;
        refused(&host, &right_sizes, report, sizeof report, CAIF_NOT_SOUND, 0, "a value's row with a mark");
        run_example(&host);
        host.escrow[1].mark = mark;
        refused(&host, &right_sizes, report, sizeof report, CAIF_NOT_SOUND, 0, "an unused row with a mark");
    }
    run_example(&host);
    host.log_values[4095] = 1;
    refused(&host, &right_sizes, report, 0, CAIF_NOT_SOUND, 0, "an unused value byte");
}

#define REFUSED(code, used, label, ...)                                                              \
    refused(&host, &right_sizes, (const uint8_t[]){__VA_ARGS__}, sizeof((uint8_t[]){__VA_ARGS__}), code, used, label)

#define ZEROS 0, 0, 0, 0, 0, 0, 0, 0 /* a field of 8 bytes */

static void check_records(void)
{
    static struct host host;
    run_example(&host);
    REFUSED(CAIF_UNKNOWN_KIND, 0, "no kind", 0x02);
    REFUSED(CAIF_UNKNOWN_KIND, 0, "kind 17", 0x01, 0x11);
    REFUSED(CAIF_UNKNOWN_KIND, 0, "kind 17 with a release's map", 0x25, 0x11, 2);
    REFUSED(CAIF_UNKNOWN_KIND, 0, "kind 2, retired", 0x03, 0x02, 0);
    REFUSED(CAIF_UNKNOWN_KIND, 0, "kind 2, retired, cut", 0x03, 0x02);
    REFUSED(CAIF_UNKNOWN_KIND, 0, "kind 3, retired", 0x01, 0x03);
    REFUSED(CAIF_WRONG_MAP, 0, "another map", 0x03, 0x0D, 0);
    REFUSED(CAIF_WRONG_MAP, 0, "hand over with another map", 0x01, 0x0E);
    REFUSED(CAIF_WRONG_MAP, 0, "chain with check's map", 0x65, 0x0F, 2);
    REFUSED(CAIF_WRONG_MAP, 0, "release with a chain's map", 0x67, 0x10, 2);
    REFUSED(CAIF_WRONG_MAP, 0, "release with retrieve's map", 0x2D, 0x10);
    REFUSED(CAIF_WRONG_MAP, 0, "a cut record with another map", 0x4B, 0x07, 0);
    REFUSED(CAIF_UNKNOWN_KIND, 0, "a cut record of kind 0", 0x07, 0);
    REFUSED(CAIF_NONE_RUNS, 2, "exit while none runs", 0x01, 0x04, 0xFF);
    REFUSED(CAIF_NONE_RUNS, 21, "chain while none runs", 0x67, 0x0F, 0, ZEROS, ZEROS, 0, 0, 0xFF);
    REFUSED(CAIF_NONE_RUNS, 18, "release while none runs", 0x25, 0x10, ZEROS, ZEROS, 0xFF);
    REFUSED(CAIF_NO_PLACE, 3, "hand over to 17", 0x03, 0x0E, 17);
    REFUSED(CAIF_PLACE_STATE, 3, "hand over to an empty place", 0x03, 0x0E, 1);
}

/* A record, and what it misses when it is cut, from no byte of it on. */
struct cuts {
    const char *name;
    uint8_t record[32];
    size_t length;
    uint64_t missing[32];
    size_t count;
};

#define CUT_RECORD(...) .record = {__VA_ARGS__}, .length = sizeof((uint8_t[]){__VA_ARGS__})
#define MISSING(...) .missing = {__VA_ARGS__}, .count = sizeof((uint64_t[]){__VA_ARGS__}) / sizeof(uint64_t)
#define EIGHT 8, 7, 6, 5, 4, 3, 2, 1 /* a field of 8 bytes */

static const struct cuts cuts[] = {
    {"create", CUT_RECORD(0x07, 0x01, 3, 9, 0xFF, 0xFF, 0xFF, 0xFF, 0xFF, 0xFF, 0xFF), MISSING(1, 1, 1, EIGHT)},
    {"exit", CUT_RECORD(0x01, 0x04), MISSING(1, 1)},
    {"heap write", CUT_RECORD(0x4B, 0x05, 0, 0xFF, 0xFF, 2, 0, 0x41, 0x42), MISSING(1, 1, 1, 2, 1, 2, 1, 2, 1)},
    {"heap read", CUT_RECORD(0x1B, 0x06, 0, 0, 0, 1, 0), MISSING(1, 1, 1, 2, 1, 2, 1)},
    {"attest", CUT_RECORD(0x19, 0x09, 0, 0, 1, 0), MISSING(1, 1, 2, 1, 2, 1)},
    {"check",
     CUT_RECORD(0x65, 0x0A, 1, 0, 0, 0, 0, 0, 0, 0, 0x1F, 0xA2, 0xF5, 0x8F, 0xDC, 0x6D, 0x9A, 0x52, 1, 0, 0x41),
     MISSING(1, 1, EIGHT, EIGHT, 2, 1, 1)},
    {"retrieve", CUT_RECORD(0x2D, 0x0C, 1, 0, 0, 0, 0, 0, 0, 0, 0xFF, 0, 7, 0, 0, 0, 0, 0, 1, 0),
     MISSING(1, 1, EIGHT, 2, 1, EIGHT)},
    {"hand over", CUT_RECORD(0x03, 0x0E, 0), MISSING(1, 1, 1)},
    {"chain",
     CUT_RECORD(0x67, 0x0F, 2, 1, 0, 0, 0, 0, 0, 0, 0, 0x1F, 0xA2, 0xF5, 0x8F, 0xDC, 0x6D, 0x9A, 0x52, 3, 0, 1, 0, 1),
     MISSING(1, 1, 1, EIGHT, EIGHT, 2, 1, 3, 2, 1)},
    {"release", CUT_RECORD(0x25, 0x10, 1, 0, 0, 0, 0, 0, 0, 0, 7, 0, 0, 0, 0, 0, 1, 0), MISSING(1, 1, EIGHT, EIGHT)},
};

/* Every field of these cut at every byte, the empty record and the map alone among them. */
static void check_cut_records(void)
{
    static struct host host;
    run_example(&host);
    for (size_t n = 0; n < sizeof cuts / sizeof *cuts; n++) {
        check(cuts[n].count == cuts[n].length, cuts[n].name, "as many as its bytes");
        for (size_t end = 0; end < cuts[n].length; end++) {
            char label[64];
            snprintf(label, sizeof label, "%s cut at %zu", cuts[n].name, end);
            cut(&host, cuts[n].record, end, cuts[n].missing[end], label);
        }
    }
}

/* The contents of a shared write: count of them, of which so many are there. */
static void cut_contents(size_t count, size_t there, uint64_t missing, const char *label)
{
    static struct host host;
    static uint8_t record[6 + 65535];
    memset(record, 0xFF, sizeof record);
    memcpy(record, (const uint8_t[]){0x49, 0x07, 0, 0, count % 256, count / 256}, 6);
    run_example(&host);
    cut(&host, record, 6 + there, missing, label);
}

static void check_cut_contents(void)
{
    cut_contents(1, 0, 1, "none of 1 byte");
    cut_contents(255, 0, 255, "none of 255 bytes");
    cut_contents(256, 0, 256, "none of 256 bytes");
    cut_contents(256, 255, 1, "255 of 256 bytes");
    cut_contents(257, 1, 256, "1 of 257 bytes");
    cut_contents(65535, 0, 65535, "none of 65,535 bytes");
    cut_contents(65535, 255, 65280, "255 of 65,535 bytes");
    cut_contents(65535, 65534, 1, "65,534 of 65,535 bytes");
}

/* Two bytes are missing: one leaves one missing, two finish the field, whatever they are. */
static void check_finished(void)
{
    static struct host host;
    static const uint8_t fillers[] = {0x00, 0x01, 0xFF};
    run_example(&host);
    for (size_t n = 0; n < sizeof fillers; n++) {
        uint8_t byte = fillers[n];
        const uint8_t record[] = {0x1B, 0x06, 0, byte, byte, byte, byte};
        cut(&host, record, 3, 2, "an offset");
        cut(&host, record, 4, 1, "an offset's second byte");
        cut(&host, record, 5, 2, "a length behind an offset");
        refused(&host, &right_sizes, record, 7, CAIF_NONE_RUNS, 7, "a heap read while none runs");
    }
}

static void not_written(uint8_t kind, size_t bytes_size, size_t out_size, uint8_t code, const char *label)
{
    static uint8_t bytes[65536], out[70000], before[70000];
    memset(out, 0xCC, sizeof out);
    memset(before, 0xCC, sizeof before);
    struct caif_written written =
        caif_write(kind, (struct caif_fields){.identity = 1}, bytes, bytes_size, out, out_size);
    check(written.code == code, label, "code");
    check(written.length == 0, label, "length");
    check(memcmp(out, before, sizeof out) == 0, label, "the buffer");
}

static void check_writer(void)
{
    not_written(CAIF_CREATE, 0, 10, CAIF_NO_ROOM, "a create in 10 bytes");
    not_written(CAIF_REPORT, 0, 0, CAIF_NO_ROOM, "a report in no bytes");
    not_written(CAIF_HEAP_WRITE, 65536, 70000, CAIF_NO_ROOM, "65,536 bytes");
    not_written(CAIF_HAND_OVER, 0, 2, CAIF_NO_ROOM, "a hand over in 2 bytes");
    not_written(0, 0, 64, CAIF_UNKNOWN_KIND, "kind 0");
    not_written(2, 0, 64, CAIF_UNKNOWN_KIND, "kind 2, retired");
    not_written(3, 0, 0, CAIF_UNKNOWN_KIND, "kind 3, retired, in no bytes");
    not_written(17, 0, 0, CAIF_UNKNOWN_KIND, "kind 17 in no bytes");
    not_written(CAIF_RELEASE, 0, 17, CAIF_NO_ROOM, "a release in 17 bytes");
    not_written(CAIF_CHAIN, 0, 20, CAIF_NO_ROOM, "a chain in 20 bytes");
    not_written(CAIF_CHAIN, 65536, 70000, CAIF_NO_ROOM, "a chain with 65,536 bytes");
}

void check_refusals(void)
{
    check_sizes();
    check_damaged();
    check_records();
    check_cut_records();
    check_cut_contents();
    check_finished();
    check_writer();
}
