/* Alignment of each struct, whose size and offsets the header asserts; sizes, kinds, ways and codes, as the header says. */
#include "host.h"

#define ALIGNED(type, bytes) check(_Alignof(struct type) == (bytes), "layout", "alignment of " #type)

static void check_aligned(void)
{
    ALIGNED(caif_used, 2);
    ALIGNED(caif_box, 8);
    ALIGNED(caif_log_row, 8);
    ALIGNED(caif_escrow_row, 8);
    ALIGNED(caif_reply, 8);
    ALIGNED(caif_answer, 8);
    ALIGNED(caif_fields, 8);
    ALIGNED(caif_written, 8);
    ALIGNED(caif_tank, 8);
    ALIGNED(caif_tank_answer, 1);
}

#define TAIL(field)                                                                                            \
    check(offsetof(struct caif_answer, field) + sizeof(struct caif_box) == offsetof(struct caif_reply, field), \
          "layout", "caif_answer." #field)

/* An answer without a box record is what follows the record in one with it. */
static void check_answer(void)
{
    check(sizeof(struct caif_answer) + sizeof(struct caif_box) == sizeof(struct caif_reply), "layout", "size of caif_answer");
    TAIL(code);
    TAIL(number);
    TAIL(used);
    TAIL(shown);
}

/* The sizes that documents 01 and 02 name. */
static void check_sizes(void)
{
    check(CAIF_PLACES == 16 && CAIF_NONE == 16, "sizes", "places");
    check(CAIF_HEAP == 256 && CAIF_HEAPS == 4096 && CAIF_SHARED == 1024, "sizes", "heaps and shared memory");
    check(CAIF_LOG_ROWS == 64 && CAIF_LOG_VALUES == 4096, "sizes", "the log");
    check(CAIF_ESCROW_ROWS == 64 && CAIF_ESCROW_VALUES == 4096, "sizes", "the escrow");
    check(CAIF_OUTPUT == 1024 && CAIF_VALUE == 256, "sizes", "the output buffer and a value");
    check(CAIF_DRAWS == (uint64_t)1 << 48, "sizes", "draws");
    check(CAIF_LINKS == 16, "sizes", "the links of a chain");
    check(CAIF_LEVEL_ONE_PLACES == 4, "sizes", "the places of level one");
    check(CAIF_TANKS == 8, "sizes", "the tanks of a list");
    check(CAIF_RECORD == 1 + 1 + 1 + 8 + 8 + 2 + 65535, "sizes", "the longest record, a chain's");
}

/* Whether it is one of the kinds. A kind more in the header makes the compiler warn of this. */
static int is_kind(enum caif_kind kind)
{
    switch (kind) {
    case CAIF_CREATE:
    case CAIF_EXIT:
    case CAIF_HEAP_WRITE:
    case CAIF_HEAP_READ:
    case CAIF_SHARED_WRITE:
    case CAIF_SHARED_READ:
    case CAIF_ATTEST:
    case CAIF_CHECK:
    case CAIF_PROTECT:
    case CAIF_RETRIEVE:
    case CAIF_REPORT:
    case CAIF_HAND_OVER:
    case CAIF_CHAIN:
    case CAIF_RELEASE:
        return 1;
    }
    return 0;
}

/* Whether it is one of the codes. */
static int is_code(enum caif_code code)
{
    switch (code) {
    case CAIF_ACCEPTED:
    case CAIF_CUT:
    case CAIF_UNKNOWN_KIND:
    case CAIF_WRONG_MAP:
    case CAIF_NONE_RUNS:
    case CAIF_NO_PLACE:
    case CAIF_PLACE_STATE:
    case CAIF_NOT_RUNNING:
    case CAIF_IDENTITY_ZERO:
    case CAIF_NO_ROW:
    case CAIF_BEYOND:
    case CAIF_DRAW:
    case CAIF_LOG_FULL:
    case CAIF_ESCROW_FULL:
    case CAIF_NOT_SOUND:
    case CAIF_TOO_LONG:
    case CAIF_NO_ROOM:
    case CAIF_NO_LINK:
    case CAIF_BAD_CHAIN:
    case CAIF_LONG_CHAIN:
    case CAIF_NO_ESCROW:
    case CAIF_HIGH_PLACE:
    case CAIF_OTHER_VALUE:
    case CAIF_OUT_OF_RANGE:
    case CAIF_NOT_LOGGED:
    case CAIF_CORRECTION_RANGE:
        return 1;
    }
    return 0;
}

/* The numbers of the kinds. None has 2 or 3, which are retired. */
static void check_kinds(void)
{
    check(!is_kind((enum caif_kind)2) && !is_kind((enum caif_kind)3), "kinds", "2 and 3 are reserved");
    check(CAIF_CREATE == 1 && CAIF_EXIT == 4 && CAIF_HAND_OVER == 14, "kinds", "service life");
    check(CAIF_HEAP_WRITE == 5 && CAIF_HEAP_READ == 6, "kinds", "heap");
    check(CAIF_SHARED_WRITE == 7 && CAIF_SHARED_READ == 8, "kinds", "shared memory");
    check(CAIF_ATTEST == 9 && CAIF_CHECK == 10, "kinds", "the log");
    check(CAIF_PROTECT == 11 && CAIF_RETRIEVE == 12 && CAIF_REPORT == 13, "kinds", "the escrow and the report");
    check(CAIF_CHAIN == 15 && CAIF_RELEASE == 16, "kinds", "a chain and a release");
    check(!is_kind((enum caif_kind)17), "kinds", "16 is the last");
}

/* The first byte of a link value. A chain's place field is the second or the third. */
static void check_ways(void)
{
    check(CAIF_WAY_END == 1 && CAIF_WAY_LOGGED == 2 && CAIF_WAY_ESCROWED == 3, "ways", "the three");
}

/* The numbers of the codes. None has 5, which is retired. */
static void check_codes(void)
{
    check(!is_code((enum caif_code)5), "codes", "5 is reserved");
    check(CAIF_ACCEPTED == 0, "codes", "accepted");
    check(CAIF_CUT == 1 && CAIF_UNKNOWN_KIND == 2 && CAIF_WRONG_MAP == 3, "codes", "the record's");
    check(CAIF_NONE_RUNS == 4 && CAIF_NO_PLACE == 6 && CAIF_PLACE_STATE == 7 && CAIF_NOT_RUNNING == 8, "codes",
          "places");
    check(CAIF_IDENTITY_ZERO == 9 && CAIF_NO_ROW == 10 && CAIF_BEYOND == 11 && CAIF_DRAW == 12, "codes", "fields");
    check(CAIF_LOG_FULL == 13 && CAIF_ESCROW_FULL == 14, "codes", "full tables");
    check(CAIF_NOT_SOUND == 15 && CAIF_TOO_LONG == 16 && CAIF_NO_ROOM == 17, "codes", "the host's");
    check(CAIF_NO_LINK == 18 && CAIF_BAD_CHAIN == 19 && CAIF_LONG_CHAIN == 20, "codes", "a chain's");
    check(CAIF_NO_ESCROW == 21 && CAIF_HIGH_PLACE == 22 && CAIF_OTHER_VALUE == 23, "codes", "level one's");
    check(CAIF_OUT_OF_RANGE == 24 && CAIF_NOT_LOGGED == 25 && CAIF_CORRECTION_RANGE == 26, "codes", "the desk's");
    check(!is_code((enum caif_code)27), "codes", "26 is the last");
}

/* What to do with a tank. */
static void check_actions(void)
{
    check(CAIF_NO_ACTION == 0 && CAIF_HOLD == 1 && CAIF_COOL == 2 && CAIF_WARM == 3, "actions", "the four");
}

void check_layout(void)
{
    check_sizes();
    check_kinds();
    check_ways();
    check_codes();
    check_actions();
    check_aligned();
    check_answer();
}
