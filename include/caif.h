/* The reference box, for hosts in C or C++. Link libcaif.a, which `sh tools/build caif` proves and writes to
 * target/staticlib/. The tank desk, caif_desk and caif_shift, is in libdesk.a, by `sh tools/build desk`; a host links either
 * or both. The archives are for the System V ABI of x86-64, little endian. This header asserts that the compiler lays each
 * struct out as they do, in C11 and C++11 and later; older compilers are not asked.
 *
 * A host holds a box record, which goes in and comes back by value or, with caif_call_lent, is lent too, and the tables
 * and buffers that it lends for each call. Whatever they hold, and however long they are, caif_call, caif_call_lent and
 * caif_call_level_one return: a buffer that is not of its size, or a box that is not sound, gets code 15, and a refusal
 * alters nothing. caif_desk and caif_shift return too, and alter nothing of the box, accepted or refused: what they only
 * read is const, and may be memory that cannot be written (which is tested, not proved: a contract speaks of what stands
 * there before and after).
 *
 * What a host owes, because no program can test it: each pointer leads to as many elements as the count after it
 * says, is not null even where that count is 0, and is aligned for its type; a lent box record is one such element, with
 * no count; no two of what is lent overlap; nobody else reads or writes it during a call. Nor can a function test its
 * stack: whoever calls one has CAIF_STACK bytes of it left.
 */
#ifndef CAIF_H
#define CAIF_H

#include <stddef.h>
#include <stdint.h>

#if defined(__cplusplus) && __cplusplus >= 201103L
#define CAIF_ASSERT(holds) static_assert(holds, #holds);
#elif !defined(__cplusplus) && defined(__STDC_VERSION__) && __STDC_VERSION__ >= 201112L
#define CAIF_ASSERT(holds) _Static_assert(holds, #holds);
#else
#define CAIF_ASSERT(holds)
#endif
#define CAIF_SIZE(type, size) CAIF_ASSERT(sizeof(struct type) == size)
#define CAIF_FIELD(type, field, offset) CAIF_ASSERT(offsetof(struct type, field) == offset)

#ifdef __cplusplus
extern "C" {
#endif

/* Sizes: byte buffers in bytes, tables in rows. */
#define CAIF_PLACES 16          /* places, 0 to 15 */
#define CAIF_NONE 16            /* the running place where none runs */
#define CAIF_HEAP 256           /* the heap of one place */
#define CAIF_HEAPS 4096         /* all heaps: place p has the 256 bytes from 256 * p */
#define CAIF_SHARED 1024        /* shared memory */
#define CAIF_LOG_ROWS 64        /* the log */
#define CAIF_LOG_VALUES 4096    /* the log's value bytes */
#define CAIF_ESCROW_ROWS 64     /* the escrow */
#define CAIF_ESCROW_VALUES 4096 /* the escrow's value bytes */
#define CAIF_OUTPUT 1024        /* the output buffer */
#define CAIF_VALUE 256          /* the longest value */
#define CAIF_LINKS 16           /* the most links of a chain */
#define CAIF_LEVEL_ONE_PLACES 4 /* the places of level-one papers, 0 to 3 */
#define CAIF_TANKS 8            /* the most tanks of a list */
#define CAIF_RECORD 65556       /* the longest record: a chain with 65,535 bytes */
#define CAIF_STACK 24576        /* the stack that any function here needs, in bytes: below the frame of its caller, with the
                                 * arguments that it gets there, the C library's functions on memory and their first
                                 * binding included */

/* A draw is below this, 2^48, and a handle is length * 2^48 + draw. Where an escrow row has that handle, a spent one too,
 * the draw after it is tried, and so on until one is free. The draw after d is 25214903917 * d + 11 modulo 2^48, as POSIX
 * defines for drand48. */
#define CAIF_DRAWS 281474976710656

/* Kinds of calls. After each, the fields of its record, in the record's order. Kinds 2 and 3, start and yield, are
 * retired: hand over took their place. The two numbers stay reserved and get no other meaning. */
enum caif_kind {
    CAIF_CREATE = 1,       /* place, identity */
    CAIF_EXIT = 4,         /* none */
    CAIF_HEAP_WRITE = 5,   /* place, offset, bytes */
    CAIF_HEAP_READ = 6,    /* place, offset, length */
    CAIF_SHARED_WRITE = 7, /* offset, bytes */
    CAIF_SHARED_READ = 8,  /* offset, length */
    CAIF_ATTEST = 9,       /* offset, length; answers the tag */
    CAIF_CHECK = 10,       /* identity, number (the tag), bytes; answers 1 or 0 */
    CAIF_PROTECT = 11,     /* identity (the recipient), offset, length, number (the draw); answers the handle */
    CAIF_RETRIEVE = 12,    /* identity (the source), offset, number (the handle); answers the length */
    CAIF_REPORT = 13,      /* none; answers services + 256 * log rows + 65,536 * escrow rows */
    CAIF_HAND_OVER = 14,   /* place: it runs next, and none where it is CAIF_NONE; a refusal leaves what runs */
    CAIF_CHAIN = 15,       /* place (the first way), identity, number (the tag or the handle), bytes (the logged values
                            * in order, each after a 2-byte count); answers the count of links */
    CAIF_RELEASE = 16      /* identity (the source), number (the handle): the running recipient gives the value up. Its
                            * row stays, spent; later values close up, and the freed bytes serve later protects */
};

/* Ways of a chain of custody: the first in a chain's place field, the others at the front of the links' values. After
 * CAIF_WAY_LOGGED and CAIF_WAY_ESCROWED a value has the next link's identity (8 bytes) and its tag or handle (8 bytes),
 * lowest byte first; what follows is payload. A chain alters nothing and shows nothing. */
enum caif_way {
    CAIF_WAY_END = 1,     /* the chain ends here: at the front of a value only, never in the place field */
    CAIF_WAY_LOGGED = 2,  /* the next link is logged: its value is the next of the bytes, and is checked */
    CAIF_WAY_ESCROWED = 3 /* the next link is escrowed: it is looked up for the running service as recipient */
};

/* Codes. A refusal shows nothing and alters nothing. Its number is 0, but with CAIF_CUT, where it is how many more
 * bytes finish the field being read: its width less what is there of it. The map and the kind are fields of one byte;
 * the count of a bytes field and its contents are two fields. Where conditions of several hold, the order is 15; then
 * empty record 1, bit 0 of the map down 2, no kind byte 1, kind 2, map 3, cut field 1; then rising numbers, but for
 * a chain: 4; then link by link 20, 19 by its way or a cut value, 9, 18, 19 by its head; then 19 by bytes left over.
 * caif_call_level_one has three codes more, each at its place: 21 before 4, 22 directly after 6, 23 directly after 11.
 * The desk gives 24, 25 and 26 to a tank, and 15 and 24 to a whole list, in this order, and no others.
 * Code 5, one already runs, is retired with start: no call gives it, and the number stays reserved and gets no other
 * meaning. */
enum caif_code {
    CAIF_ACCEPTED = 0,
    CAIF_CUT = 1,            /* the record ends before a field does, or is empty; number: the bytes missing */
    CAIF_UNKNOWN_KIND = 2,   /* bit 0 of the map is down, or the kind is 0, 2, 3 or 17 to 255 */
    CAIF_WRONG_MAP = 3,      /* the map is not the kind's */
    CAIF_NONE_RUNS = 4,      /* exit, heap write, heap read, attest, protect, retrieve, chain, release */
    CAIF_NO_PLACE = 6,       /* place above 15: create, heap write, heap read; above 16: hand over */
    CAIF_PLACE_STATE = 7,    /* place taken (create), or 0 to 15 and empty (hand over) */
    CAIF_NOT_RUNNING = 8,    /* the place is not the running one: heap write, heap read */
    CAIF_IDENTITY_ZERO = 9,  /* create, check, protect, retrieve, release; chain: of any link */
    CAIF_NO_ROW = 10,        /* no such escrow row, or it is spent: retrieve, release */
    CAIF_BEYOND = 11,        /* offset + length (retrieve: the stored length) is beyond 256 (heap) or 1,024 (shared) */
    CAIF_DRAW = 12,          /* draw of 2^48 or more: protect */
    CAIF_LOG_FULL = 13,      /* the pair is not yet logged, and rows or value bytes are lacking: attest */
    CAIF_ESCROW_FULL = 14,   /* rows, of which spent ones stay used, or value bytes are lacking: protect */
    CAIF_NOT_SOUND = 15,     /* a lent buffer is not of its size, or the box is not sound; a list: not as many answers as
                              * tanks */
    CAIF_TOO_LONG = 16,      /* a script of more than 65,536 bytes: only the programs boxrun and levelone give it */
    CAIF_NO_ROOM = 17,       /* the writer's buffer is shorter than the record, or its bytes are over 65,535 */
    CAIF_NO_LINK = 18,       /* the check of a logged link is no, or an escrowed link has no unspent row: chain */
    CAIF_BAD_CHAIN = 19,     /* a way is not 2 or 3, a logged value is cut in the bytes, a value is empty, begins with
                              * another byte than 1 to 3 or has fewer than 16 bytes after a 2 or 3, or bytes are left
                              * over at the end: chain */
    CAIF_LONG_CHAIN = 20,    /* a link more after CAIF_LINKS of them: chain */
    CAIF_NO_ESCROW = 21,     /* level one: protect, retrieve, chain, release */
    CAIF_HIGH_PLACE = 22,    /* level one: place above 3 in a create, or in a hand over other than CAIF_NONE */
    CAIF_OTHER_VALUE = 23,   /* level one: the log has a row of this identity with another value, also where it has one with
                              * this value too: attest */
    CAIF_OUT_OF_RANGE = 24,  /* desk: reading or setpoint outside -500 to 3,000; a list: not 1 to CAIF_TANKS tanks */
    CAIF_NOT_LOGGED = 25,    /* desk: the correction is not logged, or the box refused to check it */
    CAIF_CORRECTION_RANGE = 26 /* desk: the correction is outside -50 to 50 */
};

/* The used rows and value bytes of a table. 4 bytes. */
struct caif_used {
    uint16_t rows;
    uint16_t bytes;
};
CAIF_SIZE(caif_used, 4)
CAIF_FIELD(caif_used, rows, 0)
CAIF_FIELD(caif_used, bytes, 2)

/* The box record. 144 bytes. */
struct caif_box {
    uint16_t taken;                    /* bit p stands when place p is taken */
    uint8_t running;                   /* 0 to 15, or CAIF_NONE */
    uint64_t identities[CAIF_PLACES];  /* 0 in empty places */
    struct caif_used log;
    struct caif_used escrow;
};
CAIF_SIZE(caif_box, 144)
CAIF_FIELD(caif_box, taken, 0)
CAIF_FIELD(caif_box, running, 2)
CAIF_FIELD(caif_box, identities, 8)
CAIF_FIELD(caif_box, log, 136)
CAIF_FIELD(caif_box, escrow, 140)

/* A row of the log: that identity logged length bytes, from first on in the log's values. 24 bytes. */
struct caif_log_row {
    uint64_t identity;
    uint64_t tag;
    uint16_t first;
    uint16_t length;
};
CAIF_SIZE(caif_log_row, 24)
CAIF_FIELD(caif_log_row, identity, 0)
CAIF_FIELD(caif_log_row, tag, 8)
CAIF_FIELD(caif_log_row, first, 16)
CAIF_FIELD(caif_log_row, length, 18)

/* A row of the escrow: source protected length bytes for recipient, from first on in the escrow's values. Once recipient
 * has released them the row is spent: its length is 0, and it keeps its handle and is still counted. 32 bytes. */
struct caif_escrow_row {
    uint64_t source;
    uint64_t recipient;
    uint64_t handle;
    uint16_t first;
    uint16_t length;
    uint8_t mark; /* 1 where the row is spent, else 0 */
};
CAIF_SIZE(caif_escrow_row, 32)
CAIF_FIELD(caif_escrow_row, source, 0)
CAIF_FIELD(caif_escrow_row, recipient, 8)
CAIF_FIELD(caif_escrow_row, handle, 16)
CAIF_FIELD(caif_escrow_row, first, 24)
CAIF_FIELD(caif_escrow_row, length, 26)
CAIF_FIELD(caif_escrow_row, mark, 28)

/* An answer, with the box record as the call leaves it. 176 bytes. */
struct caif_reply {
    struct caif_box held;
    uint8_t code;    /* enum caif_code */
    uint64_t number; /* with a refusal 0, but with CAIF_CUT the bytes missing */
    size_t used;     /* bytes of the record; 0 with codes 1, 2, 3 and 15 */
    uint16_t shown;  /* how many bytes stand at the front of the output buffer */
};
CAIF_SIZE(caif_reply, 176)
CAIF_FIELD(caif_reply, held, 0)
CAIF_FIELD(caif_reply, code, 144)
CAIF_FIELD(caif_reply, number, 152)
CAIF_FIELD(caif_reply, used, 160)
CAIF_FIELD(caif_reply, shown, 168)

/* The same answer without a box record. 32 bytes. */
struct caif_answer {
    uint8_t code;    /* enum caif_code */
    uint64_t number; /* as in caif_reply */
    size_t used;     /* as in caif_reply */
    uint16_t shown;  /* how many bytes stand at the front of the output buffer */
};
CAIF_SIZE(caif_answer, 32)
CAIF_FIELD(caif_answer, code, 0)
CAIF_FIELD(caif_answer, number, 8)
CAIF_FIELD(caif_answer, used, 16)
CAIF_FIELD(caif_answer, shown, 24)

/* The numbers of a record's fields; those that the kind does not have are passed over. 32 bytes. */
struct caif_fields {
    uint8_t place;    /* in a chain the first link's way */
    uint64_t identity;
    uint16_t offset;
    uint16_t length;
    uint64_t number;  /* a tag, a handle or a draw */
};
CAIF_SIZE(caif_fields, 32)
CAIF_FIELD(caif_fields, place, 0)
CAIF_FIELD(caif_fields, identity, 8)
CAIF_FIELD(caif_fields, offset, 16)
CAIF_FIELD(caif_fields, length, 18)
CAIF_FIELD(caif_fields, number, 24)

/* What the writer answers. 16 bytes. */
struct caif_written {
    uint8_t code;   /* 0, CAIF_UNKNOWN_KIND or CAIF_NO_ROOM */
    size_t length;  /* of the record; 0 with a refusal */
};
CAIF_SIZE(caif_written, 16)
CAIF_FIELD(caif_written, code, 0)
CAIF_FIELD(caif_written, length, 8)

/* A tank, as the desk is asked about it. Temperatures are in hundredths of a degree Celsius. 32 bytes. */
struct caif_tank {
    int32_t reading;
    int32_t setpoint;
    uint64_t probe;         /* the identity of the program that logged the correction */
    uint64_t tag;           /* the tag that it got */
    uint8_t given;          /* 0: no correction, zero is used, and probe, tag and correction are not looked at; else one is
                             * given */
    uint8_t correction[2];  /* two's complement, lowest byte first */
};
CAIF_SIZE(caif_tank, 32)
CAIF_FIELD(caif_tank, reading, 0)
CAIF_FIELD(caif_tank, setpoint, 4)
CAIF_FIELD(caif_tank, probe, 8)
CAIF_FIELD(caif_tank, tag, 16)
CAIF_FIELD(caif_tank, given, 24)
CAIF_FIELD(caif_tank, correction, 25)

/* What to do with a tank. Reading plus correction minus setpoint above 50 is cool, below -50 is warm, otherwise hold. */
enum caif_action {
    CAIF_NO_ACTION = 0, /* with a refusal */
    CAIF_HOLD = 1,
    CAIF_COOL = 2,
    CAIF_WARM = 3
};

/* The desk's answer about a tank. 3 bytes. */
struct caif_tank_answer {
    uint8_t code;    /* 0, CAIF_OUT_OF_RANGE, CAIF_NOT_LOGGED or CAIF_CORRECTION_RANGE */
    uint8_t action;  /* enum caif_action */
    uint8_t refusal; /* with CAIF_NOT_LOGGED the code with which the box refused the check (CAIF_IDENTITY_ZERO or
                      * CAIF_NOT_SOUND), or 0 where the check said no; else 0 */
};
CAIF_SIZE(caif_tank_answer, 3)
CAIF_FIELD(caif_tank_answer, code, 0)
CAIF_FIELD(caif_tank_answer, action, 1)
CAIF_FIELD(caif_tank_answer, refusal, 2)

/* The box record of a fresh box. The lent tables and buffers of a fresh box are all zeros. */
struct caif_box caif_fresh(void);

/* One call: the record that stands at the front of bytes, on the box that is handed in. The log's and the escrow's
 * rows and values, heaps, shared and output are lent; a call adds at most one row, and a release alters its row and
 * where the later ones begin. What the output buffer holds beyond the bytes shown is unaltered. */
struct caif_reply caif_call(struct caif_box held,
                            struct caif_log_row *log, size_t log_rows,
                            struct caif_escrow_row *escrow, size_t escrow_rows,
                            uint8_t *heaps, size_t heaps_size,
                            uint8_t *shared, size_t shared_size,
                            uint8_t *log_values, size_t log_values_size,
                            uint8_t *escrow_values, size_t escrow_values_size,
                            uint8_t *output, size_t output_size,
                            const uint8_t *bytes, size_t bytes_size);

/* As caif_call, on a box record that is lent too, and that has the new state afterwards. It answers exactly as caif_call
 * does. An accepted call writes the record, also where that stays as it was; what it leaves in the padding is not said. A
 * refusal writes nothing to it (which is tested, not proved, as above). */
struct caif_answer caif_call_lent(struct caif_box *held,
                                  struct caif_log_row *log, size_t log_rows,
                                  struct caif_escrow_row *escrow, size_t escrow_rows,
                                  uint8_t *heaps, size_t heaps_size,
                                  uint8_t *shared, size_t shared_size,
                                  uint8_t *log_values, size_t log_values_size,
                                  uint8_t *escrow_values, size_t escrow_values_size,
                                  uint8_t *output, size_t output_size,
                                  const uint8_t *bytes, size_t bytes_size);

/* As caif_call, on the level-one box: places 0 to 3, no escrow, one value logged by each identity. Where it gives none
 * of the codes 21, 22 and 23, it leaves and answers what caif_call does. It takes any sound box, and one box may be
 * handed to either. */
struct caif_reply caif_call_level_one(struct caif_box held,
                                      struct caif_log_row *log, size_t log_rows,
                                      struct caif_escrow_row *escrow, size_t escrow_rows,
                                      uint8_t *heaps, size_t heaps_size,
                                      uint8_t *shared, size_t shared_size,
                                      uint8_t *log_values, size_t log_values_size,
                                      uint8_t *escrow_values, size_t escrow_values_size,
                                      uint8_t *output, size_t output_size,
                                      const uint8_t *bytes, size_t bytes_size);

/* The record of a call, at the front of out, which may be of any size; bytes of out beyond the record are
 * unaltered, and with a refusal all of them. */
struct caif_written caif_write(uint8_t kind, struct caif_fields fields,
                               const uint8_t *bytes, size_t bytes_size,
                               uint8_t *out, size_t out_size);

/* One tank. A correction counts only if the box's check says that this probe logged those two bytes and got that tag. The
 * answer depends on the box, its sizes and its soundness only where a correction is given, and reading and setpoint are in
 * range. */
struct caif_tank_answer caif_desk(struct caif_tank tank,
                                  struct caif_box held,
                                  const struct caif_log_row *log, size_t log_rows,
                                  const struct caif_escrow_row *escrow, size_t escrow_rows,
                                  const uint8_t *heaps, size_t heaps_size,
                                  const uint8_t *shared, size_t shared_size,
                                  const uint8_t *log_values, size_t log_values_size,
                                  const uint8_t *escrow_values, size_t escrow_values_size,
                                  const uint8_t *output, size_t output_size);

/* A list of 1 to CAIF_TANKS tanks in order, each with its own answer in answers, which has as many. Gives 0; or, where the
 * list is refused whole, CAIF_NOT_SOUND for another count of answers than of tanks, then CAIF_OUT_OF_RANGE for another
 * count of tanks, and no answer is written. The box's own sizes and soundness show in the tanks' answers alone. */
uint8_t caif_shift(const struct caif_tank *tanks, size_t tanks_count,
                   struct caif_tank_answer *answers, size_t answers_count,
                   struct caif_box held,
                   const struct caif_log_row *log, size_t log_rows,
                   const struct caif_escrow_row *escrow, size_t escrow_rows,
                   const uint8_t *heaps, size_t heaps_size,
                   const uint8_t *shared, size_t shared_size,
                   const uint8_t *log_values, size_t log_values_size,
                   const uint8_t *escrow_values, size_t escrow_values_size,
                   const uint8_t *output, size_t output_size);

#ifdef __cplusplus
}
#endif

#undef CAIF_FIELD
#undef CAIF_SIZE
#undef CAIF_ASSERT

#endif
