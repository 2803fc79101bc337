/* What the parts of this test share. No file here but planted.c calls the C library's functions on memory: the archives'
 * own first call, which binds them, is to be made on the stack that is tried. */
#ifndef STACK_H
#define STACK_H

#include <stdbool.h>
#include <stdio.h>

#include "caif.h"

/* A box, what a host lends with it, and the records that made it. Each buffer has one element more than its size. */
struct lent {
    struct caif_box held;
    struct caif_log_row log[CAIF_LOG_ROWS + 1];
    struct caif_escrow_row escrow[CAIF_ESCROW_ROWS + 1];
    uint8_t heaps[CAIF_HEAPS + 1];
    uint8_t shared[CAIF_SHARED + 1];
    uint8_t log_values[CAIF_LOG_VALUES + 1];
    uint8_t escrow_values[CAIF_ESCROW_VALUES + 1];
    uint8_t output[CAIF_OUTPUT + 1];
    uint8_t script[32768];
    size_t script_size;
};

/* How much of each buffer is lent. */
struct sizes {
    size_t log, escrow, heaps, shared, log_values, escrow_values, output;
};

extern const struct sizes right_sizes;

/* The functions that the header declares. */
enum entry { FRESH, CALL, CALL_LENT, LEVEL_ONE, WRITE, DESK, SHIFT, ENTRIES };

/* What an entry answers: a call its code and number; the writer its code and the length; the desk its code, and action and
 * refusal as one number; a list the same of all its tanks, where they are alike. */
struct answer {
    uint8_t code;
    uint64_t number;
};

#define MOST_TANKS (CAIF_TANKS + 1)

/* One input of an entry, and the answer that it must get. */
struct trial {
    char name[80];
    enum entry entry;
    struct answer wanted;
    unsigned box;
    struct sizes sizes;
    size_t at, count;          /* of the record, or of the writer's bytes field, in the world's bytes */
    uint8_t kind;              /* the writer's, with its fields and the room that it gets */
    struct caif_fields fields;
    size_t room;
    struct caif_tank tank;     /* the desk's; a list has it so many times */
    size_t tanks, answers;
};

#define BOXES 32
#define TRIALS 1024

/* All of it stands in memory that a process and its children share. */
struct world {
    struct lent boxes[BOXES];
    unsigned boxes_made;
    struct trial trials[TRIALS];
    unsigned trials_made;
    uint8_t bytes[1 << 20];
    size_t bytes_used;
};

extern struct world *world;

/* An error in this test itself: it says so and ends the process. */
_Noreturn void stop(const char *what, const char *name);

/* boxes.c: boxes by calls of the archive, on the ordinary stack. */
void make_boxes(void);
void copy(void *to, const void *from, size_t count);
bool same_text(const char *a, const char *b);
uint64_t tag_of(uint64_t identity, const uint8_t *value, size_t count);
uint64_t handle_of(uint64_t length, unsigned draws);

/* Most values that stand in the boxes are of VALUE bytes, and differ in one of them. */
#define VALUE 64
void put_value(uint8_t *value, unsigned n);

/* Boxes by name. In each that has services, place 0 with identity 1 runs, but for STOPPED. */
enum box {
    FRESH_BOX,
    FEW,            /* three rows in each table, the third of the escrow spent; services 1 and 2 */
    FULL,           /* 64 rows in each table and 16 services; the log's last row is identity 1's, the others are not */
    STOPPED,        /* the same, and none runs */
    OWN,            /* 64 rows in each table, all of identity 1, and 16 services */
    ONE_LEFT,       /* 63 rows in each table, none of the log's is identity 1's; 15 services, place 3 is empty */
    LONG,           /* 16 rows of 256 bytes in each table */
    CORRECTED,      /* identity 1 has logged 7 and 256, of two bytes each */
    FULL_CORRECTED, /* and so as the last of 64 rows */
    DAMAGED,        /* six boxes that are not sound */
    CHAINS = DAMAGED + 6
};

/* Chains: which of their links are logged and which escrowed, how long their values are, and what the last value says. */
enum ways { LOGGED, ESCROWED, ALTERNATING };
enum last { ENDS, NOT_LOGGED, NOT_ESCROWED, NO_HEAD, NO_IDENTITY };
struct chain {
    const char *name;
    enum ways ways;
    enum last last;
    unsigned links;
    unsigned length;
};
#define CHAIN_BOXES 11
extern const struct chain chains[CHAIN_BOXES];

/* The record of the last so many links of the chain whose box this is. */
struct head {
    struct caif_fields fields;
    uint8_t bytes[CAIF_LOG_VALUES + 2 * CAIF_LOG_ROWS];
    size_t count;
};
void head_of(unsigned which, unsigned links, struct head *head);

/* trials.c and others.c: every trial. */
void make_trials(void);
void make_writes(void);
void make_desks(void);
struct trial *add(enum entry entry, const char *where, const char *name, unsigned box);

/* entries.c: how each entry is called, with a trial's input, and what it answered. */
extern const char *const entry_names[ENTRIES];
extern void (*const callers[ENTRIES])(void);
void take(const struct trial *trial);
struct answer given(void);

/* own.c: calls a function on a stack of its own of so many bytes, with a guard directly below; and gives how many of them
 * were written, where they are painted before. */
void on_own_stack(size_t size, void (*function)(void));
size_t used_of_own_stack(size_t size, uint8_t paint, void (*function)(void));

/* planted.c: functions that use so much stack, that write the lowest byte of so large a frame, that call memset, and that do
 * nothing. */
extern size_t planted_size;
void planted_use(void);
void planted_jump(void);
void planted_memset(void);
void planted_nothing(void);

#endif
