/* How each entry is called. What it gets and gives stands outside the stack, so that the frame of the caller is small. */
#include "stack.h"

static const struct trial *now;
static struct lent mine;
static uint8_t room[CAIF_RECORD + 1];
static struct caif_box fresh;
static struct caif_reply reply;
static struct caif_answer lent_answer;
static struct caif_written written;
static struct caif_tank tanks[MOST_TANKS];
static struct caif_tank_answer decided, answers[MOST_TANKS];
static uint8_t refused;

#define UNSAID 0xEE

#define LENT                                                                                                      \
    mine.log, now->sizes.log, mine.escrow, now->sizes.escrow, mine.heaps, now->sizes.heaps, mine.shared,          \
        now->sizes.shared, mine.log_values, now->sizes.log_values, mine.escrow_values, now->sizes.escrow_values,  \
        mine.output, now->sizes.output

static void call_fresh(void)
{
    fresh = caif_fresh();
}

static void call_call(void)
{
    reply = caif_call(mine.held, LENT, world->bytes + now->at, now->count);
}

static void call_lent(void)
{
    lent_answer = caif_call_lent(&mine.held, LENT, world->bytes + now->at, now->count);
}

static void call_level_one(void)
{
    reply = caif_call_level_one(mine.held, LENT, world->bytes + now->at, now->count);
}

static void call_write(void)
{
    written = caif_write(now->kind, now->fields, world->bytes + now->at, now->count, room, now->room);
}

static void call_desk(void)
{
    decided = caif_desk(tanks[0], mine.held, LENT);
}

static void call_shift(void)
{
    refused = caif_shift(tanks, now->tanks, answers, now->answers, mine.held, LENT);
}

const char *const entry_names[ENTRIES] = {"caif_fresh", "caif_call", "caif_call_lent", "caif_call_level_one",
                                          "caif_write", "caif_desk", "caif_shift"};
void (*const callers[ENTRIES])(void) = {call_fresh, call_call, call_lent, call_level_one,
                                        call_write, call_desk, call_shift};

/* The trial's input, and answers that no entry gives. */
void take(const struct trial *trial)
{
    now = trial;
    copy(&mine, &world->boxes[trial->box], sizeof mine);
    fresh.running = UNSAID;
    reply.code = lent_answer.code = written.code = refused = UNSAID;
    decided = (struct caif_tank_answer){UNSAID, UNSAID, UNSAID};
    for (size_t n = 0; n < MOST_TANKS; n++) {
        tanks[n] = trial->tank;
        answers[n] = decided;
    }
}

static uint64_t number_of(struct caif_tank_answer answer)
{
    return answer.action + (uint64_t)256 * answer.refusal;
}

/* The answer of all tanks of the list; a list that is refused has none. */
static struct answer of_list(void)
{
    struct caif_tank_answer first = answers[0];
    for (size_t n = 1; n < now->answers; n++)
        if (answers[n].code != first.code || number_of(answers[n]) != number_of(first))
            return (struct answer){UNSAID, n};
    if (refused != 0)
        return (struct answer){refused, first.code == UNSAID ? 0 : 1};
    return (struct answer){first.code, number_of(first)};
}

struct answer given(void)
{
    switch (now->entry) {
    case FRESH:
        return (struct answer){fresh.running == CAIF_NONE ? 0 : UNSAID, fresh.taken};
    case CALL_LENT:
        return (struct answer){lent_answer.code, lent_answer.number};
    case WRITE:
        return (struct answer){written.code, written.length};
    case DESK:
        return (struct answer){decided.code, number_of(decided)};
    case SHIFT:
        return of_list();
    default:
        return (struct answer){reply.code, reply.number};
    }
}
