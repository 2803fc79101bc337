/* What the desk does not alter it does not write: no contract can say it, since a contract speaks of entry and exit alone. Box,
 * buffers and tanks are lent from pages that cannot be written, an empty box and a full one, with every answer. Whoever
 * writes them all the same faults, which a desk that writes back what stands there shows for each of them. */
#define _DEFAULT_SOURCE
#include <signal.h>
#include <stdlib.h>
#include <sys/mman.h>
#include <sys/resource.h>
#include <sys/wait.h>
#include <unistd.h>

#include "host.h"

#define LABEL "read only"

/* The desk as it is, or one that writes. */
struct entries {
    struct caif_tank_answer (*one)(const struct host *host, const struct sizes *sizes, struct caif_tank tank);
    uint8_t (*list)(const struct host *host, const struct sizes *sizes, const struct caif_tank *tanks, size_t count,
                    struct caif_tank_answer *answers, size_t lent);
};

/* A tank, alone and in lists. */
struct trial {
    const char *label;
    const struct host *host;
    struct sizes sizes;
    struct caif_tank tank;
    struct caif_tank_answer wanted;
};

const void *locked(const void *from, size_t size)
{
    void *pages = mmap(NULL, size, PROT_READ | PROT_WRITE, MAP_PRIVATE | MAP_ANONYMOUS, -1, 0);
    if (pages == MAP_FAILED)
        abort();
    memcpy(pages, from, size);
    if (mprotect(pages, size, PROT_READ) != 0)
        abort();
    return pages;
}

static bool is_right(const struct caif_tank_answer *is, const struct caif_tank_answer *wanted)
{
    return is->code == wanted->code && is->action == wanted->action && is->refusal == wanted->refusal;
}

#define MOST (CAIF_TANKS + 1)

/* A list of this tank: its code, and each answer, where they are written. */
static bool lists(const struct entries *entries, const struct trial *trial, const struct caif_tank *tanks, size_t count,
                  size_t lent, uint8_t code)
{
    struct caif_tank_answer answers[MOST], unwritten = {0xCC, 0xCC, 0xCC};
    memset(answers, 0xCC, sizeof answers);
    if (entries->list(trial->host, &trial->sizes, tanks, count, answers, lent) != code)
        return false;
    for (size_t n = 0; n < MOST; n++)
        if (!is_right(&answers[n], code == CAIF_ACCEPTED && n < count ? &trial->wanted : &unwritten))
            return false;
    return true;
}

static bool asks(const struct entries *entries, const struct trial *trial, const struct caif_tank *tanks)
{
    struct caif_tank_answer answer = entries->one(trial->host, &trial->sizes, trial->tank);
    return is_right(&answer, &trial->wanted) && lists(entries, trial, tanks, 1, 1, CAIF_ACCEPTED) &&
           lists(entries, trial, tanks, CAIF_TANKS, CAIF_TANKS, CAIF_ACCEPTED) &&
           lists(entries, trial, tanks, 0, 0, CAIF_OUT_OF_RANGE) &&
           lists(entries, trial, tanks, MOST, MOST, CAIF_OUT_OF_RANGE) &&
           lists(entries, trial, tanks, MOST, CAIF_TANKS, CAIF_NOT_SOUND) &&
           lists(entries, trial, tanks, CAIF_TANKS, MOST, CAIF_NOT_SOUND);
}

enum outcome in_child(bool (*is_so)(const void *), const void *with)
{
    int status;
    fflush(stdout);
    pid_t child = fork();
    if (child == 0) {
        const struct rlimit none = {0, 0};
        setrlimit(RLIMIT_CORE, &none);
        signal(SIGSEGV, SIG_DFL);
        signal(SIGBUS, SIG_DFL);
        _exit(is_so(with) ? RIGHT : WRONG);
    }
    if (child < 0 || waitpid(child, &status, 0) != child)
        abort();
    if (WIFSIGNALED(status) && (WTERMSIG(status) == SIGSEGV || WTERMSIG(status) == SIGBUS))
        return FAULTS;
    return WIFEXITED(status) && WEXITSTATUS(status) == RIGHT ? RIGHT : WRONG;
}

/* What a child is asked. */
struct question {
    const struct entries *entries;
    const struct trial *trial;
    const struct caif_tank *tanks;
};

static bool asked(const void *with)
{
    const struct question *question = with;
    return asks(question->entries, question->trial, question->tanks);
}

static enum outcome tries(const struct entries *entries, const struct trial *trial, const struct caif_tank *tanks)
{
    return in_child(asked, &(struct question){entries, trial, tanks});
}

static const struct entries the_desk = {desk, shift};

static void check_trial(const char *label, const struct host *host, struct sizes sizes, struct caif_tank tank,
                        struct caif_tank_answer wanted)
{
    struct trial trial = {label, host, sizes, tank, wanted};
    struct caif_tank list[MOST];
    for (size_t n = 0; n < MOST; n++)
        list[n] = tank;
    const struct caif_tank *tanks = locked(list, sizeof list);
    check(tries(&the_desk, &trial, tanks) == RIGHT, LABEL, label);
    munmap((void *)tanks, sizeof list);
}

/* ---- a desk that writes back what stands at the front of one of what it is lent */

#define LENT 7
static size_t planted;

static void writes(const struct host *host, const struct caif_tank *tanks)
{
    const void *lent[LENT + 1] = {host->log,        host->escrow,        host->heaps,  host->shared,
                                  host->log_values, host->escrow_values, host->output, tanks};
    volatile uint8_t *front = (volatile uint8_t *)lent[planted];
    *front = *front;
}

static struct caif_tank_answer one_that_writes(const struct host *host, const struct sizes *sizes, struct caif_tank tank)
{
    writes(host, NULL);
    return desk(host, sizes, tank);
}

static uint8_t list_that_writes(const struct host *host, const struct sizes *sizes, const struct caif_tank *tanks,
                                size_t count, struct caif_tank_answer *answers, size_t lent)
{
    writes(host, tanks);
    return shift(host, sizes, tanks, count, answers, lent);
}

/* Each faults where it is lent what cannot be written, and is right where that can be. */
static void check_planted(const struct host *host)
{
    static struct host open;
    const struct caif_tank list[MOST] = {{0}};
    struct caif_tank open_list[MOST] = {{0}};
    const struct caif_tank *tanks = locked(list, sizeof list);
    const struct caif_tank_answer holds = {CAIF_ACCEPTED, CAIF_HOLD, 0};
    const struct entries one = {one_that_writes, shift}, listed = {desk, list_that_writes};
    struct trial locked_trial = {"", host, right_sizes, list[0], holds}, open_trial = {"", &open, right_sizes, list[0], holds};
    open = *host;
    for (planted = 0; planted <= LENT; planted++) {
        if (planted < LENT)
            check(tries(&one, &locked_trial, tanks) == FAULTS, LABEL, "a desk that writes faults");
        check(tries(&listed, &locked_trial, tanks) == FAULTS, LABEL, "a list that writes faults");
        check(tries(&listed, &open_trial, open_list) == RIGHT, LABEL, "what can be written is written");
    }
}

/* ---- the boxes */

/* A call that is accepted; its number. */
static uint64_t accept(struct host *host, uint8_t kind, struct caif_fields fields, const uint8_t *bytes, size_t count)
{
    uint8_t record[2 * CAIF_SHARED];
    struct caif_written written = caif_write(kind, fields, bytes, count, record, sizeof record);
    struct caif_reply reply = call(host, &right_sizes, record, written.length);
    check(written.code == CAIF_ACCEPTED && reply.code == CAIF_ACCEPTED, LABEL, "the box is made");
    return reply.number;
}

/* Place 0, whose identity is 1, writes these at the front of its heap and logs so many bytes from there on; the tag. */
static uint64_t logs(struct host *host, uint8_t low, uint8_t high, uint16_t length)
{
    const uint8_t bytes[2] = {low, high};
    accept(host, CAIF_HEAP_WRITE, (struct caif_fields){.place = 0}, bytes, sizeof bytes);
    return accept(host, CAIF_ATTEST, (struct caif_fields){.length = length}, bytes, 0);
}

#define FIRST 2 /* rows of 2 bytes; the others of the log have 66 */

void make_full(struct host *host, uint64_t tags[FIRST])
{
    uint8_t bytes[CAIF_SHARED];
    make_fresh(host);
    memset(bytes, 0xB7, sizeof bytes);
    accept(host, CAIF_SHARED_WRITE, (struct caif_fields){0}, bytes, CAIF_SHARED);
    for (uint8_t place = CAIF_PLACES; place-- > 0;) {
        accept(host, CAIF_CREATE, (struct caif_fields){.place = place, .identity = 1u + place}, bytes, 0);
        accept(host, CAIF_HAND_OVER, (struct caif_fields){.place = place}, bytes, 0);
        accept(host, CAIF_HEAP_WRITE, (struct caif_fields){.place = place}, bytes, CAIF_HEAP);
    }
    tags[0] = logs(host, 7, 0, 2);
    tags[1] = logs(host, 51, 0, 2);
    for (uint8_t n = FIRST; n < CAIF_LOG_ROWS; n++)
        logs(host, n, 1, 66);
    for (uint64_t n = 0; n < CAIF_ESCROW_ROWS; n++)
        accept(host, CAIF_PROTECT, (struct caif_fields){.identity = 2, .length = 64, .number = n}, bytes, 0);
    check(host->held.log.rows == CAIF_LOG_ROWS && host->held.log.bytes == CAIF_LOG_VALUES, LABEL, "the log is full");
    check(host->held.escrow.rows == CAIF_ESCROW_ROWS && host->held.escrow.bytes == CAIF_ESCROW_VALUES, LABEL,
          "the escrow is full");
}

/* ---- the trials */

#define DECIDED(action) ((struct caif_tank_answer){CAIF_ACCEPTED, action, 0})
#define REFUSED(code, refusal) ((struct caif_tank_answer){code, CAIF_NO_ACTION, refusal})

static struct caif_tank tank_at(int32_t reading, uint64_t probe, uint64_t tag, uint8_t correction)
{
    return (struct caif_tank){
        .reading = reading, .setpoint = 1800, .probe = probe, .tag = tag, .given = 1, .correction = {correction, 0}};
}

/* What every box answers. */
static void check_any(const struct host *host)
{
    struct caif_tank unknown = tank_at(1800, 1, 0, 7);
    check_trial("hold", host, right_sizes, (struct caif_tank){.reading = 1850, .setpoint = 1800}, DECIDED(CAIF_HOLD));
    check_trial("cool", host, right_sizes, (struct caif_tank){.reading = 1851, .setpoint = 1800}, DECIDED(CAIF_COOL));
    check_trial("warm", host, right_sizes, (struct caif_tank){.reading = 1749, .setpoint = 1800}, DECIDED(CAIF_WARM));
    check_trial("24", host, right_sizes, tank_at(3001, 1, 0, 7), REFUSED(CAIF_OUT_OF_RANGE, 0));
    check_trial("25", host, right_sizes, unknown, REFUSED(CAIF_NOT_LOGGED, 0));
    check_trial("25 with 9", host, right_sizes, tank_at(1800, 0, 0, 7), REFUSED(CAIF_NOT_LOGGED, CAIF_IDENTITY_ZERO));
    for (size_t n = 0; n < sizeof right_sizes / sizeof(size_t); n++) {
        struct sizes sizes = right_sizes;
        ((size_t *)&sizes)[n]--;
        check_trial("25 with 15, a wrong size", host, sizes, unknown, REFUSED(CAIF_NOT_LOGGED, CAIF_NOT_SOUND));
    }
}

/* What a box answers in which corrections are logged. */
static void check_logged(const struct host *host, const uint64_t tags[FIRST])
{
    check_trial("logged: hold", host, right_sizes, tank_at(1843, 1, tags[0], 7), DECIDED(CAIF_HOLD));
    check_trial("logged: cool", host, right_sizes, tank_at(1844, 1, tags[0], 7), DECIDED(CAIF_COOL));
    check_trial("logged: warm", host, right_sizes, tank_at(1742, 1, tags[0], 7), DECIDED(CAIF_WARM));
    check_trial("26", host, right_sizes, tank_at(1800, 1, tags[1], 51), REFUSED(CAIF_CORRECTION_RANGE, 0));
    static struct host damaged;
    damaged = *host;
    damaged.log[CAIF_LOG_ROWS - 1].tag++;
    const struct host *pages = locked(&damaged, sizeof damaged);
    check_trial("25 with 15, not sound", pages, right_sizes, tank_at(1844, 1, tags[0], 7),
                REFUSED(CAIF_NOT_LOGGED, CAIF_NOT_SOUND));
}

void check_read_only(void)
{
    static struct host empty, full;
    uint64_t tags[FIRST];
    make_fresh(&empty);
    make_full(&full, tags);
    const struct host *empty_pages = locked(&empty, sizeof empty), *full_pages = locked(&full, sizeof full);
    check_any(empty_pages);
    check_any(full_pages);
    check_logged(full_pages, tags);
    check_planted(empty_pages);
    check_planted(full_pages);
}
