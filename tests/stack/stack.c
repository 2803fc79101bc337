/* Calls every exported entry on a stack of its own with a guard below, each trial in a process of its own.
 *
 *     stack tries                     every trial on CAIF_STACK bytes; counts them, and tells how many bytes of stack the
 *                                     first call of memset used afterwards, and the second
 *     stack nothing                   the same with a function that does nothing in the entries' place: all must fail
 *     stack measures                  the entry, the input, the bytes of stack that it used, the kind in its record and its
 *                                     code, parted by tabs, a line each
 *     stack try SIZE ENTRY INPUT      one trial on so many bytes: passes, faults or answers wrongly
 *     stack planted WHAT SIZE         what is planted, with SIZE bytes, on CAIF_STACK bytes: passes or faults
 *     stack script SIZE INPUT         the records of a trial's box, then the trial's own again and again and reports, up to
 *                                     so many bytes; the script with the trial's record once where SIZE is 0
 *
 * The boxes are made in a process of their own, which leaves them in shared memory, so that no process that tries something
 * has called an archive before. */
#define _GNU_SOURCE
#include <errno.h>
#include <stdlib.h>
#include <sys/mman.h>
#include <sys/wait.h>
#include <unistd.h>

#include "stack.h"

struct world *world;

/* What a child tells its parent: whether it came to its end, and a number. */
static volatile struct told {
    bool whole;
    size_t number;
} *told;

/* A stack on which there is room for everything that is measured. */
#define AMPLE ((size_t)1 << 20)

_Noreturn void stop(const char *what, const char *name)
{
    printf("%s %s\n", what, name);
    fflush(stdout);
    _exit(3);
}

static void *shared(size_t size)
{
    void *at = mmap(NULL, size, PROT_READ | PROT_WRITE, MAP_SHARED | MAP_ANONYMOUS, -1, 0);
    if (at == MAP_FAILED)
        stop("no memory", "");
    return at;
}

/* Runs a function in a child: its status as waitpid gives it. */
static int in_child(void (*function)(const void *), const void *with)
{
    int status;
    told->whole = false;
    fflush(stdout);
    pid_t child = fork();
    if (child == 0) {
        alarm(60);
        function(with);
        told->whole = true;
        fflush(stdout);
        _exit(0);
    }
    while (child < 0 || waitpid(child, &status, 0) < 0)
        if (child < 0 || errno != EINTR)
            stop("no child", "");
    if (WIFEXITED(status) && WEXITSTATUS(status) != 0)
        stop("a part of this test ended early", "");
    return status;
}

static void make_all(const void *with)
{
    (void)with;
    make_boxes();
    make_trials();
}

/* What is called on the stack, of what size that is, and for which trial. */
struct run {
    void (*function)(void);
    size_t size;
    const struct trial *trial;
};

static bool answered(const struct trial *trial)
{
    struct answer answer = given();
    return answer.code == trial->wanted.code && answer.number == trial->wanted.number;
}

static void run_once(const void *with)
{
    const struct run *run = with;
    if (run->trial)
        take(run->trial);
    on_own_stack(run->size, run->function);
    if (run->trial)
        told->number = answered(run->trial);
}

/* "passes", "faults" or "answers wrongly". A fault kills the child. */
static const char *outcome(struct run run)
{
    told->number = 1;
    int status = in_child(run_once, &run);
    if (WIFSIGNALED(status) && (WTERMSIG(status) == SIGSEGV || WTERMSIG(status) == SIGBUS))
        return "faults";
    if (!told->whole)
        return "does not end";
    return told->number ? "passes" : "answers wrongly";
}

/* The first call binds memset, where it is bound at its first call, and the second finds it bound. */
static void bind_twice(const void *with)
{
    (void)with;
    size_t first = used_of_own_stack(AMPLE, 0xA5, planted_memset);
    printf("memset: %zu bytes at first, then %zu\n", first, used_of_own_stack(AMPLE, 0xA5, planted_memset));
}

/* Every trial; with a function in the entries' place where one is given. After all of them nothing is bound in this
 * process yet, which the last child shows. */
static int tries(void (*instead)(void))
{
    unsigned passed = 0, failed = 0;
    for (unsigned n = 0; n < world->trials_made; n++) {
        const struct trial *trial = &world->trials[n];
        const char *what = outcome((struct run){instead ? instead : callers[trial->entry], CAIF_STACK, trial});
        if (same_text(what, "passes"))
            passed++;
        else if (++failed <= 20 || !instead)
            printf("FAILED: %s, %s: it %s on a stack of %d bytes\n", entry_names[trial->entry], trial->name, what,
                   CAIF_STACK);
    }
    in_child(bind_twice, NULL);
    printf("%u passed, %u failed\n", passed, failed);
    return passed == 0 || failed != 0;
}

struct measure {
    struct run run;
    uint8_t paint;
};

static void measure_once(const void *with)
{
    const struct measure *measure = with;
    take(measure->run.trial);
    told->number = used_of_own_stack(AMPLE, measure->paint, measure->run.function);
    if (!answered(measure->run.trial))
        stop("a measure of a wrong answer:", measure->run.trial->name);
}

/* The larger of two: with one paint a byte may be written with what it had. */
static size_t measured(const struct trial *trial)
{
    size_t most = 0;
    for (int n = 0; n < 2; n++) {
        struct measure measure = {{callers[trial->entry], AMPLE, trial}, n == 0 ? 0xA5 : 0x5A};
        in_child(measure_once, &measure);
        if (!told->whole)
            stop("a measure did not end:", trial->name);
        most = told->number > most ? told->number : most;
    }
    return most;
}

/* The kind in a trial's record; 0 where there is none. */
static unsigned kind_of(const struct trial *trial)
{
    bool read = trial->entry >= CALL && trial->entry <= LEVEL_ONE;
    return !read || trial->count < 2 ? trial->kind : world->bytes[trial->at + 1];
}

static int measures(void)
{
    for (unsigned n = 0; n < world->trials_made; n++) {
        const struct trial *trial = &world->trials[n];
        printf("%s\t%s\t%zu\t%u\t%u\n", entry_names[trial->entry], trial->name, measured(trial), kind_of(trial),
               trial->wanted.code);
    }
    return 0;
}

static const struct trial *trial_of(const char *entry, const char *name)
{
    for (unsigned n = 0; n < world->trials_made; n++)
        if (same_text(entry_names[world->trials[n].entry], entry) && same_text(world->trials[n].name, name))
            return &world->trials[n];
    stop("no such trial:", name);
}

static int try_one(size_t size, const struct trial *trial)
{
    printf("%s\n", outcome((struct run){callers[trial->entry], size, trial}));
    return 0;
}

static int planted(const char *what, size_t size)
{
    planted_size = size;
    struct run run = {same_text(what, "jump") ? planted_jump : planted_use, CAIF_STACK, NULL};
    printf("%s\n", outcome(run));
    return 0;
}

static void print_bytes(const uint8_t *bytes, size_t count)
{
    if (fwrite(bytes, 1, count, stdout) != count)
        stop("no output", "");
}

static int script(size_t size, const struct trial *trial)
{
    static const uint8_t report[2] = {1, CAIF_REPORT};
    const struct lent *box = &world->boxes[trial->box];
    const uint8_t *record = world->bytes + trial->at;
    size_t written = box->script_size + trial->count;
    print_bytes(box->script, box->script_size);
    print_bytes(record, trial->count);
    for (; written + trial->count <= size; written += trial->count)
        print_bytes(record, trial->count);
    for (; written + sizeof report <= size; written += sizeof report)
        print_bytes(report, sizeof report);
    return 0;
}

static int refuse(void)
{
    fprintf(stderr, "usage: see stack.c\n");
    return 2;
}

int main(int count, char **words)
{
    const char *mode = count > 1 ? words[1] : "";
    told = shared(sizeof *told);
    world = shared(sizeof *world);
    in_child(make_all, NULL);
    if (!told->whole)
        stop("the boxes are not made", "");
    if (same_text(mode, "tries") && count == 2)
        return tries(NULL);
    if (same_text(mode, "nothing") && count == 2)
        return tries(planted_nothing);
    if (same_text(mode, "measures") && count == 2)
        return measures();
    if (same_text(mode, "planted") && count == 4)
        return planted(words[2], strtoul(words[3], NULL, 10));
    if (same_text(mode, "try") && count == 5)
        return try_one(strtoul(words[2], NULL, 10), trial_of(words[3], words[4]));
    if (same_text(mode, "script") && count == 4)
        return script(strtoul(words[2], NULL, 10), trial_of("caif_call", words[3]));
    return refuse();
}
