/* A host that links libdesk.a and no other archive. The box is written by hand: identity 5, in place 2, logged 7. */
#include <stdio.h>

#include "caif.h"

#define TAG 17199577631704119871u /* FNV-1a of 05 00 00 00 00 00 00 00 07 00 */

static unsigned passed, failed;

static const struct caif_box held = {.taken = 4, .running = CAIF_NONE, .identities = {[2] = 5}, .log = {.rows = 1, .bytes = 2}};
static const struct caif_log_row log_rows[CAIF_LOG_ROWS] = {{.identity = 5, .tag = TAG, .first = 0, .length = 2}};
static const struct caif_escrow_row escrow_rows[CAIF_ESCROW_ROWS];
static const uint8_t heaps[CAIF_HEAPS], shared[CAIF_SHARED], log_values[CAIF_LOG_VALUES] = {7};
static const uint8_t escrow_values[CAIF_ESCROW_VALUES], output[CAIF_OUTPUT];

#define LENT                                                                                                  \
    held, log_rows, CAIF_LOG_ROWS, escrow_rows, CAIF_ESCROW_ROWS, heaps, sizeof heaps, shared, sizeof shared, \
        log_values, sizeof log_values, escrow_values, sizeof escrow_values, output, sizeof output

static const struct caif_tank tanks[] = {
    {.reading = 1844, .setpoint = 1800},
    {.reading = 1844, .setpoint = 1800, .probe = 5, .tag = TAG, .given = 1, .correction = {7, 0}},
    {.reading = 1742, .setpoint = 1800, .probe = 5, .tag = TAG, .given = 1, .correction = {7, 0}},
    {.reading = 1844, .setpoint = 1800, .probe = 6, .tag = TAG, .given = 1, .correction = {7, 0}},
    {.reading = 3001, .setpoint = 1800},
};
static const struct caif_tank_answer wanted[] = {
    {CAIF_ACCEPTED, CAIF_HOLD, 0},           {CAIF_ACCEPTED, CAIF_COOL, 0},
    {CAIF_ACCEPTED, CAIF_WARM, 0},           {CAIF_NOT_LOGGED, CAIF_NO_ACTION, 0},
    {CAIF_OUT_OF_RANGE, CAIF_NO_ACTION, 0},
};
#define COUNT (sizeof tanks / sizeof *tanks)

static void check(int holds, const char *what, size_t n)
{
    if (holds) {
        passed++;
        return;
    }
    failed++;
    printf("FAILED: %s, tank %zu\n", what, n + 1);
}

static void check_answer(struct caif_tank_answer is, const char *what, size_t n)
{
    check(is.code == wanted[n].code && is.action == wanted[n].action && is.refusal == wanted[n].refusal, what, n);
}

int main(void)
{
    struct caif_tank_answer answers[COUNT];
    check(caif_shift(tanks, COUNT, answers, COUNT, LENT) == CAIF_ACCEPTED, "the list's code", 0);
    for (size_t n = 0; n < COUNT; n++) {
        check_answer(answers[n], "the list", n);
        check_answer(caif_desk(tanks[n], LENT), "the tank alone", n);
    }
    printf("%u passed, %u failed\n", passed, failed);
    return passed == 0 || failed != 0;
}
