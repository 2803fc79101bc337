/* How often a box record is copied by a call of a function. This memcpy is the archive's too, and counts what is as long as a
 * box record. */
#include <stdio.h>

#include "caif.h"

static unsigned copies, passed, failed;

void *memcpy(void *restrict to, const void *restrict from, size_t count)
{
    uint8_t *left = to;
    const uint8_t *right = from;
    for (size_t n = 0; n < count; n++)
        ((volatile uint8_t *)left)[n] = right[n];
    copies += count >= sizeof(struct caif_box) && count <= sizeof(struct caif_reply);
    return to;
}

static struct caif_log_row log_rows[CAIF_LOG_ROWS];
static struct caif_escrow_row escrow_rows[CAIF_ESCROW_ROWS];
static uint8_t heaps[CAIF_HEAPS], shared[CAIF_SHARED], output[CAIF_OUTPUT];
static uint8_t log_values[CAIF_LOG_VALUES], escrow_values[CAIF_ESCROW_VALUES];
static struct caif_box held;

#define LENT                                                                                              \
    log_rows, CAIF_LOG_ROWS, escrow_rows, CAIF_ESCROW_ROWS, heaps, CAIF_HEAPS, shared, CAIF_SHARED,       \
        log_values, CAIF_LOG_VALUES, escrow_values, CAIF_ESCROW_VALUES, output, CAIF_OUTPUT

static void check(int holds, const char *what)
{
    if (holds) {
        passed++;
        return;
    }
    failed++;
    printf("FAILED: copies: %s: %u\n", what, copies);
}

/* The call is answered so, with at most so many copies. */
static void check_call(const uint8_t *record, size_t length, uint8_t code, unsigned most, const char *what)
{
    copies = 0;
    struct caif_answer answer = caif_call_lent(&held, LENT, record, length);
    check(answer.code == code, what);
    check(copies <= most, what);
}

int main(void)
{
    const uint8_t create[] = {0x07, CAIF_CREATE, 0, 1, 0, 0, 0, 0, 0, 0, 0}, hand_over[] = {0x03, CAIF_HAND_OVER, 0};
    const uint8_t attest[] = {0x19, CAIF_ATTEST, 0, 0, 1, 0}, report[] = {0x01, CAIF_REPORT}, unread[] = {0x02};
    struct caif_box twice;
    held = caif_fresh();
    memcpy(&twice, &held, sizeof held);
    memcpy(&held, &twice, sizeof held);
    check(copies >= 2, "two copies are counted");
    check_call(create, sizeof create, CAIF_ACCEPTED, 1, "a create");
    check_call(create, sizeof create, CAIF_PLACE_STATE, 0, "a create that gets 7");
    check_call(hand_over, sizeof hand_over, CAIF_ACCEPTED, 1, "a hand over");
    check_call(attest, sizeof attest, CAIF_ACCEPTED, 1, "an attest");
    check_call(report, sizeof report, CAIF_ACCEPTED, 1, "a report");
    check_call(unread, sizeof unread, CAIF_UNKNOWN_KIND, 0, "a record that gets 2");
    held.running = CAIF_NONE + 1;
    check_call(report, sizeof report, CAIF_NOT_SOUND, 0, "a report that gets 15");
    printf("%u passed, %u failed\n", passed, failed);
    return passed == 0 || failed != 0;
}
