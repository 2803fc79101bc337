/* A host in C++: one program created, made to run on a box record that is lent, and one tank decided over its box. */
#include <cstdio>

#include "caif.h"

namespace {

unsigned passed, failed;

void check(bool holds, const char *what)
{
    if (holds) {
        passed++;
        return;
    }
    failed++;
    std::printf("FAILED: %s\n", what);
}

caif_log_row log_rows[CAIF_LOG_ROWS];
caif_escrow_row escrow_rows[CAIF_ESCROW_ROWS];
uint8_t heaps[CAIF_HEAPS], shared[CAIF_SHARED], output[CAIF_OUTPUT];
uint8_t log_values[CAIF_LOG_VALUES], escrow_values[CAIF_ESCROW_VALUES];

} // namespace

#define LENT                                                                                            \
    log_rows, CAIF_LOG_ROWS, escrow_rows, CAIF_ESCROW_ROWS, heaps, sizeof heaps, shared, sizeof shared, \
        log_values, sizeof log_values, escrow_values, sizeof escrow_values, output, sizeof output

int main()
{
    const uint8_t none[1] = {0};
    uint8_t bytes[64];
    caif_fields fields = caif_fields();
    fields.place = 3;
    fields.identity = 5;
    caif_written written = caif_write(CAIF_CREATE, fields, none, 0, bytes, sizeof bytes);
    check(written.code == CAIF_ACCEPTED && written.length == 11, "the record of a create");
    caif_reply reply = caif_call(caif_fresh(), LENT, bytes, written.length);
    check(reply.code == CAIF_ACCEPTED && reply.number == 3 && reply.held.identities[3] == 5, "a create");
    const uint8_t hand_over[] = {0x03, CAIF_HAND_OVER, 3};
    caif_answer handed_over = caif_call_lent(&reply.held, LENT, hand_over, sizeof hand_over);
    check(handed_over.code == CAIF_ACCEPTED && handed_over.used == 3 && reply.held.running == 3, "a hand over, lent");
    caif_tank tank = caif_tank();
    tank.reading = 1851;
    tank.setpoint = 1800;
    caif_tank_answer answer = caif_desk(tank, reply.held, LENT);
    check(answer.code == CAIF_ACCEPTED && answer.action == CAIF_COOL, "a tank");
    check(caif_shift(&tank, 1, &answer, 0, reply.held, LENT) == CAIF_NOT_SOUND, "a list with no answer");
    std::printf("%u passed, %u failed\n", passed, failed);
    return passed == 0 || failed != 0;
}
