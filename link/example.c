/* Ten notes from the upper cassette, paid against the bytes of a dispenser that is not there. It writes what is sent, and the sums. */
#include <stdio.h>
#include "dispenser.h"

static void sent(dispenser_reply reply, const uint8_t *room) {
    for (size_t i = 0; i < reply.put; i++) printf("%02X%c", room[i], i + 1 < reply.put ? ' ' : '\n');
    if (reply.declined) printf("declined %u\n", reply.declined);
    if (reply.closing == DISPENSER_ANSWERED) printf("answered, error byte %02X\n", reply.error);
}

int main(void) {
    static const uint8_t heard[] = {0x06, 0x01, 0x50, 0x02, 0x45, 0x31, 0x30, 0x31, 0x30, 0x30, 0x30, 0x30, 0x30, 0x03, 0x15};
    dispenser_session session = dispenser_fresh();
    uint8_t room[16];
    sent(dispenser_request(&session, 0x45, 10, 0, room, sizeof room), room);
    for (int i = 0; i < 6; i++) sent(dispenser_tick(&session, 1000, room, sizeof room), room);
    sent(dispenser_request(&session, 0x45, 10, 0, room, sizeof room), room);
    for (size_t i = 0; i < sizeof heard; i++) sent(dispenser_byte(&session, heard[i], room, sizeof room), room);
    sent(dispenser_clear(&session), room);
    dispenser_sums upper = dispenser_upper(session), lower = dispenser_lower(session);
    printf("upper asked %u paid %u, lower asked %u paid %u\n", upper.asked, upper.paid, lower.asked, lower.paid);
    return 0;
}
