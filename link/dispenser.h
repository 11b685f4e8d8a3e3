/*
 * The dispenser session of the Model 2000T, for a program in C or C++ on x86-64 Linux. Link libdispenser_link.a, which `rt lib` in crates/dispenser_link writes.
 * README.md, "Linking it", shows how; docs/DECISIONS.md, "Linking", says what a caller owes.
 */
#ifndef DISPENSER_H
#define DISPENSER_H

#include <stddef.h>
#include <stdint.h>

#ifdef __cplusplus
extern "C" {
#endif

/* A session: 160 bytes, aligned to 8. What is inside is not yours to read or write; dispenser_fresh makes one. */
typedef struct {
    uint64_t opaque[20];
} dispenser_session;

/* The sums of a cassette, in notes, in the order of the report. */
typedef struct {
    uint32_t asked, paid, short_of, over, refused, unknown, open, rejected;
} dispenser_sums;

/* How a call closed the open command, if it did. */
enum { DISPENSER_GOES_ON = 0, DISPENSER_ANSWERED = 1, DISPENSER_REFUSED = 2, DISPENSER_UNKNOWN = 3 };

/* What a call answers. Declined: document 01's number, and nothing has changed; or 0. Put: so many bytes at the room's start, to be sent now. */
typedef struct {
    size_t put;
    uint8_t declined;
    uint8_t closing;
    uint8_t error; /* where it was answered, the answer's error byte; else 0 */
} dispenser_reply;

/* Zero sums, nothing open, and no quiet time yet. */
dispenser_session dispenser_fresh(void);

/* The calls. A room is lent for the bytes to be sent: 16 bytes are enough. */
dispenser_reply dispenser_request(dispenser_session *session, uint8_t code, uint32_t upper, uint32_t lower, uint8_t *room, size_t length);
dispenser_reply dispenser_byte(dispenser_session *session, uint8_t byte, uint8_t *room, size_t length);
dispenser_reply dispenser_tick(dispenser_session *session, uint32_t milliseconds, uint8_t *room, size_t length);
dispenser_reply dispenser_clear(dispenser_session *session);

/* The account: the sums of each cassette. */
dispenser_sums dispenser_upper(dispenser_session session);
dispenser_sums dispenser_lower(dispenser_session session);

#ifdef __cplusplus
}
#endif

#endif
