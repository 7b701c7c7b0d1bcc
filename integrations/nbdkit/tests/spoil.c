/* spoil.c: for the tests. Linked before the library's sgq_batch (-Wl,--wrap=sgq_batch), it changes lent tables before some
 * calls, as something that writes where it should not. The environment says when: SGQ_SPOIL="CALL:WHAT CALL:WHAT ..", from
 * that call on at the first one at which it can be done, and then WHAT is
 *   tag     a bit of a waiting request's share tag turns over
 *   rule    the rule for limits is none
 * and these leave the tables sound:
 *   limit   the next limit number of a guest with nothing waiting is past the ceiling, as after 146 years
 *   lost    the last waiting request, where its guest has no other, is forgotten
 *   name    the last waiting request has another id */
#include "sgq.h"

#include <stdlib.h>
#include <string.h>

#define UNUSED 1087 /* an id that the filter does not come to */

uint64_t __real_sgq_batch(uint64_t *, uint64_t *, size_t, uint64_t *, size_t, uint64_t *, size_t, const uint64_t *, size_t,
                          uint64_t *, size_t);
uint64_t __wrap_sgq_batch(uint64_t *, uint64_t *, size_t, uint64_t *, size_t, uint64_t *, size_t, const uint64_t *, size_t,
                          uint64_t *, size_t);

static int spoil_limit(const sgq_tables *lent)
{
    for (uint64_t guest = 0; guest < lent->gate->guests; guest++)
        if (lent->guests[guest].limit != 0 && sgq_waiting_of(lent, guest) == 0) {
            lent->guests[guest].lnext = SGQ_CEILING + 1;
            return 1;
        }
    return 0;
}

static int spoil(const sgq_tables *lent, const char *what)
{
    if (strncmp(what, "limit", 5) == 0)
        return spoil_limit(lent);
    if (strncmp(what, "rule", 4) == 0)
        return (int)(lent->gate->rule = 3);
    if (lent->gate->waiting == 0)
        return 0;
    sgq_request *last = &lent->waiting[lent->gate->waiting - 1];
    if (strncmp(what, "tag", 3) == 0)
        return (last->stag ^= UINT64_C(1) << 63) != 0;
    if (strncmp(what, "name", 4) == 0)
        return (last->id = UNUSED) != 0;
    if (sgq_waiting_of(lent, last->guest) != 1)
        return 0;
    memset(last, 0, sizeof *last);
    lent->gate->waiting -= 1;
    return 1;
}

uint64_t __wrap_sgq_batch(uint64_t *gate, uint64_t *guests, size_t guests_length, uint64_t *waiting, size_t waiting_length,
                          uint64_t *flight, size_t flight_length, const uint64_t *events, size_t events_length,
                          uint64_t *answers, size_t answers_length)
{
    static uint64_t calls;
    static const char *next;
    const sgq_tables lent = {(sgq_gate *)gate, (sgq_guest *)guests, 0, (sgq_request *)waiting, 0, (sgq_flight *)flight, 0};
    if (calls++ == 0)
        next = getenv("SGQ_SPOIL");
    if (next != NULL && calls >= strtoull(next, NULL, 10) && spoil(&lent, strchr(next, ':') + 1)) {
        next = strchr(next, ' ');
        next = next == NULL ? NULL : next + 1;
    }
    return __real_sgq_batch(gate, guests, guests_length, waiting, waiting_length, flight, flight_length, events, events_length,
                            answers, answers_length);
}
