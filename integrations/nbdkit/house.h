/* house.h: what the gate's events are handed to: the calls of one array, or those of a house with several. */
#ifndef HOUSE_H
#define HOUSE_H

#include "sgq.h"

#include <stdbool.h>
#include <stddef.h>

/* Takes part in the house whose counters are in a file; false where that cannot be, which is then said. */
bool house_join(const char *path);

/* Opens the gate of this server's array. */
sgq_answer house_open(const sgq_array *lent);

/* Hands events over, and writes an answer for each. */
void house_hand_over(const sgq_array *lent, const sgq_event *events, sgq_answer *answers, size_t count);

#endif
