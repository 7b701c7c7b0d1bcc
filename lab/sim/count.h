/* count.h: what became of each guest's requests: in each interval of a run, and in all. */
#ifndef COUNT_H
#define COUNT_H

#include "run.h"

/* One guest in one interval. Arrivals that are called idle found nothing of their guest waiting at their array, and something
 * of others. */
struct cell {
    uint64_t arrived, idle, completed, by_reservation, by_weight;
    uint64_t ahead, late;      /* of the sent: whose limit tag still lay ahead; or lay before the interval */
    uint64_t latency, longest; /* of the completed, from arrival to completion: summed, and the longest */
    uint64_t least;            /* of its requests wait, in the whole interval */
};

/* One guest in the whole run, as a sheet has it. The waits are from arrival to send. */
struct whole {
    uint64_t arrived, completed, by_reservation, by_weight, ahead, longest, upper, lower, waiting, flight;
};

void count_open(const struct run *run);

/* The time has come to this; before anything is counted there. */
void count_time(uint64_t time);

void count_arrival(uint64_t array, uint64_t guest);

/* The limit tag is SGQ_NEVER where it is not known, or there is none. */
void count_send(uint64_t array, uint64_t guest, uint64_t kind, uint64_t time, uint64_t asked, uint64_t limit_tag);

void count_completion(uint64_t guest, uint64_t latency);

/* A line for each interval and guest, parted by commas, below a heading. */
void print_cells(void);

/* The sheet, to a file. */
void write_sheet(const char *path);

#endif
