/* house.h: a simulated house around the gate, for the figures of docs/HOSTS.md: an array, guests that ask, a host that
 * hands events to the gate and keeps a quota; it may be one of several arrays that count between them. Time is simulated and
 * all is whole numbers, so that the figures are the same on every machine. */
#ifndef HOUSE_H
#define HOUSE_H

#include "sgq.h"

#define MS UINT64_C(1000000) /* nanoseconds */
#define SECOND (1000 * MS)
#define GUESTS 8   /* at most */
#define ASKED 1024 /* requests under way, at most */

/* How a guest asks, from one time until another: it keeps so many requests under way, or asks once in each period. */
struct load {
    uint64_t under_way, period, from, until;
    uint64_t quota; /* of waiting places, before the gate; 0: none */
};

/* What became of a guest's requests: the longest wait from asking to sending, and from asking to the end. */
struct tally {
    uint64_t refused, sent, by_reservation, longest, longest_whole;
};

/* A request: its cost, when it was asked for and, at the array, when it will be done. */
struct job {
    uint64_t guest, id, cost, asked, done;
};

struct jobs {
    struct job job[ASKED];
    size_t count;
};

struct house {
    sgq_gate gate;
    sgq_guest guests[GUESTS];
    sgq_request waiting[SGQ_MOST_CAPACITY];
    sgq_flight flight[SGQ_MOST_DEPTH];
    sgq_tables lent;
    const sgq_house *whole; /* where this is one of several arrays: the counters of all; else NULL */
    sgq_array own;
    uint64_t phases[SGQ_MOST_DEPTH];

    uint64_t servers, service; /* the array works on so many requests at once, each so long, in order of sending */
    uint64_t server_free[SGQ_MOST_DEPTH];
    uint64_t times[GUESTS], cost[GUESTS]; /* a guest's requests take so many times as long, and arrive at this cost */
    struct load load[GUESTS];
    struct tally tally[GUESTS];
    uint64_t next_ask[GUESTS];
    uint32_t next_id[GUESTS];
    struct jobs door, inside, busy; /* asked for; accepted and not yet sent; at the array */
    uint64_t events, ticks, idle_ticks; /* arrivals and completions; ticks, and those of them that sent nothing */
    uint64_t now, wake;                 /* the time, and when to tick, as the gate said last */
};

/* Opens the gate under rule 1, with an array that works on `servers` requests at once for `service` ns each. */
void house_open(struct house *house, uint64_t depth, uint64_t capacity, const sgq_settings *settings, size_t guests,
                uint64_t servers, uint64_t service);

/* The same as an array of a house with several, the one of this number; all of them are opened before one is played. */
void house_open_array(struct house *house, const sgq_house *whole, uint64_t number, uint64_t depth, uint64_t capacity,
                      const sgq_settings *settings, size_t guests, uint64_t servers, uint64_t service);

/* Lets a guest ask from now on. */
void house_load(struct house *house, uint64_t guest, struct load load);

/* The requests of a guest take so many times as long as others, and are handed over at this cost; else both are 1. */
void house_weigh(struct house *house, uint64_t guest, uint64_t times, uint64_t cost);

/* Plays until a time; what happens at that time is left for the next call. */
void house_play(struct house *house, uint64_t until);

/* Forgets what was counted so far. */
void house_count_anew(struct house *house);

/* Ends the program: a call was refused that should not be. */
void stop_at(const char *what, sgq_answer answer);

#endif
