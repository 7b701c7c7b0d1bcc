/* settings.h: what the filter is told on nbdkit's command line. */
#ifndef SETTINGS_H
#define SETTINGS_H

#include "sgq.h"

#include <stdbool.h>
#include <stdint.h>

/* What a request asks of the disc. */
enum request_kind { READ, WRITE, FLUSH, TRIM, ZERO, CACHE, KINDS };

struct settings {
    uint64_t depth, capacity, rule;
    uint64_t guests;
    const char *name[SGQ_MOST_GUESTS]; /* of the export */
    sgq_settings guest[SGQ_MOST_GUESTS];
    uint64_t quota[SGQ_MOST_GUESTS]; /* waiting places that a guest may hold */
    const char *trace;               /* where to record, or NULL */
    const char *house;               /* where a house of several arrays keeps its counters, or NULL */
    uint64_t arrays, array;
};

extern struct settings settings;

/* Takes one parameter: 1 where it is the filter's own, 0 where it is not, -1 where it is bad, which is then said. */
int settings_take(const char *key, const char *value);

/* Fills in what was not told, and judges the whole: false where it is bad, which is then said. */
bool settings_complete(void);

/* The number of the guest whose export this is, or -1. */
int settings_guest(const char *name);

/* What a request costs, 1 to SGQ_MOST_COST. */
uint64_t settings_cost(enum request_kind kind, uint32_t bytes);

#endif
