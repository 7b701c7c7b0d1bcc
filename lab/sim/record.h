/* record.h: the events of a run as a trace of version 2, and the answers as 'decide' prints them. */
#ifndef RECORD_H
#define RECORD_H

#include "run.h"

/* Begins the files that the run names, if any. */
void record_open(const struct run *run);

/* An event, and what the gate answered. The cost is of an arrival, guest and id are not of a tick: else 1 and 0. */
void record(uint64_t kind, uint64_t guest, uint32_t id, uint64_t time, uint64_t cost, sgq_answer answer);

void record_close(void);

#endif
