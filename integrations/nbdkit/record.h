/* record.h: what the gate was handed and what it answered, as a trace and its lines. */
#ifndef RECORD_H
#define RECORD_H

#include "sgq.h"

#include <stdbool.h>
#include <stddef.h>

/* Makes the files of the next opening: FILE and FILE.lines, then FILE.2 and FILE.2.lines, and so on, for a trace is of one
 * opening. False where that cannot be, which is then said. */
bool record_open(const char *path);

/* Writes what stands before the first event. */
void record_begin(void);

/* Writes the events that the gate has accepted, and its answers. */
void record_events(const sgq_event *events, const sgq_answer *answers, size_t count);

void record_end(void);

bool is_recording(void);

#endif
