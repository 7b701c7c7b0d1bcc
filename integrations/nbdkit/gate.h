/* gate.h: where a request waits for its turn. */
#ifndef GATE_H
#define GATE_H

#include <semaphore.h>
#include <stdbool.h>
#include <stdint.h>

/* A request of a thread of nbdkit's, for as long as that thread has it. */
struct request {
    uint64_t guest, cost;
    enum { OUTSIDE, INSIDE, SENT } state; /* before the gate, handed over, at the array */
    uint32_t id;                          /* its place in the books, once it is handed over */
    sem_t turn;                           /* posted when it is sent */
    struct request *next;                 /* the next one of its guest, outside */
};

/* Opens the gate; false where that cannot be, which is then said. */
bool gate_open(void);

/* Starts the thread that ticks; 0 or an error number. */
int gate_start(void);

/* Ends it, and the record. */
void gate_stop(void);

/* Sleeps until it is the turn of the request, which has its guest and cost. True: it goes to the array now, and gate_leave has
 * to follow. False: nobody waits for it any more, for its client is gone, or the server is going. */
bool gate_enter(struct request *request);

/* Says that the array is done with it. */
void gate_leave(const struct request *request);

#endif
