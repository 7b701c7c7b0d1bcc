/* queue.h: what is to happen, first things first; of one time, in the order in which it was said. */
#ifndef QUEUE_H
#define QUEUE_H

#include <stddef.h>
#include <stdint.h>

enum happening { ASKS, ENDS, WAKES };

struct happens {
    uint64_t time, order;
    enum happening what;
    uint64_t which; /* the load that asks, the guest whose request ends, or the array that wakes */
    uint32_t id;    /* of the request that ends */
};

void queue_put(uint64_t time, enum happening what, uint64_t which, uint32_t id);

/* Takes the first out, or gives 0. */
int queue_take(struct happens *first);

#endif
