/* gate.h: who decides what goes to an array: the library, or a plain gate to hold beside it.
 *
 *   library      the proved library, each array with a gate that knows of no other
 *   arrays       the proved library's calls of a house with several arrays, which count delta and rho
 *   counted      the same, but that delta and rho are counted here and handed to the gates: to hold the other to
 *   counted-one  so too, and a rho of 0 goes out as 1: a trial, and no rule of document 02
 *   first-come   what comes first goes first
 *   sfq          start-time fair queueing with a depth, by shares alone
 *   before-k3    the paper's Algorithm 1 as it is printed: a guest that comes back keeps its share tags
 *   after-k3     the same model with document 02's K3 in it, which has to decide as the library does */
#ifndef GATE_H
#define GATE_H

#include "run.h"

struct gate {
    const char *name;
    void (*open)(const struct run *run);
    sgq_answer (*arrive)(uint64_t array, uint64_t guest, uint32_t id, uint64_t time, uint64_t cost);
    sgq_answer (*complete)(uint64_t array, uint64_t guest, uint32_t id, uint64_t time);
    sgq_answer (*tick)(uint64_t array, uint64_t time);
};

/* The kinds that the library has, and the plain ones; both lists end with one that has no name. */
extern const struct gate library_gates[], plain_gates[];

/* The limit tag of the request of this cost that the guest brought last to the first array, SGQ_NEVER where it has no limit. */
uint64_t library_limit_tag(uint64_t guest, uint64_t cost);

#endif
