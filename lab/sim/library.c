/* library.c: the gates of the library, see gate.h. */
#include "gate.h"

#include <string.h>

static struct lent {
    sgq_gate gate;
    sgq_guest guests[MOST_GUESTS];
    sgq_request waiting[SGQ_MOST_CAPACITY];
    sgq_flight flight[SGQ_MOST_DEPTH];
    uint64_t phases[SGQ_MOST_DEPTH];
} lent[SGQ_MOST_ARRAYS];

static sgq_counter counters[SGQ_MOST_ARRAYS * MOST_GUESTS];
static uint64_t arrays, guests;

static sgq_tables tables_of(uint64_t array)
{
    struct lent *own = &lent[array];
    return (sgq_tables)SGQ_TABLES(own->gate, own->guests, own->waiting, own->flight);
}

static sgq_array array_of(uint64_t array)
{
    struct lent *own = &lent[array];
    sgq_array found = {array, tables_of(array), own->phases, SGQ_COUNT(own->phases)};
    return found;
}

static sgq_house house(void)
{
    sgq_house found = {arrays, counters, SGQ_COUNT(counters)};
    return found;
}

static void must_open(sgq_answer answer)
{
    if (answer.kind == SGQ_REFUSED)
        stop("the gate does not open: %s", sgq_refusal_text(answer.refusal));
}

static void settings_of(const struct run *run, sgq_settings *settings)
{
    arrays = run->arrays;
    guests = run->guest_count;
    memset(counters, 0, sizeof counters);
    for (size_t guest = 0; guest < run->guest_count; guest++)
        settings[guest] = run->guests[guest].settings;
}

/* A gate for each array by itself. */

static void library_open(const struct run *run)
{
    sgq_settings settings[MOST_GUESTS];
    settings_of(run, settings);
    for (uint64_t array = 0; array < arrays; array++) {
        sgq_tables own = tables_of(array);
        must_open(sgq_tables_open(&own, run->depth, guests, run->capacity, run->rule, settings, guests));
    }
}

static sgq_answer library_arrive(uint64_t array, uint64_t guest, uint32_t id, uint64_t time, uint64_t cost)
{
    sgq_tables own = tables_of(array);
    return sgq_tables_arrive(&own, guest, id, time, cost);
}

static sgq_answer library_complete(uint64_t array, uint64_t guest, uint32_t id, uint64_t time)
{
    sgq_tables own = tables_of(array);
    return sgq_tables_complete(&own, guest, id, time);
}

static sgq_answer library_tick(uint64_t array, uint64_t time)
{
    sgq_tables own = tables_of(array);
    return sgq_tables_tick(&own, time);
}

uint64_t library_limit_tag(uint64_t guest, uint64_t cost)
{
    const sgq_guest *own = &lent[0].guests[guest];
    return own->limit == 0 ? SGQ_NEVER : own->lnext - cost * ((SECOND + own->limit - 1) / own->limit);
}

/* The calls of a house. */

static void arrays_open(const struct run *run)
{
    sgq_settings settings[MOST_GUESTS];
    settings_of(run, settings);
    sgq_house all = house();
    for (uint64_t array = 0; array < arrays; array++) {
        sgq_array own = array_of(array);
        must_open(sgq_house_open(&all, &own, run->depth, guests, run->capacity, run->rule, settings, guests));
    }
}

static sgq_answer arrays_arrive(uint64_t array, uint64_t guest, uint32_t id, uint64_t time, uint64_t cost)
{
    sgq_house all = house();
    sgq_array own = array_of(array);
    return sgq_house_arrive(&all, &own, guest, id, time, cost);
}

static sgq_answer arrays_complete(uint64_t array, uint64_t guest, uint32_t id, uint64_t time)
{
    sgq_house all = house();
    sgq_array own = array_of(array);
    return sgq_house_complete(&all, &own, guest, id, time);
}

static sgq_answer arrays_tick(uint64_t array, uint64_t time)
{
    sgq_house all = house();
    sgq_array own = array_of(array);
    return sgq_house_tick(&all, &own, time);
}

/* The same with our own count: by which phase a request went is kept by its id, and a completion counts at every array. */

static unsigned char sent_by[MOST_GUESTS][1 << 16];

static sgq_answer note_phase(sgq_answer answer)
{
    if (sgq_sent(answer))
        sent_by[answer.guest][answer.id & 0xffff] = (unsigned char)answer.kind;
    return answer;
}

static sgq_answer arrive_with(uint64_t array, uint64_t guest, uint32_t id, uint64_t time, uint64_t cost, uint64_t least)
{
    sgq_tables own = tables_of(array);
    sgq_counter *counted = &counters[array * guests + guest];
    uint64_t delta = counted->delta == 0 ? 1 : counted->delta, rho = counted->rho < least ? least : counted->rho;
    sgq_answer answer = sgq_tables_arrive_spread(&own, guest, id, time, cost, delta, rho);
    if (answer.kind != SGQ_REFUSED)
        counted->delta = counted->rho = 0;
    return note_phase(answer);
}

static sgq_answer counted_arrive(uint64_t array, uint64_t guest, uint32_t id, uint64_t time, uint64_t cost)
{
    return arrive_with(array, guest, id, time, cost, 0);
}

static sgq_answer counted_one_arrive(uint64_t array, uint64_t guest, uint32_t id, uint64_t time, uint64_t cost)
{
    return arrive_with(array, guest, id, time, cost, 1);
}

static sgq_answer counted_complete(uint64_t array, uint64_t guest, uint32_t id, uint64_t time)
{
    uint64_t by_reservation = sent_by[guest][id & 0xffff] == SGQ_SENT_BY_RESERVATION;
    for (uint64_t other = 0; other < arrays; other++) {
        sgq_counter *counted = &counters[other * guests + guest];
        counted->delta += counted->delta < SGQ_MOST_DELTA;
        counted->rho += counted->rho < SGQ_MOST_DELTA ? by_reservation : 0;
    }
    return note_phase(library_complete(array, guest, id, time));
}

static sgq_answer counted_tick(uint64_t array, uint64_t time)
{
    return note_phase(library_tick(array, time));
}

const struct gate library_gates[] = {{"library", library_open, library_arrive, library_complete, library_tick},
                                     {"arrays", arrays_open, arrays_arrive, arrays_complete, arrays_tick},
                                     {"counted", library_open, counted_arrive, counted_complete, counted_tick},
                                     {"counted-one", library_open, counted_one_arrive, counted_complete, counted_tick},
                                     {NULL, NULL, NULL, NULL, NULL}};
