/* sim.c: plays one run of a house in front of its arrays, which standard input says (run.h), and prints for each interval and
 * guest what became of its requests. Time is simulated and all is whole numbers, so that a run gives the same figures on
 * every machine. */
#include "count.h"
#include "gate.h"
#include "queue.h"
#include "record.h"

#include <inttypes.h>
#include <string.h>

#define UNDER_WAY 8192 /* requests of one guest, at most */
#define BEGINS 1000000 /* nanoseconds within which a closed load begins */

/* A request that is under way. */
struct job {
    int used;
    uint32_t id;
    uint64_t array, load, asked, limit_tag;
};

static struct run house;
static const struct gate *gate;
static struct job jobs[MOST_GUESTS][UNDER_WAY];
static uint32_t next_id[MOST_GUESTS];
static uint64_t server_free[SGQ_MOST_ARRAYS][SGQ_MOST_DEPTH];
static uint64_t wake[SGQ_MOST_ARRAYS], armed[SGQ_MOST_ARRAYS]; /* when to tick, and for when that is in the queue */
static uint64_t now, chance;

/* A random number below another, by xorshift. */
static uint64_t below(uint64_t most)
{
    chance ^= chance << 13;
    chance ^= chance >> 7;
    chance ^= chance << 17;
    return (chance >> 16) % most;
}

/* The array. */

static uint64_t rate_at(uint64_t array, uint64_t time)
{
    uint64_t rate = 0;
    for (size_t at = 0; at < house.turn_count; at++)
        if (house.turns[at].array == array && house.turns[at].from <= time)
            rate = house.turns[at].rate;
    if (rate == 0)
        stop("array %" PRIu64 " has no speed at %" PRIu64, array, time);
    return rate;
}

/* A request takes the server that is free first. */
static void serve(uint64_t guest, const struct job *job)
{
    uint64_t *first = &server_free[job->array][0];
    for (uint64_t at = 1; at < house.servers; at++)
        if (server_free[job->array][at] < *first)
            first = &server_free[job->array][at];
    uint64_t begin = *first > now ? *first : now;
    uint64_t time = house.servers * SECOND / rate_at(job->array, begin) * house.guests[guest].times / 1000;
    time = time * (1000 - house.vary + below(2 * house.vary + 1)) / 1000;
    *first = begin + time;
    queue_put(*first, ENDS, guest, job->id);
}

/* The gate. */

static struct job *job_of(uint64_t guest, uint32_t id)
{
    struct job *job = &jobs[guest][id % UNDER_WAY];
    if (!job->used || job->id != id)
        stop("guest %" PRIu64 " has no request %" PRIu32, guest, id);
    return job;
}

static void send_one(sgq_answer answer)
{
    struct job *job = job_of(answer.guest, (uint32_t)answer.id);
    count_send(job->array, answer.guest, answer.kind, now, job->asked, job->limit_tag);
    serve(answer.guest, job);
}

/* An event sends at most one request: as long as the gate says to wake now, a tick sends another. */
static void follow(uint64_t array, sgq_answer answer)
{
    for (;;) {
        if (answer.kind == SGQ_REFUSED)
            stop("the gate refuses an event: %s", sgq_refusal_text(answer.refusal));
        if (sgq_sent(answer))
            send_one(answer);
        wake[array] = answer.wake;
        if (answer.wake > now)
            break;
        answer = gate->tick(array, now);
        record(SGQ_TICK, 0, 0, now, 1, answer);
    }
    if (wake[array] != SGQ_NEVER && wake[array] != armed[array]) {
        armed[array] = wake[array];
        queue_put(wake[array], WAKES, array, 0);
    }
}

/* The guests. */

/* One of the arrays of a load, by chance. */
static uint64_t array_of(const struct load *load)
{
    uint64_t array = 0, count = 0;
    for (uint64_t at = 0; at < house.arrays; at++)
        count += load->arrays >> at & 1;
    uint64_t left = count == 1 ? 0 : below(count);
    while ((load->arrays >> array & 1) == 0 || left-- > 0)
        array += 1;
    return array;
}

/* Whether the limit tags are known: at a gate of the library that has one array. */
static int has_tags(void)
{
    return gate == library_gates && house.arrays == 1;
}

static void ask(uint64_t which)
{
    const struct load *load = &house.loads[which];
    uint64_t guest = load->guest, cost = house.guests[guest].cost;
    uint32_t id = next_id[guest]++;
    struct job *job = &jobs[guest][id % UNDER_WAY];
    if (job->used)
        stop("guest %" PRIu64 " has more than %d requests under way", guest, UNDER_WAY);
    *job = (struct job){1, id, array_of(load), which, now, SGQ_NEVER};
    count_arrival(job->array, guest);
    sgq_answer answer = gate->arrive(job->array, guest, id, now, cost);
    record(SGQ_ARRIVAL, guest, id, now, cost, answer);
    if (has_tags())
        job->limit_tag = library_limit_tag(guest, cost);
    follow(job->array, answer);
}

/* A load asks in its turn: all that are due, and puts its next turn into the queue. */
static void ask_in_turn(uint64_t which)
{
    const struct load *load = &house.loads[which];
    if (now >= load->until)
        return;
    for (uint64_t at = 0; at < (load->kind == CLOSED ? 1 : load->count); at++)
        ask(which);
    if (load->kind == BURST)
        queue_put(now + load->period, ASKS, which, 0);
    if (load->kind == OPEN)
        queue_put(now + load->period / 2 + below(load->period + 1), ASKS, which, 0);
}

static void end(uint64_t guest, uint32_t id)
{
    struct job *job = job_of(guest, id);
    uint64_t array = job->array;
    count_completion(guest, now - job->asked);
    job->used = 0;
    if (house.loads[job->load].kind == CLOSED)
        queue_put(now + house.think, ASKS, job->load, 0);
    sgq_answer answer = gate->complete(array, guest, id, now);
    record(SGQ_COMPLETION, guest, id, now, 1, answer);
    follow(array, answer);
}

static void tick(uint64_t array)
{
    armed[array] = 0;
    if (wake[array] != now)
        return;
    sgq_answer answer = gate->tick(array, now);
    record(SGQ_TICK, 0, 0, now, 1, answer);
    follow(array, answer);
}

/* A closed load begins with all its requests within a millisecond. */
static void begin_loads(void)
{
    for (uint64_t which = 0; which < house.load_count; which++) {
        const struct load *load = &house.loads[which];
        for (uint64_t at = 0; at < (load->kind == CLOSED ? load->count : 1); at++)
            queue_put(load->from + (load->kind == CLOSED ? below(BEGINS) : 0), ASKS, which, 0);
    }
}

static void play(void)
{
    struct happens next;
    while (queue_take(&next) && next.time < house.until) {
        now = next.time;
        count_time(now);
        if (next.what == ASKS)
            ask_in_turn(next.which);
        else if (next.what == ENDS)
            end(next.which, next.id);
        else
            tick(next.which);
    }
    count_time(house.until - 1);
}

static const struct gate *gate_named(const struct gate *kinds, const char *name)
{
    while (kinds->name != NULL && strcmp(kinds->name, name) != 0)
        kinds += 1;
    return kinds->name == NULL ? NULL : kinds;
}

int main(void)
{
    read_run(&house);
    gate = gate_named(library_gates, house.gate);
    if (house.sheet[0] != '\0' && !has_tags())
        stop("a sheet is of one array at the library");
    if (gate == NULL)
        gate = gate_named(plain_gates, house.gate);
    if (gate == NULL)
        stop("there is no gate '%s'", house.gate);
    chance = house.seed * UINT64_C(0x9e3779b97f4a7c15) | 1;
    gate->open(&house);
    count_open(&house);
    record_open(&house);
    begin_loads();
    play();
    record_close();
    if (house.sheet[0] != '\0')
        write_sheet(house.sheet);
    print_cells();
    return 0;
}
