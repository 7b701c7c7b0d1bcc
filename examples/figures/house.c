/* house.c: see house.h. */
#include "house.h"

#include <inttypes.h>
#include <stdio.h>
#include <stdlib.h>
#include <string.h>

void stop_at(const char *what, sgq_answer answer)
{
    const char *why = sgq_refusal_text(answer.refusal);
    fprintf(stderr, "figures: %s was refused, %" PRIu64 ": %s\n", what, answer.refusal, why);
    exit(1);
}

/* An array where nobody asks yet, its gate not open. */
static void build(struct house *house, uint64_t servers, uint64_t service)
{
    memset(house, 0, sizeof *house);
    house->servers = servers;
    house->service = service;
    for (size_t guest = 0; guest < GUESTS; guest++) {
        house->next_ask[guest] = SGQ_NEVER;
        house_weigh(house, guest, 1, 1);
    }
    house->lent = (sgq_tables)SGQ_TABLES(house->gate, house->guests, house->waiting, house->flight);
}

static void opened(struct house *house, sgq_answer answer)
{
    if (answer.kind == SGQ_REFUSED)
        stop_at("opening", answer);
    house->wake = answer.wake;
}

void house_open(struct house *house, uint64_t depth, uint64_t capacity, const sgq_settings *settings, size_t guests,
                uint64_t servers, uint64_t service)
{
    build(house, servers, service);
    opened(house, sgq_tables_open(&house->lent, depth, guests, capacity, SGQ_RULE_1, settings, guests));
}

void house_open_array(struct house *house, const sgq_house *whole, uint64_t number, uint64_t depth, uint64_t capacity,
                      const sgq_settings *settings, size_t guests, uint64_t servers, uint64_t service)
{
    build(house, servers, service);
    house->whole = whole;
    house->own = (sgq_array){number, house->lent, house->phases, SGQ_COUNT(house->phases)};
    opened(house, sgq_house_open(whole, &house->own, depth, guests, capacity, SGQ_RULE_1, settings, guests));
}

void house_load(struct house *house, uint64_t guest, struct load load)
{
    house->load[guest] = load;
    house->next_ask[guest] = load.from;
}

void house_weigh(struct house *house, uint64_t guest, uint64_t times, uint64_t cost)
{
    house->times[guest] = times;
    house->cost[guest] = cost;
}

void house_count_anew(struct house *house)
{
    memset(house->tally, 0, sizeof house->tally);
    house->events = house->ticks = house->idle_ticks = 0;
}

/* Jobs in a row. */

static void put(struct jobs *jobs, struct job job)
{
    if (jobs->count == ASKED) {
        fprintf(stderr, "figures: more than %d requests are under way\n", ASKED);
        exit(1);
    }
    jobs->job[jobs->count++] = job;
}

static struct job take_out(struct jobs *jobs, size_t place)
{
    struct job taken = jobs->job[place];
    jobs->count -= 1;
    memmove(&jobs->job[place], &jobs->job[place + 1], (jobs->count - place) * sizeof taken);
    return taken;
}

static size_t place_of(const struct jobs *jobs, uint64_t guest, uint64_t id)
{
    size_t place = 0;
    while (jobs->job[place].guest != guest || jobs->job[place].id != id)
        place++;
    return place;
}

/* Events at the gate, or at this array of several. */

static sgq_answer arrive_now(const struct house *house, const struct job *job)
{
    if (house->whole != NULL)
        return sgq_house_arrive(house->whole, &house->own, job->guest, (uint32_t)job->id, house->now, job->cost);
    return sgq_tables_arrive(&house->lent, job->guest, (uint32_t)job->id, house->now, job->cost);
}

static sgq_answer complete_now(const struct house *house, const struct job *job)
{
    if (house->whole != NULL)
        return sgq_house_complete(house->whole, &house->own, job->guest, (uint32_t)job->id, house->now);
    return sgq_tables_complete(&house->lent, job->guest, (uint32_t)job->id, house->now);
}

static sgq_answer tick_now(const struct house *house)
{
    if (house->whole != NULL)
        return sgq_house_tick(house->whole, &house->own, house->now);
    return sgq_tables_tick(&house->lent, house->now);
}

/* Sending. */

/* The server of the array that is free first. */
static uint64_t *first_free(struct house *house)
{
    uint64_t *first = &house->server_free[0];
    for (size_t server = 1; server < house->servers; server++)
        if (house->server_free[server] < *first)
            first = &house->server_free[server];
    return first;
}

static void send_one(struct house *house, sgq_answer answer)
{
    struct job job = take_out(&house->inside, place_of(&house->inside, answer.guest, answer.id));
    struct tally *tally = &house->tally[job.guest];
    uint64_t waited = house->now - job.asked;
    uint64_t *server = first_free(house);
    *server = (*server > house->now ? *server : house->now) + house->service * house->times[job.guest];
    job.done = *server;
    put(&house->busy, job);
    tally->sent += 1;
    tally->by_reservation += answer.kind == SGQ_SENT_BY_RESERVATION;
    if (tally->longest < waited)
        tally->longest = waited;
}

static sgq_answer tick_once(struct house *house)
{
    sgq_answer answer = tick_now(house);
    house->ticks += 1;
    house->idle_ticks += !sgq_sent(answer);
    return answer;
}

/* An event sends at most one request: as long as the gate says to wake now, a tick sends another. */
static void follow(struct house *house, sgq_answer answer)
{
    while (answer.kind != SGQ_REFUSED) {
        if (sgq_sent(answer))
            send_one(house, answer);
        house->wake = answer.wake;
        if (house->wake > house->now)
            return;
        answer = tick_once(house);
    }
    stop_at("an event", answer);
}

/* Arrivals. */

/* Whether a guest may hold one waiting place more. */
static int has_quota(const struct house *house, uint64_t guest)
{
    uint64_t quota = house->load[guest].quota;
    return quota == 0 || sgq_waiting_of(&house->lent, guest) < quota;
}

/* Hands over those at the door, in order of asking, as far as their quotas go. */
static void let_in(struct house *house)
{
    for (size_t place = 0; place < house->door.count;) {
        struct job job = house->door.job[place];
        if (!has_quota(house, job.guest)) {
            place++;
            continue;
        }
        sgq_answer answer = arrive_now(house, &job);
        if (answer.kind == SGQ_REFUSED && answer.refusal == SGQ_REFUSED_WAITING_FULL) {
            house->tally[job.guest].refused += 1;
            return;
        }
        put(&house->inside, take_out(&house->door, place));
        house->events += 1;
        follow(house, answer);
    }
}

static void ask(struct house *house, uint64_t guest)
{
    struct job job = {guest, house->next_id[guest]++, house->cost[guest], house->now, 0};
    put(&house->door, job);
}

/* The guest asks for the first time, or again in its period. */
static void ask_in_turn(struct house *house, uint64_t guest)
{
    const struct load *load = &house->load[guest];
    house->next_ask[guest] = SGQ_NEVER;
    for (uint64_t request = 0; request < load->under_way; request++)
        ask(house, guest);
    if (load->period != 0) {
        ask(house, guest);
        if (house->now + load->period < load->until)
            house->next_ask[guest] = house->now + load->period;
    }
    let_in(house);
}

/* Completions. */

static void complete(struct house *house, size_t place)
{
    struct job job = take_out(&house->busy, place);
    const struct load *load = &house->load[job.guest];
    struct tally *tally = &house->tally[job.guest];
    if (tally->longest_whole < house->now - job.asked)
        tally->longest_whole = house->now - job.asked;
    house->events += 1;
    follow(house, complete_now(house, &job));
    if (load->under_way != 0 && house->now < load->until)
        ask(house, job.guest);
    let_in(house);
}

/* What comes next. */

static uint64_t sooner(uint64_t a, uint64_t b)
{
    return a < b ? a : b;
}

static size_t first_done(const struct house *house)
{
    size_t first = 0;
    for (size_t place = 1; place < house->busy.count; place++)
        if (house->busy.job[place].done < house->busy.job[first].done)
            first = place;
    return first;
}

static uint64_t first_asking(const struct house *house)
{
    uint64_t first = 0;
    for (uint64_t guest = 1; guest < GUESTS; guest++)
        if (house->next_ask[guest] < house->next_ask[first])
            first = guest;
    return first;
}

static void tick(struct house *house)
{
    follow(house, tick_once(house));
    let_in(house);
}

/* At equal times what is done goes first, then who asks, then a tick. */
void house_play(struct house *house, uint64_t until)
{
    for (;;) {
        size_t first = first_done(house);
        uint64_t guest = first_asking(house);
        uint64_t done = house->busy.count > 0 ? house->busy.job[first].done : SGQ_NEVER;
        uint64_t next = sooner(sooner(done, house->next_ask[guest]), house->wake);
        if (next >= until)
            return;
        house->now = next;
        if (next == done)
            complete(house, first);
        else if (next == house->next_ask[guest])
            ask_in_turn(house, guest);
        else
            tick(house);
    }
}
