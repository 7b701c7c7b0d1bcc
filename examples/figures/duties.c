/* duties.c: what a host does: clock, ticks, batches, requests that nobody wants any more, refusals, opening again. */
#include "figures.h"

#include <inttypes.h>
#include <stdio.h>

static struct house house;

/* Two threads read the clock, and the later reading comes first. */
void clock_figures(void)
{
    const sgq_settings settings[2] = {{0, 0, 1, 0}, {0, 0, 1, 0}};
    house_open(&house, 4, 8, settings, 2, 4, MS);
    print_answer("the thread that read 101 ns", sgq_tables_arrive(&house.lent, 1, 1, 101, 1));
    print_answer("the thread that read 100 ns", sgq_tables_arrive(&house.lent, 0, 1, 100, 1));
    print_answer("the same, read again at 102 ns", sgq_tables_arrive(&house.lent, 0, 1, 102, 1));
}

/* Ticks. */

/* Four requests that may go at one time, at an array with four places. */
static void one_by_one(void)
{
    const sgq_settings settings[4] = {{0, 10, 1, 0}, {0, 10, 1, 0}, {0, 10, 1, 0}, {0, 10, 1, 0}};
    house_open(&house, 4, 8, settings, 4, 4, MS);
    for (uint64_t guest = 0; guest < 4; guest++) {
        if (!sgq_sent(sgq_tables_arrive(&house.lent, guest, 1, 0, 1)))
            return;
        if (sgq_sent(sgq_tables_arrive(&house.lent, guest, 2, 0, 1)))
            return;
    }
    for (uint64_t guest = 0; guest < 4; guest++)
        if (sgq_sent(sgq_tables_complete(&house.lent, guest, 1, 50 * MS)))
            return;
    unsigned ticks = 1;
    sgq_answer answer = sgq_tables_tick(&house.lent, 100 * MS);
    for (; sgq_sent(answer) && answer.wake <= 100 * MS; ticks++)
        answer = sgq_tables_tick(&house.lent, 100 * MS);
    printf("four requests may go at 100 ms and four places are free: %u ticks, %" PRIu64 " are sent\n", ticks,
           house.gate.flight);
}

/* A minute of bids, plates and archive reads, with a tick whenever the gate says to wake. */
static void when_woken(void)
{
    const sgq_settings settings[3] = {{50, 0, 1, 0}, {0, 0, 300, 0}, {0, 20, 100, 0}};
    const struct load bids = {0, 60 * MS, 0, SGQ_NEVER, 0}, plates = {8, 0, 20 * SECOND, 40 * SECOND, 0};
    const struct load archive = {4, 0, 0, SGQ_NEVER, 0};
    house_open(&house, 4, 64, settings, 3, 4, 8 * MS);
    house_load(&house, 0, bids);
    house_load(&house, 1, plates);
    house_load(&house, 2, archive);
    house_play(&house, 60 * SECOND);
    printf("a minute: %" PRIu64 " arrivals and completions, %" PRIu64 " ticks, %" PRIu64 " of them sent nothing\n",
           house.events, house.ticks, house.idle_ticks);
    printf("a tick in each millisecond would be %d\n", 60 * 1000);
}

void ticks_figures(void)
{
    one_by_one();
    when_woken();
}

/* Many events in one call. */

static void print_whole(const char *what, uint64_t refusal)
{
    if (refusal != 0)
        printf("%s: refused %" PRIu64 ", %s; nothing was done\n", what, refusal, sgq_refusal_text(refusal));
    else
        printf("%s: done\n", what);
}

void batch_figures(void)
{
    const sgq_settings settings[1] = {{0, 0, 1, 0}};
    static const char *const what[] = {"  guest 0, id 1", "  the same again", "  kind 3", "  guest 0, id 2",
                                       "  the end of id 1"};
    static sgq_event events[SGQ_MOST_EVENTS + 1];
    static sgq_answer answers[SGQ_MOST_EVENTS + 1];
    house_open(&house, 1, 8, settings, 1, 1, MS);
    events[0] = events[1] = sgq_arrival(0, 1, 5, 1);
    events[2].kind = 3;
    events[3] = sgq_arrival(0, 2, 6, 1);
    events[4] = sgq_completion(0, 1, 7);
    print_whole("five events, room for five answers", sgq_tables_batch(&house.lent, events, 5, answers, 5));
    for (size_t place = 0; place < SGQ_COUNT(what); place++)
        print_answer(what[place], answers[place]);
    print_whole("five events, room for four", sgq_tables_batch(&house.lent, events, 5, answers, 4));
    print_whole("257 events, room for 257", sgq_tables_batch(&house.lent, events, 257, answers, 257));
}

/* A client with a limit of two a second asks for 32 and goes away; the next client asks for one. What the gate sends is
 * completed at once. */
static void go_away(uint64_t quota)
{
    const sgq_settings settings[1] = {{0, 2, 1, 0}};
    const struct load gone = {32, 0, 0, 0, quota};
    house_open(&house, 4, 64, settings, 1, 4, 0);
    house_load(&house, 0, gone);
    house_play(&house, MS);
    house.door.count = 0; /* what has not arrived at the gate can be forgotten */
    uint64_t left = house.gate.waiting;
    const struct load next = {1, 0, MS, 0, 0};
    house_load(&house, 0, next);
    house_play(&house, 60 * SECOND);
    print_quota(5, quota);
    printf("  %17" PRIu64 "  %7s", left, "");
    print_ms(house.tally[0].longest);
    printf("\n");
}

void withdrawn_figures(void)
{
    printf("quota  left at the gate  the next waits, ms\n");
    go_away(0);
    go_away(4);
}

/* Gates beside each other. */

/* A gate with two busy guests. */
static void open_busy(struct house *one, uint64_t shares)
{
    const sgq_settings settings[2] = {{0, 0, shares, 0}, {100, 200, 1, 0}};
    const struct load busy = {8, 0, 0, SGQ_NEVER, 0};
    house_open(one, 4, 32, settings, 2, 4, 4 * MS);
    house_load(one, 0, busy);
    house_load(one, 1, busy);
}

void gates_figures(void)
{
    static struct house beside;
    open_busy(&house, 100);
    house_play(&house, SECOND);
    uint64_t alone = house.tally[0].sent, limited = house.tally[1].sent;
    open_busy(&house, 100);
    open_busy(&beside, 7);
    for (uint64_t until = MS; until <= SECOND; until += MS) {
        house_play(&house, until);
        house_play(&beside, until);
    }
    printf("one gate alone: %" PRIu64 " and %" PRIu64 " sent\n", alone, limited);
    printf("the same beside another: %" PRIu64 " and %" PRIu64 "\n", house.tally[0].sent, house.tally[1].sent);
}

/* Refusals. */

/* These tables, which are open, as an array of a house. */
static void refused_arrays(const sgq_tables *lent)
{
    uint64_t phases[1] = {SGQ_SENT_BY_WEIGHT}; /* of id 4, which is in flight */
    sgq_counter counters[1] = {{0, 0}};
    const sgq_house nine = {9, counters, 1}, one = {1, counters, 1};
    const sgq_array second = {1, *lent, phases, 1};
    print_answer("a tick at one of nine arrays", sgq_house_tick(&nine, &second, SGQ_CEILING));
    print_answer("a tick at array 1 of one", sgq_house_tick(&one, &second, SGQ_CEILING));
}

void refusals_figures(void)
{
    const sgq_settings settings[1] = {{0, 1000000, 1, 0}};
    sgq_gate gate = {0, 0, 0, 0, 0, 0, 0};
    sgq_guest guests[1];
    sgq_request waiting[1];
    sgq_flight flight[1];
    const sgq_tables lent = SGQ_TABLES(gate, guests, waiting, flight);
    const uint64_t end = SGQ_CEILING;
    print_answer("opening with depth 65", sgq_tables_open(&lent, 65, 1, 1, SGQ_RULE_1, settings, 1));
    print_answer("opening under rule 3", sgq_tables_open(&lent, 1, 1, 1, 3, settings, 1));
    print_answer("opening with depth 2, a table of 1", sgq_tables_open(&lent, 2, 1, 1, SGQ_RULE_1, settings, 1));
    print_answer("a tick before any opening", sgq_tables_tick(&lent, 0));
    print_answer("opening", sgq_tables_open_all(&lent, SGQ_RULE_1, settings, 1));
    print_answer("guest 1 of one", sgq_tables_arrive(&lent, 1, 1, 0, 1));
    print_answer("time 2^62", sgq_tables_tick(&lent, end + 1));
    print_answer("guest 0, id 1 at 5 ns", sgq_tables_arrive(&lent, 0, 1, 5, 1));
    print_answer("the same again", sgq_tables_arrive(&lent, 0, 1, 5, 1));
    print_answer("a tick at 4 ns", sgq_tables_tick(&lent, 4));
    print_answer("guest 0, id 2 at cost 0", sgq_tables_arrive(&lent, 0, 2, 5, 0));
    print_answer("guest 0, id 2 at cost 65", sgq_tables_arrive(&lent, 0, 2, 5, 65));
    print_answer("guest 0, id 2 with delta 0", sgq_tables_arrive_spread(&lent, 0, 2, 5, 1, 0, 0));
    print_answer("guest 0, id 2 with delta 1, rho 2", sgq_tables_arrive_spread(&lent, 0, 2, 5, 1, 1, 2));
    print_answer("guest 0, id 2", sgq_tables_arrive(&lent, 0, 2, 5, 1));
    print_answer("guest 0, id 3", sgq_tables_arrive(&lent, 0, 3, 5, 1));
    print_answer("the end of id 2, which waits", sgq_tables_complete(&lent, 0, 2, 5));
    print_answer("the end of id 1", sgq_tables_complete(&lent, 0, 1, end));
    print_answer("guest 0, id 4 at the ceiling", sgq_tables_arrive(&lent, 0, 4, end, 1));
    print_answer("the end of id 2", sgq_tables_complete(&lent, 0, 2, end));
    print_answer("guest 0, id 5 at the ceiling", sgq_tables_arrive(&lent, 0, 5, end, 1));
    refused_arrays(&lent);
}

/* Opening again. */

static void send_to_array(sgq_answer answer)
{
    print_answer("  handed over again", answer);
}

/* Opens the gate once more over the same tables and hands it what waited, in order of acceptance. Nothing may be in
 * flight: the host has waited for the array to be done, and has not told the gate. Gives when to tick. */
static uint64_t open_again(const sgq_tables *lent, const sgq_settings *settings, size_t guests,
                           const struct jobs *waited, uint64_t now)
{
    sgq_answer answer = sgq_tables_open_all(lent, SGQ_RULE_1, settings, guests);
    for (size_t place = 0; place < waited->count && answer.kind != SGQ_REFUSED; place++) {
        const struct job *job = &waited->job[place];
        answer = sgq_tables_arrive(lent, job->guest, (uint32_t)job->id, now, job->cost);
        if (sgq_sent(answer))
            send_to_array(answer);
    }
    if (answer.kind == SGQ_REFUSED)
        stop_at("opening again", answer);
    return answer.wake;
}

void reopen_figures(void)
{
    static const sgq_settings settings[] = {{50, 0, 1, 0}, {0, 0, 800, 0}};
    static sgq_gate gate;
    static sgq_guest guests[2];
    static sgq_request waiting[16];
    static sgq_flight flight[4];
    static struct jobs waited; /* the host's own list */
    const sgq_tables lent = SGQ_TABLES(gate, guests, waiting, flight);
    print_answer("opening", sgq_tables_open_all(&lent, SGQ_RULE_1, settings, SGQ_COUNT(settings)));
    for (uint32_t id = 0; id < 10; id++)
        if (!sgq_sent(sgq_tables_arrive(&lent, 1, id, SECOND, 1)))
            waited.job[waited.count++] = (struct job){1, id, 1, SECOND, 0};
    printf("%" PRIu64 " in flight, %" PRIu64 " wait\n", gate.flight, gate.waiting);
    printf("a bit of the waiting table turns over\n");
    waiting[2].stag ^= UINT64_C(1) << 40;
    print_answer("a tick", sgq_tables_tick(&lent, 2 * SECOND));
    print_answer("an arrival", sgq_tables_arrive(&lent, 0, 1, 2 * SECOND, 1));
    printf("the array is done with those in flight; the gate is opened again\n");
    uint64_t wake = open_again(&lent, settings, SGQ_COUNT(settings), &waited, 3 * SECOND);
    printf("%" PRIu64 " in flight, %" PRIu64 " wait\n", gate.flight, gate.waiting);
    printf("to wake: %s\n", wake == SGQ_NEVER ? "never, no place is free" : "later");
    print_answer("a completion of before", sgq_tables_complete(&lent, 1, 0, 4 * SECOND));
}
