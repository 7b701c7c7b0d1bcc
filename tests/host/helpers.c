/* What header.c does not try of sgq.h: tables of no records, counts taken from arrays, free places and waiting counts,
 * when to wake, the rules for limits, costs, delta and rho, many events in one call, houses with several arrays, traces moved
 * from one version to the other and salvaged, lines judged, and a short clock. C99 and C++ alike; prints a line for each
 * thing that is not as it should be. */
#include "sgq.h"

#include <inttypes.h>
#include <stdio.h>
#include <string.h>

#define DEPTH 2
#define CAPACITY 3
#define GUESTS 2

static int wrong = 0;

static void same(const char *what, uint64_t found, uint64_t expected)
{
    if (found == expected)
        return;
    wrong = 1;
    printf("%s: %" PRIu64 ", not %" PRIu64 "\n", what, found, expected);
}

static void refused(const char *what, sgq_answer answer, uint64_t expected)
{
    same(what, answer.kind, SGQ_REFUSED);
    same(what, answer.refusal, expected);
    same(what, answer.wake, 0);
}

/* Tables of no records, and no settings: NULL is as good as any pointer. */
static void no_records(void)
{
    static const sgq_settings settings[GUESTS] = {{0, 0, 1, 0}, {0, 0, 1, 0}};
    sgq_gate gate = {DEPTH, GUESTS, CAPACITY, 0, 0, 0, SGQ_RULE_1};
    sgq_tables lent = {&gate, NULL, 0, NULL, 0, NULL, 0};
    refused("no guests", sgq_tables_open_all(&lent, SGQ_RULE_1, NULL, 0), SGQ_REFUSED_SETTING);
    refused("no settings", sgq_tables_open(&lent, DEPTH, GUESTS, CAPACITY, SGQ_RULE_1, NULL, 0),
            SGQ_REFUSED_SHORT_TABLE);
    refused("no tables", sgq_tables_open(&lent, DEPTH, GUESTS, CAPACITY, SGQ_RULE_2, settings, GUESTS),
            SGQ_REFUSED_SHORT_TABLE);
    refused("no rule", sgq_tables_open(&lent, DEPTH, GUESTS, CAPACITY, 0, settings, GUESTS), SGQ_REFUSED_SETTING);
    refused("arrival", sgq_tables_arrive(&lent, 0, 1, 0, 1), SGQ_REFUSED_SHORT_TABLE);
    refused("completion", sgq_tables_complete(&lent, 0, 1, 0), SGQ_REFUSED_SHORT_TABLE);
    refused("tick", sgq_tables_tick(&lent, 0), SGQ_REFUSED_SHORT_TABLE);
    same("no events", sgq_tables_batch(&lent, NULL, 0, NULL, 0), 0);
    const sgq_event tick = sgq_tick_at(0);
    same("no room", sgq_tables_batch(&lent, &tick, 1, NULL, 0), SGQ_REFUSED_SHORT_ANSWERS);
    sgq_answer answer;
    same("no tables", sgq_tables_batch(&lent, &tick, 1, &answer, 1), 0);
    refused("a tick of a batch", answer, SGQ_REFUSED_SHORT_TABLE);
}

/* Two guests, five arrivals: two are sent, the others wait; the sixth finds no place. */
static void counts(void)
{
    static const sgq_settings settings[] = {{0, 0, 1, 0}, {0, 0, 1, 0}};
    static sgq_gate gate;
    static sgq_guest guests[GUESTS];
    static sgq_request waiting[CAPACITY];
    static sgq_flight flight[DEPTH];
    static const sgq_tables lent = SGQ_TABLES(gate, guests, waiting, flight);
    static const uint64_t from[] = {0, 1, 1, 0, 1};

    const sgq_answer opened = sgq_tables_open_all(&lent, SGQ_RULE_2, settings, SGQ_COUNT(settings));
    same("open", opened.kind, SGQ_NOTHING);
    same("wake after opening", opened.wake, SGQ_NEVER);
    same("depth", gate.depth, DEPTH);
    same("guests", gate.guests, GUESTS);
    same("capacity", gate.capacity, CAPACITY);
    same("rule", gate.rule, SGQ_RULE_2);
    same("free places", sgq_free_places(&gate), DEPTH);
    same("free waiting places", sgq_free_waiting(&gate), CAPACITY);
    for (uint32_t id = 0; id < SGQ_COUNT(from); id++)
        same("sent", (uint64_t)sgq_sent(sgq_tables_arrive(&lent, from[id], id, 0, 1)), id < DEPTH);
    same("no free place", sgq_free_places(&gate), 0);
    same("no free waiting place", sgq_free_waiting(&gate), 0);
    same("waiting of 0", sgq_waiting_of(&lent, 0), 1);
    same("waiting of 1", sgq_waiting_of(&lent, 1), 2);
    same("waiting of nobody", sgq_waiting_of(&lent, 2), 0);
    same("flight of 0", sgq_flight_of(&lent, 0), 1);
    same("flight of 1", sgq_flight_of(&lent, 1), 1);
    refused("a sixth", sgq_tables_arrive(&lent, 0, 6, 0, 1), SGQ_REFUSED_WAITING_FULL);
}

/* Two requests of a limited guest wait at an array with a place free: a tick before the time to wake sends nothing and
 * says the same, and a tick at it sends one. A refused tick carries nothing. */
static void wakes(void)
{
    static const sgq_settings settings[] = {{0, 10, 1, 0}};
    static const uint64_t spacing = UINT64_C(100000000);
    static sgq_gate gate;
    static sgq_guest guests[1];
    static sgq_request waiting[CAPACITY];
    static sgq_flight flight[DEPTH];
    static const sgq_tables lent = SGQ_TABLES(gate, guests, waiting, flight);

    same("open", sgq_tables_open_all(&lent, SGQ_RULE_1, settings, SGQ_COUNT(settings)).kind, SGQ_NOTHING);
    same("nothing waits", sgq_tables_arrive(&lent, 0, 1, 0, 1).wake, SGQ_NEVER);
    same("the second waits", sgq_tables_arrive(&lent, 0, 2, 0, 1).wake, spacing);
    same("the third too", sgq_tables_arrive(&lent, 0, 3, 0, 1).wake, spacing);
    const sgq_answer early = sgq_tables_tick(&lent, spacing - 1);
    same("a tick before", early.kind, SGQ_NOTHING);
    same("what it says", early.wake, spacing);
    refused("a tick that is late", sgq_tables_tick(&lent, 0), SGQ_REFUSED_TIME_BEFORE_LAST);
    const sgq_answer woken = sgq_tables_tick(&lent, spacing);
    same("a tick at the time", woken.kind, SGQ_SENT_BY_WEIGHT);
    same("no place is free", woken.wake, SGQ_NEVER);
    same("a place is free", sgq_tables_complete(&lent, 0, 1, spacing).wake, 2 * spacing);
    same("now", sgq_tables_complete(&lent, 0, 2, 3 * spacing).kind, SGQ_SENT_BY_WEIGHT);
    same("never is all bits one", ~SGQ_NEVER, 0);
}

/* A guest of which two requests went by weight is due by reservation before its limit: under rule 1 the time to wake is
 * its reservation tag, 10 ms, under rule 2 its limit tag, 12 ms, and at each a tick sends by reservation. */
static void rules(void)
{
    static const sgq_settings settings[] = {{100, 250, 1, 0}};
    static const uint64_t ms = UINT64_C(1000000), due[] = {10, 12};
    static sgq_gate gate;
    static sgq_guest guests[1];
    static sgq_request waiting[CAPACITY];
    static sgq_flight flight[4];
    static const sgq_tables lent = SGQ_TABLES(gate, guests, waiting, flight);

    for (uint64_t rule = SGQ_RULE_1; rule <= SGQ_RULE_2; rule++) {
        const uint64_t wake = due[rule - SGQ_RULE_1] * ms;
        same("open", sgq_tables_open_all(&lent, rule, settings, SGQ_COUNT(settings)).kind, SGQ_NOTHING);
        for (uint32_t id = 1; id <= 4; id++)
            same("arrival", sgq_tables_arrive(&lent, 0, id, 0, 1).kind,
                 id == 1 ? SGQ_SENT_BY_RESERVATION : SGQ_NOTHING);
        same("at 4 ms", sgq_tables_tick(&lent, 4 * ms).kind, SGQ_SENT_BY_WEIGHT);
        const sgq_answer sent = sgq_tables_tick(&lent, 8 * ms);
        same("at 8 ms", sent.kind, SGQ_SENT_BY_WEIGHT);
        same("wake", sent.wake, wake);
        const sgq_answer early = sgq_tables_tick(&lent, wake - 1);
        same("a tick before", early.kind, SGQ_NOTHING);
        same("what it says", early.wake, wake);
        same("a tick at it", sgq_tables_tick(&lent, wake).kind, SGQ_SENT_BY_RESERVATION);
        same("the rule is kept", gate.rule, rule);
    }
    gate.rule = 3;
    refused("another rule", sgq_tables_tick(&lent, 12 * ms), SGQ_REFUSED_NOT_SOUND);
    refused("opening under it", sgq_tables_open_all(&lent, 3, settings, SGQ_COUNT(settings)), SGQ_REFUSED_SETTING);
}

/* One in 100 ms is reserved. Behind a request of cost 3 the next is due 300 ms later, and when that, of cost 2, goes by
 * weight, what is behind it is due 200 ms earlier. A cost outside 1 to 64 is refused, and one kept is not sound. */
static void costs(void)
{
    static const sgq_settings settings[] = {{10, 0, 1, 0}};
    static const uint64_t spacing = UINT64_C(100000000);
    static const uint64_t bad[] = {0, SGQ_MOST_COST + 1, (UINT64_C(1) << 32) + 1, UINT64_MAX};
    static sgq_gate gate;
    static sgq_guest guests[1];
    static sgq_request waiting[CAPACITY];
    static sgq_flight flight[1];
    static const sgq_tables lent = SGQ_TABLES(gate, guests, waiting, flight);

    same("open", sgq_tables_open_all(&lent, SGQ_RULE_1, settings, SGQ_COUNT(settings)).kind, SGQ_NOTHING);
    same("cost 3", sgq_tables_arrive(&lent, 0, 1, 0, 3).kind, SGQ_SENT_BY_RESERVATION);
    same("next reservation number", guests[0].rnext, 3 * spacing);
    same("next share number", guests[0].snext, 30 * spacing);
    same("cost 2", sgq_tables_arrive(&lent, 0, 2, 0, 2).kind, SGQ_NOTHING);
    same("cost 64", sgq_tables_arrive(&lent, 0, 3, 0, SGQ_MOST_COST).kind, SGQ_NOTHING);
    same("its reservation tag", waiting[1].rtag, 5 * spacing);
    same("it is kept", waiting[1].cost, SGQ_MOST_COST);
    for (size_t place = 0; place < SGQ_COUNT(bad); place++) {
        refused("a bad cost", sgq_tables_arrive(&lent, 0, 4, 0, bad[place]), SGQ_REFUSED_COST);
        refused("before an id in use", sgq_tables_arrive(&lent, 0, 3, 0, bad[place]), SGQ_REFUSED_COST);
        refused("after the guest", sgq_tables_arrive(&lent, 1, 4, 0, bad[place]), SGQ_REFUSED_UNKNOWN_GUEST);
    }
    same("id 2 by weight", sgq_tables_complete(&lent, 0, 1, 0).kind, SGQ_SENT_BY_WEIGHT);
    same("the drop", waiting[0].rtag, 3 * spacing);
    same("the drop of the next number", guests[0].rnext, (3 + SGQ_MOST_COST) * spacing);
    for (size_t place = 0; place < SGQ_COUNT(bad); place++) {
        waiting[0].cost = bad[place];
        refused("a bad cost that is kept", sgq_tables_tick(&lent, 0), SGQ_REFUSED_NOT_SOUND);
    }
}

/* One in 100 ms is reserved. A delta and a rho of 3 bring the next tags two spacings on, a rho of 0 the reservation's one
 * back. What none may have is refused, between a bad cost and an id in use. */
static void spreads(void)
{
    static const sgq_settings settings[] = {{10, 10, 1, 0}};
    static const uint64_t spacing = UINT64_C(100000000);
    static const uint64_t bad[][2] = {{0, 0}, {1, 2}, {SGQ_MOST_DELTA + 1, 0}, {SGQ_MOST_DELTA, UINT64_MAX}};
    static sgq_gate gate;
    static sgq_guest guests[1];
    static sgq_request waiting[CAPACITY];
    static sgq_flight flight[1];
    static const sgq_tables lent = SGQ_TABLES(gate, guests, waiting, flight);

    same("open", sgq_tables_open_all(&lent, SGQ_RULE_1, settings, SGQ_COUNT(settings)).kind, SGQ_NOTHING);
    same("one and one", sgq_tables_arrive(&lent, 0, 1, 0, 1).kind, SGQ_SENT_BY_RESERVATION);
    same("three and three", sgq_tables_arrive_spread(&lent, 0, 2, 0, 1, 3, 3).kind, SGQ_NOTHING);
    same("its reservation tag", waiting[0].rtag, 3 * spacing);
    same("its limit tag", waiting[0].ltag, 3 * spacing);
    same("most and none", sgq_tables_arrive_spread(&lent, 0, 3, 0, 1, SGQ_MOST_DELTA, 0).kind, SGQ_NOTHING);
    same("the same reservation tag", waiting[1].rtag, 3 * spacing);
    same("another limit tag", waiting[1].ltag, (3 + SGQ_MOST_DELTA) * spacing);
    for (size_t place = 0; place < SGQ_COUNT(bad); place++) {
        const uint64_t delta = bad[place][0], rho = bad[place][1];
        refused("a bad delta", sgq_tables_arrive_spread(&lent, 0, 4, 0, 1, delta, rho), SGQ_REFUSED_DELTA);
        refused("after the cost", sgq_tables_arrive_spread(&lent, 0, 4, 0, 0, delta, rho), SGQ_REFUSED_COST);
        refused("before an id in use", sgq_tables_arrive_spread(&lent, 0, 3, 0, 1, delta, rho), SGQ_REFUSED_DELTA);
    }
    same("the words of it", (uint64_t)strlen(sgq_refusal_text(SGQ_REFUSED_DELTA)), 44);
    waiting[1].rtag -= 1;
    refused("a tag that falls", sgq_tables_tick(&lent, 0), SGQ_REFUSED_NOT_SOUND);
}

/* A house of two arrays: a guest's completion at one is told to the other with its next request there. */
static void houses(void)
{
    static const sgq_settings settings[] = {{10, 0, 1, 0}};
    static const uint64_t spacing = UINT64_C(100000000);
    static sgq_gate gates[2];
    static sgq_guest guests[2][1];
    static sgq_request waiting[2][CAPACITY];
    static sgq_flight flight[2][1];
    static uint64_t phases[2][1];
    static sgq_counter counters[2];
    static const sgq_house both = SGQ_HOUSE(2, counters);
    static const sgq_array arrays[] = {SGQ_ARRAY(0, gates[0], guests[0], waiting[0], flight[0], phases[0]),
                                       SGQ_ARRAY(1, gates[1], guests[1], waiting[1], flight[1], phases[1])};

    counters[1].rho = 1; /* anything, before it is opened */
    for (size_t at = 0; at < SGQ_COUNT(arrays); at++) {
        same("open", sgq_house_open_all(&both, &arrays[at], SGQ_RULE_1, settings, SGQ_COUNT(settings)).kind,
             SGQ_NOTHING);
        same("depth", gates[at].depth, 1);
        same("nothing is counted", counters[at].delta + counters[at].rho + phases[at][0], 0);
    }
    for (size_t at = 0; at < SGQ_COUNT(arrays); at++) {
        same("sent", sgq_house_arrive(&both, &arrays[at], 0, 1, 0, 1).kind, SGQ_SENT_BY_RESERVATION);
        same("its phase", phases[at][0], SGQ_SENT_BY_RESERVATION);
    }
    for (size_t at = 0; at < SGQ_COUNT(arrays); at++)
        same("done", sgq_house_complete(&both, &arrays[at], 0, 1, 5).kind, SGQ_NOTHING);
    same("no phase", phases[0][0], 0);
    same("delta", counters[1].delta, 2);
    same("rho", counters[1].rho, 2);
    same("by weight", sgq_house_arrive(&both, &arrays[1], 0, 2, 5, 1).kind, SGQ_SENT_BY_WEIGHT);
    same("its phase", phases[1][0], SGQ_SENT_BY_WEIGHT);
    same("what is behind it", sgq_house_arrive(&both, &arrays[1], 0, 3, 5, 1).kind, SGQ_NOTHING);
    same("the drop, and a rho of 0", waiting[1][0].rtag, spacing);
    same("counted again", counters[1].delta + counters[1].rho, 0);
    same("not at the other", counters[0].delta, 2);
    same("a tick", sgq_house_tick(&both, &arrays[0], 6).wake, SGQ_NEVER);
}

/* A house of two arrays, of which only the first is there to be lent. */
static sgq_gate half_gate;
static sgq_guest half_guests[1];
static sgq_request half_waiting[CAPACITY];
static sgq_flight half_flight[1];
static uint64_t half_phases[1];
static sgq_counter half_counters[2];
static sgq_house house = SGQ_HOUSE(2, half_counters);
static sgq_array array = SGQ_ARRAY(0, half_gate, half_guests, half_waiting, half_flight, half_phases);

/* What its opening is refused, and in which order. */
static void house_openings(void)
{
    static const sgq_settings settings[] = {{0, 0, 1, 0}};

    house.arrays = SGQ_MOST_ARRAYS + 1;
    refused("nine arrays", sgq_house_open_all(&house, &array, 3, NULL, 0), SGQ_REFUSED_ARRAY);
    house.arrays = 2;
    array.number = 2;
    refused("array 2 of 2", sgq_house_open_all(&house, &array, 3, NULL, 0), SGQ_REFUSED_ARRAY);
    array.number = 0;
    refused("no guests", sgq_house_open_all(&house, &array, SGQ_RULE_1, NULL, 0), SGQ_REFUSED_SETTING);
    house.counter_count = 1;
    refused("short counters", sgq_house_open_all(&house, &array, SGQ_RULE_1, settings, 1), SGQ_REFUSED_SHORT_TABLE);
    house.counter_count = 2;
    array.phase_count = 0;
    array.phases = NULL;
    refused("no phases", sgq_house_open(&house, &array, 1, 1, CAPACITY, SGQ_RULE_1, settings, 1), SGQ_REFUSED_SHORT_TABLE);
    array.phase_count = 1;
    array.phases = half_phases;
    same("open", sgq_house_open_all(&house, &array, SGQ_RULE_1, settings, 1).kind, SGQ_NOTHING);
}

/* What its events are refused, and in which order, when it is open. */
static void house_refusals(void)
{
    house.arrays = 0;
    refused("no array", sgq_house_tick(&house, &array, 0), SGQ_REFUSED_ARRAY);
    house.arrays = 2;
    half_counters[1].rho = 1;
    refused("a rho above delta", sgq_house_arrive(&house, &array, 1, 1, 0, 1), SGQ_REFUSED_NOT_SOUND);
    half_counters[1].rho = 0;
    half_phases[0] = SGQ_SENT_BY_WEIGHT;
    refused("a phase of nothing", sgq_house_complete(&house, &array, 1, 1, 0), SGQ_REFUSED_NOT_SOUND);
    half_phases[0] = 0;
    array.number = 2;
    refused("no such guest", sgq_house_arrive(&house, &array, 1, 1, 0, 1), SGQ_REFUSED_UNKNOWN_GUEST);
    refused("no such array", sgq_house_arrive(&house, &array, 0, 1, UINT64_MAX, 0), SGQ_REFUSED_ARRAY);
    array.number = 0;
    refused("a bad cost", sgq_house_arrive(&house, &array, 0, 1, 0, 0), SGQ_REFUSED_COST);
    house.counters = NULL;
    house.counter_count = 0;
    refused("no counters", sgq_house_tick(&house, &array, 0), SGQ_REFUSED_SHORT_TABLE);
    same("the words of 22", (uint64_t)strlen(sgq_refusal_text(SGQ_REFUSED_ARRAY)), 40);
}

/* Seven events in one call, two of them refused and three that are none; the place past their answers stays as it is. Then
 * one event more than a call takes. */
static void batches(void)
{
    static const sgq_settings settings[] = {{0, 0, 1, 0}};
    static sgq_gate gate;
    static sgq_guest guests[1];
    static sgq_request waiting[CAPACITY];
    static sgq_flight flight[1];
    static const sgq_tables lent = SGQ_TABLES(gate, guests, waiting, flight);
    static sgq_event many[SGQ_MOST_EVENTS + 1];
    static sgq_answer answers[SGQ_MOST_EVENTS + 1];

    same("open", sgq_tables_open_all(&lent, SGQ_RULE_1, settings, SGQ_COUNT(settings)).kind, SGQ_NOTHING);
    many[0] = sgq_arrival(0, 1, 5, 1);
    many[1] = sgq_arrival(0, 1, 5, 1);
    many[2] = sgq_tick_at(6);
    many[2].guest = 1;
    many[3] = sgq_completion(0, 1, 7);
    many[3].cost = 1;
    many[4] = sgq_completion(0, 1, 7);
    many[4].rho = 1;
    many[5] = sgq_arrival_spread(0, 2, 7, 1, 0, 0);
    many[6] = sgq_completion(0, 1, 7);
    answers[7].kind = 77;
    same("seven events", sgq_tables_batch(&lent, many, 7, answers, SGQ_COUNT(answers)), 0);
    same("the first is sent", (uint64_t)sgq_sent(answers[0]), 1);
    refused("the second is there", answers[1], SGQ_REFUSED_ID_IN_USE);
    refused("the third is none", answers[2], SGQ_REFUSED_EVENT_KIND);
    refused("nor is the fourth", answers[3], SGQ_REFUSED_EVENT_KIND);
    refused("nor is the fifth", answers[4], SGQ_REFUSED_EVENT_KIND);
    refused("the sixth has no delta", answers[5], SGQ_REFUSED_DELTA);
    same("the seventh", answers[6].kind, SGQ_NOTHING);
    same("a spare place", answers[7].kind, 77);
    same("time", gate.time, 7);
    same("one too many", sgq_tables_batch(&lent, many, SGQ_COUNT(many), answers, SGQ_COUNT(answers)),
         SGQ_REFUSED_TOO_MANY_EVENTS);
    same("short before that", sgq_tables_batch(&lent, many, SGQ_COUNT(many), answers, SGQ_MOST_EVENTS),
         SGQ_REFUSED_SHORT_ANSWERS);
    same("time after them", gate.time, 7);
}

/* The header of one guest and a tick, from version 1 to 2 and back; then each kind of refusal of a move. */
static void moves(void)
{
    static const uint8_t one[] = {'S', 'G', 'Q', 1, 0, 4, 1, 8, 0, 100, 0, 0, 0, 250, 0, 0, 0, 1, 0, 0, 0,
                                  2, 0, 0, 0, 0, 0, 9, 0, 0, 0, 0, 0, 0, 0};
    static const uint8_t two[] = {'S', 'G', 'Q', 2, 0, 4, 1, 8, 0, 1, 100, 0, 0, 0, 250, 0, 0, 0, 1, 0, 0, 0, 0, 0,
                                  2, 0, 0, 0, 0, 0, 9, 0, 0, 0, 0, 0, 0, 0};
    uint8_t room[sizeof one + SGQ_MOST_GROWTH], costly[sizeof two];
    memset(room, 77, sizeof room);
    sgq_moved moved = sgq_trace_up(one, sizeof one, room, sizeof two - 1);
    same("short room", moved.refusal, SGQ_REFUSED_SHORT_ROOM);
    same("nothing is written", moved.written + room[0], 77);
    moved = sgq_trace_up(one, sizeof one, room, sizeof room);
    same("up", moved.refusal + moved.event, 0);
    same("its length", moved.written, sizeof two);
    same("its bytes", (uint64_t)(memcmp(room, two, sizeof two) != 0), 0);
    same("the room past it", room[sizeof two], 77);
    moved = sgq_trace_back(two, sizeof two, room, sizeof one);
    same("back", moved.refusal + moved.event, 0);
    same("the length then", moved.written, sizeof one);
    same("the bytes then", (uint64_t)(memcmp(room, one, sizeof one) != 0), 0);
    same("another version", sgq_trace_up(two, sizeof two, room, sizeof room).refusal, SGQ_REFUSED_TRACE_VERSION);
    moved = sgq_trace_up(one, sizeof one - 1, room, sizeof room);
    same("a cut event", moved.refusal, SGQ_REFUSED_TRACE_EVENT_CUT);
    same("its number", moved.event, 1);
    memcpy(costly, two, sizeof two);
    costly[sizeof two - 14] = 4; /* an arrival of cost 2 */
    moved = sgq_trace_back(costly, sizeof costly, room, sizeof room);
    same("a cost", moved.refusal, SGQ_REFUSED_NO_WAY_BACK);
    same("its event", moved.event, 1);
    same("the words of it", (uint64_t)strlen(sgq_refusal_text(moved.refusal)), 70);
}

/* The bytes of an event with this first byte, at this time. */
static void put_event(uint8_t *at, uint8_t first, uint64_t time)
{
    memset(at, 0, SGQ_EVENT_BYTES);
    at[0] = first;
    for (size_t place = 0; place < sizeof time; place++)
        at[6 + place] = (uint8_t)(time >> 8 * place);
}

/* A torn trace with an event of each reason, and two that are kept; then rooms that are too short. */
static void salvages(void)
{
    enum { HEAD = 21, EVENTS = 6, LONG = HEAD + EVENTS * SGQ_EVENT_BYTES + 1, KEPT = HEAD + 2 * SGQ_EVENT_BYTES };
    static const uint8_t head[HEAD] = {'S', 'G', 'Q', 1, 0, 4, 1, 8, 0, 100, 0, 0, 0, 250, 0, 0, 0, 1, 0, 0, 0};
    static const uint64_t hour = UINT64_C(3600000000000);
    static const struct { uint8_t first; uint64_t time; } events[EVENTS] = {
        {3, 0}, {2, SGQ_CEILING + 1}, {2, 9}, {2, 8}, {2, 9 + hour + 1}, {2, 9 + hour}};
    static const sgq_dropped expected[] = {{1, SGQ_DROPPED_KIND},
                                           {2, SGQ_DROPPED_TIME_ABOVE_CEILING},
                                           {4, SGQ_DROPPED_TIME_BEHIND},
                                           {5, SGQ_DROPPED_TIME_AHEAD},
                                           {7, SGQ_DROPPED_CUT}};
    enum { ROWS = sizeof expected / sizeof expected[0] };
    uint8_t torn[LONG], room[LONG];
    sgq_dropped list[ROWS + 1];
    memcpy(torn, head, HEAD);
    for (size_t event = 0; event < EVENTS; event++)
        put_event(torn + HEAD + event * SGQ_EVENT_BYTES, events[event].first, events[event].time);
    torn[LONG - 1] = 2;
    memset(room, 77, sizeof room);
    memset(list, 77, sizeof list);
    same("room too short", sgq_salvage_rows(torn, LONG, room, KEPT - 1, list, ROWS).refusal, SGQ_REFUSED_SHORT_ROOM);
    same("list too short", sgq_salvage_rows(torn, LONG, room, KEPT, list, ROWS - 1).refusal, SGQ_REFUSED_SHORT_ROOM);
    same("a list of none", sgq_salvage_rows(torn, LONG, room, LONG, NULL, 0).refusal, SGQ_REFUSED_SHORT_ROOM);
    same("nothing of it is written", (uint64_t)room[0] + (uint8_t)list[0].event, 2 * 77);
    sgq_salvaged found = sgq_salvage_rows(torn, LONG, room, sizeof room, list, SGQ_COUNT(list));
    same("salvaged", found.refusal, 0);
    same("bytes that are kept", found.written, KEPT);
    same("the first that is kept", (uint64_t)(memcmp(room + HEAD, torn + HEAD + 2 * SGQ_EVENT_BYTES, SGQ_EVENT_BYTES) != 0), 0);
    same("the room past them", room[KEPT], 77);
    same("rows", found.rows, ROWS);
    same("the list", (uint64_t)(memcmp(list, expected, sizeof expected) != 0), 0);
    same("the list past them", (uint8_t)list[ROWS].reason, 77);
    same("rows that are enough", (uint64_t)(sgq_most_dropped(LONG) >= EVENTS + 1), 1);
    found = sgq_salvage_rows(room, KEPT, torn, sizeof torn, NULL, 0);
    same("a second pass", found.refusal + found.rows + found.written, KEPT);
    same("no trace", sgq_salvage_rows(torn, 8, room, sizeof room, NULL, 0).refusal, SGQ_REFUSED_TRACE_HEADER_CUT);
    same("the words of a reason", (uint64_t)strlen(sgq_reason_text(SGQ_DROPPED_TIME_AHEAD)), 51);
    same("the words of none", (uint64_t)strlen(sgq_reason_text(6)), 9);
}

/* Two guests alike wait when a place falls free: either may go, and nothing else is right. */
static void judges(void)
{
    enum { HEAD = 45, EVENTS = 4, LONG = HEAD + EVENTS * SGQ_EVENT_BYTES };
    static const uint8_t head[9] = {'S', 'G', 'Q', 1, 0, 1, 3, 8, 0};
    static const uint8_t events[EVENTS][2] = {{0, 0}, {0, 1}, {0, 2}, {1, 0}};
    static const char *const lines[] = {"event answer\n1 W 0 0\n2 -\n3 -\n4 W 1 0\n",
                                        "event answer\n1 W 0 0\n2 -\n3 -\n4 W 2 0\n",
                                        "event answer\n1 W 0 0\n2 -\n3 -\n4 -\n",
                                        "event answer\n1 W 0 0\n2 -\n3 -\n",
                                        "event answer\n1 W 0 0\n2 -\n3 -\n4 W 1 0\n5 -\n",
                                        "trace refused 13\n",
                                        ""};
    static const sgq_judged expected[] = {{0, 0, 0, 0, 0},
                                          {0, 0, 0, 0, 0},
                                          {5, SGQ_SENT_BY_WEIGHT, 1, 0, 0},
                                          {5, SGQ_SENT_BY_WEIGHT, 1, 0, 0},
                                          {6, SGQ_NONE_DUE, 0, 0, 0},
                                          {1, SGQ_NOTHING, 0, 0, 0},
                                          {1, SGQ_NOTHING, 0, 0, 0}};
    uint8_t trace[LONG] = {0};
    memcpy(trace, head, sizeof head);
    for (size_t guest = 0; guest < 3; guest++)
        trace[9 + 12 * guest + 8] = 1;
    for (size_t event = 0; event < EVENTS; event++) {
        put_event(trace + HEAD + event * SGQ_EVENT_BYTES, events[event][0], 5);
        trace[HEAD + event * SGQ_EVENT_BYTES + 1] = events[event][1];
    }
    for (size_t at = 0; at < sizeof lines / sizeof lines[0]; at++) {
        sgq_judged found = sgq_judge(trace, LONG, (const uint8_t *)lines[at], strlen(lines[at]));
        same(lines[at], (uint64_t)(memcmp(&found, &expected[at], sizeof found) != 0), 0);
    }
    sgq_judged found = sgq_judge(trace, 8, (const uint8_t *)lines[5], strlen(lines[5]));
    same("a bad header", found.line, 0);
    found = sgq_judge(trace, 8, (const uint8_t *)lines[0], strlen(lines[0]));
    same("its one line", found.line, 1);
    same("what it is", found.kind, SGQ_REFUSED);
    same("its number", found.refusal, SGQ_REFUSED_TRACE_HEADER_CUT);
}

/* A short clock from zeros, across the wrap, up to the ceiling and no further. */
static void clocks(void)
{
    sgq_clock clock = {0, 0, 0};
    same("the first reading", sgq_clock_read(&clock, UINT32_MAX).time, 0);
    same("started", clock.started, 1);
    same("across the wrap", sgq_clock_read(&clock, 1).time, 2000);
    clock.time = SGQ_CEILING - 1000;
    same("the ceiling", sgq_clock_read(&clock, 2).time, SGQ_CEILING);
    const sgq_told told = sgq_clock_read(&clock, 3);
    same("past it", told.refusal, SGQ_REFUSED_TIME_ABOVE_CEILING);
    same("the time told", told.time, 0);
    same("the time kept", clock.time, SGQ_CEILING);
    same("the reading kept", clock.last, 2);
}

int main(void)
{
    char version[32];
    snprintf(version, sizeof version, "%d.%d.%d", SGQ_VERSION_MAJOR, SGQ_VERSION_MINOR, SGQ_VERSION_PATCH);
    same("version", (uint64_t)strcmp(version, SGQ_VERSION), 0);
    no_records();
    counts();
    wakes();
    rules();
    costs();
    spreads();
    batches();
    houses();
    house_openings();
    house_refusals();
    moves();
    salvages();
    judges();
    clocks();
    return wrong;
}
