/* plain.c: gates to hold beside the library's, see gate.h. They are short and not proved. */
#include "gate.h"

#include <string.h>

struct tagged {
    uint64_t guest, id, cost, rtag, ltag, stag;
};

/* What an array has waiting, in order of arrival; the guests' next numbers; the start tag that SFQ sent last. */
static struct side {
    struct tagged waiting[SGQ_MOST_CAPACITY];
    size_t count, flight;
    uint64_t rnext[MOST_GUESTS], lnext[MOST_GUESTS], snext[MOST_GUESTS], virtual_time;
} sides[SGQ_MOST_ARRAYS];

static const struct run *house;

static const sgq_settings *settings_of(uint64_t guest)
{
    return &house->guests[guest].settings;
}

static uint64_t share_spacing(uint64_t guest)
{
    return SECOND / settings_of(guest)->shares;
}

static uint64_t larger(uint64_t a, uint64_t b)
{
    return a > b ? a : b;
}

static void plain_open(const struct run *run)
{
    house = run;
    memset(sides, 0, sizeof sides);
}

static void place(struct side *side, struct tagged request)
{
    if (side->count == house->capacity)
        stop("every waiting place is taken: the run needs a larger capacity");
    side->waiting[side->count++] = request;
}

static struct tagged take_out(struct side *side, size_t at)
{
    struct tagged taken = side->waiting[at];
    side->count -= 1;
    memmove(&side->waiting[at], &side->waiting[at + 1], (side->count - at) * sizeof taken);
    side->flight += 1;
    return taken;
}

/* An answer of a gate that never holds back what could go: a tick is due where a place is free and something waits. */
static sgq_answer answer_of(const struct side *side, uint64_t kind, struct tagged sent, uint64_t time)
{
    uint64_t wake = side->count > 0 && side->flight < house->depth ? time : SGQ_NEVER;
    sgq_answer answer = {kind, sent.guest, sent.id, 0, wake};
    return answer;
}

static const struct tagged nobody = {0, 0, 0, 0, 0, 0};

/* First come, first served; and by the smallest start tag, which is 0 for all where they are not given. */

static sgq_answer send_smallest(struct side *side, uint64_t time)
{
    if (side->count == 0 || side->flight == house->depth)
        return answer_of(side, SGQ_NOTHING, nobody, time);
    size_t best = 0;
    for (size_t at = 1; at < side->count; at++)
        if (side->waiting[at].stag < side->waiting[best].stag)
            best = at;
    struct tagged sent = take_out(side, best);
    side->virtual_time = sent.stag;
    return answer_of(side, SGQ_SENT_BY_WEIGHT, sent, time);
}

static sgq_answer first_arrive(uint64_t array, uint64_t guest, uint32_t id, uint64_t time, uint64_t cost)
{
    place(&sides[array], (struct tagged){guest, id, cost, 0, 0, 0});
    return send_smallest(&sides[array], time);
}

static sgq_answer sfq_arrive(uint64_t array, uint64_t guest, uint32_t id, uint64_t time, uint64_t cost)
{
    struct side *side = &sides[array];
    uint64_t start = larger(side->snext[guest], side->virtual_time);
    side->snext[guest] = start + cost * share_spacing(guest);
    place(side, (struct tagged){guest, id, cost, 0, 0, start});
    return send_smallest(side, time);
}

static sgq_answer smallest_complete(uint64_t array, uint64_t guest, uint32_t id, uint64_t time)
{
    (void)guest, (void)id;
    sides[array].flight -= 1;
    return send_smallest(&sides[array], time);
}

static sgq_answer smallest_tick(uint64_t array, uint64_t time)
{
    return send_smallest(&sides[array], time);
}

/* Algorithm 1. */

static int is_open(const struct tagged *request, uint64_t time)
{
    return settings_of(request->guest)->limit == 0 || request->ltag <= time;
}

static int is_due(const struct tagged *request, uint64_t time)
{
    return settings_of(request->guest)->reservation != 0 && request->rtag <= time && (house->rule == 1 || is_open(request, time));
}

/* Where the request stands that goes, or how many wait where none does; sets the phase. */
static size_t chosen(const struct side *side, uint64_t time, uint64_t *phase)
{
    size_t due = side->count, open = side->count;
    for (size_t at = 0; at < side->count; at++) {
        const struct tagged *request = &side->waiting[at];
        if (is_due(request, time) && (due == side->count || request->rtag < side->waiting[due].rtag))
            due = at;
        if (is_open(request, time) && (open == side->count || request->stag < side->waiting[open].stag))
            open = at;
    }
    *phase = due < side->count ? SGQ_SENT_BY_RESERVATION : SGQ_SENT_BY_WEIGHT;
    return due < side->count ? due : open;
}

static void drop(struct side *side, struct tagged sent)
{
    uint64_t reservation = settings_of(sent.guest)->reservation;
    if (reservation == 0)
        return;
    uint64_t fall = sent.cost * (SECOND / reservation);
    side->rnext[sent.guest] -= fall;
    for (size_t at = 0; at < side->count; at++)
        if (side->waiting[at].guest == sent.guest)
            side->waiting[at].rtag -= fall;
}

static uint64_t wake_of(const struct side *side, uint64_t time)
{
    uint64_t first = SGQ_NEVER;
    for (size_t at = 0; at < side->count && side->flight < house->depth; at++) {
        const struct tagged *request = &side->waiting[at];
        const sgq_settings *own = settings_of(request->guest);
        uint64_t due = own->limit == 0 ? 0 : request->ltag;
        if (own->reservation != 0 && house->rule == 1 && request->rtag < due)
            due = request->rtag;
        first = due < first ? due : first;
    }
    return first == SGQ_NEVER ? first : larger(first, time);
}

static sgq_answer choose(struct side *side, uint64_t time)
{
    uint64_t phase = SGQ_NOTHING;
    size_t at = side->flight == house->depth ? side->count : chosen(side, time, &phase);
    struct tagged sent = nobody;
    if (at == side->count) {
        phase = SGQ_NOTHING;
    } else {
        sent = take_out(side, at);
        if (phase == SGQ_SENT_BY_WEIGHT)
            drop(side, sent);
    }
    sgq_answer answer = {phase, sent.guest, sent.id, 0, wake_of(side, time)};
    return answer;
}

static int is_waiting(const struct side *side, uint64_t guest)
{
    for (size_t at = 0; at < side->count; at++)
        if (side->waiting[at].guest == guest)
            return 1;
    return 0;
}

/* An idle guest arrives: the smallest share tag becomes the time, and the others keep their distance from it. */
static void adjust(struct side *side, uint64_t time)
{
    uint64_t smallest = SGQ_NEVER;
    unsigned char moved[MOST_GUESTS] = {0};
    for (size_t at = 0; at < side->count; at++)
        if (side->waiting[at].stag < smallest)
            smallest = side->waiting[at].stag;
    for (size_t at = 0; at < side->count; at++) {
        uint64_t guest = side->waiting[at].guest;
        side->waiting[at].stag += time - smallest;
        side->snext[guest] += moved[guest] ? 0 : time - smallest;
        moved[guest] = 1;
    }
}

/* Back is what the share tag of a guest that comes back is: never later than that. */
static sgq_answer tag_and_choose(uint64_t array, uint64_t guest, uint32_t id, uint64_t time, uint64_t cost, uint64_t back)
{
    struct side *side = &sides[array];
    const sgq_settings *own = settings_of(guest);
    int idle = !is_waiting(side, guest);
    struct tagged request = {guest, id, cost, larger(side->rnext[guest], time), larger(side->lnext[guest], time),
                             larger(side->snext[guest], time)};
    if (idle && request.stag > back)
        request.stag = back;
    if (idle)
        adjust(side, time);
    side->rnext[guest] = own->reservation == 0 ? 0 : request.rtag + cost * (SECOND / own->reservation);
    side->lnext[guest] = own->limit == 0 ? 0 : request.ltag + cost * ((SECOND + own->limit - 1) / own->limit);
    side->snext[guest] = request.stag + cost * share_spacing(guest);
    place(side, request);
    return choose(side, time);
}

static sgq_answer before_arrive(uint64_t array, uint64_t guest, uint32_t id, uint64_t time, uint64_t cost)
{
    return tag_and_choose(array, guest, id, time, cost, SGQ_NEVER);
}

static sgq_answer after_arrive(uint64_t array, uint64_t guest, uint32_t id, uint64_t time, uint64_t cost)
{
    return tag_and_choose(array, guest, id, time, cost, time);
}

static sgq_answer tags_complete(uint64_t array, uint64_t guest, uint32_t id, uint64_t time)
{
    (void)guest, (void)id;
    sides[array].flight -= 1;
    return choose(&sides[array], time);
}

static sgq_answer tags_tick(uint64_t array, uint64_t time)
{
    return choose(&sides[array], time);
}

const struct gate plain_gates[] = {{"first-come", plain_open, first_arrive, smallest_complete, smallest_tick},
                                   {"sfq", plain_open, sfq_arrive, smallest_complete, smallest_tick},
                                   {"before-k3", plain_open, before_arrive, tags_complete, tags_tick},
                                   {"after-k3", plain_open, after_arrive, tags_complete, tags_tick},
                                   {NULL, NULL, NULL, NULL, NULL}};
