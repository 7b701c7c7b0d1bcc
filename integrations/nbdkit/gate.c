/* gate.c: the threads of nbdkit before one gate.
 *
 * A thread leaves its event, and whoever finds nobody at the gate hands over what has come together, in one call, and goes
 * on until nothing is left. So events that come while a call is made share the next one, and no thread waits for the lock
 * as long as a call takes. The gate's tables belong to who is at the gate; the lock guards the books, which are all else.
 *
 * The books say what waits and what is at the array. Where the library refuses an event or has other counts, the tables were
 * changed by something else. They are not believed any more, and the gate is opened anew from the books. */
#define _GNU_SOURCE /* sem_clockwait */
#include "gate.h"
#include "house.h"
#include "record.h"
#include "settings.h"

#include <errno.h>
#include <inttypes.h>
#include <pthread.h>
#include <stdlib.h>
#include <time.h>

#include <nbdkit-filter.h>

#define SECOND UINT64_C(1000000000)
#define QUIET (1800 * SECOND) /* a record has an event this often, as a salvage asks */
#define LOOK 250000000        /* how often a request that waits looks whether its client is still there */
#define MOST_ROUNDS 64        /* calls that a thread makes for others before the ticking one takes over */
#define PLACES (SGQ_MOST_CAPACITY + SGQ_MOST_DEPTH)

/* A request that was handed over. Its place in the books is its id, so an answer leads to it without a search. */
struct place {
    enum { FREE, HANDED, WAITING, FLIGHT } state;
    uint64_t guest, cost, order; /* of acceptance */
    struct request *request;     /* NULL: nobody wants it any more */
};

struct guest {
    uint64_t inside;               /* handed over and not sent */
    struct request *first, **last; /* those outside, in order */
};

/* What the library is lent. */
static sgq_gate gate;
static sgq_guest guest_table[SGQ_MOST_GUESTS];
static sgq_request waiting_table[SGQ_MOST_CAPACITY];
static sgq_flight flight_table[SGQ_MOST_DEPTH];
static uint64_t phases[SGQ_MOST_DEPTH];
static sgq_array lent = SGQ_ARRAY(0, gate, guest_table, waiting_table, flight_table, phases);
static sgq_event events[SGQ_MOST_EVENTS];
static sgq_answer answers[SGQ_MOST_EVENTS];

static pthread_mutex_t lock = PTHREAD_MUTEX_INITIALIZER;
static bool serving; /* a thread is at the gate */

/* The books. */
static struct place places[PLACES];
static uint32_t unused[PLACES], unused_count;
static struct guest guests[SGQ_MOST_GUESTS];
static uint32_t ended[SGQ_MOST_DEPTH], ended_count;     /* at the array no more, and not told yet */
static uint32_t again[PLACES], again_count, again_next; /* to be handed over again, in order */
static uint64_t outside, inside, waiting, flying;       /* requests; those inside wait, or are not answered yet */
static uint64_t order, next_guest;
static bool distrusted; /* the tables are not believed: the gate is opened anew once nothing is at the array */
static bool is_fresh;   /* no event was accepted since it was opened */
static bool given_up;   /* it is not opened any more, and the server ends */
static uint64_t calls, told, openings;

static uint64_t wake = SGQ_NEVER, last_time; /* the last answer's time to wake, and the last time told */
static pthread_t ticker;
static pthread_cond_t ticker_wake;
static uint64_t ticker_until = SGQ_NEVER;
static bool ticking, ending, left; /* left: a thread has made its calls for others, and there may be more */

static uint64_t now(void)
{
    struct timespec t;
    clock_gettime(CLOCK_MONOTONIC, &t);
    return (uint64_t)t.tv_sec * SECOND + (uint64_t)t.tv_nsec;
}

static bool open_tables(void)
{
    sgq_answer answer = house_open(&lent);
    is_fresh = true;
    openings += 1;
    if (answer.kind != SGQ_REFUSED)
        return true;
    nbdkit_error("the gate does not open: %s (%" PRIu64 ")", sgq_refusal_text(answer.refusal), answer.refusal);
    return false;
}

bool gate_open(void)
{
    for (uint32_t id = PLACES; id > 0; id--)
        unused[unused_count++] = id - 1;
    for (uint64_t guest = 0; guest < settings.guests; guest++)
        guests[guest].last = &guests[guest].first;
    lent.number = settings.array;
    return open_tables();
}

/* ---- The books */

/* The next request from outside: guest by guest in turn, of those that have waiting places left. */
static struct request *take_outside(void)
{
    for (uint64_t tried = 0; tried < settings.guests; tried++) {
        uint64_t number = (next_guest + tried) % settings.guests;
        struct guest *guest = &guests[number];
        struct request *request = guest->first;
        if (request == NULL || guest->inside >= settings.quota[number])
            continue;
        guest->first = request->next;
        if (guest->first == NULL)
            guest->last = &guest->first;
        next_guest = number + 1;
        outside -= 1;
        return request;
    }
    return NULL;
}

/* Gives a request from outside its place. */
static uint32_t take_in(struct request *request)
{
    uint32_t id = unused[--unused_count];
    places[id] = (struct place){HANDED, request->guest, request->cost, 0, request};
    guests[request->guest].inside += 1;
    inside += 1;
    request->id = id;
    request->state = INSIDE;
    return id;
}

static void leave_inside(uint32_t id)
{
    guests[places[id].guest].inside -= 1;
    inside -= 1;
}

static void free_place(uint32_t id)
{
    places[id].state = FREE;
    unused[unused_count++] = id;
}

/* The request goes to the array; one that nobody wants is at its end at once. */
static void send_request(uint32_t id)
{
    struct request *request = places[id].request;
    places[id].state = FLIGHT;
    leave_inside(id);
    waiting -= 1;
    flying += 1;
    if (request == NULL) {
        ended[ended_count++] = id;
        return;
    }
    request->state = SENT;
    sem_post(&request->turn);
}

static void end_request(uint32_t id)
{
    free_place(id);
    flying -= 1;
}

/* ---- Opening anew */

static void distrust(const char *why, uint64_t refusal)
{
    if (!distrusted)
        nbdkit_error("the gate's tables are not believed any more: %s (%" PRIu64 ")", why, refusal);
    distrusted = true;
}

static int by_order(const void *one, const void *other)
{
    const struct place *a = &places[*(const uint32_t *)one], *b = &places[*(const uint32_t *)other];
    return a->state != b->state ? (a->state == HANDED) - (b->state == HANDED) : (a->order > b->order) - (a->order < b->order);
}

/* Lists what waits in order of acceptance, and then what was not accepted yet. What nobody wants is forgotten. */
static void list_again(void)
{
    again_count = again_next = 0;
    for (uint32_t id = 0; id < PLACES; id++) {
        if (places[id].state == FREE)
            continue;
        if (places[id].request != NULL)
            again[again_count++] = id;
        else {
            leave_inside(id);
            free_place(id);
        }
    }
    qsort(again, again_count, sizeof again[0], by_order);
    for (uint32_t at = 0; at < again_count; at++)
        places[again[at]].state = HANDED;
    waiting = 0;
}

/* What is at the array comes to its end by the books alone; then the gate is opened anew. */
static bool open_anew(void)
{
    while (ended_count > 0)
        end_request(ended[--ended_count]);
    if (flying > 0 || given_up)
        return false;
    if (is_fresh || !open_tables()) { /* what is refused at once was not changed by chance */
        nbdkit_error("the gate cannot be opened anew: the server ends");
        given_up = true;
        nbdkit_shutdown();
        return false;
    }
    list_again();
    distrusted = false;
    wake = SGQ_NEVER;
    if (is_recording()) {
        record_end();
        if (record_open(settings.trace))
            record_begin();
    }
    nbdkit_error("the gate is opened anew, and %" PRIu32 " requests that wait are handed over again", again_count);
    return true;
}

/* ---- At the gate */

static uint64_t next_tick(void)
{
    return is_recording() && last_time + QUIET < wake ? last_time + QUIET : wake;
}

/* Arrivals: what is handed over again, then from outside as far as there are waiting places. */
static size_t gather_arrivals(size_t count, uint64_t time)
{
    while (count < SGQ_MOST_EVENTS) {
        struct request *request = NULL;
        bool is_again = again_next < again_count;
        if (!is_again && (outside == 0 || inside >= settings.capacity || (request = take_outside()) == NULL))
            break;
        uint32_t id = is_again ? again[again_next++] : take_in(request);
        events[count++] = sgq_arrival(places[id].guest, id, time, places[id].cost);
    }
    return count;
}

/* Where nothing waits a completion sends nothing, so it is told with the next arrival, in one call; or at the end. In a house
 * it is told at once, for it counts at the other arrays. */
static bool can_wait(void)
{
    return outside + inside == 0 && settings.house == NULL && !ending && (next_tick() == SGQ_NEVER || next_tick() > now());
}

/* What there is to hand over: completions, for each gives a place back, then arrivals; a tick where there is nothing else
 * and it is time. The clock is read here, where one thread is, so that times never go back. */
static size_t gather(void)
{
    size_t count = 0;
    if ((distrusted && !open_anew()) || can_wait())
        return 0;
    uint64_t time = now();
    while (count < ended_count) {
        events[count] = sgq_completion(places[ended[count]].guest, ended[count], time);
        count++;
    }
    ended_count = 0;
    count = gather_arrivals(count, time);
    if (count == 0 && next_tick() <= time)
        events[count++] = sgq_tick_at(time);
    last_time = count == 0 ? last_time : time;
    return count;
}

/* Follows an answer in the books; false where they say that it cannot be. */
static bool follow(const sgq_event *event, const sgq_answer *answer)
{
    if (event->kind == SGQ_COMPLETION) /* it is at its end, whatever the gate says */
        end_request((uint32_t)event->id);
    if (answer->kind == SGQ_REFUSED) {
        distrust(sgq_refusal_text(answer->refusal), answer->refusal);
        return true;
    }
    is_fresh = false;
    wake = answer->wake;
    if (event->kind == SGQ_ARRIVAL) {
        places[event->id].state = WAITING;
        places[event->id].order = order++;
        waiting += 1;
    }
    if (!sgq_sent(*answer))
        return true;
    if (answer->id >= PLACES || places[answer->id].state != WAITING || places[answer->id].guest != answer->guest)
        return false;
    send_request((uint32_t)answer->id);
    return true;
}

/* Follows the answers of a call, and records what the books agree with. */
static void follow_all(size_t count)
{
    bool agree = true;
    for (size_t at = 0; at < count; at++)
        agree = follow(&events[at], &answers[at]) && agree;
    if (!distrusted && (!agree || gate.waiting != waiting || gate.flight != flying)) {
        agree = false;
        distrust("they are not what the books say", 0);
    }
    if (agree)
        record_events(events, answers, count);
    calls += 1;
    told += count;
}

/* Hands over what has come together, unless somebody does. The lock is held, but not while a call is made. */
static void serve(unsigned most)
{
    size_t count;
    if (serving)
        return;
    serving = true;
    for (; most > 0 && (count = gather()) > 0; most--) {
        pthread_mutex_unlock(&lock);
        house_hand_over(&lent, events, answers, count);
        pthread_mutex_lock(&lock);
        follow_all(count);
    }
    serving = false;
    left = most == 0;
    if (left || next_tick() < ticker_until)
        pthread_cond_signal(&ticker_wake);
}

/* ---- The thread that ticks */

static void *tick(void *nothing)
{
    pthread_mutex_lock(&lock);
    while (!ending) {
        ticker_until = serving ? SGQ_NEVER : next_tick();
        if (!serving && (left || ticker_until <= now()))
            serve(UINT32_MAX);
        else if (ticker_until == SGQ_NEVER)
            pthread_cond_wait(&ticker_wake, &lock);
        else {
            struct timespec until = {(time_t)(ticker_until / SECOND), (long)(ticker_until % SECOND)};
            pthread_cond_timedwait(&ticker_wake, &lock, &until);
        }
    }
    pthread_mutex_unlock(&lock);
    return nothing;
}

int gate_start(void)
{
    pthread_condattr_t monotonic;
    pthread_condattr_init(&monotonic);
    pthread_condattr_setclock(&monotonic, CLOCK_MONOTONIC);
    pthread_cond_init(&ticker_wake, &monotonic);
    last_time = now();
    record_begin();
    int error = pthread_create(&ticker, NULL, tick, NULL);
    ticking = error == 0;
    return error;
}

void gate_stop(void)
{
    if (ticking) {
        pthread_mutex_lock(&lock);
        ending = true;
        pthread_cond_signal(&ticker_wake);
        pthread_mutex_unlock(&lock);
        pthread_join(ticker, NULL);
        pthread_mutex_lock(&lock);
        serve(UINT32_MAX);
        pthread_mutex_unlock(&lock);
    }
    record_end();
    nbdkit_debug("sgq: %" PRIu64 " events in %" PRIu64 " calls, the gate was opened %" PRIu64 " times", told, calls, openings);
}

/* ---- The threads of nbdkit */

/* Takes a request back: outside it is gone, inside it is nobody's any more. False where it was sent meanwhile. */
static bool withdraw(struct request *request)
{
    pthread_mutex_lock(&lock);
    bool is_back = request->state != SENT;
    if (request->state == INSIDE)
        places[request->id].request = NULL;
    else if (request->state == OUTSIDE) {
        struct guest *guest = &guests[request->guest];
        struct request **at = &guest->first;
        while (*at != request)
            at = &(*at)->next;
        *at = request->next;
        if (guest->last == &request->next)
            guest->last = at;
        outside -= 1;
    }
    pthread_mutex_unlock(&lock);
    return is_back;
}

/* Sleeps until the turn comes. Now and then it asks nbdkit whether client and server are still there: a sleep of no time
 * fails where not, and nbdkit says why. */
static bool await_turn(struct request *request)
{
    struct timespec until;
    if (sem_trywait(&request->turn) == 0)
        return true;
    for (;;) {
        clock_gettime(CLOCK_MONOTONIC, &until);
        until.tv_nsec += LOOK;
        until.tv_sec += until.tv_nsec / (long)SECOND;
        until.tv_nsec %= (long)SECOND;
        if (sem_clockwait(&request->turn, CLOCK_MONOTONIC, &until) == 0)
            return true;
        if (errno == ETIMEDOUT && nbdkit_nanosleep(0, 0) == -1 && withdraw(request))
            return false;
    }
}

bool gate_enter(struct request *request)
{
    request->state = OUTSIDE;
    request->next = NULL;
    sem_init(&request->turn, 0, 0);
    pthread_mutex_lock(&lock);
    struct guest *guest = &guests[request->guest];
    *guest->last = request;
    guest->last = &request->next;
    outside += 1;
    serve(MOST_ROUNDS);
    pthread_mutex_unlock(&lock);
    bool came = await_turn(request);
    sem_destroy(&request->turn);
    return came;
}

void gate_leave(const struct request *request)
{
    pthread_mutex_lock(&lock);
    ended[ended_count++] = request->id;
    serve(MOST_ROUNDS);
    pthread_mutex_unlock(&lock);
}
