/* host.c: a small host around the gate. It plays the day of lot 214 (samples/lot214.txt) against an array that is only
 * simulated, and prints what the requests of each guest waited, from arrival to send, and how many calls and ticks the
 * day took. Then a recorder whose board counts microseconds in 32 bits tells the gate of four bids. Then it plays thirty
 * bids of the telephone desk after a quiet time, once without credit and once with, and prints what each of them waited.
 * Last it plays an afternoon of large plates, once with every request at cost 1 and once at costs that the driver works
 * out from the sizes, and prints what the room and the pictures waited.
 *
 *     cc -std=c99 -Iinclude examples/host.c target/staticlib/libhost.a -o host && ./host
 *
 * A host does three things: it hands every event to the gate, those of one interrupt in one call; it sends what the
 * answers name; and with nothing else to do it sleeps until the time to wake that the gate said last, and then ticks.
 * Here time is simulated too: where a host sleeps, this one jumps to the next event.
 */
#include "sgq.h"

#include <inttypes.h>
#include <stdio.h>
#include <stdlib.h>
#include <string.h>

#define MS UINT64_C(1000000) /* nanoseconds */
#define DEPTH 4
#define CAPACITY 64
#define PHASES 2

#define BIDS 30
#define ROOM_SHARES 100

enum { ROOM, DESK, PICTURES, ARCHIVE, TELEPHONE, GUESTS };

static const char *const guest_name[GUESTS] = {"room tablet", "online desk", "pictures", "archive", "telephone"};
static const char *const phase_name[PHASES] = {"reservation", "weight"};

/* Reservation, limit, shares and credit of each guest; below, the credit of the telephone desk is changed, and then the
 * shares of the room. */
static const sgq_settings settings[GUESTS] = {
    {50, 0, 1, 0},
    {100, 200, 20, 0},
    {0, 0, 800, 0},
    {0, 10, 100, 0},
    {0, 0, 200, 0},
};

/* The sizes of requests, in KiB: bids are small writes, plates and the archive's reads are large. */
enum { BID = 4, PLATE = 256, READ = 1024, LARGE = 8192 };

/* The array takes for a request of up to so many KiB the least and, by its id, up to `more` ms on top. */
static const struct service {
    uint64_t kib, least, more;
} service[] = {{BID, 3, 1}, {PLATE, 8, 3}, {READ, 12, 2}, {LARGE, 44, 8}};

/* The driver's table: what a request of up to so many KiB costs, which is how many bids the array does in its time. Who
 * has an array measures that once, as the vFair paper does by kind of request. */
static const struct price {
    uint64_t kib, cost;
} prices[] = {{BID, 1}, {PLATE, 3}, {READ, 4}, {LARGE, 14}};

/* What arrives in the day: the time in ms from noon, the guest, the first id, how many ids in a row, and their size. */
static const struct arrivals {
    uint64_t ms, guest;
    uint32_t first, count;
    uint64_t kib;
} day[] = {
    {0, ARCHIVE, 1, 5, READ},
    {7050000, PICTURES, 1, 1, PLATE},
    {7050020, ROOM, 21301, 1, BID},
    {7050045, DESK, 21301, 1, BID},
    {7199520, ROOM, 21401, 1, BID},
    {7199800, DESK, 21401, 1, BID},
    {7199999, ARCHIVE, 6, 1, READ},
    {7200000, PICTURES, 2, 28, PLATE}, /* 14:00: all plates of lot 214 at once */
    {7200004, ROOM, 21402, 1, BID},    /* the bid that must not wait behind them */
    {7200006, ROOM, 21402, 1, BID},    /* and a second copy of it */
    {7200016, ROOM, 21403, 1, BID},
    {7200022, DESK, 21402, 1, BID},
    {7200023, DESK, 21403, 1, BID},
    {7200024, DESK, 21404, 1, BID},
    {7200030, ARCHIVE, 7, 1, READ},
    {7201500, ROOM, 21404, 1, BID},
    {7260000, PICTURES, 30, 2, PLATE},
    {7260002, DESK, 21501, 1, BID},
    {7260750, ROOM, 21501, 1, BID},
    {21600000, ARCHIVE, 8, 4, READ},
};

/* The telephone desk has been quiet for three minutes. A lot comes up, its plates fill the array, and all telephones
 * ring. */
static const struct arrivals burst[] = {
    {180000, PICTURES, 1, 32, PLATE},
    {180005, TELEPHONE, 1, BIDS, BID},
};

/* An afternoon of large plates: those of each lot fill the array, and while it reads them the room bids. */
static const struct arrivals afternoon[] = {
    {10800000, PICTURES, 1, 40, LARGE},
    {10800005, ROOM, 1, 20, BID},
    {11400000, PICTURES, 41, 24, LARGE},
    {11400005, ROOM, 21, 12, BID},
    {11400100, ROOM, 33, 8, BID},
    {12000000, PICTURES, 65, 40, LARGE},
    {12000030, ROOM, 41, 1, BID},
    {12000120, ROOM, 42, 16, BID},
};

/* What the recorder's board shows at four bids of the telephone desk: it starts again from zero before the third. */
static const uint32_t counter[] = {4294900000, 4294960000, 2704, 52704};

/* A request that the host has under way, its size, and when it arrived or, at the array, when it will be done. */
struct job {
    uint64_t guest, id, kib, time;
};

struct waits {
    uint64_t sent, total, longest;
};

struct host {
    /* What the library is lent. */
    sgq_gate gate;
    sgq_guest guests[GUESTS];
    sgq_request waiting[CAPACITY];
    sgq_flight flight[DEPTH];
    sgq_tables lent;
    /* The host's own books. */
    struct job asked[CAPACITY]; /* accepted and not yet sent */
    size_t asked_count;
    struct job busy[DEPTH]; /* at the array */
    size_t busy_count;
    const struct arrivals *rows; /* what arrives: the row that comes next, and how many of its ids have come */
    size_t row_count, row;
    uint32_t within;
    int by_size;   /* whether requests cost what the driver's table says, or 1 each */
    uint64_t wake; /* when to tick, as the gate said last */
    /* The events of one interrupt, the sizes of those that arrive, and room for their answers. */
    sgq_event events[SGQ_MOST_EVENTS];
    uint64_t sizes[SGQ_MOST_EVENTS];
    sgq_answer answers[SGQ_MOST_EVENTS];
    /* What the day took. */
    uint64_t calls, told, ticks;
    struct waits waits[GUESTS][PHASES];
    uint64_t bid_waits[BIDS]; /* of the telephone desk */
    size_t bids_sent;
};

static void stop(const char *what, uint64_t refusal)
{
    fprintf(stderr, "host: %s was refused, %" PRIu64 ": %s\n", what, refusal, sgq_refusal_text(refusal));
    exit(1);
}

static void open_gate(struct host *host, const sgq_settings *chosen)
{
    host->lent = (sgq_tables)SGQ_TABLES(host->gate, host->guests, host->waiting, host->flight);
    sgq_answer answer = sgq_tables_open_all(&host->lent, SGQ_RULE_1, chosen, GUESTS);
    if (answer.kind == SGQ_REFUSED)
        stop("opening", answer.refusal);
    host->wake = answer.wake;
}

/* The place of a request among jobs; it is one of them. */
static size_t place_of(const struct job *jobs, uint64_t guest, uint64_t id)
{
    size_t place = 0;
    while (jobs[place].guest != guest || jobs[place].id != id)
        place++;
    return place;
}

static struct job take_out(struct job *jobs, size_t *count, size_t place)
{
    struct job taken = jobs[place];
    *count -= 1;
    for (; place < *count; place++)
        jobs[place] = jobs[place + 1];
    return taken;
}

static void note_wait(struct waits *waits, uint64_t waited)
{
    waits->sent += 1;
    waits->total += waited;
    if (waited > waits->longest)
        waits->longest = waited;
}

static uint64_t service_time(uint64_t kib, uint64_t id)
{
    const struct service *row = service;
    while (row->kib < kib)
        row++;
    return (row->least + id % (row->more + 1)) * MS;
}

/* Sends the request that the answer names to the array. */
static void send_one(struct host *host, sgq_answer answer, uint64_t now)
{
    size_t place = place_of(host->asked, answer.guest, answer.id);
    struct job job = take_out(host->asked, &host->asked_count, place);
    size_t phase = answer.kind == SGQ_SENT_BY_RESERVATION ? 0 : 1;
    note_wait(&host->waits[job.guest][phase], now - job.time);
    if (job.guest == TELEPHONE)
        host->bid_waits[host->bids_sent++] = now - job.time;
    job.time = now + service_time(job.kib, job.id);
    host->busy[host->busy_count++] = job;
}

/* What the answer to an accepted event asks of the host: at most one request goes, and so long it may sleep. */
static void follow(struct host *host, sgq_answer answer, uint64_t now)
{
    if (sgq_sent(answer))
        send_one(host, answer, now);
    host->wake = answer.wake;
}

/* As long as the gate says to wake now, a tick sends another; then it has said until when the host may sleep. */
static void tick_while_due(struct host *host, uint64_t now)
{
    while (host->wake <= now) {
        sgq_answer answer = sgq_tables_tick(&host->lent, now);
        if (answer.kind == SGQ_REFUSED)
            stop("a tick", answer.refusal);
        host->ticks += 1;
        follow(host, answer, now);
    }
}

static uint64_t next_arrival(const struct host *host)
{
    return host->row < host->row_count ? host->rows[host->row].ms * MS : SGQ_NEVER;
}

/* What the driver says that a request costs: more than the table has is the most. */
static uint64_t cost_of(uint64_t kib)
{
    for (size_t row = 0; row < SGQ_COUNT(prices); row++)
        if (kib <= prices[row].kib)
            return prices[row].cost;
    return SGQ_MOST_COST;
}

static void arrive(struct host *host, size_t place, uint64_t now)
{
    const struct arrivals *row = &host->rows[host->row];
    uint64_t cost = host->by_size ? cost_of(row->kib) : 1;
    host->events[place] = sgq_arrival(row->guest, row->first + host->within, now, cost);
    host->sizes[place] = row->kib;
    host->within += 1;
    if (host->within == row->count) {
        host->row += 1;
        host->within = 0;
    }
}

/* The place at the array of the request that is done first. */
static size_t first_done(const struct host *host)
{
    size_t first = 0;
    for (size_t place = 1; place < host->busy_count; place++)
        if (host->busy[place].time < host->busy[first].time)
            first = place;
    return first;
}

static uint64_t next_done(const struct host *host)
{
    return host->busy_count > 0 ? host->busy[first_done(host)].time : SGQ_NEVER;
}

static sgq_event complete(struct host *host, uint64_t now)
{
    struct job job = take_out(host->busy, &host->busy_count, first_done(host));
    return sgq_completion(job.guest, (uint32_t)job.id, now);
}

/* All that is done now, then all that arrives now, as far as one call takes them. */
static size_t gather(struct host *host, uint64_t now)
{
    size_t count = 0;
    while (count < SGQ_MOST_EVENTS && next_done(host) == now)
        host->events[count++] = complete(host, now);
    while (count < SGQ_MOST_EVENTS && next_arrival(host) == now)
        arrive(host, count++, now);
    return count;
}

static void note_answer(struct host *host, size_t place)
{
    const sgq_event event = host->events[place];
    const sgq_answer answer = host->answers[place];
    if (answer.kind == SGQ_REFUSED) { /* nothing has changed, nor when to wake, so the host goes on */
        printf("refused: %s, id %" PRIu64 " at %" PRIu64 " ms: %" PRIu64 ", %s\n\n", guest_name[event.guest], event.id,
               event.time / MS, answer.refusal, sgq_refusal_text(answer.refusal));
        return;
    }
    if (event.kind == SGQ_ARRIVAL)
        host->asked[host->asked_count++] = (struct job){event.guest, event.id, host->sizes[place], event.time};
    follow(host, answer, event.time);
}

/* So many events in one call, answered as if they came one by one. */
static void hand_over(struct host *host, size_t count)
{
    uint64_t refusal = sgq_tables_batch(&host->lent, host->events, count, host->answers, SGQ_COUNT(host->answers));
    if (refusal != 0)
        stop("an interrupt", refusal);
    for (size_t place = 0; place < count; place++)
        note_answer(host, place);
    host->calls += 1;
    host->told += count;
}

/* The array or a guest interrupts the host: all events of now. */
static void interrupt(struct host *host, uint64_t now)
{
    size_t count = gather(host, now);
    if (count > 0)
        hand_over(host, count);
}

static uint64_t sooner(uint64_t a, uint64_t b)
{
    return a < b ? a : b;
}

/* Plays what arrives to its end. */
static void play(struct host *host, const struct arrivals *rows, size_t count)
{
    host->rows = rows;
    host->row_count = count;
    for (;;) {
        uint64_t now = sooner(next_done(host), sooner(next_arrival(host), host->wake));
        if (now == SGQ_NEVER)
            return;
        interrupt(host, now);
        tick_while_due(host, now);
    }
}

/* Nanoseconds as ms, to the microsecond. */
static void print_ms(uint64_t nanoseconds)
{
    printf("%8" PRIu64 ".%03" PRIu64, nanoseconds / MS, nanoseconds / 1000 % 1000);
}

static void print_waits(const struct host *host)
{
    printf("guest        phase        sent     mean ms  longest ms\n");
    for (size_t guest = 0; guest < GUESTS; guest++)
        for (size_t phase = 0; phase < PHASES; phase++) {
            const struct waits *waits = &host->waits[guest][phase];
            if (waits->sent == 0)
                continue;
            printf("%-11s  %-11s  %4" PRIu64, guest_name[guest], phase_name[phase], waits->sent);
            print_ms(waits->total / waits->sent);
            print_ms(waits->longest);
            printf("\n");
        }
}

/* The day ends with its last event, whose time the gate has. */
static void print_ticks(const struct host *host)
{
    printf("\nevents: %" PRIu64 ", handed over in %" PRIu64 " calls\n", host->told, host->calls);
    printf("ticks: before, one each ms, %" PRIu64 "; now, when the gate says, %" PRIu64 "\n", host->gate.time / MS,
           host->ticks);
}

/* The time as the gate takes it: a reading of the board moves its clock on. */
static uint64_t board_time(sgq_clock *clock, uint32_t reading)
{
    sgq_told told = sgq_clock_read(clock, reading);
    if (told.refusal != 0)
        stop("a reading", told.refusal);
    return told.time;
}

/* A recorder tells the gate of each bid, at the time of its board. */
static void show_recorder(struct host *host)
{
    sgq_clock clock = {0, 0, 0}; /* no reading was taken yet */
    open_gate(host, settings);
    host->rows = &burst[1];
    host->row_count = 1;
    for (size_t bid = 0; bid < SGQ_COUNT(counter); bid++) {
        arrive(host, 0, board_time(&clock, counter[bid]));
        hand_over(host, 1);
        printf("%10" PRIu32, counter[bid]);
        print_ms(host->gate.time);
        printf("\n");
    }
}

/* The bids of the burst, the desk having this credit: they go in order of acceptance, so their waits stand in it. */
static void show_burst(struct host *host, uint64_t credit)
{
    sgq_settings chosen[GUESTS];
    memcpy(chosen, settings, sizeof chosen);
    chosen[TELEPHONE].credit = credit;
    open_gate(host, chosen);
    play(host, burst, SGQ_COUNT(burst));
    printf("credit %" PRIu64 ":\n", credit);
    for (size_t bid = 0; bid < BIDS; bid++)
        printf("%4" PRIu64 "%s", host->bid_waits[bid] / MS, bid % 10 == 9 ? "\n" : "");
}

/* The afternoon. The room has an eighth of the pictures' shares; both together, with what is reserved, are less than
 * the bids that the array does in a second. */
static void show_afternoon(struct host *host, const char *how, int by_size)
{
    sgq_settings chosen[GUESTS];
    memcpy(chosen, settings, sizeof chosen);
    chosen[ROOM].shares = ROOM_SHARES;
    open_gate(host, chosen);
    host->by_size = by_size;
    play(host, afternoon, SGQ_COUNT(afternoon));
    printf("\n%s:\n", how);
    print_waits(host);
}

int main(void)
{
    static struct host lot, recorder, without, with, plain, sized; /* zeros */
    open_gate(&lot, settings);
    play(&lot, day, SGQ_COUNT(day));
    print_waits(&lot);
    print_ticks(&lot);

    printf("\na board that counts microseconds in 32 bits: what it shows at each bid, and the gate's time in ms\n");
    show_recorder(&recorder);

    printf("\n%d bids of the telephone desk after a quiet time: what each waited, in ms\n", BIDS);
    show_burst(&without, 0);
    show_burst(&with, BIDS);

    printf("\nan afternoon of large plates, and what was waited\n");
    show_afternoon(&plain, "every request at cost 1", 0);
    show_afternoon(&sized, "costs by size, from the driver's table", 1);
    return 0;
}
