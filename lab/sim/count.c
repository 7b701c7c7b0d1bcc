/* count.c: see count.h. */
#include "count.h"

#include <inttypes.h>
#include <stdio.h>
#include <stdlib.h>

static struct cell *cells; /* of interval 0, of interval 1 .. */
static struct whole wholes[MOST_GUESTS];
static uint64_t waiting[SGQ_MOST_ARRAYS][MOST_GUESTS];
static uint64_t guests, every, intervals, now;

static struct cell *cell_of(uint64_t guest)
{
    return &cells[now * guests + guest];
}

/* A new interval begins with what waits. */
static void begin(uint64_t interval)
{
    now = interval;
    for (uint64_t guest = 0; guest < guests; guest++)
        cell_of(guest)->least = wholes[guest].waiting;
}

void count_open(const struct run *run)
{
    guests = run->guest_count;
    every = run->every;
    intervals = (run->until + every - 1) / every;
    cells = (struct cell *)calloc(intervals * guests, sizeof *cells);
    if (cells == NULL)
        stop("there is no memory for %" PRIu64 " intervals", intervals);
    begin(0);
}

void count_time(uint64_t time)
{
    while (now < time / every)
        begin(now + 1);
}

void count_arrival(uint64_t array, uint64_t guest)
{
    uint64_t others = 0;
    for (uint64_t other = 0; other < guests; other++)
        others += other == guest ? 0 : waiting[array][other];
    cell_of(guest)->arrived += 1;
    cell_of(guest)->idle += waiting[array][guest] == 0 && others > 0;
    waiting[array][guest] += 1;
    wholes[guest].arrived += 1;
    wholes[guest].waiting += 1;
}

static void count_wait(struct whole *whole, uint64_t waited)
{
    whole->longest = waited > whole->longest ? waited : whole->longest;
    whole->lower += waited;
    whole->upper += whole->lower < waited;
}

void count_send(uint64_t array, uint64_t guest, uint64_t kind, uint64_t time, uint64_t asked, uint64_t limit_tag)
{
    struct cell *cell = cell_of(guest);
    struct whole *whole = &wholes[guest];
    int reserved = kind == SGQ_SENT_BY_RESERVATION;
    uint64_t ahead = reserved && limit_tag != SGQ_NEVER && limit_tag > time;
    *(reserved ? &cell->by_reservation : &cell->by_weight) += 1;
    *(reserved ? &whole->by_reservation : &whole->by_weight) += 1;
    cell->ahead += ahead;
    whole->ahead += ahead;
    cell->late += limit_tag < now * every;
    count_wait(whole, time - asked);
    waiting[array][guest] -= 1;
    whole->flight += 1;
    whole->waiting -= 1;
    if (whole->waiting < cell->least)
        cell->least = whole->waiting;
}

void count_completion(uint64_t guest, uint64_t latency)
{
    struct cell *cell = cell_of(guest);
    cell->completed += 1;
    cell->latency += latency;
    cell->longest = latency > cell->longest ? latency : cell->longest;
    wholes[guest].completed += 1;
    wholes[guest].flight -= 1;
}

static void print_row(const uint64_t *row, size_t numbers, FILE *file, char between)
{
    for (size_t at = 0; at < numbers; at++)
        fprintf(file, "%" PRIu64 "%c", row[at], at + 1 < numbers ? between : '\n');
}

void print_cells(void)
{
    printf("interval,guest,arrived,idle,completed,by_reservation,by_weight,ahead,late,latency,longest,least\n");
    for (uint64_t at = 0; at < intervals * guests; at++) {
        const struct cell *cell = &cells[at];
        print_row((const uint64_t[]){at / guests, at % guests, cell->arrived, cell->idle, cell->completed, cell->by_reservation,
                                     cell->by_weight, cell->ahead, cell->late, cell->latency, cell->longest, cell->least},
                  12, stdout, ',');
    }
    if (ferror(stdout) || fflush(stdout) != 0)
        stop("standard output could not be written");
}

void write_sheet(const char *path)
{
    FILE *file = fopen(path, "w");
    if (file == NULL)
        stop("%s cannot be written", path);
    for (uint64_t guest = 0; guest < guests; guest++) {
        const struct whole *own = &wholes[guest];
        const uint64_t row[] = {guest,        own->arrived, own->completed, own->by_reservation, own->by_weight, own->ahead,
                                own->longest, own->upper,   own->lower,     own->waiting,        own->flight};
        print_row(row, SGQ_COUNT(row), file, ' ');
    }
    if (ferror(file) || fclose(file) != 0)
        stop("%s cannot be written", path);
}
