/* arrays.c: a guest that is spread over four arrays, with a reservation, a limit or shares for all of them together, beside
 * the same at four gates that know nothing of each other.
 *
 * Each array is simulated in the same way: it works on four requests at once, 16 ms each, so it does 250 a second. The spread
 * guest asks at all four arrays or at two of them. At each array another guest asks that has no other array. Who asks keeps
 * 16 requests under way at each of its arrays, so all of them always want more. */
#include "figures.h"

#include <inttypes.h>
#include <stdio.h>

enum { ARRAYS = 4, SPREAD = 0, PARTIES = 1 + ARRAYS, PLACES = 4, UNDER_WAY = 16, SHARES = 100 };

static struct house arrays[ARRAYS];

/* How the four gates are opened: as one house that counts between them; apart, each with all that the guest has; or apart,
 * each with a quarter of it. */
enum way { COUNTED, ALL_AT_EACH, QUARTER_AT_EACH, WAYS };

static sgq_settings own_settings(sgq_settings whole, enum way way)
{
    const uint64_t parts = way == QUARTER_AT_EACH ? ARRAYS : 1;
    const sgq_settings own = {whole.reservation / parts, whole.limit / parts, whole.shares / parts, 0};
    return own;
}

/* The guests are the same at every array: the spread one, and for each array one that asks there alone. */
static void open_arrays(sgq_settings spread, enum way way)
{
    static sgq_counter counters[ARRAYS * PARTIES];
    static const sgq_house whole = SGQ_HOUSE(ARRAYS, counters);
    sgq_settings settings[PARTIES];
    settings[SPREAD] = own_settings(spread, way);
    for (size_t guest = 1; guest < PARTIES; guest++)
        settings[guest] = (sgq_settings){0, 0, SHARES, 0};
    for (uint64_t array = 0; array < ARRAYS; array++)
        if (way == COUNTED)
            house_open_array(&arrays[array], &whole, array, PLACES, 64, settings, PARTIES, PLACES, 16 * MS);
        else
            house_open(&arrays[array], PLACES, 64, settings, PARTIES, PLACES, 16 * MS);
}

/* Time goes on at all arrays, a millisecond at a time. */
static void play_arrays(uint64_t from, uint64_t until)
{
    for (uint64_t time = from + MS; time <= until; time += MS)
        for (size_t array = 0; array < ARRAYS; array++)
            house_play(&arrays[array], time);
}

/* What the spread guest gets at all arrays together, and how much of it by reservation: ten seconds are counted after ten
 * that are not. */
static struct tally total(sgq_settings spread, size_t asks_at, enum way way)
{
    const struct load busy = {UNDER_WAY, 0, 0, SGQ_NEVER, 0};
    struct tally all = {0, 0, 0, 0, 0};
    open_arrays(spread, way);
    for (size_t array = 0; array < ARRAYS; array++) {
        house_load(&arrays[array], 1 + array, busy);
        if (array < asks_at)
            house_load(&arrays[array], SPREAD, busy);
    }
    play_arrays(0, 10 * SECOND);
    for (size_t array = 0; array < ARRAYS; array++)
        house_count_anew(&arrays[array]);
    play_arrays(10 * SECOND, 20 * SECOND);
    for (size_t array = 0; array < ARRAYS; array++) {
        all.sent += arrays[array].tally[SPREAD].sent;
        all.by_reservation += arrays[array].tally[SPREAD].by_reservation;
    }
    return all;
}

static void print_row(const char *what, sgq_settings spread, size_t asks_at, uint64_t due)
{
    static const int wide[WAYS] = {7, 18, 21};
    printf("%-16s  %7zu  %3" PRIu64, what, asks_at, due);
    for (enum way way = COUNTED; way < WAYS; way++)
        printf("  %*" PRIu64, wide[way], total(spread, asks_at, way).sent / 10);
    printf("\n");
}

/* By its shares, which are those of each other guest, the spread guest's part is a fifth of four arrays, or a third of two. */
void arrays_figures(void)
{
    static const sgq_settings reserved = {200, 0, 4, 0}, limited = {0, 100, SHARES, 0}, sharing = {0, 0, SHARES, 0};
    static const sgq_settings both = {100, 0, SHARES, 0};
    printf("four arrays of 250 a second; a guest spread over them, and another at each: what it gets in a second, in all\n");
    printf("what it has       asks at  due  counted  apart, all at each  apart, a quarter each\n");
    print_row("200 reserved", reserved, 4, 200);
    print_row("200 reserved", reserved, 2, 200);
    print_row("limit 100", limited, 4, 100);
    print_row("limit 100", limited, 2, 100);
    print_row("shares as others", sharing, 4, 1000 / 5);
    print_row("shares as others", sharing, 2, 500 / 3);
    const struct tally counted = total(both, 4, COUNTED);
    printf("100 reserved and shares as others, counted: %" PRIu64 ", of them %" PRIu64 " by reservation\n",
           counted.sent / 10, counted.by_reservation / 10);
}
