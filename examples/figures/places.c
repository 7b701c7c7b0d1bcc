/* places.c: places at the array and waiting places. A room bids, with a reservation, beside pictures that want all. */
#include "figures.h"

#include <inttypes.h>
#include <stdio.h>

enum { ROOM, PICTURES, PARTIES };

static const sgq_settings settings[PARTIES] = {{100, 0, 1, 0}, {0, 0, 100, 0}};

static struct house house;

/* Ten seconds of 40 bids a second beside pictures that keep 96 requests under way. The array works on four at once, for
 * 8 ms each. */
static void play(uint64_t depth, uint64_t capacity, uint64_t quota)
{
    const struct load pictures = {96, 0, 0, SGQ_NEVER, quota};
    const struct load bids = {0, 25 * MS + MS / 8, SECOND, SGQ_NEVER, 0};
    house_open(&house, depth, capacity, settings, PARTIES, 4, 8 * MS);
    house_load(&house, PICTURES, pictures);
    house_load(&house, ROOM, bids);
    house_play(&house, SECOND);
    house_count_anew(&house);
    house_play(&house, 11 * SECOND);
}

/* An array that works on four at once, given more or fewer places. */
void depth_figures(void)
{
    static const uint64_t depths[] = {1, 2, 4, 8, 16, 32, 64};
    printf("depth  requests a second  bids: longest to the array, ms  longest to the end, ms\n");
    for (size_t row = 0; row < SGQ_COUNT(depths); row++) {
        play(depths[row], 128, 0);
        printf("%5" PRIu64 "  %17" PRIu64 "  ", depths[row],
               (house.tally[ROOM].sent + house.tally[PICTURES].sent) / 10);
        printf("%19s", "");
        print_ms(house.tally[ROOM].longest);
        printf("%13s", "");
        print_ms(house.tally[ROOM].longest_whole);
        printf("\n");
    }
}

/* Plates until every place is taken, and then a bid. */
void capacity_figures(void)
{
    house_open(&house, 4, 64, settings, PARTIES, 4, 8 * MS);
    uint32_t plates = 0;
    sgq_answer answer = sgq_tables_arrive(&house.lent, PICTURES, plates, 0, 1);
    while (answer.kind != SGQ_REFUSED)
        answer = sgq_tables_arrive(&house.lent, PICTURES, ++plates, 0, 1);
    printf("depth 4, capacity 64: %" PRIu32 " plates are accepted and %" PRIu64 " wait\n", plates, house.gate.waiting);
    print_answer("one plate more", answer);
    print_answer("a bid", sgq_tables_arrive(&house.lent, ROOM, 0, 0, 1));
}

void quota_figures(void)
{
    static const uint64_t rows[][2] = {{24, 0}, {64, 0}, {128, 0}, {24, 20}, {64, 60}};
    printf("capacity  quota of the pictures  refusals 8 of bids  bids: longest to the array, ms\n");
    for (size_t row = 0; row < SGQ_COUNT(rows); row++) {
        const struct tally *bids = &house.tally[ROOM];
        play(4, rows[row][0], rows[row][1]);
        printf("%8" PRIu64 "  ", rows[row][0]);
        print_quota(21, rows[row][1]);
        printf("  %18" PRIu64 "%21s", bids->refused, "");
        print_ms(bids->longest);
        printf("\n");
    }
}
