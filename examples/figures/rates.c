/* rates.c: shares, credit, reservations, limits and their rules, and costs over time, at an array that does 1,000
 * requests a second. */
#include "figures.h"

#include <inttypes.h>
#include <stdio.h>

#define PARTIES 8

static struct house house;

/* Opens an array of so many places that does 1,000 requests a second. */
static void open_array(const sgq_settings *settings, size_t guests, uint64_t depth)
{
    house_open(&house, depth, 256, settings, guests, depth, depth * MS);
}

static void keep_busy(uint64_t guest, uint64_t under_way, uint64_t from)
{
    const struct load load = {under_way, 0, from, SGQ_NEVER, 0};
    house_load(&house, guest, load);
}

/* Counts ten seconds after ten that are not counted. */
static void measure(void)
{
    house_play(&house, 10 * SECOND);
    house_count_anew(&house);
    house_play(&house, 20 * SECOND);
}

/* Shares. */

/* Eight busy guests, five with one part, the others with two, three and four, of fourteen. */
static void share(uint64_t one_part, uint64_t under_way, uint64_t depth)
{
    static const uint64_t parts[PARTIES] = {1, 1, 1, 1, 1, 2, 3, 4};
    sgq_settings settings[PARTIES];
    for (size_t guest = 0; guest < PARTIES; guest++) {
        const sgq_settings own = {0, 0, parts[guest] * one_part, 0};
        settings[guest] = own;
    }
    open_array(settings, PARTIES, depth);
    for (uint64_t guest = 0; guest < PARTIES; guest++)
        keep_busy(guest, under_way, 0);
    measure();
    printf("%13" PRIu64 "  %5" PRIu64 "  %15" PRIu64, 14 * one_part, depth, under_way);
    printf("  %11" PRIu64 "  %11" PRIu64 "  %13" PRIu64 "  %12" PRIu64 "\n", house.tally[0].sent / 10,
           house.tally[5].sent / 10, house.tally[6].sent / 10, house.tally[7].sent / 10);
}

void shares_figures(void)
{
    static const uint64_t parts[] = {1, 10, 50, 70, 80, 100, 200, 1000};
    printf("an array of 1,000 a second; the fourteenth part is 71, two are 142, three 214, four 285\n");
    printf("sum of shares  depth  under way, each  with 1 part  with 2 parts  with 3 parts  with 4 parts\n");
    for (size_t row = 0; row < SGQ_COUNT(parts); row++)
        share(parts[row], 16, 4);
    share(50, 8, 32);
}

/* The page's advice: 300 a second are reserved, and the other three share 700 by parts of four, two and one. */
void parts_figures(void)
{
    static const sgq_settings settings[] = {{300, 0, 1, 0}, {0, 0, 360, 0}, {0, 0, 180, 0}, {0, 0, 90, 0}};
    open_array(settings, SGQ_COUNT(settings), 4);
    for (uint64_t guest = 0; guest < SGQ_COUNT(settings); guest++)
        keep_busy(guest, 16, 0);
    measure();
    printf("an array of 1,000 a second\n");
    printf("reserved  shares  got\n");
    for (size_t guest = 0; guest < SGQ_COUNT(settings); guest++)
        printf("%8" PRIu64 "  %6" PRIu64 "  %3" PRIu64 "\n", settings[guest].reservation, settings[guest].shares,
               house.tally[guest].sent / 10);
}

/* Tags that run ahead of the clock. */

/* The hours after which tags that begin at 0 are at the ceiling, for so many requests a second. */
static void print_hours(int wide, uint64_t shares, uint64_t rate)
{
    if (shares < rate)
        printf("  %*" PRIu64, wide, SGQ_CEILING / SECOND * shares / rate / 3600);
    else
        printf("  %*s", wide, "never");
}

/* A guest alone for ten seconds. */
static void run_ahead(uint64_t shares)
{
    const sgq_settings settings[1] = {{0, 0, shares, 0}};
    open_array(settings, 1, 4);
    keep_busy(0, 16, 0);
    house_play(&house, 10 * SECOND);
    printf("%6" PRIu64 "  %24" PRIu64, shares, house.guests[0].snext / SECOND);
    print_hours(23, shares, 1000);
    print_hours(28, shares, 100000);
    printf("\n");
}

/* Arrivals of a guest with shares 1, three seconds before the ceiling. */
static void at_the_ceiling(void)
{
    const sgq_settings settings[1] = {{0, 0, 1, 0}};
    open_array(settings, 1, 1);
    uint32_t id = 0;
    sgq_answer answer = sgq_tables_arrive(&house.lent, 0, id, SGQ_CEILING - 3 * SECOND, 1);
    while (answer.kind != SGQ_REFUSED)
        answer = sgq_tables_arrive(&house.lent, 0, ++id, SGQ_CEILING - 3 * SECOND, 1);
    printf("shares 1, 3 s before the ceiling: %" PRIu32 " arrivals are accepted\n", id);
    print_answer("the next", answer);
}

void ahead_figures(void)
{
    static const uint64_t shares[] = {1, 10, 100, 500, 1000};
    printf("a guest alone, 1,000 requests a second, for 10 s\n");
    printf("shares  its next share number, s  at the ceiling after, h  at 100,000 a second after, h\n");
    for (size_t row = 0; row < SGQ_COUNT(shares); row++)
        run_ahead(shares[row]);
    at_the_ceiling();
}

/* A guest runs alone, pauses for a second, and comes back beside another of the same shares. */
static void come_back(uint64_t alone, uint64_t shares)
{
    const sgq_settings settings[2] = {{0, 0, shares, 0}, {0, 0, shares, 0}};
    const struct load morning = {16, 0, 0, alone, 0};
    open_array(settings, 2, 4);
    house_load(&house, 0, morning);
    keep_busy(1, 16, alone + SECOND);
    house_play(&house, alone + 2 * SECOND);
    house_count_anew(&house);
    keep_busy(0, 16, alone + 2 * SECOND);
    house_play(&house, 2 * alone + 10 * SECOND);
    printf("%8" PRIu64 "  %6" PRIu64 "  ", alone / SECOND, shares);
    printf("%14s", "");
    print_ms(house.tally[0].longest);
    printf("\n");
}

void alone_figures(void)
{
    printf("alone, s  shares  back: longest wait, ms\n");
    come_back(10 * SECOND, 50);
    come_back(10 * SECOND, 100);
    come_back(10 * SECOND, 500);
    come_back(60 * SECOND, 500);
    come_back(60 * SECOND, 1000);
}

/* Credit. */

/* Thirty requests at once after ten quiet seconds, beside a guest that is always busy. */
static void burst(uint64_t credit)
{
    const sgq_settings settings[2] = {{0, 0, 600, 0}, {0, 0, 300, credit}};
    const struct load bids = {30, 0, 10 * SECOND, 0, 0};
    open_array(settings, 2, 4);
    keep_busy(0, 32, 0);
    house_play(&house, 10 * SECOND);
    house_count_anew(&house);
    house_load(&house, 1, bids);
    house_play(&house, 11 * SECOND);
    printf("%6" PRIu64 "%12s", credit, "");
    print_ms(house.tally[1].longest);
    printf("%19s", "");
    print_ms(house.tally[0].longest);
    printf("\n");
}

void credit_figures(void)
{
    static const uint64_t credits[] = {0, 10, 20, 30, 256};
    printf("30 requests after 10 quiet seconds, beside a guest of twice the shares with 32 under way\n");
    printf("credit  they: longest wait, ms  the other: longest wait, ms\n");
    for (size_t row = 0; row < SGQ_COUNT(credits); row++)
        burst(credits[row]);
}

/* Reservations. */

static void reserve(uint64_t first, uint64_t first_under_way, uint64_t second, uint64_t second_under_way)
{
    const sgq_settings settings[3] = {{first, 0, 100, 0}, {second, 0, 100, 0}, {0, 0, 400, 0}};
    open_array(settings, 3, 4);
    keep_busy(0, first_under_way, 0);
    keep_busy(1, second_under_way, 0);
    keep_busy(2, 16, 0);
    measure();
    printf("%8" PRIu64 "  %9" PRIu64 "  %3" PRIu64, first, first_under_way, house.tally[0].sent / 10);
    printf("  %8" PRIu64 "  %9" PRIu64 "  %3" PRIu64, second, second_under_way, house.tally[1].sent / 10);
    printf("  %8d  %9d  %3" PRIu64 "\n", 0, 16, house.tally[2].sent / 10);
}

void overbooked_figures(void)
{
    printf("an array of 1,000 a second; three guests: reserved, under way, got\n");
    printf("reserved  under way  got  reserved  under way  got  reserved  under way  got\n");
    reserve(300, 16, 300, 16);
    reserve(600, 16, 300, 16);
    reserve(800, 16, 400, 16);
    reserve(800, 16, 800, 16);
    reserve(900, 16, 600, 64);
}

/* Limits: a guest of ten a second. */

/* Thirty requests wait while another holds the only place for two seconds; then each takes a millisecond. */
static void held_back(void)
{
    const sgq_settings settings[2] = {{0, 10, 100, 0}, {0, 0, 100, 0}};
    open_array(settings, 2, 1);
    if (!sgq_sent(sgq_tables_arrive(&house.lent, 1, 0, 0, 1)))
        return;
    for (uint32_t id = 0; id < 30; id++)
        if (sgq_sent(sgq_tables_arrive(&house.lent, 0, id, 0, 1)))
            return;
    const uint64_t free = 2 * SECOND;
    uint64_t sent = 0;
    sgq_answer answer = sgq_tables_complete(&house.lent, 1, 0, free);
    while (sgq_sent(answer))
        answer = sgq_tables_complete(&house.lent, 0, (uint32_t)answer.id, free + ++sent * MS);
    uint64_t took = (sent - 1) * MS;
    printf("limit 10 a second, 30 wait, the array is taken for 2 s: then %" PRIu64 " go within %" PRIu64 " ms\n", sent,
           took / MS);
    printf("by the limit at most %" PRIu64 " have gone by then\n", (free + took) / (SECOND / 10) + 1);
}

/* Five requests after ten quiet seconds: when each goes, from then. */
static void after_a_pause(void)
{
    const sgq_settings settings[1] = {{0, 10, 100, 0}};
    const struct load first = {1, 0, 0, 0, 0}, later = {5, 0, 10 * SECOND, 0, 0};
    open_array(settings, 1, 4);
    house_load(&house, 0, first);
    house_play(&house, 10 * SECOND);
    house_load(&house, 0, later);
    house_play(&house, 20 * SECOND);
    printf("5 requests after 10 quiet seconds: the last goes after %" PRIu64 " ms\n", house.tally[0].longest / MS);
}

void limit_figures(void)
{
    held_back();
    after_a_pause();
}

/* The rules for limits, and what a limit is worth: one guest alone, at an array that is never full. */
static sgq_gate lone_gate;
static sgq_guest lone_guest[1];
static sgq_request lone_waiting[512];
static sgq_flight lone_flight[2];
static const sgq_tables lone = SGQ_TABLES(lone_gate, lone_guest, lone_waiting, lone_flight);

/* Opens its gate, and lets it bring as many requests of this cost as may wait, all at 0: the first goes at once. */
static sgq_answer crowd(const sgq_settings *settings, uint64_t rule, uint64_t cost)
{
    sgq_answer answer = sgq_tables_open_all(&lone, rule, settings, 1);
    for (uint32_t id = 0; id < SGQ_COUNT(lone_waiting) && answer.kind != SGQ_REFUSED; id++)
        answer = sgq_tables_arrive(&lone, 0, id, 0, cost);
    if (answer.kind == SGQ_REFUSED)
        stop_at("a crowd", answer);
    return answer;
}

/* A guest with 100 a second reserved and a limit of 250 asks for more, for a second: how many go, and how many of them
 * before their limit tag. They go in order, so the first waiting goes next. */
static void bill(uint64_t rule)
{
    static const sgq_settings settings[] = {{100, 250, 1, 0}};
    sgq_answer answer = crowd(settings, rule, 1);
    uint64_t sent = 1, early = 0, most = 0; /* id 0 went at 0 */
    for (uint32_t last = 0; answer.wake < SECOND; last = (uint32_t)answer.id, sent++) {
        const uint64_t now = answer.wake, limit = lone_waiting[0].ltag;
        early += limit > now;
        most = limit > now && limit - now > most ? limit - now : most;
        answer = sgq_tables_complete(&lone, 0, last, now);
    }
    printf("%4" PRIu64 "  %16" PRIu64 "  %22" PRIu64 "  ", rule, sent, early);
    printf("%3s", "");
    print_ms(most);
    printf("\n");
}

void rules_figures(void)
{
    printf("a guest with 100 a second reserved and a limit of 250 asks for more\n");
    printf("rule  sent in a second  before their limit tag  by at most, ms\n");
    bill(SGQ_RULE_1);
    bill(SGQ_RULE_2);
}

/* What a limit is worth. */

/* A guest with a limit of 250 brings requests of this cost at 0: how many go within a second, its last moment too, and
 * what all but the last of them take of the limit. */
static void promise(uint64_t cost)
{
    static const sgq_settings settings[] = {{0, 250, 1, 0}};
    sgq_answer answer = crowd(settings, SGQ_RULE_1, cost);
    uint64_t sent = 1; /* id 0 went at 0 */
    for (uint32_t last = 0; answer.wake <= SECOND; last = (uint32_t)answer.id, sent++)
        answer = sgq_tables_complete(&lone, 0, last, answer.wake);
    printf("%4" PRIu64 "  %16" PRIu64 "  %9s", cost, sent, "");
    print_ms((sent - 1) * cost * (SECOND / 250));
    printf("\n");
}

void worth_figures(void)
{
    static const uint64_t costs[] = {1, 8, 64};
    printf("a guest with a limit of 250 a second, 4 ms to a cost of 1, brings 512 requests at once\n");
    printf("cost  sent in a second  all but the last, ms\n");
    for (size_t row = 0; row < SGQ_COUNT(costs); row++)
        promise(costs[row]);
}

/* Costs. */

/* Two busy guests of the same shares; the requests of the second take the array eight times as long, and cost so much.
 * Its time is that of 1,000 short requests a second. */
static void weigh(uint64_t shares, uint64_t cost)
{
    const sgq_settings settings[] = {{0, 0, shares, 0}, {0, 0, shares, 0}};
    open_array(settings, SGQ_COUNT(settings), 4);
    house_weigh(&house, 1, 8, cost);
    keep_busy(0, 16, 0);
    keep_busy(1, 16, 0);
    measure();
    const uint64_t first = house.tally[0].sent / 10, second = house.tally[1].sent / 10;
    printf("%12" PRIu64 "  %4" PRIu64 "  %19" PRIu64 "  %18" PRIu64, shares, cost, first, second);
    printf("  %20" PRIu64 "  %4" PRIu64 "\n", first / 10, second * 8 / 10);
}

/* A guest with a limit asks for more, each request at this cost, alone at the array. */
static void limit_by_cost(uint64_t cost)
{
    static const sgq_settings settings[] = {{0, 100, 100, 0}};
    open_array(settings, SGQ_COUNT(settings), 4);
    house_weigh(&house, 0, 1, cost);
    keep_busy(0, 16, 0);
    measure();
    printf("limit 100 a second, each at cost %" PRIu64 ": %" PRIu64 " in ten seconds\n", cost, house.tally[0].sent);
}

void costs_figures(void)
{
    static const uint64_t rows[][2] = {{100, 1}, {100, 2}, {100, 4}, {100, 8}, {100, 16}, {450, 1}, {450, 4}, {450, 8}};
    printf("two guests of the same shares, one with short requests, one with long ones that take eight times as long\n");
    printf("shares, each  cost  short ones a second  long ones a second  %% of the time: short  long\n");
    for (size_t row = 0; row < SGQ_COUNT(rows); row++)
        weigh(rows[row][0], rows[row][1]);
    limit_by_cost(1);
    limit_by_cost(8);
}
