/* Written so that it is C99 and C++ alike: holds the structs of sgq.h to the rows of the tables, and plays the example
 * of document 01 through the helpers, under the rule that is named. Prints what samples/example.out has under rule 1;
 * document 02, K7: "Event 7 of 01 prints `-` under rule 2." */
#include "sgq.h"
#include "sgq.h" /* twice does no harm */

#include <inttypes.h>
#include <stdio.h>

#define MS UINT64_C(1000000)

/* A field stands at its place in the row, or this does not compile. */
#define AT(record, field, place) \
    typedef char record##_##field##_stands[offsetof(record, field) == (place) * sizeof(uint64_t) ? 1 : -1]

AT(sgq_gate, depth, 0);
AT(sgq_gate, guests, 1);
AT(sgq_gate, capacity, 2);
AT(sgq_gate, time, 3);
AT(sgq_gate, waiting, 4);
AT(sgq_gate, flight, 5);
AT(sgq_gate, rule, 6);
AT(sgq_settings, reservation, 0);
AT(sgq_settings, limit, 1);
AT(sgq_settings, shares, 2);
AT(sgq_settings, credit, 3);
AT(sgq_guest, reservation, 0);
AT(sgq_guest, limit, 1);
AT(sgq_guest, shares, 2);
AT(sgq_guest, rnext, 3);
AT(sgq_guest, lnext, 4);
AT(sgq_guest, snext, 5);
AT(sgq_guest, credit, 6);
AT(sgq_request, guest, 0);
AT(sgq_request, id, 1);
AT(sgq_request, rtag, 2);
AT(sgq_request, ltag, 3);
AT(sgq_request, stag, 4);
AT(sgq_request, cost, 5);
AT(sgq_flight, guest, 0);
AT(sgq_flight, id, 1);
AT(sgq_event, kind, 0);
AT(sgq_event, guest, 1);
AT(sgq_event, id, 2);
AT(sgq_event, time, 3);
AT(sgq_event, cost, 4);
AT(sgq_event, delta, 5);
AT(sgq_event, rho, 6);
AT(sgq_answer, kind, 0);
AT(sgq_answer, guest, 1);
AT(sgq_answer, id, 2);
AT(sgq_answer, refusal, 3);
AT(sgq_answer, wake, 4);
AT(sgq_counter, delta, 0);
AT(sgq_counter, rho, 1);
AT(sgq_moved, refusal, 0);
AT(sgq_moved, written, 1);
AT(sgq_moved, event, 2);
AT(sgq_dropped, event, 0);
AT(sgq_dropped, reason, 1);
AT(sgq_salvaged, refusal, 0);
AT(sgq_salvaged, written, 1);
AT(sgq_salvaged, rows, 2);
AT(sgq_judged, line, 0);
AT(sgq_judged, kind, 1);
AT(sgq_judged, guest, 2);
AT(sgq_judged, id, 3);
AT(sgq_judged, refusal, 4);
AT(sgq_told, refusal, 0);
AT(sgq_told, time, 1);
AT(sgq_clock, time, 0);
AT(sgq_clock, last, 1);
typedef char sgq_clock_started_stands[offsetof(sgq_clock, started) == sizeof(uint64_t) + sizeof(uint32_t) ? 1 : -1];

static void print_answer(unsigned event, sgq_answer answer)
{
    if (sgq_sent(answer))
        printf("%u %c %" PRIu64 " %" PRIu64 "\n", event, answer.kind == SGQ_SENT_BY_RESERVATION ? 'R' : 'W',
               answer.guest, answer.id);
    else if (answer.kind == SGQ_REFUSED)
        printf("%u X %" PRIu64 "\n", event, answer.refusal);
    else
        printf("%u -\n", event);
}

static void play(const sgq_tables *lent)
{
    static const uint64_t ticks[] = {4, 8, 10, 9};
    unsigned event = 0;
    for (uint32_t id = 1; id <= 4; id++)
        print_answer(++event, sgq_tables_arrive(lent, 0, id, 0, 1));
    for (size_t tick = 0; tick < 4; tick++)
        print_answer(++event, sgq_tables_tick(lent, ticks[tick] * MS));
    for (unsigned twice = 0; twice < 2; twice++)
        print_answer(++event, sgq_tables_complete(lent, 0, 1, 10 * MS));
}

int main(int count, char **words)
{
    const uint64_t rule = count > 1 && words[1][0] == '2' ? SGQ_RULE_2 : SGQ_RULE_1;
    static const sgq_settings settings[1] = {{100, 250, 1, 0}};
    sgq_gate gate;
    sgq_guest guests[1];
    sgq_request waiting[8];
    sgq_flight flight[4];
    sgq_tables lent = SGQ_TABLES(gate, guests, waiting, flight);
    sgq_answer answer = sgq_tables_open(&lent, 4, 1, 8, rule, settings, 1);
    if (answer.kind != SGQ_NOTHING) {
        printf("opening was refused: %s\n", sgq_refusal_text(answer.refusal));
        return 1;
    }
    printf("event answer\n");
    play(&lent);
    return 0;
}
