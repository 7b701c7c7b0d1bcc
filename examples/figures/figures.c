// figures.c: prints the figures of docs/HOSTS.md: what a host in front of an array sees, tried on the library.
//
//     cc -std=c99 -Iinclude examples/figures/*.c target/staticlib/libhost.a -o figures && ./figures
//
// Each part stands under a line '== NAME'. python3 tests/figures.py holds figures.out and the page to what is printed.
#include "figures.h"

#include <inttypes.h>
#include <stdio.h>

void print_ms(uint64_t nanoseconds)
{
    printf("%9" PRIu64 ".%" PRIu64, nanoseconds / MS, nanoseconds % MS * 10 / MS);
}

void print_quota(int wide, uint64_t quota)
{
    if (quota == 0)
        printf("%*s", wide, "none");
    else
        printf("%*" PRIu64, wide, quota);
}

void print_answer(const char *what, sgq_answer answer)
{
    if (answer.kind == SGQ_REFUSED)
        printf("%s: refused %" PRIu64 ", %s\n", what, answer.refusal, sgq_refusal_text(answer.refusal));
    else if (sgq_sent(answer))
        printf("%s: guest %" PRIu64 ", id %" PRIu64 " goes by %s\n", what, answer.guest, answer.id,
               answer.kind == SGQ_SENT_BY_RESERVATION ? "reservation" : "weight");
    else
        printf("%s: accepted, nothing goes\n", what);
}

static const struct part {
    const char *name;
    void (*print)(void);
} parts[] = {
    {"gates", gates_figures},   {"clock", clock_figures},       {"ticks", ticks_figures},
    {"depth", depth_figures},   {"capacity", capacity_figures}, {"quota", quota_figures},
    {"shares", shares_figures}, {"ahead", ahead_figures},       {"alone", alone_figures},
    {"parts", parts_figures},   {"limit", limit_figures},       {"overbooked", overbooked_figures},
    {"reopen", reopen_figures}, {"refusals", refusals_figures}, {"withdrawn", withdrawn_figures},
    {"batch", batch_figures},   {"credit", credit_figures},     {"rules", rules_figures},
    {"costs", costs_figures},   {"worth", worth_figures},       {"arrays", arrays_figures},
};

int main(void)
{
    for (size_t part = 0; part < SGQ_COUNT(parts); part++) {
        printf("== %s\n", parts[part].name);
        parts[part].print();
    }
    return 0;
}
