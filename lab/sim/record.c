/* record.c: see record.h. */
#include "record.h"

#include <inttypes.h>
#include <stdio.h>

static FILE *trace, *lines;
static uint64_t events;

/* Numbers stand in a trace with the lowest byte first. */
static void put(uint64_t number, int bytes)
{
    for (int at = 0; at < bytes; at++)
        putc((int)(number >> 8 * at & 0xff), trace);
}

static FILE *begin(const char *path)
{
    FILE *file = path[0] == '\0' ? NULL : fopen(path, "wb");
    if (path[0] != '\0' && file == NULL)
        stop("%s cannot be written", path);
    return file;
}

static void put_header(const struct run *run)
{
    fputs("SGQ", trace);
    put(2, 2);
    put(run->depth, 1);
    put(run->guest_count, 1);
    put(run->capacity, 2);
    put(run->rule, 1);
    for (size_t guest = 0; guest < run->guest_count; guest++) {
        const sgq_settings *own = &run->guests[guest].settings;
        put(own->reservation, 4);
        put(own->limit, 4);
        put(own->shares, 4);
        put(own->credit, 2);
    }
}

void record_open(const struct run *run)
{
    trace = begin(run->trace);
    lines = begin(run->lines);
    if ((trace != NULL || lines != NULL) && run->arrays != 1)
        stop("a trace is of one array: it has no place for delta and rho");
    if (trace != NULL)
        put_header(run);
    if (lines != NULL)
        fputs("event answer\n", lines);
}

static void put_line(sgq_answer answer)
{
    fprintf(lines, "%" PRIu64 " ", events);
    if (sgq_sent(answer))
        fprintf(lines, "%c %" PRIu64 " %" PRIu64 "\n", answer.kind == SGQ_SENT_BY_RESERVATION ? 'R' : 'W', answer.guest, answer.id);
    else if (answer.kind == SGQ_REFUSED)
        fprintf(lines, "X %" PRIu64 "\n", answer.refusal);
    else
        fputs("-\n", lines);
}

void record(uint64_t kind, uint64_t guest, uint32_t id, uint64_t time, uint64_t cost, sgq_answer answer)
{
    events += 1;
    if (trace != NULL) {
        put(kind | (cost - 1) << 2, 1);
        put(guest, 1);
        put(id, 4);
        put(time, 8);
    }
    if (lines != NULL)
        put_line(answer);
}

void record_close(void)
{
    if (trace != NULL && (ferror(trace) || fclose(trace) != 0))
        stop("the trace could not be written");
    if (lines != NULL && (ferror(lines) || fclose(lines) != 0))
        stop("the lines could not be written");
}
