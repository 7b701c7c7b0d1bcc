/* record.c: writes a trace of version 2 and beside it the lines of the answers, as document 01 prints them. So what the
 * gate did here can be held to the program that is proved: './sgq decide FILE' prints FILE.lines. */
#include "record.h"
#include "settings.h"

#include <errno.h>
#include <stdio.h>
#include <string.h>

#include <nbdkit-filter.h>

#define VERSION 2
#define MOST_LINE 64 /* three numbers, a letter and what parts them */

static FILE *trace, *lines;
static const char *name;
static unsigned openings;
static uint64_t events; /* since this one */

bool is_recording(void)
{
    return trace != NULL;
}

/* Ends the record where it cannot be written; serving goes on. */
static void give_up(void)
{
    nbdkit_error("sgq-trace: %s could not be written: %s; it ends here, and the gate goes on", name, strerror(errno));
    record_end();
}

bool record_open(const char *path)
{
    openings += 1;
    events = 0;
    name = openings == 1 ? path : nbdkit_printf_intern("%s.%u", path, openings);
    const char *beside = name == NULL ? NULL : nbdkit_printf_intern("%s.lines", name);
    if (beside == NULL)
        return false;
    trace = fopen(name, "wb");
    lines = trace == NULL ? NULL : fopen(beside, "wb");
    if (lines != NULL)
        return true;
    nbdkit_error("sgq-trace: %s: %s", trace == NULL ? name : beside, strerror(errno));
    record_end();
    return false;
}

/* Writes a number, low byte first. */
static uint8_t *put(uint8_t *at, uint64_t number, int bytes)
{
    for (; bytes > 0; bytes--, number >>= 8)
        *at++ = (uint8_t)number;
    return at;
}

void record_begin(void)
{
    uint8_t header[1024] = {'S', 'G', 'Q'}, *at = header + 3; /* 906 bytes at the most */
    if (trace == NULL)
        return;
    at = put(put(put(at, VERSION, 2), settings.depth, 1), settings.guests, 1);
    at = put(put(at, settings.capacity, 2), settings.rule, 1);
    for (uint64_t guest = 0; guest < settings.guests; guest++) {
        const sgq_settings *its = &settings.guest[guest];
        at = put(put(put(put(at, its->reservation, 4), its->limit, 4), its->shares, 4), its->credit, 2);
    }
    if (fwrite(header, (size_t)(at - header), 1, trace) != 1 || fputs("event answer\n", lines) == EOF)
        give_up();
}

static void put_event(uint8_t *at, const sgq_event *event)
{
    uint64_t spare = event->kind == SGQ_ARRIVAL ? event->cost - 1 : 0;
    put(put(put(put(at, event->kind | spare << 2, 1), event->guest, 1), event->id, 4), event->time, 8);
}

static char *put_number(char *at, uint64_t number)
{
    char digits[20];
    size_t count = 0;
    do
        digits[count++] = (char)('0' + number % 10);
    while ((number /= 10) != 0);
    while (count > 0)
        *at++ = digits[--count];
    return at;
}

static char *put_line(char *at, const sgq_answer *answer)
{
    at = put_number(at, ++events);
    *at++ = ' ';
    *at++ = "-RW"[answer->kind];
    if (sgq_sent(*answer)) {
        *at++ = ' ';
        at = put_number(at, answer->guest);
        *at++ = ' ';
        at = put_number(at, answer->id);
    }
    *at++ = '\n';
    return at;
}

void record_events(const sgq_event *handed, const sgq_answer *answers, size_t count)
{
    uint8_t bytes[SGQ_MOST_EVENTS * SGQ_EVENT_BYTES];
    char text[SGQ_MOST_EVENTS * MOST_LINE], *at = text;
    size_t kept = 0;
    if (trace == NULL)
        return;
    for (size_t place = 0; place < count; place++)
        if (answers[place].kind != SGQ_REFUSED) { /* what is refused has changed nothing, and ends the opening */
            put_event(bytes + kept++ * SGQ_EVENT_BYTES, &handed[place]);
            at = put_line(at, &answers[place]);
        }
    if (kept > 0 && (fwrite(bytes, kept * SGQ_EVENT_BYTES, 1, trace) != 1 || fwrite(text, (size_t)(at - text), 1, lines) != 1))
        give_up();
}

void record_end(void)
{
    FILE *files[] = {trace, lines};
    trace = lines = NULL;
    for (size_t at = 0; at < SGQ_COUNT(files); at++)
        if (files[at] != NULL && fclose(files[at]) != 0)
            nbdkit_error("sgq-trace: %s could not be written to its end: %s", name, strerror(errno));
}
