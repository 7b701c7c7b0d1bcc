/* The word judge: whether another gate printed the right lines for a trace, in a sentence. */
#include "sgq.h"
#include "words.h"

#include <errno.h>
#include <inttypes.h>
#include <stdio.h>
#include <string.h>

/* So many bytes of a line are shown at the most. */
#define MOST_SHOWN 80

/* A line, without its byte 10, and whether it has one; where there is none its bytes are NULL. */
struct line {
    const uint8_t *bytes;
    size_t length;
    int ended;
};

/* The line at the front of what is left. */
static struct line first_line(const uint8_t *bytes, size_t length)
{
    const uint8_t *end = (const uint8_t *)memchr(bytes, '\n', length);
    struct line line = {bytes, end == NULL ? length : (size_t)(end - bytes), end != NULL};
    return line;
}

/* The line of this number, from 1, if there is one. Count becomes how many stand before it; all where there is none. */
static struct line line_at(struct whole lines, uint64_t number, uint64_t *count)
{
    struct line none = {NULL, 0, 0};
    size_t at = 0;
    for (*count = 0; at < lines.length; *count += 1) {
        struct line line = first_line(lines.bytes + at, lines.length - at);
        if (*count + 1 == number)
            return line;
        at += line.length + (size_t)line.ended;
    }
    return none;
}

/* Prints a line in quotes so that any bytes can be shown; of a long one only the beginning. */
static void print_line(struct line line)
{
    putchar('\'');
    for (size_t at = 0; at < line.length && at < MOST_SHOWN; at++) {
        uint8_t byte = line.bytes[at];
        if (byte == '\\' || byte == '\'')
            printf("\\%c", byte);
        else if (byte >= ' ' && byte <= '~')
            putchar(byte);
        else
            printf("\\x%02x", byte);
    }
    printf(line.length > MOST_SHOWN ? "...'" : "'");
}

/* Prints what was due in a line, as it is printed; event n has line n + 1. */
static void print_due(sgq_judged found)
{
    uint64_t event = found.line - 1;
    if (found.kind == SGQ_REFUSED && event == 0)
        printf("due was 'trace refused %" PRIu64 "'", found.refusal);
    else if (event == 0)
        printf("due was 'event answer'");
    else if (found.kind == SGQ_REFUSED)
        printf("due was '%" PRIu64 " X %" PRIu64 "'", event, found.refusal);
    else if (found.kind == SGQ_NOTHING)
        printf("due was '%" PRIu64 " -'", event);
    else
        printf("due was '%" PRIu64 " %c %" PRIu64 " %" PRIu64 "' or what ties with it", event,
               found.kind == SGQ_SENT_BY_RESERVATION ? 'R' : 'W', found.guest, found.id);
}

static void print_wrong(const char *title, struct whole lines, sgq_judged found)
{
    uint64_t before;
    struct line line = line_at(lines, found.line, &before);
    printf("line %" PRIu64 " of %s is %s: ", found.line, title,
           found.kind == SGQ_NONE_DUE ? "surplus" : line.bytes == NULL ? "missing" : "wrong");
    if (found.kind == SGQ_NONE_DUE)
        printf("no line was due any more");
    else
        print_due(found);
    if (line.bytes != NULL) {
        printf(", and it says ");
        print_line(line);
        if (!line.ended)
            printf(" without the end of a line");
    }
    putchar('\n');
}

static void print_accepted(const char *title, const char *trace, struct whole lines)
{
    uint64_t count;
    line_at(lines, 0, &count);
    printf("%s is accepted: ", title);
    if (count == 1)
        printf("its one line is right for %s\n", trace);
    else
        printf("all its %" PRIu64 " lines are right for %s\n", count, trace);
}

int judge_lines(struct named from, struct named said)
{
    struct whole trace = map_file(from), lines = map_file(said);
    sgq_judged found = sgq_judge(trace.bytes, trace.length, lines.bytes, lines.length);
    if (found.line == 0)
        print_accepted(said.title, from.title, lines);
    else
        print_wrong(said.title, lines, found);
    if (ferror(stdout) || fflush(stdout) != 0)
        fail("standard output could not be written: %s", strerror(errno));
    return found.line != 0;
}
