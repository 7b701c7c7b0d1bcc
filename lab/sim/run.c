/* run.c: see run.h. */
#include "run.h"

#include <inttypes.h>
#include <stdarg.h>
#include <stdio.h>
#include <stdlib.h>
#include <string.h>

#define MOST_NUMBERS 6

void stop(const char *format, ...)
{
    va_list words;
    va_start(words, format);
    fprintf(stderr, "lab: ");
    vfprintf(stderr, format, words);
    fprintf(stderr, "\n");
    va_end(words);
    exit(1);
}

/* One number by name. */
static int take_number(struct run *run, const char *word, uint64_t number)
{
    const struct {
        const char *name;
        uint64_t *place;
    } places[] = {{"rule", &run->rule},       {"arrays", &run->arrays}, {"depth", &run->depth}, {"capacity", &run->capacity},
                  {"servers", &run->servers}, {"vary", &run->vary},     {"think", &run->think}, {"until", &run->until},
                  {"every", &run->every},     {"seed", &run->seed}};
    for (size_t at = 0; at < SGQ_COUNT(places); at++)
        if (strcmp(word, places[at].name) == 0) {
            *places[at].place = number;
            return 1;
        }
    return 0;
}

static void take_load(struct run *run, struct load load)
{
    if (run->load_count == MOST_LOADS || load.guest >= run->guest_count)
        stop("more than %d loads, or one of a guest that is not there", MOST_LOADS);
    run->loads[run->load_count++] = load;
}

/* A row of several numbers. */
static int take_row(struct run *run, const char *word, const uint64_t *n, int count)
{
    if (strcmp(word, "speed") == 0 && count == 3 && run->turn_count < MOST_TURNS)
        run->turns[run->turn_count++] = (struct turn){n[0], n[1], n[2]};
    else if (strcmp(word, "guest") == 0 && count == 6 && run->guest_count < MOST_GUESTS)
        run->guests[run->guest_count++] = (struct guest){{n[0], n[1], n[2], n[3]}, n[4], n[5]};
    else if (strcmp(word, "closed") == 0 && count == 5)
        take_load(run, (struct load){CLOSED, n[0], n[1], 0, n[2], n[3], n[4]});
    else if (strcmp(word, "burst") == 0 && count == 6)
        take_load(run, (struct load){BURST, n[0], n[1], n[2], n[3], n[4], n[5]});
    else if (strcmp(word, "open") == 0 && count == 5)
        take_load(run, (struct load){OPEN, n[0], 1, n[1], n[2], n[3], n[4]});
    else
        return 0;
    return 1;
}

/* The gate's kind, or a file. */
static int take_name(struct run *run, const char *word, const char *name)
{
    char *place = strcmp(word, "trace") == 0   ? run->trace
                  : strcmp(word, "lines") == 0 ? run->lines
                  : strcmp(word, "sheet") == 0 ? run->sheet
                  : strcmp(word, "gate") == 0  ? run->gate
                                               : NULL;
    if (place == NULL || strlen(name) >= (place == run->gate ? sizeof run->gate : MOST_PATH))
        return 0;
    strcpy(place, name);
    return 1;
}

static void take_line(struct run *run, char *line)
{
    uint64_t n[MOST_NUMBERS];
    char word[32], name[MOST_PATH];
    line[strcspn(line, "#\n")] = '\0';
    if (sscanf(line, "%31s", word) != 1)
        return;
    int count = sscanf(line, "%*s %" SCNu64 " %" SCNu64 " %" SCNu64 " %" SCNu64 " %" SCNu64 " %" SCNu64, &n[0], &n[1], &n[2],
                       &n[3], &n[4], &n[5]);
    if (count == 1 && take_number(run, word, n[0]))
        return;
    if (count > 1 && take_row(run, word, n, count))
        return;
    if (sscanf(line, "%*s %511[^\n]", name) != 1 || !take_name(run, word, name))
        stop("'%s' is no line of a run", line);
}

/* What would send a run into nowhere; the gate itself refuses settings that are out of range. */
static void judge(const struct run *run)
{
    if (run->arrays < 1 || run->arrays > SGQ_MOST_ARRAYS || run->servers < 1 || run->servers > SGQ_MOST_DEPTH)
        stop("not 1 to %d arrays, or not 1 to %d servers", SGQ_MOST_ARRAYS, SGQ_MOST_DEPTH);
    if (run->every == 0 || run->until == 0 || run->vary > 1000 || run->guest_count == 0)
        stop("a run without a length, an interval or guests, or one that varies by more than the whole");
    for (size_t at = 0; at < run->load_count; at++)
        if (run->loads[at].arrays == 0 || run->loads[at].arrays >> run->arrays != 0)
            stop("a load of no array, or of one that is not there");
}

void read_run(struct run *run)
{
    char line[2 * MOST_PATH];
    memset(run, 0, sizeof *run);
    strcpy(run->gate, "library");
    run->rule = run->arrays = run->seed = 1;
    run->depth = 32;
    run->capacity = 256;
    run->servers = 10;
    while (fgets(line, sizeof line, stdin) != NULL)
        take_line(run, line);
    judge(run);
}
