/* run.h: what is to be played: a house with its arrays, its guests and what they ask for, as a text says it.
 *
 * A line of the text is a word and numbers, '#' begins a comment. Times are nanoseconds, from the beginning of the run.
 *
 *   gate KIND                                        who decides, library where it is not said; gate.h has the kinds
 *   rule RULE                                        for limits; 1 where it is not said
 *   arrays COUNT                                     1 where it is not said
 *   depth PLACES         capacity PLACES             of each array; 32 and 256 where it is not said
 *   servers COUNT                                    so many requests does an array work on at once, in order of sending; 10
 *   vary THOUSANDTHS                                 the time of a request is so much longer or shorter, at most; 0
 *   think TIME                                       from the end of a request to the next of a closed load; 0
 *   until TIME           every TIME                  the length of the run, and of the intervals that are counted
 *   seed NUMBER                                      of the random numbers
 *   speed ARRAY FROM RATE                            from then on the array does so many requests a second
 *   guest RESERVATION LIMIT SHARES CREDIT COST TIMES its requests arrive at this cost, and take TIMES thousandths of the time
 *   closed GUEST COUNT FROM UNTIL ARRAYS             keeps so many requests under way; ARRAYS is a sum of 1 for the first
 *                                                    array, 2 for the second, 4 for the third .., among which each
 *                                                    request takes one by chance
 *   burst GUEST COUNT PERIOD FROM UNTIL ARRAYS       so many at once, in each period
 *   open GUEST PERIOD FROM UNTIL ARRAYS              one in each period, which is up to half longer or shorter
 *   trace FILE           lines FILE   sheet FILE     the events as a trace of version 2, the answers as 'decide' prints them,
 *                                                    the figures as 'sheet' does; of one array at the library */
#ifndef RUN_H
#define RUN_H

#include "sgq.h"

#define SECOND UINT64_C(1000000000)
#define MOST_GUESTS 16
#define MOST_LOADS 64
#define MOST_TURNS 64
#define MOST_PATH 512

enum load_kind { CLOSED, BURST, OPEN };

struct load {
    enum load_kind kind;
    uint64_t guest, count, period, from, until, arrays;
};

/* A change of an array's speed. */
struct turn {
    uint64_t array, from, rate;
};

struct guest {
    sgq_settings settings;
    uint64_t cost, times;
};

struct run {
    char gate[32], trace[MOST_PATH], lines[MOST_PATH], sheet[MOST_PATH]; /* files that are not wanted are empty */
    uint64_t rule, arrays, depth, capacity, servers, vary, think, until, every, seed;
    struct turn turns[MOST_TURNS];
    struct guest guests[MOST_GUESTS];
    struct load loads[MOST_LOADS];
    size_t turn_count, guest_count, load_count;
};

/* Reads a run from standard input, or ends the program with a line that says what is wrong. */
void read_run(struct run *run);

/* Ends the program with a line. */
#ifdef __GNUC__
__attribute__((noreturn, format(printf, 1, 2)))
#endif
void stop(const char *format, ...);

#endif
