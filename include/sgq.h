/* sgq.h: the proved disc gate, for a host in C99 or C++11.
 *
 * The gate holds the requests of 1 to 64 guests for one disc array and decides, after each event, whether one goes to
 * the array: at most one. Events are an arrival (guest, id, time, cost, delta, rho), a completion (guest, id, time) and a
 * tick (time), one in a call or up to 256. Each answer also says when to tick. A house with up to 8 arrays has a gate for
 * each, and calls that count between them. The rules are document 01's, as document 02 has changed them; words in quotes
 * are document 01's own, where no other is named.
 *
 * The library keeps nothing between calls. The host lends it the gate and three tables at each call, and must not
 * change them in between: every call tests that they are sound and refuses with a number where they are not. "Every
 * refusal changes no lent number and not the time."
 *
 * What the host owes, since C does not check it:
 * - A pointer is never NULL, points to 64-bit numbers, to bytes of a trace or of lines or to a clock, and the length beside
 *   it is true. A length is a count of numbers or of bytes in the calls, and a count of records in the helpers below, where a
 *   table of no records may be NULL.
 * - The gate, the tables, events and answers do not overlap, nor counters and phases with them, nor a trace and what is
 *   lent beside it, and nobody else reads or writes them during a call, nor a clock. Calls on different gates and clocks
 *   may run at the same time; calls on arrays of one house may not, since all are lent its counters.
 *
 * The library is for x86-64 Linux. Link the archive where it is built, or what 'make install' installs:
 *   cc -Iinclude host.c target/staticlib/libhost.a
 *   cc host.c $(pkg-config --cflags --libs sgq)
 */
#ifndef SGQ_H
#define SGQ_H

#include <stddef.h>
#include <stdint.h>

/* The version of this header and of the library that it belongs to. While the major number is 0, another minor number
 * means other calls or other rows. SGQ_VERSION is the text "MAJOR.MINOR.PATCH". */
#define SGQ_VERSION_MAJOR 0
#define SGQ_VERSION_MINOR 11
#define SGQ_VERSION_PATCH 0
#define SGQ_VERSION \
    SGQ_TEXT_OF(SGQ_VERSION_MAJOR) "." SGQ_TEXT_OF(SGQ_VERSION_MINOR) "." SGQ_TEXT_OF(SGQ_VERSION_PATCH)
#define SGQ_TEXT_OF(macro) SGQ_TEXT(macro)
#define SGQ_TEXT(words) #words

/* An answer that is thrown away may be a request that never reaches the array, so compilers that can do warn of it. */
#ifdef __GNUC__
#define SGQ_MUST_USE __attribute__((warn_unused_result))
#else
#define SGQ_MUST_USE
#endif

#ifdef __cplusplus
extern "C" {
#endif

/* "Time and tags are whole nanoseconds, 0 to 4,611,686,018,427,387,903 (2^62 - 1, the ceiling)." */
#define SGQ_CEILING UINT64_C(4611686018427387903)

/* No time to wake, in an answer: all bits one, which is later than any time. */
#define SGQ_NEVER UINT64_MAX

/* "Depth (places at the array) 1 to 64", "requests of 1 to 64 guests", "Capacity (waiting places) 1 to 1,024." */
#define SGQ_MOST_DEPTH 64
#define SGQ_MOST_GUESTS 64
#define SGQ_MOST_CAPACITY 1024

/* The most events of one call. Document 02, K5: "up to 256 events at a time". */
#define SGQ_MOST_EVENTS 256

/* "reservation 0 to 1,000,000 per second, 0 meaning none; limit 0 to 1,000,000 per second, 0 meaning unlimited; shares
 * 1 to 1,000,000." */
#define SGQ_MOST_RATE 1000000

/* The most credit of a guest. Document 02, K6: "Each guest record gains a credit c from 0 to 256." */
#define SGQ_MOST_CREDIT 256

/* The most that a request costs. Document 02, K8: "An arrival now carries a cost from 1 to 64, worked out by the
 * driver." A request of cost c counts as c requests of cost 1 against its guest's reservation, limit and shares. K8:
 * "Cost 1 is the old gate." */
#define SGQ_MOST_COST 64

/* The largest delta and rho of an arrival, where counting stops; and the most arrays of a house. Document 02, K14: "Larger
 * houses spread a guest over up to 8 arrays". "One and one give the old gate." */
#define SGQ_MOST_DELTA 65535
#define SGQ_MOST_ARRAYS 8

/* The rule for limits, chosen at opening and kept by the gate. Under rule 1, document 01's, a request that is due by
 * reservation goes though its limit lies ahead: "The limit is not looked at." Rule 2 is for houses that bill by limit.
 * Document 02, K7: "Under rule 2 the reservation phase also wants the request unlimited or its limit tag at or before
 * t." So no request goes before its limit tag, by reservation or by weight. */
enum sgq_rule {
    SGQ_RULE_1 = 1,
    SGQ_RULE_2 = 2
};

/* How many 64-bit numbers each record has; the structs below are these rows. They stand here once. */
#define SGQ_GATE_NUMBERS 7
#define SGQ_SETTINGS_NUMBERS 4
#define SGQ_GUEST_NUMBERS 7
#define SGQ_REQUEST_NUMBERS 6
#define SGQ_FLIGHT_NUMBERS 2
#define SGQ_EVENT_NUMBERS 7
#define SGQ_ANSWER_NUMBERS 5
#define SGQ_COUNTER_NUMBERS 2
#define SGQ_DROPPED_NUMBERS 2

/* The gate: what it was opened with, the time and the counts. "A fresh table has time 0, nothing waiting or in
 * flight". */
typedef struct sgq_gate {
    uint64_t depth;    /* places at the array */
    uint64_t guests;   /* how many; they are numbered from 0 */
    uint64_t capacity; /* waiting places */
    uint64_t time;     /* of the last accepted event, in nanoseconds */
    uint64_t waiting;  /* how many requests wait */
    uint64_t flight;   /* how many are in flight, that is at the array */
    uint64_t rule;     /* enum sgq_rule */
} sgq_gate;

/* A guest's settings, as opening takes them. "A reservation above a non-zero limit is bad; equal is good." Credit 0 is
 * none; with c a guest that was quiet may send by weight ahead of those that were busy meanwhile, until the costs of
 * what it sent add up to c. Document 02, K6: "Reservations and limits do not read the credit." */
typedef struct sgq_settings {
    uint64_t reservation; /* requests of cost 1 per second, 0: none */
    uint64_t limit;       /* requests of cost 1 per second, 0: unlimited */
    uint64_t shares;      /* of what is left when the reservations are served */
    uint64_t credit;      /* requests of cost 1, 0: none */
} sgq_settings;

/* "A guest record holds its settings and three next numbers: the tag its next request would get were time not looked
 * at." Without a reservation rnext is 0 and means nothing; so lnext of an unlimited guest. The credit stands last. */
typedef struct sgq_guest {
    uint64_t reservation; /* requests of cost 1 per second, 0: none */
    uint64_t limit;       /* requests of cost 1 per second, 0: unlimited */
    uint64_t shares;      /* of what is left when the reservations are served */
    uint64_t rnext;       /* the next reservation number */
    uint64_t lnext;       /* the next limit number */
    uint64_t snext;       /* the next share number */
    uint64_t credit;      /* requests of cost 1, 0: none */
} sgq_guest;

/* A waiting request. "Waiting requests stand in order of acceptance; when one is sent, the requests behind it move down
 * one place." The tags are times in nanoseconds; those that the guest does not have are 0 and mean nothing. Document
 * 02, K8: "Waiting requests keep their cost". */
typedef struct sgq_request {
    uint64_t guest; /* its number, from 0 */
    uint64_t id;    /* 32 bits, the guest's own */
    uint64_t rtag;  /* reservation tag: at or before the time the request is due by reservation */
    uint64_t ltag;  /* limit tag: at or before the time it may go by weight, under rule 2 also by reservation */
    uint64_t stag;  /* share tag: by weight the smallest goes first */
    uint64_t cost;  /* 1 to 64: how many spacings further on its guest's next tags lie */
} sgq_request;

/* A request in flight. "Requests in flight stand in order of sending and close up in the same way." */
typedef struct sgq_flight {
    uint64_t guest;
    uint64_t id;
} sgq_flight;

/* An event of a batch. A tick has guest 0 and id 0; only an arrival has a cost, a delta and a rho, in the others they are
 * 0. */
typedef struct sgq_event {
    uint64_t kind; /* enum sgq_event_kind */
    uint64_t guest;
    uint64_t id;    /* 32 bits */
    uint64_t time;  /* in nanoseconds */
    uint64_t cost;  /* 1 to 64 in an arrival, else 0 */
    uint64_t delta; /* 1 to 65,535 in an arrival, else 0 */
    uint64_t rho;   /* 0 to delta */
} sgq_event;

/* The kinds of event, as a trace has them. */
enum sgq_event_kind {
    SGQ_ARRIVAL = 0,
    SGQ_COMPLETION = 1,
    SGQ_TICK = 2
};

/* What a call answers. Guest and id name the request sent and are 0 where none was; refusal is 0 where nothing was
 * refused.
 *
 * Wake says when to tick. Document 02, K2: "the earliest time, now or later, at which a tick alone would send
 * something", or SGQ_NEVER "when no place is free or nothing waits". It is judged after the event: what this answer
 * sends does not wait any more. Where it is the event's own time, a tick at once sends another request. It stands until
 * the next accepted event. A refused event carries nothing: 0 is there, and what was said last still stands. */
typedef struct sgq_answer {
    uint64_t kind; /* enum sgq_kind */
    uint64_t guest;
    uint64_t id;
    uint64_t refusal; /* enum sgq_refusal */
    uint64_t wake;    /* a time in nanoseconds, or SGQ_NEVER; 0 in a refusal */
} sgq_answer;

/* The kinds of answer. */
enum sgq_kind {
    SGQ_NOTHING = 0,             /* accepted (at opening: opened), and nothing is sent */
    SGQ_SENT_BY_RESERVATION = 1, /* accepted, and "of the waiting requests with a reservation tag at or before t, the
                                  * one with the smallest, ties to the earlier accepted" is sent; under rule 2, of those
                                  * of them that are unlimited or have a limit tag at or before t */
    SGQ_SENT_BY_WEIGHT = 2,      /* accepted, none was due, and "of those that are unlimited or have a limit tag at or
                                  * before t, the one with the smallest share tag, same tie rule" is sent */
    SGQ_REFUSED = 3              /* refused, and nothing has changed */
};

/* The refusal numbers, each with the condition of document 01's table. Where several hold, the first in the call's
 * order is given:
 *   opening     depth, guests, capacity and the rule (1), lengths (2), guest settings (1)
 *   arrival     2, 3, 4, 5, 6, 18, 20, 7, 8, 9
 *   completion  2, 3, 4, 5, 6, 10
 *   tick        2, 3, 5, 6
 *   batch       16, 17; then each event by itself: 14, and then as the call of its kind
 *   clock       5
 *   in a house with several arrays
 *     opening   the number of arrays and the array (22), and then as above, counters and phases among the lengths
 *     event     the number of arrays (22), lengths of counters and phases (2), their numbers (3), 4, the array (22), and
 *               then as the call of its kind; 20 is never given
 * "Settings inside an open table are judged by 3; to know the lengths needed, guests, depth and capacity out of range
 * give 3 at once." No length depends on the rule, so in an open gate it is judged after 2. */
enum sgq_refusal {
    SGQ_REFUSED_SETTING = 1,            /* "a setting is out of range, when opening" */
    SGQ_REFUSED_SHORT_TABLE = 2,        /* "a lent table, or at opening the lent list of guest settings, is shorter than
                                         * the settings need" */
    SGQ_REFUSED_NOT_SOUND = 3,          /* "the table is not sound" */
    SGQ_REFUSED_UNKNOWN_GUEST = 4,      /* "unknown guest" */
    SGQ_REFUSED_TIME_ABOVE_CEILING = 5, /* "time above the ceiling" */
    SGQ_REFUSED_TIME_BEFORE_LAST = 6,   /* "time before the last accepted time" */
    SGQ_REFUSED_ID_IN_USE = 7,          /* "arrival: guest has this id waiting or in flight" */
    SGQ_REFUSED_WAITING_FULL = 8,       /* "arrival: waiting count equals capacity" */
    SGQ_REFUSED_TAG_ABOVE_CEILING = 9,  /* "arrival: a tag given, or a share tag moved, would pass the ceiling" */
    SGQ_REFUSED_NOT_IN_FLIGHT = 10,     /* "completion: guest has no such id in flight" */

    /* Those named so are of a trace: the programs that read one give them, and the calls that move, salvage or judge one. */
    SGQ_REFUSED_TRACE_MARK = 11,       /* "trace mark" */
    SGQ_REFUSED_TRACE_VERSION = 12,    /* "trace version" */
    SGQ_REFUSED_TRACE_HEADER_CUT = 13, /* "trace header cut short" */
    SGQ_REFUSED_EVENT_KIND = 14,       /* "event kind above 2, or a tick with non-zero guest or id"; in a batch also an
                                        * id of more than 32 bits, or a completion or tick with a cost, a delta or a
                                        * rho */
    SGQ_REFUSED_TRACE_EVENT_CUT = 15,  /* "last event cut short" */

    /* Of a whole batch; document 02, K5. */
    SGQ_REFUSED_SHORT_ANSWERS = 16,   /* "answer buffer short" */
    SGQ_REFUSED_TOO_MANY_EVENTS = 17, /* "more than 256 events" */

    /* Of an arrival; document 02, K8: "after 6 and before 7". */
    SGQ_REFUSED_COST = 18, /* "a cost outside 1 to 64"; "one kept in a table is 3" */

    /* Of the move of a trace; document 02, K9. There 14 is also "for a non-zero upper part or kind 3". */
    SGQ_REFUSED_NO_WAY_BACK = 19, /* "a version 2 trace that has another rule, credit or cost cannot go back" */

    /* Of an arrival; document 02, K14: "after 18". */
    SGQ_REFUSED_DELTA = 20, /* "delta outside 1 to 65,535 or rho above delta" */

    SGQ_REFUSED_SHORT_ROOM = 21, /* of a move, document 02, K9: "room too short"; of a salvage, K12: "lent room for trace or
                                  * list too short" */

    /* Of a house with several arrays; document 02, K14. */
    SGQ_REFUSED_ARRAY = 22 /* "1 to 8 arrays, else 22"; "an array not there" */
};

/* The calls. A table is a pointer to numbers and how many there are; it may be longer than the settings need: "Places
 * beyond what the settings need are neither read nor changed, at opening too." The needs are SGQ_GATE_NUMBERS for the
 * gate, SGQ_GUEST_NUMBERS for each guest, SGQ_REQUEST_NUMBERS for each of the capacity's waiting places and
 * SGQ_FLIGHT_NUMBERS for each of the depth's places in flight. */

/* Opens a gate under a rule, enum sgq_rule: the answer is SGQ_NOTHING, or refused with 1 or 2. Settings are
 * SGQ_SETTINGS_NUMBERS a guest. The gate and the tables may hold anything before; after it, "a fresh table has time 0,
 * nothing waiting or in flight, all next numbers 0", and "every place past the count holds zeros". So wake is
 * SGQ_NEVER. */
SGQ_MUST_USE sgq_answer sgq_open(uint64_t *gate, uint64_t depth, uint64_t guests, uint64_t capacity, uint64_t rule,
                                 const uint64_t *settings, size_t settings_length,
                                 uint64_t *guest_table, size_t guest_table_length,
                                 uint64_t *waiting, size_t waiting_length,
                                 uint64_t *flight, size_t flight_length);

/* A request arrives: it gets its tags, "is placed last among the waiting, then the choice is made". What is sent need
 * not be what arrived. "An id may be used again after its completion." The cost may be any number; one outside 1 to 64
 * is refused, 18. Document 02, K8: "A next number becomes tag plus cost times spacing, and after a weight send the
 * guest's reservation tags drop by the sent request's cost times the spacing." So a request's own tags do not read its
 * cost; those of the guest's next requests do.
 *
 * Delta and rho are 1 and 1 where the guest has one array: then this is the gate without them. Where it is spread over
 * several, they say what the others have done for it meanwhile, and the calls sgq_arrays_ work them out. Document 02, K14:
 * "limit and share next numbers are first raised by (delta - 1) spacings; the reservation's by (rho - 1) spacings, so for
 * rho 0 it falls by one, never below 0." The spacings are plain ones, whatever the request costs. They may be any numbers;
 * a delta outside 1 to 65,535 or a rho above delta is refused, 20. */
SGQ_MUST_USE sgq_answer sgq_arrive(uint64_t *gate,
                                   uint64_t *guest_table, size_t guest_table_length,
                                   uint64_t *waiting, size_t waiting_length,
                                   uint64_t *flight, size_t flight_length,
                                   uint64_t guest, uint32_t id, uint64_t time, uint64_t cost, uint64_t delta,
                                   uint64_t rho);

/* "A completion takes the named request out of flight, then the choice is made." */
SGQ_MUST_USE sgq_answer sgq_complete(uint64_t *gate,
                                     uint64_t *guest_table, size_t guest_table_length,
                                     uint64_t *waiting, size_t waiting_length,
                                     uint64_t *flight, size_t flight_length,
                                     uint64_t guest, uint32_t id, uint64_t time);

/* "A tick only sets the time and makes the choice." A host ticks once the clock has reached the wake of the last
 * accepted event, at once where it has. A tick before that sends nothing; from then on it sends a request. */
SGQ_MUST_USE sgq_answer sgq_tick(uint64_t *gate,
                                 uint64_t *guest_table, size_t guest_table_length,
                                 uint64_t *waiting, size_t waiting_length,
                                 uint64_t *flight, size_t flight_length,
                                 uint64_t time);

/* Up to SGQ_MOST_EVENTS events at once, SGQ_EVENT_NUMBERS each, answered by SGQ_ANSWER_NUMBERS each in the same order.
 * Document 02, K5: "exactly as if they came one by one, a bad kind being 14, refused ones passed over", but that the
 * tables are tested once for all. Gives 0, and then every event has its answer, refused ones too; or
 * SGQ_REFUSED_SHORT_ANSWERS or SGQ_REFUSED_TOO_MANY_EVENTS, and then nothing was done: no number of the gate, of a
 * table or of the answers has changed. Numbers behind the last whole event are no event; answer places past the last
 * event stay as they are. When to tick is in the answer to the last event that was accepted. */
SGQ_MUST_USE uint64_t sgq_batch(uint64_t *gate,
                                uint64_t *guest_table, size_t guest_table_length,
                                uint64_t *waiting, size_t waiting_length,
                                uint64_t *flight, size_t flight_length,
                                const uint64_t *events, size_t events_length,
                                uint64_t *answers, size_t answers_length);

/* A house whose guests are spread over several arrays, each with a gate of its own. The calls below count between the
 * arrays, hand what they have counted to the gate of the array that they name, and give its answer. Document 02, K14: "The
 * host side counts, for each guest and array, completions anywhere since its last request to that array, or since the start
 * (delta), and those of them sent by reservation (rho); both stop at 65,535, and a delta of 0 goes out as 1." So a
 * reservation, a limit and shares are the guest's at all arrays together. A guest's completions alone count for it, and what
 * is refused counts nothing.
 *
 * Each call says how many arrays there are, 1 to SGQ_MOST_ARRAYS, and which one it is of, from 0, and is lent the gate, the
 * tables and the phases of that array and the counters of all:
 * - Counters are SGQ_COUNTER_NUMBERS for each guest at each array; guest g at array a has record a * guests + g.
 * - Phases are a number for each of the depth's places in flight: SGQ_SENT_BY_RESERVATION or SGQ_SENT_BY_WEIGHT, as the
 *   request there was sent, and 0 where the place is not used.
 * Both are judged as tables are: 2 where they are too short, 3 where a counter is above 65,535, a rho above its delta, or
 * the phases are not those of as many requests as are in flight. Places beyond the need are neither read nor changed.
 *
 * The guests and their settings are the same at every array, and the host sees to it: a call is lent one array and cannot
 * tell. Depth, capacity and rule may differ. Each array has its own time, and each answer says when to tick that array. */

/* What is counted for a guest at an array. */
typedef struct sgq_counter {
    uint64_t delta; /* its completions at any array since its last accepted request to this one, or since the start */
    uint64_t rho;   /* those of them that were sent by reservation */
} sgq_counter;

/* sgq_open for an array: it opens its gate and sets its counters and phases to 0. The counters of the other arrays may hold
 * anything, and stay. All arrays are opened before one is used, since the calls of events judge all counters. An array that
 * is opened again counts anew, and the others go on. */
SGQ_MUST_USE sgq_answer sgq_arrays_open(uint64_t *gate, uint64_t arrays, uint64_t array,
                                        uint64_t depth, uint64_t guests, uint64_t capacity, uint64_t rule,
                                        const uint64_t *settings, size_t settings_length,
                                        uint64_t *guest_table, size_t guest_table_length,
                                        uint64_t *waiting, size_t waiting_length,
                                        uint64_t *flight, size_t flight_length,
                                        uint64_t *counters, size_t counters_length,
                                        uint64_t *phases, size_t phases_length);

/* sgq_arrive at an array, with what was counted for the guest there; that is 0 again from then on. */
SGQ_MUST_USE sgq_answer sgq_arrays_arrive(uint64_t *gate, uint64_t arrays, uint64_t array,
                                          uint64_t *guest_table, size_t guest_table_length,
                                          uint64_t *waiting, size_t waiting_length,
                                          uint64_t *flight, size_t flight_length,
                                          uint64_t *counters, size_t counters_length,
                                          uint64_t *phases, size_t phases_length,
                                          uint64_t guest, uint32_t id, uint64_t time, uint64_t cost);

/* sgq_complete at an array: it counts for its guest at all of them. */
SGQ_MUST_USE sgq_answer sgq_arrays_complete(uint64_t *gate, uint64_t arrays, uint64_t array,
                                            uint64_t *guest_table, size_t guest_table_length,
                                            uint64_t *waiting, size_t waiting_length,
                                            uint64_t *flight, size_t flight_length,
                                            uint64_t *counters, size_t counters_length,
                                            uint64_t *phases, size_t phases_length,
                                            uint64_t guest, uint32_t id, uint64_t time);

/* sgq_tick at an array. */
SGQ_MUST_USE sgq_answer sgq_arrays_tick(uint64_t *gate, uint64_t arrays, uint64_t array,
                                        uint64_t *guest_table, size_t guest_table_length,
                                        uint64_t *waiting, size_t waiting_length,
                                        uint64_t *flight, size_t flight_length,
                                        uint64_t *counters, size_t counters_length,
                                        uint64_t *phases, size_t phases_length,
                                        uint64_t time);

/* The moves of a trace from one version to the other. They know no gate: a pointer is to bytes here, and a length counts
 * bytes. A trace and its room do not overlap. */

/* What a move answers: refusal 0 and how many bytes it wrote; or the refusal, nothing written, and the number of the
 * event that refused it, counted from 1, for 14, 15, and 19 where it is a cost. In every other answer event is 0. */
typedef struct sgq_moved {
    uint64_t refusal; /* enum sgq_refusal, or 0 */
    uint64_t written; /* bytes at the beginning of the room */
    uint64_t event;
} sgq_moved;

/* By how many bytes a trace grows at the most when it goes up: the rule, and a credit for each of 64 guests. Room for so
 * many bytes more than the trace has is always enough. */
#define SGQ_MOST_GROWTH 129

/* Writes a trace of version 1 as one of version 2, or back. Document 02, K9: "the move from version 1 to 2 (rule 1,
 * credit 0, cost 1) and back. Back and forth gives the same bytes. The printed decisions of a moved trace are the same."
 * They "work on well-formed traces only, and write nothing when refused; room past the result is unchanged." Refusals, the
 * first that holds in this order:
 *   header   13, 11, 12, 1 as when a trace is read, "a trace of the wrong version being 12"
 *   events   the first that is 14 or 15
 *   back     19
 *   room     21 */
SGQ_MUST_USE sgq_moved sgq_trace_up(const uint8_t *trace, size_t trace_length, uint8_t *room, size_t room_length);
SGQ_MUST_USE sgq_moved sgq_trace_back(const uint8_t *trace, size_t trace_length, uint8_t *room, size_t room_length);

/* The salvage of a torn trace, as a recorder that lost power leaves it. It knows no gate either. */

/* Why an event was dropped. Where several hold, the first in this order is given; a cut event has only its own. */
enum sgq_reason {
    SGQ_DROPPED_KIND = 1,               /* "kind or spare part": whatever is 14 when a trace is read */
    SGQ_DROPPED_TIME_ABOVE_CEILING = 2, /* "time above the ceiling" */
    SGQ_DROPPED_TIME_BEHIND = 3,        /* "time behind the last kept" */
    SGQ_DROPPED_TIME_AHEAD = 4,         /* "time more than 3,600 seconds ahead of the last kept" */
    SGQ_DROPPED_CUT = 5                 /* "cut short" */
};

/* A row of the list: an event that was dropped. */
typedef struct sgq_dropped {
    uint64_t event;  /* its number in the trace, from 1 */
    uint64_t reason; /* enum sgq_reason */
} sgq_dropped;

/* What a salvage answers: refusal 0, how many bytes and how many rows it wrote; or the refusal, and nothing written. */
typedef struct sgq_salvaged {
    uint64_t refusal; /* enum sgq_refusal, or 0 */
    uint64_t written; /* bytes at the beginning of the room */
    uint64_t rows;    /* at the beginning of the list, SGQ_DROPPED_NUMBERS each */
} sgq_salvaged;

/* How many bytes an event of a trace has. */
#define SGQ_EVENT_BYTES 14

/* Keeps the good events of a trace and writes them as a trace of the same version, with a list of those that it drops.
 * The list is 64-bit numbers, and its length counts them; trace, room and list do not overlap. Document 02, K12: "The
 * first kept event is free of the last two time tests. A trace in which no event meets a reason comes out byte for byte,
 * with an empty list; a second pass drops nothing. Room past the results is unchanged." Every event is kept or stands in
 * the list. Room as long as the trace is always enough, and a list of sgq_most_dropped rows. Refusals, the first that
 * holds in this order:
 *   header   13, 11, 12, 1 as when a trace is read, of version 1 or 2
 *   room     21, of the result or of the list */
SGQ_MUST_USE sgq_salvaged sgq_salvage(const uint8_t *trace, size_t trace_length, uint8_t *room, size_t room_length,
                                      uint64_t *list, size_t list_length);

/* The judge of another maker's gate, which may break ties between guests as it likes: whether the lines that it printed
 * for a trace are right. */

/* What a judge answers: line 0, and all else 0, where the lines are accepted; or the number of the first line that is
 * wrong, missing or surplus, the header line being 1, and what was due there, in the numbers of an answer: what the rules
 * answer at the tables that the other gate's choices have led to, ties to the earlier accepted. Line n + 1 is that of event
 * n. In line 1 kind SGQ_NOTHING means the header line, "event answer", and SGQ_REFUSED the one line of a bad header. */
typedef struct sgq_judged {
    uint64_t line;
    uint64_t kind; /* enum sgq_kind, or SGQ_NONE_DUE */
    uint64_t guest;
    uint64_t id;
    uint64_t refusal; /* enum sgq_refusal, or 0 */
} sgq_judged;

/* One kind more, of a judge alone: no line is due any more, and there is one. */
enum sgq_due {
    SGQ_NONE_DUE = 4
};

/* Judges the printed lines of another gate for a trace of either version, under the trace's rule. Document 02, K10: "Accept
 * its lines exactly when each send was of a smallest tag in the right phase, the first waiting of its guest, a send was
 * made wherever one was due, and refusals agree; the tables follow its choices, not ours." Any bytes may be handed in as
 * either, of any length; nothing is written. A line is its bytes up to byte 10, so a last line without one is wrong, as is
 * one that is not printed just so: "Fields are parted by one space, numbers are decimal without leading zeros". "Our own
 * lines are always accepted." */
SGQ_MUST_USE sgq_judged sgq_judge(const uint8_t *trace, size_t trace_length, const uint8_t *lines, size_t lines_length);

/* A clock for a board that counts microseconds in 32 bits and starts again from zero. Zeros are a clock of which no
 * reading was taken yet: sgq_clock clock = {0, 0, 0}; */
typedef struct sgq_clock {
    uint64_t time;    /* in nanoseconds since the first reading, as the gate takes it */
    uint32_t last;    /* the last reading, in microseconds */
    uint32_t started; /* 0: no reading was taken yet; any other number: one was */
} sgq_clock;

/* What a reading is told. */
typedef struct sgq_told {
    uint64_t refusal; /* 0, or SGQ_REFUSED_TIME_ABOVE_CEILING */
    uint64_t time;    /* the clock's time; 0 in a refusal */
} sgq_told;

/* A reading of the board's counter, which moves the clock on. Document 02, K13: "the first setting time 0: elapsed time
 * is the difference of the two readings across the wrap, times 1,000". Any record may be lent; of one that is not
 * started, nothing else is looked at. "a reading that would pass the ceiling is 5 and leaves the record".
 *
 * The time is the true one where readings are less than 4,294,967,296 microseconds apart, which is about 71 minutes and
 * 35 seconds. A gap of 4,294,967,296 microseconds or longer is not seen: every whole round of the counter in it is lost.
 * So a host reads the board more often than that, also when it has nothing else to do. Time never falls. */
SGQ_MUST_USE sgq_told sgq_clock_read(sgq_clock *clock, uint32_t reading);

/* What a host lends, in records: the helpers take this and turn counts of records into lengths. A count says how many
 * records the table has room for, not how many it holds; a table of no records may be NULL. */
typedef struct sgq_tables {
    sgq_gate *gate;
    sgq_guest *guests;
    size_t guest_count;
    sgq_request *waiting;
    size_t waiting_count;
    sgq_flight *flight;
    size_t flight_count;
} sgq_tables;

/* How many records an array has. A pointer is no array, and does not compile where the compiler can tell. */
#ifdef __cplusplus
#define SGQ_COUNT(array) sgq_count_of(array)
#elif defined __GNUC__
#define SGQ_COUNT(array) \
    (sizeof(array) / sizeof((array)[0]) \
     + 0 * sizeof(char[1 - 2 * __builtin_types_compatible_p(__typeof__(array), __typeof__(&(array)[0]))]))
#else
#define SGQ_COUNT(array) (sizeof(array) / sizeof((array)[0]))
#endif

/* The tables of a gate and three arrays, with their counts:
 *   sgq_tables lent = SGQ_TABLES(gate, guests, waiting, flight); */
#define SGQ_TABLES(gate, guests, waiting, flight) \
    {&(gate), (guests), SGQ_COUNT(guests), (waiting), SGQ_COUNT(waiting), (flight), SGQ_COUNT(flight)}

/* Where the numbers of a table begin. One of no records is lent as a spare number and length 0, which the library
 * neither reads nor changes. */
static inline uint64_t *sgq_guest_numbers(const sgq_tables *lent, uint64_t *spare)
{
    return lent->guest_count == 0 ? spare : &lent->guests->reservation;
}

static inline uint64_t *sgq_waiting_numbers(const sgq_tables *lent, uint64_t *spare)
{
    return lent->waiting_count == 0 ? spare : &lent->waiting->guest;
}

static inline uint64_t *sgq_flight_numbers(const sgq_tables *lent, uint64_t *spare)
{
    return lent->flight_count == 0 ? spare : &lent->flight->guest;
}

/* sgq_open over records. */
SGQ_MUST_USE static inline sgq_answer sgq_tables_open(const sgq_tables *lent, uint64_t depth, uint64_t guests,
                                                      uint64_t capacity, uint64_t rule,
                                                      const sgq_settings *settings, size_t settings_count)
{
    uint64_t spare = 0;
    return sgq_open(&lent->gate->depth, depth, guests, capacity, rule,
                    settings_count == 0 ? &spare : &settings->reservation, settings_count * SGQ_SETTINGS_NUMBERS,
                    sgq_guest_numbers(lent, &spare), lent->guest_count * SGQ_GUEST_NUMBERS,
                    sgq_waiting_numbers(lent, &spare), lent->waiting_count * SGQ_REQUEST_NUMBERS,
                    sgq_flight_numbers(lent, &spare), lent->flight_count * SGQ_FLIGHT_NUMBERS);
}

/* sgq_open over records with every place that is lent: the depth and the capacity are the counts of the tables, and
 * there are as many guests as settings. */
SGQ_MUST_USE static inline sgq_answer sgq_tables_open_all(const sgq_tables *lent, uint64_t rule,
                                                          const sgq_settings *settings, size_t settings_count)
{
    return sgq_tables_open(lent, lent->flight_count, settings_count, lent->waiting_count, rule, settings,
                           settings_count);
}

/* sgq_arrive over records, of a guest that is spread over several arrays. */
SGQ_MUST_USE static inline sgq_answer sgq_tables_arrive_spread(const sgq_tables *lent, uint64_t guest, uint32_t id,
                                                               uint64_t time, uint64_t cost, uint64_t delta,
                                                               uint64_t rho)
{
    uint64_t spare = 0;
    return sgq_arrive(&lent->gate->depth,
                      sgq_guest_numbers(lent, &spare), lent->guest_count * SGQ_GUEST_NUMBERS,
                      sgq_waiting_numbers(lent, &spare), lent->waiting_count * SGQ_REQUEST_NUMBERS,
                      sgq_flight_numbers(lent, &spare), lent->flight_count * SGQ_FLIGHT_NUMBERS,
                      guest, id, time, cost, delta, rho);
}

/* sgq_arrive over records, of a guest that has one array: delta and rho are 1. */
SGQ_MUST_USE static inline sgq_answer sgq_tables_arrive(const sgq_tables *lent, uint64_t guest, uint32_t id,
                                                        uint64_t time, uint64_t cost)
{
    return sgq_tables_arrive_spread(lent, guest, id, time, cost, 1, 1);
}

/* sgq_complete over records. */
SGQ_MUST_USE static inline sgq_answer sgq_tables_complete(const sgq_tables *lent, uint64_t guest, uint32_t id,
                                                          uint64_t time)
{
    uint64_t spare = 0;
    return sgq_complete(&lent->gate->depth,
                        sgq_guest_numbers(lent, &spare), lent->guest_count * SGQ_GUEST_NUMBERS,
                        sgq_waiting_numbers(lent, &spare), lent->waiting_count * SGQ_REQUEST_NUMBERS,
                        sgq_flight_numbers(lent, &spare), lent->flight_count * SGQ_FLIGHT_NUMBERS,
                        guest, id, time);
}

/* sgq_tick over records. */
SGQ_MUST_USE static inline sgq_answer sgq_tables_tick(const sgq_tables *lent, uint64_t time)
{
    uint64_t spare = 0;
    return sgq_tick(&lent->gate->depth,
                    sgq_guest_numbers(lent, &spare), lent->guest_count * SGQ_GUEST_NUMBERS,
                    sgq_waiting_numbers(lent, &spare), lent->waiting_count * SGQ_REQUEST_NUMBERS,
                    sgq_flight_numbers(lent, &spare), lent->flight_count * SGQ_FLIGHT_NUMBERS,
                    time);
}

/* sgq_batch over records: so many events, and room for so many answers. Either may be NULL where its count is 0. */
SGQ_MUST_USE static inline uint64_t sgq_tables_batch(const sgq_tables *lent, const sgq_event *events,
                                                     size_t event_count, sgq_answer *answers, size_t answer_count)
{
    uint64_t spare = 0;
    return sgq_batch(&lent->gate->depth,
                     sgq_guest_numbers(lent, &spare), lent->guest_count * SGQ_GUEST_NUMBERS,
                     sgq_waiting_numbers(lent, &spare), lent->waiting_count * SGQ_REQUEST_NUMBERS,
                     sgq_flight_numbers(lent, &spare), lent->flight_count * SGQ_FLIGHT_NUMBERS,
                     event_count == 0 ? &spare : &events->kind, event_count * SGQ_EVENT_NUMBERS,
                     answer_count == 0 ? &spare : &answers->kind, answer_count * SGQ_ANSWER_NUMBERS);
}

/* Events for a batch. The second is an arrival of a guest that has one array. */
static inline sgq_event sgq_arrival_spread(uint64_t guest, uint32_t id, uint64_t time, uint64_t cost, uint64_t delta,
                                           uint64_t rho)
{
    const sgq_event event = {SGQ_ARRIVAL, guest, id, time, cost, delta, rho};
    return event;
}

static inline sgq_event sgq_arrival(uint64_t guest, uint32_t id, uint64_t time, uint64_t cost)
{
    return sgq_arrival_spread(guest, id, time, cost, 1, 1);
}

static inline sgq_event sgq_completion(uint64_t guest, uint32_t id, uint64_t time)
{
    const sgq_event event = {SGQ_COMPLETION, guest, id, time, 0, 0, 0};
    return event;
}

static inline sgq_event sgq_tick_at(uint64_t time)
{
    const sgq_event event = {SGQ_TICK, 0, 0, time, 0, 0, 0};
    return event;
}

/* What a host with several arrays lends, in records: of all of them the counters, and of the array that a call is of its
 * number, its tables and its phases. */
typedef struct sgq_house {
    uint64_t arrays; /* how many */
    sgq_counter *counters;
    size_t counter_count;
} sgq_house;

typedef struct sgq_array {
    uint64_t number; /* from 0 */
    sgq_tables tables;
    uint64_t *phases;
    size_t phase_count;
} sgq_array;

/* A house of so many arrays with an array of counters; and one array of it, with its number, as SGQ_TABLES makes tables:
 *   sgq_house house = SGQ_HOUSE(4, counters);
 *   sgq_array first = SGQ_ARRAY(0, gate, guests, waiting, flight, phases); */
#define SGQ_HOUSE(arrays, counters) {(arrays), (counters), SGQ_COUNT(counters)}
#define SGQ_ARRAY(number, gate, guests, waiting, flight, phases) \
    {(number), SGQ_TABLES(gate, guests, waiting, flight), (phases), SGQ_COUNT(phases)}

/* As for tables: where the numbers begin. */
static inline uint64_t *sgq_counter_numbers(const sgq_house *house, uint64_t *spare)
{
    return house->counter_count == 0 ? spare : &house->counters->delta;
}

static inline uint64_t *sgq_phase_numbers(const sgq_array *lent, uint64_t *spare)
{
    return lent->phase_count == 0 ? spare : lent->phases;
}

/* sgq_arrays_open over records. */
SGQ_MUST_USE static inline sgq_answer sgq_house_open(const sgq_house *house, const sgq_array *lent, uint64_t depth,
                                                     uint64_t guests, uint64_t capacity, uint64_t rule,
                                                     const sgq_settings *settings, size_t settings_count)
{
    uint64_t spare = 0;
    const sgq_tables *tables = &lent->tables;
    return sgq_arrays_open(&tables->gate->depth, house->arrays, lent->number, depth, guests, capacity, rule,
                           settings_count == 0 ? &spare : &settings->reservation, settings_count * SGQ_SETTINGS_NUMBERS,
                           sgq_guest_numbers(tables, &spare), tables->guest_count * SGQ_GUEST_NUMBERS,
                           sgq_waiting_numbers(tables, &spare), tables->waiting_count * SGQ_REQUEST_NUMBERS,
                           sgq_flight_numbers(tables, &spare), tables->flight_count * SGQ_FLIGHT_NUMBERS,
                           sgq_counter_numbers(house, &spare), house->counter_count * SGQ_COUNTER_NUMBERS,
                           sgq_phase_numbers(lent, &spare), lent->phase_count);
}

/* sgq_arrays_open over records with every place that is lent, as sgq_tables_open_all. */
SGQ_MUST_USE static inline sgq_answer sgq_house_open_all(const sgq_house *house, const sgq_array *lent, uint64_t rule,
                                                         const sgq_settings *settings, size_t settings_count)
{
    return sgq_house_open(house, lent, lent->tables.flight_count, settings_count, lent->tables.waiting_count, rule,
                          settings, settings_count);
}

/* sgq_arrays_arrive over records. */
SGQ_MUST_USE static inline sgq_answer sgq_house_arrive(const sgq_house *house, const sgq_array *lent, uint64_t guest,
                                                       uint32_t id, uint64_t time, uint64_t cost)
{
    uint64_t spare = 0;
    const sgq_tables *tables = &lent->tables;
    return sgq_arrays_arrive(&tables->gate->depth, house->arrays, lent->number,
                             sgq_guest_numbers(tables, &spare), tables->guest_count * SGQ_GUEST_NUMBERS,
                             sgq_waiting_numbers(tables, &spare), tables->waiting_count * SGQ_REQUEST_NUMBERS,
                             sgq_flight_numbers(tables, &spare), tables->flight_count * SGQ_FLIGHT_NUMBERS,
                             sgq_counter_numbers(house, &spare), house->counter_count * SGQ_COUNTER_NUMBERS,
                             sgq_phase_numbers(lent, &spare), lent->phase_count,
                             guest, id, time, cost);
}

/* sgq_arrays_complete over records. */
SGQ_MUST_USE static inline sgq_answer sgq_house_complete(const sgq_house *house, const sgq_array *lent, uint64_t guest,
                                                         uint32_t id, uint64_t time)
{
    uint64_t spare = 0;
    const sgq_tables *tables = &lent->tables;
    return sgq_arrays_complete(&tables->gate->depth, house->arrays, lent->number,
                               sgq_guest_numbers(tables, &spare), tables->guest_count * SGQ_GUEST_NUMBERS,
                               sgq_waiting_numbers(tables, &spare), tables->waiting_count * SGQ_REQUEST_NUMBERS,
                               sgq_flight_numbers(tables, &spare), tables->flight_count * SGQ_FLIGHT_NUMBERS,
                               sgq_counter_numbers(house, &spare), house->counter_count * SGQ_COUNTER_NUMBERS,
                               sgq_phase_numbers(lent, &spare), lent->phase_count,
                               guest, id, time);
}

/* sgq_arrays_tick over records. */
SGQ_MUST_USE static inline sgq_answer sgq_house_tick(const sgq_house *house, const sgq_array *lent, uint64_t time)
{
    uint64_t spare = 0;
    const sgq_tables *tables = &lent->tables;
    return sgq_arrays_tick(&tables->gate->depth, house->arrays, lent->number,
                           sgq_guest_numbers(tables, &spare), tables->guest_count * SGQ_GUEST_NUMBERS,
                           sgq_waiting_numbers(tables, &spare), tables->waiting_count * SGQ_REQUEST_NUMBERS,
                           sgq_flight_numbers(tables, &spare), tables->flight_count * SGQ_FLIGHT_NUMBERS,
                           sgq_counter_numbers(house, &spare), house->counter_count * SGQ_COUNTER_NUMBERS,
                           sgq_phase_numbers(lent, &spare), lent->phase_count,
                           time);
}

/* sgq_salvage with a list of records: room for so many rows. It may be NULL where that is 0. */
SGQ_MUST_USE static inline sgq_salvaged sgq_salvage_rows(const uint8_t *trace, size_t trace_length,
                                                         uint8_t *room, size_t room_length,
                                                         sgq_dropped *list, size_t list_count)
{
    uint64_t spare = 0;
    return sgq_salvage(trace, trace_length, room, room_length,
                       list_count == 0 ? &spare : &list->event, list_count * SGQ_DROPPED_NUMBERS);
}

/* How many rows the list of a trace of this length has at the most: one for each event. */
static inline size_t sgq_most_dropped(size_t trace_length)
{
    return trace_length / SGQ_EVENT_BYTES;
}

/* The next four read an open gate, and its tables, that no call has refused as not sound. */

/* How many places at the array are free. Where none is, no call sends anything. */
static inline uint64_t sgq_free_places(const sgq_gate *gate)
{
    return gate->depth - gate->flight;
}

/* How many waiting places are free. Where none is, an arrival is refused, SGQ_REFUSED_WAITING_FULL. */
static inline uint64_t sgq_free_waiting(const sgq_gate *gate)
{
    return gate->capacity - gate->waiting;
}

/* How many requests of a guest wait, as for a quota of waiting places. */
static inline uint64_t sgq_waiting_of(const sgq_tables *lent, uint64_t guest)
{
    uint64_t count = 0;
    for (uint64_t place = 0; place < lent->gate->waiting; place++)
        count += lent->waiting[place].guest == guest;
    return count;
}

/* How many requests of a guest are in flight. */
static inline uint64_t sgq_flight_of(const sgq_tables *lent, uint64_t guest)
{
    uint64_t count = 0;
    for (uint64_t place = 0; place < lent->gate->flight; place++)
        count += lent->flight[place].guest == guest;
    return count;
}

/* Whether the answer names a request that now goes to the array. */
static inline int sgq_sent(sgq_answer answer)
{
    return answer.kind == SGQ_SENT_BY_RESERVATION || answer.kind == SGQ_SENT_BY_WEIGHT;
}

/* A refusal in the documents' words, for logs; a number that they do not have is "no refusal". */
static inline const char *sgq_refusal_text(uint64_t refusal)
{
    switch (refusal) {
    case SGQ_REFUSED_SETTING: return "a setting is out of range";
    case SGQ_REFUSED_SHORT_TABLE: return "a lent table is shorter than the settings need";
    case SGQ_REFUSED_NOT_SOUND: return "the table is not sound";
    case SGQ_REFUSED_UNKNOWN_GUEST: return "unknown guest";
    case SGQ_REFUSED_TIME_ABOVE_CEILING: return "time above the ceiling";
    case SGQ_REFUSED_TIME_BEFORE_LAST: return "time before the last accepted time";
    case SGQ_REFUSED_ID_IN_USE: return "guest has this id waiting or in flight";
    case SGQ_REFUSED_WAITING_FULL: return "waiting count equals capacity";
    case SGQ_REFUSED_TAG_ABOVE_CEILING: return "a tag given, or a share tag moved, would pass the ceiling";
    case SGQ_REFUSED_NOT_IN_FLIGHT: return "guest has no such id in flight";
    case SGQ_REFUSED_TRACE_MARK: return "trace mark";
    case SGQ_REFUSED_TRACE_VERSION: return "trace version";
    case SGQ_REFUSED_TRACE_HEADER_CUT: return "trace header cut short";
    case SGQ_REFUSED_EVENT_KIND: return "event kind above 2, or a tick with non-zero guest or id";
    case SGQ_REFUSED_TRACE_EVENT_CUT: return "last event cut short";
    case SGQ_REFUSED_SHORT_ANSWERS: return "answer buffer short";
    case SGQ_REFUSED_TOO_MANY_EVENTS: return "more than 256 events";
    case SGQ_REFUSED_COST: return "a cost outside 1 to 64";
    case SGQ_REFUSED_NO_WAY_BACK: return "a version 2 trace that has another rule, credit or cost cannot go back";
    case SGQ_REFUSED_DELTA: return "delta outside 1 to 65,535 or rho above delta";
    case SGQ_REFUSED_SHORT_ROOM: return "room too short";
    case SGQ_REFUSED_ARRAY: return "not 1 to 8 arrays, or an array not there";
    default: return "no refusal";
    }
}

/* A reason in document 02's words, for logs; a number that it does not have is "no reason". */
static inline const char *sgq_reason_text(uint64_t reason)
{
    switch (reason) {
    case SGQ_DROPPED_KIND: return "kind or spare part";
    case SGQ_DROPPED_TIME_ABOVE_CEILING: return "time above the ceiling";
    case SGQ_DROPPED_TIME_BEHIND: return "time behind the last kept";
    case SGQ_DROPPED_TIME_AHEAD: return "time more than 3,600 seconds ahead of the last kept";
    case SGQ_DROPPED_CUT: return "cut short";
    default: return "no reason";
    }
}

/* The structs are the rows, with nothing between the numbers: these lines do not compile where that fails. */
typedef char sgq_gate_is_its_row[sizeof(sgq_gate) == SGQ_GATE_NUMBERS * sizeof(uint64_t) ? 1 : -1];
typedef char sgq_settings_is_its_row[sizeof(sgq_settings) == SGQ_SETTINGS_NUMBERS * sizeof(uint64_t) ? 1 : -1];
typedef char sgq_guest_is_its_row[sizeof(sgq_guest) == SGQ_GUEST_NUMBERS * sizeof(uint64_t) ? 1 : -1];
typedef char sgq_request_is_its_row[sizeof(sgq_request) == SGQ_REQUEST_NUMBERS * sizeof(uint64_t) ? 1 : -1];
typedef char sgq_flight_is_its_row[sizeof(sgq_flight) == SGQ_FLIGHT_NUMBERS * sizeof(uint64_t) ? 1 : -1];
typedef char sgq_event_is_its_row[sizeof(sgq_event) == SGQ_EVENT_NUMBERS * sizeof(uint64_t) ? 1 : -1];
typedef char sgq_answer_is_its_row[sizeof(sgq_answer) == SGQ_ANSWER_NUMBERS * sizeof(uint64_t) ? 1 : -1];
typedef char sgq_counter_is_its_row[sizeof(sgq_counter) == SGQ_COUNTER_NUMBERS * sizeof(uint64_t) ? 1 : -1];
typedef char sgq_dropped_is_its_row[sizeof(sgq_dropped) == SGQ_DROPPED_NUMBERS * sizeof(uint64_t) ? 1 : -1];
typedef char sgq_clock_is_closed_up[sizeof(sgq_clock) == 2 * sizeof(uint64_t) ? 1 : -1];
typedef char sgq_told_is_closed_up[sizeof(sgq_told) == 2 * sizeof(uint64_t) ? 1 : -1];

#ifdef __cplusplus
}

template <typename record, size_t count> constexpr size_t sgq_count_of(const record (&)[count])
{
    return count;
}
#endif

#endif
