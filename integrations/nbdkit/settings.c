/* settings.c: the filter's parameters. What is in range is the library's to say: it is asked, and its rules do not stand
 * here a second time. */
#include "settings.h"

#include <stdlib.h>
#include <string.h>

#include <nbdkit-filter.h>

#define MOST_ROWS 16
#define USUAL_QUOTA 16 /* as many as nbdkit has threads for a connection, where it is not told */

#define NOT_TOLD UINT64_MAX

struct settings settings = {.capacity = NOT_TOLD, .rule = SGQ_RULE_1};

/* A table of costs: a request of up to so many bytes costs so much. Sizes rise; what is above the last costs the most, as
 * docs/HOSTS.md has it. */
struct costs {
    size_t rows;
    uint64_t bytes[MOST_ROWS], cost[MOST_ROWS];
};

static struct costs costs[KINDS];
static const char *const kind_name[KINDS] = {"read", "write", "flush", "trim", "zero", "cache"};

static int take_number(const char *what, const char *text, uint64_t *number)
{
    uint32_t read = 0;
    if (nbdkit_parse_uint32_t(what, text, &read) == -1)
        return -1;
    *number = read;
    return 1;
}

static int take_path(const char *text, const char **path)
{
    char *absolute = nbdkit_absolute_path(text);
    *path = absolute == NULL ? NULL : nbdkit_strdup_intern(absolute);
    free(absolute);
    return *path == NULL ? -1 : 1;
}

/* The next word of a list: a copy up to one of these letters, or NULL. The list is then behind it. */
static const char *next_word(const char **list, const char *ends)
{
    size_t length = strcspn(*list, ends);
    const char *word = nbdkit_strndup_intern(*list, length);
    *list += length + ((*list)[length] != '\0');
    return word;
}

/* A KEY=NUMBER of a guest. */
static int take_of_guest(uint64_t guest, const char *word)
{
    sgq_settings *its = &settings.guest[guest];
    const char *const keys[] = {"reservation", "limit", "shares", "credit", "quota"};
    uint64_t *const numbers[] = {&its->reservation, &its->limit, &its->shares, &its->credit, &settings.quota[guest]};
    const char *number = word, *key = next_word(&number, "=");
    if (key == NULL)
        return -1;
    for (size_t at = 0; at < SGQ_COUNT(keys); at++)
        if (strcmp(key, keys[at]) == 0)
            return take_number(key, number, numbers[at]);
    nbdkit_error("sgq-guest=%s: '%s' is none of reservation, limit, shares, credit and quota", settings.name[guest], key);
    return -1;
}

/* NAME or NAME:KEY=NUMBER,KEY=NUMBER,.. */
static int take_guest(const char *value)
{
    const char *rest = value, *name = next_word(&rest, ":");
    uint64_t guest = settings.guests;
    if (name == NULL)
        return -1;
    if (guest == SGQ_MOST_GUESTS || name[0] == '\0' || settings_guest(name) != -1) {
        nbdkit_error("sgq-guest=%s: %s", value,
                     guest == SGQ_MOST_GUESTS ? "there are 64 guests already"
                     : name[0] == '\0'        ? "a guest has a name, which is that of its export"
                                              : "there is a guest of this name already");
        return -1;
    }
    settings.guests += 1;
    settings.name[guest] = name;
    settings.guest[guest].shares = 1;
    settings.quota[guest] = NOT_TOLD;
    while (*rest != '\0') {
        const char *word = next_word(&rest, ",");
        if (word == NULL || take_of_guest(guest, word) == -1)
            return -1;
    }
    return 1;
}

/* A SIZE:COST of a table, or a COST for every size. */
static bool take_row(struct costs *table, const char *word)
{
    size_t row = table->rows;
    const char *cost = word, *size = strchr(word, ':') == NULL ? "" : next_word(&cost, ":");
    int64_t bytes = size == NULL ? -1 : size[0] == '\0' ? INT64_MAX : nbdkit_parse_size(size);
    if (bytes == -1 || row == MOST_ROWS || take_number("sgq-cost", cost, &table->cost[row]) == -1)
        return false;
    table->bytes[row] = (uint64_t)bytes;
    table->rows += 1;
    bool rises = row == 0 || table->bytes[row] > table->bytes[row - 1];
    return rises && table->cost[row] >= 1 && table->cost[row] <= SGQ_MOST_COST;
}

/* SIZE:COST,SIZE:COST,.. for reads and writes, or KIND:SIZE:COST,.. for one kind. */
static int take_costs(const char *value)
{
    const char *rest = value, *first = next_word(&rest, ":");
    size_t kind = 0;
    while (first != NULL && kind < KINDS && strcmp(first, kind_name[kind]) != 0)
        kind++;
    struct costs table = {.rows = 0};
    for (rest = kind < KINDS ? rest : value; table.rows == 0 || *rest != '\0';) {
        const char *word = next_word(&rest, ",");
        if (word == NULL || !take_row(&table, word)) {
            nbdkit_error("sgq-cost=%s: SIZE:COST,SIZE:COST,.. is expected, sizes rising, costs 1 to %d, at most %d of them",
                         value, SGQ_MOST_COST, MOST_ROWS);
            return -1;
        }
    }
    if (kind < KINDS)
        costs[kind] = table;
    else
        costs[READ] = costs[WRITE] = table;
    return 1;
}

int settings_take(const char *key, const char *value)
{
    const char *const names[] = {"sgq-depth", "sgq-capacity", "sgq-rule", "sgq-arrays", "sgq-array"};
    uint64_t *const numbers[] = {&settings.depth, &settings.capacity, &settings.rule, &settings.arrays, &settings.array};
    for (size_t at = 0; at < SGQ_COUNT(names); at++)
        if (strcmp(key, names[at]) == 0)
            return take_number(key, value, numbers[at]);
    if (strcmp(key, "sgq-guest") == 0)
        return take_guest(value);
    if (strcmp(key, "sgq-cost") == 0)
        return take_costs(value);
    if (strcmp(key, "sgq-trace") == 0)
        return take_path(value, &settings.trace);
    if (strcmp(key, "sgq-house") == 0)
        return take_path(value, &settings.house);
    if (strncmp(key, "sgq-", 4) != 0)
        return 0;
    nbdkit_error("sgq has no parameter '%s'", key);
    return -1;
}

/* Whether the library opens a gate with these, on tables that are long enough for one guest. */
static bool opens(uint64_t depth, uint64_t capacity, uint64_t rule, const sgq_settings *guest)
{
    static sgq_gate gate;
    static sgq_guest guests[1];
    static sgq_request waiting[SGQ_MOST_CAPACITY];
    static sgq_flight flight[SGQ_MOST_DEPTH];
    static const sgq_tables lent = SGQ_TABLES(gate, guests, waiting, flight);
    return sgq_tables_open(&lent, depth, 1, capacity, rule, guest, 1).kind != SGQ_REFUSED;
}

/* Says which setting the library refuses, if one is. */
static bool all_open(void)
{
    const sgq_settings plain = {0, 0, 1, 0};
    const char *bad = !opens(settings.depth, 1, SGQ_RULE_1, &plain)      ? "sgq-depth=1 to 64: how many requests the array works on at once"
                      : !opens(1, settings.capacity, SGQ_RULE_1, &plain) ? "sgq-capacity=1 to 1024: how many requests may wait"
                      : !opens(1, 1, settings.rule, &plain)              ? "sgq-rule=1 or 2"
                                                                         : NULL;
    if (bad != NULL)
        nbdkit_error("%s is expected", bad);
    for (uint64_t guest = 0; bad == NULL && guest < settings.guests; guest++)
        if (!opens(1, 1, SGQ_RULE_1, &settings.guest[guest])) {
            bad = settings.name[guest];
            nbdkit_error("sgq-guest=%s: reservation and limit are 0 to 1000000, no reservation is above its limit, shares are 1 to "
                         "1000000, a credit is 0 to 256", bad);
        }
    return bad == NULL;
}

/* Sets the quotas that were not told, and the capacity: with the sum of the quotas no guest can take another's place. */
static bool fill_places(void)
{
    uint64_t sum = 0, even = settings.capacity == NOT_TOLD ? USUAL_QUOTA : settings.capacity / settings.guests;
    even = even == 0 ? 1 : even > SGQ_MOST_CAPACITY ? SGQ_MOST_CAPACITY : even;
    for (uint64_t guest = 0; guest < settings.guests; guest++) {
        if (settings.quota[guest] == NOT_TOLD)
            settings.quota[guest] = even;
        if (settings.quota[guest] == 0 || settings.quota[guest] > SGQ_MOST_CAPACITY) {
            nbdkit_error("sgq-guest=%s: a quota is 1 to %d", settings.name[guest], SGQ_MOST_CAPACITY);
            return false;
        }
        sum += settings.quota[guest];
    }
    if (settings.capacity == NOT_TOLD)
        settings.capacity = sum > SGQ_MOST_CAPACITY ? SGQ_MOST_CAPACITY : sum;
    return true;
}

bool settings_complete(void)
{
    if (settings.guests == 0) {
        nbdkit_error("sgq-guest=NAME:reservation=R,limit=L,shares=S,credit=C,quota=Q is expected for each guest");
        return false;
    }
    if (settings.house != NULL && settings.trace != NULL) {
        nbdkit_error("sgq-trace and sgq-house: a trace has no counts of other arrays, so what is decided with them is not recorded");
        return false;
    }
    if ((settings.house == NULL) != (settings.arrays == 0) || (settings.array > 0 && settings.array >= settings.arrays)) {
        nbdkit_error("sgq-house=FILE sgq-arrays=N sgq-array=0 to N-1 are expected together");
        return false;
    }
    return fill_places() && all_open();
}

int settings_guest(const char *name)
{
    for (uint64_t guest = 0; guest < settings.guests; guest++)
        if (strcmp(settings.name[guest], name) == 0)
            return (int)guest;
    return -1;
}

uint64_t settings_cost(enum request_kind kind, uint32_t bytes)
{
    const struct costs *table = &costs[kind];
    for (size_t row = 0; row < table->rows; row++)
        if (bytes <= table->bytes[row])
            return table->cost[row];
    return table->rows == 0 ? 1 : SGQ_MOST_COST;
}
