/* house.c: the calls of the library. With one array, the events that have come together are a batch. In a house with several
 * arrays each has a server of its own; what the house counts between them (document 02, K14) stands in a file that all of
 * them map, behind a lock that they share. */
#include "house.h"
#include "settings.h"

#include <errno.h>
#include <fcntl.h>
#include <pthread.h>
#include <string.h>
#include <sys/file.h>
#include <sys/mman.h>
#include <unistd.h>

#include <nbdkit-filter.h>

/* What is in the file. The guests and their settings are the same at every array. */
struct shared {
    uint64_t arrays, guests;
    sgq_settings guest[SGQ_MOST_GUESTS];
    pthread_mutex_t lock;
    sgq_counter counters[SGQ_MOST_ARRAYS * SGQ_MOST_GUESTS];
};

static struct shared *shared; /* NULL: there is one array */
static sgq_house house;
static bool was_open;

/* The first server of a house makes it. */
static void make_shared(void)
{
    pthread_mutexattr_t between;
    pthread_mutexattr_init(&between);
    pthread_mutexattr_setpshared(&between, PTHREAD_PROCESS_SHARED);
    pthread_mutexattr_setrobust(&between, PTHREAD_MUTEX_ROBUST);
    memset(shared, 0, sizeof *shared);
    pthread_mutex_init(&shared->lock, &between);
    memcpy(shared->guest, settings.guest, sizeof shared->guest);
    shared->guests = settings.guests;
    shared->arrays = settings.arrays;
}

/* Maps the file. Who is in a house holds the file's lock with the others, so who gets it alone is the first. */
static bool map_shared(const char *path)
{
    int file = open(path, O_RDWR | O_CREAT | O_CLOEXEC, 0600);
    if (file == -1 || ftruncate(file, sizeof *shared) == -1)
        return false;
    bool is_first = flock(file, LOCK_EX | LOCK_NB) == 0;
    shared = mmap(NULL, sizeof *shared, PROT_READ | PROT_WRITE, MAP_SHARED, file, 0);
    if (shared == MAP_FAILED)
        return false;
    if (is_first)
        make_shared();
    return flock(file, LOCK_SH) == 0; /* held until this server ends */
}

bool house_join(const char *path)
{
    if (!map_shared(path)) {
        nbdkit_error("sgq-house: %s: %s", path, strerror(errno));
        return false;
    }
    if (shared->arrays != settings.arrays || shared->guests != settings.guests
        || memcmp(shared->guest, settings.guest, sizeof shared->guest) != 0) {
        nbdkit_error("sgq-house: another array of %s has another sgq-arrays, or other guests or settings of them", path);
        return false;
    }
    house = (sgq_house){shared->arrays, shared->counters, SGQ_COUNT(shared->counters)};
    return true;
}

/* Where a server was killed within a call, or tables are not sound, nothing that was counted is believed. */
static void count_anew(void)
{
    memset(shared->counters, 0, sizeof shared->counters);
}

static void lock_house(void)
{
    if (pthread_mutex_lock(&shared->lock) == EOWNERDEAD) {
        count_anew();
        pthread_mutex_consistent(&shared->lock);
    }
}

sgq_answer house_open(const sgq_array *lent)
{
    if (shared == NULL)
        return sgq_tables_open(&lent->tables, settings.depth, settings.guests, settings.capacity, settings.rule,
                               settings.guest, settings.guests);
    lock_house();
    if (was_open)
        count_anew();
    was_open = true;
    sgq_answer answer = sgq_house_open(&house, lent, settings.depth, settings.guests, settings.capacity, settings.rule,
                                       settings.guest, settings.guests);
    pthread_mutex_unlock(&shared->lock);
    return answer;
}

static sgq_answer hand_over_one(const sgq_array *lent, const sgq_event *event)
{
    switch (event->kind) {
    case SGQ_ARRIVAL:
        return sgq_house_arrive(&house, lent, event->guest, (uint32_t)event->id, event->time, event->cost);
    case SGQ_COMPLETION:
        return sgq_house_complete(&house, lent, event->guest, (uint32_t)event->id, event->time);
    default:
        return sgq_house_tick(&house, lent, event->time);
    }
}

void house_hand_over(const sgq_array *lent, const sgq_event *events, sgq_answer *answers, size_t count)
{
    if (shared == NULL) {
        uint64_t refusal = sgq_tables_batch(&lent->tables, events, count, answers, count);
        for (size_t at = 0; refusal != 0 && at < count; at++)
            answers[at] = (sgq_answer){SGQ_REFUSED, 0, 0, refusal, 0};
        return;
    }
    lock_house();
    for (size_t at = 0; at < count; at++)
        answers[at] = hand_over_one(lent, &events[at]);
    pthread_mutex_unlock(&shared->lock);
}
