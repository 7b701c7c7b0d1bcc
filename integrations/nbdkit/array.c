/* nbdkit-array-filter: an array, for tests and figures: so many places, first come first served, and a time for each request
 * by its size. It stands below the gate, where an array would be.
 *
 *   array-places=4 array-base-us=3000 array-us-per-kib=20 */
#include <errno.h>
#include <pthread.h>
#include <stdbool.h>
#include <stdint.h>
#include <string.h>
#include <time.h>

#include <nbdkit-filter.h>

static uint32_t places = 4, base_us = 3000, us_per_kib = 20;

struct waiter {
    pthread_cond_t go;
    bool is_gone;
    struct waiter *next;
};

static pthread_mutex_t lock = PTHREAD_MUTEX_INITIALIZER;
static uint32_t busy;
static struct waiter *first, **last = &first;

static int array_config(nbdkit_next_config *next, nbdkit_backend *below, const char *key, const char *value)
{
    if (strcmp(key, "array-places") == 0)
        return nbdkit_parse_uint32_t(key, value, &places);
    if (strcmp(key, "array-base-us") == 0)
        return nbdkit_parse_uint32_t(key, value, &base_us);
    if (strcmp(key, "array-us-per-kib") == 0)
        return nbdkit_parse_uint32_t(key, value, &us_per_kib);
    return next(below, key, value);
}

static void take_place(void)
{
    pthread_mutex_lock(&lock);
    if (busy < places)
        busy++;
    else {
        struct waiter self = {.next = NULL};
        pthread_cond_init(&self.go, NULL);
        *last = &self;
        last = &self.next;
        while (!self.is_gone)
            pthread_cond_wait(&self.go, &lock);
        pthread_cond_destroy(&self.go);
    }
    pthread_mutex_unlock(&lock);
}

/* The place passes to the first that waits. */
static void give_place(void)
{
    pthread_mutex_lock(&lock);
    if (first == NULL)
        busy--;
    else {
        struct waiter *waiter = first;
        first = waiter->next;
        if (first == NULL)
            last = &first;
        waiter->is_gone = true;
        pthread_cond_signal(&waiter->go);
    }
    pthread_mutex_unlock(&lock);
}

static void work(uint32_t bytes)
{
    uint64_t us = base_us + (uint64_t)bytes * us_per_kib / 1024;
    struct timespec left = {(time_t)(us / 1000000), (long)(us % 1000000 * 1000)};
    while (clock_nanosleep(CLOCK_MONOTONIC, 0, &left, &left) == EINTR)
        continue;
}

static int array_pread(nbdkit_next *next, void *handle, void *buffer, uint32_t count, uint64_t offset, uint32_t flags, int *err)
{
    (void)handle;
    take_place();
    work(count);
    int result = next->pread(next, buffer, count, offset, flags, err);
    give_place();
    return result;
}

static int array_pwrite(nbdkit_next *next, void *handle, const void *buffer, uint32_t count, uint64_t offset, uint32_t flags,
                        int *err)
{
    (void)handle;
    take_place();
    work(count);
    int result = next->pwrite(next, buffer, count, offset, flags, err);
    give_place();
    return result;
}

static int array_flush(nbdkit_next *next, void *handle, uint32_t flags, int *err)
{
    (void)handle;
    take_place();
    work(0);
    int result = next->flush(next, flags, err);
    give_place();
    return result;
}

static struct nbdkit_filter filter = {
    .name = "array",
    .longname = "simulated array",
    .config = array_config,
    .config_help = "array-places=N array-base-us=N array-us-per-kib=N",
    .pread = array_pread,
    .pwrite = array_pwrite,
    .flush = array_flush,
};

NBDKIT_REGISTER_FILTER(filter)
