/* nbdkit-sgq-filter: the proved disc gate before any plugin of nbdkit's that takes requests in parallel. The name of an export
 * is the guest. README.md here has how to build and use it.
 *
 * A request comes in on a thread of nbdkit's, passes the gate, goes to the next layer, and leaves. What is proved is the
 * library that decides; this filter is not.
 *
 * settings.c has the parameters, gate.c the waiting, house.c the calls of the library, record.c the trace. */
#include "gate.h"
#include "house.h"
#include "record.h"
#include "settings.h"

#include <errno.h>
#include <string.h>

#include <nbdkit-filter.h>

static int sgq_config(nbdkit_next_config *next, nbdkit_backend *below, const char *key, const char *value)
{
    int taken = settings_take(key, value);
    return taken == 0 ? next(below, key, value) : taken == -1 ? -1 : 0;
}

static int sgq_config_complete(nbdkit_next_config_complete *next, nbdkit_backend *below)
{
    return settings_complete() ? next(below) : -1;
}

static int sgq_get_ready(int thread_model)
{
    if (thread_model != NBDKIT_THREAD_MODEL_PARALLEL) {
        nbdkit_error("sgq: this plugin, or a filter, takes one request at a time, so the gate has nothing to choose from");
        return -1;
    }
    if (settings.house != NULL && !house_join(settings.house))
        return -1;
    if (!gate_open() || (settings.trace != NULL && !record_open(settings.trace)))
        return -1;
    return 0;
}

static int sgq_after_fork(nbdkit_backend *below)
{
    (void)below;
    int error = gate_start();
    if (error != 0)
        nbdkit_error("sgq: there is no thread to tick: %s", strerror(error));
    return error == 0 ? 0 : -1;
}

static void sgq_cleanup(nbdkit_backend *below)
{
    (void)below;
    gate_stop();
}

static int sgq_list_exports(nbdkit_next_list_exports *next, nbdkit_backend *below, int readonly, int is_tls,
                            struct nbdkit_exports *exports)
{
    (void)next, (void)below, (void)readonly, (void)is_tls;
    for (uint64_t guest = 0; guest < settings.guests; guest++)
        if (nbdkit_add_export(exports, settings.name[guest], NULL) == -1)
            return -1;
    return 0;
}

/* There is no guest for who names none. */
static const char *sgq_default_export(nbdkit_next_default_export *next, nbdkit_backend *below, int readonly, int is_tls)
{
    (void)next, (void)below, (void)readonly, (void)is_tls;
    return NULL;
}

static void *sgq_open_connection(nbdkit_next_open *next, nbdkit_context *context, int readonly, const char *name, int is_tls)
{
    (void)is_tls;
    int guest = settings_guest(name);
    if (guest == -1) {
        nbdkit_error("sgq: no guest has the name of this export, '%s'", name);
        return NULL;
    }
    return next(context, readonly, name) == -1 ? NULL : (void *)&settings.guest[guest];
}

/* Sleeps until the request may go; false where it may not. */
static bool enter(struct request *request, const void *handle, enum request_kind kind, uint32_t bytes, int *err)
{
    request->guest = (uint64_t)((const sgq_settings *)handle - settings.guest);
    request->cost = settings_cost(kind, bytes);
    if (gate_enter(request))
        return true;
    *err = ESHUTDOWN;
    return false;
}

static int leave(const struct request *request, int result)
{
    gate_leave(request);
    return result;
}

/* All that the array has to work on passes the gate; where its data lie (extents) is no work. */

static int sgq_pread(nbdkit_next *next, void *handle, void *buffer, uint32_t count, uint64_t offset, uint32_t flags, int *err)
{
    struct request request;
    return enter(&request, handle, READ, count, err) ? leave(&request, next->pread(next, buffer, count, offset, flags, err)) : -1;
}

static int sgq_pwrite(nbdkit_next *next, void *handle, const void *buffer, uint32_t count, uint64_t offset, uint32_t flags,
                      int *err)
{
    struct request request;
    return enter(&request, handle, WRITE, count, err) ? leave(&request, next->pwrite(next, buffer, count, offset, flags, err))
                                                      : -1;
}

static int sgq_flush(nbdkit_next *next, void *handle, uint32_t flags, int *err)
{
    struct request request;
    return enter(&request, handle, FLUSH, 0, err) ? leave(&request, next->flush(next, flags, err)) : -1;
}

static int sgq_trim(nbdkit_next *next, void *handle, uint32_t count, uint64_t offset, uint32_t flags, int *err)
{
    struct request request;
    return enter(&request, handle, TRIM, count, err) ? leave(&request, next->trim(next, count, offset, flags, err)) : -1;
}

static int sgq_zero(nbdkit_next *next, void *handle, uint32_t count, uint64_t offset, uint32_t flags, int *err)
{
    struct request request;
    return enter(&request, handle, ZERO, count, err) ? leave(&request, next->zero(next, count, offset, flags, err)) : -1;
}

static int sgq_cache(nbdkit_next *next, void *handle, uint32_t count, uint64_t offset, uint32_t flags, int *err)
{
    struct request request;
    return enter(&request, handle, CACHE, count, err) ? leave(&request, next->cache(next, count, offset, flags, err)) : -1;
}

static struct nbdkit_filter filter = {
    .name = "sgq",
    .longname = "disc gate, over its proved library",
    .description = "Decides by mClock which request goes to the array next. The export name is the guest.",
    .config = sgq_config,
    .config_complete = sgq_config_complete,
    .config_help = "sgq-guest=NAME:reservation=R,limit=L,shares=S,credit=C,quota=Q   a guest, for each export\n"
                   "sgq-depth=N            requests that the array works on at once\n"
                   "sgq-capacity=N         requests that may wait (default: the sum of the quotas)\n"
                   "sgq-rule=1|2           whether a reservation may pass a limit (1, the default) or not (2)\n"
                   "sgq-cost=[KIND:]SIZE:COST,..   what a request of up to that size costs (default: 1)\n"
                   "sgq-trace=FILE         records the events, and the answers in FILE.lines\n"
                   "sgq-house=FILE sgq-arrays=N sgq-array=I   this is array I of a house with N",
    .get_ready = sgq_get_ready,
    .after_fork = sgq_after_fork,
    .cleanup = sgq_cleanup,
    .list_exports = sgq_list_exports,
    .default_export = sgq_default_export,
    .open = sgq_open_connection,
    .pread = sgq_pread,
    .pwrite = sgq_pwrite,
    .flush = sgq_flush,
    .trim = sgq_trim,
    .zero = sgq_zero,
    .cache = sgq_cache,
};

NBDKIT_REGISTER_FILTER(filter)
