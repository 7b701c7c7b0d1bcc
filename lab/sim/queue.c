/* queue.c: see queue.h. It is a heap: none stands before the one at half its place. */
#include "queue.h"

#include "run.h"

#include <stdlib.h>

static struct happens *heap; /* from place 1 */
static size_t count, room;
static uint64_t said;

static int before(const struct happens *a, const struct happens *b)
{
    return a->time < b->time || (a->time == b->time && a->order < b->order);
}

void queue_put(uint64_t time, enum happening what, uint64_t which, uint32_t id)
{
    struct happens new = {time, said++, what, which, id};
    if (count + 1 >= room) {
        room = room == 0 ? 1024 : 2 * room;
        heap = (struct happens *)realloc(heap, room * sizeof *heap);
        if (heap == NULL)
            stop("there is no memory for what is to happen");
    }
    size_t at = ++count;
    for (; at > 1 && before(&new, &heap[at / 2]); at /= 2)
        heap[at] = heap[at / 2];
    heap[at] = new;
}

int queue_take(struct happens *first)
{
    if (count == 0)
        return 0;
    *first = heap[1];
    struct happens last = heap[count--];
    size_t at = 1;
    for (size_t below = 2; below <= count; below = 2 * at) {
        if (below < count && before(&heap[below + 1], &heap[below]))
            below += 1;
        if (!before(&heap[below], &last))
            break;
        heap[at] = heap[below];
        at = below;
    }
    heap[at] = last;
    return 1;
}
