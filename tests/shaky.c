/* Loaded before the C library: every second read and write is cut short by a signal, and the others move a few bytes alone. */
#define _GNU_SOURCE
#include <errno.h>
#include <sys/syscall.h>
#include <unistd.h>

static unsigned calls;

static int is_cut(void)
{
    if (++calls % 2 == 0)
        return 0;
    errno = EINTR;
    return 1;
}

ssize_t read(int fd, void *buffer, size_t count)
{
    return is_cut() ? -1 : syscall(SYS_read, fd, buffer, count < 5 ? count : 5);
}

ssize_t write(int fd, const void *buffer, size_t count)
{
    return is_cut() ? -1 : syscall(SYS_write, fd, buffer, count < 3 ? count : 3);
}
