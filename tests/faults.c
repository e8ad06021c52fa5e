/* For tests/faults.test, loaded before the C library (LD_PRELOAD): calls that fail, and calls that move little.
 * FAULT_OPEN, FAULT_READ and FAULT_WRITE: which call of its kind, from 1, fails, and FAULT_ERRNO with what. FAULT_PIECE: the most bytes that a call moves.
 * Writes count on standard output alone. fopen has a stream over these calls, for the C library's own streams pass them by. */
#define _GNU_SOURCE
#include <errno.h>
#include <fcntl.h>
#include <stdint.h>
#include <stdio.h>
#include <stdlib.h>
#include <sys/syscall.h>
#include <unistd.h>

static long number(const char *name)
{
    const char *word = getenv(name);
    return word ? atol(word) : 0;
}

static int fails(const char *kind, long *calls)
{
    if (++*calls != number(kind))
        return 0;
    errno = number("FAULT_ERRNO");
    return 1;
}

static size_t piece(size_t n)
{
    size_t most = number("FAULT_PIECE");
    return most && most < n ? most : n;
}

int open(const char *path, int flags, ...)
{
    static long calls;
    return fails("FAULT_OPEN", &calls) ? -1 : (int)syscall(SYS_openat, AT_FDCWD, path, flags, 0);
}

ssize_t read(int fd, void *to, size_t n)
{
    static long calls;
    return fails("FAULT_READ", &calls) ? -1 : syscall(SYS_read, fd, to, piece(n));
}

ssize_t write(int fd, const void *from, size_t n)
{
    static long calls;
    if (fd != STDOUT_FILENO)
        return syscall(SYS_write, fd, from, n);
    return fails("FAULT_WRITE", &calls) ? -1 : syscall(SYS_write, fd, from, piece(n));
}

static ssize_t stream_read(void *fd, char *to, size_t n)
{
    return read((int)(intptr_t)fd, to, n);
}

static int stream_close(void *fd)
{
    return close((int)(intptr_t)fd);
}

FILE *fopen(const char *path, const char *mode)
{
    int fd = open(path, O_RDONLY);
    cookie_io_functions_t calls = {.read = stream_read, .close = stream_close};
    return fd < 0 ? NULL : fopencookie((void *)(intptr_t)fd, mode, calls);
}
