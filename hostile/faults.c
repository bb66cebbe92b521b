/* Lets the calls of a program to its C library fail, one in turn: loaded before the library (LD_PRELOAD).
 *
 * Each kind of call is numbered from 1. What is to fail is told by the environment:
 *
 *   FAULTS_ALLOC=N   the Nth request for memory (malloc, realloc) gives none
 *   FAULTS_OPEN=N    the Nth opening of a file fails with EIO
 *   FAULTS_READ=N    the Nth read fails with EIO
 *   FAULTS_WRITE=N   the Nth write fails with EIO
 *   FAULTS_SHORT_READ=N, FAULTS_SHORT_WRITE=N   the Nth read, or write, moves one byte at most
 *   FAULTS_COUNTS=FILE   at the end the numbers of requests, openings, reads and writes are written to FILE, and that of
 *                        the faults that came
 *
 * Only calls of the program itself are counted, from its start on: what the loader asks for comes before.
 */
#define _GNU_SOURCE
#include <dlfcn.h>
#include <errno.h>
#include <fcntl.h>
#include <stdarg.h>
#include <stdio.h>
#include <stdlib.h>
#include <string.h>
#include <sys/syscall.h>
#include <sys/uio.h>
#include <unistd.h>

enum kind { ALLOC, OPEN, READ, WRITE, SHORT_READ, SHORT_WRITE, KINDS };

static const char *const names[KINDS] = {
    "FAULTS_ALLOC", "FAULTS_OPEN", "FAULTS_READ", "FAULTS_WRITE", "FAULTS_SHORT_READ", "FAULTS_SHORT_WRITE",
};

static long chosen[KINDS];
static long counted[KINDS];
static long came;
static int started;

static void *(*next_malloc)(size_t);
static void *(*next_realloc)(void *, size_t);

/* Finds the library's own calls, and what is to fail. */
__attribute__((constructor)) static void start(void)
{
    next_malloc = dlsym(RTLD_NEXT, "malloc");
    next_realloc = dlsym(RTLD_NEXT, "realloc");
    for (int kind = 0; kind < KINDS; kind++) {
        const char *text = getenv(names[kind]);
        chosen[kind] = text == NULL ? 0 : atol(text);
    }
    started = 1;
}

/* Counts a call, and tells whether it is the one that is to fail. */
static int fails(enum kind kind)
{
    if (!started)
        return 0;
    counted[kind]++;
    if (counted[kind] != chosen[kind])
        return 0;
    came++;
    return 1;
}

void *malloc(size_t size)
{
    if (next_malloc == NULL)
        next_malloc = dlsym(RTLD_NEXT, "malloc");
    if (fails(ALLOC)) {
        errno = ENOMEM;
        return NULL;
    }
    return next_malloc(size);
}

void *realloc(void *old, size_t size)
{
    if (next_realloc == NULL)
        next_realloc = dlsym(RTLD_NEXT, "realloc");
    if (fails(ALLOC)) {
        errno = ENOMEM;
        return NULL;
    }
    return next_realloc(old, size);
}

static int opened(int folder, const char *path, int flags, mode_t mode)
{
    if (fails(OPEN)) {
        errno = EIO;
        return -1;
    }
    return (int)syscall(SYS_openat, folder, path, flags, mode);
}

int open(const char *path, int flags, ...)
{
    va_list rest;
    va_start(rest, flags);
    mode_t mode = (flags & O_CREAT) ? va_arg(rest, mode_t) : 0;
    va_end(rest);
    return opened(AT_FDCWD, path, flags, mode);
}

int openat(int folder, const char *path, int flags, ...)
{
    va_list rest;
    va_start(rest, flags);
    mode_t mode = (flags & O_CREAT) ? va_arg(rest, mode_t) : 0;
    va_end(rest);
    return opened(folder, path, flags, mode);
}

ssize_t read(int file, void *bytes, size_t size)
{
    if (fails(READ)) {
        errno = EIO;
        return -1;
    }
    if (fails(SHORT_READ) && size > 1)
        size = 1;
    return syscall(SYS_read, file, bytes, size);
}

ssize_t write(int file, const void *bytes, size_t size)
{
    if (fails(WRITE)) {
        errno = EIO;
        return -1;
    }
    if (fails(SHORT_WRITE) && size > 1)
        size = 1;
    return syscall(SYS_write, file, bytes, size);
}

/* Writes several pieces as one call after another would, of which the first alone may be short. */
ssize_t writev(int file, const struct iovec *pieces, int count)
{
    if (count == 0)
        return 0;
    return write(file, pieces[0].iov_base, pieces[0].iov_len);
}

/* Tells the numbers, by calls of the system alone. */
__attribute__((destructor)) static void finish(void)
{
    const char *path = getenv("FAULTS_COUNTS");
    if (path == NULL)
        return;
    char line[160];
    int length = snprintf(line, sizeof line, "%ld %ld %ld %ld %ld\n", counted[ALLOC], counted[OPEN], counted[READ],
                          counted[WRITE], came);
    int file = (int)syscall(SYS_openat, AT_FDCWD, path, O_WRONLY | O_CREAT | O_TRUNC, 0600);
    if (file >= 0) {
        syscall(SYS_write, file, line, (size_t)length);
        syscall(SYS_close, file);
    }
}
