/* System calls of examples/fetch.c and examples/tidy.c that do what they may, linked around each with --wrap. FAULTS is a seed: reads and writes move a part
 * of what they could, are interrupted, find a port that is not ready or, reading from it, 0 bytes; but no more than 3 times in a row nothing comes. FAIL is
 * CALL:N:ERRNO: the N-th call of that name, and each after it, fails. What is read from the port or written to it is no `read` or `write` there. FREE: so many
 * blocks of 512 bytes are free. FORECAST is 0, 1 or 2: a forecast's regions, bytes or memory reads are one more. REPLACED: just before a file gets its name by a
 * link, what has this name in the folder is removed, and a file of one byte has it.
 * Whatever is asked for, a file that gets its name while bytes of it are not synced, and a sync of a folder that is not the one where it got it, abort.
 */
#define _POSIX_C_SOURCE 200809L
#include <errno.h>
#include <fcntl.h>
#include <poll.h>
#include <stdarg.h>
#include <stdbool.h>
#include <stdint.h>
#include <stdio.h>
#include <stdlib.h>
#include <string.h>
#include <sys/stat.h>
#include <sys/statvfs.h>
#include <unistd.h>

#include "worgesli.h"

ssize_t __real_read(int, void *, size_t);
ssize_t __real_write(int, const void *, size_t);
int __real_poll(struct pollfd *, nfds_t, int);
int __real_fsync(int);
int __real_open(const char *, int, ...);
int __real_openat(int, const char *, int, ...);
int __real_linkat(int, const char *, int, const char *, int);
int __real_unlinkat(int, const char *, int);
int __real_renameat(int, const char *, int, const char *);
int __real_fstatat(int, const char *, struct stat *, int);
int __real_fstatvfs(int, struct statvfs *);
void *__real_malloc(size_t);
void *__real_realloc(void *, size_t);
worgesli_forecast __real_worgesli_forecast_table(const uint8_t *, size_t, uint64_t, const uint8_t *, size_t);

ssize_t __wrap_read(int, void *, size_t);
ssize_t __wrap_write(int, const void *, size_t);
int __wrap_poll(struct pollfd *, nfds_t, int);
int __wrap_fsync(int);
int __wrap_open(const char *, int, ...);
int __wrap_openat(int, const char *, int, ...);
int __wrap_linkat(int, const char *, int, const char *, int);
int __wrap_unlinkat(int, const char *, int);
int __wrap_renameat(int, const char *, int, const char *);
int __wrap_fstatat(int, const char *, struct stat *, int);
int __wrap_fstatvfs(int, struct statvfs *);
void *__wrap_malloc(size_t);
void *__wrap_realloc(void *, size_t);
worgesli_forecast __wrap_worgesli_forecast_table(const uint8_t *, size_t, uint64_t, const uint8_t *, size_t);

static int silent;
static bool unsynced;   /* bytes of a file were written, and not synced since */
static char named[300]; /* the last name that a file got, which its folder must have when it is synced */

/* From 0 to n - 1, by the seed; n - 1 without one. */
static size_t below(size_t n)
{
    static uint64_t x;
    const char *seed = getenv("FAULTS");
    if (seed == NULL)
        return n - 1;
    if (x == 0)
        x = 0x9e3779b97f4a7c15u ^ strtoull(seed, NULL, 10);
    x ^= x << 13, x ^= x >> 7, x ^= x << 17;
    return (size_t)((x >> 11) % n);
}

static int with(int error)
{
    errno = error;
    return -1;
}

/* Whether this call is one that fails. */
static bool fails(const char *call)
{
    static long calls;
    const char *fail = getenv("FAIL");
    if (fail == NULL || strncmp(fail, call, strlen(call)) != 0 || fail[strlen(call)] != ':')
        return false;
    char *rest;
    const long n = strtol(fail + strlen(call) + 1, &rest, 10);
    errno = atoi(rest + 1);
    return ++calls >= n;
}

/* Whether nothing comes this time. */
static bool silence(void)
{
    if (silent >= 3 || below(6) != 0)
        return false;
    silent++;
    return true;
}

/* A part of n bytes. */
static size_t part(size_t n)
{
    return below(2) == 0 && n > 0 ? 1 + below(n) : n;
}

/* A file gets a name: all of it is on the disk. */
static void gets_name(const char *name)
{
    const char *slash = strrchr(name, '/');
    if (unsynced)
        abort();
    snprintf(named, sizeof named, "%s", slash == NULL ? name : slash + 1);
}

static bool is_file(int fd)
{
    struct stat s;
    return fstat(fd, &s) == 0 && S_ISREG(s.st_mode);
}

ssize_t __wrap_read(int fd, void *to, size_t n)
{
    const bool file = is_file(fd);
    if (file && fails("read"))
        return -1;
    if (below(8) == 0)
        return with(EINTR);
    if (!file && silence())
        return below(2) == 0 ? 0 : with(EAGAIN);
    const ssize_t k = __real_read(fd, to, part(n));
    silent = k > 0 ? 0 : silent;
    return k;
}

ssize_t __wrap_write(int fd, const void *from, size_t n)
{
    const bool file = is_file(fd);
    if (file && fails("write"))
        return -1;
    unsynced |= file;
    if (below(8) == 0)
        return with(EINTR);
    if (!file && silence())
        return below(2) == 0 ? 0 : with(EAGAIN);
    const ssize_t k = __real_write(fd, from, part(n));
    silent = k > 0 && !file ? 0 : silent;
    return k;
}

int __wrap_poll(struct pollfd *p, nfds_t n, int ms)
{
    if (n == 0 && getenv("FAULTS") != NULL)
        return 0;
    if (n > 0 && below(8) == 0)
        return with(EINTR);
    return n > 0 && silence() ? 0 : __real_poll(p, n, ms);
}

int __wrap_fsync(int fd)
{
    if (fails("fsync"))
        return -1;
    if (below(4) == 0)
        return with(EINTR);
    if (is_file(fd))
        unsynced = false;
    else if (named[0] != 0 && faccessat(fd, named, F_OK, 0) < 0)
        abort(); /* another folder */
    return __real_fsync(fd);
}

int __wrap_open(const char *path, int flags, ...)
{
    va_list list;
    va_start(list, flags);
    const unsigned mode = flags & O_CREAT ? va_arg(list, unsigned) : 0;
    va_end(list);
    return fails("open") ? -1 : __real_open(path, flags, mode);
}

int __wrap_openat(int folder, const char *name, int flags, ...)
{
    va_list list;
    va_start(list, flags);
    const unsigned mode = flags & O_CREAT ? va_arg(list, unsigned) : 0;
    va_end(list);
    return fails("openat") ? -1 : __real_openat(folder, name, flags, mode);
}

int __wrap_linkat(int from, const char *name, int to, const char *new_name, int flags)
{
    const char *replaced = getenv("REPLACED");
    gets_name(new_name);
    if (replaced != NULL) {
        __real_unlinkat(to, replaced, 0);
        const int file = __real_openat(to, replaced, O_WRONLY | O_CREAT | O_EXCL, 0666);
        if (file < 0 || __real_write(file, "x", 1) != 1 || close(file) < 0)
            abort();
    }
    return fails("linkat") ? -1 : __real_linkat(from, name, to, new_name, flags);
}

int __wrap_unlinkat(int folder, const char *name, int flags)
{
    return fails("unlinkat") ? -1 : __real_unlinkat(folder, name, flags);
}

int __wrap_renameat(int from, const char *name, int to, const char *new_name)
{
    gets_name(new_name);
    return fails("renameat") ? -1 : __real_renameat(from, name, to, new_name);
}

int __wrap_fstatat(int folder, const char *name, struct stat *to, int flags)
{
    return fails("fstatat") ? -1 : __real_fstatat(folder, name, to, flags);
}

int __wrap_fstatvfs(int fd, struct statvfs *to)
{
    const char *blocks = getenv("FREE");
    if (fails("fstatvfs") || __real_fstatvfs(fd, to) < 0)
        return -1;
    if (blocks != NULL)
        to->f_frsize = 512, to->f_bavail = (fsblkcnt_t)strtoull(blocks, NULL, 10);
    return 0;
}

void *__wrap_malloc(size_t n)
{
    return fails("malloc") ? NULL : __real_malloc(n);
}

void *__wrap_realloc(void *from, size_t n)
{
    return fails("realloc") ? NULL : __real_realloc(from, n);
}

worgesli_forecast __wrap_worgesli_forecast_table(const uint8_t *table, size_t table_len, uint64_t width, const uint8_t *names, size_t names_len)
{
    worgesli_forecast r = __real_worgesli_forecast_table(table, table_len, width, names, names_len);
    const char *place = getenv("FORECAST");
    if (place != NULL)
        *(place[0] == '0' ? &r.regions : place[0] == '1' ? &r.bytes : &r.reads) += 1;
    return r;
}
