/* Makes the k-th system call of a fetch fail, once or with all behind it. Loaded before the C library (LD_PRELOAD).
 * Calls are counted from the removal of /worgesli-faults-begin to that of /worgesli-faults-end; those on standard output and error are not. */
#define _GNU_SOURCE
#include <dlfcn.h>
#include <errno.h>
#include <fcntl.h>
#include <stdarg.h>
#include <stdlib.h>
#include <string.h>
#include <sys/syscall.h>
#include <sys/types.h>
#include <unistd.h>

static int counting;
static long left;

static long setting(const char *name) {
    const char *value = getenv(name);
    return value ? atol(value) : 0;
}

static void begin(int on) {
    counting = on;
    left = setting("FAULT_AT");
}

/* Whether this call fails. */
static int fails(void) {
    if (!counting || left-- > 0)
        return 0;
    if (!setting("FAULT_FOREVER"))
        counting = 0;
    const char *mark = getenv("FAULT_MARK");
    if (mark)
        syscall(SYS_close, (int)syscall(SYS_openat, AT_FDCWD, mark, O_CREAT | O_WRONLY, 0600));
    errno = (int)setting("FAULT_ERRNO");
    return 1;
}

#define NEXT(name) __typeof__(name) *next = (__typeof__(name) *)dlsym(RTLD_NEXT, #name)

#define OPEN(name)                                       \
    int name(const char *path, int flags, ...) {         \
        NEXT(name);                                      \
        mode_t mode = 0;                                 \
        if (flags & (O_CREAT | O_TMPFILE)) {             \
            va_list more;                                \
            va_start(more, flags);                       \
            mode = va_arg(more, mode_t);                 \
            va_end(more);                                \
        }                                                \
        return fails() ? -1 : next(path, flags, mode);   \
    }
OPEN(open)
OPEN(open64)

ssize_t read(int fd, void *to, size_t n) {
    NEXT(read);
    return fd != 1 && fd != 2 && fails() ? -1 : next(fd, to, n);
}

ssize_t write(int fd, const void *from, size_t n) {
    NEXT(write);
    return fd != 1 && fd != 2 && fails() ? -1 : next(fd, from, n);
}

int fsync(int fd) {
    NEXT(fsync);
    return fails() ? -1 : next(fd);
}

int fdatasync(int fd) {
    NEXT(fdatasync);
    return fails() ? -1 : next(fd);
}

int rename(const char *from, const char *to) {
    NEXT(rename);
    return fails() ? -1 : next(from, to);
}

int mkdir(const char *path, mode_t mode) {
    NEXT(mkdir);
    return fails() ? -1 : next(path, mode);
}

int ftruncate64(int fd, off64_t len) {
    NEXT(ftruncate64);
    return fails() ? -1 : next(fd, len);
}

int unlink(const char *path) {
    NEXT(unlink);
    if (!strcmp(path, "/worgesli-faults-begin"))
        begin(1);
    else if (!strcmp(path, "/worgesli-faults-end"))
        begin(0);
    else if (fails())
        return -1;
    return next(path);
}
