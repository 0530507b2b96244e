/* Writes the tidy form of an image set to a new file: sets of as many slots with the same image in each have the same one, and a device is served from it as from the
 * set.
 *
 *     tidy SET TIDY
 *
 * SET is a file, or a pipe (/dev/stdin), with an image set; it is only read. TIDY gets the form: it is written as TIDY.part, and has its name only when it is
 * whole and on the disk. Nothing that is there is written over, so that TIDY is not SET. TIDY and its length go to standard output, and the exit status is 0;
 * 2 for a wrong call, else 1: it is told why, and nothing that was made is left behind. (A process that is killed may leave TIDY.part: remove it before the
 * next.) Set and form are both held in memory; where slots share bytes, the form may be far longer than the set. TIDY gets its name by a hard link, through
 * /proc: on a file system that has none (FAT) it cannot be made, which is told.
 */
#define _POSIX_C_SOURCE 200809L
#include <errno.h>
#include <fcntl.h>
#include <signal.h>
#include <stdio.h>
#include <stdlib.h>
#include <string.h>
#include <sys/stat.h>
#include <unistd.h>

#include "worgesli.h"

static struct {
    const char *set, *tidy, *part; /* paths: SET, TIDY, TIDY.part */
    int folder;                    /* of the last two, and their names there */
    const char *tidy_name, *part_name;
    int file;                  /* what was written */
    bool tidy_made, part_made; /* they got these names */
    uint8_t *bytes, *form;     /* the set's, and its tidy form */
} f;

/* Whether the name is that of the file that was written, and not of another that took it: 1, 0, or -1 where that cannot be seen (errno knows). */
static int ours(const char *name)
{
    struct stat a, b;
    if (fstat(f.file, &a) < 0)
        return -1;
    if (fstatat(f.folder, name, &b, AT_SYMLINK_NOFOLLOW) < 0)
        return errno == ENOENT ? 0 : -1;
    return a.st_dev == b.st_dev && a.st_ino == b.st_ino;
}

/* Takes the name from that file, where it has it. */
static bool removed(const char *name)
{
    const int is = ours(name);
    return is == 0 || (is > 0 && unlinkat(f.folder, name, 0) == 0);
}

static void clear(bool made, const char *name, const char *path)
{
    if (made && !removed(name))
        fprintf(stderr, "tidy: it could NOT be removed: %s: %s\n", path, strerror(errno));
}

/* The end: what is wrong and why (NULL: errno knows). What was made is removed. */
static _Noreturn void stop(const char *what, const char *why)
{
    fprintf(stderr, "tidy: %s: %s\n", what, why != NULL ? why : strerror(errno));
    clear(f.tidy_made, f.tidy_name, f.tidy);
    clear(f.part_made, f.part_name, f.part);
    fprintf(stderr, "tidy: not written: %s\n", f.tidy);
    exit(1);
}

/* ---- the set */

/* Reads n bytes, or fewer where the file ends. */
static size_t receive(int fd, uint8_t *to, size_t n)
{
    size_t came = 0;
    while (came < n) {
        const ssize_t k = read(fd, to + came, n - came);
        if (k == 0)
            break;
        if (k > 0)
            came += (size_t)k;
        else if (errno != EINTR)
            stop(f.set, NULL);
    }
    return came;
}

/* How long a set is that begins so, by its own numbers; of what begins otherwise no more is asked for. */
static size_t length_said(const uint8_t head[8])
{
    uint64_t n = 0, data = 0;
    for (unsigned i = 4; i-- > 0;)
        n = n << 8 | head[i], data = data << 8 | head[4 + i];
    return n > WORGESLI_SLOTS ? 8 : (size_t)(8 + 8 * n + data);
}

/* The set's bytes, and how many they are. One byte is read behind those that it says it has: with that it is malformed, whatever else a file or pipe goes on
 * to say. Memory is taken for what came, and not for what is only said. */
static size_t read_set(void)
{
    const int fd = open(f.set, O_RDONLY | O_CLOEXEC);
    size_t room = 65536;
    if (fd < 0 || (f.bytes = malloc(room)) == NULL)
        stop(f.set, NULL);
    size_t came = receive(fd, f.bytes, 8);
    const size_t end = 1 + (came < 8 ? came : length_said(f.bytes));
    while ((came += receive(fd, f.bytes + came, (room < end ? room : end) - came)) == room && room < end) {
        room = room < end / 2 ? 2 * room : end;
        uint8_t *const more = realloc(f.bytes, room);
        if (more == NULL)
            stop(f.set, NULL);
        f.bytes = more;
    }
    close(fd);
    return came;
}

/* Its tidy form, which may be far longer; gives its length. */
static size_t make_form(size_t set_len)
{
    worgesli_tidied r = worgesli_tidy_len(f.bytes, set_len);
    if (r.refused == 0 && (f.form = malloc(r.len)) == NULL)
        stop(f.tidy, NULL);
    if (r.refused == 0)
        r = worgesli_tidy(f.bytes, set_len, f.form, r.len);
    if (r.refused != 0)
        stop(f.set, worgesli_refusal_text(r.refused));
    return r.len;
}

/* ---- the file */

/* The folder of TIDY, and the names there. */
static void open_folder(void)
{
    const char *const slash = strrchr(f.tidy, '/');
    const size_t n = slash == NULL ? 0 : (size_t)(slash - f.tidy) + 1;
    char *const path = malloc(strlen(f.tidy) + sizeof ".part");
    f.part = path;
    if (path == NULL)
        stop(f.tidy, NULL);
    memcpy(path, f.tidy, n), path[n] = 0;
    f.folder = open(n == 0 ? "." : path, O_RDONLY | O_DIRECTORY | O_CLOEXEC);
    if (f.folder < 0)
        stop(f.tidy, NULL);
    strcpy(path, f.tidy), strcat(path, ".part");
    f.part_name = path + n, f.tidy_name = f.tidy + n;
    struct stat there; /* these would be found later too, behind all the work */
    if (f.tidy_name[0] == 0)
        stop(f.tidy, strerror(ENOENT));
    if (fstatat(f.folder, f.tidy_name, &there, AT_SYMLINK_NOFOLLOW) == 0)
        stop(f.tidy, strerror(EEXIST));
}

static void to_disk(int fd, const char *what)
{
    while (fsync(fd) < 0)
        if (errno != EINTR)
            stop(what, NULL);
}

/* A new file with these bytes: they are on the disk before it has its name, which no other file has, and then the name is too. */
static void write_file(const uint8_t *from, size_t n)
{
    f.file = openat(f.folder, f.part_name, O_WRONLY | O_CREAT | O_EXCL | O_CLOEXEC, 0666);
    if (f.file < 0)
        stop(f.part, errno == EEXIST ? "File exists: another call is writing it, or was killed" : NULL);
    f.part_made = true;
    while (n > 0) {
        const ssize_t k = write(f.file, from, n);
        if (k > 0)
            from += k, n -= (size_t)k;
        else if (k == 0 || errno != EINTR)
            stop(f.part, k == 0 ? "it takes no bytes" : NULL);
    }
    to_disk(f.file, f.part);
    /* the file itself: its name may have been removed, and be another's by now */
    char itself[32];
    snprintf(itself, sizeof itself, "/proc/self/fd/%d", f.file);
    if (linkat(AT_FDCWD, itself, f.folder, f.tidy_name, AT_SYMLINK_FOLLOW) < 0)
        stop(f.tidy, NULL);
    f.tidy_made = true;
    if (!removed(f.part_name))
        stop(f.part, NULL);
    f.part_made = false;
    to_disk(f.folder, f.tidy);
    close(f.file);
}

/* Descriptors 0 to 2 are taken, by nothing if need be: else a file would get one, and what is said to people. */
static void take_standard(void)
{
    int fd;
    while ((fd = open("/dev/null", O_RDWR)) >= 0 && fd <= 2)
        ;
    if (fd > 2)
        close(fd);
}

int main(int argc, char **argv)
{
    if (getopt(argc, argv, "") != -1 || argc - optind != 2) {
        fputs("usage: tidy SET TIDY\n", stderr);
        return 2;
    }
    f.set = argv[optind], f.tidy = argv[optind + 1];
    take_standard();
    signal(SIGPIPE, SIG_IGN); /* nobody listens, a file that is too long: the calls say so */
    signal(SIGXFSZ, SIG_IGN);
    open_folder();
    const size_t len = make_form(read_set());
    write_file(f.form, len);
    if (printf("%s: %zu bytes\n", f.tidy, len) < 0 || fflush(stdout) != 0)
        fprintf(stderr, "tidy: it is written, and that could not be said: %s\n", strerror(errno));
    return 0;
}
