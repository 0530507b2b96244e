/* Fetches a device's memory over a descriptor: a host around libworgesli.a.
 *
 *     fetch [-u] [-t MS] [-m BYTES] PORT FOLDER [NAME...]
 *
 * The device may be one of 64 bits or an older one of 32. PORT is a path, or the number of a descriptor that was inherited. A terminal is made raw; its
 * speed stays as it is. Each selected region goes to a file of its own in FOLDER, which is made if need be: to FILE.part while its bytes come, and under
 * its final name only when it is whole and on the disk. A NAME is a filename up to its first '.', in any case ("ocimem"); with none, the device's
 * preference decides. Before the first region the device's list of all of them goes to standard output: filename, base, length, and '*' where the device
 * prefers the region; then how large the fetch will be. -m: where that is more than so many bytes, none of them is fetched. This process ends then, and the
 * device is left in its dump, where it says no second hello: a host that wants to ask for less goes on with its session instead, with other names. -u: the
 * device follows the rules of USB. -t: how long a silent device is waited for at a time, 5 times in a row. The exit status is 0 when every selected region is
 * whole, there was one, and all is as forecast; 2 for a wrong call, else 1; then what came of a region that is not whole is still there, as FILE.part. The
 * device is not reset.
 */
#define _POSIX_C_SOURCE 200809L
#include <errno.h>
#include <fcntl.h>
#include <inttypes.h>
#include <poll.h>
#include <signal.h>
#include <stdio.h>
#include <stdlib.h>
#include <string.h>
#include <strings.h>
#include <sys/stat.h>
#include <sys/statvfs.h>
#include <termios.h>
#include <unistd.h>

#include "worgesli.h"

/* time-outs and reads of 0 bytes in a row before the channel counts as closed; the pause after such a read, which returns at once */
enum { BORNE = 5, PAUSE_MS = 100 };

static struct {
    int port, wait_ms, folder;
    uint64_t most;              /* bytes that may be fetched; UINT64_MAX: as many as there are */
    worgesli_forecast forecast; /* and what came of it: whole regions, and their bytes */
    unsigned whole;
    uint64_t bytes;
    /* the open region: its file (-1: none), its length, how much of it is in the file, and the file's name when it is whole and before */
    int file;
    uint64_t len, kept;
    char name[80], part[88];
} f = {.wait_ms = 2000, .folder = -1, .most = UINT64_MAX, .file = -1};

/* The end: what is wrong and why (NULL: errno knows), and what became of the open region. */
static _Noreturn void stop(const char *what, const char *why)
{
    fprintf(stderr, "fetch: %s: %s\n", what, why != NULL ? why : strerror(errno));
    if (f.file >= 0) {
        fsync(f.file);
        fprintf(stderr, "fetch: NOT whole: %s has %" PRIu64 " of %" PRIu64 " bytes\n", f.part, f.kept, f.len);
    }
    fprintf(stderr, "fetch: not all was fetched; whole regions: %u\n", f.whole);
    exit(1);
}

/* ---- the port */

/* Whether the port can be read or written, or has an error to tell, before the time is out. */
static bool ready(short events)
{
    struct pollfd p = {f.port, events, 0};
    int n;
    while ((n = poll(&p, 1, f.wait_ms)) < 0)
        if (errno != EINTR)
            stop("waiting for the port", NULL);
    return n > 0;
}

/* Reads from 1 to `most` bytes; 0 where none came, BORNE times in a row. A read of 0 bytes may be an empty packet: it is borne like a time-out. */
static size_t receive(uint8_t *to, size_t most)
{
    for (int silent = 0; silent < BORNE; silent++) {
        if (!ready(POLLIN))
            continue;
        ssize_t n;
        while ((n = read(f.port, to, most)) < 0 && errno == EINTR)
            ;
        if (n > 0)
            return (size_t)n;
        if (n < 0 && errno != EAGAIN)
            stop("reading from the port", NULL);
        poll(NULL, 0, PAUSE_MS);
    }
    return 0;
}

/* Writes all n bytes. */
static void send_all(const uint8_t *from, uint64_t n)
{
    for (int silent = 0; n > 0; silent++) {
        if (silent == BORNE)
            stop("writing to the port", "the device does not listen");
        const ssize_t k = ready(POLLOUT) ? write(f.port, from, n) : 0;
        if (k > 0)
            from += k, n -= (uint64_t)k, silent = -1;
        else if (k < 0 && errno == EINTR)
            silent--;
        else if (k < 0 && errno != EAGAIN)
            stop("writing to the port", NULL);
    }
}

/* ---- the files */

/* A name that is one plain step down, of the bytes before the first zero: what is no letter, digit, '.', '_', '-' or space is written %XX, so are '.', '-'
 * and a space in front, a space at the end, and the dot of a last ".part". What a device says reaches the folder and the terminal only like this. */
static void make_plain(char *to, const uint8_t filename[20])
{
    static const char some[] = "ABCDEFGHIJKLMNOPQRSTUVWXYZabcdefghijklmnopqrstuvwxyz0123456789_", hex[] = "0123456789ABCDEF";
    size_t n = 0;
    while (n < 20 && filename[n] != 0)
        n++;
    const bool part = n >= 5 && strncasecmp((const char *)filename + n - 5, ".part", 5) == 0;
    if (n == 0)
        *to++ = '%';
    for (size_t i = 0; i < n; i++) {
        const uint8_t c = filename[i];
        const bool inner = i > 0 && (c == '-' || (c == '.' && !(part && i == n - 5)) || (c == ' ' && i < n - 1));
        if (inner || strchr(some, c) != NULL)
            *to++ = (char)c;
        else
            *to++ = '%', *to++ = hex[c / 16], *to++ = hex[c % 16];
    }
    *to = 0;
}

static bool is_there(const char *name)
{
    struct stat s;
    const bool there = fstatat(f.folder, name, &s, AT_SYMLINK_NOFOLLOW) == 0;
    if (!there && errno != ENOENT)
        stop(name, NULL);
    return there;
}

static void to_disk(int fd, const char *what)
{
    while (fsync(fd) < 0)
        if (errno != EINTR)
            stop(what, NULL);
}

/* A region begins: a new file, under the first name that neither a whole region nor a part has. Who has the part has the name. */
static void begin_region(worgesli_entry entry)
{
    char plain[64];
    make_plain(plain, entry.filename);
    for (unsigned copy = 1; f.file < 0; copy++) {
        snprintf(f.name, sizeof f.name, copy == 1 ? "%s" : "%s~%u", plain, copy);
        snprintf(f.part, sizeof f.part, "%s.part", f.name);
        const int file = openat(f.folder, f.part, O_WRONLY | O_CREAT | O_EXCL | O_CLOEXEC, 0600);
        if (file < 0 && errno != EEXIST)
            stop(f.part, NULL);
        if (file >= 0 && !is_there(f.name))
            f.file = file;
        else if (file >= 0)
            unlinkat(f.folder, f.part, 0), close(file);
    }
    f.len = entry.len, f.kept = 0;
}

/* Writes all n bytes to the region's file. */
static void keep(const uint8_t *from, uint64_t n)
{
    while (n > 0) {
        const ssize_t k = write(f.file, from, n);
        if (k > 0)
            from += k, n -= (uint64_t)k, f.kept += (uint64_t)k;
        else if (k == 0 || errno != EINTR)
            stop(f.part, k == 0 ? "it takes no bytes" : NULL);
    }
}

/* All bytes of the region were handed out. It is whole when they are on the disk, under its name, and the name is there too. */
static void end_region(void)
{
    if (f.kept != f.len)
        stop(f.part, "bytes are missing");
    to_disk(f.file, f.part);
    if (is_there(f.name))
        stop(f.name, "such a file has come meanwhile");
    if (renameat(f.folder, f.part, f.folder, f.name) < 0)
        stop(f.name, NULL);
    int n;
    while ((n = fsync(f.folder)) < 0 && errno == EINTR)
        ;
    if (n < 0) { /* the name may be gone with the power: it is no whole region's */
        const int why = errno;
        renameat(f.folder, f.name, f.folder, f.part);
        stop(f.name, strerror(why));
    }
    close(f.file);
    f.file = -1;
    f.whole++, f.bytes += f.len;
    printf("%s: %" PRIu64 " bytes\n", f.name, f.len);
}

/* ---- the fetch */

/* The table is whole: all its regions, a line each, now and not when the fetch has ended. What is not printable in a filename is '?' there. */
static void print_sheet(const uint8_t *table, size_t table_len, uint64_t width)
{
    static uint8_t page[WORGESLI_SHEET_LEN];
    fwrite(page, 1, worgesli_region_sheet(table, table_len, width, page, sizeof page).written, stdout);
    fflush(stdout);
}

/* How large the fetch will be, before a byte of a region is asked for: the end where the caller allows less. Of free space there is only a warning: there may
 * be more of it, or less, when it is needed. Lengths that have no sum (27) are above every bound; without one, the regions before an absurd one are fetched. */
static void forecast(const worgesli_lent *lent, size_t table_len, uint64_t width)
{
    const worgesli_forecast e = f.forecast = worgesli_forecast_table(lent->table, table_len, width, lent->names, lent->names_len);
    if (e.refused == 0)
        printf("forecast: regions %" PRIu64 ", bytes %" PRIu64 ", memory reads %" PRIu64 "\n", e.regions, e.bytes, e.reads);
    else
        fprintf(stderr, "fetch: no forecast: %s\n", worgesli_refusal_text(e.refused));
    fflush(stdout);
    if (f.most < UINT64_MAX && (e.refused != 0 || e.bytes > f.most)) {
        fputs("fetch: the device is left in its dump, and says no second hello there\n", stderr);
        stop("nothing was fetched", "there is more than -m allows");
    }
    const uint64_t bytes = e.refused == 0 ? e.bytes : UINT64_MAX;
    struct statvfs s;
    if (fstatvfs(f.folder, &s) == 0 && s.f_frsize > 0 && bytes / s.f_frsize + (bytes % s.f_frsize != 0) > s.f_bavail)
        fprintf(stderr, "fetch: warning: only %" PRIu64 " blocks of %" PRIu64 " bytes are free\n", (uint64_t)s.f_bavail, (uint64_t)s.f_frsize);
}

static void finished(uint64_t how, uint64_t reads)
{
    static const char *const ends[] = {[WORGESLI_FINISHED_IMAGES_SENT] = "it is done", [WORGESLI_FINISHED_RESET] = "it resets",
                                       [WORGESLI_FINISHED_REPLY] = "it answered a command that was not given"};
    if (how != WORGESLI_FINISHED_DUMPED)
        stop("the device offered no memory", ends[how]);
    if (f.whole == 0)
        stop("nothing was fetched", "the device has no region that is asked for");
    if (f.forecast.refused == 0 && (f.forecast.regions != f.whole || f.forecast.bytes != f.bytes || f.forecast.reads != reads))
        stop("what was fetched is not what was forecast", "the table or the names were changed meanwhile");
    printf("every selected region is whole: regions %u, bytes %" PRIu64 ", memory reads %" PRIu64 "\n", f.whole, f.bytes, reads);
}

/* Steps until the end, and does all that a step answers before the next. */
static void fetch(uint32_t backend, const uint8_t *names, size_t names_len)
{
    static const uint8_t no_images[8];
    static uint8_t table[WORGESLI_TABLE_LEN], out[WORGESLI_OUT_LEN], in[65536];
    const worgesli_lent lent = {no_images, sizeof no_images, names, names_len, table, sizeof table, NULL, 0, out, sizeof out};
    worgesli_session session = worgesli_open(WORGESLI_MODE_MEMORY_DEBUG, WORGESLI_COMMAND_NONE, backend);
    size_t from = 0, to = 0; /* these bytes of `in` came and were not taken yet */
    for (;;) {
        const size_t wanted = from < to ? 0 : worgesli_wanted_at(&session);
        if (wanted > 0) {
            from = 0, to = receive(in, wanted < sizeof in ? wanted : sizeof in);
            if (to == 0)
                stop("refused", worgesli_refusal_text(worgesli_closed_at(&session)));
        }
        const worgesli_placed r = worgesli_step_at(&session, &lent, in + from, to - from);
        switch (r.answer) {
        case WORGESLI_ANSWER_GO:
            if (session.phase == WORGESLI_PHASE_BETWEEN) {
                print_sheet(table, session.count, session.width);
                forecast(&lent, session.count, session.width);
            }
            break;
        case WORGESLI_ANSWER_EMPTY_READ: /* over libusb: a bulk transfer of length 0. A descriptor's driver takes empty packets itself */
            break;
        case WORGESLI_ANSWER_SEND:
            send_all(out, r.first);
            break;
        case WORGESLI_ANSWER_IMAGE:
            send_all(lent.set + r.first, r.second);
            break;
        case WORGESLI_ANSWER_OPEN:
            begin_region(worgesli_entry_at(table, session.count, session.width, r.first));
            break;
        case WORGESLI_ANSWER_BYTES:
            keep(in + from, r.first);
            break;
        case WORGESLI_ANSWER_CLOSE:
            end_region();
            break;
        case WORGESLI_ANSWER_FINISHED:
            finished(r.first, r.second);
            return;
        default: /* WORGESLI_ANSWER_REFUSED */
            stop("refused", worgesli_refusal_text(r.first));
        }
        from += r.taken;
    }
}

/* ---- what is opened first */

/* Descriptors 0 to 2 are taken, by nothing if need be: else a port or a file would get one, and what is said to people. */
static void take_standard(void)
{
    int fd;
    while ((fd = open("/dev/null", O_RDWR)) >= 0 && fd <= 2)
        ;
    if (fd > 2)
        close(fd);
}

static void open_port(const char *port)
{
    const bool number = strspn(port, "0123456789") == strlen(port) && strlen(port) < 9;
    f.port = number ? atoi(port) : open(port, O_RDWR | O_NOCTTY | O_NONBLOCK | O_CLOEXEC);
    if (f.port < 0)
        stop(port, NULL);
    struct termios t;
    if (tcgetattr(f.port, &t) < 0)
        return; /* no terminal */
    t.c_iflag = t.c_oflag = t.c_lflag = 0;
    t.c_cflag = (t.c_cflag & ~(tcflag_t)(CSIZE | PARENB)) | CS8 | CREAD | CLOCAL;
    t.c_cc[VMIN] = 1, t.c_cc[VTIME] = 0;
    if (tcsetattr(f.port, TCSANOW, &t) < 0) /* at once: what the device has said already is not dropped */
        stop(port, NULL);
}

static void open_folder(const char *path)
{
    const bool made = mkdir(path, 0700) == 0;
    if (made || errno == EEXIST)
        f.folder = open(path, O_RDONLY | O_DIRECTORY | O_CLOEXEC);
    const int above = f.folder < 0 ? -1 : openat(f.folder, "..", O_RDONLY | O_DIRECTORY | O_CLOEXEC);
    if (f.folder < 0 || (made && above < 0))
        stop(path, NULL);
    if (made)
        to_disk(above, path); /* its own name is to be there too */
}

int main(int argc, char **argv)
{
    uint32_t backend = WORGESLI_BACKEND_SERIAL;
    bool wrong = false;
    for (int option; (option = getopt(argc, argv, "ut:m:")) != -1;) {
        const size_t digits = option == 't' || option == 'm' ? strspn(optarg, "0123456789") : 0;
        const bool number = digits > 0 && optarg[digits] == 0;
        errno = 0;
        if (option == 'u')
            backend = WORGESLI_BACKEND_USB;
        else if (option == 't')
            f.wait_ms = number && digits < 9 ? atoi(optarg) : 0;
        else if (option == 'm' && number)
            f.most = strtoull(optarg, NULL, 10);
        wrong |= option == '?' || f.wait_ms == 0 || (option == 'm' && (!number || errno != 0));
    }
    worgesli_slot slots[WORGESLI_SLOTS];
    static uint8_t names[1 << 20];
    const int n = argc - optind - 2;
    for (int i = 0; i < n && i < WORGESLI_SLOTS; i++)
        slots[i] = (worgesli_slot){argv[optind + 2 + i], strlen(argv[optind + 2 + i])};
    const size_t names_len = n < 0 ? 0 : worgesli_bundle(slots, (size_t)n, names, sizeof names);
    if (wrong || names_len == 0 || names_len > sizeof names) {
        fprintf(stderr, "usage: fetch [-u] [-t MS] [-m BYTES] PORT FOLDER [NAME...], at most %d names\n", WORGESLI_SLOTS);
        return 2;
    }
    take_standard();
    signal(SIGPIPE, SIG_IGN); /* a port that is gone, a file that is too long: the calls say so */
    signal(SIGXFSZ, SIG_IGN);
    open_port(argv[optind]);
    open_folder(argv[optind + 1]);
    fetch(backend, names, names_len);
    return 0;
}
