/* Calls every function of libworgesli.a from C. Standard input has the bytes of a device (crates/desk/stdin); standard output is held to what
 * crates/desk writes for them. layout.inc is made by tools/test-c from the Rattle source: sizes, places and types of every field, each prototype, and the
 * numbers of modes, commands, backends, widths, phases, answers and kinds of packets.
 */
#include <stdio.h>
#include <stdlib.h>
#include <string.h>

#include "worgesli.h"

/* ---- the Rattle source's layout against the header's */

#define SIZE(type, size) _Static_assert(sizeof(type) == (size), "size of " #type);
#define FIELD(type, field, ctype, place)                                               \
    _Static_assert(offsetof(type, field) == (place), "place of " #type "." #field);    \
    _Static_assert(_Generic(((type *)0)->field, ctype: 1, default: 0), "type of " #type "." #field);
#define BYTES(type, field, count, place)                                               \
    _Static_assert(offsetof(type, field) == (place), "place of " #type "." #field);    \
    _Static_assert(_Generic(&((type *)0)->field, uint8_t(*)[count]: 1, default: 0), "type of " #type "." #field);
#define NUMBER(name, number) _Static_assert(name == (number), #name);
#include "layout.inc"

static int failed;

static void expect(bool so, int line, const char *what)
{
    if (so)
        return;
    fprintf(stderr, "abi.c:%d: not so: %s\n", line, what);
    failed = 1;
}

#define EXPECT(test) expect((test), __LINE__, #test)

static const uint8_t none[8]; /* an empty image set, and an empty name list */

static uint8_t table[256], reply[64], out[48];

static void fill(void)
{
    memset(table, 0x5a, sizeof table);
    memset(reply, 0x5a, sizeof reply);
    memset(out, 0x5a, sizeof out);
}

static bool filled(void)
{
    for (size_t i = 0; i < sizeof table; i++)
        if (table[i] != 0x5a)
            return false;
    for (size_t i = 0; i < sizeof reply; i++)
        if (reply[i] != 0x5a)
            return false;
    for (size_t i = 0; i < sizeof out; i++)
        if (out[i] != 0x5a)
            return false;
    return true;
}

static bool same(worgesli_session a, worgesli_session b)
{
    return memcmp(&a, &b, sizeof a) == 0;
}

/* A step, made twice: of the session by value, and of a copy of it in place, with buffers of its own. */
static worgesli_stepped step(worgesli_session s, const uint8_t *delivery, size_t n)
{
    uint8_t t[sizeof table], y[sizeof reply], o[sizeof out];
    memcpy(t, table, sizeof t), memcpy(y, reply, sizeof y), memcpy(o, out, sizeof o);
    worgesli_session p = s;
    const worgesli_lent own = {none, sizeof none, none, sizeof none, t, sizeof t, y, sizeof y, o, sizeof o};
    worgesli_placed a = worgesli_step_at(&p, &own, delivery, n);
    worgesli_stepped r =
        worgesli_step(s, delivery, n, none, sizeof none, none, sizeof none, table, sizeof table, reply, sizeof reply, out, sizeof out);
    EXPECT(same(p, r.session) && a.taken == r.taken && a.first == r.first && a.second == r.second && a.answer == r.answer);
    EXPECT(memcmp(t, table, sizeof t) == 0 && memcmp(y, reply, sizeof y) == 0 && memcmp(o, out, sizeof o) == 0);
    EXPECT(a.waits == (p.phase == WORGESLI_PHASE_REGION ? worgesli_wanted(p) : 0));
    return r;
}

/* What is wanted, by value and in place. */
static size_t wanted(worgesli_session s)
{
    size_t n = worgesli_wanted(s);
    EXPECT(worgesli_wanted_at(&s) == n);
    return n;
}

/* The channel's end, by value and in place. */
static worgesli_stepped closed(worgesli_session s)
{
    worgesli_stepped r = worgesli_closed(s);
    EXPECT(worgesli_closed_at(&s) == r.first && same(s, r.session));
    return r;
}

/* Both widths, and the bytes of a number, of an entry and of a memory debug or memory read in each. */
static const struct {
    uint64_t width;
    size_t number, entry, packet;
    uint8_t debug, read; /* kinds */
} widths[] = {{WORGESLI_WIDTH_32, 4, 52, 16, WORGESLI_KIND_MEM_DEBUG, WORGESLI_KIND_MEM_READ},
              {WORGESLI_WIDTH_64, 8, 64, 24, WORGESLI_KIND_MEM_DEBUG64, WORGESLI_KIND_MEM_READ64}};

static void put(uint8_t *to, size_t len, uint64_t number)
{
    for (size_t i = 0; i < len; i++)
        to[i] = (uint8_t)(number >> (8 * i));
}

/* A memory debug or memory read of the w-th width; gives its length. */
static size_t memory_packet(uint8_t to[24], size_t w, uint8_t kind, uint64_t at, uint64_t len)
{
    put(to, 4, kind), put(to + 4, 4, widths[w].packet);
    put(to + 8, widths[w].number, at), put(to + 8 + widths[w].number, widths[w].number, len);
    return widths[w].packet;
}

static void entry(uint8_t *to, size_t w, uint64_t preference, uint64_t base, uint64_t len, const char *filename)
{
    const size_t n = widths[w].number;
    memset(to, 0, widths[w].entry);
    put(to, n, preference), put(to + n, n, base), put(to + 2 * n, n, len);
    memcpy(to + 3 * n + 20, filename, strlen(filename));
}

static bool refused(worgesli_stepped r, uint64_t why)
{
    return r.answer == WORGESLI_ANSWER_REFUSED && r.first == why && r.second == 0 && r.taken == 0;
}

/* ---- the conversation of crates/desk, as its lines; and again, reading no more than is wanted */

static const char *const words[] = {"go", "send", "image", "open", "bytes", "empty read", "close", "finished", "refused"};

static void converse(const uint8_t *bytes, size_t n)
{
    worgesli_session s = worgesli_open(WORGESLI_MODE_WAITING_FOR_IMAGE, WORGESLI_COMMAND_NONE, WORGESLI_BACKEND_SERIAL);
    EXPECT(worgesli_is_session(s));
    size_t from = 0;
    for (int turns = 0; turns < 100; turns++) {
        worgesli_stepped r = step(s, bytes + from, n - from);
        EXPECT(r.answer < 9 && r.taken <= n - from);
        if (failed)
            return;
        printf("%zu %s %llu\n", r.taken, words[r.answer], (unsigned long long)r.first);
        from += r.taken;
        s = r.session;
        EXPECT(worgesli_is_session(s));
        if (r.answer == WORGESLI_ANSWER_FINISHED || r.answer == WORGESLI_ANSWER_REFUSED)
            return;
    }
    EXPECT(!"the conversation ends");
}

static void sip(const uint8_t *bytes, size_t n)
{
    worgesli_session s = worgesli_open(WORGESLI_MODE_WAITING_FOR_IMAGE, WORGESLI_COMMAND_NONE, WORGESLI_BACKEND_SERIAL);
    size_t from = 0;
    uint32_t last = WORGESLI_ANSWER_GO;
    EXPECT(wanted(s) == 8);
    while (last != WORGESLI_ANSWER_FINISHED && last != WORGESLI_ANSWER_REFUSED) {
        size_t k = wanted(s);
        EXPECT(0 < k && k <= n - from);
        if (failed)
            return;
        worgesli_stepped r = step(s, bytes + from, k);
        EXPECT(r.taken == k);
        from += r.taken;
        s = r.session;
        last = r.answer;
    }
    EXPECT(last == WORGESLI_ANSWER_FINISHED && from == n && wanted(s) == 0);
    EXPECT(refused(step(s, NULL, 0), 4));
    EXPECT(refused(closed(s), 4));
}

/* ---- every mode, offered and opened in: the answer has the session's, the switch behind a reply is to 0 */

static const uint32_t modes[] = {WORGESLI_MODE_WAITING_FOR_IMAGE, WORGESLI_MODE_IMAGE_TRANSFER_COMPLETE, WORGESLI_MODE_MEMORY_DEBUG, WORGESLI_MODE_COMMAND};

static void offers(worgesli_session s, uint32_t mode)
{
    uint8_t hello[49] = {1, 0, 0, 0, 48, 0, 0, 0, 2, 0, 0, 0, 1, 0, 0, 0, 0, 16};
    for (uint8_t offered = 0; offered < 6; offered++) {
        const bool named = offered < sizeof modes / sizeof modes[0];
        EXPECT(!named || modes[offered] == offered);
        hello[20] = offered;
        worgesli_packet p = worgesli_parse_packet(hello, 48);
        EXPECT(named ? p.refused == 0 && p.value == offered : p.refused == 9 && p.value == 0);
        fill();
        worgesli_stepped r = step(s, hello, 48);
        EXPECT(r.taken == 48 && (named ? r.answer == WORGESLI_ANSWER_SEND && r.first == 48 : r.answer == WORGESLI_ANSWER_REFUSED && r.first == 9));
        EXPECT(!named || (memcmp(out, "\2\0\0\0\x30\0\0\0\2\0\0\0\1\0\0\0\0\0\0", 20) == 0 && out[20] == mode && out[21] == 0));
        EXPECT(named || (filled() && r.session.phase == WORGESLI_PHASE_ENDED));
        hello[4] = 49;
        r = step(s, hello, 49);
        EXPECT(r.answer == WORGESLI_ANSWER_REFUSED && r.first == (named ? 11 : 9) && r.taken == 49);
        hello[0] = 2, hello[4] = 48;
        r = step(s, hello, 48);
        EXPECT(r.answer == WORGESLI_ANSWER_REFUSED && r.first == (named ? 10 : 9) && r.taken == 48);
        hello[0] = 1;
    }
}

static void every_mode(void)
{
    for (size_t i = 0; i < sizeof modes / sizeof modes[0]; i++) {
        worgesli_session s = worgesli_open(modes[i], WORGESLI_COMMAND_READ_HW_ID, WORGESLI_BACKEND_SERIAL);
        EXPECT(worgesli_is_session(s) && s.mode == modes[i]);
        offers(s, modes[i]);
        s.phase = WORGESLI_PHASE_RESPONSE, s.count = 3;
        fill();
        worgesli_stepped r = step(s, none, 3);
        EXPECT(r.answer == WORGESLI_ANSWER_SEND && r.first == 12 && r.session.phase == WORGESLI_PHASE_SWITCHED && r.session.mode == modes[i]);
        EXPECT(memcmp(out, "\x0c\0\0\0\x0c\0\0\0\0\0\0\0\x5a", 13) == 0);
    }
}

/* ---- a fetch from a board of each width, by value and in place, in deliveries of any length */

/* The board's bytes: of a region's address its lowest byte, turned. */
static uint8_t memory_at(uint64_t at)
{
    return (uint8_t)~at;
}

/* One region that is not preferred, one that ends with the last address. The w-th width, deliveries of at most so many bytes. */
static void fetch(size_t w, size_t most)
{
    const uint64_t len = 4096 + 512, base = (widths[w].width == 32 ? 0xFFFFFFFFu : UINT64_MAX) - len + 1;
    const struct {
        uint64_t at, len;
    } reads[] = {{0xFFFFFFF0u, 2 * widths[w].entry}, {base, 4096}, {base + 4096, 512}};
    static uint8_t said[8192];
    uint8_t packet[24];
    size_t from = 0, to = memory_packet(said, w, widths[w].debug, reads[0].at, reads[0].len), sent = 0, opened = 0, came = 0, turns = 0;
    worgesli_session s = worgesli_open(WORGESLI_MODE_MEMORY_DEBUG, WORGESLI_COMMAND_NONE, WORGESLI_BACKEND_USB);
    worgesli_stepped r;
    worgesli_forecast forecast;
    EXPECT(s.width == WORGESLI_WIDTH_64);
    fill();
    do {
        const size_t n = to - from < most ? to - from : most;
        r = step(s, said + from, n);
        EXPECT(worgesli_is_session(r.session) && r.session.width == (sent > 0 || r.answer == WORGESLI_ANSWER_SEND ? widths[w].width : 64));
        switch (r.answer) {
        case WORGESLI_ANSWER_GO:
            break;
        case WORGESLI_ANSWER_SEND:
            EXPECT(sent < 3 && from + r.taken == to);
            if (failed)
                return;
            EXPECT(r.first == memory_packet(packet, w, widths[w].read, reads[sent].at, reads[sent].len) && memcmp(out, packet, r.first) == 0);
            from = 0, to = reads[sent].len, r.taken = 0;
            for (size_t i = 0; i < to; i++)
                said[i] = memory_at(reads[sent].at + i);
            if (sent == 0) /* the table */
                entry(said, w, 0, base + 1, len, "OTHER.BIN"), entry(said + widths[w].entry, w, 1, base, len, "TOP.BIN");
            sent++;
            EXPECT(r.session.reads == sent);
            break;
        case WORGESLI_ANSWER_OPEN:
            EXPECT(r.first == 1 && memcmp(worgesli_entry_at(table, r.session.count, r.session.width, 1).filename, "TOP.BIN", 8) == 0);
            EXPECT(r.session.base == base && r.session.len == len && r.session.count == 2 * widths[w].entry);
            opened++;
            break;
        case WORGESLI_ANSWER_BYTES:
            for (size_t i = 0; i < r.first; i++)
                EXPECT(said[from + i] == memory_at(base + came + i));
            came += r.first;
            break;
        case WORGESLI_ANSWER_EMPTY_READ:
            EXPECT(came == 4096 || came == len);
            break;
        case WORGESLI_ANSWER_CLOSE:
            EXPECT(r.first == 1 && came == len);
            break;
        case WORGESLI_ANSWER_FINISHED:
            EXPECT(r.first == WORGESLI_FINISHED_DUMPED && r.second == 3 && sent == 3 && came == len && from == to);
            forecast = worgesli_forecast_table(table, s.count, s.width, none, sizeof none);
            EXPECT(forecast.refused == 0 && forecast.regions == opened && forecast.bytes == came && forecast.reads == r.second);
            break;
        default:
            EXPECT(!"another answer");
        }
        s = r.session, from += r.taken;
        EXPECT(++turns < 20000);
    } while (!failed && r.answer != WORGESLI_ANSWER_FINISHED);
    EXPECT(s.phase == WORGESLI_PHASE_ENDED && s.width == widths[w].width);
}

static void fetches(void)
{
    static const size_t mosts[] = {1, 7, 51, 52, 53, 511, 512, 4095, 4096, SIZE_MAX};
    for (size_t w = 0; w < 2; w++)
        for (size_t i = 0; i < sizeof mosts / sizeof mosts[0]; i++)
            fetch(w, mosts[i]);
}

/* ---- what a board of either width is refused for */

/* A packet of so many bytes, all but command and length 0: what becomes of it, and all of it is taken. */
static uint64_t judged(uint8_t command, uint8_t len)
{
    uint8_t packet[48] = {command, 0, 0, 0, len};
    worgesli_session s = worgesli_open(WORGESLI_MODE_MEMORY_DEBUG, WORGESLI_COMMAND_NONE, WORGESLI_BACKEND_SERIAL);
    fill();
    worgesli_stepped r = step(s, packet, len);
    EXPECT(r.taken == len && (r.answer == WORGESLI_ANSWER_SEND || (r.answer == WORGESLI_ANSWER_REFUSED && filled() && r.session.width == 64)));
    return r.answer == WORGESLI_ANSWER_SEND ? 0 : r.first;
}

/* A session in the w-th width's region of this base and length, nothing of it done. */
static worgesli_session in_region(size_t w, uint64_t base, uint64_t len)
{
    worgesli_session s = worgesli_open(WORGESLI_MODE_MEMORY_DEBUG, WORGESLI_COMMAND_NONE, WORGESLI_BACKEND_SERIAL);
    s.phase = WORGESLI_PHASE_REGION, s.width = widths[w].width, s.count = 128, s.base = base, s.len = len;
    return s;
}

static void refusals_of_boards(void)
{
    for (uint8_t len = 8; len <= 48; len++) {
        EXPECT(judged(0x09, len) == (len < 16 ? 9u : len == 16 ? 0 : 11));
        EXPECT(judged(0x0a, len) == (len < 16 ? 9u : 10));
        EXPECT(judged(0x10, len) == (len < 24 ? 9u : len == 24 ? 0 : 11));
        EXPECT(judged(0x11, len) == (len < 24 ? 9u : 10));
    }
    const uint64_t last[] = {0xFFFFFFFFu, UINT64_MAX}, why[] = {WORGESLI_REFUSED_REGION_END_32, WORGESLI_REFUSED_REGION_END};
    for (size_t w = 0; w < 2; w++) {
        fill(), memset(table, 0, sizeof table);
        worgesli_stepped r = step(in_region(w, last[w], 1), NULL, 0);
        EXPECT(r.answer == WORGESLI_ANSWER_SEND && r.first == widths[w].packet && r.session.outstanding == 1);
        r = step(in_region(w, last[w], 2), NULL, 0);
        EXPECT(refused(r, why[w]) && r.session.phase == WORGESLI_PHASE_ENDED && r.session.width == widths[w].width);
        EXPECT(refused(step(in_region(w, 2, last[w]), NULL, 0), why[w]));
        r = step(in_region(w, last[w], 0), NULL, 0);
        EXPECT(r.answer == WORGESLI_ANSWER_CLOSE && r.first == 0);
        /* once a byte is done it is no region's end any more, but a number above its limit: nothing changes */
        worgesli_session s = in_region(w, last[w], 2);
        s.done = 1;
        r = step(s, NULL, 0);
        EXPECT(refused(r, WORGESLI_REFUSED_LIMIT) && same(r.session, s));
    }
    /* what is too much for 32 bits is not for 64 */
    worgesli_stepped r = step(in_region(1, last[0], 2), NULL, 0);
    EXPECT(r.answer == WORGESLI_ANSWER_SEND && r.first == 24);
}

/* ---- bits that are no session */

/* A step of s, by value and in place, with this image set and names and so many bytes of out. */
static worgesli_stepped lent(worgesli_session s, const uint8_t *set, const uint8_t *names, size_t out_len)
{
    worgesli_session p = s;
    const worgesli_lent all = {set, 8, names, 8, table, sizeof table, reply, sizeof reply, out, out_len};
    worgesli_placed a = worgesli_step_at(&p, &all, none, sizeof none);
    worgesli_stepped r = worgesli_step(s, none, sizeof none, set, 8, names, 8, table, sizeof table, reply, sizeof reply, out, out_len);
    EXPECT(same(p, r.session) && a.taken == r.taken && a.first == r.first && a.second == r.second && a.answer == r.answer);
    return r;
}

static void no_session(worgesli_session s)
{
    static const uint8_t bad[8] = {65};
    const struct {
        const uint8_t *set, *names;
        size_t out_len;
        uint64_t why;
    } rows[] = {{bad, bad, 47, 1}, {bad, none, 48, 1}, {none, bad, 47, 2}, {none, bad, 48, 2}, {none, none, 47, 3}, {none, none, 48, 18}};
    fill();
    EXPECT(!worgesli_is_session(s));
    for (size_t i = 0; i < sizeof rows / sizeof rows[0]; i++) {
        worgesli_stepped r = lent(s, rows[i].set, rows[i].names, rows[i].out_len);
        EXPECT(refused(r, rows[i].why) && same(r.session, s) && filled());
    }
    worgesli_stepped r = closed(s);
    EXPECT(refused(r, 18) && same(r.session, s));
    EXPECT(wanted(s) == 0);
}

static void no_sessions(void)
{
    const worgesli_session good = worgesli_open(WORGESLI_MODE_MEMORY_DEBUG, WORGESLI_COMMAND_READ_OEM_KEY_HASH, WORGESLI_BACKEND_USB);
    worgesli_session s;
    EXPECT(worgesli_is_session(good));
    no_session(worgesli_open(4, WORGESLI_COMMAND_NONE, 0));
    no_session(worgesli_open(0, 4, 0));
    no_session(worgesli_open(0, 0, 2));
    s = good, s.phase = 7, no_session(s);
    EXPECT(good.width == WORGESLI_WIDTH_64);
    static const uint64_t no_widths[] = {0, 16, 31, 33, 63, 65, 128, UINT64_C(1) << 32 | 32, UINT64_MAX};
    for (uint32_t phase = 0; phase < 7; phase++) {
        s = good, s.phase = phase, s.width = WORGESLI_WIDTH_32, EXPECT(worgesli_is_session(s));
        for (size_t i = 0; i < sizeof no_widths / sizeof no_widths[0]; i++)
            s.width = no_widths[i], no_session(s);
    }
    /* numbers that the phase does not use */
    static const uint32_t one_count[] = {WORGESLI_PHASE_PACKET, WORGESLI_PHASE_SWITCHED, WORGESLI_PHASE_ENDED};
    static const uint32_t two_counts[] = {WORGESLI_PHASE_RESPONSE, WORGESLI_PHASE_TABLE, WORGESLI_PHASE_BETWEEN};
    for (int i = 0; i < 3; i++) {
        s = good, s.phase = one_count[i], s.count = 3, EXPECT(worgesli_is_session(s));
        s.at = 1, no_session(s);
        s = good, s.phase = two_counts[i], s.count = 3, s.at = 1, EXPECT(worgesli_is_session(s));
        s.base = 1, no_session(s);
        s.base = 0, s.len = 1, no_session(s);
        s.len = 0, s.done = 1, no_session(s);
        s.done = 0, s.outstanding = 1, no_session(s);
        s.outstanding = 0, s.due = 1, no_session(s);
    }
    s = good, s.phase = WORGESLI_PHASE_REGION, s.count = 64, s.base = 1, s.len = 2, s.done = 1, s.outstanding = 1, s.due = 1;
    EXPECT(worgesli_is_session(s));
    EXPECT(wanted(s) == 0);
    s.due = 0, EXPECT(wanted(s) == 1);
    /* it waits for the one byte, and says so; with it, for none */
    fill();
    worgesli_stepped r = step(s, NULL, 0);
    EXPECT(r.answer == WORGESLI_ANSWER_GO && same(r.session, s));
    r = step(s, none, 1);
    EXPECT(r.answer == WORGESLI_ANSWER_BYTES && r.first == 1 && r.session.done == 2 && wanted(r.session) == 0);
    s.due = 2, no_session(s);
    memset(&s, 0xff, sizeof s), no_session(s);
}

/* ---- every finish, and the limits that the header names */

static worgesli_session in_phase(uint32_t phase)
{
    worgesli_session s = worgesli_open(WORGESLI_MODE_MEMORY_DEBUG, WORGESLI_COMMAND_NONE, WORGESLI_BACKEND_SERIAL);
    s.phase = phase;
    return s;
}

static bool finished(worgesli_stepped r, uint64_t how)
{
    return r.answer == WORGESLI_ANSWER_FINISHED && r.first == how && r.session.phase == WORGESLI_PHASE_ENDED;
}

static void ends(void)
{
    static const uint8_t done[] = {6, 0, 0, 0, 12, 0, 0, 0, 1, 0, 0, 0}, reset[] = {8, 0, 0, 0, 8, 0, 0, 0};
    EXPECT(finished(step(in_phase(WORGESLI_PHASE_PACKET), done, sizeof done), WORGESLI_FINISHED_IMAGES_SENT));
    EXPECT(finished(step(in_phase(WORGESLI_PHASE_PACKET), reset, sizeof reset), WORGESLI_FINISHED_RESET));
    EXPECT(finished(step(in_phase(WORGESLI_PHASE_BETWEEN), NULL, 0), WORGESLI_FINISHED_DUMPED));
    worgesli_session s = in_phase(WORGESLI_PHASE_SWITCHED);
    s.count = 5;
    worgesli_stepped r = step(s, NULL, 0);
    EXPECT(finished(r, WORGESLI_FINISHED_REPLY) && r.session.count == 5);
    EXPECT(refused(closed(in_phase(WORGESLI_PHASE_TABLE)), WORGESLI_REFUSED_CLOSED));
}

/* ---- each thing that is lent is used for what it is */

static void lends(void)
{
    static const uint8_t set[] = {1, 0, 0, 0, 3, 0, 0, 0, 0, 0, 0, 0, 3, 0, 0, 0, 'a', 'b', 'c'};
    static const uint8_t names[] = {1, 0, 0, 0, 1, 0, 0, 0, 0, 0, 0, 0, 1, 0, 0, 0, 'n'};
    static const uint8_t read[] = {3, 0, 0, 0, 20, 0, 0, 0, 13, 0, 0, 0, 1, 0, 0, 0, 2, 0, 0, 0};
    const worgesli_lent all = {set, sizeof set, names, sizeof names, table, 64, reply, 20, out, sizeof out};
    uint8_t bytes[64];
    for (size_t i = 0; i < sizeof bytes; i++)
        bytes[i] = (uint8_t)(0x80 + i);
    fill();
    worgesli_session s = in_phase(WORGESLI_PHASE_PACKET);
    worgesli_placed r = worgesli_step_at(&s, &all, read, sizeof read);
    EXPECT(r.answer == WORGESLI_ANSWER_IMAGE && r.first == 17 && r.second == 2 && r.taken == sizeof read && filled());
    s = in_phase(WORGESLI_PHASE_RESPONSE), s.count = 20;
    r = worgesli_step_at(&s, &all, bytes, 19);
    EXPECT(r.answer == WORGESLI_ANSWER_GO && r.taken == 19 && memcmp(reply, bytes, 19) == 0 && reply[19] == 0x5a && table[0] == 0x5a);
    s = in_phase(WORGESLI_PHASE_TABLE), s.count = 64;
    r = worgesli_step_at(&s, &all, bytes, 64);
    EXPECT(r.answer == WORGESLI_ANSWER_GO && r.taken == 64 && memcmp(table, bytes, 64) == 0 && reply[0] == 0x80 && out[0] == 0x5a);
    EXPECT(s.phase == WORGESLI_PHASE_BETWEEN && s.count == 64);
    memset(table, 0, 64), memcpy(table + 44, "N.BIN", 5);
    r = worgesli_step_at(&s, &all, NULL, 0);
    EXPECT(r.answer == WORGESLI_ANSWER_OPEN && r.first == 0 && s.phase == WORGESLI_PHASE_REGION);
    table[44] = 'm', s = in_phase(WORGESLI_PHASE_BETWEEN), s.count = 64;
    r = worgesli_step_at(&s, &all, NULL, 0);
    EXPECT(r.answer == WORGESLI_ANSWER_FINISHED && r.first == WORGESLI_FINISHED_DUMPED);
}

/* The memory debug of the w-th width, of so long a table beyond the last address of 32 bits, and a table buffer of so many bytes. */
static uint64_t announced(size_t w, uint64_t len, size_t room)
{
    static uint8_t large[WORGESLI_TABLE_LEN + 1];
    uint8_t debug[24];
    const size_t n = memory_packet(debug, w, widths[w].debug, 0xFFFFFFFFu, len);
    EXPECT(room <= sizeof large);
    worgesli_stepped r = worgesli_step(in_phase(WORGESLI_PHASE_PACKET), debug, n, none, 8, none, 8, large, room, NULL, 0, out, WORGESLI_OUT_LEN);
    EXPECT(r.answer == WORGESLI_ANSWER_SEND || r.answer == WORGESLI_ANSWER_REFUSED);
    return r.answer == WORGESLI_ANSWER_SEND ? 0 : r.first;
}

static void limits(void)
{
    for (size_t w = 0; w < 2; w++) {
        EXPECT(announced(w, WORGESLI_TABLE_LEN, WORGESLI_TABLE_LEN) == 0 && announced(w, 0, 0) == 0);
        EXPECT(announced(w, WORGESLI_TABLE_LEN + 1, WORGESLI_TABLE_LEN + 1) == WORGESLI_REFUSED_TABLE_LENGTH);
        EXPECT(announced(w, 65, 64) == WORGESLI_REFUSED_TABLE_LENGTH && announced(w, 0xFFFFFFFFu, 64) == WORGESLI_REFUSED_TABLE_LENGTH);
    }
    EXPECT(worgesli_reset(out, WORGESLI_OUT_LEN) == 0 && worgesli_reset(out, WORGESLI_OUT_LEN - 1) == WORGESLI_REFUSED_OUT_BUFFER);
    static uint8_t slots[8 + 8 * (WORGESLI_SLOTS + 1)];
    slots[0] = WORGESLI_SLOTS;
    EXPECT(worgesli_check_images(slots, sizeof slots - 8) == 0);
    slots[0] = WORGESLI_SLOTS + 1;
    EXPECT(worgesli_check_images(slots, sizeof slots) == WORGESLI_REFUSED_IMAGE_SET);
    EXPECT(worgesli_check_names(slots, sizeof slots) == WORGESLI_REFUSED_NAME_LIST);
    EXPECT(worgesli_abi() == WORGESLI_ABI && WORGESLI_ABI_SYMBOL() == WORGESLI_ABI);
}

/* ---- the region sheet */

/* The sheet of the table's first n bytes on a page of so many: this text, and the rest of the page as it was; or, where the page is too short, all of it. */
static void sheet_is(const uint8_t *of, size_t n, uint64_t width, const char *text, size_t room)
{
    static uint8_t page[512];
    const size_t len = strlen(text);
    EXPECT(room < sizeof page);
    memset(page, 0x5a, sizeof page);
    const worgesli_sheet r = worgesli_region_sheet(of, n, width, page, room);
    EXPECT(r.refused == (room < len ? WORGESLI_REFUSED_SHEET_PAGE : 0) && r.written == (room < len ? 0 : len));
    EXPECT(memcmp(page, text, r.written) == 0);
    for (size_t i = r.written; i < sizeof page; i++)
        EXPECT(page[i] == 0x5a);
}

static void sheets(void)
{
    static const char lines[] = "OCIMEM.BIN           0000000014680000 00000000FFFFFFFF *\n"
                                "?[2J? ~??            0000000000000000 0000000000000010  \n"
                                "ABCDEFGHIJKLMNOPQRST 00000000DEADBEEF 0000000000000000 *\n";
    static const uint64_t no_widths[] = {0, 31, 33, 52, 63, 65, UINT64_C(1) << 32 | 32, UINT64_MAX};
    static uint8_t longest[WORGESLI_TABLE_LEN], page[WORGESLI_SHEET_LEN];
    EXPECT(sizeof lines - 1 == 3 * WORGESLI_SHEET_LINE_LEN && WORGESLI_REFUSED_SHEET_PAGE == 25);
    for (size_t w = 0; w < 2; w++) {
        const size_t n = widths[w].entry;
        const uint64_t width = widths[w].width;
        fill();
        entry(table, w, 1, 0x14680000, 0xFFFFFFFFu, "OCIMEM.BIN");
        entry(table + n, w, 0, 0, 16, "\033[2J\177 ~\200\377");
        entry(table + 2 * n, w, 0x80000000u, 0xDEADBEEFu, 0, "ABCDEFGHIJKLMNOPQRST");
        for (size_t room = 0; room < 200; room++)
            sheet_is(table, 3 * n, width, lines, room);
        /* whole entries alone */
        for (size_t i = 0; i < n; i++) {
            sheet_is(table, 3 * n + (i < 20 ? i : 0), width, lines, 171);
            sheet_is(table, i, width, "", i);
        }
        sheet_is(table, n, width, "OCIMEM.BIN           0000000014680000 00000000FFFFFFFF *\n", 200);
        table[n - 20] = 0; /* the name's first byte: what is behind it is not the name's */
        sheet_is(table, n, width, "                     0000000014680000 00000000FFFFFFFF *\n", 57);
        for (size_t i = 0; i < sizeof no_widths / sizeof no_widths[0]; i++)
            sheet_is(table, sizeof table, no_widths[i], "", 100), sheet_is(table, sizeof table, no_widths[i], "", 0);
        const worgesli_sheet r = worgesli_region_sheet(longest, sizeof longest, width, page, sizeof page);
        EXPECT(r.refused == 0 && r.written == sizeof longest / n * WORGESLI_SHEET_LINE_LEN && (w == 1 || r.written == WORGESLI_SHEET_LEN));
        EXPECT(worgesli_region_sheet(longest, sizeof longest, width, page, r.written - 1).refused == 25);
    }
    /* numbers that only 64 bits have */
    entry(table, 1, UINT64_C(1) << 32, UINT64_MAX, 0x0123456789ABCDEF, "A"), entry(table + 64, 1, UINT64_C(1) << 63, 1, UINT64_C(1) << 63, "B");
    sheet_is(table, 128, WORGESLI_WIDTH_64,
             "A                    FFFFFFFFFFFFFFFF 0123456789ABCDEF *\nB                    0000000000000001 8000000000000000 *\n", 120);
}

/* ---- the forecast */

static const uint8_t named_n[] = {1, 0, 0, 0, 1, 0, 0, 0, 0, 0, 0, 0, 1, 0, 0, 0, 'n'};

/* Of the table's first n bytes, with these names. */
static bool forecasts(size_t n, uint64_t width, const uint8_t *names, size_t names_len, uint64_t regions, uint64_t bytes, uint64_t reads)
{
    const worgesli_forecast r = worgesli_forecast_table(table, n, width, names, names_len);
    return r.refused == 0 && r.regions == regions && r.bytes == bytes && r.reads == reads;
}

static bool not_forecast(size_t n, uint64_t width, const uint8_t *names, size_t names_len, uint64_t why)
{
    const worgesli_forecast r = worgesli_forecast_table(table, n, width, names, names_len);
    return r.refused == why && r.regions == 0 && r.bytes == 0 && r.reads == 0;
}

static void forecasts_of_boards(void)
{
    static const uint64_t lens[] = {0, 1, 511, 512, 4095, 4096, 4097, 8191, 8192, 8193, 0x7FFFFFFFu, 0xFFFFF000u, 0xFFFFF001u, 0xFFFFFFFFu};
    static const uint64_t chunks[] = {0, 1, 1, 1, 1, 1, 2, 2, 2, 3, 0x80000, 0xFFFFF, 0x100000, 0x100000};
    static const uint64_t no_widths[] = {0, 31, 33, 52, 63, 65, UINT64_C(1) << 32 | 32, UINT64_MAX};
    static const uint8_t absent[16] = {1, 0, 0, 0, 0, 0, 0, 0, 255, 255, 255, 255}, many[8] = {65};
    for (size_t w = 0; w < 2; w++) {
        const size_t n = widths[w].entry;
        const uint64_t width = widths[w].width;
        fill();
        entry(table, w, 1, 5, 4096, "A.BIN"), entry(table + n, w, 0, 5, 4097, "N.BIN"), entry(table + 2 * n, w, 0x80000000u, 5, 0, "C.BIN");
        EXPECT(forecasts(3 * n, width, none, 8, 2, 4096, 2) && forecasts(3 * n, width, named_n, sizeof named_n, 1, 4097, 3));
        /* whole entries alone */
        for (size_t i = 0; i < n && 2 * n + i < sizeof table; i++) {
            EXPECT(forecasts(i, width, none, 8, 0, 0, 1) && forecasts(i, width, named_n, sizeof named_n, 0, 0, 1));
            EXPECT(forecasts(n + i, width, none, 8, 1, 4096, 2) && forecasts(n + i, width, named_n, sizeof named_n, 0, 0, 1));
            EXPECT(forecasts(2 * n + i, width, none, 8, 1, 4096, 2) && forecasts(2 * n + i, width, named_n, sizeof named_n, 1, 4097, 3));
        }
        for (size_t i = 0; i < sizeof lens / sizeof lens[0]; i++) {
            entry(table, w, 1, 0, lens[i], "A.BIN");
            EXPECT(forecasts(n, width, none, 8, 1, lens[i], 1 + chunks[i]) && forecasts(3 * n, width, none, 8, 2, lens[i], 1 + chunks[i]));
        }
        /* a filename that is not sound, and a region that ends above all addresses */
        entry(table, w, 1, 0, 9, "ABCDEFGHIJKLMNOPQRST"), entry(table + n, w, 1, 0, 9, "\377"), entry(table + 2 * n, w, 1, 0xFFFFFFFFu, 0xFFFFFFFFu, "A");
        put(table + 2 * n + widths[w].number, widths[w].number, UINT64_MAX);
        EXPECT(forecasts(3 * n, width, none, 8, 3, UINT64_C(0xFFFFFFFF) + 18, 1 + 2 + 0x100000));
        /* names that are none, before all else */
        for (size_t i = 0; i < 4; i++) {
            EXPECT(not_forecast(i * n, width, NULL, 0, WORGESLI_REFUSED_FORECAST_NAMES) && not_forecast(i * n, width, none, 7, 26));
            EXPECT(not_forecast(i * n, width, absent, 16, 26) && not_forecast(i * n, width, many, 8, 26));
            EXPECT(not_forecast(i * n, width, named_n, sizeof named_n - 1, 26) && forecasts(0, width, named_n, sizeof named_n, 0, 0, 1));
        }
        for (size_t i = 0; i < sizeof no_widths / sizeof no_widths[0]; i++) {
            EXPECT(forecasts(sizeof table, no_widths[i], none, 8, 0, 0, 1) && forecasts(sizeof table, no_widths[i], named_n, sizeof named_n, 0, 0, 1));
            EXPECT(not_forecast(sizeof table, no_widths[i], many, 8, 26) && not_forecast(0, no_widths[i], NULL, 0, 26));
        }
    }
}

/* Sums around 2^64, which only 64 bits have: three regions of these lengths, the last one named. */
static void sums(void)
{
    const uint64_t most = UINT64_MAX, half = UINT64_C(1) << 63, chunks = UINT64_C(1) << 52;
    const struct {
        uint64_t lens[3], bytes, reads; /* reads 0: refused */
    } rows[] = {{{most, 0, 0}, most, 1 + chunks},
                {{0, 0, most}, most, 1 + chunks},
                {{most - 4095, 0, 0}, most - 4095, chunks},
                {{most - 4095, 4095, 0}, most, 1 + chunks},
                {{half, half - 1, 0}, most, 1 + chunks},
                {{half - 1, 1, half - 1}, most, 2 + chunks},
                {{half, half, 0}, 0, 0},
                {{half, half, 5}, 0, 0},
                {{most, 1, 0}, 0, 0},
                {{1, 0, most}, 0, 0},
                {{most, most, most}, 0, 0},
                {{most - 2, 1, 2}, 0, 0}};
    EXPECT(WORGESLI_REFUSED_FORECAST_SUM == 27);
    for (size_t i = 0; i < sizeof rows / sizeof rows[0]; i++) {
        const uint64_t last = rows[i].lens[2];
        entry(table, 1, 1, 0, rows[i].lens[0], "A"), entry(table + 64, 1, half, 0, rows[i].lens[1], "B"), entry(table + 128, 1, 2, 0, last, "N.BIN");
        if (rows[i].reads != 0)
            EXPECT(forecasts(192, 64, none, 8, 3, rows[i].bytes, rows[i].reads));
        else
            EXPECT(not_forecast(192, 64, none, 8, WORGESLI_REFUSED_FORECAST_SUM));
        /* what is not selected is in no sum; the names come first */
        EXPECT(forecasts(192, 64, named_n, sizeof named_n, 1, last, 1 + last / 4096 + (last % 4096 != 0)));
        EXPECT(not_forecast(192, 64, named_n, sizeof named_n - 1, WORGESLI_REFUSED_FORECAST_NAMES));
    }
}

/* ---- tidy forms */

static const uint8_t mark[4] = {255, 255, 255, 255};

/* A set of n slots in `to`, over so many bytes, each of them all of these; gives its length. */
static size_t shared(uint8_t *to, size_t n, size_t data)
{
    put(to, 4, n), put(to + 4, 4, data);
    for (size_t i = 0; i < n; i++)
        put(to + 8 + 4 * i, 4, 0), put(to + 8 + 4 * n + 4 * i, 4, data);
    return 8 + 8 * n + data;
}

static bool tidies(const uint8_t *set, size_t set_len, size_t len, uint64_t refused)
{
    const worgesli_tidied r = worgesli_tidy_len(set, set_len);
    return r.len == len && r.refused == refused;
}

/* Of n slots the i-th alone is present: the marks before it and behind it stay, and no other ID is served, unless there is no other slot. */
static void alone(size_t n, size_t i)
{
    uint8_t set[8 + 8 * WORGESLI_SLOTS + 3], to[sizeof set + 1];
    const size_t len = shared(set, n, 3), due = len - 1;
    memcpy(set + len - 3, "xyz", 3);
    for (size_t j = 0; j < n; j++)
        if (j != i)
            memcpy(set + 8 + 4 * j, mark, 4), put(set + 8 + 4 * (n + j), 4, 0);
    put(set + 8 + 4 * i, 4, 1), put(set + 8 + 4 * (n + i), 4, 2);
    memset(to, 0x5a, sizeof to);
    worgesli_tidied r = worgesli_tidy(set, len, to, due - 1);
    EXPECT(r.refused == WORGESLI_REFUSED_TIDY_ROOM && r.len == 0 && to[0] == 0x5a && to[due - 2] == 0x5a && tidies(set, len, due, 0));
    r = worgesli_tidy(set, len, to, sizeof to);
    EXPECT(r.refused == 0 && r.len == due && to[0] == n && to[4] == 2 && memcmp(to + due - 2, "yz", 2) == 0 && to[due] == 0x5a);
    for (size_t j = 0; j < n; j++)
        EXPECT(j == i || (memcmp(to + 8 + 4 * j, mark, 4) == 0 && memcmp(to + 8 + 4 * (n + j), none, 4) == 0));
    EXPECT(memcmp(to + 8 + 4 * i, none, 4) == 0 && to[8 + 4 * (n + i)] == 2);
    EXPECT(worgesli_check_images(to, due) == 0 && tidies(to, due, due, 0) && worgesli_image_range(to, due, i, 0, 2).start == due - 2);
    for (uint64_t id = 0; id < n + 2; id++)
        EXPECT(worgesli_image_range(to, due, id, 0, 2).refused == (id == i || n == 1 ? 0 : WORGESLI_REFUSED_NO_IMAGE));
}

/* Slots that share a range, up to more data than a form may have: no byte of it is read to say so. */
static void forms(void)
{
    const size_t range = (size_t)1 << 26, head = 8 + 8 * WORGESLI_SLOTS;
    uint8_t *set = calloc(head + range, 1), to[600];
    EXPECT(set != NULL && WORGESLI_REFUSED_TIDY_SET == 28 && WORGESLI_REFUSED_TIDY_ROOM == 29);
    if (set == NULL)
        return;
    memset(to, 0x5a, sizeof to);
    const size_t len = shared(set, WORGESLI_SLOTS, range);
    EXPECT(tidies(set, len, 0, 29) && worgesli_tidy(set, len, to, sizeof to).refused == 29);
    for (size_t less = 0; less < 5; less++) {
        put(set + head - 4, 4, range - less); /* the last slot's length */
        EXPECT(less < 2 ? tidies(set, len, 0, 29) : tidies(set, len, head + ((size_t)1 << 32) - less, 0));
        EXPECT(worgesli_tidy(set, len, to, sizeof to).refused == 29 && tidies(set, len - 1, 0, 28));
    }
    for (size_t i = 0; i < sizeof to; i++)
        EXPECT(to[i] == 0x5a);
    free(set);
    for (size_t n = 1; n <= WORGESLI_SLOTS; n++)
        for (size_t i = 0; i < n; i++)
            alone(n, i);
}

/* ---- NULL with length 0, for every slice */

static void nulls(void)
{
    const worgesli_session s = worgesli_open(WORGESLI_MODE_WAITING_FOR_IMAGE, WORGESLI_COMMAND_NONE, WORGESLI_BACKEND_SERIAL);
    worgesli_stepped r = worgesli_step(s, NULL, 0, NULL, 0, NULL, 0, NULL, 0, NULL, 0, NULL, 0);
    EXPECT(refused(r, 1) && same(r.session, s));
    r = worgesli_step(s, NULL, 0, none, 8, NULL, 0, NULL, 0, NULL, 0, NULL, 0);
    EXPECT(refused(r, 2) && same(r.session, s));
    r = worgesli_step(s, NULL, 0, none, 8, none, 8, NULL, 0, NULL, 0, NULL, 0);
    EXPECT(refused(r, 3) && same(r.session, s));
    r = worgesli_step(s, NULL, 0, none, 8, none, 8, NULL, 0, NULL, 0, out, sizeof out);
    EXPECT(r.answer == WORGESLI_ANSWER_GO && r.taken == 0 && same(r.session, s));
    worgesli_session p = s;
    worgesli_lent all = {NULL, 0, NULL, 0, NULL, 0, NULL, 0, NULL, 0};
    worgesli_placed a = worgesli_step_at(&p, &all, NULL, 0);
    EXPECT(a.answer == WORGESLI_ANSWER_REFUSED && a.first == 1 && a.second == 0 && a.taken == 0 && same(p, s));
    all.set = all.names = none, all.set_len = all.names_len = sizeof none, all.out = out, all.out_len = sizeof out;
    a = worgesli_step_at(&p, &all, NULL, 0);
    EXPECT(a.answer == WORGESLI_ANSWER_GO && a.first == 0 && a.second == 0 && a.taken == 0 && same(p, s));
    EXPECT(worgesli_check_images(NULL, 0) == 1 && worgesli_check_names(NULL, 0) == 2);
    EXPECT(worgesli_image_range(NULL, 0, 0, 0, 0).refused == 1);
    for (uint64_t width = 0; width < 70; width++) {
        EXPECT(worgesli_entry_at(NULL, 0, width, 0).there == 0);
        EXPECT(worgesli_next_selected(NULL, 0, width, 0, NULL, 0, 0) == 0);
        const worgesli_sheet sheet = worgesli_region_sheet(NULL, 0, width, NULL, 0);
        EXPECT(sheet.written == 0 && sheet.refused == 0);
        const worgesli_forecast forecast = worgesli_forecast_table(NULL, 0, width, none, 8);
        EXPECT(forecast.refused == 0 && forecast.regions == 0 && forecast.bytes == 0 && forecast.reads == 1);
        EXPECT(worgesli_forecast_table(NULL, 0, width, NULL, 0).refused == 26 && worgesli_forecast_table(table, 64, width, NULL, 0).refused == 26);
    }
    EXPECT(worgesli_region_sheet(none, sizeof none, 64, NULL, 0).refused == 0 && worgesli_region_sheet(table, 64, 64, NULL, 0).refused == 25);
    EXPECT(worgesli_tidy(NULL, 0, NULL, 0).refused == 28 && worgesli_tidy(NULL, 0, table, sizeof table).refused == 28);
    EXPECT(worgesli_tidy(none, 8, NULL, 0).refused == 29 && worgesli_tidy_len(NULL, 0).refused == 28);
    EXPECT(worgesli_utf8(NULL, 0));
    EXPECT(worgesli_parse_packet(NULL, 0).refused == 9);
    EXPECT(worgesli_reset(NULL, 0) == 3);
}

/* ---- the leaves: each field of each struct comes from its own bytes */

/* Of the table's first n bytes there is no such entry. */
static void no_entry(size_t n, uint64_t width, size_t i)
{
    static const uint8_t zeros[20];
    const worgesli_entry e = worgesli_entry_at(table, n, width, i);
    EXPECT(e.there == 0 && e.save_pref == 0 && e.base == 0 && e.len == 0);
    EXPECT(memcmp(e.description, zeros, 20) == 0 && memcmp(e.filename, zeros, 20) == 0);
}

static void leaves(const uint8_t *hello)
{
    EXPECT(worgesli_check_images(none, 8) == 0 && worgesli_check_names(none, 8) == 0);

    static const uint8_t set[] = {1, 0, 0, 0, 3, 0, 0, 0, 0, 0, 0, 0, 3, 0, 0, 0, 'a', 'b', 'c'};
    worgesli_range g = worgesli_image_range(set, sizeof set, 13, 1, 2);
    EXPECT(g.refused == 0 && g.start == 17 && g.len == 2);
    g = worgesli_image_range(set, sizeof set, 13, 2, 2);
    EXPECT(g.refused == 13 && g.start == 0 && g.len == 0);
    g = worgesli_image_range(set, sizeof set, 13, 0, UINT64_MAX);
    EXPECT(g.refused == 13);

    for (size_t i = 0; i < sizeof table; i++)
        table[i] = (uint8_t)i;
    worgesli_entry e = worgesli_entry_at(table, 192, WORGESLI_WIDTH_64, 1);
    EXPECT(e.there == 1 && e.save_pref == 0x4746454443424140 && e.base == 0x4f4e4d4c4b4a4948 && e.len == 0x5756555453525150);
    EXPECT(memcmp(e.description, table + 88, 20) == 0 && memcmp(e.filename, table + 108, 20) == 0);
    no_entry(192, WORGESLI_WIDTH_64, 3), no_entry(191, WORGESLI_WIDTH_64, 2), no_entry(63, WORGESLI_WIDTH_64, 0);
    e = worgesli_entry_at(table, 156, WORGESLI_WIDTH_32, 1);
    EXPECT(e.there == 1 && e.save_pref == 0x37363534 && e.base == 0x3b3a3938 && e.len == 0x3f3e3d3c);
    EXPECT(memcmp(e.description, table + 64, 20) == 0 && memcmp(e.filename, table + 84, 20) == 0);
    EXPECT(worgesli_entry_at(table, 52, WORGESLI_WIDTH_32, 0).there == 1 && worgesli_entry_at(table, 63, WORGESLI_WIDTH_32, 0).len == 0x0b0a0908);
    no_entry(156, WORGESLI_WIDTH_32, 3), no_entry(155, WORGESLI_WIDTH_32, 2), no_entry(51, WORGESLI_WIDTH_32, 0);
    no_entry(192, 33, 0), no_entry(192, 0, 0), no_entry(192, UINT64_C(1) << 32 | 32, 0), no_entry(192, UINT64_MAX, 0);

    for (size_t w = 0; w < 2; w++) {
        const uint64_t width = widths[w].width;
        const size_t len = 3 * widths[w].entry;
        memset(table, 0, sizeof table);
        table[widths[w].entry] = 1;
        EXPECT(worgesli_next_selected(table, len, width, 3, none, 8, 0) == 1 && worgesli_next_selected(table, len, width, 3, none, 8, 2) == 3);
        EXPECT(worgesli_next_selected(table, len, width, SIZE_MAX, none, 8, 2) == SIZE_MAX && worgesli_next_selected(table, len, width, 3, none, 8, 9) == 9);
        EXPECT(worgesli_next_selected(table, 2 * widths[w].entry - 1, width, 3, none, 8, 0) == 3);
        EXPECT(worgesli_next_selected(table, len, 33, 3, none, 8, 0) == 3 && worgesli_next_selected(table, len, 0, 3, none, 8, 9) == 9);
        entry(table + widths[w].entry, w, 0, 0, 0, "N.BIN");
        static const uint8_t names[] = {1, 0, 0, 0, 1, 0, 0, 0, 0, 0, 0, 0, 1, 0, 0, 0, 'n'};
        EXPECT(worgesli_next_selected(table, len, width, 3, names, sizeof names, 0) == 1);
        EXPECT(worgesli_next_selected(table, len, width, 3, names, sizeof names, 2) == 3);
        EXPECT(worgesli_next_selected(table, len, 33, 3, names, sizeof names, 0) == 3);
    }

    EXPECT(worgesli_utf8((const uint8_t *)"\xc3\xa4", 2) && !worgesli_utf8((const uint8_t *)"\xc3\xa4", 1) && !worgesli_utf8((const uint8_t *)"\xc0\x80", 2));

    worgesli_packet p = worgesli_parse_packet(hello, 48);
    EXPECT(p.refused == 0 && p.command == 1 && p.len == 48 && p.value == 0 && p.first == 2 && p.second == 1 && p.third == 4096);
    uint8_t q[48];
    for (size_t i = 0; i < sizeof q; i++)
        q[i] = (uint8_t)(i + 1);
    memcpy(q, "\x02\0\0\0", 4);
    memcpy(q + 20, "\x03\0\0\0", 4);
    p = worgesli_parse_packet(q, sizeof q);
    EXPECT(p.refused == 0 && p.command == 2 && p.len == 0x08070605 && p.value == 3 && p.first == 0x0c0b0a09 && p.second == 0x100f0e0d && p.third == 0x14131211);
    EXPECT(p.unk0 == 0x1c1b1a19 && p.unk1 == 0x201f1e1d && p.unk2 == 0x24232221 && p.unk3 == 0x28272625 && p.unk4 == 0x2c2b2a29 && p.unk5 == 0x302f2e2d);
    q[0] = 0x12;
    p = worgesli_parse_packet(q, sizeof q);
    EXPECT(p.refused == 0 && p.command == 0x12 && p.value == 0 && p.first == 0x100f0e0d0c0b0a09 && p.second == 0x0000000314131211 && p.third == 0x201f1e1d1c1b1a19);
    for (q[0] = 9; q[0] < 11; q[0]++) {
        p = worgesli_parse_packet(q, 16);
        EXPECT(p.refused == 0 && p.command == q[0] && p.len == 0x08070605 && p.value == 0 && p.first == 0x0c0b0a09 && p.second == 0x100f0e0d && p.third == 0);
        EXPECT(worgesli_parse_packet(q, 15).refused == 9 && worgesli_parse_packet(q, sizeof q).refused == 0);
    }
    q[0] = 0x15;
    p = worgesli_parse_packet(q, sizeof q);
    EXPECT(p.refused == 6 && p.command == 0 && p.len == 0 && p.value == 0 && p.first == 0 && p.second == 0 && p.third == 0 && p.unk0 == 0 && p.unk5 == 0);

    fill();
    EXPECT(worgesli_reset(out, 47) == 3 && filled());
    EXPECT(worgesli_reset(out, 48) == 0 && memcmp(out, "\7\0\0\0\x8\0\0\0", 8) == 0 && out[8] == 0x5a && out[47] == 0x5a);
}

int main(void)
{
    static uint8_t bytes[4096];
    size_t n = fread(bytes, 1, sizeof bytes, stdin);
    EXPECT(48 <= n && n < sizeof bytes);
    if (!failed)
        converse(bytes, n);
    if (!failed)
        sip(bytes, n);
    if (!failed)
        leaves(bytes);
    every_mode();
    fetches();
    refusals_of_boards();
    no_sessions();
    ends();
    lends();
    limits();
    sheets();
    forecasts_of_boards();
    sums();
    forms();
    nulls();
    return failed;
}
