/* How a conversation's bytes are divided changes nothing. A device says a string of bytes, whatever it is sent; a run's own steps are lent its set, names
 * and buffers and a beginning of what is left of the string; steps that are refused with 1, 2, 3, 4 or 18 may be lent anything. The undivided run is lent
 * all that is left in each step. Whatever the list of steps, the reports are a beginning of the undivided run's; once L + L/8 own steps count, L being the
 * string's length, they are the whole of it, and the rest of the string, the buffers and the session are the same too: but for the window, where a packet
 * ended the session. Every own step counts but one that needs bytes and is delivered none while some are left. The steps of a divided run are made by value
 * and in place, as it comes. */
#include <stdio.h>
#include <stdlib.h>

#include "worgesli.h"

static int failed;

static void expect(bool so, int line, const char *what)
{
    if (so)
        return;
    fprintf(stderr, "divided.c:%d: not so: %s\n", line, what);
    failed = 1;
}

#define EXPECT(test) expect((test), __LINE__, #test)
#define COUNT(array) (sizeof(array) / sizeof(array)[0])

/* ---- numbers at random */

static uint64_t state;

static uint64_t number(void)
{
    uint64_t z = state += UINT64_C(0x9E3779B97F4A7C15);
    z = (z ^ z >> 30) * UINT64_C(0xBF58476D1CE4E5B9);
    z = (z ^ z >> 27) * UINT64_C(0x94D049BB133111EB);
    return z ^ z >> 31;
}

static size_t below(uint64_t n)
{
    return (size_t)(number() % n);
}

static bool one_in(uint64_t n)
{
    return below(n) == 0;
}

#define ANY(array) (array)[below(COUNT(array))]

static void fill(uint8_t *to, size_t n)
{
    for (size_t i = 0; i < n; i++)
        to[i] = (uint8_t)number();
}

static void put(uint8_t *to, size_t len, uint64_t value)
{
    for (size_t i = 0; i < len; i++)
        to[i] = (uint8_t)(value >> (8 * i));
}

/* ---- runs */

enum { TABLE = 280, REPLY = 64, OUT = 56, SAID = 24000 };

/* A session and its buffers, and how far it is. */
typedef struct run {
    worgesli_session session;
    uint8_t table[TABLE], reply[REPLY], out[OUT];
    size_t taken;    /* bytes of the string */
    size_t told;     /* bytes of the reports */
    uint64_t end[3]; /* what ended the session: 1 more than the phase that it was in, the answer and its number */
} run;

_Static_assert(sizeof(run) == sizeof(worgesli_session) + TABLE + REPLY + OUT + 5 * 8, "a run has no padding");

/* What a run begins with, how long its buffers are, the set and the names that are its own, and what its device says. */
typedef struct conversation {
    run begun;
    size_t table_len, reply_len, out_len, set_len, names_len, len;
    uint8_t set[64], names[24], said[SAID];
} conversation;

static conversation talk;

/* What the undivided run reports, and where it comes to. */
static uint8_t reports[3 * SAID];
static run last;

/* A right host, and wrong ones. */
typedef enum { RIGHT, DROPS_BEHIND_A_PACKET, JUDGES_WHOLE_HEADERS, ASKS_ANEW, TAKES_NOTHING, HOSTS } host_kind;

static host_kind host;

static worgesli_lent own(run *r)
{
    return (worgesli_lent){talk.set, talk.set_len, talk.names, talk.names_len, r->table, talk.table_len, r->reply, talk.reply_len, r->out, talk.out_len};
}

/* What a wrong host makes of a step that was delivered n bytes. */
static void spoil(const worgesli_session *was, const uint8_t *delivery, size_t n, worgesli_session *s, worgesli_placed *p)
{
    const bool whole = was->phase == WORGESLI_PHASE_PACKET && p->taken > 0 && (s->phase != WORGESLI_PHASE_PACKET || s->count == 0);
    const bool bad = p->answer == WORGESLI_ANSWER_REFUSED && p->first == WORGESLI_REFUSED_PACKET_LENGTH;
    if (host == DROPS_BEHIND_A_PACKET && whole && !bad)
        p->taken = n;
    if (host == JUDGES_WHOLE_HEADERS && bad && was->count > 0) {
        *s = *was, s->count = 8, memcpy(s->window + was->count, delivery, p->taken);
        p->answer = WORGESLI_ANSWER_GO, p->first = 0;
    }
    if (host == ASKS_ANEW && p->answer == WORGESLI_ANSWER_BYTES)
        s->outstanding = 0;
    if (host == TAKES_NOTHING && p->answer == WORGESLI_ANSWER_BYTES)
        p->taken = 0;
}

/* A step in place, by value, or in place in arrays of its own: by `how`, 0 to 2. */
static worgesli_placed made(worgesli_session *s, const worgesli_lent *l, const uint8_t *delivery, size_t n, size_t how)
{
    const worgesli_session was = *s;
    worgesli_placed p;
    if (how == 0) {
        p = worgesli_step_at(s, l, delivery, n);
    } else if (how == 1) {
        const worgesli_stepped r = worgesli_step(was, delivery, n, l->set, l->set_len, l->names, l->names_len, l->table, l->table_len, l->reply, l->reply_len,
                                                 l->out, l->out_len);
        *s = r.session, p = (worgesli_placed){r.taken, r.first, r.second, r.answer, 0};
    } else {
        uint32_t head[4] = {was.mode, was.command, was.backend, was.phase};
        uint64_t numbers[9] = {was.reads, was.count, was.at, was.base, was.len, was.done, was.outstanding, was.due, was.width};
        uint8_t *const parts = (uint8_t *)s;
        p = worgesli_step_in_place(head, numbers, s->window, delivery, n, l->set, l->set_len, l->names, l->names_len, l->table, l->table_len, l->reply,
                                   l->reply_len, l->out, l->out_len);
        memcpy(parts, head, sizeof head), memcpy(parts + offsetof(worgesli_session, reads), numbers, sizeof numbers);
    }
    spoil(&was, delivery, n, s, &p);
    return p;
}

/* Writes what a step reports, and gives how many bytes that is: go and refusals report nothing, and each byte that is handed out is a report. */
static size_t report(uint8_t *to, const worgesli_placed *p, const uint8_t *delivery, const worgesli_lent *l)
{
    const bool sent = p->answer == WORGESLI_ANSWER_SEND, image = p->answer == WORGESLI_ANSWER_IMAGE;
    const size_t first = (size_t)p->first, len = sent ? first : (size_t)p->second;
    if (p->answer == WORGESLI_ANSWER_GO || p->answer == WORGESLI_ANSWER_REFUSED)
        return 0;
    if (p->answer == WORGESLI_ANSWER_BYTES) {
        for (size_t i = 0; i < first; i++)
            to[2 * i] = WORGESLI_ANSWER_BYTES, to[2 * i + 1] = delivery[i];
        return 2 * first;
    }
    to[0] = (uint8_t)p->answer;
    if (!sent && !image) {
        put(to + 1, 8, p->first), put(to + 9, 8, p->second);
        return 17;
    }
    put(to + 1, 8, len), memcpy(to + 9, sent ? l->out : l->set + first, len);
    return 9 + len;
}

/* One own step, delivered the first k bytes of what is left; writes what it reports, and gives how many bytes that is. */
static size_t own_step(run *r, size_t k, size_t how, uint8_t *told, worgesli_placed *p)
{
    const worgesli_lent l = own(r);
    const uint8_t *const delivery = talk.said + r->taken;
    const uint32_t phase = r->session.phase;
    *p = made(&r->session, &l, delivery, k, how);
    r->taken += p->taken;
    if (phase != WORGESLI_PHASE_ENDED && r->session.phase == WORGESLI_PHASE_ENDED)
        r->end[0] = phase + 1, r->end[1] = p->answer, r->end[2] = p->first;
    return report(told, p, delivery, &l);
}

static size_t enough(void)
{
    return talk.len + talk.len / 8;
}

static void undivided(void)
{
    run was;
    worgesli_placed p;
    last = talk.begun;
    for (size_t steps = enough(); steps > 0; steps--) {
        was = last;
        last.told += own_step(&last, talk.len - last.taken, 0, reports + last.told, &p);
        if (memcmp(&was, &last, sizeof last) == 0) /* so it stays */
            return;
    }
}

/* ---- what came: each answer, finish and refusal, the refusals of steps that were lent something else, and what else is worth a count */

static unsigned answers[9], finishes[5], refusals[30], others[30], divisions, steps, empty, uncounted, windows;

static void tally(const worgesli_placed *p, size_t k, bool counts)
{
    EXPECT(p->answer < COUNT(answers) && p->first < (p->answer == WORGESLI_ANSWER_REFUSED ? COUNT(refusals) : SIZE_MAX));
    steps++, answers[p->answer]++;
    if (p->answer == WORGESLI_ANSWER_FINISHED)
        finishes[p->first % COUNT(finishes)]++;
    if (p->answer == WORGESLI_ANSWER_REFUSED)
        refusals[p->first]++;
    empty += k == 0, uncounted += !counts;
}

/* ---- divided runs */

/* How a string is divided: behind each byte whose bit is set in `cuts`; or, where `most` is not 0, at random, no delivery being longer, one in so many of them
 * empty, one step in so many lent something else and refused for it (0: none). */
typedef struct division {
    uint32_t cuts;
    size_t most;
    unsigned empty, others;
} division;

static size_t delivered(const division *d, size_t taken)
{
    const size_t left = talk.len - taken, most = d->most < left ? d->most : left;
    size_t k = 0;
    if (d->most > 0)
        return most == 0 || (d->empty > 0 && one_in(d->empty)) ? 0 : one_in(4) ? most : 1 + below(one_in(3) && most > 8 ? 8 : most);
    while (k < left && (k++, (d->cuts >> (taken + k - 1) & 1) == 0))
        ;
    return k;
}

/* A step that is lent something else and must be refused for it, with nothing changed. */
static bool refused(const run *r)
{
    static const uint8_t none[8], bad[8] = {65};
    const worgesli_session *const s = &r->session;
    const bool fills = s->phase != WORGESLI_PHASE_PACKET && s->phase != WORGESLI_PHASE_ENDED && s->count > 0, reply = s->phase <= WORGESLI_PHASE_SWITCHED;
    run lent = *r, was;
    uint64_t why = s->phase == WORGESLI_PHASE_ENDED ? WORGESLI_REFUSED_ENDED : fills ? WORGESLI_REFUSED_LIMIT : WORGESLI_REFUSED_OUT_BUFFER;
    if (one_in(2))
        why = 1 + below(3);
    const bool set = why == WORGESLI_REFUSED_IMAGE_SET, names = why == WORGESLI_REFUSED_NAME_LIST, limit = why == WORGESLI_REFUSED_LIMIT;
    const worgesli_lent l = {set ? bad : none, 8, names ? bad : none, 8,
                             lent.table, limit && !reply ? below(s->count) : talk.table_len,
                             lent.reply, limit && reply ? below(s->count) : talk.reply_len,
                             lent.out, why == WORGESLI_REFUSED_OUT_BUFFER ? below(WORGESLI_OUT_LEN) : WORGESLI_OUT_LEN};
    fill(lent.out, OUT), was = lent;
    uint8_t delivery[40];
    fill(delivery, sizeof delivery);
    const worgesli_placed p = made(&lent.session, &l, delivery, below(sizeof delivery + 1), below(3));
    others[why]++;
    return p.answer == WORGESLI_ANSWER_REFUSED && p.first == why && p.second == 0 && p.taken == 0 && memcmp(&lent, &was, sizeof was) == 0;
}

/* Whether a run came to what the undivided one came to. */
static bool ends_alike(run *r)
{
    const bool other = memcmp(r->session.window, last.session.window, sizeof last.session.window) != 0;
    if (r->end[0] == WORGESLI_PHASE_PACKET + 1)
        memcpy(r->session.window, last.session.window, sizeof last.session.window);
    windows += other;
    return memcmp(r, &last, sizeof last) == 0;
}

/* A divided run: NULL, or in what it departs from the undivided one. It ends with the last own step of enough; a long one with some that change nothing. */
static const char *departs(const division *d)
{
    static uint8_t told[2 * SAID + 64];
    run r = talk.begun, was;
    size_t counted = 0, rests = 0;
    worgesli_placed p;
    divisions++;
    while (counted < enough() && (rests < 3 || talk.len < 100)) {
        if (d->others > 0 && one_in(d->others) && !refused(&r))
            return "a step that is lent something else";
        const size_t k = delivered(d, r.taken);
        const bool counts = k > 0 || r.taken == talk.len || worgesli_wanted(r.session) == 0;
        was = r;
        const size_t n = own_step(&r, k, below(3), told, &p);
        if (n > last.told - r.told || memcmp(told, reports + r.told, n) != 0)
            return "a report";
        r.told += n;
        tally(&p, k, counts);
        counted += counts, rests = memcmp(&was, &r, sizeof r) == 0 ? rests + counts : 0;
    }
    return ends_alike(&r) ? NULL : "the end";
}

static void must(const char *departs, const division *d)
{
    if (departs == NULL || failed)
        return;
    fprintf(stderr, "divided.c: %s; cuts %#x, at most %zu bytes a delivery; opened with %u, %u, %u; table %zu, reply %zu, out %zu bytes; of %zu bytes:", departs,
            (unsigned)d->cuts, d->most, (unsigned)talk.begun.session.mode, (unsigned)talk.begun.session.command, (unsigned)talk.begun.session.backend,
            talk.table_len, talk.reply_len, talk.out_len, talk.len);
    for (size_t i = 0; i < talk.len; i++)
        fprintf(stderr, " %02x", talk.said[i]);
    fprintf(stderr, "\n");
    failed = 1;
}

/* ---- what a device says */

static void open_session(uint32_t mode, uint32_t command, uint32_t backend)
{
    memset(&talk, 0, offsetof(conversation, said));
    talk.begun.session = worgesli_open(mode, command, backend);
    talk.table_len = TABLE, talk.reply_len = REPLY, talk.out_len = OUT, talk.set_len = 8, talk.names_len = 8;
    fill(talk.begun.table, TABLE), fill(talk.begun.reply, REPLY), fill(talk.begun.out, OUT);
}

static void say_noise(size_t n)
{
    fill(talk.said + talk.len, n), talk.len += n;
}

/* A header with this length field, and so many bytes more, zeros. */
static void say_framed(uint32_t command, uint32_t len, size_t body)
{
    uint8_t *const to = talk.said + talk.len;
    put(to, 4, command), put(to + 4, 4, len), memset(to + 8, 0, body);
    talk.len += 8 + body;
}

/* A packet of numbers of so many bytes each. */
static void say_packet(uint32_t command, size_t width, size_t n, uint64_t a, uint64_t b, uint64_t c)
{
    const uint64_t values[] = {a, b, c};
    say_framed(command, (uint32_t)(8 + n * width), 0);
    for (size_t i = 0; i < n; i++, talk.len += width)
        put(talk.said + talk.len, width, values[i]);
}

/* Packets that a session is refused for, and a hello. */
static void say_odd(void)
{
    static const struct {
        uint32_t command, len;
        size_t body;
    } rows[] = {{1, 7, 0}, {3, 4097, 12}, {0x15, 8, 0}, {0x6D783F3C, 8, 0}, {0x0C, 12, 4}, {0x12, 31, 23}, {5, 8, 0}, {3, 21, 13}, {8, 300, 292}, {1, 48, 40}};
    const size_t i = below(COUNT(rows));
    say_framed(rows[i].command, rows[i].len, rows[i].body);
}

/* Images are asked for, of up to three slots, the second of which is absent. */
static void say_images(void)
{
    const worgesli_slot slots[] = {{"image", 5}, {NULL, 0}, {"more", 4}};
    const size_t n = below(4);
    talk.set_len = worgesli_bundle(slots, n, talk.set, sizeof talk.set);
    say_framed(WORGESLI_KIND_HELLO, 48, 40);
    for (size_t i = below(4); i > 0; i--) {
        const uint64_t id = one_in(5) ? below(4) : 2 * below((n + 1) / 2 + (n == 0)), offset = below(4), len = below(one_in(5) ? 6 : 2);
        const bool wide = one_in(2);
        say_packet(wide ? WORGESLI_KIND_READ_DATA64 : WORGESLI_KIND_READ_DATA, wide ? 8 : 4, 3, id, offset, len);
        if (one_in(2))
            say_packet(WORGESLI_KIND_END_OF_IMAGE, 4, 2, id, one_in(6), 0), say_packet(WORGESLI_KIND_DONE_RESP, 4, 1, one_in(3), 0, 0);
    }
    if (one_in(2))
        say_odd();
    say_packet(one_in(2) ? WORGESLI_KIND_RESET_RESP : WORGESLI_KIND_DONE, 4, 0, 0, 0, 0), say_noise(below(9));
}

/* A command is answered. */
static void say_response(void)
{
    static const uint64_t lens[] = {0, 1, 3, 20, 63, 64, 65};
    const uint64_t len = ANY(lens);
    say_packet(WORGESLI_KIND_COMMAND_READY, 4, 0, 0, 0, 0), say_packet(WORGESLI_KIND_EXECUTE_RESP, 4, 2, below(one_in(8) ? 6 : 4), len, 0), say_noise(len + 5);
}

/* Entries of a table of this width, so many bytes; gives the bytes of the regions that are selected, by the name "a" or, where there is none, as preferred. */
static size_t entries(uint8_t *to, size_t n, size_t width, bool named)
{
    static const char *const names[] = {"A.BIN", "a.x", "a.", "A.BIN", "a.bin", "B", "", "A.CDEFGHIJKLMNOPQRST", "A\xff", "A\0\xff"};
    static const size_t lens[] = {0, 1, 20, 511, 512, 600, 4096, 5000};
    const size_t size = 3 * width + 40;
    size_t all = 0;
    memset(to, 0, n);
    for (; n >= size; n -= size, to += size) {
        const char *const name = ANY(names);
        const size_t len = ANY(lens);
        const bool preferred = !one_in(5);
        put(to, width, preferred), put(to + width, width, one_in(9) ? UINT64_MAX - below(2) : below(9000)), put(to + 2 * width, width, len);
        memcpy(to + size - 20, name, name[0] == 'A' && name[1] == 0 ? 3 : strlen(name));
        all += (named ? name[0] != 0 && name[1] == '.' : preferred) ? len : 0;
    }
    return all;
}

/* Memory is offered, its table said and then what is asked for; now and then a little more or less. */
static void say_memory(void)
{
    const size_t width = one_in(2) ? 4 : 8, size = 3 * width + 40, n = below(5) * size + (one_in(3) ? below(20) : 0);
    const bool named = one_in(3);
    if (named)
        talk.names_len = worgesli_bundle(&(worgesli_slot){"a", 1}, 1, talk.names, sizeof talk.names);
    say_packet(width == 4 ? WORGESLI_KIND_MEM_DEBUG : WORGESLI_KIND_MEM_DEBUG64, width, 2, below(9000), one_in(30) ? 65537 : n, 0);
    const size_t all = entries(talk.said + talk.len, n, width, named);
    talk.len += n, say_noise(one_in(3) ? all + 9 - below(all < 9 ? 9 : 18) : all);
}

/* Any of these; damaged, in short buffers or with a malformed bundle now and then. */
static void any_conversation(void)
{
    static const uint32_t commands[] = {0, 1, 2, 3, WORGESLI_COMMAND_NONE};
    const size_t kind = below(8);
    open_session((uint32_t)below(4), ANY(commands), (uint32_t)below(2));
    if (kind == 0)
        say_odd(), say_noise(below(60));
    else if (kind < 3)
        say_images();
    else if (kind < 5)
        say_response();
    else
        say_memory();
    if (one_in(4))
        talk.said[below(talk.len)] = (uint8_t)below(30);
    if (one_in(6))
        talk.len = below(talk.len + 1);
    talk.table_len -= one_in(12) ? below(TABLE + 1) : 0, talk.reply_len -= one_in(12) ? below(REPLY + 1) : 0;
    talk.out_len -= one_in(30) ? below(OUT + 1) : below(OUT - WORGESLI_OUT_LEN + 1);
    if (one_in(30))
        *(one_in(2) ? talk.set : talk.names) = 65;
}

/* ---- every division of short strings */

static void every_composition(void)
{
    static const struct {
        uint32_t command, len;
        uint64_t numbers[2];
        size_t body, rest; /* bytes of these numbers, bytes behind them */
    } rows[] = {{WORGESLI_KIND_MEM_DEBUG, 16, {0x80000000, 0}, 8, 0}, {WORGESLI_KIND_EXECUTE_RESP, 16, {1, 0}, 8, 0},
                {WORGESLI_KIND_END_OF_IMAGE, 16, {0, 0}, 8, 0},       {WORGESLI_KIND_DONE_RESP, 12, {0, 0}, 4, 2},
                {WORGESLI_KIND_RESET_RESP, 8, {0, 0}, 0, 5},          {WORGESLI_KIND_COMMAND_READY, 8, {0, 0}, 0, 5},
                {WORGESLI_KIND_HELLO, 7, {0, 0}, 0, 3},               {WORGESLI_KIND_DONE_RESP, 8, {0, 0}, 0, 4},
                {WORGESLI_KIND_DONE, 9, {0, 0}, 1, 3},                {0x15, 11, {0, 0}, 3, 1}};
    for (size_t i = 0; i < COUNT(rows); i++) {
        open_session((uint32_t)i % 4, 1, (uint32_t)i % 2);
        say_framed(rows[i].command, rows[i].len, rows[i].body), say_noise(rows[i].rest);
        put(talk.said + 8, rows[i].body < 4 ? rows[i].body : 4, rows[i].numbers[0]);
        put(talk.said + 12, rows[i].body < 8 ? 0 : 4, rows[i].numbers[1]);
        undivided();
        for (division d = {0, 0, 0, 0}; d.cuts < UINT32_C(1) << (talk.len - 1) && !failed; d.cuts++)
            must(departs(&d), &d);
    }
}

/* L + L/8 steps are needed: 18, one byte a step, of 16 bytes, and 17 are not enough. */
static void as_many_steps_as_that(void)
{
    for (int i = 0; i < 2; i++) {
        uint8_t told[100];
        worgesli_placed p;
        open_session(WORGESLI_MODE_COMMAND, 1, WORGESLI_BACKEND_SERIAL);
        say_packet(i == 0 ? WORGESLI_KIND_MEM_DEBUG : WORGESLI_KIND_EXECUTE_RESP, 4, 2, 1, 0, 0), undivided();
        run r = talk.begun;
        for (size_t n = 0; n < 18; n++) {
            EXPECT(r.told < last.told);
            r.told += own_step(&r, n < 16, n % 3, told, &p);
        }
        EXPECT(talk.len == 16 && enough() == 18 && ends_alike(&r));
    }
}

/* ---- conversations at random */

/* Makes so many conversations with the host, and divides each: how many it departs in. */
static unsigned at_random(unsigned conversations)
{
    static const size_t mosts[] = {1, 3, 16, 512, 600, SAID};
    unsigned departed = 0;
    for (unsigned i = 0; i < conversations && !failed; i++) {
        const char *in = NULL;
        any_conversation(), undivided();
        for (int j = 0; j < 3 && in == NULL; j++) {
            division d = {0, ANY(mosts), one_in(2) ? 0 : 2 + (unsigned)below(6), one_in(2) ? 0 : 20};
            d.most += talk.len / 200;
            in = departs(&d);
            if (host == RIGHT)
                must(in, &d);
        }
        departed += in != NULL;
    }
    return departed;
}

static void conversations_at_random(void)
{
    memset(answers, 0, sizeof answers), memset(finishes, 0, sizeof finishes), memset(refusals, 0, sizeof refusals);
    EXPECT(at_random(4000) == 0);
    for (size_t i = 0; i < COUNT(answers); i++)
        EXPECT(answers[i] > 30);
    for (size_t i = 1; i < COUNT(finishes); i++)
        EXPECT(finishes[i] > 30);
    for (size_t i = 1; i <= 24; i++)
        EXPECT(i == WORGESLI_REFUSED_LIMIT || i == WORGESLI_REFUSED_CLOSED ? refusals[i] == 0 : refusals[i] > 30);
    for (size_t i = 1; i <= 4; i++)
        EXPECT(others[i] > 30);
    EXPECT(others[WORGESLI_REFUSED_LIMIT] > 30 && empty > 5000 && uncounted > 5000 && windows > 500);
}

/* ---- the law of one step */

static bool same(const worgesli_placed *a, const worgesli_placed *b)
{
    return a->answer == b->answer && a->first == b->first && a->second == b->second;
}

/* A step that is delivered d bytes and e behind them is the step that is delivered d alone; or that one and then, since it took all of these, the next one. */
static bool law(const run *begun, const uint8_t *bytes, size_t d, size_t e, unsigned *joined)
{
    static uint8_t told[2 * SAID + 64], due[2 * SAID + 64];
    run parts = *begun, once = *begun;
    const worgesli_lent lent = own(&parts), l = own(&once);
    const worgesli_placed p = made(&parts.session, &lent, bytes, d, below(3)), r = made(&once.session, &l, bytes, d + e, below(3));
    if (same(&p, &r) && p.taken == r.taken && memcmp(&parts, &once, sizeof once) == 0)
        return true;
    size_t n = report(told, &p, bytes, &lent);
    const worgesli_placed q = made(&parts.session, &lent, bytes + d, e, below(3));
    n += report(told + n, &q, bytes + d, &lent);
    if (begun->session.phase == WORGESLI_PHASE_PACKET && once.session.phase == WORGESLI_PHASE_ENDED)
        memcpy(once.session.window, parts.session.window, sizeof once.session.window);
    joined[begun->session.phase % 8]++;
    return p.taken == d && r.taken == d + q.taken && n == report(due, &r, bytes, &l) && memcmp(told, due, n) == 0 &&
           memcmp(&parts, &once, sizeof once) == 0 && (p.answer != WORGESLI_ANSWER_GO || same(&r, &q));
}

/* A session in any phase, or nearly one, with what a device says; gives how many bytes of the string a packet that it holds has of it. */
static size_t made_up(run *r)
{
    any_conversation();
    *r = talk.begun;
    worgesli_session *const s = &r->session;
    const size_t width = one_in(2) ? 4 : 8, held = below((talk.len < 60 ? talk.len : 60) + 1), most = talk.table_len + 3;
    s->phase = (uint32_t)(one_in(4) ? 0 : below(one_in(30) ? 8 : 7)), s->width = 8 * width;
    s->reads = one_in(20) ? (UINT64_C(1) << 63) + below(3) : below(99);
    s->count = below(s->phase <= WORGESLI_PHASE_SWITCHED ? talk.reply_len + 2 : most);
    fill(s->window, sizeof s->window), entries(r->table, TABLE, width, false);
    if (s->phase == WORGESLI_PHASE_PACKET)
        s->count = held, memcpy(s->window, talk.said, held < sizeof s->window ? held : sizeof s->window);
    else if (s->phase == WORGESLI_PHASE_RESPONSE || s->phase == WORGESLI_PHASE_TABLE)
        s->at = one_in(3) ? 0 : below(s->count + 2);
    else if (s->phase == WORGESLI_PHASE_BETWEEN || s->phase == WORGESLI_PHASE_REGION)
        s->at = below(s->count / 64 + 2);
    if (s->phase == WORGESLI_PHASE_REGION) {
        s->len = below(5000), s->base = one_in(5) ? (width == 4 ? 0xFFFFFFFFu : UINT64_MAX) - below(600) : below(9000);
        s->done = one_in(2) ? 0 : below(s->len + 1), s->outstanding = one_in(3) ? 0 : below(s->len - s->done + 2), s->due = one_in(6);
    }
    if (one_in(20))
        *(one_in(2) ? &s->width : &s->due) = number();
    return s->phase == WORGESLI_PHASE_PACKET ? held : 0;
}

static void law_of_one_step(void)
{
    unsigned joined[8] = {0};
    for (int round = 0; round < 20000 && !failed; round++) {
        run r;
        const uint64_t seed = state;
        const size_t from = made_up(&r), d = below(one_in(2) ? talk.len - from + 1 : (talk.len - from) / 8 + 1), e = below(talk.len - from - d + 1);
        if (!law(&r, talk.said + from, d, e, joined)) {
            fprintf(stderr, "divided.c: the law of one step: seed %#llx, round %d, phase %u, delivered %zu and %zu bytes\n", (unsigned long long)seed, round,
                    (unsigned)r.session.phase, d, e);
            failed = 1;
        }
    }
    EXPECT(joined[WORGESLI_PHASE_PACKET] > 300 && joined[WORGESLI_PHASE_RESPONSE] > 100);
    EXPECT(joined[WORGESLI_PHASE_TABLE] > 100 && joined[WORGESLI_PHASE_REGION] > 100);
}

/* ---- wrong hosts */

static void wrong_hosts(void)
{
    for (host = DROPS_BEHIND_A_PACKET; host < HOSTS; host++) {
        const unsigned departed = at_random(400);
        if (departed < 4) {
            fprintf(stderr, "divided.c: wrong host %d departs in %u conversations\n", (int)host, departed);
            failed = 1;
        }
    }
    host = RIGHT;
}

int main(void)
{
    every_composition();
    as_many_steps_as_that();
    conversations_at_random();
    law_of_one_step();
    wrong_hosts();
    return failed;
}
