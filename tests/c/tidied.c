/* A device gets the same from an image set and from its tidy form: lists of steps of any session, made with either, each step lent all else alike, by value
 * and in place. Answers with their values, bytes taken, sessions and buffers must be the same, and of an image its length and bytes; where it starts in its set
 * need not be.
 */
#include <stdio.h>
#include <stdlib.h>

#include "worgesli.h"

static int failed;

static void expect(bool so, int line, const char *what)
{
    if (so)
        return;
    fprintf(stderr, "tidied.c:%d: not so: %s\n", line, what);
    failed = 1;
}

#define EXPECT(test) expect((test), __LINE__, #test)
#define COUNT(array) (sizeof(array) / sizeof(array)[0])

/* ---- numbers at random */

static uint64_t state;

static uint64_t number(void)
{
    uint64_t z = state += UINT64_C(0x9E3779B97F4A7C15);
    z = (z ^ z >> 30) * UINT64_C(0xBF58476D1CE4E5B9);
    z = (z ^ z >> 27) * UINT64_C(0x94D049BB133111EB);
    return z ^ z >> 31;
}

static size_t below(uint64_t n)
{
    return (size_t)(number() % n);
}

static bool one_in(uint64_t n)
{
    return below(n) == 0;
}

#define ANY(array) (array)[below(COUNT(array))]

static void fill(uint8_t *to, size_t n)
{
    for (size_t i = 0; i < n; i++)
        to[i] = (uint8_t)number();
}

static void put(uint8_t *to, size_t len, uint64_t value)
{
    for (size_t i = 0; i < len; i++)
        to[i] = (uint8_t)(value >> (8 * i));
}

/* ---- sets and forms */

enum { DATA = 40, LONGEST = 8 + 8 * WORGESLI_SLOTS + DATA * WORGESLI_SLOTS };

typedef struct bundle {
    uint8_t bytes[LONGEST];
    size_t len;
} bundle;

/* A set, and what its slots have, which are parts of its bytes. */
typedef struct image_set {
    bundle all;
    worgesli_slot slots[WORGESLI_SLOTS];
    size_t n;
} image_set;

/* At random: gaps, ranges that are shared or overlap, empty images, absent slots between others and at the end, often all but the first. */
static void any_set(image_set *set)
{
    static const size_t counts[] = {0, 1, 2, 3, 63, 64};
    const size_t n = one_in(2) ? below(WORGESLI_SLOTS + 1) : ANY(counts), size = below(DATA + 1), present = one_in(3) ? below(n + 1) : one_in(4) ? 1 : n;
    uint8_t *const bytes = set->all.bytes, *const data = bytes + 8 + 8 * n;
    set->n = n, set->all.len = 8 + 8 * n + size;
    put(bytes, 4, n), put(bytes + 4, 4, size), fill(data, size);
    for (size_t i = 0; i < n; i++) {
        const size_t start = below(size + 1), len = one_in(5) ? 0 : below(size - start + 1);
        set->slots[i] = (worgesli_slot){data + start, len};
        if (i > 0 && one_in(8))
            set->slots[i] = set->slots[below(i)];
        if (i >= present || one_in(8))
            set->slots[i] = (worgesli_slot){NULL, 0};
        const uint8_t *const from = set->slots[i].bytes;
        put(bytes + 8 + 4 * i, 4, from == NULL ? 0xFFFFFFFFu : (uint64_t)(from - data)), put(bytes + 8 + 4 * (n + i), 4, set->slots[i].len);
    }
}

/* The tidy form, as the archive writes it; or one that is wrong, written here. */
typedef enum { RIGHT, ALL_DROPPED, ONE_DROPPED, A_SLOT_MORE, ANOTHER_BYTE, ANOTHER_START, ANOTHER_LENGTH, EMPTY_IS_ABSENT, FORMS } form_kind;

static void make_form(const image_set *set, form_kind kind, bundle *form)
{
    worgesli_slot slots[WORGESLI_SLOTS];
    size_t n = set->n;
    if (kind == RIGHT) {
        const worgesli_tidied r = worgesli_tidy(set->all.bytes, set->all.len, form->bytes, sizeof form->bytes);
        EXPECT(r.refused == 0 && worgesli_tidy_len(set->all.bytes, set->all.len).len == r.len);
        form->len = r.len;
        return;
    }
    memcpy(slots, set->slots, sizeof slots);
    while ((kind == ALL_DROPPED || (kind == ONE_DROPPED && n == set->n)) && n > 0 && slots[n - 1].bytes == NULL)
        n--;
    if (kind == A_SLOT_MORE && n < WORGESLI_SLOTS)
        slots[n++] = (worgesli_slot){NULL, 0};
    for (size_t i = 0; i < n; i++)
        if (kind == EMPTY_IS_ABSENT && slots[i].len == 0)
            slots[i].bytes = NULL;
    form->len = worgesli_bundle(slots, n, form->bytes, sizeof form->bytes);
    if (kind == ANOTHER_BYTE && form->len > 8 + 8 * n)
        form->bytes[8 + 8 * n + below(form->len - 8 - 8 * n)] ^= 1;
    for (size_t i = 0; i < n; i++)
        if (slots[i].bytes == NULL && (kind == ANOTHER_START || kind == ANOTHER_LENGTH))
            put(form->bytes + 8 + 4 * (kind == ANOTHER_LENGTH ? n + i : i), 4, kind == ANOTHER_LENGTH);
}

/* ---- what a device says */

/* A command, the length of the whole, and numbers of so many bytes each. */
static size_t packet(uint8_t *to, uint32_t command, size_t width, size_t n, uint64_t a, uint64_t b, uint64_t c)
{
    const uint64_t values[] = {a, b, c};
    put(to, 4, command), put(to + 4, 4, 8 + n * width);
    for (size_t i = 0; i < n; i++)
        put(to + 8 + width * i, width, values[i]);
    return 8 + n * width;
}

/* One that a session is refused for, and a hello. */
static size_t odd(uint8_t *to)
{
    static const struct {
        uint32_t command, len;
        size_t bytes;
    } rows[] = {{1, 7, 8}, {3, 4097, 20}, {0x15, 8, 8}, {0x6D783F3C, 8, 8}, {0x0C, 12, 12}, {0x12, 31, 31}, {5, 8, 8}, {3, 21, 21}, {8, 300, 300}, {1, 48, 48}};
    const size_t i = below(COUNT(rows));
    memset(to, 0, rows[i].bytes), put(to, 4, rows[i].command), put(to + 4, 4, rows[i].len);
    return rows[i].bytes;
}

/* One that asks for a part of an image: IDs around the slot count, ranges around the image's end. */
static size_t asked(uint8_t *to, const image_set *set)
{
    const uint64_t ids[] = {set->n, set->n + 1, set->n - (set->n > 0), 0, 1, below(set->n + 1), number(), UINT64_C(1) << 32};
    uint64_t id = ANY(ids);
    for (int tries = 0; tries < 3 && (id >= set->n || set->slots[id].bytes == NULL); tries++) /* one that is there, where that is easily found */
        id = below(set->n + 1);
    const uint64_t slot = set->n == 1 ? 0 : id, size = slot < set->n ? set->slots[slot].len : 3;
    const uint64_t offsets[] = {0, 0, below(size + 1), size, size + 1}, offset = ANY(offsets), rest = offset < size ? size - offset : 0;
    const uint64_t lens[] = {rest, rest, below(rest + 1), 0, rest + 1}, len = ANY(lens);
    if (one_in(2))
        return packet(to, WORGESLI_KIND_READ_DATA, 4, 3, id, offset, len);
    return packet(to, WORGESLI_KIND_READ_DATA64, 8, 3, id, one_in(16) ? UINT64_MAX - below(2) : offset, len);
}

/* Any packet; gives its length. */
static size_t said(uint8_t *to, const image_set *set)
{
    static const uint64_t tables[] = {0, 1, 52, 64, 128, 170, 280, 281, 65537}, replies[] = {0, 3, 64, 65};
    const size_t which = below(34);
    if (which < 17)
        return asked(to, set);
    if (which < 22)
        return packet(to, WORGESLI_KIND_DONE_RESP, 4, 1, which < 21 ? 0 : 1 + below(2), 0, 0);
    if (which < 24)
        return packet(to, WORGESLI_KIND_END_OF_IMAGE, 4, 2, below(3), one_in(4), 0);
    if (which < 25)
        return packet(to, WORGESLI_KIND_COMMAND_READY, 4, 0, 0, 0, 0);
    if (which < 27)
        return packet(to, WORGESLI_KIND_EXECUTE_RESP, 4, 2, below(4), ANY(replies), 0);
    if (which < 29)
        return packet(to, WORGESLI_KIND_MEM_DEBUG, 4, 2, number(), ANY(tables), 0);
    if (which < 31)
        return packet(to, WORGESLI_KIND_MEM_DEBUG64, 8, 2, number(), ANY(tables), 0);
    if (which < 32)
        return packet(to, WORGESLI_KIND_RESET_RESP, 4, 0, 0, 0, 0);
    return odd(to);
}

/* Entries of a table of this width, and a part of one: so many bytes. */
static void entries(uint8_t *to, size_t n, uint64_t width)
{
    static const char *const names[] = {"A.BIN", "A.BIN", "a.x", "OCIMEM.BIN", "B", "", "ABCDEFGHIJKLMNOPQRST", "A\xff", "A\0\xff"};
    static const uint64_t lens[] = {0, 1, 600, 4096};
    const size_t bytes = (size_t)width / 8, size = 3 * bytes + 40;
    memset(to, 0, n);
    for (; n >= size; n -= size, to += size) {
        const char *const name = ANY(names);
        put(to, bytes, !one_in(5)), put(to + bytes, bytes, one_in(6) ? UINT64_MAX - below(2) : below(9000)), put(to + 2 * bytes, bytes, ANY(lens));
        memcpy(to + size - 20, name, name[0] == 'A' && name[1] == 0 ? 3 : strlen(name));
    }
}

/* ---- two runs */

typedef struct run {
    worgesli_session session;
    uint8_t table[280], reply[64], out[52];
} run;

/* What a step is lent beside the set: of a run's buffers so many bytes. */
typedef struct lent {
    const uint8_t *delivery, *names;
    size_t delivery_len, names_len, table_len, reply_len, out_len;
} lent;

static bool same(const run *a, const run *b)
{
    return memcmp(&a->session, &b->session, sizeof a->session) == 0 && memcmp(a->table, b->table, sizeof a->table) == 0 &&
           memcmp(a->reply, b->reply, sizeof a->reply) == 0 && memcmp(a->out, b->out, sizeof a->out) == 0;
}

/* A step in place; and by value, with buffers of its own, which comes to the same. */
static worgesli_placed step(run *r, const lent *l, const bundle *set)
{
    run v = *r;
    const worgesli_lent all = {set->bytes, set->len, l->names, l->names_len, r->table, l->table_len, r->reply, l->reply_len, r->out, l->out_len};
    const worgesli_placed p = worgesli_step_at(&r->session, &all, l->delivery, l->delivery_len);
    const worgesli_stepped s = worgesli_step(v.session, l->delivery, l->delivery_len, set->bytes, set->len, l->names, l->names_len, v.table, l->table_len, v.reply,
                                             l->reply_len, v.out, l->out_len);
    v.session = s.session;
    EXPECT(same(r, &v) && p.taken == s.taken && p.first == s.first && p.second == s.second && p.answer == s.answer);
    EXPECT(!worgesli_is_session(v.session) || p.waits == (v.session.phase == WORGESLI_PHASE_REGION ? worgesli_wanted(v.session) : 0));
    return p;
}

/* Whether two steps tell a device the same. */
static bool tell_the_same(worgesli_placed a, const bundle *set, worgesli_placed b, const bundle *form)
{
    if (a.answer != b.answer || a.taken != b.taken || a.second != b.second)
        return false;
    if (a.answer != WORGESLI_ANSWER_IMAGE)
        return a.first == b.first;
    const bool within = a.first <= set->len && a.second <= set->len - a.first && b.first <= form->len && b.second <= form->len - b.first;
    EXPECT(within);
    return within && memcmp(set->bytes + a.first, form->bytes + b.first, (size_t)a.second) == 0;
}

/* ---- what came: each answer, each finish, each refusal, and what else is worth a count */

static unsigned answers[9], finishes[5], refusals[30], moved, other_id, gone_on, nothing_finished;

static void tally(unsigned *counts, size_t n, uint64_t i)
{
    EXPECT(i < n);
    if (i < n)
        counts[i]++;
}

static void count(uint32_t phase, const run *r, worgesli_placed a, worgesli_placed b, const image_set *set)
{
    bool first_alone = set->n > 1 && set->slots[0].bytes != NULL;
    for (size_t i = 1; i < set->n; i++)
        first_alone &= set->slots[i].bytes == NULL;
    const bool whole = phase == WORGESLI_PHASE_PACKET && r->session.phase == phase && r->session.count == 0 && a.taken > 0;
    moved += a.answer == WORGESLI_ANSWER_IMAGE && a.second > 0 && a.first != b.first;
    other_id += first_alone && a.answer == WORGESLI_ANSWER_REFUSED && a.first == WORGESLI_REFUSED_NO_IMAGE;
    gone_on += first_alone && a.answer == WORGESLI_ANSWER_GO && whole; /* only a DoneResp is whole and answered by go */
    nothing_finished += set->n == 1 && set->slots[0].bytes == NULL && a.answer == WORGESLI_ANSWER_FINISHED && a.first == WORGESLI_FINISHED_IMAGES_SENT;
}

/* What the last two steps gave. */
static worgesli_placed last[2];

/* ---- sessions at random */

/* Just opened, made up in any phase, or numbers that are no session. What its device has said goes to `queue`; gives how much. */
static size_t begin(run *r, const image_set *set, uint8_t *queue)
{
    static const uint32_t commands[] = {0, 1, 2, 3, WORGESLI_COMMAND_NONE};
    static const uint64_t lens[] = {0, 1, 512, 600, 4096, 5000};
    worgesli_session *const s = &r->session;
    size_t queued = 0;
    *s = worgesli_open((uint32_t)below(4), ANY(commands), (uint32_t)below(2));
    fill(r->reply, sizeof r->reply), fill(r->out, sizeof r->out);
    const uint64_t width = one_in(2) ? WORGESLI_WIDTH_32 : WORGESLI_WIDTH_64;
    entries(r->table, sizeof r->table, width);
    if (one_in(2))
        return 0;
    s->phase = (uint32_t)(one_in(3) ? 0 : below(7)), s->width = width, s->reads = one_in(20) ? (UINT64_C(1) << 63) + below(3) : below(99);
    s->count = below(s->phase <= WORGESLI_PHASE_SWITCHED ? 66 : 282);
    if (s->phase == WORGESLI_PHASE_PACKET) {
        const size_t len = said(queue, set);
        s->count = below(len), queued = len - s->count;
        memcpy(s->window, queue, s->count < sizeof s->window ? s->count : sizeof s->window), memmove(queue, queue + s->count, queued);
        s->count += one_in(20) ? below(5000) : 0;
    } else if (s->phase == WORGESLI_PHASE_RESPONSE || s->phase == WORGESLI_PHASE_TABLE) {
        s->at = below(s->count + 2);
    } else if (s->phase == WORGESLI_PHASE_BETWEEN || s->phase == WORGESLI_PHASE_REGION) {
        s->at = below(s->count / 64 + 2);
    }
    if (s->phase == WORGESLI_PHASE_REGION) {
        const uint64_t end = width == 32 ? 0xFFFFFFFFu : UINT64_MAX;
        s->len = ANY(lens), s->base = one_in(5) ? end - below(600) : below(9000), s->done = one_in(2) ? 0 : below(s->len + 1);
        s->outstanding = one_in(2) ? 0 : below(s->len - s->done + 2), s->due = one_in(6);
    }
    if (one_in(12))
        *(one_in(2) ? &s->width : &s->due) = number();
    return queued;
}

/* What a device says next, by the phase. */
static size_t speech(uint8_t *to, const worgesli_session *s, const image_set *set)
{
    static const size_t lens[] = {1, 5, 64, 600};
    const size_t n = ANY(lens);
    if (s->phase == WORGESLI_PHASE_PACKET)
        return said(to, set);
    fill(to, n);
    if (s->phase == WORGESLI_PHASE_TABLE)
        entries(to, n, s->width == 32 ? 32 : 64);
    return n;
}

/* Makes a list of steps with either set: whether one tells them apart. */
static bool apart(const image_set *set, const bundle *form)
{
    static const uint8_t none[8], absent[16] = {1, 0, 0, 0, 0, 0, 0, 0, 255, 255, 255, 255}, names[] = {1, 0, 0, 0, 1, 0, 0, 0, 0, 0, 0, 0, 1, 0, 0, 0, 'a'};
    static uint8_t queue[2048];
    static bundle other;
    run ours, theirs;
    size_t queued = begin(&ours, set, queue);
    memcpy(&theirs, &ours, sizeof ours);
    for (size_t steps = 1 + below(12); steps > 0; steps--) {
        if (queued < 700)
            queued += speech(queue + queued, &ours.session, set);
        const bool bad = one_in(40), named = one_in(5);
        const lent l = {queue, bad ? absent : named ? names : none, one_in(12) ? 0 : one_in(2) ? queued : below(queued + 1),
                        bad ? sizeof absent : named ? sizeof names : sizeof none, sizeof ours.table - (one_in(20) ? 1 + below(280) : 0),
                        sizeof ours.reply - (one_in(20) ? 1 + below(64) : 0), sizeof ours.out - (one_in(30) ? 1 + below(52) : 0)};
        /* now and then the same set in both runs: the form, or that without its last byte, which is malformed */
        const bool others = one_in(25);
        if (others)
            memcpy(&other, form, sizeof other), other.len -= one_in(2) ? 1 : 0;
        const uint32_t phase = ours.session.phase;
        const worgesli_placed a = step(&ours, &l, others ? &other : &set->all), b = step(&theirs, &l, others ? &other : form);
        last[0] = a, last[1] = b;
        if (!tell_the_same(a, others ? &other : &set->all, b, others ? &other : form) || !same(&ours, &theirs) || (others && a.first != b.first))
            return true;
        tally(answers, COUNT(answers), a.answer);
        if (a.answer == WORGESLI_ANSWER_FINISHED)
            tally(finishes, COUNT(finishes), a.first);
        if (a.answer == WORGESLI_ANSWER_REFUSED)
            tally(refusals, COUNT(refusals), a.first);
        if (!others)
            count(phase, &ours, a, b, set);
        memmove(queue, queue + a.taken, queued -= a.taken);
        if (phase == WORGESLI_PHASE_ENDED || (a.answer == WORGESLI_ANSWER_REFUSED && a.first == WORGESLI_REFUSED_LIMIT && one_in(2)))
            return false;
    }
    return false;
}

static void any_session(void)
{
    static image_set set;
    static bundle form;
    for (int round = 0; round < 40000 && !failed; round++) {
        any_set(&set), make_form(&set, RIGHT, &form);
        if (apart(&set, &form)) {
            fprintf(stderr, "tidied.c: in round %d a set of %zu slots and its tidy form are told apart:\n", round, set.n);
            for (size_t i = 0; i < 2; i++)
                fprintf(stderr, "    answer %u, %llu, %llu, %zu bytes taken\n", (unsigned)last[i].answer, (unsigned long long)last[i].first,
                        (unsigned long long)last[i].second, last[i].taken);
            failed = 1;
        }
    }
    if (failed)
        return;
    for (size_t i = 0; i < COUNT(answers); i++)
        EXPECT(answers[i] > 20);
    for (size_t i = 1; i < COUNT(finishes); i++)
        EXPECT(finishes[i] > 20);
    for (size_t i = 1; i <= 24; i++)
        EXPECT(i == WORGESLI_REFUSED_CLOSED || refusals[i] > 20);
    EXPECT(moved > 500 && other_id > 100 && gone_on > 100 && nothing_finished > 10);
}

/* Wrong forms are told apart from their sets. */
static void wrong_forms(void)
{
    static image_set set;
    static bundle form;
    for (form_kind kind = ALL_DROPPED; kind < FORMS; kind++) {
        unsigned told = 0;
        for (int round = 0; round < 5000 && !failed; round++)
            any_set(&set), make_form(&set, kind, &form), told += apart(&set, &form);
        EXPECT(failed || told > 20);
        if (told <= 20)
            fprintf(stderr, "tidied.c: wrong form %d: %u\n", (int)kind, told);
    }
}

/* ---- the case of the request */

/* Of one image and an absent second slot: the image is served under its own ID, the other ID is refused, and a device that is done with status 0 may go on. So it
 * is from the tidy form. The image alone is served under every ID, and there is nothing to go on with. */
static void one_image_and_an_absent_second_slot(void)
{
    static const bundle sets[] = {
        {{2, 0, 0, 0, 9, 0, 0, 0, 3, 0, 0, 0, 255, 255, 255, 255, 5, 0, 0, 0, 0, 0, 0, 0, 'a', 'b', 'c', 'i', 'm', 'a', 'g', 'e', 'x'}, 33},
        {{2, 0, 0, 0, 5, 0, 0, 0, 0, 0, 0, 0, 255, 255, 255, 255, 5, 0, 0, 0, 0, 0, 0, 0, 'i', 'm', 'a', 'g', 'e'}, 29},
        {{1, 0, 0, 0, 5, 0, 0, 0, 0, 0, 0, 0, 5, 0, 0, 0, 'i', 'm', 'a', 'g', 'e'}, 21}};
    static const uint8_t none[8];
    static bundle form;
    const worgesli_session open = worgesli_open(WORGESLI_MODE_WAITING_FOR_IMAGE, WORGESLI_COMMAND_NONE, WORGESLI_BACKEND_USB);
    for (size_t i = 0; i < COUNT(sets); i++) {
        const bundle *const due = &sets[i == 0 ? 1 : i];
        form.len = worgesli_tidy(sets[i].bytes, sets[i].len, form.bytes, sizeof form.bytes).len;
        EXPECT(form.len == due->len && memcmp(form.bytes, due->bytes, form.len) == 0);
        for (uint64_t what = 0; what < 6; what++) {
            uint8_t said[32];
            const bool wide = what % 2 == 1;
            const size_t n = what >= 4 ? packet(said, WORGESLI_KIND_DONE_RESP, 4, 1, what - 4, 0, 0)
                                       : packet(said, wide ? WORGESLI_KIND_READ_DATA64 : WORGESLI_KIND_READ_DATA, wide ? 8 : 4, 3, what / 2, 0, 5);
            const lent l = {said, none, n, sizeof none, 0, 0, WORGESLI_OUT_LEN};
            run r = {open, {0}, {0}, {0}};
            const worgesli_placed p = step(&r, &l, &sets[i]);
            EXPECT(p.taken == n);
            if (what < 2 || (what < 4 && i == 2)) /* either read of ID 0, and of ID 1 where the image is alone */
                EXPECT(p.answer == WORGESLI_ANSWER_IMAGE && p.second == 5 && memcmp(sets[i].bytes + p.first, "image", 5) == 0);
            else if (what < 4)
                EXPECT(p.answer == WORGESLI_ANSWER_REFUSED && p.first == WORGESLI_REFUSED_NO_IMAGE);
            else if (what == 5 || i == 2) /* done: with status 1, and where the image is alone */
                EXPECT(p.answer == WORGESLI_ANSWER_FINISHED && p.first == WORGESLI_FINISHED_IMAGES_SENT);
            else
                EXPECT(p.answer == WORGESLI_ANSWER_GO && r.session.phase == WORGESLI_PHASE_PACKET && r.session.count == 0);
        }
    }
}

int main(void)
{
    one_image_and_an_absent_second_slot();
    any_session();
    wrong_forms();
    return failed;
}
