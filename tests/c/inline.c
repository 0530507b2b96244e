/* What include/worgesli.h has in line: the refusals' words and the bundles; a region sheet by its macros, a forecast, and tidy forms beside the bundles.
 * Compiled and run as C and as C++.
 */
#include <stdio.h>
#include <stdlib.h>

#include "worgesli.h"

static int failed;

static void expect(bool so, int line, const char *what)
{
    if (so)
        return;
    fprintf(stderr, "inline.c:%d: not so: %s\n", line, what);
    failed = 1;
}

#define EXPECT(test) expect((test), __LINE__, #test)

static worgesli_slot slot(const void *bytes, size_t len)
{
    worgesli_slot s;
    s.bytes = bytes;
    s.len = len;
    return s;
}

/* ---- refusals */

static void words(void)
{
    const char *none = worgesli_refusal_text(0);
    EXPECT(strcmp(none, "no such refusal") == 0);
    for (uint64_t n = 1; n <= 29; n++) {
        EXPECT(strcmp(worgesli_refusal_text(n), none) != 0);
        for (uint64_t m = 1; m < n; m++)
            EXPECT(strcmp(worgesli_refusal_text(n), worgesli_refusal_text(m)) != 0);
    }
    EXPECT(strcmp(worgesli_refusal_text(30), none) == 0 && strcmp(worgesli_refusal_text(UINT64_MAX), none) == 0);
    EXPECT(strcmp(worgesli_refusal_text((UINT64_C(1) << 32) + 1), none) == 0);
    EXPECT(strcmp(worgesli_refusal_text(WORGESLI_REFUSED_CLOSED), "the channel was closed before the end") == 0);
    EXPECT(WORGESLI_REFUSED_IMAGE_SET == 1 && WORGESLI_REFUSED_LIMIT == 18 && WORGESLI_REFUSED_CLOSED == 23);
    EXPECT(WORGESLI_REFUSED_REGION_END == 22 && WORGESLI_REFUSED_REGION_END_32 == 24 && WORGESLI_REFUSED_SHEET_PAGE == 25);
    EXPECT(strcmp(worgesli_refusal_text(WORGESLI_REFUSED_SHEET_PAGE), "the page has fewer than 57 bytes for each entry of the table") == 0);
    EXPECT(WORGESLI_REFUSED_FORECAST_NAMES == 26 && WORGESLI_REFUSED_FORECAST_SUM == 27);
    EXPECT(strcmp(worgesli_refusal_text(WORGESLI_REFUSED_FORECAST_SUM), "the bytes or the memory reads of a forecast are above 2^64 - 1") == 0);
    EXPECT(WORGESLI_REFUSED_TIDY_SET == 28 && WORGESLI_REFUSED_TIDY_ROOM == 29);
    EXPECT(strcmp(worgesli_refusal_text(WORGESLI_REFUSED_TIDY_SET), "the image set that is to be tidied is malformed") == 0);
    EXPECT(strcmp(worgesli_refusal_text(WORGESLI_REFUSED_TIDY_ROOM), "the tidy form is longer than its buffer, or has more than 2^32 - 2 data bytes") == 0);
}

/* ---- a region sheet */

/* The longest table there can be, with a page of the macro's length; one byte less is too short, and the page stays. */
static void sheet(void)
{
    static const char first[] = "A.BIN                0000000000000002 0000000000000003 *\n";
    static uint8_t table[WORGESLI_TABLE_LEN], page[WORGESLI_SHEET_LEN];
    table[0] = 1, table[4] = 2, table[8] = 3, memcpy(table + 32, "A.BIN", 5);
    worgesli_sheet r = worgesli_region_sheet(table, sizeof table, WORGESLI_WIDTH_32, page, sizeof page - 1);
    EXPECT(r.refused == WORGESLI_REFUSED_SHEET_PAGE && r.written == 0 && page[0] == 0 && page[sizeof page - 2] == 0);
    r = worgesli_region_sheet(table, sizeof table, WORGESLI_WIDTH_32, page, sizeof page);
    EXPECT(r.refused == 0 && r.written == sizeof page && r.written == 1260 * WORGESLI_SHEET_LINE_LEN);
    EXPECT(sizeof first == WORGESLI_SHEET_LINE_LEN + 1 && memcmp(page, first, WORGESLI_SHEET_LINE_LEN) == 0);
    for (size_t i = 0; i < sizeof page; i++)
        EXPECT((page[i] == '\n') == (i % WORGESLI_SHEET_LINE_LEN == WORGESLI_SHEET_LINE_LEN - 1));
}

/* ---- a forecast */

/* The longest table there can be, of regions of one byte, with as many names as there can be, of which the last selects them all. */
static void forecast(void)
{
    static uint8_t table[WORGESLI_TABLE_LEN], names[1024];
    worgesli_slot slots[WORGESLI_SLOTS];
    for (size_t i = 0; i < WORGESLI_SLOTS; i++)
        slots[i] = slot(i < WORGESLI_SLOTS - 1 ? "other" : "a", i < WORGESLI_SLOTS - 1 ? 5 : 1);
    const size_t len = worgesli_bundle(slots, WORGESLI_SLOTS, names, sizeof names);
    for (size_t i = 0; i < 1260; i++)
        table[52 * i + 8] = 1, memcpy(table + 52 * i + 32, "A.BIN", 5);
    worgesli_forecast r = worgesli_forecast_table(table, sizeof table, WORGESLI_WIDTH_32, names, len);
    EXPECT(r.refused == 0 && r.regions == 1260 && r.bytes == 1260 && r.reads == 1261);
    r = worgesli_forecast_table(table, sizeof table, WORGESLI_WIDTH_32, names, len - 1);
    EXPECT(r.refused == WORGESLI_REFUSED_FORECAST_NAMES && r.regions == 0 && r.bytes == 0 && r.reads == 0);
}

/* ---- tidy forms */

/* "ef", none, "abc", an empty image, "bcd", none, none; '-' is no slot's. */
static const uint8_t untidy[] = {7, 0, 0, 0, 7, 0, 0, 0, 5, 0, 0, 0, 255, 255, 255, 255, 0, 0, 0, 0, 3, 0, 0, 0, 1, 0, 0, 0, 255, 255, 255, 255, 255, 255, 255, 255,
                                 2, 0, 0, 0, 0, 0, 0, 0, 3, 0, 0, 0, 0, 0, 0, 0, 3, 0, 0, 0, 0, 0, 0, 0, 0, 0, 0, 0, 'a', 'b', 'c', 'd', '-', 'e', 'f'};
static const uint8_t tidied[] = {7, 0, 0, 0, 8, 0, 0, 0, 0, 0, 0, 0, 255, 255, 255, 255, 2, 0, 0, 0, 5, 0, 0, 0, 5, 0, 0, 0, 255, 255, 255, 255, 255, 255, 255, 255,
                                 2, 0, 0, 0, 0, 0, 0, 0, 3, 0, 0, 0, 0, 0, 0, 0, 3, 0, 0, 0, 0, 0, 0, 0, 0, 0, 0, 0, 'e', 'f', 'a', 'b', 'c', 'b', 'c', 'd'};

/* A set in a buffer of so many bytes comes to this form, with the rest as it was; or is refused (form NULL), and all is as it was. */
static void tidies(const uint8_t *set, size_t set_len, const uint8_t *form, size_t len, size_t room, uint32_t refused)
{
    uint8_t *to = (uint8_t *)malloc(room + 1);
    memset(to, 0x5a, room + 1);
    const worgesli_tidied r = worgesli_tidy(set, set_len, to, room);
    EXPECT(r.refused == refused && r.len == (refused == 0 ? len : 0));
    EXPECT(refused != 0 || memcmp(to, form, len) == 0);
    for (size_t i = refused == 0 ? len : 0; i <= room; i++)
        EXPECT(to[i] == 0x5a);
    free(to);
}

static void tidy(void)
{
    static const uint8_t zeros[9] = {0}, absent[24] = {2, 0, 0, 0, 0, 0, 0, 0, 255, 255, 255, 255, 255, 255, 255, 255}, many[8] = {65};
    static const uint8_t gap[25] = {2, 0, 0, 0, 1, 0, 0, 0, 255, 255, 255, 255, 255, 255, 255, 255};
    for (size_t room = 0; room < 80; room++) {
        tidies(untidy, sizeof untidy, tidied, sizeof tidied, room, room < sizeof tidied ? WORGESLI_REFUSED_TIDY_ROOM : 0);
        tidies(tidied, sizeof tidied, tidied, sizeof tidied, room, room < sizeof tidied ? 29 : 0);
        /* without an image: no slot, or none that is there */
        tidies(zeros, 8, zeros, 8, room, room < 8 ? 29 : 0);
        tidies(absent, 24, absent, 24, room, room < 24 ? 29 : 0);
        tidies(gap, 25, absent, 24, room, room < 24 ? 29 : 0);
        /* malformed, whatever the room */
        tidies(untidy, sizeof untidy - 1, NULL, 0, room, WORGESLI_REFUSED_TIDY_SET);
        tidies(zeros, 7, NULL, 0, room, 28);
        tidies(zeros, 9, NULL, 0, room, 28);
        tidies(many, 8, NULL, 0, room, 28);
        tidies(NULL, 0, NULL, 0, room, 28);
    }
    EXPECT(worgesli_tidy_len(untidy, sizeof untidy).len == sizeof tidied && worgesli_tidy_len(untidy, sizeof untidy).refused == 0);
    EXPECT(worgesli_tidy_len(gap, sizeof gap).len == sizeof absent && worgesli_tidy_len(gap, sizeof gap).refused == 0);
    EXPECT(worgesli_tidy_len(untidy, sizeof untidy - 1).refused == 28 && worgesli_tidy_len(untidy, sizeof untidy - 1).len == 0);
    EXPECT(worgesli_tidy_len(NULL, 0).refused == 28 && worgesli_tidy(NULL, 0, NULL, 0).refused == 28);
    EXPECT(worgesli_tidy(zeros, 8, NULL, 0).refused == 29 && worgesli_tidy(zeros, 8, NULL, 0).len == 0);
}

/* ---- bundles */

static void known(void)
{
    static const uint8_t empty[8] = {0}, one[] = {1, 0, 0, 0, 3, 0, 0, 0, 0, 0, 0, 0, 3, 0, 0, 0, 'a', 'b', 'c'};
    static const uint8_t four[] = {4, 0, 0, 0, 5, 0, 0, 0, 0, 0, 0, 0, 255, 255, 255, 255, 2, 0, 0, 0, 2, 0, 0, 0,
                                   2, 0, 0, 0, 0, 0, 0, 0, 0, 0, 0, 0, 3, 0, 0, 0, 'a', 'b', 'c', 'd', 'e'};
    uint8_t to[64];
    EXPECT(worgesli_bundle(NULL, 0, to, sizeof to) == 8 && memcmp(to, empty, 8) == 0);
    EXPECT(worgesli_check_images(to, 8) == 0 && worgesli_check_names(to, 8) == 0);
    worgesli_slot slots[4] = {slot("abc", 3), slot(NULL, 0), slot("", 0), slot("cde", 3)};
    EXPECT(worgesli_bundle(slots, 1, to, sizeof to) == sizeof one && memcmp(to, one, sizeof one) == 0);
    EXPECT(worgesli_check_names(to, sizeof one) == 0);
    slots[0].len = 2;
    EXPECT(worgesli_bundle(slots, 4, to, sizeof to) == sizeof four && memcmp(to, four, sizeof four) == 0);
    EXPECT(worgesli_check_images(to, sizeof four) == 0 && worgesli_check_names(to, sizeof four) == WORGESLI_REFUSED_NAME_LIST);
    EXPECT(worgesli_image_range(to, sizeof four, 1, 0, 0).refused == WORGESLI_REFUSED_NO_IMAGE);
    EXPECT(worgesli_image_range(to, sizeof four, 2, 0, 0).refused == 0 && worgesli_image_range(to, sizeof four, 2, 0, 1).refused == WORGESLI_REFUSED_IMAGE_END);
}

/* Where it does not fit or cannot be, nothing is written; the bytes behind it never are. */
static void untouched(const worgesli_slot *slots, size_t n, size_t room, size_t size)
{
    uint8_t *to = (uint8_t *)malloc(room + 1);
    memset(to, 0x5a, room + 1);
    EXPECT(worgesli_bundle(slots, n, to, room) == size);
    for (size_t i = size > 0 && size <= room ? size : 0; i <= room; i++)
        EXPECT(to[i] == 0x5a);
    free(to);
}

static void hostile(void)
{
    const size_t large = 0xFFFFFFFEu, most = SIZE_MAX; /* as much data as there can be */
    worgesli_slot slots[65];
    for (size_t i = 0; i < 65; i++)
        slots[i] = slot("x", 1);
    for (size_t room = 0; room < 40; room++)
        untouched(slots, 2, room, 26);
    untouched(slots, 64, 8 + 9 * 64 - 1, 8 + 9 * 64);
    untouched(slots, 64, 8 + 9 * 64 + 5, 8 + 9 * 64);
    untouched(slots, 65, 1000, 0);
    untouched(slots, most, 1000, 0);
    untouched(slots, most / 8 + 1, 1000, 0);
    untouched(NULL, 1, 1000, 0);
    EXPECT(worgesli_bundle(slots, 2, NULL, most) == 26 && worgesli_bundle(slots, 2, NULL, 0) == 26);
    /* lengths of which no byte is read: the size is told, or that there is none */
    slots[1] = slot(NULL, 1), untouched(slots, 2, 1000, 0);
    slots[1] = slot(NULL, most), untouched(slots, 2, 1000, 0);
    slots[1] = slot("x", most), untouched(slots, 2, 1000, 0);
    slots[1] = slot("x", most - 1), untouched(slots, 2, 1000, 0);
    slots[1] = slot("x", most - 24), untouched(slots, 2, 1000, 0);
    slots[1] = slot("x", large), untouched(slots, 2, 1000, 0);
    slots[1] = slot("x", large - 1), untouched(slots, 2, 1000, 24 + large);
    slots[0] = slot("x", 0), slots[1] = slot("x", large), untouched(slots, 2, 1000, 24 + large);
    slots[1] = slot("x", large + 1), untouched(slots, 2, 1000, 0);
    slots[0] = slot("x", large), slots[1] = slot("x", 0), untouched(slots, 2, 1000, 24 + large);
    slots[1] = slot(NULL, 0), untouched(slots, 2, 1000, 24 + large);
    slots[1] = slot("x", 1), untouched(slots, 2, 1000, 0);
    slots[0] = slot("x", large / 2 + 1), slots[1] = slots[0], untouched(slots, 2, 1000, 0);
    slots[1] = slot("x", large / 2), untouched(slots, 2, 1000, 0);
    slots[1] = slot("x", large / 2 - 1), untouched(slots, 2, 1000, 24 + large);
}

/* The slots, which are parts of these bytes, as a set over all of them, in which they share what they share: its tidy form is their bundle, and that of their
 * bundle too. */
static void tidy_is_bundle(const worgesli_slot *slots, size_t n, const uint8_t *bytes, size_t len)
{
    static uint8_t set[1024];
    const size_t size = 8 + 8 * n + len;
    EXPECT(size <= sizeof set);
    worgesli_put(set, n), worgesli_put(set + 4, len), memcpy(set + 8 + 8 * n, bytes, len);
    for (size_t i = 0; i < n; i++) {
        worgesli_put(set + 8 + 4 * i, slots[i].bytes == NULL ? 0xFFFFFFFFu : (size_t)((const uint8_t *)slots[i].bytes - bytes));
        worgesli_put(set + 8 + 4 * n + 4 * i, slots[i].len);
    }
    const size_t due = worgesli_bundle(slots, n, NULL, 0);
    uint8_t *bundle = (uint8_t *)malloc(due);
    EXPECT(worgesli_bundle(slots, n, bundle, due) == due);
    EXPECT(worgesli_tidy_len(set, size).len == due && worgesli_tidy_len(bundle, due).len == due);
    tidies(set, size, bundle, due, due, 0);
    tidies(set, size, bundle, due, due - 1, WORGESLI_REFUSED_TIDY_ROOM);
    tidies(bundle, due, bundle, due, due, 0);
    free(bundle);
}

/* Slots at random, in a buffer of just their length: well formed, and each slot's bytes stand where the archive looks for them. */
static void random_slots(void)
{
    static uint8_t bytes[300];
    uint32_t x = 1;
    for (size_t i = 0; i < sizeof bytes; i++)
        bytes[i] = (uint8_t)(i * 7);
    for (int turn = 0; turn < 3000; turn++) {
        worgesli_slot slots[WORGESLI_SLOTS];
        const size_t n = (size_t)turn % (WORGESLI_SLOTS + 1);
        bool absent = false;
        for (size_t i = 0; i < n; i++) {
            x = x * 1664525 + 1013904223;
            const size_t from = x >> 8 & 127, len = x >> 16 & 3 ? x >> 20 & 127 : 0;
            slots[i] = x >> 28 == 0 || (turn % 5 == 0 && i > n / 2) ? slot(NULL, 0) : slot(bytes + from, len);
            absent |= slots[i].bytes == NULL;
        }
        const size_t size = worgesli_bundle(slots, n, NULL, 0);
        uint8_t *set = (uint8_t *)malloc(size);
        EXPECT(size >= 8 && worgesli_bundle(slots, n, set, size) == size);
        EXPECT(worgesli_check_images(set, size) == 0 && (worgesli_check_names(set, size) == 0) == !absent);
        for (size_t i = 0; i < n; i++) {
            const worgesli_range all = worgesli_image_range(set, size, i, 0, slots[i].len);
            EXPECT(all.refused == (slots[i].bytes == NULL ? WORGESLI_REFUSED_NO_IMAGE : 0));
            EXPECT(slots[i].len == 0 || memcmp(set + all.start, slots[i].bytes, slots[i].len) == 0);
            EXPECT(slots[i].bytes == NULL || worgesli_image_range(set, size, i, 0, slots[i].len + 1).refused == WORGESLI_REFUSED_IMAGE_END);
        }
        free(set);
        tidy_is_bundle(slots, n, bytes, sizeof bytes);
    }
}

int main(void)
{
    words();
    sheet();
    forecast();
    tidy();
    known();
    hostile();
    random_slots();
    return failed;
}
