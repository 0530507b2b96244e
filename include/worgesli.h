/* Worgesli: a proved host of the Sahara protocol. C interface of libworgesli.a (x86-64 Linux; `tools/archive`), for C11 and C++11.
 *
 * No function does input or output, keeps anything, or allocates. A byte string crosses as a pointer and a length; NULL with length 0 is allowed.
 * The caller sees to two things: a pointer has as many bytes as its length, or as its array, says, and what is not const overlaps no other argument.
 * Everything else is defined, whatever the arguments.
 *
 * A fetch: open a session (worgesli_open). Then, until an answer is finished or refused: ask how many bytes the next step wants (worgesli_wanted_at), read
 * at most so many from the device where it is not 0, make the step with what came, even if it is less (worgesli_step_at), and do what it answers, all of
 * it, before the next step. Bytes that came and were not taken (`taken`) are lent again. examples/fetch.c is such a program.
 *
 * What is lent to each step of a session (worgesli_lent):
 *   set, names  an image set and a name list, each a bundle; empty ones are 8 zero bytes. Not well formed: refused 1, 2
 *   table       where the device's memory table goes: the same bytes in each step. It may have up to WORGESLI_TABLE_LEN, and one that is announced
 *               longer than what is lent, or than that, is refused 17. NULL where no memory is dumped. A device offers its memory with addresses and
 *               lengths of 64 bits (MemDebug64) or, as older boards do, of 32 (MemDebug); the fetch is the same, and session.width says how wide the
 *               numbers in the table are (worgesli_entry_at)
 *   reply       where the response to a command goes: the same bytes in each step, as many as the caller likes; a longer response is refused 16
 *   out         where packets are built that are to be sent: at least WORGESLI_OUT_LEN bytes, or refused 3
 * A table or reply that is shorter in a later step than what it is to hold: refused 18.
 *
 * A bundle: slot count n (at most WORGESLI_SLOTS) and data size, 4 bytes each; n starts, n lengths, 4 bytes each; the data. Numbers are little-endian, a
 * start counts from the data's beginning, ranges may overlap, and nothing follows the data. Start 0xFFFFFFFF with length 0: the slot is absent, which an
 * image set may have and a name list not. worgesli_bundle makes one. The slot of an image is its ID; where n is 1, slot 0 serves every ID. A name
 * selects the regions whose filename up to its first '.' is the same but for case ("ocimem": OCIMEM.BIN; where a filename has no '.', all its 20 bytes, zeros
 * too); no names: those that the device prefers.
 */
#ifndef WORGESLI_H
#define WORGESLI_H

#include <stdbool.h>
#include <stddef.h>
#include <stdint.h>
#include <string.h>

#ifdef __cplusplus
extern "C" {
#endif

/* The number of this interface: another where a struct, or what a function takes or gives, is of another shape. A file that includes this header links only with an archive of the same
 * number. Who finds the functions at run time (dlopen) defines WORGESLI_AT_RUN_TIME before, and compares worgesli_abi() with it. */
#define WORGESLI_ABI 2

#define WORGESLI_OUT_LEN 48
#define WORGESLI_TABLE_LEN 65536
#define WORGESLI_SLOTS 64
#define WORGESLI_SHEET_LINE_LEN 57
#define WORGESLI_SHEET_LEN 71820 /* the longest sheet of a table of up to WORGESLI_TABLE_LEN: 1,260 entries of 32 bits */

/* mode */
#define WORGESLI_MODE_WAITING_FOR_IMAGE 0u
#define WORGESLI_MODE_IMAGE_TRANSFER_COMPLETE 1u
#define WORGESLI_MODE_MEMORY_DEBUG 2u
#define WORGESLI_MODE_COMMAND 3u

/* command of a session */
#define WORGESLI_COMMAND_NOP 0u
#define WORGESLI_COMMAND_READ_SERIAL_NUM 1u
#define WORGESLI_COMMAND_READ_HW_ID 2u
#define WORGESLI_COMMAND_READ_OEM_KEY_HASH 3u
#define WORGESLI_COMMAND_NONE 0xFFFFFFFFu

/* backend: with USB there are empty reads */
#define WORGESLI_BACKEND_SERIAL 0u
#define WORGESLI_BACKEND_USB 1u

/* width of a device's addresses and lengths in bits, in its memory debug and in its table */
#define WORGESLI_WIDTH_32 32u /* MemDebug; a table's entry has 52 bytes */
#define WORGESLI_WIDTH_64 64u /* MemDebug64, and a session before either came; 64 bytes */

/* phase of a session */
#define WORGESLI_PHASE_PACKET 0u   /* count: packet bytes held */
#define WORGESLI_PHASE_RESPONSE 1u /* count: declared length; at: bytes there */
#define WORGESLI_PHASE_SWITCHED 2u /* count: the reply's length */
#define WORGESLI_PHASE_TABLE 3u    /* count: declared length; at: bytes there */
#define WORGESLI_PHASE_BETWEEN 4u  /* count: the table's length; at: entry to go on from */
#define WORGESLI_PHASE_REGION 5u   /* count: the table's length; at: entry */
#define WORGESLI_PHASE_ENDED 6u    /* count: the reply's length, where one came */

/* answer of a step */
#define WORGESLI_ANSWER_GO 0u         /* nothing is to be done */
#define WORGESLI_ANSWER_SEND 1u       /* send the first `first` bytes of out */
#define WORGESLI_ANSWER_IMAGE 2u      /* send `second` bytes of the image set from its byte `first` on */
#define WORGESLI_ANSWER_OPEN 3u       /* a region begins: entry `first` of the table (worgesli_entry_at). Its filename is any UTF-8 up to a zero byte: no path yet */
#define WORGESLI_ANSWER_BYTES 4u      /* the first `first` bytes of the delivery are the open region's next: keep them */
#define WORGESLI_ANSWER_EMPTY_READ 5u /* read from USB once into an empty buffer: an empty packet ends the transfer */
#define WORGESLI_ANSWER_CLOSE 6u      /* entry `first` is whole: all its bytes were handed out */
#define WORGESLI_ANSWER_FINISHED 7u   /* the session has ended; how: `first`; memory reads: `second` */
#define WORGESLI_ANSWER_REFUSED 8u    /* why: `first` */

/* how a session finished */
#define WORGESLI_FINISHED_IMAGES_SENT 1u /* the device has its images and is done */
#define WORGESLI_FINISHED_RESET 2u       /* the device resets itself */
#define WORGESLI_FINISHED_DUMPED 3u      /* the memory is dumped: every selected region was closed, in table order */
#define WORGESLI_FINISHED_REPLY 4u       /* a reply is there: the first session.count bytes of reply */

/* kind of a packet: worgesli_packet.command */
#define WORGESLI_KIND_HELLO 0x01u
#define WORGESLI_KIND_HELLO_RESP 0x02u
#define WORGESLI_KIND_READ_DATA 0x03u
#define WORGESLI_KIND_END_OF_IMAGE 0x04u
#define WORGESLI_KIND_DONE 0x05u
#define WORGESLI_KIND_DONE_RESP 0x06u
#define WORGESLI_KIND_RESET_RESP 0x08u
#define WORGESLI_KIND_MEM_DEBUG 0x09u
#define WORGESLI_KIND_MEM_READ 0x0Au
#define WORGESLI_KIND_COMMAND_READY 0x0Bu
#define WORGESLI_KIND_EXECUTE_RESP 0x0Eu
#define WORGESLI_KIND_EXECUTE_DATA 0x0Fu
#define WORGESLI_KIND_MEM_DEBUG64 0x10u
#define WORGESLI_KIND_MEM_READ64 0x11u
#define WORGESLI_KIND_READ_DATA64 0x12u

/* what is refused: number, name (WORGESLI_REFUSED_...) and words (worgesli_refusal_text). 25 is a region sheet's (worgesli_region_sheet), 26 and 27 are a
 * forecast's (worgesli_forecast_table), 28 and 29 a tidy form's (worgesli_tidy); no step is refused for these.
 * A step is refused for the first that applies in the order of the requirement, in which 24 stands where 22 does.
 * 1, 2, 3, 4 and 18 are the caller's: session and buffers are as they were, nothing is taken, and once the bundle or buffer is right the step can be made.
 * Each other that a step is refused for ends the session: what was handed out of the open region is as it came, and not all of it. */
#define WORGESLI_REFUSALS(X)                                                                                                 \
    X(1, IMAGE_SET, "the image set is malformed: its length, a slot's range, or more than 64 slots")                         \
    X(2, NAME_LIST, "the name list is malformed: its length, a name's range, an absent name, or more than 64 names")         \
    X(3, OUT_BUFFER, "the out buffer has fewer than 48 bytes")                                                               \
    X(4, ENDED, "the session has already ended")                                                                             \
    X(5, PACKET_LENGTH, "the device sent a packet whose length is not from 8 to 4096")                                       \
    X(6, UNKNOWN, "the device sent an unknown command")                                                                      \
    X(7, XML, "the device sent XML: it runs a loader already")                                                               \
    X(8, NOT_IMPLEMENTED, "the device sent a command that is not implemented")                                               \
    X(9, BODY, "the device sent a packet too short for its kind, or a mode or command that is none")                         \
    X(10, HOST_PACKET, "the device sent a packet that only a host sends")                                                    \
    X(11, KIND_LENGTH, "the device sent a packet whose length is not that of its kind")                                      \
    X(12, NO_IMAGE, "the device asked for an image that is not in the set")                                                  \
    X(13, IMAGE_END, "the device asked for bytes past an image's end")                                                       \
    X(14, IMAGE_STATUS, "the device ended an image with an error status")                                                    \
    X(15, NO_COMMAND, "the device is ready for a command, and none was given")                                               \
    X(16, RESPONSE_LENGTH, "the device announced a response longer than the reply buffer")                                   \
    X(17, TABLE_LENGTH, "the device announced a memory table longer than 65,536 bytes or the table buffer")                  \
    X(18, LIMIT, "a lent buffer is shorter than what the session fills, or a number of the session is above its limit")      \
    X(19, FILENAME_END, "a region's filename has no zero byte")                                                              \
    X(20, FILENAME, "a region's filename is not UTF-8 before its first zero byte")                                           \
    X(21, FILENAME_BYTES, "the 20 bytes of a region's filename are not UTF-8")                                               \
    X(22, REGION_END, "a region ends above 2^64")                                                                            \
    X(23, CLOSED, "the channel was closed before the end")                                                                   \
    X(24, REGION_END_32, "a region of a 32-bit device ends above 2^32")                                                      \
    X(25, SHEET_PAGE, "the page has fewer than 57 bytes for each entry of the table")                                        \
    X(26, FORECAST_NAMES, "the name list of a forecast is malformed")                                                        \
    X(27, FORECAST_SUM, "the bytes or the memory reads of a forecast are above 2^64 - 1")                                    \
    X(28, TIDY_SET, "the image set that is to be tidied is malformed")                                                       \
    X(29, TIDY_ROOM, "the tidy form is longer than its buffer, or has more than 2^32 - 2 data bytes")

/* A session. Numbers that its phase does not use are 0. Keep it as it is: other bits are refused. A copy is a session of its own. */
typedef struct worgesli_session {
    uint32_t mode;
    uint32_t command;
    uint32_t backend;
    uint32_t phase;
    uint64_t reads; /* memory reads since opening */
    size_t count;
    size_t at;
    uint64_t base; /* base to due: of a region only */
    uint64_t len;
    uint64_t done;
    uint64_t outstanding;
    uint64_t due;   /* 1: an empty read is due */
    uint64_t width; /* of the memory debug that came: WORGESLI_WIDTH_..., in every phase */
    uint8_t window[48];
} worgesli_session;

/* What a step gives: the session to go on with, the bytes of the delivery that it took, and its answer. */
typedef struct worgesli_stepped {
    worgesli_session session;
    size_t taken;
    uint64_t first; /* the answer's values, 0 where it has none */
    uint64_t second;
    uint32_t answer;
} worgesli_stepped;

/* What a step in place gives: the same but the session. */
typedef struct worgesli_placed {
    size_t taken;
    uint64_t first;
    uint64_t second;
    uint32_t answer;
    uint64_t waits; /* of a session in a region what worgesli_wanted would say now, of any other session 0; of other bits it says nothing */
} worgesli_placed;

/* An entry of the memory table, of either width; there 0: the table has no such entry, and all is 0. */
typedef struct worgesli_entry {
    uint64_t save_pref;
    uint64_t base;
    uint64_t len;
    uint8_t description[20];
    uint8_t filename[20];
    uint32_t there;
} worgesli_entry;

/* What was written of a region sheet. */
typedef struct worgesli_sheet {
    size_t written;   /* bytes of the page, from its first on: WORGESLI_SHEET_LINE_LEN for each entry; 0 where it is refused */
    uint32_t refused; /* 0; 25: the page is shorter than that, and is as it was */
} worgesli_sheet;

/* How large a fetch is. */
typedef struct worgesli_forecast {
    uint64_t regions; /* selected */
    uint64_t bytes;   /* of these regions */
    uint64_t reads;   /* memory reads, the table's among them */
    uint32_t refused; /* 0; 26, 27: and all else is 0 */
} worgesli_forecast;

/* How long a tidy form is. */
typedef struct worgesli_tidied {
    size_t len;       /* all its bytes; 0 where it is refused */
    uint32_t refused; /* 0; 28, 29 */
} worgesli_tidied;

/* A range of an image set's bytes; refused not 0: why there is none. */
typedef struct worgesli_range {
    size_t start;
    size_t len;
    uint32_t refused;
} worgesli_range;

/* A decoded packet; refused not 0: why it is none, and all else is 0. */
typedef struct worgesli_packet {
    uint32_t refused;
    uint32_t command; /* WORGESLI_KIND_... */
    uint32_t len;     /* the length field */
    uint32_t value;   /* a hello's mode, the command of an ExecuteResp or ExecuteData */
    uint64_t first;   /* the body's other numbers in order */
    uint64_t second;
    uint64_t third;
    uint32_t unk0; /* the six unused words of a hello */
    uint32_t unk1;
    uint32_t unk2;
    uint32_t unk3;
    uint32_t unk4;
    uint32_t unk5;
} worgesli_packet;

/* The archive's WORGESLI_ABI; and the same under a name with the number in it. */
#define WORGESLI_JOINED(a, b) a##b
#define WORGESLI_JOIN(a, b) WORGESLI_JOINED(a, b)
#define WORGESLI_ABI_SYMBOL WORGESLI_JOIN(worgesli_abi_, WORGESLI_ABI)
uint32_t worgesli_abi(void);
uint32_t WORGESLI_ABI_SYMBOL(void);

/* A session just opened; no session (worgesli_is_session is false) where a number names no mode, command or backend. */
worgesli_session worgesli_open(uint32_t mode, uint32_t command, uint32_t backend);

/* One step. An empty delivery is no error. */
worgesli_stepped worgesli_step(worgesli_session session,
                               const uint8_t *delivery, size_t delivery_len,
                               const uint8_t *set, size_t set_len,
                               const uint8_t *names, size_t names_len,
                               uint8_t *table, size_t table_len,
                               uint8_t *reply, size_t reply_len,
                               uint8_t *out, size_t out_len);

/* an array of so many elements or more: of C a compiler may tell who lends fewer */
#ifdef __cplusplus
#define WORGESLI_LEAST(n) n
#else
#define WORGESLI_LEAST(n) static n
#endif

/* The same step of a session where it stands, and cheaper: its numbers from mode to phase, those from reads to width, and its window (worgesli_step_at). */
worgesli_placed worgesli_step_in_place(uint32_t head[WORGESLI_LEAST(4)], uint64_t numbers[WORGESLI_LEAST(9)], uint8_t window[WORGESLI_LEAST(48)],
                                       const uint8_t *delivery, size_t delivery_len,
                                       const uint8_t *set, size_t set_len,
                                       const uint8_t *names, size_t names_len,
                                       uint8_t *table, size_t table_len,
                                       uint8_t *reply, size_t reply_len,
                                       uint8_t *out, size_t out_len);

/* The channel was closed: refused 23, and the session has ended; 4 where it had. */
worgesli_stepped worgesli_closed(worgesli_session session);

/* Whether the bits are a session. Where they are none, a step gives them back, refused 1, 2 or 3 where one of these applies, else 18; closed, 18. */
bool worgesli_is_session(worgesli_session session);

/* How many bytes to read for the next step: 0 where it needs none. Who reads no more takes no byte of what the device says after Sahara. */
size_t worgesli_wanted(worgesli_session session);

/* The same of a session where it stands, and cheaper (worgesli_wanted_at). */
size_t worgesli_wanted_in_place(const uint32_t head[WORGESLI_LEAST(4)], const uint64_t numbers[WORGESLI_LEAST(9)], const uint8_t window[WORGESLI_LEAST(48)]);

/* 0: well formed; 1: an image set that is not; 2: a name list that is not. */
uint32_t worgesli_check_images(const uint8_t *set, size_t set_len);
uint32_t worgesli_check_names(const uint8_t *names, size_t names_len);

/* Where the bytes that a device's read asks for stand in an image set. */
worgesli_range worgesli_image_range(const uint8_t *set, size_t set_len, uint64_t id, uint64_t offset, uint64_t len);

/* Entry i of a table of this width. A table of a number that is no width has no entry. */
worgesli_entry worgesli_entry_at(const uint8_t *table, size_t table_len, uint64_t width, size_t i);

/* The first selected entry from `from` on and before `entries`; where there is none, `entries` (`from` if that is not below it). No entry behind the
 * table's end is selected or looked at: `entries` may be SIZE_MAX. Of a number that is no width none is selected. */
size_t worgesli_next_selected(const uint8_t *table, size_t table_len, uint64_t width, size_t entries, const uint8_t *names, size_t names_len, size_t from);

/* The region sheet of a table of this width, for people: a line for each entry, whether it is selected or not. A line has the filename in 20 columns, the base
 * and the length in 16 capital hexadecimal digits each, '*' where the device prefers the region, else a blank, and a blank between any two; then a line feed.
 * The filename stops at its first zero byte, and each byte outside 0x20 to 0x7E is a '?', so that a device's bytes do nothing to a terminal. A part of an entry
 * behind the last whole one is ignored; a number that is no width is answered as a table without an entry: 0 written, 0 refused. The page may be longer than the
 * sheet: its rest is as it was, and no zero byte is put behind it. Archives of number 2 from before this function do not have it: who uses dlopen looks. */
worgesli_sheet worgesli_region_sheet(const uint8_t *table, size_t table_len, uint64_t width, uint8_t *page, size_t page_len);

/* How large the fetch will be, for who must reserve space: from a table of this width and the names, a bundle as each step is lent it. The regions that are
 * selected, the sum of their lengths, and the memory reads: 1 for the table, and for each region its length / 4,096, rounded up. Nothing selected: 0, 0 and 1.
 * 26 where the names are malformed; else 27 where the bytes or the memory reads are above 2^64 - 1. Names and ends of regions are not judged here (19 to 24): a
 * region that a step would be refused for counts. A part of an entry behind the last whole one is none; of a number that is no width there is no entry.
 * Where nothing is refused here, a session from its opening on that finishes (3) opens just so many regions, hands out so many bytes and reports so many
 * memory reads, whatever its device says: if each step that is not refused is lent these names and the same table buffer, which nobody else writes, and this
 * is the table that came there. It is there when a step answers go and session.phase is WORGESLI_PHASE_BETWEEN: the first session.count bytes, of the width
 * session.width.
 * Archives of number 2 from before this function do not have it: who uses dlopen looks. */
worgesli_forecast worgesli_forecast_table(const uint8_t *table, size_t table_len, uint64_t width, const uint8_t *names, size_t names_len);

/* The tidy form of an image set, so that equal sets have equal files. Two sets are equal if their slot counts agree, and each slot has the same bytes in both or
 * is absent in both; an empty image is not absent. Just then are their tidy forms the same bytes, where neither is refused. The form is an image set itself,
 * with as many slots as the set: the data in slot order, each present image's bytes once for its slot, also where slots share them, without gaps; an empty image
 * starts where the bytes before it end; an absent slot has its mark, behind the last present one too. Of n slots without an image it is n, 0, n marks, n zeros.
 * Tidied again it stays as it is. A device gets the same answers and image bytes from a set and from its tidy form, in any session, if each step is lent all else
 * alike: only where an image starts in its set (`first` of WORGESLI_ANSWER_IMAGE) may be another number.
 * It is written to `to` from its first byte on, and what is behind it there is as it was. 28 where the set is malformed, which is looked at first; else 29 where
 * the form is longer than `to`, or has more than 2^32 - 2 data bytes (an empty image must not start at the mark of an absent one): then all of `to` is as it
 * was. Since shared bytes are written for each slot, it may be far longer than the set: worgesli_tidy_len tells.
 * Archives of number 2 from before this function and the next do not have them, and the first that have them drop absent slots behind the last present one: who
 * may meet an older archive than this header, at run time or when it is linked, looks (of one absent slot worgesli_tidy_len then tells 8, and not 16). */
worgesli_tidied worgesli_tidy(const uint8_t *set, size_t set_len, uint8_t *to, size_t to_len);

/* How long the tidy form is, for who allocates. 28 where the set is malformed; else 29, only for more than 2^32 - 2 data bytes. */
worgesli_tidied worgesli_tidy_len(const uint8_t *set, size_t set_len);

/* Whether the bytes are UTF-8. */
bool worgesli_utf8(const uint8_t *bytes, size_t bytes_len);

/* A packet, decoded from any bytes. */
worgesli_packet worgesli_parse_packet(const uint8_t *bytes, size_t bytes_len);

/* 0: out's first 8 bytes are a Reset packet; 3: out has fewer than 48 bytes, and is as it was. */
uint32_t worgesli_reset(uint8_t *out, size_t out_len);

/* ---- in line: nothing below is in the archive */

#define WORGESLI_REFUSED(number, name, words) WORGESLI_REFUSED_##name = number,
enum { WORGESLI_REFUSALS(WORGESLI_REFUSED) };
#undef WORGESLI_REFUSED

/* A refusal in words. */
static inline const char *worgesli_refusal_text(uint64_t refusal)
{
    switch (refusal) {
#define WORGESLI_REFUSED(number, name, words) \
    case number:                              \
        return words;
        WORGESLI_REFUSALS(WORGESLI_REFUSED)
#undef WORGESLI_REFUSED
    default:
        return "no such refusal";
    }
}

/* What each step of a session is lent beside the delivery. */
typedef struct worgesli_lent {
    const uint8_t *set;
    size_t set_len;
    const uint8_t *names;
    size_t names_len;
    uint8_t *table;
    size_t table_len;
    uint8_t *reply;
    size_t reply_len;
    uint8_t *out;
    size_t out_len;
} worgesli_lent;

/* One step of a session where it stands. */
static inline worgesli_placed worgesli_step_at(worgesli_session *session, const worgesli_lent *lent, const uint8_t *delivery, size_t delivery_len)
{
    return worgesli_step_in_place((uint32_t *)(void *)session, (uint64_t *)(void *)((char *)session + offsetof(worgesli_session, reads)),
                                  session->window, delivery, delivery_len, lent->set, lent->set_len, lent->names, lent->names_len,
                                  lent->table, lent->table_len, lent->reply, lent->reply_len, lent->out, lent->out_len);
}

/* How many bytes to read for its next step. */
static inline size_t worgesli_wanted_at(const worgesli_session *session)
{
    return worgesli_wanted_in_place((const uint32_t *)(const void *)session,
                                    (const uint64_t *)(const void *)((const char *)session + offsetof(worgesli_session, reads)), session->window);
}

/* The channel was closed: gives the refusal. */
static inline uint64_t worgesli_closed_at(worgesli_session *session)
{
    const worgesli_stepped closed = worgesli_closed(*session);
    *session = closed.session;
    return closed.first;
}

/* A slot of a bundle; absent where bytes is NULL and len 0. An empty one has any other pointer. */
typedef struct worgesli_slot {
    const void *bytes;
    size_t len;
} worgesli_slot;

/* Writes a number in 4 bytes. */
static inline void worgesli_put(uint8_t *to, uint64_t number)
{
    for (unsigned i = 0; i < 4; i++)
        to[i] = (uint8_t)(number >> (8 * i));
}

/* Makes a bundle of n slots, one behind the other, and gives its length: written to `to` where it fits, and where it does not, or `to` is NULL, nothing is.
 * An empty slot starts where the bytes before it end: these are the bytes of a tidy form (worgesli_tidy).
 * 0: there is none, for more than 64 slots, more than 2^32 - 2 data bytes (so that no empty slot starts at the mark of an absent one), a slot that is NULL and
 * has a length, or slots NULL where n is not 0. */
static inline size_t worgesli_bundle(const worgesli_slot *slots, size_t n, uint8_t *to, size_t to_len)
{
    uint64_t data = 0;
    if (n > WORGESLI_SLOTS || (n > 0 && slots == NULL))
        return 0;
    for (size_t i = 0; i < n; i++) {
        if ((slots[i].bytes == NULL && slots[i].len > 0) || slots[i].len > 0xFFFFFFFEu - data)
            return 0;
        data += slots[i].len;
    }
    const size_t head = 8 + 8 * n, size = head + (size_t)data;
    if (to == NULL || to_len < size)
        return size;
    worgesli_put(to, n);
    worgesli_put(to + 4, data);
    size_t at = 0;
    for (size_t i = 0; i < n; i++) {
        const worgesli_slot slot = slots[i];
        worgesli_put(to + 8 + 4 * i, slot.bytes == NULL ? 0xFFFFFFFFu : at);
        worgesli_put(to + 8 + 4 * n + 4 * i, slot.len);
        if (slot.len > 0)
            memcpy(to + head + at, slot.bytes, slot.len);
        at += slot.len;
    }
    return size;
}

#ifdef __cplusplus
}
#endif

/* ---- what fails a compilation or a link: a layout that the archive was not compiled for, another interface */

#ifdef __cplusplus
#define WORGESLI_ASSERT(test, text) static_assert(test, text)
#else
#define WORGESLI_ASSERT(test, text) _Static_assert(test, text)
#endif
WORGESLI_ASSERT(sizeof(size_t) == 8, "size_t");
WORGESLI_ASSERT(sizeof(worgesli_session) == 136, "worgesli_session");
WORGESLI_ASSERT(offsetof(worgesli_session, reads) == 16, "worgesli_session.reads");
WORGESLI_ASSERT(offsetof(worgesli_session, window) == 88, "worgesli_session.window");
WORGESLI_ASSERT(sizeof(worgesli_stepped) == 168, "worgesli_stepped");
WORGESLI_ASSERT(sizeof(worgesli_placed) == 40, "worgesli_placed");
WORGESLI_ASSERT(sizeof(worgesli_entry) == 72, "worgesli_entry");
WORGESLI_ASSERT(sizeof(worgesli_sheet) == 16, "worgesli_sheet");
WORGESLI_ASSERT(sizeof(worgesli_forecast) == 32, "worgesli_forecast");
WORGESLI_ASSERT(sizeof(worgesli_tidied) == 16, "worgesli_tidied");
WORGESLI_ASSERT(sizeof(worgesli_range) == 24, "worgesli_range");
WORGESLI_ASSERT(sizeof(worgesli_packet) == 64, "worgesli_packet");

#ifndef WORGESLI_AT_RUN_TIME
/* kept by the compiler and, where it can be said, by a linker that drops what nothing refers to */
#ifdef __has_attribute
#if __has_attribute(retain)
#define WORGESLI_KEPT __attribute__((used, retain))
#endif
#endif
#ifndef WORGESLI_KEPT
#define WORGESLI_KEPT __attribute__((used))
#endif
static uint32_t (*const worgesli_linked)(void) WORGESLI_KEPT = WORGESLI_ABI_SYMBOL;
#endif

#endif
