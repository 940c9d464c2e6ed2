/* SPDX-License-Identifier: Apache-2.0 */
/*
 * CBOR (RFC 7049, 2.1 to 2.4) out of memory and into memory. C99, and C++.
 *
 * Words. A title is a first byte and the bytes of its argument: RFC 8949 calls it a head. An open is the title of an
 * indefinite form. A spelling is an encoding. An element is a title that begins no string, or a whole string. `data`
 * begins with an item if the item comes first, whatever follows it. A fault is one of the answers whose `place` is an
 * offset.
 *
 * Calls. No call takes memory except its stack. No call calls anything outside of this library except memcpy, memmove
 * and memset. Each call except cll_version returns an answer, which is one of the numbers of cll_answer. Most calls
 * also fill in a report, as the next section says. cll_pull gives one number of bytes in place of a report, since a
 * program calls it for each title. The calls that set something up or look into a cll_item have no report.
 *
 * Arguments. `data`, `out`, `titles` and `key` may be null if their length is 0. No other pointer may be null. What a
 * call writes must not overlap anything else that the caller gives it, so no call works in place. cll_overlap tells
 * whether two pieces of memory overlap.
 *
 * Threads. Only a cll_checker, a cll_parser, a cll_copier and a cll_item_copier keep anything between calls, in the
 * caller's own memory. So calls may run in several threads at once, if no call writes what another call uses.
 *
 * REPORTS. Each call that has a report fills in all six numbers of it. A number that has no meaning for a call is 0.
 * With CLL_ARGUMENT all six are 0.
 *
 * `consumed` is how many bytes of `data` the call consumed. With CLL_SHORT it says where the read stopped. Of
 * cll_headers it counts whole titles and their bodies alone.
 *
 * `written` is how many bytes the call wrote to the start of `out`. After these bytes `out` is as it was. Of
 * cll_headers it is how many titles were filled. After the bytes that cll_canonical wrote the contents are unknown.
 *
 * `place` depends on the answer. With CLL_SYNTAX, CLL_BREAK_DUE, CLL_TOO_DEEP and the four answers of cll_deterministic
 * alone it is the offset of the fault. With CLL_SHORT it is how many bytes are due, if the call says that. With CLL_OK
 * of cll_checker_feed and cll_item_copier_feed it is the length of the item, in all pieces together. Otherwise it is 0.
 *
 * The offset of a fault is counted from the start of `data`. A checker and a copier of an item count it from the item's
 * first byte, through all pieces. A copier of elements and a parser count it from the first byte of all pieces. It
 * is the offset of a title, and with CLL_KEY_ORDER and CLL_DUPLICATE_KEY that of a key. For cll_utf8 it is the length
 * of the front. There is one exception, for the body of a text that is not UTF-8, in a string that no open begins. Its
 * place is the end of the string's title less the length of the shortest title. So the place lies inside a title that
 * is longer than the shortest.
 *
 * The bytes that are due: cll_headers, cll_recode, cll_strict, cll_skip, and the calls of a checker and of a copier of
 * an item say with CLL_SHORT how many more bytes are due, in `place`. Whatever follows the bytes so far and completes
 * what the caller asked for has at least that many bytes. For cll_headers it completes the title and the body that come
 * next. So a reader may ask for that many bytes, and none of them follows the item or the elements. Then give
 * cll_recode, cll_strict and cll_skip all bytes again, cll_headers those from `consumed` on, and a feed the new bytes.
 * A parser says with CLL_SHORT how many bytes of the title or of the body under way are due. With CLL_SHORT of the
 * other calls `place` is 0, and promises nothing.
 *
 * If a title was cut, its rest is due. If a body was cut, its rest is due. If a body is about to begin, all of its
 * bytes are due: 65,536 after `5a 00 01 00 00`, and 65,535 after `5a 00 01 00 00 61`. If a title is about to begin, 1
 * byte is due. If no bytes can complete the input, the number is 0: a text that is not UTF-8 was cut, or a title that
 * may not stand there, as `19 00` for cll_strict. If the number is not 0, some bytes complete the input. A checker and
 * a copier of an item never say 0.
 *
 * `elements` is how many elements cll_recode and cll_strict did whole, whatever the answer is. `whole` is the offset in
 * `data` after the last of them. `spelled` is how many of the bytes that cll_recode wrote are the spelling of these
 * elements. So a copy goes on from `data + whole` to `out + spelled`. With cll_strict `spelled` is 0.
 *
 * STATES. A cll_checker, a cll_parser, a cll_copier and a cll_item_copier are states. A state lies in the caller's own
 * memory, aligned as a uint64_t. What it contains is the library's. It holds no pointer, and nothing has to be
 * released. A copy of its bytes is a second state, and from then on the two go on by themselves.
 *
 * cll_checker_init, cll_item_copier_init and their strict forms do not write most of a state: 2,304 bytes of a
 * cll_checker and of a cll_item_copier stay as they were. So they may hold what stood in the memory before. Clear the
 * memory before the call, if you store or send the state. cll_copier_init and cll_copier_init_strict write all 72 bytes
 * of a cll_copier. The calls of a parser write all 56 bytes of a cll_parser except the last three.
 *
 * A state is plain numbers, in the byte order of the machine. So another process may go on with a copy of its bytes,
 * and so may another machine that runs the same library. Both need the same version of the library: a state does not
 * say which version wrote it, and no call can tell.
 *
 * A call answers CLL_ARGUMENT if the memory holds no state, and then changes nothing. Memory holds a state if its first
 * eight bytes are the mark of its type, and its numbers are kinds that exist and counts within their bounds. So zeros
 * are no state, and a call finds out memory that was overwritten unless it happens to hold another valid state. The
 * call then takes the numbers for that state, also if no bytes lead to it. A call does not compare the two parts of a
 * cll_item_copier, which are a checker and a copier of elements. Whatever the memory holds, no call reads or writes
 * outside of what the caller gives it.
 *
 * VIEWS. A cll_item views one item: it has a pointer to the bytes of the item, their number, and how many levels its
 * tags, arrays and maps may take. A cll_items has the items that are left of those in an item, and a cll_body has the
 * body of a string. cll_item_parse checks an item and makes the first view. The other calls make views of its parts.
 * All of them point into the `data` of cll_item_parse, so these bytes must stay where they are, and as they are, while
 * a program uses a view. A copy of a view is another view, and nothing has to be released. A program may also write to
 * a view: other bytes that it may read, and any depth. A call then answers as it says for these bytes, and reads no
 * others. cll_item_header, cll_item_bytes, cll_item_text and cll_item_items look at one title and at the break of an
 * indefinite form, and take the same time for any item. The others read each byte of the items that they pass.
 *
 * STACK. These numbers were measured on x86-64, and are not proved. cll_pull, cll_push, cll_push_wide, cll_utf8,
 * cll_checker_init, cll_checker_init_strict, cll_checker_end, cll_parser_init, cll_parser_init_strict, cll_copier_init,
 * cll_copier_init_strict, cll_item_header, cll_item_bytes, cll_item_text and cll_item_items take less than 128 bytes.
 * cll_checker_feed, cll_parser_push, cll_parser_end, cll_copier_feed, cll_copier_end and cll_item_copier_end take less
 * than 1 KiB. cll_recode and cll_strict take less than 2 KiB, and less than 4.5 KiB if the bytes end too early.
 * cll_item_copier_init and cll_item_copier_init_strict take less than 3 KiB. cll_item_copier_feed takes less than 4
 * KiB. cll_headers takes less than 256 bytes if it answers CLL_OK, and otherwise less than 4.5 KiB.
 *
 * cll_skip and cll_item_parse take less than 4 KiB if the bytes begin with an item. Otherwise they take less than 4
 * KiB, or less than 2 KiB and 328 bytes for each level that they go down, whichever is more: 8 KiB at 16 levels, 23 KiB
 * at 64, and 84 KiB at 256. cll_item_next and the three that look up a key take less than 1 KiB and 256 bytes for each
 * level that they go down: 5 KiB at 16 levels, 17 KiB at 64, and 65 KiB at 256. cll_deterministic takes less than 512
 * bytes and 144 bytes for each level that it goes down: 3 KiB at 16 levels, 10 KiB at 64, and 37 KiB at 256.
 * cll_canonical takes less than 8 KiB and 1,104 bytes for each level that it goes down: 26 KiB at 16 levels, 77 KiB at
 * 64, and 284 KiB at 256. If it has to sort a map of more than 65,536 pairs, it may take up to 16 KiB more.
 */
#ifndef CIBORIUM_LL_H
#define CIBORIUM_LL_H

#include <stddef.h>
#include <stdint.h>

/*
 * The compiler warns of a call that drops an answer which may be a fault. To have no warning, define this as nothing
 * before you include the header.
 */
#ifndef CLL_NODISCARD
#if (defined(__cplusplus) && __cplusplus >= 201703L) || (defined(__STDC_VERSION__) && __STDC_VERSION__ >= 202311L)
#define CLL_NODISCARD [[nodiscard]]
#elif defined(__GNUC__)
#define CLL_NODISCARD __attribute__((warn_unused_result))
#else
#define CLL_NODISCARD
#endif
#endif

#ifdef __cplusplus
extern "C" {
#endif

/* The version of this header. cll_version returns that of the library. */
#define CLL_VERSION_MAJOR 0
#define CLL_VERSION_MINOR 1
#define CLL_VERSION_PATCH 0

/*
 * What a title means. `kind` is one of the numbers of cll_kind.
 *
 * `value` is the number. For CLL_BYTES and CLL_TEXT it is the length in bytes, for CLL_ARRAY the count of items, and
 * for CLL_MAP the count of pairs. For CLL_HALF, CLL_SINGLE and CLL_DOUBLE it is the raw bits. CLL_NEGATIVE means -1 -
 * value. For an indefinite form and for CLL_BREAK `value` is 0.
 *
 * `indefinite` is 1 for the indefinite form of CLL_BYTES, CLL_TEXT, CLL_ARRAY and CLL_MAP, and 0 otherwise.
 */
typedef struct { uint64_t value; uint8_t kind; uint8_t indefinite; } cll_header;

/*
 * A header, and the place of its title. `value`, `kind` and `indefinite` are those of a cll_header. `start` and `end`
 * are the offsets in `data` at which the title starts and ends. The body of a string of a definite length begins at
 * `end`.
 */
typedef struct { uint64_t value, start, end; uint8_t kind, indefinite; } cll_title;

/*
 * Memory that cll_canonical needs for a pair of a map: the offsets in `out` at which its key begins, its key ends and
 * its value ends. Their numbers mean nothing after the call.
 */
typedef struct { uint64_t start, key_end, end; } cll_span;

/*
 * A view of one item: its `len` bytes at `data`, in which tags, arrays and maps may take `depth` levels. The section
 * VIEWS at the top of this header says what holds for it.
 */
typedef struct { const uint8_t *data; size_t len; uint32_t depth; } cll_item;

/*
 * The items in an item that are left: their `len` bytes at `data`. The tags, arrays and maps in each of them may take
 * `depth` levels. The section VIEWS at the top of this header says what holds for it.
 */
typedef struct { const uint8_t *data; size_t len; uint32_t depth; } cll_items;

/* The body of a string: its `len` bytes at `data`. */
typedef struct { const uint8_t *data; size_t len; } cll_body;

/*
 * How far a call came. The section REPORTS at the top of this header says what each number means.
 */
typedef struct { uint64_t consumed, written, place, elements, whole, spelled; } cll_report;

/*
 * A checker of one item whose bytes come in pieces, as from a socket or a pipe. The section STATES at the top of this
 * header says what holds for its memory.
 */
typedef struct { uint64_t words[296]; } cll_checker;

/*
 * A parser of titles and bodies whose bytes come in pieces. The section STATES at the top of this header says what
 * holds for its memory.
 */
typedef struct { uint64_t words[7]; } cll_parser;

/*
 * What a parser found in the bytes that it took. `kind` is one of the numbers of cll_event_kind, and the comments there
 * say what the other fields mean. A field that has no meaning for a kind is 0.
 *
 * `consumed` is how many bytes of `data` were taken. `place` is an offset in all bytes so far, from the first byte of
 * all pieces. `header` is the meaning of a title. `left` is how many bytes a body still lacks. The bytes of a part of a
 * text are the first `carried_len` of `carried`, which earlier pieces had, and then those taken.
 */
typedef struct {
    uint64_t consumed, place, left;
    cll_header header;
    uint8_t kind, carried_len, carried[3];
} cll_event;

/*
 * A copier of elements. Their bytes come in pieces, and the caller takes their shortest spelling in pieces. The section
 * STATES at the top of this header says what holds for its memory.
 */
typedef struct { uint64_t words[9]; } cll_copier;

/*
 * A copier of one item. Its bytes come in pieces, and the caller takes its shortest spelling in pieces. The section
 * STATES at the top of this header says what holds for its memory.
 */
typedef struct { uint64_t words[304]; } cll_item_copier;

typedef enum cll_kind {
    CLL_POSITIVE,
    CLL_NEGATIVE,
    CLL_BYTES,
    CLL_TEXT,
    CLL_ARRAY,
    CLL_MAP,
    CLL_TAG,
    CLL_SIMPLE,
    CLL_HALF,
    CLL_SINGLE,
    CLL_DOUBLE,
    CLL_BREAK
} cll_kind;

typedef enum cll_answer {
    CLL_OK,        /* the call did all that the caller asked for */
    CLL_SHORT,     /* the bytes end too early, and `consumed` says where the read stopped. Of a feed: more is due */
    CLL_SYNTAX,    /* at `place` stands no CBOR, or for cll_utf8 no UTF-8, that may stand there */
    CLL_ROOM,      /* the next thing to write does not fit into `out` */
    CLL_TOO_LONG,  /* an offset would pass 2^64 - 1. Only a feed gives this answer */
    CLL_BREAK_DUE, /* at `place` a break stands in place of an item */
    CLL_TOO_DEEP,  /* at `place` a tag, an array or a map stands deeper than the caller allows */
    CLL_ARGUMENT,  /* an argument is out of its range, and the call did nothing */
    /* These come from cll_deterministic alone, and the last one also from cll_canonical. */
    CLL_NOT_SHORTEST, /* at `place` stands a longer title than need be, or a float that fits a smaller width */
    CLL_INDEFINITE,   /* at `place` stands the title of an indefinite form, or a break */
    CLL_KEY_ORDER,    /* at `place` stands a key that comes before the key of the pair before it */
    CLL_DUPLICATE_KEY, /* at `place` stands a key that its map has before it */
    /* This comes from the calls that look into a cll_item alone. */
    CLL_ABSENT /* there is none: no item is left, no pair has this key, or the item is of another kind */
} cll_answer;

/* What a parser found. */
typedef enum cll_event_kind {
    CLL_EVENT_NONE,   /* no event. `place` is as the answer says: how many bytes are due, or the offset of a fault */
    CLL_EVENT_HEADER, /* a title ended, which begins at `place` and means `header` */
    CLL_EVENT_CLOSE,  /* a break at `place` ended the innermost string of indefinite length */
    CLL_EVENT_BYTES,  /* the bytes taken are the next part of the body of a byte string, which lacks `left` bytes */
    CLL_EVENT_TEXT    /* the bytes carried and taken are the next part of a text, whole characters. `left` as above */
} cll_event_kind;

/* The order of the keys of a map, by their encodings. */
typedef enum cll_order {
    CLL_BYTEWISE,    /* by their bytes (RFC 8949, 4.2.1) */
    CLL_LENGTH_FIRST /* the shorter one first, and keys of the same length by their bytes (RFC 8949, 4.2.3) */
} cll_order;

/*
 * Returns the version of the library: 65536 times its major number, plus 256 times its minor number, plus its patch
 * number.
 */
uint32_t cll_version(void);

/*
 * Reads the title with which `data` begins, and says in `header` what the title means. `consumed` is the title's
 * length. The body of a string follows its title, and is not read.
 *
 * Returns:
 *
 * CLL_OK: `data` begins with a title.
 * CLL_SHORT: `data` ends before a title or inside it.
 * CLL_SYNTAX: no title begins with the first byte.
 *
 * After CLL_SHORT and CLL_SYNTAX `header` is as it was, and `consumed` counts the first byte, if there is one.
 */
CLL_NODISCARD cll_answer cll_pull(const uint8_t *data, size_t len, cll_header *header, size_t *consumed);

/*
 * Fills `titles` with the titles of `data`, one after the other: what each means, as of cll_pull, and where it stands.
 * The call passes over the body of each string of a definite length. The body has to be there whole, and that of a text
 * has to be UTF-8. The call says nothing about how the titles nest, so a break may stand anywhere.
 *
 * `written` is how many of the `titles_len` titles were filled, and the others are as they were. `consumed` is the end
 * of the last title that was filled, with its body. A further call may go on at `data + consumed`, and counts its
 * offsets from there.
 *
 * Returns:
 *
 * CLL_OK: all of `titles` were filled, or `data` has no more bytes.
 * CLL_SHORT: `data` ends inside the title or the body that comes next. `place` is how many bytes are due.
 * CLL_SYNTAX: at `place` no title begins, or the body that comes next is a text that is not UTF-8.
 *
 * CLL_SHORT and CLL_SYNTAX come after all titles before the fault were filled. If a text is not UTF-8 and `data` ends
 * within it, the answer is one of the two, as of cll_skip.
 */
CLL_NODISCARD cll_answer cll_headers(const uint8_t *data, size_t len, cll_title *titles, size_t titles_len,
    cll_report *report);

/*
 * Writes the shortest title of a header to the start of `out`, whole or not at all. `written` is the title's length, at
 * most 9.
 *
 * Returns:
 *
 * CLL_OK: the title was written.
 * CLL_ROOM: the title is longer than `room`.
 * CLL_ARGUMENT: `kind` is no kind, or cll_pull never gives this `value` and `indefinite` with that kind.
 *
 * After CLL_ROOM and CLL_ARGUMENT `out` is as it was.
 */
CLL_NODISCARD cll_answer cll_push(const cll_header *header, uint8_t *out, size_t room, cll_report *report);

/*
 * Writes the title of a header that has `width` bytes after its first one to the start of `out`, whole or not at all.
 * The title need not be the shortest one. So a program can reserve the place of a length, and write the length later.
 *
 * A number, a length and a count have a width of 0 if they are below 24, or a width of 1, 2, 4 or 8 that holds them. A
 * simple value has a width of 0 if it is below 24, or of 1. A float has the one width of its kind. A break and each
 * indefinite form have 0.
 *
 * Returns:
 *
 * CLL_OK: the title was written, and `written` is 1 more than `width`.
 * CLL_ROOM: the title is longer than `room`.
 * CLL_ARGUMENT: cll_push answers that for this header, or the header has no title of that width.
 *
 * After CLL_ROOM and CLL_ARGUMENT `out` is as it was.
 */
CLL_NODISCARD cll_answer cll_push_wide(const cll_header *header, uint32_t width, uint8_t *out, size_t room,
    cll_report *report);

/*
 * Copies `count` elements to `out`, each in its shortest spelling. The spelling is never longer than what the call
 * read, so `len` bytes are always room enough.
 *
 * Returns:
 *
 * CLL_OK: `count` elements were copied, and `consumed` and `written` are their length and that of their spelling.
 * CLL_SHORT: `data` ends before `count` elements do, whatever the room is. `place` is how many bytes are due.
 * CLL_SYNTAX: at `place` no title begins, or its string may not contain the title, or a text is not UTF-8 by itself.
 * CLL_ROOM: the next thing to write does not fit: the shortest title of a header, or a chunk of a body.
 *
 * What was written before CLL_SHORT, CLL_SYNTAX or CLL_ROOM stands in `out`. With CLL_ROOM at most a beginning of the
 * thing that did not fit follows it, and `written` counts that too.
 *
 * `elements` elements were copied whole: the first `whole` bytes of `data`. Their spelling is the first `spelled` bytes
 * of `out`. No more whole elements stand in `data` before the fault or its end, or with CLL_ROOM one more does not fit.
 * So a `count` of UINT64_MAX copies all elements that are there. `data` then ends after a whole element if the answer
 * is CLL_SHORT and `whole` is `len`. Otherwise it ends within one.
 *
 * Bodies go through a buffer of 1,024 bytes, so a chunk has at most that many. Therefore if a text is not UTF-8 and
 * `data` ends within it, the answer is CLL_SHORT or CLL_SYNTAX, by the text's length and by the byte that goes wrong.
 */
CLL_NODISCARD cll_answer cll_recode(const uint8_t *data, size_t len, uint64_t count, uint8_t *out, size_t room,
    cll_report *report);

/*
 * Checks that `data` begins with `count` elements, each in its one shortest spelling. A shortest spelling has no simple
 * value from 24 to 31, and no string of indefinite length inside another one. The call writes nothing.
 *
 * Returns:
 *
 * CLL_OK: `data` begins with them, and `consumed` is their length.
 * CLL_SHORT: `data` ends before `count` elements do. `place` is how many bytes are due.
 * CLL_SYNTAX: as of cll_recode, or a title that is not the shortest, or that may not stand in a shortest spelling.
 *
 * `elements` and `whole` are as of cll_recode. If a text is not UTF-8 and `data` ends within it, the answer is
 * CLL_SHORT or CLL_SYNTAX. With either of them within a body, `consumed` is at least the offset of the body, and at
 * most the end of the body or of `data`.
 */
CLL_NODISCARD cll_answer cll_strict(const uint8_t *data, size_t len, uint64_t count, cll_report *report);

/*
 * Skips the item with which `data` begins, whatever it contains. The item may contain at most `depth` levels, which is
 * at most 256. A tag, an array and a map take one level, an empty one too. A string takes none.
 *
 * Returns:
 *
 * CLL_OK: the item was skipped, and `consumed` is its length.
 * CLL_SHORT: `data` ends before the item does. `place` is how many bytes are due.
 * CLL_SYNTAX: at `place` no title begins, or its string may not contain the title, or a text is not UTF-8 by itself.
 * CLL_BREAK_DUE: a break stands in place of an item, also in place of a value of a map. It is consumed.
 * CLL_TOO_DEEP: no level is left for a tag, an array or a map, whose title is consumed.
 * CLL_ARGUMENT: `depth` is above 256.
 *
 * If a text is not UTF-8 and `data` ends within it, the answer is CLL_SHORT or CLL_SYNTAX. With either of them within a
 * body, `consumed` is at least the offset of the body, and at most the end of the body or of `data`.
 */
CLL_NODISCARD cll_answer cll_skip(const uint8_t *data, size_t len, uint32_t depth, cll_report *report);

/*
 * Checks that `data` begins with an item in the deterministic encoding (RFC 8949, 4.2). `order` is one of the numbers
 * of cll_order. The call writes nothing. Values that are the same have one item of this encoding in each order.
 *
 * Each number and length stands in the fewest bytes, and each float in the smallest width that has it. No length is
 * indefinite. The keys of each map ascend in the order, and no two of them are the same. A NaN keeps its sign and
 * payload, and 0.0 and -0.0 differ. The call looks into no tag. Levels are those of cll_skip, and `depth` is at most
 * 256.
 *
 * Returns:
 *
 * CLL_OK: `data` begins with an item in this encoding, and `consumed` is its length.
 * CLL_SHORT: `data` ends before the item does.
 * CLL_SYNTAX: a first byte with which no title begins, a simple value from 24 to 31, or a text that is not UTF-8.
 * CLL_TOO_DEEP: no level is left for a tag, an array or a map.
 * CLL_ARGUMENT: `depth` is above 256, or `order` is no order.
 * CLL_NOT_SHORTEST: a title is longer than need be, also of a simple value below 24, or a float fits a smaller width.
 * CLL_INDEFINITE: a title of an indefinite form, or a break.
 * CLL_KEY_ORDER: a key comes before the key of the pair before it.
 * CLL_DUPLICATE_KEY: a key is the same as the key of the pair before it.
 *
 * With a fault `place` and `consumed` are both the offset of the first title or key at which `data` cannot go on as an
 * item in this encoding. For a text that is not UTF-8 it is the offset of the text's title. With CLL_SHORT `place` is
 * 0. `consumed` is then the offset of the title that is cut, or `len` if a body is cut or a title is missing. A text
 * whose body is cut is CLL_SHORT, whatever its bytes are.
 */
CLL_NODISCARD cll_answer cll_deterministic(const uint8_t *data, size_t len, uint32_t depth, uint32_t order,
    cll_report *report);

/*
 * Writes the deterministic encoding of the item with which `data` begins to the start of `out` (RFC 8949, 4.2). The
 * item may have any spelling: titles of any width, indefinite forms, floats of any width, and keys in any order. A
 * float keeps its value, a zero its sign, and a NaN its sign and payload. The item may contain at most `depth` levels,
 * which is at most 256. `order` is a number of cll_order.
 *
 * For an item of `n` bytes, `n + n / 256` bytes of `out` and half as many spans are enough, and an item has at most
 * `len` bytes. Fewer do if the encoding takes fewer bytes. An item that is in the encoding already needs no spans. In
 * any other one a map needs a span for each pair. If its keys do not ascend, it also needs one for two bytes of its
 * pairs, unless as many bytes of `out` follow these. The contents of `spans` need not be set before the call, and mean
 * nothing after it.
 *
 * Returns:
 *
 * CLL_OK: `out` begins with the encoding. `consumed` is the item's length, and `written` that of the encoding.
 * CLL_SHORT: `data` ends before the item does.
 * CLL_SYNTAX: at `place` no title begins, or its string may not contain the title, or a text is not UTF-8 by itself.
 *     Or a simple value from 24 to 31 stands there, which means nothing.
 * CLL_ROOM: `out` or `spans` is too short.
 * CLL_BREAK_DUE: at `place` a break stands in place of an item, also in place of a value of a map.
 * CLL_TOO_DEEP: no level is left for a tag, an array or a map.
 * CLL_ARGUMENT: `depth` is above 256, or `order` is no order. `out` is as it was.
 * CLL_DUPLICATE_KEY: a key of a map has the same value as one before it.
 *
 * With a fault `place` and `consumed` are both its offset. With CLL_SHORT `place` is 0, and `consumed` is `len`. With
 * CLL_ROOM both are 0. After a fault and after CLL_ROOM `written` is 0, and the contents of `out` are unknown.
 */
CLL_NODISCARD cll_answer cll_canonical(const uint8_t *data, size_t len, uint32_t depth, uint32_t order, uint8_t *out,
    size_t room, cll_span *spans, size_t spans_len, cll_report *report);

/*
 * Checks the item with which `data` begins as cll_skip does, with the same answers and reports, and makes `item` a view
 * of it. The item may contain at most `depth` levels, which is at most 256.
 *
 * Returns:
 *
 * CLL_OK: `item` views the item, and `consumed` is its length.
 * CLL_SHORT: `data` ends before the item does. `place` is how many bytes are due.
 * CLL_SYNTAX: as of cll_skip.
 * CLL_BREAK_DUE: as of cll_skip.
 * CLL_TOO_DEEP: as of cll_skip.
 * CLL_ARGUMENT: `depth` is above 256.
 *
 * Unless the answer is CLL_OK, `item` is as it was.
 */
CLL_NODISCARD cll_answer cll_item_parse(const uint8_t *data, size_t len, uint32_t depth, cll_item *item,
    cll_report *report);

/*
 * Says in `header` what the title of an item means, as of cll_pull. It is never a break, unless a program wrote to the
 * view.
 *
 * Returns:
 *
 * CLL_OK: `header` is that of the item.
 * CLL_ARGUMENT: no title begins the bytes of the view, and `header` is as it was.
 */
CLL_NODISCARD cll_answer cll_item_header(const cll_item *item, cll_header *header);

/*
 * Gives the body of a byte string of a definite length. cll_item_items gives the strings in one of indefinite length.
 *
 * Returns:
 *
 * CLL_OK: `body` is the body of the item.
 * CLL_ABSENT: the item is no byte string of a definite length, and `body` is as it was.
 */
CLL_NODISCARD cll_answer cll_item_bytes(const cll_item *item, cll_body *body);

/*
 * Gives the body of a text of a definite length. It is UTF-8, unless a program wrote to the view, and no zero byte
 * follows it.
 *
 * Returns:
 *
 * CLL_OK: `body` is the body of the item.
 * CLL_ABSENT: the item is no text of a definite length, and `body` is as it was.
 */
CLL_NODISCARD cll_answer cll_item_text(const cll_item *item, cll_body *body);

/*
 * Lists the items in an item, so that cll_item_next takes one after the other: the items of an array, each key of a map
 * and then its value, the item under a tag, or the strings in a string of indefinite length.
 *
 * Returns:
 *
 * CLL_OK: `items` has all items in the item, which may be none.
 * CLL_ABSENT: the item is a number, a float, a simple value or a string of a definite length. `items` is as it was.
 *
 * If a program wrote to the view, CLL_ABSENT also says that `depth` is 0 or that a break is missing.
 */
CLL_NODISCARD cll_answer cll_item_items(const cll_item *item, cll_items *items);

/*
 * Takes the first of the items that are left: `item` views it, and `items` has the others.
 *
 * Returns:
 *
 * CLL_OK: `item` views the item that was taken.
 * CLL_ABSENT: no item is left.
 * CLL_ARGUMENT: no item begins the bytes, or `depth` is above 256. A program wrote to `items`.
 *
 * Unless the answer is CLL_OK, `items` and `item` are as they were.
 */
CLL_NODISCARD cll_answer cll_item_next(cll_items *items, cll_item *item);

/*
 * Gives the value of a key of a map. The key is the bytes of an item: the first pair counts whose key has exactly these
 * bytes. So 1 is `01`, and does not find `18 01`.
 *
 * Returns:
 *
 * CLL_OK: `value` views the value of the first pair with this key.
 * CLL_ABSENT: no key of the map has these bytes, or the item is no map.
 * CLL_ARGUMENT: the bytes of the view are not one item, or `depth` is above 256. A program wrote to the view.
 *
 * Unless the answer is CLL_OK, `value` is as it was.
 */
CLL_NODISCARD cll_answer cll_item_get(const cll_item *item, const uint8_t *key, size_t key_len, cll_item *value);

/*
 * Gives the value of a key of a map. The key is a text of `key_len` bytes: the first pair counts whose key is this text
 * in any spelling. The bodies of a text of indefinite length are joined.
 *
 * Returns:
 *
 * CLL_OK: `value` views the value of the first pair with this key.
 * CLL_ABSENT: no key of the map is this text, or the item is no map.
 * CLL_ARGUMENT: as of cll_item_get, or `key` is not UTF-8.
 *
 * Unless the answer is CLL_OK, `value` is as it was.
 */
CLL_NODISCARD cll_answer cll_item_get_text(const cll_item *item, const uint8_t *key, size_t key_len, cll_item *value);

/*
 * Gives the value of a key of a map. The key is an integer: the first pair counts whose key is this integer in any
 * spelling. An integer that an int64_t does not hold is found by cll_item_get.
 *
 * Returns:
 *
 * CLL_OK: `value` views the value of the first pair with this key.
 * CLL_ABSENT: no key of the map is this integer, or the item is no map.
 * CLL_ARGUMENT: as of cll_item_get.
 *
 * Unless the answer is CLL_OK, `value` is as it was.
 */
CLL_NODISCARD cll_answer cll_item_get_int(const cll_item *item, int64_t key, cll_item *value);

/*
 * Finds the longest front of `data` that is UTF-8 (RFC 3629). `consumed` is the front's length.
 *
 * Returns:
 *
 * CLL_OK: the front is all of `data`.
 * CLL_SHORT: the one to three bytes after the front begin a character, and end inside it.
 * CLL_SYNTAX: no UTF-8 begins with the bytes after the front, whatever comes after them. `place` is the front's length.
 *
 * So a text may come in pieces. Put the bytes after the front before the next piece: the whole text is UTF-8 exactly if
 * these bytes with the rest of the text are. If no piece follows, CLL_SHORT says that the text ends too early.
 */
CLL_NODISCARD cll_answer cll_utf8(const uint8_t *data, size_t len, cll_report *report);

/*
 * Sets a checker up for one item to which no byte came, whatever stood in `checker` before. The item may contain at
 * most `depth` levels, which is at most 256. A tag, an array and a map take one level, an empty one too. A string takes
 * none.
 *
 * Returns:
 *
 * CLL_OK: the checker is set up.
 * CLL_ARGUMENT: `depth` is above 256, and `checker` is as it was.
 */
CLL_NODISCARD cll_answer cll_checker_init(cll_checker *checker, uint32_t depth);

/*
 * Sets a checker up as cll_checker_init does, for an item in its shortest spelling, as cll_strict takes it. A later
 * feed then answers CLL_SYNTAX also for a title that is not the shortest, and for a simple value below 32 in two bytes.
 * It does so for a string of indefinite length inside another one, too. Each answer comes with the first byte after
 * which no shortest spelling goes on.
 *
 * Returns:
 *
 * CLL_OK: the checker is set up.
 * CLL_ARGUMENT: `depth` is above 256, and `checker` is as it was.
 */
CLL_NODISCARD cll_answer cll_checker_init_strict(cll_checker *checker, uint32_t depth);

/*
 * Gives a checker the next bytes of its item, as many as there are. `consumed` says how many of them it took: all of
 * them, or those up to the end of the item, or those up to the byte with which a fault comes, and that byte. So what
 * follows the item in `data` may begin another one, for which the caller sets the checker up again.
 *
 * Returns:
 *
 * CLL_OK: the item has ended, and `place` is its length.
 * CLL_SHORT: the item has not ended, and `place` is how many bytes are due. All of `data` was taken.
 * CLL_SYNTAX: no item begins so: no title begins there, its string may not contain the title, or a text is not UTF-8.
 * CLL_TOO_LONG: the item goes on after 2^64 - 1 bytes, and no byte after these was taken.
 * CLL_BREAK_DUE: no item begins so: a break came in place of an item.
 * CLL_TOO_DEEP: no item begins so: no level is left for a tag, an array or a map.
 * CLL_ARGUMENT: no checker was set up there, or none stands there any more: nothing was taken, and nothing changed.
 *
 * The answers do not depend on how the caller cuts the bytes into pieces. A fault comes with the first byte after which
 * no item goes on. In a text that is not UTF-8 that is the byte that goes wrong. After CLL_OK and after a fault a
 * further call takes nothing, and answers the same. After CLL_TOO_LONG a further call takes nothing: with bytes it
 * answers the same, and with none CLL_SHORT, as cll_checker_end does.
 *
 * The caller may read as many bytes as CLL_SHORT says for the next call, and none of them follows the item. They need
 * not come at once. A call with no bytes answers CLL_OK exactly if the item has ended, and changes nothing.
 */
CLL_NODISCARD cll_answer cll_checker_feed(cll_checker *checker, const uint8_t *data, size_t len, cll_report *report);

/*
 * Says what it means that no more bytes come, and leaves the checker as it is.
 *
 * Returns:
 *
 * CLL_OK: no byte came, or the item has ended.
 * CLL_SHORT: the item is cut off, and `place` is how many bytes were due.
 * CLL_SYNTAX: as cll_checker_feed answered, with the same `place`.
 * CLL_BREAK_DUE: as cll_checker_feed answered, with the same `place`.
 * CLL_TOO_DEEP: as cll_checker_feed answered, with the same `place`.
 * CLL_ARGUMENT: no checker was set up there, or none stands there any more.
 *
 * `consumed` is 0. `place` is 0 with CLL_OK, so it is not the length of the item.
 */
CLL_NODISCARD cll_answer cll_checker_end(const cll_checker *checker, cll_report *report);

/*
 * Sets a parser up to which no byte came, whatever stood in `parser` before. It finds titles and bodies in any number
 * of items, one after the other. It does not count the items in arrays and maps, so a break may stand at any place
 * outside of a string. For an answer on how items nest, give the same bytes to a checker.
 *
 * Returns:
 *
 * CLL_OK: the parser is set up.
 */
cll_answer cll_parser_init(cll_parser *parser);

/*
 * Sets a parser up as cll_parser_init does, for the shortest spelling, as cll_strict takes it. A later push then
 * answers CLL_SYNTAX also for a title that is not the shortest, for a simple value below 32 in two bytes, and for a
 * string of indefinite length inside another one.
 *
 * Returns:
 *
 * CLL_OK: the parser is set up.
 */
cll_answer cll_parser_init_strict(cll_parser *parser);

/*
 * Gives a parser the next bytes, as many as there are, and says in `event` what comes first in them. `event->consumed`
 * is how many bytes of `data` it took. Push the rest again, until no byte is left or a fault comes.
 *
 * Of `82 42 05`, three calls take `82`, `42` and `05`. They answer CLL_OK with the header of an array, the header of a
 * byte string, and a part of its body that lacks 1 byte. Of `19 01`, one call takes both bytes and answers CLL_SHORT.
 *
 * Returns:
 *
 * CLL_OK: an event came. `event->kind` says which one.
 * CLL_SHORT: no event ends here. All of `data` was taken, and `event->place` is how many bytes are due.
 * CLL_SYNTAX: at `event->place` no title begins, or none that may stand in its string, or a text is not UTF-8.
 * CLL_TOO_LONG: more than 2^64 - 1 bytes would have come, and no byte of `data` was taken.
 * CLL_ARGUMENT: no parser was set up there, or none stands there any more: nothing was taken, and nothing changed.
 *
 * The titles, the bodies and the faults do not depend on how the caller cuts the bytes into pieces. A body that a piece
 * cuts has one part for each piece, or more. A body without bytes has no part. A fault comes with the byte that makes
 * it, and that byte is taken. After a fault a further call takes nothing, and answers the same.
 *
 * With CLL_SHORT exactly `event->place` bytes end the title or the body that is under way: 1 if a title is about to
 * begin. A call with no bytes tells that number, and changes nothing. A call with bytes takes at least one of them,
 * unless it answers CLL_SYNTAX, CLL_TOO_LONG or CLL_ARGUMENT.
 */
CLL_NODISCARD cll_answer cll_parser_push(cll_parser *parser, const uint8_t *data, size_t len, cll_event *event);

/*
 * Says what it means that no more bytes come, and leaves the parser as it is.
 *
 * Returns:
 *
 * CLL_OK: no title, no body and no string of indefinite length is under way. An array or a map may go on.
 * CLL_SHORT: one is, and `place` is how many bytes of the title or of the body are due: 1 if a title is about to begin.
 * CLL_SYNTAX: as cll_parser_push answered, with the same `place`.
 * CLL_ARGUMENT: no parser was set up there, or none stands there any more.
 *
 * `consumed` is 0.
 */
CLL_NODISCARD cll_answer cll_parser_end(const cll_parser *parser, cll_report *report);

/*
 * Sets a copier up for `count` elements to which no byte came, whatever stood in `copier` before. A copier of no
 * elements has ended at once.
 *
 * Returns:
 *
 * CLL_OK: the copier is set up, whatever `count` is.
 */
cll_answer cll_copier_init(cll_copier *copier, uint64_t count);

/*
 * Sets a copier up as cll_copier_init does, for elements that are in their shortest spelling. A later feed then answers
 * CLL_SYNTAX for any other title, and for a string of indefinite length inside another one. What it writes is what it
 * took.
 *
 * Returns:
 *
 * CLL_OK: the copier is set up, whatever `count` is.
 */
cll_answer cll_copier_init_strict(cll_copier *copier, uint64_t count);

/*
 * Gives a copier the next bytes of its elements, as many as there are, and writes their shortest spelling to the start
 * of `out`. It writes the shortest title of each whole title, each byte of a byte string, and each whole character of a
 * text. It writes nothing for an open and a break of a string within a string. What it writes altogether is what
 * cll_recode writes of `count` elements. That does not depend on how the caller cuts the bytes into pieces, nor on the
 * room of each call.
 *
 * Returns:
 *
 * CLL_OK: `count` elements came, and all of their spelling is written. What follows them in `data` was not taken.
 * CLL_SHORT: more bytes are due, and all of `data` was taken. `place` is 0.
 * CLL_SYNTAX: `count` elements never begin as the bytes so far do. What stands before the fault is written.
 * CLL_ROOM: `out` is full, and there is more to write.
 * CLL_TOO_LONG: the elements go on after 2^64 - 1 bytes, and no byte after these was taken.
 * CLL_ARGUMENT: no copier was set up there, or none stands there any more: nothing was taken, written or changed.
 *
 * With CLL_SHORT everything is written, except a title or a character that is not whole.
 *
 * After CLL_ROOM give what was not taken of `data` again. If that is nothing, a call with no bytes writes the rest.
 * `written` is then `room`, so a call that has some room always gets on. CLL_ROOM does not come if `room` is at least
 * `len` + 8, and the call before did not answer it. If there is more to write, the answer is CLL_ROOM, also if more
 * bytes are due or the elements are complete.
 *
 * A copier takes input ahead of its output by at most a title, a character, or a byte of a byte string. It keeps at
 * most 9 bytes: those of a title or a character that is not whole, or of a spelling that did not fit into `out`.
 *
 * CLL_SYNTAX comes with the first byte after which the elements cannot go on, and that byte is taken. In a text that is
 * not UTF-8 it is the byte that goes wrong. After CLL_OK and after CLL_SYNTAX a further call takes and writes nothing,
 * and answers the same. After CLL_TOO_LONG a further call takes and writes nothing: with bytes it answers the same, and
 * with none CLL_SHORT, as cll_copier_end does.
 */
CLL_NODISCARD cll_answer cll_copier_feed(cll_copier *copier, const uint8_t *data, size_t len, uint8_t *out,
    size_t room, cll_report *report);

/*
 * Says what it means that no more bytes come, and leaves the copier as it is.
 *
 * Returns:
 *
 * CLL_OK: exactly if the bytes so far are `count` elements, also none, and all of their spelling was written.
 * CLL_SHORT: the elements are cut off. `place` is 0.
 * CLL_SYNTAX: as cll_copier_feed answered, with the same `place`.
 * CLL_ROOM: there is more to write, and cll_copier_feed writes it, also with no bytes.
 * CLL_ARGUMENT: no copier was set up there, or none stands there any more.
 *
 * `consumed` and `written` are 0. If there is more to write and the elements are cut off too, the answer is CLL_ROOM.
 */
CLL_NODISCARD cll_answer cll_copier_end(const cll_copier *copier, cll_report *report);

/*
 * Sets a copier up for one item to which no byte came, whatever stood in `copier` before. The item may contain at most
 * `depth` levels, which is at most 256. A tag, an array and a map take one level, an empty one too. A string takes
 * none.
 *
 * Returns:
 *
 * CLL_OK: the copier is set up.
 * CLL_ARGUMENT: `depth` is above 256, and `copier` is as it was.
 */
CLL_NODISCARD cll_answer cll_item_copier_init(cll_item_copier *copier, uint32_t depth);

/*
 * Sets a copier up as cll_item_copier_init does, for an item that is in its shortest spelling. A later feed then
 * answers CLL_SYNTAX for any other title, and for a string of indefinite length inside another one.
 *
 * Returns:
 *
 * CLL_OK: the copier is set up.
 * CLL_ARGUMENT: `depth` is above 256, and `copier` is as it was.
 */
CLL_NODISCARD cll_answer cll_item_copier_init_strict(cll_item_copier *copier, uint32_t depth);

/*
 * Gives a copier the next bytes of its item, as many as there are, and writes their shortest spelling to the start of
 * `out`, as cll_copier_feed does. What it writes altogether is what cll_recode writes of the item's elements. That does
 * not depend on how the caller cuts the bytes into pieces, nor on the room of each call.
 *
 * Returns:
 *
 * CLL_OK: the item has ended, and all of its spelling is written. `place` is its length.
 * CLL_SHORT: more bytes are due, and `place` says how many. All of `data` was taken.
 * CLL_SYNTAX: no item begins so: no title begins there, its string may not contain the title, or a text is not UTF-8.
 * CLL_ROOM: `out` is full, and there is more to write, as of cll_copier_feed. `place` is 0.
 * CLL_TOO_LONG: the item goes on after 2^64 - 1 bytes, and no byte after these was taken.
 * CLL_BREAK_DUE: no item begins so: a break came in place of an item.
 * CLL_TOO_DEEP: no item begins so: no level is left for a tag, an array or a map.
 * CLL_ARGUMENT: no copier was set up there, or none stands there any more: nothing was taken, written or changed.
 *
 * After CLL_OK what follows the item in `data` was not taken. With CLL_SHORT everything is written, except a title or a
 * character that is not whole. The copier takes input ahead of its output as cll_copier_feed does.
 *
 * A fault comes with the same byte as of cll_checker_feed. That byte is taken, and nothing of it is written. After
 * CLL_OK and after a fault a further call takes and writes nothing, and answers the same. After CLL_TOO_LONG a further
 * call takes and writes nothing: with bytes it answers the same, and with none CLL_SHORT, as cll_item_copier_end does.
 */
CLL_NODISCARD cll_answer cll_item_copier_feed(cll_item_copier *copier, const uint8_t *data, size_t len, uint8_t *out,
    size_t room, cll_report *report);

/*
 * Says what it means that no more bytes come, and leaves the copier as it is.
 *
 * Returns:
 *
 * CLL_OK: no byte came, or the item has ended and all of its spelling was written.
 * CLL_SHORT: the item is cut off, and `place` is how many bytes were due.
 * CLL_SYNTAX: as cll_item_copier_feed answered, with the same `place`.
 * CLL_ROOM: there is more to write, and cll_item_copier_feed writes it, also with no bytes.
 * CLL_BREAK_DUE: as cll_item_copier_feed answered, with the same `place`.
 * CLL_TOO_DEEP: as cll_item_copier_feed answered, with the same `place`.
 * CLL_ARGUMENT: no copier was set up there, or none stands there any more.
 *
 * `consumed` and `written` are 0. If there is more to write and the item is cut off too, the answer is CLL_ROOM, and
 * `place` is 0. After a feed has written the rest, the answer is CLL_SHORT, and `place` is how many bytes were due.
 */
CLL_NODISCARD cll_answer cll_item_copier_end(const cll_item_copier *copier, cll_report *report);

#ifdef __cplusplus
}
#endif

/* Returns a text of a few words that says what an answer means. Any other number gets a text too. */
static inline const char *cll_strerror(uint32_t answer)
{
    switch (answer) {
    case CLL_OK:
        return "all was done";
    case CLL_SHORT:
        return "the bytes end too early";
    case CLL_SYNTAX:
        return "no CBOR, or no UTF-8, that could stand there";
    case CLL_ROOM:
        return "the output has no room";
    case CLL_TOO_LONG:
        return "an offset is too great";
    case CLL_BREAK_DUE:
        return "a break stands where an item is due";
    case CLL_TOO_DEEP:
        return "nested too deep";
    case CLL_ARGUMENT:
        return "an argument is out of its range";
    case CLL_NOT_SHORTEST:
        return "a shorter form says the same";
    case CLL_INDEFINITE:
        return "an indefinite length or a break";
    case CLL_KEY_ORDER:
        return "a key comes before the key of the pair before it";
    case CLL_DUPLICATE_KEY:
        return "the same key twice";
    case CLL_ABSENT:
        return "there is none";
    default:
        return "no answer of this library";
    }
}

/* Returns 1 if two pieces of memory overlap, and 0 otherwise. A piece without bytes overlaps none. */
static inline int cll_overlap(const void *one, size_t one_len, const void *other, size_t other_len)
{
#ifdef __cplusplus
    const uintptr_t first = reinterpret_cast<uintptr_t>(one), second = reinterpret_cast<uintptr_t>(other);
#else
    const uintptr_t first = (uintptr_t)one, second = (uintptr_t)other;
#endif
    if (one_len == 0 || other_len == 0)
        return 0;
    return first <= second ? second - first < one_len : first - second < other_len;
}

#endif
