/*
 * Tries the facts that titles.c does not try. It makes each call without bytes and with null, and a copy into each room
 * that is too small. It tries the places of faults, texts that are damaged and cut off, and the definitions of the
 * header itself. It says which row went wrong, and then ends with the status 1. It is C99, and C++.
 */
#include <stdio.h>
#include <string.h>

#include "ciborium_ll.h"

enum { SPACE = 4096 };

static uint8_t space[SPACE];
static cll_report report;

/* Tells whether a call gave this answer, and reported these numbers. */
static int told(uint32_t answer, uint32_t want, uint64_t consumed, uint64_t written, uint64_t place)
{
    return answer == want && report.consumed == consumed && report.written == written && report.place == place;
}

/* A call takes null if there are no bytes, as a vector without elements has it. */
static int takes_null(void)
{
    static const uint8_t one[] = {0x05};
    cll_header header = {5, CLL_POSITIVE, 0};
    size_t consumed = 7;
    return cll_pull(NULL, 0, &header, &consumed) == CLL_SHORT && consumed == 0 && header.value == 5
        && told(cll_headers(NULL, 0, NULL, 0, &report), CLL_OK, 0, 0, 0)
        && told(cll_headers(one, 1, NULL, 0, &report), CLL_OK, 0, 0, 0)
        && told(cll_push(&header, NULL, 0, &report), CLL_ROOM, 0, 0, 0)
        && told(cll_push_wide(&header, 0, NULL, 0, &report), CLL_ROOM, 0, 0, 0)
        && told(cll_recode(NULL, 0, 0, NULL, 0, &report), CLL_OK, 0, 0, 0)
        && told(cll_recode(NULL, 0, 1, NULL, 0, &report), CLL_SHORT, 0, 0, 1)
        && told(cll_recode(NULL, 0, 1, space, SPACE, &report), CLL_SHORT, 0, 0, 1)
        && told(cll_recode(one, 1, 1, NULL, 0, &report), CLL_ROOM, 1, 0, 0)
        && told(cll_strict(NULL, 0, 0, &report), CLL_OK, 0, 0, 0)
        && told(cll_strict(NULL, 0, 1, &report), CLL_SHORT, 0, 0, 1)
        && told(cll_skip(NULL, 0, 256, &report), CLL_SHORT, 0, 0, 1)
        && told(cll_deterministic(NULL, 0, 256, CLL_BYTEWISE, &report), CLL_SHORT, 0, 0, 0)
        && told(cll_canonical(NULL, 0, 256, CLL_BYTEWISE, NULL, 0, NULL, 0, &report), CLL_SHORT, 0, 0, 0)
        && told(cll_canonical(one, 1, 256, CLL_BYTEWISE, NULL, 0, NULL, 0, &report), CLL_ROOM, 0, 0, 0)
        && told(cll_utf8(NULL, 0, &report), CLL_OK, 0, 0, 0);
}

/* A checker takes null if there are no bytes. Only an item is due, and an end there is no end inside an item. */
static int checks_null(void)
{
    cll_checker checker;
    return cll_checker_init(&checker, 0) == CLL_OK
        && told(cll_checker_feed(&checker, NULL, 0, &report), CLL_SHORT, 0, 0, 1)
        && told(cll_checker_end(&checker, &report), CLL_OK, 0, 0, 0);
}

/* A copier takes null if there are no bytes. Nothing is due for no elements. */
static int copies_null(void)
{
    static const uint8_t one[] = {0x05};
    cll_copier copier;
    return cll_copier_init(&copier, 0) == CLL_OK
        && told(cll_copier_feed(&copier, one, 1, NULL, 0, &report), CLL_OK, 0, 0, 0)
        && cll_copier_init(&copier, 1) == CLL_OK
        && told(cll_copier_feed(&copier, NULL, 0, NULL, 0, &report), CLL_SHORT, 0, 0, 0)
        && told(cll_copier_end(&copier, &report), CLL_SHORT, 0, 0, 0)
        && told(cll_copier_feed(&copier, one, 1, NULL, 0, &report), CLL_ROOM, 1, 0, 0)
        && told(cll_copier_end(&copier, &report), CLL_ROOM, 0, 0, 0)
        && told(cll_copier_feed(&copier, NULL, 0, space, 1, &report), CLL_OK, 0, 1, 0) && space[0] == 0x05
        && told(cll_copier_end(&copier, &report), CLL_OK, 0, 0, 0);
}

/* A copier of an item takes null too. Nothing came, so an end there is no end inside an item. */
static int copies_item_null(void)
{
    static const uint8_t one[] = {0x05, 0x06};
    cll_item_copier copier;
    return cll_item_copier_init(&copier, 257) == CLL_ARGUMENT && cll_item_copier_init(&copier, 0) == CLL_OK
        && told(cll_item_copier_feed(&copier, NULL, 0, NULL, 0, &report), CLL_SHORT, 0, 0, 1)
        && told(cll_item_copier_end(&copier, &report), CLL_OK, 0, 0, 0)
        && told(cll_item_copier_feed(&copier, one, 2, NULL, 0, &report), CLL_ROOM, 1, 0, 0)
        && told(cll_item_copier_end(&copier, &report), CLL_ROOM, 0, 0, 0)
        && told(cll_item_copier_feed(&copier, NULL, 0, space, 1, &report), CLL_OK, 0, 1, 1) && space[0] == 0x05
        && told(cll_item_copier_feed(&copier, one, 2, space, 1, &report), CLL_OK, 0, 0, 1)
        && told(cll_item_copier_end(&copier, &report), CLL_OK, 0, 0, 0);
}

/*
 * Replaces one byte of a copier of an item by another one, each in turn, and tries memory with no copier. The call
 * reads and writes nothing outside of its memory.
 */
static int survives_damaged_item_copiers(void)
{
    static const uint8_t begun[] = {0x83, 0x19, 0x03, 0xe8, 0x7f, 0x63, 0xe6};
    static const uint8_t more[] = {0xb0, 0xb4, 0xff, 0x9f, 0x19};
    static cll_item_copier good, none;
    if (!told(cll_item_copier_feed(&none, more, sizeof more, space, 12, &report), CLL_ARGUMENT, 0, 0, 0)
        || !told(cll_item_copier_end(&none, &report), CLL_ARGUMENT, 0, 0, 0)
        || cll_item_copier_init(&good, 4) != CLL_OK
        || !told(cll_item_copier_feed(&good, begun, sizeof begun, space, SPACE, &report), CLL_SHORT, 7, 6, 2))
        return 0;
    for (size_t at = 0; at < sizeof good; at++) {
        for (unsigned change = 1; change < 256; change *= 3) {
            cll_item_copier bad = good;
            ((uint8_t *)&bad)[at] ^= (uint8_t)change;
            memset(space, 0xee, 16);
            const uint32_t answer = cll_item_copier_feed(&bad, more, sizeof more, space, 12, &report);
            if (answer > CLL_ARGUMENT || report.consumed > sizeof more || report.written > 12
                || (report.written < 12 && space[report.written] != 0xee) || space[12] != 0xee
                || cll_item_copier_end(&bad, &report) > CLL_ARGUMENT)
                return 0;
        }
    }
    return 1;
}

/*
 * Tries memory that holds no copier, and memory that holds a checker. The memory stays as it was, and the call writes
 * nothing.
 */
static int refuses_copiers(void)
{
    static cll_copier copier, old;
    static cll_checker checker;
    static const uint8_t one[] = {0x05};
    for (unsigned fill = 0; fill <= 256; fill++) {
        memset(&copier, (int)fill, sizeof copier);
        if (fill == 256 && cll_checker_init(&checker, 0) == CLL_OK)
            memcpy(&copier, &checker, sizeof copier);
        old = copier;
        space[0] = 0xee;
        if (!told(cll_copier_feed(&copier, one, 1, space, SPACE, &report), CLL_ARGUMENT, 0, 0, 0)
            || !told(cll_copier_end(&copier, &report), CLL_ARGUMENT, 0, 0, 0) || space[0] != 0xee
            || memcmp(&copier, &old, sizeof old) != 0)
            return 0;
    }
    return 1;
}

/*
 * Replaces one byte of a copier by another one, each in turn. The call reads and writes nothing outside of its memory.
 */
static int survives_damaged_copiers(void)
{
    static const uint8_t begun[] = {0x19, 0x03, 0xe8, 0x7f, 0x7f, 0x63, 0xe6};
    static const uint8_t more[] = {0xb0, 0xb4, 0xff, 0xff, 0x9f, 0x19};
    cll_copier good;
    if (sizeof good != 72 || cll_copier_init(&good, 3) != CLL_OK
        || !told(cll_copier_feed(&good, begun, sizeof begun, space, 2, &report), CLL_ROOM, 3, 2, 0))
        return 0;
    for (unsigned fed = 0; fed < 2; fed++) {
        for (size_t at = 0; at < sizeof good; at++) {
            for (unsigned value = 0; value < 256; value++) {
                cll_copier bad = good;
                ((uint8_t *)&bad)[at] = (uint8_t)value;
                memset(space, 0xee, 16);
                const uint32_t answer = cll_copier_feed(&bad, more, sizeof more, space, 12, &report);
                if (answer > CLL_ARGUMENT || report.consumed > sizeof more || report.written > 12
                    || (report.written < 12 && space[report.written] != 0xee) || space[12] != 0xee
                    || cll_copier_end(&bad, &report) > CLL_ARGUMENT)
                    return 0;
            }
        }
        if (fed == 0 && !told(cll_copier_feed(&good, begun + 3, 4, space, SPACE, &report), CLL_SHORT, 4, 3, 0))
            return 0;
    }
    return 1;
}

/* A checker's answer for some bytes: the answer, how many of the bytes it takes, and the place. */
struct finding { const uint8_t *data; size_t len; uint32_t depth, answer; uint64_t taken, place; };

/* Tells whether a checker answers so for bytes that are cut into three pieces, and also after them. */
static int finds_so(const struct finding *want, size_t first, size_t second)
{
    const size_t ends[] = {first, second, want->len, want->len};
    cll_checker checker;
    uint64_t taken = 0;
    size_t begin = 0;
    uint32_t answer = CLL_ARGUMENT;
    if (cll_checker_init(&checker, want->depth) != CLL_OK)
        return 0;
    for (size_t i = 0; i < sizeof ends / sizeof *ends; i++) {
        const cll_checker copy = checker;
        checker = copy;
        answer = cll_checker_feed(&checker, want->data + begin, ends[i] - begin, &report);
        taken += report.consumed;
        if (report.written != 0 || (answer == CLL_SHORT && report.consumed != ends[i] - begin))
            return 0;
        begin = ends[i];
    }
    if (answer != want->answer || taken != want->taken || report.place != want->place)
        return 0;
    return told(cll_checker_end(&checker, &report), answer, 0, 0, answer == CLL_OK ? 0 : want->place);
}

/* No cut of bytes into three pieces changes an answer. */
static int checks_pieces(void)
{
    static const uint8_t whole[] = {0xbf, 0x61, 0x61, 0x82, 0x19, 0x03, 0xe8, 0x5f, 0x42, 0x01, 0x02, 0xff,
        0x62, 0xc3, 0xa9, 0xc1, 0xfb, 0, 0, 0, 0, 0, 0, 0, 0, 0xff, 0x05};
    static const uint8_t damage[] = {0x82, 0x01, 0x78, 0x03, 0xe6, 0xb0, 0x28, 0x05};
    static const uint8_t early[] = {0xbf, 0x01, 0xff, 0x05}, deep[] = {0x81, 0x82, 0x01, 0x80, 0x05};
    static const uint8_t none[] = {0x9f, 0x01, 0x1f, 0x05}, cut[] = {0x83, 0x01, 0x5a, 0x00, 0x01, 0x00, 0x00, 0x05};
    static const struct finding rows[] = {
        {whole, sizeof whole, 2, CLL_OK, 26, 26},      {damage, sizeof damage, 1, CLL_SYNTAX, 7, 3},
        {early, sizeof early, 1, CLL_BREAK_DUE, 3, 2}, {deep, sizeof deep, 2, CLL_TOO_DEEP, 4, 3},
        {none, sizeof none, 1, CLL_SYNTAX, 3, 2},      {cut, sizeof cut, 1, CLL_SHORT, 8, 65535},
    };
    for (size_t i = 0; i < sizeof rows / sizeof *rows; i++) {
        for (size_t second = 0; second <= rows[i].len; second++) {
            for (size_t first = 0; first <= second; first++) {
                if (!finds_so(&rows[i], first, second))
                    return 0;
            }
        }
    }
    return 1;
}

/* A checker writes its own memory and nothing around it, also if all levels are in use. */
static int keeps_inside(void)
{
    static struct { uint8_t before[64]; cll_checker checker; uint8_t behind[64]; } at;
    static const uint8_t nest[] = {0x9f}, leaf[] = {0x1b, 1, 2, 3, 4, 5, 6, 7};
    memset(&at, 0xee, sizeof at);
    if (sizeof at.checker != 2368 || cll_checker_init(&at.checker, 256) != CLL_OK)
        return 0;
    for (size_t i = 0; i < 256; i++) {
        if (!told(cll_checker_feed(&at.checker, nest, 1, &report), CLL_SHORT, 1, 0, 1))
            return 0;
    }
    if (!told(cll_checker_feed(&at.checker, leaf, sizeof leaf, &report), CLL_SHORT, sizeof leaf, 0, 1))
        return 0;
    for (size_t i = 0; i < sizeof at.before; i++) {
        if (at.before[i] != 0xee || at.behind[i] != 0xee)
            return 0;
    }
    return 1;
}

/* Tries memory that holds no checker, and depths out of range. The memory stays as it was. */
static int refuses_memory(void)
{
    static cll_checker checker, old;
    static const uint8_t one[] = {0x05};
    for (unsigned fill = 0; fill < 256; fill++) {
        memset(&checker, (int)fill, sizeof checker);
        memset(&old, (int)fill, sizeof old);
        if (cll_checker_init(&checker, 257) != CLL_ARGUMENT || cll_checker_init(&checker, UINT32_MAX) != CLL_ARGUMENT
            || !told(cll_checker_feed(&checker, one, 1, &report), CLL_ARGUMENT, 0, 0, 0)
            || !told(cll_checker_end(&checker, &report), CLL_ARGUMENT, 0, 0, 0)
            || memcmp(&checker, &old, sizeof old) != 0)
            return 0;
    }
    return 1;
}

/*
 * Replaces one byte of a checker by another one, each in turn. The call gives an answer that a call has, and does
 * nothing besides.
 */
static int survives_damage(void)
{
    static const uint8_t begun[] = {0xbf, 0x61, 0x61, 0x9f, 0x7f, 0x63, 0xe6};
    static const uint8_t more[] = {0xb0, 0xb4, 0xff, 0xff, 0x9f, 0x19};
    static const uint8_t others[] = {0x00, 0x01, 0x02, 0x07, 0x08, 0x09, 0x7f, 0x80, 0xff};
    static cll_checker good; /* A call that counts too many nests reads memory that no call wrote. */
    if (cll_checker_init(&good, 16) != CLL_OK
        || !told(cll_checker_feed(&good, begun, sizeof begun, &report), CLL_SHORT, sizeof begun, 0, 2))
        return 0;
    for (size_t at = 0; at < sizeof good; at++) {
        for (size_t i = 0; i < sizeof others; i++) {
            cll_checker bad = good;
            ((uint8_t *)&bad)[at] = others[i];
            const uint32_t answer = cll_checker_feed(&bad, more, sizeof more, &report);
            if (answer > CLL_ARGUMENT || answer == CLL_ROOM || report.consumed > sizeof more || report.written != 0
                || cll_checker_end(&bad, &report) > CLL_ARGUMENT)
                return 0;
        }
    }
    return 1;
}

/* A copy into too little room answers so, and the bytes it writes begin the copy. */
static int lacks_room(void)
{
    static const uint8_t data[] = {0x5f, 0x5f, 0x58, 0x01, 0x01, 0xff, 0xff, 0x19, 0x00, 0x18, 0x62, 0xc3, 0xa9};
    static const uint8_t copy[] = {0x5f, 0x41, 0x01, 0xff, 0x18, 0x18, 0x62, 0xc3, 0xa9};
    for (size_t room = 0; room < sizeof copy; room++) {
        memset(space, 0xee, sizeof copy);
        if (cll_recode(data, sizeof data, 3, space, room, &report) != CLL_ROOM || report.written > room
            || report.place != 0 || memcmp(space, copy, (size_t)report.written) != 0)
            return 0;
        for (size_t i = (size_t)report.written; i < sizeof copy; i++) {
            if (space[i] != 0xee)
                return 0;
        }
    }
    return told(cll_recode(data, sizeof data, 3, space, sizeof copy, &report), CLL_OK, sizeof data, sizeof copy, 0)
        && memcmp(space, copy, sizeof copy) == 0;
}

/*
 * Tries the place of a body that is not UTF-8, after the shortest title and a longer one, by itself and after an open.
 */
static int names_places(void)
{
    static const uint8_t alone[] = {0x62, 0x61, 0xff}, longer[] = {0x78, 0x02, 0x61, 0xff};
    static const uint8_t longest[] = {0x7b, 0, 0, 0, 0, 0, 0, 0, 0x02, 0x61, 0xff};
    static const uint8_t piece[] = {0x7f, 0x78, 0x02, 0x61, 0xff, 0xff};
    return told(cll_recode(alone, sizeof alone, 1, space, SPACE, &report), CLL_SYNTAX, 3, 2, 0)
        && told(cll_recode(longer, sizeof longer, 1, space, SPACE, &report), CLL_SYNTAX, 4, 2, 1)
        && told(cll_recode(longest, sizeof longest, 1, space, SPACE, &report), CLL_SYNTAX, 11, 2, 8)
        && told(cll_recode(piece, sizeof piece, 1, space, SPACE, &report), CLL_SYNTAX, 5, 3, 1)
        && told(cll_skip(longer, sizeof longer, 0, &report), CLL_SYNTAX, 4, 0, 1)
        && told(cll_strict(alone, sizeof alone, 1, &report), CLL_SYNTAX, 3, 0, 0);
}

/*
 * A text of 3000 bytes goes wrong at its eleventh byte. The call finds that out once 1024 bytes of the text are there.
 * Before that no bytes that may follow complete it.
 */
static int cuts_damaged_text(void)
{
    static uint8_t data[3003] = {0x79, 0x0b, 0xb8};
    memset(data + 3, 'a', 3000);
    data[13] = 0xff;
    for (size_t there = 11; there < 3000; there++) {
        const uint32_t want = there < 1024 ? CLL_SHORT : CLL_SYNTAX;
        if (cll_recode(data, 3 + there, 1, space, SPACE, &report) != want || report.place != 0
            || cll_strict(data, 3 + there, 1, &report) != want || report.place != 0
            || cll_skip(data, 3 + there, 0, &report) != want || report.place != 0)
            return 0;
    }
    return 1;
}

/* A title in each width is read as the same header again. No title is written in any other width. */
static int writes_widths(void)
{
    static const cll_header headers[] = {
        {23, CLL_POSITIVE, 0}, {24, CLL_NEGATIVE, 0}, {255, CLL_BYTES, 0}, {256, CLL_TEXT, 0}, {65536, CLL_ARRAY, 0},
        {UINT64_MAX, CLL_MAP, 0}, {0, CLL_MAP, 1}, {1, CLL_TAG, 0}, {23, CLL_SIMPLE, 0}, {24, CLL_SIMPLE, 0},
        {1, CLL_HALF, 0}, {1, CLL_SINGLE, 0}, {1, CLL_DOUBLE, 0}, {0, CLL_BREAK, 0},
    };
    /* The widths of each header, with one bit for each width. */
    static const unsigned widths[] = {
        0x117, 0x116, 0x116, 0x114, 0x110, 0x100, 0x001, 0x117, 0x003, 0x002, 0x004, 0x010, 0x100, 0x001,
    };
    for (size_t i = 0; i < sizeof headers / sizeof *headers; i++) {
        for (uint32_t width = 0; width < 10; width++) {
            cll_header again = {99, 99, 99};
            size_t consumed = 99;
            const uint32_t answer = cll_push_wide(&headers[i], width, space, SPACE, &report);
            if ((widths[i] >> width & 1) == 0) {
                if (!told(answer, CLL_ARGUMENT, 0, 0, 0))
                    return 0;
            } else if (!told(answer, CLL_OK, 0, width + 1, 0)
                || !told(cll_push_wide(&headers[i], width, space, width, &report), CLL_ROOM, 0, 0, 0)
                || cll_pull(space, width + 1, &again, &consumed) != CLL_OK || consumed != width + 1
                || again.value != headers[i].value || again.kind != headers[i].kind
                || again.indefinite != headers[i].indefinite)
                return 0;
        }
    }
    return 1;
}

/*
 * Takes a text in pieces of each length. The bytes after a front are put before the next piece. Each byte in turn is
 * replaced by a byte that no UTF-8 has, and the front ends before the character of that byte.
 */
static int joins_pieces(void)
{
    /* "A\u2262\u0391." of RFC 3629, 7, five times, with U+233B4 after each. */
    static const uint8_t part[] = {0x41, 0xe2, 0x89, 0xa2, 0xce, 0x91, 0x2e, 0xf0, 0xa3, 0x8e, 0xb4};
    static const unsigned begins[] = {0, 1, 1, 1, 4, 4, 6, 7, 7, 7, 7};
    enum { PART = sizeof part, TEXT = 5 * PART };
    uint8_t text[TEXT];
    for (size_t i = 0; i < TEXT; i++)
        text[i] = part[i % PART];
    for (size_t piece = 1; piece <= TEXT; piece++) {
        size_t front = 0, there = 0;
        while (there < TEXT) {
            there += TEXT - there < piece ? TEXT - there : piece;
            const size_t want = there - there % PART + begins[there % PART];
            const uint32_t answer = cll_utf8(text + front, there - front, &report);
            if (!told(answer, want == there ? CLL_OK : CLL_SHORT, want - front, 0, 0))
                return 0;
            front = want;
        }
    }
    for (size_t i = 0; i < TEXT; i++) {
        const size_t want = i - i % PART + begins[i % PART];
        text[i] = 0xff;
        if (!told(cll_utf8(text, TEXT, &report), CLL_SYNTAX, want, 0, want))
            return 0;
        text[i] = part[i % PART];
    }
    return 1;
}

/* Each answer has a text of its own, and so has a number that is no answer. */
static int tells_answers(void)
{
    for (uint32_t one = CLL_OK; one <= CLL_ABSENT + 1u; one++) {
        if (cll_strerror(one)[0] == '\0')
            return 0;
        for (uint32_t other = CLL_OK; other < one; other++) {
            if (strcmp(cll_strerror(one), cll_strerror(other)) == 0)
                return 0;
        }
    }
    return strcmp(cll_strerror(99), cll_strerror(CLL_ABSENT + 1u)) == 0;
}

/* Tells whether one memory overlaps another, as of two calls or of a call's input and output. */
static int finds_overlaps(void)
{
    return cll_overlap(space, 4, space, 4) && cll_overlap(space, 4, space + 3, 4) && cll_overlap(space + 3, 4, space, 4)
        && cll_overlap(space, 8, space + 2, 1) && cll_overlap(space + 2, 1, space, 8)
        && !cll_overlap(space, 4, space + 4, 4) && !cll_overlap(space + 4, 4, space, 4)
        && !cll_overlap(space, 0, space, 4) && !cll_overlap(space, 4, space, 0) && !cll_overlap(NULL, 0, NULL, 0);
}

/*
 * Counts the elements that are there, or fit, and finds the end of the last one and of its spelling. It does so for a
 * copy and for a strict check.
 */
static int counts_elements(void)
{
    static const struct {
        uint8_t data[6];
        size_t len, room;
        uint64_t count;
        uint32_t copied;
        uint64_t elements, whole, spelled;
        uint32_t checked;
        uint64_t strict_elements, strict_whole;
    } rows[] = {
        {{0x05}, 1, 1, UINT64_MAX, CLL_SHORT, 1, 1, 1, CLL_SHORT, 1, 1},
        {{0x41}, 1, 1, UINT64_MAX, CLL_SHORT, 0, 0, 0, CLL_SHORT, 0, 0},
        {{0}, 0, 0, UINT64_MAX, CLL_SHORT, 0, 0, 0, CLL_SHORT, 0, 0},
        {{0}, 0, 0, 0, CLL_OK, 0, 0, 0, CLL_OK, 0, 0},
        {{0x01, 0x82, 0x1c}, 3, 3, UINT64_MAX, CLL_SYNTAX, 2, 2, 2, CLL_SYNTAX, 2, 2},
        {{0x01, 0x18, 0x05, 0x02}, 4, 4, 2, CLL_OK, 2, 3, 2, CLL_SYNTAX, 1, 1},
        {{0x5f, 0x41, 0x61, 0xff, 0x19}, 5, 5, 3, CLL_SHORT, 1, 4, 4, CLL_SHORT, 1, 4},
        {{0x01, 0x5f, 0x41, 0x61}, 4, 4, 2, CLL_SHORT, 1, 1, 1, CLL_SHORT, 1, 1},
        {{0x01, 0x62, 0xc3, 0x28, 0x02}, 5, 5, 3, CLL_SYNTAX, 1, 1, 1, CLL_SYNTAX, 1, 1},
        {{0x01, 0x42, 0x61, 0x62, 0x03}, 5, 3, 3, CLL_ROOM, 1, 1, 1, CLL_OK, 3, 5},
        {{0x01, 0x42, 0x61, 0x62, 0x03}, 5, 4, 3, CLL_ROOM, 2, 4, 4, CLL_OK, 3, 5},
        {{0x18, 0x05, 0x58, 0x01, 0x61, 0x43}, 6, 6, 3, CLL_SHORT, 2, 5, 3, CLL_SYNTAX, 0, 0},
        {{0x18, 0x05, 0x58, 0x01, 0x61, 0x43}, 6, 2, 3, CLL_ROOM, 1, 2, 1, CLL_SYNTAX, 0, 0},
    };
    for (size_t i = 0; i < sizeof rows / sizeof *rows; i++) {
        uint32_t answer = cll_recode(rows[i].data, rows[i].len, rows[i].count, space, rows[i].room, &report);
        if (answer != rows[i].copied || report.elements != rows[i].elements || report.whole != rows[i].whole
            || report.spelled != rows[i].spelled)
            return 0;
        answer = cll_strict(rows[i].data, rows[i].len, rows[i].count, &report);
        if (answer != rows[i].checked || report.elements != rows[i].strict_elements
            || report.whole != rows[i].strict_whole || report.spelled != 0)
            return 0;
    }
    return cll_skip(rows[0].data, 1, 256, &report) == CLL_OK && report.elements == 0 && report.whole == 0
        && report.spelled == 0;
}

/* Tells how many more bytes are due, for a copy, a strict check and a skip. It is 0 if no bytes complete the input. */
static int tells_what_is_due(void)
{
    static const struct {
        uint8_t data[8];
        size_t len;
        uint64_t copied, checked, skipped;
    } rows[] = {
        {{0}, 0, 1, 1, 1},                                  /* an item or an element */
        {{0x82, 0x05}, 2, 1, 1, 1},                         /* another one */
        {{0x82, 0x1b, 0x01}, 3, 7, 7, 7},                   /* the rest of a number */
        {{0x81, 0x9a, 0x00, 0x01}, 4, 2, 2, 2},             /* the rest of the title of a nest */
        {{0x81, 0x5a, 0, 1, 0, 0, 0x61}, 7, 65535, 65535, 65535}, /* the rest of a body */
        {{0x81, 0x7f, 0x63, 0xe6}, 4, 2, 2, 2},             /* the rest of a text inside an open */
        {{0x81, 0x7f, 0x61, 0x61}, 4, 1, 1, 1},             /* a piece or a break */
        {{0x81, 0x19, 0x00}, 3, 1, 0, 1},                   /* a title that is longer than need be */
        {{0x81, 0x5f, 0x19, 0x01}, 4, 0, 0, 0},             /* a number inside a string */
        {{0x81, 0x81, 0x81, 0xd9}, 4, 2, 2, 0},             /* a tag for which no level is left */
    };
    for (size_t i = 0; i < sizeof rows / sizeof *rows; i++) {
        const uint8_t *data = rows[i].data;
        const size_t len = rows[i].len;
        if (cll_recode(data, len, UINT64_MAX, space, SPACE, &report) != CLL_SHORT || report.place != rows[i].copied
            || cll_strict(data, len, UINT64_MAX, &report) != CLL_SHORT || report.place != rows[i].checked
            || cll_skip(data, len, 3, &report) != CLL_SHORT || report.place != rows[i].skipped)
            return 0;
    }
    return 1;
}

/* Checks the deterministic encoding, in both orders of keys, and the places of faults. */
static int checks_deterministic(void)
{
    static const struct {
        uint8_t data[8];
        size_t len;
        uint32_t bytewise, length_first;
        uint64_t consumed, place;
    } rows[] = {
        {{0xa1, 0x61, 'a', 0x82, 0x01, 0x02, 0x1c}, 7, CLL_OK, CLL_OK, 6, 0},
        {{0xa2, 0x01, 0x00, 0x18, 0x18, 0x00}, 6, CLL_OK, CLL_OK, 6, 0},
        {{0xa2, 0x02, 0x00, 0x01, 0x00}, 5, CLL_KEY_ORDER, CLL_KEY_ORDER, 3, 3},
        {{0xa2, 0x01, 0x00, 0x01, 0x00}, 5, CLL_DUPLICATE_KEY, CLL_DUPLICATE_KEY, 3, 3},
        {{0x81, 0x18, 0x05}, 3, CLL_NOT_SHORTEST, CLL_NOT_SHORTEST, 1, 1},
        {{0x81, 0xfa, 0x3f, 0xc0, 0x00, 0x00}, 6, CLL_NOT_SHORTEST, CLL_NOT_SHORTEST, 1, 1},
        {{0x81, 0x9f, 0xff}, 3, CLL_INDEFINITE, CLL_INDEFINITE, 1, 1},
        {{0x81, 0xf8, 0x18}, 3, CLL_SYNTAX, CLL_SYNTAX, 1, 1},
        {{0x81, 0x62, 'a', 0xff}, 4, CLL_SYNTAX, CLL_SYNTAX, 1, 1},
        {{0x81, 0x81, 0x80}, 3, CLL_TOO_DEEP, CLL_TOO_DEEP, 2, 2},
        {{0x82, 0x00, 0x19, 0x03}, 4, CLL_SHORT, CLL_SHORT, 2, 0},
        {{0x81, 0x42, 0x00}, 3, CLL_SHORT, CLL_SHORT, 3, 0},
    };
    static const uint8_t apart[] = {0xa2, 0x18, 0x64, 0x00, 0x20, 0x00};
    for (size_t i = 0; i < sizeof rows / sizeof *rows; i++) {
        const uint64_t consumed = rows[i].consumed, place = rows[i].place;
        const uint8_t *data = rows[i].data;
        if (!told(cll_deterministic(data, rows[i].len, 2, CLL_BYTEWISE, &report), rows[i].bytewise, consumed, 0, place)
            || !told(cll_deterministic(data, rows[i].len, 2, CLL_LENGTH_FIRST, &report), rows[i].length_first, consumed,
                0, place))
            return 0;
    }
    return told(cll_deterministic(apart, sizeof apart, 1, CLL_BYTEWISE, &report), CLL_OK, 6, 0, 0)
        && told(cll_deterministic(apart, sizeof apart, 1, CLL_LENGTH_FIRST, &report), CLL_KEY_ORDER, 4, 0, 4)
        && told(cll_deterministic(apart, sizeof apart, 257, CLL_BYTEWISE, &report), CLL_ARGUMENT, 0, 0, 0)
        && told(cll_deterministic(apart, sizeof apart, 1, 2, &report), CLL_ARGUMENT, 0, 0, 0)
        && CLL_NOT_SHORTEST == 8 && CLL_INDEFINITE == 9 && CLL_KEY_ORDER == 10 && CLL_DUPLICATE_KEY == 11;
}

enum { SPANS = 64 };

static cll_span spans[SPANS];

/* Reads the bytes of digits in hexadecimal, and returns how many there are. */
static size_t read_digits(const char *digits, uint8_t *bytes)
{
    size_t len = 0;
    for (unsigned byte; sscanf(digits + 2 * len, "%2x", &byte) == 1; len++)
        bytes[len] = (uint8_t)byte;
    return len;
}

/* Tells whether the memory from `out` on holds nothing but the value with which it was filled. */
static int is_filled(const uint8_t *out, size_t len)
{
    while (len > 0 && out[len - 1] == 0xee)
        len--;
    return len == 0;
}

/*
 * Writes an item into each room and with each count of spans, from 0 up. It fits exactly if neither is less than what
 * the row says. Nothing after the room and after the spans is written.
 */
static int fits_exactly(const uint8_t *data, size_t len, uint32_t order, const uint8_t *want, size_t room, size_t count)
{
    for (size_t there = 0; there <= room + 2; there++) {
        for (size_t places = 0; places <= count + 2; places++) {
            memset(space, 0xee, room + 8);
            memset(spans, 0xee, sizeof spans);
            const int is_enough = there >= room && places >= count;
            const uint32_t answer = cll_canonical(data, len, 4, order, space, there, spans, places, &report);
            if (!told(answer, is_enough ? CLL_OK : CLL_ROOM, is_enough ? len : 0, is_enough ? room : 0, 0)
                || report.elements != 0 || report.whole != 0 || report.spelled != 0
                || (is_enough && memcmp(space, want, room) != 0) || !is_filled(space + there, room + 8 - there)
                || !is_filled((const uint8_t *)(spans + places), (SPANS - places) * sizeof *spans))
                return 0;
        }
    }
    return 1;
}

/*
 * Writes items of RFC 8949, Appendix A, with other spellings of them, and maps with the keys of 4.2.1 and 4.2.3. The
 * encodings follow from 4.2.1, and stand there a second time for the order of 4.2.3 if that is another one. The number
 * is that of the spans: none if the item is in the encoding already, the pairs of a map whose keys ascend, or else half
 * of the bytes of its pairs, rounded up. Of several maps the greatest number counts.
 */
static int writes_canonical(void)
{
    static const struct { const char *given, *bytewise, *other; size_t spans, other_spans; } rows[] = {
        {"00", "00", NULL, 0, 0},
        {"1bffffffffffffffff", "1bffffffffffffffff", NULL, 0, 0},
        {"1a00000018", "1818", NULL, 0, 0},
        {"f4", "f4", NULL, 0, 0},
        {"f8ff", "f8ff", NULL, 0, 0},
        {"fa7f800000", "f97c00", NULL, 0, 0},
        {"fb7ff8000000000000", "f97e00", NULL, 0, 0},
        {"fbfff0000000000000", "f9fc00", NULL, 0, 0},
        {"fb8000000000000000", "f98000", NULL, 0, 0},
        {"fb3ff199999999999a", "fb3ff199999999999a", NULL, 0, 0},
        {"fa387fc000", "f903ff", NULL, 0, 0},
        {"5f42010243030405ff", "450102030405", NULL, 0, 0},
        {"7f657374726561646d696e67ff", "6973747265616d696e67", NULL, 0, 0},
        {"5f5f4101ff41025f5f4103ff4104ffff", "4401020304", NULL, 0, 0},
        {"c074323031332d30332d32315432303a30343a30305a", "c074323031332d30332d32315432303a30343a30305a", NULL, 0, 0},
        {"9fff", "80", NULL, 0, 0},
        {"9f018202039f0405ffff", "8301820203820405", NULL, 0, 0},
        {"9f0102030405060708090a0b0c0d0e0f101112131415161718181819ff",
            "98190102030405060708090a0b0c0d0e0f101112131415161718181819", NULL, 0, 0},
        {"bfff", "a0", NULL, 0, 0},
        {"bf61610161629f0203ffff", "a26161016162820203", NULL, 2, 0},
        {"826161bf61626163ff", "826161a161626163", NULL, 1, 0},
        {"bf6346756ef563416d7421ff", "a263416d74216346756ef5", NULL, 5, 0},
        {"bff4006261610020008118640019000a00812000617a00186400ff", "a80a001864002000617a006261610081186400812000f400",
            "a80a002000f400186400617a008120006261610081186400", 12, 12},
        {"a101a2200019010000", "a101a2190100002000", "a101a2200019010000", 3, 0},
        {"a2a20200010000a1010000", "a2a1010000a20100020000", NULL, 5, 0},
        {"a4fa3f80000000f9800000f90000000100", "a40100f9000000f93c0000f9800000", NULL, 7, 0},
        {"82a201000200a1626161f4", "82a201000200a1626161f4", NULL, 0, 0},
        {"82a201000200a1626161190001", "82a201000200a162616101", NULL, 2, 0},
    };
    uint8_t data[64], want[64];
    for (size_t i = 0; i < sizeof rows / sizeof *rows; i++) {
        for (uint32_t order = CLL_BYTEWISE; order <= CLL_LENGTH_FIRST; order++) {
            const int is_other = order == CLL_LENGTH_FIRST && rows[i].other != NULL;
            const size_t len = read_digits(rows[i].given, data);
            const size_t room = read_digits(is_other ? rows[i].other : rows[i].bytewise, want);
            if (!fits_exactly(data, len, order, want, room, is_other ? rows[i].other_spans : rows[i].spans))
                return 0;
        }
    }
    return sizeof(cll_span) == 24;
}

/* Refuses an item for each reason, and says where. */
static int refuses_canonical(void)
{
    static const struct { const char *given; uint32_t answer; uint64_t consumed, place; } rows[] = {
        {"", CLL_SHORT, 0, 0},
        {"9f01", CLL_SHORT, 2, 0},
        {"82011903", CLL_SHORT, 4, 0},
        {"5f4101", CLL_SHORT, 3, 0},
        {"811f", CLL_SYNTAX, 1, 1},
        {"5f6100ff", CLL_SYNTAX, 1, 1},
        {"8161ff", CLL_SYNTAX, 1, 1},
        {"a100f81800", CLL_SYNTAX, 2, 2},
        {"8201f81f", CLL_SYNTAX, 2, 2},
        {"ff", CLL_BREAK_DUE, 0, 0},
        {"8201ff", CLL_BREAK_DUE, 2, 2},
        {"bf01ff", CLL_BREAK_DUE, 2, 2},
        {"8181c180", CLL_TOO_DEEP, 3, 3},
        {"a201000100", CLL_DUPLICATE_KEY, 3, 3},
        {"a3020001000200", CLL_DUPLICATE_KEY, 5, 5},
        {"bf7f6161ff00616100ff", CLL_DUPLICATE_KEY, 6, 6},
        {"a2a20100020000a20200010000", CLL_DUPLICATE_KEY, 7, 7},
    };
    static const uint8_t one[] = {0x05};
    for (size_t i = 0; i < sizeof rows / sizeof *rows; i++) {
        uint8_t data[64];
        const size_t len = read_digits(rows[i].given, data);
        for (uint32_t order = CLL_BYTEWISE; order <= CLL_LENGTH_FIRST; order++) {
            const uint32_t answer = cll_canonical(data, len, 3, order, space, SPACE, spans, SPANS, &report);
            if (!told(answer, rows[i].answer, rows[i].consumed, 0, rows[i].place) || report.elements != 0)
                return 0;
        }
    }
    memset(space, 0xee, SPACE);
    return told(cll_canonical(one, 1, 257, CLL_BYTEWISE, space, SPACE, spans, SPANS, &report), CLL_ARGUMENT, 0, 0, 0)
        && told(cll_canonical(one, 1, 1, 2, space, SPACE, spans, SPANS, &report), CLL_ARGUMENT, 0, 0, 0)
        && is_filled(space, SPACE) && CLL_DUPLICATE_KEY == 11;
}

/*
 * Tells whether bytes are written exactly if they begin with an item in which no simple value is from 24 to 31. A fault
 * is that of cll_skip. What is written is in the deterministic encoding, and is written again as it is.
 */
static int writes_as_skip(const uint8_t *data, size_t len, uint32_t order)
{
    uint8_t again[32];
    const uint32_t skipped = cll_skip(data, len, 256, &report);
    const uint64_t length = report.consumed;
    const int means_nothing = len == 2 && data[0] == 0xf8 && data[1] >= 24 && data[1] < 32;
    const uint32_t answer = cll_canonical(data, len, 256, order, space, 32, spans, len, &report);
    if (means_nothing)
        return skipped == CLL_OK && told(answer, CLL_SYNTAX, 0, 0, 0);
    if (answer != skipped || (answer == CLL_OK && report.consumed != length))
        return 0;
    const size_t written = (size_t)report.written;
    return answer != CLL_OK
        || (told(cll_deterministic(space, written, 256, order, &report), CLL_OK, written, 0, 0)
            && cll_canonical(space, written, 256, order, again, 32, spans, written, &report) == CLL_OK
            && report.consumed == written && report.written == written && memcmp(space, again, written) == 0);
}

/* Tries each list of one byte and of two. */
static int writes_short_lists(void)
{
    for (uint32_t order = CLL_BYTEWISE; order <= CLL_LENGTH_FIRST; order++) {
        for (unsigned number = 0; number < 65536; number++) {
            const uint8_t data[] = {(uint8_t)(number >> 8), (uint8_t)number};
            if (!writes_as_skip(data, 2, order) || (data[1] == 0 && !writes_as_skip(data, 1, order)))
                return 0;
        }
    }
    return 1;
}

/*
 * Goes through the bytes title by title as cll_headers has to, by cll_pull, and by cll_skip for a string of a definite
 * length. It compares the titles, the answer and the numbers of the report. The memory after the titles stays as it
 * was.
 */
static int lists_as_pull(const uint8_t *data, size_t len, size_t room)
{
    static cll_title got[8], want[8];
    uint64_t place = 0;
    size_t taken = 0, count = 0;
    uint32_t answer = CLL_OK;
    memset(got, 0xee, sizeof got);
    memset(want, 0xee, sizeof want);
    while (count < room && taken < len) {
        cll_header header;
        size_t used;
        answer = cll_pull(data + taken, len - taken, &header, &used);
        uint64_t whole = used;
        if (answer != CLL_OK || ((header.kind == CLL_BYTES || header.kind == CLL_TEXT) && !header.indefinite)) {
            /* A level lets the title of a nest be cut, for which the bytes that are due are counted. */
            answer = cll_skip(data + taken, len - taken, 1, &report);
            whole = report.consumed;
            place = answer == CLL_SYNTAX ? taken + report.place : report.place;
        }
        if (answer != CLL_OK)
            break;
        want[count].value = header.value;
        want[count].start = taken;
        want[count].end = taken + used;
        want[count].kind = header.kind;
        want[count].indefinite = header.indefinite;
        count++;
        taken += whole;
    }
    return told(cll_headers(data, len, got, room, &report), answer, taken, count, place) && report.elements == 0
        && report.whole == 0 && report.spelled == 0 && memcmp(got, want, sizeof got) == 0;
}

/* Goes through titles, bodies and faults in each room, each cut at each place, and with each byte replaced in turn. */
static int lists_titles(void)
{
    static const uint8_t rows[][13] = {
        {0x82, 0x19, 0x03, 0xe8, 0x42, 0xff, 0x1c, 0x62, 0xc3, 0xa9, 0xf6, 0x01, 0x02},
        {0x5f, 0x41, 0x01, 0xff, 0x9f, 0xbf, 0xff, 0x7f, 0x61, 'a', 0xff, 0xff, 0xc1},
        {0xfb, 0x3f, 0xf1, 0x99, 0x99, 0x99, 0x99, 0x99, 0x9a, 0xf8, 0x18, 0x40, 0x60},
        {0x79, 0x00, 0x04, 0xf0, 0x90, 0x80, 0x80, 0xd8, 0x20, 0x58, 0x01, 0x1f, 0x20},
    };
    uint8_t data[sizeof *rows];
    for (size_t i = 0; i < sizeof rows / sizeof *rows; i++) {
        memcpy(data, rows[i], sizeof data);
        for (size_t len = 0; len <= sizeof data; len++) {
            for (size_t room = 0; room <= 8; room++) {
                if (!lists_as_pull(data, len, room))
                    return 0;
            }
        }
        for (size_t at = 0; at < sizeof data; at++) {
            for (unsigned value = 0; value < 256; value++) {
                data[at] = (uint8_t)value;
                if (!lists_as_pull(data, sizeof data, 8))
                    return 0;
            }
            data[at] = rows[i][at];
        }
    }
    return sizeof(cll_title) == 32;
}

static int is_this_version(void)
{
    return cll_version() == 65536u * CLL_VERSION_MAJOR + 256u * CLL_VERSION_MINOR + CLL_VERSION_PATCH;
}

int main(void)
{
    static const struct { const char *name; int (*holds)(void); } rows[] = {
        {"null", takes_null},           {"room", lacks_room},         {"places", names_places},
        {"damage", cuts_damaged_text},  {"widths", writes_widths},    {"pieces", joins_pieces},
        {"answers", tells_answers},     {"overlaps", finds_overlaps}, {"version", is_this_version},
        {"no bytes", checks_null},      {"cuts", checks_pieces},      {"inside", keeps_inside},
        {"memory", refuses_memory},     {"overwritten", survives_damage}, {"elements", counts_elements},
        {"no bytes to copy", copies_null}, {"no copier", refuses_copiers}, {"a copier", survives_damaged_copiers},
        {"no bytes of an item to copy", copies_item_null}, {"a copier of an item", survives_damaged_item_copiers},
        {"due", tells_what_is_due},     {"deterministic", checks_deterministic}, {"titles", lists_titles},
        {"canonical", writes_canonical}, {"refused", refuses_canonical}, {"short lists", writes_short_lists},
    };
    for (size_t i = 0; i < sizeof rows / sizeof *rows; i++) {
        if (!rows[i].holds()) {
            fprintf(stderr, "calls: %s\n", rows[i].name);
            return 1;
        }
    }
    return 0;
}
