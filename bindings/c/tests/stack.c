/*
 * Prints how many bytes of the stack each call uses, with one line NAME BYTES for each. It calls cll_skip for some
 * depths, each filled with nests of two kinds, down to a text and to a byte string of indefinite length. It calls
 * cll_deterministic for the same depths, filled with tags, arrays or maps down to texts, a byte string and a float. It
 * calls cll_canonical for all of these, and for maps with a few or many keys that have to be sorted. It views the nests
 * of cll_skip, and looks up keys of a map whose last value they are. A line NAME/short
 * is for bytes that end too early, in one of the ways in which they can, and NAME/room for an output that is too short.
 *
 * A call runs on a stack of its own, filled with one value before. The bytes that the call changed are the bytes that
 * it used. The program takes off the use of a call that does nothing.
 */
#define _XOPEN_SOURCE 600
#include <stdio.h>
#include <stdlib.h>
#include <string.h>
#include <ucontext.h>

#include "ciborium_ll.h"

enum { STACK = 1 << 20, FILL = 0xa5, DEEPEST = 256, ROOM = 4096, TITLE = 3 };

static uint8_t data[ROOM], out[ROOM];
static size_t len;
static uint32_t depth;
static uint32_t answer;
static cll_header header;
static cll_title titles[8];
static cll_span spans[ROOM];
static cll_report report;
static size_t consumed;
static cll_checker checker;
static cll_parser parser;
static cll_event event;
static cll_copier copier;
static cll_item_copier item_copier;
static cll_item item, value;
static cll_items items;
static cll_body body;

static void nothing(void) { answer = CLL_OK; }
static void pull(void) { answer = cll_pull(data, len, &header, &consumed); }
static void list(void) { answer = cll_headers(data, len, titles, 8, &report); }
static void push(void) { answer = cll_push(&header, out, sizeof out, &report); }
static void push_wide(void) { answer = cll_push_wide(&header, 8, out, sizeof out, &report); }
static void recode(void) { answer = cll_recode(data, len, 1, out, sizeof out, &report); }
static void strict(void) { answer = cll_strict(data, len, 1, &report); }
static void skip(void) { answer = cll_skip(data, len, depth, &report); }
static void deterministic(void) { answer = cll_deterministic(data, len, depth, CLL_BYTEWISE, &report); }
static void length_first(void) { answer = cll_deterministic(data, len, depth, CLL_LENGTH_FIRST, &report); }
static uint32_t rewrite(size_t from, size_t room, uint32_t order)
{
    return cll_canonical(data, from, depth, order, out, room, spans, ROOM, &report);
}
static void canonical(void) { answer = rewrite(len, sizeof out, CLL_BYTEWISE); }
static void canonical_length_first(void) { answer = rewrite(len, sizeof out, CLL_LENGTH_FIRST); }
static void utf8(void) { answer = cll_utf8(data + TITLE, len - TITLE, &report); }

static void checker_init(void) { answer = cll_checker_init(&checker, DEEPEST); }
static void checker_init_strict(void) { answer = cll_checker_init_strict(&checker, DEEPEST); }
static void checker_feed(void) { answer = cll_checker_feed(&checker, data, len, &report); }
static void checker_end(void) { answer = cll_checker_end(&checker, &report); }

static void parser_init(void) { answer = cll_parser_init(&parser); }
static void parser_init_strict(void) { answer = cll_parser_init_strict(&parser); }
/* Pushes all bytes, which have no fault. */
static void parser_push(void)
{
    size_t taken = 0;
    do {
        answer = cll_parser_push(&parser, data + taken, len - taken, &event);
        taken += (size_t)event.consumed;
    } while (answer == CLL_OK && taken < len);
    answer = answer == CLL_SHORT ? CLL_OK : answer;
}
static void parser_end(void)
{
    const uint32_t got = cll_parser_end(&parser, &report);
    answer = got == CLL_SHORT ? CLL_OK : got;
}
static void parser_fault(void)
{
    static const uint8_t damaged[] = {0x62, 0xc3, 0x28};
    const int is_told = cll_parser_init(&parser) == CLL_OK && cll_parser_push(&parser, damaged, 1, &event) == CLL_OK
        && cll_parser_push(&parser, damaged + 1, 2, &event) == CLL_SYNTAX
        && cll_parser_end(&parser, &report) == CLL_SYNTAX;
    answer = is_told ? CLL_OK : CLL_ARGUMENT;
}

static void copier_init(void) { answer = cll_copier_init(&copier, 1); }
static void copier_init_strict(void) { answer = cll_copier_init_strict(&copier, 1); }
static void copier_feed(void) { answer = cll_copier_feed(&copier, data, len, out, sizeof out, &report); }
static void copier_end(void) { answer = cll_copier_end(&copier, &report); }

static void item_copier_init(void) { answer = cll_item_copier_init(&item_copier, DEEPEST); }
static void item_copier_init_strict(void) { answer = cll_item_copier_init_strict(&item_copier, DEEPEST); }
static void item_copier_feed(void)
{
    answer = cll_item_copier_feed(&item_copier, data, len, out, sizeof out, &report);
}
static void item_copier_end(void) { answer = cll_item_copier_end(&item_copier, &report); }

static void item_parse(void) { answer = cll_item_parse(data, len, depth, &item, &report); }
static void item_header(void) { answer = cll_item_header(&item, &header); }
static void item_text(void) { answer = cll_item_text(&item, &body); }
static void item_bytes(void) { answer = cll_item_bytes(&item, &body) == CLL_ABSENT ? CLL_OK : CLL_ARGUMENT; }
static void item_items(void) { answer = cll_item_items(&item, &items); }
static void item_next(void)
{
    items.data = item.data;
    items.len = item.len;
    items.depth = item.depth;
    answer = cll_item_next(&items, &value);
}
static void item_get(void) { answer = cll_item_get(&item, data + 3, 2, &value); }
static void item_get_text(void) { answer = cll_item_get_text(&item, data + 4, 1, &value); }
static void item_get_int(void) { answer = cll_item_get_int(&item, 0, &value); }

/* Calls it for a text that is not UTF-8, with its title before it. */
static void no_utf8(void) { answer = cll_utf8(data, len, &report) == CLL_SYNTAX ? CLL_OK : CLL_ARGUMENT; }

/* Calls it without the last byte, so that the bytes end too early. */
static uint32_t cut(uint32_t got) { return got == CLL_SHORT ? CLL_OK : CLL_ARGUMENT; }
static void recode_cut(void) { answer = cut(cll_recode(data, len - 1, 1, out, sizeof out, &report)); }
static void strict_cut(void) { answer = cut(cll_strict(data, len - 1, 1, &report)); }
static void deterministic_cut(void)
{
    answer = cut(cll_deterministic(data, len - 1, depth, CLL_BYTEWISE, &report));
}
static void skip_cut(void) { answer = cut(cll_skip(data, len - 1, depth, &report)); }
static void canonical_cut(void) { answer = cut(rewrite(len - 1, sizeof out, CLL_BYTEWISE)); }
static void canonical_room(void)
{
    answer = rewrite(len, report.written - 1, CLL_BYTEWISE) == CLL_ROOM ? CLL_OK : CLL_ARGUMENT;
}

static void item_parse_cut(void) { answer = cut(cll_item_parse(data, len - 1, depth, &item, &report)); }

/* Calls it for titles that are whole, and with a fault after them: bytes that are cut off, or of no title. */
static void list_cut(void) { answer = cut(cll_headers(data, len - 1, titles, 8, &report)); }
static void list_short(void)
{
    const uint32_t got = cll_headers(data, len, titles, 8, &report);
    answer = got == CLL_OK ? CLL_OK : cut(got);
}
static void list_fault(void)
{
    static const uint8_t bytes[] = {0x01, 0x1c}, damaged[] = {0x62, 0xc3, 0x28};
    const int is_told = cll_headers(bytes, sizeof bytes, titles, 8, &report) == CLL_SYNTAX
        && cll_headers(damaged, sizeof damaged, titles, 8, &report) == CLL_SYNTAX;
    answer = is_told ? CLL_OK : CLL_ARGUMENT;
}

/* Calls it for bytes that end too early as they are. */
static void recode_short(void) { answer = cut(cll_recode(data, len, UINT64_MAX, out, sizeof out, &report)); }
static void strict_short(void) { answer = cut(cll_strict(data, len, UINT64_MAX, &report)); }
static void skip_short(void) { answer = cut(cll_skip(data, len, depth, &report)); }
static void checker_short(void) { answer = cut(cll_checker_feed(&checker, data, len, &report)); }
static void checker_cut(void) { answer = len == 0 ? CLL_OK : cut(cll_checker_end(&checker, &report)); }
static void copier_short(void) { answer = cut(cll_copier_feed(&copier, data, len, out, sizeof out, &report)); }
static void copier_cut(void) { answer = cut(cll_copier_end(&copier, &report)); }
static void item_copier_short(void)
{
    answer = cut(cll_item_copier_feed(&item_copier, data, len, out, sizeof out, &report));
}
static void item_copier_cut(void) { answer = len == 0 ? CLL_OK : cut(cll_item_copier_end(&item_copier, &report)); }

/* Returns how many bytes of a stack a call changed. The call has to answer CLL_OK. */
static size_t used(void (*call)(void))
{
    static uint8_t stack[STACK];
    static ucontext_t here, there;
    memset(stack, FILL, sizeof stack);
    getcontext(&there);
    there.uc_stack.ss_sp = stack;
    there.uc_stack.ss_size = sizeof stack;
    there.uc_link = &here;
    makecontext(&there, call, 0);
    swapcontext(&here, &there);
    if (answer != CLL_OK) {
        fprintf(stderr, "stack: a call answered %lu\n", (unsigned long)answer);
        exit(1);
    }
    size_t untouched = 0;
    while (untouched < sizeof stack && stack[untouched] == FILL)
        untouched++;
    return sizeof stack - untouched;
}

/* Makes a text of 1000 characters of three bytes each. */
static void make_text(void)
{
    static const uint8_t title[TITLE] = {0x79, 0x0b, 0xb8}, character[] = {0xe6, 0xb0, 0xb4};
    memcpy(data, title, TITLE);
    for (len = TITLE; len < TITLE + 3000; len += sizeof character)
        memcpy(data + len, character, sizeof character);
}

/*
 * Makes `levels` nests inside one another, with a text and a byte string in the innermost one. Each is an array of
 * indefinite length, or an array of two, in which another item follows the nest. So no call has to come back after the
 * last nest.
 */
static void make_nests(int is_open, unsigned levels)
{
    static const uint8_t inner[] = {0x82, 0x63, 0xe6, 0xb0, 0xb4, 0x5f, 0x42, 1, 2, 0x41, 3, 0xff};
    const size_t around = levels - 1;
    memset(data, is_open ? 0x9f : 0x82, around);
    memcpy(data + around, inner, sizeof inner);
    memset(data + around + sizeof inner, is_open ? 0xff : 0x00, around);
    len = 2 * around + sizeof inner;
    depth = levels;
}

/*
 * Makes `levels` nests inside one another: tags, arrays, maps with the next nest as a key, maps with it as a value, or
 * maps with it as the value of a key that comes before another one. In the innermost one are a short text, a byte
 * string, a float and a text of 99 bytes.
 */
static void make_definite_nests(int kind, unsigned levels)
{
    static const uint8_t inner[] = {0x84, 0x63, 0xe6, 0xb0, 0xb4, 0x42, 1, 2, 0xfb, 0x3f, 0xf1, 0x99, 0x99, 0x99, 0x99,
        0x99, 0x9a, 0x78, 99};
    static const uint8_t titles[] = {0xc1, 0x82, 0xa1, 0xa1, 0xa2}, pair[] = {0x02, 0x00, 0x01};
    const size_t around = levels - 1;
    len = 0;
    for (size_t i = 0; i < around; i++) {
        data[len++] = titles[kind];
        if (kind == 3)
            data[len++] = 0x00;
        if (kind == 4) {
            memcpy(data + len, pair, sizeof pair);
            len += sizeof pair;
        }
    }
    memcpy(data + len, inner, sizeof inner);
    len += sizeof inner;
    for (int i = 0; i < 33; i++, len += 3)
        memcpy(data + len, inner + 2, 3);
    if (kind == 1 || kind == 2) {
        memset(data + len, 0x00, around);
        len += around;
    }
    depth = levels;
}

/* Makes `levels` nests inside one another: arrays of one, down to a map of 600 pairs whose keys have to be sorted. */
static void make_pairs(unsigned levels)
{
    memset(data, 0x81, levels - 1);
    data[levels - 1] = 0xbf;
    len = levels;
    for (unsigned i = 0; i < 600; i++) {
        const unsigned key = i * 331 % 600;
        const uint8_t pair[] = {0x19, (uint8_t)(4 + (key >> 8)), (uint8_t)key, 0x00};
        memcpy(data + len, pair, sizeof pair);
        len += sizeof pair;
    }
    data[len++] = 0xff;
    depth = levels;
}

/* Makes a map with the keys 0 and "a". The value of "a" is as many nests as take the levels that the map leaves. */
static void make_values(int is_open, unsigned levels)
{
    static const uint8_t keys[] = {0xa2, 0x00, 0x00, 0x61, 'a'};
    len = 1;
    data[0] = 0x00;
    if (levels > 1)
        make_nests(is_open, levels - 1);
    memmove(data + sizeof keys, data, len);
    memcpy(data, keys, sizeof keys);
    len += sizeof keys;
    depth = levels;
}

/* Prints the use of the calls that view an item and look up its keys, which take levels of the item. */
static void use_views(unsigned levels, size_t plain)
{
    static const struct { const char *name; void (*call)(void); } calls[] = {
        {"cll_item_parse", item_parse}, {"cll_item_next", item_next}, {"cll_item_get", item_get},
        {"cll_item_get_text", item_get_text}, {"cll_item_get_int", item_get_int},
    };
    for (size_t i = 0; i < sizeof calls / sizeof *calls; i++)
        printf("%s/%u %zu\n", calls[i].name, levels, used(calls[i].call) - plain);
    printf("cll_item_header %zu\n", used(item_header) - plain);
    printf("cll_item_items %zu\n", used(item_items) - plain);
}

/*
 * Prints the use of each call for bytes that end too early: before a title, or inside a title, a body, a character or a
 * nest.
 */
static void use_short(size_t plain)
{
    static const struct { const char *name; void (*call)(void); } calls[] = {
        {"cll_recode/short", recode_short}, {"cll_strict/short", strict_short}, {"cll_skip/short/4", skip_short},
        {"cll_checker_feed/short", checker_short}, {"cll_checker_end", checker_cut},
        {"cll_copier_feed/short", copier_short}, {"cll_copier_end/short", copier_cut}, {"cll_headers/short", list_short},
        {"cll_item_copier_feed/short", item_copier_short}, {"cll_item_copier_end/short", item_copier_cut},
        {"cll_parser_push/short", parser_push}, {"cll_parser_end/short", parser_end},
    };
    static const struct { uint8_t bytes[6]; size_t len; } rows[] = {
        {{0}, 0},                               /* before a title */
        {{0x19, 0x03}, 2},                      /* inside a title */
        {{0x5b, 0, 0}, 3},                      /* inside the title of a string */
        {{0x42}, 1},                            /* before a body */
        {{0x43, 1}, 2},                         /* inside a body */
        {{0x63, 0xe6, 0xb0}, 3},                /* inside a character */
        {{0x5f}, 1},                            /* before a segment */
        {{0x5f, 0x58}, 2},                      /* inside the title of one */
        {{0x5f, 0x41}, 2},                      /* before the body of one */
        {{0x7f, 0x62, 0xc3}, 3},                /* inside a character of one */
        {{0x7f, 0x61, 'a'}, 3},                 /* before the next one */
        {{0x82, 0x81, 0x18}, 3},                /* inside nests */
        {{0xbf, 0x61, 'a', 0xc1, 0x5f, 0x41}, 6},
    };
    for (size_t i = 0; i < sizeof rows / sizeof *rows; i++) {
        memcpy(data, rows[i].bytes, sizeof rows[i].bytes);
        len = rows[i].len;
        depth = 4;
        checker_init();
        answer = cll_copier_init(&copier, UINT64_MAX);
        item_copier_init();
        parser_init();
        for (size_t j = 0; j < sizeof calls / sizeof *calls; j++)
            printf("%s %zu\n", calls[j].name, used(calls[j].call) - plain);
    }
}

/* Prints the use of cll_canonical for the nests. */
static void use_canonical(unsigned levels, size_t plain)
{
    printf("cll_canonical/%u %zu\n", levels, used(canonical) - plain);
    printf("cll_canonical/room/%u %zu\n", levels, used(canonical_room) - plain);
    printf("cll_canonical/length_first/%u %zu\n", levels, used(canonical_length_first) - plain);
    printf("cll_canonical/short/%u %zu\n", levels, used(canonical_cut) - plain);
}

int main(void)
{
    static const struct { const char *name; void (*call)(void); } calls[] = {
        {"cll_pull", pull},     {"cll_push", push},     {"cll_push_wide", push_wide},
        {"cll_recode", recode}, {"cll_strict", strict}, {"cll_utf8/text", utf8},
        {"cll_recode/short", recode_cut}, {"cll_strict/short", strict_cut}, {"cll_headers", list},
        {"cll_utf8/damage", no_utf8}, {"cll_headers/short", list_cut}, {"cll_headers/damage", list_fault},
        {"cll_checker_init", checker_init}, {"cll_checker_feed", checker_feed}, {"cll_checker_end", checker_end},
        {"cll_checker_init_strict", checker_init_strict}, {"cll_checker_feed/strict", checker_feed},
        {"cll_parser_init", parser_init}, {"cll_parser_push", parser_push}, {"cll_parser_end", parser_end},
        {"cll_parser_init_strict", parser_init_strict}, {"cll_parser_push/fault", parser_fault},
        {"cll_copier_init", copier_init}, {"cll_copier_feed", copier_feed}, {"cll_copier_end", copier_end},
        {"cll_copier_init_strict", copier_init_strict}, {"cll_copier_feed/strict", copier_feed},
        {"cll_item_copier_init", item_copier_init}, {"cll_item_copier_feed", item_copier_feed},
        {"cll_item_copier_end", item_copier_end}, {"cll_item_copier_init_strict", item_copier_init_strict},
        {"cll_item_copier_feed/strict", item_copier_feed}, {"cll_item_parse/0", item_parse},
        {"cll_item_header", item_header}, {"cll_item_text", item_text}, {"cll_item_bytes", item_bytes},
    };
    static const unsigned depths[] = {1, 16, 64, 128, DEEPEST};
    const size_t plain = used(nothing);

    make_text();
    for (size_t i = 0; i < sizeof calls / sizeof *calls; i++)
        printf("%s %zu\n", calls[i].name, used(calls[i].call) - plain);
    use_short(plain);
    for (size_t i = 0; i < sizeof depths / sizeof *depths; i++) {
        for (int is_open = 0; is_open < 2; is_open++) {
            make_nests(is_open, depths[i]);
            printf("cll_skip/%u %zu\n", depths[i], used(skip) - plain);
            printf("cll_skip/short/%u %zu\n", depths[i], used(skip_cut) - plain);
            printf("cll_item_parse/short/%u %zu\n", depths[i], used(item_parse_cut) - plain);
            use_canonical(depths[i], plain);
            make_values(is_open, depths[i]);
            use_views(depths[i], plain);
        }
        make_pairs(depths[i]);
        use_canonical(depths[i], plain);
        for (int kind = 0; kind < 5; kind++) {
            make_definite_nests(kind, depths[i]);
            use_canonical(depths[i], plain);
            if (kind == 4)
                continue;
            printf("cll_deterministic/%u %zu\n", depths[i], used(deterministic) - plain);
            printf("cll_deterministic/length_first/%u %zu\n", depths[i], used(length_first) - plain);
            printf("cll_deterministic/short/%u %zu\n", depths[i], used(deterministic_cut) - plain);
        }
    }
    return 0;
}
