/*
 * For pieces.c and flood.c: memory with a guard page before it and one after it, numbers from a seed, and random items
 * of CBOR. The way in which an item was made says how many bytes are surely due at each of its offsets.
 */
#include <stdint.h>
#include <stdio.h>
#include <stdlib.h>
#include <string.h>
#include <sys/mman.h>
#include <unistd.h>

#include "ciborium_ll.h"

/* Memory in whole pages. The system ends a program that reads or writes before it or after it. */
struct guarded { uint8_t *start, *end; };

static struct guarded guard(size_t room)
{
    const size_t page = (size_t)sysconf(_SC_PAGESIZE), pages = (room + page - 1) / page;
    uint8_t *at = (uint8_t *)mmap(NULL, (pages + 2) * page, PROT_NONE, MAP_PRIVATE | MAP_ANONYMOUS, -1, 0);
    struct guarded made;
    if (at == MAP_FAILED || mprotect(at + page, pages * page, PROT_READ | PROT_WRITE) != 0) {
        perror("mmap");
        exit(2);
    }
    made.start = at + page;
    made.end = made.start + pages * page;
    return made;
}

/* Returns the next number from a seed (SplitMix64). */
static uint64_t seed = 1;

static uint64_t any(void)
{
    uint64_t mixed = seed += 0x9e3779b97f4a7c15u;
    mixed = (mixed ^ (mixed >> 30)) * 0xbf58476d1ce4e5b9u;
    mixed = (mixed ^ (mixed >> 27)) * 0x94d049bb133111ebu;
    return mixed ^ (mixed >> 31);
}

/* Returns a number below a bound that is not 0. */
static uint64_t below(uint64_t bound) { return any() % bound; }

enum { MOST = 1 << 13, TALLEST = 16 };

/* Tells whether items are made in their shortest spelling. */
static int shortest;

/* An item: its bytes, how many bytes are due before each of them, and how many levels it has. */
struct item {
    uint8_t data[MOST];
    uint32_t due[MOST];
    size_t len;
    unsigned levels;
};

static void byte(struct item *item, unsigned value, size_t due)
{
    if (item->len < MOST) {
        item->due[item->len] = (uint32_t)due;
        item->data[item->len] = (uint8_t)value;
    }
    item->len++;
}

/* Adds a title with `width` bytes after its first one. */
static void title(struct item *item, unsigned major, uint64_t value, unsigned width)
{
    static const unsigned minors[] = {0, 24, 25, 0, 26, 0, 0, 0, 27};
    byte(item, major << 5 | (width > 0 ? minors[width] : (unsigned)value), 1);
    for (unsigned left = width; left > 0; left--)
        byte(item, (unsigned)(value >> 8 * (left - 1)) & 0xff, left);
}

/* Adds any title of a number: the shortest one or a longer one. */
static void number(struct item *item, unsigned major, uint64_t value)
{
    static const unsigned widths[] = {0, 1, 2, 4, 8};
    const size_t least = value < 24 ? 0 : value < 0x100 ? 1 : value < 0x10000 ? 2 : value < 0x100000000u ? 3 : 4;
    title(item, major, value, widths[shortest || below(3) > 0 ? least : least + below(5 - least)]);
}

/* Writes a character of each length in UTF-8. */
static size_t character(uint8_t *bytes)
{
    static const uint32_t bounds[] = {0, 0x80, 0x800, 0x10000, 0x110000};
    const size_t len = 1 + below(4);
    uint32_t point = bounds[len - 1] + (uint32_t)below(bounds[len] - bounds[len - 1]);
    if (point >= 0xd800 && point < 0xe000)
        point = below(2) ? 0xd7ff : 0xe000;
    for (size_t at = len; at-- > 1; point >>= 6)
        bytes[at] = (uint8_t)(0x80 | (point & 0x3f));
    bytes[0] = (uint8_t)(len == 1 ? point : (0xf00u >> len & 0xff) | point);
    return len;
}

/* Adds a string whose title tells its length. */
static void body(struct item *item, int is_text, size_t room)
{
    uint8_t bytes[MOST];
    size_t len = 0;
    while (room >= 4 && len <= room - 4 && below(16) > 0)
        len += is_text ? character(bytes + len) : (bytes[len] = (uint8_t)any(), 1);
    number(item, is_text ? 3 : 2, len);
    for (size_t at = 0; at < len; at++)
        byte(item, bytes[at], len - at);
}

/* Adds a string in pieces. An open may stand inside another one, but not in the shortest spelling. */
static void string(struct item *item, int is_text, size_t room)
{
    unsigned opens = 1;
    byte(item, is_text ? 0x7f : 0x5f, 1);
    while (opens > 0) {
        const uint64_t choice = below(8);
        if (choice < 3) {
            body(item, is_text, room / 8);
        } else if (choice < 4 && opens < 5 && !shortest) {
            byte(item, is_text ? 0x7f : 0x5f, 1);
            opens++;
        } else {
            byte(item, 0xff, 1);
            opens--;
        }
    }
}

/* Adds a number, a simple value, a float or a string. */
static void leaf(struct item *item, size_t room)
{
    switch (below(9)) {
    case 0:
    case 1:
        number(item, (unsigned)below(2), any() >> below(64));
        break;
    case 2:
        title(item, 7, below(24), 0);
        break;
    case 3:
        title(item, 7, any() | 0x20, 1u << below(4));
        break;
    case 4:
        title(item, 7, shortest ? 32 : below(32), 1);
        break;
    case 5:
    case 6:
        body(item, (int)below(2), room);
        break;
    default:
        string(item, (int)below(2), room);
    }
}

static void append(struct item *item, unsigned level, size_t room);

/* Adds a tag, an array or a map, at a level from 1 on. */
static void nest(struct item *item, unsigned level, size_t room)
{
    const unsigned major = 4 + (unsigned)below(3);
    const uint64_t count = below(6);
    const int is_open = major < 6 && below(2);
    if (item->levels < level)
        item->levels = level;
    if (major == 6) {
        number(item, major, any() >> below(64));
        append(item, level, room);
        return;
    }
    if (is_open)
        byte(item, major << 5 | 31, 1);
    else
        number(item, major, count);
    for (uint64_t left = major == 5 ? 2 * count : count; left > 0; left--)
        append(item, level, room / 4);
    if (is_open)
        byte(item, 0xff, 1);
}

/* Adds another item, with `level` levels around it. */
static void append(struct item *item, unsigned level, size_t room)
{
    if (level < TALLEST && room > 8 && below(5) < 3)
        nest(item, level + 1, room);
    else
        leaf(item, room);
}

/* Makes a new item, now and then a long one. It gives up an item that has no room, and makes another one. */
static void make(struct item *item)
{
    do {
        item->len = 0;
        item->levels = 0;
        append(item, 0, below(64) ? 16 << below(4) : 2048);
    } while (item->len > MOST);
}
