/*
 * Feeds a checker one item of 1 GiB and a byte, in pieces of 1 to 65,536 bytes. Each piece ends at a guard page. The
 * memory must not grow with the item. Then the program skips the same item as a whole. The pages of the item stand in a
 * row for that, and all but the first and the last ones are the same.
 *
 * Two copiers get an item of a sixteenth of these bytes, with room for 1 to 65,536 bytes, which ends at a guard page
 * too. Their copy is that of the blocks of the item, by cll_recode.
 *
 * usage: flood [all]
 *
 * `all` gives the copiers the whole item, which takes a minute and more.
 *
 * It prints how many pieces there were. If anything goes wrong, it says so, and then ends with the status 1.
 */
#define _DEFAULT_SOURCE
#include <sys/resource.h>

#include "items.h"

enum { BLOCK = 1 << 20, BLOCKS = 1 << 10, LONGEST = 1 << 16, GROWTH = 1024 };

/* The item is an open and `parts` blocks, and has `whole` bytes. The last block ends with a break. */
static uint64_t parts = BLOCKS, whole = 1 + (uint64_t)BLOCKS * BLOCK;

static uint8_t blocks[2][BLOCK];
static uint8_t copies[2][BLOCK];
static size_t copied[2];
static struct guarded input, output;
static cll_checker checker;
static cll_copier copier;
static cll_item_copier item_copier;
static cll_report report;

/* Writes a string that fills `room` bytes. A text has characters of each length. */
static void fill(uint8_t *data, size_t room, int is_text)
{
    const size_t len = room - 5;
    size_t at = 0;
    data[0] = is_text ? 0x7a : 0x5a;
    for (size_t i = 0; i < 4; i++)
        data[1 + i] = (uint8_t)(len >> (24 - 8 * i));
    while (is_text && len - at >= 4)
        at += character(data + 5 + at);
    memset(data + 5 + at, 'a', len - at);
}

/* Fills a block up to its end with items: short ones, and strings longer than a piece. Few of the strings are texts. */
static void fill_block(uint8_t *data, size_t room)
{
    static struct item item;
    size_t left = room;
    while (left > (size_t)4 * LONGEST) {
        make(&item);
        memcpy(data + room - left, item.data, item.len);
        left -= item.len;
        if (below(64) == 0) {
            const size_t len = LONGEST + (size_t)below(LONGEST);
            fill(data + room - left, len, below(8) == 0);
            left -= len;
        }
    }
    fill(data + room - left, left, 0);
}

/* Copies a piece of the item to the guard page. */
static const uint8_t *piece(uint64_t from, size_t len)
{
    uint8_t *at = input.end - len;
    for (size_t i = 0; i < len;) {
        const uint64_t inside = from + i - 1;
        const size_t start = (size_t)(inside % BLOCK), room = BLOCK - start;
        const size_t count = from + i == 0 ? 1 : len - i < room ? len - i : room;
        if (from + i == 0)
            at[0] = 0x9f;
        else
            memcpy(at + i, blocks[inside / BLOCK == parts - 1] + start, count);
        i += count;
    }
    return at;
}

/* Returns a length. One from 1 to 16 is as likely as one from 4,097 to 65,536. */
static size_t length(void) { return 1 + (size_t)below(UINT64_C(1) << below(17)); }

static long peak(void)
{
    struct rusage used;
    getrusage(RUSAGE_SELF, &used);
    return used.ru_maxrss;
}

static int says(uint32_t answer, uint32_t want, uint64_t consumed, uint64_t place)
{
    if (answer == want && report.consumed == consumed && report.place == place)
        return 1;
    fprintf(stderr, "flood: answer %lu, consumed %llu, place %llu\n", (unsigned long)answer,
        (unsigned long long)report.consumed, (unsigned long long)report.place);
    return 0;
}

/* Feeds all bytes but the last one. Returns how many pieces that took, or 0. */
static unsigned long flows(void)
{
    unsigned long pieces = 0;
    uint64_t there = 0;
    for (; there < whole - 1; pieces++) {
        size_t len = length();
        if (len > whole - 1 - there)
            len = (size_t)(whole - 1 - there);
        const uint32_t answer = cll_checker_feed(&checker, piece(there, len), len, &report);
        there += len;
        if (answer != CLL_SHORT || report.consumed != len || report.place < 1 || report.place > whole - there) {
            says(answer, CLL_SHORT, len, 1);
            return 0;
        }
    }
    return pieces;
}

/* The item ends with a break, and with no other byte. */
static int has_an_end(void)
{
    static const uint8_t last[] = {0xff, 0x05}, none[] = {0x1c}, text[] = {0x62, 0xc3, 0x28};
    cll_checker copies[2] = {checker, checker};
    return says(cll_checker_end(&checker, &report), CLL_SHORT, 0, 1)
        && says(cll_checker_feed(&checker, last, sizeof last, &report), CLL_OK, 1, whole)
        && says(cll_checker_feed(&copies[0], none, sizeof none, &report), CLL_SYNTAX, 1, whole - 1)
        && says(cll_checker_feed(&copies[1], text, sizeof text, &report), CLL_SYNTAX, 3, whole - 1);
}

/* Returns the item with all its bytes in a row, and a guard page after it. It takes the memory of two blocks. */
static const uint8_t *in_a_row(void)
{
    const size_t page = (size_t)sysconf(_SC_PAGESIZE);
    FILE *file = tmpfile();
    if (file == NULL || fwrite(blocks, 1, sizeof blocks, file) != sizeof blocks || fflush(file) != 0) {
        perror("tmpfile");
        exit(2);
    }
    const struct guarded row = guard(page + (size_t)(whole - 1));
    for (size_t i = 0; i < BLOCKS; i++) {
        if (mmap(row.start + page + i * BLOCK, BLOCK, PROT_READ, MAP_SHARED | MAP_FIXED, fileno(file),
                i == BLOCKS - 1 ? BLOCK : 0) == MAP_FAILED) {
            perror("mmap");
            exit(2);
        }
    }
    row.start[page - 1] = 0x9f;
    return row.start + page - 1;
}

/*
 * Makes the shortest spelling of the elements in the blocks. Returns how many elements the item has, or 0. A break is
 * one.
 */
static uint64_t copies_blocks(void)
{
    uint64_t elements = 1;
    for (size_t i = 0; i < 2; i++) {
        if (cll_recode(blocks[i], BLOCK, UINT64_MAX, copies[i], BLOCK, &report) != CLL_SHORT || report.whole != BLOCK)
            return 0;
        copied[i] = (size_t)report.written;
        elements += report.elements * (i == 0 ? parts - 1 : 1);
    }
    return elements;
}

/* Returns how many bytes the copy of the item has. */
static uint64_t copy_len(void) { return 1 + (parts - 1) * copied[0] + copied[1]; }

/* Tells whether the bytes are those of the copy from this offset on. */
static int is_copy(const uint8_t *data, size_t len, uint64_t from)
{
    const uint64_t last = copy_len() - copied[1];
    const uint8_t opened = 0x9f;
    if (len > copy_len() - from)
        return 0;
    for (size_t i = 0; i < len;) {
        const uint64_t at = from + i;
        const size_t inside = at == 0 ? 0 : (size_t)(at < last ? (at - 1) % copied[0] : at - last);
        const size_t room = at == 0 ? 1 : copied[at >= last] - inside;
        const size_t count = len - i < room ? len - i : room;
        if (memcmp(data + i, at == 0 ? &opened : copies[at >= last] + inside, count) != 0)
            return 0;
        i += count;
    }
    return 1;
}

/* Gives a piece to the copier of elements, or to the copier of an item. */
static uint32_t fed_copier(int is_item, const uint8_t *data, size_t len, uint8_t *out, size_t room)
{
    return is_item ? cll_item_copier_feed(&item_copier, data, len, out, room, &report)
                   : cll_copier_feed(&copier, data, len, out, room, &report);
}

/* Copies all of the item, to its end. */
static int copies_all(int is_item)
{
    uint64_t there = 0, written = 0;
    uint32_t answer = CLL_SHORT;
    while (answer == CLL_SHORT || answer == CLL_ROOM) {
        const size_t room = length();
        size_t len = length();
        if (len > whole - there)
            len = (size_t)(whole - there);
        uint8_t *out = output.end - room;
        answer = fed_copier(is_item, piece(there, len), len, out, room);
        if (report.consumed > len || report.written > room || !is_copy(out, (size_t)report.written, written)
            || (answer == CLL_SHORT && (report.consumed != len || there + len == whole))
            || (answer == CLL_ROOM && report.written != room))
            break;
        there += report.consumed;
        written += report.written;
    }
    if (answer == CLL_OK && there == whole && written == copy_len())
        return 1;
    fprintf(stderr, "flood: a copier answered %lu, behind %llu bytes, %llu were written\n", (unsigned long)answer,
        (unsigned long long)there, (unsigned long long)written);
    return 0;
}

/* Copies an item of `count` blocks by both copiers. */
static int copies_items(uint64_t count)
{
    parts = count;
    whole = 1 + parts * BLOCK;
    const uint64_t elements = copies_blocks();
    return elements != 0 && cll_copier_init(&copier, elements) == CLL_OK && copies_all(0)
        && cll_item_copier_init(&item_copier, TALLEST + 1) == CLL_OK && copies_all(1);
}

int main(int argc, char **argv)
{
    input = guard(LONGEST);
    output = guard(LONGEST);
    memset(input.start, 0, LONGEST);
    memset(output.start, 0, LONGEST);
    fill_block(blocks[0], BLOCK);
    fill_block(blocks[1], BLOCK - 1);
    blocks[1][BLOCK - 1] = 0xff;
    if (cll_checker_init(&checker, TALLEST + 1) != CLL_OK)
        return 2;
    const long before = peak();
    const unsigned long pieces = flows();
    if (pieces == 0 || !has_an_end())
        return 1;
    if (peak() > before + GROWTH) {
        fprintf(stderr, "flood: the memory grew from %ld to %ld KiB\n", before, peak());
        return 1;
    }
    if (!says(cll_skip(in_a_row(), (size_t)whole, TALLEST + 1, &report), CLL_OK, whole, 0))
        return 1;
    if (!copies_items(argc == 2 && strcmp(argv[1], "all") == 0 ? BLOCKS : BLOCKS / 16))
        return 1;
    printf("%lu pieces\n", pieces);
    return 0;
}
