/*
 * Views random items, whole, cut and damaged. Each ends at a guard page.
 *
 * The right answers come from other calls, whose answers are proved. cll_item_parse answers and reports as cll_skip
 * does. The titles of an item and of all items in it, in the order of their views, are those that cll_headers lists,
 * without the breaks. The value of a key is that of the first pair with the same bytes as a key.
 *
 * It also writes to views: bytes of other items, and depths that are too small or too great. Then each call still
 * gives one of its answers, and hands out parts of the bytes alone.
 *
 * usage: views [ITEMS [SEED]]
 *
 * If bytes go wrong, it prints them, and ends with the status 1.
 */
#define _DEFAULT_SOURCE
#include "items.h"

enum { ITEMS = 2000, ROUNDS = 8, DEEPEST = 256 };

static struct guarded input;
static cll_title titles[MOST];
static size_t listed, at;
static const uint8_t *base;
static unsigned long views, values, wrong_views;

/* Copies bytes so that they end right at the guard page. */
static const uint8_t *at_end(const uint8_t *data, size_t len)
{
    return len > 0 ? (const uint8_t *)memcpy(input.end - len, data, len) : input.end;
}

/* Tells whether some bytes are a part of others. */
static int within(const uint8_t *data, size_t len, const uint8_t *whole, size_t room)
{
    return data >= whole && len <= room && (size_t)(data - whole) <= room - len;
}

static int is_same(const cll_item *one, const uint8_t *data, size_t len)
{
    return one->len == len && memcmp(one->data, data, len) == 0;
}

/* Tells whether the value of each key of a map is that of the first pair with these bytes as a key. */
static int finds(const cll_item *map)
{
    cll_items outer, inner;
    cll_item key, value, other, first, got;
    if (cll_item_items(map, &outer) != CLL_OK)
        return 0;
    while (cll_item_next(&outer, &key) == CLL_OK) {
        if (cll_item_next(&outer, &value) != CLL_OK || cll_item_items(map, &inner) != CLL_OK)
            return 0;
        do {
            if (cll_item_next(&inner, &other) != CLL_OK || cll_item_next(&inner, &first) != CLL_OK)
                return 0;
        } while (!is_same(&other, key.data, key.len));
        if (cll_item_get(map, key.data, key.len, &got) != CLL_OK || got.data != first.data || got.len != first.len
            || got.depth != map->depth - 1)
            return 0;
        values++;
    }
    return cll_item_get(map, key.data, 0, &got) == CLL_ABSENT;
}

/* Goes over an item and the items in it, and compares their titles with those that were listed. */
static int walks(const cll_item *item)
{
    cll_header header;
    cll_body body;
    cll_items items;
    cll_item part;
    while (at < listed && titles[at].kind == CLL_BREAK)
        at++;
    const cll_title *title = &titles[at++];
    const uint8_t *end = base + title->end;
    views++;
    if (at > listed || item->data != base + title->start || cll_item_header(item, &header) != CLL_OK
        || header.kind != title->kind || header.value != title->value || header.indefinite != title->indefinite)
        return 0;
    const int has_bytes = cll_item_bytes(item, &body) == CLL_OK, has_text = cll_item_text(item, &body) == CLL_OK;
    if (has_bytes != (header.kind == CLL_BYTES && !header.indefinite)
        || has_text != (header.kind == CLL_TEXT && !header.indefinite))
        return 0;
    if (has_bytes || has_text)
        return body.data == end && body.len == header.value && item->data + item->len == end + body.len;
    if (cll_item_items(item, &items) != CLL_OK)
        return item->data + item->len == end && (header.kind < CLL_BYTES || header.kind > CLL_TAG);
    const int takes_level = header.kind >= CLL_ARRAY;
    while (cll_item_next(&items, &part) == CLL_OK) {
        if (part.data != end || part.depth + (uint32_t)takes_level != item->depth || !walks(&part))
            return 0;
        end += part.len;
    }
    return items.data == end && items.len == 0 && item->data + item->len == end + header.indefinite
        && (header.kind != CLL_MAP || finds(item));
}

/* Parses bytes to a depth as cll_skip skips them, and goes over the item. */
static int parses(const uint8_t *data, size_t len, uint32_t depth)
{
    static cll_report skipped, parsed, report;
    cll_item item = {&data[len], 7, 9};
    const cll_answer want = cll_skip(data, len, depth, &skipped);
    if (cll_item_parse(data, len, depth, &item, &parsed) != want || memcmp(&skipped, &parsed, sizeof parsed) != 0)
        return 0;
    if (want != CLL_OK)
        return item.data == &data[len] && item.len == 7 && item.depth == 9;
    if (item.data != data || item.len != skipped.consumed || item.depth != depth
        || cll_headers(data, item.len, titles, MOST, &report) != CLL_OK || report.consumed != item.len)
        return 0;
    base = data;
    listed = (size_t)report.written;
    at = 0;
    return walks(&item);
}

/* Makes each call for bytes that may be no item. What a call hands out is a part of the bytes. */
static int survives(const uint8_t *data, size_t len, uint32_t depth)
{
    const cll_item item = {data, len, depth};
    const uint8_t *key = data + below(len + 1);
    cll_items items = {data, len, depth}, list;
    cll_item part, value;
    cll_body body;
    cll_header header;
    cll_answer answer = cll_item_header(&item, &header);
    wrong_views++;
    if ((answer != CLL_OK && answer != CLL_ARGUMENT)
        || (cll_item_bytes(&item, &body) == CLL_OK && !within(body.data, body.len, data, len))
        || (cll_item_text(&item, &body) == CLL_OK && !within(body.data, body.len, data, len))
        || (cll_item_items(&item, &list) == CLL_OK && !within(list.data, list.len, data, len)))
        return 0;
    const cll_answer found[] = {
        cll_item_get(&item, key, (size_t)(data + len - key), &value), cll_item_get_text(&item, key, 0, &value),
        cll_item_get_int(&item, (int64_t)any(), &value),
    };
    for (size_t i = 0; i < sizeof found / sizeof *found; i++) {
        if ((found[i] == CLL_OK && !within(value.data, value.len, data, len))
            || (found[i] != CLL_OK && found[i] != CLL_ABSENT && found[i] != CLL_ARGUMENT)
            || (depth > DEEPEST && found[i] != CLL_ARGUMENT))
            return 0;
    }
    while ((answer = cll_item_next(&items, &part)) == CLL_OK) {
        if (!within(part.data, part.len, data, len) || part.data + part.len != items.data || depth > DEEPEST)
            return 0;
    }
    return items.data + items.len == data + len && answer == (items.len == 0 ? CLL_ABSENT : CLL_ARGUMENT);
}

/* A view takes null if it has no bytes, and a call takes it for a key without bytes. What was written stays. */
static int takes_null(void)
{
    static const uint8_t map[] = {0xa1, 0x60, 0x05};
    cll_report report;
    cll_item item = {NULL, 0, DEEPEST}, value = {map, 3, 1};
    cll_items items = {NULL, 0, DEEPEST};
    cll_body body = {map, 2};
    cll_header header = {5, CLL_TEXT, 0};
    return cll_item_parse(NULL, 0, DEEPEST, &value, &report) == CLL_SHORT && report.place == 1
        && cll_item_header(&item, &header) == CLL_ARGUMENT && header.value == 5 && header.kind == CLL_TEXT
        && cll_item_bytes(&item, &body) == CLL_ABSENT && cll_item_text(&item, &body) == CLL_ABSENT && body.len == 2
        && cll_item_items(&item, &items) == CLL_ABSENT && items.depth == DEEPEST
        && cll_item_next(&items, &value) == CLL_ABSENT && cll_item_get(&item, NULL, 0, &value) == CLL_ARGUMENT
        && cll_item_get_text(&item, NULL, 0, &value) == CLL_ARGUMENT
        && cll_item_get_int(&item, 1, &value) == CLL_ARGUMENT && value.data == map && value.len == 3
        && cll_item_parse(map, sizeof map, 1, &item, &report) == CLL_OK
        && cll_item_get(&item, NULL, 0, &value) == CLL_ABSENT && value.data == map
        && cll_item_get_text(&item, NULL, 0, &value) == CLL_OK && value.data == map + 2 && value.len == 1
        && value.depth == 0 && cll_item_get_text(&item, (const uint8_t *)"\xff", 1, &value) == CLL_ARGUMENT
        && CLL_ABSENT == 12;
}

static int fails(const char *what, const uint8_t *data, size_t len, uint32_t depth)
{
    fprintf(stderr, "views: %s to a depth of %lu:", what, (unsigned long)depth);
    for (size_t i = 0; i < len; i++)
        fprintf(stderr, " %02x", data[i]);
    fprintf(stderr, "\n");
    return 1;
}

int main(int argc, char **argv)
{
    static struct item item;
    static const uint32_t wrong[] = {0, 1, DEEPEST, DEEPEST + 1, UINT32_MAX};
    const unsigned long items = argc > 1 ? strtoul(argv[1], NULL, 10) : ITEMS;
    if (argc > 2)
        seed = strtoull(argv[2], NULL, 10);
    if (!takes_null()) {
        fprintf(stderr, "views: null\n");
        return 1;
    }
    input = guard(MOST);
    for (unsigned long i = 0; i < items; i++) {
        make(&item);
        if (!parses(at_end(item.data, item.len), item.len, item.levels))
            return fails("an item", item.data, item.len, item.levels);
        for (int round = 0; round < ROUNDS; round++) {
            const size_t len = below(item.len + 1), place = below(item.len);
            const uint32_t depth = below(4) ? item.levels : (uint32_t)below(DEEPEST + 2);
            const uint32_t other = wrong[below(sizeof wrong / sizeof *wrong)];
            const uint8_t kept = item.data[place];
            if (!parses(at_end(item.data, len), len, depth))
                return fails("a cut item", item.data, len, depth);
            if (!survives(at_end(item.data, len), len, other))
                return fails("a view of a cut item", item.data, len, other);
            item.data[place] = (uint8_t)any();
            if (!parses(at_end(item.data, item.len), item.len, depth))
                return fails("a damaged item", item.data, item.len, depth);
            if (!survives(at_end(item.data, item.len), item.len, below(2) ? item.levels : other))
                return fails("a view of a damaged item", item.data, item.len, other);
            item.data[place] = kept;
        }
    }
    printf("%lu views, %lu values, %lu wrong views\n", views, values, wrong_views);
    return views == 0 || values == 0;
}
