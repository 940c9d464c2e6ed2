/*
 * Works of the library, done from C.
 *
 * usage: works_c headers|pull|canonical|recode|deterministic COUNT TIMES
 *
 * It reads standard input whole, and does a work on it TIMES times. `headers` fills titles in batches, and `pull` pulls
 * them one by one. Both test the bodies of texts. `canonical`, `recode` and `deterministic` take the input for one item
 * of COUNT elements. The program prints the sum of the last time: that of the titles, or the length of the item.
 */
#include <ciborium_ll.h>
#include <inttypes.h>
#include <string.h>

#include "../input.h"

/* How many titles a batch has. */
enum { BATCH = 512 };

/* What a work reads and writes. */
typedef struct {
    const uint8_t *bytes;
    size_t size;
    uint64_t count;
    uint8_t *out;
    size_t room;
    cll_span *spans;
} task;

/* The part of a title in the sum: a number without a sign, the length of a text, and otherwise 1. */
static uint64_t part(uint8_t kind, uint64_t value) {
    return kind == CLL_POSITIVE || kind == CLL_TEXT ? value : 1;
}

static uint64_t headers(const task *asked) {
    static cll_title titles[BATCH];
    uint64_t sum = 0;
    size_t offset = 0;
    cll_report report;
    while (offset < asked->size) {
        if (cll_headers(asked->bytes + offset, asked->size - offset, titles, BATCH, &report) != CLL_OK)
            return 0;
        for (size_t i = 0; i < report.written; i += 1)
            sum += part(titles[i].kind, titles[i].value);
        offset += report.consumed;
    }
    return sum;
}

/* Returns whether the text of this length is there, and is UTF-8. */
static int is_text(const uint8_t *bytes, size_t size, uint64_t length) {
    cll_report report;
    return length <= size && cll_utf8(bytes, length, &report) == CLL_OK;
}

static uint64_t pull(const task *asked) {
    uint64_t sum = 0;
    size_t offset = 0;
    while (offset < asked->size) {
        cll_header header;
        size_t consumed;
        if (cll_pull(asked->bytes + offset, asked->size - offset, &header, &consumed) != CLL_OK)
            return 0;
        offset += consumed;
        if (header.kind == CLL_TEXT) {
            if (!is_text(asked->bytes + offset, asked->size - offset, header.value))
                return 0;
            offset += header.value;
        }
        sum += part(header.kind, header.value);
    }
    return sum;
}

static uint64_t canonical(const task *asked) {
    cll_report report;
    uint32_t answer = cll_canonical(asked->bytes, asked->size, 64, CLL_BYTEWISE, asked->out, asked->room, asked->spans,
        asked->count, &report);
    return answer == CLL_OK ? report.written : 0;
}

static uint64_t recode(const task *asked) {
    cll_report report;
    uint32_t answer = cll_recode(asked->bytes, asked->size, asked->count, asked->out, asked->room, &report);
    return answer == CLL_OK ? report.written : 0;
}

static uint64_t deterministic(const task *asked) {
    cll_report report;
    uint32_t answer = cll_deterministic(asked->bytes, asked->size, 64, CLL_BYTEWISE, &report);
    return answer == CLL_OK ? report.consumed : 0;
}

/* Returns the work of this name, or NULL. */
static uint64_t (*named(const char *name))(const task *) {
    static const struct { const char *name; uint64_t (*work)(const task *); } works[] = {
        {"headers", headers}, {"pull", pull}, {"canonical", canonical}, {"recode", recode},
        {"deterministic", deterministic},
    };
    for (size_t i = 0; i < sizeof works / sizeof *works; i += 1)
        if (strcmp(works[i].name, name) == 0)
            return works[i].work;
    return NULL;
}

int main(int count, char **words) {
    uint64_t sum = 0;
    task asked = {0};
    uint64_t (*work)(const task *) = count == 4 ? named(words[1]) : NULL;
    if (!work)
        return 2;
    asked.bytes = input(&asked.size);
    asked.count = strtoull(words[2], NULL, 10);
    asked.room = asked.size + asked.size / 256 + 16;
    asked.out = malloc(asked.room);
    asked.spans = calloc(asked.count + 1, sizeof *asked.spans);
    if (!asked.bytes || !asked.out || !asked.spans)
        return 1;
    for (uint64_t left = strtoull(words[3], NULL, 10); left > 0; left -= 1)
        sum = work(&asked);
    printf("%" PRIu64 "\n", sum);
    return 0;
}
