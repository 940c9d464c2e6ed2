/* SPDX-License-Identifier: Apache-2.0 */
/*
 * Reads a file of CBOR in pieces of 16 bytes, and prints each header and each part of a text as it comes.
 *
 * usage: events FILE
 *
 * A header is a line `OFFSET KIND VALUE`, with `*` for an indefinite form, and a close is a line `OFFSET close`. A part
 * of a text is a line `text PART`, and a part of a byte string is `bytes COUNT`. The last line is `end`, or after a
 * fault `syntax OFFSET`, or `short DUE` if the bytes end too early. The status is then 1, and 2 if the file can't be
 * read.
 */
#include <inttypes.h>
#include <stdio.h>

#include "ciborium_ll.h"

static const char *const kinds[] = {
    "positive", "negative", "bytes", "text", "array", "map", "tag", "simple", "half", "single", "double", "break",
};

/* Prints an event. Its bytes are the first of `data`. */
static void tell(const cll_event *event, const uint8_t *data)
{
    switch (event->kind) {
    case CLL_EVENT_HEADER:
        if (event->header.indefinite)
            printf("%" PRIu64 " %s *\n", event->place, kinds[event->header.kind]);
        else
            printf("%" PRIu64 " %s %" PRIu64 "\n", event->place, kinds[event->header.kind], event->header.value);
        break;
    case CLL_EVENT_CLOSE:
        printf("%" PRIu64 " close\n", event->place);
        break;
    case CLL_EVENT_BYTES:
        printf("bytes %" PRIu64 "\n", event->consumed);
        break;
    case CLL_EVENT_TEXT:
        printf("text %.*s%.*s\n", (int)event->carried_len, (const char *)event->carried, (int)event->consumed,
            (const char *)data);
        break;
    }
}

/* Prints the events of a piece. Returns 0 unless there is a fault. */
static int take(cll_parser *parser, const uint8_t *data, size_t len)
{
    while (len > 0) {
        cll_event event;
        const uint32_t answer = cll_parser_push(parser, data, len, &event);
        if (answer == CLL_SHORT)
            return 0;
        if (answer != CLL_OK) {
            printf("syntax %" PRIu64 "\n", event.place);
            return 1;
        }
        tell(&event, data);
        data += event.consumed;
        len -= (size_t)event.consumed;
    }
    return 0;
}

int main(int argc, char **argv)
{
    uint8_t data[16];
    size_t came;
    cll_parser parser;
    cll_report report;
    FILE *file = argc == 2 ? fopen(argv[1], "rb") : NULL;
    if (file == NULL) {
        fprintf(stderr, "usage: events FILE\n");
        return 2;
    }
    cll_parser_init(&parser);
    while ((came = fread(data, 1, sizeof data, file)) > 0)
        if (take(&parser, data, came) != 0) {
            fclose(file);
            return 1;
        }
    const int failed = ferror(file);
    fclose(file);
    if (failed)
        return 2;
    if (cll_parser_end(&parser, &report) != CLL_OK) {
        printf("short %" PRIu64 "\n", report.place);
        return 1;
    }
    printf("end\n");
    return 0;
}
