/*
 * Holds the calls for C against the table of rows. It is compiled as C++ too.
 *
 * usage: rows TABLE
 */
#include <ciborium_ll.h>

#include <inttypes.h>
#include <stdio.h>
#include <stdlib.h>
#include <string.h>

#include "table.h"

/* Shows the bytes that a call made as a row has them. */
static const char *shown(char *text, const uint8_t *bytes, uint64_t len)
{
    char *end = text;
    for (uint64_t i = 0; i < len; i++)
        end += sprintf(end, "%02x", bytes[i]);
    return len > 0 ? text : "-";
}

/* Shows a header and the shortest title that cll_push writes for it. */
static const char *told(char *text, const cll_header *header)
{
    uint8_t title[9];
    char hex[2 * sizeof title + 1], value[24];
    cll_report report;
    if (cll_push(header, title, sizeof title, &report) != CLL_OK)
        return "no title";
    sprintf(value, "%" PRIu64, header->value);
    sprintf(text, "%s/%s/%s", kind_names[header->kind], header->indefinite ? "*" : value,
        shown(hex, title, report.written));
    return text;
}

/* Shows titles as a row has them. */
static void listed(char *text, const cll_title *titles, uint64_t count)
{
    char *end = text;
    strcpy(text, "-");
    for (uint64_t i = 0; i < count; i++) {
        char value[24];
        sprintf(value, "%" PRIu64, titles[i].value);
        end += sprintf(end, "%s%s/%s/%" PRIu64 "/%" PRIu64, i == 0 ? "" : ",", kind_names[titles[i].kind],
            titles[i].indefinite ? "*" : value, titles[i].start, titles[i].end);
    }
}

/* Gives a checker the bytes one by one, and shows how long the item is, or how many more bytes are due. */
static uint32_t fed(char *text, const uint8_t *data, size_t len, uint32_t depth, int strict, cll_report *report)
{
    cll_checker checker;
    cll_answer made, answer;
    uint64_t taken = 0;
    int same;
    memset(&checker, 0, sizeof checker);
    made = strict ? cll_checker_init_strict(&checker, depth) : cll_checker_init(&checker, depth);
    /* A call answers CLL_ARGUMENT also for memory that holds no checker. */
    answer = cll_checker_feed(&checker, data, 0, report);
    same = answer == (made == CLL_OK ? CLL_SHORT : made);
    for (size_t i = 0; i < len; i++) {
        answer = cll_checker_feed(&checker, data + i, 1, report);
        taken += report->consumed;
    }
    if (answer == CLL_OK || answer == CLL_SHORT)
        sprintf(text, "%s/%" PRIu64, answer == CLL_OK ? "length" : "due", report->place);
    else
        strcpy(text, "-");
    same &= taken == 0 || cll_checker_end(&checker, report) == answer;
    /*
     * A feed of no bytes changes nothing, and its answer says whether the item has ended. Before the first byte it has
     * not.
     */
    same &= cll_checker_feed(&checker, NULL, 0, report) == answer;
    if (!same)
        strcpy(text, "another answer");
    if (answer == CLL_OK)
        report->place = 0;
    report->consumed = taken;
    return answer;
}

/* Shows a title, or a part of a body, which follows what is there. */
static void add_event(char *text, const cll_event *event, const uint8_t *taken)
{
    const char *between = *text == 0 ? "" : ",", *last = strrchr(text, ',');
    char *end = text + strlen(text), value[24];
    sprintf(value, "%" PRIu64, event->header.value);
    if (event->kind == CLL_EVENT_HEADER) {
        sprintf(end, "%s%s/%s/%" PRIu64, between, kind_names[event->header.kind],
            event->header.indefinite ? "*" : value, event->place);
    } else if (event->kind == CLL_EVENT_CLOSE) {
        sprintf(end, "%sclose/%" PRIu64, between, event->place);
    } else {
        if (strchr(last == NULL ? text : last, '=') == NULL)
            end += sprintf(end, "=");
        shown(end, event->carried, event->carried_len);
        shown(end + strlen(end), taken, event->consumed);
    }
}

/* Pushes bytes to a parser in pieces of some size, and shows the titles, the bodies and how many bytes are due. */
static uint32_t parsed(char *text, const uint8_t *data, size_t len, size_t size, int strict, cll_report *report)
{
    cll_parser parser;
    size_t taken = 0;
    uint32_t answer = strict ? cll_parser_init_strict(&parser) : cll_parser_init(&parser);
    while (taken < len && answer <= CLL_SHORT) {
        const size_t end = (taken / size + 1) * size;
        cll_event event;
        answer = cll_parser_push(&parser, data + taken, (end < len ? end : len) - taken, &event);
        if (answer == CLL_OK)
            add_event(text, &event, data + taken);
        taken += (size_t)event.consumed;
    }
    if (answer == CLL_SYNTAX && cll_parser_end(&parser, report) != answer)
        strcpy(text, "another end");
    answer = cll_parser_end(&parser, report);
    if (answer == CLL_SHORT)
        sprintf(text + strlen(text), "%sdue/%" PRIu64, *text == 0 ? "" : ",", report->place);
    if (*text == 0)
        strcpy(text, "-");
    report->consumed = taken;
    return answer;
}

/* Gives a copier the bytes one by one, with room for one each, and shows the bytes that it wrote. */
static uint32_t copied(char *text, const uint8_t *data, size_t len, uint64_t count, int strict, cll_report *report)
{
    cll_copier copier;
    uint8_t out[ROOM];
    uint64_t taken = 0, written = 0, place;
    uint32_t answer;
    memset(&copier, 0, sizeof copier);
    if ((strict ? cll_copier_init_strict(&copier, count) : cll_copier_init(&copier, count)) != CLL_OK)
        return CLL_ARGUMENT;
    do {
        answer = cll_copier_feed(&copier, data + taken, taken < len, out + written, written < ROOM, report);
        taken += report->consumed;
        written += report->written;
    } while ((answer == CLL_ROOM && written < ROOM) || (answer == CLL_SHORT && taken < len));
    place = report->place;
    if (shown(text, out, written) != text)
        strcpy(text, "-");
    if (cll_copier_end(&copier, report) != answer || report->place != place)
        strcpy(text, "another end");
    report->consumed = taken;
    return answer;
}

/* Adds how many more bytes are due to what a call made, if the call answers that the bytes end too early. */
static const char *with_due(char *text, const char *made, int alone, uint32_t answer, const cll_report *report)
{
    if (answer != CLL_SHORT)
        return made;
    if (made != text)
        strcpy(text, alone ? "" : made);
    sprintf(text + strlen(text), "%sdue/%" PRIu64, alone ? "" : "/", report->place);
    return text;
}

/* Shows an item with all that it contains, by views of its parts, and returns where the text ends. */
static char *viewed(char *end, const cll_item *item)
{
    cll_header header;
    cll_body body;
    cll_items items;
    cll_item part;
    if (cll_item_header(item, &header) != CLL_OK)
        return end + sprintf(end, "no header");
    end += sprintf(end, "%s/", kind_names[header.kind]);
    end += header.indefinite ? sprintf(end, "*") : sprintf(end, "%" PRIu64, header.value);
    if (cll_item_bytes(item, &body) == CLL_OK || cll_item_text(item, &body) == CLL_OK) {
        end += sprintf(end, "=");
        for (size_t i = 0; i < body.len; i++)
            end += sprintf(end, "%02x", body.data[i]);
    } else if (cll_item_items(item, &items) == CLL_OK) {
        const char *between = "[";
        while (cll_item_next(&items, &part) == CLL_OK) {
            end = viewed(end + sprintf(end, "%s", between), &part);
            between = ",";
        }
        end += sprintf(end, "%s]", *between == '[' ? between : "");
    }
    return end;
}

/* Looks up the key of a row in an item, and shows its value. */
static uint32_t found(char *text, const cll_item *item, const struct row *row)
{
    const size_t len = strcmp(row->word, "-") == 0 ? 0 : strlen(row->word);
    const uint8_t *key = (const uint8_t *)row->word;
    cll_item value;
    uint32_t answer;
    if (strcmp(row->call, "get") == 0)
        answer = cll_item_get(item, row->key, row->key_len, &value);
    else if (strcmp(row->call, "get_text") == 0)
        answer = cll_item_get_text(item, key, len, &value);
    else
        answer = cll_item_get_int(item, (int64_t)strtoll(row->word, NULL, 10), &value);
    strcpy(text, "-");
    if (answer == CLL_OK)
        viewed(text, &value);
    return answer;
}

static int holds(const struct row *row)
{
    /* The memory has one byte more than the row, so a sanitizer sees each access beyond that byte. */
    uint8_t *data = (uint8_t *)malloc(row->len + 1), *out = (uint8_t *)malloc(ROOM);
    char text[3 * ROOM] = "";
    const char *made = "-";
    cll_header header = row->header;
    cll_report report = {9, 9, 9, 9, 9, 9};
    uint32_t answer = CLL_ARGUMENT;
    if (data == NULL || out == NULL)
        exit(2);
    memcpy(data, row->bytes, row->len);
    if (strcmp(row->call, "pull") == 0) {
        size_t consumed = 9;
        answer = cll_pull(data, row->len, &header, &consumed);
        report.consumed = consumed;
        report.place = 0;
        if (answer == CLL_OK)
            made = told(text, &header);
    } else if (strcmp(row->call, "headers") == 0) {
        cll_title titles[ROOM];
        answer = cll_headers(data, row->len, titles, ROOM, &report);
        listed(text, titles, report.written);
        made = text;
    } else if (strcmp(row->call, "push") == 0) {
        answer = cll_push(&header, out, (size_t)row->number, &report);
        made = shown(text, out, report.written);
    } else if (strcmp(row->call, "wide") == 0) {
        answer = cll_push_wide(&header, (uint32_t)row->number, out, ROOM, &report);
        made = shown(text, out, report.written);
    } else if (strcmp(row->call, "recode") == 0) {
        answer = cll_recode(data, row->len, row->number, out, row->len, &report);
        made = with_due(text, shown(text, out, report.written), 0, answer, &report);
    } else if (strcmp(row->call, "strict") == 0) {
        answer = cll_strict(data, row->len, row->number, &report);
        made = with_due(text, made, 1, answer, &report);
    } else if (strcmp(row->call, "skip") == 0) {
        answer = cll_skip(data, row->len, (uint32_t)row->number, &report);
        made = with_due(text, made, 1, answer, &report);
    } else if (strcmp(row->call, "deterministic") == 0 || strcmp(row->call, "length_first") == 0) {
        const cll_order order = strcmp(row->call, "deterministic") == 0 ? CLL_BYTEWISE : CLL_LENGTH_FIRST;
        answer = cll_deterministic(data, row->len, (uint32_t)row->number, order, &report);
        made = with_due(text, made, 1, answer, &report);
    } else if (strcmp(row->call, "canonical") == 0 || strcmp(row->call, "canonical_length_first") == 0) {
        const cll_order order = strcmp(row->call, "canonical") == 0 ? CLL_BYTEWISE : CLL_LENGTH_FIRST;
        cll_span spans[ROOM];
        answer = cll_canonical(data, row->len, (uint32_t)row->number, order, out, ROOM, spans, row->len, &report);
        made = with_due(text, shown(text, out, report.written), 1, answer, &report);
    } else if (strcmp(row->call, "item") == 0) {
        cll_item item;
        answer = cll_item_parse(data, row->len, (uint32_t)row->number, &item, &report);
        made = with_due(text, made, 1, answer, &report);
        if (answer == CLL_OK) {
            viewed(text, &item);
            made = text;
        }
    } else if (strncmp(row->call, "get", 3) == 0) {
        cll_item item;
        if (cll_item_parse(data, row->len, 16, &item, &report) == CLL_OK && item.len == row->len)
            answer = found(text, &item, row);
        report.consumed = 0;
        made = text;
    } else if (strcmp(row->call, "utf8") == 0) {
        answer = cll_utf8(data, row->len, &report);
    } else if (strcmp(row->call, "feed") == 0 || strcmp(row->call, "feed_strict") == 0) {
        answer = fed(text, data, row->len, (uint32_t)row->number, strcmp(row->call, "feed") != 0, &report);
        made = text;
    } else if (strncmp(row->call, "events", 6) == 0) {
        answer = parsed(text, data, row->len, (size_t)row->number, strcmp(row->call, "events") != 0, &report);
        made = text;
    } else if (strcmp(row->call, "copy") == 0 || strcmp(row->call, "copy_strict") == 0) {
        answer = copied(text, data, row->len, row->number, strcmp(row->call, "copy") != 0, &report);
        made = text;
    }
    int same = answer == row->answer && report.consumed == row->consumed && strcmp(made, row->made) == 0
        && (answer == CLL_SHORT ? report.consumed : report.place) == row->place;
    free(data);
    free(out);
    return same;
}

int main(int argc, char **argv)
{
    return argc == 2 ? go_through(argv[1], holds) : 2;
}
