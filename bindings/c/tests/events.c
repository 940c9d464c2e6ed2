/*
 * Pushes bytes to a parser: each row of a table at once, byte by byte, and cut at each place into two pieces. It joins
 * the parts of each body. All cuts of a row have to give the titles, the bodies and the end of the row. The rows are
 * worked by hand. Then it tries memory that holds no parser, and each byte of a parser replaced by each other byte.
 *
 * If a row or a memory has another answer, the program prints it, and ends with the status 1.
 */
#include <stdio.h>
#include <string.h>

#include "ciborium_ll.h"

enum { MOST = 64, LINE = 512 };

/*
 * Bytes, the titles with their bodies, and the end. A title is KIND:VALUE@PLACE, with `*` for an indefinite form, and a
 * body follows a `=`. `!` before the bytes asks for a strict parser.
 */
static const char *const rows[][2] = {
    {"", ";ok"},
    {"8242050600", "4:2@0 2:2@1=0506 0:0@4;ok"},
    {"1bffffffffffffffff", "0:18446744073709551615@0;ok"},
    {"3903e7f4", "1:999@0 7:20@3;ok"},
    {"f97e00fa47c35000fb3ff199999999999a", "8:32256@0 9:1203982336@3 10:4607632778762754458@8;ok"},
    {"c11a514b67b0a0", "6:1@0 0:1363896240@1 5:0@6;ok"},
    {"9f01bfffff", "4:*@0 0:1@1 5:*@2 11:0@3 11:0@4;ok"},
    {"4060", "2:0@0 3:0@1;ok"},
    {"5f4101ff", "2:*@0 2:1@1=01 close@3;ok"},
    {"5f5f41054106ffff", "2:*@0 2:*@1 2:1@2=05 2:1@4=06 close@6 close@7;ok"},
    {"7f61616162ff", "3:*@0 3:1@1=61 3:1@3=62 close@5;ok"},
    {"63e6b0b4", "3:3@0=e6b0b4;ok"},
    {"6461c3a462f0", "3:4@0=61c3a462 7:16@5;ok"},
    {"68f09f9880c3a4e282", "3:8@0=f09f9880c3a4;syntax 0"},
    {"19", ";short 2"},
    {"1901", ";short 1"},
    {"82", "4:2@0;ok"},
    {"5f", "2:*@0;short 1"},
    {"5f41", "2:*@0 2:1@1;short 1"},
    {"4401", "2:4@0=01;short 3"},
    {"63e6b0", "3:3@0;short 1"},
    {"6561e6b0", "3:5@0=61;short 2"},
    {"1c", ";syntax 0"},
    {"011f00", "0:1@0;syntax 1"},
    {"5f6101", "2:*@0;syntax 1"},
    {"7f01", "3:*@0;syntax 1"},
    {"62c32800", "3:2@0;syntax 0"},
    {"6361c328", "3:3@0=61;syntax 0"},
    {"6261c3", "3:2@0=61;syntax 0"},
    {"7802c328", "3:2@0;syntax 1"},
    {"7f7802c328", "3:*@0 3:2@1;syntax 1"},
    {"5803010203", "2:3@0=010203;ok"},
    {"!43010203", "2:3@0=010203;ok"},
    {"!5803010203", ";syntax 0"},
    {"!5f5f", "2:*@0;syntax 1"},
    {"!00f818", "0:0@0;syntax 1"},
};

static cll_report report;

/* Reads pairs of digits, and returns how many bytes they are. */
static size_t bytes_of(const char *digits, uint8_t *bytes)
{
    size_t len = 0;
    unsigned byte;
    while (len < MOST && sscanf(digits + 2 * len, "%2x", &byte) == 1)
        bytes[len++] = (uint8_t)byte;
    return len;
}

static void add(char *line, const char *text)
{
    strncat(line, text, LINE - 1 - strlen(line));
}

static void add_bytes(char *line, const uint8_t *bytes, size_t len)
{
    for (size_t i = 0; i < len; i++) {
        char digits[3];
        snprintf(digits, sizeof digits, "%02x", bytes[i]);
        add(line, digits);
    }
}

/* Adds a title, or a part of a body. A part is the first one if the line ends with a title. */
static void add_event(char *line, const cll_event *event, const uint8_t *taken)
{
    char text[64] = "";
    const char *space = *line == 0 ? "" : " ";
    const unsigned long long place = event->place, value = event->header.value;
    if (event->kind == CLL_EVENT_CLOSE) {
        snprintf(text, sizeof text, "%sclose@%llu", space, place);
    } else if (event->kind == CLL_EVENT_HEADER && event->header.indefinite) {
        snprintf(text, sizeof text, "%s%u:*@%llu", space, (unsigned)event->header.kind, place);
    } else if (event->kind == CLL_EVENT_HEADER) {
        snprintf(text, sizeof text, "%s%u:%llu@%llu", space, (unsigned)event->header.kind, value, place);
    } else {
        const char *last = strrchr(line, ' ');
        add(line, strchr(last == NULL ? line : last, '=') == NULL ? "=" : "");
        add_bytes(line, event->carried, event->carried_len);
        add_bytes(line, taken, (size_t)event->consumed);
    }
    add(line, text);
}

/* Tells whether the numbers without a meaning are 0, and no number is out of its range. */
static int is_plain(const cll_event *event, uint32_t answer, size_t len)
{
    const int is_title = event->kind == CLL_EVENT_HEADER || event->kind == CLL_EVENT_CLOSE;
    const int is_part = event->kind == CLL_EVENT_BYTES || event->kind == CLL_EVENT_TEXT;
    if (event->consumed > len || (answer == CLL_OK) != (is_title || is_part))
        return 0;
    if (event->kind == CLL_EVENT_CLOSE && (event->header.kind != CLL_BREAK || event->header.value != 0))
        return 0;
    if (!is_title && (event->header.kind != 0 || event->header.value != 0 || event->header.indefinite != 0))
        return 0;
    if ((is_part && event->place != 0) || (!is_part && event->left != 0))
        return 0;
    return event->carried_len <= (event->kind == CLL_EVENT_TEXT ? 3 : 0);
}

/* Pushes a piece, and adds its events to the line. Returns 0 if an answer is none that a parser gives. */
static int push(cll_parser *parser, const uint8_t *data, size_t len, char *line)
{
    for (;;) {
        cll_event event;
        memset(&event, 0xee, sizeof event);
        const uint32_t answer = cll_parser_push(parser, data, len, &event);
        if (!is_plain(&event, answer, len))
            return 0;
        if (answer == CLL_SHORT)
            return event.consumed == len && event.place > 0;
        if (answer != CLL_OK)
            return answer == CLL_SYNTAX;
        if (event.consumed == 0)
            return 0;
        add_event(line, &event, data);
        data += event.consumed;
        len -= (size_t)event.consumed;
        if (len == 0)
            return 1;
    }
}

static void add_end(const cll_parser *parser, char *line)
{
    char text[64];
    const uint32_t answer = cll_parser_end(parser, &report);
    const char *name = answer == CLL_SHORT ? ";short" : answer == CLL_SYNTAX ? ";syntax" : "?";
    if (answer == CLL_OK)
        snprintf(text, sizeof text, ";ok");
    else
        snprintf(text, sizeof text, "%s %llu", name, (unsigned long long)report.place);
    add(line, text);
}

/* Pushes bytes in pieces that end at `cut`, or in single bytes if `step` is 1, to a copy of a parser each time. */
static int is_row(const char *digits, const char *want, size_t cut, size_t step)
{
    const int strict = *digits == '!';
    uint8_t data[MOST];
    const size_t len = bytes_of(digits + strict, data);
    char line[LINE] = "";
    cll_parser parser;
    if ((strict ? cll_parser_init_strict(&parser) : cll_parser_init(&parser)) != CLL_OK)
        return 0;
    for (size_t begin = 0, end; begin < len; begin = end) {
        const cll_parser copy = parser;
        end = step == 1 ? begin + 1 : begin < cut ? cut : len;
        parser = copy;
        if (!push(&parser, data + begin, end - begin, line))
            add(line, "?");
    }
    add_end(&parser, line);
    if (strcmp(line, want) == 0)
        return 1;
    printf("events of %s, cut at %zu by %zu: %s\n", digits, cut, step, line);
    return 0;
}

static int all_rows(void)
{
    for (size_t i = 0; i < sizeof rows / sizeof *rows; i++) {
        const size_t len = strlen(rows[i][0]) / 2;
        if (!is_row(rows[i][0], rows[i][1], len, 1))
            return 0;
        for (size_t cut = 0; cut <= len; cut++)
            if (!is_row(rows[i][0], rows[i][1], cut, 0))
                return 0;
    }
    return 1;
}

/* The bytes of one text, in three pieces. The second piece ends a character that the first one began. */
static int carries(void)
{
    static const uint8_t first[] = {0x65, 0xf0, 0x9f, 0x98}, second[] = {0x80, 0x61};
    cll_parser parser;
    cll_event event;
    if (cll_parser_init(&parser) != CLL_OK || cll_parser_push(&parser, NULL, 0, &event) != CLL_SHORT
        || event.place != 1)
        return 0;
    if (cll_parser_push(&parser, first, sizeof first, &event) != CLL_OK || event.kind != CLL_EVENT_HEADER
        || event.consumed != 1 || event.header.kind != CLL_TEXT || event.header.value != 5)
        return 0;
    if (cll_parser_push(&parser, first + 1, 3, &event) != CLL_SHORT || event.consumed != 3 || event.place != 2)
        return 0;
    if (cll_parser_push(&parser, second, sizeof second, &event) != CLL_OK || event.kind != CLL_EVENT_TEXT
        || event.consumed < 1 || event.carried_len != 3 || memcmp(event.carried, first + 1, 3) != 0)
        return 0;
    return event.consumed + event.left == sizeof second;
}

/* Memory that holds no parser stays as it was, and the event says nothing. */
static int is_refused(cll_parser *parser)
{
    static const uint8_t one[] = {1};
    const cll_parser old = *parser;
    cll_event event;
    memset(&event, 0xee, sizeof event);
    if (cll_parser_push(parser, one, 1, &event) != CLL_ARGUMENT || !is_plain(&event, CLL_ARGUMENT, 0)
        || event.place != 0)
        return 0;
    if (cll_parser_end(parser, &report) != CLL_ARGUMENT || report.place != 0)
        return 0;
    return memcmp(parser, &old, sizeof old) == 0;
}

static int no_parsers(void)
{
    cll_parser parser;
    cll_copier copier;
    for (unsigned fill = 0; fill < 256; fill++) {
        memset(&parser, (int)fill, sizeof parser);
        if (!is_refused(&parser))
            return 0;
    }
    if (cll_copier_init(&copier, 1) != CLL_OK)
        return 0;
    memcpy(&parser, &copier, sizeof parser);
    return is_refused(&parser);
}

/* Each call gives an answer that a call has, takes no byte after the piece, and writes nothing around the parser. */
static int overwritten(void)
{
    static const uint8_t begun[] = {0x7f, 0x78, 0x05, 0x61, 0xe2}, more[] = {0x82, 0xac, 0x62};
    static struct { uint8_t before[16]; cll_parser parser; uint8_t behind[16]; } at;
    cll_parser good;
    char line[LINE] = "";
    memset(&good, 0, sizeof good);
    if (cll_parser_init(&good) != CLL_OK || !push(&good, begun, sizeof begun, line))
        return 0;
    for (size_t i = 0; i < 256 * sizeof good; i++) {
        cll_event event;
        at.parser = good;
        ((uint8_t *)&at.parser)[i / 256] = (uint8_t)(i % 256);
        memset(at.before, 0xee, sizeof at.before);
        memset(at.behind, 0xee, sizeof at.behind);
        const uint32_t answer = cll_parser_push(&at.parser, more, sizeof more, &event);
        if (answer > CLL_ARGUMENT || !is_plain(&event, answer, sizeof more))
            return 0;
        if (cll_parser_end(&at.parser, &report) > CLL_ARGUMENT)
            return 0;
        for (size_t k = 0; k < sizeof at.before; k++)
            if (at.before[k] != 0xee || at.behind[k] != 0xee)
                return 0;
    }
    return 1;
}

int main(void)
{
    static const struct { const char *name; int (*holds)(void); } parts[] = {
        {"the rows", all_rows},
        {"carried bytes", carries},
        {"no parser", no_parsers},
        {"overwritten memory", overwritten},
    };
    for (size_t i = 0; i < sizeof parts / sizeof *parts; i++)
        if (!parts[i].holds()) {
            printf("events: %s\n", parts[i].name);
            return 1;
        }
    printf("events: %zu rows\n", sizeof rows / sizeof *rows);
    return 0;
}
