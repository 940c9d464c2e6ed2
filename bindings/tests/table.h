/* Reads the table of rows, for the programs in C and in C++. */
#include <inttypes.h>
#include <stdio.h>
#include <stdlib.h>
#include <string.h>

enum { ROOM = 64 };

static const char *const kind_names[] = {"positive", "negative", "bytes", "text", "array", "map", "tag", "simple",
    "half", "single", "double", "break"};
static const char *const answer_names[] = {"ok", "short", "syntax", "room", "too_long", "break_due", "too_deep",
    "argument", "not_shortest", "indefinite", "key_order", "duplicate_key", "absent"};

/*
 * A row. The given bytes stand in `bytes`, and the given header of a push in `header`. `word` is the number as the row
 * has it, and `key` the bytes of a key.
 */
struct row {
    char call[24];
    char word[24];
    uint64_t number;
    uint8_t key[12];
    size_t key_len;
    uint8_t bytes[ROOM];
    size_t len;
    cll_header header;
    uint32_t answer;
    uint64_t consumed;
    uint64_t place;
    char made[3 * ROOM];
};

/* Returns the number of a name in a list, or the length of the list. */
static uint32_t place_of(const char *name, const char *const *names, uint32_t count)
{
    uint32_t at = 0;
    while (at < count && strcmp(names[at], name) != 0)
        at++;
    return at;
}

/* Reads bytes in hexadecimal, at most as many as there is room for, and returns how many there are. */
static size_t read_bytes(const char *digits, uint8_t *bytes, size_t room)
{
    unsigned byte;
    size_t len = 0;
    while (len < room && sscanf(digits + 2 * len, "%2x", &byte) == 1)
        bytes[len++] = (uint8_t)byte;
    return len;
}

/* Reads the words of a line. */
static int parse(const char *line, struct row *row)
{
    char given[3 * ROOM], answer[16], kind[16], value[24];
    if (sscanf(line, "%23s %23s %191s %15s %" SCNu64 " %" SCNu64 " %191s", row->call, row->word, given, answer,
            &row->consumed, &row->place, row->made) != 7)
        return 0;
    row->number = strtoull(row->word, NULL, 10);
    row->answer = place_of(answer, answer_names, sizeof answer_names / sizeof *answer_names);
    if (strcmp(row->call, "get") == 0)
        row->key_len = read_bytes(row->word, row->key, sizeof row->key);
    if (sscanf(given, "%15[a-z]/%23s", kind, value) == 2) {
        row->header.kind = (uint8_t)place_of(kind, kind_names, sizeof kind_names / sizeof *kind_names);
        row->header.indefinite = value[0] == '*';
        row->header.value = row->header.indefinite ? 0 : strtoull(value, NULL, 10);
    } else {
        row->len = read_bytes(given, row->bytes, ROOM);
    }
    return 1;
}

/* Tries each row of a file, and says how many there are. The status is 1 if one does not hold. */
static int go_through(const char *name, int (*holds)(const struct row *))
{
    FILE *file = fopen(name, "r");
    char line[512];
    int rows = 0, failed = 0;
    while (file != NULL && fgets(line, sizeof line, file) != NULL) {
        struct row row;
        memset(&row, 0, sizeof row);
        if (line[0] == '#' || line[0] == '\n')
            continue;
        rows++;
        if (!parse(line, &row) || !holds(&row)) {
            fprintf(stderr, "rows: %s", line);
            failed = 1;
        }
    }
    if (file != NULL)
        fclose(file);
    printf("%d rows\n", rows);
    return failed || rows == 0;
}
