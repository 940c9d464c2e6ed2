/*
 * Reads each title of a table, cut at each place too, and writes its header, also into a byte less than it needs. If a
 * row goes wrong, it says so, and then ends with the status 1.
 */
#include <stdio.h>
#include <string.h>

#include "ciborium_ll.h"

/* A title, the shortest title of its header, and that header in its parts. */
struct row {
    const char *title;
    const char *shortest;
    uint8_t kind;
    uint8_t indefinite;
    uint64_t value;
};

static const struct row rows[] = {
    {"00", "00", CLL_POSITIVE, 0, 0},
    {"01", "01", CLL_POSITIVE, 0, 1},
    {"0a", "0a", CLL_POSITIVE, 0, 10},
    {"17", "17", CLL_POSITIVE, 0, 23},
    {"1818", "1818", CLL_POSITIVE, 0, 24},
    {"1819", "1819", CLL_POSITIVE, 0, 25},
    {"1864", "1864", CLL_POSITIVE, 0, 100},
    {"1903e8", "1903e8", CLL_POSITIVE, 0, 1000},
    {"1a000f4240", "1a000f4240", CLL_POSITIVE, 0, 1000000},
    {"1b000000e8d4a51000", "1b000000e8d4a51000", CLL_POSITIVE, 0, 1000000000000ull},
    {"1bffffffffffffffff", "1bffffffffffffffff", CLL_POSITIVE, 0, 18446744073709551615ull},
    {"3bffffffffffffffff", "3bffffffffffffffff", CLL_NEGATIVE, 0, 18446744073709551615ull},
    {"20", "20", CLL_NEGATIVE, 0, 0},
    {"29", "29", CLL_NEGATIVE, 0, 9},
    {"3863", "3863", CLL_NEGATIVE, 0, 99},
    {"3903e7", "3903e7", CLL_NEGATIVE, 0, 999},
    {"f4", "f4", CLL_SIMPLE, 0, 20},
    {"f5", "f5", CLL_SIMPLE, 0, 21},
    {"f6", "f6", CLL_SIMPLE, 0, 22},
    {"f7", "f7", CLL_SIMPLE, 0, 23},
    {"f0", "f0", CLL_SIMPLE, 0, 16},
    {"f818", "f818", CLL_SIMPLE, 0, 24},
    {"f8ff", "f8ff", CLL_SIMPLE, 0, 255},
    {"c0", "c0", CLL_TAG, 0, 0},
    {"c1", "c1", CLL_TAG, 0, 1},
    {"d7", "d7", CLL_TAG, 0, 23},
    {"d818", "d818", CLL_TAG, 0, 24},
    {"f90000", "f90000", CLL_HALF, 0, 0x0000},
    {"f98000", "f98000", CLL_HALF, 0, 0x8000},
    {"f93c00", "f93c00", CLL_HALF, 0, 0x3c00},
    {"fb3ff199999999999a", "fb3ff199999999999a", CLL_DOUBLE, 0, 0x3ff199999999999aull},
    {"f93e00", "f93e00", CLL_HALF, 0, 0x3e00},
    {"f97bff", "f97bff", CLL_HALF, 0, 0x7bff},
    {"fa47c35000", "fa47c35000", CLL_SINGLE, 0, 0x47c35000},
    {"fa7f7fffff", "fa7f7fffff", CLL_SINGLE, 0, 0x7f7fffff},
    {"fb7e37e43c8800759c", "fb7e37e43c8800759c", CLL_DOUBLE, 0, 0x7e37e43c8800759cull},
    {"f90001", "f90001", CLL_HALF, 0, 0x0001},
    {"f90400", "f90400", CLL_HALF, 0, 0x0400},
    {"f9c400", "f9c400", CLL_HALF, 0, 0xc400},
    {"fbc010666666666666", "fbc010666666666666", CLL_DOUBLE, 0, 0xc010666666666666ull},
    {"f97c00", "f97c00", CLL_HALF, 0, 0x7c00},
    {"f97e00", "f97e00", CLL_HALF, 0, 0x7e00},
    {"f9fc00", "f9fc00", CLL_HALF, 0, 0xfc00},
    {"fa7f800000", "fa7f800000", CLL_SINGLE, 0, 0x7f800000},
    {"fa7fc00000", "fa7fc00000", CLL_SINGLE, 0, 0x7fc00000},
    {"faff800000", "faff800000", CLL_SINGLE, 0, 0xff800000},
    {"fb7ff0000000000000", "fb7ff0000000000000", CLL_DOUBLE, 0, 0x7ff0000000000000ull},
    {"fb7ff8000000000000", "fb7ff8000000000000", CLL_DOUBLE, 0, 0x7ff8000000000000ull},
    {"fbfff0000000000000", "fbfff0000000000000", CLL_DOUBLE, 0, 0xfff0000000000000ull},
    {"40", "40", CLL_BYTES, 0, 0},
    {"44", "44", CLL_BYTES, 0, 4},
    {"60", "60", CLL_TEXT, 0, 0},
    {"64", "64", CLL_TEXT, 0, 4},
    {"d820", "d820", CLL_TAG, 0, 32},
    /* The other forms, and the titles of lists. */
    {"5f", "5f", CLL_BYTES, 1, 0},
    {"7f", "7f", CLL_TEXT, 1, 0},
    {"9f", "9f", CLL_ARRAY, 1, 0},
    {"bf", "bf", CLL_MAP, 1, 0},
    {"ff", "ff", CLL_BREAK, 0, 0},
    {"80", "80", CLL_ARRAY, 0, 0},
    {"83", "83", CLL_ARRAY, 0, 3},
    {"9819", "9819", CLL_ARRAY, 0, 25},
    {"a0", "a0", CLL_MAP, 0, 0},
    {"a2", "a2", CLL_MAP, 0, 2},
    /* Longer titles. */
    {"1805", "05", CLL_POSITIVE, 0, 5},
    {"f810", "f0", CLL_SIMPLE, 0, 16},
    {"5805", "45", CLL_BYTES, 0, 5},
    {"7802", "62", CLL_TEXT, 0, 2},
    {"780d", "6d", CLL_TEXT, 0, 13},
};

enum { SPACE = 16 };

static size_t bytes_of(const char *hex, uint8_t *bytes)
{
    size_t count = 0;
    for (unsigned byte; sscanf(hex + 2 * count, "%2x", &byte) == 1; count++)
        bytes[count] = (uint8_t) byte;
    return count;
}

static int reads(const struct row *row)
{
    uint8_t title[SPACE];
    const size_t len = bytes_of(row->title, title);
    cll_header header = {99, 99, 99};
    size_t consumed = 99;
    for (size_t cut = 0; cut < len; cut++) {
        if (cll_pull(title, cut, &header, &consumed) != CLL_SHORT || consumed != (cut > 0) || header.kind != 99)
            return 0;
    }
    return cll_pull(title, len, &header, &consumed) == CLL_OK && consumed == len && header.kind == row->kind
        && header.indefinite == row->indefinite && header.value == row->value;
}

static int writes(const struct row *row)
{
    uint8_t title[SPACE], out[SPACE], untouched[SPACE];
    const size_t len = bytes_of(row->shortest, title);
    const cll_header header = {row->value, row->kind, row->indefinite};
    cll_report report = {99, 99, 99, 99, 99, 99};
    memset(untouched, 0xee, SPACE);
    memset(out, 0xee, SPACE);
    if (cll_push(&header, out, len - 1, &report) != CLL_ROOM || report.written != 0
        || memcmp(out, untouched, SPACE) != 0)
        return 0;
    return cll_push(&header, out, SPACE, &report) == CLL_OK && report.written == len && report.consumed == 0
        && report.place == 0 && memcmp(out, title, len) == 0 && memcmp(out + len, untouched, SPACE - len) == 0;
}

int main(void)
{
    for (size_t i = 0; i < sizeof rows / sizeof *rows; i++) {
        if (!reads(&rows[i]) || !writes(&rows[i])) {
            fprintf(stderr, "titles: %s\n", rows[i].title);
            return 1;
        }
    }
    return 0;
}
