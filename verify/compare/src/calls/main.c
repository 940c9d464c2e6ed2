/*
 * Works of this repository's bench, done by the static library for C.
 *
 * usage: calls pull|recode|skip|feed|whole|copy|each SIZE COUNT ROUNDS
 *
 * It reads standard input whole, and does a work on it ROUNDS times. `pull` pulls the titles in it. `recode` brings the
 * items in it to their shortest spelling. `skip` skips them one by one. `feed` feeds them to a checker in pieces of
 * SIZE bytes. It prints the sum that the same work over libcbor prints. `whole` skips the items one by one too, and
 * prints the sum that `feed` does. `copy` and `each` feed them in pieces to a copier of elements and to one of items,
 * and print the sum that `recode` does.
 */
#include <ciborium_ll.h>
#include <inttypes.h>
#include <stdio.h>
#include <stdlib.h>
#include <string.h>

#include "../input.h"

/* Adds the numbers without a sign, and 1 for each other title. */
static uint64_t titles(const uint8_t *bytes, size_t size) {
    uint64_t sum = 0;
    size_t offset = 0;
    while (offset < size) {
        cll_header header;
        size_t consumed;
        uint32_t answer = cll_pull(bytes + offset, size - offset, &header, &consumed);
        if (answer == CLL_SHORT)
            break;
        sum += answer == CLL_OK && header.kind == CLL_POSITIVE ? header.value : 1;
        offset += consumed;
    }
    return sum;
}

/* Returns how many bytes are written. There are no more elements than bytes, so the copy ends with the bytes. */
static uint64_t copied(const uint8_t *bytes, size_t size, uint8_t *out) {
    cll_report report;
    return cll_recode(bytes, size, size, out, size, &report) == CLL_ARGUMENT ? 0 : report.written;
}

/* Returns how many items are skipped. */
static uint64_t items(const uint8_t *bytes, size_t size) {
    uint64_t count = 0;
    size_t offset = 0;
    cll_report report;
    while (offset < size && cll_skip(bytes + offset, size - offset, 256, &report) == CLL_OK) {
        count += 1;
        offset += report.consumed;
    }
    return count;
}

/* Returns the end of the piece in which the offset is. It is the end of the last piece, or one piece more. */
static size_t piece_end(size_t offset, size_t end, size_t size, size_t piece) {
    if (offset < end)
        return end;
    return size - end < piece ? size : end + piece;
}

/* Returns how many bytes the items have that end, if the bytes come in pieces of `piece` bytes. */
static uint64_t fed(const uint8_t *bytes, size_t size, size_t piece) {
    size_t offset = 0, end = 0, ended = 0;
    cll_checker checker;
    cll_report report;
    if (cll_checker_init(&checker, 256) != CLL_OK)
        return 0;
    while (offset < size) {
        end = piece_end(offset, end, size, piece);
        uint32_t answer = cll_checker_feed(&checker, bytes + offset, end - offset, &report);
        offset += report.consumed;
        if (answer == CLL_SHORT)
            continue;
        if (answer != CLL_OK)
            return 0;
        ended = offset;
        if (cll_checker_init(&checker, 256) != CLL_OK)
            return 0;
    }
    return ended;
}

/* Returns how many bytes a copier writes of bytes that come in pieces of `piece` bytes. */
static uint64_t copied_in_pieces(const uint8_t *bytes, size_t size, size_t piece, uint8_t *out) {
    size_t offset = 0, end = 0, written = 0;
    cll_copier copier;
    cll_report report;
    if (cll_copier_init(&copier, size) != CLL_OK)
        return 0;
    while (offset < size) {
        end = piece_end(offset, end, size, piece);
        uint32_t answer =
            cll_copier_feed(&copier, bytes + offset, end - offset, out + written, size - written, &report);
        offset += report.consumed;
        written += report.written;
        if (answer != CLL_SHORT)
            return 0;
    }
    return written;
}

/* Does the same by a copier for each item. */
static uint64_t each_copied(const uint8_t *bytes, size_t size, size_t piece, uint8_t *out) {
    size_t offset = 0, end = 0, written = 0;
    cll_item_copier copier;
    cll_report report;
    if (cll_item_copier_init(&copier, 256) != CLL_OK)
        return 0;
    while (offset < size) {
        end = piece_end(offset, end, size, piece);
        uint32_t answer =
            cll_item_copier_feed(&copier, bytes + offset, end - offset, out + written, size - written, &report);
        offset += report.consumed;
        written += report.written;
        if (answer == CLL_SHORT)
            continue;
        if (answer != CLL_OK)
            return 0;
        if (cll_item_copier_init(&copier, 256) != CLL_OK)
            return 0;
    }
    return written;
}

/* Returns how many bytes the items have, which are skipped in place. */
static uint64_t skipped(const uint8_t *bytes, size_t size) {
    size_t offset = 0;
    cll_report report;
    while (offset < size && cll_skip(bytes + offset, size - offset, 256, &report) == CLL_OK)
        offset += report.consumed;
    return offset;
}

/* Adds the part of a work to the sum. The first letter of its name tells the work. */
static uint64_t worked(char work, const uint8_t *bytes, size_t size, size_t piece, uint8_t *out) {
    switch (work) {
    case 'p':
        return titles(bytes, size);
    case 'r':
        return copied(bytes, size, out);
    case 'f':
        return fed(bytes, size, piece);
    case 'w':
        return skipped(bytes, size);
    case 'c':
        return copied_in_pieces(bytes, size, piece, out);
    case 'e':
        return each_copied(bytes, size, piece, out);
    default:
        return items(bytes, size);
    }
}

int main(int count, char **words) {
    const char *work = count == 5 ? words[1] : "";
    static const char *const names[] = {"pull", "recode", "skip", "feed", "whole", "copy", "each"};
    size_t piece = count == 5 ? (size_t)strtoul(words[2], NULL, 10) : 0, name = 0;
    while (name < sizeof names / sizeof *names && strcmp(work, names[name]) != 0)
        name++;
    if (name == sizeof names / sizeof *names || piece == 0) {
        fputs("usage: calls pull|recode|skip|feed|whole|copy|each SIZE COUNT ROUNDS\n", stderr);
        return 2;
    }
    size_t size;
    uint8_t *bytes = input(&size);
    uint8_t *out = malloc(size + 1);
    if (!bytes || !out)
        return 1;
    uint64_t sum = 0;
    for (long round = strtol(words[4], NULL, 10); round > 0; round--)
        sum += worked(*work, bytes, size, piece, out);
    printf("%" PRIu64 "\n", sum);
    free(out);
    free(bytes);
    return 0;
}
