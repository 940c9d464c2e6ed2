/*
 * Works of this repository's bench, done by libcbor: titles by its streaming decoder, items by its trees.
 *
 * usage: libcbor pull|recode|skip|feed SIZE COUNT ROUNDS
 *
 * It reads standard input whole. It pulls the titles in it ROUNDS times, or loads the items in it and writes them or
 * drops them. It prints the sum that the bench and `calls` print. For `feed` the bytes come in pieces of SIZE, and
 * bytes that need more data are kept before the next piece.
 */
#include <cbor.h>
#include <inttypes.h>
#include <stdio.h>
#include <stdlib.h>
#include <string.h>

#include "../input.h"

/* The context of each call is the sum. A call adds a number without a sign, and 1 for each other title. */
static void add_8(void *sum, uint8_t number) { *(uint64_t *)sum += number; }
static void add_16(void *sum, uint16_t number) { *(uint64_t *)sum += number; }
static void add_32(void *sum, uint32_t number) { *(uint64_t *)sum += number; }
static void add_64(void *sum, uint64_t number) { *(uint64_t *)sum += number; }

static void one(void *sum) { *(uint64_t *)sum += 1; }
static void one_8(void *sum, uint8_t number) { (void)number, one(sum); }
static void one_16(void *sum, uint16_t number) { (void)number, one(sum); }
static void one_32(void *sum, uint32_t number) { (void)number, one(sum); }
static void one_64(void *sum, uint64_t number) { (void)number, one(sum); }
static void one_count(void *sum, size_t count) { (void)count, one(sum); }

/* Adds the titles of the bytes to the sum. */
static void add_titles(const unsigned char *bytes, size_t size, const struct cbor_callbacks *callbacks,
                       uint64_t *sum) {
    size_t offset = 0;
    while (offset < size) {
        struct cbor_decoder_result result =
            cbor_stream_decode(bytes + offset, size - offset, callbacks, sum);
        if (result.status == CBOR_DECODER_NEDATA)
            return;
        if (result.status == CBOR_DECODER_ERROR) {
            *sum += 1;
            offset += 1;
        }
        offset += result.read;
    }
}

/*
 * Loads each item, and writes it if there is an output. Returns how many bytes that takes, or otherwise how many items
 * there are.
 */
static uint64_t items(const unsigned char *bytes, size_t size, unsigned char *out) {
    uint64_t sum = 0;
    size_t offset = 0;
    while (offset < size) {
        struct cbor_load_result result;
        cbor_item_t *item = cbor_load(bytes + offset, size - offset, &result);
        if (!item)
            break;
        sum += out ? cbor_serialize(item, out + sum, size - sum) : 1;
        cbor_decref(&item);
        offset += result.read;
    }
    return sum;
}

/* Returns how many bytes the titles and strings have, if the bytes come in pieces of `piece` bytes. */
static uint64_t fed(const unsigned char *bytes, size_t size, size_t piece, unsigned char *kept) {
    size_t length = 0, ended = 0;
    for (size_t offset = 0; offset < size; offset += piece) {
        size_t more = size - offset < piece ? size - offset : piece, at = 0;
        memcpy(kept + length, bytes + offset, more);
        length += more;
        while (at < length) {
            struct cbor_decoder_result result =
                cbor_stream_decode(kept + at, length - at, &cbor_empty_callbacks, NULL);
            if (result.status == CBOR_DECODER_ERROR)
                return 0;
            if (result.status == CBOR_DECODER_NEDATA)
                break;
            at += result.read;
        }
        ended += at;
        length -= at;
        memmove(kept, kept + at, length);
    }
    return ended;
}

int main(int count, char **words) {
    const char *work = count == 5 ? words[1] : "";
    size_t piece = count == 5 ? (size_t)strtoul(words[2], NULL, 10) : 0;
    int is_fed = strcmp(work, "feed") == 0;
    if (piece == 0
        || (!is_fed && strcmp(work, "pull") != 0 && strcmp(work, "recode") != 0 && strcmp(work, "skip") != 0)) {
        fputs("usage: libcbor pull|recode|skip|feed SIZE COUNT ROUNDS\n", stderr);
        return 2;
    }
    struct cbor_callbacks callbacks = cbor_empty_callbacks;
    callbacks.uint8 = add_8;
    callbacks.uint16 = add_16;
    callbacks.uint32 = add_32;
    callbacks.uint64 = add_64;
    callbacks.negint8 = one_8;
    callbacks.negint16 = one_16;
    callbacks.negint32 = one_32;
    callbacks.negint64 = one_64;
    callbacks.array_start = one_count;
    callbacks.map_start = one_count;
    callbacks.tag = one_64;
    size_t size;
    unsigned char *bytes = input(&size);
    unsigned char *out = malloc(size + piece);
    if (!bytes || !out)
        return 1;
    uint64_t sum = 0;
    for (long round = strtol(words[4], NULL, 10); round > 0; round--) {
        if (*work == 'p')
            add_titles(bytes, size, &callbacks, &sum);
        else if (is_fed)
            sum += fed(bytes, size, piece, out);
        else
            sum += items(bytes, size, *work == 'r' ? out : NULL);
    }
    printf("%" PRIu64 "\n", sum);
    free(out);
    free(bytes);
    return 0;
}
