/* SPDX-License-Identifier: Apache-2.0 */
/*
 * Copies COUNT elements of CBOR from one file to another, each in its shortest spelling.
 *
 * usage: normalize COUNT IN OUT
 *
 * The status is 0 if all of them were there. It is 1 after a fault, which standard error names. It is 2 if the
 * arguments or the files are at fault. After a fault OUT holds the bytes written before it.
 */
#include <stdio.h>
#include <stdlib.h>

#include "ciborium_ll.h"
#include "count.h"

/* Reads a whole file, and gives its length. Returns null if that fails. */
static uint8_t *read_all(const char *name, size_t *len)
{
    FILE *file = fopen(name, "rb");
    uint8_t *data = NULL;
    size_t room = 0;

    *len = 0;
    while (file != NULL) {
        if (*len == room) {
            uint8_t *more = (uint8_t *)realloc(data, room = 2 * room + 4096);
            if (more == NULL)
                break;
            data = more;
        }
        size_t got = fread(data + *len, 1, room - *len, file);
        *len += got;
        if (got == 0) {
            if (ferror(file))
                break;
            fclose(file);
            return data;
        }
    }
    if (file != NULL)
        fclose(file);
    free(data);
    return NULL;
}

/* Writes a whole file. Tells whether that failed. */
static int write_all(const char *name, const uint8_t *data, size_t len)
{
    FILE *file = fopen(name, "wb");
    if (file == NULL)
        return 1;
    int failed = fwrite(data, 1, len, file) != len;
    return fclose(file) != 0 || failed;
}

int main(int argc, char **argv)
{
    uint64_t count;
    if (argc != 4 || !read_count(argv[1], &count)) {
        fprintf(stderr, "usage: normalize COUNT IN OUT\n");
        return 2;
    }

    size_t len;
    uint8_t *data = read_all(argv[2], &len);
    /* No spelling is longer than its elements are in the input. */
    uint8_t *out = data != NULL ? (uint8_t *)malloc(len + 1) : NULL;
    if (out == NULL) {
        fprintf(stderr, "normalize: %s can't be read\n", argv[2]);
        free(data);
        return 2;
    }

    cll_report report;
    uint32_t answer = cll_recode(data, len, count, out, len, &report);
    int failed = write_all(argv[3], out, (size_t)report.written);
    free(out);
    free(data);
    if (failed) {
        fprintf(stderr, "normalize: %s can't be written\n", argv[3]);
        return 2;
    }
    if (answer == CLL_SYNTAX)
        fprintf(stderr, "syntax %llu\n", (unsigned long long)report.place);
    else if (answer == CLL_SHORT)
        fprintf(stderr, "short %llu\n", (unsigned long long)report.consumed);
    else if (answer != CLL_OK)
        fprintf(stderr, "answer %lu\n", (unsigned long)answer);
    return answer == CLL_OK ? 0 : 1;
}
