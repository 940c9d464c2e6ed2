/* SPDX-License-Identifier: Apache-2.0 */
/*
 * Checks items of CBOR as they come through a pipe, and says of each that it has ended as soon as its last byte came.
 *
 * usage: producer | pipe
 *
 * Each item that has ended is a line `item LENGTH`. A fault is the last line, with the offset in its item: `syntax
 * PLACE`, `break PLACE` or `deep PLACE`. If the bytes end inside an item, the last line is `short DUE`: at least DUE
 * more bytes were due. The status is 0 if the bytes end between items, 1 after a fault or inside an item, and 2 if a
 * read fails.
 */
#define _POSIX_C_SOURCE 200112L
#include <errno.h>
#include <stdio.h>
#include <unistd.h>

#include "ciborium_ll.h"

enum { DEPTH = 64 };

/* Prints the answer, and returns the status. */
static int tell(uint32_t answer, uint64_t place)
{
    const char *name = answer == CLL_SHORT ? "short"
        : answer == CLL_SYNTAX             ? "syntax"
        : answer == CLL_BREAK_DUE          ? "break"
        : answer == CLL_TOO_DEEP           ? "deep"
                                           : cll_strerror(answer);
    printf("%s %llu\n", name, (unsigned long long)place);
    return 1;
}

/* Gives a checker the bytes, which may hold several items and end inside one. Returns 0 while there is no fault. */
static int take(cll_checker *checker, const uint8_t *data, size_t len)
{
    while (len > 0) {
        cll_report report;
        const uint32_t answer = cll_checker_feed(checker, data, len, &report);
        data += report.consumed;
        len -= (size_t)report.consumed;
        if (answer == CLL_SHORT)
            return 0;
        if (answer != CLL_OK)
            return tell(answer, report.place);
        printf("item %llu\n", (unsigned long long)report.place);
        if (cll_checker_init(checker, DEPTH) != CLL_OK)
            return tell(CLL_ARGUMENT, DEPTH);
    }
    return 0;
}

int main(void)
{
    static uint8_t data[4096];
    cll_checker checker;
    cll_report report;
    if (cll_checker_init(&checker, DEPTH) != CLL_OK)
        return 2;
    for (;;) {
        const ssize_t came = read(STDIN_FILENO, data, sizeof data);
        if (came < 0 && errno == EINTR)
            continue;
        if (came < 0) {
            perror("pipe");
            return 2;
        }
        if (came == 0)
            break;
        if (take(&checker, data, (size_t)came) != 0)
            return 1;
        fflush(stdout);
    }
    const uint32_t answer = cll_checker_end(&checker, &report);
    return answer == CLL_OK ? 0 : tell(answer, report.place);
}
