/* SPDX-License-Identifier: Apache-2.0 */
/*
 * Tells whether standard input is one whole item of CBOR and nothing more. A program has to know that before it signs
 * or stores an item.
 *
 * usage: one < FILE
 *
 * It prints `item LENGTH` with the status 0. Otherwise the status is 1, and it prints one of three lines. `short DUE`
 * says that the item has not ended, and that at least DUE bytes are due. `more LENGTH` says that bytes follow an item
 * of that length. `fault PLACE` says the offset of a fault. The status is 2 if a read fails.
 */
#include <stdio.h>

#include "ciborium_ll.h"

enum { DEPTH = 64 };

/* Prints a word and a number, and returns the status. */
static int tell(const char *word, uint64_t number, int status)
{
    printf("%s %llu\n", word, (unsigned long long)number);
    return status;
}

int main(void)
{
    static uint8_t data[4096];
    cll_checker checker;
    cll_report report;
    cll_answer answer;
    size_t came;
    if (cll_checker_init(&checker, DEPTH) != CLL_OK)
        return 2;
    while ((came = fread(data, 1, sizeof data, stdin)) > 0) {
        answer = cll_checker_feed(&checker, data, came, &report);
        if (answer != CLL_OK && answer != CLL_SHORT)
            return tell("fault", report.place, 1);
        if (report.consumed < came)
            return tell("more", report.place, 1);
    }
    if (ferror(stdin)) {
        perror("one");
        return 2;
    }
    /*
     * A feed of no bytes changes nothing, and its answer says whether the item has ended. Before the first byte it has
     * not; cll_checker_end answers CLL_OK there, because a sequence of items may be empty.
     */
    answer = cll_checker_feed(&checker, NULL, 0, &report);
    return answer == CLL_OK ? tell("item", report.place, 0) : tell("short", report.place, 1);
}
