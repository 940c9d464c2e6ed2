/* SPDX-License-Identifier: Apache-2.0 */
/*
 * Tells whether hexadecimal bytes begin with COUNT elements of CBOR in their one shortest spelling. A program has to
 * know that if it checks a message that was signed as bytes.
 *
 * usage: strict COUNT HEX
 *
 * The status is 0 if they do, and the program prints their length. It is 1 if they do not, and 2 for other arguments.
 */
#include <stdio.h>
#include <string.h>

#include "ciborium_ll.h"
#include "count.h"

/* Returns the value of a hexadecimal digit, or 16. */
static unsigned digit(char c)
{
    static const char digits[] = "0123456789abcdef";
    const char *at = c != '\0' ? strchr(digits, c) : NULL;
    return at != NULL ? (unsigned)(at - digits) : 16;
}

int main(int argc, char **argv)
{
    static uint8_t data[4096];
    uint64_t count = 0;
    size_t len = argc == 3 ? strlen(argv[2]) / 2 : 0;
    int fits = argc == 3 && read_count(argv[1], &count) && strlen(argv[2]) % 2 == 0 && len <= sizeof data;
    for (size_t i = 0; fits && i < len; i++) {
        unsigned high = digit(argv[2][2 * i]), low = digit(argv[2][2 * i + 1]);
        fits = high < 16 && low < 16;
        data[i] = (uint8_t)(16 * high + low);
    }
    if (!fits) {
        fprintf(stderr, "usage: strict COUNT HEX\n");
        return 2;
    }

    cll_report report;
    uint32_t answer = cll_strict(data, len, count, &report);
    if (answer == CLL_OK)
        printf("strict %llu\n", (unsigned long long)report.consumed);
    else if (answer == CLL_SYNTAX)
        printf("syntax %llu\n", (unsigned long long)report.place);
    else
        printf("short %llu\n", (unsigned long long)report.consumed);
    return answer == CLL_OK ? 0 : 1;
}
