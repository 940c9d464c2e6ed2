/* SPDX-License-Identifier: Apache-2.0 */
/* The argument COUNT of the examples. */
#ifndef COUNT_H
#define COUNT_H

#include <stdint.h>

/* Reads a number in digits. Tells whether it is one that fits into 64 bits. */
static inline int read_count(const char *text, uint64_t *count)
{
    *count = 0;
    if (*text == '\0')
        return 0;
    for (; *text >= '0' && *text <= '9'; text++) {
        const uint64_t digit = (uint64_t)(*text - '0');
        if (*count > (UINT64_MAX - digit) / 10)
            return 0;
        *count = 10 * *count + digit;
    }
    return *text == '\0';
}

#endif
