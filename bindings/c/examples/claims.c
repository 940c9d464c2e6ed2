/* SPDX-License-Identifier: Apache-2.0 */
/*
 * Reads a CWT claims set (RFC 8392), which is a map with integers as keys, by views of its items. It prints the issuer
 * and the time of expiry, if they are there, and takes any spelling of them.
 *
 * usage: claims < FILE
 *
 * The status is 0 if standard input is one map. It is 1 if it is not, and 2 if a read fails.
 */
#include <stdio.h>

#include "ciborium_ll.h"

/* The numbers of claims, and the levels that a claims set may have. */
enum { ISSUER = 1, EXPIRY = 4, DEPTH = 16 };

int main(void)
{
    static uint8_t data[65536];
    const size_t len = fread(data, 1, sizeof data, stdin);
    cll_item claims, claim;
    cll_header header;
    cll_body text;
    cll_report report;
    if (ferror(stdin)) {
        perror("claims");
        return 2;
    }
    if (cll_item_parse(data, len, DEPTH, &claims, &report) != CLL_OK || claims.len != len
        || cll_item_header(&claims, &header) != CLL_OK || header.kind != CLL_MAP) {
        fprintf(stderr, "claims: no claims set\n");
        return 1;
    }
    if (cll_item_get_int(&claims, ISSUER, &claim) == CLL_OK && cll_item_text(&claim, &text) == CLL_OK)
        printf("issuer %.*s\n", (int)text.len, (const char *)text.data);
    if (cll_item_get_int(&claims, EXPIRY, &claim) == CLL_OK && cll_item_header(&claim, &header) == CLL_OK
        && header.kind == CLL_POSITIVE)
        printf("expiry %llu\n", (unsigned long long)header.value);
    return 0;
}
