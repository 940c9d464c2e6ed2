/* SPDX-License-Identifier: Apache-2.0 */
/* Prints the number that a title says. */
#include <ciborium_ll.h>
#include <stdio.h>

int main(void)
{
    const uint8_t data[] = {0x19, 0x03, 0xe8};
    cll_header header;
    size_t consumed;
    if (cll_pull(data, sizeof data, &header, &consumed) != CLL_OK || header.kind != CLL_POSITIVE)
        return 1;
    printf("%llu in %zu bytes\n", (unsigned long long)header.value, consumed);
    return 0;
}
