// SPDX-License-Identifier: Apache-2.0
/*
 * Tells whether standard input is one whole item of CBOR and nothing more. A program has to know that before it signs
 * or stores an item. It prints the same as one.c, and has its status.
 *
 * usage: one < FILE
 */
#include <ciborium_ll.hpp>

#include <array>
#include <cstdio>
#include <iostream>

namespace {

/* Prints a word and a number, and returns the status. */
int tell(const char *word, std::uint64_t number, int status)
{
    std::cout << word << ' ' << number << '\n';
    return status;
}

} /* namespace */

int main()
{
    std::array<unsigned char, 4096> data;
    ciborium_ll::checker checker(64);
    while (const std::size_t came = std::fread(data.data(), 1, data.size(), stdin)) {
        const auto got = checker.feed({data.data(), came});
        if (!got)
            return tell("fault", got.error().place, 1);
        if (got->consumed < came)
            return tell("more", got->length, 1);
    }
    if (std::ferror(stdin) != 0) {
        std::perror("one");
        return 2;
    }
    /* Before the first byte the item has not ended, and `end()` has no fault, because a sequence may be empty. */
    if (checker.ended())
        return tell("item", checker.taken(), 0);
    const auto fault = checker.end();
    return tell("short", fault ? fault->due : 1, 1);
}
