// Goes over the titles of bytes from C++.
//
// usage: works_cpp headers COUNT TIMES
//
// It reads standard input whole, goes over its titles TIMES times, and prints their sum, as works.c does. It does not
// use COUNT.
#include <ciborium_ll.hpp>
#include <cinttypes>
#include <cstdio>
#include <cstdlib>
#include <cstring>

#include "../input.h"

// Returns the sum of the titles, and 0 if there is a fault.
static std::uint64_t headers(ciborium_ll::input bytes)
{
    std::uint64_t sum = 0;
    for (const auto &title : ciborium_ll::headers(bytes)) {
        if (!title)
            return 0;
        const auto &header = title->header;
        const bool adds = header.kind == ciborium_ll::kind::positive || header.kind == ciborium_ll::kind::text;
        sum += adds ? header.value.value_or(1) : 1;
    }
    return sum;
}

int main(int count, char **words)
{
    std::size_t size = 0;
    std::uint64_t sum = 0;
    if (count != 4 || std::strcmp(words[1], "headers") != 0)
        return 2;
    const std::uint8_t *bytes = input(&size);
    if (!bytes)
        return 1;
    for (auto left = std::strtoull(words[3], nullptr, 10); left > 0; --left)
        sum = headers({bytes, size});
    std::printf("%" PRIu64 "\n", sum);
    return 0;
}
