// SPDX-License-Identifier: Apache-2.0
// Reads a file of CBOR in pieces of 16 bytes, and prints each header and each part of a text as it comes.
//
// usage: events FILE
//
// A header is a line `OFFSET KIND VALUE`, with `*` for an indefinite form, and a close is a line `OFFSET close`. A part
// of a text is a line `text PART`, and a part of a byte string is `bytes COUNT`. The last line is `end`, or after a
// fault `syntax OFFSET`, or `short DUE` if the bytes end too early. The status is then 1.
#include <cstdio>
#include <fstream>
#include <string>

#include "ciborium_ll_parser.hpp"

namespace cbor = ciborium_ll;

// Prints an event.
static void tell(const cbor::event &found)
{
    static const char *const kinds[] = {"positive", "negative", "bytes", "text", "array", "map", "tag", "simple",
        "half", "single", "double", "break"};
    const auto place = static_cast<unsigned long long>(found.place());
    const auto header = found.header();
    const char *kind = kinds[static_cast<int>(header.kind)];
    switch (found.kind()) {
    case cbor::event_kind::header:
        if (header.value)
            std::printf("%llu %s %llu\n", place, kind, static_cast<unsigned long long>(*header.value));
        else
            std::printf("%llu %s *\n", place, kind);
        break;
    case cbor::event_kind::close:
        std::printf("%llu close\n", place);
        break;
    case cbor::event_kind::bytes:
        std::printf("bytes %zu\n", found.taken().size());
        break;
    case cbor::event_kind::text: {
        std::string text;
        found.append_to(text);
        std::printf("text %s\n", text.c_str());
        break;
    }
    }
}

int main(int argc, char **argv)
{
    std::ifstream file(argc == 2 ? argv[1] : "", std::ios::binary);
    if (!file) {
        std::fprintf(stderr, "usage: events FILE\n");
        return 2;
    }
    cbor::parser parser;
    char piece[16];
    while (file.read(piece, sizeof piece), file.gcount() > 0)
        for (const auto &found : parser.push({reinterpret_cast<const unsigned char *>(piece),
                 static_cast<std::size_t>(file.gcount())})) {
            if (!found) {
                std::printf("syntax %llu\n", static_cast<unsigned long long>(found.fault().place));
                return 1;
            }
            tell(*found);
        }
    if (const auto why = parser.end()) {
        std::printf("short %llu\n", static_cast<unsigned long long>(why->due));
        return 1;
    }
    std::printf("end\n");
}
