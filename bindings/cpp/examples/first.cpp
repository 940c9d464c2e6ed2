// SPDX-License-Identifier: Apache-2.0
// Prints the titles of an item, and the offset of one that is not in its shortest spelling.
#include <ciborium_ll.hpp>
#include <iostream>
#include <vector>

int main()
{
    const std::vector<unsigned char> data = {0x82, 0x01, 0x19, 0x00, 0x02};
    ciborium_ll::reader reader(data);
    while (!reader.at_end()) {
        const auto offset = reader.offset();
        const auto header = reader.pull().value();
        std::cout << offset << ": " << *header.value << '\n';
    }
    const auto length = ciborium_ll::strict(data, 3);
    if (!length)
        std::cout << length.fault().name() << " at " << length.fault().place << '\n';
}
