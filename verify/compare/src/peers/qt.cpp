// SPDX-License-Identifier: Apache-2.0

// The works of the calls for C, done by Qt's classes for CBOR, which stand on TinyCBOR.
//
// usage: qt check|copy SIZE COUNT ROUNDS
//
// It reads standard input whole, and does a work on it ROUNDS times. `check` reads the one item in it and keeps nothing.
// `copy` parses it to a value, and writes the value in its shortest spelling. It prints the sum of the lengths.

#include <QCborStreamReader>
#include <QCborValue>
#include <cinttypes>
#include <cstdlib>
#include <cstring>

#include "../input.h"

// Reads one item with all that it contains. Returns whether it is well-formed.
static bool skipped(QCborStreamReader &reader) {
    if (reader.isByteArray()) {
        auto part = reader.readByteArray();
        while (part.status == QCborStreamReader::Ok)
            part = reader.readByteArray();
        return part.status == QCborStreamReader::EndOfString;
    }
    if (reader.isString()) {
        auto part = reader.readString();
        while (part.status == QCborStreamReader::Ok)
            part = reader.readString();
        return part.status == QCborStreamReader::EndOfString;
    }
    if (reader.isTag())
        return reader.next() && skipped(reader);
    if (!reader.isContainer())
        return reader.next();
    if (!reader.enterContainer())
        return false;
    while (reader.hasNext())
        if (!skipped(reader))
            return false;
    return reader.leaveContainer();
}

static std::size_t worked(const char *work, const char *bytes, std::size_t size) {
    if (std::strcmp(work, "check") == 0) {
        QCborStreamReader reader(bytes, qsizetype(size));
        return skipped(reader) ? std::size_t(reader.currentOffset()) : 0;
    }
    auto value = QCborValue::fromCbor(bytes, qsizetype(size));
    return std::size_t(value.toCbor(QCborValue::UseFloat16).size());
}

int main(int count, char **words) {
    if (count != 5)
        return 2;
    std::size_t size;
    std::uint8_t *bytes = input(&size);
    if (!bytes)
        return 1;
    std::uint64_t sum = 0;
    for (long round = std::strtol(words[4], nullptr, 10); round > 0; round--)
        sum += worked(words[1], reinterpret_cast<const char *>(bytes), size);
    std::printf("%" PRIu64 "\n", sum);
    std::free(bytes);
}
