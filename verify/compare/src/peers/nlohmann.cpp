// SPDX-License-Identifier: Apache-2.0

// The works of the calls for C, done by the C++ library nlohmann/json.
//
// usage: nlohmann check|copy SIZE COUNT ROUNDS
//
// It reads standard input whole, and does a work on it ROUNDS times. `check` parses the one item in it and keeps
// nothing. `copy` parses it to a value, and writes the value. It prints the sum of the lengths.

#include <cinttypes>
#include <cstring>
#include <nlohmann/json.hpp>

#include "../input.h"

using nlohmann::json;

// Takes each part of an item, and keeps none.
struct nothing : nlohmann::json_sax<json> {
    bool null() override { return true; }
    bool boolean(bool) override { return true; }
    bool number_integer(number_integer_t) override { return true; }
    bool number_unsigned(number_unsigned_t) override { return true; }
    bool number_float(number_float_t, const string_t &) override { return true; }
    bool string(string_t &) override { return true; }
    bool binary(binary_t &) override { return true; }
    bool start_object(std::size_t) override { return true; }
    bool key(string_t &) override { return true; }
    bool end_object() override { return true; }
    bool start_array(std::size_t) override { return true; }
    bool end_array() override { return true; }
    bool parse_error(std::size_t, const std::string &, const nlohmann::detail::exception &) override { return false; }
};

static std::size_t worked(const char *work, const std::uint8_t *bytes, std::size_t size) {
    if (std::strcmp(work, "check") == 0) {
        nothing parts;
        return json::sax_parse(bytes, bytes + size, &parts, json::input_format_t::cbor) ? size : 0;
    }
    return json::to_cbor(json::from_cbor(bytes, bytes + size)).size();
}

int main(int count, char **words) {
    if (count != 5)
        return 2;
    std::size_t size;
    std::uint8_t *bytes = input(&size);
    if (!bytes)
        return 1;
    std::uint64_t sum = 0;
    for (long round = std::strtol(words[4], nullptr, 10); round > 0; round--)
        sum += worked(words[1], bytes, size);
    std::printf("%" PRIu64 "\n", sum);
    std::free(bytes);
}
