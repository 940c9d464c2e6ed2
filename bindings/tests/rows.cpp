/*
 * Holds the header for C++ against the table of rows, and tries facts that a table can't say.
 *
 * usage: rows TABLE
 */
#include <ciborium_ll.hpp>
#include <ciborium_ll_item.hpp>
#include <ciborium_ll_parser.hpp>

#include <algorithm>
#include <array>
#include <cstring>
#include <string>
#include <string_view>
#include <vector>

#include "table.h"

namespace cll = ciborium_ll;
using namespace std::string_view_literals;

namespace {

std::string shown(cll::input bytes)
{
    std::string text;
    char digits[3];
    for (const std::uint8_t byte : bytes) {
        std::snprintf(digits, sizeof digits, "%02x", byte);
        text += digits;
    }
    return text.empty() ? "-" : text;
}

/* Shows a header as a row has it. */
std::string named(const cll::header &header)
{
    return std::string(kind_names[static_cast<int>(header.kind)]) + '/'
        + (header.value ? std::to_string(*header.value) : "*");
}

/* Shows a header and the shortest title that is written for it. */
std::string told(const cll::header &header)
{
    std::array<std::uint8_t, 9> title;
    const auto length = cll::push(header, title);
    return named(header) + '/' + shown({title.data(), length.value()});
}

/* Shows how many more bytes are due, if the bytes end too early. */
template <typename T>
std::string due(const cll::result<T> &got)
{
    return !got && got.fault().code == cll::answer::too_short ? "due/" + std::to_string(got.fault().due) : "";
}

/* Tells whether a call answered as a row says. */
template <typename T>
bool fits(const row &row, const cll::result<T> &got, std::uint64_t consumed, const std::string &made)
{
    const std::string name = got ? "ok" : got.fault().name();
    return name == answer_names[row.answer] && (got ? consumed : got.fault().consumed) == row.consumed
        && got.fault().place == row.place && made == row.made;
}

/* Goes over the titles. With `short` the place is where the titles end that came before the fault. */
bool lists(const row &row, const std::vector<std::uint8_t> &data)
{
    std::string name = "ok", made;
    std::uint64_t taken = 0, place = 0;
    for (const auto &got : cll::headers(data)) {
        if (!got) {
            name = got.fault().name();
            place = name == "short" ? taken : got.fault().place;
            continue;
        }
        made += (made.empty() ? "" : ",") + named(got->header) + '/' + std::to_string(got->start) + '/'
            + std::to_string(got->end);
        taken = got->end + (got->body ? got->body->size() : 0);
    }
    return name == answer_names[row.answer] && taken == row.consumed && place == row.place
        && (made.empty() ? "-" : made) == row.made;
}

/* Writes the deterministic encoding. */
bool rewrites(const row &row, const std::vector<std::uint8_t> &data, cll::order keys)
{
    std::vector<std::uint8_t> out(data.size() + 16);
    std::vector<cll_span> spans(data.size());
    const auto got = cll::canonical(data, out, spans, static_cast<std::uint32_t>(row.number), keys);
    const auto lacks = due(got);
    const auto made = got ? shown({out.data(), got->written}) : "-";
    return fits(row, got, got ? got->consumed : 0, lacks.empty() ? made : lacks);
}

/* Gives a checker the bytes one by one. */
bool feeds(const row &row, const std::vector<std::uint8_t> &data)
{
    cll::checker checker(static_cast<std::uint32_t>(row.number), std::string(row.call) == "feed_strict");
    auto got = checker.feed({});
    for (const std::uint8_t byte : data)
        got = checker.feed({&byte, 1});
    std::string name = got ? "ok" : got.fault().name(), made = "-";
    std::uint64_t place = got.fault().place;
    if (got)
        made = got->ended ? "length/" + std::to_string(got->length) : "due/" + std::to_string(got->due);
    if (got && !got->ended) {
        name = "short";
        place = checker.taken();
    }
    const auto end = checker.end();
    const bool may_end = (checker.taken() == 0 ? !end || !got : !end == (name == "ok"))
        && checker.ended() == (name == "ok");
    return name == answer_names[row.answer] && checker.taken() == row.consumed && place == row.place && made == row.made
        && may_end && (!end || (end->name() == name && end->place == row.place))
        && (!end || !got || end->due == got->due);
}

/* Gives a copier the bytes one by one, with room for one each. */
bool copies(const row &row, const std::vector<std::uint8_t> &data)
{
    cll::copier copier(row.number, std::string(row.call) == "copy_strict");
    std::array<std::uint8_t, ROOM> out;
    std::size_t written = 0;
    auto got = copier.feed({}, {});
    do {
        const auto at = static_cast<std::size_t>(copier.taken());
        got = copier.feed({data.data() + at, at < data.size() ? 1u : 0u}, {out.data() + written, 1});
        written += got ? got->written : static_cast<std::size_t>(got.fault().written);
    } while (got && !got->ended && written < out.size() && (got->full || copier.taken() < data.size()));
    const std::string name = !got ? got.fault().name() : got->ended ? "ok" : "short";
    const std::uint64_t place = name == "short" ? copier.taken() : got.fault().place;
    const auto end = copier.end();
    return name == answer_names[row.answer] && copier.taken() == row.consumed && place == row.place
        && shown({out.data(), written}) == row.made && !end == (name == "ok") && copier.ended() == !end
        && (!end || (end->name() == name && end->place == row.place));
}

/* Shows the bytes of a body in hexadecimal. */
std::string digits(cll::input bytes) { return bytes.empty() ? "" : shown(bytes); }

/* Shows a title, or a part of a body, which follows what is there. */
void add(std::string &made, const cll::event &found)
{
    const char *const between = made.empty() ? "" : ",";
    if (found.kind() == cll::event_kind::header) {
        made += between + named(found.header()) + '/' + std::to_string(found.place());
    } else if (found.kind() == cll::event_kind::close) {
        made += between + ("close/" + std::to_string(found.place()));
    } else {
        const auto last = made.rfind(',');
        const bool is_first = made.find('=', last == std::string::npos ? 0 : last) == std::string::npos;
        made += (is_first ? "=" : "") + digits(found.carried()) + digits(found.taken());
    }
}

/* Pushes the bytes to a parser, in pieces of some size. */
bool parses(const row &row, const std::vector<std::uint8_t> &data)
{
    auto parser = std::string(row.call) == "events_strict" ? cll::parser::strict() : cll::parser();
    const auto size = static_cast<std::size_t>(row.number);
    std::string made, name = "ok";
    for (std::size_t at = 0; at < data.size() && name == "ok"; at += size)
        for (const auto &found : parser.push({data.data() + at, std::min(size, data.size() - at)})) {
            if (found)
                add(made, *found);
            else
                name = found.fault().name();
        }
    const auto end = parser.end();
    if (end && end->code == cll::answer::too_short) {
        name = end->name();
        made += (made.empty() ? "due/" : ",due/") + std::to_string(end->due);
    }
    return name == answer_names[row.answer] && parser.taken() == row.consumed && !end == (name == "ok")
        && (!end || (end->name() == name && end->place == row.place)) && (made.empty() ? "-" : made) == row.made;
}

/* Shows an item with all that it contains, by views of its parts. */
std::string viewed(const cll::item &item)
{
    const cll::header header = item.header();
    std::string text = named(header);
    if (const auto body = item.byte_string())
        return text + '=' + digits(*body);
    if (const auto body = item.text())
        return text + '=' + digits(*body);
    const bool may_have = header.kind == cll::kind::array || header.kind == cll::kind::map
        || header.kind == cll::kind::tag || !header.value;
    if (!may_have)
        return item.begin() == item.end() ? text : "items in a scalar";
    text += '[';
    for (const auto &part : item)
        text += (text.back() == '[' ? "" : ",") + viewed(part);
    return text + ']';
}

/* Views an item, and looks up a key of it. */
bool views(const row &row, const std::vector<std::uint8_t> &data)
{
    const std::string_view call = row.call;
    if (call == "item") {
        const auto got = cll::item::parse(data, static_cast<std::uint32_t>(row.number));
        const auto lacks = due(got);
        return fits(row, got, got ? got->bytes().size() : 0, got ? viewed(*got) : lacks.empty() ? "-" : lacks);
    }
    const auto item = cll::item::parse(data).value();
    const std::string_view text = std::string_view(row.word) == "-" ? "" : row.word;
    const auto found = call == "get" ? item.get({row.key, row.key_len})
        : call == "get_text" ? item[text]
        : item[static_cast<std::int64_t>(std::strtoll(row.word, nullptr, 10))];
    return (found ? "ok"sv : "absent"sv) == answer_names[row.answer] && (found ? viewed(*found) : "-") == row.made;
}

int holds(const row *row)
{
    const std::string_view call = row->call;
    const std::vector<std::uint8_t> data(row->bytes, row->bytes + row->len);
    if (call == "pull") {
        const auto got = cll::pull(data);
        return fits(*row, got, got ? got->length : 0, got ? told(got->header) : "-");
    }
    if (call == "push" || call == "wide") {
        const cll_header &given = row->header;
        const auto value = given.indefinite != 0 ? std::nullopt : std::optional<std::uint64_t>(given.value);
        const cll::header header{static_cast<cll::kind>(given.kind), value};
        std::vector<std::uint8_t> out(call == "wide" ? 9 : static_cast<std::size_t>(row->number));
        const auto width = static_cast<std::uint32_t>(row->number);
        const auto got = call == "wide" ? cll::push_wide(header, width, out) : cll::push(header, out);
        return fits(*row, got, 0, got ? shown({out.data(), *got}) : "-");
    }
    if (call == "recode") {
        std::vector<std::uint8_t> out(data.size());
        const auto got = cll::recode(data, row->number, out);
        const auto written = got ? got->written : static_cast<std::size_t>(got.fault().written);
        const auto lacks = due(got);
        const auto made = shown({out.data(), written});
        return fits(*row, got, got ? got->consumed : 0, lacks.empty() ? made : made + '/' + lacks);
    }
    if (call == "headers")
        return lists(*row, data);
    if (call == "canonical" || call == "canonical_length_first")
        return rewrites(*row, data, call == "canonical" ? cll::order::bytewise : cll::order::length_first);
    if (call == "feed" || call == "feed_strict")
        return feeds(*row, data);
    if (call == "copy" || call == "copy_strict")
        return copies(*row, data);
    if (call == "events" || call == "events_strict")
        return parses(*row, data);
    if (call == "item" || call == "get" || call == "get_text" || call == "get_int")
        return views(*row, data);
    const auto depth = static_cast<std::uint32_t>(row->number);
    const auto got = call == "strict" ? cll::strict(data, row->number)
        : call == "skip" ? cll::skip(data, depth)
        : call == "deterministic" ? cll::deterministic(data, depth)
        : call == "length_first" ? cll::deterministic(data, depth, cll::order::length_first)
        : cll::utf8(data);
    const auto lacks = call == "utf8" ? std::string() : due(got);
    return fits(*row, got, got ? *got : 0, lacks.empty() ? "-" : lacks);
}

/* A result has the names of std::expected, and a call that can't fail throws nothing. */
bool has_values()
{
    const auto good = cll::skip("\x05"sv), bad = cll::skip("\x1c"sv);
    static_assert(std::is_same_v<decltype(good)::value_type, std::size_t>);
    static_assert(std::is_same_v<decltype(cll::skip({}).value()), std::size_t>);
    static_assert(noexcept(bad.value_or(0)) && noexcept(bad.error()) && noexcept(cll::headers({}).begin()));
    return good.value_or(7) == 1 && bad.value_or(7) == 7 && bad.error().code == cll::answer::syntax
        && &bad.error() == &bad.fault();
}

/* Tells whether a title was found with this header, in this place, and with this body or none. */
bool is_found(const cll::result<cll::located> &got, const cll::header &header, std::size_t start, std::size_t end,
    std::optional<std::string_view> body)
{
    return got && got->header == header && got->start == start && got->end == end
        && got->body.has_value() == body.has_value()
        && (!body || std::string_view(reinterpret_cast<const char *>(got->body->data()), got->body->size()) == *body);
}

/* Goes over all titles of some bytes, with the bodies of strings of a definite length, and the fault that ends them. */
bool goes_over()
{
    const auto bytes = "\x9f\x0a\x63\xe2\x81\x8c\x5f\x41\x01\xff\xff"sv;
    std::vector<cll::result<cll::located>> all;
    for (const auto &got : cll::headers(bytes))
        all.push_back(got);
    const bool whole = all.size() == 7 && is_found(all[0], {cll::kind::array, std::nullopt}, 0, 1, {})
        && is_found(all[1], {cll::kind::positive, 10}, 1, 2, {})
        && is_found(all[2], {cll::kind::text, 3}, 2, 3, "\xe2\x81\x8c"sv)
        && is_found(all[3], {cll::kind::bytes, std::nullopt}, 6, 7, {})
        && is_found(all[4], {cll::kind::bytes, 1}, 7, 8, "\x01"sv)
        && is_found(all[5], {cll::kind::break_, 0}, 9, 10, {}) && is_found(all[6], {cll::kind::break_, 0}, 10, 11, {});
    const cll::headers none({}), damaged("\x82\x60\x61\xff\x05"sv), cut("\x05\x42\x01"sv);
    auto at = damaged.begin();
    const bool first = at != damaged.end() && (*at++)->header == cll::header{cll::kind::array, 2};
    const bool empty = at->has_value() && (*at)->body->empty();
    const auto fault = (++at)->error();
    const auto last = ++at;
    const auto due = (++cut.begin())->error();
    return whole && none.begin() == none.end() && first && empty && fault.code == cll::answer::syntax
        && fault.place == 2 && last == damaged.end() && due.code == cll::answer::too_short && due.place == 2 && due.due == 1
        && std::distance(damaged.begin(), damaged.end()) == 3;
}

/* The title and the body that `headers` has to give for a part of some bytes, by the calls for one title. */
cll::result<cll::located> one_title(cll::input rest, std::size_t start)
{
    const auto moved = [start](cll::fault why) {
        why.place += start;
        return why;
    };
    const auto got = cll::pull(rest);
    if (!got)
        return moved(got.fault());
    cll::located found{got->header, start, start + got->length, std::nullopt};
    if ((found.header.kind == cll::kind::bytes || found.header.kind == cll::kind::text) && found.header.value) {
        const auto whole = cll::skip(rest, 0);
        if (!whole)
            return moved(whole.fault());
        found.body = rest.first(*whole).behind(got->length);
    }
    return found;
}

bool is_same(const cll::result<cll::located> &a, const cll::result<cll::located> &b)
{
    if (!a || !b) {
        const cll::fault &one = a.fault(), &other = b.fault();
        return a.has_value() == b.has_value() && one.code == other.code && one.place == other.place
            && one.consumed == other.consumed && one.written == other.written && one.due == other.due;
    }
    return a->header == b->header && a->start == b->start && a->end == b->end
        && a->body.has_value() == b->body.has_value()
        && (!a->body || (a->body->data() == b->body->data() && a->body->size() == b->body->size()));
}

/* Tells whether the titles of some bytes are those that the calls for one title give, and whether a copy goes on. */
bool goes_as_one_by_one(const std::vector<std::uint8_t> &data)
{
    const cll::input bytes(data);
    std::size_t start = 0;
    for (auto at = cll::headers(bytes).begin(); at != cll::headers(bytes).end();) {
        if (start == bytes.size() || !is_same(*at, one_title(bytes.behind(start), start)))
            return false;
        const auto got = *at;
        const auto old = at++;
        start = got ? got->end + (got->body ? got->body->size() : 0) : bytes.size();
        if (!is_same(*old, got))
            return false;
    }
    return start == bytes.size();
}

/* Goes over many titles, with each fault after each number of them, and with each byte replaced by some others. */
bool goes_over_many()
{
    const std::string_view mixed = "\x82\x19\x03\xe8\x42\xff\x1c\x62\xc3\xa9\xf6\x5f\x41\x01\xff\xfb\x3f\xf1\x99\x99\x99\x99\x99\x9a"sv;
    const std::string_view ends[] = {""sv, "\x1c"sv, "\x19"sv, "\x62z"sv, "\x62\xff\xff"sv, "\x7a\0\0\0\x02\xc3("sv};
    for (std::size_t count = 0; count < 50; count++) {
        for (const auto end : ends) {
            std::vector<std::uint8_t> data(count, 0x01);
            data.insert(data.end(), end.begin(), end.end());
            if (!goes_as_one_by_one(data))
                return false;
        }
    }
    std::vector<std::uint8_t> data;
    for (int times = 0; times < 3; times++)
        data.insert(data.end(), mixed.begin(), mixed.end());
    for (std::uint8_t &byte : data) {
        const std::uint8_t old = byte;
        for (const unsigned other : {0x00u, 0x1cu, 0x38u, 0x43u, 0x5fu, 0x61u, 0x7au, 0xffu}) {
            byte = static_cast<std::uint8_t>(other);
            if (!goes_as_one_by_one(data))
                return false;
        }
        byte = old;
    }
    return goes_as_one_by_one(data);
}

/* Writes an item in the deterministic encoding, in both orders of keys, into memory of several types. */
bool rewrites_items()
{
    std::array<std::uint8_t, 6> out;
    std::array<cll_span, 3> spans;
    cll_span places[3];
    const std::string_view data = "\xbf\xf4\x01\x18\x64\x01\xff\x05"sv;
    const auto one = cll::canonical(data, out, spans);
    const bool bytewise = shown(out) == "a2186401f401";
    const auto other = cll::canonical(data, out, places, 1, cll::order::length_first);
    const bool length_first = shown(out) == "a2f401186401";
    const auto none = cll::canonical(data, {out.data(), 5}, spans).fault();
    const auto few = cll::canonical(data, out, std::vector<cll_span>(2)).fault();
    const auto twice = cll::canonical("\xa2\x01\x02\x18\x01\x02"sv, out, spans).fault();
    static_assert(noexcept(cll::canonical(data, out, spans)));
    return one && one->consumed == 7 && one->written == 6 && bytewise && other && length_first
        && none.code == cll::answer::room && few.code == cll::answer::room && few.written == 0
        && twice.code == cll::answer::duplicate_key && twice.place == 3 && twice.consumed == 3
        && cll::canonical(data, out, spans, 0).fault().code == cll::answer::too_deep
        && cll::canonical(data, out, spans, 257).fault().code == cll::answer::argument;
}

#if defined(__cpp_lib_ranges)
static_assert(std::ranges::input_range<cll::headers> && std::ranges::view<cll::headers>);
static_assert(std::ranges::contiguous_range<cll::input> && std::ranges::borrowed_range<cll::input>);
#endif

/* A fault that is thrown has its name and its place, also as text. */
bool throws()
{
    try {
        (void)cll::strict("\x05\x18\x05"sv, 2).value();
    } catch (const cll::error &error) {
        return error.name() == "syntax"sv && error.place() == 1 && error.what() == "syntax at 1"sv
            && error.fault().consumed == 3;
    }
    return false;
}

/* A copy that has no room goes on after the whole elements and their spelling. */
bool goes_on()
{
    std::array<std::uint8_t, 4> out;
    const std::string_view data = "\x18\x05\x58\x01z"sv;
    const auto full = cll::recode(data, 2, {out.data(), 2}).fault();
    const auto rest = cll::recode(data.substr(full.whole), 1, {out.data() + full.spelled, 2});
    return full.code == cll::answer::room && full.elements == 1 && full.whole == 2 && full.written == 2
        && full.spelled == 1 && rest && rest->written == 2 && shown({out.data(), 3}) == "05417a";
}

/* A parser gives a part that carries a byte of an earlier piece. A copy of it goes on by itself, and a fault stays. */
bool parses_on()
{
    cll::parser parser;
    std::string text;
    for (const auto &found : parser.push("\x19\x00\x05\x62\xc3"sv))
        if (!found || found->kind() != cll::event_kind::header)
            return false;
    auto copy = parser;
    for (const auto &found : parser.push("\xa9\x07"sv)) {
        if (found && found->kind() == cll::event_kind::text) {
            if (found->carried().size() != 1 || found->left() != 0)
                return false;
            found->append_to(text);
        }
    }
    for (int turn = 0; turn < 2; turn++)
        for (const auto &found : copy.push("\x28"sv))
            if (found || found.fault().code != cll::answer::syntax || found.fault().place != 3)
                return false;
    /* A loop that ends early leaves the rest of the piece. */
    for (const auto &found : parser.push("\x01\x02"sv))
        if (found && found->header() == cll::header{cll::kind::positive, 1})
            break;
    return text == "\xc3\xa9" && parser.taken() == 8 && !parser.end() && copy.taken() == 6
        && copy.end()->code == cll::answer::syntax && cll::parser().push({}).begin() == cll::parser::events::iterator();
}

/* A reader goes over a map with a string and an array. A call that fails does not move it. */
bool reads()
{
    const std::vector<std::uint8_t> data = {0xa1, 0x61, 'a', 0x82, 0x01, 0x02, 0x1c};
    cll::reader reader(data);
    const auto map = reader.pull();
    const auto key = reader.pull();
    const auto name = reader.take(1);
    const auto list = reader.skip();
    const auto fault = reader.pull().fault();
    return *map == cll::header{cll::kind::map, 1} && *key == cll::header{cll::kind::text, 1} && (*name)[0] == 'a'
        && list->size() == 3 && list->data() == data.data() + 3 && fault.code == cll::answer::syntax
        && fault.place == 6 && reader.offset() == 6 && !reader.at_end() && !reader.take(2) && reader.take(1)
        && reader.at_end();
}

/* Takes a text in pieces of two bytes. The bytes after a front are put before the next piece. */
bool joins()
{
    const std::string_view text = "A\xe2\x89\xa2\xce\x91.\xf0\xa3\x8e\xb4";
    std::string rest;
    std::size_t fronts = 0;
    for (std::size_t at = 0; at < text.size(); at += 2) {
        rest += text.substr(at, 2);
        const auto got = cll::utf8(rest);
        if (!got && got.fault().code != cll::answer::too_short)
            return false;
        const std::size_t front = got ? *got : static_cast<std::size_t>(got.fault().place);
        fronts += front;
        rest.erase(0, front);
    }
    return fronts == text.size() && rest.empty() && cll::utf8({}).value() == 0;
}

/* Checks an item in two pieces, with another one after it. A copy of a checker goes on by itself, and a fault stays. */
bool checks()
{
    cll::checker checker(1);
    const auto first = checker.feed("\x82\x62\xc3"sv);
    cll::checker copy = checker;
    const auto last = checker.feed("\xa9\x05\x06\x07"sv);
    const auto fault = copy.feed("\x28\x05"sv).fault();
    return first->consumed == 3 && !first->ended && first->due == 1 && last->consumed == 2 && last->ended
        && !copy.ended() && checker.ended() && !cll::checker().ended()
        && last->length == 5 && checker.feed("\x06"sv)->consumed == 0 && !checker.end() && checker.taken() == 5
        && fault.code == cll::answer::syntax && fault.place == 1 && fault.consumed == 1
        && copy.feed("\xa9"sv).fault().consumed == 0 && copy.end()->code == cll::answer::syntax
        && cll::checker(257).feed({}).fault().code == cll::answer::argument && !cll::checker().end();
}

/*
 * Copies elements in two pieces. Bytes that have no room come later, a copy of a copier goes on by itself, and a fault
 * stays.
 */
bool copies_on()
{
    std::array<std::uint8_t, 4> out;
    cll::copier copier(2);
    const auto first = copier.feed("\x19\x03"sv, out);
    cll::copier copy = copier;
    const auto full = copier.feed("\xe8\x61z\x07"sv, {out.data(), 2});
    const auto early = copier.end();
    const auto next = copier.feed("\x61z\x07"sv, {out.data() + 2, 2});
    const bool begun = shown(out) == "1903e861";
    const auto last = copier.feed("\x07"sv, out);
    const auto fault = copy.feed("\xe8\x1c"sv, out).fault();
    return first->consumed == 2 && first->written == 0 && !first->ended && !first->full && full->consumed == 1
        && full->written == 2 && full->full && early->code == cll::answer::room && next->consumed == 2
        && next->written == 2 && next->full && begun && last->consumed == 0 && last->written == 1 && last->ended
        && !copier.end() && copier.taken() == 5 && fault.code == cll::answer::syntax && fault.place == 3
        && fault.consumed == 2 && fault.written == 3 && copy.feed("\x05"sv, out).fault().consumed == 0
        && copy.end()->place == 3 && cll::copier(1).end()->code == cll::answer::too_short && !cll::copier(0).end();
}

/* Copies an item in two pieces. It ends with the item, and writes nothing of the byte with which a fault comes. */
bool copies_item()
{
    std::array<std::uint8_t, 4> out;
    cll::item_copier copier(1);
    const auto first = copier.feed("\x82\x19\x00"sv, out);
    const bool begun = shown({out.data(), 1}) == "82";
    const cll::item_copier copy = copier;
    const auto early = copy.end();
    const auto full = copier.feed("\x05\x41\x01\x07"sv, {out.data(), 1});
    const auto next = copier.feed("\x01\x07"sv, {out.data() + 1, 2});
    const bool whole = shown({out.data(), 3}) == "054101";
    cll::item_copier strict(1, true);
    const auto fault = strict.feed("\x82\x19\x00\x05"sv, out).fault();
    return first->consumed == 3 && first->written == 1 && !first->ended && !first->full && begun
        && early->code == cll::answer::too_short && early->place == 3 && early->due == 1 && full->full
        && full->consumed == 2 && full->written == 1 && next->ended && next->consumed == 1 && next->written == 2 && whole
        && !copier.end() && copier.ended() && !copy.ended() && !cll::item_copier().ended() && copier.taken() == 6
        && copier.feed("\x07"sv, out)->consumed == 0
        && fault.code == cll::answer::syntax && fault.place == 1 && fault.consumed == 3 && fault.written == 1
        && cll::item_copier(257).feed({}, out).fault().code == cll::answer::argument && !cll::item_copier().end();
}

/* Goes over the items in an item and over the pairs of a map, and looks up keys. */
bool views_parts()
{
    const auto bytes = "\xbf\x01\x61\x61\x20\x82\x02\x03\x61\x6b\x42\x01\x02\xff\x05"sv;
    const auto map = cll::item::parse(bytes).value();
    std::string pairs;
    for (const auto &[key, value] : map.entries())
        pairs += viewed(key) + ':' + viewed(value) + ' ';
    const auto list = map[-1].value();
    std::size_t count = 0;
    for (auto at = list.begin(); at != list.end(); at++)
        count += at->kind() == cll::kind::positive;
    const std::optional<std::string_view> text = map[1]->text();
    return pairs == "positive/1:text/1=61 negative/0:array/2[positive/2,positive/3] text/1=6b:bytes/2=0102 "
        && count == 2 && text == "a"sv && text->data() == bytes.data() + 3 && map.bytes().size() == bytes.size() - 1
        && map["k"]->byte_string()->size() == 2 && !map["k"]->text() && !map[1]->byte_string() && !map[2] && !map["a"]
        && map.get("\x20"sv)->kind() == cll::kind::array && !list[0] && !list["a"]
        && list.entries().begin() == list.entries().end()
        && list.begin()->header() == cll::header{cll::kind::positive, 2}
        && cll::item::parse("\x81"sv, 0).fault().code == cll::answer::too_deep
        && cll::item::parse({}).fault().code == cll::answer::too_short;
}

/* Takes spans of objects that have no bytes, and of bytes of another type than numbers. */
bool spans()
{
    const std::vector<std::uint8_t> none;
    std::array<std::byte, 2> out;
    const auto length = cll::push({cll::kind::simple, 32}, out);
    return cll::pull(none).fault().code == cll::answer::too_short
        && cll::pull({}).fault().code == cll::answer::too_short
        && cll::push({cll::kind::break_, 0}, {}).fault().code == cll::answer::room && length.value() == 2
        && out[0] == std::byte{0xf8} && out[1] == std::byte{32} && cll::pull("\xf4"sv)->header.value == 20u;
}

} /* namespace */

int main(int argc, char **argv)
{
    if (argc != 2 || !has_values() || !goes_over() || !throws() || !goes_on() || !reads() || !joins() || !checks()
        || !copies_on() || !copies_item() || !spans() || !goes_over_many() || !rewrites_items() || !views_parts()
        || !parses_on())
        return 2;
    return go_through(argv[1], holds);
}
