/* SPDX-License-Identifier: Apache-2.0 */
/*
 * CBOR (RFC 7049, 2.1 to 2.4) out of memory and into memory, for C++17, over the calls of ciborium_ll.h.
 *
 * A call that may fail returns a `result`: a value, or a `fault` with a name and a place. If there is no value,
 * `value()` throws the fault as an `error`, and no other function throws. No call takes memory. The numbers of a fault
 * are those of a report in ciborium_ll.h, as `fault` says.
 */
#ifndef CIBORIUM_LL_HPP
#define CIBORIUM_LL_HPP

#include <cstddef>
#include <cstdint>
#include <cstdio>
#include <exception>
#include <iterator>
#include <optional>
#include <type_traits>
#include <utility>
#if defined(__has_include)
#if __has_include(<version>)
#include <version>
#endif
#endif
#if defined(__cpp_lib_ranges)
#include <ranges>
#endif

#include "ciborium_ll.h"

namespace ciborium_ll {

/* The types of a byte: `unsigned char`, `char` or `std::byte`. */
template <typename T>
inline constexpr bool is_byte = std::is_same_v<std::remove_cv_t<T>, unsigned char>
    || std::is_same_v<std::remove_cv_t<T>, char> || std::is_same_v<std::remove_cv_t<T>, std::byte>;

/* Bytes that another object owns: where they are, and how many. If `T` is const, the span only reads them. */
template <typename T>
class span {
public:
    constexpr span() noexcept = default;
    constexpr span(T *data, std::size_t size) noexcept : data_(data), size_(size) {}

    /*
     * Makes a span of all bytes of an array, a vector, a string, a view or a span. Of an object that is about to end it
     * makes a span that only reads. It takes no array of `char`, since a literal has a zero at its end.
     */
    template <typename Bytes, typename Byte = std::remove_pointer_t<decltype(std::data(std::declval<Bytes &>()))>,
        typename Plain = std::remove_cv_t<std::remove_reference_t<Bytes>>,
        typename = std::enable_if_t<is_byte<Byte> && !std::is_same_v<Plain, span>
            && (std::is_const_v<T> || (std::is_lvalue_reference_v<Bytes> && !std::is_const_v<Byte>))
            && !(std::is_array_v<Plain> && std::is_same_v<std::remove_cv_t<Byte>, char>)>>
    span(Bytes &&bytes) noexcept : data_(reinterpret_cast<T *>(std::data(bytes))), size_(std::size(bytes))
    {
    }

    constexpr T *data() const noexcept { return data_; }
    constexpr std::size_t size() const noexcept { return size_; }
    constexpr bool empty() const noexcept { return size_ == 0; }
    constexpr T *begin() const noexcept { return data_; }
    constexpr T *end() const noexcept { return data_ + size_; }
    constexpr T &operator[](std::size_t at) const noexcept { return data_[at]; }

    /* The bytes after the first `count` bytes, and these bytes. Neither function checks that there are that many. */
    constexpr span behind(std::size_t count) const noexcept { return {data_ + count, size_ - count}; }
    constexpr span first(std::size_t count) const noexcept { return {data_, count}; }

private:
    T *data_ = nullptr;
    std::size_t size_ = 0;
};

using input = span<const std::uint8_t>;
using output = span<std::uint8_t>;

enum class kind : std::uint8_t {
    positive = CLL_POSITIVE,
    negative = CLL_NEGATIVE,
    bytes = CLL_BYTES,
    text = CLL_TEXT,
    array = CLL_ARRAY,
    map = CLL_MAP,
    tag = CLL_TAG,
    simple = CLL_SIMPLE,
    half = CLL_HALF,
    single = CLL_SINGLE,
    double_ = CLL_DOUBLE,
    break_ = CLL_BREAK
};

/*
 * What a title means. `value` is the number, the length, the count or the raw bits, as in `cll_header`. An indefinite
 * form has no value, and a break has the value 0.
 */
struct header {
    ciborium_ll::kind kind;
    std::optional<std::uint64_t> value;

    friend constexpr bool operator==(const header &a, const header &b) noexcept
    {
        return a.kind == b.kind && a.value == b.value;
    }
    friend constexpr bool operator!=(const header &a, const header &b) noexcept { return !(a == b); }
};

enum class answer : std::uint32_t {
    ok = CLL_OK,
    too_short = CLL_SHORT,
    syntax = CLL_SYNTAX,
    room = CLL_ROOM,
    too_long = CLL_TOO_LONG,
    break_due = CLL_BREAK_DUE,
    too_deep = CLL_TOO_DEEP,
    argument = CLL_ARGUMENT,
    not_shortest = CLL_NOT_SHORTEST,
    indefinite = CLL_INDEFINITE,
    key_order = CLL_KEY_ORDER,
    duplicate_key = CLL_DUPLICATE_KEY,
    absent = CLL_ABSENT
};

/* The order of the keys of a map: by their bytes, or the shorter one first (RFC 8949, 4.2.1 and 4.2.3). */
enum class order : std::uint32_t {
    bytewise = CLL_BYTEWISE,
    length_first = CLL_LENGTH_FIRST
};

/* Returns the name of an answer. */
constexpr const char *name_of(answer code) noexcept
{
    switch (code) {
    case answer::ok: return "ok";
    case answer::too_short: return "short";
    case answer::syntax: return "syntax";
    case answer::room: return "room";
    case answer::too_long: return "too_long";
    case answer::break_due: return "break_due";
    case answer::too_deep: return "too_deep";
    case answer::argument: return "argument";
    case answer::not_shortest: return "not_shortest";
    case answer::indefinite: return "indefinite";
    case answer::key_order: return "key_order";
    case answer::duplicate_key: return "duplicate_key";
    case answer::absent: return "absent";
    }
    return "unknown";
}

/*
 * Why a call has no value, and how far it came.
 *
 * `place` is the offset of the fault. For `too_short` it is where the read stopped, and for `room` and `argument` it is
 * 0. `elements` is how many elements `recode` and `strict` did whole, and `whole` is how many bytes these have.
 * `spelled` is how many of the bytes that `recode` wrote are their spelling.
 *
 * `due` is the least number of bytes that must still come, for `too_short` of `recode`, `strict`, `skip`, a checker and
 * a copier of an item. It is 0 if no bytes can complete the input, and of every other fault and call.
 */
struct fault {
    answer code;
    std::uint64_t place;
    std::uint64_t consumed;
    std::uint64_t written;
    std::uint64_t elements;
    std::uint64_t whole;
    std::uint64_t due;
    std::uint64_t spelled;

    const char *name() const noexcept { return name_of(code); }
};

/* A fault that was thrown. */
class error : public std::exception {
public:
    explicit error(const fault &why) noexcept : why_(why)
    {
        std::snprintf(text_, sizeof text_, "%s at %llu", why.name(), static_cast<unsigned long long>(why.place));
    }
    const ciborium_ll::fault &fault() const noexcept { return why_; }
    const char *name() const noexcept { return why_.name(); }
    std::uint64_t place() const noexcept { return why_.place; }
    const char *what() const noexcept override { return text_; }

private:
    ciborium_ll::fault why_;
    char text_[48];
};

namespace detail {

/* Changes the value of a result in place. */
struct access;

} /* namespace detail */

/* A value, or a fault. It has the names of std::expected, and `fault()` is a second name of `error()`. */
template <typename T>
class [[nodiscard]] result {
public:
    using value_type = T;
    using error_type = ciborium_ll::fault;

    constexpr result(T value) noexcept : value_(value) {}
    constexpr result(const ciborium_ll::fault &why) noexcept : fault_(why) {}

    constexpr explicit operator bool() const noexcept { return value_.has_value(); }
    constexpr bool has_value() const noexcept { return value_.has_value(); }
    /* These two check nothing, as those of std::optional do. */
    constexpr const T &operator*() const noexcept { return *value_; }
    constexpr const T *operator->() const noexcept { return &*value_; }
    /* Returns the value, or `other` if there is no value. */
    constexpr T value_or(T other) const noexcept { return value_ ? *value_ : other; }
    /* Return the fault, if there is no value. */
    constexpr const ciborium_ll::fault &error() const noexcept { return fault_; }
    constexpr const ciborium_ll::fault &fault() const noexcept { return fault_; }
#if defined(__cpp_exceptions)
    /*
     * Return the value, or throw the fault. A result that is about to end returns no reference, which might outlive it.
     */
    const T &value() const &
    {
        if (!value_)
            throw ciborium_ll::error(fault_);
        return *value_;
    }
    T value() &&
    {
        if (!value_)
            throw ciborium_ll::error(fault_);
        return *value_;
    }
#endif

private:
    friend struct detail::access;

    std::optional<T> value_;
    ciborium_ll::fault fault_{answer::ok, 0, 0, 0, 0, 0, 0, 0};
};

/* A header, and the length of the title that it was read from. */
struct title {
    ciborium_ll::header header;
    std::size_t length;
};

/* How many bytes a copy consumed, and how many it wrote. */
struct copied {
    std::size_t consumed;
    std::size_t written;
};

namespace detail {

struct access {
    /* Returns the value, which has to be there. */
    template <typename T>
    static T &value_of(result<T> &of) noexcept
    {
        return *of.value_;
    }
};

inline cll_header parts_of(const header &header) noexcept
{
    return {header.value.value_or(0), static_cast<std::uint8_t>(header.kind),
        static_cast<std::uint8_t>(header.value ? 0 : 1)};
}

inline header header_of(const cll_header &parts) noexcept
{
    std::optional<std::uint64_t> value;
    if (parts.indefinite == 0)
        value = parts.value;
    return {static_cast<kind>(parts.kind), value};
}

inline fault fault_of(std::uint32_t code, const cll_report &report) noexcept
{
    const bool cut = code == CLL_SHORT;
    return {static_cast<answer>(code), cut ? report.consumed : report.place, report.consumed, report.written,
        report.elements, report.whole, cut ? report.place : 0, report.spelled};
}

/* Returns why no end may follow `taken` bytes, by the answer of an end and its report, or nothing if an end may. */
inline std::optional<fault> end_of(std::uint32_t code, const cll_report &report, std::uint64_t taken) noexcept
{
    if (code == CLL_OK)
        return std::nullopt;
    const bool cut = code == CLL_SHORT;
    return fault{static_cast<answer>(code), cut ? taken : report.place, 0, 0, 0, 0, cut ? report.place : 0, 0};
}

} /* namespace detail */

/* Reads the title that comes first. The body of a string follows its title, and is not read. */
inline result<title> pull(input bytes) noexcept
{
    cll_header got = {0, 0, 0};
    std::size_t consumed = 0;
    const std::uint32_t code = cll_pull(bytes.data(), bytes.size(), &got, &consumed);
    if (code != CLL_OK)
        return detail::fault_of(code, cll_report{consumed, 0, 0, 0, 0, 0});
    return title{detail::header_of(got), consumed};
}

/* Writes the shortest title of a header, whole or not at all, and returns its length, at most 9. */
inline result<std::size_t> push(const header &header, output out) noexcept
{
    const cll_header given = detail::parts_of(header);
    cll_report report;
    const std::uint32_t code = cll_push(&given, out.data(), out.size(), &report);
    if (code != CLL_OK)
        return detail::fault_of(code, report);
    return static_cast<std::size_t>(report.written);
}

/* Writes the title of a header that has `width` bytes after its first one: 0, 1, 2, 4 or 8, as its kind may have. */
inline result<std::size_t> push_wide(const header &header, std::uint32_t width, output out) noexcept
{
    const cll_header given = detail::parts_of(header);
    cll_report report;
    const std::uint32_t code = cll_push_wide(&given, width, out.data(), out.size(), &report);
    if (code != CLL_OK)
        return detail::fault_of(code, report);
    return static_cast<std::size_t>(report.written);
}

/*
 * Copies `count` elements, each in its shortest spelling, and returns both lengths. As many bytes as `bytes` has are
 * always room enough. What the call wrote before a fault stands in `out`, which must not overlap `bytes`.
 */
inline result<copied> recode(input bytes, std::uint64_t count, output out) noexcept
{
    cll_report report;
    const std::uint32_t code = cll_recode(bytes.data(), bytes.size(), count, out.data(), out.size(), &report);
    if (code != CLL_OK)
        return detail::fault_of(code, report);
    return copied{static_cast<std::size_t>(report.consumed), static_cast<std::size_t>(report.written)};
}

/* Returns the length of `count` elements in their one shortest spelling. */
inline result<std::size_t> strict(input bytes, std::uint64_t count) noexcept
{
    cll_report report;
    const std::uint32_t code = cll_strict(bytes.data(), bytes.size(), count, &report);
    if (code != CLL_OK)
        return detail::fault_of(code, report);
    return static_cast<std::size_t>(report.consumed);
}

/* Returns the length of the item that comes first. It contains at most `depth` levels, which is at most 256. */
inline result<std::size_t> skip(input bytes, std::uint32_t depth = 256) noexcept
{
    cll_report report;
    const std::uint32_t code = cll_skip(bytes.data(), bytes.size(), depth, &report);
    if (code != CLL_OK)
        return detail::fault_of(code, report);
    return static_cast<std::size_t>(report.consumed);
}

/*
 * Returns the length of the item that comes first, in the deterministic encoding (RFC 8949, 4.2), with the keys of its
 * maps in this order. It contains at most `depth` levels, which is at most 256.
 */
inline result<std::size_t> deterministic(input bytes, std::uint32_t depth = 64, order keys = order::bytewise) noexcept
{
    cll_report report;
    const auto number = static_cast<std::uint32_t>(keys);
    const std::uint32_t code = cll_deterministic(bytes.data(), bytes.size(), depth, number, &report);
    if (code != CLL_OK)
        return detail::fault_of(code, report);
    return static_cast<std::size_t>(report.consumed);
}

/*
 * Writes the deterministic encoding of the item that comes first, whatever its spelling is, and returns both lengths.
 * The keys of its maps ascend in this order. The item contains at most `depth` levels, which is at most 256.
 *
 * `spans` is an array, a vector or another object with elements of the type `cll_span` one after the other. For an item
 * of `n` bytes an output of `n + n / 256` bytes and half as many spans are enough. Fewer do as cll_canonical says. `out`
 * must not overlap `bytes`, and after a fault its contents are unknown.
 */
template <typename Spans>
inline result<copied> canonical(input bytes, output out, Spans &&spans, std::uint32_t depth = 64,
    order keys = order::bytewise) noexcept
{
    cll_report report;
    const auto number = static_cast<std::uint32_t>(keys);
    const std::uint32_t code = cll_canonical(bytes.data(), bytes.size(), depth, number, out.data(), out.size(),
        std::data(spans), std::size(spans), &report);
    if (code != CLL_OK)
        return detail::fault_of(code, report);
    return copied{static_cast<std::size_t>(report.consumed), static_cast<std::size_t>(report.written)};
}

/*
 * Returns the length of the bytes, if all of them are UTF-8. Otherwise the place of the fault is the length of their
 * longest front that is UTF-8. `too_short` says that a character is cut off after the front, and more bytes may
 * complete it. `syntax` says that no UTF-8 goes on there.
 */
inline result<std::size_t> utf8(input bytes) noexcept
{
    cll_report report;
    const std::uint32_t code = cll_utf8(bytes.data(), bytes.size(), &report);
    if (code != CLL_OK)
        return detail::fault_of(code, report);
    return static_cast<std::size_t>(report.consumed);
}

/*
 * What a checker says after a piece: how many bytes of the piece it took, and whether the item has ended. `length` is
 * how many bytes the item has, if it has ended. Otherwise `due` is the least number of bytes that must still come.
 */
struct progress {
    std::size_t consumed;
    bool ended;
    std::uint64_t length;
    std::uint64_t due;
};

/*
 * Checks one item whose bytes come in pieces, as from a socket, however they are cut. A checker takes no memory but its
 * own, and may be copied. The item contains at most `depth` levels. If `depth` is above 256, each call is a fault. If
 * `shortest` is true, the checker takes only an item in its shortest spelling.
 */
class checker {
public:
    explicit checker(std::uint32_t depth = 256, bool shortest = false) noexcept
    {
        (void)(shortest ? cll_checker_init_strict(&kept_, depth) : cll_checker_init(&kept_, depth));
    }

    /*
     * Takes the next bytes: all of them, or those up to the end of the item. A fault comes with the first byte after
     * which no item goes on, and names an offset in the item. After the end and after a fault a further call takes
     * nothing, and returns the same.
     */
    result<progress> feed(input bytes) noexcept
    {
        cll_report report;
        const std::uint32_t code = cll_checker_feed(&kept_, bytes.data(), bytes.size(), &report);
        taken_ += report.consumed;
        if (code != CLL_OK && code != CLL_SHORT)
            return detail::fault_of(code, report);
        const bool ended = code == CLL_OK;
        return progress{static_cast<std::size_t>(report.consumed), ended, ended ? report.place : 0,
            ended ? 0 : report.place};
    }

    /* Tells whether the item has ended. Before its first byte, and after a fault, it has not. */
    bool ended() const noexcept { return taken_ != 0 && !end(); }

    /*
     * Returns why no end may come here, or nothing if no byte came or the item has ended: `ended()` tells which. The
     * place of `too_short` is how many bytes came, and `due` is the least number of bytes that must still come.
     */
    std::optional<fault> end() const noexcept
    {
        cll_report report;
        const std::uint32_t code = cll_checker_end(&kept_, &report);
        return detail::end_of(code, report, taken_);
    }

    /* Returns how many bytes of all pieces were taken. */
    std::uint64_t taken() const noexcept { return taken_; }

private:
    cll_checker kept_ = {};
    std::uint64_t taken_ = 0;
};

/*
 * What a copier says after a piece: how many bytes of the piece it took, and how many it wrote. `ended` says that all
 * has come and is written. `full` says that there is more to write, and no room for it.
 */
struct copying {
    std::size_t consumed;
    std::size_t written;
    bool ended;
    bool full;
};

namespace detail {

/* Returns how far a copy has come, by the answer of a copier to a piece and its report. */
inline result<copying> copying_of(std::uint32_t code, const cll_report &report) noexcept
{
    if (code != CLL_OK && code != CLL_SHORT && code != CLL_ROOM)
        return fault_of(code, report);
    return copying{static_cast<std::size_t>(report.consumed), static_cast<std::size_t>(report.written),
        code == CLL_OK, code == CLL_ROOM};
}

} /* namespace detail */

/*
 * Copies `count` elements whose bytes come in pieces to their shortest spelling, however the bytes are cut, and however
 * long the outputs are. A copier takes no memory but its own, and may be copied. If `shortest` is true, the copier takes
 * only elements in their shortest spelling.
 */
class copier {
public:
    explicit copier(std::uint64_t count, bool shortest = false) noexcept
    {
        (void)(shortest ? cll_copier_init_strict(&kept_, count) : cll_copier_init(&kept_, count));
    }

    /*
     * Takes the next bytes, and writes as much as it can of all bytes so far. If `full` is true, give again what was
     * not taken. A fault comes with the first byte after which the elements cannot go on, and names an offset in all of
     * them. After the end and after a fault a further call takes and writes nothing, and returns the same.
     */
    result<copying> feed(input bytes, output out) noexcept
    {
        cll_report report;
        const std::uint32_t code = cll_copier_feed(&kept_, bytes.data(), bytes.size(), out.data(), out.size(), &report);
        taken_ += report.consumed;
        return detail::copying_of(code, report);
    }

    /* Tells whether all elements have come and are written. No elements have ended before the first byte. */
    bool ended() const noexcept { return !end(); }

    /*
     * Returns why no end may come here, or nothing if all elements have come and are written. The place of `too_short`
     * is how many bytes came.
     */
    std::optional<fault> end() const noexcept
    {
        cll_report report;
        const std::uint32_t code = cll_copier_end(&kept_, &report);
        return detail::end_of(code, report, taken_);
    }

    /* Returns how many bytes of all pieces were taken. */
    std::uint64_t taken() const noexcept { return taken_; }

private:
    cll_copier kept_ = {};
    std::uint64_t taken_ = 0;
};

/*
 * Copies one item whose bytes come in pieces to its shortest spelling, as a `copier` copies elements. It ends where the
 * item ends. The item contains at most `depth` levels. If `depth` is above 256, each call is a fault. If `shortest` is
 * true, the copier takes only an item in its shortest spelling.
 */
class item_copier {
public:
    explicit item_copier(std::uint32_t depth = 256, bool shortest = false) noexcept
    {
        (void)(shortest ? cll_item_copier_init_strict(&kept_, depth) : cll_item_copier_init(&kept_, depth));
    }

    /*
     * Takes the next bytes, at most up to the end of the item, and writes as much as it can of all bytes so far. If
     * `full` is true, give again what was not taken. A fault comes with the first byte after which no item goes on, and
     * names an offset in the item. Nothing of that byte is written. After the end and after a fault a further call
     * takes and writes nothing, and returns the same.
     */
    result<copying> feed(input bytes, output out) noexcept
    {
        cll_report report;
        const std::uint32_t code =
            cll_item_copier_feed(&kept_, bytes.data(), bytes.size(), out.data(), out.size(), &report);
        taken_ += report.consumed;
        return detail::copying_of(code, report);
    }

    /* Tells whether the item has ended and is written. Before its first byte, and after a fault, it has not. */
    bool ended() const noexcept { return taken_ != 0 && !end(); }

    /*
     * Returns why no end may come here, or nothing if no byte came, or the item has ended and is written: `ended()`
     * tells which. The place of `too_short` is how many bytes came, and `due` is the least number of bytes that must
     * still come.
     */
    std::optional<fault> end() const noexcept
    {
        cll_report report;
        const std::uint32_t code = cll_item_copier_end(&kept_, &report);
        return detail::end_of(code, report, taken_);
    }

    /* Returns how many bytes of all pieces were taken. */
    std::uint64_t taken() const noexcept { return taken_; }

private:
    cll_item_copier kept_ = {};
    std::uint64_t taken_ = 0;
};

/* Goes through bytes. A call that fails leaves it where it was, and its places are offsets in all of the bytes. */
class reader {
public:
    explicit reader(input bytes) noexcept : bytes_(bytes) {}

    std::size_t offset() const noexcept { return offset_; }
    input rest() const noexcept { return bytes_.behind(offset_); }
    bool at_end() const noexcept { return offset_ == bytes_.size(); }

    /* Reads the next title, and returns its header. */
    result<header> pull() noexcept
    {
        const result<title> got = ciborium_ll::pull(rest());
        if (!got)
            return moved(got.fault());
        offset_ += got->length;
        return got->header;
    }

    /* Takes the next `count` bytes, as the body of a string after its header. Returns nothing if there are fewer. */
    std::optional<input> take(std::uint64_t count) noexcept
    {
        if (count > rest().size())
            return std::nullopt;
        const input taken = rest().first(static_cast<std::size_t>(count));
        offset_ += taken.size();
        return taken;
    }

    /* Skips the next item, whatever it contains, and returns its bytes. */
    result<input> skip(std::uint32_t depth = 256) noexcept
    {
        const result<std::size_t> length = ciborium_ll::skip(rest(), depth);
        if (!length)
            return moved(length.fault());
        return *take(*length);
    }

private:
    fault moved(fault why) const noexcept
    {
        if (why.code != answer::room && why.code != answer::argument)
            why.place += offset_;
        return why;
    }

    input bytes_;
    std::size_t offset_ = 0;
};

/*
 * A header, and where its title starts and ends. For a string of a definite length `body` is the bytes that follow the
 * title. The body of a text is UTF-8.
 */
struct located {
    ciborium_ll::header header;
    std::size_t start;
    std::size_t end;
    std::optional<input> body;
};

/*
 * Goes over the titles of bytes, up to their end. Each title is a `result`, and a fault is the last one. A string of a
 * definite length is read whole, and the next title is the one after its body. Nothing is said of how the titles nest.
 * An iterator reads up to 16 titles ahead by one call.
 */
class headers {
public:
    class iterator {
    public:
        using iterator_category = std::input_iterator_tag;
        using value_type = result<located>;
        using difference_type = std::ptrdiff_t;
        using pointer = const value_type *;
        using reference = const value_type &;

        /* The end. */
        iterator() noexcept = default;

        reference operator*() const noexcept { return *now_; }
        pointer operator->() const noexcept { return &*now_; }
        iterator &operator++() noexcept
        {
            step();
            return *this;
        }
        iterator operator++(int) noexcept
        {
            iterator old = *this;
            step();
            return old;
        }
        /* Two iterators are equal at the same offset of the same bytes, or if both are ends. */
        friend bool operator==(const iterator &a, const iterator &b) noexcept
        {
            return a.now_.has_value() == b.now_.has_value() && (!a.now_ || a.next_ == b.next_);
        }
        friend bool operator!=(const iterator &a, const iterator &b) noexcept { return !(a == b); }

    private:
        friend class headers;

        explicit iterator(input bytes) noexcept : begin_(bytes.data()), next_(bytes.data()), left_(bytes.size())
        {
            step();
        }

        /* Takes the next title, or ends. */
        void step() noexcept
        {
            if (left_ == 0 || (now_ && !*now_)) {
                now_.reset();
                return;
            }
            if (at_ == count_)
                read();
            if (at_ == count_)
                stop();
            else
                take(titles_[at_++]);
        }

        /* Reads the titles that come next. */
        void read() noexcept
        {
            cll_report report;
            /* A fault comes after the titles before it. */
            (void)cll_headers(next_, left_, titles_, most, &report);
            base_ = static_cast<std::size_t>(next_ - begin_);
            at_ = 0;
            count_ = static_cast<std::size_t>(report.written);
        }

        /* Goes over a title that was read, and its body. */
        void take(const cll_title &got) noexcept
        {
            const auto start = static_cast<std::size_t>(got.start), end = static_cast<std::size_t>(got.end);
            const bool is_string = got.kind == CLL_BYTES || got.kind == CLL_TEXT;
            if (!now_)
                now_.emplace(located{});
            located &found = detail::access::value_of(*now_);
            found.header.kind = static_cast<kind>(got.kind);
            found.start = base_ + start;
            found.end = base_ + end;
            found.body.reset();
            next_ += end - start;
            left_ -= end - start;
            if (got.indefinite != 0) {
                found.header.value.reset();
                return;
            }
            found.header.value = got.value;
            if (is_string) {
                found.body = input(next_, static_cast<std::size_t>(got.value));
                next_ += found.body->size();
                left_ -= found.body->size();
            }
        }

        /* Finds the fault of the title that comes next, by the calls for one title. */
        void stop() noexcept
        {
            const input rest{next_, left_};
            fault why = pull(rest).fault();
            /* A string has no levels. */
            if (why.code == answer::ok)
                why = skip(rest, 0).fault();
            why.place += static_cast<std::size_t>(next_ - begin_);
            now_.emplace(why);
        }

        /* How many titles one call reads at most. */
        static constexpr std::size_t most = 16;

        const std::uint8_t *begin_ = nullptr;
        const std::uint8_t *next_ = nullptr;
        std::size_t left_ = 0;
        /* Titles that were read, the offset from which they count theirs, and which one comes next. */
        cll_title titles_[most] = {};
        std::size_t base_ = 0;
        std::size_t count_ = 0;
        std::size_t at_ = 0;
        std::optional<value_type> now_;
    };

    explicit headers(input bytes) noexcept : bytes_(bytes) {}

    iterator begin() const noexcept { return iterator(bytes_); }
    iterator end() const noexcept { return iterator(); }

private:
    input bytes_;
};

} /* namespace ciborium_ll */

/* A span is a view, and its bytes stay where they are after its end. In C++20 std::ranges knows both. */
#if defined(__cpp_lib_ranges)
template <typename T>
inline constexpr bool std::ranges::enable_borrowed_range<ciborium_ll::span<T>> = true;
template <typename T>
inline constexpr bool std::ranges::enable_view<ciborium_ll::span<T>> = true;
template <>
inline constexpr bool std::ranges::enable_borrowed_range<ciborium_ll::headers> = true;
template <>
inline constexpr bool std::ranges::enable_view<ciborium_ll::headers> = true;
#endif

#endif
