/* SPDX-License-Identifier: Apache-2.0 */
/*
 * A parser of CBOR (RFC 7049, 2.1 to 2.4) whose bytes come in pieces, for C++17, over the calls of ciborium_ll.h. A
 * parser takes no memory but its own, and no function throws.
 */
#ifndef CIBORIUM_LL_PARSER_HPP
#define CIBORIUM_LL_PARSER_HPP

#include <cstddef>
#include <cstdint>
#include <iterator>
#include <optional>
#include <string>

#include "ciborium_ll.hpp"

namespace ciborium_ll {

enum class event_kind : std::uint8_t {
    header = CLL_EVENT_HEADER,
    close = CLL_EVENT_CLOSE,
    bytes = CLL_EVENT_BYTES,
    text = CLL_EVENT_TEXT
};

/*
 * What a parser found in the bytes that it took: a header, the break of a string of indefinite length, or the next part
 * of the body of a byte string or of a text.
 */
class event {
public:
    event(const cll_event &parts, input taken) noexcept : parts_(parts), taken_(taken) {}

    event_kind kind() const noexcept { return static_cast<event_kind>(parts_.kind); }
    /* Returns the meaning of a title. That of a close is a break. */
    ciborium_ll::header header() const noexcept { return detail::header_of(parts_.header); }
    /* Returns the offset of a title in the bytes of all pieces. */
    std::uint64_t place() const noexcept { return parts_.place; }
    /* Returns how many bytes a body still lacks. */
    std::uint64_t left() const noexcept { return parts_.left; }
    /* Return the bytes of a part: first those of a character that an earlier piece began, at most three. */
    input carried() const noexcept { return {parts_.carried, parts_.carried_len}; }
    input taken() const noexcept { return taken_; }
    /* Adds the bytes of a part of a text to a string. They are whole characters. */
    void append_to(std::string &text) const
    {
        for (const input &bytes : {carried(), taken()})
            text.append(reinterpret_cast<const char *>(bytes.data()), bytes.size());
    }

private:
    cll_event parts_;
    input taken_;
};

/*
 * Finds headers, and the bodies of strings, in bytes that come in pieces. It does not matter how they are cut. A parser
 * does not count the items in arrays and maps. A copy of a parser goes on by itself.
 *
 *     ciborium_ll::parser parser;
 *     for (const auto &found : parser.push(piece))
 *         if (found && found->kind() == ciborium_ll::event_kind::text)
 *             found->append_to(text);
 */
class parser {
public:
    class events;

    /* Makes a parser of any spelling, and one of the shortest spelling alone (RFC 7049, 3.9). */
    parser() noexcept { (void)cll_parser_init(&kept_); }
    static parser strict() noexcept
    {
        parser made;
        (void)cll_parser_init_strict(&made.kept_);
        return made;
    }

    /*
     * Goes over the events of the next piece. Each is a `result`, and a fault is the last one. A step of the loop takes
     * the bytes of an event. So a loop that ends early leaves the rest of the piece to a further call, and `taken`
     * tells how many bytes came before it. The piece has to stay as it is during the loop.
     */
    events push(input piece) noexcept;

    /*
     * Returns why no end may come here, or nothing if no title, no body and no string of indefinite length is under
     * way. The place of `too_short` is how many bytes came, and `due` is how many bytes of a title or of a body must
     * still come.
     */
    std::optional<fault> end() const noexcept
    {
        cll_report report;
        const std::uint32_t code = cll_parser_end(&kept_, &report);
        return detail::end_of(code, report, taken_);
    }

    /* Returns how many bytes of all pieces were taken. */
    std::uint64_t taken() const noexcept { return taken_; }

private:
    /* Takes the next event of the bytes, and leaves their rest. Returns nothing if no event ends in them. */
    std::optional<result<event>> next(input &rest) noexcept
    {
        cll_event got{};
        const std::uint32_t code = cll_parser_push(&kept_, rest.data(), rest.size(), &got);
        const auto count = static_cast<std::size_t>(got.consumed);
        const input taken = rest.first(count);
        taken_ += got.consumed;
        rest = rest.behind(count);
        if (code == CLL_SHORT)
            return std::nullopt;
        if (code != CLL_OK) {
            rest = input();
            return result<event>(detail::fault_of(code, cll_report{got.consumed, 0, got.place, 0, 0, 0}));
        }
        return result<event>(event(got, taken));
    }

    cll_parser kept_ = {};
    std::uint64_t taken_ = 0;
};

/* The events of a piece, as `parser::push` gives them. A program goes over them once. */
class parser::events {
public:
    class iterator {
    public:
        using iterator_category = std::input_iterator_tag;
        using value_type = result<event>;
        using difference_type = std::ptrdiff_t;
        using pointer = const value_type *;
        using reference = const value_type &;

        /* The end. */
        iterator() noexcept = default;

        reference operator*() const noexcept { return *now_; }
        pointer operator->() const noexcept { return &*now_; }
        iterator &operator++() noexcept
        {
            step();
            return *this;
        }
        iterator operator++(int) noexcept
        {
            iterator old = *this;
            step();
            return old;
        }
        /* Two iterators are equal if both are ends. */
        friend bool operator==(const iterator &a, const iterator &b) noexcept { return !a.now_ && !b.now_; }
        friend bool operator!=(const iterator &a, const iterator &b) noexcept { return !(a == b); }

    private:
        friend class events;

        iterator(parser &from, input piece) noexcept : from_(&from), rest_(piece) { step(); }

        void step() noexcept
        {
            now_.reset();
            if (rest_.empty())
                return;
            if (const auto got = from_->next(rest_))
                now_.emplace(*got);
        }

        parser *from_ = nullptr;
        input rest_;
        std::optional<value_type> now_;
    };

    iterator begin() const noexcept { return iterator(*from_, piece_); }
    iterator end() const noexcept { return iterator(); }

private:
    friend class parser;

    events(parser &from, input piece) noexcept : from_(&from), piece_(piece) {}

    parser *from_;
    input piece_;
};

inline parser::events parser::push(input piece) noexcept { return events(*this, piece); }

} /* namespace ciborium_ll */

#endif
