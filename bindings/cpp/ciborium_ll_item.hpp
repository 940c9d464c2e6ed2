/* SPDX-License-Identifier: Apache-2.0 */
/*
 * Views of items of CBOR (RFC 7049, 2.1 to 2.4) in memory, for C++17, over the calls of ciborium_ll.h. A view takes no
 * memory but its own, and no function throws.
 */
#ifndef CIBORIUM_LL_ITEM_HPP
#define CIBORIUM_LL_ITEM_HPP

#include <cstddef>
#include <cstdint>
#include <iterator>
#include <optional>
#include <string_view>
#include <utility>

#include "ciborium_ll.hpp"

namespace ciborium_ll {

/* Goes over the items in an item, as `item::begin` says. */
class item_iterator;

/* The pairs of a map, as `item::entries` gives them. */
class item_entries;

/*
 * A view of one item in bytes that another object owns, with all that it contains. These bytes have to stay where they
 * are, and as they are, while the view and the views of its parts are used. A copy of a view is another view.
 *
 *     const auto claims = ciborium_ll::item::parse(bytes).value();
 *     if (const auto issuer = claims[1])
 *         use(issuer->text());
 */
class item {
public:
    /* Views the item that comes first. It contains at most `depth` levels, which is at most 256. */
    static result<item> parse(input bytes, std::uint32_t depth = 256) noexcept
    {
        cll_item view{};
        cll_report report;
        const std::uint32_t code = cll_item_parse(bytes.data(), bytes.size(), depth, &view, &report);
        if (code != CLL_OK)
            return detail::fault_of(code, report);
        return item(view);
    }

    /* Returns all bytes of the item. */
    input bytes() const noexcept { return {view_.data, view_.len}; }

    /* Returns what the title of the item means, and its kind. */
    ciborium_ll::header header() const noexcept
    {
        cll_header parts{0, CLL_BREAK, 0};
        (void)cll_item_header(&view_, &parts);
        return detail::header_of(parts);
    }
    ciborium_ll::kind kind() const noexcept { return header().kind; }

    /* Return the body of a byte string, and of a text, of a definite length. A text is UTF-8. */
    std::optional<input> byte_string() const noexcept
    {
        cll_body body;
        if (cll_item_bytes(&view_, &body) != CLL_OK)
            return std::nullopt;
        return input(body.data, body.len);
    }
    std::optional<std::string_view> text() const noexcept
    {
        cll_body body;
        if (cll_item_text(&view_, &body) != CLL_OK)
            return std::nullopt;
        return std::string_view(reinterpret_cast<const char *>(body.data), body.len);
    }

    /*
     * Go over the items of an array, each key of a map and then its value, the item under a tag, or the strings in a
     * string of indefinite length. Any other item has none. `entries` gives the pairs of a map, and no pairs of another
     * item.
     */
    item_iterator begin() const noexcept;
    item_iterator end() const noexcept;
    item_entries entries() const noexcept;

    /*
     * Return the value of the first pair of a map with this key, if there is one: a text or an integer in any spelling,
     * or for `get` an item with exactly these bytes. Each call reads the whole map.
     */
    std::optional<item> operator[](std::string_view key) const noexcept
    {
        item found{cll_item{}};
        const auto *bytes = reinterpret_cast<const std::uint8_t *>(key.data());
        return found.given(cll_item_get_text(&view_, bytes, key.size(), &found.view_));
    }
    std::optional<item> operator[](std::int64_t key) const noexcept
    {
        item found{cll_item{}};
        return found.given(cll_item_get_int(&view_, key, &found.view_));
    }
    std::optional<item> get(input key) const noexcept
    {
        item found{cll_item{}};
        return found.given(cll_item_get(&view_, key.data(), key.size(), &found.view_));
    }

private:
    friend class item_iterator;

    explicit item(const cll_item &view) noexcept : view_(view) {}

    /* Returns the item, if a call gave it. */
    std::optional<item> given(std::uint32_t code) const noexcept
    {
        if (code != CLL_OK)
            return std::nullopt;
        return *this;
    }

    cll_item view_;
};

class item_iterator {
public:
    using iterator_category = std::input_iterator_tag;
    using value_type = item;
    using difference_type = std::ptrdiff_t;
    using pointer = const item *;
    using reference = const item &;

    /* The end. */
    item_iterator() noexcept = default;

    reference operator*() const noexcept { return *now_; }
    pointer operator->() const noexcept { return &*now_; }
    item_iterator &operator++() noexcept
    {
        step();
        return *this;
    }
    item_iterator operator++(int) noexcept
    {
        item_iterator old = *this;
        step();
        return old;
    }
    /* Two iterators are equal at the same item, or if both are ends. */
    friend bool operator==(const item_iterator &a, const item_iterator &b) noexcept
    {
        return a.now_.has_value() == b.now_.has_value() && (!a.now_ || a->bytes().data() == b->bytes().data());
    }
    friend bool operator!=(const item_iterator &a, const item_iterator &b) noexcept { return !(a == b); }

private:
    friend class item;

    explicit item_iterator(const item &within) noexcept
    {
        if (cll_item_items(&within.view_, &left_) == CLL_OK)
            step();
    }

    /* Takes the next item, or ends. */
    void step() noexcept
    {
        item next{cll_item{}};
        now_ = next.given(cll_item_next(&left_, &next.view_));
    }

    cll_items left_ = {};
    std::optional<item> now_;
};

inline item_iterator item::begin() const noexcept { return item_iterator(*this); }
inline item_iterator item::end() const noexcept { return item_iterator(); }

class item_entries {
public:
    class iterator {
    public:
        using iterator_category = std::input_iterator_tag;
        using value_type = std::pair<item, item>;
        using difference_type = std::ptrdiff_t;
        using pointer = void;
        using reference = value_type;

        /* The end. */
        iterator() noexcept = default;

        /* Returns a key and its value. */
        reference operator*() const noexcept { return {*key_, *value_}; }
        iterator &operator++() noexcept
        {
            key_ = ++value_;
            step();
            return *this;
        }
        iterator operator++(int) noexcept
        {
            iterator old = *this;
            ++*this;
            return old;
        }
        friend bool operator==(const iterator &a, const iterator &b) noexcept { return a.key_ == b.key_; }
        friend bool operator!=(const iterator &a, const iterator &b) noexcept { return !(a == b); }

    private:
        friend class item_entries;

        explicit iterator(item_iterator key) noexcept : key_(key) { step(); }

        /* Goes from the key to its value, if there is a key. */
        void step() noexcept
        {
            value_ = key_;
            if (value_ != item_iterator())
                ++value_;
        }

        item_iterator key_;
        item_iterator value_;
    };

    iterator begin() const noexcept { return iterator(first_); }
    iterator end() const noexcept { return iterator(); }

private:
    friend class item;

    explicit item_entries(item_iterator first) noexcept : first_(first) {}

    item_iterator first_;
};

inline item_entries item::entries() const noexcept
{
    return item_entries(kind() == ciborium_ll::kind::map ? begin() : end());
}

} /* namespace ciborium_ll */

#endif
