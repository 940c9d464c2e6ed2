/*
 * The works of the calls for C, written by hand for one machine: it needs AVX2. They show how fast such a work can be.
 *
 * usage: by_hand check|pull|copy SIZE COUNT ROUNDS
 *
 * It reads standard input whole, and does a work on it ROUNDS times. `check` tests if the input is one item, with at
 * most 256 levels and with texts of UTF-8 alone. `pull` adds the titles, of input without strings. `copy` writes the
 * shortest spelling of the elements. SIZE and COUNT are those of `calls`, and change nothing here. It prints the sum
 * that `calls` prints.
 */
#include <immintrin.h>
#include <inttypes.h>
#include <string.h>

#include "../input.h"

enum { LEVELS = 256, RESERVED = 255 };

/* How many bytes the argument has, by the low five bits of a first byte (RFC 8949, 3). */
static const uint8_t WIDTH[32] = {
    0, 0, 0, 0, 0, 0, 0, 0, 0, 0, 0, 0, 0, 0, 0, 0, 0, 0, 0, 0, 0, 0, 0, 0, 1, 2, 4, 8, RESERVED, RESERVED, RESERVED, 0,
};

/* The length of an item that has no level and at most 24 bytes, by its first byte, and 0 for all others. */
static uint8_t length_of[256];

static void fill_lengths(void) {
    for (int first = 0; first < 256; first++) {
        int major = first >> 5, minor = first & 31, width = WIDTH[minor];
        int is_title = major < 2 || major == 7, is_string = major == 2 || major == 3;
        if (minor < 28 && is_title)
            length_of[first] = (uint8_t)(1 + width);
        if (minor < 24 && is_string)
            length_of[first] = (uint8_t)(1 + minor);
    }
}

/* Returns the number of a title whose argument has this width. Nine bytes have to be there. */
static inline uint64_t number_at(const uint8_t *at, unsigned width) {
    uint64_t word;
    memcpy(&word, at + 1, 8);
    return width == 0 ? *at & 31 : __builtin_bswap64(word) >> (64 - 8 * width);
}

/* The faults that a byte and the next one tell (Keiser and Lemire, Validating UTF-8 in less than one instruction per
 * byte, 2020). */
enum {
    SHORT = 1, LONG = 2, THREE = 4, LARGE = 8, SURROGATE = 16, TWO = 32, LARGER = 64, FOUR = 64, BODIES = 128,
    ANY = SHORT | LONG | BODIES,
};

static inline __m256i looked_up(const uint8_t table[16], __m256i places) {
    return _mm256_shuffle_epi8(_mm256_broadcastsi128_si256(_mm_loadu_si128((const __m128i *)table)), places);
}

/* Returns the faults of a block, after the block `last`. */
static inline __m256i faults(__m256i block, __m256i last) {
    static const uint8_t first_high[16] = {
        LONG, LONG, LONG, LONG, LONG, LONG, LONG, LONG, BODIES, BODIES, BODIES, BODIES,
        SHORT | TWO, SHORT, SHORT | THREE | SURROGATE, SHORT | LARGE | LARGER | FOUR,
    };
    static const uint8_t first_low[16] = {
        ANY | THREE | TWO | FOUR, ANY | TWO, ANY, ANY, ANY | LARGE, ANY | LARGE | LARGER, ANY | LARGE | LARGER,
        ANY | LARGE | LARGER, ANY | LARGE | LARGER, ANY | LARGE | LARGER, ANY | LARGE | LARGER, ANY | LARGE | LARGER,
        ANY | LARGE | LARGER, ANY | LARGE | LARGER | SURROGATE, ANY | LARGE | LARGER, ANY | LARGE | LARGER,
    };
    static const uint8_t second_high[16] = {
        SHORT, SHORT, SHORT, SHORT, SHORT, SHORT, SHORT, SHORT,
        LONG | TWO | BODIES | THREE | LARGER | FOUR, LONG | TWO | BODIES | THREE | LARGE,
        LONG | TWO | BODIES | SURROGATE | LARGE, LONG | TWO | BODIES | SURROGATE | LARGE, SHORT, SHORT, SHORT, SHORT,
    };
    const __m256i low = _mm256_set1_epi8(15);
    __m256i joined = _mm256_permute2x128_si256(last, block, 0x21);
    __m256i one = _mm256_alignr_epi8(block, joined, 15), two = _mm256_alignr_epi8(block, joined, 14);
    __m256i three = _mm256_alignr_epi8(block, joined, 13);
    __m256i pair = _mm256_and_si256(looked_up(first_high, _mm256_and_si256(_mm256_srli_epi16(one, 4), low)),
        looked_up(first_low, _mm256_and_si256(one, low)));
    pair = _mm256_and_si256(pair, looked_up(second_high, _mm256_and_si256(_mm256_srli_epi16(block, 4), low)));
    __m256i third = _mm256_subs_epu8(two, _mm256_set1_epi8(0xe0 - 0x80));
    __m256i fourth = _mm256_subs_epu8(three, _mm256_set1_epi8((char)(0xf0 - 0x80)));
    __m256i due = _mm256_and_si256(_mm256_or_si256(third, fourth), _mm256_set1_epi8((char)0x80));
    return _mm256_xor_si256(due, pair);
}

/* Tells if the bytes are UTF-8. */
static int is_text(const uint8_t *bytes, size_t size) {
    __m256i wrong = _mm256_setzero_si256(), last = wrong;
    size_t at = 0;
    for (; size - at >= 32; at += 32) {
        __m256i block = _mm256_loadu_si256((const __m256i *)(bytes + at));
        if (_mm256_movemask_epi8(_mm256_or_si256(block, last)) != 0)
            wrong = _mm256_or_si256(wrong, faults(block, last));
        last = block;
    }
    /* Zeros after the end show a character that is cut. */
    uint8_t rest[32] = {0};
    memcpy(rest, bytes + at, size - at);
    wrong = _mm256_or_si256(wrong, faults(_mm256_loadu_si256((const __m256i *)rest), last));
    return _mm256_testz_si256(wrong, wrong);
}

/* Tells if a text that begins at `at` and has fewer than 24 bytes is ASCII. 32 bytes have to be there. */
static inline int is_short_ascii(const uint8_t *at, unsigned length) {
    uint32_t high = (uint32_t)_mm256_movemask_epi8(_mm256_loadu_si256((const __m256i *)at));
    return (high & ((1u << length) - 1)) == 0;
}

/* A nest. `left` counts down, from OPEN if no number was told. */
typedef struct { uint64_t left; uint8_t is_open, has_pairs; } level;
static const uint64_t OPEN = (uint64_t)1 << 63;

/* The bytes that are left. */
typedef struct { const uint8_t *at, *end; } input_left;

/* Reads a title. Returns 0 if none is there. */
static inline int take_title(input_left *in, uint8_t *first, uint64_t *number) {
    uint8_t near_end[9] = {0};
    size_t there = (size_t)(in->end - in->at);
    if (there == 0)
        return 0;
    unsigned width = WIDTH[*in->at & 31];
    if (width == RESERVED || there < 1 + width)
        return 0;
    const uint8_t *title = in->at;
    if (there < 9)
        title = memcpy(near_end, in->at, there);
    *first = *title;
    *number = number_at(title, width);
    in->at += 1 + width;
    return 1;
}

/* Passes a body. Returns 0 if it is cut or a text that is not UTF-8. */
static inline int take_body(input_left *in, uint8_t first, uint64_t length) {
    if ((uint64_t)(in->end - in->at) < length || (first >> 5 == 3 && !is_text(in->at, length)))
        return 0;
    in->at += length;
    return 1;
}

/* Passes what an open string contains, and its break. */
static int take_strings(input_left *in, uint8_t open) {
    for (uint64_t opens = 1; opens > 0;) {
        uint8_t first;
        uint64_t number;
        if (!take_title(in, &first, &number))
            return 0;
        if (first == 0xff)
            opens--;
        else if (first == open)
            opens++;
        else if (first >> 5 != open >> 5 || (first & 31) == 31 || !take_body(in, first, number))
            return 0;
    }
    return 1;
}

/* Passes the items of a nest that have no level, as many as come. */
static inline void take_run(input_left *in, level *top) {
    const uint8_t *at = in->at;
    uint64_t left = top->left;
    while (left > 0 && in->end - at >= 32) {
        unsigned length = length_of[*at];
        if (length == 0 || (*at >> 5 == 3 && !is_short_ascii(at, length) && !is_text(at + 1, length - 1)))
            break;
        at += length;
        left -= 1;
    }
    top->left = left;
    in->at = at;
}

/* Takes one title that is not in a run, with its body. Returns the nest that is under way, or NULL. */
static level *take_other(input_left *in, level *levels, level *top) {
    uint8_t first;
    uint64_t number;
    if (!take_title(in, &first, &number))
        return NULL;
    if (first == 0xff)
        return top->is_open && !(top->has_pairs && (top->left & 1)) ? top - 1 : NULL;
    uint8_t major = first >> 5, is_open = (first & 31) == 31;
    top->left -= 1;
    if (is_open && (major < 2 || major > 5))
        return NULL;
    if (major == 2 || major == 3)
        return (is_open ? take_strings(in, first) : take_body(in, first, number)) ? top : NULL;
    if (major < 2 || major == 7)
        return top;
    if (top - levels == LEVELS || (major == 5 && number >= OPEN))
        return NULL;
    top += 1;
    top->left = is_open ? OPEN : major == 6 ? 1 : major == 5 ? 2 * number : number;
    top->is_open = is_open;
    top->has_pairs = major == 5;
    return top;
}

/* Returns the length of the bytes if they are one item, and 0 otherwise. */
static size_t check(const uint8_t *bytes, size_t size) {
    static level levels[LEVELS + 1];
    input_left in = {bytes, bytes + size};
    level *top = levels;
    levels[0] = (level){1, 0, 0};
    for (;;) {
        take_run(&in, top);
        while (top->left == 0 && !top->is_open) {
            if (top == levels)
                return in.at == in.end ? size : 0;
            top -= 1;
        }
        if (top->left > 0 && !(top = take_other(&in, levels, top)))
            return 0;
    }
}

/* Adds the numbers without a sign, and 1 for each other title. */
static uint64_t pull(const uint8_t *bytes, size_t size) {
    input_left in = {bytes, bytes + size};
    uint64_t sum = 0, number;
    uint8_t first;
    while (take_title(&in, &first, &number))
        sum += first >> 5 == 0 ? number : 1;
    return sum;
}

/* Returns how many bytes the argument of the shortest title has. */
static inline unsigned least_width(uint64_t number) {
    return number < 24 ? 0 : number < 256 ? 1 : number < 65536 ? 2 : number >> 32 ? 8 : 4;
}

/* Writes the shortest title. Returns its length. */
static size_t put_title(uint8_t *out, uint8_t major, uint64_t number) {
    static const uint8_t minor[9] = {0, 24, 25, 0, 26, 0, 0, 0, 27};
    unsigned width = least_width(number);
    out[0] = (uint8_t)(major << 5 | (width ? minor[width] : number));
    for (unsigned i = 0; i < width; i++)
        out[1 + i] = (uint8_t)(number >> (8 * (width - 1 - i)));
    return 1 + width;
}

/* Copies all elements, without open strings. Returns how many bytes it wrote. Runs of elements that stay as they are go
 * by one move. */
static size_t copy(const uint8_t *bytes, size_t size, uint8_t *out) {
    input_left in = {bytes, bytes + size};
    const uint8_t *run = bytes;
    size_t written = 0;
    while (in.at < in.end) {
        const uint8_t *title = in.at;
        if (in.end - title >= 32 && length_of[*title] > 0 && *title >> 5 != 7 && (*title & 31) < 24) {
            unsigned length = length_of[*title];
            if (*title >> 5 == 3 && !is_short_ascii(title, length) && !is_text(title + 1, length - 1))
                return 0;
            in.at += length;
            continue;
        }
        uint8_t first;
        uint64_t number;
        if (!take_title(&in, &first, &number))
            return 0;
        unsigned major = first >> 5, width = WIDTH[first & 31];
        int is_same = (first & 31) == 31 || (major == 7 && width > 1) || least_width(number) == width;
        if (!is_same) {
            memcpy(out + written, run, (size_t)(title - run));
            written += (size_t)(title - run);
            written += put_title(out + written, (uint8_t)major, number);
            run = in.at;
        }
        if ((major == 2 || major == 3) && ((first & 31) == 31 || !take_body(&in, first, number)))
            return 0;
    }
    memcpy(out + written, run, (size_t)(in.at - run));
    return written + (size_t)(in.at - run);
}

int main(int count, char **words) {
    const char *work = count == 5 ? words[1] : "";
    if (strcmp(work, "check") != 0 && strcmp(work, "pull") != 0 && strcmp(work, "copy") != 0) {
        fputs("usage: by_hand check|pull|copy SIZE COUNT ROUNDS\n", stderr);
        return 2;
    }
    size_t size;
    uint8_t *bytes = input(&size);
    uint8_t *out = malloc(size + 32);
    if (!bytes || !out)
        return 1;
    fill_lengths();
    uint64_t sum = 0;
    for (long round = strtol(words[4], NULL, 10); round > 0; round--) {
        if (*work == 'c' && work[1] == 'h')
            sum += check(bytes, size);
        else if (*work == 'p')
            sum += pull(bytes, size);
        else
            sum += copy(bytes, size, out);
    }
    printf("%" PRIu64 "\n", sum);
    free(out);
    free(bytes);
    return 0;
}
