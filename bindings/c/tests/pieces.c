/*
 * Feeds a checker, and a strict one, random items, whole and damaged, random bytes, and all lists of one and of two
 * bytes. It feeds each front of them at once and then the rest, byte by byte, and in random pieces. Each piece ends at
 * a guard page. The checker ends at a guard page too, or begins after one.
 *
 * A copier gets the same bytes, in random pieces and with random rooms. Each piece and each room ends at a guard page.
 * The copier makes the copy that cll_recode makes of the bytes. If they are faulty or cut, the copy goes on from the
 * bytes that cll_recode wrote. A copier of an item gets them too. It finds the faults that a checker finds. It writes
 * the bytes that a copier writes of all bytes but the one at fault.
 *
 * The right answers come from calls over the whole front: cll_skip, cll_strict and cll_recode, whose answers are
 * proved. If they say that the bytes end too early, more is due exactly if some bytes after them make an item. So the
 * program looks for such bytes, and skips the item. The way in which an item was made says how many bytes are due at
 * least. A checker says exactly that number, and so do the calls over a front.
 *
 * usage: pieces [ITEMS [SEED]]
 *
 * With a number of items it leaves out the lists. It prints how many fronts had which answer. If bytes go wrong, it
 * prints them, and ends with the status 1.
 */
#define _DEFAULT_SOURCE
#include "items.h"

enum { ITEMS = 3000, PLENTY = 4096, MORE = 1024, ROUNDS = 3 };

/* A finding for a front: the answer, how many bytes were taken, and the place. */
struct finding { uint32_t answer; uint64_t taken, place; };

/* A front to which bytes are added, with the answer for it, and how many bytes are due. */
struct front { uint8_t data[PLENTY + MORE]; size_t len; uint32_t answer; uint64_t due; };

/* A copier's copy of some bytes: the finding for them, and the bytes written. */
struct copy { struct finding found; uint8_t data[MOST]; size_t written; };

static struct guarded input, output, checkers, copiers, item_copiers, reports;
static cll_checker *checker;
static cll_copier *copier;
static cll_item_copier *item_copier;
static cll_report *report;
static unsigned long answers[CLL_ARGUMENT + 1], completed, copies_made, items_made, fronts;

/* Tells whether the checker is a strict one. */
static int strict;

/* Copies bytes so that they end right at the guard page. No bytes are at the page's first address. */
static const uint8_t *at_end(const struct guarded *memory, const uint8_t *data, size_t len)
{
    return len > 0 ? (const uint8_t *)memcpy(memory->end - len, data, len) : memory->end;
}

/* Moves the checker to the other side of its memory, as it is. It holds no pointer. */
static void move(void)
{
    uint8_t *other = (uint8_t *)checker == checkers.start ? checkers.end - sizeof *checker : checkers.start;
    checker = (cll_checker *)memmove(other, checker, sizeof *checker);
}

static void begin(uint32_t depth)
{
    if ((strict ? cll_checker_init_strict(checker, depth) : cll_checker_init(checker, depth)) != CLL_OK)
        exit(2);
}

/* Feeds a piece, which ends at the guard page, and adds to the finding so far. */
static void feed(struct finding *found, const uint8_t *data, size_t len)
{
    found->answer = cll_checker_feed(checker, at_end(&input, data, len), len, report);
    found->taken += report->consumed;
    found->place = report->place;
}

static int same(const struct finding *one, const struct finding *other)
{
    return one->answer == other->answer && one->taken == other->taken && one->place == other->place;
}

/* Returns the finding for a front that is fed at once. */
static struct finding at_once(const uint8_t *data, size_t len, uint32_t depth)
{
    struct finding found = {CLL_ARGUMENT, 0, 0};
    begin(depth);
    feed(&found, data, len);
    return found;
}

/* Tells whether a checker says so at the end of the bytes. */
static int ends(const struct finding *found, size_t len)
{
    const uint32_t want = len == 0 ? CLL_OK : found->answer;
    const uint32_t answer = cll_checker_end(checker, report);
    return answer == want && report->consumed == 0 && report->written == 0
        && report->place == (want == CLL_OK ? 0 : found->place);
}

/* Returns a skip's finding for a front: the length of its item, or the fault, or that it ends too early. */
static struct finding skipped(const uint8_t *data, size_t len, uint32_t depth)
{
    struct finding found;
    found.answer = cll_skip(at_end(&input, data, len), len, depth, report);
    found.taken = report->consumed;
    found.place = found.answer == CLL_OK ? found.taken : report->place;
    return found;
}

/* Returns the same for an item in its shortest spelling. It finds the first of two faults. */
static struct finding skipped_strictly(const uint8_t *data, size_t len, uint32_t depth)
{
    struct finding found = skipped(data, len, depth);
    if (found.answer == CLL_OK)
        len = (size_t)found.taken;
    const uint32_t answer = cll_strict(at_end(&input, data, len), len, UINT64_MAX, report);
    if (answer == CLL_SYNTAX && (found.answer == CLL_SHORT || found.answer == CLL_OK || report->place < found.place)) {
        found.answer = CLL_SYNTAX;
        found.place = report->place;
    } else if (found.answer == CLL_OK && (answer != CLL_SHORT || report->whole != len)) {
        found.answer = CLL_ARGUMENT;
    }
    return found;
}

/* Tells whether a skip of the front says the same, or that it ends too early. */
static int skips(const struct finding *found, const uint8_t *data, size_t len, uint32_t depth)
{
    const struct finding want = strict ? skipped_strictly(data, len, depth) : skipped(data, len, depth);
    switch (want.answer) {
    case CLL_OK:
        return same(found, &want);
    case CLL_SHORT:
        /* In any spelling a skip says as many due bytes as a checker, and 0 if the checker has found a fault. */
        return found->answer != CLL_OK
            && (strict || want.place == (found->answer == CLL_SHORT ? found->place : 0));
    default:
        return found->answer == want.answer && found->place == want.place && found->taken <= len;
    }
}

/*
 * Tells whether a copy of all elements says the same. An item has only whole elements, and a copy of them is an item
 * again. A fault in a title or a text is also that of the copy, unless the bytes end too early for it.
 */
static int copies(const struct finding *found, const uint8_t *data, size_t len, uint32_t depth)
{
    uint8_t *out = output.end - len;
    uint32_t answer;
    if (strict || (found->answer != CLL_OK && found->answer != CLL_SYNTAX))
        return 1;
    if (found->answer == CLL_OK) {
        len = (size_t)found->place;
        out = output.end - len;
    }
    answer = cll_recode(at_end(&input, data, len), len, UINT64_MAX, out, len, report);
    if (found->answer == CLL_SYNTAX)
        return answer == CLL_SHORT || (answer == CLL_SYNTAX && report->place == found->place);
    if (answer != CLL_SHORT || report->consumed != len || report->whole != len)
        return 0;
    const uint64_t written = report->written;
    const struct finding again = at_once(out, (size_t)written, depth), want = {CLL_OK, written, written};
    return same(&again, &want);
}

/*
 * Feeds `count` bytes of one value after a front. Tells whether the checker then goes on or ends. Otherwise the checker
 * stays as it was.
 */
static int goes_on(struct front *front, uint8_t value, size_t count)
{
    const cll_checker was = *checker;
    if (count > sizeof front->data - front->len)
        return 0;
    memset(front->data + front->len, value, count);
    front->answer = cll_checker_feed(checker, front->data + front->len, count, report);
    if (front->answer != CLL_SHORT && front->answer != CLL_OK) {
        *checker = was;
        return 0;
    }
    front->len += (size_t)report->consumed;
    front->due = report->place;
    return 1;
}

/* Does the same for one byte of any value with which that works. It tries bytes that go on a character first. */
static int finds_byte(struct front *front)
{
    static const uint8_t first[] = {0x80, 0x90, 0xa0, 0xff};
    for (size_t i = 0; i < sizeof first; i++) {
        if (goes_on(front, first[i], 1))
            return 1;
    }
    for (unsigned value = 0; value < 256; value++) {
        if (goes_on(front, (uint8_t)value, 1))
            return 1;
    }
    return 0;
}

/*
 * Tells whether some bytes after a front make an item of it, as a skip of all of them says. More of the front is due.
 * If that takes too many bytes, it does not try them.
 *
 * It ends each open title. It fills each counted one with zeros, first with one and then with more at a time.
 */
static int completes(const uint8_t *data, size_t len, uint32_t depth)
{
    static struct front front;
    size_t run = 1;
    if (len > PLENTY)
        return 1;
    if (len > 0)
        memcpy(front.data, data, len);
    front.len = len;
    front.answer = CLL_SHORT;
    front.due = at_once(data, len, depth).place;
    while (front.answer == CLL_SHORT) {
        const size_t room = sizeof front.data - front.len;
        if (front.due > room || run > room)
            return 1;
        if (front.due == 1 && goes_on(&front, 0xff, 1))
            run = 1;
        else if (goes_on(&front, 0, front.due > run ? (size_t)front.due : run))
            run *= 2;
        else if (!finds_byte(&front))
            return 0;
    }
    completed++;
    const struct finding found = {CLL_OK, front.len, front.len};
    return skips(&found, front.data, front.len, depth);
}

/* Tells whether pieces of random lengths lead to the finding for each front. The checker moves between them. */
static int in_pieces(const struct finding *want, const uint8_t *data, size_t len, uint32_t depth, size_t longest)
{
    struct finding found = {CLL_ARGUMENT, 0, 0};
    size_t there = 0;
    begin(depth);
    do {
        const size_t room = len - there, piece = longest == 1 ? 1 : (size_t)below(longest + 1);
        const size_t taken = piece < room ? piece : room;
        feed(&found, data + there, taken);
        there += taken;
        if (!same(&found, &want[there]))
            return 0;
        move();
    } while (there < len);
    return ends(&want[len], len);
}

/* Tells whether each front has its right finding, and all bytes have theirs if the rest comes after the front. */
static int in_two(struct finding *want, const uint8_t *data, size_t len, uint32_t depth)
{
    const struct finding all = at_once(data, len, depth);
    for (size_t cut = 0; cut <= len; cut++) {
        struct finding found = want[cut] = at_once(data, cut, depth);
        answers[found.answer]++;
        fronts++;
        if (found.answer == CLL_SHORT && (found.taken != cut || found.place == 0))
            return 0;
        if (!ends(&found, cut))
            return 0;
        feed(&found, data + cut, len - cut);
        if (!same(&found, &all) || !skips(&want[cut], data, cut, depth))
            return 0;
    }
    return copies(&all, data, len, depth);
}

/* Feeds a copier a piece with `room` bytes of room, and adds to its copy so far. Then it moves the copier. */
static void feed_copier(struct copy *copy, const uint8_t *data, size_t len, size_t room)
{
    uint8_t *out = output.end - room;
    uint8_t *other = (uint8_t *)copier == copiers.start ? copiers.end - sizeof *copier : copiers.start;
    copy->found.answer = cll_copier_feed(copier, at_end(&input, data, len), len, out, room, report);
    copy->found.taken += report->consumed;
    copy->found.place = report->place;
    memcpy(copy->data + copy->written, out, (size_t)report->written);
    copy->written += (size_t)report->written;
    copier = (cll_copier *)memmove(other, copier, sizeof *copier);
}

/* Copies bytes in pieces and rooms of at most `longest` bytes. Tells whether the copier says the same at their end. */
static int copied(struct copy *copy, const uint8_t *data, size_t len, uint64_t count, size_t longest)
{
    memset(copy, 0, sizeof *copy);
    if (cll_copier_init(copier, count) != CLL_OK)
        return 0;
    do {
        const size_t there = (size_t)copy->found.taken, left = len - there;
        const size_t piece = longest == 1 ? 1 : (size_t)below(longest + 1);
        const size_t room = longest == 1 ? 1 : (size_t)below(longest + 1);
        feed_copier(copy, data + there, piece < left ? piece : left, room);
    } while (copy->found.answer == CLL_ROOM || (copy->found.answer == CLL_SHORT && copy->found.taken < len));
    return cll_copier_end(copier, report) == copy->found.answer && report->consumed == 0 && report->written == 0
        && report->place == copy->found.place;
}

/*
 * Feeds a copier of an item a piece with `room` bytes of room, and adds to its copy so far. Then it moves the copier.
 */
static void feed_item_copier(struct copy *copy, const uint8_t *data, size_t len, size_t room)
{
    uint8_t *out = output.end - room;
    uint8_t *other =
        (uint8_t *)item_copier == item_copiers.start ? item_copiers.end - sizeof *item_copier : item_copiers.start;
    copy->found.answer = cll_item_copier_feed(item_copier, at_end(&input, data, len), len, out, room, report);
    copy->found.taken += report->consumed;
    copy->found.place = report->place;
    memcpy(copy->data + copy->written, out, (size_t)report->written);
    copy->written += (size_t)report->written;
    item_copier = (cll_item_copier *)memmove(other, item_copier, sizeof *item_copier);
}

/* Does the same by a copier of an item, and tells whether it says the same at the end. No bytes end with CLL_OK. */
static int item_copied(struct copy *copy, const uint8_t *data, size_t len, uint32_t depth, size_t longest)
{
    memset(copy, 0, sizeof *copy);
    if ((strict ? cll_item_copier_init_strict(item_copier, depth) : cll_item_copier_init(item_copier, depth)) != CLL_OK)
        return 0;
    do {
        const size_t there = (size_t)copy->found.taken, left = len - there;
        const size_t piece = longest == 1 ? 1 : (size_t)below(longest + 1);
        const size_t room = longest == 1 ? 1 : (size_t)below(longest + 1);
        feed_item_copier(copy, data + there, piece < left ? piece : left, room);
    } while (copy->found.answer == CLL_ROOM || (copy->found.answer == CLL_SHORT && copy->found.taken < len));
    const uint32_t end = cll_item_copier_end(item_copier, report);
    return report->consumed == 0 && report->written == 0
        && (copy->found.taken == 0 ? end == CLL_OK : end == copy->found.answer);
}

/* Tells whether the copy is that of the calls over all bytes, which wrote `written` bytes of `want`. */
static int is_copy(const struct copy *copy, const struct finding *found, const uint8_t *want, size_t written)
{
    if (written > copy->written || memcmp(copy->data, want, written) != 0)
        return 0;
    switch (found->answer) {
    case CLL_OK:
        return same(&copy->found, found) && copy->written == written;
    case CLL_SHORT:
        return copy->found.answer == CLL_SYNTAX || copy->found.answer == CLL_SHORT;
    default:
        return copy->found.answer == found->answer && copy->found.place == found->place;
    }
}

/* Tells whether a copier makes the same copy as the calls over all bytes, however both are cut. */
static int copies_on(const uint8_t *data, size_t len)
{
    static struct copy once, pieces;
    static uint8_t want[MOST];
    uint8_t *out = output.end - len;
    struct finding found;
    found.answer = cll_recode(at_end(&input, data, len), len, UINT64_MAX, out, len, report);
    const uint64_t count = below(report->elements + 2);
    found.answer = cll_recode(at_end(&input, data, len), len, count, out, len, report);
    found.taken = report->consumed;
    found.place = report->place;
    const size_t written = (size_t)report->written;
    memcpy(want, out, written);
    if (!copied(&once, data, len, count, 1) || !is_copy(&once, &found, want, written))
        return 0;
    for (unsigned i = 0; i < ROUNDS; i++) {
        if (!copied(&pieces, data, len, count, 2 + (size_t)below(len + 1)) || !same(&pieces.found, &once.found)
            || pieces.written != once.written || memcmp(pieces.data, once.data, once.written) != 0)
            return 0;
    }
    copies_made++;
    return 1;
}

/*
 * Tells whether a copier of an item finds the same as a checker, however both are cut. It also tells whether it writes
 * the copy that a copier of any number of elements writes of all bytes but the one at fault.
 */
static int copies_item(const struct finding *found, const uint8_t *data, size_t len, uint32_t depth)
{
    static struct copy want, got;
    const int is_sound = found->answer == CLL_OK || found->answer == CLL_SHORT;
    const size_t sound = (size_t)found->taken - (is_sound ? 0 : 1);
    if (!copied(&want, data, sound, UINT64_MAX, sound + 1))
        return 0;
    for (unsigned i = 0; i < ROUNDS; i++) {
        if (!item_copied(&got, data, len, depth, i == 0 ? 1 : 2 + (size_t)below(len + 1)) || !same(&got.found, found)
            || got.written != want.written || memcmp(got.data, want.data, want.written) != 0)
            return 0;
    }
    items_made++;
    return 1;
}

/* Tries bytes in all ways. */
static int holds(const uint8_t *data, size_t len, uint32_t depth)
{
    static struct finding want[MOST + 1];
    if (!in_two(want, data, len, depth) || !in_pieces(want, data, len, depth, 1))
        return 0;
    for (unsigned i = 0; i < ROUNDS; i++) {
        const size_t cut = i > 0 ? (size_t)below(len + 1) : len;
        if (!in_pieces(want, data, len, depth, 1 + (size_t)below(len + 1)))
            return 0;
        if (want[cut].answer == CLL_SHORT && !completes(data, cut, depth))
            return 0;
    }
    return copies_item(&want[len], data, len, depth) && (strict || copies_on(data, len));
}

/* Tells whether the calls over the front of an item say that `due` bytes are due after it. */
static int lacks(const struct item *item, size_t len, uint64_t due)
{
    const uint8_t *data = at_end(&input, item->data, len);
    if (cll_skip(data, len, item->levels, report) != CLL_SHORT || report->place != due
        || cll_recode(data, len, UINT64_MAX, output.end - len, len, report) != CLL_SHORT || report->place != due)
        return 0;
    return !strict || (cll_strict(data, len, UINT64_MAX, report) == CLL_SHORT && report->place == due);
}

/* Tells whether as many bytes are due before each byte of an item as were due while it was made. */
static int tells_due(const struct item *item)
{
    struct finding found = {CLL_ARGUMENT, 0, 0};
    begin(item->levels);
    for (size_t at = 0; at < item->len; at++) {
        feed(&found, item->data + at, 0);
        if (found.answer != CLL_SHORT || found.place != item->due[at] || !lacks(item, at, item->due[at]))
            return 0;
        feed(&found, item->data + at, 1);
    }
    return found.answer == CLL_OK && found.place == item->len;
}

/* Damages bytes in one place. */
static void damage(struct item *item)
{
    const size_t at = (size_t)below(item->len);
    switch (below(6)) {
    case 0:
        item->data[at] ^= (uint8_t)(1 << below(8));
        break;
    case 1:
        item->data[at] = 0xff;
        break;
    case 2:
        item->len = at + 1;
        break;
    case 3:
        memmove(item->data + at, item->data + at + 1, item->len - at - 1);
        item->len -= item->len > 1;
        break;
    case 4:
        item->len += item->len < MOST;
        memmove(item->data + at + 1, item->data + at, item->len - at - 1);
        break;
    default:
        item->data[at] = (uint8_t)any();
    }
}

/* Prints the bytes that went wrong. */
static int fails(const uint8_t *data, size_t len, uint32_t depth)
{
    fprintf(stderr, "pieces: %sto a depth of %lu: ", strict ? "strictly, " : "", (unsigned long)depth);
    for (size_t at = 0; at < len; at++)
        fprintf(stderr, "%02x", data[at]);
    fprintf(stderr, "\n");
    return 1;
}

/* Tries a random item: as it is, with one level too few, and damaged, with another item after it. */
static int tries_item(struct item *item)
{
    static struct item next;
    shortest = strict && below(4) > 0;
    make(item);
    if ((shortest || !strict) && !tells_due(item))
        return fails(item->data, item->len, item->levels);
    if (!holds(item->data, item->len, item->levels))
        return fails(item->data, item->len, item->levels);
    if (item->levels > 0 && !holds(item->data, item->len, item->levels - 1))
        return fails(item->data, item->len, item->levels - 1);
    make(&next);
    if (item->len + next.len < MOST) {
        memcpy(item->data + item->len, next.data, next.len);
        item->len += next.len;
    }
    for (uint64_t left = 1 + below(3); left > 0; left--)
        damage(item);
    return holds(item->data, item->len, item->levels) ? 0 : fails(item->data, item->len, item->levels);
}

/* Tries bytes of any value, or bytes that mostly begin an item. */
static int tries_bytes(void)
{
    uint8_t data[32];
    const size_t len = (size_t)below(sizeof data + 1);
    const uint32_t depth = (uint32_t)below(5);
    for (size_t at = 0; at < len; at++)
        data[at] = (uint8_t)(below(4) > 0 ? below(8) << 5 | below(4) : any());
    return holds(data, len, depth) ? 0 : fails(data, len, depth);
}

/* Tries each list of one byte and of two. */
static int tries_lists(void)
{
    for (unsigned first = 0; first < 256; first++) {
        uint8_t data[] = {(uint8_t)first, 0};
        if (!holds(data, 1, 1))
            return fails(data, 1, 1);
        for (unsigned second = 0; second < 256; second++) {
            data[1] = (uint8_t)second;
            if (!holds(data, 2, 1))
                return fails(data, 2, 1);
        }
    }
    return 0;
}

int main(int argc, char **argv)
{
    static struct item item;
    const unsigned long items = argc > 1 ? strtoul(argv[1], NULL, 10) : ITEMS;
    seed = argc > 2 ? strtoull(argv[2], NULL, 10) : seed;
    input = guard(MOST + MORE);
    output = guard(MOST);
    checkers = guard(sizeof *checker);
    copiers = guard(sizeof *copier);
    item_copiers = guard(sizeof *item_copier);
    reports = guard(sizeof *report);
    checker = (cll_checker *)checkers.start;
    copier = (cll_copier *)copiers.start;
    item_copier = (cll_item_copier *)item_copiers.start;
    report = (cll_report *)(reports.end - sizeof *report);
    for (strict = 0; strict < 2; strict++) {
        if (argc < 2 && tries_lists() != 0)
            return 1;
        for (unsigned long left = items; left > 0; left--) {
            if (tries_item(&item) != 0 || tries_bytes() != 0)
                return 1;
        }
    }
    printf("%lu fronts: %lu ended, %lu short, of which %lu were completed, %lu syntax, %lu break, %lu deep\n%lu copies, %lu of items\n",
        fronts,
        answers[CLL_OK], answers[CLL_SHORT], completed, answers[CLL_SYNTAX], answers[CLL_BREAK_DUE],
        answers[CLL_TOO_DEEP], copies_made, items_made);
    return answers[CLL_TOO_LONG] + answers[CLL_ARGUMENT] + answers[CLL_ROOM] > 0;
}
