/* The calls that only read: instant, average and listing. */
#include "page.h"
#include "peer.h"

/* ------------------------------------------------------------ instant */

static struct peer_instant_answer no_instant(uint32_t status, uint32_t pages) {
    struct peer_instant_answer answer = {status, pages, 0, 0, 0, 0};
    return answer;
}

/*
 * Each page on the path is checked whole before its entry is used. The entry is looked for ahead of the check, which any
 * bytes allow: so the processor knows the next page, and can begin with it, while it still checks this one. Where `known`
 * has the entry's index in each page from the root on, none is looked for.
 */
static inline struct peer_instant_answer answer_at(const uint8_t *image, size_t image_length, uint32_t t,
                                                   const uint8_t *known) {
    uint32_t n;
    uint32_t status = judge(image, image_length, &n);
    if (status != ACCEPTED) {
        return no_instant(status, 0);
    }
    if (t == END) {
        return no_instant(INSTANT_END, 0);
    }
    struct head head;
    if (!head_fits(image, n, &head)) {
        return no_instant(UNSOUND, 0);
    }
    const uint8_t *page = image + PAGE_BYTES * head.root;
    struct place at = root_place(&head);
    uint32_t i = known ? known[0] : entry_at(page, t);
    if (!root_fits(page, &at)) {
        return no_instant(UNSOUND, 1);
    }
    struct pair pair = pair_of(page, i);
    for (uint32_t pages = 2; pages <= head.height; pages++) {
        at = child_place(&at, page, i);
        page = image + PAGE_BYTES * child_of(page, i);
        i = known ? known[pages - 1] : entry_at(page, t);
        if (!page_fits(page, &at)) {
            return no_instant(UNSOUND, pages);
        }
        pair = combine(head.kind, pair, pair_of(page, i));
    }
    struct peer_instant_answer answer = {ACCEPTED, head.height, pair.sum, pair.count, start_of(page, i), end_of(page, i, at.end)};
    return answer;
}

struct peer_instant_answer peer_instant(const uint8_t *image, size_t image_length, uint32_t t) {
    return answer_at(image, image_length, t, NULL);
}

struct peer_instant_answer peer_instant_known(const uint8_t *image, size_t image_length, uint32_t t, const uint8_t *known) {
    return answer_at(image, image_length, t, known);
}

/* ------------------------------------------------------------ average */

/* The whole number nearest 100 x sum / count for a count above 0, of two that are equally near the even one. */
static int64_t hundredths(int64_t sum, int32_t count) {
    int64_t quotient = 100 * sum / count;
    int64_t rest = 100 * sum % count;
    /* at an even quotient a half isn't enough to go on */
    int64_t enough = (int64_t)count + (quotient % 2 == 0);
    if (2 * rest >= enough) {
        return quotient + 1;
    }
    return 2 * rest <= -enough ? quotient - 1 : quotient;
}

struct peer_average_answer peer_average_of(uint32_t kind, int64_t sum, int32_t count) {
    struct peer_average_answer answer = {ACCEPTED, 0, 0};
    if (kind == TOTALS && count > 0) {
        int shown = -MOST_SUM <= sum && sum <= MOST_SUM;
        answer.answer = shown ? 1 : 2;
        answer.hundredths = shown ? hundredths(sum, count) : 0;
    }
    return answer;
}

struct peer_average_answer peer_average(const uint8_t *image, size_t image_length, uint32_t t) {
    struct peer_instant_answer instant = peer_instant(image, image_length, t);
    if (instant.status != ACCEPTED) {
        struct peer_average_answer refused = {instant.status, 0, 0};
        return refused;
    }
    return peer_average_of(load32(image + offsetof(struct head, kind)), instant.sum, instant.count);
}

/* ------------------------------------------------------------ listing */

/*
 * A walk over the leaf entries of [a, b), with the run that is open. The first walk checks every page and counts the runs,
 * the second one writes them and checks nothing again: no byte of the output may be written before it is known that all
 * pages are fit and that the output is long enough.
 */
struct walk {
    const uint8_t *image;
    uint32_t kind;
    uint32_t a;
    uint32_t b;
    uint32_t runs;
    struct pair open;
    uint8_t *output;
};

#define RUN_BYTES 16

/* The entries of a page that overlap the span: from `from` on, below `to`. */
struct range {
    uint32_t from;
    uint32_t to;
};

static struct range entries_met(const struct walk *walk, const uint8_t *page) {
    struct range range;
    range.from = start_of(page, 0) >= walk->a ? 0 : entry_at(page, walk->a);
    range.to = start_of(page, entry_count(page) - 1) < walk->b ? entry_count(page) : starts_below(page, walk->b);
    return range;
}

static inline bool same(struct pair one, struct pair other) {
    return (one.sum == other.sum) & (one.count == other.count);
}

/* 1 if the pairs of an entry and of the one before it differ; the children of a leaf are all 0. */
static inline uint32_t differs(const uint8_t *entry) {
    return ((load64(entry) ^ load64(entry - 16)) | (load64(entry + 8) ^ load64(entry - 8))) != 0;
}

/*
 * Within a leaf of totals two entries give different runs exactly if their own pairs differ, whatever is added to both
 * from above. A leaf that is wholly met is compared over all 24 places: those past the number are equal to each other, and
 * the first of them differs from the last entry by its child. So no branch waits for the number of entries.
 */
static uint32_t differing_neighbours(const uint8_t *page, struct range range) {
    const uint8_t *entries = entries_of(page);
    uint32_t differing = 0;
    if (range.from == 0 && range.to == entry_count(page)) {
        for (uint32_t i = 1; i < MOST_ENTRIES; i++) {
            differing += differs(entries + ENTRY_BYTES * i);
        }
        return differing - (range.to < MOST_ENTRIES);
    }
    for (uint32_t i = range.from + 1; i < range.to; i++) {
        differing += differs(entries + ENTRY_BYTES * i);
    }
    return differing;
}

static void count_leaf(struct walk *walk, const uint8_t *page, struct pair above) {
    struct range range = entries_met(walk, page);
    struct pair first = combine(walk->kind, above, pair_of(page, range.from));
    walk->runs += walk->runs == 0 || !same(walk->open, first);
    if (walk->kind == TOTALS) {
        walk->runs += differing_neighbours(page, range);
        walk->open = combine(TOTALS, above, pair_of(page, range.to - 1));
        return;
    }
    walk->open = first;
    for (uint32_t i = range.from + 1; i < range.to; i++) {
        struct pair pair = combine(walk->kind, above, pair_of(page, i));
        walk->runs += !same(walk->open, pair);
        walk->open = pair;
    }
}

/* Counts the runs of a fit page; whether all pages below that are met are fit. */
static bool count_page(struct walk *walk, const uint8_t *page, const struct place *at, struct pair above) {
    if (at->level == 0) {
        count_leaf(walk, page, above);
        return true;
    }
    struct range range = entries_met(walk, page);
    for (uint32_t i = range.from; i < range.to; i++) {
        const uint8_t *child = walk->image + PAGE_BYTES * child_of(page, i);
        struct place child_at = child_place(at, page, i);
        struct pair pair = combine(walk->kind, above, pair_of(page, i));
        if (!page_fits(child, &child_at) || !count_page(walk, child, &child_at, pair)) {
            return false;
        }
    }
    return true;
}

static void write_run(uint8_t *to, uint32_t start, struct pair pair) {
    memcpy(to, &start, 4);
    memcpy(to + 4, &pair.count, 4);
    memcpy(to + 8, &pair.sum, 8);
}

/* Writes a run for each entry whose pair isn't that of the open run. */
static inline void write_leaf_of(struct walk *walk, uint32_t kind, const uint8_t *page, struct pair above) {
    struct range range = entries_met(walk, page);
    struct pair open = walk->open;
    uint8_t *output = walk->output;
    for (uint32_t i = range.from; i < range.to; i++) {
        struct pair pair = combine(kind, above, pair_of(page, i));
        if (!same(open, pair)) {
            write_run(output, start_of(page, i), pair);
            output += RUN_BYTES;
            open = pair;
        }
    }
    walk->open = open;
    walk->output = output;
}

/* The loop once for totals alone, so that the kind isn't asked at every entry. */
static void write_leaf(struct walk *walk, const uint8_t *page, struct pair above) {
    if (walk->kind == TOTALS) {
        write_leaf_of(walk, TOTALS, page, above);
    } else {
        write_leaf_of(walk, walk->kind, page, above);
    }
}

static void write_page(struct walk *walk, const uint8_t *page, struct pair above) {
    if (level_of(page) == 0) {
        write_leaf(walk, page, above);
        return;
    }
    struct range range = entries_met(walk, page);
    for (uint32_t i = range.from; i < range.to; i++) {
        struct pair pair = combine(walk->kind, above, pair_of(page, i));
        write_page(walk, walk->image + PAGE_BYTES * child_of(page, i), pair);
    }
}

static struct peer_listing_answer listed(uint32_t status, uint32_t runs) {
    struct peer_listing_answer answer = {status, runs};
    return answer;
}

/* No pair of a fit page has this count: at the beginning nothing is the same as the open run. */
static const struct pair no_run = {0, INT32_MIN};

struct peer_listing_answer peer_listing(const uint8_t *image, size_t image_length, uint32_t a, uint32_t b,
                                        uint8_t *output, size_t output_length) {
    uint32_t n;
    uint32_t status = judge(image, image_length, &n);
    if (status != ACCEPTED) {
        return listed(status, 0);
    }
    if (a >= b) {
        return listed(SPAN_EMPTY, 0);
    }
    struct head head;
    if (!head_fits(image, n, &head)) {
        return listed(UNSOUND, 0);
    }
    const uint8_t *root = image + PAGE_BYTES * head.root;
    struct place at = root_place(&head);
    struct pair nothing = {0, 0};
    struct walk walk = {image, head.kind, a, b, 0, no_run, output};
    if (!root_fits(root, &at) || !count_page(&walk, root, &at, nothing)) {
        return listed(UNSOUND, 0);
    }
    if (output_length / RUN_BYTES < walk.runs) {
        return listed(OUTPUT_SHORT, 0);
    }
    walk.open = no_run;
    write_page(&walk, root, nothing);
    store32(output, a);
    return listed(ACCEPTED, walk.runs);
}
