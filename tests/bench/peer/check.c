/*
 * The checks of the head and of pages. They take nearly all the time of every call, so they are written for speed:
 *
 *   - Loops run over all 24 places whatever the number of entries, and test by sums, ANDs and ORs instead of leaving
 *     early. A length that is known lets the compiler unroll and vectorise, and no loop ends in a branch that depends on
 *     the number of entries, which the processor can't predict.
 *   - Each loop has one test. Several tests in one loop made the compiler pull sums and counts apart by shuffles.
 *   - The checks of pages are functions of their own: inlined, instants were slower by a fifth and audits by two fifths.
 */
#include "page.h"

/* ------------------------------------------------------------ unused bytes */

#define FF UINT64_MAX

/* So many words are handled together, each with a running AND of its own. */
#define WORDS 8

/*
 * The AND of a page's words from an offset on, which is a multiple of 64. One running AND would be a chain in which every
 * vector waits for the one before; eight words a round make four vectors that don't wait for each other.
 */
static inline uint64_t words_from(const uint8_t *page, uint32_t from) {
    uint64_t all[WORDS] = {FF, FF, FF, FF, FF, FF, FF, FF};
    for (uint32_t at = from; at < PAGE_BYTES; at += 8 * WORDS) {
        for (uint32_t j = 0; j < WORDS; j++) {
            all[j] &= load64(page + at + 8 * j);
        }
    }
    return all[0] & all[1] & all[2] & all[3] & all[4] & all[5] & all[6] & all[7];
}

bool pages_unused(const uint8_t *from, uint32_t pages) {
    for (uint32_t i = 0; i < pages; i++) {
        if (words_from(from + PAGE_BYTES * i, 0) != FF) {
            return false;
        }
    }
    return true;
}

/* The AND of a page's words from an offset up to 64. */
static inline uint64_t first_words(const uint8_t *page, uint32_t from) {
    uint64_t all = FF;
    for (uint32_t at = from; at < 64; at += 8) {
        all &= load64(page + at);
    }
    return all;
}

bool free_page_fits(const uint8_t *page) {
    return level_of(page) == FREE_LEVEL && (first_words(page, FREE_BYTES) & words_from(page, 64)) == FF;
}

/* ------------------------------------------------------------ the head */

bool head_fits(const uint8_t *image, uint32_t n, struct head *head) {
    memcpy(head, image, HEAD_BYTES);
    return head->n == n
        && head->height - 1 < MOST_HEIGHT
        && head->root - 1 < n - 1
        && head->first_free < n
        && head->high_mark - 2 <= n - 2
        && head->kind - TOTALS <= LEAST - TOTALS
        && head->window <= MOST_WINDOW
        && head->changes <= MOST_CHANGES
        && names_24(head->capacity)
        && (first_words(image, HEAD_BYTES) & words_from(image, 64)) == FF;
}

/* The greatest power of two that is at most so much; 0 for 0. */
static inline uint32_t power_of_two_to(uint32_t most) {
    most |= most >> 1;
    most |= most >> 2;
    most |= most >> 4;
    most |= most >> 8;
    most |= most >> 16;
    return most - most / 2;
}

/* A power of two below MOST_VALUE. */
#define VALUE_LIMIT 524288

struct place root_place(const struct head *head) {
    struct place at;
    at.level = head->height - 1;
    at.start = 0;
    at.end = END;
    at.n = head->n;
    at.kind = head->kind;
    at.count_room = head->changes;
    at.sum_room = (uint64_t)MOST_VALUE * head->changes;
    at.count_limit = power_of_two_to(at.count_room);
    at.sum_limit = (uint64_t)VALUE_LIMIT * at.count_limit;
    return at;
}

/* ------------------------------------------------------------ starts */

/* All ones if a start is below the next one or the next one is unused. */
static inline uint32_t below_or_unused(const uint8_t *starts, uint32_t i) {
    uint32_t next = load32(starts + START_BYTES * (i + 1));
    return -(uint32_t)(load32(starts + START_BYTES * i) < next) | next;
}

/*
 * Whether starts rise strictly and places past the number are FF. Over all 24 places each start is to be below the next
 * one, or that one FF: then they rise up to the first FF, and all is FF from there on. The last start being below its end
 * is not FF, and the place behind it is: so the first FF is there.
 *
 * The 23 neighbours are two dozens with one in both, so that vectors of 4 have no rest and one loop has them all. With 24
 * entries the place behind the last start is the first entry: still in the page, and not asked, so no branch is needed.
 */
static inline bool starts_fit(const uint8_t *page, const struct place *at, uint32_t entries) {
    const uint8_t *starts = starts_of(page);
    uint32_t all = UNUSED;
    for (uint32_t i = 0; i < 12; i++) {
        all &= below_or_unused(starts, i) & below_or_unused(starts, i + 11);
    }
    return (all == UNUSED) & (start_of(page, 0) == at->start) & (start_of(page, entries - 1) < at->end)
        & ((entries == MOST_ENTRIES) | (start_of(page, entries) == UNUSED));
}

/* ------------------------------------------------------------ entries: unused bytes and children */

#define ZERO8 0, 0, 0, 0, 0, 0, 0, 0
#define FF8 FF, FF, FF, FF, FF, FF, FF, FF
#define CHILD8 0, FF << 32, 0, FF << 32, 0, FF << 32, 0, FF << 32

/*
 * Masks for the two words of each entry, from word 2 x (24 - number) on, so that the number only moves where they are
 * read. Unused: nothing of an entry in use, all of one past the number. Leaf: the child of an entry in use, all of one
 * past the number.
 */
static const uint64_t unused_words[4 * MOST_ENTRIES] = {
    ZERO8, ZERO8, ZERO8, ZERO8, ZERO8, ZERO8, FF8, FF8, FF8, FF8, FF8, FF8,
};
static const uint64_t leaf_words[4 * MOST_ENTRIES] = {
    CHILD8, CHILD8, CHILD8, CHILD8, CHILD8, CHILD8, FF8, FF8, FF8, FF8, FF8, FF8,
};

static inline uint64_t gap_bits(const uint8_t *page) {
    return ~(load64(page + GAP_AT) & load64(page + GAP_AT + 8) & load64(page + GAP_AT + 16));
}

/* Whether gap and entries past the number are FF and the children in use 0. The first `in_use` places are in use. */
static inline bool leaf_rest_fits(const uint8_t *page, uint32_t entries, uint32_t in_use) {
    const uint64_t *unused = unused_words + 2 * (MOST_ENTRIES - entries);
    const uint64_t *asked = leaf_words + 2 * (MOST_ENTRIES - entries);
    uint64_t wrong = gap_bits(page);
    for (uint32_t i = 0; i < 2 * in_use; i++) {
        wrong |= load64(entries_of(page) + 8 * i) & leaf_words[i];
    }
    for (uint32_t i = 2 * in_use; i < 2 * MOST_ENTRIES; i++) {
        wrong |= (load64(entries_of(page) + 8 * i) & asked[i]) ^ unused[i];
    }
    return wrong == 0;
}

/* Whether gap and entries past the number are FF. */
static inline bool inner_rest_fits(const uint8_t *page, uint32_t entries, uint32_t in_use) {
    const uint64_t *unused = unused_words + 2 * (MOST_ENTRIES - entries);
    uint64_t wrong = gap_bits(page);
    for (uint32_t i = 2 * in_use; i < 2 * MOST_ENTRIES; i++) {
        wrong |= ~load64(entries_of(page) + 8 * i) & unused[i];
    }
    return wrong == 0;
}

/* Counts the children from 1 to n - 1 over all places. One that is FF isn't there, so they are as many as the entries. */
static inline bool children_fit(const uint8_t *page, uint32_t entries, uint32_t n) {
    const uint8_t *children = entries_of(page) + 12;
    uint32_t fit = 0;
    for (uint32_t i = 0; i < MOST_ENTRIES; i++) {
        fit += load32(children + ENTRY_BYTES * i) - 1 <= n - 2;
    }
    return fit == entries;
}

/* ------------------------------------------------------------ entries: pairs */

/*
 * A quick test of totals, exact only for rooms that are powers of two: x + limit is below 2 x limit, as a number without
 * sign, exactly if x is from -limit to limit - 1, and an OR of numbers is below a power of two exactly if each of them is.
 * One addition and one OR for the 16 bytes of an entry; no 64-bit comparison, which plain x86-64 lacks for vectors. Unused
 * places read as -1 and pass. The child's half of the second word gets a carry and is left out.
 *
 * Three entries a round: the loop's own instructions and its chain of ORs are a third, and the compiler keeps its vectors.
 */
static inline bool totals_within_limits(const uint8_t *page, const struct place *at) {
    const uint32_t third = MOST_ENTRIES / 3 * ENTRY_BYTES;
    uint64_t sum_limit = at->sum_limit, count_limit = at->count_limit;
    uint64_t sums = 0, counts = 0;
    for (uint32_t i = 0; i < third; i += ENTRY_BYTES) {
        const uint8_t *one = entries_of(page) + i, *two = one + third, *three = two + third;
        sums |= (load64(one) + sum_limit) | (load64(two) + sum_limit) | (load64(three) + sum_limit);
        counts |= (load64(one + 8) + count_limit) | (load64(two + 8) + count_limit) | (load64(three + 8) + count_limit);
    }
    return (sums < 2 * sum_limit) & ((uint32_t)counts < 2 * count_limit)
        & (sum_limit <= at->sum_room) & (count_limit <= at->count_room);
}

/* The exact test, where the quick one fails: |x| <= room as one addition and one comparison without sign. */
static bool totals_within_rooms(const uint8_t *page, const struct place *at, uint32_t entries) {
    uint32_t over = 0;
    for (uint32_t i = 0; i < entries; i++) {
        struct entry entry = entry_of(page, i);
        over |= (uint64_t)entry.sum + at->sum_room > 2 * at->sum_room;
        over |= (uint32_t)entry.count + at->count_room > 2 * at->count_room;
    }
    return over == 0;
}

/* Counts (0, 0) and values with 1 over all places. An unused one is neither, so there are as many as entries. */
static inline bool values_fit(const uint8_t *page, uint32_t entries) {
    uint32_t fit = 0;
    for (uint32_t i = 0; i < MOST_ENTRIES; i++) {
        struct entry entry = entry_of(page, i);
        uint64_t most = entry.count == 1 ? MOST_VALUE : 0;
        fit += ((uint32_t)entry.count <= 1) & ((uint64_t)entry.sum + most <= 2 * most);
    }
    return fit == entries;
}

static inline bool pairs_fit(const uint8_t *page, const struct place *at, uint32_t entries) {
    if (at->kind != TOTALS) {
        return values_fit(page, entries);
    }
    return totals_within_limits(page, at) || totals_within_rooms(page, at, entries);
}

/* ------------------------------------------------------------ pages */

/* The number of entries is compared before anything is done with it. */
static inline bool level_and_count_fit(const uint8_t *page, const struct place *at, uint32_t fewest) {
    return level_of(page) == at->level && entry_count(page) - fewest <= MOST_ENTRIES - fewest;
}

static inline bool rest_fits(const uint8_t *page, const struct place *at, uint32_t entries, uint32_t in_use) {
    if (at->level == 0) {
        return leaf_rest_fits(page, entries, in_use);
    }
    return inner_rest_fits(page, entries, in_use) & children_fit(page, entries, at->n);
}

/* Any place of a root may be unused. */
bool root_fits(const uint8_t *page, const struct place *at) {
    if (!level_and_count_fit(page, at, at->level == 0 ? 1 : 2)) {
        return false;
    }
    uint32_t entries = entry_count(page);
    bool fit = starts_fit(page, at, entries) & rest_fits(page, at, entries, 0);
    return fit && pairs_fit(page, at, entries);
}

/* The same with 12 places in use. It stands here a second time so that loops have a length that is known. */
bool page_fits(const uint8_t *page, const struct place *at) {
    if (!level_and_count_fit(page, at, FEWEST_ENTRIES)) {
        return false;
    }
    uint32_t entries = entry_count(page);
    bool fit = starts_fit(page, at, entries) & rest_fits(page, at, entries, FEWEST_ENTRIES);
    return fit && pairs_fit(page, at, entries);
}

/* ------------------------------------------------------------ neighbours in a leaf */

/* The exact test, where the quick one fails: children are 0 in both, so whole entries are compared. */
static bool pairs_differ(const uint8_t *leaf, uint32_t entries) {
    const uint8_t *before = entries_of(leaf);
    uint32_t equal = 0;
    for (uint32_t i = 1; i < entries; i++) {
        equal |= memcmp(before, before + ENTRY_BYTES, ENTRY_BYTES) == 0;
        before += ENTRY_BYTES;
    }
    return equal == 0;
}

/*
 * The quick test compares the low halves of sums alone, which differ in nearly all neighbours that do. It counts equal ones
 * over all places, as unused places are known to be equal: if these are all, none in use is. A comparison of 32 bits is one
 * that plain x86-64 has for vectors, and a test of counts beside that of sums would cost as much again.
 */
bool neighbours_differ(const uint8_t *leaf, uint32_t entries) {
    const uint8_t *sums = entries_of(leaf);
    uint32_t equal = 0;
    for (uint32_t i = 0; i < MOST_ENTRIES - 1; i++) {
        equal += load32(sums + ENTRY_BYTES * i) == load32(sums + ENTRY_BYTES * (i + 1));
    }
    uint32_t unused = entries < MOST_ENTRIES ? MOST_ENTRIES - 1 - entries : 0;
    return equal == unused || pairs_differ(leaf, entries);
}
