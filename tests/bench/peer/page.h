/*
 * The bytes of pages, as docs/FORMAT.md has them, and what the other files share.
 *
 * Numbers are read and written with memcpy of a fixed size, which the compiler turns into one load or store: no pointer
 * need be aligned, and no bytes are looked at as another type.
 */
#ifndef PEER_PAGE_H
#define PEER_PAGE_H

#include <stdbool.h>
#include <stddef.h>
#include <stdint.h>
#include <string.h>

/* ------------------------------------------------------------ sizes and ranges */

/* All pages have 24 entries; the other capacities are known only to tell what the library tells of them. */
#define PAGE_BYTES 512
#define MOST_ENTRIES 24
#define FEWEST_ENTRIES 12
#define LEAST_CAPACITY 4

#define FEWEST_PAGES 2
#define MOST_PAGES 1024

/* What a call borrows of the scratch: a bit for each page. */
#define SCRATCH_BYTES(pages) (((pages) + 7) / 8)

/* What the head may say at every capacity; and what a sound image comes to: a fifth level would take 3,771 pages. */
#define MOST_HEIGHT 10
#define MOST_LEVELS 4

#define GAP_AT 8
#define STARTS_AT 32
#define START_BYTES 4
#define ENTRIES_AT 128
#define ENTRY_BYTES 16

#define HEAD_BYTES 40
#define FREE_LEVEL 255
#define FREE_BYTES 8

#define END UINT32_MAX
#define UNUSED UINT32_MAX
#define TOTALS 1
#define GREATEST 2
#define LEAST 3
#define MOST_WINDOW 1000000000
#define MOST_CHANGES 1000000000
#define MOST_VALUE 1000000
#define MOST_SUM ((int64_t)MOST_VALUE * MOST_CHANGES)

/* ------------------------------------------------------------ statuses */

#define ACCEPTED 0
#define SPAN_EMPTY 11
#define INSTANT_END 12
#define VALUE_RANGE 13
#define OUTPUT_SHORT 15
#define IMAGE_LENGTH 16
#define SCRATCH_SHORT 17
#define UNSOUND 21
#define WITHDRAWAL_KIND 22
#define CHANGES_FULL 23
#define PAGES_LACKING 24

/* ------------------------------------------------------------ numbers in bytes */

static inline uint32_t load32(const uint8_t *from) {
    uint32_t number;
    memcpy(&number, from, 4);
    return number;
}

static inline uint64_t load64(const uint8_t *from) {
    uint64_t number;
    memcpy(&number, from, 8);
    return number;
}

static inline void store32(uint8_t *to, uint32_t number) {
    memcpy(to, &number, 4);
}

/* ------------------------------------------------------------ the head */

/* The head's numbers in their order, so that one copy of HEAD_BYTES reads or writes them. */
struct head {
    uint32_t n;
    uint32_t height;
    uint32_t root;
    uint32_t first_free;
    uint32_t free_length;
    uint32_t high_mark;
    uint32_t kind;
    uint32_t window;
    uint32_t changes;
    uint32_t capacity;
};

/* 24, as a number or as the FF of an older image. */
static inline bool names_24(uint32_t capacity) {
    return capacity == MOST_ENTRIES || capacity == UNUSED;
}

/* Whether so many bytes are pages of this length, as many as an image may have; if so, how many. */
static inline bool are_pages(size_t image_length, size_t page_bytes, uint32_t *n) {
    size_t pages = image_length / page_bytes;
    *n = (uint32_t)pages;
    return image_length % page_bytes == 0 && FEWEST_PAGES <= pages && pages <= MOST_PAGES;
}

/*
 * What every call judges first: the capacity, and by it the length. ACCEPTED and the number of pages, or the status that
 * turns the image back. What is measured has 24, so that no division waits for a page length that is only read here.
 */
static inline uint32_t judge(const uint8_t *image, size_t image_length, uint32_t *n) {
    if (image_length < HEAD_BYTES) {
        return IMAGE_LENGTH;
    }
    uint32_t capacity = load32(image + offsetof(struct head, capacity));
    if (names_24(capacity)) {
        return are_pages(image_length, PAGE_BYTES, n) ? ACCEPTED : IMAGE_LENGTH;
    }
    if (capacity < LEAST_CAPACITY || capacity > MOST_ENTRIES || capacity % 2 != 0) {
        return UNSOUND;
    }
    return are_pages(image_length, STARTS_AT + (START_BYTES + ENTRY_BYTES) * capacity, n) ? ACCEPTED : IMAGE_LENGTH;
}

/* ------------------------------------------------------------ tree pages */

/* Sum and count. */
struct pair {
    int64_t sum;
    int32_t count;
};

/* The 16 bytes of an entry in their order. */
struct entry {
    int64_t sum;
    int32_t count;
    uint32_t child;
};

static inline uint32_t level_of(const uint8_t *page) {
    return load32(page);
}

static inline uint32_t entry_count(const uint8_t *page) {
    return load32(page + 4);
}

static inline const uint8_t *starts_of(const uint8_t *page) {
    return page + STARTS_AT;
}

static inline const uint8_t *entries_of(const uint8_t *page) {
    return page + ENTRIES_AT;
}

static inline uint32_t start_of(const uint8_t *page, uint32_t i) {
    return load32(page + STARTS_AT + START_BYTES * i);
}

static inline struct entry entry_of(const uint8_t *page, uint32_t i) {
    struct entry entry;
    memcpy(&entry, page + ENTRIES_AT + ENTRY_BYTES * i, ENTRY_BYTES);
    return entry;
}

static inline struct pair pair_of(const uint8_t *page, uint32_t i) {
    struct entry entry = entry_of(page, i);
    struct pair pair = {entry.sum, entry.count};
    return pair;
}

static inline uint32_t child_of(const uint8_t *page, uint32_t i) {
    return entry_of(page, i).child;
}

/* Where entry i ends: at the next one's start, or with the page. */
static inline uint32_t end_of(const uint8_t *page, uint32_t i, uint32_t page_end) {
    return i + 1 < entry_count(page) ? start_of(page, i + 1) : page_end;
}

/*
 * How many starts are below t. All 24 places are compared, as unused ones are FF and never below: the loop has a fixed
 * length, so it is vectorised and no branch waits for the number of entries.
 */
static inline uint32_t starts_below(const uint8_t *page, uint32_t t) {
    const uint8_t *starts = starts_of(page);
    uint32_t below = 0;
    for (uint32_t i = 0; i < MOST_ENTRIES; i++) {
        below += load32(starts + START_BYTES * i) < t;
    }
    return below;
}

/* The last entry that starts at t or before, for a t that is not END in a page that starts at t or before. */
static inline uint32_t entry_at(const uint8_t *page, uint32_t t) {
    return starts_below(page, t + 1) - 1;
}

/* ------------------------------------------------------------ pairs */

static inline struct pair combine(uint32_t kind, struct pair one, struct pair other) {
    if (kind == TOTALS) {
        one.sum += other.sum;
        one.count += other.count;
        return one;
    }
    if (one.count == 0) {
        return other;
    }
    bool taken = other.count != 0 && (kind == GREATEST ? other.sum > one.sum : other.sum < one.sum);
    return taken ? other : one;
}

/* ------------------------------------------------------------ checks (check.c) */

/*
 * Where in the tree a page stands, and what its path leaves for its pairs. The rooms are what may still be added to the
 * absolute sums and counts of the entries above; the limits are powers of two for the quick test of pairs.
 */
struct place {
    uint32_t level;
    uint32_t start;
    uint32_t end;
    uint32_t n;
    uint32_t kind;
    uint32_t count_room;
    uint32_t count_limit;
    uint64_t sum_room;
    uint64_t sum_limit;
};

/* Whether the head is fit in an image of n pages of 24 entries; if so, its numbers. */
bool head_fits(const uint8_t *image, uint32_t n, struct head *head);

/* The root's place. */
struct place root_place(const struct head *head);

/* Whether a page is fit as the root, and as a page below it. */
bool root_fits(const uint8_t *page, const struct place *at);
bool page_fits(const uint8_t *page, const struct place *at);

/* Whether no two neighbouring entries of a fit leaf have the same pair. */
bool neighbours_differ(const uint8_t *leaf, uint32_t entries);

/* Whether a page reads as a free one. */
bool free_page_fits(const uint8_t *page);

/* Whether whole pages are all FF. */
bool pages_unused(const uint8_t *from, uint32_t pages);

static inline uint64_t magnitude(int64_t number) {
    return number < 0 ? 0 - (uint64_t)number : (uint64_t)number;
}

/* The place of the child of entry i of a fit page. */
static inline struct place child_place(const struct place *at, const uint8_t *page, uint32_t i) {
    struct entry entry = entry_of(page, i);
    struct place child = *at;
    child.level = at->level - 1;
    child.start = start_of(page, i);
    child.end = end_of(page, i, at->end);
    child.count_room = at->count_room - (uint32_t)magnitude(entry.count);
    child.sum_room = at->sum_room - magnitude(entry.sum);
    child.count_limit = at->count_limit / 2;
    child.sum_limit = at->sum_limit / 2;
    return child;
}

/* ------------------------------------------------------------ soundness (sound.c) */

/* Whether the image of n pages is sound; if so, its head. */
bool is_sound(const uint8_t *image, uint32_t n, struct head *head);

#endif
