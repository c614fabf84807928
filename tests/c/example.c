/*
 * Calls every function of include/luwhenoka.h, checks the answers and prints some of them. What it prints is compared with
 * example.expected.
 *
 *     cc -std=c99 -Wall -Wextra -Werror -Iinclude tests/c/example.c target/staticlib/libluwhenoka.a -o target/example
 */
#include <inttypes.h>
#include <stdio.h>
#include <stdlib.h>
#include <string.h>

#include "luwhenoka.h"

#define PAGES 4

/* What calls on so many pages borrow of the scratch. */
#define BORROWED LUW_SCRATCH_BYTES(PAGES)

/* Where the capacity stands in the head. */
#define CAPACITY_AT 36

/* Room for the pages of every capacity; those of the one in use take the first `length` bytes. */
static uint8_t image[LUW_PAGE_BYTES(LUW_MOST_CAPACITY) * PAGES];
static uint8_t scratch[BORROWED + 2];
static uint8_t output[LUW_RUN_BYTES * LUW_MOST_CAPACITY * PAGES];
static uint32_t capacity = 24;
static size_t page_bytes = LUW_PAGE_BYTES(24);
static size_t length = LUW_PAGE_BYTES(24) * PAGES;

static void use_capacity(uint32_t entries) {
    capacity = entries;
    page_bytes = LUW_PAGE_BYTES(entries);
    length = page_bytes * PAGES;
}

#define CHECK(what) check((what), #what, __LINE__)

static void check(int holds, const char *what, int line) {
    if (!holds) {
        printf("line %d: not so: %s\n", line, what);
        exit(1);
    }
}

/* ---------------------------------------------------------------- numbers in bytes */

static void put(size_t page, size_t at, uint64_t number, size_t bytes) {
    for (size_t i = 0; i < bytes; i++) {
        image[page_bytes * page + at + i] = (uint8_t)(number >> (8 * i));
    }
}

static uint64_t get(const uint8_t *bytes, int length) {
    uint64_t number = 0;
    for (int i = length; i > 0; i--) {
        number = 256 * number + bytes[i - 1];
    }
    return number;
}

static int all(const uint8_t *bytes, size_t length, uint8_t value) {
    for (size_t i = 0; i < length; i++) {
        if (bytes[i] != value) {
            return 0;
        }
    }
    return 1;
}

static int same(struct luw_instant_answer one, struct luw_instant_answer other) {
    return one.status == other.status && one.pages == other.pages && one.sum == other.sum && one.count == other.count &&
           one.start == other.start && one.end == other.end;
}

/* A pair, from so many pages, and the start and end of its leaf entry. */
static int holds(struct luw_instant_answer answer, int64_t sum, int32_t count, uint32_t pages, uint32_t start, uint32_t end) {
    struct luw_instant_answer expected = {LUW_ACCEPTED, pages, sum, count, start, end};
    return same(answer, expected);
}

static int turned_back(struct luw_instant_answer answer, uint32_t status, uint32_t pages) {
    struct luw_instant_answer expected = {status, pages, 0, 0, 0, 0};
    return same(answer, expected);
}

static int listed(struct luw_listing_answer answer, uint32_t status, uint32_t runs) {
    return answer.status == status && answer.runs == runs;
}

static int averages(struct luw_average_answer average, uint32_t status, uint32_t answer, int64_t hundredths) {
    return average.status == status && average.answer == answer && average.hundredths == hundredths;
}

/* ---------------------------------------------------------------- an image made by hand */

static void put_entry(size_t page, size_t i, uint32_t start, int64_t sum, int32_t count, uint32_t child) {
    size_t entry = 32 + 4 * capacity + 16 * i;
    put(page, 32 + 4 * i, start, 4);
    put(page, entry, (uint64_t)sum, 8);
    put(page, entry + 8, (uint32_t)count, 4);
    put(page, entry + 12, child, 4);
}

static void put_page(size_t page, uint32_t level, uint32_t entries) {
    memset(image + page_bytes * page, 0xFF, page_bytes);
    put(page, 0, level, 4);
    put(page, 4, entries, 4);
}

/* Where the leaf entries of the bookings below start: 0, 10, 15, 20, 25, 30 .. */
static uint32_t start_of(uint32_t i) {
    return i == 0 ? 0 : 10 * ((i + 1) / 2) + (i % 2 == 0 ? 5 : 0);
}

/*
 * What value 1 on [10, 15), [20, 25) and so on, half as many bookings as the capacity, leaves in four pages: one entry more
 * than a page has room for, so that it is split and the height is 2. Laid down by docs/FORMAT.md.
 */
static void bookings_by_hand(void) {
    uint32_t half = capacity / 2;
    const uint32_t head[10] = {PAGES, 2, 3, 0, 0, 4, LUW_TOTALS, 0, half, capacity};
    memset(image, 0xFF, page_bytes);
    for (size_t i = 0; i < 10; i++) {
        put(0, 4 * i, head[i], 4);
    }
    put_page(1, 0, half);
    put_page(2, 0, half + 1);
    for (uint32_t i = 0; i < capacity + 1; i++) {
        put_entry(i < half ? 1 : 2, i < half ? i : i - half, start_of(i), i % 2, i % 2, 0);
    }
    put_page(3, 1, 2);
    put_entry(3, 0, 0, 0, 0, 1);
    put_entry(3, 1, start_of(half), 0, 0, 2);
}

/* ---------------------------------------------------------------- the calls */

static void formats(void) {
    memset(image, 7, sizeof image);
    CHECK(luw_format(image, length - 1, LUW_TOTALS, 0, capacity) == LUW_IMAGE_LENGTH);
    CHECK(luw_format(image, length, 4, 0, capacity) == LUW_FORMAT_RANGE);
    CHECK(luw_format(image, length, LUW_LEAST, LUW_MOST_WINDOW + 1, capacity) == LUW_FORMAT_RANGE);
    CHECK(luw_format(NULL, 0, LUW_LEAST, 0, capacity) == LUW_IMAGE_LENGTH);
    CHECK(all(image, sizeof image, 7));
    CHECK(luw_format(image, length, LUW_GREATEST, 20, capacity) == LUW_ACCEPTED);
    CHECK(get(image, 4) == PAGES && get(image + 24, 4) == LUW_GREATEST && get(image + 28, 4) == 20);
    CHECK(get(image + CAPACITY_AT, 4) == capacity && all(image + 40, page_bytes - 40, 0xFF));
    CHECK(all(image + page_bytes * 2, page_bytes * (PAGES - 2), 0xFF));
    CHECK(holds(luw_instant(image, length, 0), 0, 0, 1, 0, LUW_END));
    CHECK(averages(luw_average(image, length, 0), LUW_ACCEPTED, LUW_NO_AVERAGE, 0));
    printf("fresh: audit %" PRIu32 ", %" PRIu32 " run\n", luw_audit(image, length, scratch, sizeof scratch),
           luw_listing(image, length, 0, LUW_END, output, sizeof output).runs);
}

static void instants(void) {
    CHECK(holds(luw_instant(image, length, 9), 0, 0, 2, 0, 10));
    CHECK(holds(luw_instant(image, length, 10), 1, 1, 2, 10, 15));
    CHECK(holds(luw_instant(image, length, 14), 1, 1, 2, 10, 15));
    CHECK(holds(luw_instant(image, length, 15), 0, 0, 2, 15, 20));
    CHECK(holds(luw_instant(image, length, 124), 1, 1, 2, 120, 125));
    CHECK(holds(luw_instant(image, length, LUW_END - 1), 0, 0, 2, 125, LUW_END));
    /* The last entry of a page ends where its page does, and the last of all at the end of time. */
    CHECK(holds(luw_instant(image, length, 62), 1, 1, 2, 60, 65));
    CHECK(turned_back(luw_instant(image, length, LUW_END), LUW_INSTANT_END, 0));
    CHECK(turned_back(luw_instant(image, length + 1, LUW_END), LUW_IMAGE_LENGTH, 0));
    struct luw_instant_answer now = luw_instant(image, length, 122);
    printf("at 122: sum %" PRId64 ", count %" PRId32 " on [%" PRIu32 ", %" PRIu32 "), %" PRIu32 " pages read\n", now.sum,
           now.count, now.start, now.end, now.pages);
}

static void averages_of_pairs(void) {
    CHECK(averages(luw_average(image, length, 122), LUW_ACCEPTED, LUW_HUNDREDTHS, 100));
    CHECK(averages(luw_average(image, length, 0), LUW_ACCEPTED, LUW_NO_AVERAGE, 0));
    CHECK(averages(luw_average(image, length, LUW_END), LUW_INSTANT_END, LUW_NO_AVERAGE, 0));
    CHECK(averages(luw_average_of(LUW_TOTALS, 14, 3), LUW_ACCEPTED, LUW_HUNDREDTHS, 467));
    CHECK(averages(luw_average_of(LUW_TOTALS, 5, -1), LUW_ACCEPTED, LUW_NO_AVERAGE, 0));
    CHECK(averages(luw_average_of(LUW_LEAST, 5, 1), LUW_ACCEPTED, LUW_NO_AVERAGE, 0));
    CHECK(averages(luw_average_of(LUW_TOTALS, INT64_MIN, 1), LUW_ACCEPTED, LUW_BEYOND, 0));
    /* a half goes to the even hundredth */
    CHECK(averages(luw_average_of(LUW_TOTALS, 1, 200), LUW_ACCEPTED, LUW_HUNDREDTHS, 0));
    CHECK(averages(luw_average_of(LUW_TOTALS, 3, 200), LUW_ACCEPTED, LUW_HUNDREDTHS, 2));
    CHECK(averages(luw_average_of(LUW_TOTALS, -3, 8), LUW_ACCEPTED, LUW_HUNDREDTHS, -38));
    printf("-1 over 8: %" PRId64 " hundredths, over 200: %" PRId64 "\n", luw_average_of(LUW_TOTALS, -1, 8).hundredths,
           luw_average_of(LUW_TOTALS, -1, 200).hundredths);
}

static void listings(void) {
    memset(output, 0xA5, sizeof output);
    CHECK(listed(luw_listing(image, length, 5, 5, output, sizeof output), LUW_SPAN_EMPTY, 0));
    CHECK(listed(luw_listing(image, length, 0, LUW_END, output, 16 * 25 - 1), LUW_OUTPUT_SHORT, 0));
    CHECK(listed(luw_listing(image, length, 0, LUW_END, NULL, 0), LUW_OUTPUT_SHORT, 0));
    CHECK(all(output, sizeof output, 0xA5));
    CHECK(listed(luw_listing(image, length, 0, LUW_END, output, 16 * 25), LUW_ACCEPTED, 25));
    CHECK(all(output + 16 * 25, sizeof output - 16 * 25, 0xA5));
    struct luw_listing_answer answer = luw_listing(image, length, 58, 72, output, sizeof output);
    printf("runs %" PRIu32 " over [58, 72)\n", answer.runs);
    for (uint32_t i = 0; i < answer.runs; i++) {
        const uint8_t *run = output + LUW_RUN_BYTES * i;
        uint32_t start = (uint32_t)get(run, 4);
        printf("%" PRIu32 " sum %" PRIu64 " count %" PRIu64 "\n", start, get(run + 8, 8), get(run + 4, 4));
    }
}

static void audits(void) {
    memset(scratch, 9, sizeof scratch);
    CHECK(luw_audit(image, length, scratch, BORROWED - 1) == LUW_SCRATCH_SHORT);
    CHECK(luw_audit(image, length, NULL, 0) == LUW_SCRATCH_SHORT);
    CHECK(luw_audit(image, page_bytes, scratch, sizeof scratch) == LUW_IMAGE_LENGTH);
    CHECK(all(scratch, sizeof scratch, 9));
    CHECK(luw_audit(image, length, scratch, sizeof scratch) == LUW_ACCEPTED);
    CHECK(all(scratch, BORROWED, 0) && all(scratch + BORROWED, 2, 9));
}

/* A page header whose number of entries runs past the page: whoever meets it is turned back, nobody else. */
static void damage(void) {
    put(2, 4, capacity + 1, 4);
    memset(scratch, 9, sizeof scratch);
    CHECK(luw_audit(image, length, scratch, sizeof scratch) == LUW_UNSOUND);
    CHECK(all(scratch, BORROWED, 0) && all(scratch + BORROWED, 2, 9));
    memset(output, 0xA5, sizeof output);
    CHECK(listed(luw_listing(image, length, 0, 66, output, sizeof output), LUW_UNSOUND, 0));
    CHECK(all(output, sizeof output, 0xA5));
    CHECK(listed(luw_listing(image, length, 0, 65, output, sizeof output), LUW_ACCEPTED, 12));
    CHECK(turned_back(luw_instant(image, length, 65), LUW_UNSOUND, 2));
    CHECK(holds(luw_instant(image, length, 64), 1, 1, 2, 60, 65));
    CHECK(averages(luw_average(image, length, 65), LUW_UNSOUND, LUW_NO_AVERAGE, 0));
    image[page_bytes - 1] = 0;
    CHECK(turned_back(luw_instant(image, length, 64), LUW_UNSOUND, 0));
    printf("25 entries in a page: refused with %d\n", LUW_UNSOUND);
}

/* The bookings by the calls make the image that was laid down by hand; withdrawn in turn, one entry is left. */
static void changes(void) {
    static uint8_t expected[sizeof image];
    uint32_t bookings = capacity / 2;
    bookings_by_hand();
    memcpy(expected, image, length);
    CHECK(luw_format(image, length, LUW_TOTALS, 0, capacity) == LUW_ACCEPTED);
    for (uint32_t i = 1; i <= bookings; i++) {
        CHECK(luw_enter(image, length, scratch, BORROWED, 1, 10 * i, 10 * i + 5) == LUW_ACCEPTED);
    }
    CHECK(memcmp(image, expected, length) == 0);
    CHECK(luw_withdraw(image, 3 * page_bytes, scratch, BORROWED, 1, 10, 15) == LUW_UNSOUND);
    CHECK(memcmp(image, expected, length) == 0);
    for (uint32_t i = bookings; i >= 1; i--) {
        CHECK(luw_withdraw(image, length, scratch, BORROWED, 1, 10 * i, 10 * i + 5) == LUW_ACCEPTED);
    }
    CHECK(luw_audit(image, length, scratch, BORROWED) == LUW_ACCEPTED);
    CHECK(listed(luw_listing(image, length, 0, LUW_END, output, sizeof output), LUW_ACCEPTED, 1));
    printf("%" PRIu32 " entered and withdrawn: %" PRIu64 " changes, height %" PRIu64 "\n", bookings, get(image + 32, 4),
           get(image + 4, 4));
}

static void refused_changes(void) {
    memset(scratch, 9, sizeof scratch);
    CHECK(luw_enter(image, page_bytes - 1, scratch, BORROWED, 1, 1, 2) == LUW_IMAGE_LENGTH);
    CHECK(luw_enter(image, length, scratch, BORROWED - 1, 1, 5, 5) == LUW_SCRATCH_SHORT);
    CHECK(luw_enter(image, length, scratch, BORROWED, LUW_MOST_VALUE + 1, 5, 5) == LUW_SPAN_EMPTY);
    CHECK(luw_withdraw(image, length, scratch, BORROWED, -LUW_MOST_VALUE - 1, 5, 6) == LUW_VALUE_RANGE);
    CHECK(all(scratch, sizeof scratch, 9));
    CHECK(luw_format(image, length, LUW_GREATEST, 20, capacity) == LUW_ACCEPTED);
    CHECK(luw_enter(image, length, scratch, BORROWED, 4, 35, 45) == LUW_ACCEPTED);
    CHECK(holds(luw_instant(image, length, 64), 4, 1, 1, 35, 65) && holds(luw_instant(image, length, 65), 0, 0, 1, 65, LUW_END));
    CHECK(luw_withdraw(image, length, scratch, BORROWED, 4, 35, 45) == LUW_WITHDRAWAL_KIND);
    CHECK(all(scratch, BORROWED, 0) && all(scratch + BORROWED, 2, 9));
    put(0, 32, 1000000000, 4);
    CHECK(luw_enter(image, length, scratch, BORROWED, 4, 35, 45) == LUW_CHANGES_FULL);
    CHECK(luw_format(image, 3 * page_bytes, LUW_TOTALS, 0, capacity) == LUW_ACCEPTED);
    for (uint32_t i = 1; i <= 11; i++) {
        CHECK(luw_enter(image, 3 * page_bytes, scratch, LUW_SCRATCH_BYTES(3), 1, 10 * i, 10 * i + 5) == LUW_ACCEPTED);
    }
    printf("the twelfth in three pages: refused with %" PRIu32 "\n",
           luw_enter(image, 3 * page_bytes, scratch, LUW_SCRATCH_BYTES(3), 1, 120, 125));
}

/* ---------------------------------------------------------------- until when */

/* What is booked while the host below runs: at which second of its clock, and then value, start and end. */
static const struct {
    uint32_t second;
    int64_t v;
    uint32_t s;
    uint32_t e;
} bookings[] = {{0, 6, 10, 40}, {0, 3, 20, 50}, {32, 5, 35, 45}};

/* Whether the index was changed at this second. */
static int changed(uint32_t clock) {
    int some = 0;
    for (size_t i = 0; i < sizeof bookings / sizeof *bookings; i++) {
        if (bookings[i].second == clock) {
            CHECK(luw_enter(image, length, scratch, BORROWED, bookings[i].v, bookings[i].s, bookings[i].e) == LUW_ACCEPTED);
            some = 1;
        }
    }
    return some;
}

/*
 * A host that has to know at every second what is booked. It asks once, and again only when its clock has reached the end
 * of the answer, or when the index was changed. What it knows then is what a call would answer at each second. After a
 * refusal it knows nothing, and asks again at the next second, since a refusal's end is 0.
 */
static void polling(void) {
    struct luw_instant_answer known = {LUW_ACCEPTED, 0, 0, 0, 0, 0};
    uint32_t seconds = 60, calls = 0;
    CHECK(luw_format(image, length, LUW_TOTALS, 0, capacity) == LUW_ACCEPTED);
    for (uint32_t clock = 0; clock < seconds; clock++) {
        if (changed(clock) || clock >= known.end) {
            known = luw_instant(image, length, clock);
            calls++;
            if (known.status != LUW_ACCEPTED) {
                printf("at %" PRIu32 ": refused %" PRIu32 "\n", clock, known.status);
                continue;
            }
            printf("at %" PRIu32 ": sum %" PRId64 ", count %" PRId32 " until %" PRIu32 "\n", clock, known.sum, known.count, known.end);
        }
        CHECK(known.start <= clock && clock < known.end && same(known, luw_instant(image, length, clock)));
    }
    printf("%" PRIu32 " seconds: %" PRIu32 " calls, %" PRIu32 " saved\n", seconds, calls, seconds - calls);
}

/* ---------------------------------------------------------------- after a season */

#define SEASON_CAPACITY 8
#define SEASON_PAGES 256
#define FEWER_PAGES 12
#define SEASON_PAGE LUW_PAGE_BYTES(SEASON_CAPACITY)

/* How many bookings the season has, and how many of them are still live at its end. */
#define SEASON_BOOKINGS 400
#define SEASON_LIVE 20

static uint8_t season[SEASON_PAGE * SEASON_PAGES], tight[SEASON_PAGE * FEWER_PAGES], season_scratch[LUW_SCRATCH_BYTES(SEASON_PAGES)];

typedef uint32_t change(uint8_t *, size_t, uint8_t *, size_t, int64_t, uint32_t, uint32_t);

/* Enters or withdraws the bookings from one number up to another; they come in no order of time. */
static void season_changes(change *make, uint8_t *index, size_t bytes, uint32_t from, uint32_t to) {
    for (uint32_t i = from; i < to; i++) {
        uint32_t s = 10 + i * 7919 % 10007;
        CHECK(make(index, bytes, season_scratch, sizeof season_scratch, 1 + i % 9, s, s + 8) == LUW_ACCEPTED);
    }
}

/* The runs of the full listing in one of two outputs, and their number. */
static uint8_t runs_of_season[LUW_RUN_BYTES * 64], runs_of_tight[LUW_RUN_BYTES * 64];

static uint32_t list_all(const uint8_t *index, size_t bytes, uint8_t *runs) {
    struct luw_listing_answer answer = luw_listing(index, bytes, 0, LUW_END, runs, sizeof runs_of_season);
    CHECK(answer.status == LUW_ACCEPTED);
    return answer.runs;
}

/* The pages in use are those below the high mark, without the free ones. */
static void tell_pages(const char *name, const uint8_t *index, uint32_t runs) {
    printf("%s: %" PRIu64 " of %" PRIu64 " pages used, height %" PRIu64 ", runs %" PRIu32 "\n", name,
           get(index + 20, 4) - get(index + 16, 4), get(index, 4), get(index + 4, 4), runs);
}

/*
 * Many bookings, most of them withdrawn again: what they leave behind takes pages. The rebuild has the same listing in a
 * smaller image, which goes on in the first one's place.
 */
static void after_a_season(void) {
    CHECK(luw_format(season, sizeof season, LUW_TOTALS, 0, SEASON_CAPACITY) == LUW_ACCEPTED);
    season_changes(luw_enter, season, sizeof season, 0, SEASON_BOOKINGS);
    season_changes(luw_withdraw, season, sizeof season, 0, SEASON_BOOKINGS - SEASON_LIVE);
    uint32_t runs = list_all(season, sizeof season, runs_of_season);
    tell_pages("after the season", season, runs);

    memset(tight, 7, sizeof tight);
    printf("into 4 pages: refused with %" PRIu32 "\n",
           luw_rebuild(season, sizeof season, tight, 4 * SEASON_PAGE, season_scratch, sizeof season_scratch));
    CHECK(all(tight, sizeof tight, 7));
    CHECK(luw_rebuild(season, sizeof season, tight, sizeof tight, season_scratch, sizeof season_scratch) == LUW_ACCEPTED);
    CHECK(list_all(tight, sizeof tight, runs_of_tight) == runs);
    CHECK(memcmp(runs_of_season, runs_of_tight, LUW_RUN_BYTES * runs) == 0);
    CHECK(luw_audit(tight, sizeof tight, season_scratch, sizeof season_scratch) == LUW_ACCEPTED);
    tell_pages("rebuilt", tight, runs);

    season_changes(luw_withdraw, tight, sizeof tight, SEASON_BOOKINGS - SEASON_LIVE, SEASON_BOOKINGS);
    tell_pages("all withdrawn", tight, list_all(tight, sizeof tight, runs_of_tight));
}

/* What becomes of target and scratch at each refusal: the source's come first, and 16 of the target clears the scratch. */
static void refused_rebuilds(void) {
    static uint8_t target[sizeof image];
    bookings_by_hand();
    memset(scratch, 9, sizeof scratch);
    memset(target, 7, sizeof target);
    CHECK(luw_rebuild(image, 39, target, length, scratch, BORROWED) == LUW_IMAGE_LENGTH);
    CHECK(luw_rebuild(image, length - 1, target, length, scratch, BORROWED) == LUW_IMAGE_LENGTH);
    CHECK(luw_rebuild(image, length, target, length - 1, scratch, BORROWED - 1) == LUW_SCRATCH_SHORT);
    CHECK(luw_rebuild(NULL, 0, NULL, 0, NULL, 0) == LUW_IMAGE_LENGTH);
    CHECK(all(scratch, sizeof scratch, 9));
    CHECK(luw_rebuild(image, length, target, length - 1, scratch, sizeof scratch) == LUW_IMAGE_LENGTH);
    CHECK(all(scratch, BORROWED, 0) && all(scratch + BORROWED, 2, 9));
    CHECK(luw_rebuild(image, length, NULL, 0, scratch, sizeof scratch) == LUW_IMAGE_LENGTH);
    CHECK(luw_rebuild(image, length, target, 3 * page_bytes, scratch, sizeof scratch) == LUW_PAGES_LACKING);
    put(2, 4, capacity + 1, 4);
    CHECK(luw_rebuild(image, length, target, length - 1, scratch, sizeof scratch) == LUW_UNSOUND);
    CHECK(all(target, sizeof target, 7));
    /* 25 runs and 24 places in a page: leaves of 13 and 12 entries, where the bookings had left 12 and 13, and the root. */
    bookings_by_hand();
    CHECK(luw_rebuild(image, length, target, length, scratch, sizeof scratch) == LUW_ACCEPTED);
    CHECK(get(target + page_bytes + 4, 4) == 13 && get(target + 2 * page_bytes + 4, 4) == 12);
    CHECK(get(target + 3 * page_bytes, 4) == 1 && memcmp(target, image, page_bytes) == 0);
    CHECK(holds(luw_instant(target, length, 62), 1, 1, 2, 60, 65));
}

/* ---------------------------------------------------------------- the scratch */

/* A fresh image of any number of pages of 112 bytes, and a byte to lend for each. */
static uint8_t fresh[LUW_PAGE_BYTES(LUW_LEAST_CAPACITY) * LUW_MOST_PAGES], lent[LUW_MOST_PAGES];

/* Whether the borrowed bytes are 0 and all beyond still 9; then all are 9 again. */
static int cleared(size_t borrowed) {
    int so = all(lent, borrowed, 0) && all(lent + borrowed, sizeof lent - borrowed, 9);
    memset(lent, 9, sizeof lent);
    return so;
}

static void taken_with(size_t lent_length, size_t pages) {
    size_t fresh_length = LUW_PAGE_BYTES(LUW_LEAST_CAPACITY) * pages, borrowed = LUW_SCRATCH_BYTES(pages);
    CHECK(luw_enter(fresh, fresh_length, lent, lent_length, 6, 10, 40) == LUW_ACCEPTED && cleared(borrowed));
    CHECK(luw_withdraw(fresh, fresh_length, lent, lent_length, 6, 10, 40) == LUW_ACCEPTED && cleared(borrowed));
    CHECK(luw_audit(fresh, fresh_length, lent, lent_length) == LUW_ACCEPTED && cleared(borrowed));
    CHECK(luw_rebuild(fresh, fresh_length, image, 3 * 112, lent, lent_length) == LUW_ACCEPTED && cleared(borrowed));
}

/* A bit for each page is taken, and a byte less is turned back; of a byte for each page the rest keep what they held. */
static void scratches(void) {
    memset(lent, 9, sizeof lent);
    for (size_t pages = LUW_FEWEST_PAGES; pages <= LUW_MOST_PAGES; pages++) {
        size_t fresh_length = LUW_PAGE_BYTES(LUW_LEAST_CAPACITY) * pages, borrowed = LUW_SCRATCH_BYTES(pages);
        CHECK(luw_format(fresh, fresh_length, LUW_TOTALS, 0, LUW_LEAST_CAPACITY) == LUW_ACCEPTED);
        CHECK(luw_enter(fresh, fresh_length, lent, borrowed - 1, 6, 10, 40) == LUW_SCRATCH_SHORT);
        CHECK(luw_withdraw(fresh, fresh_length, lent, borrowed - 1, 6, 10, 40) == LUW_SCRATCH_SHORT);
        CHECK(luw_audit(fresh, fresh_length, lent, borrowed - 1) == LUW_SCRATCH_SHORT);
        CHECK(luw_rebuild(fresh, fresh_length, image, 3 * 112, lent, borrowed - 1) == LUW_SCRATCH_SHORT);
        CHECK(all(lent, sizeof lent, 9));
        taken_with(borrowed, pages);
        taken_with(pages, pages);
    }
    printf("scratch for 2, 8, 9 and 1024 pages: %zu, %zu, %zu and %zu bytes\n", LUW_SCRATCH_BYTES(2), LUW_SCRATCH_BYTES(8),
           LUW_SCRATCH_BYTES(9), LUW_SCRATCH_BYTES(LUW_MOST_PAGES));
}

/* ---------------------------------------------------------------- the capacity */

/* Pages of 4 entries, the smallest, in full; then the changes above with pages of every capacity. */
static void other_capacities(void) {
    use_capacity(LUW_LEAST_CAPACITY);
    CHECK(page_bytes == 112);
    bookings_by_hand();
    CHECK(luw_audit(image, length, scratch, BORROWED) == LUW_ACCEPTED);
    CHECK(holds(luw_instant(image, length, 22), 1, 1, 2, 20, 25) && holds(luw_instant(image, length, 15), 0, 0, 2, 15, 20));
    CHECK(listed(luw_listing(image, length, 0, LUW_END, output, sizeof output), LUW_ACCEPTED, 5));
    put(2, 4, 5, 4);
    CHECK(turned_back(luw_instant(image, length, 15), LUW_UNSOUND, 2));
    CHECK(holds(luw_instant(image, length, 14), 1, 1, 2, 10, 15));
    printf("5 entries in a page of 4: refused with %d\n", LUW_UNSOUND);
    for (uint32_t entries = LUW_LEAST_CAPACITY; entries <= LUW_MOST_CAPACITY; entries += 2) {
        use_capacity(entries);
        changes();
    }
    use_capacity(24);
}

/* An image from before the capacity was stored has FF in its place: it is one of 24, a change keeps FF, a rebuild writes 24. */
static void older_image(void) {
    bookings_by_hand();
    put(0, CAPACITY_AT, UINT32_MAX, 4);
    CHECK(luw_audit(image, length, scratch, BORROWED) == LUW_ACCEPTED);
    CHECK(holds(luw_instant(image, length, 122), 1, 1, 2, 120, 125));
    CHECK(turned_back(luw_instant(image, length - 1, 122), LUW_IMAGE_LENGTH, 0));
    CHECK(luw_enter(image, length, scratch, BORROWED, 5, 12, 122) == LUW_ACCEPTED);
    CHECK(holds(luw_instant(image, length, 121), 6, 2, 2, 120, 122));
    CHECK(luw_audit(image, length, scratch, BORROWED) == LUW_ACCEPTED);
    CHECK(get(image + 32, 4) == 13 && all(image + CAPACITY_AT, 4, 0xFF));
    CHECK(luw_rebuild(image, length, fresh, length, scratch, BORROWED) == LUW_ACCEPTED);
    CHECK(get(fresh + 32, 4) == 13 && get(fresh + CAPACITY_AT, 4) == 24);
    printf("FF for a capacity: read as 24, kept by a change, and written as 24 by a rebuild\n");
}

/* Every call but format is turned back by the capacity or the length, whatever other faults there are. */
static void refused_by_capacity(uint32_t status, size_t image_length) {
    CHECK(turned_back(luw_instant(image, image_length, LUW_END), status, 0));
    CHECK(averages(luw_average(image, image_length, LUW_END), status, LUW_NO_AVERAGE, 0));
    CHECK(listed(luw_listing(image, image_length, 5, 5, output, sizeof output), status, 0));
    CHECK(luw_audit(image, image_length, scratch, BORROWED - 1) == status);
    CHECK(luw_audit(image, image_length, scratch, BORROWED) == status);
    CHECK(luw_enter(image, image_length, scratch, BORROWED, LUW_MOST_VALUE + 1, 5, 5) == status);
    CHECK(luw_withdraw(image, image_length, scratch, BORROWED, 1, 5, 6) == status);
    CHECK(luw_rebuild(image, image_length, fresh, length - 1, scratch, BORROWED - 1) == status);
    CHECK(luw_rebuild(image, image_length, fresh, length, scratch, BORROWED) == status);
}

static void refused_capacities(void) {
    static const uint32_t bad[] = {0, 2, 3, 5, 23, 25, 26, 24 << 8, UINT32_MAX - 1};
    bookings_by_hand();
    memset(scratch, 9, sizeof scratch);
    for (size_t i = 0; i < sizeof bad / sizeof *bad; i++) {
        CHECK(luw_format(image, length - 1, 4, 0, bad[i]) == LUW_FORMAT_RANGE);
        CHECK(luw_format(NULL, 0, LUW_TOTALS, 0, bad[i]) == LUW_FORMAT_RANGE);
        put(0, CAPACITY_AT, bad[i], 4);
        refused_by_capacity(LUW_UNSOUND, length);
        refused_by_capacity(LUW_UNSOUND, length - 1);
        refused_by_capacity(LUW_UNSOUND, 40);
        refused_by_capacity(LUW_IMAGE_LENGTH, 39);
    }
    CHECK(luw_format(image, length, LUW_TOTALS, 0, UINT32_MAX) == LUW_FORMAT_RANGE);
    put(0, CAPACITY_AT, 22, 4);
    refused_by_capacity(LUW_IMAGE_LENGTH, length);
    CHECK(all(scratch, sizeof scratch, 9));
    printf("25 for a capacity: refused with %d at format, with %d in an image\n", LUW_FORMAT_RANGE, LUW_UNSOUND);
}

int main(void) {
    formats();
    bookings_by_hand();
    instants();
    averages_of_pairs();
    listings();
    audits();
    damage();
    changes();
    refused_changes();
    polling();
    after_a_season();
    refused_rebuilds();
    scratches();
    other_capacities();
    older_image();
    refused_capacities();
    printf("all as expected\n");
    return 0;
}
