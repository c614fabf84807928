/*
 * Luwhenoka: a time index in an image of pages that the caller lends.
 *
 * Every call may be handed any image, capacity, span, instant, value and buffer, unchecked. It returns, and the status tells
 * what it turns back. The archive is libluwhenoka.a (`tools/archive`); it needs no other library but memset and
 * memcpy of the C library, takes no memory of its own and keeps nothing between two calls.
 *
 * Time and value. Instants are 0 to 4,294,967,294; LUW_END is no instant. A span [s, e) has s < e <= LUW_END. A value is
 * -1,000,000 to 1,000,000. An index has a kind and a window w, both set at format. A booking on [s, e) counts from s up to
 * but not including e + w, or LUW_END if that is less.
 *
 * Pages. The capacity K, the number of entries that a page has room for, is an even number from 4 to 24, and a page has
 * 32 + 20 x K bytes: 112 at K = 4, 512 at K = 24. It is set at format and stands in the image from then on, as a uint32_t in
 * bytes 36 to 39. Every other call reads it there. An older image, made before there was such a field, has FF in these four
 * bytes and is read as K = 24. A change keeps them as they are; a rebuild writes the number.
 *
 * Joined entries. Where two neighbouring leaf entries of a kind 1 index come to have the same sum and count, a change makes
 * them one, in a page and across the edge between two pages. A kind 1 image is sound only if it has no such two, so its leaf
 * entries are as many as the runs of its full listing. An image that was changed before entries were joined across pages
 * may have some: luw_instant, luw_average and luw_listing answer it, luw_audit, luw_enter and luw_withdraw refuse it with 21,
 * and luw_rebuild reads it and writes a sound one.
 *
 * Buffers. A buffer is a pointer and its length in bytes; no pointer need be aligned, and null is fine with length 0.
 * Buffers of one call must not overlap: nothing is promised where they do. Nor is it where somebody else writes one of them
 * during the call.
 *
 *   image     (32 + 20 x K) x n bytes for an n from 2 to 1,024 at every K, the pages of docs/FORMAT.md.
 *             Only luw_format, luw_enter and luw_withdraw write it. luw_rebuild has two: it reads its source and writes
 *             its target, which may hold anything and has as many pages as the caller chooses.
 *   scratch   at least LUW_SCRATCH_BYTES(n), that is n / 8 bytes, rounded up, of any content: 128 are always enough. For
 *             luw_rebuild n is the source's.
 *   output    16 bytes for each run that a listing writes; any length.
 *
 * The status that a call returns. 0 is accepted; every other one is a refusal. Where several would apply, the first of this
 * order is returned: 16, 17, 11 or 12, 13, 14, 21, 22, 23, 24, and 15 last. Only the capacity is judged ahead of it, since
 * the image's length is judged by the capacity:
 *
 *   luw_format        14 for the capacity; then 16, by that capacity; then 14 for kind or window
 *   any other call    16 if the image is under 40 bytes long; then 21 if bytes 36 to 39 are neither all FF nor an even
 *   with an image     number from 4 to 24, with the scratch untouched and no page read; then 16, by the capacity that they
 *                     name, and on in the order above
 *   luw_rebuild       all of that for the source, with 17 and 21; only then 16 of the target, by the source's capacity, and
 *                     24
 *
 *   turned back by the input
 *     11  LUW_SPAN_EMPTY      span with s >= e, or a >= b                          enter, withdraw, listing
 *     12  LUW_INSTANT_END     instant LUW_END                                      instant, average
 *     13  LUW_VALUE_RANGE     value outside its range                              enter, withdraw
 *     14  LUW_FORMAT_RANGE    capacity, kind or window outside its range           format
 *     15  LUW_OUTPUT_SHORT    output shorter than the runs                         listing
 *     16  LUW_IMAGE_LENGTH    image length not (32 + 20 x K) x n for an n in range all but luw_average_of
 *     17  LUW_SCRATCH_SHORT   scratch shorter than LUW_SCRATCH_BYTES(n)            audit, enter, withdraw, rebuild
 *   turned back by the state
 *     21  LUW_UNSOUND         the image's field for its capacity names none; else
 *                             instant, average, listing: a page met is unfit;
 *                             audit, enter, withdraw: the image is not sound, for kind 1
 *                             also if two neighbouring leaf entries have the same sum and
 *                             count;
 *                             rebuild: the source is not sound, where such neighbours
 *                             don't count
 *     22  LUW_WITHDRAWAL_KIND the kind is 2 or 3                                   withdraw
 *     23  LUW_CHANGES_FULL    the index has had 1,000,000,000 changes              enter, withdraw
 *     24  LUW_PAGES_LACKING   the change's cuts take more pages than are left      enter, withdraw
 *                             the target has fewer pages than the runs take        rebuild
 *
 * A refusal returns its status with zeros for every answer (luw_instant: the pages read too), and image, target and output
 * keep their bytes. What becomes of the scratch is said at luw_audit, luw_enter and luw_rebuild.
 */
#ifndef LUWHENOKA_H
#define LUWHENOKA_H

#include <stddef.h>
#include <stdint.h>

#ifdef __cplusplus
extern "C" {
#endif

/* The end of time, which is no instant. */
#define LUW_END UINT32_C(4294967295)

/* The least and the greatest capacity of a page, which is an even number; the bytes of a page of a capacity. */
#define LUW_LEAST_CAPACITY 4
#define LUW_MOST_CAPACITY 24
#define LUW_PAGE_BYTES(capacity) (32 + 20 * (size_t)(capacity))

/* The fewest and the most pages of an image; the bytes of scratch that a call borrows for so many pages, up to the most;
 * bytes of a run. */
#define LUW_FEWEST_PAGES 2
#define LUW_MOST_PAGES 1024
#define LUW_SCRATCH_BYTES(pages) (((size_t)(pages) + 7) / 8)
#define LUW_RUN_BYTES 16

/* Kinds. */
#define LUW_TOTALS 1
#define LUW_GREATEST 2
#define LUW_LEAST 3

/* The greatest window. */
#define LUW_MOST_WINDOW 1000000000

/* The greatest value; the least is its opposite. */
#define LUW_MOST_VALUE 1000000

/* What a call returns: its status. */
#define LUW_ACCEPTED 0
#define LUW_SPAN_EMPTY 11
#define LUW_INSTANT_END 12
#define LUW_VALUE_RANGE 13
#define LUW_FORMAT_RANGE 14
#define LUW_OUTPUT_SHORT 15
#define LUW_IMAGE_LENGTH 16
#define LUW_SCRATCH_SHORT 17
#define LUW_UNSOUND 21
#define LUW_WITHDRAWAL_KIND 22
#define LUW_CHANGES_FULL 23
#define LUW_PAGES_LACKING 24

/* Cases of an average. */
#define LUW_NO_AVERAGE 0
#define LUW_HUNDREDTHS 1
#define LUW_BEYOND 2

/*
 * Makes the image an empty index of n pages, whatever it held. Every byte of it is written: height 1, no changes, the
 * capacity as a number, also if it is 24; one leaf with one entry that starts at 0 and has the pair (0, 0); all pages
 * behind it are FF.
 *
 * kind is 1 (totals), 2 (greatest) or 3 (least); window is 0 to 1,000,000,000; capacity is 4, 6, 8 .. 24. Refusals: 14 for
 * the capacity, 16, 14 for kind or window; the image keeps its bytes.
 */
uint32_t luw_format(uint8_t *image, size_t image_length, uint32_t kind, uint32_t window, uint32_t capacity);

/*
 * What holds at an instant. Kind 1: the sum and the count of what counts there; an entry adds its value and 1 to them, a
 * withdrawal takes them away, so that a count may be below 0. Kinds 2 and 3: the greatest or least value, with count 1;
 * 0 and 0 where nothing counts.
 *
 * pages is the number of tree pages read: the height of the tree (1 to 10) if answered. At 21 it is the number of pages up
 * to and including the unfit one, or 0 if that is the head or the capacity is bad. At 16 and 12 it is 0.
 *
 * start and end are those of the leaf entry that has t: start <= t < end, and end is LUW_END for the last one. Every
 * instant of [start, end) gets this same answer, in all its fields, as long as the image isn't changed: nobody need ask
 * again before end. For kind 1, in every sound image, they are the start and the end of the run of the full listing that has
 * t: right before start, and at end, sum or count is another. For kinds 2 and 3, and in an image of kind 1 from before entries
 * were joined across pages, sum and count may hold for longer, since neighbouring leaf entries may have equal ones; a listing
 * joins them, an instant doesn't. At every refusal start and end are 0. A program that was compiled with a header without
 * start and end has to be compiled anew: the struct was smaller.
 */
struct luw_instant_answer {
    uint32_t status;
    uint32_t pages;
    int64_t sum;
    int32_t count;
    uint32_t start; /* from this instant on, which is t or earlier */
    uint32_t end;   /* up to but not including this one, which is later than t; LUW_END: to the end of time */
};

/*
 * The pair at instant t, of all entries on the way from the root to the leaf that has t, combined; and the span of the
 * last of them. Only the head and the pages on that way are looked at, each as a whole: damage elsewhere doesn't matter.
 * Refusals: 16, 12, 21, and 21 for the capacity ahead of them; sum, count, start and end are then 0.
 */
struct luw_instant_answer luw_instant(const uint8_t *image, size_t image_length, uint32_t t);

/*
 * An average in hundredths. answer tells the case:
 *
 *   0  LUW_NO_AVERAGE  there is none: the count is 0 or less, or the kind isn't 1; also at every refusal
 *   1  LUW_HUNDREDTHS  hundredths is the whole number nearest 100 x sum / count, of two that are equally near the even one:
 *                      -12 for -1 over 8, 0 for -1 over 200, 2 for 3 over 200
 *   2  LUW_BEYOND      from luw_average_of alone: there is an average, but the sum is above 10^15 or below -10^15, which
 *                      no fit page can show
 *
 * hundredths is 0 in cases 0 and 2.
 */
struct luw_average_answer {
    uint32_t status;
    uint32_t answer;
    int64_t hundredths;
};

/*
 * The average at instant t: that of the pair which luw_instant answers there. Refusals: 16, 12, 21, as at luw_instant. For
 * kinds 2 and 3 it is accepted, with no average.
 */
struct luw_average_answer luw_average(const uint8_t *image, size_t image_length, uint32_t t);

/*
 * The average of a pair of a kind, for instance of a run that was listed. Takes any numbers; status is always 0.
 */
struct luw_average_answer luw_average_of(uint32_t kind, int64_t sum, int32_t count);

/* A listing's answer: the number of runs that were written, 0 at every refusal. */
struct luw_listing_answer {
    uint32_t status;
    uint32_t runs;
};

/*
 * The runs over the span [a, b): the first starts at a, and a next one wherever the pair changes, sum or count. A run ends
 * where the next one starts, the last one at b. Over [0, LUW_END) it is the full listing.
 *
 * Each run is 16 bytes of the output, little-endian: start (uint32_t), count (int32_t), sum (int64_t). Bytes past the last
 * run keep what they held. An image of n pages shows at most K x (n - 1) runs, so 16 x K x (n - 1) bytes are always enough.
 *
 * Only the head, the root and the pages whose span overlaps [a, b) are looked at. Refusals: 16, 11, 21, 15, and 21 for the
 * capacity ahead of them; the output then keeps every byte, also where it would have had room for some of the runs.
 */
struct luw_listing_answer luw_listing(const uint8_t *image, size_t image_length, uint32_t a, uint32_t b,
                                      uint8_t *output, size_t output_length);

/*
 * Whether the image is sound: head and all tree pages are fit, each page below the high mark but the head is once in the
 * tree or once in the chain of free pages, the chain is as long as the head says, free and never used pages read as they
 * should, and for kind 1 no two neighbouring leaf entries have the same sum and count, in a page or across the edge of one.
 * Returns 0 if it is. Refusals: 16, 17, 21, and 21 for the capacity ahead of them.
 *
 * The first LUW_SCRATCH_BYTES(n) bytes of the scratch are 0 after 0, and after 21 where the capacity is good; any beyond
 * keep theirs. At 16, at 17 and at 21 for the capacity the scratch is untouched: n is not known without a capacity.
 */
uint32_t luw_audit(const uint8_t *image, size_t image_length, uint8_t *scratch, size_t scratch_length);

/*
 * Books the value v on the span [s, e): from s up to but not including e + window, or LUW_END if that is less, it counts at
 * every instant. Kind 1 adds v to the sum and 1 to the count there; kinds 2 and 3 keep the greatest or least value.
 *
 * A refused change leaves every byte of the image. An accepted one leaves a sound image whose count of changes is one
 * higher. It may cut the tree's entries at both ends of what it covers, and each cut may take a page a level, and one more
 * for a new root, from the chain of free pages or at the high mark; 24 tells that there are not so many left. The cuts alone
 * decide that: pages that the same change would give back, where entries are joined afterwards, are not counted.
 *
 * A sound image of kind 1 whose full listing has m runs has m leaf entries, and its tree has at most
 * 1 + (m - r) / (K / 2 - 1) pages; r is 1 if the root is a leaf, else 2.
 *
 * Refusals: 16, 17, 11, 13, 21, 23, 24, and 21 for the capacity ahead of them. The first LUW_SCRATCH_BYTES(n) bytes of the
 * scratch are 0 after 0, 22, 23 and 24, and after 21 where the capacity is good; any beyond keep theirs. At 16, 17, 11, 13
 * and at 21 for the capacity the scratch is untouched.
 */
uint32_t luw_enter(uint8_t *image, size_t image_length, uint8_t *scratch, size_t scratch_length,
                   int64_t v, uint32_t s, uint32_t e);

/*
 * Takes the value v on the span [s, e) away again: -v and -1 are added where luw_enter would add v and 1, whether or not
 * such a booking is live. Kind 1 only. A withdrawal may need a page too, and be refused with 24, also where it would have
 * given one back.
 *
 * An index from which all that was entered has been withdrawn, in any order, is one leaf with one entry again, and its height
 * is 1. The pages that it had are free, and its changes stay counted.
 *
 * Refusals: 16, 17, 11, 13, 21, 22, 23, 24, and 21 for the capacity ahead of them; image and scratch as at luw_enter.
 */
uint32_t luw_withdraw(uint8_t *image, size_t image_length, uint8_t *scratch, size_t scratch_length,
                      int64_t v, uint32_t s, uint32_t e);

/*
 * Writes the index of the source into the target, as tight as it can be. Pages that are half full and free ones pile up over
 * many changes, for kinds 2 and 3 also leaf entries that no listing shows; the target has the fewest pages that its runs can
 * have. It may have fewer pages than the source, as many or more.
 *
 * Of the source the last point of luw_audit is not asked: neighbouring leaf entries of kind 1 with the same sum and count,
 * which it may have from before they were joined across pages, become one in the target. The target is sound, and changes
 * can go on there.
 *
 * The target lists what the source lists, its instants have the source's sums and counts, and further changes, where they
 * are accepted, do to its listing what they would have done to the source's. Kind, window, capacity and the number of changes
 * are the source's. Its leaf entries are the runs of the full listing. Every byte of the target is written, whatever it held,
 * some of them more than once, since the target is all the memory that the call works in:
 *
 *   head     no free pages; the high mark behind the last page used; the capacity as a number, also if the source has FF
 *   leaves   from page 1 on in the order of time, in the fewest pages that have room for the runs; all of them have as many
 *            entries, or the first ones one more than the others
 *   inner    behind the leaves each level in the same way, with pairs (0, 0); the root is the last page used
 *   rest     FF
 *
 * So for m runs a target needs a page for its head, a page for each K runs, a page for each K of those, and so on up to a
 * single one, each time rounded up. 24 tells that it has fewer. A target of as many pages as the source uses, its head among
 * them, is always large enough, and so is one of the source's own length.
 *
 * Refusals: 16, 17, 21 of the source, and 21 for its capacity ahead of them; then 16 if the target isn't 2 to 1,024 pages
 * of the source's capacity; then 24. There is no 23, since a rebuild is no change. The source always keeps its bytes, the
 * target at every refusal. With n for the source's pages, the first LUW_SCRATCH_BYTES(n) bytes of the scratch are 0 after 0,
 * after 21 where the capacity is good, after 16 of the target and after 24; any beyond keep theirs. At 16 and 17 of the
 * source and at 21 for its capacity the scratch is untouched.
 */
uint32_t luw_rebuild(const uint8_t *source, size_t source_length, uint8_t *target, size_t target_length,
                     uint8_t *scratch, size_t scratch_length);

#ifdef __cplusplus
}
#endif

#endif
