/*
 * The peer: the same index in plain C, unproved and written for speed, so that the proved library can be held against it.
 *
 * The calls, statuses and answers are those of include/luwhenoka.h, with peer_ for luw_; images are made elsewhere. Every
 * check that the library makes is made here too, and no other. Pages have 24 entries, a number that the compiler knows: an
 * image with pages of another capacity, which the library takes, counts as unfit here. The host is little-endian, as the
 * pages are.
 */
#ifndef PEER_H
#define PEER_H

#include <stddef.h>
#include <stdint.h>

struct peer_instant_answer {
    uint32_t status;
    uint32_t pages;
    int64_t sum;
    int32_t count;
    uint32_t start;
    uint32_t end;
};

struct peer_average_answer {
    uint32_t status;
    uint32_t answer;
    int64_t hundredths;
};

struct peer_listing_answer {
    uint32_t status;
    uint32_t runs;
};

struct peer_instant_answer peer_instant(const uint8_t *image, size_t image_length, uint32_t t);

/* The same with no search: the index of t's entry is known for each page from the root on. It tells what a search costs. */
struct peer_instant_answer peer_instant_known(const uint8_t *image, size_t image_length, uint32_t t, const uint8_t *known);

/* answer is 0 for none, 1 for hundredths, 2 for a sum that no fit page can show. */
struct peer_average_answer peer_average_of(uint32_t kind, int64_t sum, int32_t count);

struct peer_average_answer peer_average(const uint8_t *image, size_t image_length, uint32_t t);

struct peer_listing_answer peer_listing(const uint8_t *image, size_t image_length, uint32_t a, uint32_t b,
                                        uint8_t *output, size_t output_length);

uint32_t peer_audit(const uint8_t *image, size_t image_length, uint8_t *scratch, size_t scratch_length);

uint32_t peer_enter(uint8_t *image, size_t image_length, uint8_t *scratch, size_t scratch_length,
                    int64_t v, uint32_t s, uint32_t e);

uint32_t peer_withdraw(uint8_t *image, size_t image_length, uint8_t *scratch, size_t scratch_length,
                       int64_t v, uint32_t s, uint32_t e);

#endif
