/*
 * How much stack each call takes: it is made on a thread whose stack was filled with one byte before, and what is no longer
 * that byte afterwards was used; what an empty thread uses is taken off.
 *
 *     cc -std=c99 -Iinclude tests/c/stack.c target/staticlib/libluwhenoka.a -lpthread -Wl,-z,now -o target/stack && target/stack
 *
 * -z now: else the dynamic linker looks memcpy up at its first call, on the stack that is measured, and takes 2.7 KB there.
 *
 * Three loads of 1,024 pages, since some calls go down the tree by recursion. Pages of 24 entries go up to height 4, the
 * greatest that they come to, and back; pages of 4 entries go up to height 9, the greatest that changes lead to, and back.
 * The last image has height 10, the greatest of all: changes don't make one, so it is laid down by hand.
 *
 * Ends with status 1 if a call takes more than a load allows, or if the load didn't go as it should.
 */
#define _POSIX_C_SOURCE 200112L
#include <pthread.h>
#include <stdio.h>
#include <stdlib.h>
#include <string.h>

#include "luwhenoka.h"

#define PAGES 1024
#define MOST_BOOKINGS 2000
#define STACK (1 << 20)
#define MARK 0xA5

enum call { NOTHING, FORMAT, ENTER, INSTANT, AVERAGE, LISTING, AUDIT, REBUILD, WITHDRAW };

static const char *const names[] = {"nothing", "format", "enter",   "instant", "average",
                                    "listing", "audit",  "rebuild", "withdraw"};

/*
 * An image with value 1 on [10, 15), [20, 25) and so on. These bookings are entered one after the other, or stand in an image
 * made by hand; in both cases they are withdrawn in the end. `most` is what a call may take, in bytes.
 */
struct load {
    uint32_t capacity;
    uint32_t bookings;
    uint32_t height;
    int by_hand;
    size_t most;
};

static const struct load loads[] = {{24, 2000, 4, 0, 4096}, {4, 500, 9, 0, 8192}, {4, 512, 10, 1, 8192}};

static const struct load *load;
static unsigned char image[PAGES * LUW_PAGE_BYTES(LUW_MOST_CAPACITY)], scratch[LUW_SCRATCH_BYTES(PAGES)];
static unsigned char output[(2 * MOST_BOOKINGS + 1) * LUW_RUN_BYTES], target[sizeof image / 2];
static size_t image_length;
static int wrong;

/* ---------------------------------------------------------------- the image of height 10 */

static void put(size_t at, uint64_t number, int bytes) {
    int i;
    for (i = 0; i < bytes; i++) {
        image[at + i] = (unsigned char)(number >> (8 * i));
    }
}

/* The leaf entries start at 0, 10, 15, 20, 25 .., and every second one has the pair (1, 1); the last ends at LUW_END. */
static uint32_t start_of(uint32_t i) {
    return i == 0 ? 0 : 10 * ((i + 1) / 2) + (i % 2 == 0 ? 5 : 0);
}

static void put_entry(size_t page, uint32_t i, uint32_t start, uint32_t pair, uint32_t child) {
    size_t entry = page + 32 + 4 * load->capacity + 16 * i;
    put(page + 32 + 4 * i, start, 4);
    put(entry, pair, 8);
    put(entry + 8, pair, 4);
    put(entry + 12, child, 4);
}

/*
 * Every page but the head has 2 entries, and the pages below page p are 2 x p and 2 x p + 1: so 1,023 pages have height 10.
 * The leaves are the pages from 512 on, and the first leaf entry below a page is found by going down to the left.
 */
static void lay_down(void) {
    const uint32_t head[10] = {PAGES, 10, 1, 0, 0, PAGES, LUW_TOTALS, 0, load->bookings, load->capacity};
    uint32_t p, i;
    memset(image, 0xFF, image_length);
    for (i = 0; i < 10; i++) {
        put(4 * i, head[i], 4);
    }
    for (p = 1; p < PAGES; p++) {
        size_t page = p * LUW_PAGE_BYTES(load->capacity);
        uint32_t level = 0, leaf = p;
        while (leaf < PAGES / 2) {
            leaf *= 2;
            level++;
        }
        put(page, level, 4);
        put(page + 4, 2, 4);
        for (i = 0; i < 2; i++) {
            uint32_t first = 2 * (leaf - PAGES / 2) + (i << level);
            put_entry(page, i, start_of(first), level == 0 ? first % 2 : 0, level == 0 ? 0 : 2 * p + i);
        }
    }
}

/* ---------------------------------------------------------------- the calls */

/* The bookings; where they stand in the image already, a longer one that cuts two leaves, and is withdrawn again. */
static void enter(void) {
    uint32_t i, e = 10 * load->bookings - 8;
    if (load->by_hand) {
        wrong |= luw_enter(image, image_length, scratch, sizeof scratch, 1, 12, e) != 0;
        wrong |= luw_withdraw(image, image_length, scratch, sizeof scratch, 1, 12, e) != 0;
    }
    for (i = 1; i <= load->bookings && !load->by_hand; i++) {
        wrong |= luw_enter(image, image_length, scratch, sizeof scratch, 1, 10 * i, 10 * i + 5) != 0;
    }
    wrong |= image[4] != load->height;
}

/* In the image made by hand every page is as small as it may be, and the first withdrawal merges pages up to the root. */
static void withdraw(void) {
    uint32_t i;
    for (i = 1; i <= load->bookings; i++) {
        uint32_t e = load->by_hand && i == load->bookings ? LUW_END : 10 * i + 5;
        wrong |= luw_withdraw(image, image_length, scratch, sizeof scratch, 1, 10 * i, e) != 0;
    }
}

static void *make(void *call) {
    switch (*(enum call *)call) {
    case NOTHING:
        break;
    case FORMAT:
        wrong |= luw_format(image, image_length, LUW_TOTALS, 0, load->capacity) != 0;
        break;
    case ENTER:
        enter();
        break;
    case INSTANT:
        wrong |= luw_instant(image, image_length, 10 * load->bookings).pages != load->height;
        break;
    case AVERAGE:
        wrong |= luw_average(image, image_length, 10 * load->bookings).hundredths != 100;
        break;
    case LISTING:
        wrong |= luw_listing(image, image_length, 0, LUW_END, output, sizeof output).runs < 2 * load->bookings;
        break;
    case AUDIT:
        wrong |= luw_audit(image, image_length, scratch, sizeof scratch) != 0;
        break;
    case REBUILD:
        wrong |= luw_rebuild(image, image_length, target, image_length / 2, scratch, sizeof scratch) != 0;
        break;
    case WITHDRAW:
        withdraw();
        break;
    }
    return NULL;
}

/* ---------------------------------------------------------------- the measure */

static size_t used(unsigned char *stack, enum call call) {
    pthread_attr_t attr;
    pthread_t thread;
    size_t left = 0;
    memset(stack, MARK, STACK);
    if (pthread_attr_init(&attr) != 0 || pthread_attr_setstack(&attr, stack, STACK) != 0 ||
        pthread_create(&thread, &attr, make, &call) != 0 || pthread_join(thread, NULL) != 0) {
        fputs("stack: no thread\n", stderr);
        exit(1);
    }
    while (left < STACK && stack[left] == MARK) {
        left++;
    }
    return STACK - left;
}

static void measure(unsigned char *stack, size_t empty) {
    int call;
    printf("%lu entries a page, height %lu\n", (unsigned long)load->capacity, (unsigned long)load->height);
    for (call = FORMAT; call <= WITHDRAW; call++) {
        size_t bytes;
        if (call == ENTER && load->by_hand) {
            lay_down();
        }
        bytes = used(stack, (enum call)call) - empty;
        printf("%-8s %6lu bytes of stack\n", names[call], (unsigned long)bytes);
        wrong |= bytes > load->most;
    }
}

int main(void) {
    void *stack;
    size_t empty, i;
    if (posix_memalign(&stack, 65536, STACK) != 0) {
        return 1;
    }
    empty = used(stack, NOTHING);
    for (i = 0; i < sizeof loads / sizeof *loads; i++) {
        load = &loads[i];
        image_length = PAGES * LUW_PAGE_BYTES(load->capacity);
        measure(stack, empty);
    }
    free(stack);
    return wrong;
}
