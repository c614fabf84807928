/*
 * Soundness by counting, and the audit. A page is fit at no two places, so an image is sound exactly if head and tree are
 * fit, the free list ends after exactly its length, tree pages and free pages are all pages below the high mark but the
 * head, and all is FF from the high mark on. Nothing has to be marked: the scratch only has to be 0 afterwards. An image of
 * totals has besides no two neighbouring leaf entries with equal totals.
 */
#include "page.h"
#include "peer.h"

/*
 * A walk over the tree's pages in the order of time. For totals it keeps the total of the last leaf entry met, and what the
 * entries above a page add to goes down with it: at an edge between leaves two totals are compared, and no page is read again.
 */
struct walk {
    const uint8_t *image;
    struct pair last;
};

/* What no total is, for the walk's begin: a total is at most MOST_SUM. */
#define NOTHING_MET INT64_MAX

/* Whether no entry of a fit leaf has the same total as the one before it, in the leaf or in the last one met. */
static inline bool leaf_differs(struct walk *walk, const uint8_t *leaf, struct pair above) {
    uint32_t entries = entry_count(leaf);
    struct pair first = combine(TOTALS, above, pair_of(leaf, 0));
    bool edge_differs = (first.sum != walk->last.sum) | (first.count != walk->last.count);
    walk->last = combine(TOTALS, above, pair_of(leaf, entries - 1));
    return edge_differs && neighbours_differ(leaf, entries);
}

/* Whether the leaves below a fit page of level 1 are fit, and for totals differ. */
static bool leaves_fit(struct walk *walk, const uint8_t *page, const struct place *at, struct pair above) {
    uint32_t entries = entry_count(page);
    for (uint32_t i = 0; i < entries; i++) {
        const uint8_t *leaf = walk->image + PAGE_BYTES * child_of(page, i);
        struct place leaf_at = child_place(at, page, i);
        if (!page_fits(leaf, &leaf_at)) {
            return false;
        }
        if (at->kind == TOTALS && !leaf_differs(walk, leaf, combine(TOTALS, above, pair_of(page, i)))) {
            return false;
        }
    }
    return true;
}

/* The number of pages below a fit inner page, or 0 if one of them is unfit or totals don't differ. */
static uint32_t count_below(struct walk *walk, const uint8_t *page, const struct place *at, struct pair above) {
    uint32_t entries = entry_count(page);
    if (at->level == 1) {
        return leaves_fit(walk, page, at, above) ? entries : 0;
    }
    uint32_t pages = entries;
    for (uint32_t i = 0; i < entries; i++) {
        const uint8_t *child = walk->image + PAGE_BYTES * child_of(page, i);
        struct place child_at = child_place(at, page, i);
        if (!page_fits(child, &child_at)) {
            return 0;
        }
        uint32_t below = count_below(walk, child, &child_at, combine(TOTALS, above, pair_of(page, i)));
        if (below == 0) {
            return 0;
        }
        pages += below;
    }
    return pages;
}

/* The number of tree pages, or 0 if one is unfit or totals don't differ. */
static uint32_t count_tree(const uint8_t *image, const struct head *head) {
    const uint8_t *root = image + PAGE_BYTES * head->root;
    struct place at = root_place(head);
    if (!root_fits(root, &at)) {
        return 0;
    }
    struct walk walk = {image, {NOTHING_MET, 0}};
    struct pair nothing = {0, 0};
    if (at.level == 0) {
        return at.kind != TOTALS || leaf_differs(&walk, root, nothing) ? 1 : 0;
    }
    uint32_t below = count_below(&walk, root, &at, nothing);
    return below == 0 ? 0 : below + 1;
}

/* Whether the free list ends after exactly its length, which is below n. */
static bool free_list_fits(const uint8_t *image, const struct head *head) {
    uint32_t number = head->first_free;
    for (uint32_t i = 0; i < head->free_length; i++) {
        if (number - 1 >= head->n - 1 || !free_page_fits(image + PAGE_BYTES * number)) {
            return false;
        }
        number = load32(image + PAGE_BYTES * number + 4);
    }
    return number == 0;
}

bool is_sound(const uint8_t *image, uint32_t n, struct head *head) {
    if (!head_fits(image, n, head)) {
        return false;
    }
    uint32_t tree_pages = count_tree(image, head);
    return tree_pages != 0
        && (uint64_t)tree_pages + head->free_length == head->high_mark - 1
        && free_list_fits(image, head)
        && pages_unused(image + PAGE_BYTES * head->high_mark, n - head->high_mark);
}

uint32_t peer_audit(const uint8_t *image, size_t image_length, uint8_t *scratch, size_t scratch_length) {
    uint32_t n;
    uint32_t status = judge(image, image_length, &n);
    if (status != ACCEPTED) {
        return status;
    }
    if (scratch_length < SCRATCH_BYTES(n)) {
        return SCRATCH_SHORT;
    }
    memset(scratch, 0, SCRATCH_BYTES(n));
    struct head head;
    return is_sound(image, n, &head) ? ACCEPTED : UNSOUND;
}
