/* Enter and withdraw: the refusals, the count of pages for 24, and the five steps on the bytes where they are. */
#include "page.h"
#include "peer.h"

/* The image in work, and its head, which is written back at the end. */
struct tree {
    uint8_t *image;
    struct head head;
};

/* What a change brings into its span [s, e). */
struct effect {
    struct pair pair;
    uint32_t s;
    uint32_t e;
};

static inline uint8_t *page_at(const struct tree *tree, uint32_t number) {
    return tree->image + PAGE_BYTES * number;
}

/* ------------------------------------------------------------ edits of a page */

static inline void set_entry_count(uint8_t *page, uint32_t entries) {
    store32(page + 4, entries);
}

static inline void set_start(uint8_t *page, uint32_t i, uint32_t start) {
    store32(page + STARTS_AT + START_BYTES * i, start);
}

static inline uint8_t *entry_bytes(uint8_t *page, uint32_t i) {
    return page + ENTRIES_AT + ENTRY_BYTES * i;
}

static inline uint8_t *start_bytes(uint8_t *page, uint32_t i) {
    return page + STARTS_AT + START_BYTES * i;
}

static inline void set_entry(uint8_t *page, uint32_t i, struct entry entry) {
    memcpy(entry_bytes(page, i), &entry, ENTRY_BYTES);
}

static inline void set_pair(uint8_t *page, uint32_t i, struct pair pair) {
    memcpy(entry_bytes(page, i), &pair.sum, 8);
    memcpy(entry_bytes(page, i) + 8, &pair.count, 4);
}

static inline bool is_full(const uint8_t *page) {
    return entry_count(page) == MOST_ENTRIES;
}

static void insert_entry(uint8_t *page, uint32_t i, uint32_t start, struct entry entry) {
    uint32_t entries = entry_count(page);
    memmove(start_bytes(page, i + 1), start_bytes(page, i), START_BYTES * (entries - i));
    memmove(entry_bytes(page, i + 1), entry_bytes(page, i), ENTRY_BYTES * (entries - i));
    set_start(page, i, start);
    set_entry(page, i, entry);
    set_entry_count(page, entries + 1);
}

static void remove_entry(uint8_t *page, uint32_t i) {
    uint32_t last = entry_count(page) - 1;
    memmove(start_bytes(page, i), start_bytes(page, i + 1), START_BYTES * (last - i));
    memmove(entry_bytes(page, i), entry_bytes(page, i + 1), ENTRY_BYTES * (last - i));
    memset(start_bytes(page, last), 0xFF, START_BYTES);
    memset(entry_bytes(page, last), 0xFF, ENTRY_BYTES);
    set_entry_count(page, last);
}

/* Copies the entries of one page from `from` on to the end of another. */
static void append_entries(uint8_t *to, const uint8_t *page, uint32_t from) {
    uint32_t moved = entry_count(page) - from;
    uint32_t entries = entry_count(to);
    memcpy(start_bytes(to, entries), starts_of(page) + START_BYTES * from, START_BYTES * moved);
    memcpy(entry_bytes(to, entries), entries_of(page) + ENTRY_BYTES * from, ENTRY_BYTES * moved);
    set_entry_count(to, entries + moved);
}

/* Takes away the entries from `from` on. */
static void cut_off_entries(uint8_t *page, uint32_t from) {
    uint32_t gone = entry_count(page) - from;
    memset(start_bytes(page, from), 0xFF, START_BYTES * gone);
    memset(entry_bytes(page, from), 0xFF, ENTRY_BYTES * gone);
    set_entry_count(page, from);
}

/* Combines a pair into the entries from `from` on, below `to`; totals have a loop of their own. */
static void combine_entries(uint32_t kind, uint8_t *page, uint32_t from, uint32_t to, struct pair pair) {
    if (kind == TOTALS) {
        for (uint32_t i = from; i < to; i++) {
            set_pair(page, i, combine(TOTALS, pair_of(page, i), pair));
        }
        return;
    }
    for (uint32_t i = from; i < to; i++) {
        set_pair(page, i, combine(kind, pair_of(page, i), pair));
    }
}

/* ------------------------------------------------------------ the free list */

/*
 * A page from the front of the free list, else at the high mark, made an empty page of a level. All of it is FF but a free
 * page's first 8 bytes, which are written here, so nothing else has to be.
 */
static uint32_t take_page(struct tree *tree, uint32_t level) {
    struct head *head = &tree->head;
    uint32_t number = head->first_free;
    if (number != 0) {
        head->first_free = load32(page_at(tree, number) + 4);
        head->free_length -= 1;
    } else {
        number = head->high_mark++;
    }
    store32(page_at(tree, number), level);
    set_entry_count(page_at(tree, number), 0);
    return number;
}

static void give_back_page(struct tree *tree, uint32_t number) {
    uint8_t *page = page_at(tree, number);
    memset(page, 0xFF, PAGE_BYTES);
    store32(page, FREE_LEVEL);
    store32(page + 4, tree->head.first_free);
    tree->head.first_free = number;
    tree->head.free_length += 1;
}

/* ------------------------------------------------------------ paths */

/* The pages on the path to an instant and the entry taken in each, by level: 0 is the leaf. */
struct path {
    uint32_t page[MOST_LEVELS];
    uint32_t entry[MOST_LEVELS];
};

static void find_path(const struct tree *tree, uint32_t t, struct path *path) {
    uint32_t number = tree->head.root;
    for (uint32_t level = tree->head.height; level-- > 0;) {
        const uint8_t *page = page_at(tree, number);
        uint32_t i = entry_at(page, t);
        path->page[level] = number;
        path->entry[level] = i;
        number = child_of(page, i);
    }
}

/* Whether the path's instant starts a leaf entry. */
static bool starts_leaf_entry(const struct tree *tree, const struct path *path, uint32_t t) {
    return start_of(page_at(tree, path->page[0]), path->entry[0]) == t;
}

/* ------------------------------------------------------------ pages that the cuts take */

/* A cut: its instant, whether it cuts anything, the path, and up to which level pages are full and split. */
struct cut {
    uint32_t t;
    bool cuts;
    struct path path;
    uint32_t splits;
};

/* A page for each split, and one for a new root where the root is split too. */
static uint32_t pages_taken(const struct tree *tree, const struct cut *cut) {
    return cut->splits + (cut->splits == tree->head.height);
}

static void plan_cut(const struct tree *tree, uint32_t t, struct cut *cut) {
    memset(cut, 0, sizeof *cut);
    cut->t = t;
    if (t != END) {
        find_path(tree, t, &cut->path);
        cut->cuts = !starts_leaf_entry(tree, &cut->path, t);
    }
}

/* The first cut: from the leaf up, each full page splits. */
static void plan_splits(const struct tree *tree, struct cut *cut) {
    uint32_t level = 0;
    while (cut->cuts && level < tree->head.height && is_full(page_at(tree, cut->path.page[level]))) {
        level++;
    }
    cut->splits = level;
}

/* Whether a page of the second cut's path is full after the first cut, which may have put an entry there or split it. */
static bool full_after(const struct tree *tree, const struct cut *first, const struct cut *second, uint32_t level) {
    uint32_t number = second->path.page[level];
    uint32_t entries = entry_count(page_at(tree, number));
    bool gained = first->cuts && level <= first->splits && first->path.page[level] == number;
    return gained ? entries == MOST_ENTRIES - 1 : entries == MOST_ENTRIES;
}

static void plan_splits_after(const struct tree *tree, const struct cut *first, struct cut *second) {
    uint32_t level = 0;
    while (second->cuts && level < tree->head.height && full_after(tree, first, second, level)) {
        level++;
    }
    second->splits = level;
}

/* ------------------------------------------------------------ steps A and B: cut */

/* The new root has two entries with pair (0, 0). */
static void grow_root(struct tree *tree, uint32_t left, uint32_t right, uint32_t right_start) {
    uint32_t number = take_page(tree, tree->head.height);
    struct entry left_entry = {0, 0, left};
    struct entry right_entry = {0, 0, right};
    insert_entry(page_at(tree, number), 0, 0, left_entry);
    insert_entry(page_at(tree, number), 1, right_start, right_entry);
    tree->head.root = number;
    tree->head.height += 1;
}

/* A full page with an entry more at i: it keeps 12 and a taken page gets 13; the taken page. */
static uint32_t split(struct tree *tree, uint32_t number, uint32_t i, uint32_t start, struct entry entry) {
    uint8_t *left = page_at(tree, number);
    uint32_t right_number = take_page(tree, level_of(left));
    uint8_t *right = page_at(tree, right_number);
    bool goes_left = i < FEWEST_ENTRIES;
    uint32_t kept = goes_left ? FEWEST_ENTRIES - 1 : FEWEST_ENTRIES;
    append_entries(right, left, kept);
    cut_off_entries(left, kept);
    if (goes_left) {
        insert_entry(left, i, start, entry);
    } else {
        insert_entry(right, i - FEWEST_ENTRIES, start, entry);
    }
    return right_number;
}

static void cut_at(struct tree *tree, const struct path *path, uint32_t t) {
    uint32_t start = t;
    struct entry entry = entry_of(page_at(tree, path->page[0]), path->entry[0]);
    for (uint32_t level = 0;; level++) {
        uint32_t number = path->page[level];
        uint32_t i = path->entry[level] + 1;
        if (!is_full(page_at(tree, number))) {
            insert_entry(page_at(tree, number), i, start, entry);
            return;
        }
        uint32_t right = split(tree, number, i, start, entry);
        start = start_of(page_at(tree, right), 0);
        if (level + 1 == tree->head.height) {
            grow_root(tree, number, right, start);
            return;
        }
        entry = entry_of(page_at(tree, path->page[level + 1]), path->entry[level + 1]);
        entry.child = right;
    }
}

/* ------------------------------------------------------------ step C: combine */

/*
 * Entries that start in [s, e) take the effect; only the last of them may end beyond e, and only the one before the first
 * may reach into the span: these two send it to their children.
 */
static void combine_page(struct tree *tree, uint32_t number, uint32_t page_end, const struct effect *effect) {
    uint8_t *page = page_at(tree, number);
    uint32_t from = starts_below(page, effect->s);
    uint32_t to = starts_below(page, effect->e);
    bool last_partly = from < to && end_of(page, to - 1, page_end) > effect->e;
    uint32_t before_end = from > 0 ? end_of(page, from - 1, page_end) : 0;
    combine_entries(tree->head.kind, page, from, to - last_partly, effect->pair);
    if (before_end > effect->s) {
        combine_page(tree, child_of(page, from - 1), before_end, effect);
    }
    if (last_partly) {
        combine_page(tree, child_of(page, to - 1), end_of(page, to - 1, page_end), effect);
    }
}

/* ------------------------------------------------------------ steps D and E: heal */

/* The pair of a parent's entry goes into its page's entries and becomes (0, 0). */
static void push_down(struct tree *tree, uint8_t *parent, uint32_t i) {
    struct pair nothing = {0, 0};
    struct pair pair = pair_of(parent, i);
    if (pair.sum != 0 || pair.count != 0) {
        uint8_t *page = page_at(tree, child_of(parent, i));
        combine_entries(tree->head.kind, page, 0, entry_count(page), pair);
        set_pair(parent, i, nothing);
    }
}

/* Moves the left page's last entry to the right one's front. */
static void give_to_right(uint8_t *left, uint8_t *right) {
    uint32_t last = entry_count(left) - 1;
    insert_entry(right, 0, start_of(left, last), entry_of(left, last));
    cut_off_entries(left, last);
}

/* Moves the right page's first entry to the left one's end. */
static void give_to_left(uint8_t *left, uint8_t *right) {
    insert_entry(left, entry_count(left), start_of(right, 0), entry_of(right, 0));
    remove_entry(right, 0);
}

/* A page left with 11 turns to its left sibling, else the right one; whether they merged and the parent lost an entry. */
static bool turn_to_sibling(struct tree *tree, uint8_t *parent, uint32_t i) {
    bool to_left = i > 0;
    uint32_t at_right = to_left ? i : i + 1;
    uint32_t right_number = child_of(parent, at_right);
    uint8_t *left = page_at(tree, child_of(parent, at_right - 1));
    uint8_t *right = page_at(tree, right_number);
    push_down(tree, parent, at_right - 1);
    push_down(tree, parent, at_right);
    if (entry_count(to_left ? left : right) > FEWEST_ENTRIES) {
        if (to_left) {
            give_to_right(left, right);
        } else {
            give_to_left(left, right);
        }
        set_start(parent, at_right, start_of(right, 0));
        return false;
    }
    append_entries(left, right, 0);
    give_back_page(tree, right_number);
    remove_entry(parent, at_right);
    return true;
}

/* An inner root with one entry is given back, and its child becomes root. */
static void shrink_root(struct tree *tree) {
    uint32_t number = tree->head.root;
    uint8_t *root = page_at(tree, number);
    uint32_t child = child_of(root, 0);
    push_down(tree, root, 0);
    give_back_page(tree, number);
    tree->head.root = child;
    tree->head.height -= 1;
}

/*
 * The level of the page whose entries separate the path's leaf from the one before it: above the leaf, the lowest one at
 * which the path takes another entry than the first. 0 if it takes the first one everywhere, so that no leaf is before.
 */
static uint32_t separating_level(const struct tree *tree, const struct path *path) {
    for (uint32_t level = 1; level < tree->head.height; level++) {
        if (path->entry[level] > 0) {
            return level;
        }
    }
    return 0;
}

/*
 * Whether the totals on both sides of the edge before the path's leaf are equal. Both have the pairs above the page that
 * separates them, so they are compared from there on: down the path, and down the last entries of the pages before it.
 */
static bool edge_joins(const struct tree *tree, const struct path *path, uint32_t level) {
    const uint8_t *left = page_at(tree, path->page[level]);
    uint32_t i = path->entry[level] - 1;
    int64_t sum = 0;
    int32_t count = 0;
    for (;; level--) {
        struct entry before = entry_of(left, i);
        struct entry after = entry_of(page_at(tree, path->page[level]), path->entry[level]);
        sum += after.sum - before.sum;
        count += after.count - before.count;
        if (level == 0) {
            return sum == 0 && count == 0;
        }
        left = page_at(tree, before.child);
        i = entry_count(left) - 1;
    }
}

/* Removes the first entry of the path's leaf; up to the separating level, entries on the path start where the leaf now does. */
static void remove_first(struct tree *tree, const struct path *path, uint32_t level) {
    uint8_t *leaf = page_at(tree, path->page[0]);
    remove_entry(leaf, 0);
    for (; level > 0; level--) {
        set_start(page_at(tree, path->page[level]), path->entry[level], start_of(leaf, 0));
    }
}

/* Whether entry i of a leaf, not the first, has the same pair as the one before; children are 0 in both. */
static bool joins_before(uint8_t *leaf, uint32_t i) {
    return memcmp(entry_bytes(leaf, i), entry_bytes(leaf, i - 1), ENTRY_BYTES) == 0;
}

/* Removes the leaf entry of the path if it joins the one before, across an edge for totals alone; whether it did. */
static bool remove_joined(struct tree *tree, const struct path *path) {
    uint8_t *leaf = page_at(tree, path->page[0]);
    uint32_t i = path->entry[0];
    if (i > 0) {
        if (!joins_before(leaf, i)) {
            return false;
        }
        remove_entry(leaf, i);
        return true;
    }
    uint32_t level = separating_level(tree, path);
    if (tree->head.kind != TOTALS || level == 0 || !edge_joins(tree, path, level)) {
        return false;
    }
    remove_first(tree, path, level);
    return true;
}

static void heal_at(struct tree *tree, uint32_t t) {
    if (t == END) {
        return;
    }
    struct path path;
    find_path(tree, t, &path);
    if (!starts_leaf_entry(tree, &path, t) || !remove_joined(tree, &path)) {
        return;
    }
    uint32_t top = tree->head.height - 1;
    for (uint32_t level = 0; level < top; level++) {
        if (entry_count(page_at(tree, path.page[level])) >= FEWEST_ENTRIES) {
            return;
        }
        if (!turn_to_sibling(tree, page_at(tree, path.page[level + 1]), path.entry[level + 1])) {
            return;
        }
    }
    if (top > 0 && entry_count(page_at(tree, path.page[top])) == 1) {
        shrink_root(tree);
    }
}

/* ------------------------------------------------------------ the change */

/* The second cut's path is found anew where the first one has cut. */
static void five_steps(struct tree *tree, const struct effect *effect, struct cut *first, struct cut *second) {
    if (first->cuts) {
        cut_at(tree, &first->path, first->t);
    }
    if (second->cuts) {
        if (first->cuts) {
            find_path(tree, second->t, &second->path);
        }
        cut_at(tree, &second->path, second->t);
    }
    combine_page(tree, tree->head.root, END, effect);
    heal_at(tree, effect->s);
    heal_at(tree, effect->e);
    tree->head.changes += 1;
    memcpy(tree->image, &tree->head, HEAD_BYTES);
}

/* 24 is told before anything is written; else the five steps. */
static uint32_t change_pages(struct tree *tree, const struct effect *effect) {
    const struct head *head = &tree->head;
    struct cut first, second;
    plan_cut(tree, effect->s, &first);
    plan_cut(tree, effect->e, &second);
    plan_splits(tree, &first);
    plan_splits_after(tree, &first, &second);
    if (pages_taken(tree, &first) + pages_taken(tree, &second) > head->free_length + head->n - head->high_mark) {
        return PAGES_LACKING;
    }
    five_steps(tree, effect, &first, &second);
    return ACCEPTED;
}

static struct effect effect_of(const struct head *head, bool withdrawal, int64_t v, uint32_t s, uint32_t e) {
    struct effect effect = {{withdrawal ? -v : v, withdrawal ? -1 : 1}, s, e};
    effect.e = e > END - head->window ? END : e + head->window;
    return effect;
}

static uint32_t change(uint8_t *image, size_t image_length, uint8_t *scratch, size_t scratch_length,
                       bool withdrawal, int64_t v, uint32_t s, uint32_t e) {
    uint32_t n;
    uint32_t status = judge(image, image_length, &n);
    if (status != ACCEPTED) {
        return status;
    }
    if (scratch_length < SCRATCH_BYTES(n)) {
        return SCRATCH_SHORT;
    }
    if (s >= e) {
        return SPAN_EMPTY;
    }
    if (v < -MOST_VALUE || v > MOST_VALUE) {
        return VALUE_RANGE;
    }
    memset(scratch, 0, SCRATCH_BYTES(n));
    struct tree tree;
    tree.image = image;
    if (!is_sound(image, n, &tree.head)) {
        return UNSOUND;
    }
    if (withdrawal && tree.head.kind != TOTALS) {
        return WITHDRAWAL_KIND;
    }
    if (tree.head.changes == MOST_CHANGES) {
        return CHANGES_FULL;
    }
    struct effect effect = effect_of(&tree.head, withdrawal, v, s, e);
    return change_pages(&tree, &effect);
}

uint32_t peer_enter(uint8_t *image, size_t image_length, uint8_t *scratch, size_t scratch_length,
                    int64_t v, uint32_t s, uint32_t e) {
    return change(image, image_length, scratch, scratch_length, false, v, s, e);
}

uint32_t peer_withdraw(uint8_t *image, size_t image_length, uint8_t *scratch, size_t scratch_length,
                       int64_t v, uint32_t s, uint32_t e) {
    return change(image, image_length, scratch, scratch_length, true, v, s, e);
}
