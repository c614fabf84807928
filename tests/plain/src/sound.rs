//! Document 01, "The page", with document 02's (iv): which images are sound.
//!
//! "An image is sound if head and all tree pages are fit, each page below the high mark except 0 is once in the tree or
//! once in the chain, the chain length is true, and free and never used pages read as above."
//!
//! Document 02, (iv): "From then on a kind 1 image is sound only if no two neighbouring leaf entries have equal totals, so its leaf
//! entries number exactly the runs. Older images that break this get 21 on change and pass through the rebuild, which reads them by the
//! old rule."
//!
//! [`is_sound_by_the_old_rule`] is the first of these, [`is_sound`] both. [`is_sound_by_counting`] is a shortcut, for comparing.

use crate::calls::full_listing;
use crate::fit::{child_place, fit_head, fit_page, root_place, Place};
use crate::page::{all_unused, page_bytes, read_free_page, read_page, Head, Page};
use crate::value::{combine, Pair, NOTHING, TOTALS};

// ---------------------------------------------------------------- by the definition

/// How often each page has been met in the tree and in the chain.
struct Occurrences {
    in_tree: Vec<u32>,
    in_chain: Vec<u32>,
}

/// Whether the image is sound. One with a bad K, or of a length that its K doesn't allow, isn't.
pub fn is_sound(image: &[u8]) -> bool {
    is_sound_by_the_old_rule(image) && neighbours_differ(image)
}

/// Whether the image is sound by document 01, without (iv)'s clause: what a rebuild asks of its source.
pub fn is_sound_by_the_old_rule(image: &[u8]) -> bool {
    let Some(head) = fit_head(image) else { return false };
    let n = head.n as usize;
    let mut met = Occurrences { in_tree: vec![0; n], in_chain: vec![0; n] };
    audit_page(image, &head, &root_place(&head), &mut met)
        && audit_chain(image, &head, &mut met)
        && each_page_once(&head, &met)
        && never_used_pages_are_unused(image, &head)
}

/// "Audit goes by page and entry in turn: a page is checked by its entries, and an inner entry by its page below."
/// A page met for a second time settles it: that bounds the walk on any image.
fn audit_page(image: &[u8], head: &Head, place: &Place, met: &mut Occurrences) -> bool {
    met.in_tree[place.page as usize] += 1;
    if met.in_tree[place.page as usize] > 1 {
        return false;
    }
    let Some(page) = fit_page(image, head, place) else { return false };
    (0..page.entries.len()).all(|i| audit_entry(image, head, place, &page, i, met))
}

fn audit_entry(image: &[u8], head: &Head, place: &Place, page: &Page, i: usize, met: &mut Occurrences) -> bool {
    page.is_leaf() || audit_page(image, head, &child_place(place, page, i), met)
}

/// "the chain length is true, and free [...] pages read as above". A next page at or above n, and a chain that returns to
/// itself, are not sound (R18).
fn audit_chain(image: &[u8], head: &Head, met: &mut Occurrences) -> bool {
    let mut length = 0;
    let mut page = head.first_free;
    while page != 0 {
        if page >= head.n {
            return false;
        }
        met.in_chain[page as usize] += 1;
        if met.in_chain[page as usize] > 1 {
            return false;
        }
        let Some(next) = read_free_page(image, head.capacity(), page) else { return false };
        length += 1;
        page = next;
    }
    length == head.free_length
}

/// "each page below the high mark except 0 is once in the tree or once in the chain"
fn each_page_once(head: &Head, met: &Occurrences) -> bool {
    (1..head.high_mark as usize).all(|page| met.in_tree[page] + met.in_chain[page] == 1)
}

/// "From the high mark on, pages are all FF."
fn never_used_pages_are_unused(image: &[u8], head: &Head) -> bool {
    (head.high_mark..head.n).all(|page| all_unused(page_bytes(image, head.capacity(), page)))
}

// ---------------------------------------------------------------- neighbours

/// Document 02, (iv): "a kind 1 image is sound only if no two neighbouring leaf entries have equal totals", sum and count, in one page or
/// across an edge. Nothing is asked of kinds 2 and 3. All pages of the tree are fit.
fn neighbours_differ(image: &[u8]) -> bool {
    let head = fit_head(image).expect("asked only where the head is fit");
    let mut totals = Vec::new();
    add_leaf_totals(image, &head, head.root, NOTHING, &mut totals);
    head.kind != TOTALS || totals.windows(2).all(|two| two[0] != two[1])
}

/// The totals of the leaf entries in a page and below it, in their order. `above` is the combined pair of the entries above on the way.
fn add_leaf_totals(image: &[u8], head: &Head, page: u32, above: Pair, totals: &mut Vec<Pair>) {
    let page = read_page(image, head.capacity(), page).expect("asked only where the tree is fit");
    for entry in &page.entries {
        let total = combine(head.kind, above, entry.pair);
        if page.is_leaf() {
            totals.push(total);
        } else {
            add_leaf_totals(image, head, entry.child, total, totals);
        }
    }
}

// ---------------------------------------------------------------- by counting

/// A page is fit at no two places, so an image is sound by the old rule exactly if head and tree are fit, the chain ends after exactly its
/// length of free pages, tree pages + length = high mark − 1, and all is FF from the high mark on. For kind 1 it is sound if besides
/// "its leaf entries number exactly the runs".
pub fn is_sound_by_counting(image: &[u8]) -> bool {
    let Some(head) = fit_head(image) else { return false };
    let Some(counted) = count_tree(image, &head, &root_place(&head)) else { return false };
    // Compared first, so that the chain's walk is no longer than the image has pages.
    u64::from(counted.pages) + u64::from(head.free_length) == u64::from(head.high_mark - 1)
        && chain_ends_after_its_length(image, &head)
        && never_used_pages_are_unused(image, &head)
        && (head.kind != TOTALS || full_listing(image).is_some_and(|runs| runs.len() == counted.leaf_entries))
}

/// What a tree has.
struct Counted {
    pages: u32,
    leaf_entries: usize,
}

/// The numbers of a tree that is fit, else none. A page is fit at no two places, so this is bounded by n.
fn count_tree(image: &[u8], head: &Head, place: &Place) -> Option<Counted> {
    let page = fit_page(image, head, place)?;
    let mut counted = Counted { pages: 1, leaf_entries: 0 };
    if page.is_leaf() {
        counted.leaf_entries = page.entries.len();
        return Some(counted);
    }
    for i in 0..page.entries.len() {
        let below = count_tree(image, head, &child_place(place, &page, i))?;
        counted.pages += below.pages;
        counted.leaf_entries += below.leaf_entries;
    }
    Some(counted)
}

fn chain_ends_after_its_length(image: &[u8], head: &Head) -> bool {
    let mut page = head.first_free;
    for _ in 0..head.free_length {
        if page == 0 || page >= head.n {
            return false;
        }
        let Some(next) = read_free_page(image, head.capacity(), page) else { return false };
        page = next;
    }
    page == 0
}
