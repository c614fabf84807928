//! Document 02, (iii): the clean image that a rebuild lays down for the runs of a full listing.
//!
//! "the runs of the full listing become the leaf entries, m runs in the fewest pages, page sizes differing by at most one, larger first,
//! and so at each level up. Leaf pages come first from page 1 in time order, then each level."

use crate::calls::Run;
use crate::capacity::Capacity;
use crate::page::{write_head, write_page, Entry, Head, Page, UNUSED};
use crate::value::NOTHING;

/// How many entries each page of a level has that has m of them: "in the fewest pages, page sizes differing by at most one, larger first".
pub fn page_sizes(m: usize, capacity: Capacity) -> Vec<usize> {
    let pages = m.div_ceil(capacity.most_entries());
    let (size, larger) = (m / pages, m % pages);
    (0..pages).map(|i| if i < larger { size + 1 } else { size }).collect()
}

/// The tree pages of these runs in the order of their numbers, the first being page 1: all leaves, then each level. A level of one page
/// is the last, and its page the root.
pub fn tree_pages(runs: &[Run], capacity: Capacity) -> Vec<Page> {
    let mut pages = Vec::new();
    let mut entries = leaf_entries(runs);
    for level in 0.. {
        let above = lay_level(level, &entries, capacity, &mut pages);
        if above.len() == 1 {
            break;
        }
        entries = above;
    }
    pages
}

/// A run's pair is a total, so a leaf entry's pair is one too.
fn leaf_entries(runs: &[Run]) -> Vec<Entry> {
    runs.iter().map(|run| Entry { start: run.start, pair: run.pair, child: 0 }).collect()
}

/// Deals the entries of a level out to pages behind those there are; an entry for each of them, for the level above. "Inner pairs are
/// (0, 0)".
fn lay_level(level: u32, entries: &[Entry], capacity: Capacity, pages: &mut Vec<Page>) -> Vec<Entry> {
    let mut above = Vec::new();
    let mut from = 0;
    for size in page_sizes(entries.len(), capacity) {
        let own = entries[from..from + size].to_vec();
        from += size;
        let child = pages.len() as u32 + 1;
        above.push(Entry { start: own[0].start, pair: NOTHING, child });
        pages.push(Page { level, entries: own });
    }
    above
}

/// Writes every byte of an image of n pages: these tree pages, FF behind them, and a head with the source's kind, window and changes: "the
/// chain is empty, the high mark follows the last page used; kind, window and changes are kept." By (xi) a rebuild "keeps K" and "writes
/// the field": its number, also where the source has FF.
pub fn lay_clean(image: &mut [u8], n: u32, source: &Head, pages: &[Page]) {
    let capacity = source.capacity();
    let root = pages.len() as u32;
    let head = Head {
        n,
        height: pages[pages.len() - 1].level + 1,
        root,
        first_free: 0,
        free_length: 0,
        high_mark: root + 1,
        capacity_field: capacity.number(),
        ..*source
    };
    image.fill(UNUSED);
    write_head(image, &head);
    for (i, page) in pages.iter().enumerate() {
        write_page(image, capacity, i as u32 + 1, page);
    }
}
