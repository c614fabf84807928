//! Images that no call leaves, for tests: document 01's own fresh image, sound images of a chosen height, and images of which
//! only one way is fit.
//!
//! Document 02, (xi): "A sound image may have height 10 at K = 4". Changes from a format don't reach it: every page has two
//! entries then and all 1,023 are used, so such an image has to be made.

use crate::calls::lay_fresh;
use crate::capacity::{Capacity, NO_FIELD, OF_DOCUMENT_01};
use crate::page::{read_page, write_free_page, write_head, write_page, Entry, Head, Page, UNUSED};
use crate::value::{combine, Pair, Span, END, NOTHING, TOTALS};

/// "an image of 512-byte pages without the field (FF there)": what document 01's format leaves.
pub fn fresh_without_field(n: u32, kind: u32, window: u32) -> Vec<u8> {
    let mut image = vec![UNUSED; n as usize * OF_DOCUMENT_01.page_bytes()];
    lay_fresh(&mut image, n, kind, window, NO_FIELD);
    image
}

/// What an image shall be.
#[derive(Clone, Copy, PartialEq, Eq, Debug)]
pub struct Wanted {
    pub capacity: Capacity,
    pub n: u32,
    pub height: u32,
    pub kind: u32,
    pub window: u32,
    pub changes: u32,
}

impl Wanted {
    /// An image of FF with a head: the root at page 1, pages up to `high_mark` used, the last `chained` of them free.
    pub fn with_head(&self, high_mark: u32, chained: u32) -> Vec<u8> {
        let Wanted { capacity, n, height, kind, window, changes } = *self;
        let mut image = vec![UNUSED; n as usize * capacity.page_bytes()];
        let first_free = if chained > 0 { high_mark - chained } else { 0 };
        let capacity_field = capacity.number();
        let (root, free_length) = (1, chained);
        let head = Head { n, height, root, first_free, free_length, high_mark, kind, window, changes, capacity_field };
        write_head(&mut image, &head);
        for page in high_mark - chained..high_mark {
            write_free_page(&mut image, capacity, page, if page + 1 == high_mark { 0 } else { page + 1 });
        }
        image
    }

    fn fewest_entries(&self, level: u32) -> usize {
        let is_root = level + 1 == self.height;
        match (is_root, level) {
            (true, 0) => 1,
            (true, _) => 2,
            (false, _) => self.capacity.half(),
        }
    }
}

/// What is left open: a number of entries between two bounds, and the pair of an entry.
pub trait Choice {
    fn entries(&mut self, fewest: usize, most: usize) -> usize;
    fn pair(&mut self) -> Pair;
}

// ---------------------------------------------------------------- sound images

/// A sound image of this height whose leaf entries start `apart` from each other, with so many free pages in its chain; none
/// where n is too small. Pages are numbered as they are come to, each ahead of those below it. For kind 1, where two neighbouring
/// leaf entries would have equal totals, the later one's sum is moved by one.
pub fn tree(wanted: &Wanted, apart: u32, chained: u32, choice: &mut dyn Choice) -> Option<Vec<u8>> {
    let mut image = older_tree(wanted, apart, chained, choice)?;
    if wanted.kind == TOTALS {
        part_neighbours(&mut image, wanted.capacity, 1, NOTHING, &mut None);
    }
    Some(image)
}

/// Document 02, (iv): "a kind 1 image is sound only if no two neighbouring leaf entries have equal totals". From a page on, all leaf
/// entries in their order; `above` is what the entries above add to, `before` the total of the leaf entry that came last. A sum is moved
/// towards 0, or from 0 to 1, so that the bounds by changes hold as before unless they leave no room at all.
fn part_neighbours(image: &mut [u8], capacity: Capacity, page: u32, above: Pair, before: &mut Option<Pair>) {
    let mut contents = read_page(image, capacity, page).expect("it has just been laid");
    let is_leaf = contents.is_leaf();
    for entry in &mut contents.entries {
        if !is_leaf {
            part_neighbours(image, capacity, entry.child, combine(TOTALS, above, entry.pair), before);
            continue;
        }
        if *before == Some(combine(TOTALS, above, entry.pair)) {
            entry.pair.sum += if entry.pair.sum > 0 { -1 } else { 1 };
        }
        *before = Some(combine(TOTALS, above, entry.pair));
    }
    write_page(image, capacity, page, &contents);
}

/// The same with all pairs as they are chosen: sound by the old rule, and for kind 1 maybe not by (iv)'s.
pub fn older_tree(wanted: &Wanted, apart: u32, chained: u32, choice: &mut dyn Choice) -> Option<Vec<u8>> {
    let mut pages = Vec::new();
    let mut start = 0;
    lay_below(wanted, wanted.height - 1, apart, &mut start, &mut pages, choice)?;
    let high_mark = pages.len() as u32 + 1 + chained;
    if high_mark > wanted.n {
        return None;
    }
    let mut image = wanted.with_head(high_mark, chained);
    for (i, page) in pages.iter().enumerate() {
        write_page(&mut image, wanted.capacity, i as u32 + 1, page);
    }
    Some(image)
}

/// Lays a page of this level and all below it, from the next start on; its number and its first start.
fn lay_below(
    wanted: &Wanted,
    level: u32,
    apart: u32,
    start: &mut u32,
    pages: &mut Vec<Page>,
    choice: &mut dyn Choice,
) -> Option<(u32, u32)> {
    let here = pages.len();
    if here as u32 + 1 >= wanted.n {
        return None;
    }
    pages.push(Page { level, entries: Vec::new() });
    for _ in 0..choice.entries(wanted.fewest_entries(level), wanted.capacity.most_entries()) {
        let (child, entry_start) = if level == 0 {
            *start += apart;
            (0, *start - apart)
        } else {
            lay_below(wanted, level - 1, apart, start, pages, choice)?
        };
        pages[here].entries.push(Entry { start: entry_start, pair: choice.pair(), child });
    }
    Some((here as u32 + 1, pages[here].entries[0].start))
}

// ---------------------------------------------------------------- one way

/// An image of this height with one page for each level, fit at its place on one way, and the span of that way's leaf. Every
/// other inner entry leads to the same page, which isn't fit there: such an image of two levels or more is sound at no K, and
/// each instant outside the span meets an unfit page. One of a single level is sound, for kind 1 by the same moving of sums as in [`tree`].
pub fn one_way(wanted: &Wanted, choice: &mut dyn Choice) -> (Vec<u8>, Span) {
    assert!(wanted.n > wanted.height);
    let mut image = wanted.with_head(wanted.height + 1, 0);
    let mut span = Span { start: 0, end: END };
    for level in (0..wanted.height).rev() {
        let entries = choice.entries(wanted.fewest_entries(level), wanted.capacity.most_entries());
        let chosen = choice.entries(0, entries - 1) as u32;
        let behind = entries as u32 - 1 - chosen;
        let (page, child) = (wanted.height - level, if level == 0 { 0 } else { wanted.height - level + 1 });
        // The entry on the way has all of the page's span but one instant for each other.
        let starts = (0..=chosen).map(|i| span.start + i).chain((0..behind).map(|i| span.end - behind + i));
        let entries = starts.map(|start| Entry { start, pair: choice.pair(), child }).collect();
        write_page(&mut image, wanted.capacity, page, &Page { level, entries });
        if level > 0 {
            span = Span { start: span.start + chosen, end: span.end - behind };
        }
    }
    if wanted.kind == TOTALS {
        part_neighbours(&mut image, wanted.capacity, wanted.height, NOTHING, &mut None);
    }
    (image, span)
}
