//! Sound images whose entries divide the time of their page evenly: every page half full, or those of the last tenth full.

use luwhenoka::{raw, scratch_bytes};
use plain::making::Wanted;
use plain::page::{write_page, Entry, Page};
use plain::{Capacity, Pair};

use crate::subjects::RANGE;

/// The last tenth of the time begins here.
pub const LATE: u32 = RANGE / 10 * 9;

/// An image has at most so many pages beside its head.
const MOST_PAGES: usize = 1_023;

pub struct Even {
    pub capacity: Capacity,
    pub height: u32,
    pub latest_full: bool,
}

impl Even {
    /// The image, which is sound. Where its tree would take too many pages, the root has as many entries as find pages.
    pub fn image(&self) -> Vec<u8> {
        let wanted = self.entries(RANGE);
        let pages =
            (2..=wanted).rev().map(|root_entries| self.pages(root_entries)).find(|pages| pages.len() <= MOST_PAGES);
        let image = self.written(&pages.expect("a root of two entries finds pages"));
        assert_eq!(raw::audit(&image, &mut vec![0; scratch_bytes(MOST_PAGES + 1)]), 0);
        image
    }

    /// How many entries a page has that ends here.
    fn entries(&self, end: u32) -> usize {
        if self.latest_full && end > LATE {
            self.capacity.most_entries()
        } else {
            self.capacity.half()
        }
    }

    fn pages(&self, root_entries: usize) -> Vec<Page> {
        let mut pages = Vec::new();
        self.lay(root_entries, self.height - 1, 0, RANGE, &mut pages);
        pages
    }

    /// Lays a page with so many entries and all below it; its number. Each stands ahead of those below it. Neighbours in a leaf differ, and
    /// its last entry from the next leaf's first, since no number of entries here is one more than a multiple of 7; above, all are alike.
    fn lay(&self, entries: usize, level: u32, start: u32, end: u32, pages: &mut Vec<Page>) -> u32 {
        let here = pages.len();
        pages.push(Page { level, entries: Vec::new() });
        let starts = |i: usize| start + (u64::from(end - start) * i as u64 / entries as u64) as u32;
        for i in 0..entries {
            let ends = starts(i + 1);
            let child = if level == 0 { 0 } else { self.lay(self.entries(ends), level - 1, starts(i), ends, pages) };
            let pair = Pair { sum: if level == 0 { 1 + i as i64 % 7 } else { 1 }, count: 1 };
            pages[here].entries.push(Entry { start: starts(i), pair, child });
        }
        here as u32 + 1
    }

    fn written(&self, pages: &[Page]) -> Vec<u8> {
        let Even { capacity, height, .. } = *self;
        let n = pages.len() as u32 + 1;
        let wanted = Wanted { capacity, n, height, kind: 1, window: 0, changes: 1_000 };
        let mut image = wanted.with_head(n, 0);
        for (i, page) in pages.iter().enumerate() {
            write_page(&mut image, capacity, i as u32 + 1, page);
        }
        image
    }
}
