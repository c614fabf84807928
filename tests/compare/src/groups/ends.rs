//! Document 02, (viii): "the instant answer gains the start and end of its leaf entry. [...] Refusals give zeros for both new numbers."
//!
//! Start and end are compared at every instant of every group. Here each leaf entry of an image is asked for by its first and its last
//! instant and from both sides: its end may stand in its own page, in any page above, or nowhere, and it is told by the pages on its way
//! alone, not by the next leaf, nor by the run. Where a page on the way is unfit, nothing is told but the pages read.

use plain::END;

use crate::calls::{Answer, Call};
use crate::comparer::Comparer;
use crate::groups::every_capacity::EACH;
use crate::groups::made::{swap_used, MADE};
use crate::groups::search::{k_of, laid, Leaves, Shape, Starts};
use crate::images::{
    capacity, count_at, head, leaf_entry_at, level, made, page_bytes, pages_of, pages_of_level, put, start_at,
    starts_of, sum_at, u32_at, way, LeafEntry, Pool, CHANGES, ENTRY_COUNT_AT, FREE_LENGTH, HEIGHT, HIGH_MARK, KIND,
    ROOT,
};

/// Heights 1 to 4 at every K and without the field, and the made images up to height 10.
const LOW: usize = 4 * EACH.len();
pub const PARTS: usize = LOW + MADE.len();

pub fn ends(comparer: &mut Comparer, _: &Pool, part: usize) {
    let part = part % PARTS;
    if part >= LOW {
        let (k, n, height) = MADE[part - LOW];
        let kind = comparer.random.pick(&[1, 2, 3]);
        let image = made(k, n, height, kind);
        every_call(comparer, &image, 300);
        return;
    }
    let (height, field) = (1 + part / EACH.len(), EACH[part % EACH.len()]);
    let k = k_of(field);
    let roots = match height {
        1 => vec![1, 2, k / 2, k - 1, k],
        2 => vec![2, k / 2 + 1, k],
        3 => vec![2, 3],
        _ => vec![2],
    };
    for root in roots {
        for starts in Starts::EVERY_SORT {
            let image = laid(comparer, Shape { field, height, root, leaves: Leaves::InTurn }, 10, starts);
            every_call(comparer, &image, if height < 3 { usize::MAX } else { 250 });
        }
    }
}

/// So many of the entries, and all where they are fewer; all whose end stands far above them, and the last.
fn every_call(comparer: &mut Comparer, image: &[u8], most: usize) {
    let mut image = image.to_vec();
    let used = head(&image, HIGH_MARK) as usize;
    for _ in 0..20 {
        let (one, other) = (1 + comparer.random.below(used - 1), 1 + comparer.random.below(used - 1));
        swap_used(&mut image, one as u32, other as u32);
    }
    let entries = leaf_entries(&image);
    let step = entries.len().div_ceil(most);
    let each = entries.iter().enumerate();
    let chosen = each.filter(|(i, entry)| i % step == 0 || entry.end_above.is_none_or(|pages| pages >= 2));
    let chosen: Vec<LeafEntry> = chosen.map(|(_, entry)| *entry).collect();
    comparer.lend(&image);
    assert_eq!(comparer.audit().status, 0, "it is sound");
    asked(comparer, &chosen);
    booked(comparer, &image, &chosen);
    damaged(comparer, &image, &entries);
    // All pairs alike: one run, and still each entry has its own start and end, though for kind 1 such an image is not sound.
    alike(&mut image);
    comparer.lend(&image);
    assert_eq!(comparer.listing(0, END).runs, 1, "one run");
    asked(comparer, &chosen);
}

// ---------------------------------------------------------------- the entries

/// Every leaf entry of a sound image, by the starts of all leaves in their order, as by its own way.
fn leaf_entries(image: &[u8]) -> Vec<LeafEntry> {
    let mut starts: Vec<u32> = pages_of_level(image, 0).into_iter().flat_map(|page| starts_of(image, page)).collect();
    starts.sort_unstable();
    let ends = starts.iter().skip(1).copied().chain([END]);
    let entries = starts.iter().zip(ends).map(|(start, end)| {
        let found = leaf_entry_at(image, *start);
        assert_eq!((found.start, found.end), (*start, end), "by its way as by all starts");
        found
    });
    entries.collect()
}

/// Each by its first instant, one between, and its last; and the instants beside them, which are not its own.
fn asked(comparer: &mut Comparer, entries: &[LeafEntry]) {
    for entry in entries {
        let own = entry.instants().map(|t| comparer.instant(t));
        assert_eq!((own[0].start, own[0].end), (entry.start, entry.end));
        assert!(own[0] == own[1] && own[1] == own[2], "the same at each of its instants");
        if entry.start > 0 {
            assert_eq!(comparer.instant(entry.start - 1).end, entry.start, "the one before ends where it starts");
        }
        if entry.end < END {
            assert_eq!(comparer.instant(entry.end).start, entry.end, "the one behind starts where it ends");
        } else {
            comparer.expect(Call::Instant { t: END }, 0, 0, Answer::status(12));
        }
    }
}

/// A booking inside an entry of kind 1 makes three of it. Its withdrawal makes them one again, also where a page was split for them: by
/// document 02, (iv), an entry that has become first in its page goes like any other.
fn booked(comparer: &mut Comparer, image: &[u8], entries: &[LeafEntry]) {
    let wide = entries.iter().filter(|entry| entry.end - entry.start >= 3 && head(image, KIND) == 1);
    for entry in wide.step_by(7) {
        let (s, e) = (entry.start + 1, entry.end - 1);
        if comparer.book(false, 5, s, e) != 0 {
            continue; // 24: it is as it was
        }
        for (t, start, end) in [(entry.start, entry.start, s), (s, s, e), (e - 1, s, e), (e, e, entry.end)] {
            told(comparer, t, (start, end));
        }
        let split = tree_pages(comparer.image()) > tree_pages(image);
        assert_eq!(comparer.book(true, 5, s, e), 0, "no cut, and so no page");
        for t in [entry.start, s, e] {
            told(comparer, t, (entry.start, entry.end));
        }
        comparer.tally.spans.add_booked(image, split);
        comparer.lend(image);
    }
}

fn told(comparer: &mut Comparer, t: u32, span: (u32, u32)) {
    let answer = comparer.instant(t);
    assert_eq!((answer.status, answer.start, answer.end), (0, span.0, span.1), "where the entries begin and end");
}

/// How many pages the tree of a sound image has.
fn tree_pages(image: &[u8]) -> u32 {
    head(image, HIGH_MARK) - 1 - head(image, FREE_LENGTH)
}

/// Every pair (0, 0).
pub fn alike(image: &mut [u8]) {
    let k = capacity(image);
    for page in (1..pages_of(image)).filter(|page| level(image, *page) < 10).collect::<Vec<_>>() {
        for i in 0..u32_at(image, page, ENTRY_COUNT_AT) as usize {
            put(image, page, sum_at(k, i), &[0; 8]);
            put(image, page, count_at(k, i), &[0; 4]);
        }
    }
}

// ---------------------------------------------------------------- unfit pages

/// Entries near the beginning, in the middle and at the end: each page on the way made unfit in several manners gives zeros and the pages
/// up to it; the head, zeros and no page; and any page beside the way leaves the answer as it is.
fn damaged(comparer: &mut Comparer, image: &[u8], entries: &[LeafEntry]) {
    let length = page_bytes(image);
    for entry in [0, 1, 2, 3].map(|quarter| entries[quarter * (entries.len() - 1) / 3]) {
        let [first, between, last] = entry.instants();
        comparer.lend(image);
        let whole = comparer.instant(between);
        let way = way(image, between);
        for (depth, place) in way.iter().enumerate() {
            let unfit = Answer { pages: depth as u32 + 1, ..Answer::status(21) };
            for (at, to) in unfit_words(image, place.page) {
                let before = u32_at(image, place.page, at);
                comparer.set(length * place.page + at, &to.to_le_bytes());
                for t in [first, between, last] {
                    comparer.expect(Call::Instant { t }, 0, 0, unfit);
                }
                comparer.expect(Call::Instant { t: END }, 0, 0, Answer::status(12));
                comparer.set(length * place.page + at, &before.to_le_bytes());
            }
        }
        for (field, to) in [(0, 0), (HEIGHT, 11), (ROOT, 0), (KIND, 9), (CHANGES, u32::MAX), (length / 4 - 1, 7)] {
            let before = head(image, field);
            comparer.set(4 * field, &to.to_le_bytes());
            comparer.expect(Call::Instant { t: between }, 0, 0, Answer::status(21));
            comparer.set(4 * field, &before.to_le_bytes());
        }
        for page in beside(image, &entry, &way.iter().map(|place| place.page).collect::<Vec<_>>()) {
            comparer.set(length * page, &vec![0xFF; length]);
            comparer.expect(Call::Instant { t: between }, 0, 0, whole);
            comparer.expect(Call::Instant { t: last }, 0, 0, whole);
            comparer.lend(image);
        }
        comparer.lend(&image[..image.len() - 1]);
        comparer.expect(Call::Instant { t: between }, 0, 0, Answer::status(16));
    }
}

/// Words of a page, each of which alone makes it unfit: level, number of entries, the bytes behind it, first and last start, a child and
/// a count of its last entry.
fn unfit_words(image: &[u8], page: usize) -> [(usize, u32); 7] {
    let (k, starts, level) = (capacity(image), starts_of(image, page), level(image, page));
    let last = sum_at(k, starts.len() - 1);
    [
        (0, level + 1),
        (ENTRY_COUNT_AT, k as u32 + 1),
        (12, 0),
        (start_at(0), starts[0] + 1),
        (start_at(starts.len() - 1), END),
        (last + 12, u32::from(level == 0)),
        (last + 8, 1_000_000_001),
    ]
}

/// Some pages that are not on the entry's way: the leaves of the entries beside it, and the first and the last leaf.
fn beside(image: &[u8], entry: &LeafEntry, on_way: &[usize]) -> Vec<usize> {
    let instants = [entry.start.saturating_sub(1), entry.end.min(END - 1), 0, END - 1];
    let pages = instants.into_iter().flat_map(|t| way(image, t)).map(|place| place.page);
    let mut pages: Vec<usize> = pages.filter(|page| !on_way.contains(page)).collect();
    pages.sort_unstable();
    pages.dedup();
    pages
}
