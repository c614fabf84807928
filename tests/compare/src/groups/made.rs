//! Images that are made, not grown: sound ones of heights 5 to 10, and ones of which a single way is fit, up to height 10 at every
//! K. Document 02, (xi): "A sound image may have height 10 at K = 4, and the head's range becomes 1 to 10 at every K."

use plain::making::one_way;
use plain::{Pair, END};

use crate::calls::{Answer, Call};
use crate::comparer::Comparer;
use crate::groups::cycles::swap_pages;
use crate::images::{
    capacity, head, made, page_bytes, pages_of, pages_of_level, pair_at, scratch_bytes, start_at, u32_at, wanted,
    Drawn, Pool, CAPACITIES, ENTRY_COUNT_AT, HEIGHT, KIND,
};
use crate::random::Random;

// ---------------------------------------------------------------- sound images

/// K, pages and height of the images.
pub const MADE: [(usize, usize, u32); 12] = [
    (4, 1_024, 10),
    (4, 1_024, 9),
    (6, 1_024, 7),
    (8, 1_024, 6),
    (4, 500, 8),
    (4, 300, 7),
    (4, 140, 6),
    (4, 70, 5),
    (6, 400, 6),
    (10, 400, 5),
    (12, 700, 5),
    (14, 1_000, 5),
];
pub const MADE_HEIGHTS: usize = 3 * MADE.len();

/// Each image in each kind: reads all over it, and a list of changes, with reads and audits after them.
pub fn made_heights(comparer: &mut Comparer, _: &Pool, part: usize) {
    let (k, n, height) = MADE[part / 3 % MADE.len()];
    let kind = 1 + part as u32 % 3;
    let mut image = made(k, n, height, kind);
    for _ in 0..40 {
        let (one, other) = (1 + comparer.random.below(n - 1), 1 + comparer.random.below(n - 1));
        swap_used(&mut image, one as u32, other as u32);
    }
    comparer.lend(&image);
    assert_eq!(comparer.audit().status, 0, "it is sound");
    assert_eq!(comparer.instant(0).pages, height);
    let span = 5 * leaf_entries(&image);
    reads(comparer, span, 150);
    comparer.listings(0, END);
    splits_of_the_first_leaf(comparer);
    for round in 0..60 {
        let (withdrawal, v, s, e) = drawn(comparer, kind, span, round % 5 == 4);
        comparer.book(withdrawal, v, s, e);
        for t in [s.wrapping_sub(1), s, e - 1, e] {
            comparer.instant(t);
        }
        comparer.listing(s.saturating_sub(20), e.saturating_add(20));
        if round % 6 == 0 {
            comparer.audit();
        }
    }
    comparer.audit();
    comparer.listings(0, END);
    reads(comparer, span, 50);
}

/// Pages below the high mark only: those behind it stay FF.
pub fn swap_used(image: &mut [u8], one: u32, other: u32) {
    let mark = head(image, crate::images::HIGH_MARK);
    if one < mark && other < mark {
        swap_pages(image, one, other);
    }
}

pub fn leaf_entries(image: &[u8]) -> usize {
    pages_of_level(image, 0).iter().map(|page| u32_at(image, *page, ENTRY_COUNT_AT) as usize).sum()
}

fn reads(comparer: &mut Comparer, span: usize, rounds: usize) {
    for _ in 0..rounds {
        let t = comparer.random.below(span + 20) as u32;
        let wide = 1 + comparer.random.below(200) as u32;
        comparer.instant(t);
        comparer.average(t);
        comparer.listings(t, t + wide);
    }
}

/// The first leaf is cut until it splits, further up where its ancestors are full. At height 10 no page is free: the first cuts
/// are accepted and a split is a 24; below it there are pages.
fn splits_of_the_first_leaf(comparer: &mut Comparer) {
    let before = comparer.image().to_vec();
    let statuses = [(1, 2), (3, 4), (1, 4), (2, 3)].map(|(s, e)| comparer.book(false, 7, s, e));
    if head(&before, HEIGHT) == 10 {
        assert_eq!(statuses[..2], [0, 24], "two cuts have room, two more have not");
    } else {
        assert_eq!(statuses, [0; 4], "pages are free");
    }
    comparer.lend(&before);
}

/// A change anywhere, or one after which a leaf entry equals the one before it and goes: where pages have the fewest entries,
/// joins go from the leaf up to the root.
fn drawn(comparer: &mut Comparer, kind: u32, span: usize, heals: bool) -> (bool, i64, u32, u32) {
    let mut random = comparer.random.clone();
    comparer.random.next();
    if let Some(healing) = healing(comparer.image(), &mut random).filter(|_| heals) {
        return healing;
    }
    let s = 5 * random.below(span / 5) as u32 + random.pick(&[0, 0, 0, 1, 4]);
    let e = s + random.pick(&[5, 5, 5, 1, 7, 10, 600, 4_000]);
    (kind == 1 && random.one_in(2), random.between(-3, 3), s, e)
}

fn healing(image: &[u8], random: &mut Random) -> Option<(bool, i64, u32, u32)> {
    let kind = head(image, KIND);
    let leaves = pages_of_level(image, 0);
    for _ in 0..40 {
        let page = random.pick(&leaves);
        let entries = u32_at(image, page, ENTRY_COUNT_AT) as usize;
        let i = 1 + random.below(entries);
        if i >= entries {
            continue;
        }
        let s = u32_at(image, page, start_at(i));
        let e = if i + 1 < entries { u32_at(image, page, start_at(i + 1)) } else { s + 5 };
        if let Some((withdrawal, v)) = equalling(kind, pair_at(image, page, i), pair_at(image, page, i - 1)) {
            return Some((withdrawal, v, s, e));
        }
    }
    None
}

/// Whether to withdraw, and what, so that `from` becomes `to`; none where no single change does it.
pub fn equalling(kind: u32, from: Pair, to: Pair) -> Option<(bool, i64)> {
    let more = i64::from(to.count) - i64::from(from.count);
    match kind {
        1 => (more.abs() == 1).then(|| (more < 0, more * (to.sum - from.sum))),
        _ if from.count == 1 && to.count == 1 => ((kind == 2) == (to.sum > from.sum)).then_some((false, to.sum)),
        _ => (more == 1).then_some((false, to.sum)),
    }
}

// ---------------------------------------------------------------- one way

/// "fit heads" whose instants read up to 10 pages, at every K; no sound image is so high at most of them. Part i does height
/// i + 1.
pub fn one_ways(comparer: &mut Comparer, _: &Pool, part: usize) {
    let height = 1 + part as u32 % 10;
    for k in CAPACITIES.into_iter().chain([24, 24, 24]) {
        for kind in 1..=3 {
            let n = height as usize + 1 + comparer.random.below(4);
            let mut choice = Drawn { random: comparer.random.clone(), kind, one_in: 1 + kind as usize % 2 };
            let (image, span) = one_way(&wanted(k, n, height, kind), &mut choice);
            comparer.random = choice.random;
            comparer.lend(&image);
            let inside = [span.start, span.start + 1, span.start + (span.end - span.start) / 2, span.end - 1];
            for t in inside {
                let answer = comparer.instant(t);
                assert_eq!((answer.status, answer.pages), (0, height), "all pages of the way are fit");
                comparer.average(t);
            }
            for t in [span.start.wrapping_sub(1), span.end, 0, END - 1, END] {
                comparer.instant(t);
                comparer.average(t);
            }
            for (a, b) in [(span.start, span.end), (span.start, span.start + 1), (span.end - 2, span.end), (0, END)] {
                comparer.listings(a, b);
            }
            let status = if height == 1 { 0 } else { 21 };
            assert_eq!(comparer.audit().status, status, "one way is no tree");
            comparer.changes_and_back();
            damaged_ways(comparer, &image, inside[2]);
        }
    }
}

/// Each page of the way with a number of entries that is not in order, or another level; heights that are not in order.
fn damaged_ways(comparer: &mut Comparer, image: &[u8], t: u32) {
    let (k, length, height) = (capacity(image) as u32, page_bytes(image), head(image, HEIGHT));
    for page in 1..=height {
        for (at, to) in [(ENTRY_COUNT_AT, k + 1), (ENTRY_COUNT_AT, 25), (0, height), (0, 255), (8, 0)] {
            comparer.lend(image);
            comparer.set(length * page as usize + at, &to.to_le_bytes());
            comparer.expect(Call::Instant { t }, 0, 0, Answer { pages: page, ..Answer::status(21) });
        }
    }
    for to in [0, 11, 12, 255, u32::MAX] {
        comparer.lend(image);
        comparer.set(4 * HEIGHT, &u32::to_le_bytes(to));
        comparer.expect(Call::Instant { t }, 0, 0, Answer::status(21));
        comparer.expect(Call::Audit, scratch_bytes(pages_of(image)), 0, Answer::status(21));
    }
}
