//! Document 02, request (ii): "Finding an entry in a page shall begin at the last start and go back. Only the body changes, no
//! contract". The entry found is document 01's "last entry starting at t or before"; from which end it is looked for can't be seen, as
//! starts rise strictly in a fit page, and no other page is searched.

use crate::capacity::{drawn, wanted};
use crate::support::*;
use plain::making::tree;
use plain::page::{write_page, Entry, Page};
use plain::steps::way_to;
use plain::value::Span;
use plain::{audit, enter, instant, Pair, END};

/// In document 02's words.
fn from_the_late_end(starts: &[u32], t: u32) -> Option<usize> {
    let mut left = starts.len();
    while left > 0 && starts[left - 1] > t {
        left -= 1;
    }
    left.checked_sub(1)
}

/// The other way: on to the next entry as long as that one starts at t or before.
fn from_the_early_end(starts: &[u32], t: u32) -> Option<usize> {
    let mut passed = 0;
    while passed < starts.len() && starts[passed] <= t {
        passed += 1;
    }
    passed.checked_sub(1)
}

/// Without any order of looking: the index behind which no entry starts at t or before, and which does itself.
fn by_definition(starts: &[u32], t: u32) -> Vec<usize> {
    let is_last = |i: &usize| starts[*i] <= t && (i + 1..starts.len()).all(|later| starts[later] > t);
    (0..starts.len()).filter(is_last).collect()
}

/// Strictly rising starts from 0 on: near 0, up to END, around 2^31, with low halves that fall, and anywhere.
fn sorts_of_starts(entries: usize, random: &mut Xorshift) -> Vec<Vec<u32>> {
    let all = entries as u32;
    let around = (1u32 << 31) - random.below(entries as u64) as u32;
    let mut anywhere: Vec<u32> = (1..all).map(|_| 1 + random.below(u64::from(END) - 1) as u32).collect();
    anywhere.sort_unstable();
    anywhere.dedup();
    let low_falls = (1..all).map(|i| (i << 27) + 0xFFFF - i).collect();
    let behind_0 =
        [(1..all).collect(), (1..all).map(|i| END - i).rev().collect(), (around..).take(entries - 1).collect()];
    let sorts: Vec<Vec<u32>> = behind_0.into_iter().chain([low_falls, anywhere]).collect();
    sorts.into_iter().map(|behind_0| [vec![0], behind_0].concat()).collect()
}

/// The starts, the instants beside them, and the last instant.
fn beside(starts: &[u32]) -> impl Iterator<Item = u32> + '_ {
    let near = starts.iter().flat_map(|&start| [start.saturating_sub(1), start, start.saturating_add(1)]);
    near.chain([END - 1]).filter(|&t| t != END)
}

/// A leaf whose entries have different pairs.
fn leaf(starts: &[u32]) -> Page {
    let entry = |(i, &start): (usize, &u32)| Entry { start, pair: Pair { sum: i as i64, count: 1 }, child: 0 };
    Page { level: 0, entries: starts.iter().enumerate().map(entry).collect() }
}

/// An image that has this leaf only.
fn image_of(k: usize, starts: &[u32]) -> Vec<u8> {
    let wanted = wanted(k, 2, 1, 1);
    let mut image = tree(&wanted, 1, 0, &mut drawn(1, u64::MAX, 1)).unwrap();
    write_page(&mut image, wanted.capacity, 1, &leaf(starts));
    image
}

#[test]
fn the_entry_at_the_late_end() {
    let mut random = Xorshift::new(2);
    let mut searches = 0;
    for k in CAPACITIES {
        for entries in 1..=k {
            for starts in sorts_of_starts(entries, &mut random) {
                let (image, page) = (image_of(k, &starts), leaf(&starts));
                assert!(audit_both_ways(&image));
                for t in beside(&starts) {
                    let found = page.entry_at(t);
                    assert_eq!(vec![found], by_definition(&starts, t));
                    assert_eq!(Some(found), from_the_late_end(&starts, t));
                    assert_eq!(Some(found), from_the_early_end(&starts, t));
                    let answer = instant(&image, t);
                    assert_eq!((answer.status, answer.sum, answer.count, answer.pages), (0, found as i64, 1, 1));
                    searches += 1;
                }
            }
        }
    }
    report(&format!("search: {searches} searches of leaves of 1 to K entries"));
}

/// Every start but 0 this much later.
pub fn move_starts(image: &mut [u8], by: u32) {
    for page in 1..word(image, 0, HIGH_MARK) {
        for i in 0..get_u32(image, page, ENTRY_COUNT_AT) as usize {
            let start = get_u32(image, page, start_at(i));
            set(image, page, start_at(i), &(if start == 0 { 0 } else { start + by }).to_le_bytes());
        }
    }
}

/// Each page of a tree with its span, and each leaf entry's start; no search in them.
fn spans(node: &Node, span: Span, pages: &mut Vec<(u32, Span)>, starts: &mut Vec<u32>) {
    pages.push((node.page(), span));
    match node {
        Node::Leaf { entries, .. } => starts.extend(entries.iter().map(|(start, _)| start)),
        Node::Inner { entries, .. } => {
            for (i, (start, _, below)) in entries.iter().enumerate() {
                let end = entries.get(i + 1).map_or(span.end, |(next, _, _)| *next);
                spans(below, Span { start: *start, end }, pages, starts);
            }
        }
    }
}

/// A way goes through the pages whose span has t, and through no other; an answer reads just these.
#[test]
fn ways_have_their_instant() {
    let mut ways = 0;
    for (k, height) in CAPACITIES.into_iter().flat_map(|k| (1..=3).map(move |height| (k, height))) {
        for (seed, apart) in [1, 5, 1_000].into_iter().enumerate() {
            let mut choice = drawn(1, 2, seed as u64 + 1);
            let made = tree(&wanted(k, 1_024, height, 1), apart, 0, &mut choice).unwrap();
            let last = apart * Node::of(&made).leaf_entries() as u32;
            for by in [0, (1 << 31) - last / 2, END - last] {
                let mut image = made.clone();
                move_starts(&mut image, by);
                let (mut pages, mut starts) = (Vec::new(), Vec::new());
                spans(&Node::of(&image), Span { start: 0, end: END }, &mut pages, &mut starts);
                for t in beside(&starts) {
                    let has_t = pages.iter().filter(|(_, span)| span.start <= t && t < span.end);
                    let way: Vec<u32> = has_t.map(|(page, _)| *page).collect();
                    assert_eq!(way_to(&image, t), way);
                    assert_eq!((instant(&image, t).status, instant(&image, t).pages), (0, height));
                    ways += 1;
                }
            }
        }
    }
    report(&format!("search: {ways} ways at every K, heights 1 to 3"));
}

/// Where starts don't rise, the two ends can lead to different entries: such a page is unfit, and no call tells.
#[test]
fn only_fit_pages_are_searched() {
    let mut random = Xorshift::new(3);
    let (mut instants, mut different) = (0, 0);
    for k in CAPACITIES {
        for entries in 2..=k {
            for rising in sorts_of_starts(entries, &mut random) {
                for i in 1..rising.len() {
                    let mut starts = rising.clone();
                    starts[i] = random.pick(&[starts[i - 1], starts[i - 1].saturating_sub(1), 0]);
                    let mut image = image_of(k, &starts);
                    for t in beside(&rising) {
                        let answer = instant(&image, t);
                        assert_eq!(answer, refused(21, 1));
                        different += u64::from(from_the_late_end(&starts, t) != from_the_early_end(&starts, t));
                        instants += 1;
                    }
                    assert_eq!(audit(&image, &mut [7]), 21);
                    assert_eq!(enter(&mut image, &mut [7], 1, rising[i], END), 21);
                }
            }
        }
    }
    report(&format!("search: {instants} instants refused, at {different} the ends lead to different entries"));
    assert!(different > 1_000);
}
