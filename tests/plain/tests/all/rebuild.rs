//! Document 02, request (iii): "Rebuild into a clean image."
//!
//! What a rebuild leaves is worked out a second time here, from the runs as another reader finds them, and laid down by other byte offsets.
//! Each target that comes out is also held against its source: sound, the same listing, the same instants; and a rebuild of it into as many
//! pages is the same bytes.

use crate::capacity::{drawn, wanted};
use crate::loads::{Load, Times};
use crate::support::*;
use plain::calls::Run;
use plain::capacity::Capacity;
use plain::clean::page_sizes;
use plain::making::{fresh_without_field, tree, Choice, Wanted};
use plain::{audit, enter, instant, listing, rebuild, withdraw, Pair, END};

// ---------------------------------------------------------------- a second model

/// The sizes of the pages that share m entries: one more page as long as they have no room, then one entry to each in turn.
fn dealt(m: usize, k: usize) -> Vec<usize> {
    let mut pages = 1;
    while pages * k < m {
        pages += 1;
    }
    let mut sizes = vec![0; pages];
    (0..m).for_each(|i| sizes[i % pages] += 1);
    sizes
}

/// The sizes of each level's pages, leaves first; the last level has one page.
fn levels(m: usize, k: usize) -> Vec<Vec<usize>> {
    let mut levels = vec![dealt(m, k)];
    while levels[levels.len() - 1].len() > 1 {
        levels.push(dealt(levels[levels.len() - 1].len(), k));
    }
    levels
}

/// The fewest pages of an image for m runs, the head among them.
fn fewest_pages(m: usize, k: usize) -> usize {
    1 + levels(m, k).iter().map(Vec::len).sum::<usize>()
}

/// The image that these runs become, in n pages; kind, window and changes by the head's words of the source.
fn clean(source: &[u8], n: usize, runs: &[Run]) -> Vec<u8> {
    let (k, levels) = (capacity(source), levels(runs.len(), capacity(source)));
    let mut image = vec![0xFF; n * (32 + 20 * k)];
    let used = levels.iter().map(Vec::len).sum::<usize>() as u32;
    set_word(&mut image, 0, CAPACITY, k as u32);
    for (field, to) in [(N, n as u32), (HEIGHT, levels.len() as u32), (ROOT, used), (FIRST_FREE, 0), (FREE_LENGTH, 0)] {
        set_word(&mut image, 0, field, to);
    }
    set_word(&mut image, 0, HIGH_MARK, used + 1);
    for field in [KIND, WINDOW, CHANGES] {
        set_word(&mut image, 0, field, word(source, 0, field));
    }
    let mut entries: Vec<(u32, Pair, u32)> = runs.iter().map(|run| (run.start, run.pair, 0)).collect();
    let mut page = 0;
    for (level, sizes) in levels.iter().enumerate() {
        let mut above = Vec::new();
        for size in sizes {
            page += 1;
            above.push((entries[0].0, Pair { sum: 0, count: 0 }, page));
            lay_page(&mut image, page, level as u32, entries.drain(..size));
        }
        entries = above;
    }
    image
}

fn lay_page(image: &mut [u8], page: u32, level: u32, entries: impl Iterator<Item = (u32, Pair, u32)>) {
    let k = capacity(image);
    let mut number = 0;
    for (i, (start, pair, child)) in entries.enumerate() {
        set(image, page, start_at(i), &start.to_le_bytes());
        set(image, page, entry_in(k, i), &pair.sum.to_le_bytes());
        set(image, page, entry_in(k, i) + 8, &pair.count.to_le_bytes());
        set(image, page, entry_in(k, i) + 12, &child.to_le_bytes());
        number = i as u32 + 1;
    }
    set_word(image, page, 0, level);
    set_word(image, page, 1, number);
}

/// The runs of the full listing, by the second reader: its leaf entries in their order, each with the pairs on its way.
fn runs_of(image: &[u8]) -> Vec<Run> {
    let (node, kind, mut starts) = (Node::of(image), word(image, 0, KIND), Vec::new());
    collect_starts(&node, &mut starts);
    let mut runs: Vec<Run> = Vec::new();
    for start in starts {
        let pair = node.pair_at(kind, start);
        if runs.last().is_none_or(|run| run.pair != pair) {
            runs.push(Run { start, pair });
        }
    }
    runs
}

fn collect_starts(node: &Node, starts: &mut Vec<u32>) {
    match node {
        Node::Leaf { entries, .. } => starts.extend(entries.iter().map(|(start, _)| *start)),
        Node::Inner { entries, .. } => entries.iter().for_each(|(_, _, below)| collect_starts(below, starts)),
    }
}

// ---------------------------------------------------------------- a rebuild with every check

/// Of a sound source into n pages: the target, or 24. The target held anything, or another image of this size; the scratch anything.
fn rebuilt(source: &[u8], n: usize, random: &mut Xorshift) -> Result<Vec<u8>, u32> {
    let (runs, k) = (runs_of(source), capacity(source));
    let held = if random.one_in(2) { another(k, n) } else { random.bytes(n * (32 + 20 * k)) };
    let more = random.below(3) as usize;
    let lent = random.bytes(borrowed_by(source) + more);
    let (mut target, mut scratch) = (held.clone(), lent.clone());
    let status = rebuild(source, &mut target, &mut scratch);
    assert!(is_cleared(&scratch, &lent, borrowed_by(source)));
    if fewest_pages(runs.len(), k) > n {
        assert_eq!(status, 24, "{} runs in {n} pages at {k}", runs.len());
        assert!(target == held, "a refused rebuild keeps the target's bytes");
        return Err(status);
    }
    assert_eq!(status, 0, "{} runs in {n} pages at {k}", runs.len());
    assert!(target == clean(source, n, &runs), "{} runs in {n} pages at {k}", runs.len());
    assert_is_clean(source, &target, &runs);
    Ok(target)
}

/// An image of its own kind, window and changes, which a rebuild may find in its target.
fn another(k: usize, n: usize) -> Vec<u8> {
    let mut image = fresh_of(k, n, 3, 77);
    set_word(&mut image, 0, CHANGES, 999);
    assert_eq!(enter(&mut image, &mut vec![0; n], 5, 10, 20), 0);
    image
}

/// What the paper says of a target and its source, without the model: its levels, that it is sound, and that whoever asks it is told what
/// the source tells.
fn assert_is_clean(source: &[u8], target: &[u8], runs: &[Run]) {
    assert_levels(target, runs.len());
    assert!(audit_both_ways(target));
    assert_eq!(
        Node::of(target).pages(),
        (1..word(target, 0, HIGH_MARK)).collect(),
        "the pages used are the first ones"
    );
    assert!(word(target, 0, HIGH_MARK) <= word(source, 0, HIGH_MARK) && height(target) <= height(source));
    assert!(
        leaf_pairs(&Node::of(target)).windows(2).all(|two| two[0].1 != two[1].1),
        "neighbours have different totals"
    );
    assert!(full_listing(target) == full_listing(source));
    for (i, run) in runs.iter().enumerate() {
        let end = runs.get(i + 1).map_or(END, |next| next.start);
        for t in [run.start, run.start + (end - run.start) / 2, end - 1] {
            let (there, here) = (instant(source, t), instant(target, t));
            assert_eq!((there.status, there.sum, there.count), (0, run.pair.sum, run.pair.count));
            assert_eq!((here.status, here.sum, here.count), (0, run.pair.sum, run.pair.count));
            assert_eq!((here.start, here.end, here.pages), (run.start, end, height(target)), "the run's own span");
        }
    }
    let mut again = vec![0x5A; target.len()];
    assert_eq!(rebuild(target, &mut again, &mut vec![9; borrowed_by(target)]), 0);
    assert!(again == target, "a clean image in as many pages is the same again");
}

/// Level after level from page 1 on, each in the order of time and in the fewest pages, sizes at most one apart, larger ones first.
fn assert_levels(target: &[u8], runs: usize) {
    let (mut page, mut entries) = (1, runs);
    for level in 0..height(target) {
        let pages: Vec<u32> =
            (page..word(target, 0, HIGH_MARK)).take_while(|at| word(target, *at, 0) == level).collect();
        let sizes: Vec<usize> = pages.iter().map(|at| word(target, *at, 1) as usize).collect();
        assert_eq!(sizes.iter().sum::<usize>(), entries);
        assert!((sizes.len() - 1) * capacity(target) < entries, "the fewest pages");
        assert!(sizes.windows(2).all(|two| two[0] >= two[1]) && sizes[0] - sizes[sizes.len() - 1] <= 1);
        assert!(pages
            .windows(2)
            .all(|two| get_u32(target, two[0], start_at(0)) < get_u32(target, two[1], start_at(0))));
        (page, entries) = (page + pages.len() as u32, pages.len());
    }
    assert_eq!((entries, page), (1, word(target, 0, HIGH_MARK)), "one page is the last level");
    assert_eq!(word(target, 0, ROOT), page - 1);
}

fn full_listing(image: &[u8]) -> Vec<u8> {
    let mut output = vec![0; 16 * capacity(image) * pages_of(image)];
    let answer = listing(image, 0, END, &mut output);
    assert_eq!(answer.status, 0);
    output.truncate(16 * answer.runs as usize);
    output
}

// ---------------------------------------------------------------- sources

/// m runs, from m − 1 bookings up to END, each of which starts later than the one before: value i from 10 × i on, of kind 3 its opposite.
fn stairs(k: usize, n: usize, kind: u32, m: usize) -> Vec<u8> {
    let mut image = fresh_of(k, n, kind, 0);
    let mut scratch = vec![0; borrowed_by(&image)];
    for i in 1..m as u32 {
        let v = if kind == 3 { -i64::from(i) } else { i64::from(i) };
        assert_eq!(enter(&mut image, &mut scratch, v, 10 * i, END), 0);
    }
    assert_eq!(runs_of(&image).len(), m);
    image
}

/// A made tree of this height with a chain of three pages; with the fewest entries in each page and no chain where n has no room for it.
fn tall(k: usize, n: usize, height: u32, kind: u32, seed: u64) -> Vec<u8> {
    let made = (0..40).find_map(|i| {
        let mut choice = drawn(kind, 2 + 5 * i, seed + i);
        tree(&wanted(k, n as u32, height, kind), 5, 3, &mut choice)
    });
    made.or_else(|| tree(&wanted(k, n as u32, height, kind), 5, 0, &mut drawn(kind, u64::MAX, seed))).expect("so high")
}

// ---------------------------------------------------------------- by hand

/// One run is the root leaf that a format leaves; the changes are the source's.
#[test]
fn one_run() {
    let mut random = Xorshift::new(31);
    for k in CAPACITIES {
        for kind in 1..=3 {
            let mut source = fresh_of(k, 5, kind, 7);
            set_word(&mut source, 0, CHANGES, 12);
            for n in [2, 3, 5, 40, 1_024] {
                let mut expected = fresh_of(k, n, kind, 7);
                set_word(&mut expected, 0, CHANGES, 12);
                assert!(rebuilt(&source, n, &mut random) == Ok(expected));
            }
        }
    }
    // Booked and withdrawn: two changes, and one run again.
    let mut rack = Rack::new(4, 1, 0, 1);
    assert_eq!((rack.enter(6, 10, 40), rack.withdraw(6, 10, 40)), (0, 0));
    let target = rebuilt(&rack.image, 2, &mut random).unwrap();
    assert_eq!((word(&target, 0, CHANGES), word(&target, 1, 1)), (2, 1));
    // One run over the whole time that isn't (0, 0).
    assert_eq!(rack.enter(5, 0, END), 0);
    let target = rebuilt(&rack.image, 2, &mut random).unwrap();
    assert_eq!(Node::of(&target), Node::Leaf { page: 1, entries: vec![(0, Pair { sum: 5, count: 1 })] });
}

/// Five runs at K = 4, every byte: leaves of three entries and of two, and a root over them.
#[test]
fn five_runs_by_bytes() {
    let ff = |count: usize| vec![0xFF; count];
    let numbers = |numbers: &[u32]| -> Vec<u8> { numbers.iter().flat_map(|number| number.to_le_bytes()).collect() };
    let entry = |sum: i64, count: i32, child: u32| -> Vec<u8> {
        [&sum.to_le_bytes()[..], &count.to_le_bytes(), &child.to_le_bytes()].concat()
    };
    let head = [numbers(&[7, 2, 3, 0, 0, 4, 1, 2, 3, 4]), ff(72)];
    let first = [numbers(&[0, 3]), ff(24), numbers(&[0, 10, 20]), ff(4), entry(0, 0, 0), entry(6, 1, 0)];
    let second = [numbers(&[0, 2]), ff(24), numbers(&[27, 52]), ff(8), entry(3, 1, 0), entry(0, 0, 0), ff(32)];
    let root = [numbers(&[1, 2]), ff(24), numbers(&[0, 27]), ff(8), entry(0, 0, 1), entry(0, 0, 2), ff(32)];
    let rest = [entry(9, 2, 0), ff(16)];
    let parts = head.iter().chain(&first).chain(&rest).chain(&second).chain(&root);
    let mut expected: Vec<u8> = parts.flatten().copied().collect();
    assert_eq!(expected.len(), 4 * 112);
    expected.resize(7 * 112, 0xFF);

    // 6 counts on [10, 27), 3 on [20, 52): the window is 2. A booking of 0 that is entered and withdrawn again leaves no run.
    let mut source = fresh_of(4, 9, 1, 2);
    for (v, s, e) in [(6, 10, 25), (3, 20, 50), (0, 90, 93)] {
        assert_eq!(enter(&mut source, &mut [0; 2], v, s, e), 0);
    }
    assert_eq!(withdraw(&mut source, &mut [0; 2], 0, 90, 93), 0);
    set_word(&mut source, 0, CHANGES, 3);
    assert!(rebuilt(&source, 7, &mut Xorshift::new(5)) == Ok(expected));
}

/// The sizes of the pages of each level, leaves first, by hand.
#[test]
fn sizes() {
    type Case = (usize, usize, &'static [&'static [usize]]);
    let cases: [Case; 22] = [
        (4, 1, &[&[1]]),
        (4, 4, &[&[4]]),
        (4, 5, &[&[3, 2], &[2]]),
        (4, 6, &[&[3, 3], &[2]]),
        (4, 7, &[&[4, 3], &[2]]),
        (4, 8, &[&[4, 4], &[2]]),
        (4, 9, &[&[3, 3, 3], &[3]]),
        (4, 10, &[&[4, 3, 3], &[3]]),
        (4, 11, &[&[4, 4, 3], &[3]]),
        (4, 13, &[&[4, 3, 3, 3], &[4]]),
        (4, 16, &[&[4, 4, 4, 4], &[4]]),
        (4, 17, &[&[4, 4, 3, 3, 3], &[3, 2], &[2]]),
        (4, 21, &[&[4, 4, 4, 3, 3, 3], &[3, 3], &[2]]),
        (4, 33, &[&[4, 4, 4, 4, 4, 4, 3, 3, 3], &[3, 3, 3], &[3]]),
        (6, 7, &[&[4, 3], &[2]]),
        (6, 13, &[&[5, 4, 4], &[3]]),
        (8, 25, &[&[7, 6, 6, 6], &[4]]),
        (14, 29, &[&[10, 10, 9], &[3]]),
        (22, 23, &[&[12, 11], &[2]]),
        (24, 24, &[&[24]]),
        (24, 25, &[&[13, 12], &[2]]),
        (24, 50, &[&[17, 17, 16], &[3]]),
    ];
    let mut random = Xorshift::new(32);
    for (k, m, expected) in cases {
        assert_eq!(levels(m, k), expected, "the model, {m} at {k}");
        let of_page = |level: &[usize]| page_sizes(level.iter().sum(), Capacity::new(k as u32).unwrap());
        assert!(expected.iter().all(|level| of_page(level) == *level), "{m} at {k}");
        let pages: Vec<usize> = expected.iter().flat_map(|level| level.iter().copied()).collect();
        let target = rebuilt(&stairs(k, 60, 1, m), pages.len() + 1, &mut random).unwrap();
        let in_bytes: Vec<usize> = (1..=pages.len()).map(|page| word(&target, page as u32, 1) as usize).collect();
        assert_eq!(in_bytes, pages, "{m} at {k}");
        assert_eq!(height(&target) as usize, expected.len());
    }
    // 24 × 24 entries fill 24 pages under one root; with one more there are two of 24, 23 of 23, then 13 and 12, and a third level.
    let of_577 = [vec![24; 2], vec![23; 23]].concat();
    assert_eq!(levels(576, 24), [vec![24; 24], vec![24]]);
    assert_eq!(levels(577, 24), [of_577, vec![13, 12], vec![2]]);
    for (m, height) in [(576, 2), (577, 3)] {
        let target = rebuilt(&stairs(24, 70, 1, m), fewest_pages(m, 24), &mut random).unwrap();
        assert_eq!(word(&target, 0, HEIGHT), height);
    }
}

/// The sizes of every m up to some thousand by what they have to be: the fewest pages, no two sizes more than one apart, none before a
/// larger one, and half at least where there are two.
#[test]
fn sizes_by_their_words() {
    for k in CAPACITIES {
        for m in 1..3_000 {
            let sizes = page_sizes(m, Capacity::new(k as u32).unwrap());
            assert_eq!(sizes.iter().sum::<usize>(), m);
            assert!(sizes.len() * k >= m && (sizes.len() - 1) * k < m, "the fewest pages");
            assert!(sizes.windows(2).all(|two| two[0] >= two[1]) && sizes[0] - sizes[sizes.len() - 1] <= 1);
            assert!(sizes.len() == 1 || sizes[sizes.len() - 1] >= k / 2);
            assert_eq!(sizes, dealt(m, k));
        }
    }
}

/// For kinds 2 and 3 an entry's own pair is only a part of its total where a page above has one; the leaf entries of a target have totals.
#[test]
fn totals_of_every_kind() {
    let mut random = Xorshift::new(33);
    let under_1 = [(1, 50, [51, 52, 53]), (1, -1, [0, 1, 2])];
    let under_2_and_3 = [(2, 50, [50; 3]), (2, -50, [1, 2, 3]), (3, 50, [1, 2, 3]), (3, -50, [-50; 3])];
    for (kind, over, totals) in under_1.into_iter().chain(under_2_and_3) {
        // Nine entries are too many for one page of 8; the wide booking lies in the root then, over both leaves.
        let mut source = fresh_of(8, 9, kind, 0);
        for (v, s) in [(1, 10), (2, 20), (3, 30), (1, 40), (2, 50)] {
            assert_eq!(enter(&mut source, &mut [0; 2], v, s, s + 5), 0);
        }
        assert_eq!(enter(&mut source, &mut [0; 2], over, 0, END), 0);
        let Node::Inner { entries, .. } = Node::of(&source) else { panic!("height 2") };
        assert!(entries.iter().all(|(_, pair, _)| pair.sum == over), "the pair is above the leaves");
        let target = rebuilt(&source, 9, &mut random).unwrap();
        let tree = Node::of(&target);
        assert_eq!([12, 22, 32].map(|t| instant(&target, t).sum), totals);
        assert!(leaf_pairs(&tree).iter().all(|(t, pair)| *pair == tree.pair_at(kind, *t)), "totals");
        // Under a greatest of 50, and under a least of −50, nothing else shows: one run in one page.
        assert_eq!(tree.leaf_entries() == 1, totals[0] == totals[1]);
    }
}

/// The leaf entries with their own pairs; the pairs above them are all (0, 0).
fn leaf_pairs(node: &Node) -> Vec<(u32, Pair)> {
    match node {
        Node::Leaf { entries, .. } => entries.clone(),
        Node::Inner { entries, .. } => {
            assert!(entries.iter().all(|(_, pair, _)| *pair == Pair { sum: 0, count: 0 }));
            entries.iter().flat_map(|(_, _, below)| leaf_pairs(below)).collect()
        }
    }
}

// ---------------------------------------------------------------- how many pages

/// Every number of runs from 1 to beyond the third level's first at small K, and around each page's end at others: n is just enough, one
/// to three too small, or larger.
#[test]
fn just_enough_pages() {
    let mut random = Xorshift::new(34);
    let (mut accepted, mut refused) = (0, 0);
    for k in CAPACITIES {
        let up_to = if k <= 6 { k * k + k + 2 } else { 3 * k + 2 };
        let mut source = fresh_of(k, 120, 1, 0);
        for m in 1..=up_to {
            if k <= 6 || [0, 1, 2, k - 1].contains(&(m % k)) {
                let fewest = fewest_pages(m, k);
                for n in [fewest, fewest + 1, fewest + 7, 1_024] {
                    assert!(rebuilt(&source, n, &mut random).is_ok());
                    accepted += 1;
                }
                for n in (2..fewest).rev().take(3) {
                    assert!(rebuilt(&source, n, &mut random) == Err(24));
                    refused += 1;
                }
            }
            let s = 10 * m as u32;
            assert_eq!(enter(&mut source, &mut [0; 15], 1, s, END), 0);
        }
    }
    report(&format!("rebuild: {accepted} with just enough pages and more, {refused} with fewer"));
}

/// As many full leaves as 1,024 pages have room for: what is rebuilt takes no page less than its source.
#[test]
fn no_page_to_spare() {
    for (k, height) in [(4, 6), (24, 4)] {
        let leaves = (1..1_024).rev().find(|leaves| fewest_pages(leaves * k, k) <= 1_024).unwrap();
        let m = leaves * k;
        let runs: Vec<Run> =
            (0..m as u32).map(|i| Run { start: 3 * i, pair: Pair { sum: i64::from(i % 7), count: 1 } }).collect();
        let mut made = fresh_of(k, 1_024, 1, 0);
        set_word(&mut made, 0, CHANGES, 7);
        let source = clean(&made, 1_024, &runs);
        assert!(audit_both_ways(&source));
        assert_eq!(word(&source, 0, HEIGHT), height);
        let mut random = Xorshift::new(k as u64);
        let fewest = fewest_pages(m, k);
        assert_eq!(rebuilt(&source, fewest, &mut random).map(|target| height == word(&target, 0, HEIGHT)), Ok(true));
        assert!(rebuilt(&source, fewest - 1, &mut random) == Err(24));
        assert!(rebuilt(&source, 1_024, &mut random) == Ok(source));
    }
}

// ---------------------------------------------------------------- sources of every sort

/// "an image of 512-byte pages without the field (FF there) reads as K = 24", and a rebuild writes the field: 24.
#[test]
fn sources_without_the_field() {
    let mut random = Xorshift::new(35);
    for (kind, n) in [(1, 2), (1, 30), (2, 9), (3, 64)] {
        let mut without = fresh_without_field(n, kind, 2);
        let mut with = fresh(n as usize, kind, 2);
        for _ in 0..60 {
            let (v, s) = (random.between(-5, 5), random.below(900) as u32);
            let mut scratch = vec![0; borrowed_by(&with)];
            let status = enter(&mut without, &mut scratch, v, s, s + 9);
            assert_eq!(enter(&mut with, &mut scratch, v, s, s + 9), status);
        }
        assert_eq!(without[36..40], [0xFF; 4]);
        for pages in [2, 5, 9, 64] {
            let target = rebuilt(&without, pages, &mut random);
            assert!(target.is_err() || target.as_ref().unwrap()[36..40] == [24, 0, 0, 0]);
            assert!(target == rebuilt(&with, pages, &mut random), "as with the field");
        }
    }
}

/// Made sources of heights 1 to 10 at K = 4 and up to the greatest height at other K, of every kind, with and without a chain.
#[test]
fn tall_sources() {
    let mut random = Xorshift::new(36);
    let mut by_height = [[0; 11]; 11];
    let at_4 = (1..=10).map(|height| (4, [5, 40, 40, 60, 100, 200, 300, 600, 1_024, 1_024][height - 1], height));
    let others = [(6, 1_024, 7), (6, 300, 5), (8, 1_024, 6), (10, 500, 5), (12, 900, 5), (14, 1_000, 5), (24, 700, 4)];
    for (k, n, source_height) in at_4.chain(others) {
        for kind in 1..=3 {
            for seed in 0..3 {
                let source = tall(k, n, source_height as u32, kind, 100 * seed);
                assert_eq!(height(&source) as usize, source_height);
                let fewest = fewest_pages(runs_of(&source).len(), k);
                assert!(fewest == 2 || rebuilt(&source, fewest - 1, &mut random) == Err(24));
                for n in [fewest, fewest + 1, pages_of(&source)] {
                    let target = rebuilt(&source, n, &mut random).unwrap();
                    by_height[source_height][height(&target) as usize] += 1;
                }
            }
        }
    }
    // Grown by bookings in order, which leave pages half full.
    for m in [30, 60, 130, 300, 700, 1_000] {
        let source = stairs(4, 1_024, 1 + m as u32 / 30 % 3, m);
        let source_height = height(&source) as usize;
        assert!(source_height >= 4);
        assert!(rebuilt(&source, fewest_pages(m, 4) - 1, &mut random) == Err(24));
        let target = rebuilt(&source, fewest_pages(m, 4), &mut random).unwrap();
        by_height[source_height][height(&target) as usize] += 1;
    }
    for (source_height, targets) in by_height.iter().enumerate().skip(1) {
        report(&format!("rebuild: targets of sources of height {source_height} by their height {targets:?}"));
        assert!(targets.iter().sum::<usize>() > 0);
    }
    assert!((1..=6).all(|height| by_height.iter().any(|targets| targets[height] > 0)), "targets of every height");
}

/// Pairs of a way that come to just what the changes allow; their totals are within it, of both signs and at its ends.
struct Extreme {
    random: Xorshift,
    kind: u32,
    height: i64,
}

impl Choice for Extreme {
    fn entries(&mut self, fewest: usize, most: usize) -> usize {
        self.random.between(fewest as i64, most.min(fewest + 2) as i64) as usize
    }

    fn pair(&mut self) -> Pair {
        let sign = self.random.pick(&[1, 1, 1, -1]);
        match self.kind {
            1 => {
                let share = 1_000_000_000 / self.height;
                Pair { sum: sign * 1_000_000 * share, count: (self.random.pick(&[1, 1, 1, -1]) * share) as i32 }
            }
            _ if self.random.one_in(3) => Pair { sum: 0, count: 0 },
            _ => Pair { sum: sign * (1_000_000 - self.random.below(2) as i64), count: 1 },
        }
    }
}

/// Totals are never above the sum of what is on their way, so a target keeps kind 1's bound. At 1,000,000,000 changes a rebuild is
/// accepted all the same: it makes no change.
#[test]
fn totals_at_what_changes_allow() {
    let mut random = Xorshift::new(37);
    let mut greatest = 0;
    for (k, height) in [(4, 1), (4, 2), (4, 4), (4, 5), (8, 2), (8, 4), (24, 2)] {
        for kind in 1..=3 {
            let wanted = Wanted { changes: 1_000_000_000, ..wanted(k, 1_024, height, kind) };
            let choice = |seed| Extreme { random: Xorshift::new(seed), kind, height: i64::from(height) };
            let source = (1..).find_map(|seed| tree(&wanted, 1_000, 0, &mut choice(seed))).unwrap();
            let target = rebuilt(&source, 1_024, &mut random).unwrap();
            assert_eq!(word(&target, 0, CHANGES), 1_000_000_000);
            greatest = runs_of(&target).iter().map(|run| run.pair.sum.abs()).fold(greatest, i64::max);
            let mut scratch = vec![0; borrowed_by(&target)];
            assert_eq!(enter(&mut target.clone(), &mut scratch, 1, 5, 9), 23);
        }
    }
    assert_eq!(greatest, 1_000_000_000_000_000);
}

/// Starts next to END and around 2^31.
#[test]
fn late_starts() {
    let mut random = Xorshift::new(38);
    for first in [1, (1 << 31) - 40, END - 90] {
        let mut source = fresh_of(4, 60, 1, 0);
        for i in 0..30 {
            assert_eq!(enter(&mut source, &mut [0; 8], 1, first + 3 * i, first + 3 * i + 2), 0);
        }
        assert_eq!(enter(&mut source, &mut [0; 8], 1, END - 1, END), 0);
        let target = rebuilt(&source, 60, &mut random).unwrap();
        assert_eq!(instant(&target, END - 1).end, END);
    }
}

/// The same runs make the same bytes whatever tree they come from: the same bookings in other orders.
#[test]
fn trees_of_the_same_runs() {
    let mut random = Xorshift::new(39);
    let mut different = 0;
    for round in 0..60 {
        let k = random.pick(&CAPACITIES);
        let kind = 1 + round % 3;
        let mut bookings: Vec<(i64, u32, u32)> = (0..60)
            .map(|_| {
                let s = random.below(500) as u32;
                (random.between(-3, 3), s, s + 1 + random.below(40) as u32)
            })
            .collect();
        let images = [0, 1].map(|_| {
            let mut image = fresh_of(k, 200, kind, 3);
            for (v, s, e) in &bookings {
                assert_eq!(enter(&mut image, &mut [0; 25], *v, *s, *e), 0);
            }
            random.shuffle(&mut bookings);
            image
        });
        different += u32::from(images[0] != images[1]);
        let n = fewest_pages(runs_of(&images[0]).len(), k) + 2;
        assert!(rebuilt(&images[0], n, &mut random) == rebuilt(&images[1], n, &mut random));
    }
    assert!(different > 40, "{different} pairs of trees differ");
}

// ---------------------------------------------------------------- refusals

/// What may be wrong with the three buffers of a rebuild.
#[derive(Clone, Copy, PartialEq, Debug)]
enum Wrong {
    SourceUnder40,
    SourceCapacity,
    SourceLength,
    ShortScratch,
    SourceUnsound,
    TargetLength,
    PagesLack,
}

/// In the order in which they are told: "Errors: 16, 17, 21 (not sound) of the source first, then 16 of the target (scratch 0), 24 if n is
/// too small", and of the source's 16 "under 40 bytes gives 16, a bad K 21 ahead of 16".
const ORDER: [(Wrong, u32); 7] = [
    (Wrong::SourceUnder40, 16),
    (Wrong::SourceCapacity, 21),
    (Wrong::SourceLength, 16),
    (Wrong::ShortScratch, 17),
    (Wrong::SourceUnsound, 21),
    (Wrong::TargetLength, 16),
    (Wrong::PagesLack, 24),
];

/// Every set of them: the first tells, the target keeps its bytes, and the scratch does up to 17.
#[test]
fn refusals_in_every_combination() {
    let mut calls = 0;
    for (k, n) in [(4, 2), (4, 9), (4, 17), (10, 9), (24, 2), (24, 17)] {
        for kind in 1..=3 {
            for changes in [1_000, 1_000_000_000] {
                for bits in 0..1u32 << ORDER.len() {
                    let has = |wrong| ORDER.iter().any(|(one, _)| *one == wrong && bits >> (wrong as u32) & 1 == 1);
                    refused_or_not(k, n, kind, changes, &has);
                    calls += 1;
                }
            }
        }
    }
    report(&format!("rebuild: {calls} in every combination of reasons"));
}

fn refused_or_not(k: usize, n: usize, kind: u32, changes: u32, has: &dyn Fn(Wrong) -> bool) {
    // A leaf filled up is one page, which every target of two pages has room for; a further run is three.
    let m = if has(Wrong::PagesLack) && n > 4 { k + 1 } else { k };
    let lack = has(Wrong::PagesLack) && m > k;
    let mut source = stairs(k, n, kind, m);
    let borrowed = borrowed_by(&source);
    set_word(&mut source, 0, CHANGES, changes);
    if has(Wrong::SourceUnsound) {
        set_word(&mut source, 1, 2, 0);
    }
    if has(Wrong::SourceLength) {
        source.pop();
    }
    if has(Wrong::SourceCapacity) {
        source[36] += 1;
    }
    if has(Wrong::SourceUnder40) {
        source.truncate(39);
    }
    let mut target = vec![0x6B; 2 * (32 + 20 * k)];
    if has(Wrong::TargetLength) {
        target.pop();
    }
    let lent: Vec<u8> = (1..=borrowed as u8 + 2).collect();
    let mut scratch = lent[..if has(Wrong::ShortScratch) { borrowed - 1 } else { borrowed + 2 }].to_vec();
    let in_order = ORDER.iter().find(|(wrong, _)| if *wrong == Wrong::PagesLack { lack } else { has(*wrong) });
    let (held, before) = (target.clone(), scratch.clone());
    assert_eq!(rebuild(&source, &mut target, &mut scratch), in_order.map_or(0, |(_, status)| *status));
    assert_eq!(target == held, in_order.is_some());
    let untouched = in_order.is_some_and(|(wrong, _)| (*wrong as u32) <= Wrong::ShortScratch as u32);
    assert!(if untouched { scratch == before } else { is_cleared(&scratch, &before, borrowed) });
}

/// The target's length is judged by the source's K, and whatever the target holds, a K of its own among it, isn't looked at.
#[test]
fn lengths_of_the_target() {
    let mut calls = [0; 2];
    for k in CAPACITIES {
        let (source, page) = (stairs(k, 9, 1, 3), 32 + 20 * k);
        let mut lengths = vec![0, 1, 39, 40, page - 1, page, page + 1, 1_025 * page, 2_048 * page, 2 * page + page / 2];
        for n in [2, 3, 8, 9, 64, 1_023, 1_024] {
            lengths.extend([n * page - 1, n * page, n * page + 1]);
            lengths.extend(CAPACITIES.map(|other| n * (32 + 20 * other)));
        }
        for length in lengths {
            let is_whole = length % page == 0 && (2..=1_024).contains(&(length / page));
            for held in [0x00, 0x04, 0xFF] {
                let (mut target, mut scratch) = (vec![held; length], [7; 4]);
                let status = rebuild(&source, &mut target, &mut scratch);
                assert_eq!(status, if is_whole { 0 } else { 16 }, "{length} at {k}");
                assert_eq!(scratch, [0, 0, 7, 7]);
                if is_whole {
                    assert!(target == clean(&source, length / page, &runs_of(&source)));
                } else {
                    assert!(target.iter().all(|byte| *byte == held));
                }
                calls[usize::from(is_whole)] += 1;
            }
        }
    }
    report(&format!("rebuild: {} targets of a good length, {} of another", calls[1], calls[0]));
}

/// The scratch goes by the source's n alone, whether the target is larger or smaller.
#[test]
fn scratch_by_the_source() {
    for (n, borrowed) in [(2, 1), (8, 1), (9, 2), (16, 2), (17, 3), (64, 8), (1_024, 128)] {
        let source = stairs(4, n, 1, 3);
        for target_pages in [2, 9, 1_024] {
            for length in 0..borrowed + 5 {
                let (mut target, mut scratch) = (vec![0x6B; 112 * target_pages], vec![3; length]);
                let status = rebuild(&source, &mut target, &mut scratch);
                assert_eq!(status, if length < borrowed { 17 } else { 0 }, "{n} into {target_pages} with {length}");
                assert!(if status == 17 {
                    scratch.iter().all(|byte| *byte == 3) && target.iter().all(|byte| *byte == 0x6B)
                } else {
                    is_cleared(&scratch, &vec![3; length], borrowed)
                });
            }
        }
    }
}

/// Random damage: a rebuild refuses exactly what an audit refuses, with the same number and what it does to the scratch; but for images of
/// kind 1 that have two equal neighbours and are otherwise in order, which by document 02, (iv), "pass through the rebuild".
#[test]
fn damaged_sources() {
    let mut random = Xorshift::new(40);
    let mut by_status = [0; 25];
    let mut older = 0;
    let whole: Vec<Vec<u8>> = (0..24)
        .map(|i| match i % 3 {
            0 => tall([4, 6, 4, 8][i / 3 % 4], 200, 3 + i as u32 % 2, 1 + i as u32 / 8, i as u64),
            1 => stairs(CAPACITIES[i % 11], 120, 1 + i as u32 / 8, 9 + 2 * i),
            _ => fresh_without_field(7, 1 + i as u32 / 8, 3),
        })
        .collect();
    for round in 0..30_000 {
        let mut source = whole[round % whole.len()].clone();
        for _ in 0..random.below(3) {
            // Pages in use and the head mostly, where damage matters.
            let used = page_bytes(&source) * word(&source, 0, HIGH_MARK).clamp(1, 9) as usize;
            let within = if random.one_in(3) { source.len() } else { used.min(source.len()) };
            let at = random.below(within as u64) as usize;
            source[at] = random.pick(&[0, 1, 2, 0xFF, source[at] ^ 1, source[at].wrapping_add(1)]);
        }
        if random.one_in(20) {
            let totals = Node::of(&whole[round % whole.len()]).leaf_totals();
            let i = random.below(totals.len() as u64) as usize;
            if i > 0 && word(&source, 0, KIND) == 1 && source == whole[round % whole.len()] {
                set_total(&mut source, totals[i].0, totals[i - 1].1);
            }
        }
        if random.one_in(40) {
            set_word(&mut source, 0, CAPACITY, random.below(27) as u32);
        }
        let length = borrowed_by(&source) + random.below(3) as usize;
        let (mut scratch, mut of_audit) = (vec![7; length], vec![7; length]);
        let mut target = vec![0x6B; page_bytes(&source) * 200];
        let status = rebuild(&source, &mut target, &mut scratch);
        let audited = audit(&source, &mut of_audit);
        if status != audited {
            assert_eq!((status, audited, word(&source, 0, KIND)), (0, 21, 1));
            assert!(!Node::of(&source).equal_neighbours().is_empty());
            older += 1;
        }
        assert_eq!(scratch, of_audit);
        assert_eq!(status != 0, target.iter().all(|byte| *byte == 0x6B));
        by_status[status as usize] += 1;
        if status == 0 && round % 16 == 0 {
            rebuilt(&source, 200, &mut random).unwrap();
        }
    }
    report(&format!("rebuild: damaged sources, by status {by_status:?}, {older} with equal neighbours"));
    assert!(older > 30 && by_status[0] > 1_000 && by_status[21] > 1_000 && by_status[16] > 0);
}

// ---------------------------------------------------------------- seasons of changes

/// The rack of a target: its image is the rebuilt one, and it goes on with the source's books.
fn rebuilt_rack(rack: &Rack, n: usize, random: &mut Xorshift) -> Option<Rack> {
    let image = rebuilt(&rack.image, n, random).ok()?;
    assert!(runs_of(&image) == rack.timeline.runs(0, END));
    Some(Rack { image, ..rack.clone() })
}

/// A season of random changes, a rebuild into fewer or more pages, the next season on the target, and so on: the book of all accepted
/// changes tells what every target answers. Now and then the source goes on, as if nobody had rebuilt it.
#[test]
fn seasons_on_targets() {
    let mut random = Xorshift::new(41);
    let (mut rebuilds, mut lacking, mut pages) = (0, 0, (0, 0));
    let mut total = Tally::default();
    for (i, k) in CAPACITIES.into_iter().cycle().take(44).enumerate() {
        let (kind, window) = (1 + i as u32 % 3, random.pick(&[0, 0, 2, 50, 1_000_000_000]));
        let n = random.pick(&[9, 20, 40, 120]);
        let times = Times { range: (k * n) as u64 / 2 + 20, longest: 9 };
        let mut load = Load::on(fresh_of(k, n, kind, window), times, 500 + i as u64);
        load.rack.by_step = false;
        for _ in 0..6 {
            load.changes(if kind == 1 { 60 } else { 30 });
            let fewest = fewest_pages(load.rack.timeline.runs(0, END).len(), k);
            let n = fewest + random.pick(&[0, 0, 1, 4, 30]);
            lacking += u32::from(fewest > 2 && rebuilt_rack(&load.rack, fewest - 1, &mut random).is_none());
            let target = rebuilt_rack(&load.rack, n, &mut random).expect("so many pages are enough");
            pages.0 += word(&load.rack.image, 0, HIGH_MARK);
            pages.1 += word(&target.image, 0, HIGH_MARK);
            rebuilds += 1;
            if !random.one_in(4) {
                load.rack = target;
            }
        }
        load.rack.check_instants();
        load.rack.check_listing(0, END);
        total.add(&load.rack.tally);
    }
    total.report("rebuild, seasons on targets");
    report(&format!(
        "rebuild: {rebuilds} after a season, {lacking} with a page too few; high marks {} before and {} after",
        pages.0, pages.1
    ));
    assert!(pages.1 < pages.0 && lacking > 100 && total.refused_24 > 0);
    assert!(total.splits > 0 && total.merges() > 0 && total.gives() > 0);
}

/// The same changes on source and target, with pages to spare in both: the same statuses and the same listing after each of them.
#[test]
fn source_and_target_go_on_alike() {
    let mut random = Xorshift::new(42);
    let mut changes = 0;
    for (i, k) in CAPACITIES.into_iter().enumerate() {
        for kind in 1..=3 {
            let tall = tall([k, 4, 4][i % 3], [300, 300, 500][i % 3], if k < 10 || i % 3 > 0 { 4 } else { 3 }, kind, 9);
            let stairs = stairs(k, 300, kind, 3 * k + i);
            for source in [tall, stairs] {
                let mut source = source;
                let mut target = rebuilt(&source, 400, &mut random).unwrap();
                let range = 5 * Node::of(&source).leaf_entries() as u64;
                for _ in 0..60 {
                    let (v, s) = (random.between(-3, 3), random.below(range) as u32);
                    let e = s + 1 + random.pick(&[0, 4, 5, 9, 300]);
                    let statuses = [&mut source, &mut target].map(|image| {
                        let mut scratch = vec![9; borrowed_by(image)];
                        match kind == 1 && v < 0 {
                            true => withdraw(image, &mut scratch, v, s, e),
                            false => enter(image, &mut scratch, v, s, e),
                        }
                    });
                    assert_eq!(statuses, [0, 0]);
                    assert!(full_listing(&source) == full_listing(&target));
                    changes += 1;
                }
                assert!(audit_both_ways(&target));
                assert_eq!(word(&source, 0, CHANGES), word(&target, 0, CHANGES));
                rebuilt(&target, 400, &mut random).unwrap();
            }
        }
    }
    report(&format!("rebuild: {changes} changes made alike on source and target"));
}

/// Bookings on a small image until 24: the pages are some two thirds full. Rebuilt into as many pages it has room.
#[test]
fn room_after_a_rebuild() {
    let mut random = Xorshift::new(43);
    let mut made_room = 0;
    for (k, n) in [(4, 12), (6, 12), (10, 9), (24, 8)] {
        for seed in 0..6 {
            let mut rack = Rack::on(fresh_of(k, n, 1, 0), seed);
            let (v, s) = loop {
                let (s, v) = (random.below(100_000) as u32, random.between(1, 9));
                if rack.enter(v, s, s + 7) != 0 {
                    break (v, s);
                }
            };
            let Some(mut target) = rebuilt_rack(&rack, n, &mut random) else { panic!("as many pages are enough") };
            if target.enter(v, s, s + 7) == 0 {
                made_room += 1;
            }
            target.check_instants();
            target.check_listing(0, END);
        }
    }
    report(&format!("rebuild: {made_room} refused bookings found room after it"));
    assert!(made_room > 10);
}
