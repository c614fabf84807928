//! Document 02, (iv), "Edges between pages join too": what heal does for kind 1 where a page ends, and what a sound image of kind 1 is from
//! then on. Images are written out by hand, or laid down with totals of our choice up to height 10.

use crate::bytes::{assert_image, free_page_of, head_of, tree_page_of, HandEntry};
use crate::capacity::{drawn, wanted};
use crate::support::*;
use plain::making::{older_tree, tree, Choice};
use plain::sound::is_sound_by_the_old_rule;
use plain::steps::{one_step, Effect, Step};
use plain::value::Span;
use plain::{audit, average, enter, enter_recorded, instant, listing, rebuild, withdraw, withdraw_recorded};
use plain::{Pair, RecordedChange, END};

// ---------------------------------------------------------------- images by hand

/// An image of K = 4 whose pages from 1 on are these, all in use; the root is the last of them.
fn by_hand(kind: u32, changes: u32, pages: &[(u32, Vec<HandEntry>)]) -> Vec<u8> {
    let n = pages.len() as u32 + 1;
    let height = pages[pages.len() - 1].0 + 1;
    let mut image = head_of([n, height, n - 1, 0, 0, n, kind, 0, changes], 4);
    for (level, entries) in pages {
        image.extend(tree_page_of(4, *level, entries));
    }
    image
}

fn change(image: &mut [u8], withdrawal: bool, v: i64, s: u32, e: u32) -> RecordedChange {
    let change = if withdrawal { withdraw_recorded } else { enter_recorded };
    let recorded = change(image, &mut [0; 128], v, s, e);
    assert_eq!(recorded.status, 0);
    recorded
}

/// The pages whose bytes a change altered, which have to be among those that its steps name.
fn written(before: &[u8], after: &[u8], recorded: &RecordedChange) -> Vec<u32> {
    let written = changed_pages(before, after);
    assert!(written.iter().all(|page| recorded.named_pages().contains(page)));
    written
}

/// Two leaves under a root with pairs: totals (0, 0) and (1, 1) in the first, from 20 on what is given.
fn two_leaves(kind: u32, second: &[HandEntry]) -> Vec<u8> {
    let first = vec![(0, -5, -1, 0), (10, -4, 0, 0)];
    by_hand(kind, 40, &[(0, first), (0, second.to_vec()), (1, vec![(0, 5, 1, 1), (20, 7, 2, 2)])])
}

/// "the entry goes, and the new first start is carried up to the parent entry that separates the two pages". The two own pairs differ:
/// totals are what is compared. The pair of the entry that stays is as it was.
#[test]
fn an_edge_under_the_root() {
    let mut image = two_leaves(1, &[(20, -6, -2, 0), (30, 9, 9, 0), (40, 8, 8, 0)]);
    assert!(audit_both_ways(&image));
    let before = image.clone();
    // 20 comes from (1, 0) to (1, 1), the total of 10.
    let recorded = change(&mut image, false, 0, 20, 30);
    assert_eq!((recorded.steps[3].entries_healed, recorded.steps[3].edge_level), (1, 1));
    assert!(recorded.steps[3].turned_to.is_empty() && recorded.steps[4].entries_healed == 0);
    let expected = [
        head_of([4, 2, 3, 0, 0, 4, 1, 0, 41], 4),
        tree_page_of(4, 0, &[(0, -5, -1, 0), (10, -4, 0, 0)]),
        tree_page_of(4, 0, &[(30, 9, 9, 0), (40, 8, 8, 0)]),
        tree_page_of(4, 1, &[(0, 5, 1, 1), (30, 7, 2, 2)]),
    ];
    assert_image(&image, &expected);
    // The page on the way to t−1, the first leaf, is neither written nor named.
    assert_eq!(written(&before, &image, &recorded), [0, 2, 3]);
    assert_eq!(recorded.steps[3].named_pages().into_iter().collect::<Vec<u32>>(), [0, 2, 3]);
    assert_eq!((instant(&image, 20).start, instant(&image, 29).end), (10, 30));
}

/// The same at e′: what comes before the edge is changed, and E finds it.
#[test]
fn an_edge_at_the_end_of_the_span() {
    let mut image = two_leaves(1, &[(20, -5, -1, 0), (30, 9, 9, 0), (40, 8, 8, 0)]);
    // 10 comes from (1, 1) to (2, 1) by an entry and a withdrawal, the total of 20.
    change(&mut image, false, 4, 10, 20);
    let recorded = change(&mut image, true, 3, 10, 20);
    assert_eq!((recorded.steps[3].entries_healed, recorded.steps[4].edge_level), (0, 1));
    let expected = [
        head_of([4, 2, 3, 0, 0, 4, 1, 0, 42], 4),
        tree_page_of(4, 0, &[(0, -5, -1, 0), (10, -3, 0, 0)]),
        tree_page_of(4, 0, &[(30, 9, 9, 0), (40, 8, 8, 0)]),
        tree_page_of(4, 1, &[(0, 5, 1, 1), (30, 7, 2, 2)]),
    ];
    assert_image(&image, &expected);
}

/// "Joining two entries of equal sum and different count" is a fault; so is comparing own pairs across an edge.
#[test]
fn edges_that_stay() {
    // Equal sums with different counts; equal counts with different sums; equal own pairs with different totals.
    for (own, v) in [((-6, -3), 0), ((-7, -2), 0), ((-4, -1), 0)] {
        let mut image = two_leaves(1, &[(20, own.0, own.1, 0), (30, 90, 9, 0), (40, 8, 8, 0)]);
        assert!(audit_both_ways(&image));
        let recorded = change(&mut image, false, v, 20, 30);
        assert!(recorded.steps.iter().all(|step| step.entries_healed == 0));
        let expected = [
            head_of([4, 2, 3, 0, 0, 4, 1, 0, 41], 4),
            tree_page_of(4, 0, &[(0, -5, -1, 0), (10, -4, 0, 0)]),
            tree_page_of(4, 0, &[(20, own.0, own.1 + 1, 0), (30, 90, 9, 0), (40, 8, 8, 0)]),
            tree_page_of(4, 1, &[(0, 5, 1, 1), (20, 7, 2, 2)]),
        ];
        assert_image(&image, &expected);
        assert!(audit_both_ways(&image));
    }
    // The last of them has come to the own pair of 10, (−4, 0), and nobody minds.
    let image = two_leaves(1, &[(20, -4, 0, 0), (30, 90, 9, 0)]);
    assert!(audit_both_ways(&image));
}

/// A page left with K/2 − 1 turns to its left neighbour, which has K/2 + 1 and gives: the start that was just carried follows what is
/// given. Both parent pairs go into the entries first.
#[test]
fn an_edge_then_the_left_gives() {
    let left = vec![(0, -5, -1, 0), (5, 3, 3, 0), (10, -4, 0, 0)];
    let mut image =
        by_hand(1, 40, &[(0, left), (0, vec![(20, -6, -2, 0), (30, 9, 9, 0)]), (1, vec![(0, 5, 1, 1), (20, 7, 2, 2)])]);
    let recorded = change(&mut image, false, 0, 20, 30);
    assert_eq!((recorded.steps[3].edge_level, recorded.steps[3].gives_from_left), (1, 1));
    assert_eq!(recorded.steps[3].turned_to, [1]);
    let expected = [
        head_of([4, 2, 3, 0, 0, 4, 1, 0, 41], 4),
        tree_page_of(4, 0, &[(0, 0, 0, 0), (5, 8, 4, 0)]),
        tree_page_of(4, 0, &[(10, 1, 1, 0), (30, 16, 11, 0)]),
        tree_page_of(4, 1, &[(0, 0, 0, 1), (10, 0, 0, 2)]),
    ];
    assert_image(&image, &expected);
}

/// The left neighbour has K/2: both join in it, its entry behind goes with the start that was just carried, and an inner root with one
/// entry is given back.
#[test]
fn an_edge_then_a_join_and_the_root_collapses() {
    let mut image = two_leaves(1, &[(20, -6, -2, 0), (30, 9, 9, 0)]);
    let recorded = change(&mut image, false, 0, 20, 30);
    let step = &recorded.steps[3];
    assert_eq!((step.edge_level, step.merges_with_left, step.roots_lost), (1, 1, 1));
    assert_eq!((&step.turned_to[..], &step.given_back[..]), (&[1][..], &[2, 3][..]));
    let expected = [
        head_of([4, 1, 1, 3, 2, 4, 1, 0, 41], 4),
        tree_page_of(4, 0, &[(0, 0, 0, 0), (10, 1, 1, 0), (30, 16, 11, 0)]),
        free_page_of(4, 0),
        free_page_of(4, 2),
    ];
    assert_image(&image, &expected);
}

/// Height 3. Leaves 1 to 4 start at 0, 20, 40 and 60, pages 5 and 6 above them, the root is 7; `first` and `last` say how many entries
/// page 5 and leaf 4 have beyond two. 40 stands behind an edge whose separator is in the root.
fn three_levels(first: bool, last: bool) -> Vec<u8> {
    let mut fourth = vec![(60, 6, 0, 0), (70, 7, 0, 0)];
    fourth.extend(last.then_some((80, 8, 0, 0)));
    let mut fifth = vec![(0, 1, 0, 1), (20, 1, 0, 2)];
    let mut pages = vec![
        (0, vec![(0, 0, 0, 0), (10, 1, 0, 0)]),
        (0, vec![(20, 2, 0, 0), (30, 3, 0, 0)]),
        (0, vec![(40, 90, 2, 0), (50, 5, 0, 0)]),
        (0, fourth),
    ];
    let sixth = vec![(40, -100, 0, 3), (60, 2, 0, 4)];
    if first {
        // One more leaf, 5, behind leaf 2: it takes over its last entry's place before the edge.
        fifth.push((32, 1, 0, 5));
        pages[1].1 = vec![(20, 2, 0, 0), (30, 12, 0, 0)];
        pages.push((0, vec![(32, 13, 0, 0), (35, 3, 0, 0)]));
    }
    let inner = pages.len() as u32 + 1;
    pages.push((1, fifth));
    pages.push((1, sixth));
    pages.push((2, vec![(0, 0, 1, inner), (40, 20, 0, inner + 1)]));
    by_hand(1, 200, &pages)
}

/// The separator is two levels up, so that the leaf is its parent's first and has no left neighbour there: the right one has K/2 + 1 and
/// gives, and "the right page's parent start follows". Neither page 5 nor leaf 2, which only the way to t−1 names, is written or named.
#[test]
fn an_edge_two_levels_up_and_the_right_gives() {
    let mut image = three_levels(false, true);
    assert!(audit_both_ways(&image));
    let before = image.clone();
    // 30 has (4, 1); 40 comes from (10, 2) to (4, 1).
    let recorded = change(&mut image, true, 6, 40, 50);
    let step = &recorded.steps[3];
    assert_eq!((step.edge_level, step.gives_from_right, &step.turned_to[..]), (2, 1, &[4][..]));
    assert_eq!(step.ways, [[7, 6, 3]]);
    let expected = [
        head_of([8, 3, 7, 0, 0, 8, 1, 0, 201], 4),
        tree_page_of(4, 0, &[(0, 0, 0, 0), (10, 1, 0, 0)]),
        tree_page_of(4, 0, &[(20, 2, 0, 0), (30, 3, 0, 0)]),
        tree_page_of(4, 0, &[(50, -95, 0, 0), (60, 8, 0, 0)]),
        tree_page_of(4, 0, &[(70, 9, 0, 0), (80, 10, 0, 0)]),
        tree_page_of(4, 1, &[(0, 1, 0, 1), (20, 1, 0, 2)]),
        tree_page_of(4, 1, &[(50, 0, 0, 3), (70, 0, 0, 4)]),
        tree_page_of(4, 2, &[(0, 0, 1, 5), (50, 20, 0, 6)]),
    ];
    assert_image(&image, &expected);
    assert_eq!(written(&before, &image, &recorded), [0, 3, 4, 6, 7]);
    assert_eq!(step.named_pages().into_iter().collect::<Vec<u32>>(), [0, 3, 4, 6, 7]);
}

/// The right leaf has K/2: both join in the left one, which is the page that lost its entry. The parent is left with one and turns left,
/// to the page on the way to t−1, where both join; the root is given back last.
#[test]
fn an_edge_two_levels_up_and_all_join() {
    let mut image = three_levels(false, false);
    let before = image.clone();
    let recorded = change(&mut image, true, 6, 40, 50);
    let step = &recorded.steps[3];
    assert_eq!((step.edge_level, step.merges_with_right, step.merges_with_left, step.roots_lost), (2, 1, 1, 1));
    assert_eq!((&step.turned_to[..], &step.given_back[..]), (&[4, 5][..], &[4, 6, 7][..]));
    let expected = [
        head_of([8, 2, 5, 7, 3, 8, 1, 0, 201], 4),
        tree_page_of(4, 0, &[(0, 0, 0, 0), (10, 1, 0, 0)]),
        tree_page_of(4, 0, &[(20, 2, 0, 0), (30, 3, 0, 0)]),
        tree_page_of(4, 0, &[(50, -95, 0, 0), (60, 8, 0, 0), (70, 9, 0, 0)]),
        free_page_of(4, 0),
        tree_page_of(4, 1, &[(0, 1, 1, 1), (20, 1, 1, 2), (50, 20, 0, 3)]),
        free_page_of(4, 4),
        free_page_of(4, 6),
    ];
    assert_image(&image, &expected);
    // Leaf 2 lies on the way to t−1 alone.
    assert_eq!(written(&before, &image, &recorded), [0, 3, 4, 5, 6, 7]);
}

/// With three entries in the page on the way to t−1 it gives its last one, and the separator in the root follows a second time.
#[test]
fn an_edge_two_levels_up_and_the_left_gives_above() {
    let mut image = three_levels(true, false);
    assert!(audit_both_ways(&image));
    // 35 has (4, 1).
    let recorded = change(&mut image, true, 6, 40, 50);
    let step = &recorded.steps[3];
    assert_eq!((step.edge_level, step.merges_with_right, step.gives_from_left, step.roots_lost), (2, 1, 1, 0));
    let expected = [
        head_of([9, 3, 8, 4, 1, 9, 1, 0, 201], 4),
        tree_page_of(4, 0, &[(0, 0, 0, 0), (10, 1, 0, 0)]),
        tree_page_of(4, 0, &[(20, 2, 0, 0), (30, 12, 0, 0)]),
        tree_page_of(4, 0, &[(50, -95, 0, 0), (60, 8, 0, 0), (70, 9, 0, 0)]),
        free_page_of(4, 0),
        tree_page_of(4, 0, &[(32, 13, 0, 0), (35, 3, 0, 0)]),
        tree_page_of(4, 1, &[(0, 1, 1, 1), (20, 1, 1, 2)]),
        tree_page_of(4, 1, &[(32, 1, 1, 5), (50, 20, 0, 3)]),
        tree_page_of(4, 2, &[(0, 0, 0, 6), (32, 0, 0, 7)]),
    ];
    assert_image(&image, &expected);
}

// ---------------------------------------------------------------- every level up to height 10

/// The fewest entries in each page, or one in so many with more; any pairs. Each leaf entry then gets a total of its own: its place as
/// the sum, 1 and 2 in turn as the count.
fn in_turn(k: usize, n: u32, height: u32, one_in: u64, seed: u64) -> Option<Vec<u8>> {
    let mut image = older_tree(&wanted(k, n, height, 1), 5, 0, &mut drawn(1, one_in, seed))?;
    let starts: Vec<u32> = Node::of(&image).leaf_starts().into_iter().collect();
    for (i, start) in starts.into_iter().enumerate() {
        set_total(&mut image, start, Pair { sum: i as i64, count: 1 + i as i32 % 2 });
    }
    Some(image)
}

/// A change of one leaf entry next to an edge at t, after which both sides have the same total: of the entry behind the edge, for D, or of
/// the one before it, for E.
fn joining(image: &[u8], t: u32, at_end: bool) -> (bool, i64, u32, u32) {
    let tree = Node::of(image);
    let (s, e) = leaf_entry_at(image, if at_end { t - 1 } else { t });
    let (from, to) = (tree.pair_at(1, s), tree.pair_at(1, if at_end { t } else { t - 1 }));
    let rise = to.count - from.count;
    assert_eq!(rise.abs(), 1);
    (rise < 0, i64::from(rise) * (to.sum - from.sum), s, e)
}

/// One edge joined on a copy of this image, with every check of the rack; what was done.
fn join(image: &[u8], t: u32, level: u32, at_end: bool) -> Tally {
    let (withdrawal, v, s, e) = joining(image, t, at_end);
    let mut rack = Rack::on(image.to_vec(), 1);
    rack.tally = Tally::default();
    assert_eq!(rack.change(withdrawal, v, s, e), 0);
    let mut edges = [0; 10];
    edges[level as usize] = 1;
    assert_eq!(rack.tally.edges, edges, "the separator of {t} has level {level}");
    let (tree, after) = (Node::of(image), Node::of(&rack.image));
    assert_eq!(&tree.leaf_starts() - &after.leaf_starts(), std::collections::BTreeSet::from([t]));
    assert!(!after.edges().contains(&(t, level)));
    for t in [s, e.min(END - 1), s.saturating_sub(1), e - 1, t, t - 1] {
        let pair = after.pair_at(1, t);
        rack.check_instant_as(t, pair);
        if t < s || t >= e {
            assert_eq!(pair, tree.pair_at(1, t));
        }
    }
    rack.tally
}

/// "A sound image may have height 10 at K = 4": 1,023 pages of two entries, which no list of changes reaches. Edges with separators of each
/// level from 1 to 9, joined in D and in E. Where every page has the fewest entries, the joins go up to the root.
#[test]
fn edges_of_every_level_up_to_height_10() {
    let mut total = Tally::default();
    for height in 2..=10 {
        let image = in_turn(4, 1_024, height, u64::MAX, u64::from(height)).unwrap();
        assert!(audit_both_ways(&image));
        let edges = Node::of(&image).edges();
        assert_eq!(edges.len(), (1 << (height - 1)) - 1);
        for level in 1..height {
            let of_level: Vec<u32> = edges.iter().filter(|(_, of)| *of == level).map(|(t, _)| *t).collect();
            assert_eq!(of_level.len(), 1 << (height - 1 - level));
            let picked = [0, of_level.len() - 1, of_level.len() / 2, of_level.len() / 3];
            for i in picked.into_iter().collect::<std::collections::BTreeSet<usize>>() {
                for at_end in [false, true] {
                    let done = join(&image, of_level[i], level, at_end);
                    assert_eq!((done.roots_lost, done.merges()), (1, u64::from(height) - 1));
                    // The page directly under the separating one turns left.
                    assert!(done.merges_with_left > 0);
                    assert!(done.merges_with_right >= u64::from(level) - 1);
                    total.add(&done);
                }
            }
        }
    }
    total.report("edges, fewest entries up to height 10");
    assert!(total.edges[1..].iter().all(|joined| *joined > 0));
}

/// The same with any numbers of entries at every K, up to the greatest height of each: some pages turn, some don't, some neighbours give.
#[test]
fn edges_at_every_capacity() {
    let mut total = Tally::default();
    let mut random = Xorshift::new(81);
    for (k, greatest) in CAPACITIES.into_iter().zip([9, 6, 5, 4, 4, 4, 3, 3, 3, 3, 3]) {
        for height in 2..=greatest {
            for seed in 0..4 {
                let mut roomy = (0..200).filter_map(|i| in_turn(k, 1_024, height, 2 + seed + 5 * i, seed));
                let image = roomy.next().expect("so high");
                let mut edges = Node::of(&image).edges();
                random.shuffle(&mut edges);
                for level in 1..height {
                    for (t, _) in edges.iter().filter(|(_, of)| *of == level).take(4) {
                        if (instant(&image, *t).count - instant(&image, t - 1).count).abs() == 1 {
                            total.add(&join(&image, *t, level, random.one_in(2)));
                        }
                    }
                }
            }
        }
    }
    total.report("edges, every K");
    assert!(total.edges[1..=8].iter().all(|joined| *joined > 0));
    assert!(total.gives_from_left > 0 && total.gives_from_right > 0 && total.inner_gives > 0);
    assert!(total.merges_with_left > 0 && total.merges_with_right > 0);
    assert!(total.edges_turned.iter().all(|turned| *turned > 0), "and some pages don't turn");
}

/// Entries and withdrawals that bring one total to another; on the way the sums are far from those of others.
fn changes_between(from: Pair, to: Pair) -> Vec<(bool, i64)> {
    let rise = to.count - from.count;
    let mut ones = vec![rise.signum(); rise.unsigned_abs() as usize];
    if ones.is_empty() {
        ones = vec![1, -1];
    }
    let mut missing = to.sum - from.sum;
    let last = ones.len() - 1;
    let mut changes = Vec::new();
    for (i, one) in ones.into_iter().enumerate() {
        let sum = if i == last { missing } else { 5_000 };
        missing -= sum;
        changes.push((one < 0, i64::from(one) * sum));
    }
    changes
}

/// One edge after the other until no page is left but a leaf, from height 9 and 10 down.
#[test]
fn edges_from_the_greatest_height_down() {
    let mut total = Tally::default();
    for (height, last_first) in [(10, false), (9, true)] {
        let image = in_turn(4, 1_024, height, u64::MAX, 5).unwrap();
        let mut rack = Rack::on(image, 2);
        rack.tally = Tally::default();
        let mut random = Xorshift::new(82);
        for round in 0.. {
            let edges = Node::of(&rack.image).edges();
            if edges.is_empty() {
                break;
            }
            let highest = edges.iter().max_by_key(|(t, level)| (*level, *t)).unwrap().0;
            let any = random.pick(&edges).0;
            let t = if last_first && round % 2 == 0 { highest } else { any };
            let (s, e) = leaf_entry_at(&rack.image, t);
            let tree = Node::of(&rack.image);
            rack.by_step = round % 8 == 0;
            for (withdrawal, v) in changes_between(tree.pair_at(1, s), tree.pair_at(1, t - 1)) {
                assert_eq!(rack.change(withdrawal, v, s, e), 0);
            }
            assert!(!Node::of(&rack.image).leaf_starts().contains(&t));
        }
        assert_eq!(Node::of(&rack.image).way(0).len(), 1);
        total.add(&rack.tally);
    }
    total.report("edges, one after the other from heights 10 and 9 down");
    assert!(total.roots_lost >= 17);
}

// ---------------------------------------------------------------- where nothing is healed

/// Heal at 0, before which nothing stands, and at END, where no entry starts: nothing. At every height.
#[test]
fn heal_at_0_and_at_the_end() {
    for height in 1..=10 {
        let image = tree(&wanted(4, 1_024, height, 1), 5, 0, &mut drawn(1, u64::MAX, 3)).unwrap();
        let effect = |start: u32, end: u32| Effect { pair: Pair { sum: 0, count: 1 }, span: Span { start, end } };
        for (step, effect) in [
            (Step::HealAtStart, effect(0, 7)),
            (Step::HealAtEnd, effect(3, END)),
            // Inside an entry, and at the last instant: nothing starts there.
            (Step::HealAtStart, effect(2, 7)),
            (Step::HealAtEnd, effect(2, END - 1)),
        ] {
            let mut healed = image.clone();
            let record = one_step(&mut healed, step, &effect).unwrap();
            assert_eq!((record.entries_healed, record.edge_level), (0, 0));
            assert!(healed == image);
        }
    }
    // A booking over everything cuts nothing and heals nothing.
    let mut image = three_levels(false, false);
    let recorded = change(&mut image, false, 9, 0, END);
    assert!(recorded.steps.iter().all(|step| step.entries_healed == 0 && step.entries_cut == 0));
}

/// Kinds 2 and 3 are as they were: an entry that is first in its page stays, whatever the totals are, and such an image is sound.
#[test]
fn greatest_and_least_keep_their_edges() {
    for kind in [2, 3] {
        let leaves = [(0, vec![(0, 1, 1, 0), (10, 2, 1, 0)]), (0, vec![(20, 2, 1, 0), (30, 3, 1, 0)])];
        let root = (1, vec![(0, 0, 0, 1), (20, 0, 0, 2)]);
        let mut image = by_hand(kind, 9, &[leaves[0].clone(), leaves[1].clone(), root]);
        assert!(audit_both_ways(&image));
        let mut out = [0; 64];
        // Runs join over the edge, entries don't.
        assert_eq!(listing(&image, 0, END, &mut out).runs, 3);
        let before = image.clone();
        let recorded = change(&mut image, false, 2, 20, 30);
        assert!(recorded.steps.iter().all(|step| step.entries_healed == 0 && step.edge_level == 0));
        assert_eq!(written(&before, &image, &recorded), [0]);
        // Over the whole of time with a value that covers all: equal totals everywhere, and all entries stay but those within a page that D
        // and E look at.
        let over = if kind == 2 { 9 } else { -9 };
        let recorded = change(&mut image, false, over, 0, END);
        assert!(recorded.steps.iter().all(|step| step.entries_healed == 0));
        assert!(audit_both_ways(&image));
        assert_eq!(Node::of(&image).leaf_entries(), 4);
        assert_eq!(listing(&image, 0, END, &mut out).runs, 1);
    }
}

/// Whole histories of kinds 2 and 3 heal no edge.
#[test]
fn greatest_and_least_in_short_times() {
    let mut total = Tally::default();
    for (i, k) in CAPACITIES.into_iter().enumerate() {
        for kind in [2, 3] {
            let mut rack = Rack::on(fresh_of(k, 300, kind, i as u32 % 3), 9);
            let mut random = Xorshift::new(83 + i as u64);
            for _ in 0..120 {
                let s = random.below(150) as u32;
                rack.enter(random.between(-2, 2), s, s + 1 + random.below(9) as u32);
            }
            total.add(&rack.tally);
        }
    }
    total.report("edges, kinds 2 and 3");
    assert_eq!(total.edges, [0; 10]);
    assert!(total.heals > 0);
}

// ---------------------------------------------------------------- what is sound

/// What every call says of an image that is sound but for the clause, and of one that is sound: audits and changes ask it, "Older images
/// that break this get 21 on change and pass through the rebuild"; what only reads asks whether pages are fit, and that is as it was.
fn check_older(image: &[u8], is_sound: bool) {
    let (expected, n) = (if is_sound { 0 } else { 21 }, pages_of(image));
    assert_eq!(audit_both_ways(image), is_sound);
    assert!(is_sound_by_the_old_rule(image));
    let borrowed = borrowed_by(image);
    for withdrawal in [false, true] {
        let (mut copy, lent) = (image.to_vec(), vec![7; borrowed + 3]);
        let mut scratch = lent.clone();
        let call = if withdrawal { withdraw } else { enter };
        assert_eq!(call(&mut copy, &mut scratch, 3, 0, END), expected);
        assert!(is_cleared(&scratch, &lent, borrowed));
        assert_eq!(copy == image, !is_sound);
    }
    let tree = Node::of(image);
    for (start, total) in tree.leaf_totals() {
        let answer = instant(image, start);
        assert_eq!((answer.status, answer.sum, answer.count), (0, total.sum, total.count));
        assert_eq!((answer.start, answer.end), leaf_entry_at(image, start), "the leaf entry's, not the run's");
        assert_eq!(average(image, start).0, 0);
    }
    let mut runs = vec![0; 16 * tree.leaf_entries()];
    let listed = listing(image, 0, END, &mut runs);
    assert_eq!(listed.status, 0);
    assert_eq!(listed.runs as usize + tree.equal_neighbours().len(), tree.leaf_entries());
    // "the rebuild, which reads them by the old rule": the target is sound by the new one, and lists the same.
    let (mut target, mut scratch) = (vec![0x6B; image.len()], vec![7; borrowed]);
    assert_eq!(rebuild(image, &mut target, &mut scratch), 0);
    assert!(audit_both_ways(&target) && Node::of(&target).leaf_entries() == listed.runs as usize);
    let mut same = vec![0; 16 * n * capacity(image)];
    assert_eq!(listing(&target, 0, END, &mut same), listed);
    assert_eq!(same[..16 * listed.runs as usize], runs[..16 * listed.runs as usize]);
    assert_eq!(enter(&mut target, &mut scratch, 3, 0, END), 0);
}

#[test]
fn neighbours_in_a_page_and_across_an_edge() {
    let second = |own: (i64, i32), after: (i64, i32)| [(20, own.0, own.1, 0), (30, after.0, after.1, 0)];
    let leaves = |own, after| two_leaves(1, &second(own, after));
    // (1, 1) before the edge; the root's pair over the second leaf is (7, 2).
    check_older(&leaves((-6, -2), (9, 9)), true);
    check_older(&leaves((-6, -1), (9, 9)), false);
    // Own pairs equal those of 10, the totals don't; sums alone; counts alone.
    check_older(&leaves((-4, 0), (9, 9)), true);
    check_older(&leaves((-6, 0), (9, 9)), true);
    check_older(&leaves((-5, -1), (9, 9)), true);
    // Within the second leaf.
    check_older(&leaves((3, 3), (3, 3)), false);
    check_older(&leaves((3, 3), (3, 4)), true);
    check_older(&leaves((3, 3), (4, 3)), true);
    // Both at once, and all the same.
    check_older(&leaves((-6, -1), (-6, -1)), false);
    // Not neighbours: (1, 1) again two entries later.
    check_older(&leaves((9, 9), (-6, -1)), true);
    // One leaf, as the root.
    check_older(&by_hand(1, 9, &[(0, vec![(0, 1, 1, 0), (5, 1, 1, 0)])]), false);
    check_older(&by_hand(1, 9, &[(0, vec![(0, 1, 1, 0), (5, 1, 2, 0), (6, 1, 1, 0)])]), true);
    check_older(&by_hand(1, 0, &[(0, vec![(0, 0, 0, 0)])]), true);
    check_older(&by_hand(1, 0, &[(0, vec![(0, 0, 0, 0), (END - 1, 0, 0, 0)])]), false);
}

/// One pair of neighbours made equal, at each level of each height up to 10 at K = 4, at every K up to a height of its own, and within
/// pages; then with the sum, or the count, beside it.
#[test]
fn neighbours_of_every_level() {
    let mut broken = [0; 10];
    let tall = CAPACITIES.into_iter().zip([10, 6, 5, 4, 4, 4, 3, 3, 3, 3, 3]);
    for (k, height) in tall.chain((1..10).map(|height| (4, height))) {
        let image = in_turn(k, 1_024, height, u64::MAX, 4).unwrap();
        assert!(audit_both_ways(&image));
        let tree = Node::of(&image);
        let edges = tree.edges();
        let mut picked: Vec<(u32, u32)> =
            (1..height).filter_map(|of| edges.iter().copied().find(|(_, level)| *level == of)).collect();
        picked.extend((1..height).filter_map(|of| edges.iter().copied().rfind(|(_, level)| *level == of)));
        // Within a page: the second entry, and the last.
        let starts: Vec<u32> = tree.leaf_starts().into_iter().collect();
        picked.extend(starts.get(1).map(|t| (*t, 0)));
        picked.extend(starts.last().filter(|t| **t > 0).map(|t| (*t, 0)));
        for (t, level) in picked {
            let before = tree.pair_at(1, t - 1);
            for (sum, count, is_sound) in [(0, 0, false), (1_000_000, 0, true), (0, 7, true)] {
                let mut other = image.clone();
                set_total(&mut other, t, Pair { sum: before.sum + sum, count: before.count + count });
                check_older(&other, is_sound);
            }
            broken[level as usize] += 1;
        }
    }
    report(&format!("edges: equal neighbours by their separator's level, 0 within a page {broken:?}"));
    assert!(broken.iter().all(|broken| *broken > 0));
}

/// Every pair alike: all totals equal, one run. The rebuild makes one entry of it.
#[test]
fn all_alike() {
    struct Alike;
    impl Choice for Alike {
        fn entries(&mut self, fewest: usize, _: usize) -> usize {
            fewest
        }
        fn pair(&mut self) -> Pair {
            Pair { sum: 2, count: 1 }
        }
    }
    for height in 1..=10 {
        let image = older_tree(&wanted(4, 1_024, height, 1), 3, 0, &mut Alike).unwrap();
        check_older(&image, height == 1);
        for kind in [2, 3] {
            let image = older_tree(&wanted(4, 1_024, height, kind), 3, 0, &mut Alike).unwrap();
            assert!(audit_both_ways(&image), "nothing is asked of kinds 2 and 3");
        }
    }
}

/// "Older images that break this get 21 on change": 21 comes where it came, ahead of 22, 23 and 24 and behind 11 and 13.
#[test]
fn refusals_of_older_images() {
    let mut image = two_leaves(1, &[(20, -6, -1, 0), (30, 9, 9, 0)]);
    assert_eq!(pages_at_hand(&image), 0);
    set_word(&mut image, 0, CHANGES, 1_000_000_000);
    let before = image.clone();
    for (v, s, e, scratch, expected) in
        [(1, 3, 4, 1, 21), (1, 0, END, 1, 21), (1, 4, 4, 1, 11), (1_000_001, 3, 4, 1, 13), (1, 3, 4, 0, 17)]
    {
        for call in [enter, withdraw] {
            let mut lent = vec![9; scratch];
            assert_eq!(call(&mut image, &mut lent, v, s, e), expected);
            assert_eq!(lent, vec![if expected == 21 { 0 } else { 9 }; scratch]);
        }
    }
    assert_eq!((audit(&image, &mut [9]), audit(&image, &mut [])), (21, 17));
    assert!(image == before);
    // Without the equal pair it is 23.
    set_total(&mut image, 20, Pair { sum: 2, count: 1 });
    assert_eq!(enter(&mut image, &mut [9], 1, 3, 4), 23);
}

// ---------------------------------------------------------------- 24

/// "A and B together take more pages": no heal counts. The booking on [25, 90) is live, its start was healed away, and cutting it again
/// splits the full first leaf. E would take the first entry of the last leaf, join two leaves and give a page back; with no page at hand
/// it is 24 all the same, and with one it is accepted and leaves as many at hand as it found.
#[test]
fn a_withdrawal_that_lacks_pages_though_its_heals_make_room() {
    // From 5 on one booking, from 25 on the other of the same value, which ends at 90.
    let first = vec![(0, 0, 0, 0), (5, 1, 1, 0), (30, 3, 2, 0), (35, 1, 1, 0)];
    let (second, third) = (vec![(40, 5, 2, 0), (80, 7, 3, 0)], vec![(90, 6, 2, 0), (95, 8, 3, 0)]);
    let root = vec![(0, 0, 0, 1), (40, 0, 0, 2), (90, 0, 0, 3)];
    let full = by_hand(1, 20, &[(0, first), (0, second), (0, third), (1, root)]);
    assert!(audit_both_ways(&full));
    let mut image = full.clone();
    assert_eq!((pages_wanted(&image, 25, 90), pages_at_hand(&image)), (1, 0));
    let mut scratch = [7];
    assert_eq!(withdraw(&mut image, &mut scratch, 1, 25, 90), 24);
    assert!(image == full && scratch == [0]);

    image.extend([0xFF; 112]);
    set_word(&mut image, 0, N, 6);
    let recorded = change(&mut image, true, 1, 25, 90);
    assert_eq!((recorded.steps[0].splits, recorded.steps[0].taken.clone()), (1, vec![5]));
    let healed = &recorded.steps[4];
    assert_eq!((healed.edge_level, healed.merges_with_left, healed.given_back.clone()), (1, 1, vec![3]));
    let expected = [
        head_of([6, 2, 4, 3, 1, 6, 1, 0, 21], 4),
        tree_page_of(4, 0, &[(0, 0, 0, 0), (5, 1, 1, 0)]),
        tree_page_of(4, 0, &[(40, 4, 1, 0), (80, 6, 2, 0), (95, 8, 3, 0)]),
        free_page_of(4, 0),
        // C gave (−1, −1) to the entries at 25 and 40, which lie wholly inside; the join pushed that of 40 down.
        tree_page_of(4, 1, &[(0, 0, 0, 1), (25, -1, -1, 5), (40, 0, 0, 2)]),
        tree_page_of(4, 0, &[(25, 1, 1, 0), (30, 3, 2, 0), (35, 1, 1, 0)]),
    ];
    assert_image(&image, &expected);
    assert_eq!(pages_at_hand(&image), 1);
}

/// Withdrawals of live bookings with 24 in histories on few pages, whose starts have gone, some of them where a page began.
#[test]
fn withdrawals_of_live_bookings_that_lack_pages() {
    let (mut lacking, mut with_room) = (0, 0);
    let mut edges_gone = 0;
    for seed in 0..60 {
        let k = [4, 4, 6, 8][seed as usize % 4];
        let mut rack = Rack::on(fresh_of(k, 6 + seed as usize % 5, 1, 0), seed);
        rack.by_step = false;
        let mut random = Xorshift::new(seed + 500);
        let mut live: Vec<(i64, u32, u32)> = Vec::new();
        let mut gone_at_edge = std::collections::BTreeSet::new();
        for _ in 0..400 {
            let s = random.below(40) as u32;
            let booking = (random.between(1, 2), s, s + 1 + random.below(20) as u32);
            let edges: Vec<u32> = Node::of(&rack.image).edges().iter().map(|(t, _)| *t).collect();
            let before = rack.tally.edges;
            if live.is_empty() || random.one_in(2) {
                if rack.enter(booking.0, booking.1, booking.2) == 0 {
                    live.push(booking);
                }
            } else {
                let at = random.below(live.len() as u64) as usize;
                let (v, s, e) = live[at];
                let found = rack.image.clone();
                if rack.withdraw(v, s, e) == 24 {
                    lacking += 1;
                    edges_gone += u32::from(gone_at_edge.contains(&s) || gone_at_edge.contains(&e));
                    let mut larger = found.clone();
                    larger.extend(vec![0xFF; 8 * page_bytes(&found)]);
                    set_word(&mut larger, 0, N, pages_of(&found) as u32 + 8);
                    let recorded = change(&mut larger, true, v, s, e);
                    let given_back: usize = recorded.steps.iter().map(|step| step.given_back.len()).sum();
                    with_room += u32::from(given_back > 0);
                } else {
                    live.swap_remove(at);
                }
            }
            if rack.tally.edges != before {
                let starts = Node::of(&rack.image).leaf_starts();
                gone_at_edge.extend(edges.into_iter().filter(|t| !starts.contains(t)));
            }
        }
    }
    report(&format!(
        "edges: {lacking} withdrawals of live bookings lack pages, {with_room} of them would give some back, {edges_gone} of them \
         begin or end at an instant that went at an edge"
    ));
    assert!(lacking > 20 && with_room > 0 && edges_gone > 0);
}

// ---------------------------------------------------------------- emptied

/// For kind 1, whatever was done before: where every entry has been withdrawn and every withdrawal entered, all totals are (0, 0), which
/// is one run; so there is one leaf entry, at 0 with own pair (0, 0), and the height is 1. All other pages below the high mark are in the
/// chain.
fn check_emptied(image: &[u8]) {
    let Node::Leaf { page, entries } = Node::of(image) else { panic!("height 1") };
    assert_eq!(entries, [(0, Pair { sum: 0, count: 0 })]);
    assert_eq!((height(image), word(image, 0, FREE_LENGTH)), (1, word(image, 0, HIGH_MARK) - 2));
    let k = capacity(image);
    let at = page as usize * page_bytes(image);
    assert!(image[at..at + page_bytes(image)] == tree_page_of(k, 0, &[(0, 0, 0, 0)])[..]);
    assert!(audit_both_ways(image));
}

#[test]
fn an_emptied_index_is_one_entry() {
    let mut total = Tally::default();
    for (i, k) in CAPACITIES.into_iter().cycle().take(44).enumerate() {
        let mut random = Xorshift::new(600 + i as u64);
        let mut rack = Rack::on(fresh_of(k, 400, 1, random.pick(&[0, 0, 2, 30])), 3);
        rack.by_step = i % 4 == 0;
        let range = random.pick(&[25, 90, 400, 4_000_000]);
        let mut open: Vec<(bool, i64, u32, u32)> = Vec::new();
        for round in 0..3 {
            for _ in 0..60 * (1 + round % 2) {
                let s = random.below(range) as u32;
                let e = if random.one_in(20) { END } else { s + 1 + random.below(range / 2) as u32 };
                // A withdrawal without its entry, now and then, which an entry empties.
                let made = (random.one_in(5), random.between(-2, 2), s, e);
                assert_eq!(rack.change(made.0, made.1, made.2, made.3), 0);
                open.push((!made.0, made.1, made.2, made.3));
            }
            match i % 3 {
                0 => random.shuffle(&mut open),
                1 => open.reverse(),
                _ => {}
            }
            for (withdrawal, v, s, e) in open.drain(..) {
                assert_eq!(rack.change(withdrawal, v, s, e), 0);
            }
            check_emptied(&rack.image);
        }
        total.add(&rack.tally);
    }
    total.report("edges, emptied again and again");
    assert!(total.roots_lost > 50 && total.edges[1] > 100);
}

/// From the greatest heights that changes reach at K = 4, 6 and 24, in three orders.
#[test]
fn an_emptied_tall_index_is_one_entry() {
    let mut total = Tally::default();
    for (k, n, wanted) in [(4, 1_024, 8), (6, 500, 5), (24, 400, 3)] {
        for order in 0..3 {
            let mut rack = Rack::on(fresh_of(k, n, 1, 0), 3);
            (rack.by_step, rack.audit_each) = (false, false);
            let mut live = Vec::new();
            while height(&rack.image) < wanted {
                let i = live.len() as u32;
                let booking = (1 + i64::from(i % 2), 10 * i + 10, 10 * i + 15 + 5 * (i % 3));
                assert_eq!(rack.enter(booking.0, booking.1, booking.2), 0);
                live.push(booking);
            }
            rack.check_neighbours();
            match order {
                0 => Xorshift::new(7).shuffle(&mut live),
                1 => live.reverse(),
                _ => {}
            }
            for (i, (v, s, e)) in live.into_iter().enumerate() {
                rack.audit_each = i % 16 == 0;
                assert_eq!(rack.withdraw(v, s, e), 0);
            }
            check_emptied(&rack.image);
            total.add(&rack.tally);
        }
    }
    total.report("edges, emptied from the greatest heights");
    assert!(total.edges[1..6].iter().all(|joined| *joined > 0));
}

// ---------------------------------------------------------------- long histories

/// Random changes over short ranges of time with small values, so that totals meet often: after each step what may be equal, after each
/// change soundness by both rules, the second model, neighbours and runs.
#[test]
fn long_histories_in_short_times() {
    let mut total = Tally::default();
    for (k, n, range, changes) in [
        (4, 40, 12, 1_500),
        (4, 60, 50, 1_500),
        (4, 300, 300, 1_200),
        (6, 40, 30, 1_500),
        (6, 200, 250, 900),
        (24, 12, 90, 1_500),
        (24, 60, 500, 900),
    ] {
        let mut of_one = Tally::default();
        for (seed, window) in [(1, 0), (2, 3)] {
            let mut rack = Rack::on(fresh_of(k, n, 1, window), seed);
            let mut random = Xorshift::new(700 + seed + k as u64);
            let (mut live, mut growing) = (Vec::new(), true);
            for i in 0..changes {
                growing = growing != random.one_in(range);
                if live.is_empty() || random.below(10) < if growing { 8 } else { 2 } {
                    let s = random.below(range) as u32;
                    let e = if random.one_in(40) { END } else { s + 1 + random.below(range / 3) as u32 };
                    let booking = (random.between(0, 1), s, e);
                    if rack.enter(booking.0, booking.1, booking.2) == 0 {
                        live.push(booking);
                    }
                } else {
                    let at = random.below(live.len() as u64) as usize;
                    let (v, s, e) = live[at];
                    if rack.withdraw(v, s, e) == 0 {
                        live.swap_remove(at);
                    }
                }
                if i % 300 == 299 {
                    rack.check_all_quickly();
                }
            }
            assert_eq!(rack.timeline.runs(0, END).len(), Node::of(&rack.image).leaf_entries());
            of_one.add(&rack.tally);
        }
        of_one.report(&format!("edges, K {k}, {n} pages, instants below {range}"));
        assert!(of_one.edges[1] > 0 && of_one.edges_turned[0] > 0);
        total.add(&of_one);
    }
    total.report("edges, long histories");
    assert!(total.edges[1..5].iter().all(|joined| *joined > 0) && total.edges_turned.iter().all(|turned| *turned > 0));
}

/// Leaf entries of kind 1 follow from the totals alone: two images with the same accepted changes in any order have the same ones, though
/// their trees differ.
#[test]
fn leaf_entries_follow_from_the_totals() {
    let mut random = Xorshift::new(90);
    let mut different = 0;
    for round in 0..40 {
        let k = CAPACITIES[round % 11];
        let mut changes: Vec<(bool, i64, u32, u32)> = (0..90)
            .map(|_| {
                let s = random.below(120) as u32;
                (random.one_in(3), random.between(-1, 1), s, s + 1 + random.below(30) as u32)
            })
            .collect();
        let mut trees = Vec::new();
        for _ in 0..2 {
            let mut rack = Rack::on(fresh_of(k, 300, 1, 1), 4);
            (rack.by_step, rack.audit_each) = (false, false);
            for (withdrawal, v, s, e) in &changes {
                assert_eq!(rack.change(*withdrawal, *v, *s, *e), 0);
            }
            trees.push(Node::of(&rack.image));
            random.shuffle(&mut changes);
        }
        assert_eq!(trees[0].leaf_totals(), trees[1].leaf_totals());
        different += u32::from(trees[0] != trees[1]);
    }
    report(&format!("edges: {different} of 40 pairs of trees differ, with the same leaf entries"));
    assert!(different > 10);
}
