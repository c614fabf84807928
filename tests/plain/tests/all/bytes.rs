//! Whole images written out by hand: layout, split, give, merge, root changes and the order of pages taken and given
//! back. The bytes are put together here from document 01's words, not by the crate.

use crate::support::*;
use plain::{enter_recorded, withdraw_recorded, RecordedChange, END};

pub type HandEntry = (u32, i64, i32, u32);

/// Of an image whose K is 24, which stands after changes.
fn head(fields: [u32; 9]) -> Vec<u8> {
    head_of(fields, 24)
}

pub fn head_of(fields: [u32; 9], k: u32) -> Vec<u8> {
    let mut bytes: Vec<u8> = fields.iter().chain([&k]).flat_map(|field| field.to_le_bytes()).collect();
    bytes.resize(32 + 20 * k as usize, 0xFF);
    bytes
}

fn tree_page(level: u32, entries: &[HandEntry]) -> Vec<u8> {
    tree_page_of(24, level, entries)
}

/// "a page has 32 + 20 × K bytes and each array K places"
pub fn tree_page_of(k: usize, level: u32, entries: &[HandEntry]) -> Vec<u8> {
    let mut bytes = Vec::new();
    bytes.extend_from_slice(&level.to_le_bytes());
    bytes.extend_from_slice(&(entries.len() as u32).to_le_bytes());
    bytes.resize(32, 0xFF);
    for (start, _, _, _) in entries {
        bytes.extend_from_slice(&start.to_le_bytes());
    }
    bytes.resize(32 + 4 * k, 0xFF);
    for (_, sum, count, child) in entries {
        bytes.extend_from_slice(&sum.to_le_bytes());
        bytes.extend_from_slice(&count.to_le_bytes());
        bytes.extend_from_slice(&child.to_le_bytes());
    }
    bytes.resize(32 + 20 * k, 0xFF);
    bytes
}

fn free_page(next: u32) -> Vec<u8> {
    free_page_of(24, next)
}

pub fn free_page_of(k: usize, next: u32) -> Vec<u8> {
    let mut bytes = vec![0xFF, 0, 0, 0];
    bytes.extend_from_slice(&next.to_le_bytes());
    bytes.resize(32 + 20 * k, 0xFF);
    bytes
}

fn never_used() -> Vec<u8> {
    vec![0xFF; 512]
}

/// Pages of one length each.
pub fn assert_image(image: &[u8], pages: &[Vec<u8>]) {
    let length = pages[0].len();
    assert_eq!(image.len(), length * pages.len());
    for (page, expected) in pages.iter().enumerate() {
        assert!(image[length * page..length * page + length] == expected[..], "page {page} differs");
    }
}

fn enter(image: &mut [u8], v: i64, s: u32, e: u32) -> RecordedChange {
    let recorded = enter_recorded(image, &mut [0; 128], v, s, e);
    assert_eq!(recorded.status, 0);
    recorded
}

fn withdraw(image: &mut [u8], v: i64, s: u32, e: u32) -> RecordedChange {
    let recorded = withdraw_recorded(image, &mut [0; 128], v, s, e);
    assert_eq!(recorded.status, 0);
    recorded
}

fn taken(recorded: &RecordedChange) -> Vec<u32> {
    recorded.steps.iter().flat_map(|step| step.taken.clone()).collect()
}

fn given_back(recorded: &RecordedChange) -> Vec<u32> {
    recorded.steps.iter().flat_map(|step| step.given_back.clone()).collect()
}

/// Value 1 on [10, 15), [20, 25) to [120, 125): page 1 keeps 12 entries, page 2 has 13, page 3 is the root.
fn twelve(n: usize, kind: u32) -> Vec<u8> {
    let mut image = fresh(n, kind, 0);
    for i in 1..=12 {
        enter(&mut image, 1, 10 * i, 10 * i + 5);
    }
    image
}

/// (1, 1) at 10, 20, 30 and so on, (0, 0) at 15, 25 and so on, both with a pair added.
fn leaf(starts: &[u32], plus: (i64, i32)) -> Vec<HandEntry> {
    let own = |start: u32| if start.is_multiple_of(10) && start > 0 { 1 } else { 0 };
    starts.iter().map(|&start| (start, i64::from(own(start)) + plus.0, own(start) + plus.1, 0)).collect()
}

const LEFT: [u32; 12] = [0, 10, 15, 20, 25, 30, 35, 40, 45, 50, 55, 60];
const RIGHT: [u32; 13] = [65, 70, 75, 80, 85, 90, 95, 100, 105, 110, 115, 120, 125];

#[test]
fn fresh_images() {
    for (kind, window) in [(1, 0), (2, 20), (3, 1_000_000_000)] {
        let image = fresh(4, kind, window);
        let pages =
            [head([4, 1, 1, 0, 0, 2, kind, window, 0]), tree_page(0, &[(0, 0, 0, 0)]), never_used(), never_used()];
        assert_image(&image, &pages);
    }
}

#[test]
fn one_booking() {
    let mut image = fresh(2, 1, 3);
    enter(&mut image, -6, 10, 40);
    let leaf = tree_page(0, &[(0, 0, 0, 0), (10, -6, 1, 0), (43, 0, 0, 0)]);
    assert_image(&image, &[head([2, 1, 1, 0, 0, 2, 1, 3, 1]), leaf]);
}

/// "25 entries split: the page keeps 12, a taken page gets 13"; "A split root gets a new root, two entries with pair
/// (0, 0). Lower pages take first."
#[test]
fn split_of_the_root_leaf() {
    let image = twelve(5, 1);
    let pages = [
        head([5, 2, 3, 0, 0, 4, 1, 0, 12]),
        tree_page(0, &leaf(&LEFT, (0, 0))),
        tree_page(0, &leaf(&RIGHT, (0, 0))),
        tree_page(1, &[(0, 0, 0, 1), (65, 0, 0, 2)]),
        never_used(),
    ];
    assert_image(&image, &pages);
}

/// "END is no instant": an effect up to it names nothing but the way to its start, and the last page keeps its bytes, for
/// the root's entry takes the effect.
#[test]
fn effect_up_to_the_end() {
    let mut image = twelve(5, 1);
    let recorded = enter(&mut image, 1, 5, END);
    let ways = recorded.steps.iter().map(|step| step.ways.concat());
    assert_eq!(ways.collect::<Vec<_>>(), [vec![3, 1], vec![], vec![3, 1], vec![3, 1], vec![]]);
    assert_eq!(recorded.named_pages().into_iter().collect::<Vec<u32>>(), [0, 1, 3]);
    assert_eq!(image[2 * 512..3 * 512], tree_page(0, &leaf(&RIGHT, (0, 0))));
    assert_eq!(image[3 * 512..4 * 512], tree_page(1, &[(0, 0, 0, 1), (65, 1, 1, 2)]));
}

/// Without a left neighbour the right one gives; then, with 12 left, it is joined: "the right is given back", the root
/// after it. The next split takes them from the chain's front.
#[test]
fn give_then_merge_then_split_from_the_chain() {
    let mut image = twelve(4, 1);
    let recorded = withdraw(&mut image, 1, 10, 15);
    assert_eq!((recorded.steps[3].gives_from_right, recorded.steps[3].turned_to.clone()), (1, vec![2]));
    assert_eq!((recorded.steps[4].merges_with_right, recorded.steps[4].turned_to.clone()), (1, vec![2]));
    assert_eq!(given_back(&recorded), [2, 3]);
    assert_eq!(recorded.named_pages().into_iter().collect::<Vec<u32>>(), [0, 1, 2, 3]);
    let starts: Vec<u32> = LEFT.iter().chain(&RIGHT).copied().filter(|start| *start != 10 && *start != 15).collect();
    let merged = [head([4, 1, 1, 3, 2, 4, 1, 0, 13]), tree_page(0, &leaf(&starts, (0, 0))), free_page(0), free_page(2)];
    assert_image(&image, &merged);

    let recorded = enter(&mut image, 1, 10, 15);
    assert_eq!(taken(&recorded), [3, 2]);
    let split = [
        head([4, 2, 2, 0, 0, 4, 1, 0, 14]),
        tree_page(0, &leaf(&LEFT, (0, 0))),
        tree_page(1, &[(0, 0, 0, 1), (65, 0, 0, 3)]),
        tree_page(0, &leaf(&RIGHT, (0, 0))),
    ];
    assert_image(&image, &split);
}

/// "an entry wholly inside the span takes the effect": inner entries, too. "Each of the two parent pairs is first
/// combined into its page's entries and set to (0, 0)."
#[test]
fn right_gives_with_parent_pairs() {
    let mut image = twelve(4, 1);
    enter(&mut image, 5, 0, 65);
    enter(&mut image, 7, 65, END);
    let pairs_above = [
        head([4, 2, 3, 0, 0, 4, 1, 0, 14]),
        tree_page(0, &leaf(&LEFT, (0, 0))),
        tree_page(0, &leaf(&RIGHT, (0, 0))),
        tree_page(1, &[(0, 5, 1, 1), (65, 7, 1, 2)]),
    ];
    assert_image(&image, &pairs_above);

    // 15 comes to (1, 1) like 10 and is healed; 20 comes to (2, 2).
    let recorded = enter(&mut image, 1, 15, 25);
    assert_eq!(recorded.steps[3].gives_from_right, 1);
    assert_eq!(recorded.steps[4].entries_healed, 0);
    let mut left = leaf(&LEFT, (5, 1));
    left[3] = (20, 7, 3, 0);
    left.remove(2);
    left.push((65, 7, 1, 0));
    let given = [
        head([4, 2, 3, 0, 0, 4, 1, 0, 15]),
        tree_page(0, &left),
        tree_page(0, &leaf(&RIGHT[1..], (7, 1))),
        tree_page(1, &[(0, 0, 0, 1), (70, 0, 0, 2)]),
    ];
    assert_image(&image, &given);
}

/// The left neighbour gives its last entry, and "the right page's parent start follows".
#[test]
fn left_gives_with_parent_pairs() {
    let mut image = twelve(4, 1);
    enter(&mut image, 3, 2, 4);
    enter(&mut image, 1, 75, 85);
    enter(&mut image, 5, 0, 65);
    enter(&mut image, 7, 65, END);
    let recorded = enter(&mut image, 1, 95, 105);
    assert_eq!((recorded.steps[3].gives_from_left, recorded.steps[3].turned_to.clone()), (1, vec![1]));
    let mut left = leaf(&LEFT, (5, 1));
    left.splice(1..1, [(2, 8, 2, 0), (4, 5, 1, 0)]);
    left.pop();
    let mut right = leaf(&[65, 70, 80, 85, 90, 100, 105, 110, 115, 120, 125], (7, 1));
    right[2] = (80, 9, 3, 0);
    right[5] = (100, 9, 3, 0);
    right.insert(0, (60, 6, 2, 0));
    let given = [
        head([4, 2, 3, 0, 0, 4, 1, 0, 17]),
        tree_page(0, &left),
        tree_page(0, &right),
        tree_page(1, &[(0, 0, 0, 1), (60, 0, 0, 2)]),
    ];
    assert_image(&image, &given);
}

/// The left neighbour has 12: both join in it.
#[test]
fn merge_with_left() {
    let mut image = twelve(4, 1);
    enter(&mut image, 1, 75, 85);
    enter(&mut image, 5, 0, 65);
    enter(&mut image, 7, 65, END);
    let recorded = enter(&mut image, 1, 95, 105);
    assert_eq!((recorded.steps[3].merges_with_left, recorded.steps[3].turned_to.clone()), (1, vec![1]));
    assert_eq!(given_back(&recorded), [2, 3]);
    let mut merged = leaf(&LEFT, (5, 1));
    let mut right = leaf(&[65, 70, 80, 85, 90, 100, 105, 110, 115, 120, 125], (7, 1));
    right[2] = (80, 9, 3, 0);
    right[5] = (100, 9, 3, 0);
    merged.extend(right);
    let pages = [head([4, 1, 1, 3, 2, 4, 1, 0, 16]), tree_page(0, &merged), free_page(0), free_page(2)];
    assert_image(&image, &pages);
}

/// The chain comes ahead of the pages from the high mark on.
#[test]
fn the_chain_is_taken_first() {
    let mut image = twelve(6, 1);
    assert_eq!(given_back(&withdraw(&mut image, 1, 10, 15)), [2, 3]);
    assert_eq!(word(&image, 0, HIGH_MARK), 4);
    assert_eq!(taken(&enter(&mut image, 1, 10, 15)), [3, 2]);
    assert_eq!(word(&image, 0, HIGH_MARK), 4);
    assert_eq!(word(&image, 0, FREE_LENGTH), 0);
    // With the chain used up, at the high mark.
    for i in 13..=18 {
        assert_eq!(taken(&enter(&mut image, 1, 10 * i, 10 * i + 5)), if i == 18 { vec![4] } else { vec![] });
    }
    assert_eq!(word(&image, 0, HIGH_MARK), 5);
}

/// Between a left neighbour of 12 and a right one of 13, the left is turned to, and both join (R9).
#[test]
fn the_left_neighbour_comes_first() {
    let mut image = twelve(5, 1);
    for i in 13..=18 {
        enter(&mut image, 1, 10 * i, 10 * i + 5);
    }
    let recorded = enter(&mut image, 1, 75, 85);
    assert_eq!((recorded.steps[3].merges_with_left, recorded.steps[3].turned_to.clone()), (1, vec![1]));
    assert_eq!(given_back(&recorded), [2]);
    let mut merged = leaf(&LEFT, (0, 0));
    merged.extend(leaf(&RIGHT[..12], (0, 0)));
    merged.retain(|(start, _, _, _)| *start != 75);
    merged[14] = (80, 2, 2, 0);
    let pages = [
        head([5, 2, 3, 2, 1, 5, 1, 0, 19]),
        tree_page(0, &merged),
        free_page(0),
        tree_page(1, &[(0, 0, 0, 1), (125, 0, 0, 4)]),
        tree_page(0, &leaf(&[125, 130, 135, 140, 145, 150, 155, 160, 165, 170, 175, 180, 185], (0, 0))),
    ];
    assert_image(&image, &pages);
}

/// "the parent gains an entry with the same pair": that of its entry for the page that was split (R8).
#[test]
fn split_under_a_parent_with_pairs() {
    let mut image = twelve(5, 1);
    enter(&mut image, 5, 0, 65);
    enter(&mut image, 7, 65, END);
    for i in 13..=18 {
        let recorded = enter(&mut image, 1, 10 * i, 10 * i + 5);
        assert_eq!(taken(&recorded), if i == 18 { vec![4] } else { vec![] });
    }
    let pages = [
        head([5, 2, 3, 0, 0, 5, 1, 0, 20]),
        tree_page(0, &leaf(&LEFT, (0, 0))),
        tree_page(0, &leaf(&RIGHT[..12], (0, 0))),
        tree_page(1, &[(0, 5, 1, 1), (65, 7, 1, 2), (125, 7, 1, 4)]),
        tree_page(0, &leaf(&[125, 130, 135, 140, 145, 150, 155, 160, 165, 170, 175, 180, 185], (0, 0))),
    ];
    assert_image(&image, &pages);
}

/// Kinds 2 and 3: no early stop where the parent's pair is already greater or less (R6).
#[test]
fn greatest_and_least_go_down() {
    for (kind, v) in [(2, 100), (3, -100)] {
        let mut image = twelve(4, kind);
        enter(&mut image, v, 0, 65);
        enter(&mut image, v / 20, 20, 25);
        let mut left = leaf(&LEFT, (0, 0));
        left[3] = (20, v / 20, 1, 0);
        let pages = [
            head([4, 2, 3, 0, 0, 4, kind, 0, 14]),
            tree_page(0, &left),
            tree_page(0, &leaf(&RIGHT, (0, 0))),
            tree_page(1, &[(0, v, 1, 1), (65, 0, 0, 2)]),
        ];
        assert_image(&image, &pages);
    }
}

/// Kinds 2 and 3: a parent's pair combined into entries, some of them nothing, some greater and some less.
#[test]
fn greatest_and_least_merge_with_parent_pairs() {
    for kind in [2, 3] {
        let best = |one: i64, other: i64| if kind == 2 { one.max(other) } else { one.min(other) };
        let mut image = twelve(4, kind);
        enter(&mut image, 0, 0, 65);
        enter(&mut image, 4, 65, END);
        // 15 comes to (1, 1) like 10 and is healed, 20 has it already and is healed too: give, then merge.
        let recorded = enter(&mut image, 1, 15, 20);
        assert_eq!((recorded.steps[3].gives_from_right, recorded.steps[4].merges_with_right), (1, 1));
        let pushed = |start: &u32, v: i64| {
            let own = start.is_multiple_of(10) && *start > 0;
            (*start, if own { best(1, v) } else { v }, 1, 0)
        };
        let mut merged: Vec<HandEntry> =
            LEFT.iter().filter(|start| **start != 15 && **start != 20).map(|start| pushed(start, 0)).collect();
        merged.extend(RIGHT.iter().map(|start| pushed(start, 4)));
        let pages = [head([4, 1, 1, 3, 2, 4, kind, 0, 15]), tree_page(0, &merged), free_page(0), free_page(2)];
        assert_image(&image, &pages);
    }
}

/// A change with no effect on any pair still cuts, heals and counts (R21).
#[test]
fn a_change_without_effect() {
    for (kind, v) in [(2, 5), (3, -5)] {
        let mut image = fresh(2, kind, 0);
        enter(&mut image, v, 0, END);
        let recorded = enter(&mut image, 0, 10, 20);
        let cuts: u32 = recorded.steps.iter().map(|step| step.entries_cut).sum();
        let heals: u32 = recorded.steps.iter().map(|step| step.entries_healed).sum();
        assert_eq!((cuts, heals), (2, 2));
        assert_image(&image, &[head([2, 1, 1, 0, 0, 2, kind, 0, 2]), tree_page(0, &[(0, v, 1, 0)])]);
    }
}

/// And it gives 24 if its cuts lack pages (R21).
#[test]
fn a_change_without_effect_lacks_pages() {
    let mut image = fresh(2, 2, 0);
    for i in 1..=11 {
        enter(&mut image, 100 + i64::from(i), 10 * i, 10 * i + 5);
    }
    enter(&mut image, 100, 0, END);
    enter(&mut image, 100, 500, END);
    assert_eq!(Node::of(&image).leaf_entries(), 23);
    let before = image.clone();
    assert_eq!(enter_recorded(&mut image, &mut [0], 1, 600, 700).status, 24);
    assert!(image == before);
    // One cut is still possible; the entry that it makes is healed again.
    enter(&mut image, 1, 600, END);
    assert_eq!(Node::of(&image).leaf_entries(), 23);
}

/// Splits go up by levels: "Lower pages take first", the new root last (R7).
#[test]
fn splits_up_to_a_new_root() {
    let mut image = fresh(64, 1, 0);
    let mut i = 0;
    let (recorded, before) = loop {
        i += 1;
        let before = image.clone();
        let recorded = enter(&mut image, 1, 10 * i, 10 * i + 5);
        if height(&image) == 3 {
            break (recorded, before);
        }
    };
    let mark = word(&before, 0, HIGH_MARK);
    assert_eq!(taken(&recorded), [mark, mark + 1, mark + 2]);
    let old_root = word(&before, 0, ROOT);
    assert_eq!(get_u32(&before, old_root, ENTRY_COUNT_AT), 24);
    assert_eq!(word(&image, 0, ROOT), mark + 2);
    assert_eq!(get_u32(&image, mark, LEVEL_AT), 0);
    assert_eq!(get_u32(&image, mark + 1, LEVEL_AT), 1);
    assert_eq!(get_u32(&image, mark + 2, LEVEL_AT), 2);
    assert_eq!(get_u32(&image, old_root, ENTRY_COUNT_AT), 12);
    assert_eq!(get_u32(&image, mark, ENTRY_COUNT_AT), 13);
    assert_eq!(get_u32(&image, mark + 1, ENTRY_COUNT_AT), 13);
    assert_eq!(get_u32(&image, mark + 1, child_at(12)), mark);
    let second = get_u32(&image, mark + 1, start_at(0));
    let root = tree_page(2, &[(0, 0, 0, old_root), (second, 0, 0, mark + 1)]);
    assert!(image[512 * (mark as usize + 2)..512 * (mark as usize + 3)] == root[..]);
}

// ---------------------------------------------------------------- other capacities

/// "a page has 32 + 20 × K bytes": each fresh image of two pages written out.
#[test]
fn fresh_images_of_every_capacity() {
    for k in CAPACITIES {
        for (kind, window) in [(1, 0), (3, 1_000_000_000)] {
            let image = fresh_of(k, 2, kind, window);
            let pages = [head_of([2, 1, 1, 0, 0, 2, kind, window, 0], k as u32), tree_page_of(k, 0, &[(0, 0, 0, 0)])];
            assert_image(&image, &pages);
        }
    }
}

/// "an image of 512-byte pages without the field (FF there)": document 01's own fresh image, as document 01 writes it. "a change
/// keeps the field's bytes".
#[test]
fn fresh_image_without_the_field() {
    let mut image = plain::making::fresh_without_field(2, 1, 3);
    let head_without = |changes: u32| {
        let mut bytes = head([2, 1, 1, 0, 0, 2, 1, 3, changes]);
        bytes[36..40].fill(0xFF);
        bytes
    };
    assert_image(&image, &[head_without(0), tree_page(0, &[(0, 0, 0, 0)])]);
    enter(&mut image, -6, 10, 40);
    let leaf = tree_page(0, &[(0, 0, 0, 0), (10, -6, 1, 0), (43, 0, 0, 0)]);
    assert_image(&image, &[head_without(1), leaf]);
}

/// K = 4, after bookings on [10, 20) and [30, 40): 0 and 10 stay, 20, 30 and 40 move.
fn split_at_4() -> Vec<u8> {
    let mut image = fresh_of(4, 8, 1, 0);
    enter(&mut image, 1, 10, 20);
    assert_eq!(taken(&enter(&mut image, 1, 30, 40)), [2, 3]);
    image
}

/// "a split keeps K/2 and moves K/2 + 1"; the parent's entries take what spans their pages.
#[test]
fn split_at_capacity_4() {
    let split = |pairs: [(i64, i32); 2], changes: u32| {
        [
            head_of([8, 2, 3, 0, 0, 4, 1, 0, changes], 4),
            tree_page_of(4, 0, &[(0, 0, 0, 0), (10, 1, 1, 0)]),
            tree_page_of(4, 0, &[(20, 0, 0, 0), (30, 1, 1, 0), (40, 0, 0, 0)]),
            tree_page_of(4, 1, &[(0, pairs[0].0, pairs[0].1, 1), (20, pairs[1].0, pairs[1].1, 2)]),
        ]
    };
    let mut image = split_at_4();
    assert_image(&image[..4 * 112], &split([(0, 0), (0, 0)], 2));
    assert!(image[4 * 112..].iter().all(|&byte| byte == 0xFF) && image.len() == 8 * 112);
    enter(&mut image, 5, 0, 20);
    enter(&mut image, 7, 20, END);
    assert_image(&image[..4 * 112], &split([(5, 1), (7, 1)], 4));
}

/// "a neighbour gives from K/2 + 1 up": 10 goes, one entry is left, and the right neighbour gives its first of three.
fn given_at_4() -> Vec<u8> {
    let mut image = split_at_4();
    enter(&mut image, 5, 0, 20);
    enter(&mut image, 7, 20, END);
    let recorded = withdraw(&mut image, 1, 10, 20);
    assert_eq!((recorded.steps[3].gives_from_right, recorded.steps[4].entries_healed), (1, 0));
    let given = [
        head_of([8, 2, 3, 0, 0, 4, 1, 0, 5], 4),
        tree_page_of(4, 0, &[(0, 5, 1, 0), (20, 7, 1, 0)]),
        tree_page_of(4, 0, &[(30, 8, 2, 0), (40, 7, 1, 0)]),
        tree_page_of(4, 1, &[(0, 0, 0, 1), (30, 0, 0, 2)]),
    ];
    assert_image(&image[..4 * 112], &given);
    image
}

/// Then 40 goes next to a neighbour of two: both join, and the root is given back behind the right page.
#[test]
fn give_and_merge_at_capacity_4() {
    let mut image = given_at_4();
    let recorded = enter(&mut image, 1, 40, END);
    assert_eq!((recorded.steps[3].merges_with_left, given_back(&recorded)), (1, vec![2, 3]));
    assert_eq!(recorded.steps[3].edge_level, 0);
    let merged = [
        head_of([8, 1, 1, 3, 2, 4, 1, 0, 6], 4),
        tree_page_of(4, 0, &[(0, 5, 1, 0), (20, 7, 1, 0), (30, 8, 2, 0)]),
        free_page_of(4, 0),
        free_page_of(4, 2),
    ];
    assert_image(&image[..4 * 112], &merged);
}

/// Document 02, (iv): 30 comes to (6, 2) like 20. It is first in its page, and goes: document 01 alone would have kept it. 40 is left alone
/// in its page, and joins as before.
#[test]
fn edge_and_merge_at_capacity_4() {
    let mut image = given_at_4();
    enter(&mut image, -1, 20, 40);
    let recorded = withdraw(&mut image, 1, 30, 40);
    assert_eq!((recorded.steps[3].entries_healed, recorded.steps[3].edge_level), (1, 1));
    assert_eq!((recorded.steps[3].merges_with_left, given_back(&recorded)), (1, vec![2, 3]));
    let merged = [
        head_of([8, 1, 1, 3, 2, 4, 1, 0, 7], 4),
        tree_page_of(4, 0, &[(0, 5, 1, 0), (20, 6, 2, 0), (40, 7, 1, 0)]),
        free_page_of(4, 0),
        free_page_of(4, 2),
    ];
    assert_image(&image[..4 * 112], &merged);
}
