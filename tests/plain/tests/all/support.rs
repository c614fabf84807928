//! What the tests share: random numbers, a second reader of the bytes, a model that counts the pages a change takes, a
//! quick book, and a rack that does a call with every check.

use std::collections::{BTreeMap, BTreeSet};
use std::io::Write;

use crate::model::Model;
use plain::calls::{run_bytes, Run};
use plain::sound::{is_sound, is_sound_by_counting};
use plain::steps::{count_the_change, one_step, Effect, Step, StepRecord, FIVE_STEPS};
use plain::value::Span;
use plain::{audit, enter_recorded, format, instant, listing, withdraw_recorded, Book, Pair, END};

// ---------------------------------------------------------------- counts on standard error

/// Written past the capture of `cargo test`, so that the counts of passed tests are seen.
pub fn report(line: &str) {
    let _ = std::io::stderr().write_all(format!("\n  {line}\n").as_bytes());
}

#[derive(Clone, Default, Debug)]
pub struct Tally {
    pub formats: u64,
    pub changes_accepted: u64,
    pub changes_refused: u64,
    pub refused_24: u64,
    pub instants: u64,
    pub averages: u64,
    pub listings: u64,
    pub audits: u64,
    pub cuts: u64,
    pub heals: u64,
    pub splits: u64,
    pub gives_from_left: u64,
    pub gives_from_right: u64,
    pub merges_with_left: u64,
    pub merges_with_right: u64,
    pub roots_gained: u64,
    pub roots_lost: u64,
    pub inner_splits: u64,
    pub inner_gives: u64,
    pub inner_merges: u64,
    pub chain_taken: u64,
    pub greatest_height: u32,
    /// Entries that went though first in their page, by the level of the page whose entry separated it from the one before; of these the
    /// ones after which a page turned to its left neighbour, to its right one, after which the root was lost, and after which none turned.
    pub edges: [u64; 10],
    pub edges_turned: [u64; 4],
}

impl Tally {
    pub fn calls(&self) -> u64 {
        self.formats
            + self.changes_accepted
            + self.changes_refused
            + self.instants
            + self.averages
            + self.listings
            + self.audits
    }

    pub fn gives(&self) -> u64 {
        self.gives_from_left + self.gives_from_right
    }

    pub fn merges(&self) -> u64 {
        self.merges_with_left + self.merges_with_right
    }

    pub fn add_step(&mut self, step: &StepRecord) {
        self.cuts += u64::from(step.entries_cut);
        self.heals += u64::from(step.entries_healed);
        self.splits += u64::from(step.splits);
        self.gives_from_left += u64::from(step.gives_from_left);
        self.gives_from_right += u64::from(step.gives_from_right);
        self.merges_with_left += u64::from(step.merges_with_left);
        self.merges_with_right += u64::from(step.merges_with_right);
        self.roots_gained += u64::from(step.roots_gained);
        self.roots_lost += u64::from(step.roots_lost);
        // The first split, give or merge of a step is that of a leaf; a give ends it.
        let gives = step.gives_from_left + step.gives_from_right;
        let merges = step.merges_with_left + step.merges_with_right;
        self.inner_splits += u64::from(step.splits.saturating_sub(1));
        self.inner_gives += u64::from(gives > 0 && merges > 0);
        self.inner_merges += u64::from(merges.saturating_sub(1));
        if step.edge_level > 0 {
            self.edges[step.edge_level as usize] += 1;
            self.edges_turned[0] += u64::from(step.gives_from_left + step.merges_with_left > 0);
            self.edges_turned[1] += u64::from(step.gives_from_right + step.merges_with_right > 0);
            self.edges_turned[2] += u64::from(step.roots_lost);
            self.edges_turned[3] += u64::from(step.turned_to.is_empty());
        }
    }

    pub fn add(&mut self, other: &Tally) {
        self.formats += other.formats;
        self.changes_accepted += other.changes_accepted;
        self.changes_refused += other.changes_refused;
        self.refused_24 += other.refused_24;
        self.instants += other.instants;
        self.averages += other.averages;
        self.listings += other.listings;
        self.audits += other.audits;
        self.cuts += other.cuts;
        self.heals += other.heals;
        self.splits += other.splits;
        self.gives_from_left += other.gives_from_left;
        self.gives_from_right += other.gives_from_right;
        self.merges_with_left += other.merges_with_left;
        self.merges_with_right += other.merges_with_right;
        self.roots_gained += other.roots_gained;
        self.roots_lost += other.roots_lost;
        self.inner_splits += other.inner_splits;
        self.inner_gives += other.inner_gives;
        self.inner_merges += other.inner_merges;
        self.chain_taken += other.chain_taken;
        self.greatest_height = self.greatest_height.max(other.greatest_height);
        for (mine, theirs) in self.edges.iter_mut().zip(other.edges) {
            *mine += theirs;
        }
        for (mine, theirs) in self.edges_turned.iter_mut().zip(other.edges_turned) {
            *mine += theirs;
        }
    }

    pub fn report(&self, name: &str) {
        report(&format!(
            "{name}: {} calls ({} changes accepted, {} refused, of these {} with 24; {} instants, {} listings, {} audits); \
             {} cuts, {} heals, {} splits, gives {} left {} right, merges {} left {} right, roots +{} -{}, \
             of inner pages {} splits {} gives {} merges, {} pages taken from the chain, height up to {}; edges joined by \
             their separator's level {:?}, then turned left {} right {}, roots lost {}, \
             no page turned {}",
            self.calls(),
            self.changes_accepted,
            self.changes_refused,
            self.refused_24,
            self.instants,
            self.listings,
            self.audits,
            self.cuts,
            self.heals,
            self.splits,
            self.gives_from_left,
            self.gives_from_right,
            self.merges_with_left,
            self.merges_with_right,
            self.roots_gained,
            self.roots_lost,
            self.inner_splits,
            self.inner_gives,
            self.inner_merges,
            self.chain_taken,
            self.greatest_height,
            &self.edges[1..],
            self.edges_turned[0],
            self.edges_turned[1],
            self.edges_turned[2],
            self.edges_turned[3],
        ));
    }
}

// ---------------------------------------------------------------- random numbers

#[derive(Clone)]
pub struct Xorshift(u64);

impl Xorshift {
    pub fn new(seed: u64) -> Xorshift {
        Xorshift(seed.wrapping_mul(0x9E37_79B9_7F4A_7C15) | 1)
    }

    pub fn next(&mut self) -> u64 {
        self.0 ^= self.0 << 13;
        self.0 ^= self.0 >> 7;
        self.0 ^= self.0 << 17;
        self.0.wrapping_mul(0x2545_F491_4F6C_DD1D)
    }

    /// From 0 to `bound` − 1. The generator's low bits are its worst, and are left out where the bound needs no more than the others.
    pub fn below(&mut self, bound: u64) -> u64 {
        let drawn = if bound < 1 << 47 { self.next() >> 16 } else { self.next() };
        drawn % bound
    }

    pub fn one_in(&mut self, bound: u64) -> bool {
        self.below(bound) == 0
    }

    pub fn between(&mut self, low: i64, high: i64) -> i64 {
        low + self.below((high - low + 1) as u64) as i64
    }

    pub fn pick<T: Copy>(&mut self, from: &[T]) -> T {
        from[self.below(from.len() as u64) as usize]
    }

    pub fn bytes(&mut self, length: usize) -> Vec<u8> {
        let mut bytes = Vec::with_capacity(length + 8);
        while bytes.len() < length {
            bytes.extend_from_slice(&self.next().to_le_bytes());
        }
        bytes.truncate(length);
        bytes
    }

    pub fn shuffle<T>(&mut self, list: &mut [T]) {
        for i in (1..list.len()).rev() {
            list.swap(i, self.below(i as u64 + 1) as usize);
        }
    }
}

// ---------------------------------------------------------------- a second reader of the bytes

/// K as the bytes behind changes name it, FF there being 24; 24 also where they name none, so that damaged images can be read.
pub fn capacity(image: &[u8]) -> usize {
    match image[36..40] {
        [k, 0, 0, 0] if good_capacity(u32::from(k)) => k as usize,
        _ => 24,
    }
}

/// "an even number from 4 to 24"
pub fn good_capacity(k: u32) -> bool {
    [4, 6, 8, 10, 12, 14, 16, 18, 20, 22, 24].contains(&k)
}

/// All of them.
pub const CAPACITIES: [usize; 11] = [4, 6, 8, 10, 12, 14, 16, 18, 20, 22, 24];

/// "a page has 32 + 20 × K bytes"
pub fn page_bytes(image: &[u8]) -> usize {
    32 + 20 * capacity(image)
}

/// The number of pages of an image whose K and length are in order.
pub fn pages_of(image: &[u8]) -> usize {
    image.len() / page_bytes(image)
}

/// "n/8 bytes, rounded up": what calls borrow of the scratch for such an image, a byte for every eighth page from page 0 on.
pub fn borrowed_by(image: &[u8]) -> usize {
    (0..pages_of(image)).step_by(8).count()
}

/// Whether a scratch that was lent with these bytes is 0 where a call borrowed it, and as it was beyond.
pub fn is_cleared(scratch: &[u8], lent: &[u8], borrowed: usize) -> bool {
    scratch[..borrowed].iter().all(|&byte| byte == 0) && scratch[borrowed..] == lent[borrowed..]
}

/// The number that turns an image back ahead of everything else, or 0: "under 40 bytes gives 16, a bad K 21 ahead of 16".
pub fn judged(image: &[u8]) -> u32 {
    if image.len() < 40 {
        return 16;
    }
    let field = u32::from_le_bytes(image[36..40].try_into().unwrap());
    if field != u32::MAX && !good_capacity(field) {
        return 21;
    }
    let whole = image.len().is_multiple_of(page_bytes(image));
    if whole && (2..=1_024).contains(&pages_of(image)) {
        0
    } else {
        16
    }
}

/// Byte offsets written out again here, so that a mistaken one in the crate shows.
pub fn word(image: &[u8], page: u32, field: usize) -> u32 {
    let at = page as usize * page_bytes(image) + field * 4;
    u32::from(image[at])
        | u32::from(image[at + 1]) << 8
        | u32::from(image[at + 2]) << 16
        | u32::from(image[at + 3]) << 24
}

pub fn set_word(image: &mut [u8], page: u32, field: usize, to: u32) {
    let at = page as usize * page_bytes(image) + field * 4;
    image[at..at + 4].copy_from_slice(&to.to_le_bytes());
}

pub const N: usize = 0;
pub const HEIGHT: usize = 1;
pub const ROOT: usize = 2;
pub const FIRST_FREE: usize = 3;
pub const FREE_LENGTH: usize = 4;
pub const HIGH_MARK: usize = 5;
pub const KIND: usize = 6;
pub const WINDOW: usize = 7;
pub const CHANGES: usize = 8;
pub const CAPACITY: usize = 9;

/// Byte positions in a tree page; those of entries where K is 24.
pub const LEVEL_AT: usize = 0;
pub const ENTRY_COUNT_AT: usize = 4;
pub fn start_at(i: usize) -> usize {
    32 + 4 * i
}
pub fn sum_at(i: usize) -> usize {
    128 + 16 * i
}
pub fn count_at(i: usize) -> usize {
    136 + 16 * i
}
pub fn child_at(i: usize) -> usize {
    140 + 16 * i
}

/// Where entry i begins at any K: behind K starts.
pub fn entry_in(k: usize, i: usize) -> usize {
    32 + 4 * k + 16 * i
}

pub fn set(image: &mut [u8], page: u32, at: usize, bytes: &[u8]) {
    let at = page as usize * page_bytes(image) + at;
    image[at..at + bytes.len()].copy_from_slice(bytes);
}

pub fn get_u32(image: &[u8], page: u32, at: usize) -> u32 {
    let at = page as usize * page_bytes(image) + at;
    u32::from_le_bytes(image[at..at + 4].try_into().unwrap())
}

pub fn height(image: &[u8]) -> u32 {
    word(image, 0, HEIGHT)
}

/// An instant's answer at a refusal: "A refusal returns its number and zeros (instant: the pages read too)", and by document 02, (viii),
/// "zeros for both new numbers".
pub fn refused(status: u32, pages: u32) -> plain::Instant {
    plain::Instant { status, sum: 0, count: 0, pages, start: 0, end: 0 }
}

/// Gives the leaf entry that starts at t another own pair, so that its total becomes this one; for kind 1.
pub fn set_total(image: &mut [u8], t: u32, total: Pair) {
    let tree = Node::of(image);
    let (own, is) = (tree.own_pair_at(t), tree.pair_at(1, t));
    let way = tree.way(t);
    let leaf = way[way.len() - 1];
    let at = (0..capacity(image)).position(|i| get_u32(image, leaf, start_at(i)) == t).expect("t starts a leaf entry");
    let entry = entry_in(capacity(image), at);
    set(image, leaf, entry, &(own.sum + total.sum - is.sum).to_le_bytes());
    set(image, leaf, entry + 8, &(own.count + total.count - is.count).to_le_bytes());
    assert_eq!(Node::of(image).pair_at(1, t), total);
}

/// Where the leaf entry that has t starts and ends, without a look at fitness. Each page on the way narrows the span: an entry's end is
/// the next start in its page, and the last one's stays that of the page.
pub fn leaf_entry_at(image: &[u8], t: u32) -> (u32, u32) {
    let (mut page, mut span) = (word(image, 0, ROOT), (0, END));
    for _ in 0..height(image) {
        let entries = get_u32(image, page, ENTRY_COUNT_AT) as usize;
        let starts: Vec<u32> = (0..entries).map(|i| get_u32(image, page, start_at(i))).collect();
        let earlier = starts.iter().filter(|start| **start <= t).count();
        span = (starts[earlier - 1], starts.get(earlier).copied().unwrap_or(span.1));
        page = get_u32(image, page, entry_in(capacity(image), earlier - 1) + 12);
    }
    span
}

/// A tree read from the image into nested lists: the starts of leaves, the pages below inner entries.
#[derive(Clone, PartialEq, Eq, Debug)]
pub enum Node {
    Leaf { page: u32, entries: Vec<(u32, Pair)> },
    Inner { page: u32, entries: Vec<(u32, Pair, Node)> },
}

impl Node {
    pub fn of(image: &[u8]) -> Node {
        Node::at(image, word(image, 0, ROOT))
    }

    fn at(image: &[u8], page: u32) -> Node {
        let k = capacity(image);
        let entry_count = get_u32(image, page, ENTRY_COUNT_AT) as usize;
        let start = |i: usize| get_u32(image, page, start_at(i));
        let pair = |i: usize| {
            let at = page as usize * page_bytes(image) + entry_in(k, i);
            Pair {
                sum: i64::from_le_bytes(image[at..at + 8].try_into().unwrap()),
                count: i32::from_le_bytes(image[at + 8..at + 12].try_into().unwrap()),
            }
        };
        if get_u32(image, page, LEVEL_AT) == 0 {
            Node::Leaf { page, entries: (0..entry_count).map(|i| (start(i), pair(i))).collect() }
        } else {
            let child = |i: usize| Node::at(image, get_u32(image, page, entry_in(k, i) + 12));
            Node::Inner { page, entries: (0..entry_count).map(|i| (start(i), pair(i), child(i))).collect() }
        }
    }

    pub fn page(&self) -> u32 {
        match self {
            Node::Leaf { page, .. } | Node::Inner { page, .. } => *page,
        }
    }

    pub fn pages(&self) -> BTreeSet<u32> {
        match self {
            Node::Leaf { page, .. } => BTreeSet::from([*page]),
            Node::Inner { page, entries } => {
                entries.iter().flat_map(|(_, _, below)| below.pages()).chain([*page]).collect()
            }
        }
    }

    pub fn leaf_entries(&self) -> usize {
        match self {
            Node::Leaf { entries, .. } => entries.len(),
            Node::Inner { entries, .. } => entries.iter().map(|(_, _, below)| below.leaf_entries()).sum(),
        }
    }

    /// The pair at t, without any check of fitness.
    pub fn pair_at(&self, kind: u32, t: u32) -> Pair {
        let pairs = self.pairs_on_way(t);
        let values = pairs.iter().filter(|pair| pair.count != 0).map(|pair| pair.sum);
        let best = match kind {
            1 => {
                let sum = pairs.iter().map(|pair| pair.sum).sum();
                return Pair { sum, count: pairs.iter().map(|pair| pair.count).sum() };
            }
            2 => values.max(),
            _ => values.min(),
        };
        best.map_or(Pair { sum: 0, count: 0 }, |sum| Pair { sum, count: 1 })
    }

    fn pairs_on_way(&self, t: u32) -> Vec<Pair> {
        match self {
            Node::Leaf { entries, .. } => vec![entries.iter().rfind(|(start, _)| *start <= t).unwrap().1],
            Node::Inner { entries, .. } => {
                let (_, pair, below) = entries.iter().rfind(|(start, _, _)| *start <= t).unwrap();
                let mut pairs = vec![*pair];
                pairs.extend(below.pairs_on_way(t));
                pairs
            }
        }
    }

    /// The leaf that has t, as its starts and own pairs.
    fn leaf_at(&self, t: u32) -> &[(u32, Pair)] {
        match self {
            Node::Leaf { entries, .. } => entries,
            Node::Inner { entries, .. } => entries.iter().rfind(|(start, _, _)| *start <= t).unwrap().2.leaf_at(t),
        }
    }

    /// The own pair of the leaf entry that has t.
    pub fn own_pair_at(&self, t: u32) -> Pair {
        self.leaf_at(t).iter().rfind(|(start, _)| *start <= t).unwrap().1
    }

    /// The own pair of the entry before that one, if it stands in the same page.
    pub fn own_pair_before(&self, t: u32) -> Option<Pair> {
        let earlier: Vec<Pair> =
            self.leaf_at(t).iter().filter(|(start, _)| *start <= t).map(|(_, pair)| *pair).collect();
        earlier.iter().rev().nth(1).copied()
    }

    /// Every leaf entry in its order: its start and its total for kind 1.
    pub fn leaf_totals(&self) -> Vec<(u32, Pair)> {
        match self {
            Node::Leaf { entries, .. } => entries.clone(),
            Node::Inner { entries, .. } => {
                let below = |(_, above, below): &(u32, Pair, Node)| -> Vec<(u32, Pair)> {
                    let with = |own: Pair| Pair { sum: above.sum + own.sum, count: above.count + own.count };
                    below.leaf_totals().into_iter().map(|(start, own)| (start, with(own))).collect()
                };
                entries.iter().flat_map(below).collect()
            }
        }
    }

    pub fn leaf_starts(&self) -> BTreeSet<u32> {
        match self {
            Node::Leaf { entries, .. } => entries.iter().map(|(start, _)| *start).collect(),
            Node::Inner { entries, .. } => entries.iter().flat_map(|(_, _, below)| below.leaf_starts()).collect(),
        }
    }

    pub fn first_start(&self) -> u32 {
        match self {
            Node::Leaf { entries, .. } => entries[0].0,
            Node::Inner { entries, .. } => entries[0].0,
        }
    }

    /// Where a leaf ends and the next one begins, with the level of the page that has the entry between them.
    pub fn edges(&self) -> Vec<(u32, u32)> {
        let Node::Inner { entries, .. } = self else { return Vec::new() };
        let level = 1 + entries[0].2.depth();
        let mut edges: Vec<(u32, u32)> = entries.iter().skip(1).map(|(start, _, _)| (*start, level)).collect();
        edges.extend(entries.iter().flat_map(|(_, _, below)| below.edges()));
        edges
    }

    /// How many levels there are below.
    fn depth(&self) -> u32 {
        match self {
            Node::Leaf { .. } => 0,
            Node::Inner { entries, .. } => 1 + entries[0].2.depth(),
        }
    }

    /// Where two neighbouring leaf entries have equal totals: the later ones' starts. Of a sound kind 1 image there are none.
    pub fn equal_neighbours(&self) -> Vec<u32> {
        let totals = self.leaf_totals();
        totals.windows(2).filter(|two| two[0].1 == two[1].1).map(|two| two[1].0).collect()
    }

    /// The pages met on the way to t; END is no instant.
    pub fn way(&self, t: u32) -> Vec<u32> {
        if t == END {
            return Vec::new();
        }
        let mut way = vec![self.page()];
        if let Node::Inner { entries, .. } = self {
            let (_, _, below) = entries.iter().rfind(|(start, _, _)| *start <= t).unwrap();
            way.extend(below.way(t));
        }
        way
    }

    /// The pages that a listing over [a, b) meets (R5).
    pub fn met_by_listing(&self, a: u32, b: u32, end: u32) -> BTreeSet<u32> {
        let mut met = BTreeSet::from([self.page()]);
        if let Node::Inner { entries, .. } = self {
            for (i, (start, _, below)) in entries.iter().enumerate() {
                let next = entries.get(i + 1).map_or(end, |(next, _, _)| *next);
                if *start < b && a < next {
                    met.extend(below.met_by_listing(a, b, next));
                }
            }
        }
        met
    }

    /// Of the pages on the way to t, from the leaf up: the left neighbour under the same parent, else the right.
    pub fn siblings_of_way(&self, t: u32) -> Vec<u32> {
        if t == END {
            return Vec::new();
        }
        let Node::Inner { entries, .. } = self else { return Vec::new() };
        let i = entries.iter().filter(|(start, _, _)| *start <= t).count() - 1;
        let mut siblings = entries[i].2.siblings_of_way(t);
        let sibling = if i > 0 { i - 1 } else { i + 1 };
        siblings.push(entries[sibling].2.page());
        siblings
    }
}

// ---------------------------------------------------------------- how many pages A and B take

/// Only how many entries pages have and where they start: enough to count the pages that cuts take.
#[derive(Clone)]
enum Shape {
    Leaf(Vec<u32>),
    Inner(Vec<(u32, Shape)>),
}

impl Shape {
    fn of(node: &Node) -> Shape {
        match node {
            Node::Leaf { entries, .. } => Shape::Leaf(entries.iter().map(|(start, _)| *start).collect()),
            Node::Inner { entries, .. } => {
                Shape::Inner(entries.iter().map(|(start, _, below)| (*start, Shape::of(below))).collect())
            }
        }
    }

    /// Adds t; the second half if this page had to split.
    fn add(&mut self, k: usize, t: u32, taken: &mut u64) -> Option<(u32, Shape)> {
        match self {
            Shape::Leaf(starts) => {
                let Err(at) = starts.binary_search(&t) else { return None };
                starts.insert(at, t);
                if starts.len() < k + 1 {
                    return None;
                }
                *taken += 1;
                let right = starts.split_off(k / 2);
                Some((right[0], Shape::Leaf(right)))
            }
            Shape::Inner(entries) => {
                let at = entries.partition_point(|(start, _)| *start <= t);
                let gained = entries[at - 1].1.add(k, t, taken)?;
                entries.insert(at, gained);
                if entries.len() < k + 1 {
                    return None;
                }
                *taken += 1;
                let right = entries.split_off(k / 2);
                Some((right[0].0, Shape::Inner(right)))
            }
        }
    }
}

/// The pages that A and B together take on this image.
pub fn pages_wanted(image: &[u8], s: u32, end: u32) -> u64 {
    let mut shape = Shape::of(&Node::of(image));
    let mut taken = 0;
    for t in [s, end] {
        if t == END {
            continue;
        }
        if let Some(right) = shape.add(capacity(image), t, &mut taken) {
            taken += 1;
            shape = Shape::Inner(vec![(0, shape), right]);
        }
    }
    taken
}

/// "chain and pages from the high mark hold"
pub fn pages_at_hand(image: &[u8]) -> u64 {
    u64::from(word(image, 0, FREE_LENGTH)) + u64::from(word(image, 0, N) - word(image, 0, HIGH_MARK))
}

// ---------------------------------------------------------------- a quick book

/// The same pairs as the plain book's, kept by their starts, for loads on which the plain book is too slow.
#[derive(Clone)]
pub struct Timeline {
    kind: u32,
    window: u32,
    pairs: BTreeMap<u32, Pair>,
}

impl Timeline {
    pub fn new(kind: u32, window: u32) -> Timeline {
        Timeline { kind, window, pairs: BTreeMap::from([(0, Pair { sum: 0, count: 0 })]) }
    }

    pub fn change(&mut self, v: i64, count: i32, s: u32, e: u32) {
        let end = (u64::from(e) + u64::from(self.window)).min(u64::from(END)) as u32;
        for t in [s, end] {
            let before = self.pair_at(t);
            self.pairs.insert(t, before);
        }
        for (_, pair) in self.pairs.range_mut(s..end) {
            *pair = match self.kind {
                1 => Pair { sum: pair.sum + v, count: pair.count + count },
                2 if pair.count == 1 => Pair { sum: pair.sum.max(v), count: 1 },
                3 if pair.count == 1 => Pair { sum: pair.sum.min(v), count: 1 },
                _ => Pair { sum: v, count: 1 },
            };
        }
    }

    pub fn pair_at(&self, t: u32) -> Pair {
        *self.pairs.range(..=t).next_back().unwrap().1
    }

    pub fn boundaries(&self) -> BTreeSet<u32> {
        self.pairs.keys().copied().collect()
    }

    pub fn runs(&self, a: u32, b: u32) -> Vec<Run> {
        let mut runs = vec![Run { start: a, pair: self.pair_at(a) }];
        if b - a > 1 {
            for (&start, &pair) in self.pairs.range(a + 1..b) {
                if runs[runs.len() - 1].pair != pair {
                    runs.push(Run { start, pair });
                }
            }
        }
        runs
    }
}

// ---------------------------------------------------------------- the rack

/// One image with its books. Every call through it is checked.
#[derive(Clone)]
pub struct Rack {
    pub image: Vec<u8>,
    pub book: Book,
    pub timeline: Timeline,
    pub tally: Tally,
    pub random: Xorshift,
    /// Whether each change is also run step by step, with the pages that each step wrote.
    pub by_step: bool,
    /// Whether each change is followed by an audit and compared with the model.
    pub audit_each: bool,
}

/// "document 01's cases keep K = 24"
pub fn fresh(n: usize, kind: u32, window: u32) -> Vec<u8> {
    fresh_of(24, n, kind, window)
}

pub fn fresh_of(k: usize, n: usize, kind: u32, window: u32) -> Vec<u8> {
    let mut image = vec![0xA5; n * (32 + 20 * k)];
    assert_eq!(format(&mut image, kind, window, k as u32), 0);
    image
}

impl Rack {
    pub fn new(n: usize, kind: u32, window: u32, seed: u64) -> Rack {
        Rack::on(fresh(n, kind, window), seed)
    }

    /// On a fresh image of any K.
    pub fn on(image: Vec<u8>, seed: u64) -> Rack {
        let (kind, window) = (word(&image, 0, KIND), word(&image, 0, WINDOW));
        let tally = Tally { formats: 1, greatest_height: 1, ..Tally::default() };
        Rack {
            image,
            book: Book::new(kind, window),
            timeline: Timeline::new(kind, window),
            tally,
            random: Xorshift::new(seed),
            by_step: true,
            audit_each: true,
        }
    }

    pub fn enter(&mut self, v: i64, s: u32, e: u32) -> u32 {
        self.change(false, v, s, e)
    }

    pub fn withdraw(&mut self, v: i64, s: u32, e: u32) -> u32 {
        self.change(true, v, s, e)
    }

    /// A change with arguments in range, and every check that one change allows.
    pub fn change(&mut self, withdrawal: bool, v: i64, s: u32, e: u32) -> u32 {
        assert!(s < e && (-1_000_000..=1_000_000).contains(&v));
        let before = self.image.clone();
        let end = (u64::from(e) + u64::from(self.book.window)).min(u64::from(END)) as u32;
        let wanted = pages_wanted(&before, s, end);
        let expected = if withdrawal && self.book.kind != 1 {
            22
        } else if wanted > pages_at_hand(&before) {
            24
        } else {
            0
        };

        let borrowed = borrowed_by(&before);
        let length = borrowed + self.random.below(3) as usize;
        let lent = self.random.bytes(length);
        let mut scratch = lent.clone();
        let recorded = if withdrawal {
            withdraw_recorded(&mut self.image, &mut scratch, v, s, e)
        } else {
            enter_recorded(&mut self.image, &mut scratch, v, s, e)
        };
        assert_eq!(recorded.status, expected);
        assert!(is_cleared(&scratch, &lent, borrowed));

        let count = if withdrawal { -1 } else { 1 };
        let signed = if withdrawal { -v } else { v };
        if withdrawal {
            self.book.withdraw(v, s, e, recorded.status);
        } else {
            self.book.enter(v, s, e, recorded.status);
        }
        if recorded.status != 0 {
            assert!(self.image == before, "a refused change keeps the image's bytes");
            assert!(recorded.steps.is_empty());
            self.tally.changes_refused += 1;
            self.tally.refused_24 += u64::from(recorded.status == 24);
            return recorded.status;
        }
        self.timeline.change(signed, count, s, e);

        // "no byte of a page that its five steps in document 01 don't name"
        let named = recorded.named_pages();
        for page in changed_pages(&before, &self.image) {
            assert!(named.contains(&page), "page {page} changed, named are {named:?}");
        }
        assert_eq!(word(&self.image, 0, CHANGES), word(&before, 0, CHANGES) + 1);
        assert_eq!(self.image[36..40], before[36..40], "a change keeps the field's bytes");
        let taken: u64 = recorded.steps.iter().map(|step| step.taken.len() as u64).sum();
        assert_eq!(taken, wanted);
        let given_back: u64 = recorded.steps.iter().map(|step| step.given_back.len() as u64).sum();
        assert_eq!(pages_at_hand(&self.image), pages_at_hand(&before) - taken + given_back);
        if self.audit_each {
            let mut model = Model::of(&before);
            model.change(Pair { sum: signed, count }, s, end);
            model.assert_is(&self.image);
        }
        if self.by_step {
            let effect = Effect { pair: Pair { sum: signed, count }, span: Span { start: s, end } };
            check_by_step(&before, &effect, &recorded.steps, &self.image);
        }

        let from_chain = taken - u64::from(word(&self.image, 0, HIGH_MARK) - word(&before, 0, HIGH_MARK));
        self.tally.chain_taken += from_chain;
        self.tally.changes_accepted += 1;
        for step in &recorded.steps {
            self.tally.add_step(step);
        }
        self.tally.greatest_height = self.tally.greatest_height.max(height(&self.image));
        if self.audit_each {
            self.check_audit();
            self.check_neighbours();
        }
        0
    }

    /// Document 02, (iv), for kind 1: "no two neighbouring leaf entries have equal totals, so its leaf entries number exactly the runs".
    pub fn check_neighbours(&self) {
        if self.book.kind != 1 {
            return;
        }
        let tree = Node::of(&self.image);
        assert_eq!(tree.equal_neighbours(), []);
        let mut out = vec![0; 16 * tree.leaf_entries()];
        assert_eq!(listing(&self.image, 0, END, &mut out).runs as usize, tree.leaf_entries());
    }

    pub fn check_audit(&mut self) {
        let borrowed = borrowed_by(&self.image);
        let lent = vec![7; borrowed + 2];
        let mut scratch = lent.clone();
        assert_eq!(audit(&self.image, &mut scratch), 0);
        assert!(is_cleared(&scratch, &lent, borrowed));
        assert!(is_sound_by_counting(&self.image));
        self.tally.audits += 1;
    }

    pub fn check_instant_as(&mut self, t: u32, expected: Pair) {
        let answer = instant(&self.image, t);
        assert_eq!(answer.status, 0);
        assert_eq!(Pair { sum: answer.sum, count: answer.count }, expected, "at {t}");
        assert_eq!(answer.pages, height(&self.image));
        assert_eq!((answer.start, answer.end), leaf_entry_at(&self.image, t), "at {t}");
        assert!(answer.start <= t && t < answer.end);
        self.tally.instants += 1;
    }

    /// One instant against the plain book.
    pub fn check_instant(&mut self, t: u32) {
        let expected = self.book.pair_at(t);
        self.check_instant_as(t, expected);
    }

    /// The instants at which the book's pairs may differ, those before, and both ends.
    pub fn interesting_instants(&self) -> BTreeSet<u32> {
        let mut instants = BTreeSet::from([0, END - 1]);
        for t in self.timeline.boundaries() {
            instants.extend([t.saturating_sub(1), t.min(END - 1)]);
        }
        instants
    }

    /// All of them against the plain book.
    pub fn check_instants(&mut self) {
        for t in self.interesting_instants() {
            self.check_instant(t);
        }
    }

    /// A listing with an output that is long enough, checked byte for byte; then one byte too short.
    pub fn check_listing_as(&mut self, a: u32, b: u32, runs: &[Run]) {
        let needed = 16 * runs.len();
        let length = needed + self.random.below(40) as usize;
        let filled = self.random.bytes(length);
        let mut out = filled.clone();
        let answer = listing(&self.image, a, b, &mut out);
        assert_eq!((answer.status, answer.runs), (0, runs.len() as u32));
        for (i, run) in runs.iter().enumerate() {
            assert_eq!(out[16 * i..16 * i + 16], run_bytes(run), "run {i} over [{a}, {b})");
        }
        assert_eq!(out[needed..], filled[needed..]);

        let mut short = filled[..needed - 1].to_vec();
        let answer = listing(&self.image, a, b, &mut short);
        assert_eq!((answer.status, answer.runs), (15, 0));
        assert_eq!(short[..], filled[..needed - 1]);
        self.tally.listings += 2;
    }

    /// A listing against the plain book.
    pub fn check_listing(&mut self, a: u32, b: u32) {
        let runs = self.book.runs(a, b);
        self.check_listing_as(a, b, &runs);
    }

    /// Instants and full listing against the quick book.
    pub fn check_all_quickly(&mut self) {
        for t in self.interesting_instants() {
            let expected = self.timeline.pair_at(t);
            self.check_instant_as(t, expected);
        }
        let runs = self.timeline.runs(0, END);
        self.check_listing_as(0, END, &runs);
    }
}

pub fn changed_pages(before: &[u8], after: &[u8]) -> Vec<u32> {
    let length = page_bytes(before);
    let pages = before.chunks(length).zip(after.chunks(length)).enumerate();
    pages.filter(|(_, (old, new))| old != new).map(|(page, _)| page as u32).collect()
}

/// The five steps one by one: each writes only pages that it names, and names are what document 01's sentence says.
fn check_by_step(before: &[u8], effect: &Effect, records: &[StepRecord], after: &[u8]) {
    let Span { start: s, end } = effect.span;
    let kind = word(before, 0, KIND);
    let mut image = before.to_vec();
    let mut tree = Node::of(before);
    for (step, record) in FIVE_STEPS.iter().zip(records) {
        let found = image.clone();
        assert_eq!(one_step(&mut image, *step, effect).as_ref(), Ok(record));
        let named = record.named_pages();
        for page in changed_pages(&found, &image) {
            assert!(named.contains(&page), "{step:?} wrote page {page}, it names {named:?}");
        }
        // The ways, by the second reader.
        let instants = match step {
            Step::CutAtStart | Step::HealAtStart => vec![s],
            Step::CutAtEnd | Step::HealAtEnd => vec![end],
            Step::Combine => vec![s, end],
        };
        let ways: Vec<Vec<u32>> = instants.iter().map(|t| tree.way(*t)).collect();
        assert_eq!(record.ways, ways);
        // Taken: outside the tree before, in it after. Given back: the other way round.
        let tree_after = Node::of(&image);
        let (old, new) = (tree.pages(), tree_after.pages());
        assert_eq!(record.taken.iter().copied().collect::<BTreeSet<u32>>(), &new - &old);
        assert_eq!(record.given_back.iter().copied().collect::<BTreeSet<u32>>(), &old - &new);
        // Neighbours turned to are those of the pages on the way, from the leaf up.
        assert!(tree.siblings_of_way(instants[0]).starts_with(&record.turned_to));
        // Of kind 1: behind the cuts only s and e′ can stand between equal totals, D mends s and E mends e′.
        if kind == 1 {
            let may_be_equal: &[u32] = match step {
                Step::CutAtStart => &[s],
                Step::CutAtEnd | Step::Combine => &[s, end],
                Step::HealAtStart => &[end],
                Step::HealAtEnd => &[],
            };
            let equal = tree_after.equal_neighbours();
            assert!(equal.iter().all(|start| may_be_equal.contains(start)), "{step:?} leaves {equal:?} equal");
        }
        check_edge(&tree, &tree_after, *step, record, instants[0]);
        // No step but C alters what an instant gives.
        if *step != Step::Combine {
            for t in [s, s.saturating_sub(1), end - 1, end.min(END - 1)] {
                assert_eq!(tree.pair_at(kind, t), tree_after.pair_at(kind, t));
            }
        }
        tree = tree_after;
    }
    count_the_change(&mut image);
    assert!(image == after, "the five steps one by one make the change");
}

/// What a heal did that took the first entry of a page. Document 02, (iv): "Each page written is the head, lies on the way to t or to t−1,
/// is a neighbour turned to or is given back." No page is named because it lies on the way to t−1, so that none was written which only that
/// way has, but for the neighbour that is turned to under the entry that separates both ways.
fn check_edge(tree: &Node, after: &Node, step: Step, record: &StepRecord, t: u32) {
    if record.edge_level == 0 {
        return;
    }
    assert!(matches!(step, Step::HealAtStart | Step::HealAtEnd) && record.entries_healed == 1);
    let (ways, before) = (tree.way(t), tree.way(t - 1));
    let common = ways.iter().zip(&before).filter(|(one, other)| one == other).count();
    // The page that separates both ways is the last that they share; the leaf has level 0.
    assert_eq!(ways.len() - common, record.edge_level as usize);
    assert!(!after.leaf_starts().contains(&t) && tree.leaf_starts().contains(&t));
    // The page under the separating entry has a left neighbour, which leads to t−1. Of the pages that only the way to t−1 has it is the one
    // that the step may name, if the turning comes up so far.
    let only_before: BTreeSet<u32> = before[common..].iter().copied().collect();
    let named = record.named_pages();
    let named_before: Vec<u32> = only_before.iter().copied().filter(|page| named.contains(page)).collect();
    let reaches_separator = record.turned_to.len() >= record.edge_level as usize;
    assert_eq!(named_before, if reaches_separator { vec![before[common]] } else { vec![] });
    if reaches_separator {
        assert_eq!(record.turned_to[record.edge_level as usize - 1], before[common]);
    }
}

/// Audit by the definition and by counting agree; whether the image is sound. One that is turned back by its K or its length
/// isn't, and keeps the scratch.
pub fn audit_both_ways(image: &[u8]) -> bool {
    let sound = is_sound(image);
    assert_eq!(sound, is_sound_by_counting(image), "the definition and the counting shortcut agree");
    let lent = vec![1; borrowed_by(image) + 1];
    let mut scratch = lent.clone();
    let status = audit(image, &mut scratch);
    if judged(image) != 0 {
        assert!(!sound && status == judged(image) && scratch == lent);
        return false;
    }
    assert_eq!(status, if sound { 0 } else { 21 });
    assert!(is_cleared(&scratch, &lent, borrowed_by(image)));
    sound
}
