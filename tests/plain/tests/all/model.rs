//! The five steps a second time, on nested lists in place of pages in an image and by recursion from the root in place of
//! a way walked back. After each change of the rack tree, chain and high mark must come out the same.
//!
//! Heal is told otherwise too. Document 02, (iv), removes for kind 1 "an entry that is first in its page when the totals on both sides are
//! equal"; behind another entry of its page it goes where the pairs are equal, and so are the totals there. So for kind 1 totals are
//! compared wherever the entry stands, and every start above is that of the page below it.

use crate::support::*;
use plain::{Pair, END};

/// The chain, front first, and the pages from the high mark on.
struct Pages {
    chain: Vec<u32>,
    mark: u32,
    n: u32,
}

impl Pages {
    fn take(&mut self) -> u32 {
        if self.chain.is_empty() {
            assert!(self.mark < self.n);
            self.mark += 1;
            self.mark - 1
        } else {
            self.chain.remove(0)
        }
    }

    fn give_back(&mut self, page: u32) {
        self.chain.insert(0, page);
    }
}

pub struct Model {
    kind: u32,
    half: usize,
    tree: Node,
    pages: Pages,
}

impl Model {
    pub fn of(image: &[u8]) -> Model {
        let mut chain = Vec::new();
        let mut page = word(image, 0, FIRST_FREE);
        while page != 0 {
            chain.push(page);
            page = word(image, page, 1);
        }
        let pages = Pages { chain, mark: word(image, 0, HIGH_MARK), n: word(image, 0, N) };
        Model { kind: word(image, 0, KIND), half: capacity(image) / 2, tree: Node::of(image), pages }
    }

    pub fn assert_is(&self, image: &[u8]) {
        let other = Model::of(image);
        assert!(self.tree == other.tree, "the model's tree");
        assert_eq!(self.pages.chain, other.pages.chain, "the model's chain");
        assert_eq!(self.pages.mark, other.pages.mark, "the model's high mark");
        assert_eq!(self.pages.chain.len() as u32, word(image, 0, FREE_LENGTH));
        assert_eq!(depth(&self.tree), height(image));
    }

    pub fn change(&mut self, pair: Pair, s: u32, end: u32) {
        self.cut(s);
        self.cut(end);
        combine_into(&mut self.tree, self.kind, pair, s, end, END);
        self.heal(s);
        self.heal(end);
    }

    fn cut(&mut self, t: u32) {
        if t == END {
            return;
        }
        if let Some((start, right)) = cut_below(&mut self.tree, t, self.half, &mut self.pages) {
            let page = self.pages.take();
            let nothing = Pair { sum: 0, count: 0 };
            let left = std::mem::replace(&mut self.tree, Node::Leaf { page: 0, entries: Vec::new() });
            self.tree = Node::Inner { page, entries: vec![(0, nothing, left), (start, nothing, right)] };
        }
    }

    fn heal(&mut self, t: u32) {
        let goes = match self.kind {
            1 => t > 0 && t < END && self.tree.pair_at(1, t - 1) == self.tree.pair_at(1, t),
            _ => self.tree.own_pair_before(t).is_some_and(|pair| pair == self.tree.own_pair_at(t)),
        };
        if !goes || !self.tree.leaf_starts().contains(&t) {
            return;
        }
        heal_below(&mut self.tree, t, self.kind, self.half, &mut self.pages);
        if let Node::Inner { page, entries } = &mut self.tree {
            if entries.len() == 1 {
                let (_, pair, mut child) = entries.remove(0);
                combine_all(&mut child, self.kind, pair);
                self.pages.give_back(*page);
                self.tree = child;
            }
        }
    }
}

fn depth(node: &Node) -> u32 {
    match node {
        Node::Leaf { .. } => 1,
        Node::Inner { entries, .. } => 1 + depth(&entries[0].2),
    }
}

fn entry_count(node: &Node) -> usize {
    match node {
        Node::Leaf { entries, .. } => entries.len(),
        Node::Inner { entries, .. } => entries.len(),
    }
}

fn both(kind: u32, one: Pair, other: Pair) -> Pair {
    match (kind, one.count, other.count) {
        (1, _, _) => Pair { sum: one.sum + other.sum, count: one.count + other.count },
        (_, _, 0) => one,
        (_, 0, _) => other,
        (2, _, _) => Pair { sum: std::cmp::max(one.sum, other.sum), count: 1 },
        _ => Pair { sum: std::cmp::min(one.sum, other.sum), count: 1 },
    }
}

/// The right half, if the page had to split.
fn cut_below(node: &mut Node, t: u32, half: usize, pages: &mut Pages) -> Option<(u32, Node)> {
    match node {
        Node::Leaf { entries, .. } => {
            let at = entries.iter().take_while(|(start, _)| *start <= t).count();
            let (start, pair) = entries[at - 1];
            if start == t {
                return None;
            }
            entries.insert(at, (t, pair));
            if entries.len() == 2 * half + 1 {
                let right = entries.drain(half..).collect::<Vec<_>>();
                return Some((right[0].0, Node::Leaf { page: pages.take(), entries: right }));
            }
            None
        }
        Node::Inner { entries, .. } => {
            let at = entries.iter().take_while(|(start, _, _)| *start <= t).count();
            let (start, right) = cut_below(&mut entries[at - 1].2, t, half, pages)?;
            let pair = entries[at - 1].1;
            entries.insert(at, (start, pair, right));
            if entries.len() == 2 * half + 1 {
                let right = entries.drain(half..).collect::<Vec<_>>();
                return Some((right[0].0, Node::Inner { page: pages.take(), entries: right }));
            }
            None
        }
    }
}

fn combine_into(node: &mut Node, kind: u32, pair: Pair, s: u32, end: u32, node_end: u32) {
    match node {
        Node::Leaf { entries, .. } => {
            for (start, own) in entries {
                if s <= *start && *start < end {
                    *own = both(kind, *own, pair);
                }
            }
        }
        Node::Inner { entries, .. } => {
            let mut ends: Vec<u32> = entries.iter().skip(1).map(|(start, _, _)| *start).collect();
            ends.push(node_end);
            for ((start, own, below), entry_end) in entries.iter_mut().zip(ends) {
                if s <= *start && entry_end <= end {
                    *own = both(kind, *own, pair);
                } else if *start < end && s < entry_end {
                    combine_into(below, kind, pair, s, end, entry_end);
                }
            }
        }
    }
}

/// Takes the leaf entry at t out.
fn heal_below(node: &mut Node, t: u32, kind: u32, half: usize, pages: &mut Pages) {
    match node {
        Node::Leaf { entries, .. } => entries.retain(|(start, _)| *start != t),
        Node::Inner { entries, .. } => {
            let at = entries.iter().take_while(|(start, _, _)| *start <= t).count() - 1;
            heal_below(&mut entries[at].2, t, kind, half, pages);
            entries[at].0 = entries[at].2.first_start();
            if entry_count(&entries[at].2) == half - 1 {
                let left = if at == 0 { 0 } else { at - 1 };
                let neighbour = if at == 0 { 1 } else { at - 1 };
                let gives = entry_count(&entries[neighbour].2) > half;
                rebalance(entries, left, at, gives, kind, pages);
            }
        }
    }
}

/// The child `short`, which is one entry below half, and its neighbour are `left` and `left + 1`.
fn rebalance(
    entries: &mut Vec<(u32, Pair, Node)>,
    left: usize,
    short: usize,
    gives: bool,
    kind: u32,
    pages: &mut Pages,
) {
    for (_, pair, below) in &mut entries[left..left + 2] {
        combine_all(below, kind, *pair);
        *pair = Pair { sum: 0, count: 0 };
    }
    if gives {
        let (first, second) = entries.split_at_mut(left + 1);
        let new_start = give(&mut first[left].2, &mut second[0].2, short != left);
        second[0].0 = new_start;
    } else {
        let (_, _, right) = entries.remove(left + 1);
        pages.give_back(right.page());
        match (&mut entries[left].2, right) {
            (Node::Leaf { entries, .. }, Node::Leaf { entries: more, .. }) => entries.extend(more),
            (Node::Inner { entries, .. }, Node::Inner { entries: more, .. }) => entries.extend(more),
            _ => panic!("neighbours are of one level"),
        }
    }
}

/// One entry from left to right or from right to left; where the right page then starts.
fn give(left: &mut Node, right: &mut Node, to_right: bool) -> u32 {
    match (left, right) {
        (Node::Leaf { entries: left, .. }, Node::Leaf { entries: right, .. }) => {
            if to_right {
                right.insert(0, left.pop().unwrap());
            } else {
                left.push(right.remove(0));
            }
            right[0].0
        }
        (Node::Inner { entries: left, .. }, Node::Inner { entries: right, .. }) => {
            if to_right {
                right.insert(0, left.pop().unwrap());
            } else {
                left.push(right.remove(0));
            }
            right[0].0
        }
        _ => panic!("neighbours are of one level"),
    }
}

/// The parent's pair into a page's entries.
fn combine_all(node: &mut Node, kind: u32, pair: Pair) {
    match node {
        Node::Leaf { entries, .. } => entries.iter_mut().for_each(|(_, own)| *own = both(kind, *own, pair)),
        Node::Inner { entries, .. } => entries.iter_mut().for_each(|(_, own, _)| *own = both(kind, *own, pair)),
    }
}
