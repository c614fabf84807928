//! Document 01, "The plain book of demand 3".
//!
//! "The book is fed kind and window, each call's arguments and, of enter and withdraw, the number returned; never the
//! image. It keeps a list of items, empty at first." It shares no rule with the tree: ends and pairs are worked out here.

use std::collections::BTreeSet;

use crate::calls::Run;
use crate::value::{Pair, END};

#[derive(Clone, Copy, PartialEq, Eq, Debug)]
pub struct Item {
    pub start: u32,
    /// e′
    pub end: u32,
    pub value: i64,
    pub count: i32,
}

#[derive(Clone, PartialEq, Eq, Debug)]
pub struct Book {
    pub kind: u32,
    pub window: u32,
    pub items: Vec<Item>,
}

impl Book {
    pub fn new(kind: u32, window: u32) -> Book {
        Book { kind, window, items: Vec::new() }
    }

    /// "Enter or withdraw of v on [s, e) that returned 0 adds an item: s, e′ and (v, 1), for a withdrawal (−v, −1). Any
    /// other number adds nothing; nor do format, instant, listing and audit."
    pub fn enter(&mut self, v: i64, s: u32, e: u32, status: u32) {
        if status == 0 {
            self.items.push(Item { start: s, end: self.end_of(e), value: v, count: 1 });
        }
    }

    pub fn withdraw(&mut self, v: i64, s: u32, e: u32, status: u32) {
        if status == 0 {
            self.items.push(Item { start: s, end: self.end_of(e), value: -v, count: -1 });
        }
    }

    /// "e′ the smaller of e+w and END"
    fn end_of(&self, e: u32) -> u32 {
        match e.checked_add(self.window) {
            Some(end) => end,
            None => END,
        }
    }

    /// "Its pair at t is over the items with s ≤ t < e′: for kind 1 their pairs added, for kinds 2 and 3 the greatest or
    /// least value with 1; (0, 0) if there are none."
    pub fn pair_at(&self, t: u32) -> Pair {
        let there = self.items.iter().filter(|item| item.start <= t && t < item.end);
        let best = match self.kind {
            1 => {
                let mut pair = Pair { sum: 0, count: 0 };
                for item in there {
                    pair.sum += item.value;
                    pair.count += item.count;
                }
                return pair;
            }
            2 => there.map(|item| item.value).max(),
            _ => there.map(|item| item.value).min(),
        };
        match best {
            Some(value) => Pair { sum: value, count: 1 },
            None => Pair { sum: 0, count: 0 },
        }
    }

    /// "Its runs over [a, b): one starts at a, and one at each later instant below b whose pair isn't that of the instant
    /// before; each has its start's count and sum." A pair differs from the one before only where an item starts or
    /// ends.
    pub fn runs(&self, a: u32, b: u32) -> Vec<Run> {
        let mut runs = vec![Run { start: a, pair: self.pair_at(a) }];
        for t in self.boundaries() {
            if a < t && t < b && self.pair_at(t) != self.pair_at(t - 1) {
                runs.push(Run { start: t, pair: self.pair_at(t) });
            }
        }
        runs
    }

    /// The instants, and END, at which items start or end.
    pub fn boundaries(&self) -> BTreeSet<u32> {
        self.items.iter().flat_map(|item| [item.start, item.end]).collect()
    }
}
