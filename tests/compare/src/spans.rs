//! Which starts and ends instants told: where an end stands as a start, in the leaf itself or so many pages above it.

use crate::images::{capacity, LeafEntry, CAPACITIES};

/// The sorts of ends: each has to occur at every K.
const SORTS: [&str; 4] = ["in the leaf", "in its parent", "further up", "END"];

/// At height 10 an end may stand in the root, nine pages above the leaf.
const MOST_ABOVE: usize = 9;

/// What a booking inside an entry, and its withdrawal, do: each has to occur at every K.
const BOOKED: [&str; 2] = ["cut in three and healed to one", "the same in a page that split"];

#[derive(Clone, Default)]
pub struct Spans {
    /// By K and sort.
    ends: [[u64; SORTS.len()]; CAPACITIES.len()],
    above: [u64; MOST_ABOVE + 1],
    /// Entries that a booking and its withdrawal made three and one again, by K, and those for which a page was split.
    booked: [[u64; BOOKED.len()]; CAPACITIES.len()],
}

impl Spans {
    /// Of an instant that was answered.
    pub fn add(&mut self, image: &[u8], entry: &LeafEntry) {
        let Some(row) = row(image) else { return };
        let sort = match entry.end_above {
            None => 3,
            Some(pages) => pages.min(2),
        };
        self.ends[row][sort] += 1;
        if let Some(pages) = entry.end_above {
            self.above[pages] += 1;
        }
    }

    /// Of an entry that was cut in three by a booking, and of what its withdrawal left.
    pub fn add_booked(&mut self, image: &[u8], split: bool) {
        let Some(row) = row(image) else { return };
        self.booked[row][usize::from(split)] += 1;
    }

    pub fn add_all(&mut self, other: &Spans) {
        let mine = self.ends.iter_mut().flatten().chain(&mut self.above).chain(self.booked.iter_mut().flatten());
        let theirs = other.ends.iter().flatten().chain(&other.above).chain(other.booked.iter().flatten());
        for (mine, theirs) in mine.zip(theirs) {
            *mine += theirs;
        }
    }

    pub fn print(&self) {
        println!("instants by where their entry ends: {}", sums(&SORTS, &self.ends));
        let above: Vec<String> = self.above.iter().enumerate().map(|(pages, n)| format!("{pages}: {n}")).collect();
        println!("ends by the pages that they stand above the leaf: {}", above.join(", "));
        println!("entries booked inside: {}", sums(&BOOKED, &self.booked));
        let instants: u64 = self.ends.iter().flatten().sum();
        println!("{} further instants of the library alone, all as the first one of their entry", 3 * instants);
    }

    /// What should have occurred and didn't.
    pub fn lacking(&self) -> Vec<String> {
        let mut lacking = Vec::new();
        for ((k, ends), booked) in CAPACITIES.iter().zip(&self.ends).zip(&self.booked) {
            let absent = SORTS.iter().zip(ends).filter(|(_, n)| **n == 0);
            lacking.extend(absent.map(|(sort, _)| format!("an entry that ends {sort} at K = {k}")));
            let absent = BOOKED.iter().zip(booked).filter(|(_, n)| **n == 0);
            lacking.extend(absent.map(|(sort, _)| format!("an entry {sort} at K = {k}")));
        }
        let absent = self.above.iter().enumerate().filter(|(_, n)| **n == 0);
        lacking.extend(absent.map(|(pages, _)| format!("an end {pages} pages above its leaf")));
        lacking
    }
}

/// The place of an image's K among all.
fn row(image: &[u8]) -> Option<usize> {
    CAPACITIES.iter().position(|k| *k == capacity(image))
}

/// Each name with its number at all K.
fn sums<const N: usize>(names: &[&str; N], by_capacity: &[[u64; N]]) -> String {
    let each = names.iter().enumerate();
    let each = each.map(|(i, name)| format!("{name} {}", by_capacity.iter().map(|row| row[i]).sum::<u64>()));
    each.collect::<Vec<_>>().join(", ")
}
