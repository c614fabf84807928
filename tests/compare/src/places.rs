//! Which entries instants found: in each sort of page at each K, of every number of entries, at every index.

use crate::images::{capacity, start_at, u32_at, way, CAPACITIES};
use plain::END;

/// The sorts of pages, with the fewest entries that a fit one has at K.
const SORTS: [(&str, fn(usize) -> usize); 4] =
    [("root leaves", |_| 1), ("other leaves", |k| k / 2), ("inner roots", |_| 2), ("other inner pages", |k| k / 2)];

/// The instants of an entry that are next to those of others: each entry has to be found by both.
const EDGES: [&str; 2] = ["first", "last"];

/// At K = 24.
const MOST_ENTRIES: usize = 24;

#[derive(Clone, Default)]
pub struct Places {
    /// A bit for each index, by edge, sort of page, K and number of entries.
    found: [[[[u32; MOST_ENTRIES + 1]; CAPACITIES.len()]; SORTS.len()]; EDGES.len()],
}

impl Places {
    /// Of an instant that was answered.
    pub fn add(&mut self, image: &[u8], t: u32) {
        let Some(row) = CAPACITIES.iter().position(|k| *k == capacity(image)) else { return };
        let way = way(image, t);
        let mut end = END;
        for (depth, place) in way.iter().enumerate() {
            let sort = usize::from(depth > 0) + if depth + 1 < way.len() { 2 } else { 0 };
            if place.i + 1 < place.entries {
                end = u32_at(image, place.page, start_at(place.i + 1));
            }
            let at_edges = [u32_at(image, place.page, start_at(place.i)) == t, end - 1 == t];
            for (found, _) in self.found.iter_mut().zip(at_edges).filter(|(_, at_edge)| *at_edge) {
                found[sort][row][place.entries] |= 1 << place.i;
            }
        }
    }

    pub fn add_all(&mut self, other: &Places) {
        let mine = self.found.iter_mut().flatten().flatten().flatten();
        for (mine, theirs) in mine.zip(other.found.iter().flatten().flatten().flatten()) {
            *mine |= theirs;
        }
    }

    /// For each sort of page its name, how many entries were found by each edge, and how many there are to find.
    fn rows(&self) -> impl Iterator<Item = (&'static str, [u32; EDGES.len()], u32)> + '_ {
        SORTS.iter().enumerate().map(|(sort, (name, fewest))| {
            let found = |edge: usize| self.found[edge][sort].iter().flatten().map(|indices| indices.count_ones()).sum();
            let all = CAPACITIES.iter().map(|k| (fewest(*k)..=*k).sum::<usize>() as u32).sum();
            (*name, [found(0), found(1)], all)
        })
    }

    pub fn print(&self) {
        for (name, found, all) in self.rows() {
            let edges: Vec<String> =
                EDGES.iter().zip(found).map(|(edge, found)| format!("{found} by their {edge} instant")).collect();
            println!("{name}: of {all} entries by K, number and index found {}", edges.join(", "));
        }
    }

    /// What should have occurred and didn't.
    pub fn lacking(&self) -> Vec<String> {
        let of_sort = |(name, found, all): (&str, [u32; EDGES.len()], u32)| {
            let short = EDGES.iter().zip(found).filter(|(_, found)| *found < all);
            let tell =
                |(edge, found): (&&str, u32)| format!("entries of {name} by their {edge} instant: {found} of {all}");
            short.map(tell).collect::<Vec<_>>()
        };
        self.rows().flat_map(of_sort).collect()
    }
}
