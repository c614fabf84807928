//! What an accepted change did: the pages that it wrote against those that its steps name, and how often pages split, gave,
//! joined and so on. The plain version tells the steps; the images are the library's own.

use plain::RecordedChange;

use crate::images::{
    equal_neighbours, head, level, page_bytes, pages_of, u32_at, CAPACITY, ENTRY_COUNT_AT, FREE_LENGTH, HEIGHT,
    HIGH_MARK, KIND,
};

/// What the steps of a change do: each has to occur for every kind.
pub const WHAT: [&str; 15] = [
    "leaf entries cut",
    "leaf entries healed",
    "splits of leaves",
    "splits of inner pages",
    "gives by a left neighbour",
    "gives by a right neighbour",
    "gives of inner pages",
    "joins with a left neighbour",
    "joins with a right neighbour",
    "joins of inner pages",
    "roots raised",
    "roots lowered",
    "pages taken from the chain",
    "pages taken at the high mark",
    "pages given back",
];

/// An accepted change, with the image ahead of it and behind it.
pub struct Change<'a> {
    pub before: &'a [u8],
    pub after: &'a [u8],
    pub recorded: &'a RecordedChange,
}

impl Change<'_> {
    /// How often the change did each of [`WHAT`].
    pub fn counts(&self) -> [u64; WHAT.len()] {
        let mut counts = [0; WHAT.len()];
        for step in &self.recorded.steps {
            let gives = step.gives_from_left + step.gives_from_right;
            let joins = step.merges_with_left + step.merges_with_right;
            let mark = head(self.before, HIGH_MARK);
            // No page that a change gives back is taken by it: cuts come ahead of heals.
            let at_mark = step.taken.iter().filter(|page| **page >= mark).count() as u32;
            // The first page of a step to split, or to turn to a neighbour, is a leaf; a give is a step's last.
            let of_tale = [
                step.entries_cut,
                step.entries_healed,
                step.splits.min(1),
                step.splits.saturating_sub(1),
                step.gives_from_left,
                step.gives_from_right,
                if joins > 0 { gives } else { 0 },
                step.merges_with_left,
                step.merges_with_right,
                joins.saturating_sub(1),
                step.roots_gained,
                step.roots_lost,
                step.taken.len() as u32 - at_mark,
                at_mark,
                step.given_back.len() as u32,
            ];
            for (count, one) in counts.iter_mut().zip(of_tale) {
                *count += u64::from(one);
            }
        }
        counts
    }

    /// The pages whose bytes differ.
    fn written(&self) -> Vec<u32> {
        let length = page_bytes(self.before);
        let pages = self.before.chunks(length).zip(self.after.chunks(length)).enumerate();
        pages.filter(|(_, (before, after))| before != after).map(|(page, _)| page as u32).collect()
    }

    /// A written page that no step names, or a number that the steps and the images tell differently.
    fn difference(&self, written: &[u32]) -> Option<String> {
        let named = self.recorded.named_pages();
        if let Some(page) = written.iter().find(|page| !named.contains(page)) {
            return Some(format!("write set: page {page} is written, the steps name {named:?}"));
        }
        if head(self.before, CAPACITY) != head(self.after, CAPACITY) {
            return Some("the field of the capacity is changed".to_string());
        }
        let recorded = self.counts().map(|count| count as i64);
        let [cut, healed, .., raised, lowered, from_chain, at_mark, given_back] = recorded;
        let rises = [
            ("leaf entries", cut - healed, leaf_entries(self.after) - leaf_entries(self.before)),
            ("height", raised - lowered, self.rise(HEIGHT)),
            ("chain length", given_back - from_chain, self.rise(FREE_LENGTH)),
            ("high mark", at_mark, self.rise(HIGH_MARK)),
        ];
        let differs = rises.iter().find(|(_, recorded, is)| recorded != is);
        differs
            .map(|(what, recorded, is)| format!("{what}: rises by {is}, by the steps it would be {recorded}"))
            .or_else(|| self.equal_neighbour())
    }

    /// Document 02, (iv): in the image that a change of kind 1 leaves "no two neighbouring leaf entries have equal totals".
    fn equal_neighbour(&self) -> Option<String> {
        let equal = if head(self.after, KIND) == 1 { equal_neighbours(self.after) } else { Vec::new() };
        equal.first().map(|later| format!("neighbours: the total before {} is the same as behind it", later.start))
    }

    fn rise(&self, field: usize) -> i64 {
        i64::from(head(self.after, field)) - i64::from(head(self.before, field))
    }
}

fn leaf_entries(image: &[u8]) -> i64 {
    let leaves = (1..pages_of(image)).filter(|page| level(image, *page) == 0);
    leaves.map(|page| i64::from(u32_at(image, page, ENTRY_COUNT_AT))).sum()
}

// ---------------------------------------------------------------- over many changes

#[derive(Clone, Default)]
pub struct Steps {
    changes: u64,
    written: u64,
    named: u64,
    /// For kinds 1, 2 and 3.
    counts: [[u64; WHAT.len()]; 3],
}

impl Steps {
    /// Counts an accepted change in, or tells what is wrong with it.
    pub fn add(&mut self, change: &Change) -> Option<String> {
        let written = change.written();
        let difference = change.difference(&written);
        self.changes += 1;
        self.written += written.len() as u64;
        self.named += change.recorded.named_pages().len() as u64;
        let of_kind = &mut self.counts[head(change.before, KIND) as usize - 1];
        for (mine, one) in of_kind.iter_mut().zip(change.counts()) {
            *mine += one;
        }
        difference
    }

    pub fn add_all(&mut self, other: &Steps) {
        self.changes += other.changes;
        self.written += other.written;
        self.named += other.named;
        for (mine, theirs) in self.counts.iter_mut().flatten().zip(other.counts.iter().flatten()) {
            *mine += theirs;
        }
    }

    pub fn changes(&self) -> u64 {
        self.changes
    }

    pub fn print(&self) {
        let Steps { changes, written, named, counts: [one, two, three] } = self;
        println!("{changes} changes accepted: {written} pages written, all among the {named} that their steps name");
        println!("{:<30}{:>10}{:>10}{:>10}", "by kind", 1, 2, 3);
        for (i, what) in WHAT.iter().enumerate() {
            println!("{what:<30}{:>10}{:>10}{:>10}", one[i], two[i], three[i]);
        }
    }

    /// What should have occurred and didn't.
    pub fn lacking(&self) -> Vec<String> {
        let of_kind = |(kind, counts): (usize, &[u64; WHAT.len()])| {
            let absent = WHAT.iter().zip(counts).filter(|(_, count)| **count == 0);
            absent.map(|(what, _)| format!("{what} for kind {}", kind + 1)).collect::<Vec<_>>()
        };
        self.counts.iter().enumerate().flat_map(of_kind).collect()
    }
}
