//! Document 02, (ii): "Finding an entry in a page shall begin at the last start and go back. Only the body changes, no contract".
//!
//! No answer changes: in a fit page the starts rise strictly, and only fit pages are searched. What proofs leave open is the machine
//! code, where a loop over starts may be unrolled, or compare several at once: it could then be wrong at one number of entries, at one
//! index, or for starts of one sort. Hence pages of every number of entries at every K, every index in them, and starts whose order
//! shows a comparison of another width, sign or byte order; by reads, and by changes, whose cuts, heals and counts of pages search too.

use plain::making::{tree, Choice};
use plain::value::NOTHING;
use plain::{Pair, END};

use crate::calls::{Answer, Call};
use crate::comparer::Comparer;
use crate::groups::every_capacity::EACH;
use crate::groups::made::{equalling, leaf_entries};
use crate::images::{
    capacity, count_at, head, inner_pages, level, page_bytes, pages_of, pages_of_level, pair_at, put, scratch_bytes,
    start_at, starts_of, sum_at, wanted, Pool, CAPACITIES, CAPACITY, HEIGHT, HIGH_MARK, KIND, ROOT,
};
use crate::random::Random;

/// Heights 1 and 2 at every K and without the field, heights 3 and 4 at every K.
const LOW: usize = 2 * EACH.len();
pub const PARTS: usize = LOW + 2 * CAPACITIES.len();

pub fn search(comparer: &mut Comparer, _: &Pool, part: usize) {
    let (height, field) = match part % PARTS {
        part if part < LOW => (1 + part / EACH.len(), EACH[part % EACH.len()]),
        part => (3 + (part - LOW) / CAPACITIES.len(), CAPACITIES[(part - LOW) % CAPACITIES.len()]),
    };
    let k = k_of(field);
    // At height 3 the pages between have every number of entries from K/2 to K.
    let roots = match height {
        1 => 1..=k,
        2 => 2..=k,
        3 => k / 2 + 1..=k / 2 + 1,
        _ => 2..=2,
    };
    for root in roots {
        let shape = Shape { field, height, root, leaves: Leaves::InTurn };
        match height {
            1 => root_leaves(comparer, shape),
            2 | 3 => trees(comparer, shape),
            _ => {
                let starts = comparer.random.pick(&Starts::EVERY_SORT);
                let image = laid(comparer, shape, 0, starts);
                read(comparer, &image, |page| page % 5 == 0);
            }
        }
    }
}

/// With free pages for a split and without; the last reads have 2^31 at every index.
fn root_leaves(comparer: &mut Comparer, shape: Shape) {
    for spare in [0, 2] {
        for starts in Starts::EVERY_SORT {
            let image = laid(comparer, shape, spare, starts);
            read(comparer, &image, |_| true);
            change(comparer, &image, 1);
            if spare == 0 {
                damage(comparer, &image, 1);
            }
        }
    }
    for index in 1..shape.root {
        let image = laid(comparer, shape, 0, Starts::Around(Some(index)));
        read(comparer, &image, |_| true);
    }
}

/// At height 2 the root is changed and damaged at two of the sorts, at height 3 each inner page at one; at one a leaf is too. Leaves that
/// are not laid in turn are there for these changes, and a fifth of them is read.
fn trees(comparer: &mut Comparer, shape: Shape) {
    let Shape { height, root, .. } = shape;
    for (i, starts) in Starts::EVERY_SORT.into_iter().enumerate() {
        let turn = |page: usize| (root + page + i) % 5;
        let (leaves, spare) = match (height, turn(1)) {
            (2, 0) => (Leaves::Alternate, 0),
            (2, 2 | 4) => (Leaves::InTurn, 5),
            _ => (Leaves::Full, 5),
        };
        let image = laid(comparer, Shape { leaves, ..shape }, spare, starts);
        read(comparer, &image, |page| leaves == Leaves::InTurn || turn(page) == 0);
        let all = pages_of_level(&image, 0);
        let leaf = (turn(1) == 2).then(|| all[i * (all.len() - 1) / 4]);
        let inner = inner_pages(&image).into_iter().filter(|page| turn(*page) < 4 - height);
        let tight = without_free_pages(&image);
        for page in inner.chain(leaf) {
            change(comparer, &image, page);
            damage(comparer, &image, page);
            change_from_start_to_start(comparer, &tight, page);
        }
    }
}

// ---------------------------------------------------------------- starts

/// How the starts of leaf entries follow each other; the first is 0.
#[derive(Clone, Copy)]
pub enum Starts {
    /// 1, 2, 3, ..
    FromZero,
    /// .., END − 2, END − 1
    UpToEnd,
    /// By ones too, with 2^31 at this index, or anywhere: a signed comparison has the starts from there on below all others.
    Around(Option<usize>),
    /// All over, with low halves, and low bytes, that fall: in another byte order, or without the high half, they don't rise.
    LowFalls,
    /// All over, as drawn.
    Drawn,
}

impl Starts {
    pub const EVERY_SORT: [Starts; 5] =
        [Starts::FromZero, Starts::UpToEnd, Starts::Around(None), Starts::LowFalls, Starts::Drawn];

    fn of(self, entries: usize, random: &mut Random) -> Vec<u32> {
        let (all, apart) = (entries as u32, END / entries as u32);
        let any = 1 + random.below(entries.max(2) - 1) as u32;
        let behind_first = (1..all).map(|i| match self {
            Starts::FromZero => i,
            Starts::UpToEnd => END - all + i,
            Starts::Around(index) => (1 << 31) - index.map_or(any, |index| index as u32) + i,
            Starts::LowFalls => ((apart * i) | 0xFFFF) - i,
            Starts::Drawn => apart * i + random.below(apart as usize) as u32,
        });
        std::iter::once(0).chain(behind_first).collect()
    }
}

/// The starts, the instants beside them, and the ends of time, in order.
fn beside(starts: &[u32]) -> Vec<u32> {
    let near = starts.iter().flat_map(|start| [start.saturating_sub(1), *start, *start + 1]);
    let mut instants: Vec<u32> = near.chain([END - 1, END]).collect();
    instants.sort_unstable();
    instants.dedup();
    instants
}

// ---------------------------------------------------------------- images

#[derive(Clone, Copy)]
pub struct Shape {
    /// K, or 0 for an image without the field.
    pub field: usize,
    pub height: usize,
    /// The number of entries of the root.
    pub root: usize,
    pub leaves: Leaves,
}

/// The numbers of entries of the leaves below a root.
#[derive(Clone, Copy, PartialEq)]
pub enum Leaves {
    /// From K/2 to K.
    InTurn,
    /// All K: an entry that is laid into a wrong one splits it, even if a heal takes it back.
    Full,
    /// K and K/2: where no page is free, it shows which of two is counted.
    Alternate,
}

pub fn k_of(field: usize) -> usize {
    if field == 0 {
        24
    } else {
        field
    }
}

/// Numbers of entries, in the order in which pages are laid.
struct Numbers(std::vec::IntoIter<usize>);

impl Choice for Numbers {
    fn entries(&mut self, _: usize, _: usize) -> usize {
        self.0.next().expect("a number for each page")
    }

    fn pair(&mut self) -> Pair {
        NOTHING
    }
}

/// Those of a page and of all below it; inner pages under one have K/2 to K entries in turn.
fn lay_numbers(k: usize, leaves: Leaves, level: usize, entries: usize, numbers: &mut Vec<usize>) {
    numbers.push(entries);
    for i in 0..if level > 0 { entries } else { 0 } {
        let below = match leaves {
            Leaves::Full if level == 1 => k,
            Leaves::Alternate if level == 1 => k - (entries + i) % 2 * (k / 2),
            _ => k / 2 + (entries + i) % (k / 2 + 1),
        };
        lay_numbers(k, leaves, level - 1, below, numbers);
    }
}

/// A sound image of any kind, with so many free pages.
pub fn laid(comparer: &mut Comparer, shape: Shape, spare: usize, starts: Starts) -> Vec<u8> {
    let Shape { field, height, root, leaves } = shape;
    let mut numbers = Vec::new();
    lay_numbers(k_of(field), leaves, height - 1, root, &mut numbers);
    let kind = comparer.random.pick(&[1, 1, 2, 3]);
    let wanted = wanted(k_of(field), 1 + numbers.len() + spare, height as u32, kind);
    let mut image = tree(&wanted, 1, 0, &mut Numbers(numbers.into_iter())).expect("so many pages");
    dress(&mut image, starts, &mut comparer.random);
    if field == 0 {
        put(&mut image, 0, 4 * CAPACITY, &[0xFF; 4]);
    }
    image
}

fn without_free_pages(image: &[u8]) -> Vec<u8> {
    let n = head(image, HIGH_MARK);
    let mut image = image[..page_bytes(image) * n as usize].to_vec();
    put(&mut image, 0, 0, &n.to_le_bytes());
    image
}

/// Gives its leaf entries, which start at 0, 1, 2 and so on, these starts, and every entry a pair.
fn dress(image: &mut [u8], starts: Starts, random: &mut Random) {
    let (k, kind) = (capacity(image), head(image, KIND));
    let starts = starts.of(leaf_entries(image), random);
    for page in 1..head(image, HIGH_MARK) as usize {
        for (i, leaf_entry) in starts_of(image, page).into_iter().enumerate() {
            let Pair { sum, count } = pair(kind, level(image, page) == 0, leaf_entry, random);
            put(image, page, start_at(i), &starts[leaf_entry as usize].to_le_bytes());
            put(image, page, sum_at(k, i), &sum.to_le_bytes());
            put(image, page, count_at(k, i), &count.to_le_bytes());
        }
    }
}

/// Totals of neighbours differ, so that another entry found shows: for kind 1 one's count is odd and the other's is even, and two in a
/// page are a change apart; for the others one's value is odd and the other's is even, and what is above doesn't hide it.
fn pair(kind: u32, leaf: bool, leaf_entry: u32, random: &mut Random) -> Pair {
    let odd = i64::from(leaf_entry % 2);
    let value = 2 * random.between(1, 250_000) + odd;
    match (kind, leaf) {
        (1, true) => Pair { sum: random.between(-500_000, 500_000), count: 1 + odd as i32 },
        (1, false) => Pair { sum: random.between(-500_000, 500_000), count: 2 * random.between(-3, 3) as i32 },
        (2, _) => Pair { sum: if leaf { value } else { -value }, count: 1 },
        _ => Pair { sum: if leaf { -value } else { value }, count: 1 },
    }
}

// ---------------------------------------------------------------- calls

/// Instants at every start of the inner pages and of these leaves, and beside it; averages there too, of the root's.
fn read(comparer: &mut Comparer, image: &[u8], leaves: impl Fn(usize) -> bool) {
    comparer.lend(image);
    assert_eq!(comparer.audit().status, 0, "it is sound");
    assert_eq!(comparer.listing(0, END).runs as usize, leaf_entries(image), "each entry can be told from the next");
    let leaves = pages_of_level(image, 0).into_iter().filter(|page| leaves(*page));
    let pages = inner_pages(image).into_iter().chain(leaves);
    let starts: Vec<u32> = pages.flat_map(|page| starts_of(image, page)).collect();
    for t in beside(&starts) {
        comparer.instant(t);
    }
    for t in beside(&starts_of(image, head(image, ROOT) as usize)) {
        comparer.average(t);
    }
}

/// Changes that begin, and that end, at every start of the page and beside it, and such that make two of its entries alike.
fn change(comparer: &mut Comparer, image: &[u8], page: usize) {
    change_from_start_to_start(comparer, image, page);
    let starts = starts_of(image, page);
    let instants = beside(&starts);
    for i in 1..instants.len() {
        let (earlier, later) = (comparer.random.below(i), i + comparer.random.below(instants.len() - i));
        booked(comparer, image, instants[earlier], instants[i]);
        booked(comparer, image, instants[i - 1], instants[later]);
    }
    if level(image, page) == 0 {
        heal(comparer, image, page, &starts);
    }
}

/// Changes that need no cut, and so no page.
fn change_from_start_to_start(comparer: &mut Comparer, image: &[u8], page: usize) {
    comparer.lend(image);
    for two in starts_of(image, page).windows(2) {
        booked(comparer, image, two[0], two[1]);
    }
}

fn booked(comparer: &mut Comparer, image: &[u8], s: u32, e: u32) {
    let withdrawal = head(image, KIND) == 1 && comparer.random.one_in(2);
    let v = comparer.random.between(-1_000_000, 1_000_000);
    comparer.book_and_back(image, (withdrawal, v, s, e));
}

/// An entry becomes what the one before it is, which heals at s; the end of the one before becomes what the entry is, which heals at e.
fn heal(comparer: &mut Comparer, image: &[u8], page: usize, starts: &[u32]) {
    for (i, start) in starts.iter().enumerate().skip(1) {
        let (before, here) = (pair_at(image, page, i - 1), pair_at(image, page, i));
        let next = starts.get(i + 1).copied().unwrap_or(*start + 1);
        for (from, to, s, e) in [(here, before, *start, next), (before, here, *start - 1, *start)] {
            if let Some((withdrawal, v)) = equalling(head(image, KIND), from, to) {
                comparer.book_and_back(image, (withdrawal, v, s, e));
            }
        }
    }
}

/// Each start of the page set to the one before it, and to less (END behind 0): the page is unfit, and nothing is found in it.
fn damage(comparer: &mut Comparer, image: &[u8], page: usize) {
    comparer.lend(image);
    let starts = starts_of(image, page);
    let pages = head(image, HEIGHT) - level(image, page);
    let scratch = scratch_bytes(pages_of(image));
    for (i, two) in starts.windows(2).enumerate() {
        for to in [two[0], two[0].wrapping_sub(1)] {
            let at = page_bytes(image) * page + start_at(i + 1);
            comparer.set(at, &to.to_le_bytes());
            for t in [starts[0], two[0]] {
                comparer.expect(Call::Instant { t }, 0, 0, Answer { pages, ..Answer::status(21) });
            }
            comparer.instant(two[1]);
            comparer.average(two[1]);
            comparer.expect(Call::Audit, scratch, 0, Answer::status(21));
            comparer.expect(Call::Enter { v: 1, s: two[0], e: two[1] }, scratch, 0, Answer::status(21));
            comparer.set(at, &two[1].to_le_bytes());
        }
    }
}
