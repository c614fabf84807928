//! What rebuilds met, and what their targets have to be: by the source's pages, by the documents' words on levels and sizes, and by the
//! library's own calls on both.

use plain::value::combine;
use plain::{Pair, END};

use crate::calls::{by_library, Call, Lent};
use crate::images::{
    bytes_of, capacity, head, is_turned_back, level, pages_of, pair_at, scratch_bytes, starts_of, u32_at, CAPACITIES,
    CAPACITY, CHANGES, ENTRY_COUNT_AT, FIRST_FREE, FREE_LENGTH, HEIGHT, HIGH_MARK, KIND, ROOT, WINDOW,
};

// ---------------------------------------------------------------- runs and pages

/// A run: its start and its pair.
#[derive(Clone, Copy, PartialEq, Eq, Debug)]
pub struct Run {
    pub start: u32,
    pub pair: Pair,
}

/// The runs of a sound image, by its pages: leaf entries in their order, joined where their totals are equal.
pub fn runs_of(image: &[u8]) -> Vec<Run> {
    let mut runs = Vec::new();
    collect_runs(image, head(image, ROOT) as usize, Pair { sum: 0, count: 0 }, &mut runs);
    runs
}

fn collect_runs(image: &[u8], page: usize, above: Pair, runs: &mut Vec<Run>) {
    for (i, start) in starts_of(image, page).into_iter().enumerate() {
        let pair = combine(head(image, KIND), above, pair_at(image, page, i));
        if level(image, page) > 0 {
            collect_runs(image, child_of(image, page, i), pair, runs);
        } else if runs.last().is_none_or(|run: &Run| run.pair != pair) {
            runs.push(Run { start, pair });
        }
    }
}

fn child_of(image: &[u8], page: usize, i: usize) -> usize {
    u32_at(image, page, crate::images::child_at(capacity(image), i)) as usize
}

/// The pages of each level that m entries take, leaves first: as few as have room for them, up to a level of one.
pub fn pages_by_level(m: usize, k: usize) -> Vec<usize> {
    let mut levels = vec![m.div_ceil(k)];
    while levels[levels.len() - 1] > 1 {
        levels.push(levels[levels.len() - 1].div_ceil(k));
    }
    levels
}

/// The fewest pages of an image for m runs; the head is one of them.
pub fn fewest_pages(m: usize, k: usize) -> usize {
    1 + pages_by_level(m, k).iter().sum::<usize>()
}

// ---------------------------------------------------------------- a target and its source

/// What a rebuild leaves of its scratch: all of it where the source is turned back and at 17, else the bytes for the source's pages are 0.
pub fn scratch_behind(source: &[u8], status: u32, before: &[u8]) -> Vec<u8> {
    let mut scratch = before.to_vec();
    if !is_turned_back(source) && status != 17 {
        scratch[..scratch_bytes(pages_of(source))].fill(0);
    }
    scratch
}

/// An accepted rebuild.
pub struct Rebuild<'a> {
    pub source: &'a [u8],
    pub target: &'a [u8],
}

impl Rebuild<'_> {
    /// What is wrong with the target.
    pub fn difference(&self) -> Option<String> {
        let runs = runs_of(self.source);
        self.wrong_head(runs.len()).or_else(|| self.wrong_levels(&runs)).or_else(|| self.wrong_calls(&runs))
    }

    fn wrong_head(&self, runs: usize) -> Option<String> {
        let k = capacity(self.source);
        let levels = pages_by_level(runs, k);
        let used = levels.iter().sum::<usize>() as u32;
        let expected = [
            ("n", 0, (self.target.len() / bytes_of(k)) as u32),
            ("height", HEIGHT, levels.len() as u32),
            ("root", ROOT, used),
            ("first free page", FIRST_FREE, 0),
            ("chain length", FREE_LENGTH, 0),
            ("high mark", HIGH_MARK, used + 1),
            ("kind", KIND, head(self.source, KIND)),
            ("window", WINDOW, head(self.source, WINDOW)),
            ("changes", CHANGES, head(self.source, CHANGES)),
            ("capacity", CAPACITY, k as u32),
        ];
        let number = |field: usize| u32::from_le_bytes(self.target[4 * field..][..4].try_into().expect("4 bytes"));
        let differs = expected.iter().find(|(_, field, expected)| number(*field) != *expected);
        differs.map(|(name, field, expected)| format!("target: {name} is {}, not {expected}", number(*field)))
    }

    /// Level after level from page 1 on, leaves in the order of time; each page's entries follow those of the page before. No size is more
    /// than one above another, and none stands behind a smaller one.
    fn wrong_levels(&self, runs: &[Run]) -> Option<String> {
        let mut entries: Vec<(u32, Pair, usize)> = runs.iter().map(|run| (run.start, run.pair, 0)).collect();
        let mut page = 1;
        for (above, pages) in pages_by_level(runs.len(), capacity(self.target)).into_iter().enumerate() {
            let numbers = page..page + pages;
            let sizes: Vec<u32> = numbers.clone().map(|page| u32_at(self.target, page, ENTRY_COUNT_AT)).collect();
            if sizes.windows(2).any(|two| two[0] < two[1]) || sizes[0] - sizes[pages - 1] > 1 {
                return Some(format!("target: the sizes of level {above} are {sizes:?}"));
            }
            let found: Vec<(u32, Pair, usize)> = numbers.clone().flat_map(|page| self.entries_of(page)).collect();
            if found != entries || numbers.clone().any(|page| level(self.target, page) != above as u32) {
                return Some(format!("target: pages {numbers:?} have other entries or another level than {above}"));
            }
            entries = numbers.map(|page| (self.entries_of(page)[0].0, Pair { sum: 0, count: 0 }, page)).collect();
            page += pages;
        }
        None
    }

    fn entries_of(&self, page: usize) -> Vec<(u32, Pair, usize)> {
        let starts = starts_of(self.target, page).into_iter().enumerate();
        starts.map(|(i, start)| (start, pair_at(self.target, page, i), child_of(self.target, page, i))).collect()
    }

    /// By the library alone: the target is sound, lists what the source lists, has each run as one entry, and is the same bytes when it is
    /// rebuilt into as many pages.
    fn wrong_calls(&self, runs: &[Run]) -> Option<String> {
        let mut scratch = vec![9; scratch_bytes(pages_of(self.target))];
        let mut again = vec![0x5A; self.target.len()];
        if asked(self.target, Call::Audit, &mut scratch, &mut []) != 0 {
            return Some("target: the library's audit refuses it".to_string());
        }
        if listed(self.source) != listed(self.target) {
            return Some("target: the library lists something else than of the source".to_string());
        }
        for i in [0, runs.len() / 3, 2 * runs.len() / 3, runs.len() - 1] {
            let end = runs.get(i + 1).map_or(END, |next| next.start);
            let lent = Lent { image: &mut self.target.to_vec(), scratch: &mut [], output: &mut [] };
            let answer = by_library(Call::Instant { t: end - 1 }, lent, false);
            let Run { start, pair } = runs[i];
            if (answer.start, answer.end, answer.sum, answer.count) != (start, end, pair.sum, pair.count) {
                return Some(format!("target: {answer:?} at {} instead of {:?} up to {end}", end - 1, runs[i]));
            }
        }
        let status = asked(self.target, Call::Rebuild, &mut scratch, &mut again);
        (status != 0 || again != self.target).then(|| "target: rebuilt again it is not the same".to_string())
    }
}

/// The status that the library gives to a call that only reads the image.
fn asked(image: &[u8], call: Call, scratch: &mut [u8], output: &mut [u8]) -> u32 {
    by_library(call, Lent { image: &mut image.to_vec(), scratch, output }, false).status
}

/// The library's full listing.
fn listed(image: &[u8]) -> Option<Vec<u8>> {
    let mut output = vec![0; 16 * capacity(image) * pages_of(image)];
    let lent = Lent { image: &mut image.to_vec(), scratch: &mut [], output: &mut output };
    let answer = by_library(Call::Listing { a: 0, b: END }, lent, false);
    output.truncate(16 * answer.runs as usize);
    (answer.status == 0).then_some(output)
}

// ---------------------------------------------------------------- what was met

/// Of sources that are sound, by their runs and by the target's number of pages; each has to occur at every K and without the field.
const SORTS: [&str; 15] = [
    "accepted, just enough pages",
    "accepted, one page more",
    "accepted, more than that",
    "refused, one page too few",
    "refused, more too few",
    "fewer pages than the source",
    "as many as the source",
    "more than the source",
    "one run",
    "K runs",
    "K + 1 runs",
    "leaves of one size",
    "leaves of two sizes",
    "inner pages of one size",
    "inner pages of two sizes",
];

/// Of sources and targets of any sort; each has to occur.
const OTHERS: [&str; 9] = [
    "a target of another length",
    "a target of another length, source not sound",
    "a target of two pages",
    "a target of 1,024 pages",
    "a source with a chain",
    "a source with a window",
    "a source of kind 1",
    "a source of kind 2",
    "a source of kind 3",
];

/// Each K, and the source without the field.
const COLUMNS: usize = CAPACITIES.len() + 1;
const MOST_HEIGHT: usize = 10;
/// No target is higher: in 1,023 pages there is room for six levels that are filled up.
const MOST_TARGET_HEIGHT: usize = 6;

#[derive(Clone, Default)]
pub struct Rebuilds {
    sorts: [[u64; SORTS.len()]; COLUMNS],
    others: [u64; OTHERS.len()],
    /// Accepted ones by the height of the source and of the target.
    sources: [u64; MOST_HEIGHT + 1],
    targets: [u64; MOST_TARGET_HEIGHT + 1],
}

impl Rebuilds {
    /// Counts a rebuild in, with its status and a target of so many bytes.
    pub fn add(&mut self, source: &[u8], target: usize, status: u32) {
        if is_turned_back(source) || status == 17 {
            return;
        }
        let page = bytes_of(capacity(source));
        let is_whole = target.is_multiple_of(page) && (2..=1_024).contains(&(target / page));
        self.others[0] += u64::from(!is_whole && status == 16);
        self.others[1] += u64::from(!is_whole && status == 21);
        if status == 0 || status == 24 {
            self.add_sound(source, target / page, status == 0);
        }
    }

    fn add_sound(&mut self, source: &[u8], pages: usize, accepted: bool) {
        let (k, m) = (capacity(source), runs_of(source).len());
        let sorts = sorts_of(k, m, pages, pages_of(source));
        let column = CAPACITIES.iter().position(|k| *k as u32 == head(source, CAPACITY)).unwrap_or(CAPACITIES.len());
        for (mine, met) in self.sorts[column].iter_mut().zip(sorts) {
            *mine += u64::from(met);
        }
        if !accepted {
            return;
        }
        let kind = head(source, KIND);
        let (chain, window) = (head(source, FREE_LENGTH) > 0, head(source, WINDOW) > 0);
        let others = [pages == 2, pages == 1_024, chain, window, kind == 1, kind == 2, kind == 3];
        for (mine, met) in self.others[2..].iter_mut().zip(others) {
            *mine += u64::from(met);
        }
        self.sources[head(source, HEIGHT) as usize] += 1;
        self.targets[pages_by_level(m, k).len()] += 1;
    }

    pub fn add_all(&mut self, other: &Rebuilds) {
        let mine = self.sorts.iter_mut().flatten().chain(&mut self.others).chain(&mut self.sources);
        let theirs = other.sorts.iter().flatten().chain(&other.others).chain(&other.sources);
        for (mine, theirs) in mine.chain(&mut self.targets).zip(theirs.chain(&other.targets)) {
            *mine += theirs;
        }
    }

    pub fn print(&self) {
        let others = OTHERS.iter().zip(self.others).map(|(other, n)| format!("{other} {n}"));
        println!("rebuilds: {}", others.collect::<Vec<_>>().join(", "));
        println!("rebuilds by height: sources {}, targets {}", row(&self.sources), row(&self.targets));
        let accepted: u64 = self.sources.iter().sum();
        println!("{accepted} targets held against their sources, 8 further calls of the library alone for each");
        let head: String = CAPACITIES.iter().map(|k| format!("{k:>9}")).collect();
        println!("{:<30}{head}{:>9}", "rebuilds of sound sources", "none");
        for (i, sort) in SORTS.iter().enumerate() {
            let counts: String = self.sorts.iter().map(|counts| format!("{:>9}", counts[i])).collect();
            println!("{sort:<30}{counts}");
        }
    }

    /// What should have occurred and didn't.
    pub fn lacking(&self) -> Vec<String> {
        let mut lacking = Vec::new();
        for (column, counts) in self.sorts.iter().enumerate() {
            let at = CAPACITIES.get(column).map_or("without the field".to_string(), |k| format!("at K = {k}"));
            let absent = SORTS.iter().zip(counts).filter(|(_, n)| **n == 0);
            lacking.extend(absent.map(|(sort, _)| format!("a rebuild, {sort}, {at}")));
        }
        let absent = OTHERS.iter().zip(self.others).filter(|(_, n)| *n == 0);
        lacking.extend(absent.map(|(other, _)| format!("a rebuild with {other}")));
        let absent = self.sources.iter().enumerate().skip(1).filter(|(_, n)| **n == 0);
        lacking.extend(absent.map(|(height, _)| format!("a rebuild of height {height}")));
        let absent = self.targets.iter().enumerate().skip(1).filter(|(_, n)| **n == 0);
        lacking.extend(absent.map(|(height, _)| format!("a target of height {height}")));
        lacking
    }
}

/// Which of [`SORTS`] a rebuild of m runs into so many pages is, from a source of so many.
fn sorts_of(k: usize, m: usize, pages: usize, of_source: usize) -> [bool; SORTS.len()] {
    let (levels, fewest) = (pages_by_level(m, k), fewest_pages(m, k));
    let accepted = pages >= fewest;
    // Entries and pages of each level.
    let inner: Vec<(usize, usize)> = levels.iter().copied().zip(levels.iter().copied().skip(1)).collect();
    let inner = inner.iter().filter(|(_, pages)| *pages > 1);
    [
        pages == fewest,
        pages == fewest + 1,
        pages > fewest + 1,
        pages + 1 == fewest,
        pages + 1 < fewest,
        accepted && pages < of_source,
        accepted && pages == of_source,
        accepted && pages > of_source,
        accepted && m == 1,
        accepted && m == k,
        accepted && m == k + 1,
        accepted && levels[0] > 1 && m.is_multiple_of(levels[0]),
        accepted && !m.is_multiple_of(levels[0]),
        accepted && inner.clone().any(|(entries, pages)| entries.is_multiple_of(*pages)),
        accepted && inner.clone().any(|(entries, pages)| !entries.is_multiple_of(*pages)),
    ]
}

fn row(counts: &[u64]) -> String {
    let each = counts.iter().enumerate().skip(1);
    each.map(|(height, count)| format!("{height}: {count}")).collect::<Vec<_>>().join(", ")
}
