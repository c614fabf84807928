//! Images made by the plain version's own calls: small ones, and tall ones that take a while and are kept in a pool.

use std::time::Instant;

use plain::capacity::Capacity;
use plain::making::{fresh_without_field, tree, Choice, Wanted};
use plain::value::combine;
use plain::{Pair, END};

use crate::random::Random;

// ---------------------------------------------------------------- places in the bytes

/// Every K: "an even number from 4 to 24".
pub const CAPACITIES: [usize; 11] = [4, 6, 8, 10, 12, 14, 16, 18, 20, 22, 24];

/// The K that an image names, FF being 24; 24 also where it names none, so that damaged images can be read too.
pub fn capacity(image: &[u8]) -> usize {
    match image.get(36..40) {
        Some([k, 0, 0, 0]) if CAPACITIES.contains(&(*k as usize)) => *k as usize,
        _ => 24,
    }
}

/// "a page has 32 + 20 × K bytes"
pub fn bytes_of(k: usize) -> usize {
    32 + 20 * k
}

pub fn page_bytes(image: &[u8]) -> usize {
    bytes_of(capacity(image))
}

pub fn pages_of(image: &[u8]) -> usize {
    image.len() / page_bytes(image)
}

/// Whether the image is turned back ahead of all else: "under 40 bytes gives 16, a bad K 21 ahead of 16".
pub fn is_turned_back(image: &[u8]) -> bool {
    let names_capacity = match image.get(36..40) {
        Some([k, 0, 0, 0]) => CAPACITIES.contains(&(*k as usize)),
        Some([0xFF, 0xFF, 0xFF, 0xFF]) => true,
        _ => false,
    };
    !names_capacity || !image.len().is_multiple_of(page_bytes(image)) || !(2..=1_024).contains(&pages_of(image))
}

/// "n/8 bytes, rounded up": what audits and changes of n pages borrow of the scratch.
pub fn scratch_bytes(n: usize) -> usize {
    n / 8 + usize::from(n % 8 > 0)
}

/// The head's numbers, by their order.
pub const HEIGHT: usize = 1;
pub const ROOT: usize = 2;
pub const FIRST_FREE: usize = 3;
pub const FREE_LENGTH: usize = 4;
pub const HIGH_MARK: usize = 5;
pub const KIND: usize = 6;
pub const WINDOW: usize = 7;
pub const CHANGES: usize = 8;
pub const CAPACITY: usize = 9;

/// Byte offsets in a tree page; those of an entry follow from K.
pub const ENTRY_COUNT_AT: usize = 4;
pub fn start_at(i: usize) -> usize {
    32 + 4 * i
}
pub fn sum_at(k: usize, i: usize) -> usize {
    32 + 4 * k + 16 * i
}
pub fn count_at(k: usize, i: usize) -> usize {
    sum_at(k, i) + 8
}
pub fn child_at(k: usize, i: usize) -> usize {
    sum_at(k, i) + 12
}

/// The u32 at an offset of a page.
pub fn u32_at(image: &[u8], page: usize, at: usize) -> u32 {
    let at = page_bytes(image) * page + at;
    u32::from_le_bytes(image[at..at + 4].try_into().expect("4 bytes"))
}

pub fn put(image: &mut [u8], page: usize, at: usize, bytes: &[u8]) {
    let at = page_bytes(image) * page + at;
    image[at..][..bytes.len()].copy_from_slice(bytes);
}

pub fn head(image: &[u8], field: usize) -> u32 {
    u32_at(image, 0, 4 * field)
}

pub fn level(image: &[u8], page: usize) -> u32 {
    u32_at(image, page, 0)
}

/// The pages of an image that have this level.
pub fn pages_of_level(image: &[u8], wanted: u32) -> Vec<usize> {
    (1..pages_of(image)).filter(|page| level(image, *page) == wanted).collect()
}

/// The inner pages of an image.
pub fn inner_pages(image: &[u8]) -> Vec<usize> {
    (1..=9).flat_map(|level| pages_of_level(image, level)).collect()
}

/// An entry on a way: its page, its index there, and the page's entry count.
pub struct Place {
    pub page: usize,
    pub i: usize,
    pub entries: usize,
}

/// From the root to the leaf that has t; the pages on it are fit.
pub fn way(image: &[u8], t: u32) -> Vec<Place> {
    let mut page = head(image, ROOT) as usize;
    let mut way = Vec::new();
    for _ in 0..head(image, HEIGHT) {
        let entries = u32_at(image, page, ENTRY_COUNT_AT) as usize;
        let i =
            (0..entries).rfind(|i| u32_at(image, page, start_at(*i)) <= t).expect("the first starts at t or before");
        way.push(Place { page, i, entries });
        page = u32_at(image, page, child_at(capacity(image), i)) as usize;
    }
    way
}

/// A leaf entry's start and end.
#[derive(Clone, Copy, PartialEq, Eq, Debug)]
pub struct LeafEntry {
    pub start: u32,
    pub end: u32,
    /// How many pages above its own the end stands as a start; none for END, which no page has.
    pub end_above: Option<usize>,
}

impl LeafEntry {
    /// Its first instant, one between, and its last.
    pub fn instants(&self) -> [u32; 3] {
        [self.start, self.start + (self.end - self.start) / 2, self.end - 1]
    }
}

/// The leaf entry that has t, by the pages on its way, which are fit: an entry ends at the next start in its page, and the last one with
/// its page.
pub fn leaf_entry_at(image: &[u8], t: u32) -> LeafEntry {
    let way = way(image, t);
    let leaf = &way[way.len() - 1];
    let mut found = LeafEntry { start: u32_at(image, leaf.page, start_at(leaf.i)), end: END, end_above: None };
    for (depth, place) in way.iter().enumerate().filter(|(_, place)| place.i + 1 < place.entries) {
        found.end = u32_at(image, place.page, start_at(place.i + 1));
        found.end_above = Some(way.len() - 1 - depth);
    }
    found
}

/// The pairs on the way to t, combined from the root on: the order of document 01.
pub fn pair_on_way(image: &[u8], t: u32) -> Pair {
    let pairs = way(image, t).into_iter().map(|place| pair_at(image, place.page, place.i));
    pairs.reduce(|above, below| combine(head(image, KIND), above, below)).expect("a way has a page")
}

/// The starts of a page's entries.
pub fn starts_of(image: &[u8], page: usize) -> Vec<u32> {
    (0..u32_at(image, page, ENTRY_COUNT_AT) as usize).map(|i| u32_at(image, page, start_at(i))).collect()
}

/// The pair of an entry.
pub fn pair_at(image: &[u8], page: usize, i: usize) -> Pair {
    let at = sum_at(capacity(image), i);
    let halves = [u32_at(image, page, at), u32_at(image, page, at + 4)].map(u64::from);
    Pair { sum: (halves[0] | halves[1] << 32) as i64, count: u32_at(image, page, at + 8) as i32 }
}

/// A start of the page, often its first, and so an instant whose way is likely to meet it; any if it is no tree page.
pub fn instant_of(image: &[u8], page: usize, random: &mut Random) -> u32 {
    if page == 0 || page >= pages_of(image) || level(image, page) > 9 {
        return random.instant();
    }
    let entries = (u32_at(image, page, ENTRY_COUNT_AT) as usize).clamp(1, capacity(image));
    let i = if random.one_in(3) { 0 } else { random.below(entries) };
    u32_at(image, page, start_at(i))
}

// ---------------------------------------------------------------- neighbours

/// A leaf entry: its start, its total, and where it is first in its leaf the level of the page whose entry separates that leaf from the
/// one before; 0 for the others, and for the first of all.
#[derive(Clone, Copy, PartialEq, Eq, Debug)]
pub struct Neighbour {
    pub start: u32,
    pub total: Pair,
    pub separator: u32,
}

/// The leaf entries of an image whose tree is fit, in their order.
pub fn neighbours(image: &[u8]) -> Vec<Neighbour> {
    let mut found = Vec::new();
    collect_neighbours(image, head(image, ROOT) as usize, Pair { sum: 0, count: 0 }, 0, &mut found);
    found
}

fn collect_neighbours(image: &[u8], page: usize, above: Pair, separator: u32, found: &mut Vec<Neighbour>) {
    for (i, start) in starts_of(image, page).into_iter().enumerate() {
        let total = combine(head(image, KIND), above, pair_at(image, page, i));
        if level(image, page) == 0 {
            found.push(Neighbour { start, total, separator: if i == 0 { separator } else { 0 } });
            continue;
        }
        let child = u32_at(image, page, child_at(capacity(image), i)) as usize;
        collect_neighbours(image, child, total, if i == 0 { separator } else { level(image, page) }, found);
    }
}

/// The later of two neighbouring leaf entries with equal totals: each breaks document 02's (iv) where the kind is 1.
pub fn equal_neighbours(image: &[u8]) -> Vec<Neighbour> {
    neighbours(image).windows(2).filter(|two| two[0].total == two[1].total).map(|two| two[1]).collect()
}

/// Gives the leaf entry that starts at t another own pair, so that its total becomes this one; for kind 1.
pub fn set_total(image: &mut [u8], t: u32, total: Pair) {
    let is = pair_on_way(image, t);
    let way = way(image, t);
    let Place { page, i, .. } = way[way.len() - 1];
    let own = pair_at(image, page, i);
    let k = capacity(image);
    put(image, page, sum_at(k, i), &(own.sum + total.sum - is.sum).to_le_bytes());
    put(image, page, count_at(k, i), &(own.count + total.count - is.count).to_le_bytes());
}

// ---------------------------------------------------------------- making images

/// Document 01's cases keep K = 24.
pub fn fresh(n: usize, kind: u32, window: u32) -> Vec<u8> {
    fresh_of(24, n, kind, window)
}

pub fn fresh_of(k: usize, n: usize, kind: u32, window: u32) -> Vec<u8> {
    let mut image = vec![0xA5; n * bytes_of(k)];
    assert_eq!(plain::format(&mut image, kind, window, k as u32), 0);
    image
}

pub fn enter(image: &mut [u8], v: i64, s: u32, e: u32) -> u32 {
    let mut scratch = vec![9; scratch_bytes(pages_of(image))];
    plain::enter(image, &mut scratch, v, s, e)
}

pub fn withdraw(image: &mut [u8], v: i64, s: u32, e: u32) -> u32 {
    let mut scratch = vec![9; scratch_bytes(pages_of(image))];
    plain::withdraw(image, &mut scratch, v, s, e)
}

/// Bookings of 1 on [10, 15), [20, 25) and so on, up to this many.
pub fn enter_in_order(image: &mut [u8], bookings: u32) {
    for i in 1..=bookings {
        assert_eq!(enter(image, 1 + i64::from(i % 3), 10 * i, 10 * i + 5), 0);
    }
}

/// Withdraws the first of them again, so that pages join and go to the chain.
pub fn withdraw_first(image: &mut [u8], bookings: u32) {
    for i in 1..=bookings {
        assert_eq!(withdraw(image, 1 + i64::from(i % 3), 10 * i, 10 * i + 5), 0);
    }
}

/// How many small images there are.
pub const SMALL: usize = 9;

/// Small images of heights 1 and 2, all kinds, one with a chain of free pages, two with full pages; K is 24.
fn small() -> Vec<Vec<u8>> {
    let mut images = vec![fresh(2, 1, 0), fresh(3, 3, 9), full_leaf(), full_below()];
    let mut leaf = fresh(2, 1, 4);
    for i in 1..=9 {
        assert_eq!(enter(&mut leaf, i64::from(i) - 5, 10 * i, 10 * i + 15), 0);
    }
    images.push(leaf);
    for kind in 1..=3 {
        let mut image = fresh(7, kind, 0);
        enter_in_order(&mut image, 18);
        assert_eq!(enter(&mut image, 5, 0, 65), 0);
        assert_eq!(enter(&mut image, -3, 20, END), 0);
        assert_eq!(head(&image, HEIGHT), 2);
        images.push(image);
    }
    let mut chained = fresh(9, 1, 0);
    enter_in_order(&mut chained, 30);
    withdraw_first(&mut chained, 12);
    assert!(head(&chained, HEIGHT) == 2 && head(&chained, FREE_LENGTH) >= 2);
    images.push(chained);
    assert_eq!(images.len(), SMALL);
    images
}

fn has_full_page(image: &[u8]) -> bool {
    (1..pages_of(image)).any(|page| u32_at(image, page, ENTRY_COUNT_AT) == 24)
}

/// A root leaf of 24 entries.
fn full_leaf() -> Vec<u8> {
    let mut image = fresh(2, 1, 0);
    enter_in_order(&mut image, 11);
    assert_eq!(enter(&mut image, 1, 1_000, END), 0);
    assert!(has_full_page(&image));
    image
}

/// Height 2 with a leaf of 24 entries.
fn full_below() -> Vec<u8> {
    let images = (0..).map(|seed| filled_until_24(fresh(6, 1, 3), usize::MAX, seed));
    images.into_iter().find(|image| head(image, HEIGHT) == 2 && has_full_page(image)).expect("some seed gives one")
}

/// Height 3: with a chain for kind 1.
fn height_3(kind: u32) -> Vec<u8> {
    let mut image = fresh(44, kind, 0);
    enter_in_order(&mut image, 220);
    if kind == 1 {
        withdraw_first(&mut image, 40);
    }
    assert_eq!(enter(&mut image, 9, 300, 1_900), 0);
    assert_eq!(head(&image, HEIGHT), 3);
    image
}

/// Height 4: bookings one by one until it is reached, then wide ones over them; with a chain for kind 1.
fn height_4(n: usize, kind: u32, window: u32) -> Vec<u8> {
    let mut image = fresh(n, kind, window);
    let mut bookings = 0;
    while head(&image, HEIGHT) < 4 {
        bookings += 1;
        let s = (10 + window) * bookings;
        assert_eq!(enter(&mut image, 1 + i64::from(bookings % 5), s, s + 5), 0);
    }
    for (v, s, e) in [(7, 0, END), (-9, 15, END - 1), (3, 111, 9_999), (1_000_000, 25, 26)] {
        assert_eq!(enter(&mut image, v, s, e), 0);
    }
    if kind == 1 {
        for i in 1..=40 {
            assert_eq!(withdraw(&mut image, 1 + i64::from(i % 5), 10 * i, 10 * i + 5), 0);
        }
        assert!(head(&image, FREE_LENGTH) > 0);
    }
    assert_eq!(head(&image, HEIGHT), 4);
    image
}

/// Random bookings in no order until a change is refused with 24, or so many are done.
fn filled_until_24(mut image: Vec<u8>, most: usize, seed: u64) -> Vec<u8> {
    let n = pages_of(&image);
    let mut random = Random::new(seed);
    let mut slots: Vec<u32> = (0..20 * n as u32).collect();
    random.shuffle(&mut slots);
    for slot in slots.into_iter().take(most) {
        let s = 100 * slot;
        let e = s + 1 + random.below(30) as u32;
        if enter(&mut image, random.between(-1_000_000, 1_000_000), s, e) == 24 {
            break;
        }
    }
    image
}

// ---------------------------------------------------------------- other capacities

/// K, pages and kind of the small images of other capacities; K = 0 is one of document 01's, without the field. The bytes and
/// words of the first ones are set to more values than those of the rest.
const OTHERS: [(usize, usize, u32); OTHER] = [
    (4, 9, 1),
    (6, 7, 2),
    (10, 5, 3),
    (16, 5, 1),
    (0, 5, 1),
    (8, 9, 1),
    (12, 7, 2),
    (14, 7, 3),
    (18, 6, 1),
    (20, 6, 2),
    (22, 6, 3),
];
pub const OTHER: usize = 11;
pub const OTHER_BY_BYTES: usize = 5;

/// Height 2 or 3: filled in order until 24 under wide bookings, and where the kind is 1 withdrawn until pages are free.
fn other(k: usize, n: usize, kind: u32) -> Vec<u8> {
    let mut image = if k == 0 { fresh_without_field(n as u32, kind, 0) } else { fresh_of(k, n, kind, 0) };
    // Of kind 3 nothing that is greater would show under a lesser one.
    for (v, s, e) in [(5, 0, 65), (if kind == 3 { 9 } else { -3 }, 20, END)] {
        assert_eq!(enter(&mut image, v, s, e), 0);
    }
    let mut bookings = 0;
    while enter(&mut image, 1 + i64::from((bookings + 1) % 3), 10 * bookings + 10, 10 * bookings + 15) == 0 {
        bookings += 1;
    }
    let mut withdrawn = 0;
    while kind == 1 && head(&image, FREE_LENGTH) == 0 {
        withdrawn += 1;
        let i = withdrawn;
        assert_eq!(withdraw(&mut image, 1 + i64::from(i % 3), 10 * i, 10 * i + 5), 0);
    }
    assert!(head(&image, HEIGHT) >= 2);
    image
}

/// Few pages of an image that is made have more than the fewest entries; its pairs are small.
pub struct Drawn {
    pub random: Random,
    pub kind: u32,
    /// One page in so many has a random number of entries.
    pub one_in: usize,
}

impl Choice for Drawn {
    fn entries(&mut self, fewest: usize, most: usize) -> usize {
        if self.random.one_in(self.one_in) {
            fewest + self.random.below(most - fewest + 1)
        } else {
            fewest
        }
    }

    fn pair(&mut self) -> Pair {
        let count = if self.kind == 1 { self.random.between(-1, 2) } else { self.random.between(0, 1) };
        let sum = if self.kind == 1 || count == 1 { self.random.between(-3, 3) } else { 0 };
        Pair { sum, count: count as i32 }
    }
}

/// What an image of this K shall be; the rest is as in most of them.
pub fn wanted(k: usize, n: usize, height: u32, kind: u32) -> Wanted {
    let capacity = Capacity::new(k as u32).expect("an even number from 4 to 24");
    Wanted { capacity, n: n as u32, height, kind, window: 0, changes: 1_000 }
}

/// A sound image of this height, made by the plain version: changes from a format don't reach every height that is sound. Its
/// leaf entries start 5 apart; none of its pages is free where they all are needed.
pub fn made(k: usize, n: usize, height: u32, kind: u32) -> Vec<u8> {
    let wanted = wanted(k, n, height, kind);
    // The first that fits in n pages, beginning with many pages of more than the fewest entries.
    let choices = (0..40).map(|i| Drawn { random: Random::new(i), kind, one_in: 3 + 4 * i as usize });
    let mut roomy = choices.filter_map(|mut choice| tree(&wanted, 5, 4, &mut choice));
    roomy.next().unwrap_or_else(|| {
        let mut fewest = Drawn { random: Random::new(1), kind, one_in: usize::MAX };
        tree(&wanted, 5, 0, &mut fewest).expect("the fewest entries in each page fit")
    })
}

// ---------------------------------------------------------------- the pool

/// Images that several groups use, made once.
pub struct Pool {
    pub small: Vec<Vec<u8>>,
    /// Heights 3 and 4, all kinds, and images filled until 24.
    pub tall: Vec<Vec<u8>>,
    /// Small ones of each other K, and one without the field.
    pub other: Vec<Vec<u8>>,
    /// Tall ones of other K, up to height 10, and a tall one without the field.
    pub high: Vec<Vec<u8>>,
}

/// How many images the pool has.
pub const IMAGES: usize = SMALL + TALL.len() + OTHER + HIGH.len();
pub const TALLS: usize = TALL.len();
pub const HIGHS: usize = HIGH.len();

type Maker = fn() -> Vec<u8>;

const TALL: &[(&str, Maker)] = &[
    ("height 4, kind 1, 1,024 pages, with a chain", || height_4(1_024, 1, 0)),
    ("height 4, kind 2, 1,024 pages", || height_4(1_024, 2, 3)),
    ("height 4, kind 3, 400 pages", || height_4(400, 3, 0)),
    ("300 pages, random bookings", || filled_until_24(fresh(300, 1, 3), 900, 5)),
    ("64 pages, filled in no order until 24", || filled_until_24(fresh(64, 1, 3), usize::MAX, 6)),
    ("33 pages of kind 2, filled in no order until 24", || filled_until_24(fresh(33, 2, 3), usize::MAX, 7)),
    ("height 3, kind 1, with a chain", || height_3(1)),
    ("height 3, kind 2", || height_3(2)),
    ("height 3, kind 3", || height_3(3)),
];

const HIGH: &[(&str, Maker)] = &[
    ("K = 4, height 10, kind 1, all of 1,024 pages", || made(4, 1_024, 10, 1)),
    ("K = 4, height 9, kind 2, 1,024 pages", || made(4, 1_024, 9, 2)),
    ("K = 4, height 8, kind 3, 700 pages", || made(4, 700, 8, 3)),
    ("K = 4, height 7, kind 1, 300 pages", || made(4, 300, 7, 1)),
    ("K = 4, height 6, kind 1, 130 pages", || made(4, 130, 6, 1)),
    ("K = 4, height 5, kind 2, 70 pages", || made(4, 70, 5, 2)),
    ("K = 6, height 7, kind 1, 1,024 pages", || made(6, 1_024, 7, 1)),
    ("K = 8, height 6, kind 3, 1,024 pages", || made(8, 1_024, 6, 3)),
    ("K = 10, height 5, kind 1, 500 pages", || made(10, 500, 5, 1)),
    ("K = 4, 200 pages, filled in no order until 24", || filled_until_24(fresh_of(4, 200, 1, 3), usize::MAX, 8)),
    ("K = 14, 40 pages, filled in no order until 24", || filled_until_24(fresh_of(14, 40, 1, 0), usize::MAX, 9)),
    ("K = 20, 30 pages of kind 3, filled in no order until 24", || {
        filled_until_24(fresh_of(20, 30, 3, 1), usize::MAX, 10)
    }),
    ("no field, 40 pages, filled in no order until 24", || {
        filled_until_24(fresh_without_field(40, 1, 3), usize::MAX, 11)
    }),
];

impl Pool {
    /// Made on so many threads; tells how long each of the tall ones took.
    pub fn make(threads: usize) -> Pool {
        let makers: Vec<&(&str, Maker)> = TALL.iter().chain(HIGH).collect();
        let mut tall = crate::work::done(makers.len(), threads, |i| {
            let begun = Instant::now();
            let image = makers[i].1();
            (image, begun.elapsed())
        });
        for ((name, _), (image, took)) in makers.iter().zip(&tall) {
            let sizes = format!("height {}, {} changes", head(image, HEIGHT), head(image, CHANGES));
            println!("made by plain in {:.1} s: {name} ({sizes})", took.as_secs_f64());
        }
        let high = tall.split_off(TALL.len());
        let images =
            |made: Vec<(Vec<u8>, _)>| made.into_iter().map(|(image, _): (_, std::time::Duration)| image).collect();
        Pool {
            small: small(),
            tall: images(tall),
            other: OTHERS.iter().map(|(k, n, kind)| other(*k, *n, *kind)).collect(),
            high: images(high),
        }
    }

    /// The image of part i of a group that goes through all of them.
    pub fn image(&self, part: usize) -> &Vec<u8> {
        self.all().nth(part % IMAGES).expect("so many images")
    }

    /// Those whose K is 24 ahead of the others.
    pub fn all(&self) -> impl Iterator<Item = &Vec<u8>> {
        self.small.iter().chain(&self.tall).chain(&self.other).chain(&self.high)
    }
}
