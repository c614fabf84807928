//! Document 01, "The page", over document 02's capacity: the bytes of the head, of tree pages and of free pages.
//!
//! "Numbers are little-endian. The image is n pages of 512 bytes, n from 2 to 1,024. Unused bytes are FF (hexadecimal)." By
//! document 02 "a page has 32 + 20 × K bytes and each array K places": 512 where K is 24.

use crate::capacity::Capacity;
use crate::value::{Pair, Span};

pub const FEWEST_PAGES: usize = 2;
pub const MOST_PAGES: usize = 1_024;
pub const UNUSED: u8 = 0xFF;
/// The bytes of a page of the greatest K.
const LONGEST_PAGE: usize = 512;

/// "Tree page: level (u32, leaf 0), number of entries (u32), 24 bytes FF; then two parallel arrays of 24: starts (u32),
/// and entries of 16 bytes: sum (i64), count (i32), child page (u32, 0 in a leaf)." The 24 bytes stay 24; of the arrays
/// document 02 says "each array K places".
const LEVEL_AT: usize = 0;
const ENTRY_COUNT_AT: usize = 4;
const GAP_AT: usize = 8;
const STARTS_AT: usize = 32;
const START_BYTES: usize = 4;
const ENTRY_BYTES: usize = 16;

/// The second array begins behind the K places of the first.
fn entries_at(capacity: Capacity) -> usize {
    STARTS_AT + START_BYTES * capacity.most_entries()
}

/// "Page 0, the head, u32 each: n, height (1 to 4), root page, first free page (0 none), free chain length, high mark
/// (lowest page never used, 2 to n), kind, window, changes. Rest FF." And document 02: K is "stored in the head after
/// changes", so that the rest begins at byte 40.
pub const HEAD_BYTES: usize = 40;
const CAPACITY_AT: usize = 36;

/// "Free page: level field 255, next free page (0 ends the chain), rest FF." The u32 255 (R19).
const FREE_LEVEL: u32 = 255;
const FREE_BYTES: usize = 8;

// ---------------------------------------------------------------- numbers in bytes

fn get_u32(bytes: &[u8], at: usize) -> u32 {
    u32::from_le_bytes(bytes[at..at + 4].try_into().unwrap())
}

fn get_i32(bytes: &[u8], at: usize) -> i32 {
    i32::from_le_bytes(bytes[at..at + 4].try_into().unwrap())
}

fn get_i64(bytes: &[u8], at: usize) -> i64 {
    i64::from_le_bytes(bytes[at..at + 8].try_into().unwrap())
}

fn put(bytes: &mut [u8], at: usize, number: &[u8]) {
    bytes[at..at + number.len()].copy_from_slice(number);
}

/// Whether these bytes of a page are all FF.
pub fn all_unused(bytes: &[u8]) -> bool {
    *bytes == [UNUSED; LONGEST_PAGE][..bytes.len()]
}

// ---------------------------------------------------------------- pages in the image

/// The K that the image's head names; none where the image has no such field or a bad one.
pub fn read_capacity(image: &[u8]) -> Option<Capacity> {
    if image.len() < HEAD_BYTES {
        return None;
    }
    Capacity::named_by(get_u32(image, CAPACITY_AT))
}

/// n, or none where the "image length [is] not 512 × n for an n in range", 512 being the bytes of a page of this K.
pub fn number_of_pages(length: usize, capacity: Capacity) -> Option<u32> {
    let n = length / capacity.page_bytes();
    if length == capacity.page_bytes() * n && (FEWEST_PAGES..=MOST_PAGES).contains(&n) {
        Some(n as u32)
    } else {
        None
    }
}

pub fn page_bytes(image: &[u8], capacity: Capacity, page: u32) -> &[u8] {
    let at = page as usize * capacity.page_bytes();
    &image[at..at + capacity.page_bytes()]
}

fn page_bytes_mut(image: &mut [u8], capacity: Capacity, page: u32) -> &mut [u8] {
    let at = page as usize * capacity.page_bytes();
    &mut image[at..at + capacity.page_bytes()]
}

// ---------------------------------------------------------------- the head

#[derive(Clone, Copy, PartialEq, Eq, Debug)]
pub struct Head {
    pub n: u32,
    /// "height (1 to 4)"; by document 02 "the head's range becomes 1 to 10 at every K"
    pub height: u32,
    pub root: u32,
    /// "first free page (0 none)"
    pub first_free: u32,
    pub free_length: u32,
    /// "high mark (lowest page never used, 2 to n)"
    pub high_mark: u32,
    pub kind: u32,
    pub window: u32,
    pub changes: u32,
    /// The field as it stands, not the K that it names: "a change keeps the field's bytes".
    pub capacity_field: u32,
}

impl Head {
    /// The K that the field names.
    pub fn capacity(&self) -> Capacity {
        Capacity::named_by(self.capacity_field).expect("a bad K is turned back before the head is read")
    }
}

pub fn read_head(image: &[u8]) -> Head {
    Head {
        n: get_u32(image, 0),
        height: get_u32(image, 4),
        root: get_u32(image, 8),
        first_free: get_u32(image, 12),
        free_length: get_u32(image, 16),
        high_mark: get_u32(image, 20),
        kind: get_u32(image, 24),
        window: get_u32(image, 28),
        changes: get_u32(image, 32),
        capacity_field: get_u32(image, CAPACITY_AT),
    }
}

pub fn write_head(image: &mut [u8], head: &Head) {
    let bytes = page_bytes_mut(image, head.capacity(), 0);
    bytes.fill(UNUSED);
    put(bytes, 0, &head.n.to_le_bytes());
    put(bytes, 4, &head.height.to_le_bytes());
    put(bytes, 8, &head.root.to_le_bytes());
    put(bytes, 12, &head.first_free.to_le_bytes());
    put(bytes, 16, &head.free_length.to_le_bytes());
    put(bytes, 20, &head.high_mark.to_le_bytes());
    put(bytes, 24, &head.kind.to_le_bytes());
    put(bytes, 28, &head.window.to_le_bytes());
    put(bytes, 32, &head.changes.to_le_bytes());
    put(bytes, CAPACITY_AT, &head.capacity_field.to_le_bytes());
}

/// "its rest is FF"
pub fn head_rest_is_unused(image: &[u8], capacity: Capacity) -> bool {
    all_unused(&page_bytes(image, capacity, 0)[HEAD_BYTES..])
}

// ---------------------------------------------------------------- tree pages

#[derive(Clone, Copy, PartialEq, Eq, Debug)]
pub struct Entry {
    pub start: u32,
    pub pair: Pair,
    pub child: u32,
}

#[derive(Clone, PartialEq, Eq, Debug)]
pub struct Page {
    pub level: u32,
    pub entries: Vec<Entry>,
}

impl Page {
    pub fn is_leaf(&self) -> bool {
        self.level == 0
    }

    /// The span of entry `i` in a page that ends at `page_end`: it ends where the next one starts.
    pub fn span_of(&self, i: usize, page_end: u32) -> Span {
        let end = match self.entries.get(i + 1) {
            Some(next) => next.start,
            None => page_end,
        };
        Span { start: self.entries[i].start, end }
    }

    /// "the last entry starting at t or before"; document 02, (ii): "shall begin at the last start and go back"
    pub fn entry_at(&self, t: u32) -> usize {
        self.entries.iter().rposition(|entry| entry.start <= t).expect("a page's first entry starts at t or before")
    }

    /// Document 02, (viii): "Finding the entry in a page shall give its end as well as its place", in a page that ends at `page_end`.
    pub fn place_and_end_at(&self, t: u32, page_end: u32) -> (usize, u32) {
        let i = self.entry_at(t);
        (i, self.span_of(i, page_end).end)
    }

    /// The entry of this inner page whose child is `page`.
    pub fn entry_of_child(&self, page: u32) -> usize {
        self.entries.iter().position(|entry| entry.child == page).expect("a page on the way is its parent's child")
    }
}

/// The level and the entries of a page, or none where its number of entries is above K: "Trusting a page's number of
/// entries before comparing it with 24" is a fault we have seen made, and a number from K + 1 to 24 is its new form.
pub fn read_page(image: &[u8], capacity: Capacity, page: u32) -> Option<Page> {
    let bytes = page_bytes(image, capacity, page);
    let entry_count = get_u32(bytes, ENTRY_COUNT_AT);
    if entry_count > capacity.number() {
        return None;
    }
    let entries = (0..entry_count as usize).map(|i| read_entry(bytes, capacity, i)).collect();
    Some(Page { level: get_u32(bytes, LEVEL_AT), entries })
}

fn read_entry(bytes: &[u8], capacity: Capacity, i: usize) -> Entry {
    let at = entries_at(capacity) + i * ENTRY_BYTES;
    Entry {
        start: get_u32(bytes, STARTS_AT + i * START_BYTES),
        pair: Pair { sum: get_i64(bytes, at), count: get_i32(bytes, at + 8) },
        child: get_u32(bytes, at + 12),
    }
}

pub fn write_page(image: &mut [u8], capacity: Capacity, page: u32, contents: &Page) {
    assert!(contents.entries.len() <= capacity.most_entries(), "a page is split before it is written");
    let bytes = page_bytes_mut(image, capacity, page);
    bytes.fill(UNUSED);
    put(bytes, LEVEL_AT, &contents.level.to_le_bytes());
    put(bytes, ENTRY_COUNT_AT, &(contents.entries.len() as u32).to_le_bytes());
    for (i, entry) in contents.entries.iter().enumerate() {
        let at = entries_at(capacity) + i * ENTRY_BYTES;
        put(bytes, STARTS_AT + i * START_BYTES, &entry.start.to_le_bytes());
        put(bytes, at, &entry.pair.sum.to_le_bytes());
        put(bytes, at + 8, &entry.pair.count.to_le_bytes());
        put(bytes, at + 12, &entry.child.to_le_bytes());
    }
}

/// "24 bytes FF"; "Places past the number are FF."
pub fn page_rest_is_unused(image: &[u8], capacity: Capacity, page: u32, entry_count: usize) -> bool {
    let bytes = page_bytes(image, capacity, page);
    all_unused(&bytes[GAP_AT..STARTS_AT])
        && all_unused(&bytes[STARTS_AT + entry_count * START_BYTES..entries_at(capacity)])
        && all_unused(&bytes[entries_at(capacity) + entry_count * ENTRY_BYTES..])
}

// ---------------------------------------------------------------- free pages

/// The next free page if this page reads as a free one: "level field 255, next free page (0 ends the chain), rest FF".
pub fn read_free_page(image: &[u8], capacity: Capacity, page: u32) -> Option<u32> {
    let bytes = page_bytes(image, capacity, page);
    if get_u32(bytes, LEVEL_AT) == FREE_LEVEL && all_unused(&bytes[FREE_BYTES..]) {
        Some(get_u32(bytes, 4))
    } else {
        None
    }
}

pub fn write_free_page(image: &mut [u8], capacity: Capacity, page: u32, next: u32) {
    let bytes = page_bytes_mut(image, capacity, page);
    bytes.fill(UNUSED);
    put(bytes, LEVEL_AT, &FREE_LEVEL.to_le_bytes());
    put(bytes, 4, &next.to_le_bytes());
}
