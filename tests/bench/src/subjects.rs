//! What is measured: images with pages of 24 entries, formatted by the library and filled by the plain version, and the same
//! runs in a map.

use std::collections::BTreeMap;

use luwhenoka::{raw, scratch_bytes};
use plain::END;

/// The capacity of all pages: document 01's, which the peer is written for. A page has 512 bytes.
pub const CAPACITY: u32 = 24;

pub struct Random(u64);

impl Random {
    pub fn new(seed: u64) -> Random {
        Random(seed.wrapping_mul(0x9E37_79B9_7F4A_7C15) | 1)
    }

    pub fn below(&mut self, bound: u32) -> u32 {
        self.0 ^= self.0 << 13;
        self.0 ^= self.0 >> 7;
        self.0 ^= self.0 << 17;
        ((self.0.wrapping_mul(0x2545_F491_4F6C_DD1D) >> 16) % u64::from(bound)) as u32
    }
}

/// Bookings lie below this instant.
pub const RANGE: u32 = 1_000_000_000;

pub type Booking = (i64, u32, u32);

/// Bookings of values up to 100 anywhere in the range, each at most so long.
pub fn bookings(number: usize, longest: u32, seed: u64) -> Vec<Booking> {
    let mut random = Random::new(seed);
    let mut booking = || {
        let (s, long) = (random.below(RANGE - longest), 1 + random.below(longest));
        (i64::from(random.below(100)) + 1, s, s + long)
    };
    (0..number).map(|_| booking()).collect()
}

/// So many instants that the processor doesn't learn them by heart.
pub const INSTANTS: usize = 5_000;

pub fn instants(number: usize, seed: u64) -> Vec<u32> {
    let mut random = Random::new(seed);
    (0..number).map(|_| random.below(RANGE)).collect()
}

pub fn formatted(n: usize, kind: u32, window: u32) -> Vec<u8> {
    let mut image = vec![0; 512 * n];
    assert_eq!(raw::format(&mut image, kind, window, CAPACITY), 0);
    image
}

/// Kind 1, window 0: what is measured.
pub fn fresh(n: usize) -> Vec<u8> {
    formatted(n, 1, 0)
}

/// An image of n pages after these bookings, as many of them as find pages; how many those are.
pub fn booked(n: usize, bookings: &[Booking]) -> (Vec<u8>, usize) {
    let mut image = fresh(n);
    let mut scratch = vec![0; scratch_bytes(n)];
    let refused = bookings.iter().position(|(v, s, e)| plain::enter(&mut image, &mut scratch, *v, *s, *e) != 0);
    (image, refused.unwrap_or(bookings.len()))
}

pub fn scratch_for(image: &[u8]) -> Vec<u8> {
    vec![0; scratch_bytes(image.len() / 512)]
}

/// The number of four bytes at an offset.
pub fn number(image: &[u8], at: usize) -> u32 {
    u32::from_le_bytes(image[at..at + 4].try_into().expect("4 bytes"))
}

pub fn height(image: &[u8]) -> u32 {
    number(image, 4)
}

/// The pages on the way to t, as offsets in the image.
pub fn way(image: &[u8], t: u32) -> Vec<usize> {
    let mut page = 512 * number(image, 8) as usize;
    let mut way = Vec::new();
    for _ in 0..height(image) {
        way.push(page);
        let entries = number(image, page + 4) as usize;
        let i = (0..entries).rfind(|i| number(image, page + 32 + 4 * i) <= t).expect("the first is at t or before");
        page = 512 * number(image, page + 140 + 16 * i) as usize;
    }
    way
}

/// The bytes of the full listing.
pub fn listed(image: &[u8]) -> Vec<u8> {
    let mut output = vec![0; 384 * (image.len() / 512)];
    let answer = plain::listing(image, 0, END, &mut output);
    assert_eq!(answer.status, 0);
    output.truncate(16 * answer.runs as usize);
    output
}

/// Start, count and sum of each run of the full listing.
fn runs(image: &[u8]) -> Vec<(u32, i32, i64)> {
    let run = |bytes: &[u8]| {
        let start = u32::from_le_bytes(bytes[0..4].try_into().expect("4 bytes"));
        let count = i32::from_le_bytes(bytes[4..8].try_into().expect("4 bytes"));
        (start, count, i64::from_le_bytes(bytes[8..16].try_into().expect("8 bytes")))
    };
    listed(image).chunks(16).map(run).collect()
}

/// The runs in a map by their starts: what a plain program would keep in memory.
#[derive(Clone)]
pub struct RunMap(BTreeMap<u32, (i64, i32)>);

impl RunMap {
    pub fn of(image: &[u8]) -> RunMap {
        RunMap(runs(image).into_iter().map(|(start, count, sum)| (start, (sum, count))).collect())
    }

    pub fn pair_at(&self, t: u32) -> (i64, i32) {
        *self.0.range(..=t).next_back().expect("a run starts at 0").1
    }

    /// The average in hundredths.
    pub fn average_at(&self, t: u32) -> Option<i64> {
        let (sum, count) = self.pair_at(t);
        match plain::average_of(1, sum, count) {
            plain::Average::Hundredths(hundredths) => Some(hundredths),
            _ => None,
        }
    }

    /// Writes all runs, 16 bytes each; how many they are.
    pub fn write(&self, output: &mut [u8]) -> usize {
        for ((start, (sum, count)), to) in self.0.iter().zip(output.chunks_exact_mut(16)) {
            to[0..4].copy_from_slice(&start.to_le_bytes());
            to[4..8].copy_from_slice(&count.to_le_bytes());
            to[8..16].copy_from_slice(&sum.to_le_bytes());
        }
        self.0.len()
    }

    /// Adds v and count over [s, e) and joins what has become equal at both ends.
    pub fn change(&mut self, v: i64, count: i32, s: u32, e: u32) {
        for t in [s, e] {
            let before = self.pair_at(t);
            self.0.entry(t).or_insert(before);
        }
        for (_, pair) in self.0.range_mut(s..e) {
            *pair = (pair.0 + v, pair.1 + count);
        }
        for t in [s, e] {
            if t > 0 && self.0.get(&t) == self.0.range(..t).next_back().map(|(_, pair)| pair) {
                self.0.remove(&t);
            }
        }
    }
}
