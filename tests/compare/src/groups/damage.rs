//! Bytes and numbers of sound images set to something else, one or two at a time.

use plain::END;

use crate::comparer::Comparer;
use crate::images::{
    capacity, child_at, count_at, head, instant_of, level, page_bytes, start_at, sum_at, u32_at, Pool, ENTRY_COUNT_AT,
    HEIGHT, HIGHS, OTHER_BY_BYTES, SMALL, TALLS,
};
use crate::random::Random;

// ---------------------------------------------------------------- each byte

/// The small image of this part: those whose K is 24, then some of other capacities.
fn small(pool: &Pool, part: usize) -> &Vec<u8> {
    if part < SMALL {
        &pool.small[part]
    } else {
        &pool.other[part - SMALL]
    }
}

/// Part i does the pool's small image i: with many values for each byte, but for the last images with two.
pub fn damaged_bytes(comparer: &mut Comparer, pool: &Pool, part: usize) {
    let whole = small(pool, part);
    comparer.lend(whole);
    for at in 0..whole.len() {
        let few = vec![whole[at] ^ 1, !whole[at]];
        for value in if part < SMALL + OTHER_BY_BYTES { bytes_for(whole[at]) } else { few } {
            comparer.set(at, &[value]);
            calls(comparer, at / page_bytes(whole));
        }
        comparer.set(at, &whole[at..=at]);
    }
}

fn bytes_for(old: u8) -> Vec<u8> {
    let mut values = vec![0x00, 0x01, 0x02, 0x0B, 0x18, 0x19, 0x7F, 0x80, 0xFE, 0xFF];
    values.extend([old ^ 1, old.wrapping_add(1), old.wrapping_sub(1), !old]);
    values.sort_unstable();
    values.dedup();
    values.retain(|value| *value != old);
    values
}

/// Calls on an image one of whose pages is damaged; most of them meet that page.
fn calls(comparer: &mut Comparer, page: usize) {
    let t = instant_of(comparer.image(), page, &mut comparer.random.clone());
    comparer.random.next();
    comparer.audit();
    comparer.instant(t);
    comparer.instant(t.wrapping_sub(1));
    comparer.average(0);
    comparer.listing(0, END);
    comparer.listing(t, t.saturating_add(30));
    comparer.listing(t.saturating_sub(30), t);
    if comparer.random.one_in(4) {
        comparer.changes_and_back();
    }
}

// ---------------------------------------------------------------- each word

/// Part i does the pool's small image i: each word at the ends of the ranges that its fields have, then each sum.
pub fn damaged_words(comparer: &mut Comparer, pool: &Pool, part: usize) {
    let whole = small(pool, part);
    let (k, length) = (capacity(whole), page_bytes(whole));
    let n = (whole.len() / length) as u32;
    comparer.lend(whole);
    for at in (0..whole.len()).step_by(4) {
        for value in numbers(n, k as u32) {
            comparer.set(at, &value.to_le_bytes());
            calls(comparer, at / length);
        }
        comparer.set(at, &whole[at..at + 4]);
    }
    for page in 1..n as usize {
        for i in 0..k {
            let at = length * page + sum_at(k, i);
            for value in sums() {
                comparer.set(at, &value.to_le_bytes());
                calls(comparer, page);
            }
            comparer.set(at, &whole[at..at + 8]);
        }
    }
}

/// Ends of the ranges of page numbers, numbers of entries at this K, heights, levels, windows, changes, instants and counts.
fn numbers(n: u32, k: u32) -> Vec<u32> {
    let mut numbers = vec![0, 1, 2, 3, 4, 5, 10, 11, 24, 25, n - 2, n - 1, n, n + 1, 254, 255, 256];
    numbers.extend([k / 2 - 1, k / 2, k / 2 + 1, k - 1, k, k + 1, k + 2]);
    numbers.extend([1_000_000_000, 1_000_000_001, (1 << 31) - 1, 1 << 31, u32::MAX - 1, u32::MAX]);
    // Counts below 0.
    numbers.extend([-2i32, -18, -1_000_000_000, -1_000_000_001, i32::MIN + 1].map(|count| count as u32));
    numbers.sort_unstable();
    numbers.dedup();
    numbers
}

fn sums() -> Vec<i64> {
    let above = [1, 9, 1_000_000, 1_000_001, 20_000_000, 20_000_001, 1 << 31, 1 << 32, 1_000_000_000_000_000, i64::MAX];
    above.iter().copied().chain(above.iter().map(|sum| -sum)).chain([0, i64::MIN, 1_000_000_000_000_001]).collect()
}

// ---------------------------------------------------------------- numbers of entries

/// "Trusting a page's number of entries before comparing it with 24" is a fault that was seen made: pages whose places past
/// their entries hold those of an older page, at any number of entries. At another K the numbers from K + 1 to 24 are among
/// them, and the numbers that 24 would pass.
pub fn stale_entries(comparer: &mut Comparer, pool: &Pool, part: usize) {
    let whole = pool.image(part);
    let length = page_bytes(whole);
    comparer.lend(whole);
    let pages: Vec<usize> = (1..comparer.pages()).filter(|page| level(whole, *page) < 10).collect();
    for _ in 0..pages.len().min(10) {
        let page = comparer.random.pick(&pages);
        for old_entries in [false, true] {
            if old_entries {
                lay_old_entries(comparer, page);
            }
            for to in (0..=40).chain([255, 256, 280, 1 << 31, u32::MAX]) {
                comparer.set(length * page + ENTRY_COUNT_AT, &u32::to_le_bytes(to));
                calls(comparer, page);
            }
            comparer.set(length * page, &whole[length * page..length * page + length]);
        }
    }
}

/// Entries as they might follow the last one.
fn lay_old_entries(comparer: &mut Comparer, page: usize) {
    let image = comparer.image();
    let (k, from) = (capacity(image), page_bytes(image) * page);
    let entries = u32_at(image, page, ENTRY_COUNT_AT) as usize;
    let (mut start, child) =
        (u32_at(image, page, start_at(entries - 1)), u32_at(image, page, child_at(k, entries - 1)));
    for i in entries..k {
        start = start.saturating_add(1 + comparer.random.below(3) as u32);
        comparer.set(from + start_at(i), &start.to_le_bytes());
        comparer.set(from + sum_at(k, i), &1i64.to_le_bytes());
        comparer.set(from + count_at(k, i), &1i32.to_le_bytes());
        comparer.set(from + child_at(k, i), &child.to_le_bytes());
    }
}

// ---------------------------------------------------------------- tall images

/// The parts that damage tall images whose K is 24; the rest does those of other capacities.
const PARTS_AT_24: usize = 4 * TALLS;
pub const DAMAGED_FIELDS: usize = PARTS_AT_24 + HIGHS;

/// Damage anywhere in a tall image, and calls that meet it.
pub fn damaged_fields(comparer: &mut Comparer, pool: &Pool, part: usize) {
    let part = part % DAMAGED_FIELDS;
    let whole = if part < PARTS_AT_24 { &pool.tall[part % TALLS] } else { &pool.high[part - PARTS_AT_24] };
    let length = page_bytes(whole);
    comparer.lend(whole);
    let rounds = if whole.len() > 100_000 { 400 } else { 1_200 };
    for _ in 0..rounds {
        let mut damaged = Vec::new();
        for _ in 0..1 + comparer.random.below(2) {
            let damage = drawn(comparer, whole);
            comparer.set(damage.at, &damage.bytes);
            damaged.push(damage.at / length);
        }
        for page in damaged.iter().copied() {
            let t = instant_of(whole, page, &mut comparer.random);
            comparer.instant(t);
            comparer.average(t);
            comparer.instant(t.wrapping_sub(1));
            comparer.listing(t, t.saturating_add(1));
            comparer.listing(t.saturating_sub(500), t);
            comparer.listing(t.saturating_sub(40), t.saturating_add(900));
        }
        if comparer.random.one_in(6) {
            comparer.audit();
            comparer.listing(0, END);
        }
        if comparer.random.one_in(6) {
            comparer.changes_and_back();
        }
        for page in damaged {
            comparer.set(length * page, &whole[length * page..length * page + length]);
        }
    }
}

pub struct Damage {
    pub at: usize,
    pub bytes: Vec<u8>,
}

/// A field of a page, tree pages mostly, inner ones often; set to an end of its range, or to nearly what it was.
pub fn drawn(comparer: &mut Comparer, whole: &[u8]) -> Damage {
    let (k, length) = (capacity(whole), page_bytes(whole));
    let n = whole.len() / length;
    let random = &mut comparer.random;
    let page = page_drawn(whole, n, random);
    let i = random.below(k);
    let at = length * page
        + match random.below(9) {
            0 => 0,
            1 => ENTRY_COUNT_AT,
            2 => start_at(i),
            3 => sum_at(k, i),
            4 => count_at(k, i),
            5 => child_at(k, i),
            6 => 4 * random.below(10),
            7 => start_at(random.below(2)),
            _ => random.below(length - 8),
        };
    let old = u32::from_le_bytes(whole[at..at + 4].try_into().expect("4 bytes"));
    let mut bytes = match random.below(5) {
        0 => vec![whole[at] ^ 1 << random.below(8)],
        1 => random.pick(&sums()).to_le_bytes().to_vec(),
        2 => old.wrapping_add(random.between(-2, 2) as u32).to_le_bytes().to_vec(),
        3 => (random.below(n) as u32).to_le_bytes().to_vec(),
        _ => random.pick(&numbers(n as u32, k as u32)).to_le_bytes().to_vec(),
    };
    bytes.truncate(length - at % length);
    Damage { at, bytes }
}

fn page_drawn(image: &[u8], n: usize, random: &mut Random) -> usize {
    if random.one_in(12) {
        return 0;
    }
    let wanted = random.below(head(image, HEIGHT) as usize) as u32;
    (0..50).map(|_| random.below(n)).find(|page| *page > 0 && level(image, *page) == wanted).unwrap_or(1)
}
