//! Damaged images: single bytes, and numbers at the ends of their ranges.

use plain::END;

use super::both::{Both, Call};
use super::capacity::{CAPACITY_AT, FIELDS};
use super::loads::listings;
use crate::subjects::{formatted, height};

/// Single bytes of an image changed, one at a time.
pub fn bytes(both: &mut Both, image: &[u8]) {
    both.lend(image);
    for _ in 0..rounds(image) {
        let page = page(both, image);
        let offset = match both.random.below(4) {
            0 => both.random.below(40),
            _ => both.random.below(512),
        };
        let at = 512 * page + offset as usize;
        let byte = match both.random.below(3) {
            0 => image[at] ^ 1 << both.random.below(8),
            1 => image[at].wrapping_add(1),
            _ => both.random.below(256) as u8,
        };
        let before = both.set(at, &[byte]);
        questions(both, image, page);
        both.set(at, &before);
    }
}

/// Numbers of an image set to the ends of their ranges and to what other pages have; the count of changes lowered, so that
/// the bounds of sums and counts are met.
pub fn numbers(both: &mut Both, image: &[u8]) {
    both.lend(image);
    for _ in 0..rounds(image) {
        let page = page(both, image);
        let (at, number) = number(both, image, page);
        let before = both.set(at, &number);
        questions(both, image, page);
        both.set(at, &before);
    }
}

/// The changes of heavy images counted lower, down to 0, so that the sums and counts along a path go over their bounds.
pub fn bounds(both: &mut Both) {
    for (entered, withdrawn) in [(3, 3), (1_000_000, 1_000_000), (1_000_000, -1_000_000)] {
        let image = heavy(both, entered, withdrawn);
        let changes = u32_at(&image, 32);
        for lowered in 0..=changes {
            both.set(32, &lowered.to_le_bytes());
            both.ask(Call::Audit, both.borrowed(), 0);
            for t in [5, 100, both.random.below(3_000), END - 1] {
                both.ask(Call::Instant { t }, 0, 0);
            }
            let b = 1 + both.random.below(3_000);
            both.ask(Call::Listing { a: 0, b }, 0, 384 * both.pages());
        }
    }
}

/// A tree of height 3 below many bookings over nearly all of the time. Where the value withdrawn isn't the one entered, every
/// second is a withdrawal: sums grow, and counts don't.
fn heavy(both: &mut Both, entered: i64, withdrawn: i64) -> Vec<u8> {
    both.lend(&formatted(64, 1, 0));
    for i in 1..=200 {
        both.ask(Call::Enter { v: i64::from(i % 4), s: 10 * i, e: 10 * i + 5 }, both.borrowed(), 0);
    }
    for i in 0..150 {
        let (s, e) = (i % 3, END - i % 3);
        let entry = entered == withdrawn || i % 2 == 0;
        let call = if entry { Call::Enter { v: entered, s, e } } else { Call::Withdraw { v: withdrawn, s, e } };
        both.ask(call, both.borrowed(), 0);
    }
    assert_eq!(height(both.image()), 3);
    both.image().to_vec()
}

fn rounds(image: &[u8]) -> usize {
    if image.len() > 50_000 {
        150
    } else {
        300
    }
}

/// The head, an inner page if there is one, or any page, mostly one in use.
fn page(both: &mut Both, image: &[u8]) -> usize {
    let (pages, used) = (image.len() / 512, u32_at(image, 20).max(2));
    let inner: Vec<usize> = (1..pages).filter(|page| (1..=3).contains(&u32_at(image, 512 * page))).collect();
    match both.random.below(8) {
        0 => 0,
        1 => both.random.below(pages as u32) as usize,
        2 | 3 if !inner.is_empty() => pick(both, &inner),
        _ => both.random.below(used) as usize,
    }
}

/// A number to be set, and where.
fn number(both: &mut Both, image: &[u8], page: usize) -> (usize, Vec<u8>) {
    let n = (image.len() / 512) as u32;
    let place = both.random.below(24) as usize;
    let entry = 512 * page + 128 + 16 * place;
    let (changes, near) = (u32_at(image, 32), both.random.below(3));
    let count = changes.wrapping_add(near).wrapping_sub(1);
    let sum = 1_000_000 * i64::from(changes) + i64::from(near) - 1;
    let small = both.random.below(n + 2);
    match both.random.below(15) {
        0 => (32, both.random.below(40).to_le_bytes().to_vec()),
        1 => (32, both.random.below(changes.max(1)).to_le_bytes().to_vec()),
        2 => (entry, pick(both, &[sum, -sum, i64::MIN, i64::MAX, 0, 1_000_001, -1_000_000]).to_le_bytes().to_vec()),
        3 => (entry + 8, pick(both, &[count, count.wrapping_neg(), 1 << 31, 2, 0, 1]).to_le_bytes().to_vec()),
        4 => (entry + 12, pick(both, &[0, 1, n - 1, n, u32::MAX, small]).to_le_bytes().to_vec()),
        5 => (512 * page + 4, pick(both, &[0, 1, 2, 11, 12, 13, 23, 24, 25, u32::MAX]).to_le_bytes().to_vec()),
        6 => (512 * page, pick(both, &[0, 1, 2, 3, 4, 9, 255, u32::MAX]).to_le_bytes().to_vec()),
        7 => (4 * pick(both, &[1, 2, 3, 4, 5, 6]), small.to_le_bytes().to_vec()),
        8 => (4 * pick(both, &[1, 2, 3, 4, 5, 6, 7, 8]), pick(both, &[0, n, n - 1, u32::MAX]).to_le_bytes().to_vec()),
        9 => {
            let other = 512 * page + 32 + 4 * both.random.below(24) as usize;
            (512 * page + 32 + 4 * place, image[other..other + 4].to_vec())
        }
        10 => (512 * page, shortened(&image[512 * page..][..512], pick(both, &[0, 1, 2, 11, 12, 13]))),
        11 => (512 * page, image[512 * small.min(n - 1) as usize..][..512].to_vec()),
        12 => (CAPACITY_AT, pick(both, &FIELDS).to_le_bytes().to_vec()),
        13 => (4, pick(both, &[4u32, 5, 9, 10, 11]).to_le_bytes().to_vec()),
        _ => (512 * page, vec![0xFF; 512]),
    }
}

/// A page with so many entries, if it has more, and FF behind them: nothing but the number may be wrong.
fn shortened(page: &[u8], entries: usize) -> Vec<u8> {
    let mut page = page.to_vec();
    if (entries as u32) < u32_at(&page, 4) {
        page[4..8].copy_from_slice(&(entries as u32).to_le_bytes());
        page[32 + 4 * entries..128].fill(0xFF);
        page[128 + 16 * entries..].fill(0xFF);
    }
    page
}

fn pick<T: Copy>(both: &mut Both, from: &[T]) -> T {
    from[both.random.below(from.len() as u32) as usize]
}

fn u32_at(image: &[u8], at: usize) -> u32 {
    u32::from_le_bytes(image[at..at + 4].try_into().expect("4 bytes"))
}

/// Instants whose path may meet the page, a span at one of them, an audit and changes. A change that is accepted is undone.
fn questions(both: &mut Both, image: &[u8], page: usize) {
    let start = u32_at(image, 512 * page + 32 + 4 * both.random.below(12) as usize);
    let t = if both.random.below(4) == 0 { both.random.below(END) } else { start };
    both.ask(Call::Audit, both.borrowed(), 0);
    for t in [t, t.saturating_sub(1), 0] {
        both.ask(Call::Instant { t }, 0, 0);
    }
    both.ask(Call::Average { t }, 0, 0);
    let long = 1 + both.random.below(END - 1) / pick(both, &[1, 100, 10_000, 1_000_000]);
    listings(both, t, t.saturating_add(long));
    let (v, s, e) =
        (i64::from(both.random.below(9)) - 4, t.saturating_sub(both.random.below(3)), t.saturating_add(long));
    let call = if both.random.below(2) == 0 { Call::Enter { v, s, e } } else { Call::Withdraw { v, s, e } };
    let damaged = both.image().to_vec();
    if both.ask(call, both.borrowed(), 0) == 0 {
        both.lend(&damaged);
    }
}
