//! Document 02, (xi), on what turns an image back: "An odd K or one outside its range gives 14 at format, ahead of 16. In an image K
//! is read before the length is judged: under 40 bytes gives 16, a bad K 21 ahead of 16, scratch untouched". What each call has
//! to return is worked out here.

use plain::END;

use crate::calls::{Answer, Call};
use crate::comparer::Comparer;
use crate::images::{
    bytes_of, capacity, fresh, fresh_of, head, level, page_bytes, pages_of, put, scratch_bytes, start_at, sum_at,
    u32_at, Pool, CAPACITIES, CAPACITY, ENTRY_COUNT_AT, HEIGHT, ROOT,
};

/// Each sort of number that is no K: odd ones, too small and too great ones, and good ones with a byte more.
fn bad() -> Vec<u32> {
    let small = (0..=40u32).chain([48, 255, 256, 257, 260, 264, 280, 512]);
    let great =
        [65_536 + 4, 65_536 + 24, (24 << 24) | 24, 1 << 31, (1 << 31) + 4, (1 << 31) + 24, 0xFF00_0018, 0x18FF_FFFF];
    let nearly = [0x00FF_FFFF, 0xFFFF_FF00, 0xFFFF_00FF, u32::MAX - 255, u32::MAX - 231, u32::MAX - 3, u32::MAX - 1];
    small.chain(great).chain(nearly).filter(|k| !is_good(*k)).collect()
}

fn is_good(k: u32) -> bool {
    CAPACITIES.contains(&(k as usize))
}

/// Every call on the image at hand, with arguments in order and with others, is turned back with this number, and nothing else.
fn all_refused(comparer: &mut Comparer, status: u32) {
    let n = comparer.pages();
    let borrowed = scratch_bytes(n);
    for t in [0, 7, END] {
        comparer.expect(Call::Instant { t }, 0, 0, Answer::status(status));
        comparer.expect(Call::Average { t }, 0, 0, Answer::status(status));
    }
    for (a, b, output) in [(0, END, 64), (5, 5, 64), (0, END, 0)] {
        comparer.expect(Call::Listing { a, b }, 0, output, Answer::status(status));
    }
    for scratch in [0, borrowed, n, n + 7] {
        comparer.expect(Call::Audit, scratch, 0, Answer::status(status));
    }
    for (v, s, e, scratch) in [(1, 5, 9, n + 2), (1, 5, 9, 0), (1, 9, 9, borrowed), (1_000_001, 5, 9, borrowed)] {
        comparer.expect(Call::Enter { v, s, e }, scratch, 0, Answer::status(status));
        comparer.expect(Call::Withdraw { v, s, e }, scratch, 0, Answer::status(status));
    }
    for (scratch, target) in [(n + 2, 1_024), (borrowed, 224), (borrowed, 39), (0, 0)] {
        comparer.expect(Call::Rebuild, scratch, target, Answer::status(status));
    }
}

// ---------------------------------------------------------------- bad capacities and short images

pub fn bad_capacities(comparer: &mut Comparer, pool: &Pool, _: usize) {
    under_40_bytes(comparer);
    let lengths = [40, 41, 111, 112, 223, 224, 511, 512, 1_023, 1_024, 1_025, 2_048, 524_288, 524_800];
    for k in bad() {
        for length in lengths.into_iter().filter(|length| *length < 4_096 || k % 5 == 0) {
            let mut image = fresh(2, 1, 0);
            image.resize(length, 0xFF);
            put(&mut image, 0, 4 * CAPACITY, &k.to_le_bytes());
            comparer.lend(&image);
            all_refused(comparer, 21);
        }
        for whole in pool.small.iter().chain(&pool.other) {
            comparer.lend(whole);
            comparer.set(4 * CAPACITY, &k.to_le_bytes());
            comparer.expect(Call::Instant { t: 30 }, 0, 0, Answer::status(21));
            comparer.expect(Call::Audit, 16, 0, Answer::status(21));
            comparer.expect(Call::Enter { v: 1, s: 30, e: 35 }, 16, 0, Answer::status(21));
            comparer.expect(Call::Rebuild, 16, whole.len(), Answer::status(21));
        }
    }
    // A good one in an image of 40 bytes: no page has so few.
    for k in CAPACITIES.map(|k| k as u32).into_iter().chain([u32::MAX]) {
        let mut image = fresh(2, 1, 0);
        image.truncate(40);
        put(&mut image, 0, 4 * CAPACITY, &k.to_le_bytes());
        comparer.lend(&image);
        all_refused(comparer, 16);
    }
}

/// "under 40 bytes gives 16", whatever the bytes are; empty ones are lent as null too.
fn under_40_bytes(comparer: &mut Comparer) {
    for length in 0..40 {
        let bytes = comparer.random.bytes(length);
        for image in [&bytes, &vec![0; length], &vec![0xFF; length], &fresh_of(4, 2, 1, 0)[..length].to_vec()] {
            comparer.lend(image);
            for null in [false, true] {
                comparer.lend_null(null);
                all_refused(comparer, 16);
                for (k, status) in [(4, 16), (24, 16), (5, 14), (0, 14)] {
                    comparer.expect(Call::Format { kind: 9, window: 0, capacity: k }, 0, 0, Answer::status(status));
                }
            }
            comparer.lend_null(false);
        }
    }
}

// ---------------------------------------------------------------- lengths of another capacity

/// An image of K whose field names another, and one that is cut or lengthened to another's pages: 16 where no number of pages fits,
/// else 21 in its usual place, as n or the pages don't match.
pub fn other_lengths(comparer: &mut Comparer, _: &Pool, _: usize) {
    for k in CAPACITIES {
        for other in CAPACITIES.into_iter().filter(|other| *other != k) {
            let (page, other_page) = (bytes_of(k), bytes_of(other));
            for n in [2, 3, 7, 64] {
                let mut image = fresh_of(k, n, 1, 0);
                put(&mut image, 0, 4 * CAPACITY, &(other as u32).to_le_bytes());
                judged(comparer, &image);
                let mut image = fresh_of(k, n, 1, 0);
                image.resize(other_page * n, 0xFF);
                judged(comparer, &image);
            }
            // Lengths that are whole pages of both: the first that have enough pages, and the greatest.
            let both = (2..=1_024).filter(|n| (page * n).is_multiple_of(other_page));
            let both: Vec<usize> = both.filter(|n| (2..=1_024).contains(&(page * n / other_page))).collect();
            for n in both.iter().take(2).chain(both.last()) {
                let mut image = fresh_of(k, *n, 1, 0);
                put(&mut image, 0, 4 * CAPACITY, &(other as u32).to_le_bytes());
                judged(comparer, &image);
                // The head names the other's number of pages too.
                let pages = (page * n / other_page) as u32;
                image[..4].copy_from_slice(&pages.to_le_bytes());
                judged(comparer, &image);
                image[40..other_page].fill(0xFF);
                judged(comparer, &image);
            }
        }
        for length in [41, bytes_of(k) - 1, bytes_of(k), 2 * bytes_of(k) - 1, 2 * bytes_of(k) + 1, 1_025 * bytes_of(k)]
        {
            let mut image = fresh_of(k, 2, 1, 0);
            image.resize(length, 0xFF);
            judged(comparer, &image);
        }
    }
}

/// All calls on an image whose K is good, and which isn't sound.
fn judged(comparer: &mut Comparer, image: &[u8]) {
    comparer.lend(image);
    let n = pages_of(image);
    if !image.len().is_multiple_of(page_bytes(image)) || !(2..=1_024).contains(&n) {
        all_refused(comparer, 16);
        return;
    }
    // 17, 11, 12 and 13 are ahead of this 21.
    comparer.expect(Call::Instant { t: END }, 0, 0, Answer::status(12));
    comparer.expect(Call::Listing { a: 5, b: 5 }, 0, 64, Answer::status(11));
    comparer.expect(Call::Listing { a: 5, b: 9 }, 0, 64, Answer::status(21));
    comparer.expect(Call::Average { t: 3 }, 0, 0, Answer::status(21));
    let borrowed = scratch_bytes(n);
    comparer.expect(Call::Audit, borrowed - 1, 0, Answer::status(17));
    comparer.expect(Call::Audit, borrowed, 0, Answer::status(21));
    let short = (1, 9, borrowed - 1, 17);
    for (v, e, scratch, status) in [short, (1, 5, borrowed, 11), (1_000_001, 9, borrowed, 13), (1, 9, n + 3, 21)] {
        comparer.expect(Call::Enter { v, s: 5, e }, scratch, 0, Answer::status(status));
        comparer.expect(Call::Withdraw { v, s: 5, e }, scratch, 0, Answer::status(status));
    }
    // A target's length is judged only behind them, by the source's K.
    for target in [0, 39, 2 * page_bytes(image)] {
        comparer.expect(Call::Rebuild, borrowed - 1, target, Answer::status(17));
        comparer.expect(Call::Rebuild, borrowed, target, Answer::status(21));
    }
    assert_eq!(comparer.instant(0).status, 21);
}

// ---------------------------------------------------------------- numbers of entries

/// "Trusting a page's number of entries before comparing it with 24": at another K a number from K + 1 to 24 is the same fault.
/// Every tree page of an image of each K in turn: instants that meet it count it as the last page read.
pub fn entry_counts(comparer: &mut Comparer, pool: &Pool, _: usize) {
    for whole in pool.other.iter().chain(&pool.small[5..]) {
        let (k, length) = (capacity(whole), page_bytes(whole));
        let height = head(whole, HEIGHT);
        for page in (1..pages_of(whole)).filter(|page| level(whole, *page) < 10) {
            let t = u32_at(whole, page, start_at(0));
            let pages = height - level(whole, page);
            comparer.lend(whole);
            for to in (k as u32 + 1..=25).chain([26, 32, 255, 1 << 16, 1 << 31, u32::MAX]) {
                comparer.set(length * page + ENTRY_COUNT_AT, &to.to_le_bytes());
                comparer.expect(Call::Instant { t }, 0, 0, Answer { pages, ..Answer::status(21) });
                comparer.expect(Call::Average { t }, 0, 0, Answer::status(21));
                comparer.expect(Call::Listing { a: t, b: t + 1 }, 0, 64, Answer::status(21));
                let borrowed = scratch_bytes(pages_of(whole));
                comparer.expect(Call::Audit, borrowed, 0, Answer::status(21));
                comparer.expect(Call::Enter { v: 1, s: t, e: END }, borrowed, 0, Answer::status(21));
                comparer.expect(Call::Rebuild, borrowed, whole.len(), Answer::status(21));
            }
        }
        full_pages(comparer, whole);
        shortened_pages(comparer, whole);
    }
}

/// Each page cut off behind each of its entries, FF past them, so that nothing but the number can be wrong: half and more are fit, in
/// a root leaf 1 and more, in an inner root 2 and more.
fn shortened_pages(comparer: &mut Comparer, whole: &[u8]) {
    let (k, length, height) = (capacity(whole), page_bytes(whole), head(whole, HEIGHT));
    for page in (1..pages_of(whole)).filter(|page| level(whole, *page) < 10) {
        let (level, entries) = (level(whole, page), u32_at(whole, page, ENTRY_COUNT_AT) as usize);
        let fewest = match (page == head(whole, ROOT) as usize, level) {
            (true, 0) => 1,
            (true, _) => 2,
            (false, _) => k / 2,
        };
        let t = u32_at(whole, page, start_at(0));
        comparer.lend(whole);
        for left in (0..entries).rev() {
            comparer.set(length * page + ENTRY_COUNT_AT, &(left as u32).to_le_bytes());
            comparer.set(length * page + start_at(left), &[0xFF; 4]);
            comparer.set(length * page + sum_at(k, left), &[0xFF; 16]);
            let answer = comparer.instant(t);
            let expected = if left >= fewest { (0, height) } else { (21, height - level) };
            assert_eq!((answer.status, answer.pages), expected, "{left} entries at {k}");
            comparer.listing(t, t + 1);
            comparer.listing(0, END);
            comparer.audit();
            comparer.changes_and_back();
        }
    }
}

/// Leaves with places of an older page up to the last: the number is just K, then one more.
fn full_pages(comparer: &mut Comparer, whole: &[u8]) {
    let (k, length) = (capacity(whole), page_bytes(whole));
    let leaves = (1..pages_of(whole)).filter(|page| level(whole, *page) == 0);
    for page in leaves {
        let entries = u32_at(whole, page, ENTRY_COUNT_AT) as usize;
        let mut image = whole.to_vec();
        let last = u32_at(whole, page, start_at(entries - 1));
        for i in entries..k {
            put(&mut image, page, start_at(i), &(last + 1 + (i - entries) as u32).to_le_bytes());
            put(&mut image, page, sum_at(k, i), &[0; 16]);
        }
        comparer.lend(&image);
        for to in [k as u32 - 1, k as u32, k as u32 + 1, 24, 25] {
            comparer.set(length * page + ENTRY_COUNT_AT, &to.to_le_bytes());
            comparer.instant(last);
            comparer.listing(last, last + 2);
            comparer.audit();
            comparer.changes_and_back();
        }
    }
}

// ---------------------------------------------------------------- format

/// Each K from 0 to 30 and great ones, with lengths that are right for it and not, and kinds and windows that aren't in order:
/// 14 for K, 16 by that K, 14 for the others. The bytes that are there don't matter.
pub fn capacity_formats(comparer: &mut Comparer, _: &Pool, _: usize) {
    for k in (0..=30).chain(bad()).chain([u32::MAX]) {
        let page = bytes_of((k as usize).min(60));
        let lengths =
            [0, 1, 39, 40, page - 1, page, 2 * page - 1, 2 * page, 2 * page + 1, 3 * page, 1_024, 3_584, 1_025 * page];
        for length in lengths {
            let good_length = length.is_multiple_of(page) && (2..=1_024).contains(&(length / page));
            for (kind, window) in
                [(1, 0), (2, 1_000_000_000), (3, 5), (0, 0), (4, 0), (1, 1_000_000_001), (u32::MAX, u32::MAX)]
            {
                let status = match () {
                    _ if !is_good(k) => 14,
                    _ if !good_length => 16,
                    _ if !(1..=3).contains(&kind) || window > 1_000_000_000 => 14,
                    _ => 0,
                };
                let mut bytes = comparer.random.bytes(length);
                if length >= 40 && comparer.random.one_in(2) {
                    let old = comparer.random.pick(&[4u32, 24, 5, u32::MAX]);
                    bytes[36..40].copy_from_slice(&old.to_le_bytes());
                }
                comparer.lend(&bytes);
                comparer.expect(Call::Format { kind, window, capacity: k }, 0, 0, Answer::status(status));
                if status == 0 {
                    assert_eq!(head(comparer.image(), CAPACITY), k, "format writes the field");
                    comparer.expect(Call::Audit, scratch_bytes(length / page), 0, Answer::status(0));
                    comparer.expect(Call::Instant { t: 9 }, 0, 0, Answer::pair(0, 0, 1, (0, END)));
                }
            }
        }
    }
}
