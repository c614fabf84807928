//! The head's capacity: every number there, in images of many lengths; and the heights that a head may name.
//!
//! The peer knows pages of 24 entries alone. Of an image that says otherwise it tells what the library does as long as the
//! library refuses it, and that is as long as the number of pages in the head isn't the one for the other capacity.

use plain::END;

use super::both::{Both, Call};
use crate::subjects::{formatted, CAPACITY};

/// Where the head has the capacity.
pub const CAPACITY_AT: usize = 36;

/// Numbers there: capacities, FF for an older image, and what is none.
pub const FIELDS: [u32; 20] =
    [0, 1, 2, 3, 4, 5, 6, 8, 10, 12, 16, 20, 22, 23, 24, 25, 26, CAPACITY << 8, u32::MAX - 1, u32::MAX];

/// Each number with lengths around those of few and of many pages of its capacity, and around 40 bytes. The head's number of
/// pages is 160, which no length here is for any capacity.
pub fn fields(both: &mut Both) {
    let longest = formatted(160, 1, 0);
    for field in FIELDS {
        let capacity = if field > CAPACITY { CAPACITY } else { field };
        let page = 32 + 20 * capacity as usize;
        for length in [0, 36, 39, 40, page, 2 * page - 1, 2 * page, 3 * page, 159 * page + 1, 159 * page, 1_024, 2_048]
        {
            both.lend(&longest[..length]);
            if length >= CAPACITY_AT + 4 {
                both.set(CAPACITY_AT, &field.to_le_bytes());
            }
            for scratch in [0, 1, 19, 20, 159, 200] {
                every_call(both, scratch);
            }
        }
    }
}

/// All calls, some of them with an empty span, END or a value out of range besides.
fn every_call(both: &mut Both, scratch: usize) {
    both.ask(Call::Audit, scratch, 0);
    for (v, s, e) in [(1, 3, 4), (1, 4, 4), (1_000_001, 3, 4)] {
        both.ask(Call::Enter { v, s, e }, scratch, 0);
        both.ask(Call::Withdraw { v, s, e }, scratch, 0);
        both.ask(Call::Listing { a: s, b: e }, 0, 64);
    }
    for t in [3, END] {
        both.ask(Call::Instant { t }, 0, 0);
        both.ask(Call::Average { t }, 0, 0);
    }
}

/// Trees with one page a level. Up to height 10 an instant on the way through their first entries is answered, though no such
/// image is sound: neighbours in the leaf are equal, and from height 2 on any other instant meets a page that is unfit at its
/// place. Height 11 is refused at the head.
pub fn heights(both: &mut Both) {
    for height in 1..=11 {
        both.lend(&one_page_a_level(height));
        assert_eq!(both.ask(Call::Instant { t: 0 }, 0, 0), if height <= 10 { 0 } else { 21 });
        every_call(both, both.borrowed());
        for level in 1..=height {
            let end = END - 11 * (level - 1);
            for t in [end - 12, end - 11, end - 1] {
                both.ask(Call::Instant { t }, 0, 0);
            }
            for (a, b) in [(0, end - 11), (0, end), (end - 11, end)] {
                both.ask(Call::Listing { a, b }, 0, 16 * 24 * both.pages());
            }
        }
    }
}

/// Page 1 is the root, and all entries of a page lead to the next one. A page has 12 entries; the first takes all of its span
/// but the last 11 instants, so that the page below fits under it.
fn one_page_a_level(height: u32) -> Vec<u8> {
    let mut image = formatted(height as usize + 1, 1, 0);
    let mut put = |at: usize, number: u32| image[at..at + 4].copy_from_slice(&number.to_le_bytes());
    put(4, height);
    put(20, height + 1);
    for number in 1..=height {
        let (page, end) = (512 * number as usize, END - 11 * (number - 1));
        put(page, height - number);
        put(page + 4, 12);
        for i in 0..12 {
            put(page + 32 + 4 * i, if i == 0 { 0 } else { end - 12 + i as u32 });
            for at in [0, 4, 8, 12] {
                put(page + 128 + 16 * i + at, 0);
            }
            if number < height {
                put(page + 140 + 16 * i, number + 1);
            }
        }
    }
    image
}
