//! Every refusal, alone and several at once, so that their order shows.

use luwhenoka::scratch_bytes;
use plain::END;

use super::both::{Both, Call};
use super::capacity::CAPACITY_AT;
use crate::subjects::formatted;

/// The head's count of changes.
const CHANGES_AT: usize = 32;

pub fn refusals(both: &mut Both) {
    for kind in 1..=3 {
        for pages in [2, 3, 5, 9] {
            let image = filled(both, pages, kind);
            for choice in 0..256 {
                refused(both, &image, choice);
            }
        }
        lengths(both, kind);
    }
}

/// An image of which no page is left for a cut.
fn filled(both: &mut Both, pages: usize, kind: u32) -> Vec<u8> {
    both.lend(&formatted(pages, kind, 0));
    for i in 1..200 {
        both.ask(Call::Enter { v: i64::from(i % 5), s: 10 * i, e: 10 * i + 5 }, both.borrowed(), 0);
    }
    both.image().to_vec()
}

/// All calls with some of eight reasons to be refused, a bit for each.
fn refused(both: &mut Both, image: &[u8], choice: u32) {
    let has = |bit: u32| choice >> bit & 1 == 1;
    both.lend(&image[..image.len() - usize::from(has(0))]);
    let pages = image.len() / 512;
    let scratch = scratch_bytes(pages) - usize::from(has(1));
    if has(2) {
        both.set(CHANGES_AT, &1_000_000_000u32.to_le_bytes());
    }
    if has(3) {
        both.set(500, &[0]);
    }
    if has(7) {
        both.set(CAPACITY_AT, &23u32.to_le_bytes());
    }
    let (s, e) = if has(4) { (5_001, 5_001) } else { (5_001, 5_003) };
    let v = if has(5) { -1_000_001 } else { 1_000_000 };
    let (s, e) = if has(6) { (0, END) } else { (s, e) };
    both.ask(Call::Audit, scratch, 0);
    both.ask(Call::Enter { v, s, e }, scratch, 0);
    both.ask(Call::Withdraw { v, s, e }, scratch, 0);
    both.ask(Call::Listing { a: s, b: e }, 0, if has(5) { 0 } else { 384 * pages });
    both.ask(Call::Instant { t: if has(6) { END } else { s } }, 0, 0);
    both.ask(Call::Average { t: if has(6) { END } else { s } }, 0, 0);
}

/// Images of any length.
fn lengths(both: &mut Both, kind: u32) {
    let longest = formatted(1_024, kind, 0);
    let mut bytes = longest.clone();
    bytes.extend_from_slice(&longest[..1_024]);
    for length in [0, 1, 39, 40, 41, 511, 512, 513, 1_023, 1_024, 1_025, 524_287, 524_288, 524_289, 524_800] {
        both.lend(&bytes[..length]);
        both.ask(Call::Instant { t: 3 }, 0, 0);
        both.ask(Call::Average { t: 3 }, 0, 0);
        both.ask(Call::Listing { a: 3, b: 4 }, 0, 64);
        for scratch in [0, 1, 127, 128, 2_000] {
            both.ask(Call::Audit, scratch, 0);
            both.ask(Call::Enter { v: 1, s: 3, e: 4 }, scratch, 0);
        }
    }
}
