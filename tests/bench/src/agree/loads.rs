//! Bookings entered and withdrawn at random, in images of each height, kind and several windows; questions between them.

use plain::END;

use super::both::{Both, Call};
use super::capacity::CAPACITY_AT;
use crate::subjects::{formatted, height};

/// An image, how many bookings are entered in it, and the height that it is to reach.
struct Load {
    pages: usize,
    /// An image from before the capacity was stored, with FF there.
    older: bool,
    window: u32,
    bookings: usize,
    range: u32,
    /// One after the other, which leaves pages half full and makes the tree high with few bookings.
    in_order: bool,
    height: u32,
}

const LOADS: [Load; 8] = [
    Load { pages: 2, older: false, window: 0, bookings: 40, range: 60, in_order: false, height: 1 },
    Load { pages: 3, older: true, window: 5, bookings: 60, range: 200, in_order: false, height: 1 },
    Load { pages: 7, older: false, window: 0, bookings: 300, range: 500, in_order: false, height: 2 },
    Load {
        pages: 40,
        older: true,
        window: 1_000_000_000,
        bookings: 500,
        range: 3_000_000_000,
        in_order: false,
        height: 2,
    },
    Load { pages: 64, older: false, window: 0, bookings: 800, range: END, in_order: false, height: 3 },
    Load { pages: 200, older: true, window: 3, bookings: 1_500, range: 20_000, in_order: false, height: 3 },
    Load { pages: 1_024, older: false, window: 40, bookings: 4_000, range: 1_000_000_000, in_order: false, height: 3 },
    Load { pages: 1_024, older: true, window: 0, bookings: 4_400, range: 2_000_000_000, in_order: true, height: 4 },
];

/// All loads for each kind; the images at their fullest and as they are left.
pub fn changes(both: &mut Both) -> Vec<Vec<u8>> {
    let mut images = Vec::new();
    for load in &LOADS {
        for kind in 1..=3 {
            both.lend(&formatted(load.pages, kind, load.window));
            if load.older {
                both.set(CAPACITY_AT, &[0xFF; 4]);
            }
            images.push(both.image().to_vec());
            let booked = enter(both, load);
            assert_eq!(both.image()[CAPACITY_AT] == 0xFF, load.older, "a change keeps the capacity");
            assert!(height(both.image()) >= load.height, "height {} of {}", height(both.image()), load.height);
            images.push(both.image().to_vec());
            if kind == 1 {
                withdraw(both, booked);
                images.push(both.image().to_vec());
            }
        }
    }
    images
}

/// Changes in images with no page to spare: whether both cuts together find their pages is asked again and again, with
/// pages that are full, that only become so by the first cut, and that it has split.
pub fn without_spare_pages(both: &mut Both) {
    for pages in [3, 4, 5, 6, 26, 27, 28, 29, 30, 31] {
        both.lend(&formatted(pages, 1, 0));
        for _ in 0..1_200 {
            let (one, other) = (both.random.below(20_000), both.random.below(20_000));
            let (v, s, e) = (i64::from(both.random.below(9)), one.min(other), one.max(other) + 1);
            let withdrawal = both.random.below(3) == 0;
            change(both, if withdrawal { Call::Withdraw { v, s, e } } else { Call::Enter { v, s, e } });
        }
    }
}

/// Enters bookings, one in eight of kind 1 withdrawn again at once; those that are left.
fn enter(both: &mut Both, load: &Load) -> Vec<(i64, u32, u32)> {
    let mut booked = Vec::new();
    for i in 0..load.bookings {
        let (v, s, e) = booking(both, load, i as u32);
        if change(both, Call::Enter { v, s, e }) == 0 {
            booked.push((v, s, e));
        }
        if both.random.below(8) == 0 {
            let (v, s, e) = *pick(both, &booked).unwrap_or(&(1, 2, 3));
            change(both, Call::Withdraw { v, s, e });
        }
        questions(both, load.range, i);
    }
    booked
}

/// Withdraws all bookings in any order, so that pages merge and go to the free list.
fn withdraw(both: &mut Both, mut booked: Vec<(i64, u32, u32)>) {
    while !booked.is_empty() {
        let i = both.random.below(booked.len() as u32) as usize;
        let (v, s, e) = booked.swap_remove(i);
        change(both, Call::Withdraw { v, s, e });
        questions(both, e, booked.len());
    }
}

/// Mostly short with any value, some long with a small one; some with an end at END or a start at 0.
fn booking(both: &mut Both, load: &Load, i: u32) -> (i64, u32, u32) {
    let random = &mut both.random;
    let each = load.range / load.bookings as u32;
    let (long, open) = (random.below(16) == 0, random.below(60));
    let longest = if long { load.range } else { each / 2 + 2 };
    let s = match open {
        0 => 0,
        _ if load.in_order => each * i,
        _ => random.below(load.range),
    };
    let e = if open == 1 { END } else { s.saturating_add(1 + random.below(longest)) };
    let v =
        if long || open < 2 { i64::from(random.below(7)) - 3 } else { i64::from(random.below(2_000_001)) - 1_000_000 };
    (v, s, e)
}

fn pick<'a, T>(both: &mut Both, from: &'a [T]) -> Option<&'a T> {
    from.get(both.random.below(from.len().max(1) as u32) as usize)
}

fn change(both: &mut Both, call: Call) -> u32 {
    let longer = both.random.below(3) as usize;
    both.ask(call, both.borrowed() + longer, 0)
}

/// Now and then instants, averages, a listing with outputs around the length that it needs, and an audit.
fn questions(both: &mut Both, range: u32, i: usize) {
    let t = both.random.below(range.max(1));
    both.ask(Call::Instant { t }, 0, 0);
    both.ask(Call::Average { t }, 0, 0);
    if i % 8 == 0 {
        let b = t.saturating_add(1 + both.random.below(range / 4 + 1));
        listings(both, t, b);
        both.ask(Call::Audit, both.borrowed(), 0);
    }
    if i % 64 == 0 {
        listings(both, 0, END);
    }
}

/// A listing with plenty of room, with exactly what it needs, and with less.
pub fn listings(both: &mut Both, a: u32, b: u32) {
    let plenty = 384 * both.pages();
    let call = Call::Listing { a, b };
    if both.ask(call, 0, plenty) == 0 {
        let needed = 16 * both.runs as usize;
        let (fewer, more) = (both.random.below(needed as u32) as usize, both.random.below(20) as usize);
        for output in [needed, needed + more, needed - 1, fewer] {
            both.ask(call, 0, output);
        }
    }
}
