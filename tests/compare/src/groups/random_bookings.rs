//! Random bookings and withdrawals on images of 2 to 1,024 pages; after each, calls around its span.

use plain::END;

use crate::comparer::Comparer;
use crate::images::{fresh, head, pages_of, Pool, KIND, WINDOW};

/// How a load draws its spans: starts are below `range`, spans at most `longest`, but for a few.
#[derive(Clone, Copy)]
struct Times {
    range: usize,
    longest: usize,
}

const TIMES: [Times; 5] = [
    Times { range: 60, longest: 9 },
    Times { range: 200, longest: 150 },
    Times { range: 5_000, longest: 300 },
    Times { range: 400_000, longest: 40 },
    Times { range: 4_000_000_000, longest: 200_000_000 },
];
const WINDOWS: [u32; 7] = [0, 0, 1, 7, 50, 1_000, 1_000_000_000];
const SIZES: [usize; 20] = [2, 3, 4, 5, 6, 7, 8, 9, 11, 14, 17, 21, 25, 30, 36, 50, 64, 100, 300, 1_024];

pub fn random_bookings(comparer: &mut Comparer, _: &Pool, part: usize) {
    let n = SIZES[part % SIZES.len()];
    let kind = 1 + (part / SIZES.len() + part) as u32 % 3;
    let window = comparer.random.pick(&WINDOWS);
    load(comparer, &fresh(n, kind, window), if n > 64 { 250 } else { 500 });
}

/// A list of changes: how its spans are drawn, what is live, and whether it grows.
pub struct Season {
    times: Times,
    live: Vec<(i64, u32, u32)>,
    growing: bool,
}

impl Season {
    pub fn drawn(comparer: &mut Comparer) -> Season {
        Season { times: comparer.random.pick(&TIMES), live: Vec::new(), growing: true }
    }

    /// The next change, of the image at hand; its span.
    pub fn change(&mut self, comparer: &mut Comparer, kind: u32) -> (u32, u32) {
        self.growing = self.growing != comparer.random.one_in(25);
        change(comparer, kind, self.times, self.growing, &mut self.live)
    }
}

/// On a fresh image of any K, so many changes.
pub fn load(comparer: &mut Comparer, image: &[u8], changes: usize) {
    let (kind, window) = (head(image, KIND), head(image, WINDOW));
    let mut season = Season::drawn(comparer);
    let times = season.times;
    comparer.lend(image);
    for _ in 0..changes {
        let (s, e) = season.change(comparer, kind);
        for t in [s.wrapping_sub(1), s, e - 1, e, e.wrapping_add(window), e.wrapping_add(window).wrapping_sub(1)] {
            comparer.instant(t);
        }
        let t = comparer.random.below(times.range) as u32;
        comparer.average(t);
        let wide = comparer.random.below(2 * times.longest) as u32;
        comparer.listings(s, s.saturating_add(wide));
        if comparer.random.one_in(8) {
            comparer.listings(0, END);
            comparer.audit();
            comparer.format(4, 0);
        }
    }
}

/// Mostly entries while it grows, else withdrawals of live bookings; a few of bookings that aren't. Its span.
fn change(
    comparer: &mut Comparer,
    kind: u32,
    times: Times,
    growing: bool,
    live: &mut Vec<(i64, u32, u32)>,
) -> (u32, u32) {
    let (s, e) = span(comparer, times);
    let v = value(comparer);
    let grows = comparer.random.below(10) < if growing { 8 } else { 2 };
    if comparer.random.one_in(40) {
        comparer.book(true, v, s, e);
        return (s, e);
    }
    if grows || live.is_empty() || kind != 1 {
        if comparer.book(false, v, s, e) == 0 {
            live.push((v, s, e));
        }
        return (s, e);
    }
    let i = comparer.random.below(live.len());
    let (v, s, e) = live[i];
    if comparer.book(true, v, s, e) == 0 {
        live.swap_remove(i);
    }
    (s, e)
}

fn span(comparer: &mut Comparer, times: Times) -> (u32, u32) {
    let random = &mut comparer.random;
    match random.below(40) {
        0 => (random.below(times.range) as u32, END),
        1 => (0, 1 + random.below(times.range) as u32),
        2 => {
            let s = END - 1 - random.below(5) as u32;
            (s, s + 1 + random.below((END - s) as usize) as u32)
        }
        _ => {
            let s = random.below(times.range) as u32;
            (s, s.saturating_add(1 + random.below(times.longest) as u32))
        }
    }
}

fn value(comparer: &mut Comparer) -> i64 {
    let random = &mut comparer.random;
    match random.below(30) {
        0 => 1_000_000,
        1 => -1_000_000,
        2 => 0,
        3..=10 => random.between(-1_000_000, 1_000_000),
        _ => random.between(-2, 2),
    }
}

// ---------------------------------------------------------------- full images

/// Full images of the pool: some changes find pages, some don't.
pub fn full_images(comparer: &mut Comparer, pool: &Pool, _: usize) {
    use crate::images::CHANGES;
    let full = pool.tall.iter().filter(|image| image.len() < 100_000 && head(image, CHANGES) > 250);
    // Of the other capacities those that are filled in the same way.
    let other = pool.high.iter().filter(|image| image.len() < 100_000 && head(image, CHANGES) < 1_000);
    for image in full.chain(other) {
        comparer.lend(image);
        let range = 2_000 * pages_of(image);
        for _ in 0..300 {
            let (s, long) = (comparer.random.below(range) as u32, 1 + comparer.random.below(130) as u32);
            let withdrawal = comparer.random.one_in(2);
            let v = value(comparer);
            comparer.book(withdrawal, v, s, s + long);
            comparer.instant(s);
        }
        comparer.listings(0, END);
    }
}
