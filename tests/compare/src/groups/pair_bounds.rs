//! "for kind 1 the absolute sums of an entry and of those above it on its way add to at most 1,000,000 × changes, absolute
//! counts to at most changes": ways whose sums and counts are just that, or one more.

use crate::comparer::Comparer;
use crate::images::{capacity, count_at, head, level, page_bytes, pages_of, sum_at, way, Pool, CHANGES, KIND};
use crate::random::Random;

pub fn pair_bounds(comparer: &mut Comparer, pool: &Pool, _: usize) {
    let images: Vec<&Vec<u8>> = pool.all().filter(|image| head(image, KIND) == 1).collect();
    for whole in images {
        let rounds = match (whole.len() > 100_000, capacity(whole)) {
            (true, _) => 60,
            (false, 24) => 250,
            (false, _) => 120,
        };
        for round in 0..rounds {
            comparer.lend(whole);
            let changes = comparer.random.pick(&[0, 1, 5, head(whole, CHANGES), 999_999_999, 1_000_000_000]);
            comparer.set(4 * CHANGES, &changes.to_le_bytes());
            let t = if comparer.random.one_in(3) { comparer.random.instant() } else { 10 * (round as u32 + 1) };
            lay_way(comparer, t.min(u32::MAX - 1), changes);
            comparer.instant(t);
            comparer.average(t);
            comparer.listing(t, t.saturating_add(1));
            comparer.listing(t, t.saturating_add(25));
            if comparer.random.one_in(8) {
                comparer.audit();
                comparer.changes_and_back();
                // A rebuild asks for the same bounds, and not that neighbours differ.
                comparer.rebuild(pages_of(whole));
            }
        }
    }
}

/// Sets all pairs of the pages on the way to nothing but for one entry each, mostly the way's own; in the leaf for every other entry from
/// there on, so that neighbours differ.
fn lay_way(comparer: &mut Comparer, t: u32, changes: u32) {
    let (k, length) = (capacity(comparer.image()), page_bytes(comparer.image()));
    let places = way(comparer.image(), t);
    let over = comparer.random.pick(&[0, 0, 0, 1, -1]);
    let sums = shares(1_000_000 * i64::from(changes) + over, places.len(), &mut comparer.random);
    let over = comparer.random.pick(&[0, 0, 0, 1, -1]);
    let counts = shares(i64::from(changes) + over, places.len(), &mut comparer.random);
    for (place, (sum, count)) in places.iter().zip(sums.into_iter().zip(counts)) {
        let chosen = if comparer.random.one_in(6) { comparer.random.below(place.entries) } else { place.i };
        let is_leaf = level(comparer.image(), place.page) == 0;
        for i in 0..place.entries {
            let has_it = i == chosen || is_leaf && chosen.abs_diff(i) % 2 == 0;
            let (sum, count) = if has_it { (sum, count as i32) } else { (0, 0) };
            comparer.set(length * place.page + sum_at(k, i), &sum.to_le_bytes());
            comparer.set(length * place.page + count_at(k, i), &count.to_le_bytes());
        }
    }
}

/// So many numbers of any sign whose absolute values add to `total`.
fn shares(total: i64, parts: usize, random: &mut Random) -> Vec<i64> {
    let mut rest = total.max(0);
    let mut shares = Vec::new();
    for i in 0..parts {
        let share = if i + 1 == parts { rest } else { random.between(0, rest) };
        rest -= share;
        shares.push(if random.one_in(2) { share } else { -share });
    }
    random.shuffle(&mut shares);
    shares
}
