//! Sound images of heights 1 to 10, at every K: instants at starts and their neighbours, averages, listings, audits.

use plain::END;

use crate::comparer::Comparer;
use crate::images::{pages_of_level, start_at, u32_at, Pool, ENTRY_COUNT_AT};

pub fn heights(comparer: &mut Comparer, pool: &Pool, part: usize) {
    let image = pool.image(part);
    comparer.lend(image);
    comparer.audit();
    comparer.changes_and_back();
    for t in [0, 1, END - 1, END] {
        comparer.instant(t);
        comparer.average(t);
    }
    let leaves = pages_of_level(image, 0);
    for _ in 0..2_500 {
        let page = leaves[comparer.random.below(leaves.len())];
        let entries = u32_at(image, page, ENTRY_COUNT_AT) as usize;
        let start = u32_at(image, page, start_at(comparer.random.below(entries)));
        let t = start.wrapping_add(comparer.random.between(-1, 1) as u32);
        comparer.instant(t);
        if comparer.random.one_in(4) {
            comparer.average(t);
        }
    }
    spans(comparer);
}

/// Short and long spans, empty ones, and the full listing.
fn spans(comparer: &mut Comparer) {
    comparer.listings(0, END);
    for _ in 0..120 {
        let a = comparer.random.instant();
        let b = match comparer.random.below(6) {
            0 => comparer.random.instant(),
            1 => END,
            2 => a.wrapping_add(comparer.random.below(3) as u32),
            _ => a.wrapping_add(comparer.random.below(900) as u32),
        };
        comparer.listings(a, b);
    }
    for _ in 0..3 {
        comparer.audit();
    }
}
