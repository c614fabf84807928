//! Long lists of changes at every K, and on images without the field: splits and merges, 24, reads and audits between them.
//!
//! Document 02, (xi): "All statements are proved over K; an image of 512-byte pages without the field (FF there) reads as K = 24",
//! and "a change keeps the field's bytes".

use plain::making::fresh_without_field;

use crate::comparer::Comparer;
use crate::groups::{grow_shrink, random_bookings};
use crate::images::{fresh_of, head, Pool, CAPACITIES, CAPACITY};

/// Each K, and 0 for the image without the field.
pub const EACH: [usize; 12] = [4, 6, 8, 10, 12, 14, 16, 18, 20, 22, 24, 0];
const SORTS: usize = 6;
pub const PARTS: usize = EACH.len() * SORTS;

/// A height that bookings in order reach on 1,024 pages at each K, low enough to be quick.
const HEIGHTS: [u32; 12] = [7, 5, 4, 4, 3, 3, 3, 3, 3, 3, 3, 3];

pub fn every_capacity(comparer: &mut Comparer, _: &Pool, part: usize) {
    let (i, sort) = (part % EACH.len(), part / EACH.len() % SORTS);
    let k = EACH[i];
    // Each further time through all parts, with another kind.
    let kind = 1 + ([0, 0, 1, 0, 2, 0][sort] + part / PARTS) as u32 % 3;
    let window = comparer.random.pick(&[0, 0, 3, 40]);
    let few = comparer.random.pick(&[3, 4, 5, 8, 13]);
    match sort {
        0 => random_bookings::load(comparer, &fresh(k, 8 + i, kind, window), 500),
        1 => grow_shrink::alternate(comparer, &fresh(k, 12, kind, 0), 8 * k.max(4), 1_500),
        2 => random_bookings::load(comparer, &fresh(k, few, kind, window), 400),
        3 => grow_shrink::up_and_down(comparer, &fresh(k, 500, kind, 0), HEIGHTS[i]),
        4 => grow_shrink::fill_and_empty(comparer, &fresh(k, 10, kind, 0)),
        _ => grow_shrink::fill_and_empty(comparer, &fresh(k, 150, kind, 0)),
    }
    if sort < 4 {
        let field = if k == 0 { u32::MAX } else { k as u32 };
        assert_eq!(head(comparer.image(), CAPACITY), field, "a change keeps the field's bytes");
    } else {
        // A format came last, and it writes the number.
        assert!(CAPACITIES.contains(&(head(comparer.image(), CAPACITY) as usize)));
    }
}

pub fn fresh(k: usize, n: usize, kind: u32, window: u32) -> Vec<u8> {
    if k == 0 {
        fresh_without_field(n as u32, kind, window)
    } else {
        fresh_of(k, n, kind, window)
    }
}
