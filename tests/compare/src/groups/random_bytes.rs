//! Random and constant bytes, most with a good K in its field, half behind a head that is fit.

use plain::END;

use crate::comparer::Comparer;
use crate::images::{bytes_of, fresh_of, put, Pool, CAPACITIES, CAPACITY};

pub fn random_bytes(comparer: &mut Comparer, _: &Pool, _: usize) {
    for round in 0..2_500 {
        let n = 2 + comparer.random.below(6);
        let k = if comparer.random.one_in(2) { 24 } else { comparer.random.pick(&CAPACITIES) };
        let mut image = match round % 3 {
            0 => comparer.random.bytes(bytes_of(k) * n),
            1 => vec![comparer.random.pick(&[0, 0xFF, 1, 0x80]); bytes_of(k) * n],
            _ => fresh_of(k, n, 1 + round % 3, 0),
        };
        for _ in 0..comparer.random.below(12) {
            let at = comparer.random.below(image.len());
            image[at] = comparer.random.next() as u8;
        }
        if !comparer.random.one_in(8) {
            // Without it nearly all of them would be turned back by their K alone.
            let field = if k == 24 && comparer.random.one_in(3) { u32::MAX } else { k as u32 };
            image[4 * CAPACITY..][..4].copy_from_slice(&field.to_le_bytes());
        }
        if round % 2 == 0 {
            let kind = 1 + comparer.random.below(3) as u32;
            let fields = [n as u32, 1 + round % 10, 1, 0, 0, n as u32, kind, 0, 1_000_000_000];
            image[40..bytes_of(k)].fill(0xFF);
            for (field, to) in fields.into_iter().enumerate() {
                put(&mut image, 0, 4 * field, &to.to_le_bytes());
            }
        }
        comparer.lend(&image);
        calls(comparer);
    }
}

fn calls(comparer: &mut Comparer) {
    comparer.audit();
    comparer.listing(0, END);
    for _ in 0..3 {
        let (a, b) = (comparer.random.instant(), comparer.random.instant());
        comparer.instant(a);
        comparer.average(b);
        comparer.listing(a, b);
    }
    comparer.changes_and_back();
}
