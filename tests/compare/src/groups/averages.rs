//! Averages of pairs, for any kind, sum and count; document 02, (ix): "a half goes to the even hundredth."

use crate::comparer::Comparer;
use crate::images::Pool;
use crate::random::Random;

const KINDS: [u32; 7] = [1, 0, 2, 3, 4, 257, u32::MAX];
const COUNTS: [i32; 14] =
    [0, 1, -1, 2, 3, 7, 8, 200, 201, 1_000_000_000, 1_000_000_001, i32::MAX, i32::MIN, i32::MIN + 1];
/// The greatest sum that fit pages can show.
const GREATEST: i64 = 1_000_000_000_000_000;

fn sums() -> Vec<i64> {
    let ends = [0, 1, 2, 49, 50, 51, 99, 100, 101, 1_000_000, GREATEST - 1, GREATEST, GREATEST + 1, 1 << 53, i64::MAX];
    let wrapping = [i64::MAX / 100, i64::MAX / 100 + 1, i64::MAX / 200, i64::MAX / 200 + 1];
    let above: Vec<i64> = ends.into_iter().chain(wrapping).collect();
    above.iter().copied().chain(above.iter().map(|sum| -sum)).chain([i64::MIN, i64::MIN + 1]).collect()
}

pub fn averages(comparer: &mut Comparer, _: &Pool, _: usize) {
    for sum in sums() {
        for count in COUNTS {
            for kind in KINDS {
                comparer.average_of(kind, sum, count);
            }
        }
    }
    for _ in 0..100_000 {
        let (sum, count) = near_a_half(&mut comparer.random);
        comparer.average_of(1, sum, count);
    }
    for sum in -1_001..=1_001 {
        around(comparer, sum, 200);
    }
    for _ in 0..20_000 {
        let (sum, count) = a_half(&mut comparer.random);
        around(comparer, sum, count);
    }
}

/// The pair, and those beside it.
fn around(comparer: &mut Comparer, sum: i64, count: i32) {
    for (sum, count) in [(sum, count), (sum - 1, count), (sum + 1, count), (sum, count - 1), (sum, count + 1)] {
        comparer.average_of(1, sum, count);
    }
}

/// A pair whose average is an odd number of half hundredths: an odd sum over 200, 40 or 8, both multiplied by the same number.
fn a_half(random: &mut Random) -> (i64, i32) {
    let over = random.pick(&[200, 40, 8]);
    let most_times = random.pick(&[10, 1_000, 10_000_000]);
    let times = random.between(1, most_times);
    let most = if random.one_in(2) { 1_000 } else { GREATEST / times };
    let odd = 2 * random.between(-most / 2, most / 2 - 1) + 1;
    (times * odd, (times * over) as i32)
}

/// A pair whose average lies near a half of a hundredth, or any pair.
fn near_a_half(random: &mut Random) -> (i64, i32) {
    let count = match random.below(4) {
        0 => random.next() as i32,
        1 => random.between(1, 1_000_000_000) as i32,
        _ => random.between(1, 500) as i32,
    };
    let sum = match random.below(4) {
        0 => random.next() as i64,
        1 => random.between(-GREATEST, GREATEST),
        _ => {
            // 200 × sum is nearly an odd multiple of count.
            let odd = 2 * random.between(-100_000, 100_000) + 1;
            i64::from(count) * odd / 200 + random.between(-1, 1)
        }
    };
    (sum, count)
}
