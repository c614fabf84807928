//! "The average, kind 1 only, is in hundredths: the whole number nearest 100 × sum / count"; document 02, (ix): "a half goes to the even
//! hundredth."

use crate::support::*;
use plain::{average_of, Average};

/// How far 100 × sum / count lies from a whole number, times count.
fn distance(whole: i64, sum: i64, count: i32) -> i128 {
    (i128::from(whole) * i128::from(count) - 100 * i128::from(sum)).abs()
}

/// Nearest by its own words: no whole number is nearer, and where another is as near, the answer is even. Only the two beside it need be
/// tried, since all others are farther.
fn is_nearest(answer: i64, sum: i64, count: i32) -> bool {
    let here = distance(answer, sum, count);
    let beside = [answer - 1, answer + 1].map(|other| distance(other, sum, count));
    beside.iter().all(|there| here < *there || (here == *there && answer % 2 == 0))
}

fn hundredths_of(sum: i64, count: i32) -> i64 {
    let Average::Hundredths(answer) = average_of(1, sum, count) else { panic!("{sum} over {count} has one") };
    answer
}

/// Averages that were checked, those at halves by what lies below the half, in size: even or odd, of a sum above zero or below it.
#[derive(Default)]
struct Checked {
    calls: u64,
    halves: [[u64; 2]; 2],
}

impl Checked {
    fn check(&mut self, sum: i64, count: i32) {
        let answer = hundredths_of(sum, count);
        assert!(is_nearest(answer, sum, count), "{sum} over {count} gave {answer}");
        assert!(!is_nearest(answer - 1, sum, count) && !is_nearest(answer + 1, sum, count), "{sum} over {count}");
        assert_eq!(hundredths_of(-sum, count), -answer, "{sum} over {count}");
        self.calls += 1;
        let (parts, count) = (100 * sum.unsigned_abs(), count as u64);
        if 2 * (parts % count) == count {
            self.halves[usize::from(sum < 0)][(parts / count % 2) as usize] += 1;
        }
    }
}

#[test]
fn nearest_with_halves_to_even() {
    let mut random = Xorshift::new(11);
    let mut checked = Checked::default();
    for sum in -60..=60 {
        for count in 1..=450 {
            checked.check(sum, count);
        }
    }
    let most = 1_000_000_000_000_000;
    for sum in [0, 1, -1, most, -most, most - 1, 1 - most, 1_000_000, -1_000_000] {
        for count in [1, 2, 3, 8, 199, 200, 201, 1_000_000_000, i32::MAX] {
            checked.check(sum, count);
        }
    }
    for _ in 0..20_000 {
        checked.check(random.between(-most, most), random.between(1, 1_000_000_000) as i32);
        checked.check(random.between(-1_000_000, 1_000_000), random.between(1, 1_000) as i32);
    }
    // An odd sum over 200, 40 or 8 is an odd number of halves, and so it is with both multiplied; beside it nothing is.
    for _ in 0..20_000 {
        let over = random.pick(&[200, 40, 8]);
        let most_times = random.pick(&[10, 1_000, 10_000_000]);
        let times = random.between(1, most_times);
        let odd = 2 * random.between(-most / times / 2, most / times / 2 - 1) + 1;
        let (sum, count) = (times * odd, (times * over) as i32);
        for (sum, count) in [(sum, count), (sum - 1, count), (sum + 1, count), (sum, count - 1), (sum, count + 1)] {
            checked.check(sum, count);
        }
    }
    assert!(checked.halves.iter().flatten().all(|halves| *halves > 1_000));
    let [[even, odd], [even_negative, odd_negative]] = checked.halves;
    report(&format!(
        "average: {} calls; at halves above zero {even} behind an even number and {odd} behind an odd one, below zero \
         {even_negative} and {odd_negative}",
        checked.calls
    ));
}

/// "Sum −1 over count 8 is now −0.12, and −1 over 200 prints 0.00."
#[test]
fn chosen_averages() {
    for (sum, count, hundredths) in [
        (0, 1, 0),
        (-1, 8, -12),
        (1, 8, 12),
        (3, 8, 38),
        (-3, 8, -38),
        (1, 3, 33),
        (2, 3, 67),
        (-2, 3, -67),
        (14, 3, 467),
        (1, 200, 0),
        (-1, 200, 0),
        (3, 200, 2),
        (-3, 200, -2),
        (5, 200, 2),
        (-5, 200, -2),
        (1, 199, 1),
        (-1, 199, -1),
        (-1, 201, 0),
        (1, 201, 0),
        // The hundredths are even or odd, not the whole part of the average.
        (199, 200, 100),
        (201, 200, 100),
        (203, 200, 102),
        (-199, 200, -100),
        (-201, 200, -100),
        (-203, 200, -102),
        (1_000_000_000_000_000, 1, 100_000_000_000_000_000),
        (-1_000_000_000_000_000, 1, -100_000_000_000_000_000),
        (-1_000_000_000_000_000, 1_000_000_000, -100_000_000),
        (999_999_999_999_999, 8, 12_499_999_999_999_988),
        (-999_999_999_999_999, 8, -12_499_999_999_999_988),
        (999_999_999_999_997, 8, 12_499_999_999_999_962),
        (-999_999_999_999_997, 8, -12_499_999_999_999_962),
    ] {
        assert_eq!(average_of(1, sum, count), Average::Hundredths(hundredths), "{sum} over {count}");
    }
}

/// "It is 'none' where count ≤ 0 or for kinds 2 and 3."
#[test]
fn none() {
    for sum in [0, 1, -1, i64::MIN, i64::MAX] {
        for count in [0, -1, i32::MIN] {
            assert_eq!(average_of(1, sum, count), Average::None);
        }
        for kind in [0, 2, 3, 4, u32::MAX] {
            for count in [0, -1, 1, i32::MAX] {
                assert_eq!(average_of(kind, sum, count), Average::None);
            }
        }
    }
}

/// Sums that no fit page can show are a case of their own (R12).
#[test]
fn beyond() {
    for sum in [1_000_000_000_000_001, -1_000_000_000_000_001, i64::MAX, i64::MIN] {
        assert_eq!(average_of(1, sum, 1), Average::Beyond);
        assert_eq!(average_of(1, sum, i32::MAX), Average::Beyond);
    }
}
