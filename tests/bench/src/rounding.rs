//! Averages of pairs, before and after a change of how they are rounded, and in plain C: each at four places, as for the search.

use luwhenoka::raw::AverageAnswer;

use crate::copies::print_archives;
use crate::measure::{side_by_side, Column, Work};
use crate::subjects::Random;

type AverageOf = unsafe extern "C" fn(u32, i64, i32) -> AverageAnswer;

copies!(BEFORE: AverageOf, (kind: u32, sum: i64, count: i32) -> AverageAnswer,
    before_0_average_of before_1_average_of before_2_average_of before_3_average_of);
copies!(AFTER: AverageOf, (kind: u32, sum: i64, count: i32) -> AverageAnswer,
    after_0_average_of after_1_average_of after_2_average_of after_3_average_of);
copies!(PLAIN_C: AverageOf, (kind: u32, sum: i64, count: i32) -> AverageAnswer,
    peer_0_average_of peer_1_average_of peer_2_average_of peer_3_average_of);

const TOTALS: u32 = 1;
const PAIRS: usize = 500;

type Pair = (i64, i32);

fn of(copy: AverageOf, pair: Pair) -> AverageAnswer {
    unsafe { copy(TOTALS, pair.0, pair.1) }
}

pub fn roundings() {
    print_archives();
    println!("| pairs | ns | × before | × plain C |");
    println!("|--|--|--|--|");
    row("sums to a million, counts to 1,000", |random| {
        let sum = i64::from(random.below(1_000_000));
        (signed(sum, random), 1 + random.below(1_000) as i32)
    });
    row("sums to 10^15, counts to 10^9", |random| {
        let sum = i64::from(random.below(1_000_000_000)) * 1_000_000 + i64::from(random.below(1_000_000));
        (signed(sum, random), 1 + random.below(1_000_000_000) as i32)
    });
    row("at halves", |random| {
        let sum = 2 * i64::from(random.below(1_000_000)) + 1;
        (signed(sum, random), 200)
    });
}

/// Below zero as often as above it.
fn signed(sum: i64, random: &mut Random) -> i64 {
    if random.below(2) == 0 {
        sum
    } else {
        -sum
    }
}

fn row(case: &str, mut pair: impl FnMut(&mut Random) -> Pair) {
    let mut random = Random::new(5);
    let pairs: Vec<Pair> = (0..PAIRS).map(|_| pair(&mut random)).collect();
    for pair in &pairs {
        let answer = of(AFTER[0], *pair);
        let same = |copy: &AverageOf| of(*copy, *pair) == answer;
        assert!(AFTER.iter().all(same) && PLAIN_C.iter().all(same), "{pair:?}");
        // The archive of before may round a half to the other side.
        assert!(BEFORE.iter().all(|copy| of(*copy, *pair).hundredths.abs_diff(answer.hundredths) <= 1), "{pair:?}");
    }
    let by = |column, copies: &'static [AverageOf; 4]| {
        let pairs = &pairs;
        Work::new(column, copies.len() * PAIRS, move || {
            copies.iter().map(|copy| pairs.iter().map(|pair| of(*copy, *pair).hundredths as u64).sum::<u64>()).sum()
        })
    };
    let took =
        side_by_side(vec![by(Column::Library, &AFTER), by(Column::Before, &BEFORE), by(Column::PlainC, &PLAIN_C)]);
    let [library, before, plain_c] = &took[..] else { unreachable!("three works") };
    println!(
        "| {case} | {} | {:.2} ({}) | {:.2} ({}) |",
        library.time(),
        before.ratio,
        before.time(),
        plain_c.ratio,
        plain_c.time()
    );
}
