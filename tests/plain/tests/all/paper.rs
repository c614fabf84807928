//! Source document 000, sections 1 to 3: the vectors that agree with its definition in words, and that definition.

use crate::support::*;
use plain::{average, instant, END};

/// Table 1: Amy, Ben, Cal, Dan, Eve, Fay.
const PRESCRIPTION: [(i64, u32, u32); 6] =
    [(2, 10, 40), (3, 10, 30), (1, 20, 40), (2, 5, 15), (4, 35, 45), (1, 10, 50)];

fn prescriptions(kind: u32, window: u32) -> Rack {
    let mut rack = Rack::new(4, kind, window, 7);
    for (v, s, e) in PRESCRIPTION {
        assert_eq!(rack.enter(v, s, e), 0);
    }
    rack
}

fn listed(rack: &Rack, a: u32, b: u32) -> Vec<(u32, i64, i32)> {
    let mut out = vec![0; 16 * 200];
    let answer = plain::listing(&rack.image, a, b, &mut out);
    assert_eq!(answer.status, 0);
    let runs = out.chunks(16).take(answer.runs as usize);
    runs.map(|run| {
        let start = u32::from_le_bytes(run[0..4].try_into().unwrap());
        let count = i32::from_le_bytes(run[4..8].try_into().unwrap());
        let sum = i64::from_le_bytes(run[8..16].try_into().unwrap());
        (start, sum, count)
    })
    .collect()
}

/// Table 2, SumDosage.
#[test]
fn table_2() {
    let rack = prescriptions(1, 0);
    let sums: Vec<(u32, i64)> = listed(&rack, 0, END).iter().map(|(start, sum, _)| (*start, *sum)).collect();
    let table = [(0, 0), (5, 2), (10, 8), (15, 6), (20, 7), (30, 4), (35, 8), (40, 5), (45, 1), (50, 0)];
    assert_eq!(sums, table);
}

/// 3.1: "let us look up the value of the temporal aggregate SumDosage at time instant 19": 6.
/// 3.2: the range query over [14, 28) gives 8, 6 and 7.
#[test]
fn lookup_and_range_query() {
    let rack = prescriptions(1, 0);
    assert_eq!(instant(&rack.image, 19).sum, 6);
    assert_eq!(listed(&rack, 14, 28), [(14, 8, 4), (15, 6, 3), (20, 7, 4)]);
}

fn averages_over(rack: &Rack, rows: &[(u32, u32, Option<i64>)]) {
    for (start, end, hundredths) in rows {
        for t in [*start, (*start + *end) / 2, *end - 1] {
            assert_eq!(average(&rack.image, t), (0, *hundredths), "at {t}");
        }
    }
}

/// Table 3, AvgDosage, recomputed from Table 1.
#[test]
fn table_3() {
    averages_over(
        &prescriptions(1, 0),
        &[
            (0, 5, None),
            (5, 20, Some(200)),
            (20, 30, Some(175)),
            (30, 35, Some(133)),
            (35, 40, Some(200)),
            (40, 45, Some(250)),
            (45, 50, Some(100)),
            (50, 60, None),
        ],
    );
}

/// Table 4, AvgDosage within 5 days, with 2.00 on [35, 45) and 2.50 on [45, 50).
#[test]
fn table_4() {
    averages_over(
        &prescriptions(1, 5),
        &[
            (0, 5, None),
            (5, 20, Some(200)),
            (20, 35, Some(175)),
            (35, 45, Some(200)),
            (45, 50, Some(250)),
            (50, 55, Some(100)),
            (55, 99, None),
        ],
    );
}

/// Table 5, MaxDosage within 20 days.
#[test]
fn table_5() {
    let rack = prescriptions(2, 20);
    let table = [(0, 0, 0), (5, 2, 1), (10, 3, 1), (35, 4, 1), (65, 1, 1), (70, 0, 0)];
    assert_eq!(listed(&rack, 0, END), table);
}

/// Section 1: a record ("Hal", 6, [30, 31)) affects MaxDosage within 20 days over [30, 51).
#[test]
fn hal_within_20_days() {
    let mut rack = prescriptions(2, 20);
    assert_eq!(rack.enter(6, 30, 31), 0);
    assert_eq!(
        listed(&rack, 0, END),
        [(0, 0, 0), (5, 2, 1), (10, 3, 1), (30, 6, 1), (51, 4, 1), (65, 1, 1), (70, 0, 0)]
    );
}

/// Fact 11: "t = 19 and w = 5 give (8, 4)".
#[test]
fn any_window_example() {
    let rack = prescriptions(1, 5);
    let answer = instant(&rack.image, 19);
    assert_eq!((answer.sum, answer.count), (8, 4));
}

/// 3.3, 3.4 and 3.6: inserting and deleting gives the same aggregate again.
#[test]
fn insert_then_delete() {
    for (v, s, e) in [(5, 15, 45), (1, 24, 30), (1, 24, 28), (1, 17, 47), (1, 7, 12)] {
        let mut rack = prescriptions(1, 0);
        let before = listed(&rack, 0, END);
        assert_eq!(rack.enter(v, s, e), 0);
        rack.check_instants();
        assert_ne!(listed(&rack, 0, END), before);
        assert_eq!(rack.withdraw(v, s, e), 0);
        assert_eq!(listed(&rack, 0, END), before);
    }
}

/// 3.6, Figure 19: entered in the order of Table 1, deleted in reverse order: an empty tree, one entry.
#[test]
fn first_and_last_snapshots_are_empty() {
    let mut rack = prescriptions(1, 0);
    for (v, s, e) in PRESCRIPTION.iter().rev() {
        assert_eq!(rack.withdraw(*v, *s, *e), 0);
    }
    assert_eq!(listed(&rack, 0, END), [(0, 0, 0)]);
    assert_eq!(Node::of(&rack.image).leaf_entries(), 1);
}

/// "The value of a cumulative aggregate at time instant t is computed over all tuples whose valid intervals overlap with
/// the interval [t−w, t]": the images and the book against the definition in words, at every instant of a small time.
#[test]
fn the_definition_in_words() {
    let mut random = Xorshift::new(19);
    let mut instants = 0;
    for load in 0..150 {
        let kind = 1 + load % 3;
        let window = random.pick(&[0, 0, 1, 2, 5, 13, 30]);
        let mut rack = Rack::new(8, kind, window, u64::from(load) + 100);
        let mut bookings = Vec::new();
        for _ in 0..12 {
            let s = random.below(40) as u32;
            let e = s + 1 + random.below(20) as u32;
            let v = random.between(-9, 9);
            assert_eq!(rack.enter(v, s, e), 0);
            bookings.push((v, s, e));
        }
        for t in 0..110u32 {
            let (low, high) = (i64::from(t) - i64::from(window), i64::from(t));
            let overlaps = |s: u32, e: u32| (low..=high).any(|u| i64::from(s) <= u && u < i64::from(e));
            let there: Vec<i64> = bookings.iter().filter(|(_, s, e)| overlaps(*s, *e)).map(|(v, _, _)| *v).collect();
            let expected = match kind {
                _ if there.is_empty() => (0, 0),
                1 => (there.iter().sum(), there.len() as i32),
                2 => (*there.iter().max().unwrap(), 1),
                _ => (*there.iter().min().unwrap(), 1),
            };
            let answer = instant(&rack.image, t);
            assert_eq!((answer.sum, answer.count), expected);
            let pair = rack.book.pair_at(t);
            assert_eq!((pair.sum, pair.count), expected);
            instants += 1;
        }
    }
    report(&format!("paper: {instants} instants against the definition in words"));
}
