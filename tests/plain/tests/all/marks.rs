//! Document 01, "Marks from the test rack", one by one.

use crate::support::*;
use plain::{audit, average, average_of, enter, instant, listing, withdraw, Average, END};

fn pair_at(image: &[u8], t: u32) -> (i64, i32) {
    let answer = instant(image, t);
    assert_eq!(answer.status, 0);
    (answer.sum, answer.count)
}

fn enter_in(image: &mut [u8], v: i64, s: u32, e: u32) -> u32 {
    let mut scratch = vec![9; borrowed_by(image)];
    enter(image, &mut scratch, v, s, e)
}

fn withdraw_in(image: &mut [u8], v: i64, s: u32, e: u32) -> u32 {
    let mut scratch = vec![9; borrowed_by(image)];
    withdraw(image, &mut scratch, v, s, e)
}

fn runs(image: &[u8]) -> u32 {
    let mut out = vec![0; 24 * 16 * image.len() / 512];
    let answer = listing(image, 0, END, &mut out);
    assert_eq!(answer.status, 0);
    answer.runs
}

/// "Fresh: instant 0 gives (0, 0), 1 page read."
#[test]
fn fresh_instant() {
    for n in [2, 3, 64, 1_024] {
        let image = fresh(n, 1, 0);
        let answer = instant(&image, 0);
        assert_eq!((answer.status, answer.sum, answer.count, answer.pages), (0, 0, 0, 1));
        assert_eq!(audit(&image, &mut vec![0; borrowed_by(&image)]), 0);
    }
}

/// "Enter 6 on [10, 40): instant 9 (0, 0); 10 and 39 (6, 1); 40 (0, 0). Then withdraw it: one run, one leaf entry."
#[test]
fn enter_and_withdraw() {
    let mut image = fresh(2, 1, 0);
    assert_eq!(enter_in(&mut image, 6, 10, 40), 0);
    assert_eq!(pair_at(&image, 9), (0, 0));
    assert_eq!(pair_at(&image, 10), (6, 1));
    assert_eq!(pair_at(&image, 39), (6, 1));
    assert_eq!(pair_at(&image, 40), (0, 0));
    assert_eq!(runs(&image), 3);
    assert_eq!(withdraw_in(&mut image, 6, 10, 40), 0);
    assert_eq!(runs(&image), 1);
    assert_eq!(Node::of(&image).leaf_entries(), 1);
    assert_eq!(word(&image, 0, CHANGES), 2);
}

/// "1,000,000 passes, 1,000,001 gives 13."
#[test]
fn values_at_the_ends() {
    let mut image = fresh(2, 1, 0);
    assert_eq!(enter_in(&mut image, 1_000_000, 1, 2), 0);
    assert_eq!(enter_in(&mut image, -1_000_000, 1, 2), 0);
    let before = image.clone();
    for v in [1_000_001, -1_000_001, i64::MAX, i64::MIN, 1 << 32, (1 << 32) + 5] {
        assert_eq!(enter_in(&mut image, v, 1, 2), 13);
        assert_eq!(withdraw_in(&mut image, v, 1, 2), 13);
    }
    assert!(image == before);
}

/// "[5, 5) gives 11 even with a value too large."
#[test]
fn empty_span() {
    let mut image = fresh(2, 1, 0);
    assert_eq!(enter_in(&mut image, 1, 5, 5), 11);
    assert_eq!(enter_in(&mut image, 1_000_001, 5, 5), 11);
    assert_eq!(enter_in(&mut image, 1, 6, 5), 11);
    assert_eq!(withdraw_in(&mut image, i64::MIN, END, END), 11);
    assert!(image == fresh(2, 1, 0));
}

/// "[0, END) needs no cut."
#[test]
fn whole_time_needs_no_cut() {
    let mut image = fresh(2, 1, 0);
    assert_eq!(enter_in(&mut image, 7, 0, END), 0);
    assert_eq!(Node::of(&image).leaf_entries(), 1);
    assert_eq!((pair_at(&image, 0), pair_at(&image, END - 1)), ((7, 1), (7, 1)));
    // Nor where no page is at hand for one.
    let mut full = fresh(2, 1, 0);
    for i in 0..11 {
        assert_eq!(enter_in(&mut full, 1, 10 * i + 10, 10 * i + 15), 0);
    }
    assert_eq!(enter_in(&mut full, 1, 1_000, END), 0);
    assert_eq!(Node::of(&full).leaf_entries(), 24);
    assert_eq!(enter_in(&mut full, 1, 2_000, END), 24);
    assert_eq!(enter_in(&mut full, 1, 0, END), 0);
    assert_eq!(pair_at(&full, 3), (1, 1));
}

/// "Kind 2, w = 20, enter 4 on [35, 45): 64 gives (4, 1), 65 (0, 0); withdrawing gives 22."
#[test]
fn greatest_within_a_window() {
    let mut image = fresh(2, 2, 20);
    assert_eq!(enter_in(&mut image, 4, 35, 45), 0);
    assert_eq!(pair_at(&image, 34), (0, 0));
    assert_eq!(pair_at(&image, 35), (4, 1));
    assert_eq!(pair_at(&image, 64), (4, 1));
    assert_eq!(pair_at(&image, 65), (0, 0));
    let before = image.clone();
    assert_eq!(withdraw_in(&mut image, 4, 35, 45), 22);
    assert!(image == before);
}

/// "Sum −1, count 8 averages −13 hundredths; count −1 none." Document 02, (ix): "Document 01's −13 becomes −12".
#[test]
fn average_marks() {
    assert_eq!(average_of(1, -1, 8), Average::Hundredths(-12));
    assert_eq!(average_of(1, 5, -1), Average::None);
    let mut image = fresh(2, 1, 0);
    assert_eq!(enter_in(&mut image, -1, 10, 20), 0);
    for _ in 0..7 {
        assert_eq!(enter_in(&mut image, 0, 10, 20), 0);
    }
    assert_eq!(pair_at(&image, 10), (-1, 8));
    assert_eq!(average(&image, 10), (0, Some(-12)));
    assert_eq!(withdraw_in(&mut image, 3, 30, 40), 0);
    assert_eq!(pair_at(&image, 30), (-3, -1));
    assert_eq!(average(&image, 30), (0, None));
    assert_eq!(average(&image, 25), (0, None));
    assert_eq!(average(&image, END), (12, None));
}

/// "Value 1 on [10, 15), [20, 25) and so on: 11 leave 23 leaf entries; the twelfth takes two pages: 24 at n = 3, height
/// 2 at n = 4."
#[test]
fn the_twelfth_booking() {
    for n in [2, 3, 4, 5] {
        let mut image = fresh(n, 1, 0);
        for i in 0..11 {
            assert_eq!(enter_in(&mut image, 1, 10 * i + 10, 10 * i + 15), 0);
        }
        assert_eq!(Node::of(&image).leaf_entries(), 23);
        assert_eq!(height(&image), 1);
        let before = image.clone();
        let status = enter_in(&mut image, 1, 120, 125);
        if n < 4 {
            assert_eq!(status, 24);
            assert!(image == before);
        } else {
            assert_eq!(status, 0);
            assert_eq!(height(&image), 2);
            assert_eq!(Node::of(&image).leaf_entries(), 25);
            assert_eq!(instant(&image, 122).pages, 2);
            assert_eq!(word(&image, 0, HIGH_MARK), 4);
        }
    }
}

/// "Counting a booking at e (without a window), or at t−w = e": a fault we have seen made.
#[test]
fn not_counted_at_its_end() {
    for window in [0, 1, 20, 1_000_000_000] {
        for kind in 1..=3 {
            let mut image = fresh(2, kind, window);
            assert_eq!(enter_in(&mut image, 5, 100, 200), 0);
            assert_eq!(pair_at(&image, 199 + window), (5, 1));
            assert_eq!(pair_at(&image, 200 + window), (0, 0));
        }
    }
}

/// "Joining two entries of equal sum and different count": a fault we have seen made.
#[test]
fn equal_sums_with_different_counts_are_two_runs() {
    let mut image = fresh(2, 1, 0);
    assert_eq!(enter_in(&mut image, 0, 10, 20), 0);
    assert_eq!(runs(&image), 3);
    assert_eq!(Node::of(&image).leaf_entries(), 3);
    // Beginning at a boundary, where healing compares (0, 0) with (0, 1).
    assert_eq!(enter_in(&mut image, 0, 20, 30), 0);
    assert_eq!(Node::of(&image).leaf_entries(), 3);
    assert_eq!(runs(&image), 3);
}

/// A window that reaches past END: "e′ the smaller of e+w and END".
#[test]
fn windows_past_the_end() {
    for kind in 1..=3 {
        let mut image = fresh(2, kind, 1_000_000_000);
        assert_eq!(enter_in(&mut image, 5, END - 3, END - 2), 0);
        assert_eq!(pair_at(&image, END - 4), (0, 0));
        assert_eq!(pair_at(&image, END - 1), (5, 1));
        assert_eq!(Node::of(&image).leaf_entries(), 2);
        assert_eq!(enter_in(&mut image, 5, END - 1, END), 0);
        assert_eq!(audit(&image, &mut [0]), 0);
    }
}
