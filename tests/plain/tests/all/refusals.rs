//! "The order is 16, 17, 11 or 12, 13, 14, 21, 22, 23, 24, and 15 last." Each refusal wins over every later one, and
//! image, output and scratch keep or lose their bytes as document 01 says.

use crate::support::*;
use plain::{audit, average, enter, format, instant, listing, withdraw, END};

/// An image of n pages with none at hand, whose first leaf has no room for two entries: two cuts in its first one give 24.
fn full(n: usize, kind: u32) -> Vec<u8> {
    let mut rack = Rack::new(n, kind, 0, 1);
    let mut s = 10_000;
    while rack.enter(1, s, s + 5) == 0 {
        s -= 10;
    }
    assert!(s > 10 && pages_at_hand(&rack.image) == 0);
    rack.image
}

struct Case {
    image: Vec<u8>,
    scratch: usize,
    borrowed: usize,
    span_is_empty: bool,
    value_is_bad: bool,
    expected: u32,
}

/// All subsets of the reasons for refusing a change: the earliest in the order is the status. Of 2 pages one byte of scratch is
/// borrowed, so that none is too few, of 9 pages two are.
#[test]
fn changes_in_every_combination() {
    let calls: u32 = [(2, 1), (9, 2)].iter().map(|(n, borrowed)| changes_of(*n, *borrowed)).sum();
    report(&format!("refusals: {calls} changes in every combination of reasons"));
}

fn changes_of(n: usize, borrowed: usize) -> u32 {
    let full = [1, 2].map(|kind| full(n, kind));
    let mut calls = 0;
    for bits in 0..256u32 {
        let has = |bit: u32| bits & 1 << bit != 0;
        let (bad_length, short_scratch, empty_span, bad_value) = (has(0), has(1), has(2), has(3));
        let (unsound, not_totals, changes_full, pages_lack) = (has(4), has(5), has(6), has(7));
        for withdrawal in [false, true] {
            let kind = if not_totals { 2 } else { 1 };
            let mut image = if pages_lack { full[kind - 1].clone() } else { fresh(n, kind as u32, 0) };
            if changes_full {
                set_word(&mut image, 0, CHANGES, 1_000_000_000);
            }
            if unsound {
                image[300] ^= 1;
            }
            if bad_length {
                image.pop();
            }
            let in_order = [
                (bad_length, 16),
                (short_scratch, 17),
                (empty_span, 11),
                (bad_value, 13),
                (unsound, 21),
                (not_totals && withdrawal, 22),
                (changes_full, 23),
                (pages_lack, 24),
            ];
            let expected = in_order.iter().find(|(holds, _)| *holds).map_or(0, |(_, status)| *status);
            for enough in [borrowed, n, n + 5] {
                check_change(
                    withdrawal,
                    Case {
                        image: image.clone(),
                        scratch: if short_scratch { borrowed - 1 } else { enough },
                        borrowed,
                        span_is_empty: empty_span,
                        value_is_bad: bad_value,
                        expected,
                    },
                );
                calls += 1;
            }
        }
    }
    calls
}

fn check_change(withdrawal: bool, case: Case) {
    let mut image = case.image.clone();
    let lent = vec![0xC3; case.scratch];
    let mut scratch = lent.clone();
    let v = if case.value_is_bad { 1_000_001 } else { 1 };
    let (s, e) = if case.span_is_empty { (7, 7) } else { (7, 9) };
    let status =
        if withdrawal { withdraw(&mut image, &mut scratch, v, s, e) } else { enter(&mut image, &mut scratch, v, s, e) };
    assert_eq!(status, case.expected);
    if status != 0 {
        assert!(image == case.image);
    } else {
        assert!(image != case.image);
    }
    // "scratch is untouched at 16 and 17, also at 11 and 13, else its n bytes are 0", which have become n/8
    if [16, 17, 11, 13].contains(&status) {
        assert!(scratch == lent);
    } else {
        assert!(is_cleared(&scratch, &lent, case.borrowed));
    }
}

#[test]
fn lengths() {
    let mut random = Xorshift::new(5);
    let bad = [0, 1, 511, 512, 513, 1_023, 1_025, 1_535, 512 * 1_024 - 1, 512 * 1_024 + 1, 512 * 1_025, 512 * 2_048];
    for length in bad {
        let mut image = random.bytes(length);
        if length >= 40 {
            image[36..40].fill(0xFF);
        }
        let before = image.clone();
        let mut out = [1; 64];
        assert_eq!(format(&mut image, 1, 0, 24), 16);
        assert_eq!(format(&mut image, 9, u32::MAX, 24), 16);
        assert_eq!(enter(&mut image, &mut [], 1_000_001, 5, 5), 16);
        assert_eq!(withdraw(&mut image, &mut [], 1_000_001, 5, 5), 16);
        assert_eq!(instant(&image, END), refused(16, 0));
        assert_eq!(average(&image, END), (16, None));
        assert_eq!(listing(&image, 5, 5, &mut out), plain::Listing { status: 16, runs: 0 });
        assert_eq!(audit(&image, &mut []), 16);
        assert!(image == before && out == [1; 64]);
    }
    for n in [2, 3, 500, 1_023, 1_024] {
        let mut image = random.bytes(512 * n);
        assert_eq!(format(&mut image, 1, 0, 24), 0);
        assert_eq!(audit(&image, &mut vec![0; borrowed_by(&image)]), 0);
    }
}

#[test]
fn formats() {
    let mut image = vec![3; 1_024];
    for (kind, window) in [(0, 0), (4, 0), (u32::MAX, 0), (1, 1_000_000_001), (3, u32::MAX), (0, u32::MAX)] {
        assert_eq!(format(&mut image, kind, window, 24), 14);
        assert!(image == vec![3; 1_024]);
    }
    for kind in 1..=3 {
        for window in [0, 1, 1_000_000_000] {
            assert_eq!(format(&mut image, kind, window, 24), 0);
            assert_eq!((word(&image, 0, KIND), word(&image, 0, WINDOW)), (kind, window));
        }
    }
}

#[test]
fn instants_and_averages() {
    let mut image = fresh(2, 1, 0);
    assert_eq!(instant(&image, END), refused(12, 0));
    assert_eq!(instant(&image, END - 1).status, 0);
    // 12 is ahead of 21.
    set_word(&mut image, 0, KIND, 0);
    assert_eq!(instant(&image, END), refused(12, 0));
    assert_eq!(average(&image, END), (12, None));
    assert_eq!(instant(&image, 0), refused(21, 0));
    assert_eq!(average(&image, 0), (21, None));
    // An unfit root is one page read.
    let mut image = fresh(2, 1, 0);
    set_word(&mut image, 1, 0, 1);
    assert_eq!(instant(&image, 0), refused(21, 1));
    assert_eq!(average(&image, 0), (21, None));
    // R13: kinds 2 and 3 have no average, END and an unfit page are refused all the same.
    for kind in [2, 3] {
        let mut image = fresh(2, kind, 0);
        assert_eq!(enter(&mut image, &mut [0], 5, 0, 10), 0);
        assert_eq!(average(&image, 5), (0, None));
        assert_eq!(average(&image, END), (12, None));
        image[511] = 0;
        assert_eq!(average(&image, 5), (21, None));
    }
}

#[test]
fn listings() {
    let mut rack = Rack::new(2, 1, 0, 3);
    assert_eq!(rack.enter(6, 10, 40), 0);
    let refused = |status| plain::Listing { status, runs: 0 };
    // 11 ahead of 21 ahead of 15.
    let mut unfit = rack.image.clone();
    unfit[511] = 0;
    for (a, b) in [(5, 5), (6, 5), (END, END), (END, 0)] {
        assert_eq!(listing(&rack.image, a, b, &mut []), refused(11));
        assert_eq!(listing(&unfit, a, b, &mut []), refused(11));
    }
    assert_eq!(listing(&unfit, 0, END, &mut []), refused(21));
    // R14: in bytes, any length.
    for length in 0..48 {
        let mut out = vec![7; length];
        assert_eq!(listing(&rack.image, 0, END, &mut out), refused(15));
        assert!(out.iter().all(|&byte| byte == 7));
    }
    for length in 48..70 {
        let mut out = vec![7; length];
        assert_eq!(listing(&rack.image, 0, END, &mut out), plain::Listing { status: 0, runs: 3 });
        let mut expected = Vec::new();
        for (start, count, sum) in [(0u32, 0i32, 0i64), (10, 1, 6), (40, 0, 0)] {
            expected.extend_from_slice(&start.to_le_bytes());
            expected.extend_from_slice(&count.to_le_bytes());
            expected.extend_from_slice(&sum.to_le_bytes());
        }
        expected.resize(length, 7);
        assert_eq!(out, expected);
    }
    rack.check_listing(9, 10);
    rack.check_listing(10, 11);
    rack.check_listing(39, 41);
    rack.check_listing(END - 1, END);
}

#[test]
fn audits() {
    let image = fresh(17, 1, 0);
    for length in 0..3 {
        let mut scratch = vec![4; length];
        assert_eq!(audit(&image, &mut scratch), 17);
        assert!(scratch.iter().all(|&byte| byte == 4));
    }
    let mut unsound = image.clone();
    unsound[17 * 512 - 1] = 0;
    for (image, expected) in [(&image, 0), (&unsound, 21)] {
        let mut scratch = vec![4; 6];
        assert_eq!(audit(image, &mut scratch), expected);
        assert_eq!(scratch, [0, 0, 0, 4, 4, 4]);
    }
}

/// 23 at 1,000,000,000 changes; one before, a change is accepted and is the last.
#[test]
fn the_last_change() {
    for kind in 1..=3 {
        let mut image = fresh(2, kind, 0);
        set_word(&mut image, 0, CHANGES, 999_999_999);
        assert_eq!(enter(&mut image, &mut [0], 1, 5, 9), 0);
        assert_eq!(word(&image, 0, CHANGES), 1_000_000_000);
        let before = image.clone();
        assert_eq!(enter(&mut image, &mut [0], 1, 5, 9), 23);
        assert_eq!(withdraw(&mut image, &mut [0], 1, 5, 9), if kind == 1 { 23 } else { 22 });
        assert!(image == before);
        assert_eq!(instant(&image, 5).count, 1);
    }
}
