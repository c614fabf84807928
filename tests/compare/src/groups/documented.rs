//! Answers that a document tells: document 01's marks from the test rack, and 000's examples. Document 02, (xi): "document 01's
//! cases keep K = 24".

use plain::making::fresh_without_field;
use plain::END;

use crate::calls::{Answer, Call};
use crate::comparer::Comparer;
use crate::images::{enter_in_order, fresh, head, leaf_entry_at, scratch_bytes, Pool, CHANGES, HEIGHT};

impl Comparer {
    fn expect_pair(&mut self, t: u32, sum: i64, count: i32) {
        let (pages, entry) = (head(self.image(), HEIGHT), leaf_entry_at(self.image(), t));
        self.expect(Call::Instant { t }, 0, 0, Answer::pair(sum, count, pages, (entry.start, entry.end)));
    }

    fn expect_entry(&mut self, t: u32, start: u32, end: u32) {
        let answer = self.instant(t);
        assert_eq!((answer.start, answer.end), (start, end), "the leaf entry that has {t}");
    }

    fn expect_average(&mut self, t: u32, hundredths: Option<i64>) {
        let expected = hundredths.map_or(Answer::default(), Answer::hundredths);
        self.expect(Call::Average { t }, 0, 0, expected);
    }

    /// The runs over a span: their number by the call, then each by its instants.
    fn expect_runs(&mut self, a: u32, b: u32, runs: &[(u32, i64, i32)]) {
        let output = 16 * runs.len();
        self.expect(Call::Listing { a, b }, 0, output, Answer::runs(runs.len() as u32));
        self.expect(Call::Listing { a, b }, 0, output - 1, Answer::status(15));
        for (i, (start, sum, count)) in runs.iter().enumerate() {
            let end = runs.get(i + 1).map_or(b, |next| next.0);
            self.expect_pair(*start, *sum, *count);
            self.expect_pair(end - 1, *sum, *count);
        }
    }

    fn expect_booked(&mut self, status: u32, v: i64, s: u32, e: u32) {
        assert_eq!(self.book(false, v, s, e), status);
    }

    fn expect_withdrawn(&mut self, status: u32, v: i64, s: u32, e: u32) {
        assert_eq!(self.book(true, v, s, e), status);
    }
}

// ---------------------------------------------------------------- document 01

pub fn marks(comparer: &mut Comparer, _: &Pool, _: usize) {
    for n in [2, 3, 64, 1_024] {
        enter_and_withdraw(comparer, n);
        // The same on document 01's own fresh image, which has no field for K.
        for without in [false, true] {
            ends_of_ranges(comparer, &fresh_or_without(n, 1, 0, without));
            greatest_within_a_window(comparer, &fresh_or_without(n, 2, 20, without));
        }
    }
    averages_to_even(comparer);
    comparer.expect(Call::AverageOf { kind: 1, sum: 5, count: -1 }, 0, 0, Answer::default());
    for without in [false, true] {
        twelfth_booking(comparer, without);
        six_runs(comparer, without);
    }
}

/// Document 02, (ix): "Sum −1 over count 8 is now −0.12, and −1 over 200 prints 0.00. Document 01's −13 becomes −12".
fn averages_to_even(comparer: &mut Comparer) {
    for (sum, count, hundredths) in
        [(-1, 8, -12), (1, 8, 12), (3, 8, 38), (-3, 8, -38), (-1, 200, 0), (1, 200, 0), (3, 200, 2), (-3, 200, -2)]
    {
        comparer.expect(Call::AverageOf { kind: 1, sum, count }, 0, 0, Answer::hundredths(hundredths));
        // The same of bookings: one of this sum, the others of 0.
        comparer.lend(&fresh(2, 1, 0));
        comparer.expect_booked(0, sum, 10, 20);
        for _ in 1..count {
            comparer.expect_booked(0, 0, 10, 20);
        }
        comparer.expect_average(10, Some(hundredths));
    }
}

fn fresh_or_without(n: usize, kind: u32, window: u32, without: bool) -> Vec<u8> {
    if without {
        fresh_without_field(n as u32, kind, window)
    } else {
        fresh(n, kind, window)
    }
}

/// "Fresh: instant 0 gives (0, 0), 1 page read." "Enter 6 on [10, 40): instant 9 (0, 0); 10 and 39 (6, 1); 40 (0, 0)." "Then
/// withdraw it: one run, one leaf entry." Document 02, (viii): "the instant answer gains the start and end of its leaf entry".
fn enter_and_withdraw(comparer: &mut Comparer, n: usize) {
    comparer.lend(&vec![0x5A; 512 * n]);
    comparer.expect(Call::Format { kind: 1, window: 0, capacity: 24 }, 0, 0, Answer::status(0));
    comparer.expect(Call::Audit, scratch_bytes(n), 0, Answer::status(0));
    comparer.expect_pair(0, 0, 0);
    comparer.expect_entry(0, 0, END);
    comparer.expect_booked(0, 6, 10, 40);
    for (t, start, end) in [(9, 0, 10), (10, 10, 40), (39, 10, 40), (40, 40, END), (END - 1, 40, END)] {
        comparer.expect_entry(t, start, end);
    }
    comparer.expect_runs(0, END, &[(0, 0, 0), (10, 6, 1), (40, 0, 0)]);
    comparer.expect_average(39, Some(600));
    comparer.expect_average(40, None);
    comparer.expect_withdrawn(0, 6, 10, 40);
    comparer.expect_runs(0, END, &[(0, 0, 0)]);
    comparer.expect_entry(20, 0, END);
    comparer.expect(Call::Audit, scratch_bytes(n), 0, Answer::status(0));
}

/// "1,000,000 passes, 1,000,001 gives 13. [5, 5) gives 11 even with a value too large. [0, END) needs no cut."
fn ends_of_ranges(comparer: &mut Comparer, image: &[u8]) {
    comparer.lend(image);
    comparer.expect_booked(0, 1_000_000, 1, 2);
    comparer.expect_booked(13, 1_000_001, 1, 2);
    comparer.expect_booked(13, -1_000_001, 1, 2);
    comparer.expect_booked(11, 1_000_001, 5, 5);
    comparer.expect_withdrawn(11, i64::MIN, END, END);
    comparer.expect_booked(0, 7, 0, END);
    comparer.expect_runs(0, END, &[(0, 7, 1), (1, 1_000_007, 2), (2, 7, 1)]);
    comparer.expect(Call::Instant { t: END }, 0, 0, Answer::status(12));
    comparer.expect(Call::Listing { a: 5, b: 5 }, 0, 64, Answer::status(11));
}

/// "Kind 2, w = 20, enter 4 on [35, 45): 64 gives (4, 1), 65 (0, 0); withdrawing gives 22."
fn greatest_within_a_window(comparer: &mut Comparer, image: &[u8]) {
    comparer.lend(image);
    comparer.expect_booked(0, 4, 35, 45);
    comparer.expect_runs(0, END, &[(0, 0, 0), (35, 4, 1), (65, 0, 0)]);
    comparer.expect_average(64, None);
    comparer.expect_withdrawn(22, 4, 35, 45);
}

/// "Value 1 on [10, 15), [20, 25) and so on: 11 leave 23 leaf entries; the twelfth takes two pages: 24 at n = 3, height 2 at
/// n = 4."
fn twelfth_booking(comparer: &mut Comparer, without: bool) {
    for (n, status, pages) in [(3, 24, 1), (4, 0, 2)] {
        let mut image = fresh_or_without(n, 1, 0, without);
        enter_in_order(&mut image, 11);
        comparer.lend(&image);
        assert_eq!(crate::images::u32_at(&image, 1, 4), 23);
        comparer.expect_booked(status, 1, 120, 125);
        assert_eq!(head(comparer.image(), HEIGHT), pages);
        assert_eq!(head(comparer.image(), CHANGES), 11 + u32::from(status == 0));
        comparer.expect_pair(121, i64::from(status == 0), i32::from(status == 0));
        comparer.expect(Call::Audit, scratch_bytes(n), 0, Answer::status(0));
    }
}

/// The program's example.
fn six_runs(comparer: &mut Comparer, without: bool) {
    comparer.lend(&fresh_or_without(64, 1, 0, without));
    for (v, s, e) in [(6, 10, 40), (3, 20, 50), (5, 20, 25)] {
        comparer.expect_booked(0, v, s, e);
    }
    let runs = [(0, 0, 0), (10, 6, 1), (20, 14, 3), (25, 9, 2), (40, 3, 1), (50, 0, 0)];
    comparer.expect_runs(0, END, &runs);
    for (start, average) in [(0, None), (10, Some(600)), (20, Some(467)), (25, Some(450)), (40, Some(300)), (50, None)]
    {
        comparer.expect_average(start, average);
    }
}

// ---------------------------------------------------------------- 000

/// Table 1: Amy, Ben, Cal, Dan, Eve, Fay.
const PRESCRIPTION: [(i64, u32, u32); 6] =
    [(2, 10, 40), (3, 10, 30), (1, 20, 40), (2, 5, 15), (4, 35, 45), (1, 10, 50)];

impl Comparer {
    fn prescriptions(&mut self, kind: u32, window: u32) {
        self.lend(&fresh(4, kind, window));
        for (v, s, e) in PRESCRIPTION {
            self.expect_booked(0, v, s, e);
        }
    }

    fn expect_averages(&mut self, rows: &[(u32, u32, Option<i64>)]) {
        for (start, end, hundredths) in rows {
            for t in [*start, (*start + *end) / 2, *end - 1] {
                self.expect_average(t, *hundredths);
            }
        }
    }
}

pub fn paper(comparer: &mut Comparer, _: &Pool, _: usize) {
    totals_of_the_paper(comparer);
    averages_of_the_paper(comparer);
    // Table 5, MaxDosage within 20 days, and section 1's ("Hal", 6, [30, 31)).
    comparer.prescriptions(2, 20);
    comparer.expect_runs(0, END, &[(0, 0, 0), (5, 2, 1), (10, 3, 1), (35, 4, 1), (65, 1, 1), (70, 0, 0)]);
    comparer.expect_booked(0, 6, 30, 31);
    let with_hal = [(0, 0, 0), (5, 2, 1), (10, 3, 1), (30, 6, 1), (51, 4, 1), (65, 1, 1), (70, 0, 0)];
    comparer.expect_runs(0, END, &with_hal);
    // For any window: t = 19 and w = 5.
    comparer.prescriptions(1, 5);
    comparer.expect_pair(19, 8, 4);
}

/// Table 2, SumDosage; 3.1: the lookup at 19 gives 6; 3.2: the listing of [14, 28) gives 8, 6, 7.
fn totals_of_the_paper(comparer: &mut Comparer) {
    comparer.prescriptions(1, 0);
    let sums = [(0, 0), (5, 2), (10, 8), (15, 6), (20, 7), (30, 4), (35, 8), (40, 5), (45, 1), (50, 0)];
    let counts = [0, 1, 4, 3, 4, 3, 4, 2, 1, 0];
    let table: Vec<(u32, i64, i32)> =
        sums.iter().zip(counts).map(|((start, sum), count)| (*start, *sum, count)).collect();
    comparer.expect_runs(0, END, &table);
    comparer.expect_pair(19, 6, 3);
    comparer.expect_runs(14, 28, &[(14, 8, 4), (15, 6, 3), (20, 7, 4)]);
    for (v, s, e) in PRESCRIPTION.into_iter().rev() {
        comparer.expect_withdrawn(0, v, s, e);
    }
    comparer.expect_runs(0, END, &[(0, 0, 0)]);
}

/// Tables 3 and 4, AvgDosage at an instant and within 5 days, recomputed from Table 1.
fn averages_of_the_paper(comparer: &mut Comparer) {
    comparer.prescriptions(1, 0);
    let (early, late) = ([(0, 5, None), (5, 20, Some(200)), (20, 30, Some(175)), (30, 35, Some(133))], (50, 60, None));
    comparer.expect_averages(&early);
    comparer.expect_averages(&[(35, 40, Some(200)), (40, 45, Some(250)), (45, 50, Some(100)), late]);
    comparer.prescriptions(1, 5);
    comparer.expect_averages(&[(0, 5, None), (5, 20, Some(200)), (20, 35, Some(175)), (35, 45, Some(200))]);
    comparer.expect_averages(&[(45, 50, Some(250)), (50, 55, Some(100)), (55, 99, None)]);
}
