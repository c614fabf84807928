//! Rows of enter and withdraw: a booking is entered and withdrawn again, so that each measure finds the image as the one
//! before.

use std::cell::RefCell;

use luwhenoka::raw;

use crate::measure::{row, Column, Work};
use crate::peer;
use crate::reading::copying;
use crate::subjects::{booked, bookings, height, scratch_for, Booking, RunMap};

/// The change against copying the image and against changing a map.
pub fn changes() {
    each_changed(changes_of);
}

/// The images that are changed, of 64 and 1,024 pages, each with its case and with what is booked: short and long spans.
pub fn each_changed(measure: impl Fn(&str, &[u8], &[Booking])) {
    for (n, number) in [(64, 100), (64, 400), (1_024, 100), (1_024, 1_000), (1_024, 5_000)] {
        let (image, booked) = booked(n, &bookings(number, 1_000_000, 4));
        for (length, longest) in [("short", 1_000), ("long", 900_000_000)] {
            let spans = bookings(200, longest, 5);
            let case = format!("change, {length} spans, {booked} bookings, {n} pages, height {}", height(&image));
            measure(&case, &image, &spans);
        }
    }
}

fn changes_of(case: &str, image: &[u8], spans: &[Booking]) {
    let map = RefCell::new(RunMap::of(image));
    let changed_map = move |withdrawal: bool, (v, s, e): Booking| {
        let sign = if withdrawal { -1 } else { 1 };
        map.borrow_mut().change(sign * v, sign as i32, s, e);
        0
    };
    let works = vec![
        changing(Column::Library, image, spans, raw::enter, raw::withdraw),
        changing(Column::PlainC, image, spans, peer::enter, peer::withdraw),
        copying(image, 1),
        Work::new(Column::Map, 2 * spans.len(), move || both_ways(spans, &changed_map)),
    ];
    row(case, works);
}

pub type Change = fn(&mut [u8], &mut [u8], i64, u32, u32) -> u32;

/// Changes a copy of the image.
pub fn changing<'a>(column: Column, image: &[u8], spans: &'a [Booking], enter: Change, withdraw: Change) -> Work<'a> {
    let (mut image, mut scratch) = (image.to_vec(), scratch_for(image));
    Work::new(column, 2 * spans.len(), move || change_all(&mut image, &mut scratch, spans, enter, withdraw))
}

/// The image as these changes leave it: they split full pages, which stay split. Done once more, they leave as many pages as they find.
pub fn left_by(image: &[u8], spans: &[Booking], enter: Change, withdraw: Change) -> Vec<u8> {
    let (mut image, mut scratch) = (image.to_vec(), scratch_for(image));
    change_all(&mut image, &mut scratch, spans, enter, withdraw);
    image
}

fn change_all(image: &mut [u8], scratch: &mut [u8], spans: &[Booking], enter: Change, withdraw: Change) -> u64 {
    both_ways(spans, |withdrawal, (v, s, e)| {
        let change = if withdrawal { withdraw } else { enter };
        u64::from(change(image, scratch, v, s, e))
    })
}

/// Each booking entered and withdrawn again. Every change is to be accepted: the statuses returned add to 0.
fn both_ways(spans: &[Booking], mut change: impl FnMut(bool, Booking) -> u64) -> u64 {
    let statuses: u64 = spans.iter().map(|span| change(false, *span) + change(true, *span)).sum();
    assert_eq!(statuses, 0, "a change is refused; all statuses added up");
    statuses
}
