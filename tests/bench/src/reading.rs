//! Rows of the calls that only read: instants, an average, audits and listings.

use std::hint::black_box;

use luwhenoka::{raw, scratch_bytes};
use plain::END;

use crate::measure::{row, Column, Work};
use crate::peer;
use crate::subjects::{booked, bookings, fresh, height, instants, listed, scratch_for, way, RunMap, INSTANTS};

/// Instants at random against copying the pages on their way and against a map of runs; the average at height 3.
pub fn instants_by_height() {
    for (n, number) in [(64, 5), (64, 60), (64, 400), (1_024, 5_000)] {
        let (image, booked) = booked(n, &bookings(number, 1_000_000, 1));
        let case = format!("height {}, {booked} bookings, {n} pages", height(&image));
        instants_of(&case, &image);
        if height(&image) == 3 {
            averages_of(&case, &image);
        }
    }
    let (tall, number) = tall_with_fewest();
    instants_of(&format!("height 4, {number} bookings, 1024 pages"), &tall);
}

/// One booking after the other, which leaves pages half full: height 4 with the fewest bookings.
fn tall_with_fewest() -> (Vec<u8>, u32) {
    let mut image = fresh(1_024);
    let mut scratch = vec![0; scratch_bytes(1_024)];
    let mut number = 0;
    while height(&image) < 4 {
        let s = 500_000 * number + 10;
        assert_eq!(plain::enter(&mut image, &mut scratch, 1, s, s + 1_000), 0);
        number += 1;
    }
    (image, number)
}

fn instants_of(case: &str, image: &[u8]) {
    let asked = instants(INSTANTS, 2);
    let map = RunMap::of(image);
    let works = vec![
        Work::new(Column::Library, asked.len(), || asked.iter().map(|t| raw::instant(image, *t).sum as u64).sum()),
        Work::new(Column::PlainC, asked.len(), || asked.iter().map(|t| peer::instant(image, *t).sum as u64).sum()),
        copying_ways(image, &asked),
        Work::new(Column::Map, asked.len(), || asked.iter().map(|t| map.pair_at(*t).0 as u64).sum()),
    ];
    row(&format!("instant, {case}"), works);
}

fn averages_of(case: &str, image: &[u8]) {
    let asked = instants(INSTANTS, 2);
    let map = RunMap::of(image);
    let average_in_map = |t: &u32| map.average_at(*t).unwrap_or(0) as u64;
    let works = vec![
        Work::new(Column::Library, asked.len(), || {
            asked.iter().map(|t| raw::average(image, *t).hundredths as u64).sum()
        }),
        Work::new(Column::PlainC, asked.len(), || {
            asked.iter().map(|t| peer::average(image, *t).hundredths as u64).sum()
        }),
        copying_ways(image, &asked),
        Work::new(Column::Map, asked.len(), || asked.iter().map(average_in_map).sum()),
    ];
    row(&format!("average, {case}"), works);
}

/// Copies the pages on the way to each instant.
fn copying_ways<'a>(image: &'a [u8], asked: &[u32]) -> Work<'a> {
    let ways: Vec<Vec<usize>> = asked.iter().map(|t| way(image, *t)).collect();
    let mut pages = vec![0; 512 * height(image) as usize];
    Work::new(Column::Copying, asked.len(), move || {
        for way in &ways {
            for (from, to) in way.iter().zip(pages.chunks_mut(512)) {
                to.copy_from_slice(&image[*from..*from + 512]);
            }
            black_box(&mut pages);
        }
        u64::from(pages[0])
    })
}

/// Copies the bytes once, as so many units.
pub fn copying(bytes: &[u8], units: usize) -> Work<'_> {
    let mut copy = vec![0; bytes.len()];
    Work::new(Column::Copying, units, move || {
        copy.copy_from_slice(bytes);
        u64::from(black_box(&mut copy)[0])
    })
}

/// The audit against copying the image.
pub fn audits() {
    each_audited(audit_of);
}

/// The images whose audit is measured, each with its case: fresh ones and full ones.
pub fn each_audited(measure: impl Fn(&str, &[u8])) {
    for n in [64, 1_024] {
        let (full, number) = booked(n, &bookings(20 * n, 1_000_000, 3));
        measure(&format!("audit, fresh, {n} pages"), &fresh(n));
        measure(&format!("audit, full, {number} bookings, {n} pages"), &full);
    }
}

fn audit_of(case: &str, image: &[u8]) {
    let works = vec![
        auditing(Column::Library, image, raw::audit),
        auditing(Column::PlainC, image, peer::audit),
        copying(image, 1),
    ];
    row(case, works);
}

pub type Audit = fn(&[u8], &mut [u8]) -> u32;

/// Audits the image, which is to be found sound.
pub fn auditing(column: Column, image: &[u8], audit: Audit) -> Work<'_> {
    let mut scratch = scratch_for(image);
    Work::new(column, 1, move || {
        let status = audit(image, &mut scratch);
        assert_eq!(status, 0, "an audit is refused");
        u64::from(status)
    })
}

/// The full listing, for each run, against copying its runs' bytes and against walking a map and writing them.
pub fn listings() {
    for (n, number) in [(64, 20 * 64), (1_024, 1_000), (1_024, 20 * 1_024)] {
        let (image, booked) = booked(n, &bookings(number, 1_000_000, 3));
        let listed = listed(&image);
        let runs = listed.len() / 16;
        let map = RunMap::of(&image);
        let (mut one, mut two, mut three) = (vec![0; 384 * n], vec![0; 384 * n], vec![0; 384 * n]);
        let works = vec![
            Work::new(Column::Library, runs, || u64::from(raw::listing(&image, 0, END, &mut one).runs)),
            Work::new(Column::PlainC, runs, || u64::from(peer::listing(&image, 0, END, &mut two).runs)),
            copying(&listed, runs),
            Work::new(Column::Map, runs, || map.write(black_box(&mut three)) as u64),
        ];
        row(&format!("listing, each of {runs} runs, {booked} bookings, {n} pages"), works);
    }
}
