//! The safe functions on images that format made and on damaged ones. What the calls answer is compared with the plain
//! version in tests/compare; here it is what the wrapper makes of it.

use std::collections::HashSet;
use std::error::Error;

use luwhenoka::{
    audit, average, average_of, enter, format, instant, listing, page_bytes, raw, rebuild, runs, scratch_bytes,
    withdraw, Average, Instant, Kind, Refusal, Refused, Run, END, LEAST_CAPACITY, MOST_CAPACITY,
};

/// Where the capacity stands in the head.
const CAPACITY_AT: usize = 36;

/// A fresh image with pages of 512 bytes.
fn fresh(pages: usize, kind: Kind) -> Vec<u8> {
    fresh_of(24, pages, kind)
}

fn fresh_of(capacity: u32, pages: usize, kind: Kind) -> Vec<u8> {
    let mut image = vec![0xA5; page_bytes(capacity) * pages];
    format(&mut image, kind, 0, capacity).expect("a fresh image");
    image
}

fn capacities() -> impl Iterator<Item = u32> {
    (LEAST_CAPACITY..=MOST_CAPACITY).step_by(2)
}

/// Numbers that are no capacity.
const NO_CAPACITY: [u32; 8] = [0, 1, 2, 3, 5, 23, 25, 26];

fn put(image: &mut [u8], page: usize, at: usize, bytes: &[u8]) {
    image[512 * page + at..][..bytes.len()].copy_from_slice(bytes);
}

/// A leaf with these starts, sums and counts, after eight changes.
fn leaf_of(entries: &[(u32, i64, i32)]) -> Vec<u8> {
    let mut image = fresh(2, Kind::Totals);
    put(&mut image, 0, 32, &8u32.to_le_bytes());
    put(&mut image, 1, 4, &(entries.len() as u32).to_le_bytes());
    for (i, (start, sum, count)) in entries.iter().enumerate() {
        put(&mut image, 1, 32 + 4 * i, &start.to_le_bytes());
        put(&mut image, 1, 128 + 16 * i, &sum.to_le_bytes());
        put(&mut image, 1, 136 + 16 * i, &count.to_le_bytes());
        put(&mut image, 1, 140 + 16 * i, &0u32.to_le_bytes());
    }
    image
}

#[test]
fn every_status_has_its_refusal() {
    let statuses: Vec<u32> = Refusal::ALL.iter().map(|refusal| refusal.status()).collect();
    assert_eq!(statuses, [11, 12, 13, 14, 15, 16, 17, 21, 22, 23, 24]);
    for status in 0..100 {
        assert_eq!(Refusal::of_status(status).map(Refusal::status), statuses.contains(&status).then_some(status));
    }
}

#[test]
fn messages_name_their_status() {
    let messages: HashSet<String> = Refusal::ALL.iter().map(ToString::to_string).collect();
    assert_eq!(messages.len(), Refusal::ALL.len());
    for refusal in Refusal::ALL {
        assert!(refusal.to_string().ends_with(&format!("(refusal {})", refusal.status())));
    }
    let refused = Refused { refusal: Refusal::Unsound, pages: 3 };
    assert!(refused.to_string().ends_with("tree pages read: 3"));
    assert_eq!(refused.source().map(ToString::to_string), Some(Refusal::Unsound.to_string()));
}

#[test]
fn format_and_its_refusals() {
    for kind in [Kind::Totals, Kind::Greatest, Kind::Least] {
        for pages in [2, 3, 1_024] {
            assert_eq!(audit(&fresh(pages, kind), &mut vec![9; scratch_bytes(pages)]), Ok(()));
        }
    }
    for capacity in capacities() {
        let page = page_bytes(capacity);
        for length in [0, 39, 40, page, 2 * page - 1, 2 * page + 1, 1_025 * page] {
            let mut image = vec![3; length];
            assert_eq!(format(&mut image, Kind::Totals, 0, capacity), Err(Refusal::ImageLength));
            assert!(image.iter().all(|byte| *byte == 3));
        }
    }
    let mut image = fresh(2, Kind::Least);
    let before = image.clone();
    assert_eq!(format(&mut image, Kind::Totals, 1_000_000_001, 24), Err(Refusal::FormatRange));
    assert_eq!(raw::format(&mut image, 4, 0, 24), 14);
    assert_eq!(image, before);
}

/// 14 for the capacity is ahead of 16, 16 ahead of 14 for kind and window.
#[test]
fn format_judges_the_capacity_first() {
    let mut image = fresh(2, Kind::Least);
    let before = image.clone();
    for capacity in NO_CAPACITY.into_iter().chain([u32::MAX, 1 << 31, 24 << 8]) {
        assert_eq!(format(&mut image, Kind::Totals, 0, capacity), Err(Refusal::FormatRange));
        assert_eq!(format(&mut image[..39], Kind::Totals, 0, capacity), Err(Refusal::FormatRange));
        assert_eq!(format(&mut [], Kind::Totals, 0, capacity), Err(Refusal::FormatRange));
    }
    assert_eq!(raw::format(&mut image[1..], 4, 1_000_000_001, 24), 16);
    assert_eq!(raw::format(&mut image, 4, 1_000_000_001, 22), 16);
    assert_eq!(image, before);
}

/// Each capacity from format to listing: K + 1 entries are one too many for a page, and K − 1 go back into one.
#[test]
fn every_capacity() {
    const PAGES: usize = 4;
    for capacity in capacities() {
        let mut image = fresh_of(capacity, PAGES, Kind::Totals);
        assert_eq!(image[CAPACITY_AT..][..4], capacity.to_le_bytes());
        let mut scratch = [9; scratch_bytes(PAGES)];
        for i in 1..=capacity / 2 {
            assert_eq!(instant(&image, 0).map(|answer| answer.pages), Ok(1));
            assert_eq!(enter(&mut image, &mut scratch, 1, 10 * i, 10 * i + 5), Ok(()));
        }
        assert_eq!(instant(&image, 10), Ok(Instant { sum: 1, count: 1, pages: 2, start: 10, end: 15 }));
        assert_eq!(audit(&image, &mut scratch), Ok(()));
        let mut output = vec![0; 16 * capacity as usize * (PAGES - 1)];
        assert_eq!(listing(&image, 0, END, &mut output), Ok(capacity as usize + 1));
        assert_eq!(withdraw(&mut image, &mut scratch, 1, 10, 15), Ok(()));
        assert_eq!(instant(&image, 10), Ok(Instant { sum: 0, count: 0, pages: 1, start: 0, end: 20 }));
        assert_eq!(image[CAPACITY_AT..][..4], capacity.to_le_bytes());
        assert_eq!(audit(&image, &mut scratch), Ok(()));
    }
}

/// An image from before the capacity was stored has FF in its place: it is one of 24, and a change keeps FF.
#[test]
fn older_images() {
    let mut image = fresh(2, Kind::Totals);
    image[CAPACITY_AT..][..4].fill(0xFF);
    assert_eq!(audit(&image, &mut [9; scratch_bytes(2)]), Ok(()));
    assert_eq!(enter(&mut image, &mut [9; scratch_bytes(2)], 6, 10, 40), Ok(()));
    assert_eq!(instant(&image, 39), Ok(Instant { sum: 6, count: 1, pages: 1, start: 10, end: 40 }));
    assert_eq!(withdraw(&mut image, &mut [9; scratch_bytes(2)], 6, 10, 40), Ok(()));
    assert_eq!(image[CAPACITY_AT..][..4], [0xFF; 4]);
    assert_eq!(audit(&image[..448], &mut [9; scratch_bytes(2)]), Err(Refusal::ImageLength));
}

/// Under 40 bytes 16; then 21 for a bad capacity, ahead of every other refusal; then 16 by the capacity.
#[test]
fn the_capacity_is_judged_first() {
    let mut image = fresh(2, Kind::Totals);
    let unsound = |pages| Err(Refused { refusal: Refusal::Unsound, pages });
    for number in NO_CAPACITY.into_iter().chain([u32::MAX - 1, 24 << 8]) {
        put(&mut image, 0, CAPACITY_AT, &number.to_le_bytes());
        let (before, mut scratch, mut output) = (image.clone(), [5; 4], [5; 64]);
        for length in [40, 1_023, 1_024] {
            let image = &mut image[..length];
            assert_eq!(instant(image, END), unsound(0));
            assert_eq!(average(image, END), Err(Refusal::Unsound));
            assert_eq!(listing(image, 7, 7, &mut output), Err(Refusal::Unsound));
            assert_eq!(audit(image, &mut scratch), Err(Refusal::Unsound));
            assert_eq!(audit(image, &mut []), Err(Refusal::Unsound));
            assert_eq!(enter(image, &mut scratch, 1_000_001, 7, 7), Err(Refusal::Unsound));
            assert_eq!(withdraw(image, &mut scratch, 1, 7, 8), Err(Refusal::Unsound));
            assert_eq!(rebuild(image, &mut output, &mut []), Err(Refusal::Unsound));
            assert_eq!(rebuild(image, &mut output, &mut scratch), Err(Refusal::Unsound));
        }
        assert_eq!(audit(&image[..39], &mut scratch), Err(Refusal::ImageLength));
        assert_eq!(rebuild(&image[..39], &mut output, &mut scratch), Err(Refusal::ImageLength));
        assert_eq!((image.clone(), scratch, output), (before, [5; 4], [5; 64]));
    }
    for capacity in capacities().filter(|capacity| *capacity != 24) {
        put(&mut image, 0, CAPACITY_AT, &capacity.to_le_bytes());
        assert_eq!(instant(&image, END), Err(Refused { refusal: Refusal::ImageLength, pages: 0 }));
    }
}

#[test]
fn instants_tell_pages() {
    let image = leaf_of(&[(0, 0, 0), (10, 6, 1), (40, 0, 0)]);
    assert_eq!(instant(&image, 9), Ok(Instant { sum: 0, count: 0, pages: 1, start: 0, end: 10 }));
    assert_eq!(instant(&image, 10), Ok(Instant { sum: 6, count: 1, pages: 1, start: 10, end: 40 }));
    assert_eq!(instant(&image, 39), Ok(Instant { sum: 6, count: 1, pages: 1, start: 10, end: 40 }));
    assert_eq!(instant(&image, 40), Ok(Instant { sum: 0, count: 0, pages: 1, start: 40, end: END }));
    assert_eq!(instant(&image, END), Err(Refused { refusal: Refusal::InstantEnd, pages: 0 }));
    assert_eq!(instant(&image[..512], 1), Err(Refused { refusal: Refusal::ImageLength, pages: 0 }));
    let mut worn = image.clone();
    worn[512 + 4] = 25;
    assert_eq!(instant(&worn, 1), Err(Refused { refusal: Refusal::Unsound, pages: 1 }));
    let mut worn = image.clone();
    worn[400] = 0;
    assert_eq!(instant(&worn, 1), Err(Refused { refusal: Refusal::Unsound, pages: 0 }));
}

// ---------------------------------------------------------------- until when

/// Bookings of 1 on [10, 15), [20, 25) and so on, so many that the tree has this height at least.
fn booked_up_to(capacity: u32, height: u32) -> Vec<u8> {
    const PAGES: usize = 64;
    let mut image = fresh_of(capacity, PAGES, Kind::Totals);
    for i in 1.. {
        if instant(&image, 0).expect("a sound image").pages >= height {
            break;
        }
        enter(&mut image, &mut [0; scratch_bytes(PAGES)], 1, 10 * i, 10 * i + 5).expect("room for a booking");
    }
    image
}

/// The leaf entries are the stretches between the bookings' edges, at every height: where a page ends, its last entry ends with it,
/// and not at the end of time.
#[test]
fn instants_tell_until_when() {
    for (capacity, height) in capacities().flat_map(|capacity| (1..=3).map(move |height| (capacity, height))) {
        let image = booked_up_to(capacity, height);
        let mut output = vec![0; 16 * capacity as usize * 63];
        let count = listing(&image, 0, END, &mut output).expect("a sound image");
        let starts: Vec<u32> = runs(&output, count).map(|run| run.start).chain([END]).collect();
        for two in starts.windows(2) {
            for t in [two[0], two[0] + (two[1] - two[0]) / 2, two[1] - 1] {
                let answer = instant(&image, t).expect("a sound image");
                assert_eq!((answer.start, answer.end, answer.pages), (two[0], two[1], height));
                assert_eq!(answer.until(), Some(two[1]).filter(|end| *end != END));
                assert_eq!(Ok(answer), instant(&image, two[0]));
            }
        }
    }
}

/// Two entries of equal pairs are one run, but each is told by itself.
#[test]
fn equal_neighbours_have_their_own_ends() {
    let image = leaf_of(&[(0, 0, 0), (10, 6, 1), (20, 6, 1), (40, 0, 0)]);
    for (t, start, end) in [(10, 10, 20), (19, 10, 20), (20, 20, 40), (39, 20, 40)] {
        assert_eq!(instant(&image, t), Ok(Instant { sum: 6, count: 1, pages: 1, start, end }));
    }
    let mut output = [0; 48];
    assert_eq!(listing(&image, 0, END, &mut output), Ok(3));
}

/// As the library returns it: a refusal has 0 and 0, with the pages read at 21.
#[test]
fn refusals_tell_no_span() {
    let image = leaf_of(&[(0, 0, 0), (10, 6, 1), (40, 0, 0)]);
    let refused = |status, pages| raw::InstantAnswer { status, pages, sum: 0, count: 0, start: 0, end: 0 };
    assert_eq!(raw::instant(&image, END), refused(12, 0));
    assert_eq!(raw::instant(&image[..1_023], 20), refused(16, 0));
    assert_eq!(raw::instant(&image[..39], 20), refused(16, 0));
    for (page, at, pages) in [(0, CAPACITY_AT, 0), (0, 400, 0), (1, 4, 1), (1, 8, 1), (1, 32 + 4, 1)] {
        let mut worn = image.clone();
        put(&mut worn, page, at, &[99]);
        assert_eq!(raw::instant(&worn, 20), refused(21, pages));
    }
    let mut tall = booked_up_to(4, 3);
    let sound = instant(&tall, END - 1).expect("a sound image");
    assert_eq!((sound.pages, sound.end), (3, END));
    for page in tall.chunks_mut(page_bytes(4)).skip(1).filter(|page| page[0] == 0) {
        page[8] = 0; // in a leaf, where FF is due
    }
    for t in [0, 12, END - 1] {
        assert_eq!(raw::instant(&tall, t), refused(21, 3));
    }
}

/// A host that asks again only when its clock has reached the end, or when it made a change, knows at every second what one knows who
/// asks each time.
#[test]
fn polling_by_ends() {
    let (mut image, mut scratch) = (fresh_of(4, 16, Kind::Totals), [0; scratch_bytes(16)]);
    let changes = [(0, 6, 10, 40), (0, 3, 20, 50), (25, 5, 30, 35), (30, 1, 5, 90), (45, -2, 46, END)];
    let mut known: Option<Instant> = None;
    let mut calls = 0;
    for clock in 0..100 {
        for (_, v, s, e) in changes.into_iter().filter(|(at, ..)| *at == clock) {
            assert_eq!(enter(&mut image, &mut scratch, v, s, e), Ok(()));
            known = None;
        }
        if known.is_none_or(|answer| answer.until().is_some_and(|end| end <= clock)) {
            known = instant(&image, clock).ok();
            calls += 1;
        }
        assert_eq!(known, instant(&image, clock).ok());
        assert!(known.is_some());
    }
    assert_eq!(calls, 11);
}

#[test]
fn averages() {
    let image = leaf_of(&[(0, 0, 0), (10, -1, 3), (20, -1, 8), (30, 3, 8), (40, 5, -1), (50, 0, 0)]);
    assert_eq!(average(&image, 0), Ok(Average::None));
    assert_eq!(average(&image, 10), Ok(Average::Hundredths(-33)));
    assert_eq!(average(&image, 20), Ok(Average::Hundredths(-12)));
    assert_eq!(average(&image, 30), Ok(Average::Hundredths(38)));
    assert_eq!(average(&image, 40), Ok(Average::None));
    assert_eq!(average(&image, END), Err(Refusal::InstantEnd));
    for (sum, count, hundredths) in
        [(-1, 8, -12), (1, 8, 12), (3, 8, 38), (-3, 8, -38), (1, 200, 0), (-1, 200, 0), (3, 200, 2)]
    {
        assert_eq!(average_of(Kind::Totals, sum, count), Average::Hundredths(hundredths), "{sum} over {count}");
    }
    assert_eq!(average_of(Kind::Totals, i64::MIN, 1), Average::Beyond);
    assert_eq!(average_of(Kind::Totals, 1_000_000_000_000_000, 1), Average::Hundredths(100_000_000_000_000_000));
    assert_eq!(average_of(Kind::Least, 5, 1), Average::None);
}

#[test]
fn listings_and_their_runs() {
    let image = leaf_of(&[(0, 0, 0), (10, 6, 1), (20, 6, 2), (40, 0, 0)]);
    let mut output = [0xEE; 70];
    assert_eq!(listing(&image, 0, END, &mut output), Ok(4));
    let all: Vec<Run> = runs(&output, 4).collect();
    let run = |start, count, sum| Run { start, count, sum };
    assert_eq!(all, [run(0, 0, 0), run(10, 1, 6), run(20, 2, 6), run(40, 0, 0)]);
    assert_eq!(output[64..], [0xEE; 6]);
    assert_eq!(runs(&output, 4).len(), 4);
    assert_eq!(runs(&output, 4).next_back(), Some(run(40, 0, 0)));
    assert_eq!(runs(&output, 0).next(), None);

    let mut output = [0xEE; 63];
    assert_eq!(listing(&image, 0, END, &mut output), Err(Refusal::OutputShort));
    assert_eq!(listing(&image, 7, 7, &mut output), Err(Refusal::SpanEmpty));
    assert_eq!(output, [0xEE; 63]);
    assert_eq!(listing(&image, 15, 25, &mut output), Ok(2));
    assert_eq!(runs(&output, 2).collect::<Vec<_>>(), [run(15, 1, 6), run(20, 2, 6)]);
}

#[test]
#[should_panic]
fn runs_past_the_output() {
    runs(&[0; 31], 2);
}

#[test]
fn audits_and_their_scratch() {
    let mut image = fresh(17, Kind::Totals);
    let mut scratch = [5; 4];
    assert_eq!(audit(&image, &mut scratch[..2]), Err(Refusal::ScratchShort));
    assert_eq!(audit(&image[..17 * 512 - 1], &mut scratch), Err(Refusal::ImageLength));
    assert_eq!(scratch, [5; 4]);
    assert_eq!(audit(&image, &mut scratch), Ok(()));
    assert_eq!(scratch, [0, 0, 0, 5]);
    image[1_024 + 77] = 0;
    scratch = [5; 4];
    assert_eq!(audit(&image, &mut scratch), Err(Refusal::Unsound));
    assert_eq!(scratch, [0, 0, 0, 5]);
}

/// For every number of pages a scratch of a byte less than `scratch_bytes` is refused; of one so long, and of a longer one, just
/// these bytes are cleared.
#[test]
fn scratches_of_every_number_of_pages() {
    let mut target = [0; 2 * page_bytes(LEAST_CAPACITY)];
    for pages in 2..=1_024 {
        let mut image = fresh_of(LEAST_CAPACITY, pages, Kind::Totals);
        let (before, borrowed) = (image.clone(), scratch_bytes(pages));
        let mut short = vec![5; borrowed - 1];
        assert_eq!(audit(&image, &mut short), Err(Refusal::ScratchShort));
        assert_eq!(enter(&mut image, &mut short, 6, 10, 40), Err(Refusal::ScratchShort));
        assert_eq!(withdraw(&mut image, &mut short, 6, 10, 40), Err(Refusal::ScratchShort));
        assert_eq!(rebuild(&image, &mut target, &mut short), Err(Refusal::ScratchShort));
        assert_eq!((image.clone(), short), (before, vec![5; borrowed - 1]));
        for length in [borrowed, borrowed + 1, pages] {
            let mut lent = [(); 4].map(|_| vec![5; length]);
            assert_eq!(enter(&mut image, &mut lent[0], 6, 10, 40), Ok(()));
            assert_eq!(withdraw(&mut image, &mut lent[1], 6, 10, 40), Ok(()));
            assert_eq!(audit(&image, &mut lent[2]), Ok(()));
            assert_eq!(rebuild(&image, &mut target, &mut lent[3]), Ok(()));
            let cleared = [vec![0; borrowed], vec![5; length - borrowed]].concat();
            assert!(lent.iter().all(|scratch| *scratch == cleared));
        }
    }
}

// ---------------------------------------------------------------- rebuild

/// A number of the head, by its place there.
fn head(image: &[u8], field: usize) -> u32 {
    u32::from_le_bytes(image[4 * field..][..4].try_into().expect("4 bytes"))
}

fn full_listing(image: &[u8]) -> Vec<Run> {
    let mut output = vec![0; 16 * 24 * 64];
    let count = listing(image, 0, END, &mut output).expect("a sound image");
    runs(&output, count).collect()
}

/// How many pages m runs take, with the head: level after level up to a single page.
fn pages_for(m: usize, capacity: u32) -> usize {
    let (mut entries, mut pages) = (m, 1);
    loop {
        entries = entries.div_ceil(capacity as usize);
        pages += entries;
        if entries == 1 {
            return pages;
        }
    }
}

/// At every capacity and several heights: just enough pages are, one fewer aren't, and what comes out lists the same, is sound, and is
/// the same bytes when it is rebuilt. The source keeps its bytes, and so does a target that is refused.
#[test]
fn rebuilds_list_what_their_source_lists() {
    for (capacity, height) in capacities().flat_map(|capacity| (1..=3).map(move |height| (capacity, height))) {
        let mut image = booked_up_to(capacity, height);
        let mut scratch = [9; scratch_bytes(64)];
        for i in (2..20).step_by(3) {
            assert_eq!(withdraw(&mut image, &mut scratch, 1, 10 * i, 10 * i + 5), Ok(()));
        }
        let (before, listed) = (image.clone(), full_listing(&image));
        let pages = pages_for(listed.len(), capacity);
        let mut target = vec![0xA5; page_bytes(capacity) * (pages - 1)];
        let refusal = if pages == 2 { Refusal::ImageLength } else { Refusal::PagesLacking };
        assert_eq!(rebuild(&image, &mut target, &mut scratch), Err(refusal));
        assert!(target.iter().all(|byte| *byte == 0xA5));

        target.resize(page_bytes(capacity) * pages, 0xA5);
        assert_eq!(rebuild(&image, &mut target, &mut scratch), Ok(()));
        assert_eq!(image, before);
        assert_eq!(full_listing(&target), listed);
        assert_eq!(audit(&target, &mut scratch), Ok(()));
        // n, the chain, the high mark; kind, window, changes and capacity are the source's.
        assert_eq!([0, 3, 4, 5].map(|field| head(&target, field)), [pages as u32, 0, 0, pages as u32]);
        assert_eq!(target[24..40], image[24..40]);

        let mut again = vec![0x5A; target.len()];
        assert_eq!(rebuild(&target, &mut again, &mut scratch), Ok(()));
        assert_eq!(again, target);
    }
}

/// Of an image with one run it is what a format leaves, but for the count of changes.
#[test]
fn one_run_is_rebuilt_as_formatted() {
    for (capacity, kind) in capacities().zip([Kind::Totals, Kind::Greatest, Kind::Least].into_iter().cycle()) {
        let mut image = fresh_of(capacity, 5, kind);
        image[32] = 7;
        for pages in [2, 5, 9] {
            let mut target = vec![0xA5; page_bytes(capacity) * pages];
            assert_eq!(rebuild(&image, &mut target, &mut [9; scratch_bytes(5)]), Ok(()));
            let mut expected = fresh_of(capacity, pages, kind);
            expected[32] = 7;
            assert_eq!(target, expected);
        }
    }
}

/// The same changes on source and target give the same listings, also where the target was the smaller one.
#[test]
fn a_target_goes_on_as_its_source() {
    let (mut image, mut scratch) = (booked_up_to(4, 4), [9; scratch_bytes(64)]);
    let mut target = vec![0; page_bytes(4) * 40];
    assert_eq!(rebuild(&image, &mut target, &mut scratch), Ok(()));
    for i in 1..40 {
        let (s, e) = (i * 37 % 150, i * 37 % 150 + 1 + i % 7);
        for index in [&mut image[..], &mut target[..]] {
            let done = if i % 3 == 0 { withdraw } else { enter };
            assert_eq!(done(index, &mut scratch, i64::from(i % 5), s, e), Ok(()));
        }
        assert_eq!(full_listing(&image), full_listing(&target));
    }
    assert_eq!(audit(&target, &mut scratch), Ok(()));
}

/// The source's refusals come ahead of the target's, and the scratch is untouched up to the source's 17; a target of a wrong length
/// clears it.
#[test]
fn rebuild_and_its_refusals() {
    let image = booked_up_to(24, 2);
    let mut worn = image.clone();
    put(&mut worn, 1, 4, &[25]);
    let (mut target, borrowed) = (vec![0xA5; 64 * 512], scratch_bytes(64));
    let mut tried = |source: &[u8], target_length: usize, scratch_length: usize| {
        let mut scratch = vec![5; scratch_length];
        let refusal = rebuild(source, &mut target[..target_length], &mut scratch).err();
        assert!(target.iter().all(|byte| *byte == 0xA5), "no byte of the target is written");
        let cleared = scratch[..borrowed.min(scratch_length)].iter().all(|byte| *byte == 0);
        assert!(scratch.iter().skip(borrowed).all(|byte| *byte == 5));
        assert!(cleared || scratch.iter().all(|byte| *byte == 5));
        (refusal, cleared)
    };
    assert_eq!(tried(&image[..39], 511, borrowed), (Some(Refusal::ImageLength), false));
    assert_eq!(tried(&worn[..1_023], 511, borrowed), (Some(Refusal::ImageLength), false));
    assert_eq!(tried(&worn, 511, borrowed - 1), (Some(Refusal::ScratchShort), false));
    assert_eq!(tried(&worn, 511, borrowed + 2), (Some(Refusal::Unsound), true));
    for length in [0, 511, 512, 1_023, 1_025, 448 * 2] {
        assert_eq!(tried(&image, length, borrowed + 2), (Some(Refusal::ImageLength), true));
    }
    assert_eq!(tried(&image, 3 * 512, borrowed + 2), (Some(Refusal::PagesLacking), true));
}

/// No change is made, so that 1,000,000,000 of them are no reason to refuse it; and an older source has a target with 24.
#[test]
fn rebuilds_of_full_and_of_older_images() {
    let mut image = leaf_of(&[(0, 0, 0), (10, 6, 1), (20, 6, 1), (40, 0, 0)]);
    put(&mut image, 0, 32, &1_000_000_000u32.to_le_bytes());
    put(&mut image, 0, CAPACITY_AT, &[0xFF; 4]);
    let mut target = [0; 3 * 512];
    assert_eq!(rebuild(&image, &mut target, &mut [9]), Ok(()));
    assert_eq!((head(&target, 8), head(&target, 9)), (1_000_000_000, 24));
    assert_eq!(instant(&target, 15), Ok(Instant { sum: 6, count: 1, pages: 1, start: 10, end: 40 }));
    assert_eq!(enter(&mut target, &mut [9], 1, 10, 20), Err(Refusal::ChangesFull));
}
