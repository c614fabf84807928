//! Instants late, early and at random, before and after a change of the search in a page: two archives of the library in one
//! program, each linked at four places, so that neither gains by where its code happens to stand. build.rs makes the copies.

use std::mem::MaybeUninit;

use luwhenoka::raw::InstantAnswer;
use plain::page::{read_head, read_page};
use plain::Capacity;

use crate::copies::print_archives;
use crate::even::{Even, LATE};
use crate::measure::{side_by_side, Column, Took, Work};
use crate::subjects::{booked, bookings, height, Booking, Random, CAPACITY, INSTANTS, RANGE};

// ---------------------------------------------------------------- the copies

/// What the archive of before answers. One of a commit before document 02's (viii) knows no start and end: it writes 24 bytes where one
/// of today writes 32, with the other fields at the same place. So there is room for both, and what only one of them writes isn't read.
/// Where no archive of before (viii) is measured any more, `InstantAnswer` can take its place.
#[repr(C)]
#[derive(Clone, Copy)]
struct BeforeAnswer {
    status: u32,
    pages: u32,
    sum: i64,
    count: i32,
    _start_and_end: [MaybeUninit<u32>; 2],
}

const _: () = assert!(size_of::<BeforeAnswer>() == size_of::<InstantAnswer>());

impl BeforeAnswer {
    fn agrees(&self, with: &InstantAnswer) -> bool {
        let BeforeAnswer { status, pages, sum, count, .. } = *self;
        (status, pages, sum, count) == (with.status, with.pages, with.sum, with.count)
    }
}

type InstantOf<A> = unsafe extern "C" fn(*const u8, usize, u32) -> A;
type KnownOf = unsafe extern "C" fn(*const u8, usize, u32, *const u8) -> InstantAnswer;

copies!(BEFORE: InstantOf<BeforeAnswer>, (image: *const u8, image_length: usize, t: u32) -> BeforeAnswer,
    before_0_instant before_1_instant before_2_instant before_3_instant);
copies!(AFTER: InstantOf<InstantAnswer>, (image: *const u8, image_length: usize, t: u32) -> InstantAnswer,
    after_0_instant after_1_instant after_2_instant after_3_instant);
copies!(PLAIN_C: InstantOf<InstantAnswer>, (image: *const u8, image_length: usize, t: u32) -> InstantAnswer,
    peer_0_instant peer_1_instant peer_2_instant peer_3_instant);
copies!(KNOWN: KnownOf, (image: *const u8, image_length: usize, t: u32, known: *const u8) -> InstantAnswer,
    peer_0_instant_known peer_1_instant_known peer_2_instant_known peer_3_instant_known);

fn instant<A>(copy: InstantOf<A>, image: &[u8], t: u32) -> A {
    unsafe { copy(image.as_ptr(), image.len(), t) }
}

/// The index of t's entry in each page on its way, from the root on; no tree is higher than ten.
type Indices = [u8; 10];

fn instant_known(copy: KnownOf, image: &[u8], t: u32, known: &Indices) -> InstantAnswer {
    unsafe { copy(image.as_ptr(), image.len(), t, known.as_ptr()) }
}

// ---------------------------------------------------------------- what is measured

/// The capacity measured beside 24.
const SMALL: u32 = 4;

/// The name of each choice of instants, and what they lie between.
const TIMES: [(&str, u32, u32); 4] = [
    ("last hundredth", RANGE / 100 * 99, RANGE),
    ("last tenth", LATE, RANGE),
    ("first tenth", 0, RANGE - LATE),
    ("at random", 0, RANGE),
];

struct Subject {
    case: String,
    image: Vec<u8>,
}

pub fn searches() {
    print_archives();
    let subjects = subjects();
    before_and_after(&subjects);
    println!();
    share_of_search(&subjects);
}

/// Images of each height, at 24 and at the small capacity, their latest pages half full and full; and images at 24 whose pages
/// have different numbers of entries, as bookings at random leave them, and bookings one after the other.
fn subjects() -> Vec<Subject> {
    let mut subjects = Vec::new();
    for k in [CAPACITY, SMALL] {
        for height in 1..=4 {
            for (latest_full, latest) in [(false, "half full"), (true, "full")] {
                let capacity = Capacity::new(k).expect("a capacity");
                let image = Even { capacity, height, latest_full }.image();
                subjects.push(subject(k, &format!("latest pages {latest}"), image));
            }
        }
    }
    let mut book = |n: usize, how: &str, bookings: &[Booking]| {
        let (image, number) = booked(n, bookings);
        subjects.push(subject(CAPACITY, &format!("{number} bookings {how}"), image));
    };
    for (n, number) in [(64, 5), (64, 60), (64, 400), (1_024, 5_000)] {
        book(n, "at random", &bookings(number, 1_000_000, 1));
    }
    for (n, number) in [(64, 5), (64, 60), (64, 300), (1_024, 3_000)] {
        book(n, "in order", &in_order(number));
    }
    subjects
}

fn subject(k: u32, how: &str, image: Vec<u8>) -> Subject {
    Subject { case: format!("K = {k}, height {}, {how}", height(&image)), image }
}

/// One booking after the other, each at most ten times as long as the mean time between two.
fn in_order(number: usize) -> Vec<Booking> {
    let apart = RANGE / number as u32;
    let mut random = Random::new(3);
    let mut booking = |i: usize| {
        let s = apart * i as u32 + random.below(apart);
        let e = RANGE.min(s + 1 + random.below(10 * apart));
        (i64::from(random.below(100)) + 1, s, e)
    };
    (0..number).map(&mut booking).collect()
}

fn instants_between(from: u32, to: u32) -> Vec<u32> {
    let mut random = Random::new(2);
    (0..INSTANTS).map(|_| from + random.below(to - from)).collect()
}

/// Each instant by each copy; the sums are added up.
fn by_copies<'a, A: 'a>(
    column: Column,
    copies: &'a [InstantOf<A>; 4],
    sum: impl Fn(A) -> i64 + 'a,
    image: &'a [u8],
    asked: &'a [u32],
) -> Work<'a> {
    Work::new(column, copies.len() * asked.len(), move || {
        copies.iter().map(|copy| asked.iter().map(|t| sum(instant(*copy, image, *t)) as u64).sum::<u64>()).sum()
    })
}

// ---------------------------------------------------------------- before and after

fn before_and_after(subjects: &[Subject]) {
    let names = TIMES.map(|(name, _, _)| name).join(" | ");
    println!("| image | {names} |");
    println!("|--|--|--|--|--|");
    for Subject { case, image } in subjects {
        let cells = TIMES.map(|(_, from, to)| after_by_before(image, &instants_between(from, to)));
        println!("| {case} | {} |", cells.join(" | "));
    }
}

/// How many times as long an instant takes after as before, and both times.
fn after_by_before(image: &[u8], asked: &[u32]) -> String {
    for t in asked {
        let answer = instant(AFTER[0], image, *t);
        assert!(answer.status == 0 && AFTER.iter().all(|copy| instant(*copy, image, *t) == answer));
        assert!(BEFORE.iter().all(|copy| instant(*copy, image, *t).agrees(&answer)));
    }
    let after = by_copies(Column::Library, &AFTER, |answer| answer.sum, image, asked);
    let before = by_copies(Column::Before, &BEFORE, |answer| answer.sum, image, asked);
    let took = side_by_side(vec![after, before]);
    format!("{:.2} ({} → {})", took[1].ratio, took[1].time(), took[0].time())
}

// ---------------------------------------------------------------- how much of an instant the search is

/// Plain C with its search and without any, which tells the least that a search could leave; plain C knows 24 alone.
fn share_of_search(subjects: &[Subject]) {
    println!("| image, instants at random | plain C | entries known | share of its search | library |");
    println!("|--|--|--|--|--|");
    let asked = instants_between(0, RANGE);
    for Subject { case, image } in
        subjects.iter().filter(|subject| read_head(&subject.image).capacity_field == CAPACITY)
    {
        let took = with_and_without(image, &asked);
        let [plain_c, known, library] = &took[..] else { unreachable!("three works") };
        let share = 100.0 * (1.0 - 1.0 / known.ratio);
        println!("| {case} | {} | {} | {share:.0}% | {} |", plain_c.time(), known.time(), library.time());
    }
}

fn with_and_without(image: &[u8], asked: &[u32]) -> Vec<Took> {
    let known: Vec<(u32, Indices)> = asked.iter().map(|t| (*t, entries_on_way(image, *t))).collect();
    for (t, indices) in &known {
        let answer = instant(AFTER[0], image, *t);
        assert!(PLAIN_C.iter().all(|copy| instant(*copy, image, *t) == answer));
        assert!(KNOWN.iter().all(|copy| instant_known(*copy, image, *t, indices) == answer));
    }
    let by_known = |copy: &KnownOf| -> u64 {
        known.iter().map(|(t, indices)| instant_known(*copy, image, *t, indices).sum as u64).sum()
    };
    side_by_side(vec![
        by_copies(Column::PlainC, &PLAIN_C, |answer| answer.sum, image, asked),
        Work::new(Column::Known, KNOWN.len() * asked.len(), || KNOWN.iter().map(by_known).sum()),
        by_copies(Column::Library, &AFTER, |answer| answer.sum, image, asked),
    ])
}

fn entries_on_way(image: &[u8], t: u32) -> Indices {
    let head = read_head(image);
    let mut number = head.root;
    let mut indices = [0; 10];
    for index in &mut indices[..head.height as usize] {
        let page = read_page(image, head.capacity(), number).expect("a fit page");
        let i = page.entry_at(t);
        number = page.entries[i].child;
        *index = i as u8;
    }
    indices
}
