//! Every set of refusals that can meet in one call: the status is that of the first by document 01's order, worked out here.
//!
//! "The order is 16, 17, 11 or 12, 13, 14, 21, 22, 23, 24, and 15 last." Document 02, (xi), puts ahead of it: "under 40 bytes gives 16,
//! a bad K 21 ahead of 16", and at format a 14 for K "ahead of 16".

use plain::END;

use crate::calls::{Answer, Call};
use crate::comparer::Comparer;
use crate::images::{
    capacity, enter_in_order, fresh, fresh_of, head, leaf_entry_at, page_bytes, pages_of, scratch_bytes, Pool,
    CAPACITY, CHANGES, KIND,
};
use crate::rebuilds::{fewest_pages, runs_of};

const ORDER: [u32; 12] = [16, 17, 11, 12, 13, 14, 21, 22, 23, 24, 15, 0];

/// The status of a call that these refusals meet.
fn first(refusals: &[(u32, bool)]) -> u32 {
    ORDER.into_iter().find(|status| *status == 0 || refusals.contains(&(*status, true))).expect("0 is the last")
}

/// All ways to choose among so many things.
fn choices<const N: usize>() -> impl Iterator<Item = [bool; N]> {
    (0..1usize << N).map(|set| std::array::from_fn(|i| set >> i & 1 == 1))
}

pub fn refusals(comparer: &mut Comparer, _: &Pool, _: usize) {
    // Nine pages and more borrow two bytes and more: there one byte less is some, and short.
    let others =
        [fresh_of(4, 2, 1, 0), filled(4, 1), filled(4, 3), filled(18, 2), fresh_of(4, 9, 2, 0), fresh(17, 1, 0)];
    for image in [fresh(2, 1, 0), filled(24, 1), filled(24, 2), filled(24, 3)].into_iter().chain(others) {
        for cut in cuts(&image) {
            formats(comparer, &image, cut);
            instants(comparer, &image, cut);
            listings(comparer, &image, cut);
            audits(comparer, &image, cut);
            changes(comparer, &image, cut);
            rebuilds(comparer, &image, cut);
        }
    }
    for image in [two_levels(4, 1), two_levels(10, 3), two_levels(24, 2)] {
        for cut in cuts(&image) {
            rebuilds(comparer, &image, cut);
        }
    }
}

/// How many bytes may be cut off an image.
fn cuts(image: &[u8]) -> [usize; 6] {
    let page = page_bytes(image);
    [1, page - 1, page * (pages_of(image) - 1), image.len() - 40, image.len() - 39, image.len()]
}

/// A leaf of K − 1 entries in three pages: the next cuts lack pages.
fn filled(k: usize, kind: u32) -> Vec<u8> {
    let mut image = fresh_of(k, 3, kind, 0);
    enter_in_order(&mut image, k as u32 / 2 - 1);
    image
}

/// More runs than a page has room for, in as many pages as they need and some more.
fn two_levels(k: usize, kind: u32) -> Vec<u8> {
    let mut image = fresh_of(k, 9, kind, 0);
    enter_in_order(&mut image, k as u32 / 2 + 1);
    image
}

/// What may be wrong with an image: bytes cut off, a bad K, a damaged head, a damaged root.
#[derive(Clone, Copy)]
struct Wrong {
    cut: Option<usize>,
    capacity: bool,
    head: bool,
    page: bool,
}

/// Lends the image with all that is wrong with it; the number that turns it back ahead of everything else, or 0.
fn lend(comparer: &mut Comparer, image: &[u8], wrong: Wrong) -> u32 {
    let mut bytes = image.to_vec();
    if wrong.capacity {
        bytes[4 * CAPACITY] += 1;
    }
    if wrong.head {
        bytes[4 * KIND] = 0;
    }
    if wrong.page {
        bytes[page_bytes(image) + 4] = capacity(image) as u8 + 1;
    }
    bytes.truncate(image.len() - wrong.cut.unwrap_or(0));
    comparer.lend(&bytes);
    match wrong {
        _ if bytes.len() < 40 => 16,
        Wrong { capacity: true, .. } => 21,
        Wrong { cut: Some(_), .. } => 16,
        _ => 0,
    }
}

/// The judging comes ahead of the order.
fn judged(by_judging: u32, refusals: &[(u32, bool)]) -> u32 {
    if by_judging != 0 {
        by_judging
    } else {
        first(refusals)
    }
}

fn formats(comparer: &mut Comparer, image: &[u8], cut: usize) {
    for [short, bad, kind, window, damaged] in choices() {
        let wrong = Wrong { cut: short.then_some(cut), capacity: damaged, head: damaged, page: damaged };
        lend(comparer, image, wrong);
        let status = if bad { 14 } else { first(&[(16, short), (14, kind | window)]) };
        let (kind, window) = (if kind { 4 } else { 2 }, if window { 1_000_000_001 } else { 7 });
        let capacity = capacity(image) as u32 + u32::from(bad);
        comparer.expect(Call::Format { kind, window, capacity }, 0, 0, Answer::status(status));
    }
}

fn instants(comparer: &mut Comparer, image: &[u8], cut: usize) {
    for [short, bad, end, bad_head, bad_page] in choices() {
        let wrong = Wrong { cut: short.then_some(cut), capacity: bad, head: bad_head, page: bad_page };
        let by_judging = lend(comparer, image, wrong);
        let status = judged(by_judging, &[(12, end), (21, bad_head | bad_page)]);
        let t = if end { END } else { 3 };
        let pages = u32::from(by_judging == 0 && (status == 0 || status == 21 && !bad_head));
        // Answered, it is the first entry, which starts at 0.
        let end = if status == 0 { leaf_entry_at(image, t).end } else { 0 };
        comparer.expect(Call::Instant { t }, 0, 0, Answer { pages, end, ..Answer::status(status) });
        comparer.expect(Call::Average { t }, 0, 0, Answer::status(status));
    }
}

fn listings(comparer: &mut Comparer, image: &[u8], cut: usize) {
    for [short, bad, empty, bad_head, bad_page, no_room] in choices() {
        let wrong = Wrong { cut: short.then_some(cut), capacity: bad, head: bad_head, page: bad_page };
        let by_judging = lend(comparer, image, wrong);
        let status = judged(by_judging, &[(11, empty), (21, bad_head | bad_page), (15, no_room)]);
        let call = Call::Listing { a: 3, b: if empty { 3 } else { 5 } };
        let expected = Answer { status, ..Answer::runs(u32::from(status == 0)) };
        comparer.expect(call, 0, if no_room { 15 } else { 16 }, expected);
    }
}

fn audits(comparer: &mut Comparer, image: &[u8], cut: usize) {
    for [short, bad, little, bad_head, bad_page] in choices() {
        let wrong = Wrong { cut: short.then_some(cut), capacity: bad, head: bad_head, page: bad_page };
        let by_judging = lend(comparer, image, wrong);
        let status = judged(by_judging, &[(17, little), (21, bad_head | bad_page)]);
        let borrowed = scratch_bytes(pages_of(image));
        comparer.expect(Call::Audit, if little { borrowed - 1 } else { borrowed }, 0, Answer::status(status));
    }
}

/// Document 02, (iii): all that is wrong with the source and the scratch ahead of the target's 16, and 24 last. A billion changes are
/// none of it.
fn rebuilds(comparer: &mut Comparer, image: &[u8], cut: usize) {
    let (page, borrowed) = (page_bytes(image), scratch_bytes(pages_of(image)));
    let fewest = fewest_pages(runs_of(image).len(), capacity(image));
    for [short, bad, little, bad_head, bad_page, odd, few, changes] in choices() {
        let wrong = Wrong { cut: short.then_some(cut), capacity: bad, head: bad_head, page: bad_page };
        let by_judging = lend(comparer, image, wrong);
        if changes && !short {
            comparer.set(4 * CHANGES, &1_000_000_000u32.to_le_bytes());
        }
        let pages = if few { fewest - 1 } else { fewest };
        let by_target = match () {
            _ if odd || pages < 2 => 16,
            _ if few => 24,
            _ => 0,
        };
        let status = match () {
            _ if by_judging != 0 => by_judging,
            _ if little => 17,
            _ if bad_head || bad_page => 21,
            _ => by_target,
        };
        let (scratch, target) = (if little { borrowed - 1 } else { borrowed }, page * pages - usize::from(odd));
        comparer.expect(Call::Rebuild, scratch, target, Answer::status(status));
    }
}

fn changes(comparer: &mut Comparer, image: &[u8], cut: usize) {
    let (n, kind) = (pages_of(image), head(image, KIND));
    for [short, bad, little, empty, value, damaged, changes, wide] in choices() {
        for withdrawal in [false, true] {
            let wrong = Wrong { cut: short.then_some(cut), capacity: bad, head: false, page: damaged };
            let by_judging = lend(comparer, image, wrong);
            if changes && !short {
                comparer.set(4 * CHANGES, &1_000_000_000u32.to_le_bytes());
            }
            // Two cuts lack a page in the filled images; the whole time needs none.
            let lacks = !wide && n == 3;
            let (s, e) = if wide { (0, END) } else { (1_000, 1_005) };
            let refusals = [(17, little), (11, empty), (13, value), (21, damaged)];
            let later = [(22, withdrawal && kind != 1), (23, changes), (24, lacks)];
            let status = judged(by_judging, &[&refusals[..], &later[..]].concat());
            let v = if value { 1_000_001 } else { -1_000_000 };
            let call = crate::asking::change(withdrawal, v, if empty { e } else { s }, e);
            let borrowed = scratch_bytes(n);
            comparer.expect(call, if little { borrowed - 1 } else { borrowed }, 0, Answer::status(status));
        }
    }
}
