//! Images that grow and shrink in turn, so that pages split and join again: in small ranges of time, up to height 4, and
//! filled until 24.

use std::collections::BTreeSet;

use plain::END;

use crate::comparer::Comparer;
use crate::groups::made::leaf_entries;
use crate::images::{fresh, head, pages_of, Pool, CHANGES, HEIGHT, KIND};

/// A booking: value, start and end.
type Booking = (i64, u32, u32);

// ---------------------------------------------------------------- small ranges

const SIZES: [usize; 12] = [3, 4, 5, 6, 8, 11, 16, 24, 40, 64, 150, 1_024];
const RANGES: [usize; 4] = [40, 100, 300, 1_500];

/// Few instants and few values, so that spans meet.
pub fn split_merge(comparer: &mut Comparer, _: &Pool, part: usize) {
    let n = SIZES[part / 3 % SIZES.len()];
    let kind = 1 + part as u32 % 3;
    let range = comparer.random.pick(&RANGES);
    alternate(comparer, &fresh(n, kind, 0), range, 2_500);
}

/// On a fresh image of any K, so many changes.
pub fn alternate(comparer: &mut Comparer, image: &[u8], range: usize, changes: u32) {
    let kind = head(image, KIND);
    comparer.lend(image);
    let mut live = Vec::new();
    // For kinds 2 and 3 entries that no heal finds can pile up until every change is refused: hence a bound on the rounds.
    for round in 0..400 {
        let most = 1 + comparer.random.below(range / 2);
        while live.len() < most {
            let s = comparer.random.below(range) as u32;
            let (v, e) = (valued(comparer, kind, round), s + 1 + comparer.random.below(9) as u32);
            if changed(comparer, false, (v, s, e)) != 0 {
                break;
            }
            live.push((v, s, e));
        }
        live = taken_back(comparer, kind, round, live);
        if head(comparer.image(), CHANGES) >= changes {
            return;
        }
    }
}

/// For kinds 2 and 3 each round's values are beyond those of the rounds ahead of it.
fn valued(comparer: &mut Comparer, kind: u32, round: i64) -> i64 {
    match kind {
        1 => comparer.random.between(-2, 2),
        2 => 10 * round + comparer.random.between(0, 5),
        _ => -10 * round - comparer.random.between(0, 5),
    }
}

/// A change, and calls at its ends.
fn changed(comparer: &mut Comparer, withdrawal: bool, (v, s, e): Booking) -> u32 {
    let status = comparer.book(withdrawal, v, s, e);
    let t = comparer.random.pick(&[s.saturating_sub(1), s, e - 1, e]);
    comparer.instant(t);
    if comparer.random.one_in(20) {
        comparer.audit();
        comparer.listing(t, t.saturating_add(200));
    }
    status
}

/// Takes back what is booked, in some order, and gives what is still booked then. Kinds 2 and 3 have no withdrawals: there a
/// value beyond all others is laid from each edge of a booking to the next, until all is alike and heals.
fn taken_back(comparer: &mut Comparer, kind: u32, round: i64, mut live: Vec<Booking>) -> Vec<Booking> {
    if kind == 1 {
        order(comparer, &mut live);
        live.retain(|booking| changed(comparer, true, *booking) != 0);
        if live.is_empty() {
            assert_eq!(comparer.listing(0, END).runs, 1, "all is withdrawn");
            assert_eq!(
                (leaf_entries(comparer.image()), head(comparer.image(), HEIGHT)),
                (1, 1),
                "and one entry is left"
            );
        }
        return live;
    }
    let beyond = if kind == 2 { 10 * round + 9 } else { -10 * round - 9 };
    let edges: BTreeSet<u32> = live.iter().flat_map(|(_, s, e)| [*s, *e]).collect();
    let mut gaps: Vec<(u32, u32)> = edges.iter().copied().zip(edges.iter().copied().skip(1)).collect();
    order(comparer, &mut gaps);
    for (s, e) in gaps {
        changed(comparer, false, (beyond, s, e));
    }
    Vec::new()
}

fn order<T>(comparer: &mut Comparer, list: &mut [T]) {
    match comparer.random.below(3) {
        0 => list.reverse(),
        1 => {}
        _ => comparer.random.shuffle(list),
    }
}

// ---------------------------------------------------------------- heights

/// Bookings one by one up to a height, and taken back again.
pub fn grow_shrink(comparer: &mut Comparer, _: &Pool, part: usize) {
    let kind = 1 + part as u32 % 3;
    let height = 2 + part as u32 / 3 % 3;
    up_and_down(comparer, &fresh(1_024, kind, 0), height);
}

/// On a fresh image of any K.
pub fn up_and_down(comparer: &mut Comparer, image: &[u8], height: u32) {
    let kind = head(image, KIND);
    comparer.lend(image);
    let mut live = Vec::new();
    while head(comparer.image(), HEIGHT) < height {
        let s = 20 * (live.len() as u32 + 1);
        let booking = (valued(comparer, kind, 0), s, s + 7);
        assert_eq!(changed(comparer, false, booking), 0);
        live.push(booking);
    }
    let live = taken_back(comparer, kind, 0, live);
    assert!(live.is_empty(), "pages are plenty");
    comparer.listings(0, END);
}

// ---------------------------------------------------------------- filled and emptied

const FILLED: [usize; 16] = [2, 3, 4, 5, 6, 7, 8, 10, 13, 18, 25, 36, 50, 64, 150, 300];

/// Filled until 24, and further with what still fits; then taken back, and formatted.
pub fn fill_empty(comparer: &mut Comparer, _: &Pool, part: usize) {
    let kind = 1 + part as u32 % 3;
    // The largest takes some seconds: once among the first parts, of another kind each further time.
    let n = if part % 97 == 0 { 1_024 } else { FILLED[part / 3 % FILLED.len()] };
    fill_and_empty(comparer, &fresh(n, kind, 0));
}

/// On a fresh image of any K.
pub fn fill_and_empty(comparer: &mut Comparer, image: &[u8]) {
    let (n, kind) = (pages_of(image), head(image, KIND));
    comparer.lend(image);
    for round in 0..if n > 64 { 1 } else { 3 } {
        let mut live = filled(comparer, kind, round, n);
        for _ in 0..3 {
            live = taken_back(comparer, kind, round, live);
        }
        comparer.listings(0, END);
        comparer.audit();
    }
    assert_eq!(comparer.format(kind, 0).status, 0);
}

fn filled(comparer: &mut Comparer, kind: u32, round: i64, n: usize) -> Vec<Booking> {
    let mut slots: Vec<u32> = (0..20 * n as u32).collect();
    order(comparer, &mut slots);
    let mut live = Vec::new();
    let mut refused = 0;
    for slot in slots {
        let s = 10 * slot;
        let booking = (valued(comparer, kind, round), s, s + 1 + comparer.random.below(12) as u32);
        match changed(comparer, false, booking) {
            0 => live.push(booking),
            _ => refused += 1,
        }
        if refused == 12 {
            return live;
        }
    }
    panic!("20 bookings for each page are too few to fill {n} pages");
}
