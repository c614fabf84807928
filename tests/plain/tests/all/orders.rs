//! Demand 3, its second and third sentences: the full listing depends only on the accepted changes, in whatever order and
//! with matching entries and withdrawals struck out; a change alters nothing outside its span.

use crate::support::*;
use plain::{instant, listing, END};

#[derive(Clone, Copy)]
struct Change {
    withdrawal: bool,
    v: i64,
    s: u32,
    e: u32,
}

fn full_listing(image: &[u8]) -> Vec<u8> {
    let mut out = vec![0; 16 * 24 * image.len() / 512];
    let answer = listing(image, 0, END, &mut out);
    assert_eq!(answer.status, 0);
    out.truncate(16 * answer.runs as usize);
    out
}

fn image_after(n: usize, kind: u32, window: u32, changes: &[Change], tally: &mut Tally) -> Vec<u8> {
    let mut rack = Rack::new(n, kind, window, n as u64);
    rack.by_step = false;
    for change in changes {
        assert_eq!(rack.change(change.withdrawal, change.v, change.s, change.e), 0);
    }
    tally.add(&rack.tally);
    rack.image
}

#[test]
fn the_same_changes_in_any_order() {
    let mut random = Xorshift::new(2);
    let mut tally = Tally::default();
    let mut different_trees = 0;
    for round in 0..60u32 {
        let kind = 1 + round % 3;
        let window = random.pick(&[0, 4, 100, 1_000_000_000]);
        let range = random.pick(&[50, 500, 100_000]);
        let mut draw = |withdrawal: bool| {
            let s = random.below(range) as u32;
            let e = if random.one_in(30) { END } else { s + 1 + random.below(range / 3) as u32 };
            Change { withdrawal, v: random.between(-4, 4), s, e }
        };
        let mut first: Vec<Change> = (0..120).map(|i| draw(kind == 1 && i % 5 == 0)).collect();
        let mut second = first.clone();
        if kind == 1 {
            // Matching pairs, the withdrawal before or after, in either list or both.
            for i in 0..30 {
                let change = draw(false);
                let list = if i % 3 == 0 { &mut first } else { &mut second };
                list.push(change);
                list.push(Change { withdrawal: true, ..change });
            }
        }
        random.shuffle(&mut first);
        random.shuffle(&mut second);
        let (n, other_n) = (random.between(50, 80) as usize, random.between(50, 400) as usize);
        let one = image_after(n, kind, window, &first, &mut tally);
        let other = image_after(other_n, kind, window, &second, &mut tally);
        assert!(full_listing(&one) == full_listing(&other));
        different_trees += u32::from(Node::of(&one) != Node::of(&other));
    }
    tally.report(&format!("orders, 60 pairs of lists, {different_trees} of them with different trees"));
    assert!(different_trees > 20);
}

/// Everything entered is withdrawn: the listing of a fresh image. By document 02, (iv), its one run is one leaf entry, so the height is 1.
#[test]
fn everything_withdrawn() {
    let mut random = Xorshift::new(6);
    let mut tally = Tally::default();
    for _ in 0..12 {
        let mut changes = Vec::new();
        for _ in 0..150 {
            let s = random.below(3_000) as u32;
            let e = s + 1 + random.below(700) as u32;
            let v = random.between(-1_000_000, 1_000_000);
            changes.push(Change { withdrawal: false, v, s, e });
            changes.push(Change { withdrawal: true, v, s, e });
        }
        random.shuffle(&mut changes);
        let image = image_after(100, 1, 3, &changes, &mut tally);
        assert_eq!(full_listing(&image), full_listing(&fresh(2, 2, 0)));
        assert_eq!((Node::of(&image).leaf_entries(), height(&image)), (1, 1));
    }
    tally.report("orders, everything withdrawn");
}

/// "one more accepted change alters no instant's pair outside its span (lengthened by the window)", at every instant of
/// a small time.
#[test]
fn nothing_outside_the_span() {
    let mut random = Xorshift::new(9);
    let mut instants = 0;
    for round in 0..24u32 {
        let kind = 1 + round % 3;
        let window = random.pick(&[0, 3, 20]);
        let mut rack = Rack::new(24, kind, window, u64::from(round));
        for _ in 0..60 {
            let s = random.below(300) as u32;
            let e = s + 1 + random.below(40) as u32;
            let before: Vec<plain::Instant> = (0..400).map(|t| instant(&rack.image, t)).collect();
            let status = rack.change(kind == 1 && random.one_in(3), random.between(-2, 2), s, e);
            for (t, old) in before.iter().enumerate() {
                let t = t as u32;
                let new = instant(&rack.image, t);
                let outside = t < s || t >= e + window;
                if outside || status != 0 {
                    assert_eq!((new.sum, new.count), (old.sum, old.count));
                }
                instants += 2;
            }
        }
    }
    report(&format!("orders: {instants} instants around changes"));
}
