//! Random loads of all kinds and windows, compared with the plain book after each change.

use crate::support::*;
use plain::{format, END};

const WINDOWS: [u32; 8] = [0, 0, 1, 3, 7, 50, 1_000, 1_000_000_000];

/// How a load draws its spans.
#[derive(Clone, Copy)]
pub struct Times {
    /// Starts are below this, but for a few at the far end.
    pub range: u64,
    /// Spans are at most this long, but for a few up to END.
    pub longest: u64,
}

pub struct Load {
    pub rack: Rack,
    random: Xorshift,
    times: Times,
    live: Vec<(i64, u32, u32)>,
    growing: bool,
}

impl Load {
    fn new(n: usize, kind: u32, window: u32, times: Times, seed: u64) -> Load {
        Load::on(fresh(n, kind, window), times, seed)
    }

    /// On a fresh image of any K.
    pub fn on(image: Vec<u8>, times: Times, seed: u64) -> Load {
        let rack = Rack::on(image, seed);
        Load { rack, random: Xorshift::new(seed ^ 0xABCD), times, live: Vec::new(), growing: true }
    }

    fn span(&mut self) -> (u32, u32) {
        let random = &mut self.random;
        match random.below(40) {
            0 => (random.below(self.times.range) as u32, END),
            1 => (0, 1 + random.below(self.times.range) as u32),
            2 => {
                let s = END - 1 - random.below(5) as u32;
                (s, s + 1 + random.below(u64::from(END - s)) as u32)
            }
            _ => {
                let s = random.below(self.times.range) as u32;
                (s, s + 1 + random.below(self.times.longest) as u32)
            }
        }
    }

    fn value(&mut self) -> i64 {
        match self.random.below(30) {
            0 => 1_000_000,
            1 => -1_000_000,
            2 => 0,
            3..=10 => self.random.between(-1_000_000, 1_000_000),
            _ => self.random.between(-2, 2),
        }
    }

    /// One change: mostly entries while growing, mostly withdrawals of live bookings while shrinking, a few withdrawals
    /// of bookings that aren't live.
    fn change(&mut self) {
        let (v, (s, e)) = (self.value(), self.span());
        let towards = self.random.below(10) < 8;
        if self.random.one_in(40) {
            self.rack.withdraw(v, s, e);
        } else if towards == self.growing || self.live.is_empty() || self.rack.book.kind != 1 {
            let status = self.rack.enter(v, s, e);
            if status == 0 {
                self.live.push((v, s, e));
            } else {
                self.growing = false;
            }
        } else {
            let i = self.random.below(self.live.len() as u64) as usize;
            let (v, s, e) = self.live[i];
            if self.rack.withdraw(v, s, e) == 0 {
                self.live.swap_remove(i);
            }
            if self.live.len() < 3 {
                self.growing = true;
            }
        }
    }

    /// A refused format in between keeps everything.
    fn refused_format(&mut self) {
        let before = self.rack.image.clone();
        let k = capacity(&before) as u32;
        let (kind, window, capacity) = self.random.pick(&[
            (0, 0, k),
            (4, 7, k),
            (1, 1_000_000_001, k),
            (1, 0, 2),
            (1, 0, k + 1),
            (1, 0, u32::MAX),
        ]);
        assert_eq!(format(&mut self.rack.image, kind, window, capacity), 14);
        assert!(self.rack.image == before);
        self.rack.tally.formats += 1;
    }

    fn random_listing(&mut self) {
        let a = self.random.below(self.times.range + 20) as u32;
        let b = if self.random.one_in(4) { END } else { a + 1 + self.random.below(self.times.longest + 9) as u32 };
        self.rack.check_listing(a, b);
    }

    /// So many changes, without a look at what they leave but the rack's own.
    pub fn changes(&mut self, changes: usize) {
        for _ in 0..changes {
            if self.random.one_in(25) {
                self.growing = !self.growing;
            }
            self.change();
        }
    }

    pub fn run(mut self, changes: usize) -> Tally {
        for _ in 0..changes {
            if self.random.one_in(25) {
                self.growing = !self.growing;
            }
            self.change();
            self.rack.check_instants();
            self.rack.check_listing(0, END);
            self.random_listing();
            if self.random.one_in(20) {
                self.refused_format();
            }
        }
        self.rack.tally
    }
}

pub fn require_all(tally: &Tally) {
    assert!(tally.splits > 0);
    assert!(tally.roots_gained > 0);
    assert!(tally.refused_24 > 0);
    assert!(tally.gives_from_left > 0 && tally.gives_from_right > 0);
    assert!(tally.merges_with_left > 0 && tally.merges_with_right > 0);
    assert!(tally.roots_lost > 0);
    assert!(tally.chain_taken > 0);
}

fn all_sizes(name: &str, kind: u32, changes: usize) {
    let mut total = Tally::default();
    let mut random = Xorshift::new(u64::from(kind));
    for n in 2..=64usize {
        let window = random.pick(&WINDOWS);
        let times = random.pick(&[
            Times { range: 60, longest: 9 },
            Times { range: 200, longest: 12 },
            Times { range: 200, longest: 150 },
            Times { range: 5_000, longest: 300 },
            Times { range: 4_000_000_000, longest: 200_000_000 },
        ]);
        let load = Load::new(n, kind, window, times, 1_000 * u64::from(kind) + n as u64);
        total.add(&load.run(changes));
    }
    total.report(name);
    assert!(total.splits > 0 && total.roots_gained > 0 && total.refused_24 > 0);
    if kind == 1 {
        require_all(&total);
    }
}

#[test]
fn totals_on_sizes_2_to_64() {
    all_sizes("loads, kind 1, sizes 2 to 64", 1, 130);
}

#[test]
fn greatest_on_sizes_2_to_64() {
    all_sizes("loads, kind 2, sizes 2 to 64", 2, 80);
}

#[test]
fn least_on_sizes_2_to_64() {
    all_sizes("loads, kind 3, sizes 2 to 64", 3, 80);
}

/// Small time ranges on small images, where splits and merges alternate.
#[test]
fn splits_and_merges_alternate() {
    let mut total = Tally::default();
    for n in 4..=14usize {
        for (i, window) in [0, 2, 9].into_iter().enumerate() {
            let times = Times { range: 12 * n as u64, longest: 4 };
            let load = Load::new(n, 1, window, times, 77 * n as u64 + i as u64);
            total.add(&load.run(260));
        }
    }
    total.report("loads, splits and merges alternate");
    require_all(&total);
    assert!(total.merges() > 100 && total.gives() > 100 && total.splits > 100);
}

/// One split and one merge by turns: the same booking entered and withdrawn at the edge of a full page.
#[test]
fn split_on_one_and_merge_on_the_next() {
    let mut rack = Rack::new(4, 1, 0, 5);
    for i in 1..=12 {
        assert_eq!(rack.enter(1, 10 * i, 10 * i + 5), 0);
    }
    for _ in 0..50 {
        assert_eq!(height(&rack.image), 2);
        assert_eq!(rack.withdraw(1, 10, 15), 0);
        assert_eq!(height(&rack.image), 1);
        rack.check_instants();
        rack.check_listing(0, END);
        assert_eq!(rack.enter(1, 10, 15), 0);
        rack.check_instants();
        rack.check_listing(0, END);
    }
    rack.tally.report("loads, split on one and merge on the next");
    assert_eq!(rack.tally.roots_lost, 50);
    assert_eq!(rack.tally.roots_gained, 51);
}

/// Filled until 24, then emptied, whatever can be withdrawn; then filled again.
#[test]
fn fill_until_24_then_empty() {
    let mut total = Tally::default();
    for (n, order) in [(3, 0), (4, 1), (9, 2), (20, 0), (33, 1), (64, 0), (64, 1), (64, 2)] {
        let mut rack = Rack::new(n, 1, 0, 900 + n as u64 + order);
        let mut random = Xorshift::new(40 + n as u64 + order);
        for round in 0..2 {
            let mut live = Vec::new();
            let mut i = 0u32;
            loop {
                i += 1;
                let s = if order == 2 { random.below(100_000) as u32 } else { 10 * i + round };
                let e = s + 1 + random.below(if order == 2 { 3_000 } else { 7 }) as u32;
                let v = random.between(-3, 3);
                if rack.enter(v, s, e) == 24 {
                    break;
                }
                live.push((v, s, e));
            }
            assert!(!live.is_empty());
            rack.check_instants();
            rack.check_listing(0, END);
            match order {
                0 => live.reverse(),
                1 => {}
                _ => random.shuffle(&mut live),
            }
            // A withdrawal may give 24 itself; then others go first.
            while !live.is_empty() {
                let before = live.len();
                let mut left = Vec::new();
                for (i, &(v, s, e)) in live.iter().enumerate() {
                    if rack.withdraw(v, s, e) != 0 {
                        left.push((v, s, e));
                    }
                    if i % 16 == 0 {
                        rack.check_all_quickly();
                    }
                }
                live = left;
                assert!(live.len() < before, "some withdrawal goes through");
            }
            rack.check_instants();
            rack.check_listing(0, END);
            assert_eq!(rack.book.runs(0, END).len(), 1);
        }
        total.add(&rack.tally);
    }
    total.report("loads, filled until 24, then emptied");
    require_all(&total);
    assert!(total.greatest_height >= 3);
}

/// Images filled until 24 first, then random changes of full images: many refused, many splits and merges, height 3.
#[test]
fn random_changes_of_full_images() {
    let mut total = Tally::default();
    for (n, kind, window) in
        [(64, 1, 0), (40, 1, 30), (29, 1, 0), (64, 2, 3), (33, 3, 0), (50, 1, 1), (12, 2, 0), (7, 3, 1)]
    {
        let times = Times { range: 2_000 * n as u64, longest: 130 };
        let mut load = Load::new(n, kind, window, times, 600 + n as u64 + u64::from(kind));
        // Bookings apart from each other, in no order.
        load.rack.by_step = false;
        let mut slots: Vec<u32> = (0..20 * n as u32).collect();
        load.random.shuffle(&mut slots);
        let mut status = 0;
        while status == 0 {
            let s = 100 * slots.pop().expect("pages lack before the slots are used up");
            let (v, e) = (load.value(), s + 1 + load.random.below(30) as u32);
            status = load.rack.enter(v, s, e);
            if status == 0 {
                load.live.push((v, s, e));
            }
        }
        assert_eq!(status, 24);
        load.rack.by_step = true;
        for _ in 0..70 {
            load.growing = load.random.one_in(2);
            load.change();
            load.rack.check_instants();
            load.rack.check_listing(0, END);
            load.random_listing();
        }
        total.add(&load.rack.tally);
    }
    total.report("loads, full images");
    assert!(total.splits > 0 && total.merges() > 0 && total.gives() > 0 && total.chain_taken > 0);
    assert!(total.greatest_height >= 3 && total.refused_24 > 50);
}

/// 1,024 pages filled until 24, one booking after the other: height 4.
#[test]
fn fill_1024_pages_until_24() {
    let mut rack = Rack::new(1_024, 1, 0, 71);
    rack.by_step = false;
    rack.audit_each = false;
    let mut bookings = 0u32;
    let mut status = 0;
    while status == 0 {
        bookings += 1;
        status = rack.enter(1 + i64::from(bookings % 3), 10 * bookings, 10 * bookings + 5);
    }
    assert_eq!(status, 24);
    rack.check_audit();
    rack.check_all_quickly();
    assert_eq!(height(&rack.image), 4);
    assert_eq!(word(&rack.image, 0, FREE_LENGTH), 0);
    rack.tally.report(&format!("loads, 1,024 pages filled until 24 by {bookings} bookings"));
    // What needs no page is still accepted.
    rack.by_step = true;
    rack.audit_each = true;
    assert_eq!(rack.enter(5, 0, END), 0);
    assert_eq!(rack.enter(5, 10, 10 * (bookings - 1)), 0);
    assert_eq!(rack.withdraw(2, 10, 15), 0);
    rack.check_all_quickly();
}

/// 5,000 random bookings on 1,024 pages, then all withdrawn. By document 01 alone some 460 dead entries at height 3 were left; by document
/// 02, (iv), one entry is.
/// Long: run it with `--ignored`.
#[test]
#[ignore]
fn no_dead_entries_pile_up() {
    let mut rack = Rack::new(1_024, 1, 0, 72);
    rack.by_step = false;
    rack.audit_each = false;
    let mut random = Xorshift::new(73);
    let mut live = Vec::new();
    while live.len() < 5_000 {
        let s = random.below(1_000_000_000) as u32;
        let booking = (random.between(-100, 100), s, s + 1 + random.below(1_000_000) as u32);
        assert_eq!(rack.enter(booking.0, booking.1, booking.2), 0);
        live.push(booking);
    }
    rack.check_audit();
    random.shuffle(&mut live);
    for (v, s, e) in live {
        assert_eq!(rack.withdraw(v, s, e), 0);
    }
    rack.check_audit();
    rack.check_all_quickly();
    let left = Node::of(&rack.image).leaf_entries();
    rack.tally.report(&format!(
        "loads, 5,000 entered and withdrawn: height {}, {left} leaf entries left",
        height(&rack.image)
    ));
    assert_eq!(rack.timeline.runs(0, END).len(), 1);
    assert_eq!((left, height(&rack.image)), (1, 1));
}

/// The quick book of these tests is the plain book.
#[test]
fn the_quick_book_is_the_plain_book() {
    let mut random = Xorshift::new(3);
    for load in 0..60 {
        let kind = 1 + load % 3;
        let window = random.pick(&WINDOWS);
        let mut book = plain::Book::new(kind, window);
        let mut quick = Timeline::new(kind, window);
        for _ in 0..40 {
            let s = random.below(80) as u32;
            let e = if random.one_in(9) { END } else { s + 1 + random.below(30) as u32 };
            let v = random.between(-5, 5);
            if kind == 1 && random.one_in(3) {
                book.withdraw(v, s, e, 0);
                quick.change(-v, -1, s, e);
            } else {
                book.enter(v, s, e, 0);
                quick.change(v, 1, s, e);
            }
            book.enter(v, s, e, 24);
            book.withdraw(v, s, e, 21);
            for t in (0..170).chain([END - 1]) {
                assert_eq!(book.pair_at(t), quick.pair_at(t));
            }
            let a = random.below(90) as u32;
            for (a, b) in [(0, END), (a, a + 1), (a, a + 40)] {
                assert_eq!(book.runs(a, b), quick.runs(a, b));
            }
        }
        // The plain book's runs once more, instant by instant.
        let mut runs = vec![(0, book.pair_at(0))];
        for t in 1..300 {
            if book.pair_at(t) != book.pair_at(t - 1) {
                runs.push((t, book.pair_at(t)));
            }
        }
        let listed: Vec<(u32, plain::Pair)> = book.runs(0, 300).iter().map(|run| (run.start, run.pair)).collect();
        assert_eq!(listed, runs);
    }
}

/// 1,024 pages, random spans, all kinds: the spot of each change at once, everything now and then.
#[test]
fn loads_on_1024_pages() {
    let mut total = Tally::default();
    for (kind, window, changes) in [(1, 0, 2_600), (1, 1_000, 1_500), (2, 20, 1_500), (3, 500_000, 1_500)] {
        let times = Times { range: 4_000_000, longest: 90_000 };
        let mut load = Load::new(1_024, kind, window, times, 50 + u64::from(kind) + u64::from(window));
        for i in 0..changes {
            if i % 900 == 899 {
                load.growing = !load.growing;
            }
            load.rack.by_step = i % 40 == 0;
            load.change();
            let last = *load.rack.book.items.last().unwrap();
            for t in [last.start.saturating_sub(1), last.start, last.end - 1, last.end.min(END - 1)] {
                load.rack.check_instant(t);
            }
            if i % 150 == 149 {
                load.rack.check_all_quickly();
                let a = load.random.below(4_000_000) as u32;
                load.rack.check_listing(a, a + 20_000);
            }
        }
        total.add(&load.rack.tally);
    }
    total.report("loads, 1,024 pages");
    assert!(total.splits > 0 && total.merges() > 0 && total.gives() > 0 && total.greatest_height >= 3);
}
