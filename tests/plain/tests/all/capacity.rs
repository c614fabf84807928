//! Document 02, request (xi): every even K from 4 to 24, images without the field, every bad K, heights up to 10.

use crate::loads::{require_all, Load, Times};
use crate::support::*;
use plain::capacity::Capacity;
use plain::making::{fresh_without_field, one_way, tree, Choice, Wanted};
use plain::{audit, average, enter, format, instant, listing, rebuild, withdraw, Pair, END};

/// Each sort of number that is no K.
fn bad_capacities() -> Vec<u32> {
    let small = (0..=30).chain([32, 48, 255, 256, 257, 264, 280, 512, 65_536 + 24]);
    let great = [1 << 31, (1 << 31) + 24, 0xFF00_0000, 0x00FF_FFFF, u32::MAX - 231, u32::MAX - 3, u32::MAX - 1];
    small.chain(great).filter(|k| !good_capacity(*k)).collect()
}

// ---------------------------------------------------------------- format

/// "An odd K or one outside its range gives 14 at format, ahead of 16."
#[test]
fn formats() {
    let mut calls = 0;
    for k in (0..=30).chain(bad_capacities()).chain([u32::MAX]) {
        let page = 32 + 20 * (k as usize).min(30);
        for length in
            [0, 1, 39, 40, page - 1, page, 2 * page - 1, 2 * page, 2 * page + 1, 512 * 3, 7 * page, 1_025 * page]
        {
            for (kind, window) in [(1, 0), (3, 1_000_000_000), (0, 0), (4, 0), (2, 1_000_000_001)] {
                let mut image = vec![0x3C; length];
                let in_range = length.is_multiple_of(page) && (2..=1_024).contains(&(length / page));
                let expected = match () {
                    _ if !good_capacity(k) => 14,
                    _ if !in_range => 16,
                    _ if kind == 0 || kind == 4 || window > 1_000_000_000 => 14,
                    _ => 0,
                };
                assert_eq!(format(&mut image, kind, window, k), expected, "{k} {length} {kind} {window}");
                calls += 1;
                if expected != 0 {
                    assert!(image.iter().all(|&byte| byte == 0x3C));
                } else {
                    assert_eq!(word(&image, 0, CAPACITY), k);
                    assert!(audit_both_ways(&image));
                }
            }
        }
    }
    report(&format!("capacity: {calls} formats"));
}

// ---------------------------------------------------------------- images turned back by their length or K

/// All calls but format, with arguments in order and with every other reason to be refused: this status, and every byte kept.
fn refused_by_all(image: &[u8], status: u32) {
    assert_eq!(judged(image), status);
    let mut copy = image.to_vec();
    for (t, s, e, v, length) in [(7, 7, 9, 1, 2_000), (END, 9, 9, 1_000_001, 0), (0, 5, 4, i64::MIN, 1)] {
        assert_eq!(instant(image, t), refused(status, 0));
        assert_eq!(average(image, t), (status, None));
        let mut lent = vec![0x77; length];
        assert_eq!(listing(image, s, e, &mut lent), plain::Listing { status, runs: 0 });
        assert_eq!(audit(image, &mut lent), status);
        assert_eq!(enter(&mut copy, &mut lent, v, s, e), status);
        assert_eq!(withdraw(&mut copy, &mut lent, v, s, e), status);
        for target in [0, 40, image.len(), 1_024] {
            let mut target = vec![0x77; target];
            assert_eq!(rebuild(image, &mut target, &mut lent), status);
            assert!(target.iter().all(|&byte| byte == 0x77));
        }
        assert!(lent.iter().all(|&byte| byte == 0x77) && copy == image);
    }
    assert!(!audit_both_ways(image));
}

/// "under 40 bytes gives 16"
#[test]
fn images_under_40_bytes() {
    for length in 0..40 {
        for byte in [0, 4, 24, 0xFF] {
            let image = vec![byte; length];
            for (t, length) in [(0, 1_024), (END, 0)] {
                assert_eq!(instant(&image, t), refused(16, 0));
                assert_eq!(average(&image, t), (16, None));
                let mut lent = vec![9; length];
                assert_eq!(listing(&image, t, END, &mut lent), plain::Listing { status: 16, runs: 0 });
                assert_eq!(audit(&image, &mut lent), 16);
                assert_eq!(enter(&mut image.clone(), &mut lent, 1, t, END), 16);
                assert_eq!(withdraw(&mut image.clone(), &mut lent, 1, t, END), 16);
                assert_eq!(rebuild(&image, &mut image.clone(), &mut lent), 16);
                assert!(lent.iter().all(|&byte| byte == 9));
            }
        }
    }
    // With 40 there is a K: bad ones, and good ones whose pages are longer than that.
    for k in bad_capacities() {
        let mut image = vec![0; 40];
        image[36..40].copy_from_slice(&k.to_le_bytes());
        refused_by_all(&image, 21);
    }
    for k in CAPACITIES.map(|k| k as u32).into_iter().chain([u32::MAX]) {
        let mut image = vec![0; 40];
        image[36..40].copy_from_slice(&k.to_le_bytes());
        refused_by_all(&image, 16);
    }
}

/// "a bad K 21 ahead of 16, scratch untouched": at lengths of every sort.
#[test]
fn bad_capacities_are_refused() {
    for k in bad_capacities() {
        for length in [40, 41, 111, 112, 224, 511, 512, 1_024, 1_025, 5_120, 524_288, 524_800] {
            let mut image = fresh(2, 1, 0);
            image.resize(length, 0xFF);
            image[36..40].copy_from_slice(&k.to_le_bytes());
            refused_by_all(&image, 21);
        }
    }
}

/// Lengths that are right for another K: 16, or the head doesn't match.
#[test]
fn lengths_of_other_capacities() {
    let mut by_status = [0; 2];
    for k in CAPACITIES {
        for other in CAPACITIES {
            for n in [2, 3, 16, 19, 64, 1_024] {
                // The field changed on a good image, and a good image of another length.
                let mut named = fresh_of(k, n, 1, 0);
                set_word(&mut named, 0, CAPACITY, other as u32);
                let mut cut = fresh_of(k, n, 1, 0);
                cut.resize(n * (32 + 20 * other), 0xFF);
                for image in [named, cut].into_iter().filter(|_| k != other) {
                    if judged(&image) == 0 {
                        assert_eq!(instant(&image, 0), refused(21, 0));
                        assert!(!audit_both_ways(&image));
                        by_status[1] += 1;
                    } else {
                        refused_by_all(&image, 16);
                        by_status[0] += 1;
                    }
                }
            }
        }
        // One byte more or less, one page too few or too many.
        for length in [1, 32 + 20 * k, 2 * (32 + 20 * k) - 1, 2 * (32 + 20 * k) + 1, 1_025 * (32 + 20 * k)] {
            let mut image = fresh_of(k, 2, 1, 0);
            image.resize(length.max(40), 0xFF);
            refused_by_all(&image, 16);
        }
    }
    assert!(by_status[0] > 0 && by_status[1] > 0);
    report(&format!("capacity: lengths of another K, {} with 16, {} with 21", by_status[0], by_status[1]));
}

// ---------------------------------------------------------------- numbers of entries

/// "Trusting a page's number of entries before comparing it with 24": from K + 1 to 24 the number would be in order at K = 24.
#[test]
fn numbers_of_entries_above_the_capacity() {
    for k in CAPACITIES {
        let mut rack = Rack::on(fresh_of(k, 12, 1, 0), 1);
        let mut i = 0;
        while height(&rack.image) < 2 {
            i += 1;
            assert_eq!(rack.enter(1, 10 * i, 10 * i + 5), 0);
        }
        let way = Node::of(&rack.image).way(0);
        for (above, page) in way.iter().enumerate() {
            for to in (k as u32 + 1..=25).chain([26, 40, 1 << 24, 1 << 31, u32::MAX]) {
                let mut image = rack.image.clone();
                set_word(&mut image, *page, 1, to);
                assert_eq!(instant(&image, 0), refused(21, above as u32 + 1));
                assert!(!audit_both_ways(&image));
            }
        }
        // The last leaf, which has more than half, cut off behind each of its entries: half and more are fit.
        let leaf = *Node::of(&rack.image).way(END - 1).last().unwrap();
        let mut image = rack.image.clone();
        let entries = word(&image, leaf, 1) as usize;
        assert!(entries > k / 2);
        for left in (0..entries).rev() {
            set_word(&mut image, leaf, 1, left as u32);
            set(&mut image, leaf, start_at(left), &[0xFF; 4]);
            set(&mut image, leaf, entry_in(k, left), &[0xFF; 16]);
            let fit = left >= k / 2;
            assert_eq!(
                (instant(&image, END - 1).status, instant(&image, END - 1).pages),
                (if fit { 0 } else { 21 }, 2)
            );
            assert_eq!(audit_both_ways(&image), fit);
        }
    }
}

// ---------------------------------------------------------------- changes

#[test]
fn loads_of_every_capacity() {
    for k in CAPACITIES {
        let mut total = Tally::default();
        for n in [2, 3, 4, 5, 7, 9, 14, 22, 40, 64] {
            for kind in 1..=3 {
                let window = if n % 3 == 0 { 3 } else { 0 };
                let times = Times { range: (k * n) as u64 / 2 + 20, longest: 9 };
                let load = Load::on(fresh_of(k, n, kind, window), times, (1_000 * k + n) as u64 + u64::from(kind));
                total.add(&load.run(if kind == 1 { 60 } else { 25 }));
            }
        }
        total.report(&format!("capacity, loads at {k}"));
        require_all(&total);
    }
}

/// "an image of 512-byte pages without the field (FF there) reads as K = 24", and "a change keeps the field's bytes": every call on
/// it goes as on the image with 24, and both stay the same but for the field.
#[test]
fn images_without_the_field() {
    let mut total = Tally::default();
    for (kind, n) in [(1, 2), (1, 5), (1, 30), (2, 9), (3, 64)] {
        let mut without = Rack::on(fresh_without_field(n, kind, 2), 5);
        let mut with = Rack::new(n as usize, kind, 2, 5);
        let mut random = Xorshift::new(u64::from(n));
        let mut live = Vec::new();
        for i in 0..400 {
            let s = random.below(12 * u64::from(n)) as u32;
            let mut booking = (random.between(-1, 1), s, s + 1 + random.below(6) as u32);
            let withdrawal = kind == 1 && random.below(10) < if i % 80 < 50 { 2 } else { 8 } && !live.is_empty();
            if withdrawal {
                booking = live.swap_remove(random.below(live.len() as u64) as usize);
            }
            let (v, s, e) = booking;
            let status = without.change(withdrawal, v, s, e);
            assert_eq!(status, with.change(withdrawal, v, s, e));
            if status == 0 && !withdrawal {
                live.push(booking);
            }
            assert_eq!(without.image[36..40], [0xFF; 4]);
            assert_eq!(with.image[36..40], [24, 0, 0, 0]);
            assert!(without.image[..36] == with.image[..36] && without.image[40..] == with.image[40..]);
        }
        without.check_instants();
        without.check_listing(0, END);
        total.add(&without.tally);
    }
    total.report("capacity, images without the field");
    require_all(&total);
}

// ---------------------------------------------------------------- heights

/// The fewest entries in most pages, a random number in some; small pairs.
pub struct Drawn {
    random: Xorshift,
    kind: u32,
    /// One page in so many has a random number of entries.
    one_in: u64,
}

impl Choice for Drawn {
    fn entries(&mut self, fewest: usize, most: usize) -> usize {
        if self.random.one_in(self.one_in) {
            self.random.between(fewest as i64, most as i64) as usize
        } else {
            fewest
        }
    }

    fn pair(&mut self) -> Pair {
        let count = if self.kind == 1 { self.random.between(-1, 2) } else { self.random.between(0, 1) };
        Pair { sum: if self.kind == 1 || count == 1 { self.random.between(-3, 3) } else { 0 }, count: count as i32 }
    }
}

pub fn drawn(kind: u32, one_in: u64, seed: u64) -> Drawn {
    Drawn { random: Xorshift::new(seed), kind, one_in }
}

pub fn wanted(k: usize, n: u32, height: u32, kind: u32) -> Wanted {
    let capacity = Capacity::new(k as u32).unwrap();
    Wanted { capacity, n, height, kind, window: 0, changes: 1_000 }
}

/// "A sound image may have height 10 at K = 4": all 1,023 pages with two entries. The greatest height of a sound image at every K.
#[test]
fn greatest_heights() {
    for (k, greatest) in CAPACITIES.into_iter().zip([10, 7, 6, 5, 5, 5, 4, 4, 4, 4, 4]) {
        let fewest = |height: u32| tree(&wanted(k, 1_024, height, 1), 5, 0, &mut drawn(1, u64::MAX, 1));
        let image = fewest(greatest).expect("so high");
        assert!(audit_both_ways(&image));
        assert_eq!(instant(&image, 0).pages, greatest);
        assert!(greatest == 10 || fewest(greatest + 1).is_none());
        if k == 4 {
            assert_eq!(word(&image, 0, HIGH_MARK), 1_024);
            assert!((1..1_024).all(|page| word(&image, page, 1) == 2));
        }
    }
    assert!(tree(&wanted(4, 1_023, 10, 1), 5, 0, &mut drawn(1, u64::MAX, 1)).is_none());
}

/// Made images of heights that changes don't reach, with instants, listings and changes, accepted and with 24.
#[test]
fn made_images_of_every_height() {
    let mut total = Tally::default();
    let heights = (1..=10).map(|height| (4, height)).chain([(6, 7), (6, 6), (8, 6), (8, 5), (10, 5), (14, 5), (24, 4)]);
    for (k, height) in heights {
        for kind in 1..=3 {
            let mut seeds = (0..).map(|seed| drawn(kind, [u64::MAX, 60, 15][kind as usize - 1] + seed, seed));
            let chained = if height == 10 { 0 } else { 3 };
            let made = seeds.find_map(|mut choice| tree(&wanted(k, 1_024, height, kind), 5, chained, &mut choice));
            total.add(&changes_of_made(made.unwrap(), u64::from(height)));
        }
    }
    total.report("capacity, made images");
    assert_eq!(total.greatest_height, 10);
    assert!(total.refused_24 > 0 && total.roots_gained > 0 && total.roots_lost > 0);
    assert!(total.inner_splits > 0 && total.inner_gives > 0 && total.inner_merges > 0);
}

fn changes_of_made(image: Vec<u8>, seed: u64) -> Tally {
    assert!(audit_both_ways(&image));
    let kind = word(&image, 0, KIND);
    let mut rack = Rack::on(image, seed);
    let mut random = Xorshift::new(seed);
    let span = 5 * Node::of(&rack.image).leaf_entries() as u64;
    rack.by_step = false;
    // Where no page is free, the second of these splits the first leaf in vain.
    for (s, e) in [(1, 2), (3, 4)] {
        let status = rack.change(false, 7, s, e);
        assert!(status == 0 || pages_at_hand(&rack.image) < 10);
    }
    for i in 0..40 {
        let s = 5 * random.below(span / 5) as u32 + random.pick(&[0, 0, 0, 1]);
        let e = s + random.pick(&[5, 5, 5, 1, 7, 10, 600]);
        let any = (kind == 1 && random.one_in(2), random.between(-3, 3), s, e);
        let (withdrawal, v, s, e) = healed(&rack.image, &mut random).filter(|_| i % 4 == 3).unwrap_or(any);
        rack.change(withdrawal, v, s, e);
        let tree = Node::of(&rack.image);
        for t in [s, e, s.saturating_sub(1), END - 1] {
            rack.check_instant_as(t, tree.pair_at(kind, t));
        }
    }
    rack.tally
}

/// A change that makes a leaf entry equal to the one before it, so that it goes: where pages have the fewest entries, joins
/// follow from the leaf up to the root.
fn healed(image: &[u8], random: &mut Xorshift) -> Option<(bool, i64, u32, u32)> {
    let mut leaves = Vec::new();
    collect_leaves(Node::of(image), &mut leaves);
    let kind = word(image, 0, KIND);
    for _ in 0..40 {
        let entries = random.pick(&leaves.iter().collect::<Vec<_>>());
        let at = random.below(entries.len() as u64) as usize;
        let Some([(_, before), (s, pair)]) = entries.get(at..at + 2) else { continue };
        let end = entries.get(at + 2).map_or(s + 5, |(start, _)| *start);
        let (sum, count) = (before.sum - pair.sum, before.count - pair.count);
        if kind == 1 && count.abs() == 1 {
            return Some((count < 0, sum * i64::from(count), *s, end));
        }
        if kind != 1 && before.count == 1 && pair.count == 0 {
            return Some((false, before.sum, *s, end));
        }
    }
    None
}

fn collect_leaves(node: Node, leaves: &mut Vec<Vec<(u32, Pair)>>) {
    match node {
        Node::Leaf { entries, .. } => leaves.push(entries),
        Node::Inner { entries, .. } => entries.into_iter().for_each(|(_, _, below)| collect_leaves(below, leaves)),
    }
}

/// Fit heads of every height at every K, also where no sound image is so high: instants read up to 10 pages.
#[test]
fn one_way_of_every_height() {
    let mut instants = 0;
    for k in CAPACITIES {
        for height in 1..=10 {
            for seed in 0..8 {
                let kind = 1 + seed as u32 % 3;
                let (image, span) =
                    one_way(&wanted(k, height + 1 + seed as u32, height, kind), &mut drawn(kind, 1, seed));
                assert_eq!(audit_both_ways(&image), height == 1);
                let tree = way_pairs(&image, span.start);
                for t in [span.start, span.end - 1] {
                    assert_eq!((instant(&image, t).status, instant(&image, t).pages), (0, height));
                }
                let answer = instant(&image, span.start);
                assert_eq!(Pair { sum: answer.sum, count: answer.count }, tree);
                for t in [span.start.wrapping_sub(1), span.end].into_iter().filter(|t| *t != END) {
                    let answer = instant(&image, t);
                    assert!(answer == refused(21, answer.pages) && (2..=height).contains(&answer.pages));
                }
                let head = instant(
                    &{
                        let mut image = image.clone();
                        set_word(&mut image, 0, HEIGHT, 11);
                        image
                    },
                    0,
                );
                assert_eq!(head, refused(21, 0));
                instants += 5;
            }
        }
    }
    report(&format!("capacity: {instants} instants on one way"));
}

/// The pairs on the way to t, combined; without a look at fitness.
fn way_pairs(image: &[u8], t: u32) -> Pair {
    let (k, kind) = (capacity(image), word(image, 0, KIND));
    let mut pairs = Vec::new();
    let mut page = word(image, 0, ROOT);
    for _ in 0..height(image) {
        let entries = word(image, page, 1) as usize;
        let i = (0..entries).rfind(|i| get_u32(image, page, start_at(*i)) <= t).unwrap();
        let at = page as usize * page_bytes(image) + entry_in(k, i);
        let sum = i64::from_le_bytes(image[at..at + 8].try_into().unwrap());
        pairs.push(Pair { sum, count: get_u32(image, page, entry_in(k, i) + 8) as i32 });
        page = get_u32(image, page, entry_in(k, i) + 12);
    }
    let present = pairs.iter().filter(|pair| pair.count != 0).map(|pair| pair.sum);
    let best = match kind {
        1 => {
            return Pair {
                sum: pairs.iter().map(|pair| pair.sum).sum(),
                count: pairs.iter().map(|pair| pair.count).sum(),
            }
        }
        2 => present.max(),
        _ => present.min(),
    };
    best.map_or(Pair { sum: 0, count: 0 }, |sum| Pair { sum, count: 1 })
}

/// Bookings in order on 1,024 pages until 24: the heights that they reach, and back as far as withdrawals find pages.
#[test]
fn grown_heights() {
    let mut total = Tally::default();
    for (k, reached) in CAPACITIES.into_iter().zip([9, 7, 6, 5, 5, 5, 4, 4, 4, 4, 4]).filter(|(k, _)| *k < 16) {
        let mut rack = Rack::on(fresh_of(k, 1_024, 1, 0), 3);
        (rack.by_step, rack.audit_each) = (false, false);
        let mut bookings = 1;
        while rack.enter(1, 10 * bookings, 10 * bookings + 5) == 0 {
            bookings += 1;
        }
        report(&format!("capacity: height {} at {k} after {bookings} bookings", height(&rack.image)));
        assert_eq!(height(&rack.image), reached);
        rack.check_all_quickly();
        rack.check_audit();
        for i in 1..bookings {
            rack.audit_each = i % 50 == 0;
            assert_eq!(rack.withdraw(1, 10 * i, 10 * i + 5), 0);
        }
        rack.check_all_quickly();
        rack.check_audit();
        total.add(&rack.tally);
    }
    total.report("capacity, grown heights");
    assert_eq!(total.greatest_height, 9);
}
