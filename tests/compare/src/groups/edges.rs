//! Document 02, (iv), "Edges between pages join too": "For kind 1, heal at t shall also remove an entry that is first in its page when the
//! totals on both sides are equal", and "a kind 1 image is sound only if no two neighbouring leaf entries have equal totals".
//!
//! After every accepted change of kind 1, of these groups and of all others, no two neighbours of the library's image are equal
//! (`src/steps.rs`), and every page written is one that document 01 names: none that only the way to t−1 has.

use plain::making::older_tree;
use plain::{Pair, END};

use crate::asking::change;
use crate::calls::{Answer, Call};
use crate::comparer::Comparer;
use crate::groups::ends::alike;
use crate::groups::every_capacity::{fresh, EACH};
use crate::groups::made::{leaf_entries, swap_used};
use crate::groups::search::k_of;
use crate::images::{
    capacity, equal_neighbours, head, leaf_entry_at, neighbours, page_bytes, pages_of, pair_on_way, put, scratch_bytes,
    set_total, wanted, Drawn, Neighbour, Pool, CAPACITY, CHANGES, FREE_LENGTH, HEIGHT, HIGH_MARK, KIND,
};
use crate::random::Random;
use crate::rebuilds::{fewest_pages, runs_of};

// ---------------------------------------------------------------- images

/// K, or 0 for an image without the field, the pages and the height. At K = 4 all heights that an image of 1,024 pages has room for.
const LAID: [(usize, usize, u32); 28] = [
    (4, 1_024, 10),
    (4, 1_024, 9),
    (4, 600, 8),
    (4, 300, 7),
    (4, 150, 6),
    (4, 80, 5),
    (4, 40, 4),
    (4, 20, 3),
    (4, 9, 2),
    (6, 1_024, 7),
    (6, 300, 5),
    (6, 40, 3),
    (8, 1_024, 6),
    (8, 60, 3),
    (10, 700, 5),
    (10, 80, 3),
    (12, 1_024, 5),
    (12, 90, 3),
    (14, 1_024, 5),
    (14, 90, 3),
    (16, 500, 4),
    (18, 600, 4),
    (20, 700, 4),
    (22, 900, 4),
    (24, 1_000, 4),
    (24, 100, 3),
    (0, 1_000, 4),
    (0, 100, 3),
];

/// A sound image of kind 1. Each leaf entry has a total of its own, its place as the sum, and counts of 1 and 2 in turn, so that one change
/// makes two neighbours equal. Pages have the fewest entries, or one in so many has more.
fn laid((field, n, height): (usize, usize, u32), one_in: usize, random: &mut Random) -> Vec<u8> {
    let wanted = wanted(k_of(field), n, height, 1);
    let mut trees = (0..60).filter_map(|i| {
        let one_in = if i == 59 { usize::MAX } else { one_in.saturating_add(2 * i) };
        older_tree(&wanted, 5, 0, &mut Drawn { random: random.clone(), kind: 1, one_in })
    });
    let mut image = trees.next().expect("the fewest entries in each page fit");
    random.next();
    for (i, entry) in neighbours(&image).into_iter().enumerate() {
        set_total(&mut image, entry.start, Pair { sum: i as i64, count: 1 + i as i32 % 2 });
    }
    if field == 0 {
        put(&mut image, 0, 4 * CAPACITY, &[0xFF; 4]);
    }
    for _ in 0..20 {
        let (one, other) = (1 + random.below(n - 1), 1 + random.below(n - 1));
        swap_used(&mut image, one as u32, other as u32);
    }
    image
}

/// So many of the entries behind an edge of each level, and of those within a page: the first, the last, and any.
fn some_of_each_level(image: &[u8], most: usize, random: &mut Random) -> Vec<Neighbour> {
    let all = neighbours(image);
    let mut chosen = Vec::new();
    for level in 0..head(image, HEIGHT) {
        let mut of_level: Vec<Neighbour> = all[1..].iter().copied().filter(|entry| entry.separator == level).collect();
        while of_level.len() > most.max(2) {
            of_level.remove(1 + random.below(of_level.len() - 2));
        }
        chosen.extend(of_level);
    }
    chosen
}

// ---------------------------------------------------------------- edges of each level

pub const LEVELS: usize = 3 * LAID.len();
pub const EQUAL: usize = LAID.len();

/// At each level of an image, a change after which both sides of an edge are equal, found by D or by E; back to the image each time. Then
/// one edge after the other, each at the image that the last one left.
pub fn edge_levels(comparer: &mut Comparer, _: &Pool, part: usize) {
    let shape = LAID[part % LAID.len()];
    let one_in = [usize::MAX, 2, 4][part / LAID.len() % 3];
    let image = laid(shape, one_in, &mut comparer.random);
    comparer.lend(&image);
    assert_eq!(comparer.audit().status, 0, "it is sound");
    let most = if image.len() > 100_000 { 4 } else { 10 };
    for entry in some_of_each_level(&image, most, &mut comparer.random) {
        for at_end in [false, true] {
            let Some(joining) = joining(comparer.image(), entry.start, at_end) else { continue };
            joined(comparer, entry.start, joining);
            comparer.lend(&image);
        }
    }
    for level in 1..head(&image, HEIGHT) {
        assert!(comparer.tally.edges.joined_at(level) > 0, "an edge has been joined that level {level} separates");
    }
    for round in 0..if image.len() > 100_000 { 25 } else { 80 } {
        let edges: Vec<Neighbour> =
            neighbours(comparer.image()).into_iter().filter(|entry| entry.separator > 0).collect();
        if edges.is_empty() {
            break;
        }
        let highest = edges.iter().max_by_key(|entry| entry.separator).expect("there are some");
        let t = if round % 3 == 0 { highest.start } else { comparer.random.pick(&edges).start };
        match joining(comparer.image(), t, round % 2 == 0) {
            Some(joining) => joined(comparer, t, joining),
            None => bring_near(comparer, t),
        }
    }
    comparer.listings(0, END);
}

/// A change of the one leaf entry behind an edge at t, or of the one before it, after which both sides have the same total; none where no
/// single change does it.
fn joining(image: &[u8], t: u32, at_end: bool) -> Option<(bool, i64, u32, u32)> {
    let (behind, before) = (pair_on_way(image, t), pair_on_way(image, t - 1));
    let (from, to) = if at_end { (before, behind) } else { (behind, before) };
    let entry = leaf_entry_at(image, if at_end { t - 1 } else { t });
    let rise = to.count - from.count;
    let v = i64::from(rise) * (to.sum - from.sum);
    (rise.abs() == 1 && v.abs() <= 1_000_000).then_some((rise < 0, v, entry.start, entry.end))
}

/// The change, which has to take the entry at t out; the calls around it.
fn joined(comparer: &mut Comparer, t: u32, (withdrawal, v, s, e): (bool, i64, u32, u32)) {
    let before = leaf_entry_at(comparer.image(), t - 1);
    assert_eq!(comparer.book(withdrawal, v, s, e), 0, "it needs no cut");
    assert_eq!(comparer.audit().status, 0, "it is sound");
    let answers = [t, t - 1].map(|t| comparer.instant(t));
    assert_eq!(answers[0], answers[1], "one entry has both");
    assert!(answers[0].start <= before.start && answers[0].end > t);
    for t in [s.wrapping_sub(1), s, e - 1, e] {
        comparer.instant(t);
        comparer.average(t);
    }
    comparer.listing(t.saturating_sub(12), t.saturating_add(12));
}

/// A change of the entry behind the edge, so that its count is next to that of the entry before it.
fn bring_near(comparer: &mut Comparer, t: u32) {
    let (behind, before) = (pair_on_way(comparer.image(), t), pair_on_way(comparer.image(), t - 1));
    let entry = leaf_entry_at(comparer.image(), t);
    comparer.book(behind.count > before.count, 777, entry.start, entry.end);
    comparer.audit();
}

// ---------------------------------------------------------------- histories

/// Pages and instants; at greater K more instants are needed for as many pages. On the first so few that 24 comes often.
const TIMES: [(usize, usize); 5] = [(6, 12), (12, 3), (30, 10), (80, 40), (300, 200)];
pub const HISTORIES: usize = EACH.len() * TIMES.len();

/// Long lists of changes at every K and without the field, in short ranges of time and with few values, so that edges meet often; an audit
/// after each. In the end all is withdrawn, and one leaf entry is left at height 1; where no page is free every withdrawal may be a 24.
pub fn edge_histories(comparer: &mut Comparer, _: &Pool, part: usize) {
    let field = EACH[part % EACH.len()];
    let (n, instants) = TIMES[part / EACH.len() % TIMES.len()];
    let window = comparer.random.pick(&[0, 0, 2]);
    let range = instants * k_of(field) / 2 + 4;
    comparer.lend(&fresh(field, n, 1, window));
    let (mut live, mut growing) = (Vec::new(), true);
    for _ in 0..if n > 100 { 350 } else { 700 } {
        growing = growing != comparer.random.one_in(range.min(90));
        if live.is_empty() || comparer.random.below(10) < if growing { 8 } else { 2 } {
            let s = comparer.random.below(range) as u32;
            let long = 1 + comparer.random.below(range / 3 + 1) as u32;
            let e = if comparer.random.one_in(40) { END } else { s + long };
            let booking = (comparer.random.between(0, 1), s, e);
            if changed(comparer, false, booking) == 0 {
                live.push(booking);
            }
        } else {
            let at = comparer.random.below(live.len());
            if changed(comparer, true, live[at]) == 0 {
                live.swap_remove(at);
            }
        }
    }
    comparer.listings(0, END);
    comparer.random.shuffle(&mut live);
    // Where pages lack for one, another may make room.
    for _ in 0..live.len() {
        live.retain(|booking| changed(comparer, true, *booking) != 0);
    }
    if live.is_empty() {
        emptied(comparer);
    }
    assert!(live.is_empty() || n < 10, "pages are plenty");
}

/// A change, an audit, and calls at its ends.
fn changed(comparer: &mut Comparer, withdrawal: bool, (v, s, e): (i64, u32, u32)) -> u32 {
    let status = comparer.book(withdrawal, v, s, e);
    assert_eq!(comparer.audit().status, 0, "it is sound");
    let t = comparer.random.pick(&[s.saturating_sub(1), s, e - 1, e]);
    comparer.instant(t);
    if comparer.random.one_in(10) {
        let answer = comparer.listing(0, END);
        assert_eq!(answer.runs as usize, leaf_entries(comparer.image()), "its leaf entries number exactly the runs");
    }
    status
}

/// One leaf entry, at 0 with (0, 0); every other page that was used is in the chain.
fn emptied(comparer: &mut Comparer) {
    let image = comparer.image();
    assert_eq!((leaf_entries(image), head(image, HEIGHT)), (1, 1), "one entry is left");
    assert_eq!(head(image, FREE_LENGTH), head(image, HIGH_MARK) - 2, "one page is left");
    comparer.expect(Call::Listing { a: 0, b: END }, 0, 16, Answer::runs(1));
    comparer.expect(Call::Instant { t: 7 }, 0, 0, Answer::pair(0, 0, 1, (0, END)));
}

// ---------------------------------------------------------------- equal neighbours

/// One pair of neighbours made equal, in a page and across an edge of each level: audits and changes refuse the image, what reads answers,
/// and the rebuild takes it. With the sum or the count alone it is sound.
pub fn equal_pairs(comparer: &mut Comparer, _: &Pool, part: usize) {
    let shape = LAID[part % LAID.len()];
    let one_in = [3, usize::MAX, 5][(part + part / LAID.len()) % 3];
    let image = laid(shape, one_in, &mut comparer.random);
    let most = if image.len() > 100_000 { 2 } else { 6 };
    for entry in some_of_each_level(&image, most, &mut comparer.random) {
        let before = pair_on_way(&image, entry.start - 1);
        for (sum, count) in [(0, 0), (1_000_000, 0), (0, 9), (-1_000_000, 0)] {
            let mut other = image.clone();
            set_total(&mut other, entry.start, Pair { sum: before.sum + sum, count: before.count + count });
            comparer.lend(&other);
            if (sum, count) == (0, 0) {
                older(comparer, &[entry.start]);
                comparer.tally.edges.add_equal(entry.separator);
            } else {
                let scratch = scratch_bytes(pages_of(&other));
                comparer.expect(Call::Audit, scratch, 0, Answer::status(0));
                comparer.instant(entry.start);
                comparer.book_and_back(&other, (false, 1, 0, END));
            }
        }
    }
    several(comparer, &image);
}

/// Many equal neighbours at once, and all pairs alike; the same pairs in kinds 2 and 3, of which nothing is asked.
fn several(comparer: &mut Comparer, image: &[u8]) {
    let mut other = image.to_vec();
    let entries = neighbours(image);
    for two in entries.windows(2).filter(|_| comparer.random.one_in(3)) {
        let before = pair_on_way(&other, two[1].start - 1);
        set_total(&mut other, two[1].start, before);
    }
    comparer.lend(&other);
    if !equal_neighbours(&other).is_empty() {
        older(comparer, &entries.iter().step_by(entries.len() / 6 + 1).map(|entry| entry.start).collect::<Vec<_>>());
    }
    alike(&mut other);
    comparer.lend(&other);
    if entries.len() > 1 {
        older(comparer, &[entries[1].start]);
    }
    for kind in [2, 3] {
        alike(&mut other);
        put(&mut other, 0, 4 * KIND, &u32::to_le_bytes(kind));
        alike(&mut other);
        comparer.lend(&other);
        let scratch = scratch_bytes(pages_of(&other));
        comparer.expect(Call::Audit, scratch, 0, Answer::status(0));
        // Over everything a value, which lies in the root: now all totals are that.
        assert_eq!(comparer.book(false, 5, 0, END), 0);
        let covered = comparer.image().to_vec();
        edges_kept(comparer, &covered);
    }
}

/// Of kinds 2 and 3: changes that end or begin where a page does, with equal totals on both sides and no effect on any pair. Nothing goes.
fn edges_kept(comparer: &mut Comparer, image: &[u8]) {
    let entries = leaf_entries(image);
    for entry in some_of_each_level(image, 3, &mut comparer.random).into_iter().filter(|entry| entry.separator > 0) {
        let (before, behind) = (leaf_entry_at(image, entry.start - 1), leaf_entry_at(image, entry.start));
        for (s, e) in [(behind.start, behind.end), (before.start, before.end), (before.start, behind.end)] {
            assert_eq!(comparer.book(false, entry.total.sum, s, e), 0, "it needs no cut");
            let starts_now: Vec<u32> = neighbours(comparer.image()).iter().map(|entry| entry.start).collect();
            assert!(starts_now.contains(&entry.start), "an entry that is first in its page stays");
            assert!(starts_now.len() + 2 >= entries);
            comparer.lend(image);
        }
    }
}

/// An image that only (iv)'s clause speaks against: "Older images that break this get 21 on change and pass through the rebuild, which
/// reads them by the old rule." Instants, averages and listings answer.
fn older(comparer: &mut Comparer, instants: &[u32]) {
    let image = comparer.image().to_vec();
    let scratch = scratch_bytes(pages_of(&image));
    comparer.expect(Call::Audit, scratch, 0, Answer::status(21));
    for withdrawal in [false, true] {
        let s = comparer.random.pick(instants);
        for (s, e) in [(s, s + 1), (0, END), (s.saturating_sub(1), s + 7)] {
            comparer.expect(change(withdrawal, 1, s, e), scratch, 0, Answer::status(21));
        }
        // What comes ahead of it still does.
        comparer.expect(change(withdrawal, 1, s, s), scratch, 0, Answer::status(11));
        comparer.expect(change(withdrawal, 1_000_001, s, s + 1), scratch, 0, Answer::status(13));
        comparer.expect(change(withdrawal, 1, s, s + 1), scratch - 1, 0, Answer::status(17));
    }
    for t in instants {
        for t in [*t, t.saturating_sub(1)] {
            assert_eq!((comparer.instant(t).status, comparer.average(t).status), (0, 0), "pages are fit");
        }
    }
    let runs = runs_of(&image).len();
    let listed = comparer.listing(0, END);
    assert_eq!((listed.status, listed.runs as usize), (0, runs));
    assert!(runs < leaf_entries(&image), "some of them join");
    let output = comparer.output()[..16 * runs].to_vec();
    comparer.listings(instants[0].saturating_sub(3), instants[0] + 3);

    // Just enough pages; what the target has to be is worked out from its source at every rebuild.
    let fewest = fewest_pages(runs, capacity(&image)).max(2);
    if fewest > 2 {
        assert_eq!(comparer.rebuild(fewest - 1), 24, "one page too few");
    }
    let more = comparer.random.below(2).min(1_024 - fewest);
    comparer.rebuild_and_go_on(fewest + more);
    assert_eq!(comparer.audit().status, 0, "sound by the new rule");
    assert_eq!(leaf_entries(comparer.image()), runs, "its leaf entries number exactly the runs");
    assert_eq!(comparer.listing(0, END).runs as usize, runs);
    assert!(comparer.output()[..16 * runs] == output[..], "it lists the same");
    assert_eq!(comparer.book(false, 1, 0, END), 0, "a change of it is accepted");
    comparer.lend(&image);
}

// ---------------------------------------------------------------- older images

/// An image that the calls left before (iv), by document 01's rule, stored as a file: what it shows, its leaf entries, runs, and height.
struct Older {
    name: &'static str,
    image: &'static [u8],
    entries: usize,
    runs: usize,
    height: u32,
    /// Where a leaf entry has the total of the one before it, and the level of the separator, 0 within a page.
    equal: &'static [(u32, u32)],
}

/// All were made from a format (kind 1, window 0) by the plain version as it was before (iv), and by the library of that time with the same
/// bytes. `+ v s e` enters v on [s, e), `- v s e` withdraws it; each was accepted.
///
/// - `edge`, K = 4, n = 8: + 1 10 20, + 1 30 40, + 1 20 30. The total at 20, where the second leaf begins, has become that of 10.
/// - `page`, K = 4, n = 8: + 2 50 80, - 2 40 60, + 2 20 50, - 2 60 80. A give put the entry at 50 behind its equal.
/// - `levels`, K = 4, n = 24: + i 10i 10i+5 for i = 1 to 11, then + 1 15 20, + 2 25 30, + 4 45 50: edges of levels 1, 2 and 3.
/// - `emptied`, K = 6, n = 20: + 1 10i 10i+5 for i = 1 to 20; then all withdrawn, first those that 3 divides, then those that leave 1,
///   then those that leave 2, each in rising order. Six dead entries are left.
/// - `no-field`, K's field FF, n = 5: + 1 10i 10i+5 for i = 1 to 12, then + 1 65 70. Formatted as document 01 says, before (xi).
/// - `full`, K = 4, n = 4: those of `edge`, then + 2 12 14, + 2 50 60. No page is free: what 24 turned back gets 21 now.
const OLDER: [Older; 6] = [
    Older {
        name: "edge",
        image: include_bytes!("../../older/edge.image"),
        entries: 4,
        runs: 3,
        height: 2,
        equal: &[(20, 1)],
    },
    Older {
        name: "page",
        image: include_bytes!("../../older/page.image"),
        entries: 4,
        runs: 3,
        height: 2,
        equal: &[(50, 0)],
    },
    Older {
        name: "levels",
        image: include_bytes!("../../older/levels.image"),
        entries: 23,
        runs: 20,
        height: 4,
        equal: &[(15, 1), (25, 2), (45, 3)],
    },
    Older {
        name: "emptied",
        image: include_bytes!("../../older/emptied.image"),
        entries: 7,
        runs: 1,
        height: 2,
        equal: &[(35, 0), (65, 0), (95, 1), (125, 0), (140, 0), (185, 0)],
    },
    Older {
        name: "no-field",
        image: include_bytes!("../../older/no-field.image"),
        entries: 24,
        runs: 23,
        height: 2,
        equal: &[(65, 1)],
    },
    Older {
        name: "full",
        image: include_bytes!("../../older/full.image"),
        entries: 8,
        runs: 7,
        height: 2,
        equal: &[(20, 1)],
    },
];

pub fn older_images(comparer: &mut Comparer, _: &Pool, _: usize) {
    for Older { name, image, entries, runs, height, equal } in OLDER {
        let found: Vec<(u32, u32)> =
            equal_neighbours(image).iter().map(|later| (later.start, later.separator)).collect();
        assert_eq!(found, equal, "{name}");
        assert_eq!((leaf_entries(image), runs_of(image).len(), head(image, HEIGHT)), (entries, runs, height), "{name}");
        comparer.lend(image);
        let instants: Vec<u32> = neighbours(image).iter().map(|entry| entry.start).collect();
        older(comparer, &instants);
        // 21 comes ahead of 23 too.
        comparer.set(4 * CHANGES, &1_000_000_000u32.to_le_bytes());
        let scratch = scratch_bytes(pages_of(image));
        comparer.expect(Call::Enter { v: 1, s: 1, e: 2 }, scratch, 0, Answer::status(21));
        comparer.lend(image);
        rebuilt_and_emptied(comparer, image);
        comparer.tally.edges.add_older();
    }
}

/// Into as many pages, if they are enough; what is there then taken off run by run, from the last on, until one entry is left.
fn rebuilt_and_emptied(comparer: &mut Comparer, image: &[u8]) {
    comparer.rebuild_and_go_on(pages_of(image) + 2);
    assert_eq!(comparer.output().len(), image.len() + 2 * page_bytes(image));
    let runs = runs_of(comparer.image());
    for (i, run) in runs.iter().enumerate().rev() {
        let end = runs.get(i + 1).map_or(END, |next| next.start);
        // A count of −1 needs an entry, one of 2 two withdrawals.
        let count = run.pair.count;
        for j in 0..count.unsigned_abs() {
            let all = run.pair.sum * i64::from(count.signum());
            let v = if j == 0 { all } else { 0 };
            assert_eq!(comparer.book(count > 0, v, run.start, end), 0);
            assert_eq!(comparer.audit().status, 0);
        }
        assert!(count != 0 || run.pair.sum == 0, "a sum without a count is none of these images");
    }
    emptied(comparer);
}
