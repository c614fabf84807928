//! Document 02, (iii): the rebuild into a clean image, with what (vi) and (xi) say of it: the scratch by the source's n, the target's
//! length by the source's K, and the field written.
//!
//! Every target is compared byte for byte with what the plain version writes, the bytes around it too, and held against its source
//! (`src/rebuilds.rs`). It holds anything before: random bytes mostly, or an image of another K, another n or another time. How many pages
//! are enough is worked out here from the source's runs.

use plain::sound::is_sound_by_the_old_rule;
use plain::END;

use crate::calls::{Answer, Call};
use crate::comparer::Comparer;
use crate::groups::cycles::change_links;
use crate::groups::damage::drawn;
use crate::groups::ends::alike;
use crate::groups::every_capacity::{fresh, EACH};
use crate::groups::made::{leaf_entries, swap_used, MADE};
use crate::groups::random_bookings::Season;
use crate::groups::search::{k_of, laid, Leaves, Shape, Starts};
use crate::images::{
    bytes_of, capacity, enter, equal_neighbours, fresh_of, head, is_turned_back, made, page_bytes, pages_of, put,
    scratch_bytes, Pool, CAPACITIES, CAPACITY, CHANGES, HIGH_MARK, IMAGES, KIND, WINDOW,
};
use crate::rebuilds::{fewest_pages, runs_of};

/// The fewest pages of a target for the image at hand, which is sound.
fn fewest(comparer: &Comparer) -> usize {
    fewest_pages(runs_of(comparer.image()).len(), capacity(comparer.image()))
}

/// Rebuilds of the image at hand into just enough pages and into more, one page too few and fewer; one page is no image. The fewest.
fn around(comparer: &mut Comparer) -> usize {
    let (fewest, n) = (fewest(comparer), comparer.pages());
    let more = 2 + comparer.random.below(40);
    for pages in [fewest, fewest + 1, fewest + more, n, n + 1].map(|pages| pages.min(1_024)) {
        assert_eq!(comparer.rebuild(pages), 0, "{pages} pages are enough");
    }
    for pages in [fewest - 1, fewest.saturating_sub(2), fewest / 2, 2] {
        let status = match pages {
            0 | 1 => 16,
            _ if pages < fewest => 24,
            _ => 0,
        };
        assert_eq!(comparer.rebuild(pages), status, "{pages} pages where {fewest} are enough");
    }
    fewest
}

// ---------------------------------------------------------------- seasons

/// Each K and the image without the field, in each kind, four times.
pub const SEASONS: usize = 4 * 3 * EACH.len();

/// A season of changes, rebuilds around the fewest pages, and on with a target of some size, or with the source; and so on. A target of
/// just enough pages refuses changes that need more, and what is withdrawn there makes room.
pub fn rebuild_seasons(comparer: &mut Comparer, _: &Pool, part: usize) {
    let (field, kind) = (EACH[part % EACH.len()], 1 + (part / EACH.len()) as u32 % 3);
    let window = comparer.random.pick(&[0, 0, 3, 40, 1_000_000_000]);
    let n = comparer.random.pick(&[6, 9, 20, 40, 90, 300]);
    let mut season = Season::drawn(comparer);
    comparer.lend(&fresh(field, n, kind, window));
    for _ in 0..7 {
        for _ in 0..70 {
            let (s, e) = season.change(comparer, kind);
            for t in [s, e - 1] {
                comparer.instant(t);
            }
        }
        let fewest = around(comparer);
        if comparer.random.one_in(4) {
            continue;
        }
        let more = comparer.random.pick(&[0, 0, 1, 5, 30]);
        comparer.rebuild_and_go_on(fewest + more);
        comparer.audit();
        comparer.listings(0, END);
    }
}

// ---------------------------------------------------------------- sources

/// K, pages and height of sources that are made and lower than [`MADE`]'s.
const LOW: [(usize, usize, u32); 5] = [(4, 14, 2), (4, 40, 3), (4, 90, 4), (6, 120, 4), (8, 60, 3)];

/// The pool's images, numbers of runs at each K, made images, and starts of every sort at each K.
const NUMBERS: usize = IMAGES;
const HEIGHTS: usize = NUMBERS + EACH.len();
const SORTS: usize = HEIGHTS + LOW.len() + MADE.len();
pub const SOURCES: usize = SORTS + EACH.len();

pub fn rebuild_sources(comparer: &mut Comparer, pool: &Pool, part: usize) {
    match part % SOURCES {
        part if part < NUMBERS => of_source(comparer, pool.image(part)),
        part if part < HEIGHTS => numbers_of_runs(comparer, EACH[part - NUMBERS]),
        part if part < SORTS => {
            let (k, n, height) = LOW.into_iter().chain(MADE).nth(part - HEIGHTS).expect("so many images");
            let kind = comparer.random.pick(&[1, 2, 3]);
            of_source(comparer, &made(k, n, height, kind));
        }
        part => starts_of_every_sort(comparer, EACH[part - SORTS]),
    }
}

/// A sound source as it is, with its pages elsewhere, and with nothing in it; then changes on its target, and back into its own n.
fn of_source(comparer: &mut Comparer, whole: &[u8]) {
    comparer.lend(whole);
    let fewest = around(comparer);
    assert_eq!(comparer.rebuild(fewest), 0);
    let target = comparer.output().to_vec();

    let mut moved = whole.to_vec();
    let used = head(whole, HIGH_MARK) as usize;
    for _ in 0..30 {
        let (one, other) = (1 + comparer.random.below(used - 1), 1 + comparer.random.below(used - 1));
        swap_used(&mut moved, one as u32, other as u32);
    }
    comparer.lend(&moved);
    assert_eq!(comparer.rebuild(fewest), 0);
    assert!(comparer.output() == target, "the same target, wherever the source's pages stand");

    changes_on_target(comparer, fewest, pages_of(whole));

    alike(&mut moved);
    comparer.lend(&moved);
    comparer.rebuild_and_go_on(2);
    let mut fresh = fresh_of(capacity(whole), 2, head(whole, KIND), head(whole, WINDOW));
    put(&mut fresh, 0, 4 * CHANGES, &head(whole, CHANGES).to_le_bytes());
    assert!(comparer.image() == fresh, "one run of nothing is what a format leaves, but for the changes");
}

/// Some changes on a target with a few pages to spare; it is rebuilt into so many pages, onto what it was rebuilt from.
fn changes_on_target(comparer: &mut Comparer, fewest: usize, n: usize) {
    let stale = comparer.image().to_vec();
    comparer.rebuild_and_go_on((fewest + 6).min(1_024));
    let range = 10 * leaf_entries(comparer.image()) + 30;
    for _ in 0..20 {
        let withdrawal = head(comparer.image(), KIND) == 1 && comparer.random.one_in(2);
        let (v, s) = (comparer.random.between(-9, 9), comparer.random.below(range) as u32);
        let e = s + 1 + comparer.random.pick(&[0, 4, 9, 700]);
        comparer.book(withdrawal, v, s, e);
        comparer.instant(s);
    }
    comparer.audit();
    if fewest_pages(runs_of(comparer.image()).len(), capacity(comparer.image())) <= n {
        let scratch = scratch_bytes(comparer.pages());
        assert_eq!(comparer.ask_onto(Call::Rebuild, scratch, &stale).status, 0, "onto the older image");
    }
    around(comparer);
}

/// Sources of chosen numbers of runs: each one at small K, else those around the ends of pages; up to where a third level has pages of
/// one size and of two.
fn numbers_of_runs(comparer: &mut Comparer, field: usize) {
    let (k, kind) = (k_of(field), 1 + field as u32 / 2 % 3);
    let mut source = fresh(field, 160, kind, 0);
    for m in 1..=k * k + k + 2 {
        let around_end = [0, 1, 2, k - 1].contains(&(m % k)) && (m < 3 * k + 3 || m + 2 > k * k);
        if k == 4 || around_end {
            comparer.lend(&source);
            assert_eq!(runs_of(&source).len(), m);
            around(comparer);
        }
        let v = if kind == 3 { -(m as i64) } else { m as i64 };
        assert_eq!(enter(&mut source, v, 10 * m as u32, END), 0);
    }
}

/// Every entry is a run of its own here. At K = 4 there are more of them than five levels have room for.
fn starts_of_every_sort(comparer: &mut Comparer, field: usize) {
    let k = k_of(field);
    let low = [(1, 1), (1, k), (2, 2), (2, k), (3, 2)].map(|(height, root)| (height, root, Leaves::InTurn));
    let tall = if k == 4 { &[(4, 4, Leaves::Full), (5, 2, Leaves::Full), (6, 4, Leaves::Full)][..] } else { &[] };
    for (height, root, leaves) in low.iter().chain(tall).copied() {
        for starts in Starts::EVERY_SORT {
            let image = laid(comparer, Shape { field, height, root, leaves }, 3, starts);
            comparer.lend(&image);
            around(comparer);
        }
    }
}

// ---------------------------------------------------------------- damaged sources

/// The images whose bytes are damaged one by one: K = 4, K = 24, and without the field.
const BY_BYTES: usize = 3;
pub const DAMAGED: usize = IMAGES + BY_BYTES;

/// What an audit refuses a rebuild refuses, with the same number, but for images of kind 1 with equal neighbours and nothing else against
/// them, which it "reads .. by the old rule" (document 02, (iv)); else the target's pages tell.
pub fn rebuild_damaged(comparer: &mut Comparer, pool: &Pool, part: usize) {
    match part % DAMAGED {
        part if part < IMAGES => damaged(comparer, pool.image(part)),
        part => each_byte(comparer, [&pool.other[0], &pool.small[4], &pool.other[4]][part - IMAGES]),
    }
}

/// Fields damaged, bytes damaged, links changed; one to three at a time.
fn damaged(comparer: &mut Comparer, whole: &[u8]) {
    let rounds = if whole.len() > 100_000 { 60 } else { 400 };
    for _ in 0..rounds {
        let mut image = whole.to_vec();
        for _ in 0..1 + comparer.random.below(3) {
            match comparer.random.below(4) {
                0 => change_links(&mut image, &mut comparer.random),
                1 => {
                    let at = comparer.random.below(image.len());
                    image[at] = comparer.random.pick(&[0, 1, 0x18, 0xFF, image[at] ^ 1, image[at].wrapping_add(1)]);
                }
                _ => {
                    let damage = drawn(comparer, whole);
                    image[damage.at..][..damage.bytes.len()].copy_from_slice(&damage.bytes);
                }
            }
        }
        comparer.lend(&image);
        as_audited(comparer);
    }
}

fn each_byte(comparer: &mut Comparer, whole: &[u8]) {
    comparer.lend(whole);
    for at in 0..whole.len() {
        for value in [whole[at] ^ 1, !whole[at]] {
            comparer.set(at, &[value]);
            as_audited(comparer);
        }
        comparer.set(at, &whole[at..=at]);
    }
}

fn as_audited(comparer: &mut Comparer) {
    let mut audited = comparer.audit().status;
    if audited == 21 && is_sound_by_the_old_rule(comparer.image()) {
        assert!(head(comparer.image(), KIND) == 1 && !equal_neighbours(comparer.image()).is_empty());
        audited = 0;
    }
    let (n, page) = (comparer.pages(), page_bytes(comparer.image()));
    let few = 2 + comparer.random.below(6);
    for (target, of_sound) in [(n.clamp(2, 1_024) * page, None), (few * page, None), (few * page - 1, Some(16))] {
        let scratch = scratch_bytes(n);
        let status = comparer.ask(Call::Rebuild, scratch, target).status;
        match (audited, of_sound) {
            (0, None) => assert!(status == 0 || status == 24),
            (0, Some(expected)) => assert_eq!(status, expected),
            _ => assert_eq!(status, audited, "as by an audit"),
        }
    }
}

// ---------------------------------------------------------------- targets and scratches

/// Lengths of targets and of scratches, and what they hold, at each K and without the field; every number of pages.
pub fn rebuild_targets(comparer: &mut Comparer, _: &Pool, part: usize) {
    let field = EACH[part];
    let mut source = fresh(field, 20, 1 + part as u32 % 3, 5);
    for i in 1..=k_of(field) as u32 {
        assert_eq!(enter(&mut source, i64::from(i), 20 * i, 20 * i + 3), 0);
    }
    // No rebuild is a change, so that none is one too many.
    if part % 2 == 1 {
        put(&mut source, 0, 4 * CHANGES, &1_000_000_000u32.to_le_bytes());
    }
    for null in [false, true] {
        comparer.lend_null(null);
        lengths(comparer, &source);
        scratches(comparer, &source);
    }
    comparer.lend_null(false);
    targets_of_another_time(comparer, &source);
    every_number_of_pages(comparer, field, part);
}

/// The status of a rebuild of this sound source with so many bytes of scratch and of target.
fn expected(source: &[u8], scratch: usize, target: usize) -> u32 {
    let (k, page) = (capacity(source), page_bytes(source));
    match target / page {
        _ if scratch < scratch_bytes(pages_of(source)) => 17,
        _ if !target.is_multiple_of(page) => 16,
        n if !(2..=1_024).contains(&n) => 16,
        n if n < fewest_pages(runs_of(source).len(), k) => 24,
        _ => 0,
    }
}

/// Around each multiple of the source's pages, and whole pages of every other K: the source's alone counts.
fn lengths(comparer: &mut Comparer, source: &[u8]) {
    let page = page_bytes(source);
    let mut lengths = vec![0, 1, 39, 40, 41, page - 1, page, page + 1, 1_025 * page, 1_030 * page];
    for n in [2, 3, 4, 5, 19, 20, 21, 64, 1_024] {
        lengths.extend([n * page - 1, n * page, n * page + 1, n * page + page / 2]);
    }
    for n in [2, 7, 20, 33] {
        lengths.extend(CAPACITIES.map(|other| n * bytes_of(other)));
    }
    comparer.lend(source);
    let scratch = scratch_bytes(pages_of(source));
    for target in lengths {
        let status = expected(source, scratch, target);
        comparer.expect(Call::Rebuild, scratch, target, Answer::status(status));
    }
}

/// By the source's n, whatever the target's is.
fn scratches(comparer: &mut Comparer, source: &[u8]) {
    comparer.lend(source);
    let (n, page) = (pages_of(source), page_bytes(source));
    let borrowed = scratch_bytes(n);
    for target in [0, page, 2 * page, n * page - 1, n * page, 200 * page] {
        for scratch in [0, 1, borrowed - 1, borrowed, borrowed + 1, n - 1, n, n + 1, 200] {
            comparer.expect(Call::Rebuild, scratch, target, Answer::status(expected(source, scratch, target)));
        }
    }
}

/// Targets that hold an image: of the same K or of another, of another n, kind and window, with K's field good, bad, FF. Nothing of it is
/// read, and nothing is left of it.
fn targets_of_another_time(comparer: &mut Comparer, source: &[u8]) {
    comparer.lend(source);
    let scratch = scratch_bytes(pages_of(source));
    for k in CAPACITIES {
        for n in [2, 9, 20, 64] {
            let mut held = fresh_of(k, n, 1 + n as u32 % 3, 9);
            for i in 1..8 {
                enter(&mut held, 1, 7 * i, 7 * i + 20);
            }
            for number in [k as u32, capacity(source) as u32, 5, u32::MAX] {
                put(&mut held, 0, 4 * CAPACITY, &number.to_le_bytes());
                onto(comparer, source, scratch, &held);
                // The same bytes, cut or lengthened to whole pages of the source's K.
                let whole = held.len().div_ceil(page_bytes(source)).max(2) * page_bytes(source);
                held.resize(whole, 0);
                onto(comparer, source, scratch, &held);
                held.truncate(n * bytes_of(k));
            }
        }
    }
    onto(comparer, source, scratch, source);
}

fn onto(comparer: &mut Comparer, source: &[u8], scratch: usize, held: &[u8]) {
    let status = comparer.ask_onto(Call::Rebuild, scratch, held).status;
    assert_eq!(status, expected(source, scratch, held.len()), "whatever the target holds");
}

/// Sources and targets of each number of pages, with just enough scratch and with a byte less; a twelfth of the numbers for each part.
fn every_number_of_pages(comparer: &mut Comparer, field: usize, part: usize) {
    let mut few = fresh(field, 3, 1, 0);
    assert_eq!(enter(&mut few, 6, 10, 40), 0);
    for n in (2 + part..=1_024).step_by(EACH.len()) {
        let (k, borrowed) = (k_of(field), scratch_bytes(n));
        comparer.lend(&few);
        comparer.expect(Call::Rebuild, scratch_bytes(3), n * bytes_of(k), Answer::status(0));
        comparer.lend(&fresh(field, n, 1 + n as u32 % 3, 0));
        for (scratch, status) in [(borrowed - 1, 17), (borrowed, 0), (n, 0)] {
            comparer.expect(Call::Rebuild, scratch, 2 * bytes_of(k), Answer::status(status));
        }
        assert!(!is_turned_back(comparer.image()));
    }
}
