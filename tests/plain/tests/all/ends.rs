//! Document 02, request (viii): "Finding the entry in a page shall give its end as well as its place, and all who use it pass that up: the
//! instant answer gains the start and end of its leaf entry. Pairs are from then on combined on the way back, leaf first, with the same
//! pair as before for every image whose pages met are fit. Refusals give zeros for both new numbers."

use crate::capacity::{drawn, wanted};
use crate::search::move_starts;
use crate::support::*;
use plain::fit::{child_place, fit_head, fit_page, root_place};
use plain::making::{one_way, tree, Choice};
use plain::page::{write_page, Entry, Page};
use plain::value::{combine, Span, NOTHING};
use plain::{instant, listing, Instant, Pair, END};

fn answered(pair: Pair, pages: u32, (start, end): (u32, u32)) -> Instant {
    Instant { status: 0, sum: pair.sum, count: pair.count, pages, start, end }
}

// ---------------------------------------------------------------- a second reader

/// A leaf entry with its span.
struct LeafEntry {
    span: Span,
    /// How many pages above its own the end stands as a start: none where it is END, which no page has.
    end_above: Option<u32>,
}

/// Every leaf entry of a tree, in the order of time; nothing is searched. The page ends at `end`, which stands so many pages above it.
fn leaf_entries(node: &Node, end: u32, above: Option<u32>, found: &mut Vec<LeafEntry>) {
    match node {
        Node::Leaf { entries, .. } => {
            for (i, (start, _)) in entries.iter().enumerate() {
                let next = entries.get(i + 1).map(|(next, _)| *next);
                let span = Span { start: *start, end: next.unwrap_or(end) };
                found.push(LeafEntry { span, end_above: if next.is_some() { Some(0) } else { above } });
            }
        }
        Node::Inner { entries, .. } => {
            for (i, (_, _, below)) in entries.iter().enumerate() {
                match entries.get(i + 1) {
                    Some((next, _, _)) => leaf_entries(below, *next, Some(1), found),
                    None => leaf_entries(below, end, above.map(|pages| pages + 1), found),
                }
            }
        }
    }
}

/// Some instants of a span, its first and its last among them; all where there are few.
fn instants_of(span: Span) -> Vec<u32> {
    if span.end - span.start <= 8 {
        return (span.start..span.end).collect();
    }
    vec![span.start, span.start + 1, span.start + (span.end - span.start) / 2, span.end - 2, span.end - 1]
}

/// Sound images of every K at heights 1 to 3, and up to the greatest height at some; each of any kind, with starts near 0, around 2^31
/// and up to END.
fn sound_images() -> Vec<Vec<u8>> {
    let low = CAPACITIES.into_iter().flat_map(|k| (1..=3).map(move |height| (k, height)));
    let tall = (4..=10).map(|height| (4, height)).chain([(6, 7), (6, 4), (8, 6), (10, 5), (14, 5), (24, 4)]);
    let mut images = Vec::new();
    for (i, (k, height)) in low.chain(tall).enumerate() {
        let (kind, apart) = (1 + (i + i / 3) as u32 % 3, [1, 2, 7, 1_000][i % 4]);
        let mut seeds = (0..).map(|seed| drawn(kind, if height < 4 { 2 } else { 40 + 40 * seed }, seed + i as u64));
        let fitting = |mut choice| tree(&wanted(k, 1_024, height, kind), apart, 0, &mut choice);
        let made = match (k, height) {
            (4, 10) => fitting(drawn(kind, u64::MAX, 1)),
            _ => seeds.find_map(fitting),
        };
        let made = made.unwrap();
        let last = apart * Node::of(&made).leaf_entries() as u32;
        for by in [0, (1 << 31) - last / 2, END - last] {
            let mut image = made.clone();
            move_starts(&mut image, by);
            assert!(audit_both_ways(&image));
            images.push(image);
        }
    }
    images
}

// ---------------------------------------------------------------- start and end

/// Each leaf entry by its first, its last and other instants: its own start and end, the same at each of them, wherever the end stands.
#[test]
fn leaf_entries_by_their_instants() {
    let (mut instants, mut at_end, mut ends_above) = (0, 0, [0; 10]);
    for image in sound_images() {
        let (tree, mut found) = (Node::of(&image), Vec::new());
        leaf_entries(&tree, END, None, &mut found);
        assert_eq!(found.len(), tree.leaf_entries());
        for LeafEntry { span, end_above } in &found {
            let pair = tree.pair_at(word(&image, 0, KIND), span.start);
            for t in instants_of(*span) {
                assert!(span.start <= t && t < span.end);
                assert_eq!(instant(&image, t), answered(pair, height(&image), (span.start, span.end)));
                assert_eq!((span.start, span.end), leaf_entry_at(&image, t), "both readers agree");
                instants += 1;
            }
            match end_above {
                Some(pages) => ends_above[*pages as usize] += 1,
                None => at_end += 1,
            }
        }
        // They follow each other from 0 to END, and only the last one ends there.
        let (first, last) = (&found[0].span, &found[found.len() - 1]);
        assert_eq!((first.start, last.span.end, last.end_above), (0, END, None));
        assert!(found.windows(2).all(|two| two[0].span.end == two[1].span.start && two[0].span.end < END));
    }
    report(&format!(
        "ends: {instants} instants; ends by how far above the leaf they stand {ends_above:?}, END {at_end}"
    ));
    assert!(ends_above.iter().all(|&entries| entries > 0) && at_end > 0);
}

/// From end to end: on images that calls left, every leaf entry is come to once, and END comes last. Each instant on the way has the
/// answer of its entry.
#[test]
fn from_end_to_end() {
    let (mut steps, mut instants) = (0, 0);
    for k in CAPACITIES {
        for kind in 1..=3 {
            let mut rack = Rack::on(fresh_of(k, 40, kind, 2), k as u64);
            (rack.by_step, rack.audit_each) = (false, false);
            let mut random = Xorshift::new(100 * k as u64 + u64::from(kind));
            for i in 0..30 * k {
                let s = random.below(40 * k as u64) as u32;
                rack.change(kind == 1 && i % 3 == 2, random.between(-2, 2), s, s + 1 + random.below(30) as u32);
            }
            let (mut t, mut entries) = (0, 0);
            while t != END {
                let here = instant(&rack.image, t);
                assert_eq!((here.status, here.start), (0, t));
                for later in (t..here.end).take(100).chain([here.end - 1]) {
                    assert_eq!(instant(&rack.image, later), here);
                    instants += 1;
                }
                (t, entries) = (here.end, entries + 1);
            }
            assert_eq!(entries, Node::of(&rack.image).leaf_entries());
            assert!(height(&rack.image) >= 2);
            steps += entries;
        }
    }
    report(&format!("ends: {steps} leaf entries from end to end, {instants} instants"));
}

/// Two entries in every page, height 3: the leaves are 0 and 5, 10 and 15, 20 and 25, 30 and 35. An end stands beside its start, in the
/// parent, in the root, or nowhere.
#[test]
fn where_an_end_stands() {
    let image = tree(&wanted(4, 8, 3, 1), 5, 0, &mut drawn(1, u64::MAX, 1)).unwrap();
    let spans = [(0, 5), (5, 10), (10, 15), (15, 20), (20, 25), (25, 30), (30, 35), (35, END)];
    for (start, end) in spans {
        for t in [start, start + 1, start + 4, end - 1] {
            let answer = instant(&image, t);
            assert_eq!((answer.status, answer.pages, answer.start, answer.end), (0, 3, start, end));
        }
    }
}

/// Marks: what a change cuts and heals shows in start and end.
#[test]
fn ends_of_bookings() {
    let mut rack = Rack::new(2, 1, 0, 1);
    let spans = |rack: &Rack, asked: &[u32]| -> Vec<(u32, u32)> {
        let answers = asked.iter().map(|t| instant(&rack.image, *t));
        answers.map(|answer| (answer.start, answer.end)).collect()
    };
    assert_eq!(spans(&rack, &[0, 17, END - 1]), [(0, END); 3]);
    assert_eq!(rack.enter(6, 10, 40), 0);
    assert_eq!(spans(&rack, &[0, 9, 10, 39]), [(0, 10), (0, 10), (10, 40), (10, 40)]);
    assert_eq!(spans(&rack, &[40, END - 1]), [(40, END); 2]);
    assert_eq!(rack.enter(3, 20, 50), 0);
    assert_eq!(spans(&rack, &[19, 20, 39, 40, 49, 50]), [(10, 20), (20, 40), (20, 40), (40, 50), (40, 50), (50, END)]);
    assert_eq!(rack.withdraw(6, 10, 40), 0);
    assert_eq!(spans(&rack, &[19, 20, 39, 40, 50]), [(0, 20), (20, 50), (20, 50), (20, 50), (50, END)]);
    assert_eq!(rack.withdraw(3, 20, 50), 0);
    assert_eq!(spans(&rack, &[30]), [(0, END)]);
    // A booking counts until e + w, or END.
    let mut rack = Rack::new(2, 2, 20, 1);
    assert_eq!(rack.enter(4, 35, 45), 0);
    assert_eq!(rack.enter(5, END - 9, END - 2), 0);
    assert_eq!(spans(&rack, &[34, 64, 65, END - 9, END - 1])[..2], [(0, 35), (35, 65)]);
    assert_eq!(spans(&rack, &[65, END - 9, END - 1]), [(65, END - 9), (END - 9, END), (END - 9, END)]);
}

/// "of its leaf entry": not the run's. Entries of equal pairs are one run, and each has its own start and end.
#[test]
fn not_those_of_a_run() {
    let wanted = wanted(6, 2, 1, 1);
    let mut image = tree(&wanted, 1, 0, &mut drawn(1, u64::MAX, 1)).unwrap();
    let pair = Pair { sum: 3, count: 1 };
    let entries: Vec<Entry> = [0, 10, 20, 30].map(|start| Entry { start, pair, child: 0 }).into();
    write_page(&mut image, wanted.capacity, 1, &Page { level: 0, entries });
    assert_eq!(listing(&image, 0, END, &mut [0; 16]), plain::Listing { status: 0, runs: 1 });
    for span in [(0, 10), (10, 20), (20, 30), (30, END)] {
        for t in [span.0, span.0 + 5, span.1 - 1] {
            assert_eq!(instant(&image, t), answered(pair, 1, span));
        }
    }
}

// ---------------------------------------------------------------- on the way back

/// The answer as it was before this request: the pairs are combined from the root on. The status, the pair and the pages.
fn combined_on_the_way_down(image: &[u8], t: u32) -> (u32, Pair, u32) {
    let Some(head) = fit_head(image) else { return (21, NOTHING, 0) };
    let (mut place, mut pair, mut pages) = (root_place(&head), NOTHING, 0);
    loop {
        pages += 1;
        let Some(page) = fit_page(image, &head, &place) else { return (21, NOTHING, pages) };
        let i = page.entry_at(t);
        pair = combine(head.kind, pair, page.entries[i].pair);
        if page.is_leaf() {
            return (0, pair, pages);
        }
        place = child_place(&place, &page, i);
    }
}

/// "with the same pair as before"
fn same_as_before(image: &[u8], t: u32) -> Instant {
    let answer = instant(image, t);
    let pair = Pair { sum: answer.sum, count: answer.count };
    assert_eq!((answer.status, pair, answer.pages), combined_on_the_way_down(image, t), "at {t}");
    answer
}

/// Pairs on a way that together come to just what the changes allow, of both signs.
struct Extreme {
    random: Xorshift,
    kind: u32,
    height: u32,
}

impl Choice for Extreme {
    fn entries(&mut self, fewest: usize, most: usize) -> usize {
        self.random.between(fewest as i64, most as i64) as usize
    }

    fn pair(&mut self) -> Pair {
        let sign = self.random.pick(&[1, -1]);
        match self.kind {
            1 => {
                let share = 1_000_000_000 / i64::from(self.height);
                Pair { sum: sign * 1_000_000 * share, count: (self.random.pick(&[1, -1]) * share) as i32 }
            }
            _ if self.random.one_in(3) => NOTHING,
            _ => Pair { sum: sign * (1_000_000 - self.random.below(2) as i64), count: 1 },
        }
    }
}

/// Combining on the way back gives the pair that combining on the way down gave: sound images, single ways up to height 10 at every K
/// with pairs at what the changes allow, and all of them damaged.
#[test]
fn combined_on_the_way_back() {
    let mut random = Xorshift::new(8);
    let (mut compared, mut unfit) = (0, 0);
    let mut compare = |image: &[u8], asked: &[u32]| {
        for t in asked {
            unfit += u64::from(same_as_before(image, *t).status == 21);
            compared += 1;
        }
    };
    let mut images = sound_images();
    for k in CAPACITIES {
        for (height, kind) in (1..=10).flat_map(|height| (1..=3).map(move |kind| (height, kind))) {
            let wanted = plain::making::Wanted { changes: 1_000_000_000, ..wanted(k, height + 2, height, kind) };
            let seed = random.next();
            let (image, span) = one_way(&wanted, &mut Extreme { random: Xorshift::new(seed), kind, height });
            assert_eq!(instant(&image, span.start).status, 0);
            compare(&image, &[span.start, span.start + (span.end - span.start) / 2, span.end - 1, 0, END - 1]);
            images.push(image);
        }
    }
    for image in &mut images {
        let starts: Vec<u32> = (0..40).map(|_| some_start(image, &mut random)).collect();
        compare(image, &starts);
        for _ in 0..25 {
            let at = 40 + random.below(image.len() as u64 - 40) as usize;
            let before = image[at];
            image[at] = random.pick(&[0, 1, 2, 0xFF, before.wrapping_add(1), before ^ 0x80]);
            compare(image, &[some_start(image, &mut random), starts[0], starts[1]]);
            image[at] = before;
        }
    }
    report(&format!("ends: {compared} instants on the way back as on the way down, {unfit} of them refused"));
    assert!(unfit > 1_000 && compared - unfit > 10_000);
}

/// A start of some page that has been used, or beside it.
fn some_start(image: &[u8], random: &mut Xorshift) -> u32 {
    let page = 1 + random.below(u64::from(word(image, 0, HIGH_MARK)) - 1) as u32;
    let i = random.below(capacity(image) as u64) as usize;
    let start = get_u32(image, page, start_at(i)).wrapping_add(random.between(-1, 1) as u32);
    start.min(END - 1)
}

// ---------------------------------------------------------------- refusals

/// "Refusals give zeros for both new numbers": 16, 12, a bad K, the head, and each page of a way, with the pages read as before.
#[test]
fn refusals_have_zeros() {
    let mut by_pages = [0; 11];
    for k in CAPACITIES {
        for (height, kind) in (1..=10).flat_map(|height| (1..=3).map(move |kind| (height, kind))) {
            let seed = u64::from(height * kind) + k as u64;
            let (image, span) = one_way(&wanted(k, height + 1, height, kind), &mut drawn(kind, 2, seed));
            let t = span.start + (span.end - span.start) / 2;
            let answer = instant(&image, t);
            assert_eq!((answer.status, answer.pages), (0, height));
            assert!(answer.end > 0, "which the zeros below are not");

            assert_eq!(instant(&image, END), refused(12, 0));
            for length in [0, 39, image.len() - 1, image.len() - page_bytes(&image) / 2] {
                assert_eq!(instant(&image[..length], t), refused(16, 0));
                assert_eq!(instant(&image[..length], END), refused(16, 0));
            }
            // The head's numbers, among them K's own, and its rest.
            let rest = page_bytes(&image) / 4 - 1;
            for (field, to) in
                [(N, 0), (HEIGHT, 11), (ROOT, 0), (KIND, 4), (CHANGES, 1_000_000_001), (CAPACITY, 5), (rest, 0)]
            {
                let mut image = image.clone();
                set_word(&mut image, 0, field, to);
                assert_eq!(instant(&image, t), refused(21, 0));
                assert_eq!(instant(&image, END), refused(if field == CAPACITY { 21 } else { 12 }, 0));
                by_pages[0] += 1;
            }
            for pages in 1..=height {
                for (at, to) in unfit_words(&image, pages) {
                    let mut image = image.clone();
                    set(&mut image, pages, at, &to.to_le_bytes());
                    assert_eq!(instant(&image, t), refused(21, pages), "K = {k}, byte {at}");
                    by_pages[pages as usize] += 1;
                }
            }
        }
    }
    report(&format!("ends: zeros at 21, by the pages read {by_pages:?}"));
    assert!(by_pages.iter().all(|&refusals| refusals > 0));
}

/// Words of a fit page of a way, each of which alone makes it unfit: level, number, the bytes behind it, the first start, the last one,
/// the last child, the last count.
fn unfit_words(image: &[u8], page: u32) -> Vec<(usize, u32)> {
    let (k, entries) = (capacity(image), get_u32(image, page, ENTRY_COUNT_AT) as usize);
    let level = get_u32(image, page, LEVEL_AT);
    let last = entry_in(k, entries - 1);
    vec![
        (LEVEL_AT, level + 1),
        (ENTRY_COUNT_AT, k as u32 + 1),
        (8, 0),
        (start_at(0), get_u32(image, page, start_at(0)) + 1),
        (start_at(entries - 1), END),
        (last + 12, if level == 0 { 1 } else { 0 }),
        (last + 8, 1_001),
    ]
}
