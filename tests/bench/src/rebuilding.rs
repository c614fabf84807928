//! Rebuilds against the full listing of their source and writing their target once: copying an image as long, or filling it with FF.

use std::hint::black_box;

use luwhenoka::{page_bytes, raw, scratch_bytes, RUN_BYTES};
use plain::calls::{ACCEPTED, PAGES_LACK};
use plain::page::{read_head, read_page, Head, UNUSED};
use plain::value::{GREATEST, TOTALS};
use plain::END;

use crate::measure::{side_by_side, Column, Took, Work};
use crate::reading::copying;
use crate::seasons::Season;

/// What a target holds before a rebuild that is not to touch it.
const KEPT: u8 = 0xA5;

pub fn rebuilds() {
    println!("times in ns; copying and FF write as many bytes as the target has");
    println!();
    let sources = sources();
    print_sources(&sources);
    println!();
    print_times(&sources);
    println!();
    print_refusals(&sources);
}

fn print_head(columns: &[&str]) {
    println!("| {} |", columns.join(" | "));
    println!("|{}", "--|".repeat(columns.len()));
}

// ---------------------------------------------------------------- sources

struct Source {
    case: String,
    image: Vec<u8>,
    /// The bytes of its full listing.
    listed: Vec<u8>,
}

fn sources() -> Vec<Source> {
    let full = |capacity, pages, kind| {
        let turnovers = if kind == TOTALS { 2 } else { 0 };
        Season { capacity, pages, kind, most: None, turnovers, withdrawn: 0 }
    };
    let totals = full(24, 1_024, TOTALS);
    let (image, live) = totals.image();
    let mut sources = vec![source("full", live, image)];
    let mut add = |how: &str, season: Season| {
        let (image, live) = season.image();
        sources.push(source(how, live, image));
    };
    add("half full", Season { most: Some(live / 2), ..totals });
    add("few bookings", Season { most: Some(100), ..totals });
    add("nine tenths withdrawn", Season { withdrawn: 90, ..totals });
    add("full", full(24, 1_024, GREATEST));
    add("full", full(24, 64, TOTALS));
    add("full, a longer season", Season { turnovers: 20, ..full(24, 64, TOTALS) });
    for capacity in [12, 4] {
        for kind in [TOTALS, GREATEST] {
            add("full", full(capacity, 1_024, kind));
        }
    }
    let tight = rebuilt(&sources[0], sources[0].fewest_pages());
    sources.push(source("full, then rebuilt", live, tight));
    sources
}

fn source(how: &str, live: usize, image: Vec<u8>) -> Source {
    let Head { n, kind, capacity_field, .. } = read_head(&image);
    let case = format!("K = {capacity_field}, kind {kind}, {n} pages, {how}, {live} bookings");
    let listed = listed(&image);
    Source { case, image, listed }
}

fn listed(image: &[u8]) -> Vec<u8> {
    let head = read_head(image);
    let mut output = vec![0; RUN_BYTES * head.capacity().most_entries() * head.n as usize];
    let answer = raw::listing(image, 0, END, &mut output);
    assert_eq!(answer.status, ACCEPTED);
    output.truncate(RUN_BYTES * answer.runs as usize);
    output
}

impl Source {
    fn runs(&self) -> usize {
        self.listed.len() / RUN_BYTES
    }

    fn pages(&self) -> usize {
        read_head(&self.image).n as usize
    }

    fn page_bytes(&self) -> usize {
        page_bytes(read_head(&self.image).capacity_field)
    }

    /// The pages that the target of a rebuild needs, its head with them.
    fn fewest_pages(&self) -> usize {
        let most_entries = read_head(&self.image).capacity().most_entries();
        let mut level = self.runs().div_ceil(most_entries);
        let mut pages = 1 + level;
        while level > 1 {
            level = level.div_ceil(most_entries);
            pages += level;
        }
        pages
    }

    fn scratch(&self) -> Vec<u8> {
        vec![0; scratch_bytes(self.pages())]
    }
}

/// The target of a rebuild into so many pages: the plain version leaves the same bytes, and it lists what the source lists.
fn rebuilt(source: &Source, pages: usize) -> Vec<u8> {
    let (mut target, mut same) = (vec![0; source.page_bytes() * pages], vec![KEPT; source.page_bytes() * pages]);
    assert_eq!(raw::rebuild(&source.image, &mut target, &mut source.scratch()), ACCEPTED);
    assert_eq!(plain::rebuild(&source.image, &mut same, &mut source.scratch()), ACCEPTED);
    assert!(target == same && listed(&target) == source.listed, "{}", source.case);
    assert_eq!(raw::audit(&target, &mut vec![0; scratch_bytes(pages)]), ACCEPTED);
    target
}

fn print_sources(sources: &[Source]) {
    print_head(&[
        "source",
        "height",
        "leaf entries",
        "runs",
        "tree pages",
        "free pages",
        "never used",
        "pages needed",
        "height then",
    ]);
    for source in sources {
        let Head { n, height, free_length, high_mark, .. } = read_head(&source.image);
        let needed = source.fewest_pages();
        println!(
            "| {} | {height} | {} | {} | {} | {free_length} | {} | {needed} | {} |",
            source.case,
            leaf_entries(&source.image),
            source.runs(),
            high_mark - 1 - free_length,
            n - high_mark,
            read_head(&rebuilt(source, needed)).height
        );
    }
}

fn leaf_entries(image: &[u8]) -> usize {
    let head = read_head(image);
    let pages = (1..head.high_mark).filter_map(|page| read_page(image, head.capacity(), page));
    pages.filter(|page| page.level == 0).map(|page| page.entries.len()).sum()
}

// ---------------------------------------------------------------- times

/// Targets of exactly enough pages, and of as many as the source has.
fn print_times(sources: &[Source]) {
    print_head(&[
        "source",
        "target",
        "listing",
        "audit",
        "copying",
        "FF",
        "rebuild",
        "× listing and copying",
        "× listing and FF",
        "× audit, listing and copying",
    ]);
    for source in sources {
        let mut targets = vec![source.fewest_pages(), source.pages()];
        targets.dedup();
        for pages in targets {
            let took = times_of(source, pages);
            let [rebuild, listing, audit, copying, filling] = &took[..] else { unreachable!("five works") };
            let times = [listing, audit, copying, filling, rebuild].map(Took::time).join(" | ");
            let by: [&[&Took]; 3] = [&[listing, copying], &[listing, filling], &[audit, listing, copying]];
            let ratios = by.map(|others| format!("{:.2}", rebuild.by_all(others))).join(" | ");
            println!("| {} | {pages} pages | {times} | {ratios} |", source.case);
        }
    }
}

fn times_of(source: &Source, pages: usize) -> Vec<Took> {
    let target = rebuilt(source, pages);
    let (mut written, mut scratch) = (target.clone(), source.scratch());
    let rebuild = Work::new(Column::Library, 1, move || {
        let status = raw::rebuild(&source.image, &mut written, &mut scratch);
        assert_eq!(status, ACCEPTED);
        u64::from(black_box(&mut written)[0])
    });
    side_by_side(vec![rebuild, listing(source), auditing(source), copying(&target, 1), filling(target.len())])
}

fn listing(source: &Source) -> Work<'_> {
    let mut output = vec![0; source.listed.len()];
    Work::new(Column::Listing, 1, move || {
        let answer = raw::listing(&source.image, 0, END, &mut output);
        assert_eq!(answer.status, ACCEPTED);
        u64::from(answer.runs)
    })
}

fn auditing(source: &Source) -> Work<'_> {
    let mut scratch = source.scratch();
    Work::new(Column::Audit, 1, move || {
        let status = raw::audit(&source.image, &mut scratch);
        assert_eq!(status, ACCEPTED);
        u64::from(status)
    })
}

fn filling(length: usize) -> Work<'static> {
    let mut bytes = vec![0u8; length];
    Work::new(Column::Filling, 1, move || {
        bytes.fill(UNUSED);
        u64::from(black_box(&mut bytes)[0])
    })
}

// ---------------------------------------------------------------- refusals

/// A target with one page less than are needed, which is told by reading alone: by an audit and the walk that counts.
fn print_refusals(sources: &[Source]) {
    print_head(&["source, one page too few", "audit", "listing", "24 told", "× audit and listing"]);
    for source in sources {
        let mut kept = vec![KEPT; source.page_bytes() * (source.fewest_pages() - 1)];
        let mut scratch = source.scratch();
        let mut refused = || raw::rebuild(&source.image, &mut kept, &mut scratch);
        assert_eq!(refused(), PAGES_LACK);
        let told = Work::new(Column::Library, 1, || u64::from(refused()));
        let took = side_by_side(vec![told, auditing(source), listing(source)]);
        let [told, audit, listing] = &took[..] else { unreachable!("three works") };
        assert!(kept.iter().all(|byte| *byte == KEPT), "{}", source.case);
        let ratio = told.by_all(&[audit, listing]);
        println!("| {} | {} | {} | {} | {ratio:.2} |", source.case, audit.time(), listing.time(), told.time());
    }
}
