//! The public calls, "Turned back by the input" and "Turned back by the state".
//!
//! "The order is 16, 17, 11 or 12, 13, 14, 21, 22, 23, 24, and 15 last." "An accepted call returns 0, with its answer if
//! it has one. A refusal returns its number and zeros (instant: the pages read too). Image and output keep their bytes;
//! scratch is untouched at 16 and 17, also at 11 and 13, else its n bytes are 0."
//!
//! Document 02, (xi), puts a 14 and a 21 ahead of that: "An odd K or one outside its range gives 14 at format, ahead of 16. In
//! an image K is read before the length is judged: under 40 bytes gives 16, a bad K 21 ahead of 16, scratch untouched". By (vi)
//! the scratch's n bytes have become n/8: see [`scratch_bytes`].

use std::collections::BTreeSet;

use crate::capacity::Capacity;
use crate::clean::{lay_clean, tree_pages};
use crate::fit::{child_place, fit_head, fit_page, root_place, Place};
use crate::page::{
    number_of_pages, read_capacity, read_head, write_head, write_page, Entry, Head, Page, HEAD_BYTES, UNUSED,
};
use crate::sound::{is_sound, is_sound_by_the_old_rule};
use crate::steps::{five_steps, Effect, StepRecord};
use crate::value::{
    average_of, combine, kind_in_range, lengthened_end, value_in_range, window_in_range, Average, Pair, Span, END,
    MOST_CHANGES, NOTHING, TOTALS,
};

pub const ACCEPTED: u32 = 0;
/// "span with s ≥ e"
pub const BAD_SPAN: u32 = 11;
/// "instant END"
pub const BAD_INSTANT: u32 = 12;
/// "value outside its range"
pub const BAD_VALUE: u32 = 13;
/// "kind or window outside its range"; by document 02 also "An odd K or one outside its range"
pub const FORMAT_RANGE: u32 = 14;
/// "output shorter than the runs"
pub const SHORT_OUTPUT: u32 = 15;
/// "image length not 512 × n for an n in range", 512 being the bytes of a page of the K at hand
pub const BAD_LENGTH: u32 = 16;
/// "scratch shorter than n bytes"; by document 02 "17 now means shorter than" [`scratch_bytes`] of n
pub const SHORT_SCRATCH: u32 = 17;
/// "instant, listing: a page it meets is unfit; audit, change: image not sound"; by document 02 also "a bad K", and of a rebuild "21 (not
/// sound) of the source". By (iv) of "Older images" with two equal neighbours: they "get 21 on change and pass through the rebuild"
pub const UNFIT: u32 = 21;
/// "withdrawal, kind 2 or 3"
pub const NO_WITHDRAWAL: u32 = 22;
/// "changes is 1,000,000,000"
pub const TOO_MANY_CHANGES: u32 = 23;
/// "A and B together take more pages than chain and pages from the high mark hold"; of a rebuild "24 if n is too small"
pub const PAGES_LACK: u32 = 24;

// ---------------------------------------------------------------- format

/// "Format leaves height 1, changes 0, high mark 2, no chain and root 1, a leaf with entry 0, (0, 0)." Document 02, (xi): "An
/// odd K or one outside its range gives 14 at format, ahead of 16." The length is judged by the K that is asked for, never by
/// the bytes that are there; 14 for kind and window comes behind, in document 01's order. The field is written, also for 24.
pub fn format(image: &mut [u8], kind: u32, window: u32, capacity: u32) -> u32 {
    let Some(capacity) = Capacity::new(capacity) else { return FORMAT_RANGE };
    let Some(n) = number_of_pages(image.len(), capacity) else { return BAD_LENGTH };
    if !kind_in_range(kind) || !window_in_range(window) {
        return FORMAT_RANGE;
    }
    lay_fresh(image, n, kind, window, capacity.number());
    ACCEPTED
}

/// What a format leaves, with a field that names the K by which the image has n pages.
pub(crate) fn lay_fresh(image: &mut [u8], n: u32, kind: u32, window: u32, capacity_field: u32) {
    image.fill(UNUSED);
    let (root, high_mark) = (1, 2);
    let (first_free, free_length) = (0, 0);
    let (height, changes) = (1, 0);
    let head = Head { n, height, root, first_free, free_length, high_mark, kind, window, changes, capacity_field };
    write_head(image, &head);
    let leaf = Page { level: 0, entries: vec![Entry { start: 0, pair: NOTHING, child: 0 }] };
    write_page(image, head.capacity(), 1, &leaf);
}

// ---------------------------------------------------------------- judging an image

/// n, or the number that turns the image back ahead of everything else. Document 02, (xi): "In an image K is read before the
/// length is judged: under 40 bytes gives 16, a bad K 21 ahead of 16, scratch untouched".
pub fn judge(image: &[u8]) -> Result<u32, u32> {
    if image.len() < HEAD_BYTES {
        return Err(BAD_LENGTH);
    }
    let capacity = read_capacity(image).ok_or(UNFIT)?;
    number_of_pages(image.len(), capacity).ok_or(BAD_LENGTH)
}

// ---------------------------------------------------------------- the scratch

/// How much of the scratch an audit, a change or a rebuild of n pages borrows. Document 02, (vi): "Audit, changes and the rebuild shall
/// borrow n/8 bytes, rounded up, and give the same answers for every image; those bytes are 0 afterwards." These are meant from then on
/// where document 01 says n bytes of the scratch.
pub fn scratch_bytes(n: u32) -> usize {
    n.div_ceil(8) as usize
}

// ---------------------------------------------------------------- changes

/// "an entry adds (v, 1), a withdrawal (−v, −1), whether or not such a booking is live"
#[derive(Clone, Copy, PartialEq, Eq, Debug)]
enum Change {
    Enter,
    Withdraw,
}

/// A change's status and, if it was accepted, what each of its five steps did.
#[derive(Clone, PartialEq, Eq, Debug)]
pub struct RecordedChange {
    pub status: u32,
    pub steps: Vec<StepRecord>,
}

impl RecordedChange {
    fn refused(status: u32) -> RecordedChange {
        RecordedChange { status, steps: Vec::new() }
    }

    /// The pages that the change's five steps name; none for a refused one. The count of changes is in the head, which
    /// every step names.
    pub fn named_pages(&self) -> BTreeSet<u32> {
        self.steps.iter().flat_map(StepRecord::named_pages).collect()
    }
}

pub fn enter(image: &mut [u8], scratch: &mut [u8], v: i64, s: u32, e: u32) -> u32 {
    change(image, scratch, Change::Enter, v, s, e).status
}

pub fn withdraw(image: &mut [u8], scratch: &mut [u8], v: i64, s: u32, e: u32) -> u32 {
    change(image, scratch, Change::Withdraw, v, s, e).status
}

pub fn enter_recorded(image: &mut [u8], scratch: &mut [u8], v: i64, s: u32, e: u32) -> RecordedChange {
    change(image, scratch, Change::Enter, v, s, e)
}

pub fn withdraw_recorded(image: &mut [u8], scratch: &mut [u8], v: i64, s: u32, e: u32) -> RecordedChange {
    change(image, scratch, Change::Withdraw, v, s, e)
}

/// The judging, 17, 11 and 13 leave the scratch untouched; then, whatever comes, "those bytes are 0 afterwards" (document 02, (vi)),
/// "any beyond keep theirs".
fn change(image: &mut [u8], scratch: &mut [u8], which: Change, v: i64, s: u32, e: u32) -> RecordedChange {
    let n = match judge(image) {
        Ok(n) => n,
        Err(status) => return RecordedChange::refused(status),
    };
    if scratch.len() < scratch_bytes(n) {
        return RecordedChange::refused(SHORT_SCRATCH);
    }
    if s >= e {
        return RecordedChange::refused(BAD_SPAN);
    }
    if !value_in_range(v) {
        return RecordedChange::refused(BAD_VALUE);
    }
    scratch[..scratch_bytes(n)].fill(0);
    change_by_state(image, which, v, Span { start: s, end: e })
}

/// 21, 22, 23 and 24, else the change (R17). The steps run on a copy, so that a refused change leaves the image as it
/// was.
fn change_by_state(image: &mut [u8], which: Change, v: i64, booked: Span) -> RecordedChange {
    if !is_sound(image) {
        return RecordedChange::refused(UNFIT);
    }
    let head = read_head(image);
    if which == Change::Withdraw && head.kind != TOTALS {
        return RecordedChange::refused(NO_WITHDRAWAL);
    }
    if head.changes == MOST_CHANGES {
        return RecordedChange::refused(TOO_MANY_CHANGES);
    }
    let mut copy = image.to_vec();
    match five_steps(&mut copy, &effect_of(&head, which, v, booked)) {
        Err(_) => RecordedChange::refused(PAGES_LACK),
        Ok(steps) => {
            image.copy_from_slice(&copy);
            RecordedChange { status: ACCEPTED, steps }
        }
    }
}

fn effect_of(head: &Head, which: Change, v: i64, booked: Span) -> Effect {
    let pair = match which {
        Change::Enter => Pair { sum: v, count: 1 },
        Change::Withdraw => Pair { sum: -v, count: -1 },
    };
    Effect { pair, span: Span { start: booked.start, end: lengthened_end(booked.end, head.window) } }
}

// ---------------------------------------------------------------- instant

#[derive(Clone, Copy, PartialEq, Eq, Debug)]
pub struct Instant {
    pub status: u32,
    pub sum: i64,
    pub count: i32,
    pub pages: u32,
    /// "the start and end of its leaf entry"
    pub start: u32,
    pub end: u32,
}

impl Instant {
    /// "A refusal returns its number and zeros (instant: the pages read too)"; document 02, (viii): "Refusals give zeros for both new
    /// numbers."
    fn refused(status: u32, pages: u32) -> Instant {
        Instant { status, sum: 0, count: 0, pages, start: 0, end: 0 }
    }
}

/// "An instant's answer combines the pairs on its way from root to leaf. It reports the tree pages read: the height if
/// answered, or if a page is unfit, the pages up to and including it (0 for the head and at other refusals)." Document 02, (viii): "the
/// instant answer gains the start and end of its leaf entry".
pub fn instant(image: &[u8], t: u32) -> Instant {
    if let Err(status) = judge(image) {
        return Instant::refused(status, 0);
    }
    if t == END {
        return Instant::refused(BAD_INSTANT, 0);
    }
    let Some(head) = fit_head(image) else { return Instant::refused(UNFIT, 0) };
    match answer_from(image, &head, &root_place(&head), t) {
        Err(UnfitAfter(pages)) => Instant::refused(UNFIT, pages),
        Ok(Below { pair, leaf_entry, pages }) => Instant {
            status: ACCEPTED,
            sum: pair.sum,
            count: pair.count,
            pages,
            start: leaf_entry.start,
            end: leaf_entry.end,
        },
    }
}

/// What the way to t gives from a page on: the pairs from the leaf up to this page combined, the leaf entry's span, and the pages read.
struct Below {
    pair: Pair,
    leaf_entry: Span,
    pages: u32,
}

/// A page on the way is unfit; the pages read "up to and including it".
struct UnfitAfter(u32);

/// Document 02, (viii): "Finding the entry in a page shall give its end as well as its place, and all who use it pass that up"; "Pairs are
/// from then on combined on the way back, leaf first".
fn answer_from(image: &[u8], head: &Head, place: &Place, t: u32) -> Result<Below, UnfitAfter> {
    let page = fit_page(image, head, place).ok_or(UnfitAfter(1))?;
    let (i, end) = page.place_and_end_at(t, place.span.end);
    let entry = page.entries[i];
    if page.is_leaf() {
        return Ok(Below { pair: entry.pair, leaf_entry: Span { start: entry.start, end }, pages: 1 });
    }
    match answer_from(image, head, &child_place(place, &page, i), t) {
        Err(UnfitAfter(pages)) => Err(UnfitAfter(pages + 1)),
        Ok(below) => Ok(Below { pair: combine(head.kind, entry.pair, below.pair), pages: below.pages + 1, ..below }),
    }
}

// ---------------------------------------------------------------- average

/// "The average's pair is taken by an instant call." The status and the hundredths; none where there is no average and
/// at a refusal. For kinds 2 and 3 it is accepted, with none (R13).
pub fn average(image: &[u8], t: u32) -> (u32, Option<i64>) {
    let answer = instant(image, t);
    if answer.status != ACCEPTED {
        return (answer.status, None);
    }
    match average_of(read_head(image).kind, answer.sum, answer.count) {
        Average::Hundredths(hundredths) => (ACCEPTED, Some(hundredths)),
        Average::None => (ACCEPTED, None),
        Average::Beyond => unreachable!("fit pages show sums of at most 10^15"),
    }
}

// ---------------------------------------------------------------- span listing

#[derive(Clone, Copy, PartialEq, Eq, Debug)]
pub struct Listing {
    pub status: u32,
    pub runs: u32,
}

/// One run: its start and its pair. It ends where the next one starts, the last one at b.
#[derive(Clone, Copy, PartialEq, Eq, Debug)]
pub struct Run {
    pub start: u32,
    pub pair: Pair,
}

/// "16 bytes each: start (u32), count (i32), sum (i64)"
pub const RUN_BYTES: usize = 16;

/// "Runs over [a, b), the first starting at a: joined as long as the pair is equal [...] Bytes past the last run keep
/// what they held. The answer is the number of runs."
pub fn listing(image: &[u8], a: u32, b: u32, out: &mut [u8]) -> Listing {
    if let Err(status) = judge(image) {
        return Listing { status, runs: 0 };
    }
    if a >= b {
        return Listing { status: BAD_SPAN, runs: 0 };
    }
    let Some(runs) = runs_over(image, Span { start: a, end: b }) else { return Listing { status: UNFIT, runs: 0 } };
    if out.len() < runs.len() * RUN_BYTES {
        return Listing { status: SHORT_OUTPUT, runs: 0 };
    }
    for (i, run) in runs.iter().enumerate() {
        out[i * RUN_BYTES..(i + 1) * RUN_BYTES].copy_from_slice(&run_bytes(run));
    }
    Listing { status: ACCEPTED, runs: runs.len() as u32 }
}

pub fn run_bytes(run: &Run) -> [u8; RUN_BYTES] {
    let mut bytes = [0; RUN_BYTES];
    bytes[0..4].copy_from_slice(&run.start.to_le_bytes());
    bytes[4..8].copy_from_slice(&run.pair.count.to_le_bytes());
    bytes[8..16].copy_from_slice(&run.pair.sum.to_le_bytes());
    bytes
}

/// The runs over a span, or none where a page met is unfit.
fn runs_over(image: &[u8], asked: Span) -> Option<Vec<Run>> {
    let head = fit_head(image)?;
    let mut runs = Vec::new();
    walk(image, &head, &root_place(&head), NOTHING, asked, &mut runs)?;
    Some(runs)
}

/// The pages met are the root, then the child of each inner entry that overlaps the span asked for (R5). `above` is the
/// combined pair of the entries above on the way.
fn walk(image: &[u8], head: &Head, place: &Place, above: Pair, asked: Span, runs: &mut Vec<Run>) -> Option<()> {
    let page = fit_page(image, head, place)?;
    for i in 0..page.entries.len() {
        let span = page.span_of(i, place.span.end);
        if !span.overlaps(asked) {
            continue;
        }
        let pair = combine(head.kind, above, page.entries[i].pair);
        if page.is_leaf() {
            join_or_open_run(runs, Run { start: span.start.max(asked.start), pair });
        } else {
            walk(image, head, &child_place(place, &page, i), pair, asked, runs)?;
        }
    }
    Some(())
}

/// "joined as long as the pair is equal": sum and count, as "Joining two entries of equal sum and different count" is a
/// fault we have seen made.
fn join_or_open_run(runs: &mut Vec<Run>, next: Run) {
    let joined = runs.last().is_some_and(|open| open.pair == next.pair);
    if !joined {
        runs.push(next);
    }
}

// ---------------------------------------------------------------- audit

/// "Audit and changes borrow a scratch of n bytes; those n bytes are 0 afterwards, any beyond keep theirs", the n bytes being
/// document 02's [`scratch_bytes`] of n.
pub fn audit(image: &[u8], scratch: &mut [u8]) -> u32 {
    let n = match judge(image) {
        Ok(n) => n,
        Err(status) => return status,
    };
    if scratch.len() < scratch_bytes(n) {
        return SHORT_SCRATCH;
    }
    scratch[..scratch_bytes(n)].fill(0);
    if is_sound(image) {
        ACCEPTED
    } else {
        UNFIT
    }
}

// ---------------------------------------------------------------- rebuild

/// Document 02, (iii): "A call reads one image and writes another of chosen n", the n of the target's length. "Errors: 16, 17, 21 (not
/// sound) of the source first, then 16 of the target (scratch 0), 24 if n is too small."
///
/// By (xi) the source is judged by its K like every image; by (vi) the scratch is as long as the source's n asks. The judging and 17 leave
/// the scratch untouched. By (iv) older images "pass through the rebuild, which reads them by the old rule".
pub fn rebuild(source: &[u8], target: &mut [u8], scratch: &mut [u8]) -> u32 {
    let n = match judge(source) {
        Ok(n) => n,
        Err(status) => return status,
    };
    if scratch.len() < scratch_bytes(n) {
        return SHORT_SCRATCH;
    }
    scratch[..scratch_bytes(n)].fill(0);
    if !is_sound_by_the_old_rule(source) {
        return UNFIT;
    }
    rebuild_into(target, source)
}

/// 16 and 24 of the target, which keeps its bytes then, else the clean image. Of the target nothing is read: by (xi) a rebuild "keeps K,
/// judges the target's length by it". The head takes a page besides those of the tree.
fn rebuild_into(target: &mut [u8], sound_source: &[u8]) -> u32 {
    let head = read_head(sound_source);
    let Some(n) = number_of_pages(target.len(), head.capacity()) else { return BAD_LENGTH };
    let runs = full_listing(sound_source).expect("every page of a sound image is fit");
    let pages = tree_pages(&runs, head.capacity());
    if 1 + pages.len() > n as usize {
        return PAGES_LACK;
    }
    lay_clean(target, n, &head, &pages);
    ACCEPTED
}

/// "The full listing is that over [0, END)." None where a page is unfit.
pub(crate) fn full_listing(image: &[u8]) -> Option<Vec<Run>> {
    runs_over(image, Span { start: 0, end: END })
}
