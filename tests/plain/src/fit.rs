//! Document 01, "The page", over document 02's capacity: which head is fit, and which page is fit at its place.

use crate::capacity::Capacity;
use crate::page::{
    head_rest_is_unused, number_of_pages, page_rest_is_unused, read_capacity, read_head, read_page, Entry, Head, Page,
};
use crate::value::{
    kind_in_range, value_in_range, window_in_range, Span, END, GREATEST_VALUE, MOST_CHANGES, NOTHING, TOTALS,
};

/// "the head's range becomes 1 to 10 at every K"
pub const GREATEST_HEIGHT: u32 = 10;

/// "The head is fit if n matches the length, changes ≤ 1,000,000,000, the root lies in 1 to n−1, the chain's first page
/// is 0 or there, the other fields keep the ranges named, and its rest is FF." The free chain length has no range (R1).
/// Document 02, (xi), of the height: "the head's range becomes 1 to 10 at every K". K is good, since the length is judged
/// by it.
pub fn fit_head(image: &[u8]) -> Option<Head> {
    let capacity = read_capacity(image)?;
    let n = number_of_pages(image.len(), capacity)?;
    let head = read_head(image);
    let fit = head.n == n
        && (1..=GREATEST_HEIGHT).contains(&head.height)
        && (1..n).contains(&head.root)
        && (head.first_free == 0 || (1..n).contains(&head.first_free))
        && (2..=n).contains(&head.high_mark)
        && kind_in_range(head.kind)
        && window_in_range(head.window)
        && head.changes <= MOST_CHANGES
        && head_rest_is_unused(image, capacity);
    fit.then_some(head)
}

/// Where in the tree a page stands, and what its way from the root has brought.
#[derive(Clone, Copy, PartialEq, Eq, Debug)]
pub struct Place {
    pub page: u32,
    /// "its level is the one expected there (root: height − 1)"
    pub level: u32,
    pub is_root: bool,
    /// From "the parent entry's start (root: 0)" to "that entry's end (root: END)".
    pub span: Span,
    /// The absolute sums and counts of the entries above on the way, added (R3).
    pub sums_above: i128,
    pub counts_above: i128,
}

/// The root's place.
pub fn root_place(head: &Head) -> Place {
    Place {
        page: head.root,
        level: head.height - 1,
        is_root: true,
        span: Span { start: 0, end: END },
        sums_above: 0,
        counts_above: 0,
    }
}

/// The place of the child of entry `i` of an inner page.
pub fn child_place(place: &Place, page: &Page, i: usize) -> Place {
    let entry = &page.entries[i];
    Place {
        page: entry.child,
        level: place.level - 1,
        is_root: false,
        span: page.span_of(i, place.span.end),
        sums_above: place.sums_above + absolute_sum(entry),
        counts_above: place.counts_above + absolute_count(entry),
    }
}

fn absolute_sum(entry: &Entry) -> i128 {
    i128::from(entry.pair.sum).abs()
}

fn absolute_count(entry: &Entry) -> i128 {
    i128::from(entry.pair.count).abs()
}

/// The page at a place if it is "fit at its place", else none. A page is fit as a whole: every entry counts (R4).
pub fn fit_page(image: &[u8], head: &Head, place: &Place) -> Option<Page> {
    let capacity = head.capacity();
    let page = read_page(image, capacity, place.page)?;
    let fit = page.level == place.level
        && number_of_entries_is_fit(capacity, place, &page)
        && starts_are_fit(place, &page)
        && page_rest_is_unused(image, capacity, place.page, page.entries.len())
        && page.entries.iter().all(|entry| child_is_fit(head, &page, entry) && pair_is_fit(head, place, entry));
    fit.then_some(page)
}

/// "it has 12 to 24 entries (root leaf 1 to 24, inner root 2 to 24)": K/2 to K by document 02's "Half is K/2".
fn number_of_entries_is_fit(capacity: Capacity, place: &Place, page: &Page) -> bool {
    let fewest = match (place.is_root, page.is_leaf()) {
        (true, true) => 1,
        (true, false) => 2,
        (false, _) => capacity.half(),
    };
    (fewest..=capacity.most_entries()).contains(&page.entries.len())
}

/// "starts rise strictly, the first is the parent entry's start (root: 0), the last lies below that entry's end (root:
/// END)"
fn starts_are_fit(place: &Place, page: &Page) -> bool {
    let starts: Vec<u32> = page.entries.iter().map(|entry| entry.start).collect();
    let rise_strictly = starts.windows(2).all(|two| two[0] < two[1]);
    rise_strictly
        && starts.first() == Some(&place.span.start)
        && starts.last().is_some_and(|&last| last < place.span.end)
}

/// "an inner entry's child lies in 1 to n−1, a leaf's is 0"
fn child_is_fit(head: &Head, page: &Page, entry: &Entry) -> bool {
    if page.is_leaf() {
        entry.child == 0
    } else {
        (1..head.n).contains(&entry.child)
    }
}

/// "for kind 1 the absolute sums of an entry and of those above it on its way add to at most 1,000,000 × changes,
/// absolute counts to at most changes; kinds 2 and 3 have (0, 0) or a value with 1"
fn pair_is_fit(head: &Head, place: &Place, entry: &Entry) -> bool {
    if head.kind == TOTALS {
        let changes = i128::from(head.changes);
        place.sums_above + absolute_sum(entry) <= i128::from(GREATEST_VALUE) * changes
            && place.counts_above + absolute_count(entry) <= changes
    } else {
        entry.pair == NOTHING || (value_in_range(entry.pair.sum) && entry.pair.count == 1)
    }
}
