//! Document 01, "One change in five steps", over document 02's capacity: "Half is K/2, a split keeps K/2 and moves K/2 + 1, and
//! a neighbour gives from K/2 + 1 up."
//!
//! "A. Cut at s. B. Cut at e′. C. Combine the effect into [s, e′). D. Heal at s. E. Heal at e′. Then changes rises by 1."
//!
//! Document 02, (iv), of heal: "For kind 1, heal at t shall also remove an entry that is first in its page when the totals on both sides
//! are equal".
//!
//! The steps run on a sound image. Beside the new image each of them gives a [`StepRecord`]: the pages that document 01's
//! sentence on what a step may write names, and how often it split, merged and so on.

use std::collections::BTreeSet;

use crate::capacity::Capacity;
use crate::page::{read_free_page, read_head, read_page, write_free_page, write_head, write_page, Entry, Head, Page};
use crate::value::{combine, Pair, Span, END, NOTHING, TOTALS};

/// What a change brings: its pair, into its span [s, e′).
#[derive(Clone, Copy, PartialEq, Eq, Debug)]
pub struct Effect {
    pub pair: Pair,
    pub span: Span,
}

#[derive(Clone, Copy, PartialEq, Eq, Debug)]
pub enum Step {
    /// A
    CutAtStart,
    /// B
    CutAtEnd,
    /// C
    Combine,
    /// D
    HealAtStart,
    /// E
    HealAtEnd,
}

pub const FIVE_STEPS: [Step; 5] = [Step::CutAtStart, Step::CutAtEnd, Step::Combine, Step::HealAtStart, Step::HealAtEnd];

/// "A and B together take more pages than chain and pages from the high mark hold"
#[derive(Clone, Copy, PartialEq, Eq, Debug)]
pub struct PagesLack;

/// What one step did.
#[derive(Clone, PartialEq, Eq, Debug, Default)]
pub struct StepRecord {
    /// "pages on the way to its instant (C: to s and e′)", in the image as the step found it
    pub ways: Vec<Vec<u32>>,
    /// "the neighbour each turns to"
    pub turned_to: Vec<u32>,
    /// "pages taken", in their order
    pub taken: Vec<u32>,
    /// "or given back", in their order
    pub given_back: Vec<u32>,
    pub entries_cut: u32,
    pub entries_healed: u32,
    /// Where the entry that went was first in its page: the level of the page whose entry "separates the two pages", from 1 on. Its
    /// start and those of all entries below it on the way were carried. Else 0.
    pub edge_level: u32,
    pub splits: u32,
    pub gives_from_left: u32,
    pub gives_from_right: u32,
    pub merges_with_left: u32,
    pub merges_with_right: u32,
    pub roots_gained: u32,
    pub roots_lost: u32,
}

impl StepRecord {
    /// "Each step may write only the head, pages on the way to its instant (C: to s and e′), the neighbour each turns
    /// to, and pages taken or given back." Document 02, (iv), would let heal write pages on the way to t−1 too: "Each page written is the
    /// head, lies on the way to t or to t−1, is a neighbour turned to or is given back." None is named here: all the starts that are
    /// carried stand on the way to t.
    pub fn named_pages(&self) -> BTreeSet<u32> {
        let mut named = BTreeSet::from([0]);
        named.extend(self.ways.iter().flatten());
        named.extend(&self.turned_to);
        named.extend(&self.taken);
        named.extend(&self.given_back);
        named
    }
}

/// All five steps and the count of changes. Where pages lack, the image is left in the midst of its cuts: callers run
/// this on a copy.
pub fn five_steps(image: &mut [u8], effect: &Effect) -> Result<Vec<StepRecord>, PagesLack> {
    let mut steps = Vec::new();
    for step in FIVE_STEPS {
        steps.push(one_step(image, step, effect)?);
    }
    count_the_change(image);
    Ok(steps)
}

/// "Then changes rises by 1." And document 02, (xi): "a change keeps the field's bytes", K's: every write of the head puts
/// back the field that was read.
pub fn count_the_change(image: &mut [u8]) {
    let mut head = read_head(image);
    head.changes += 1;
    write_head(image, &head);
}

/// One of the five steps; its ways are taken in the image as the step before it left it (R11).
pub fn one_step(image: &mut [u8], step: Step, effect: &Effect) -> Result<StepRecord, PagesLack> {
    let head = read_head(image);
    let Span { start, end } = effect.span;
    let ways = match step {
        Step::CutAtStart | Step::HealAtStart => vec![way_to(image, start)],
        Step::CutAtEnd | Step::HealAtEnd => vec![way_to(image, end)],
        Step::Combine => vec![way_to(image, start), way_to(image, end)],
    };
    let record = StepRecord { ways, ..StepRecord::default() };
    let mut work = Work { image, capacity: head.capacity(), kind: head.kind, record };
    match step {
        Step::CutAtStart => work.cut(start)?,
        Step::CutAtEnd => work.cut(end)?,
        Step::Combine => work.combine_from_the_root(effect),
        Step::HealAtStart => work.heal(start),
        Step::HealAtEnd => work.heal(end),
    }
    Ok(work.record)
}

/// "The way to t, in the image as the step finds it: the root, then each time the child of the last entry starting at t
/// or before, down to a leaf." "END is no instant": no page is on a way to it.
pub fn way_to(image: &[u8], t: u32) -> Vec<u32> {
    if t == END {
        return Vec::new();
    }
    let head = read_head(image);
    let mut way = vec![head.root];
    loop {
        let page = tree_page(image, head.capacity(), way[way.len() - 1]);
        if page.is_leaf() {
            return way;
        }
        way.push(page.entries[page.entry_at(t)].child);
    }
}

fn tree_page(image: &[u8], capacity: Capacity, page: u32) -> Page {
    read_page(image, capacity, page).expect("a tree page of a sound image has at most K entries")
}

/// The image that a step works on, with the record of the step.
struct Work<'a> {
    image: &'a mut [u8],
    capacity: Capacity,
    kind: u32,
    record: StepRecord,
}

impl Work<'_> {
    fn head(&self) -> Head {
        read_head(self.image)
    }

    fn page(&self, page: u32) -> Page {
        tree_page(self.image, self.capacity, page)
    }

    fn write(&mut self, page: u32, contents: &Page) {
        write_page(self.image, self.capacity, page, contents);
    }

    // ------------------------------------------------------------ the free list

    /// "Pages are taken from the chain's front, else at the high mark".
    fn take_page(&mut self) -> Result<u32, PagesLack> {
        let mut head = self.head();
        let page;
        if head.first_free != 0 {
            page = head.first_free;
            head.first_free =
                read_free_page(self.image, self.capacity, page).expect("a page in the chain reads as free");
            head.free_length -= 1;
        } else if head.high_mark < head.n {
            page = head.high_mark;
            head.high_mark += 1;
        } else {
            return Err(PagesLack);
        }
        write_head(self.image, &head);
        self.record.taken.push(page);
        Ok(page)
    }

    /// "given back to the front". The high mark never falls (R10).
    fn give_back_page(&mut self, page: u32) {
        let mut head = self.head();
        write_free_page(self.image, self.capacity, page, head.first_free);
        head.first_free = page;
        head.free_length += 1;
        write_head(self.image, &head);
        self.record.given_back.push(page);
    }

    // ------------------------------------------------------------ cut

    /// "Cut at t: nothing if t is END or starts a leaf entry. Else the leaf entry that has t becomes two with the same
    /// pair."
    fn cut(&mut self, t: u32) -> Result<(), PagesLack> {
        if t == END {
            return Ok(());
        }
        let way = way_to(self.image, t);
        let mut leaf = self.page(way[way.len() - 1]);
        let i = leaf.entry_at(t);
        if leaf.entries[i].start == t {
            return Ok(());
        }
        let second = Entry { start: t, ..leaf.entries[i] };
        leaf.entries.insert(i + 1, second);
        self.record.entries_cut += 1;
        self.write_or_split(&way, leaf)
    }

    /// Writes the last page of a way with new contents of up to K + 1 entries.
    ///
    /// "25 entries split: the page keeps 12, a taken page gets 13, the parent gains an entry with the same pair." By
    /// document 02 "a split keeps K/2 and moves K/2 + 1". The pair is that of the parent's entry for the page that was
    /// split (R8). "Lower pages take first": by level, the new root last (R7).
    fn write_or_split(&mut self, way: &[u32], mut left: Page) -> Result<(), PagesLack> {
        let left_page = way[way.len() - 1];
        if left.entries.len() <= self.capacity.most_entries() {
            self.write(left_page, &left);
            return Ok(());
        }
        let right = Page { level: left.level, entries: left.entries.split_off(self.capacity.half()) };
        let right_start = right.entries[0].start;
        let right_page = self.take_page()?;
        self.write(left_page, &left);
        self.write(right_page, &right);
        self.record.splits += 1;

        let way_to_parent = &way[..way.len() - 1];
        let Some(&parent_page) = way_to_parent.last() else {
            return self.gain_root(left.level + 1, left_page, right_page, right_start);
        };
        let mut parent = self.page(parent_page);
        let i = parent.entry_of_child(left_page);
        let gained = Entry { start: right_start, pair: parent.entries[i].pair, child: right_page };
        parent.entries.insert(i + 1, gained);
        self.write_or_split(way_to_parent, parent)
    }

    /// "A split root gets a new root, two entries with pair (0, 0)."
    fn gain_root(&mut self, level: u32, left_page: u32, right_page: u32, right_start: u32) -> Result<(), PagesLack> {
        let root_page = self.take_page()?;
        let left = Entry { start: 0, pair: NOTHING, child: left_page };
        let right = Entry { start: right_start, pair: NOTHING, child: right_page };
        self.write(root_page, &Page { level, entries: vec![left, right] });
        let mut head = self.head();
        head.root = root_page;
        head.height += 1;
        write_head(self.image, &head);
        self.record.roots_gained += 1;
        Ok(())
    }

    // ------------------------------------------------------------ combine

    fn combine_from_the_root(&mut self, effect: &Effect) {
        self.combine_into_page(self.head().root, END, effect);
    }

    /// "Combine: from the root, an entry wholly inside the span takes the effect; one partly inside sends it to its
    /// child." Without an early stop for kinds 2 and 3 (R6).
    fn combine_into_page(&mut self, page: u32, page_end: u32, effect: &Effect) {
        let mut contents = self.page(page);
        for i in 0..contents.entries.len() {
            let span = contents.span_of(i, page_end);
            if span.inside(effect.span) {
                contents.entries[i].pair = combine(self.kind, contents.entries[i].pair, effect.pair);
            } else if span.overlaps(effect.span) {
                assert!(!contents.is_leaf(), "after A and B no leaf entry is partly inside");
                self.combine_into_page(contents.entries[i].child, span.end, effect);
            }
        }
        self.write(page, &contents);
    }

    // ------------------------------------------------------------ heal

    /// "Heal at t: only if t starts a leaf entry that isn't first in its page, with the same pair as the one before; it
    /// goes." The two entries' own pairs are compared, and END starts no entry (R20). Document 02, (iv): "For kind 1, heal at t shall
    /// also remove an entry that is first in its page when the totals on both sides are equal: the entry goes, and the new first start
    /// is carried up". The entry before keeps its pair, and the pair of the one that goes is dropped.
    fn heal(&mut self, t: u32) {
        if t == END {
            return;
        }
        let way = way_to(self.image, t);
        let leaf_page = way[way.len() - 1];
        let mut leaf = self.page(leaf_page);
        let i = leaf.entry_at(t);
        if leaf.entries[i].start != t {
            return;
        }
        let is_first = i == 0;
        let goes = if is_first { self.edge_joins(t) } else { leaf.entries[i].pair == leaf.entries[i - 1].pair };
        if !goes {
            return;
        }
        leaf.entries.remove(i);
        self.write(leaf_page, &leaf);
        self.record.entries_healed += 1;
        if is_first {
            self.carry_up(&way, leaf.entries[0].start);
        }
        self.after_losing_an_entry(&way);
    }

    /// Document 02, (iv): whether "the totals on both sides are equal" of the edge between two pages at t: those at t−1 and at t, sum
    /// and count. Nothing stands before 0.
    fn edge_joins(&self, t: u32) -> bool {
        self.kind == TOTALS && t > 0 && self.total_at(t - 1) == self.total_at(t)
    }

    /// "An instant's answer combines the pairs on its way from root to leaf."
    fn total_at(&self, t: u32) -> Pair {
        let mut total = NOTHING;
        for page in way_to(self.image, t) {
            let page = self.page(page);
            total = combine(self.kind, total, page.entries[page.entry_at(t)].pair);
        }
        total
    }

    /// Document 02, (iv): "the new first start is carried up to the parent entry that separates the two pages". Of the pages above the
    /// leaf, each entry on the way starts where the one below it does as long as it is first in its page; the first one that isn't
    /// separates the pages, and is the last to follow.
    fn carry_up(&mut self, way: &[u32], new_start: u32) {
        for above in (1..way.len()).rev() {
            let (parent_page, child) = (way[above - 1], way[above]);
            let mut parent = self.page(parent_page);
            let i = parent.entry_of_child(child);
            parent.entries[i].start = new_start;
            self.write(parent_page, &parent);
            if i > 0 {
                self.record.edge_level = parent.level;
                return;
            }
        }
        unreachable!("an entry that starts above 0 isn't first in every page on its way");
    }

    /// What becomes of the last page of a way when an entry of it has gone.
    fn after_losing_an_entry(&mut self, way: &[u32]) {
        let page = self.page(way[way.len() - 1]);
        let is_root = way.len() == 1;
        if is_root && !page.is_leaf() && page.entries.len() == 1 {
            self.lose_root();
        } else if !is_root && page.entries.len() < self.capacity.half() {
            self.turn_to_sibling(way);
        }
    }

    /// "A page other than the root left with 11 turns to its left neighbour under the same parent, else the right." K/2 − 1
    /// by document 02's half. Left if there is one, else right (R9).
    fn turn_to_sibling(&mut self, way: &[u32]) {
        let page = way[way.len() - 1];
        let way_to_parent = &way[..way.len() - 1];
        let parent_page = way_to_parent[way_to_parent.len() - 1];
        let mut parent = self.page(parent_page);

        let i = parent.entry_of_child(page);
        let sibling_is_left = i > 0;
        let (at_left, at_right) = if sibling_is_left { (i - 1, i) } else { (i, i + 1) };
        let (left_page, right_page) = (parent.entries[at_left].child, parent.entries[at_right].child);
        self.record.turned_to.push(if sibling_is_left { left_page } else { right_page });

        let mut left = self.page(left_page);
        let mut right = self.page(right_page);
        self.combine_parent_pair(&mut parent.entries[at_left], &mut left);
        self.combine_parent_pair(&mut parent.entries[at_right], &mut right);

        let spare = if sibling_is_left { left.entries.len() } else { right.entries.len() } > self.capacity.half();
        if spare {
            // "A neighbour with 13 or more gives its nearest entry, and the right page's parent start follows": "a neighbour
            // gives from K/2 + 1 up".
            if sibling_is_left {
                let given = left.entries.remove(left.entries.len() - 1);
                right.entries.insert(0, given);
                self.record.gives_from_left += 1;
            } else {
                let given = right.entries.remove(0);
                left.entries.push(given);
                self.record.gives_from_right += 1;
            }
            parent.entries[at_right].start = right.entries[0].start;
            self.write(left_page, &left);
            self.write(right_page, &right);
            self.write(parent_page, &parent);
        } else {
            // "else both join in the left page, the right is given back, the parent loses its entry and may turn to a
            // neighbour too." Given back from below upwards (R10).
            left.entries.extend(right.entries);
            parent.entries.remove(at_right);
            self.write(left_page, &left);
            self.write(parent_page, &parent);
            self.give_back_page(right_page);
            if sibling_is_left {
                self.record.merges_with_left += 1;
            } else {
                self.record.merges_with_right += 1;
            }
            self.after_losing_an_entry(way_to_parent);
        }
    }

    /// "Each of the two parent pairs is first combined into its page's entries and set to (0, 0)."
    fn combine_parent_pair(&self, parent_entry: &mut Entry, page: &mut Page) {
        for entry in &mut page.entries {
            entry.pair = combine(self.kind, entry.pair, parent_entry.pair);
        }
        parent_entry.pair = NOTHING;
    }

    /// "An inner root with one entry combines its pair into its child's entries, is given back, and the child becomes
    /// root."
    fn lose_root(&mut self) {
        let root_page = self.head().root;
        let mut root = self.page(root_page);
        let child_page = root.entries[0].child;
        let mut child = self.page(child_page);
        self.combine_parent_pair(&mut root.entries[0], &mut child);
        self.write(child_page, &child);
        self.give_back_page(root_page);
        let mut head = self.head();
        head.root = child_page;
        head.height -= 1;
        write_head(self.image, &head);
        self.record.roots_lost += 1;
    }
}
