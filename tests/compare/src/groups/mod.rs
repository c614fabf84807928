//! What is compared, in groups; each says which inputs it tries.

mod averages;
mod buffer_lengths;
mod capacity;
mod cycles;
mod damage;
mod documented;
mod edges;
mod ends;
mod every_capacity;
mod formats;
mod grow_shrink;
mod heights;
mod made;
mod pair_bounds;
mod random_bookings;
mod random_bytes;
mod rebuild;
mod refusals;
mod scratch;
mod search;

use crate::comparer::Comparer;
use crate::images::{Pool, IMAGES, OTHER, OTHER_BY_BYTES, SMALL};

pub struct Group {
    pub name: &'static str,
    pub what: &'static str,
    /// Parts that can be done by themselves, each with its own seed.
    pub parts: usize,
    /// Whether more parts try something else.
    pub random: bool,
    pub run: fn(&mut Comparer, &Pool, usize),
}

/// The longest parts first, so that the threads end together.
pub const GROUPS: &[Group] = &[
    Group {
        name: "fill_empty",
        what: "filled until 24 and emptied",
        parts: 48,
        random: true,
        run: grow_shrink::fill_empty,
    },
    Group {
        name: "damaged_bytes",
        what: "each byte of small images set to several values",
        parts: SMALL + OTHER,
        random: false,
        run: damage::damaged_bytes,
    },
    Group {
        name: "damaged_words",
        what: "each word of small images at the ends of ranges",
        parts: SMALL + OTHER_BY_BYTES,
        random: false,
        run: damage::damaged_words,
    },
    Group {
        name: "every_capacity",
        what: "long lists of changes at every K and without the field",
        parts: every_capacity::PARTS,
        random: true,
        run: every_capacity::every_capacity,
    },
    Group {
        name: "made_heights",
        what: "reads and changes of sound images made up to height 10",
        parts: made::MADE_HEIGHTS,
        random: true,
        run: made::made_heights,
    },
    Group {
        name: "edge_levels",
        what: "edges between pages joined at every level, up to height 10, one by one and one after the other",
        parts: edges::LEVELS,
        random: true,
        run: edges::edge_levels,
    },
    Group {
        name: "edge_histories",
        what: "short ranges of time at every K, where edges meet, with an audit after each change, and emptied",
        parts: edges::HISTORIES,
        random: true,
        run: edges::edge_histories,
    },
    Group {
        name: "equal_pairs",
        what: "two neighbours made equal, in a page and across an edge of every level",
        parts: edges::EQUAL,
        random: true,
        run: edges::equal_pairs,
    },
    Group {
        name: "heights",
        what: "sound images of heights 1 to 10, all kinds",
        parts: 2 * IMAGES,
        random: true,
        run: heights::heights,
    },
    Group {
        name: "rebuild_sources",
        what: "rebuilds of sources of heights 1 to 10, into just enough pages, too few and more",
        parts: rebuild::SOURCES,
        random: true,
        run: rebuild::rebuild_sources,
    },
    Group {
        name: "rebuild_seasons",
        what: "rebuilds after seasons of changes, which go on with the target",
        parts: rebuild::SEASONS,
        random: true,
        run: rebuild::rebuild_seasons,
    },
    Group {
        name: "rebuild_damaged",
        what: "rebuilds of damaged sources, refused as by an audit",
        parts: rebuild::DAMAGED,
        random: true,
        run: rebuild::rebuild_damaged,
    },
    Group {
        name: "rebuild_targets",
        what: "rebuilds into targets of every length, with any content, and every scratch",
        parts: every_capacity::EACH.len(),
        random: false,
        run: rebuild::rebuild_targets,
    },
    Group {
        name: "random_bookings",
        what: "random bookings on 2 to 1,024 pages",
        parts: 80,
        random: true,
        run: random_bookings::random_bookings,
    },
    Group {
        name: "damaged_fields",
        what: "damaged pages of images of heights 3 to 10",
        parts: damage::DAMAGED_FIELDS,
        random: true,
        run: damage::damaged_fields,
    },
    Group {
        name: "stale_entries",
        what: "entry counts with an older page's entries behind them",
        parts: IMAGES,
        random: true,
        run: damage::stale_entries,
    },
    Group {
        name: "scratch",
        what: "the same calls with scratches of several lengths",
        parts: scratch::PARTS,
        random: true,
        run: scratch::scratch,
    },
    Group {
        name: "search",
        what: "every number of entries, every index, starts of every sort",
        parts: search::PARTS,
        random: true,
        run: search::search,
    },
    Group {
        name: "ends",
        what: "every leaf entry by its first and last instant, unfit pages on its way",
        parts: ends::PARTS,
        random: true,
        run: ends::ends,
    },
    Group {
        name: "split_merge",
        what: "small ranges of time, where splits and merges alternate",
        parts: 36,
        random: true,
        run: grow_shrink::split_merge,
    },
    Group {
        name: "grow_shrink",
        what: "up to heights 2 to 4 and back",
        parts: 9,
        random: true,
        run: grow_shrink::grow_shrink,
    },
    Group {
        name: "full_images",
        what: "changes of full images",
        parts: 10,
        random: true,
        run: random_bookings::full_images,
    },
    Group {
        name: "moved_pages",
        what: "pages copied, swapped, freed, marks moved: nearly sound images",
        parts: 16,
        random: true,
        run: cycles::moved_pages,
    },
    Group { name: "cycles", what: "images whose pages point in circles", parts: 8, random: true, run: cycles::cycles },
    Group {
        name: "pair_bounds",
        what: "sums and counts along a way at what changes allow",
        parts: 12,
        random: true,
        run: pair_bounds::pair_bounds,
    },
    Group {
        name: "random_bytes",
        what: "random bytes, with a fit head or without",
        parts: 12,
        random: true,
        run: random_bytes::random_bytes,
    },
    Group {
        name: "one_ways",
        what: "one fit way, up to height 10 at every K",
        parts: 10,
        random: true,
        run: made::one_ways,
    },
    Group {
        name: "bad_capacities",
        what: "bad capacities and images of under 40 bytes, to every call",
        parts: 1,
        random: false,
        run: capacity::bad_capacities,
    },
    Group {
        name: "other_lengths",
        what: "lengths that are right for another capacity",
        parts: 1,
        random: false,
        run: capacity::other_lengths,
    },
    Group {
        name: "entry_counts",
        what: "numbers of entries above K and below half, of every page",
        parts: 1,
        random: false,
        run: capacity::entry_counts,
    },
    Group {
        name: "capacity_formats",
        what: "format with every K, good and bad",
        parts: 1,
        random: false,
        run: capacity::capacity_formats,
    },
    Group { name: "formats", what: "every number of pages", parts: 4, random: false, run: formats::formats },
    Group {
        name: "buffer_lengths",
        what: "lengths of buffers around their ends, null, and above 2^32",
        parts: 1,
        random: false,
        run: buffer_lengths::buffer_lengths,
    },
    Group {
        name: "refusals",
        what: "every set of refusals that can meet, in the documents' order",
        parts: 1,
        random: false,
        run: refusals::refusals,
    },
    Group {
        name: "older_images",
        what: "stored images that document 01's rule left, with equal neighbours",
        parts: 1,
        random: false,
        run: edges::older_images,
    },
    Group { name: "averages", what: "averages of pairs", parts: 2, random: true, run: averages::averages },
    Group {
        name: "marks",
        what: "document 01's marks from the test rack",
        parts: 1,
        random: false,
        run: documented::marks,
    },
    Group {
        name: "paper",
        what: "000's examples that can be trusted",
        parts: 1,
        random: false,
        run: documented::paper,
    },
];
