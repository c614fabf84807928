//! The plain version of document 01, the Lent-Block Time Index, with seven requests of document 02: (ii), search from the late end,
//! which changes no answer, (iii), the rebuild into a clean image, (iv), edges between pages that join, (vi), a bit of scratch for a page,
//! (viii), the start and end of an instant's leaf entry, (ix), averages that round to even, and (xi), pages of any capacity.
//!
//! Written from the papers alone and plain before fast: this is what the proved library is compared with, byte for byte.
//! Each function carries the sentence of document 01 or 02 that it follows, in quotation marks. `R1` to `R27` are the
//! readings that docs/DECISIONS.md lists.
//!
//! - [`value`]: instants, spans, pairs, kinds, the average ("Time and value")
//! - [`capacity`]: K, the capacity of a page (document 02)
//! - [`page`]: the bytes of the head, of tree pages and of free pages ("The page")
//! - [`fit`]: which pages are fit at their place
//! - [`sound`]: which images are sound, by the definition and by counting
//! - [`steps`]: the five steps of a change, and the pages that they name
//! - [`clean`]: the clean image that a rebuild lays down (document 02)
//! - [`calls`]: the public calls, with every refusal in its order
//! - [`making`]: images that no call leaves, for tests: document 01's own fresh image, and trees of a chosen height
//! - [`book`]: the plain book of demand 3
//! - [`program`]: the program on lines of text

#![forbid(unsafe_code)]

pub mod book;
pub mod calls;
pub mod capacity;
pub mod clean;
pub mod fit;
pub mod making;
pub mod page;
pub mod program;
pub mod sound;
pub mod steps;
pub mod value;

pub use book::Book;
pub use calls::{
    audit, average, enter, enter_recorded, format, instant, listing, rebuild, scratch_bytes, withdraw,
    withdraw_recorded, Instant, Listing, RecordedChange,
};
pub use capacity::Capacity;
pub use program::run;
pub use value::{average_of, Average, Pair, END};
