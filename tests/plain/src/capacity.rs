//! Document 02, request (xi): the capacity K of a page, and all that follows from it.
//!
//! "The capacity K is an even number from 4 to 24, stored in the head after changes; a page has 32 + 20 × K bytes and each
//! array K places. Half is K/2, a split keeps K/2 and moves K/2 + 1, and a neighbour gives from K/2 + 1 up." Where document
//! 01 says 11, 12, 13, 24 and 25 of a page's entries, K/2 − 1, K/2, K/2 + 1, K and K + 1 are meant from then on.

/// A K in its range.
#[derive(Clone, Copy, PartialEq, Eq, Debug)]
pub struct Capacity(u32);

/// "The program and document 01's cases keep K = 24."
pub const OF_DOCUMENT_01: Capacity = Capacity(24);

/// What the field holds in "an image of 512-byte pages without the field (FF there)".
pub const NO_FIELD: u32 = 0xFFFF_FFFF;

impl Capacity {
    /// "an even number from 4 to 24"
    pub fn new(k: u32) -> Option<Capacity> {
        (k.is_multiple_of(2) && (4..=24).contains(&k)).then_some(Capacity(k))
    }

    /// The K that a head's field names, or none where it is bad: "an image of 512-byte pages without the field (FF there)
    /// reads as K = 24".
    pub fn named_by(field: u32) -> Option<Capacity> {
        if field == NO_FIELD {
            Some(OF_DOCUMENT_01)
        } else {
            Capacity::new(field)
        }
    }

    pub fn number(self) -> u32 {
        self.0
    }

    /// "each array K places"
    pub fn most_entries(self) -> usize {
        self.0 as usize
    }

    /// "Half is K/2"
    pub fn half(self) -> usize {
        self.0 as usize / 2
    }

    /// "a page has 32 + 20 × K bytes"
    pub fn page_bytes(self) -> usize {
        32 + 20 * self.0 as usize
    }
}
