//! What a call turns back, by document 01's numbers.

use std::error::Error;
use std::fmt;

/// Why a call was turned back. Image and output are as before, and so is the target of a rebuild.
///
/// Where several refusals apply, a call tells the first of 16, 17, 11 or 12, 13, 14, 21, 22, 23, 24, 15. Only the capacity is
/// judged ahead of these, since the length is judged by it. A format tells 14 for its capacity first. Any other call tells 16
/// for an image under 40 bytes, then 21 for an image that names no capacity, with the scratch untouched and no page read. A
/// rebuild tells all of its source ahead of 16 for its target and 24.
#[derive(Clone, Copy, PartialEq, Eq, Hash, Debug)]
pub enum Refusal {
    /// 11: a span whose start is not below its end
    SpanEmpty,
    /// 12: [`END`](crate::END) is no instant
    InstantEnd,
    /// 13: a value outside −1,000,000 to 1,000,000
    ValueRange,
    /// 14: at format, a capacity that is no even number from 4 to 24, a kind other than 1 to 3, or a window above
    /// 1,000,000,000
    FormatRange,
    /// 15: an output shorter than the runs, 16 bytes each
    OutputShort,
    /// 16: an image length that isn't (32 + 20 × K) × n for an n from 2 to 1,024, where K is the capacity that format is
    /// given and that any other call finds in the image; for the target of a rebuild K is the source's
    ImageLength,
    /// 17: a scratch shorter than [`scratch_bytes(n)`](crate::scratch_bytes), for an image or a source of n pages
    ScratchShort,
    /// 21: the image names no capacity, neither by an even number from 4 to 24 nor by the FF of an older image; or a page
    /// that was met is unfit; of an audit or a change, the image is not sound, for totals also if two neighbouring leaf entries
    /// have the same sum and count; of a rebuild, the source is not sound, where such neighbours don't count
    Unsound,
    /// 22: a withdrawal from an index of kind 2 or 3
    WithdrawalKind,
    /// 23: the index has had 1,000,000,000 changes
    ChangesFull,
    /// 24: the cuts of the change need more pages than the image has left, or the rebuild more than the target has
    PagesLacking,
}

impl Refusal {
    /// All of them, by status.
    pub const ALL: [Refusal; 11] = [
        Refusal::SpanEmpty,
        Refusal::InstantEnd,
        Refusal::ValueRange,
        Refusal::FormatRange,
        Refusal::OutputShort,
        Refusal::ImageLength,
        Refusal::ScratchShort,
        Refusal::Unsound,
        Refusal::WithdrawalKind,
        Refusal::ChangesFull,
        Refusal::PagesLacking,
    ];

    /// The status that the call returned.
    ///
    /// ```
    /// assert_eq!(luwhenoka::Refusal::Unsound.status(), 21);
    /// ```
    pub fn status(self) -> u32 {
        match self {
            Refusal::SpanEmpty => 11,
            Refusal::InstantEnd => 12,
            Refusal::ValueRange => 13,
            Refusal::FormatRange => 14,
            Refusal::OutputShort => 15,
            Refusal::ImageLength => 16,
            Refusal::ScratchShort => 17,
            Refusal::Unsound => 21,
            Refusal::WithdrawalKind => 22,
            Refusal::ChangesFull => 23,
            Refusal::PagesLacking => 24,
        }
    }

    /// The refusal of a status; none for 0 and for any that no call returns.
    ///
    /// ```
    /// use luwhenoka::Refusal;
    /// assert_eq!(Refusal::of_status(16), Some(Refusal::ImageLength));
    /// assert_eq!(Refusal::of_status(0), None);
    /// ```
    pub fn of_status(status: u32) -> Option<Refusal> {
        Refusal::ALL.into_iter().find(|refusal| refusal.status() == status)
    }

    /// A returned status as a result.
    pub(crate) fn result(status: u32) -> Result<(), Refusal> {
        if status == 0 {
            return Ok(());
        }
        Err(Refusal::of_status(status).unwrap_or_else(|| panic!("the library returns no such status as {status}")))
    }
}

impl fmt::Display for Refusal {
    fn fmt(&self, f: &mut fmt::Formatter<'_>) -> fmt::Result {
        f.write_str(match self {
            Refusal::SpanEmpty => "the span's start is not below its end",
            Refusal::InstantEnd => "4294967295 is the end of time and no instant",
            Refusal::ValueRange => "the value is outside -1000000 to 1000000",
            Refusal::FormatRange => "the capacity, the kind or the window is outside its range",
            Refusal::OutputShort => "the output is shorter than the runs",
            Refusal::ImageLength => "the image is not 2 to 1024 pages of the length that its capacity asks for",
            Refusal::ScratchShort => "the scratch has fewer bits than the image has pages",
            Refusal::Unsound => "the image names no capacity, a page of it is unfit, or it is not sound",
            Refusal::WithdrawalKind => "an index of the greatest or least takes no withdrawal",
            Refusal::ChangesFull => "the index has had 1000000000 changes",
            Refusal::PagesLacking => "the image lacks pages for the change, or the target for the rebuild",
        })?;
        write!(f, " (refusal {})", self.status())
    }
}

impl Error for Refusal {}

/// Why an instant was turned back, and how many tree pages were read.
///
/// At [`Refusal::Unsound`] the pages are those up to and including the unfit one, 0 for the head and for a bad capacity; at
/// any other refusal they are 0.
#[derive(Clone, Copy, PartialEq, Eq, Hash, Debug)]
pub struct Refused {
    pub refusal: Refusal,
    pub pages: u32,
}

impl fmt::Display for Refused {
    fn fmt(&self, f: &mut fmt::Formatter<'_>) -> fmt::Result {
        write!(f, "{}, tree pages read: {}", self.refusal, self.pages)
    }
}

impl Error for Refused {
    fn source(&self) -> Option<&(dyn Error + 'static)> {
        Some(&self.refusal)
    }
}

impl From<Refused> for Refusal {
    fn from(refused: Refused) -> Refusal {
        refused.refusal
    }
}
