//! Luwhenoka, a proved time index: how much is booked at an instant, over a span or within a moving window.
//!
//! The index lives in an *image* of 2 to 1,024 pages that the caller lends. Any bytes may stand there: what is not a fit page
//! is refused, and nothing is changed. A page has room for as many entries as its *capacity* says, an even number from 4 to
//! 24, which is chosen at format and stands in the image from then on; [`page_bytes`] tells how long the pages are. Audits,
//! changes and rebuilds borrow a *scratch* too, a bit for each page; [`scratch_bytes`] tells how many bytes that is. These are
//! safe functions over the static library `libluwhenoka.a`, which is written and proved in Rattle; `include/luwhenoka.h`
//! tells each call in full.
//!
//! ```
//! use luwhenoka::{enter, format, instant, listing, page_bytes, runs, scratch_bytes, Kind, END};
//!
//! let (mut image, mut scratch) = ([0; 4 * page_bytes(24)], [0; scratch_bytes(4)]);
//! format(&mut image, Kind::Totals, 0, 24)?;
//! enter(&mut image, &mut scratch, 6, 10, 40)?;
//!
//! let now = instant(&image, 39)?;
//! assert_eq!((now.sum, now.count), (6, 1));
//! assert_eq!(now.until(), Some(40)); // no need to ask again before
//!
//! let mut output = [0; 16 * 8];
//! let count = listing(&image, 0, END, &mut output)?;
//! assert_eq!(runs(&output, count).count(), 3);
//! # Ok::<(), Box<dyn std::error::Error>>(())
//! ```

pub mod raw;
mod refusal;
mod run;

pub use refusal::{Refusal, Refused};
pub use run::{runs, Run, Runs};

/// The end of time, which is no instant.
pub const END: u32 = 4_294_967_295;

/// The least capacity of a page.
pub const LEAST_CAPACITY: u32 = 4;

/// The greatest capacity of a page, and that of an older image, which has FF where the capacity stands.
pub const MOST_CAPACITY: u32 = 24;

/// Bytes of a page of a capacity, for any even number from [`LEAST_CAPACITY`] to [`MOST_CAPACITY`].
///
/// ```
/// use luwhenoka::page_bytes;
///
/// assert_eq!([4, 8, 24].map(page_bytes), [112, 192, 512]);
/// ```
pub const fn page_bytes(capacity: u32) -> usize {
    32 + 20 * capacity as usize
}

/// Bytes of scratch that [`audit`], [`enter`] and [`withdraw`] borrow for an image of so many pages, and [`rebuild`] for a
/// source of so many: an eighth of their number, rounded up.
///
/// ```
/// use luwhenoka::scratch_bytes;
///
/// assert_eq!([2, 8, 9, 1_024].map(scratch_bytes), [1, 1, 2, 128]);
/// ```
pub const fn scratch_bytes(pages: usize) -> usize {
    pages.div_ceil(8)
}

/// Bytes of a run in a listing's output.
pub const RUN_BYTES: usize = 16;

/// What an index answers.
#[derive(Clone, Copy, PartialEq, Eq, Hash, Debug)]
pub enum Kind {
    /// 1: the sum of the values that count, and how many they are
    Totals = 1,
    /// 2: the greatest value that counts
    Greatest = 2,
    /// 3: the least value that counts
    Least = 3,
}

/// Makes the image an empty index, whatever it held. The window is 0 to 1,000,000,000, the capacity an even number from 4 to
/// 24; the image is to have [`page_bytes`] of the capacity for each of 2 to 1,024 pages.
///
/// Refusals: [`FormatRange`](Refusal::FormatRange) for the capacity, [`ImageLength`](Refusal::ImageLength),
/// [`FormatRange`](Refusal::FormatRange) for the window, in this order; the image then keeps every byte.
///
/// ```
/// use luwhenoka::{format, Kind, Refusal};
///
/// let mut image = [0; 2 * 512];
/// assert_eq!(format(&mut image, Kind::Greatest, 20, 24), Ok(()));
/// assert_eq!(format(&mut image, Kind::Greatest, 1_000_000_001, 24), Err(Refusal::FormatRange));
/// assert_eq!(format(&mut image[1..], Kind::Greatest, 20, 24), Err(Refusal::ImageLength));
/// assert_eq!(format(&mut image[1..], Kind::Greatest, 20, 23), Err(Refusal::FormatRange));
/// ```
///
/// Pages of 8 entries have 192 bytes, and every other call knows it from the image:
///
/// ```
/// use luwhenoka::{audit, enter, format, instant, page_bytes, scratch_bytes, Kind, Refusal};
///
/// const PAGES: usize = 5;
/// let mut image = [0; PAGES * page_bytes(8)];
/// let mut scratch = [0; scratch_bytes(PAGES)];
/// format(&mut image, Kind::Totals, 0, 8)?;
/// for s in [10, 20, 30, 40] {
///     enter(&mut image, &mut scratch, 1, s, s + 5)?;
/// }
/// assert_eq!(instant(&image, 42)?.pages, 2); // nine entries are one too many for a page
/// assert_eq!(audit(&image, &mut scratch), Ok(()));
///
/// image[36] = 9; // where the capacity stands
/// assert_eq!(audit(&image, &mut scratch), Err(Refusal::Unsound));
/// # Ok::<(), Refusal>(())
/// ```
pub fn format(image: &mut [u8], kind: Kind, window: u32, capacity: u32) -> Result<(), Refusal> {
    Refusal::result(raw::format(image, kind as u32, window, capacity))
}

/// What holds at an instant, and from when until when.
///
/// Every instant from `start` up to but not including `end` gets this same answer, in all its fields, as long as the image isn't
/// changed. For totals, in every sound image, they are the start and the end of a run of the full listing.
#[derive(Clone, Copy, PartialEq, Eq, Hash, Debug)]
pub struct Instant {
    /// The sum of the values that count, or the greatest or least of them; 0 for nothing.
    pub sum: i64,
    /// How many values count; of a greatest or least, 1, or 0 for nothing.
    pub count: i32,
    /// The tree pages read, which is the height of the tree, 1 to 10.
    pub pages: u32,
    /// Where the leaf entry that has the instant starts: at the instant or before.
    pub start: u32,
    /// Where that entry ends: behind the instant, and at [`END`] if it is the last one.
    pub end: u32,
}

impl Instant {
    /// Until when the answer holds if the image isn't changed: no instant before that need be asked for. `None` if it holds for
    /// ever.
    ///
    /// It is the end of the leaf entry. For totals that is the end of the run, in every sound image: sum or count is another from
    /// there on. For the greatest and the least, and in an image of totals from before leaf entries were joined across pages, both
    /// may hold for longer, since neighbouring entries may have equal ones; a [`listing`] joins them.
    ///
    /// ```
    /// use luwhenoka::{enter, format, instant, scratch_bytes, Kind};
    ///
    /// let mut image = [0; 1_024];
    /// format(&mut image, Kind::Totals, 0, 24)?;
    /// assert_eq!(instant(&image, 0)?.until(), None); // nothing is booked, for ever
    ///
    /// enter(&mut image, &mut [0; scratch_bytes(2)], 6, 10, 40)?;
    /// assert_eq!([0, 9, 10, 39].map(|t| instant(&image, t).ok()?.until()), [Some(10), Some(10), Some(40), Some(40)]);
    /// assert_eq!(instant(&image, 40)?.until(), None);
    /// # Ok::<(), luwhenoka::Refusal>(())
    /// ```
    pub fn until(&self) -> Option<u32> {
        (self.end != END).then_some(self.end)
    }
}

/// The pair at instant `t`, and the start and end of its leaf entry. Only the head and the pages on the way from the root to the
/// leaf that has `t` are looked at.
///
/// Refusals: [`ImageLength`](Refusal::ImageLength), [`InstantEnd`](Refusal::InstantEnd), [`Unsound`](Refusal::Unsound), and
/// ahead of them [`Unsound`](Refusal::Unsound) for a bad capacity; with each comes how many tree pages were read.
///
/// ```
/// use luwhenoka::{format, instant, Instant, Kind, Refusal, Refused, END};
///
/// let mut image = [0; 1_024];
/// format(&mut image, Kind::Totals, 0, 24)?;
/// assert_eq!(instant(&image, 7), Ok(Instant { sum: 0, count: 0, pages: 1, start: 0, end: END }));
///
/// image[512 + 4] = 25; // more entries than the page has room for
/// assert_eq!(instant(&image, 7), Err(Refused { refusal: Refusal::Unsound, pages: 1 }));
/// # Ok::<(), Refusal>(())
/// ```
pub fn instant(image: &[u8], t: u32) -> Result<Instant, Refused> {
    let raw::InstantAnswer { status, pages, sum, count, start, end } = raw::instant(image, t);
    match Refusal::result(status) {
        Ok(()) => Ok(Instant { sum, count, pages, start, end }),
        Err(refusal) => Err(Refused { refusal, pages }),
    }
}

/// An average in hundredths.
#[derive(Clone, Copy, PartialEq, Eq, Hash, Debug)]
pub enum Average {
    /// There is none: the count is 0 or less, or the kind isn't totals.
    None,
    /// The whole number nearest 100 × sum / count, of two that are equally near the even one.
    Hundredths(i64),
    /// The sum is beyond ±10^15, which no fit page can show; never the answer for an image.
    Beyond,
}

impl Average {
    fn of(raw: raw::AverageAnswer) -> Average {
        match raw.answer {
            0 => Average::None,
            1 => Average::Hundredths(raw.hundredths),
            2 => Average::Beyond,
            other => panic!("the library returns no such answer as {other}"),
        }
    }
}

/// The average at instant `t`: that of the pair which [`instant`] answers there.
///
/// Refusals: as of [`instant`]. For kinds other than totals it is accepted, with [`Average::None`].
///
/// ```
/// use luwhenoka::{average, format, Average, Kind, Refusal, END};
///
/// let mut image = [0; 1_024];
/// format(&mut image, Kind::Totals, 0, 24)?;
/// assert_eq!(average(&image, 7), Ok(Average::None));
/// assert_eq!(average(&image, END), Err(Refusal::InstantEnd));
/// # Ok::<(), Refusal>(())
/// ```
pub fn average(image: &[u8], t: u32) -> Result<Average, Refusal> {
    let averaged = raw::average(image, t);
    Refusal::result(averaged.status)?;
    Ok(Average::of(averaged))
}

/// The average of a pair of a kind, for instance of a run.
///
/// ```
/// use luwhenoka::{average_of, Average, Kind};
///
/// assert_eq!(average_of(Kind::Totals, 1, 3), Average::Hundredths(33));
/// // -12.5 hundredths: a half goes to the even number of them
/// assert_eq!(average_of(Kind::Totals, -1, 8), Average::Hundredths(-12));
/// assert_eq!(average_of(Kind::Totals, 3, 200), Average::Hundredths(2));
/// assert_eq!(average_of(Kind::Totals, 5, -1), Average::None);
/// assert_eq!(average_of(Kind::Greatest, 5, 1), Average::None);
/// ```
pub fn average_of(kind: Kind, sum: i64, count: i32) -> Average {
    Average::of(raw::average_of(kind as u32, sum, count))
}

/// Writes the runs over [`a`, `b`) to the output, 16 bytes each, and answers their number; [`runs`] reads them. Bytes past
/// the last run keep what they held. An image of n pages of capacity K shows at most K × (n − 1) runs, so 16 × K × (n − 1)
/// bytes are always enough.
///
/// Refusals: [`ImageLength`](Refusal::ImageLength), [`SpanEmpty`](Refusal::SpanEmpty), [`Unsound`](Refusal::Unsound),
/// [`OutputShort`](Refusal::OutputShort), and ahead of them [`Unsound`](Refusal::Unsound) for a bad capacity; the output then
/// keeps every byte.
///
/// ```
/// use luwhenoka::{format, listing, runs, Kind, Refusal, Run};
///
/// let mut image = [0; 1_024];
/// format(&mut image, Kind::Totals, 0, 24)?;
/// let mut output = [0; 40];
/// let count = listing(&image, 10, 20, &mut output)?;
/// assert_eq!(runs(&output, count).collect::<Vec<_>>(), [Run { start: 10, count: 0, sum: 0 }]);
/// assert_eq!(listing(&image, 10, 20, &mut output[..15]), Err(Refusal::OutputShort));
/// # Ok::<(), Refusal>(())
/// ```
pub fn listing(image: &[u8], a: u32, b: u32, output: &mut [u8]) -> Result<usize, Refusal> {
    let listed = raw::listing(image, a, b, output);
    Refusal::result(listed.status)?;
    Ok(listed.runs as usize)
}

/// Whether the image of n pages is sound. Borrows the first [`scratch_bytes(n)`](scratch_bytes) bytes of the scratch, which
/// are 0 afterwards; any beyond keep theirs.
///
/// An image of totals is sound only if no two neighbouring leaf entries have the same sum and count, in a page or across the edge
/// of one. One that was changed before entries were joined across pages may have such neighbours: [`instant`], [`average`] and
/// [`listing`] answer it, this call, [`enter`] and [`withdraw`] refuse it, and [`rebuild`] makes a sound one of it.
///
/// Refusals: [`Unsound`](Refusal::Unsound) for a bad capacity, [`ImageLength`](Refusal::ImageLength) and
/// [`ScratchShort`](Refusal::ScratchShort), all three with the scratch untouched; [`Unsound`](Refusal::Unsound) for an image
/// that is not sound.
///
/// ```
/// use luwhenoka::{audit, format, Kind, Refusal};
///
/// let mut image = [0; 1_024];
/// let mut scratch = [7; 3];
/// assert_eq!(audit(&image, &mut scratch), Err(Refusal::Unsound)); // 0 is no capacity
/// assert_eq!(scratch, [7, 7, 7]);
/// format(&mut image, Kind::Least, 0, 24)?;
/// assert_eq!(audit(&image, &mut scratch), Ok(()));
/// assert_eq!(scratch, [0, 7, 7]); // one byte is enough for two pages
/// # Ok::<(), Refusal>(())
/// ```
pub fn audit(image: &[u8], scratch: &mut [u8]) -> Result<(), Refusal> {
    Refusal::result(raw::audit(image, scratch))
}

/// Books the value `v` on [`s`, `e`). Borrows the first [`scratch_bytes(n)`](scratch_bytes) bytes of the scratch, for an image
/// of n pages; they are 0 afterwards, and any beyond keep theirs.
///
/// Refusals: [`Unsound`](Refusal::Unsound) for a bad capacity, [`ImageLength`](Refusal::ImageLength),
/// [`ScratchShort`](Refusal::ScratchShort), [`SpanEmpty`](Refusal::SpanEmpty), [`ValueRange`](Refusal::ValueRange), all five
/// with the scratch untouched; [`Unsound`](Refusal::Unsound) for an image that is not sound,
/// [`ChangesFull`](Refusal::ChangesFull), [`PagesLacking`](Refusal::PagesLacking). The image then keeps every byte. Pages lack by
/// the cuts alone, at both ends of what is booked: those that the same change would give back are not counted.
///
/// Where neighbouring leaf entries of totals come to have the same sum and count they become one, so that a sound image has as
/// many leaf entries as its full listing has runs. With m runs and capacity K its tree has at most 1 + (m − r) / (K / 2 − 1)
/// pages; r is 1 if the root is a leaf, else 2.
///
/// The capacity stays as it stands in the image: an older one, with FF there, keeps FF.
///
/// ```
/// use luwhenoka::{enter, format, instant, scratch_bytes, Kind};
///
/// let mut image = [0; 1_024];
/// format(&mut image, Kind::Totals, 0, 24)?;
/// enter(&mut image, &mut [0; scratch_bytes(2)], 6, 10, 40)?;
/// assert_eq!(instant(&image, 39)?.sum, 6);
/// assert_eq!(instant(&image, 40)?.sum, 0);
/// # Ok::<(), luwhenoka::Refusal>(())
/// ```
pub fn enter(image: &mut [u8], scratch: &mut [u8], v: i64, s: u32, e: u32) -> Result<(), Refusal> {
    Refusal::result(raw::enter(image, scratch, v, s, e))
}

/// Takes the value `v` on [`s`, `e`) away again, whether or not such a booking is live. Scratch and refusals are those of
/// [`enter`], and [`WithdrawalKind`](Refusal::WithdrawalKind).
///
/// An index from which all that was entered has been withdrawn, in any order, is one leaf with one entry again.
///
/// ```
/// use luwhenoka::{enter, format, instant, scratch_bytes, withdraw, Kind};
///
/// let (mut image, mut scratch) = ([0; 1_024], [0; scratch_bytes(2)]);
/// format(&mut image, Kind::Totals, 0, 24)?;
/// enter(&mut image, &mut scratch, 6, 10, 40)?;
/// withdraw(&mut image, &mut scratch, 6, 10, 40)?;
/// assert_eq!(instant(&image, 39)?.count, 0);
/// # Ok::<(), luwhenoka::Refusal>(())
/// ```
pub fn withdraw(image: &mut [u8], scratch: &mut [u8], v: i64, s: u32, e: u32) -> Result<(), Refusal> {
    Refusal::result(raw::withdraw(image, scratch, v, s, e))
}

/// Writes the index of the source into the target, in the fewest pages that have room for its runs. The target may have fewer
/// pages than the source, as many or more, and may hold anything: every byte of it is written. It lists what the source lists,
/// and further changes do to its listing what they would have done to the source's; kind, window, capacity and the number of
/// changes are the source's. Borrows the first [`scratch_bytes(n)`](scratch_bytes) bytes of the scratch, for a source of n pages;
/// they are 0 afterwards, and any beyond keep theirs.
///
/// Over a season of changes pages that are half full and free ones pile up; of a greatest or least also leaf entries that no
/// listing shows.
///
/// Refusals: of the source [`Unsound`](Refusal::Unsound) for a bad capacity, [`ImageLength`](Refusal::ImageLength),
/// [`ScratchShort`](Refusal::ScratchShort), all three with the scratch untouched, and [`Unsound`](Refusal::Unsound) if it is
/// not sound; then [`ImageLength`](Refusal::ImageLength) for a target that isn't 2 to 1,024 pages of the source's capacity, and
/// [`PagesLacking`](Refusal::PagesLacking) for one that has too few. The target then keeps every byte. As many pages as the
/// source has are always enough.
///
/// Neighbouring leaf entries of totals with the same sum and count, for which [`audit`] refuses an image, are no reason here: the
/// target is sound all the same.
///
/// The capacity is written as a number: the target of an older source, with FF there, has 24.
///
/// ```
/// use luwhenoka::{enter, format, instant, page_bytes, rebuild, scratch_bytes, withdraw, Kind, Refusal};
///
/// const PAGES: usize = 9;
/// let (mut image, mut scratch) = ([0; PAGES * page_bytes(4)], [0; scratch_bytes(PAGES)]);
/// format(&mut image, Kind::Totals, 0, 4)?;
/// for s in [10, 20, 30, 40] {
///     enter(&mut image, &mut scratch, 1, s, s + 5)?;
/// }
///
/// // Nine runs are three leaves of three entries and a root over them; with the head that is five pages.
/// let mut tight = [0; 5 * page_bytes(4)];
/// assert_eq!(rebuild(&image, &mut tight[..4 * page_bytes(4)], &mut scratch), Err(Refusal::PagesLacking));
/// rebuild(&image, &mut tight, &mut scratch)?;
/// assert_eq!(instant(&tight, 42)?.sum, 1);
/// withdraw(&mut tight, &mut scratch, 1, 40, 45)?; // it goes on where the source was
/// assert_eq!(instant(&tight, 42)?.sum, 0);
/// # Ok::<(), Refusal>(())
/// ```
pub fn rebuild(source: &[u8], target: &mut [u8], scratch: &mut [u8]) -> Result<(), Refusal> {
    Refusal::result(raw::rebuild(source, target, scratch))
}
