//! Lengths of image, scratch and output around their ends; empty buffers lent as null; lengths above 2^32.

use std::alloc::{alloc_zeroed, dealloc, Layout};

use luwhenoka::raw;
use plain::END;

use crate::calls::{Answer, Call};
use crate::comparer::Comparer;
use crate::images::{bytes_of, fresh, fresh_of, scratch_bytes, Pool};

pub fn buffer_lengths(comparer: &mut Comparer, pool: &Pool, _: usize) {
    for null in [false, true] {
        comparer.lend_null(null);
        for k in [24, 4, 14] {
            images(comparer, k);
        }
        scratches(comparer, pool);
        outputs(comparer, pool);
    }
    comparer.lend_null(false);
    above_32_bits();
}

/// Lengths around multiples of a page, those in range among them; bytes that begin like a fresh image.
fn images(comparer: &mut Comparer, k: usize) {
    let page = bytes_of(k);
    let mut lengths = vec![0, 1, 2, 39, 40, 41, page - 1, page, page + 1, 2 * page - 24];
    for n in [2, 3, 4, 5, 64, 255, 256, 257, 1_023, 1_024, 1_025, 2_048] {
        lengths.extend([page * n - 1, page * n, page * n + 1, page * n + page / 2]);
    }
    for length in lengths {
        let mut bytes = fresh_of(k, (length / page).clamp(2, 1_024), 1, 0);
        bytes.resize(length, 0xFF);
        comparer.lend(&bytes);
        for t in [0, END] {
            comparer.instant(t);
            comparer.average(t);
        }
        for (a, b) in [(0, END), (5, 5)] {
            comparer.ask(Call::Listing { a, b }, 0, 0);
            comparer.ask(Call::Listing { a, b }, 0, 16);
        }
        changes_and_audits(comparer);
        for target in [0, 39, 2 * page - 1, 2 * page, length.min(1_025 * page)] {
            comparer.ask(Call::Rebuild, 0, target);
            comparer.ask(Call::Rebuild, 128, target);
        }
        comparer.format_of(k, 1, 0);
        comparer.format_of(k, 0, 0);
    }
}

fn changes_and_audits(comparer: &mut Comparer) {
    let n = comparer.pages();
    let borrowed = scratch_bytes(n);
    for scratch in [0, 1, borrowed.saturating_sub(1), borrowed, borrowed + 1, n, n + 1] {
        comparer.ask(Call::Audit, scratch, 0);
        for (v, s, e) in [(1, 5, 9), (1, 9, 9), (1_000_001, 5, 9)] {
            comparer.ask(Call::Enter { v, s, e }, scratch, 0);
            comparer.ask(Call::Withdraw { v, s, e }, scratch, 0);
        }
    }
}

fn scratches(comparer: &mut Comparer, pool: &Pool) {
    let fresh_ones = [2, 3, 4, 8, 15, 16, 17, 63, 64, 65, 255, 256, 257, 1_023, 1_024].map(|n| fresh(n, 2, 1));
    for image in pool.all().chain(&fresh_ones) {
        comparer.lend(image);
        let n = comparer.pages();
        let borrowed = scratch_bytes(n);
        for scratch in [0, 1, borrowed - 1, borrowed, borrowed + 1, n / 8, n - 1, n, n + 1, n + 9, 5_000] {
            comparer.ask(Call::Audit, scratch, 0);
            comparer.ask(Call::Enter { v: 2, s: 7, e: END }, scratch, 0);
            comparer.ask(Call::Withdraw { v: 2, s: 7, e: END }, scratch, 0);
            comparer.ask(Call::Rebuild, scratch, image.len());
            comparer.ask(Call::Rebuild, scratch, image.len() / 2);
        }
    }
}

/// Every length of the output for a listing of some runs.
fn outputs(comparer: &mut Comparer, pool: &Pool) {
    for image in pool.small.iter().chain(&pool.other[..2]) {
        comparer.lend(image);
        for (a, b) in [(0, END), (12, 38), (7, 8)] {
            let needed = 16 * comparer.listing(a, b).runs as usize;
            for output in 0..needed + 20 {
                comparer.ask(Call::Listing { a, b }, 0, output);
            }
        }
    }
}

// ---------------------------------------------------------------- above 2^32

/// Zeros that no memory is taken for until they are written.
struct Vast {
    bytes: *mut u8,
    layout: Layout,
}

impl Vast {
    fn new(length: usize) -> Option<Vast> {
        let layout = Layout::from_size_align(length, 1).ok()?;
        let bytes = unsafe { alloc_zeroed(layout) };
        (!bytes.is_null()).then_some(Vast { bytes, layout })
    }

    fn lent(&mut self) -> &mut [u8] {
        unsafe { std::slice::from_raw_parts_mut(self.bytes, self.layout.size()) }
    }
}

impl Drop for Vast {
    fn drop(&mut self) {
        unsafe { dealloc(self.bytes, self.layout) }
    }
}

/// A length whose low 32 bits would pass is no such length, and one whose low bits would not is long enough. These are too
/// long to compare byte for byte: what is expected is said here, of the first bytes too.
fn above_32_bits() {
    let image = fresh(2, 1, 0);
    let Some(mut vast) = Vast::new((1 << 32) + 1_024) else {
        println!("no memory for lengths above 2^32: not tried");
        return;
    };
    vast.lent()[..1_024].copy_from_slice(&image);
    let refused = raw::InstantAnswer { status: 16, pages: 0, sum: 0, count: 0, start: 0, end: 0 };
    assert_eq!(raw::instant(vast.lent(), 0), refused);
    assert_eq!(raw::average(vast.lent(), 0).status, 16);
    assert_eq!(raw::listing(vast.lent(), 0, END, &mut [0; 16]).status, 16);
    assert_eq!(raw::audit(vast.lent(), &mut [0]), 16);
    // As a source; and as a target, where the scratch is cleared.
    let (mut target, mut scratch) = ([7; 1_024], [7; 2]);
    assert_eq!(raw::rebuild(vast.lent(), &mut target, &mut scratch), 16);
    assert_eq!((target, scratch), ([7; 1_024], [7; 2]));
    assert_eq!(raw::rebuild(&image, vast.lent(), &mut scratch), 16);
    assert_eq!(scratch, [0, 7]);
    assert_eq!(raw::format(vast.lent(), 2, 0, 24), 16);
    assert_eq!(raw::format(vast.lent(), 2, 0, 4), 16);
    assert_eq!(raw::format(vast.lent(), 2, 0, 5), 14);
    assert_eq!(vast.lent()[..1_024], image);
    drop(vast);

    // Of 17 pages a call borrows three bytes.
    let image = fresh(17, 1, 0);
    let mut vast = Vast::new((1 << 32) + 1).expect("as much as before");
    vast.lent()[..4].fill(7);
    assert_eq!(raw::audit(&image, vast.lent()), 0);
    assert_eq!(vast.lent()[..4], [0, 0, 0, 7]);
    let listed = raw::listing(&image, 3, END, vast.lent());
    assert_eq!(Answer { status: listed.status, ..Answer::runs(listed.runs) }, Answer::runs(1));
    assert_eq!(vast.lent()[..4], [3, 0, 0, 0]);
    let mut image = image.clone();
    assert_eq!(raw::enter(&mut image, vast.lent(), 6, 10, 40), 0);
    assert_eq!(raw::withdraw(&mut image, vast.lent(), 6, 10, 40), 0);
    vast.lent()[..4].fill(7);
    assert_eq!(raw::rebuild(&image, &mut [0; 1_024], vast.lent()), 0);
    assert_eq!(vast.lent()[..4], [0, 0, 0, 7]);
}
