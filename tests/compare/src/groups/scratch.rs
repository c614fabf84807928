//! Document 02, (vi): "Audit, changes and the rebuild shall borrow n/8 bytes, rounded up, and give the same answers for every image;
//! those bytes are 0 afterwards. 17 now means shorter than that."
//!
//! Each call is made on the same image with scratches of several lengths and any content: one that is long enough decides neither the
//! status nor a byte of the image that is left, nor of a rebuild's target.

use crate::asking::change;
use crate::calls::{Answer, Call};
use crate::comparer::Comparer;
use crate::groups::damage::drawn;
use crate::images::{
    enter_in_order, fresh_of, instant_of, is_turned_back, pages_of, scratch_bytes, Pool, CAPACITIES, IMAGES,
};

/// Numbers of pages on both sides of a byte's end.
const SIZES: [usize; 9] = [8, 9, 16, 17, 24, 25, 127, 128, 129];

/// The pool's images, then some of these sizes for each K.
pub const PARTS: usize = IMAGES + CAPACITIES.len();

pub fn scratch(comparer: &mut Comparer, pool: &Pool, part: usize) {
    let part = part % PARTS;
    if part < IMAGES {
        rounds(comparer, pool.image(part));
        return;
    }
    for (i, n) in SIZES.into_iter().enumerate() {
        let k = CAPACITIES[part - IMAGES];
        let mut image = fresh_of(k, n, 1 + i as u32 % 3, 0);
        enter_in_order(&mut image, (n / 4 * k / 4) as u32);
        rounds(comparer, &image);
    }
}

/// A third of the rounds goes to the image as it is, the others to it with one field damaged, or two.
fn rounds(comparer: &mut Comparer, whole: &[u8]) {
    let rounds = if whole.len() > 100_000 { 9 } else { 45 };
    for round in 0..rounds {
        let mut image = whole.to_vec();
        for _ in 0..round % 3 {
            let damage = drawn(comparer, whole);
            image[damage.at..][..damage.bytes.len()].copy_from_slice(&damage.bytes);
        }
        alike(comparer, &image, Call::Audit);
        alike(comparer, &image, Call::Rebuild);
        for withdrawal in [false, true] {
            let call = any_change(comparer, whole, withdrawal);
            alike(comparer, &image, call);
        }
    }
}

/// At a start of the image mostly; some have a span or a value that is refused.
fn any_change(comparer: &mut Comparer, image: &[u8], withdrawal: bool) -> Call {
    let random = &mut comparer.random;
    let page = random.below(pages_of(image));
    let s = instant_of(image, page, random);
    let e = if random.one_in(9) { s } else { s.saturating_add(1 + random.below(200) as u32) };
    let v = if random.one_in(9) { 1_000_001 } else { random.between(-1_000_000, 1_000_000) };
    change(withdrawal, v, s, e)
}

/// The call with scratches that are long enough, and with shorter ones: 17 unless the image is turned back ahead of it.
fn alike(comparer: &mut Comparer, image: &[u8], call: Call) {
    let n = pages_of(image);
    let borrowed = scratch_bytes(n);
    let (status, left) = done(comparer, image, call, borrowed);
    for length in [borrowed + 1, n.saturating_sub(1), n, n + 9] {
        let (again, left_again) = done(comparer, image, call, length);
        assert_eq!(again, status, "with {length} bytes of scratch instead of {borrowed}");
        assert!(left_again == left, "with {length} bytes of scratch instead of {borrowed} another image is left");
    }
    comparer.lend(image);
    let short = if is_turned_back(image) { status } else { 17 };
    for length in [0, borrowed.saturating_sub(1)] {
        comparer.expect(call, length, target_of(image, call), Answer::status(short));
    }
}

/// The status, and the image that is left; of an accepted rebuild the target that is, of a refused one its source.
fn done(comparer: &mut Comparer, image: &[u8], call: Call, length: usize) -> (u32, Vec<u8>) {
    comparer.lend(image);
    let status = comparer.ask(call, length, target_of(image, call)).status;
    let left = if call == Call::Rebuild && status == 0 { comparer.output() } else { comparer.image() };
    (status, left.to_vec())
}

/// The length of the target: as many pages as the source has.
fn target_of(image: &[u8], call: Call) -> usize {
    if call == Call::Rebuild {
        image.len()
    } else {
        0
    }
}
