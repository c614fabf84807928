//! Document 02, request (vi): "Audit, changes and the rebuild shall borrow n/8 bytes, rounded up, and give the same answers for every
//! image; those bytes are 0 afterwards. 17 now means shorter than that."
//!
//! For the rest document 01 stands: "any beyond keep theirs", also where n bytes are lent, and "scratch is untouched at 16 and 17, also
//! at 11 and 13"; by (xi) also where K is bad.

use crate::support::*;
use plain::making::fresh_without_field;
use plain::{audit, enter, rebuild, scratch_bytes, withdraw, END};

/// The calls that borrow a scratch.
#[derive(Clone, Copy, Debug)]
enum Call {
    Audit,
    Enter(i64, u32, u32),
    Withdraw(i64, u32, u32),
    /// Into as many pages as the image has, by the bytes of its K.
    Rebuild,
}

const CALLS: [Call; 4] = [Call::Audit, Call::Enter(1, 7, 9), Call::Withdraw(1, 7, 9), Call::Rebuild];

/// Those that may write the image.
const CHANGES_OF_IMAGE: [Call; 2] = [CALLS[1], CALLS[2]];

fn changes(call: Call) -> bool {
    matches!(call, Call::Enter(..) | Call::Withdraw(..))
}

fn ask(call: Call, image: &mut [u8], scratch: &mut [u8]) -> u32 {
    match call {
        Call::Audit => audit(image, scratch),
        Call::Enter(v, s, e) => enter(image, scratch, v, s, e),
        Call::Withdraw(v, s, e) => withdraw(image, scratch, v, s, e),
        Call::Rebuild => rebuild(image, &mut vec![0x6B; image.len()], scratch),
    }
}

/// Bytes to lend; none is 0.
fn lent(length: usize) -> Vec<u8> {
    (0..length).map(|i| 1 + (i % 255) as u8).collect()
}

/// With a scratch of this length the call gives this status, and every byte is as it was.
fn keeps(image: &[u8], call: Call, length: usize, status: u32) {
    let (mut copy, mut scratch) = (image.to_vec(), lent(length));
    assert_eq!(ask(call, &mut copy, &mut scratch), status, "{call:?} with a scratch of {length}");
    assert!(scratch == lent(length) && copy == image);
}

/// With scratches that are long enough the call gives this status and leaves the same image each time, that of before unless it is a
/// change and accepted; `borrowed` bytes are 0 afterwards, and all beyond are as they were.
fn clears(image: &[u8], call: Call, borrowed: usize, status: u32) {
    let n = pages_of(image);
    let mut left: Option<Vec<u8>> = None;
    for length in [borrowed, borrowed + 1, n - 1, n, n + 9] {
        let (mut copy, mut scratch) = (image.to_vec(), lent(length));
        assert_eq!(ask(call, &mut copy, &mut scratch), status, "{call:?} with a scratch of {length}");
        assert!(is_cleared(&scratch, &lent(length), borrowed), "{call:?} leaves {scratch:?} for {n} pages");
        assert!((copy != image) == (status == 0 && changes(call)));
        assert!(left.is_none_or(|left| left == copy));
        left = Some(copy);
    }
}

// ---------------------------------------------------------------- how many bytes

/// "The small controller can spare 128 bytes, and audit borrows 1,024."
#[test]
fn numbers_of_bytes() {
    for (n, bytes) in
        [(2, 1), (3, 1), (4, 1), (5, 1), (6, 1), (7, 1), (8, 1), (9, 2), (16, 2), (17, 3), (1_023, 128), (1_024, 128)]
    {
        assert_eq!(scratch_bytes(n), bytes);
        for k in [4, 24] {
            let image = fresh_of(k, n as usize, 1, 0);
            assert_eq!(borrowed_by(&image), bytes);
            for call in CALLS {
                keeps(&image, call, bytes - 1, 17);
                clears(&image, call, bytes, 0);
            }
        }
    }
}

/// Every number of pages: a bit for each page is enough, and a byte less isn't.
#[test]
fn every_number_of_pages() {
    let of_document_01 = [2, 7, 8, 9, 63, 64, 65, 1_000].map(|n| fresh(n, 1, 0));
    let without_field = [2, 8, 9, 100].map(|n| fresh_without_field(n, 1, 0));
    let small = (2..=1_024).map(|n| fresh_of(4, n, 1, 0));
    let mut images = 0;
    for image in small.chain(of_document_01).chain(without_field) {
        let borrowed = borrowed_by(&image);
        assert!(8 * borrowed >= pages_of(&image) && 8 * (borrowed - 1) < pages_of(&image));
        assert_eq!(scratch_bytes(pages_of(&image) as u32), borrowed);
        for call in CALLS {
            keeps(&image, call, 0, 17);
            keeps(&image, call, borrowed - 1, 17);
            clears(&image, call, borrowed, 0);
        }
        images += 1;
    }
    report(&format!("scratch: {images} numbers of pages"));
}

// ---------------------------------------------------------------- each status

/// K and n of the images on which every status is tried, and the bytes that they borrow.
const SIZES: [(usize, usize, usize); 9] =
    [(4, 2, 1), (4, 3, 1), (4, 8, 1), (4, 9, 2), (4, 16, 2), (4, 17, 3), (4, 40, 5), (24, 9, 2), (10, 25, 4)];

/// Filled from the late end on until 24, so that two cuts in its first entry lack a page.
fn filled(k: usize, n: usize, kind: u32) -> Vec<u8> {
    let mut image = fresh_of(k, n, kind, 0);
    let mut scratch = vec![0; borrowed_by(&image)];
    let bookings = (2..10_000).rev().find(|i| enter(&mut image, &mut scratch, 1, 10 * i, 10 * i + 5) == 24);
    assert!(bookings.is_some());
    image
}

/// "those bytes are 0 afterwards": after 0, 21, 22, 23 and 24.
#[test]
fn statuses_that_clear() {
    for (k, n, borrowed) in SIZES {
        let totals = fresh_of(k, n, 1, 0);
        let mut full_of_changes = totals.clone();
        set_word(&mut full_of_changes, 0, CHANGES, 1_000_000_000);
        for call in CALLS {
            clears(&totals, call, borrowed, 0);
            for image in unsound(&totals) {
                clears(&image, call, borrowed, 21);
            }
        }
        for call in CHANGES_OF_IMAGE {
            clears(&full_of_changes, call, borrowed, 23);
            clears(&filled(k, n, 1), call, borrowed, 24);
        }
        clears(&full_of_changes, Call::Rebuild, borrowed, 0);
        for kind in [2, 3] {
            clears(&fresh_of(k, n, kind, 0), CALLS[2], borrowed, 22);
            clears(&filled(k, n, kind), CALLS[1], borrowed, 24);
        }
    }
}

/// Images that aren't sound, by the head or by a page; the K and the length are in order. The head's n isn't what counts.
fn unsound(image: &[u8]) -> Vec<Vec<u8>> {
    let n = pages_of(image) as u32;
    let touched = [(0, KIND, 0), (0, N, n + 8), (0, N, 1), (0, HEIGHT, 2), (1, 0, 1), (1, 1, 25), (n - 1, 7, 0)];
    touched
        .map(|(page, field, to)| {
            let mut image = image.to_vec();
            set_word(&mut image, page, field, to);
            image
        })
        .to_vec()
}

/// "scratch is untouched at 16 and 17, also at 11 and 13", and where K is bad; whatever else is wrong behind them in the order.
#[test]
fn statuses_that_keep() {
    let refused = [(1, 9, 9), (1, END, 0), (1_000_001, 7, 9), (-1_000_001, 7, 9)];
    for (k, n, borrowed) in SIZES {
        let sound = fresh_of(k, n, 1, 0);
        for image in unsound(&sound).iter().chain([&sound, &filled(k, n, 2)]) {
            for length in [borrowed, borrowed + 1, n, n + 9] {
                for (v, s, e) in refused {
                    let status = if s >= e { 11 } else { 13 };
                    keeps(image, Call::Enter(v, s, e), length, status);
                    keeps(image, Call::Withdraw(v, s, e), length, status);
                }
            }
            for call in CALLS.into_iter().chain(refused.map(|(v, s, e)| Call::Enter(v, s, e))) {
                (0..borrowed).for_each(|length| keeps(image, call, length, 17));
                judged_ahead(image, call);
            }
        }
    }
}

/// 16 and a bad K's 21, with scratches that are long enough and with others.
fn judged_ahead(image: &[u8], call: Call) {
    let mut bad_capacity = image.to_vec();
    set_word(&mut bad_capacity, 0, CAPACITY, capacity(image) as u32 + 1);
    for length in [0, borrowed_by(image) - 1, borrowed_by(image), pages_of(image), pages_of(image) + 9] {
        keeps(&image[..image.len() - 1], call, length, 16);
        keeps(&image[..39], call, length, 16);
        keeps(&bad_capacity, call, length, 21);
        keeps(&bad_capacity[..bad_capacity.len() - 1], call, length, 21);
    }
}

// ---------------------------------------------------------------- n by the length and K

/// 21 pages of one K have the length of another number of pages of another K; the K that the image names decides.
#[test]
fn one_length_of_several_capacities() {
    let of_10_752 = [(24, 21, 3), (8, 56, 7), (4, 96, 12)];
    let of_2_352 = [(4, 21, 3), (18, 6, 1)];
    let of_4_032 = [(8, 21, 3), (4, 36, 5)];
    for (length, sizes) in [(10_752, &of_10_752[..]), (2_352, &of_2_352[..]), (4_032, &of_4_032[..])] {
        for (k, n, borrowed) in sizes.iter().copied() {
            let image = fresh_of(k, n, 1, 0);
            assert_eq!(image.len(), length);
            for call in CALLS {
                keeps(&image, call, borrowed - 1, 17);
                clears(&image, call, borrowed, 0);
            }
            // The head has the first's n and pages, and the field names another K: it isn't sound, and is judged by that K.
            for (other, _, borrowed) in sizes.iter().copied().filter(|(other, _, _)| *other != k) {
                let mut image = image.clone();
                set_word(&mut image, 0, CAPACITY, other as u32);
                for call in CALLS {
                    keeps(&image, call, borrowed - 1, 17);
                    clears(&image, call, borrowed, 21);
                }
            }
        }
    }
}

// ---------------------------------------------------------------- the same answers

/// "give the same answers for every image": whatever the scratch's length and content, on sound images and on damaged ones.
#[test]
fn the_same_answers() {
    let mut random = Xorshift::new(62);
    let mut by_status = [0; 25];
    for round in 0..6_000 {
        let (k, n, _) = random.pick(&SIZES);
        let mut image = booked(k, n, 1 + round % 3, &mut random);
        for _ in 0..random.below(3) {
            let at = random.below(image.len() as u64) as usize;
            image[at] = random.pick(&[0, 1, 0xFF, image[at] ^ 1]);
        }
        if judged(&image) == 0 {
            let s = random.below(120) as u32;
            for call in [Call::Audit, Call::Enter(3, s, s + 9), Call::Withdraw(3, s, s + 9), Call::Rebuild] {
                by_status[the_same_answer(&image, call, &mut random) as usize] += 1;
            }
        }
    }
    assert!([0, 21, 22, 24].iter().all(|status| by_status[*status] > 100));
    report(&format!("scratch: the same answers, by status {by_status:?}"));
}

/// Some bookings of 3, so that withdrawals heal.
fn booked(k: usize, n: usize, kind: u32, random: &mut Xorshift) -> Vec<u8> {
    let mut image = fresh_of(k, n, kind, 0);
    let mut scratch = vec![0; borrowed_by(&image)];
    for _ in 0..random.below(12) {
        let s = random.below(120) as u32;
        enter(&mut image, &mut scratch, 3, s, s + 9);
    }
    image
}

fn the_same_answer(image: &[u8], call: Call, random: &mut Xorshift) -> u32 {
    let (n, borrowed) = (pages_of(image), borrowed_by(image));
    let mut answers = Vec::new();
    for length in [borrowed, borrowed, borrowed + 1, n - 1, n, n + 9] {
        let lent = random.bytes(length);
        let (mut copy, mut scratch) = (image.to_vec(), lent.clone());
        let status = ask(call, &mut copy, &mut scratch);
        assert!(is_cleared(&scratch, &lent, borrowed));
        answers.push((status, copy));
    }
    assert!(answers.windows(2).all(|two| two[0] == two[1]), "{call:?} goes by its scratch");
    answers[0].0
}
