//! Every rule of fitness and soundness broken once, and its edges kept: instants, listings and audit say what document
//! 01 says, and count the pages read.

use crate::support::*;
use plain::{audit, enter, instant, listing, END};

const FIT: bool = true;
const UNFIT: bool = false;

/// Height 2: leaf page 1 with 12 entries on [0, 65), leaf page 2 with 13 on [65, END), root page 3; then page 4, once
/// used and free; pages 5 and 6 never used.
fn base(kind: u32) -> Vec<u8> {
    let mut rack = Rack::new(7, kind, 0, 1);
    for i in 1..=12 {
        assert_eq!(rack.enter(1, 10 * i, 10 * i + 5), 0);
    }
    let mut image = rack.image;
    // Page 4 is given to the chain by hand.
    set_word(&mut image, 0, FIRST_FREE, 4);
    set_word(&mut image, 0, FREE_LENGTH, 1);
    set_word(&mut image, 0, HIGH_MARK, 5);
    set_word(&mut image, 4, 0, 255);
    set_word(&mut image, 4, 1, 0);
    assert!(audit_both_ways(&image));
    image
}

fn list(image: &[u8], a: u32, b: u32) -> u32 {
    let mut out = vec![5; 16 * 100];
    let answer = listing(image, a, b, &mut out);
    if answer.status != 0 {
        assert!(answer.runs == 0 && out.iter().all(|&byte| byte == 5));
    }
    answer.status
}

fn status_and_pages(image: &[u8], t: u32) -> (u32, u32) {
    let answer = instant(image, t);
    if answer.status != 0 {
        assert_eq!((answer.sum, answer.count), (0, 0));
    }
    (answer.status, answer.pages)
}

/// An image whose head alone was touched.
fn check_head(image: &[u8], fit: bool) {
    let expected = if fit { (0, 2) } else { (21, 0) };
    assert_eq!(status_and_pages(image, 0), expected);
    assert_eq!(status_and_pages(image, END - 1), expected);
    assert_eq!(list(image, 0, END), expected.0);
    assert_eq!(list(image, 70, 71), expected.0);
    audit_both_ways(image);
}

/// An image whose root was touched.
fn check_root(image: &[u8], fit: bool) {
    let expected = if fit { (0, 2) } else { (21, 1) };
    assert_eq!(status_and_pages(image, 0), expected);
    assert_eq!(status_and_pages(image, END - 1), expected);
    assert_eq!(list(image, 0, 1), expected.0);
    assert_eq!(audit_both_ways(image), fit);
}

/// An image whose page 1 was touched: only those who meet it see it (R4, R5).
fn check_left(image: &[u8], fit: bool) {
    let expected = if fit { (0, 2) } else { (21, 2) };
    for t in [0, 17, 64] {
        assert_eq!(status_and_pages(image, t), expected);
    }
    for t in [65, END - 1] {
        assert_eq!(status_and_pages(image, t), (0, 2));
    }
    assert_eq!(list(image, 0, 1), expected.0);
    assert_eq!(list(image, 64, 65), expected.0);
    assert_eq!(list(image, 64, 66), expected.0);
    assert_eq!(list(image, 0, END), expected.0);
    assert_eq!(list(image, 65, END), 0);
    assert_eq!(audit_both_ways(image), fit);
    let mut copy = image.to_vec();
    assert_eq!(enter(&mut copy, &mut [1], 1, 300, 400), if fit { 0 } else { 21 });
    assert_eq!(copy == image, !fit);
}

fn touched(kind: u32, touch: impl Fn(&mut [u8])) -> Vec<u8> {
    let mut image = base(kind);
    touch(&mut image);
    image
}

#[test]
fn head_fields() {
    let with = |field: usize, to: u32| touched(1, |image| set_word(image, 0, field, to));
    for (field, to, fit) in [
        (N, 6, UNFIT),
        (N, 8, UNFIT),
        (N, 0, UNFIT),
        (HEIGHT, 0, UNFIT),
        (HEIGHT, 11, UNFIT),
        (HEIGHT, u32::MAX, UNFIT),
        (ROOT, 0, UNFIT),
        (ROOT, 7, UNFIT),
        (ROOT, u32::MAX, UNFIT),
        (FIRST_FREE, 0, FIT),
        (FIRST_FREE, 1, FIT),
        (FIRST_FREE, 6, FIT),
        (FIRST_FREE, 7, UNFIT),
        (FIRST_FREE, u32::MAX, UNFIT),
        (FREE_LENGTH, 0, FIT),
        (FREE_LENGTH, 7, FIT),
        (FREE_LENGTH, u32::MAX, FIT),
        (HIGH_MARK, 0, UNFIT),
        (HIGH_MARK, 1, UNFIT),
        (HIGH_MARK, 2, FIT),
        (HIGH_MARK, 4, FIT),
        (HIGH_MARK, 7, FIT),
        (HIGH_MARK, 8, UNFIT),
        (HIGH_MARK, u32::MAX, UNFIT),
        (KIND, 0, UNFIT),
        (KIND, 4, UNFIT),
        (WINDOW, 1_000_000_000, FIT),
        (WINDOW, 1_000_000_001, UNFIT),
        (CHANGES, 1_000_000_000, FIT),
        (CHANGES, 1_000_000_001, UNFIT),
        (CHANGES, u32::MAX, UNFIT),
        (CAPACITY, u32::MAX, FIT),
        (CAPACITY, 24, FIT),
        (CAPACITY, 0, UNFIT),
        (CAPACITY, 23, UNFIT),
        (CAPACITY, 26, UNFIT),
        (CAPACITY, u32::MAX - 1, UNFIT),
    ] {
        check_head(&with(field, to), fit);
    }
    // "its rest is FF", behind K's field from byte 40 on
    for at in [40, 41, 300, 511] {
        check_head(&touched(1, |image| image[at] = 0xFE), UNFIT);
        check_head(&touched(1, |image| image[at] = 0), UNFIT);
    }
    // Another height or root: the head is fit, the page expected there isn't.
    let heights = (3..=10).map(|height| (HEIGHT, height));
    for (field, to) in heights.chain([(HEIGHT, 1), (ROOT, 1), (ROOT, 2), (ROOT, 4), (ROOT, 6)]) {
        let image = with(field, to);
        assert_eq!(status_and_pages(&image, 0), (21, 1));
        assert_eq!(list(&image, 0, 1), 21);
        assert!(!audit_both_ways(&image));
    }
    // Fewer changes than the pairs show.
    assert_eq!(status_and_pages(&with(CHANGES, 0), 0), (21, 2));
    assert_eq!(status_and_pages(&with(CHANGES, 1), 0), (0, 2));
}

#[test]
fn level_and_number_of_entries() {
    for level in [1, 2, 3, 255, u32::MAX] {
        check_left(&touched(1, |image| set(image, 1, LEVEL_AT, &u32::to_le_bytes(level))), UNFIT);
    }
    for level in [0, 2, 3, 255, u32::MAX] {
        check_root(&touched(1, |image| set(image, 3, LEVEL_AT, &u32::to_le_bytes(level))), UNFIT);
    }
    for entry_count in [0, 1, 11, 13, 24, 25, 26, 1 << 24, u32::MAX] {
        check_left(&touched(1, |image| set(image, 1, ENTRY_COUNT_AT, &u32::to_le_bytes(entry_count))), UNFIT);
        check_root(&touched(1, |image| set(image, 3, ENTRY_COUNT_AT, &u32::to_le_bytes(entry_count))), UNFIT);
    }
    // A page with 11 entries, otherwise in order.
    let eleven = touched(1, |image| {
        set(image, 1, ENTRY_COUNT_AT, &11u32.to_le_bytes());
        set(image, 1, start_at(11), &[0xFF; 4]);
        set(image, 1, sum_at(11), &[0xFF; 16]);
    });
    check_left(&eleven, UNFIT);
    // With 24 in order, and with 13. By document 02, (iv), neighbours have to differ, also from the first of page 2: each of the entries
    // that are added has a sum of its own.
    for entry_count in [13, 24usize] {
        let more = touched(1, |image| {
            set(image, 1, ENTRY_COUNT_AT, &(entry_count as u32).to_le_bytes());
            for i in 11..entry_count {
                set(image, 1, start_at(i), &(41 + i as u32).to_le_bytes());
                set(image, 1, sum_at(i), &(i as i64).to_le_bytes());
                set(image, 1, count_at(i), &1u64.to_le_bytes());
            }
            // The last own start was 55.
            set(image, 1, start_at(11), &56u32.to_le_bytes());
            for i in 12..entry_count {
                set(image, 1, start_at(i), &((45 + i) as u32).to_le_bytes());
            }
            if entry_count == 24 {
                // From 56 to 64 there is room for 9: move the earlier ones closer.
                for i in 1..24 {
                    set(image, 1, start_at(i), &(2 * i as u32).to_le_bytes());
                }
            }
        });
        check_left(&more, FIT);
    }
    // An inner root with one entry.
    let one = touched(1, |image| {
        set(image, 3, ENTRY_COUNT_AT, &1u32.to_le_bytes());
        set(image, 3, start_at(1), &[0xFF; 4]);
        set(image, 3, sum_at(1), &[0xFF; 16]);
    });
    check_root(&one, UNFIT);
    // A root leaf with none, and with one.
    let mut leaf = fresh(2, 1, 0);
    assert_eq!(status_and_pages(&leaf, 0), (0, 1));
    set(&mut leaf, 1, ENTRY_COUNT_AT, &0u32.to_le_bytes());
    set(&mut leaf, 1, start_at(0), &[0xFF; 4]);
    set(&mut leaf, 1, sum_at(0), &[0xFF; 16]);
    assert_eq!(status_and_pages(&leaf, 0), (21, 1));
    assert!(!audit_both_ways(&leaf));
}

#[test]
fn starts() {
    let start = |page: u32, i: usize, to: u32| touched(1, |image| set(image, page, start_at(i), &to.to_le_bytes()));
    for (i, to, fit) in [
        (0, 1, UNFIT),
        (1, 0, UNFIT),
        (1, 1, FIT),
        (1, 14, FIT),
        (1, 15, UNFIT),
        (1, 16, UNFIT),
        (11, 55, UNFIT),
        (11, 56, FIT),
        (11, 64, FIT),
        (11, 65, UNFIT),
        (11, u32::MAX, UNFIT),
        (5, u32::MAX, UNFIT),
    ] {
        check_left(&start(1, i, to), fit);
    }
    // The root's first start is 0, its last lies below END; a child's first start is its entry's.
    check_root(&start(3, 0, 1), UNFIT);
    check_root(&start(3, 1, 0), UNFIT);
    check_root(&start(3, 1, END), UNFIT);
    let image = start(3, 1, 66);
    assert_eq!(status_and_pages(&image, 65), (0, 2));
    assert_eq!(status_and_pages(&image, 66), (21, 2));
    assert_eq!(list(&image, 0, 66), 0);
    assert_eq!(list(&image, 0, 67), 21);
    // 60 is then the end of page 1, whose last start it is.
    let image = start(3, 1, 60);
    assert_eq!(status_and_pages(&image, 59), (21, 2));
    // A root leaf's last start.
    for (to, status) in [(END - 1, 0), (END, 21)] {
        let mut rack = Rack::new(2, 1, 0, 1);
        assert_eq!(rack.enter(1, 50, END), 0);
        set(&mut rack.image, 1, start_at(1), &u32::to_le_bytes(to));
        assert_eq!(instant(&rack.image, 7).status, status);
        assert_eq!(audit_both_ways(&rack.image), status == 0);
    }
}

#[test]
fn unused_bytes() {
    // The 24 bytes after the number, the places of starts past it, the places of entries past it.
    for at in [8, 20, 31, start_at(12), 127, sum_at(12), 400, 511] {
        for byte in [0, 0x7F, 0xFE] {
            check_left(&touched(1, |image| image[512 + at] = byte), UNFIT);
        }
    }
    for at in [8, 31, start_at(2), 127, sum_at(2), 511] {
        check_root(&touched(1, |image| image[3 * 512 + at] = 0), UNFIT);
    }
}

#[test]
fn children() {
    let child = |page: u32, i: usize, to: u32| touched(1, |image| set(image, page, child_at(i), &to.to_le_bytes()));
    for to in [1, 2, 6, u32::MAX] {
        check_left(&child(1, 4, to), UNFIT);
    }
    for to in [0, 7, 8, u32::MAX] {
        check_root(&child(3, 0, to), UNFIT);
        check_root(&child(3, 1, to), UNFIT);
    }
    // In range, but not the page that is fit there: itself, the other leaf, a free and a never used page.
    for to in [2, 3, 4, 5, 6] {
        let image = child(3, 0, to);
        assert_eq!(status_and_pages(&image, 0), (21, 2));
        assert_eq!(status_and_pages(&image, 65), (0, 2));
        assert!(!audit_both_ways(&image));
    }
}

/// "for kind 1 the absolute sums of an entry and of those above it on its way add to at most 1,000,000 × changes, absolute
/// counts to at most changes": 12 changes here (R3).
#[test]
fn bounds_of_totals() {
    let pair = |above: (i64, i32), own: (i64, i32)| {
        touched(1, |image| {
            set(image, 3, sum_at(0), &above.0.to_le_bytes());
            set(image, 3, count_at(0), &above.1.to_le_bytes());
            set(image, 1, sum_at(7), &own.0.to_le_bytes());
            set(image, 1, count_at(7), &own.1.to_le_bytes());
        })
    };
    let most = 12_000_000;
    for sign in [1, -1] {
        for other in [1, -1] {
            check_left(&pair((0, 0), (sign * most, 0)), FIT);
            check_left(&pair((0, 0), (sign * (most + 1), 0)), UNFIT);
            check_left(&pair((sign * 5_000_000, 0), (other * 7_000_000, 0)), FIT);
            check_left(&pair((sign * 5_000_000, 0), (other * 7_000_001, 0)), UNFIT);
            check_left(&pair((0, 0), (0, sign as i32 * 12)), FIT);
            check_left(&pair((0, 0), (0, sign as i32 * 13)), UNFIT);
            check_left(&pair((0, sign as i32 * 5), (0, other as i32 * 7)), FIT);
            check_left(&pair((0, sign as i32 * 5), (0, other as i32 * 8)), UNFIT);
            check_root(&pair((sign * (most + 1), 0), (0, 0)), UNFIT);
            check_root(&pair((0, sign as i32 * 13), (0, 0)), UNFIT);
        }
        // All above used up: the (1, 1) entries of page 1 are too much.
        check_left(&pair((sign * most, 0), (0, 0)), UNFIT);
        check_left(&pair((0, sign as i32 * 12), (0, 0)), UNFIT);
        check_left(&pair((sign * (most - 1), sign as i32 * 11), (1, 1)), FIT);
    }
    for sum in [i64::MIN, i64::MIN + 1, i64::MAX] {
        check_left(&pair((0, 0), (sum, 0)), UNFIT);
        check_root(&pair((sum, 0), (0, 0)), UNFIT);
    }
    for count in [i32::MIN, i32::MIN + 1, i32::MAX] {
        check_left(&pair((0, 0), (0, count)), UNFIT);
        check_root(&pair((0, count), (0, 0)), UNFIT);
    }
}

/// The same bounds over three levels: all entries above on the way count.
#[test]
fn bounds_of_totals_over_three_levels() {
    let mut rack = Rack::new(64, 1, 0, 1);
    rack.by_step = false;
    let mut changes = 0;
    while height(&rack.image) < 3 {
        changes += 1;
        assert_eq!(rack.enter(1, 10 * changes, 10 * changes + 5), 0);
    }
    let way = Node::of(&rack.image).way(0);
    let most_sum = 1_000_000 * i64::from(changes);
    let most_count = changes as i32;
    // The rest that root, inner page and leaf leave of the bound, and whether that is enough for the leaf's 2.
    for (at_root, at_inner, pages) in [(5, 3, 0), (4, 2, 0), (4, 3, 3), (5, 4, 3), (2, 0, 0), (1, 0, 3), (2, 1, 3)] {
        for signs in 0..8 {
            let sign = |bit: u32| if signs & 1 << bit == 0 { 1 } else { -1 };
            for sums in [true, false] {
                let mut image = rack.image.clone();
                if sums {
                    set(&mut image, way[0], sum_at(0), &(sign(0) * (most_sum - at_root)).to_le_bytes());
                    set(&mut image, way[1], sum_at(0), &(sign(1) * at_inner).to_le_bytes());
                    set(&mut image, way[2], sum_at(0), &(sign(2) * 2).to_le_bytes());
                } else {
                    set(
                        &mut image,
                        way[0],
                        count_at(0),
                        &(sign(0) as i32 * (most_count - at_root as i32)).to_le_bytes(),
                    );
                    set(&mut image, way[1], count_at(0), &((sign(1) * at_inner) as i32).to_le_bytes());
                    set(&mut image, way[2], count_at(0), &(sign(2) as i32 * 2).to_le_bytes());
                }
                let expected = if pages == 0 { (0, 3) } else { (21, pages) };
                assert_eq!(status_and_pages(&image, 0), expected);
                assert_eq!(audit_both_ways(&image), pages == 0);
            }
        }
    }
    // At the root alone and at the inner page alone.
    let mut image = rack.image.clone();
    set(&mut image, way[0], sum_at(0), &(most_sum + 1).to_le_bytes());
    assert_eq!(status_and_pages(&image, 0), (21, 1));
    set(&mut image, way[0], sum_at(0), &(most_sum - 4).to_le_bytes());
    set(&mut image, way[1], sum_at(0), &5i64.to_le_bytes());
    assert_eq!(status_and_pages(&image, 0), (21, 2));
}

/// "kinds 2 and 3 have (0, 0) or a value with 1"
#[test]
fn pairs_of_greatest_and_least() {
    for kind in [2, 3] {
        for (sum, count, fit) in [
            (0, 0, FIT),
            (0, 1, FIT),
            (1_000_000, 1, FIT),
            (-1_000_000, 1, FIT),
            (1_000_001, 1, UNFIT),
            (-1_000_001, 1, UNFIT),
            (i64::MIN, 1, UNFIT),
            (i64::MAX, 1, UNFIT),
            (1, 0, UNFIT),
            (-1, 0, UNFIT),
            (0, 2, UNFIT),
            (1, 2, UNFIT),
            (0, -1, UNFIT),
            (5, i32::MIN, UNFIT),
        ] {
            let at = |page: u32, i: usize| {
                touched(kind, |image| {
                    set(image, page, sum_at(i), &i64::to_le_bytes(sum));
                    set(image, page, count_at(i), &i32::to_le_bytes(count));
                })
            };
            check_left(&at(1, 3), fit);
            check_root(&at(3, 1), fit);
        }
        // No bound by changes.
        check_head(&touched(kind, |image| set_word(image, 0, CHANGES, 0)), FIT);
    }
}

/// Fit pages all around, and yet not sound: only audit and changes turn it back.
#[test]
fn chain_and_high_mark() {
    let base_image = base(1);
    let unsound = |touch: &dyn Fn(&mut [u8])| {
        let mut image = base_image.clone();
        touch(&mut image);
        assert_eq!(status_and_pages(&image, 0), (0, 2));
        assert_eq!(status_and_pages(&image, 99), (0, 2));
        assert_eq!(list(&image, 0, END), 0);
        assert!(!audit_both_ways(&image));
        let before = image.clone();
        let mut scratch = [9; 3];
        assert_eq!(enter(&mut image, &mut scratch, 1, 10, 15), 21);
        assert!(image == before && scratch == [0, 9, 9]);
    };
    // The chain's length.
    for length in [0, 2, 3, 7, u32::MAX] {
        unsound(&|image| set_word(image, 0, FREE_LENGTH, length));
    }
    // Its first page: none, a tree page, a never used page.
    for first in [0, 1, 2, 3, 5, 6] {
        unsound(&|image| set_word(image, 0, FIRST_FREE, first));
    }
    unsound(&|image| {
        set_word(image, 0, FIRST_FREE, 0);
        set_word(image, 0, FREE_LENGTH, 0);
    });
    // Its next page: itself, a tree page, the head by no number, a never used page, beyond the image.
    for next in [1, 2, 3, 4, 5, 6, 7, 8, u32::MAX] {
        for length in [1, 2, 3, 6] {
            unsound(&|image| {
                set_word(image, 4, 1, next);
                set_word(image, 0, FREE_LENGTH, length);
            });
        }
    }
    // A free page that doesn't read as one.
    for level in [0, 254, 256, u32::MAX] {
        unsound(&|image| set_word(image, 4, 0, level));
    }
    for at in [8, 100, 511] {
        unsound(&|image| image[4 * 512 + at] = 0);
    }
    // The high mark.
    for mark in [2, 3, 4, 6, 7] {
        unsound(&|image| set_word(image, 0, HIGH_MARK, mark));
    }
    // A never used page with something in it.
    for page in [5, 6] {
        for at in [0, 100, 511] {
            unsound(&|image| image[page * 512 + at] = 0);
        }
        unsound(&|image| {
            let leaf = image[512..1_024].to_vec();
            image[page * 512..page * 512 + 512].copy_from_slice(&leaf);
        });
    }
    // Two free pages in a ring, each way.
    unsound(&|image| {
        set_word(image, 0, HIGH_MARK, 6);
        set_word(image, 0, FREE_LENGTH, 2);
        set_word(image, 5, 0, 255);
        set_word(image, 5, 1, 4);
        set_word(image, 4, 1, 5);
    });
    // Two free pages in order are sound, either way round.
    for (first, second) in [(4, 5), (5, 4)] {
        let mut image = base_image.clone();
        set_word(&mut image, 0, HIGH_MARK, 6);
        set_word(&mut image, 0, FREE_LENGTH, 2);
        set_word(&mut image, 0, FIRST_FREE, first);
        set_word(&mut image, first, 0, 255);
        set_word(&mut image, first, 1, second);
        set_word(&mut image, second, 0, 255);
        set_word(&mut image, second, 1, 0);
        assert!(audit_both_ways(&image));
        assert_eq!(audit(&image, &mut [3]), 0);
    }
}

/// Hostile images with pages that lead back to themselves: every call returns.
#[test]
fn cycles() {
    // Four pages of level 3, 2, 1 whose children are themselves or each other, starts as they like.
    let mut random = Xorshift::new(77);
    for round in 0..2_000u32 {
        let n = 8;
        let mut image = fresh(n, 1, 0);
        set_word(&mut image, 0, CHANGES, 1_000_000_000);
        set_word(&mut image, 0, HEIGHT, 1 + round % 4);
        set_word(&mut image, 0, HIGH_MARK, n as u32);
        set_word(&mut image, 0, ROOT, 1 + random.below(7) as u32);
        set_word(&mut image, 0, FIRST_FREE, random.below(8) as u32);
        set_word(&mut image, 0, FREE_LENGTH, random.below(9) as u32);
        for page in 1..n as u32 {
            if random.one_in(4) {
                set(&mut image, page, 0, &[0xFF; 512]);
                set_word(&mut image, page, 0, 255);
                set_word(&mut image, page, 1, random.below(8) as u32);
                continue;
            }
            let entry_count = random.pick(&[2, 12, 24, 24]);
            set(&mut image, page, LEVEL_AT, &(random.below(4) as u32).to_le_bytes());
            set(&mut image, page, ENTRY_COUNT_AT, &(entry_count as u32).to_le_bytes());
            for i in 0..entry_count {
                set(&mut image, page, start_at(i), &(i as u32).to_le_bytes());
                set(&mut image, page, sum_at(i), &[0; 16]);
                let child = random.below(8) as u32;
                set(&mut image, page, child_at(i), &child.to_le_bytes());
            }
        }
        audit_both_ways(&image);
        for t in [0, 1, 11, 23, END - 1] {
            assert!(instant(&image, t).pages <= 4);
        }
        let mut out = vec![0; 16 * 200];
        listing(&image, 0, END, &mut out);
        listing(&image, 3, 9, &mut out);
    }
}
