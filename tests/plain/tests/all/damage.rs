//! Damaged images: every call returns, audit by the definition equals the counting shortcut, nobody sees a page that he
//! doesn't meet, and changes are turned back exactly where the image isn't sound.

use crate::support::*;
use plain::{average, enter, instant, listing, withdraw, END};

#[derive(Default)]
struct Seen {
    images: u64,
    sound: u64,
    calls: u64,
    instants_refused: u64,
    listings_refused: u64,
}

impl Seen {
    fn report(&self, name: &str) {
        report(&format!(
            "damage, {name}: {} images ({} still sound), {} calls, {} instants and {} listings refused with 21",
            self.images, self.sound, self.calls, self.instants_refused, self.listings_refused
        ));
    }
}

/// A few small images, each with what it is.
fn small_images() -> Vec<(&'static str, Vec<u8>)> {
    let mut images = vec![("fresh", fresh(2, 1, 0)), ("fresh, kind 3", fresh(3, 3, 9))];

    let mut rack = Rack::new(2, 1, 4, 1);
    for i in 1..=9 {
        assert_eq!(rack.enter(i64::from(i) - 5, 10 * i, 10 * i + 15), 0);
    }
    images.push(("height 1", rack.image));

    for kind in 1..=3 {
        let mut rack = Rack::new(7, kind, 0, 2);
        for i in 1..=18 {
            assert_eq!(rack.enter(1 + i64::from(i % 3), 10 * i, 10 * i + 5), 0);
        }
        assert_eq!(rack.enter(5, 0, 65), 0);
        assert_eq!(rack.enter(-3, 20, END), 0);
        assert_eq!(height(&rack.image), 2);
        images.push(("height 2", rack.image));
    }

    // A chain of two, the pages between in use.
    let mut rack = Rack::new(9, 1, 0, 3);
    for i in 1..=30 {
        assert_eq!(rack.enter(1, 10 * i, 10 * i + 5), 0);
    }
    for i in 1..=12 {
        assert_eq!(rack.withdraw(1, 10 * i, 10 * i + 5), 0);
    }
    assert_eq!(height(&rack.image), 2);
    assert!(word(&rack.image, 0, FREE_LENGTH) >= 2);
    images.push(("height 2 with a chain", rack.image));
    images
}

fn height_3_with_chain() -> Vec<u8> {
    let mut rack = Rack::new(44, 1, 0, 4);
    rack.by_step = false;
    for i in 1..=220 {
        assert_eq!(rack.enter(1, 10 * i, 10 * i + 5), 0);
    }
    for i in 1..=40 {
        assert_eq!(rack.withdraw(1, 10 * i, 10 * i + 5), 0);
    }
    assert_eq!(rack.enter(9, 300, 1_900), 0);
    assert_eq!(height(&rack.image), 3);
    assert!(word(&rack.image, 0, FREE_LENGTH) >= 2);
    rack.image
}

/// Every call on a damaged image. `met` tells, of the undamaged image, who meets the damaged pages.
fn check_damaged(image: &[u8], whole: &[u8], damaged: &[u32], tree: &Node, seen: &mut Seen) {
    seen.images += 1;
    let sound = audit_both_ways(image);
    seen.sound += u64::from(sound);
    seen.calls += 1;
    if judged(image) != 0 {
        check_turned_back(image, seen);
        return;
    }

    for t in [0, 9, 64, 65, 130, 1_000, END - 1] {
        let answer = instant(image, t);
        assert!(answer.status == 0 || answer.status == 21);
        assert!(answer.pages <= 10);
        if sound {
            assert_eq!(answer.status, 0, "an instant on a sound image is answered");
        }
        if answer.status == 0 {
            assert_eq!((answer.start, answer.end), leaf_entry_at(image, t));
        }
        let way = tree.way(t);
        if !damaged.contains(&0) && !way.iter().any(|page| damaged.contains(page)) {
            assert_eq!(answer, instant(whole, t), "a page that isn't met doesn't matter");
        }
        if answer.status == 21 {
            assert_eq!(answer, refused(21, answer.pages));
            seen.instants_refused += 1;
            if damaged.contains(&0) {
                assert!(answer.pages <= 10);
            } else {
                // The first page that isn't the old one, or one below it.
                let first = way.iter().position(|page| damaged.contains(page)).unwrap();
                assert!(answer.pages as usize > first);
            }
        }
        let (status, hundredths) = average(image, t);
        assert_eq!(status, answer.status);
        assert!(status == 0 || hundredths.is_none());
        seen.calls += 2;
    }
    assert_eq!(instant(image, END).status, 12);

    for (a, b) in [(0, END), (0, 65), (65, 70), (64, 66), (400, END), (END - 1, END)] {
        let mut out = vec![0x5A; 24 * 16 * image.len() / 512];
        let answer = listing(image, a, b, &mut out);
        assert!(answer.status == 0 || answer.status == 21);
        if sound {
            assert_eq!(answer.status, 0);
        }
        if answer.status == 21 {
            assert!(answer.runs == 0 && out.iter().all(|&byte| byte == 0x5A));
            seen.listings_refused += 1;
        }
        let met = tree.met_by_listing(a, b, END);
        if !damaged.contains(&0) && !met.iter().any(|page| damaged.contains(page)) {
            let mut old = vec![0x5A; out.len()];
            assert_eq!(answer, listing(whole, a, b, &mut old));
            assert!(out == old);
        }
        seen.calls += 1;
    }
}

/// Every call on an image whose K is bad, or whose length its K doesn't allow: turned back ahead of everything else.
fn check_turned_back(image: &[u8], seen: &mut Seen) {
    for t in [0, 64, END] {
        assert_eq!(instant(image, t), refused(judged(image), 0));
        assert_eq!(average(image, t), (judged(image), None));
        let mut out = [0x5A; 64];
        assert_eq!(listing(image, t, END, &mut out), plain::Listing { status: judged(image), runs: 0 });
        assert!(out == [0x5A; 64]);
        seen.calls += 3;
    }
}

/// A change on a damaged image: 21 exactly where audit says so, else a sound image again.
fn change_damaged(image: &[u8], sound: bool, seen: &mut Seen) {
    for withdrawal in [false, true] {
        let mut copy = image.to_vec();
        let lent = vec![2; borrowed_by(image) + 1];
        let mut scratch = lent.clone();
        let status = if withdrawal {
            withdraw(&mut copy, &mut scratch, 1, 40, 45)
        } else {
            enter(&mut copy, &mut scratch, 1_000_000, 33, 137)
        };
        seen.calls += 1;
        if judged(image) != 0 {
            assert!(status == judged(image) && copy == image && scratch == lent);
            continue;
        }
        assert!(is_cleared(&scratch, &lent, borrowed_by(image)));
        assert_eq!(status == 21, !sound);
        if status == 0 {
            assert!(audit_both_ways(&copy));
        } else {
            assert!([21, 22, 23, 24].contains(&status));
            assert!(copy == image);
        }
    }
}

fn values_for(old: u8) -> Vec<u8> {
    let mut values = vec![0x00, 0x01, 0x02, 0x0B, 0x18, 0x19, 0x7F, 0x80, 0xFE, 0xFF];
    values.extend([old ^ 1, old.wrapping_add(1), old.wrapping_sub(1), !old]);
    values.sort_unstable();
    values.dedup();
    values.retain(|value| *value != old);
    values
}

#[test]
fn each_byte_of_small_images() {
    let mut seen = Seen::default();
    for (name, whole) in small_images() {
        assert!(audit_both_ways(&whole), "{name}");
        let tree = Node::of(&whole);
        let mut image = whole.clone();
        for at in 0..whole.len() {
            let page = (at / 512) as u32;
            for value in values_for(whole[at]) {
                image[at] = value;
                let sound_before = seen.sound;
                check_damaged(&image, &whole, &[page], &tree, &mut seen);
                change_damaged(&image, seen.sound > sound_before, &mut seen);
            }
            image[at] = whole[at];
        }
    }
    seen.report("each byte of small images");
    assert!(seen.sound > 0 && seen.sound < seen.images);
    assert!(seen.instants_refused > 0 && seen.listings_refused > 0);
}

/// All 256 values of each byte that isn't FF in a height 2 image with a chain.
#[test]
fn every_value_of_used_bytes() {
    let mut seen = Seen::default();
    let (_, whole) = small_images().pop().unwrap();
    let mut image = whole.clone();
    for at in 0..whole.len() {
        if whole[at] == 0xFF && !(32..128).contains(&(at % 512)) && at >= 64 {
            continue;
        }
        for value in 0..=255 {
            image[at] = value;
            let sound = audit_both_ways(&image);
            seen.images += 1;
            seen.sound += u64::from(sound);
            seen.calls += 2;
            let answer = instant(&image, 200);
            assert!(if judged(&image) == 0 {
                [0, 21].contains(&answer.status)
            } else {
                answer.status == judged(&image)
            });
            assert!(!sound || answer.status == 0);
        }
        image[at] = whole[at];
    }
    seen.report("every value of used bytes");
}

#[test]
fn bytes_of_a_height_3_image() {
    let mut seen = Seen::default();
    let whole = height_3_with_chain();
    let tree = Node::of(&whole);
    let mut random = Xorshift::new(12);
    let mut image = whole.clone();
    for _ in 0..6_000 {
        let at = if random.one_in(3) {
            // Words at the beginning of a page, where links and numbers are.
            512 * random.below(44) as usize + random.below(36) as usize
        } else {
            random.below(whole.len() as u64) as usize
        };
        let values = values_for(whole[at]);
        image[at] = random.pick(&values);
        check_damaged(&image, &whole, &[(at / 512) as u32], &tree, &mut seen);
        image[at] = whole[at];
    }
    seen.report("bytes of a height 3 image");
    assert!(seen.instants_refused > 0);
}

/// Links, marks and numbers set to every small number, one or two at a time; pages copied over each other and swapped:
/// images that are nearly sound, and some that still are.
#[test]
fn links_pages_and_marks() {
    let mut seen = Seen::default();
    let mut random = Xorshift::new(21);
    let mut wholes: Vec<Vec<u8>> = small_images().into_iter().map(|(_, image)| image).collect();
    wholes.push(height_3_with_chain());
    for whole in &wholes {
        let n = (whole.len() / 512) as u32;
        let tree = Node::of(whole);
        // The head's words, one at a time.
        for field in [HEIGHT, ROOT, FIRST_FREE, FREE_LENGTH, HIGH_MARK, KIND] {
            for to in 0..=n + 1 {
                let mut image = whole.clone();
                set_word(&mut image, 0, field, to);
                check_damaged(&image, whole, &[0], &tree, &mut seen);
            }
        }
        // Several at once, with the free pages' links among them.
        for _ in 0..4_000 {
            let mut image = whole.clone();
            let mut damaged = Vec::new();
            for _ in 0..1 + random.below(3) {
                damaged.extend(damage_links(&mut image, n, &mut random));
            }
            if n < 10 {
                check_damaged(&image, whole, &damaged, &tree, &mut seen);
            } else {
                seen.images += 1;
                seen.sound += u64::from(audit_both_ways(&image));
            }
            if random.one_in(8) {
                let sound = audit_both_ways(&image);
                change_damaged(&image, sound, &mut seen);
            }
        }
    }
    seen.report("links, pages and marks");
    assert!(seen.sound > 100, "some damage is none: {}", seen.sound);
}

/// One change to the links of an image; the pages it touched.
fn damage_links(image: &mut [u8], n: u32, random: &mut Xorshift) -> Vec<u32> {
    let page = random.below(u64::from(n)) as u32;
    let other = random.below(u64::from(n)) as u32;
    match random.below(8) {
        0 => {
            let field = random.pick(&[HEIGHT, ROOT, FIRST_FREE, FREE_LENGTH, HIGH_MARK, CHANGES]);
            set_word(image, 0, field, random.below(u64::from(n) + 2) as u32);
            vec![0]
        }
        1 => {
            set_word(image, page, 1, other);
            vec![page]
        }
        2 => {
            let i = random.below(24) as usize;
            set(image, page, child_at(i), &other.to_le_bytes());
            vec![page]
        }
        3 => {
            let copy = image[512 * page as usize..512 * page as usize + 512].to_vec();
            set(image, other, 0, &copy);
            vec![other]
        }
        4 => {
            // Swapped, and the links with them: no damage at all if all links are followed.
            swap_pages_with_links(image, page, other);
            (0..n).collect()
        }
        5 => {
            set(image, page, 0, &[0xFF; 512]);
            set_word(image, page, 0, 255);
            set_word(image, page, 1, other);
            vec![page]
        }
        6 => {
            set(image, page, 0, &[0xFF; 512]);
            vec![page]
        }
        _ => {
            // A page from the chain's front or at the high mark goes, or a chain page more.
            let first = word(image, 0, FIRST_FREE);
            let mark = word(image, 0, HIGH_MARK);
            if mark < n && random.one_in(2) {
                set_word(image, mark, 0, 255);
                set_word(image, mark, 1, first);
                set_word(image, 0, FIRST_FREE, mark);
                set_word(image, 0, HIGH_MARK, mark + 1);
                let length = word(image, 0, FREE_LENGTH);
                set_word(image, 0, FREE_LENGTH, length.wrapping_add(1));
                vec![0, mark]
            } else {
                set_word(image, 0, FIRST_FREE, other);
                vec![0]
            }
        }
    }
}

/// Swaps two pages other than the head and renames them in every link that reads as one.
fn swap_pages_with_links(image: &mut [u8], one: u32, other: u32) {
    if one == 0 || other == 0 || one == other {
        return;
    }
    let first = image[512 * one as usize..512 * one as usize + 512].to_vec();
    let second = image[512 * other as usize..512 * other as usize + 512].to_vec();
    set(image, one, 0, &second);
    set(image, other, 0, &first);
    let renamed = |page: u32| match page {
        _ if page == one => other,
        _ if page == other => one,
        _ => page,
    };
    for field in [ROOT, FIRST_FREE] {
        let page = word(image, 0, field);
        set_word(image, 0, field, renamed(page));
    }
    for page in 1..(image.len() / 512) as u32 {
        let level = get_u32(image, page, LEVEL_AT);
        if level == 255 {
            let next = word(image, page, 1);
            set_word(image, page, 1, renamed(next));
        } else if (1..4).contains(&level) {
            for i in 0..get_u32(image, page, ENTRY_COUNT_AT).min(24) as usize {
                let child = get_u32(image, page, child_at(i));
                set(image, page, child_at(i), &renamed(child).to_le_bytes());
            }
        }
    }
}

/// Noise of every kind: all calls return.
#[test]
fn noise() {
    let mut random = Xorshift::new(30);
    let mut calls = 0;
    for round in 0..3_000u32 {
        let n = 2 + random.below(6) as usize;
        let mut image = match round % 3 {
            0 => random.bytes(512 * n),
            1 => vec![random.pick(&[0, 0xFF, 1, 0x80]); 512 * n],
            _ => fresh(n, 1 + round % 3, 0),
        };
        for _ in 0..random.below(12) {
            let at = random.below(image.len() as u64) as usize;
            image[at] = random.next() as u8;
        }
        if round % 2 == 0 {
            // A head that is fit, whatever follows.
            let fields = [n as u32, 1 + round % 4, 1, 0, 0, n as u32, 1 + random.below(3) as u32, 0, 1_000_000_000];
            for (field, to) in fields.into_iter().enumerate() {
                set_word(&mut image, 0, field, to);
            }
            image[36..512].fill(0xFF);
        }
        audit_both_ways(&image);
        for _ in 0..4 {
            let (a, b) = (random.next() as u32, random.next() as u32);
            let mut out = vec![0; random.below(500) as usize];
            instant(&image, a);
            average(&image, b);
            listing(&image, a, b, &mut out);
            let mut scratch = vec![0; random.below(3) as usize];
            enter(&mut image, &mut scratch, random.between(-1_000_001, 1_000_001), a, b);
            withdraw(&mut image, &mut scratch, random.next() as i64, b, a);
            calls += 5;
        }
    }
    report(&format!("damage, noise: {calls} calls"));
}
