//! Heights 1 to 4 reached by name, up and down again.

use crate::support::*;
use plain::{instant, Pair, END};

/// The rack is on this height: every answer reads so many pages.
fn assert_height(rack: &mut Rack, expected: u32) {
    assert_eq!(height(&rack.image), expected);
    assert_eq!(instant(&rack.image, 0).pages, expected);
    assert_eq!(instant(&rack.image, END - 1).pages, expected);
    rack.check_all_quickly();
    rack.check_audit();
}

/// Bookings one after the other until the tree has this height.
fn grow_to(rack: &mut Rack, live: &mut Vec<(i64, u32, u32)>, expected: u32) {
    rack.by_step = expected < 3;
    while height(&rack.image) < expected {
        let i = live.len() as u32;
        let (v, s, e) = (1 + i64::from(i % 5), 20 * i + 10, 20 * i + 17);
        assert_eq!(rack.enter(v, s, e), 0);
        live.push((v, s, e));
        rack.check_instant_as(s, Pair { sum: v, count: 1 });
        rack.check_instant_as(e, Pair { sum: 0, count: 0 });
    }
    rack.by_step = true;
}

/// A booking over everything, one over the inner pages' edges and one in the middle, entered and withdrawn.
fn changes_at_this_height(rack: &mut Rack) {
    for (v, s, e) in [(7, 0, END), (-9, 15, END - 1), (3, 111, 3_333), (1_000_000, 25, 26)] {
        let before = rack.timeline.runs(0, END);
        assert_eq!(rack.enter(v, s, e), 0);
        rack.check_all_quickly();
        assert_eq!(rack.withdraw(v, s, e), 0);
        rack.check_all_quickly();
        assert_eq!(rack.timeline.runs(0, END), before);
    }
}

#[test]
fn heights_1_to_4_up_and_down() {
    let mut total = Tally::default();
    for order in 0..3 {
        let mut rack = Rack::new(1_024, 1, 0, 31);
        let mut live = Vec::new();
        assert_height(&mut rack, 1);
        changes_at_this_height(&mut rack);
        for expected in 2..=4 {
            grow_to(&mut rack, &mut live, expected);
            assert_height(&mut rack, expected);
            changes_at_this_height(&mut rack);
            assert_height(&mut rack, expected);
        }
        // "height 4 takes at least 315 tree pages"
        assert!(word(&rack.image, 0, HIGH_MARK) > 315);

        // Down again: from the end, from the beginning, or in no order.
        match order {
            0 => live.reverse(),
            1 => {}
            _ => Xorshift::new(8).shuffle(&mut live),
        }
        let mut heights_seen = vec![4];
        for (i, &(v, s, e)) in live.iter().enumerate() {
            rack.by_step = i % 20 == 0;
            assert_eq!(rack.withdraw(v, s, e), 0);
            rack.check_instant_as(s, Pair { sum: 0, count: 0 });
            let now = height(&rack.image);
            if now != heights_seen[heights_seen.len() - 1] {
                heights_seen.push(now);
                rack.check_all_quickly();
            }
        }
        rack.check_all_quickly();
        assert_eq!(rack.timeline.runs(0, END).len(), 1);
        // Document 02, (iv): no entry is left behind where a page ends.
        assert_eq!((Node::of(&rack.image).leaf_entries(), height(&rack.image)), (1, 1));
        report(&format!(
            "heights, order {order}: {} bookings, heights on the way down {heights_seen:?}, {} leaf entries left",
            live.len(),
            Node::of(&rack.image).leaf_entries()
        ));
        total.add(&rack.tally);
    }
    total.report("heights 1 to 4");
    assert_eq!(total.greatest_height, 4);
    assert!(total.splits > 0 && total.merges() > 0 && total.roots_gained >= 9 && total.roots_lost > 0);
    assert!(total.inner_splits > 0 && total.inner_gives > 0 && total.inner_merges > 0);
}

#[test]
fn heights_1_to_4_of_greatest_and_least() {
    let mut total = Tally::default();
    for kind in [2, 3] {
        let mut rack = Rack::new(1_024, kind, 2, 32);
        let mut live = Vec::new();
        for expected in 1..=4 {
            rack.by_step = false;
            while height(&rack.image) < expected {
                let i = live.len() as u32;
                // From the far end to the front, so that the first pages split.
                let (v, s) = (i64::from(i % 11) - 5, 3_000_000 - 20 * i);
                assert_eq!(rack.enter(v, s, s + 7), 0);
                live.push((v, s, s + 7));
                rack.check_instant_as(s + 8, Pair { sum: v, count: 1 });
                rack.check_instant_as(s + 9, Pair { sum: 0, count: 0 });
            }
            rack.by_step = true;
            assert_height(&mut rack, expected);
            // Wide ones on a copy, as kinds 2 and 3 know no withdrawal.
            let mut aside = rack.clone();
            aside.tally = Tally::default();
            for (v, s, e) in [(0, 0, 1_000), (-1, 2_900_000, 2_999_000), (2, 5, END)] {
                assert_eq!(aside.enter(v, s, e), 0);
                aside.check_all_quickly();
            }
            total.add(&aside.tally);
        }
        total.add(&rack.tally);
    }
    total.report("heights 1 to 4, kinds 2 and 3");
    assert_eq!(total.greatest_height, 4);
}
