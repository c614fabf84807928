//! Leaves that meet with equal totals, of kind 1: by changes, which join them, and by damage, which no audit lets pass. The page that
//! separates the two may lie at any level above them.

use super::both::{Both, Call};
use crate::subjects::number;

/// Separating pages lie at levels 1 to 3: a sound image has at most height 4 at 24 entries a page.
const LEVELS: usize = 3;

/// How many edges of each level are tried in an image, and how many are joined one after the other.
const TRIED: u32 = 6;
const IN_TURN: u32 = 200;

/// Sum and count.
type Pair = (i64, i32);

/// A change that begins or ends at an edge.
#[derive(Clone, Copy)]
enum Side {
    Begins,
    Ends,
}

/// How often each happened, by the separating page's level: the two rows of changes are by their side.
#[derive(Default)]
struct Seen {
    joined: [[u32; LEVELS + 1]; 2],
    told_equal: [u32; LEVELS + 1],
    roots_lost: u32,
}

/// Edges of these images. Ends the program if one of the levels was never met.
pub fn edges(both: &mut Both, images: &[Vec<u8>]) {
    let mut seen = Seen::default();
    for image in images.iter().filter(|image| number(image, 24) == 1) {
        join_some(both, image, &mut seen);
        join_in_turn(both, image, &mut seen);
        make_equal(both, image, &mut seen);
    }
    let all_levels = |row: &[u32]| row[1..].iter().all(|times| *times > 0);
    assert!(seen.joined.iter().all(|row| all_levels(row)), "joined {:?}", seen.joined);
    assert!(all_levels(&seen.told_equal) && seen.roots_lost > 0, "{:?}, {}", seen.told_equal, seen.roots_lost);
}

// ---------------------------------------------------------------- the edges of an image

/// Where two leaves meet.
struct Edge {
    level: usize,
    t: u32,
    /// Where the first entry of the right one lies, and the last one of the left.
    at: usize,
    before: usize,
    /// What the right total has more than the left one.
    more: Pair,
}

struct Leaf {
    level: usize,
    page: usize,
    last_entry: usize,
    above: Pair,
}

fn edges_of(image: &[u8]) -> Vec<Edge> {
    let mut leaves = Vec::new();
    add_leaves(image, number(image, 8), (0, 0), 0, &mut leaves);
    let edge = |left: &Leaf, right: &Leaf| {
        let (at, before) = (right.page + 128, left.last_entry);
        let more = minus(plus(right.above, pair(image, at)), plus(left.above, pair(image, before)));
        Edge { level: right.level, t: number(image, right.page + 32), at, before, more }
    };
    leaves.windows(2).map(|two| edge(&two[0], &two[1])).collect()
}

/// The leaves below a page, with what is added up above each and the level of the page that separates it from the one before.
fn add_leaves(image: &[u8], page: u32, above: Pair, level: usize, leaves: &mut Vec<Leaf>) {
    let page = 512 * page as usize;
    let entries = number(image, page + 4) as usize;
    if number(image, page) == 0 {
        leaves.push(Leaf { level, page, last_entry: page + 112 + 16 * entries, above });
        return;
    }
    for (i, entry) in (page + 128..).step_by(16).take(entries).enumerate() {
        let level = if i == 0 { level } else { number(image, page) as usize };
        add_leaves(image, number(image, entry + 12), plus(above, pair(image, entry)), level, leaves);
    }
}

fn pair(image: &[u8], entry: usize) -> Pair {
    (i64::from_le_bytes(image[entry..entry + 8].try_into().expect("8 bytes")), number(image, entry + 8) as i32)
}

fn plus(one: Pair, other: Pair) -> Pair {
    (one.0 + other.0, one.1 + other.1)
}

fn minus(one: Pair, other: Pair) -> Pair {
    (one.0 - other.0, one.1 - other.1)
}

/// Some edges of each level.
fn some_of_each_level(both: &mut Both, image: &[u8]) -> Vec<Edge> {
    let mut edges = edges_of(image);
    let mut some = Vec::new();
    for level in 1..=LEVELS {
        for _ in 0..TRIED {
            let there: Vec<usize> = (0..edges.len()).filter(|i| edges[*i].level == level).collect();
            if !there.is_empty() {
                some.push(edges.swap_remove(there[both.random.below(there.len() as u32) as usize]));
            }
        }
    }
    some
}

// ---------------------------------------------------------------- joined by a change

/// Each edge in the image as it is.
fn join_some(both: &mut Both, image: &[u8], seen: &mut Seen) {
    for edge in some_of_each_level(both, image) {
        for side in [Side::Begins, Side::Ends] {
            both.lend(image);
            join(both, &edge, side, seen);
        }
    }
}

/// One edge after the other, each in what the one before left, so that pages turn to each other and roots go.
fn join_in_turn(both: &mut Both, image: &[u8], seen: &mut Seen) {
    both.lend(image);
    for _ in 0..IN_TURN {
        let side = if both.random.below(2) == 0 { Side::Begins } else { Side::Ends };
        let mut edges = edges_of(both.image());
        edges.retain(|edge| joining(both.image(), edge, side).is_some());
        if edges.is_empty() {
            continue;
        }
        let edge = &edges[both.random.below(edges.len() as u32) as usize];
        let height = number(both.image(), 4);
        join(both, edge, side, seen);
        seen.roots_lost += u32::from(number(both.image(), 4) < height);
    }
}

/// Does a change that makes the totals at an edge equal, if there is one, and an audit; the entry at the edge goes.
fn join(both: &mut Both, edge: &Edge, side: Side, seen: &mut Seen) {
    let Some(call) = joining(both.image(), edge, side) else { return };
    if both.ask(call, both.borrowed(), 0) == 0 {
        assert!(plain::instant(both.image(), edge.t).start < edge.t, "{call:?}");
        assert_eq!(both.ask(Call::Audit, both.borrowed(), 0), 0, "{call:?}");
        seen.joined[side as usize][edge.level] += 1;
    }
}

/// A change brings one booking: it fits where counts differ by one. With window 0 the other end of its span lies where an entry ends or
/// starts, so that nothing is cut.
fn joining(image: &[u8], edge: &Edge, side: Side) -> Option<Call> {
    let window = number(image, 28);
    let (s, e, (sum, count)) = match side {
        Side::Begins => {
            let end = plain::instant(image, edge.t).end;
            (edge.t, end.saturating_sub(window).max(edge.t + 1), minus((0, 0), edge.more))
        }
        Side::Ends => (plain::instant(image, edge.t - 1).start, edge.t.saturating_sub(window), edge.more),
    };
    match count {
        _ if s >= e || sum.abs() > 1_000_000 => None,
        1 => Some(Call::Enter { v: sum, s, e }),
        -1 => Some(Call::Withdraw { v: -sum, s, e }),
        _ => None,
    }
}

// ---------------------------------------------------------------- made equal by damage

/// The first entry behind an edge gets a pair with which totals are equal, nearly equal, or only the own pairs are; or the pair of an
/// entry goes to the next one in the leaf.
fn make_equal(both: &mut Both, image: &[u8], seen: &mut Seen) {
    both.lend(image);
    for edge in some_of_each_level(both, image) {
        let own = pair(image, edge.at);
        let equal = minus(own, edge.more);
        let told = damaged(both, &edge, edge.at, equal);
        seen.told_equal[edge.level] += u32::from(told);
        for nearly in [(equal.0 + 1, equal.1), (equal.0, equal.1 + 1), (equal.0, own.1), (own.0, equal.1)] {
            damaged(both, &edge, edge.at, nearly);
        }
        damaged(both, &edge, edge.at, pair(image, edge.before));
        let entries = number(image, edge.at - 124) as usize;
        let i = both.random.below(entries as u32 - 1) as usize;
        for i in [0, i, entries - 2] {
            damaged(both, &edge, edge.at + 16 * (i + 1), pair(image, edge.at + 16 * i));
        }
    }
}

/// With another pair at an entry: an audit, an instant, a change. Whether the page is fit and the image isn't sound.
fn damaged(both: &mut Both, edge: &Edge, at: usize, (sum, count): Pair) -> bool {
    let mut bytes = sum.to_le_bytes().to_vec();
    bytes.extend(count.to_le_bytes());
    let before = both.set(at, &bytes);
    let lent = both.image().to_vec();
    let audited = both.ask(Call::Audit, both.borrowed(), 0);
    let answered = both.ask(Call::Instant { t: edge.t }, 0, 0);
    if both.ask(Call::Enter { v: 1, s: edge.t, e: edge.t + 1 }, both.borrowed(), 0) == 0 {
        both.lend(&lent);
    }
    both.set(at, &before);
    audited == 21 && answered == 0
}
