//! Document 01, "Time and value".

use std::cmp::Ordering;

/// "Instants are 0 to 4,294,967,294. END = 4,294,967,295 is no instant."
pub const END: u32 = 4_294_967_295;

/// "A value is −1,000,000 to 1,000,000."
pub const GREATEST_VALUE: i64 = 1_000_000;

/// "a window w from 0 to 1,000,000,000"
pub const GREATEST_WINDOW: u32 = 1_000_000_000;

/// "changes ≤ 1,000,000,000"
pub const MOST_CHANGES: u32 = 1_000_000_000;

/// "An index has a kind (1 totals, 2 greatest, 3 least)".
pub const TOTALS: u32 = 1;
pub const GREATEST: u32 = 2;
pub const LEAST: u32 = 3;

pub fn kind_in_range(kind: u32) -> bool {
    kind == TOTALS || kind == GREATEST || kind == LEAST
}

pub fn window_in_range(window: u32) -> bool {
    window <= GREATEST_WINDOW
}

pub fn value_in_range(v: i64) -> bool {
    (-GREATEST_VALUE..=GREATEST_VALUE).contains(&v)
}

/// "A span [s, e) has s < e ≤ END."
#[derive(Clone, Copy, PartialEq, Eq, Debug)]
pub struct Span {
    pub start: u32,
    pub end: u32,
}

impl Span {
    pub fn inside(self, other: Span) -> bool {
        other.start <= self.start && self.end <= other.end
    }

    pub fn overlaps(self, other: Span) -> bool {
        self.start < other.end && other.start < self.end
    }
}

/// "A booking counts at instant t if [s, e) overlaps [t−w, t]; so its effect covers [s, e′), e′ the smaller of e+w and
/// END."
pub fn lengthened_end(e: u32, window: u32) -> u32 {
    let end = u64::from(e) + u64::from(window);
    if end > u64::from(END) {
        END
    } else {
        end as u32
    }
}

/// "Kind 1 answers the pair (sum, count)"; "Kinds 2 and 3 answer (greatest or least value, 1), or (0, 0) for nothing;
/// the count field is only that mark."
#[derive(Clone, Copy, PartialEq, Eq, Debug)]
pub struct Pair {
    pub sum: i64,
    pub count: i32,
}

/// The pair (0, 0).
pub const NOTHING: Pair = Pair { sum: 0, count: 0 };

/// How two pairs of one kind make one. Kind 1 adds them; kinds 2 and 3 keep the greater or the less, and nothing
/// combined with a pair is that pair.
pub fn combine(kind: u32, one: Pair, other: Pair) -> Pair {
    if kind == TOTALS {
        return Pair { sum: one.sum + other.sum, count: one.count + other.count };
    }
    if one.count == 0 {
        return other;
    }
    if other.count == 0 {
        return one;
    }
    let sum = if kind == GREATEST { one.sum.max(other.sum) } else { one.sum.min(other.sum) };
    Pair { sum, count: 1 }
}

/// The answer of the average as a function of kind, sum and count (R12).
#[derive(Clone, Copy, PartialEq, Eq, Debug)]
pub enum Average {
    /// "It is 'none' where count ≤ 0 or for kinds 2 and 3."
    None,
    /// "in hundredths: the whole number nearest 100 × sum / count", and by document 02, (ix), "a half goes to the even hundredth"
    Hundredths(i64),
    /// The sum is beyond ±10^15. No fit page can show such a sum, as 1,000,000 × changes is at most 10^15. Document 01
    /// doesn't say what comes here; it is only asked where there is an average at all.
    Beyond,
}

/// The greatest absolute sum that fit pages can show: 1,000,000 × 1,000,000,000.
pub const GREATEST_SUM: u64 = 1_000_000_000_000_000;

/// "The average, kind 1 only, is in hundredths: the whole number nearest 100 × sum / count .. It is 'none' where count ≤ 0 or for
/// kinds 2 and 3." Document 02, (ix): "a half goes to the even hundredth."
pub fn average_of(kind: u32, sum: i64, count: i32) -> Average {
    if kind != TOTALS || count <= 0 {
        return Average::None;
    }
    if sum.unsigned_abs() > GREATEST_SUM {
        return Average::Beyond;
    }
    Average::Hundredths(nearest(100 * sum, i64::from(count)))
}

/// The whole number nearest `upper / lower` for `lower` above 0: of the two around it the nearer one, and halfway between them
/// "the even" one.
fn nearest(upper: i64, lower: i64) -> i64 {
    let below = upper.div_euclid(lower);
    let above = below + 1;
    let over = upper - below * lower;
    match over.cmp(&(above * lower - upper)) {
        Ordering::Less => below,
        Ordering::Greater => above,
        Ordering::Equal if below.rem_euclid(2) == 0 => below,
        Ordering::Equal => above,
    }
}
