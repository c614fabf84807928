//! What was met at each K, and on images without the field: changes with all that they do, reads, audits, refusals.

use crate::calls::{Answer, Call};
use crate::images::{head, CAPACITIES, CAPACITY};
use crate::steps::{Change, WHAT};

/// What is counted of calls at each K, behind [`WHAT`]: each has to occur.
const OF_CALLS: [&str; 13] = [
    "formats",
    "changes accepted",
    "changes refused with 24",
    "changes refused with 21",
    "instants answered",
    "instants refused with 21",
    "listings answered",
    "listings refused with 21",
    "audits of sound images",
    "audits refused with 21",
    "rebuilds accepted",
    "rebuilds refused with 24",
    "rebuilds refused with 21",
];

const ROWS: usize = WHAT.len() + OF_CALLS.len();
/// Each K, and the image without the field.
const COLUMNS: usize = CAPACITIES.len() + 1;

#[derive(Clone, Default)]
pub struct Capacities {
    counts: [[u64; ROWS]; COLUMNS],
    /// Calls that a bad K turned back, and those that an image of under 40 bytes did.
    bad: u64,
    under_40: u64,
}

/// The column of a K, or of the field as it stands in an image; none for a bad one.
fn column(field: u32) -> Option<usize> {
    if field == u32::MAX {
        return Some(CAPACITIES.len());
    }
    CAPACITIES.iter().position(|k| *k == field as usize)
}

impl Capacities {
    pub fn add_call(&mut self, call: Call, answer: &Answer, image: &[u8]) {
        let field = match call {
            Call::AverageOf { .. } => return,
            Call::Format { capacity, .. } => capacity,
            _ if image.len() < 40 => {
                self.under_40 += 1;
                return;
            }
            _ => head(image, CAPACITY),
        };
        let Some(column) = column(field) else {
            self.bad += 1;
            return;
        };
        let row = match (call, answer.status) {
            (Call::Format { .. }, 0) => 0,
            (Call::Enter { .. } | Call::Withdraw { .. }, 0) => 1,
            (Call::Enter { .. } | Call::Withdraw { .. }, 24) => 2,
            (Call::Enter { .. } | Call::Withdraw { .. }, 21) => 3,
            (Call::Instant { .. }, 0) => 4,
            (Call::Instant { .. }, 21) => 5,
            (Call::Listing { .. }, 0) => 6,
            (Call::Listing { .. }, 21) => 7,
            (Call::Audit, 0) => 8,
            (Call::Audit, 21) => 9,
            (Call::Rebuild, 0) => 10,
            (Call::Rebuild, 24) => 11,
            (Call::Rebuild, 21) => 12,
            _ => return,
        };
        self.counts[column][WHAT.len() + row] += 1;
    }

    pub fn add_change(&mut self, change: &Change) {
        let Some(column) = column(head(change.before, CAPACITY)) else { return };
        for (mine, one) in self.counts[column].iter_mut().zip(change.counts()) {
            *mine += one;
        }
    }

    pub fn add_all(&mut self, other: &Capacities) {
        for (mine, theirs) in self.counts.iter_mut().flatten().zip(other.counts.iter().flatten()) {
            *mine += theirs;
        }
        self.bad += other.bad;
        self.under_40 += other.under_40;
    }

    pub fn print(&self) {
        println!("calls with a bad capacity {}, on images of under 40 bytes {}", self.bad, self.under_40);
        let head: String = CAPACITIES.iter().map(|k| format!("{k:>9}")).collect();
        println!("{:<30}{head}{:>9}", "by capacity", "none");
        for row in 0..ROWS {
            let counts: String = self.counts.iter().map(|counts| format!("{:>9}", counts[row])).collect();
            println!("{:<30}{counts}", name(row));
        }
    }

    /// What should have occurred and didn't. No format leaves an image without the field.
    pub fn lacking(&self) -> Vec<String> {
        let mut lacking = Vec::new();
        for (column, counts) in self.counts.iter().enumerate() {
            let at = CAPACITIES.get(column).map_or("without the field".to_string(), |k| format!("at capacity {k}"));
            let absent =
                (0..ROWS).filter(|row| counts[*row] == 0 && !(column == CAPACITIES.len() && *row == WHAT.len()));
            lacking.extend(absent.map(|row| format!("{} {at}", name(row))));
        }
        if self.bad == 0 || self.under_40 == 0 {
            lacking.push("a bad capacity and images of under 40 bytes".to_string());
        }
        lacking
    }
}

fn name(row: usize) -> &'static str {
    if row < WHAT.len() {
        WHAT[row]
    } else {
        OF_CALLS[row - WHAT.len()]
    }
}
