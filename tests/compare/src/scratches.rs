//! How long the scratches were that calls got, beside n/8, rounded up, and n.

use crate::calls::{Call, NAMES};
use crate::images::{is_turned_back, pages_of, scratch_bytes};

/// By length, for an image of n pages that isn't turned back; each call that borrows a scratch has to get each of them.
const LENGTHS: [&str; 6] = ["shorter", "a byte short", "just enough", "under n", "n", "above n"];

/// The calls that borrow one, by their place in [`NAMES`].
const BORROWERS: [usize; 4] = [5, 6, 7, 8];

#[derive(Clone, Default)]
pub struct Scratches {
    counts: [[u64; LENGTHS.len()]; BORROWERS.len()],
}

impl Scratches {
    pub fn add(&mut self, call: Call, image: &[u8], length: usize) {
        let Some(row) = BORROWERS.iter().position(|place| *place == call.place()) else { return };
        if is_turned_back(image) {
            return;
        }
        let (n, borrowed) = (pages_of(image), scratch_bytes(pages_of(image)));
        let column = match length {
            _ if length + 1 < borrowed => 0,
            _ if length < borrowed => 1,
            _ if length == borrowed => 2,
            _ if length < n => 3,
            _ if length == n => 4,
            _ => 5,
        };
        self.counts[row][column] += 1;
    }

    pub fn add_all(&mut self, other: &Scratches) {
        for (mine, theirs) in self.counts.iter_mut().flatten().zip(other.counts.iter().flatten()) {
            *mine += theirs;
        }
    }

    pub fn print(&self) {
        let head: String = LENGTHS.iter().map(|length| format!("{length:>14}")).collect();
        println!("{:<11}{head}", "scratch");
        for (place, counts) in BORROWERS.iter().zip(&self.counts) {
            let counts: String = counts.iter().map(|count| format!("{count:>14}")).collect();
            println!("{:<11}{counts}", NAMES[*place].0);
        }
    }

    /// What should have occurred and didn't.
    pub fn lacking(&self) -> Vec<String> {
        let of_call = |(place, counts): (&usize, &[u64; LENGTHS.len()])| {
            let absent = LENGTHS.iter().zip(counts).filter(|(_, count)| **count == 0);
            absent.map(|(length, _)| format!("{} with a scratch {length}", NAMES[*place].0)).collect::<Vec<_>>()
        };
        BORROWERS.iter().zip(&self.counts).flat_map(of_call).collect()
    }
}
