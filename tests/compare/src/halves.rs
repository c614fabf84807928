//! How many averages lay halfway between two whole numbers of hundredths, and on which side of zero and of an even number.

/// A comparison of all groups has at least so many of each sort.
const FEWEST: u64 = 5_000;

/// By the sum's sign, above zero first, and by the number next to the half towards zero, an even one first.
#[derive(Clone, Default)]
pub struct Halves([[u64; 2]; 2]);

const SORTS: [[&str; 2]; 2] = [
    ["above zero behind an even number", "above zero behind an odd number"],
    ["below zero behind an even number", "below zero behind an odd number"],
];

impl Halves {
    /// Counts an average in hundredths in, if it lay halfway.
    pub fn add(&mut self, sum: i64, count: i32) {
        let (parts, count) = (100 * sum.unsigned_abs(), u64::from(count.unsigned_abs()));
        if 2 * (parts % count) == count {
            self.0[usize::from(sum < 0)][(parts / count % 2) as usize] += 1;
        }
    }

    pub fn add_all(&mut self, other: &Halves) {
        for (mine, theirs) in self.0.iter_mut().flatten().zip(other.0.iter().flatten()) {
            *mine += theirs;
        }
    }

    fn sorts(&self) -> impl Iterator<Item = (&str, u64)> {
        SORTS.iter().flatten().copied().zip(self.0.iter().flatten().copied())
    }

    pub fn print(&self) {
        let each: Vec<String> = self.sorts().map(|(sort, count)| format!("{sort} {count}")).collect();
        println!("averages at halves: {}", each.join(", "));
    }

    pub fn lacking(&self) -> Vec<String> {
        self.sorts().filter(|(_, count)| *count < FEWEST).map(|(sort, _)| format!("{FEWEST} halves {sort}")).collect()
    }
}
