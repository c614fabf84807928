//! What was met of document 02's (iv): the edges that changes joined, by the level of the page whose entry separated the two pages, with
//! what the pages then did; and images with equal neighbours that were refused.

use plain::steps::StepRecord;

use crate::images::{head, CAPACITIES, CAPACITY};
use crate::steps::Change;

/// What followed where an entry went that was first in its page: each has to occur at every K and without the field.
const WHAT: [&str; 10] = [
    "in step D",
    "in step E",
    "no page turned",
    "the left gave to a leaf",
    "the right gave to a leaf",
    "a leaf joined the left",
    "the right joined a leaf",
    "an inner page got an entry",
    "inner pages joined",
    "the root was lowered",
];

/// Each K, and the image without the field.
const COLUMNS: usize = CAPACITIES.len() + 1;
/// The greatest level that a separator has at each of them: one below the greatest height of a sound image.
const GREATEST: [usize; COLUMNS] = [9, 6, 5, 4, 4, 4, 3, 3, 3, 3, 3, 3];
const MOST: usize = 9;

#[derive(Clone, Default)]
pub struct Edges {
    levels: [[u64; MOST + 1]; COLUMNS],
    what: [[u64; WHAT.len()]; COLUMNS],
    /// Images with two equal neighbours that audit and changes refused and the rebuild took, by the separator's level, 0 within a page.
    equal: [u64; MOST + 1],
    /// Stored images of document 01's rule.
    older: u64,
}

impl Edges {
    /// Counts an accepted change in.
    pub fn add(&mut self, change: &Change) {
        let steps = change.recorded.steps.iter().enumerate().filter(|(_, step)| step.edge_level > 0);
        let field = head(change.before, CAPACITY) as usize;
        let column = CAPACITIES.iter().position(|k| *k == field).unwrap_or(CAPACITIES.len());
        for (i, step) in steps {
            self.levels[column][step.edge_level as usize] += 1;
            for (mine, met) in self.what[column].iter_mut().zip(followed(i, step)) {
                *mine += u64::from(met);
            }
        }
    }

    /// How many edges were joined that a page of this level separated, at any K.
    pub fn joined_at(&self, level: u32) -> u64 {
        self.levels.iter().map(|levels| levels[level as usize]).sum()
    }

    pub fn add_equal(&mut self, separator: u32) {
        self.equal[separator as usize] += 1;
    }

    pub fn add_older(&mut self) {
        self.older += 1;
    }

    pub fn add_all(&mut self, other: &Edges) {
        let mine = self.levels.iter_mut().flatten().chain(self.what.iter_mut().flatten()).chain(&mut self.equal);
        let theirs = other.levels.iter().flatten().chain(other.what.iter().flatten()).chain(&other.equal);
        for (mine, theirs) in mine.zip(theirs) {
            *mine += theirs;
        }
        self.older += other.older;
    }

    pub fn print(&self) {
        let equal = self.equal.iter().enumerate().map(|(level, n)| format!("{level}: {n}"));
        println!("equal neighbours by their separator's level, 0 in a page: {}", equal.collect::<Vec<_>>().join(", "));
        println!("older images refused and rebuilt: {}", self.older);
        let head: String = CAPACITIES.iter().map(|k| format!("{k:>9}")).collect();
        println!("{:<30}{head}{:>9}", "edges joined", "none");
        for level in 1..=MOST {
            let counts: String = self.levels.iter().map(|counts| format!("{:>9}", counts[level])).collect();
            println!("{:<30}{counts}", format!("separated at level {level}"));
        }
        for (i, what) in WHAT.iter().enumerate() {
            let counts: String = self.what.iter().map(|counts| format!("{:>9}", counts[i])).collect();
            println!("{what:<30}{counts}");
        }
    }

    /// What should have occurred and didn't.
    pub fn lacking(&self) -> Vec<String> {
        let mut lacking = Vec::new();
        for column in 0..COLUMNS {
            let at = CAPACITIES.get(column).map_or("without the field".to_string(), |k| format!("at K = {k}"));
            let levels = (1..=GREATEST[column]).filter(|level| self.levels[column][*level] == 0);
            lacking.extend(levels.map(|level| format!("an edge joined that level {level} separates, {at}")));
            let absent = WHAT.iter().zip(self.what[column]).filter(|(_, n)| *n == 0);
            lacking.extend(absent.map(|(what, _)| format!("an edge joined, {what}, {at}")));
        }
        let absent = (0..=MOST).filter(|level| self.equal[*level] == 0);
        lacking.extend(absent.map(|level| format!("equal neighbours that level {level} separates")));
        if self.older == 0 {
            lacking.push("an older image".to_string());
        }
        lacking
    }
}

/// Which of [`WHAT`] a step is; D is the fourth. The first page to turn is the leaf, and a give ends the step.
fn followed(i: usize, step: &StepRecord) -> [bool; WHAT.len()] {
    let gives = step.gives_from_left + step.gives_from_right;
    let joins = step.merges_with_left + step.merges_with_right;
    // The leaf turns left where the level above separates the pages, else right.
    let turns_left = step.edge_level == 1;
    [
        i == 3,
        i == 4,
        gives + joins == 0,
        joins == 0 && step.gives_from_left > 0,
        joins == 0 && step.gives_from_right > 0,
        joins > 0 && turns_left,
        joins > 0 && !turns_left,
        joins > 0 && gives > 0,
        joins > 1,
        step.roots_lost > 0,
    ]
}
