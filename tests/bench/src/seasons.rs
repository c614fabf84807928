//! Images after a season of changes, made by the library: bookings are entered, and then replaced by others for long. Pages are less
//! full than they could be, and after withdrawals many are free. Entries that no listing shows are left in kinds 2 and 3 alone: for
//! kind 1 leaf entries are as many as runs.

use luwhenoka::{page_bytes, raw, scratch_bytes};
use plain::calls::{ACCEPTED, PAGES_LACK};

use crate::subjects::{Booking, Random, RANGE};

/// A booking is at most so long.
const LONGEST: u32 = 1_000_000;

pub struct Season {
    pub capacity: u32,
    pub pages: usize,
    pub kind: u32,
    /// How many bookings are live at most; without a number as many as find pages.
    pub most: Option<usize>,
    /// How often a booking is replaced, in the mean: one that is live is withdrawn, and another entered if it finds pages.
    pub turnovers: usize,
    /// How many of a hundred are withdrawn in the end.
    pub withdrawn: usize,
}

impl Season {
    /// The image that the season leaves, and how many bookings are live in it.
    pub fn image(&self) -> (Vec<u8>, usize) {
        let mut index = Index::new(self);
        index.fill(self.most);
        for _ in 0..self.turnovers * index.live.len() {
            index.withdraw();
            index.enter();
        }
        index.fill(self.most);
        for _ in 0..index.live.len() * self.withdrawn / 100 {
            index.withdraw();
        }
        (index.image, index.live.len())
    }
}

/// An image and the bookings that are live in it.
struct Index {
    image: Vec<u8>,
    scratch: Vec<u8>,
    live: Vec<Booking>,
    random: Random,
}

impl Index {
    fn new(season: &Season) -> Index {
        let mut image = vec![0; page_bytes(season.capacity) * season.pages];
        assert_eq!(raw::format(&mut image, season.kind, 0, season.capacity), ACCEPTED);
        Index { image, scratch: vec![0; scratch_bytes(season.pages)], live: Vec::new(), random: Random::new(6) }
    }

    fn fill(&mut self, most: Option<usize>) {
        while most.is_none_or(|most| self.live.len() < most) && self.enter() {}
    }

    /// Enters a booking anywhere; whether it has found pages.
    fn enter(&mut self) -> bool {
        let s = self.random.below(RANGE - LONGEST);
        let e = s + 1 + self.random.below(LONGEST);
        let booking = (i64::from(self.random.below(100)) + 1, s, e);
        let status = raw::enter(&mut self.image, &mut self.scratch, booking.0, s, e);
        self.live.extend(found_pages(status).then_some(booking));
        found_pages(status)
    }

    /// Withdraws one of the live bookings, if that finds the pages it takes.
    fn withdraw(&mut self) {
        let i = self.random.below(self.live.len() as u32) as usize;
        let (v, s, e) = self.live[i];
        if found_pages(raw::withdraw(&mut self.image, &mut self.scratch, v, s, e)) {
            self.live.swap_remove(i);
        }
    }
}

fn found_pages(status: u32) -> bool {
    assert!(status == ACCEPTED || status == PAGES_LACK, "status {status}");
    status == ACCEPTED
}
