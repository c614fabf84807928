//! Calls with the buffers that they usually get.

use crate::calls::{Answer, Call};
use crate::comparer::Comparer;
use crate::images::{capacity, instant_of, page_bytes, scratch_bytes};

impl Comparer {
    /// With the K of the image at hand.
    pub fn format(&mut self, kind: u32, window: u32) -> Answer {
        let capacity = capacity(self.image()) as u32;
        self.ask(Call::Format { kind, window, capacity }, 0, 0)
    }

    pub fn format_of(&mut self, k: usize, kind: u32, window: u32) -> Answer {
        self.ask(Call::Format { kind, window, capacity: k as u32 }, 0, 0)
    }

    pub fn instant(&mut self, t: u32) -> Answer {
        self.ask(Call::Instant { t }, 0, 0)
    }

    pub fn average(&mut self, t: u32) -> Answer {
        self.ask(Call::Average { t }, 0, 0)
    }

    pub fn average_of(&mut self, kind: u32, sum: i64, count: i32) -> Answer {
        self.ask(Call::AverageOf { kind, sum, count }, 0, 0)
    }

    /// With an output that has room for every run an image of so many pages can show.
    pub fn listing(&mut self, a: u32, b: u32) -> Answer {
        let plenty = 16 * capacity(self.image()) * self.pages();
        self.ask(Call::Listing { a, b }, 0, plenty)
    }

    /// With outputs around the length that is needed.
    pub fn listings(&mut self, a: u32, b: u32) {
        let needed = 16 * self.listing(a, b).runs as usize;
        let call = Call::Listing { a, b };
        let more = self.random.below(40);
        self.ask(call, 0, needed + more);
        if needed > 0 {
            let fewer = self.random.below(needed);
            self.ask(call, 0, needed - 1);
            self.ask(call, 0, fewer);
        }
    }

    pub fn audit(&mut self) -> Answer {
        let scratch = self.enough_scratch();
        self.ask(Call::Audit, scratch, 0)
    }

    /// The length of a scratch that is long enough: just that mostly, now and then longer, up to a byte for each page and more.
    fn enough_scratch(&mut self) -> usize {
        let n = self.pages();
        match self.random.below(6) {
            0 => scratch_bytes(n) + 1,
            1 => scratch_bytes(n) + 2,
            2 => n + 1,
            _ => scratch_bytes(n),
        }
    }

    /// Of the image at hand into so many pages, which hold anything; the status.
    pub fn rebuild(&mut self, pages: usize) -> u32 {
        let scratch = self.enough_scratch();
        let target = pages * page_bytes(self.image());
        self.ask(Call::Rebuild, scratch, target).status
    }

    /// The same, and it goes on with the target, which has to be accepted.
    pub fn rebuild_and_go_on(&mut self, pages: usize) {
        assert_eq!(self.rebuild(pages), 0, "so many pages are enough");
        let target = self.output().to_vec();
        self.lend(&target);
    }

    // ------------------------------------------------------------ changes

    /// Enters, or withdraws, and goes on with the image that it leaves; the status returned.
    pub fn book(&mut self, withdrawal: bool, v: i64, s: u32, e: u32) -> u32 {
        let scratch = self.enough_scratch();
        self.ask(change(withdrawal, v, s, e), scratch, 0).status
    }

    /// A change of each sort, near the beginning or at a start anywhere, and back to the image as it was.
    pub fn changes_and_back(&mut self) {
        for withdrawal in [false, true] {
            let before = self.image().to_vec();
            let page = self.random.below(self.pages().max(1));
            let s = match self.random.below(2) {
                0 => self.random.below(300) as u32,
                _ => instant_of(&before, page, &mut self.random),
            };
            let e = s.saturating_add(1 + self.random.below(200) as u32);
            let v = self.random.between(-1_000_000, 1_000_000);
            self.book_and_back(&before, (withdrawal, v, s, e));
        }
    }

    /// A change of the image at hand, which is this one, and back to it.
    pub fn book_and_back(&mut self, image: &[u8], (withdrawal, v, s, e): (bool, i64, u32, u32)) {
        if self.book(withdrawal, v, s, e) == 0 {
            self.lend(image);
        }
    }
}

pub fn change(withdrawal: bool, v: i64, s: u32, e: u32) -> Call {
    if withdrawal {
        Call::Withdraw { v, s, e }
    } else {
        Call::Enter { v, s, e }
    }
}
