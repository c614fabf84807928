//! A buffer to lend, with bytes on both sides that nobody may touch, at any alignment.

const GUARD: usize = 64;
const GUARD_BYTE: u8 = 0xC3;

pub struct Guarded {
    bytes: Vec<u8>,
    from: usize,
    length: usize,
}

impl Guarded {
    pub fn new() -> Guarded {
        let mut guarded = Guarded { bytes: Vec::new(), from: 0, length: 0 };
        guarded.fill(&[], 0);
        guarded
    }

    /// Holds these bytes from now on; `shift` moves them from an aligned place.
    pub fn fill(&mut self, contents: &[u8], shift: usize) {
        self.from = GUARD + shift;
        self.length = contents.len();
        let to = self.from + self.length;
        if self.bytes.len() < to + GUARD {
            self.bytes.resize(to + GUARD, 0);
        }
        self.bytes[shift..self.from].fill(GUARD_BYTE);
        self.bytes[self.from..to].copy_from_slice(contents);
        self.bytes[to..to + GUARD].fill(GUARD_BYTE);
    }

    pub fn held(&self) -> &[u8] {
        &self.bytes[self.from..self.from + self.length]
    }

    pub fn lent(&mut self) -> &mut [u8] {
        &mut self.bytes[self.from..self.from + self.length]
    }

    /// Whether the bytes on both sides are what they were.
    pub fn guards_stand(&self) -> bool {
        let to = self.from + self.length;
        let guard = [GUARD_BYTE; GUARD];
        self.bytes[self.from - GUARD..self.from] == guard && self.bytes[to..to + GUARD] == guard
    }
}
