//! One image, lent to the library and to the peer alike. Every call is done by both and compared: status and answer, and
//! every byte that it may write of image, scratch and output.

use luwhenoka::raw::{self, AverageAnswer, InstantAnswer, ListingAnswer};
use luwhenoka::scratch_bytes;

use crate::peer;
use crate::subjects::Random;

#[derive(Clone, Copy, Debug)]
pub enum Call {
    Instant { t: u32 },
    Average { t: u32 },
    Listing { a: u32, b: u32 },
    Audit,
    Enter { v: i64, s: u32, e: u32 },
    Withdraw { v: i64, s: u32, e: u32 },
}

/// Each call's name and each status that it can return: every one has to occur.
const STATUSES: &[(&str, &[u32])] = &[
    ("instant", &[0, 12, 16, 21]),
    ("average", &[0, 12, 16, 21]),
    ("listing", &[0, 11, 15, 16, 21]),
    ("audit", &[0, 16, 17, 21]),
    ("enter", &[0, 11, 13, 16, 17, 21, 23, 24]),
    ("withdraw", &[0, 11, 13, 16, 17, 21, 22, 23, 24]),
];

impl Call {
    /// The call's place in [`STATUSES`].
    fn place(self) -> usize {
        match self {
            Call::Instant { .. } => 0,
            Call::Average { .. } => 1,
            Call::Listing { .. } => 2,
            Call::Audit => 3,
            Call::Enter { .. } => 4,
            Call::Withdraw { .. } => 5,
        }
    }
}

#[derive(Clone, Copy, PartialEq, Eq, Debug)]
enum Answer {
    Instant(InstantAnswer),
    Average(AverageAnswer),
    Listing(ListingAnswer),
    Status(u32),
}

impl Answer {
    fn status(self) -> u32 {
        match self {
            Answer::Instant(answer) => answer.status,
            Answer::Average(answer) => answer.status,
            Answer::Listing(answer) => answer.status,
            Answer::Status(status) => status,
        }
    }
}

/// How often each call returned each status, over the whole comparison.
#[derive(Default)]
pub struct Tally([[u64; 32]; STATUSES.len()]);

impl Tally {
    pub fn calls(&self) -> u64 {
        self.0.iter().flatten().sum()
    }

    /// The statuses that a call can return and that didn't occur.
    pub fn missing(&self) -> Vec<String> {
        let each = STATUSES.iter().zip(&self.0);
        let missing = each.flat_map(|((name, statuses), seen)| {
            statuses.iter().filter(|status| seen[**status as usize] == 0).map(move |status| format!("{name} {status}"))
        });
        missing.collect()
    }

    /// The calls with how often each was compared.
    pub fn by_name(&self) -> String {
        let each = STATUSES.iter().zip(&self.0).map(|((name, _), seen)| format!("{} {name}", seen.iter().sum::<u64>()));
        each.collect::<Vec<_>>().join(", ")
    }
}

/// The buffers that one of the two gets.
#[derive(Default)]
struct Lent {
    image: Vec<u8>,
    scratch: Vec<u8>,
    output: Vec<u8>,
}

pub struct Both {
    library: Lent,
    peer: Lent,
    noise: Vec<u8>,
    /// Of the last listing.
    pub runs: u32,
    pub random: Random,
    pub tally: Tally,
}

/// More than the longest scratch and output.
const NOISE_BYTES: usize = 1 << 19;

impl Both {
    pub fn new(seed: u64) -> Both {
        let mut random = Random::new(seed);
        let noise = (0..NOISE_BYTES).map(|_| random.below(256) as u8).collect();
        Both { library: Lent::default(), peer: Lent::default(), noise, runs: 0, random, tally: Tally::default() }
    }

    /// Lends this image from now on.
    pub fn lend(&mut self, image: &[u8]) {
        self.library.image = image.to_vec();
        self.peer.image = image.to_vec();
    }

    pub fn image(&self) -> &[u8] {
        &self.library.image
    }

    pub fn pages(&self) -> usize {
        self.image().len() / 512
    }

    /// What a call borrows of the scratch.
    pub fn borrowed(&self) -> usize {
        scratch_bytes(self.pages())
    }

    /// Sets bytes of the image that both have; what was there.
    pub fn set(&mut self, at: usize, bytes: &[u8]) -> Vec<u8> {
        let before = self.library.image[at..at + bytes.len()].to_vec();
        self.library.image[at..at + bytes.len()].copy_from_slice(bytes);
        self.peer.image[at..at + bytes.len()].copy_from_slice(bytes);
        before
    }

    /// Does a call both ways with a scratch and an output of these lengths and any content; the status. The image goes on
    /// as the call left it. Ends the program at a difference.
    pub fn ask(&mut self, call: Call, scratch: usize, output: usize) -> u32 {
        let from = self.random.below(64) as usize;
        for lent in [&mut self.library, &mut self.peer] {
            refill(&mut lent.scratch, &self.noise[from..from + scratch]);
            refill(&mut lent.output, &self.noise[from..from + output]);
        }
        let expected = by_library(call, &mut self.library);
        let answer = by_peer(call, &mut self.peer);
        if expected != answer {
            self.differ(call, &format!("{expected:?} by the library, {answer:?} by the peer"));
        }
        self.compare_bytes(call);
        if let Answer::Listing(listing) = answer {
            self.runs = listing.runs;
        }
        self.tally.0[call.place()][answer.status() as usize] += 1;
        answer.status()
    }

    /// The bytes that a call may write.
    fn compare_bytes(&self, call: Call) {
        if matches!(call, Call::Instant { .. } | Call::Average { .. }) {
            return;
        }
        let Both { library, peer, .. } = self;
        for (name, ours, theirs) in [
            ("image", &library.image, &peer.image),
            ("scratch", &library.scratch, &peer.scratch),
            ("output", &library.output, &peer.output),
        ] {
            if ours != theirs {
                let at = (0..ours.len()).find(|i| ours[*i] != theirs[*i]).expect("they differ");
                self.differ(call, &format!("{name}, first at byte {at} (page {}, offset {})", at / 512, at % 512));
            }
        }
    }

    /// A difference ends the program.
    fn differ(&self, call: Call, what: &str) -> ! {
        println!("the peer and the library differ after {} equal calls", self.tally.calls());
        println!("{call:?} on {} pages: {what}", self.pages());
        std::process::exit(1)
    }
}

fn refill(buffer: &mut Vec<u8>, content: &[u8]) {
    buffer.clear();
    buffer.extend_from_slice(content);
}

fn by_library(call: Call, lent: &mut Lent) -> Answer {
    let Lent { image, scratch, output } = lent;
    match call {
        Call::Instant { t } => Answer::Instant(raw::instant(image, t)),
        Call::Average { t } => Answer::Average(raw::average(image, t)),
        Call::Listing { a, b } => Answer::Listing(raw::listing(image, a, b, output)),
        Call::Audit => Answer::Status(raw::audit(image, scratch)),
        Call::Enter { v, s, e } => Answer::Status(raw::enter(image, scratch, v, s, e)),
        Call::Withdraw { v, s, e } => Answer::Status(raw::withdraw(image, scratch, v, s, e)),
    }
}

fn by_peer(call: Call, lent: &mut Lent) -> Answer {
    let Lent { image, scratch, output } = lent;
    match call {
        Call::Instant { t } => Answer::Instant(peer::instant(image, t)),
        Call::Average { t } => Answer::Average(peer::average(image, t)),
        Call::Listing { a, b } => Answer::Listing(peer::listing(image, a, b, output)),
        Call::Audit => Answer::Status(peer::audit(image, scratch)),
        Call::Enter { v, s, e } => Answer::Status(peer::enter(image, scratch, v, s, e)),
        Call::Withdraw { v, s, e } => Answer::Status(peer::withdraw(image, scratch, v, s, e)),
    }
}
