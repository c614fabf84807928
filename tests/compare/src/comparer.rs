//! One image, lent to the plain version and to the library alike; every call is done by both and compared: the status and
//! the answer, and every byte of image, scratch and output, with the bytes around them. Of a change also the pages that it
//! wrote, against those that its steps name; of an instant the pair, start and end, against the image and at other instants of its
//! entry; of a rebuild the target, against its source.

use std::cell::Cell;
use std::sync::Mutex;

use plain::RecordedChange;

use crate::calls::{by_library, by_plain, Answer, Call, Lent};
use crate::guarded::Guarded;
use crate::images::{leaf_entry_at, pages_of, pair_on_way};
use crate::random::Random;
use crate::rebuilds::{scratch_behind, Rebuild};
use crate::steps::Change;
use crate::tally::Tally;

/// Where the comparison is, for a message that lets one repeat it.
#[derive(Clone, Copy)]
pub struct Position {
    pub group: &'static str,
    pub part: usize,
    pub seed: u64,
    pub call_number: u64,
    pub call: Option<Call>,
}

thread_local! {
    static POSITION: Cell<Position> = const { Cell::new(Position { group: "", part: 0, seed: 0, call_number: 0, call: None }) };
}

pub struct Comparer {
    position: Position,
    /// The image as the plain version has it.
    image: Vec<u8>,
    lent: Guarded,
    /// The image ahead of a call that writes it.
    before: Vec<u8>,
    /// Scratch and target ahead of a rebuild.
    before_rebuild: [Vec<u8>; 2],
    scratch: Vec<u8>,
    lent_scratch: Guarded,
    output: Vec<u8>,
    lent_output: Guarded,
    noise: Vec<u8>,
    null: bool,
    pub random: Random,
    pub tally: Tally,
}

/// More than the longest scratch and output of the groups.
const NOISE_BYTES: usize = 1 << 20;

impl Comparer {
    pub fn new(group: &'static str, part: usize, seed: u64) -> Comparer {
        let mut random = Random::new(seed);
        Comparer {
            position: Position { group, part, seed, call_number: 0, call: None },
            image: Vec::new(),
            lent: Guarded::new(),
            before: Vec::new(),
            before_rebuild: [Vec::new(), Vec::new()],
            scratch: Vec::new(),
            lent_scratch: Guarded::new(),
            output: Vec::new(),
            lent_output: Guarded::new(),
            noise: random.bytes(NOISE_BYTES),
            null: false,
            random,
            tally: Tally::default(),
        }
    }

    // ------------------------------------------------------------ the image

    /// Lends this image from now on.
    pub fn lend(&mut self, image: &[u8]) {
        self.image.clear();
        self.image.extend_from_slice(image);
        let lean = self.random.below(16);
        self.lent.fill(image, lean);
    }

    pub fn image(&self) -> &[u8] {
        &self.image
    }

    /// What the last call left in its output; of a rebuild that is its target.
    pub fn output(&self) -> &[u8] {
        &self.output
    }

    /// The pages of the image, by the K that it names.
    pub fn pages(&self) -> usize {
        pages_of(&self.image)
    }

    /// Sets bytes of the image that both have.
    pub fn set(&mut self, at: usize, bytes: &[u8]) {
        self.image[at..at + bytes.len()].copy_from_slice(bytes);
        self.lent.lent()[at..at + bytes.len()].copy_from_slice(bytes);
    }

    /// Lends empty buffers as null from now on, or no longer.
    pub fn lend_null(&mut self, null: bool) {
        self.null = null;
    }

    // ------------------------------------------------------------ a call

    /// Does a call both ways with a scratch and an output of these lengths and any content; the image goes on as the call
    /// left it. Ends the program at a difference.
    pub fn ask(&mut self, call: Call, scratch: usize, output: usize) -> Answer {
        fill(&mut self.scratch, &mut self.lent_scratch, &self.noise, scratch, &mut self.random);
        fill(&mut self.output, &mut self.lent_output, &self.noise, output, &mut self.random);
        self.ask_filled(call)
    }

    /// The same with an output that holds these bytes.
    pub fn ask_onto(&mut self, call: Call, scratch: usize, held: &[u8]) -> Answer {
        fill(&mut self.scratch, &mut self.lent_scratch, &self.noise, scratch, &mut self.random);
        self.output.clear();
        self.output.extend_from_slice(held);
        self.lent_output.fill(held, self.random.below(16));
        self.ask_filled(call)
    }

    /// With the scratch and the output that are at hand.
    fn ask_filled(&mut self, call: Call) -> Answer {
        self.position.call_number += 1;
        self.position.call = Some(call);
        POSITION.set(self.position);
        if call.writes() {
            self.before.clear();
            self.before.extend_from_slice(&self.image);
        }
        if call == Call::Rebuild {
            self.before_rebuild = [self.scratch.clone(), self.output.clone()];
        }

        let Comparer { image, scratch, output, .. } = self;
        let (expected, recorded) = by_plain(call, Lent { image, scratch, output });
        let (image, scratch, output) = (self.lent.lent(), self.lent_scratch.lent(), self.lent_output.lent());
        let answer = by_library(call, Lent { image, scratch, output }, self.null);
        let difference = self
            .difference(expected, answer)
            .or_else(|| self.wrong_instant(call, answer))
            .or_else(|| self.wrong_target(call, answer))
            .or_else(|| self.wrong_writes(call, answer, recorded));
        if let Some(difference) = difference {
            self.end(&difference);
        }
        let found = if call.writes() { &self.before } else { &self.image };
        self.tally.add(call, &answer, found);
        self.tally.scratches.add(call, found, self.scratch.len());
        answer
    }

    /// A call whose answer a document tells: both give it.
    pub fn expect(&mut self, call: Call, scratch: usize, output: usize, expected: Answer) {
        let answer = self.ask(call, scratch, output);
        if answer != expected {
            self.end(&format!("the plain version and the library answer {answer:?}, expected is {expected:?}"));
        }
    }

    fn difference(&self, expected: Answer, answer: Answer) -> Option<String> {
        if answer != expected {
            return Some(format!("answer: plain {expected:?}, library {answer:?}"));
        }
        byte("image", &self.image, &self.lent)
            .or_else(|| byte("scratch", &self.scratch, &self.lent_scratch))
            .or_else(|| byte("output", &self.output, &self.lent_output))
    }

    /// What is wrong with an instant's answer: by the image, whose pages on the way are fit, and by the library's own answers, which are
    /// the same at the first instant of the leaf entry, at one between and at the last. A refused instant has neither start nor end; the
    /// answers of other calls have no such fields.
    fn wrong_instant(&mut self, call: Call, answer: Answer) -> Option<String> {
        let (Call::Instant { t }, 0) = (call, answer.status) else {
            return ((answer.start, answer.end) != (0, 0)).then(|| "a start and an end where none are due".to_string());
        };
        let (entry, pair) = (leaf_entry_at(&self.image, t), pair_on_way(&self.image, t));
        if (answer.start, answer.end) != (entry.start, entry.end) || t < answer.start || answer.end <= t {
            let Answer { start, end, .. } = answer;
            return Some(format!("start and end are {start} and {end} by both, {entry:?} by the image"));
        }
        if (answer.sum, answer.count) != (pair.sum, pair.count) {
            return Some(format!("the pair is {} and {} by both, {pair:?} on the way", answer.sum, answer.count));
        }
        self.tally.spans.add(&self.image, &entry);
        for other in entry.instants() {
            let lent = Lent { image: self.lent.lent(), scratch: &mut [], output: &mut [] };
            let again = by_library(Call::Instant { t: other }, lent, self.null);
            if again != answer {
                return Some(format!(
                    "the library answers {answer:?} at {t} and {again:?} at {other}, in the same entry"
                ));
            }
        }
        None
    }

    /// What is wrong with the target and the scratch of a rebuild, by the source and by what they held.
    fn wrong_target(&mut self, call: Call, answer: Answer) -> Option<String> {
        if call != Call::Rebuild {
            return None;
        }
        let (source, target, status) = (&self.image[..], self.lent_output.held(), answer.status);
        self.tally.rebuilds.add(source, target.len(), status);
        let [scratch_before, target_before] = &self.before_rebuild;
        if status != 0 && target != target_before {
            return Some("target: written by a refused rebuild".to_string());
        }
        if self.lent_scratch.held() != scratch_behind(source, status, scratch_before) {
            return Some("scratch: not as a rebuild leaves it".to_string());
        }
        if status == 0 {
            Rebuild { source, target }.difference()
        } else {
            None
        }
    }

    /// What a call wrote to the image that it may not write, by the image ahead of it.
    fn wrong_writes(&mut self, call: Call, answer: Answer, recorded: Option<RecordedChange>) -> Option<String> {
        let (before, after) = (&self.before, self.lent.held());
        if call.writes() && answer.status != 0 {
            return (before != after).then(|| "image: written by a refused call".to_string());
        }
        let recorded = recorded?;
        let change = Change { before, after, recorded: &recorded };
        self.tally.capacities.add_change(&change);
        self.tally.edges.add(&change);
        self.tally.steps.add(&change)
    }

    /// Tells the difference and how to see it again, keeps the image beside the program, and ends.
    fn end(&self, difference: &str) -> ! {
        let writes = self.position.call.is_some_and(Call::writes);
        let image = if writes { &self.before } else { &self.image };
        let beside = std::env::current_exe().unwrap_or_default().with_file_name("different.image");
        let kept = match std::fs::write(&beside, image) {
            Ok(()) => format!(", kept in {}", beside.display()),
            Err(_) => String::new(),
        };
        let buffers = format!(
            "image of {} bytes{kept}; scratch of {}, output of {}{}",
            image.len(),
            self.scratch.len(),
            self.output.len(),
            if self.null { "; empty ones are null" } else { "" }
        );
        end_at(self.position, &format!("{difference}\n  {buffers}"))
    }
}

/// Both get the same bytes out of the noise.
fn fill(plain: &mut Vec<u8>, guarded: &mut Guarded, noise: &[u8], length: usize, random: &mut Random) {
    let from = random.below(noise.len() - length);
    plain.clear();
    plain.extend_from_slice(&noise[from..from + length]);
    guarded.fill(plain, random.below(16));
}

/// The first byte of a buffer that differs.
fn byte(name: &str, plain: &[u8], guarded: &Guarded) -> Option<String> {
    let held = guarded.held();
    if plain != held {
        let at = plain.iter().zip(held).position(|(one, other)| one != other).unwrap_or(0);
        return Some(format!("{name}: byte {at} is {:02X} by plain, {:02X} by the library", plain[at], held[at]));
    }
    (!guarded.guards_stand()).then(|| format!("{name}: bytes ahead of it or behind it were written"))
}

// ---------------------------------------------------------------- the end of a comparison

/// One thread at a time tells its end.
static TELLING: Mutex<()> = Mutex::new(());

fn end_at(position: Position, what: &str) -> ! {
    let _one = TELLING.lock();
    let call = position.call.map_or(String::new(), |call| format!("{call:?}"));
    let Position { group, part, seed, call_number, .. } = position;
    println!("DIFFERENT: group {group}, part {part} (seed {seed}), call {call_number} of it: {call}");
    println!("  {what}");
    println!("  again: --only {group} --part {part}");
    std::process::exit(1)
}

/// A panic of the plain version, or of a group's own checks, ends the comparison like a difference.
pub fn end_at_a_panic() {
    std::panic::set_hook(Box::new(|panic| end_at(POSITION.get(), &format!("{panic}"))));
}
