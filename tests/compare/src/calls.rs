//! The calls, as the plain version and as the library do them. A further call is one more case here.

use luwhenoka::raw::{ffi, InstantAnswer};
use plain::{Average, RecordedChange};

#[derive(Clone, Copy, PartialEq, Eq, Debug)]
pub enum Call {
    Format {
        kind: u32,
        window: u32,
        capacity: u32,
    },
    Instant {
        t: u32,
    },
    Average {
        t: u32,
    },
    AverageOf {
        kind: u32,
        sum: i64,
        count: i32,
    },
    Listing {
        a: u32,
        b: u32,
    },
    Audit,
    Enter {
        v: i64,
        s: u32,
        e: u32,
    },
    Withdraw {
        v: i64,
        s: u32,
        e: u32,
    },
    /// The image is the source, the output the target.
    Rebuild,
}

/// Each call's name and each status that it can return: every one has to occur.
pub const NAMES: &[(&str, &[u32])] = &[
    ("format", &[0, 14, 16]),
    ("instant", &[0, 12, 16, 21]),
    ("average", &[0, 12, 16, 21]),
    ("average_of", &[0]),
    ("listing", &[0, 11, 15, 16, 21]),
    ("audit", &[0, 16, 17, 21]),
    ("enter", &[0, 11, 13, 16, 17, 21, 23, 24]),
    ("withdraw", &[0, 11, 13, 16, 17, 21, 22, 23, 24]),
    ("rebuild", &[0, 16, 17, 21, 24]),
];

impl Call {
    /// The call's place in [`NAMES`].
    pub fn place(self) -> usize {
        match self {
            Call::Format { .. } => 0,
            Call::Instant { .. } => 1,
            Call::Average { .. } => 2,
            Call::AverageOf { .. } => 3,
            Call::Listing { .. } => 4,
            Call::Audit => 5,
            Call::Enter { .. } => 6,
            Call::Withdraw { .. } => 7,
            Call::Rebuild => 8,
        }
    }

    /// Whether it may write the image.
    pub fn writes(self) -> bool {
        matches!(self, Call::Format { .. } | Call::Enter { .. } | Call::Withdraw { .. })
    }
}

/// The status that a call returns and all that it answers; 0 for what it doesn't have.
#[derive(Clone, Copy, PartialEq, Eq, Debug, Default)]
pub struct Answer {
    pub status: u32,
    pub pages: u32,
    pub sum: i64,
    pub count: i32,
    pub start: u32,
    pub end: u32,
    pub average: u32,
    pub hundredths: i64,
    pub runs: u32,
}

impl Answer {
    pub fn status(status: u32) -> Answer {
        Answer { status, ..Answer::default() }
    }

    /// An instant's, with the start and end of its leaf entry.
    pub fn pair(sum: i64, count: i32, pages: u32, (start, end): (u32, u32)) -> Answer {
        Answer { sum, count, pages, start, end, ..Answer::default() }
    }

    pub fn runs(runs: u32) -> Answer {
        Answer { runs, ..Answer::default() }
    }

    pub fn hundredths(hundredths: i64) -> Answer {
        Answer { average: 1, hundredths, ..Answer::default() }
    }
}

/// The buffers of a call; each call takes those that it has.
pub struct Lent<'a> {
    pub image: &'a mut [u8],
    pub scratch: &'a mut [u8],
    pub output: &'a mut [u8],
}

// ---------------------------------------------------------------- the plain version

/// Its answer and, of a change, its steps.
pub fn by_plain(call: Call, lent: Lent) -> (Answer, Option<RecordedChange>) {
    let Lent { image, scratch, output } = lent;
    let recorded = match call {
        Call::Enter { v, s, e } => plain::enter_recorded(image, scratch, v, s, e),
        Call::Withdraw { v, s, e } => plain::withdraw_recorded(image, scratch, v, s, e),
        _ => return (without_steps(call, Lent { image, scratch, output }), None),
    };
    (Answer::status(recorded.status), Some(recorded))
}

fn without_steps(call: Call, lent: Lent) -> Answer {
    let Lent { image, scratch, output } = lent;
    match call {
        Call::Format { kind, window, capacity } => Answer::status(plain::format(image, kind, window, capacity)),
        Call::Instant { t } => {
            let plain::Instant { status, sum, count, pages, start, end } = plain::instant(image, t);
            Answer { status, ..Answer::pair(sum, count, pages, (start, end)) }
        }
        Call::Average { t } => {
            let (status, hundredths) = plain::average(image, t);
            Answer { status, ..averaged(hundredths.map_or(Average::None, Average::Hundredths)) }
        }
        Call::AverageOf { kind, sum, count } => averaged(plain::average_of(kind, sum, count)),
        Call::Listing { a, b } => {
            let plain::Listing { status, runs } = plain::listing(image, a, b, output);
            Answer { status, runs, ..Answer::default() }
        }
        Call::Audit => Answer::status(plain::audit(image, scratch)),
        Call::Rebuild => Answer::status(plain::rebuild(image, output, scratch)),
        Call::Enter { .. } | Call::Withdraw { .. } => unreachable!("a change has steps"),
    }
}

fn averaged(average: Average) -> Answer {
    let (average, hundredths) = match average {
        Average::None => (0, 0),
        Average::Hundredths(hundredths) => (1, hundredths),
        Average::Beyond => (2, 0),
    };
    Answer { average, hundredths, ..Answer::default() }
}

// ---------------------------------------------------------------- the library

/// By its C functions, so that what it might write to an image that it should only read is seen too. An empty buffer is
/// lent as null if `null`.
pub fn by_library(call: Call, lent: Lent, null: bool) -> Answer {
    let (image, image_length) = parts(lent.image, null);
    let (scratch, scratch_length) = parts(lent.scratch, null);
    let (output, output_length) = parts(lent.output, null);
    unsafe {
        match call {
            Call::Format { kind, window, capacity } => {
                Answer::status(ffi::luw_format(image, image_length, kind, window, capacity))
            }
            Call::Instant { t } => {
                let InstantAnswer { status, pages, sum, count, start, end } = ffi::luw_instant(image, image_length, t);
                Answer { status, ..Answer::pair(sum, count, pages, (start, end)) }
            }
            Call::Average { t } => library_averaged(ffi::luw_average(image, image_length, t)),
            Call::AverageOf { kind, sum, count } => library_averaged(ffi::luw_average_of(kind, sum, count)),
            Call::Listing { a, b } => {
                let answer = ffi::luw_listing(image, image_length, a, b, output, output_length);
                Answer { status: answer.status, ..Answer::runs(answer.runs) }
            }
            Call::Audit => Answer::status(ffi::luw_audit(image, image_length, scratch, scratch_length)),
            Call::Enter { v, s, e } => {
                Answer::status(ffi::luw_enter(image, image_length, scratch, scratch_length, v, s, e))
            }
            Call::Withdraw { v, s, e } => {
                Answer::status(ffi::luw_withdraw(image, image_length, scratch, scratch_length, v, s, e))
            }
            Call::Rebuild => {
                Answer::status(ffi::luw_rebuild(image, image_length, output, output_length, scratch, scratch_length))
            }
        }
    }
}

fn parts(bytes: &mut [u8], null: bool) -> (*mut u8, usize) {
    if null && bytes.is_empty() {
        (std::ptr::null_mut(), 0)
    } else {
        (bytes.as_mut_ptr(), bytes.len())
    }
}

fn library_averaged(answer: luwhenoka::raw::AverageAnswer) -> Answer {
    let luwhenoka::raw::AverageAnswer { status, answer: average, hundredths } = answer;
    Answer { status, average, hundredths, ..Answer::default() }
}
