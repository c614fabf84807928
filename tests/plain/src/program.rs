//! Document 01, the program at the end of "Marks from the test rack".
//!
//! "The program reads lines `+ v s e` or `- v s e` from standard input (64 pages, kind 1, w = 0), prints
//! `line K refused N` for a refused line K (from 1), `line K unread` for any other form (fields one space apart, 1 to 10
//! digits, s and e at most END, v may have a minus; the last newline may be missing), then `runs` with their number, and
//! each run as start, end, sum, count, average (two decimals, a minus if below zero, zero without one, `-` for none)."
//!
//! Document 02, (xi): "The program and document 01's cases keep K = 24."

use crate::calls::{enter, format, listing, scratch_bytes, withdraw, ACCEPTED, RUN_BYTES};
use crate::capacity::OF_DOCUMENT_01;
use crate::value::{average_of, Average, END, TOTALS};

const PAGES: u32 = 64;
const WINDOW: u32 = 0;

/// In 64 pages there are at most 59 leaf pages, so the program has at most 1,416 runs.
const MOST_RUNS: usize = 1_416;

/// What the program prints for a text.
pub fn run(text: &[u8]) -> Vec<u8> {
    let mut image = vec![0; PAGES as usize * OF_DOCUMENT_01.page_bytes()];
    format(&mut image, TOTALS, WINDOW, OF_DOCUMENT_01.number());
    let mut printed = String::new();
    for (i, line) in lines_of(text).iter().enumerate() {
        printed.push_str(&answer_to_line(&mut image, i + 1, line));
    }
    printed.push_str(&print_runs(&image));
    printed.into_bytes()
}

/// "split at newlines; what follows the last one is a line only if it isn't empty" (R22).
fn lines_of(text: &[u8]) -> Vec<&[u8]> {
    let mut lines: Vec<&[u8]> = text.split(|&byte| byte == b'\n').collect();
    if lines.last().is_some_and(|last| last.is_empty()) {
        lines.pop();
    }
    lines
}

fn answer_to_line(image: &mut [u8], line_number: usize, line: &[u8]) -> String {
    let Some(read) = read_line(line) else { return format!("line {line_number} unread\n") };
    let mut scratch = vec![0; scratch_bytes(PAGES)];
    let status = match read.sign {
        Sign::Plus => enter(image, &mut scratch, read.v, read.s, read.e),
        Sign::Minus => withdraw(image, &mut scratch, read.v, read.s, read.e),
    };
    if status == ACCEPTED {
        String::new()
    } else {
        format!("line {line_number} refused {status}\n")
    }
}

// ---------------------------------------------------------------- reading a line

#[derive(Clone, Copy, PartialEq, Eq, Debug)]
enum Sign {
    Plus,
    Minus,
}

#[derive(Clone, Copy, PartialEq, Eq, Debug)]
struct Line {
    sign: Sign,
    v: i64,
    s: u32,
    e: u32,
}

/// "lines `+ v s e` or `- v s e`", "fields one space apart"; none is any other form (R23).
fn read_line(line: &[u8]) -> Option<Line> {
    let fields: Vec<&[u8]> = line.split(|&byte| byte == b' ').collect();
    let [sign, v, s, e] = fields[..] else { return None };
    Some(Line { sign: read_sign(sign)?, v: read_value(v)?, s: read_time(s)?, e: read_time(e)? })
}

fn read_sign(field: &[u8]) -> Option<Sign> {
    match field {
        b"+" => Some(Sign::Plus),
        b"-" => Some(Sign::Minus),
        _ => None,
    }
}

/// "1 to 10 digits". The minus is no digit, leading zeros are (R23).
fn read_digits(field: &[u8]) -> Option<i64> {
    if field.is_empty() || field.len() > 10 || !field.iter().all(u8::is_ascii_digit) {
        return None;
    }
    Some(field.iter().fold(0, |number, digit| 10 * number + i64::from(digit - b'0')))
}

/// "v may have a minus". Ten digits reach the call unwrapped (R24, R27).
fn read_value(field: &[u8]) -> Option<i64> {
    match field.strip_prefix(b"-") {
        Some(digits) => Some(-read_digits(digits)?),
        None => read_digits(field),
    }
}

/// "s and e at most END". Above it the line is unread (R25).
fn read_time(field: &[u8]) -> Option<u32> {
    u32::try_from(read_digits(field)?).ok()
}

// ---------------------------------------------------------------- printing the runs

/// "then `runs` with their number, and each run as start, end, sum, count, average". "The full listing is that over
/// [0, END)."
fn print_runs(image: &[u8]) -> String {
    let mut out = vec![0; MOST_RUNS * RUN_BYTES];
    let answer = listing(image, 0, END, &mut out);
    assert_eq!(answer.status, ACCEPTED, "the program's image is sound and its output long enough");
    let runs: Vec<&[u8]> = out.chunks(RUN_BYTES).take(answer.runs as usize).collect();
    let mut printed = format!("runs {}\n", answer.runs);
    for (i, run) in runs.iter().enumerate() {
        let start = u32::from_le_bytes(run[0..4].try_into().unwrap());
        let count = i32::from_le_bytes(run[4..8].try_into().unwrap());
        let sum = i64::from_le_bytes(run[8..16].try_into().unwrap());
        let end = match runs.get(i + 1) {
            Some(next) => u32::from_le_bytes(next[0..4].try_into().unwrap()),
            None => END,
        };
        let average = print_average(average_of(TOTALS, sum, count));
        printed.push_str(&format!("{start} {end} {sum} {count} {average}\n"));
    }
    printed
}

/// "two decimals, a minus if below zero, zero without one, `-` for none" (R26)
fn print_average(average: Average) -> String {
    match average {
        Average::None => "-".to_string(),
        Average::Hundredths(hundredths) => {
            let minus = if hundredths < 0 { "-" } else { "" };
            let whole = hundredths.abs() / 100;
            let rest = hundredths.abs() % 100;
            format!("{minus}{whole}.{rest:02}")
        }
        Average::Beyond => unreachable!("fit pages show sums of at most 10^15"),
    }
}
