//! The program: document 01's example, the readings R22 to R26, and document 02, (ix).

use crate::support::*;
use plain::run;

fn prints(text: &str, expected: &str) {
    assert_eq!(String::from_utf8(run(text.as_bytes())).unwrap(), expected, "for {text:?}");
}

const EMPTY: &str = "runs 1\n0 4294967295 0 0 -\n";

#[test]
fn the_example() {
    let expected = "runs 6\n0 10 0 0 -\n10 20 6 1 6.00\n20 25 14 3 4.67\n25 40 9 2 4.50\n40 50 3 1 3.00\n\
                    50 4294967295 0 0 -\n";
    prints("+ 6 10 40\n+ 3 20 50\n+ 5 20 25\n", expected);
    // "the last newline may be missing"
    prints("+ 6 10 40\n+ 3 20 50\n+ 5 20 25", expected);
}

/// R22
#[test]
fn lines() {
    prints("", EMPTY);
    prints("\n", &format!("line 1 unread\n{EMPTY}"));
    prints("\n\n", &format!("line 1 unread\nline 2 unread\n{EMPTY}"));
    prints("+ 1 5 9\n\n- 1 5 9", &format!("line 2 unread\n{EMPTY}"));
    prints("+ 1 5 9\n- 1 5 9\n\n", &format!("line 3 unread\n{EMPTY}"));
}

/// R23 and R25: any other form is unread.
#[test]
fn unread() {
    let forms = [
        " ",
        "+",
        "-",
        "+ ",
        "+ 1",
        "+ 1 2",
        "+ 1 2 3 ",
        "+ 1 2 3 4",
        " + 1 2 3",
        "+  1 2 3",
        "+ 1  2 3",
        "+ 1 2  3",
        "+1 2 3",
        "+1 2 3 4",
        "1 2 3",
        "* 1 2 3",
        "++ 1 2 3",
        "+- 1 2 3",
        "+ +1 2 3",
        "+ --1 2 3",
        "+ - 2 3",
        "+ 1- 2 3",
        "+ 1 -2 3",
        "+ 1 2 -3",
        "+ 1 +2 3",
        "+ 1 2 3\r",
        "+\t1 2 3",
        "+ 1\t2 3",
        "+ 1 2 3\t",
        "+ 1.0 2 3",
        "+ 1 2 0x3",
        "+ a 2 3",
        "+ 1 2 b",
        "+ 00000000001 2 3",
        "+ -00000000001 2 3",
        "+ 12345678901 2 3",
        "+ 1 00000000002 3",
        "+ 1 2 00000000003",
        "+ 1 2 4294967296",
        "+ 1 4294967296 5",
        "+ 1 9999999999 5",
        "+ 9999999999 5 4294967296",
        "+ 1 2 3#",
        "+ 1,2 3",
        "+ 1 2 3 -",
        "+ ١ 2 3",
        "−1 2 3 4",
    ];
    for form in forms {
        prints(form, &format!("line 1 unread\n{EMPTY}"));
        prints(&format!("{form}\n"), &format!("line 1 unread\n{EMPTY}"));
    }
    assert_eq!(run(b"+ 1 2 \xFF"), format!("line 1 unread\n{EMPTY}").into_bytes());
    assert_eq!(run(b"\x00"), format!("line 1 unread\n{EMPTY}").into_bytes());
}

/// R23 to R25: forms that are read.
#[test]
fn read() {
    let runs = |average: &str, v: &str| format!("runs 3\n0 2 0 0 -\n2 3 {v} 1 {average}\n3 4294967295 0 0 -\n");
    prints("+ 0000000007 0000000002 0000000003", &runs("7.00", "7"));
    prints("+ -0000000007 2 3", &runs("-7.00", "-7"));
    prints("+ -0 2 3", &runs("0.00", "0"));
    prints("+ -1000000 2 3", &runs("-1000000.00", "-1000000"));
    prints("- 7 2 3", "runs 3\n0 2 0 0 -\n2 3 -7 -1 -\n3 4294967295 0 0 -\n");
    prints("- -7 2 3", "runs 3\n0 2 0 0 -\n2 3 7 -1 -\n3 4294967295 0 0 -\n");
    prints("+ 7 0 4294967295", "runs 1\n0 4294967295 7 1 7.00\n");
    prints("+ 7 4294967294 4294967295", "runs 2\n0 4294967294 0 0 -\n4294967294 4294967295 7 1 7.00\n");
}

#[test]
fn refused() {
    prints("+ 1 5 5", &format!("line 1 refused 11\n{EMPTY}"));
    prints("+ 1 4294967295 4294967295", &format!("line 1 refused 11\n{EMPTY}"));
    prints("+ 1000001 5 6\n- -1000001 5 6\n", &format!("line 1 refused 13\nline 2 refused 13\n{EMPTY}"));
    // R24: ten digits don't wrap: 4294967297 is 1 in 32 bits.
    prints("+ 4294967297 5 6\n+ 9999999999 5 6\n+ -9999999999 5 6", &{
        format!("line 1 refused 13\nline 2 refused 13\nline 3 refused 13\n{EMPTY}")
    });
    prints("+ -4294967297 5 6\n- -4294967295 5 6", &format!("line 1 refused 13\nline 2 refused 13\n{EMPTY}"));
    prints("+ 9999999999 6 6", &format!("line 1 refused 11\n{EMPTY}"));
    prints(
        "x\n+ 1 5 5\n+ 2 5 6\n",
        "line 1 unread\nline 2 refused 11\nruns 3\n0 5 0 0 -\n5 6 2 1 2.00\n6 4294967295 0 0 -\n",
    );
}

/// Document 02, (ix): "Sum −1 over count 8 is now −0.12, and −1 over 200 prints 0.00." "program listings follow."
#[test]
fn small_averages() {
    for (value, zeros, average) in [
        (-1, 7, "-0.12"),
        (1, 7, "0.12"),
        (3, 7, "0.38"),
        (-3, 7, "-0.38"),
        (-1, 198, "-0.01"),
        (-1, 199, "0.00"),
        (-1, 200, "0.00"),
        (1, 199, "0.00"),
        (3, 199, "0.02"),
        (-3, 199, "-0.02"),
        (0, 0, "0.00"),
    ] {
        let text = format!("+ {value} 2 3\n{}", "+ 0 2 3\n".repeat(zeros));
        let count = zeros + 1;
        prints(&text, &format!("runs 3\n0 2 0 0 -\n2 3 {value} {count} {average}\n3 4294967295 0 0 -\n"));
    }
}

/// Bookings until 64 pages lack: refused with 24, the runs are those of the accepted ones.
#[test]
fn until_pages_lack() {
    let mut text = String::new();
    let mut expected = String::new();
    let mut rack = Rack::new(64, 1, 0, 1);
    rack.by_step = false;
    let mut refused = 0;
    for i in 0..800u32 {
        let (v, s, e) = (1 + i64::from(i % 7), 10 * i + 10, 10 * i + 15);
        text.push_str(&format!("+ {v} {s} {e}\n"));
        let status = rack.enter(v, s, e);
        if status != 0 {
            assert_eq!(status, 24);
            refused += 1;
            expected.push_str(&format!("line {} refused 24\n", i + 1));
        }
    }
    let runs = rack.book.runs(0, plain::END);
    expected.push_str(&format!("runs {}\n", runs.len()));
    for (i, run) in runs.iter().enumerate() {
        let end = runs.get(i + 1).map_or(plain::END, |next| next.start);
        let average = if run.pair.count == 1 { format!("{}.00", run.pair.sum) } else { "-".to_string() };
        expected.push_str(&format!("{} {end} {} {} {average}\n", run.start, run.pair.sum, run.pair.count));
    }
    prints(&text, &expected);
    assert!(refused > 0 && runs.len() <= 1_416);
    report(&format!("program: 800 lines, {refused} refused with 24, {} runs", runs.len()));
}

/// How many leaf pages 64 pages can have, by counting: 59 of 24 entries are 1,416 runs.
#[test]
fn most_runs_in_64_pages() {
    let mut most_leaves = 0;
    for leaves in 1..=63usize {
        // The fewest pages above: each holds at most 24.
        let (mut pages, mut level) = (leaves, leaves);
        while level > 1 {
            level = level.div_ceil(24);
            pages += level;
        }
        if pages <= 63 {
            most_leaves = leaves;
        }
    }
    assert_eq!(most_leaves, 59);
    assert_eq!(24 * most_leaves, 1_416);
}
