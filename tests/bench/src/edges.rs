//! Audits and changes before and after edges between pages join too, and in plain C: each at four places, as for the search. A
//! change is held against the audit of its image as well, since that is most of what it does.

use crate::booking::{changing, each_changed, left_by, Change};
use crate::copies::print_archives;
use crate::measure::{side_by_side, Column, Took, Work};
use crate::reading::{auditing, each_audited, Audit};
use crate::subjects::Booking;

// ---------------------------------------------------------------- the copies

struct Calls {
    audit: Audit,
    enter: Change,
    withdraw: Change,
}

/// The calls of an archive's four copies, which take slices as those of `luwhenoka::raw` do.
macro_rules! calls {
    ($name:ident: $($audit:ident $enter:ident $withdraw:ident),*) => {
        extern "C" {
            $(
                fn $audit(image: *const u8, image_length: usize, scratch: *mut u8, scratch_length: usize) -> u32;
                fn $enter(
                    image: *mut u8, image_length: usize, scratch: *mut u8, scratch_length: usize, v: i64, s: u32, e: u32,
                ) -> u32;
                fn $withdraw(
                    image: *mut u8, image_length: usize, scratch: *mut u8, scratch_length: usize, v: i64, s: u32, e: u32,
                ) -> u32;
            )*
        }
        const $name: [Calls; 4] = [$(Calls {
            audit: |image, scratch| unsafe {
                $audit(image.as_ptr(), image.len(), scratch.as_mut_ptr(), scratch.len())
            },
            enter: |image, scratch, v, s, e| unsafe {
                $enter(image.as_mut_ptr(), image.len(), scratch.as_mut_ptr(), scratch.len(), v, s, e)
            },
            withdraw: |image, scratch, v, s, e| unsafe {
                $withdraw(image.as_mut_ptr(), image.len(), scratch.as_mut_ptr(), scratch.len(), v, s, e)
            },
        }),*];
    };
}

calls!(BEFORE: before_0_audit before_0_enter before_0_withdraw, before_1_audit before_1_enter before_1_withdraw,
    before_2_audit before_2_enter before_2_withdraw, before_3_audit before_3_enter before_3_withdraw);
calls!(AFTER: after_0_audit after_0_enter after_0_withdraw, after_1_audit after_1_enter after_1_withdraw,
    after_2_audit after_2_enter after_2_withdraw, after_3_audit after_3_enter after_3_withdraw);
calls!(PLAIN_C: peer_0_audit peer_0_enter peer_0_withdraw, peer_1_audit peer_1_enter peer_1_withdraw,
    peer_2_audit peer_2_enter peer_2_withdraw, peer_3_audit peer_3_enter peer_3_withdraw);

/// Audits by a copy before it is another's turn: as many as a copy does changes. The first ones take longer, with branches that the
/// processor doesn't know yet and an image that others' have pushed out of its cache.
const AUDITS: usize = 400;

/// Every copy audits the image.
fn audits<'a>(column: Column, copies: &[Calls; 4], image: &'a [u8]) -> Work<'a> {
    Work::in_turn(column, AUDITS, copies.iter().map(|calls| auditing(column, image, calls.audit)))
}

/// Every copy does all changes, in an image of its own: where an edge would join, the archive of before leaves an entry, and that
/// image isn't sound for the other.
fn changes<'a>(column: Column, copies: &[Calls; 4], image: &[u8], spans: &'a [Booking]) -> Work<'a> {
    Work::in_turn(column, 1, copies.iter().map(|calls| changing(column, image, spans, calls.enter, calls.withdraw)))
}

// ---------------------------------------------------------------- the table

pub fn edges() {
    print_archives();
    println!("| call and case | ns before | ns after | × before | × audit before | × audit after | × plain C |");
    println!("|--|--|--|--|--|--|--|");
    each_audited(audit_of);
    each_changed(change_of);
}

fn audit_of(case: &str, image: &[u8]) {
    let took = side_by_side(vec![
        audits(Column::Library, &AFTER, image),
        audits(Column::Before, &BEFORE, image),
        audits(Column::PlainC, &PLAIN_C, image),
    ]);
    let [after, before, plain_c] = &took[..] else { unreachable!("three works") };
    print_row(case, before, after, ["–", "–"].map(String::from), plain_c);
}

/// Audits are of the image as the changes leave it, which all but the first ones find: it has more pages in use than the one booked.
fn change_of(case: &str, image: &[u8], spans: &[Booking]) {
    let left_by = |copies: &[Calls; 4]| left_by(image, spans, copies[0].enter, copies[0].withdraw);
    let (left_before, left_after) = (left_by(&BEFORE), left_by(&AFTER));
    let took = side_by_side(vec![
        changes(Column::Library, &AFTER, image, spans),
        changes(Column::Before, &BEFORE, image, spans),
        changes(Column::PlainC, &PLAIN_C, image, spans),
        audits(Column::Audit, &AFTER, &left_after),
        audits(Column::AuditBefore, &BEFORE, &left_before),
    ]);
    let [after, before, plain_c, audit_after, audit_before] = &took[..] else { unreachable!("five works") };
    let by_audit = |change: &Took, audit: &Took| format!("{:.2} ({})", change.by_all(&[audit]), audit.time());
    print_row(case, before, after, [by_audit(before, audit_before), by_audit(after, audit_after)], plain_c);
}

/// The call after the request is the first work, which ratios are of.
fn print_row(case: &str, before: &Took, after: &Took, by_audits: [String; 2], plain_c: &Took) {
    println!(
        "| {case} | {} | {} | {:.2} | {} | {:.2} ({}) |",
        before.time(),
        after.time(),
        before.ratio,
        by_audits.join(" | "),
        plain_c.ratio,
        plain_c.time()
    );
}
