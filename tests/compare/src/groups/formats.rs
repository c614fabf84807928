//! Format at every number of pages, over any bytes, and what the calls answer on the fresh image.

use plain::END;

use crate::calls::{Answer, Call};
use crate::comparer::Comparer;
use crate::images::{bytes_of, scratch_bytes, Pool, CAPACITIES};

const KINDS: [u32; 9] = [0, 1, 2, 3, 4, 255, 257, 1 << 31, u32::MAX];
const WINDOWS: [u32; 8] = [0, 1, 20, 999_999_999, 1_000_000_000, 1_000_000_001, 1 << 31, u32::MAX];

pub fn formats(comparer: &mut Comparer, _: &Pool, part: usize) {
    for n in (2 + part..=1_024).step_by(4) {
        let bytes = comparer.random.bytes(512 * n);
        comparer.lend(&bytes);
        let kind = 1 + (n % 3) as u32;
        comparer.format_of(24, kind, 4);
        comparer.format_of(24, kind, 1_000_000_000);
        audits(comparer, n);
        comparer.instant(END - 1);
        comparer.listings(0, END);
        // The same number of pages at another K.
        let k = CAPACITIES[n % CAPACITIES.len()];
        let bytes = comparer.random.bytes(bytes_of(k) * n);
        comparer.lend(&bytes);
        assert_eq!(comparer.format_of(k, kind, 7).status, 0);
        audits(comparer, n);
        comparer.instant(n as u32);
    }
    if part == 0 {
        comparer.lend(&[0x11; 1_024]);
        for kind in KINDS {
            for window in WINDOWS {
                comparer.format_of(24, kind, window);
                comparer.audit();
                comparer.average(0);
            }
        }
    }
}

/// "n/8 bytes, rounded up": with these, with one less, and with a byte for each page.
fn audits(comparer: &mut Comparer, n: usize) {
    for (scratch, status) in [(scratch_bytes(n) - 1, 17), (scratch_bytes(n), 0), (n, 0)] {
        comparer.expect(Call::Audit, scratch, 0, Answer::status(status));
    }
}
