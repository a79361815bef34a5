//! A log: seal (8), zero (8), up to 127 entries. Seal: check of the entries (4), count (2), mark (2); zero means empty.

use crate::checksum::check;
use crate::layout::{word, Shape, ENTRY, LOG_ENTRIES};
use crate::writeset::targets_fit;

const MARK: u64 = 0xA51C;

/// The seal of these entries.
pub fn seal(entries: &[u8]) -> u64 {
    let count = (entries.len() / ENTRY) as u64;
    debug_assert!((1..=Shape::ENTRIES as u64).contains(&count));
    MARK << 48 | count << 32 | u64::from(check(entries))
}

pub fn entries(pool: &[u8], log: usize, count: usize) -> &[u8] {
    &pool[log + LOG_ENTRIES..][..count * ENTRY]
}

/// A valid log's count: mark, count of 1 to 127 and check fit, and the targets.
pub fn valid(pool: &[u8], shape: Shape, log: usize) -> Option<usize> {
    let sealed = word(pool, log);
    let count = usize::from((sealed >> 32) as u16);
    if sealed >> 48 != MARK || !(1..=Shape::ENTRIES).contains(&count) {
        return None;
    }
    let entries = entries(pool, log, count);
    (sealed == seal(entries) && targets_fit(shape, entries)).then_some(count)
}
