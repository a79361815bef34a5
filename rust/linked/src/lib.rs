//! The proved library behind the signatures of `reference`.
//!
//! Each wrapper turns slices into pointers and lengths and calls the function of include/pool.h. That is sound: a
//! slice's pointer is not null, also where the slice is empty, and points to as many elements as its length says;
//! exclusive borrows do not overlap with others; and the functions read and write inside what they are lent.
mod boundary;

use boundary::*;
pub use reference::{Counts, Errors, Found, Obeyed, Part, Recovery, RecoveryReply, Repaired, Reply, Transaction};
pub use reference::{ADDRESS, BARRIER, DONE, REFUSED, STARTED, STORED, TAKEN};
pub use reference::{NOTHING, PRINTED, RECALLED, SAVING};

/// The archive that is linked.
pub const ARCHIVE: &str = env!("POOL_C_ARCHIVE");

pub fn format(pool: &mut [u8], rows: usize, cols: usize, zones: usize, id: u64) -> usize {
    unsafe { pool_format(pool.as_mut_ptr(), pool.len(), rows, cols, zones, id) }
}

pub fn mend(pool: &mut [u8]) -> usize {
    unsafe { pool_mend(pool.as_mut_ptr(), pool.len()) }
}

pub fn look(pool: &[u8], address: usize) -> Part {
    unsafe { pool_look(pool.as_ptr(), pool.len(), address) }
}

pub fn look_up(pool: &[u8], tag: u32, from: usize) -> Found {
    unsafe { pool_look_up(pool.as_ptr(), pool.len(), tag, from) }
}

pub fn scrub(pool: &[u8]) -> Counts {
    unsafe { pool_scrub(pool.as_ptr(), pool.len()) }
}

pub fn repair(pool: &mut [u8], lost: &[u16]) -> Repaired {
    unsafe { pool_repair(pool.as_mut_ptr(), pool.len(), lost.as_ptr(), lost.len()) }
}

pub fn check(bytes: &[u8]) -> u32 {
    unsafe { pool_check(bytes.as_ptr(), bytes.len()) }
}

pub fn begin(pool: &[u8]) -> Reply {
    unsafe { pool_begin(pool.as_ptr(), pool.len()) }
}

pub fn allocate(t: Transaction, pool: &[u8], staging: &mut [u8], tag: u32, body: &[u8]) -> Reply {
    let (s, n) = (staging.as_mut_ptr(), staging.len());
    unsafe { pool_allocate(t, pool.as_ptr(), pool.len(), s, n, tag, body.as_ptr(), body.len()) }
}

pub fn write(t: Transaction, pool: &[u8], staging: &mut [u8], address: usize, at: usize, bytes: &[u8]) -> Reply {
    let (s, n) = (staging.as_mut_ptr(), staging.len());
    unsafe { pool_write(t, pool.as_ptr(), pool.len(), s, n, address, at, bytes.as_ptr(), bytes.len()) }
}

pub fn free(t: Transaction, pool: &[u8], staging: &mut [u8], address: usize) -> Reply {
    let (s, n) = (staging.as_mut_ptr(), staging.len());
    unsafe { pool_free(t, pool.as_ptr(), pool.len(), s, n, address) }
}

pub fn commit(t: Transaction, pool: &[u8], staging: &[u8]) -> Reply {
    unsafe { pool_commit(t, pool.as_ptr(), pool.len(), staging.as_ptr(), staging.len()) }
}

pub fn commit_step(t: Transaction, pool: &mut [u8], staging: &[u8]) -> Reply {
    unsafe { pool_commit_step(t, pool.as_mut_ptr(), pool.len(), staging.as_ptr(), staging.len()) }
}

pub fn commit_advance(t: Transaction, pool: &mut [u8], staging: &[u8]) -> Reply {
    unsafe { pool_commit_advance(t, pool.as_mut_ptr(), pool.len(), staging.as_ptr(), staging.len()) }
}

pub fn save(pool: &[u8], staging: &mut [u8], number: usize, body: &[u8]) -> Reply {
    let (s, n) = (staging.as_mut_ptr(), staging.len());
    unsafe { pool_save(pool.as_ptr(), pool.len(), s, n, number, body.as_ptr(), body.len()) }
}

pub fn recall(pool: &[u8], number: usize) -> Part {
    unsafe { pool_recall(pool.as_ptr(), pool.len(), number) }
}

pub fn command(line: &[u8], setup: &[u8], errors: Errors, pool: &[u8], staging: &mut [u8], out: &mut [u8]) -> Obeyed {
    let (l, s, p) = ((line.as_ptr(), line.len()), (setup.as_ptr(), setup.len()), (pool.as_ptr(), pool.len()));
    let (t, o) = ((staging.as_mut_ptr(), staging.len()), (out.as_mut_ptr(), out.len()));
    unsafe { pool_command(l.0, l.1, s.0, s.1, errors, p.0, p.1, t.0, t.1, o.0, o.1) }
}

pub fn recover(pool: &[u8]) -> RecoveryReply {
    unsafe { pool_recover(pool.as_ptr(), pool.len()) }
}

pub fn recover_step(r: Recovery, pool: &mut [u8]) -> RecoveryReply {
    unsafe { pool_recover_step(r, pool.as_mut_ptr(), pool.len()) }
}

pub fn recover_advance(r: Recovery, pool: &mut [u8]) -> RecoveryReply {
    unsafe { pool_recover_advance(r, pool.as_mut_ptr(), pool.len()) }
}
