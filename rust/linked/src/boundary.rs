//! The functions of include/pool.h, one for one. The records are those of `reference`, which lie in memory as the C
//! structs do.
use reference::{Counts, Errors, Found, Obeyed, Part, Recovery, RecoveryReply, Repaired, Reply, Transaction};

extern "C" {
    pub fn pool_format(pool: *mut u8, pool_length: usize, rows: usize, cols: usize, zones: usize, id: u64) -> usize;
    pub fn pool_mend(pool: *mut u8, pool_length: usize) -> usize;
    pub fn pool_look(pool: *const u8, pool_length: usize, address: usize) -> Part;
    pub fn pool_look_up(pool: *const u8, pool_length: usize, tag: u32, from: usize) -> Found;
    pub fn pool_scrub(pool: *const u8, pool_length: usize) -> Counts;
    pub fn pool_repair(pool: *mut u8, pool_length: usize, lost: *const u16, lost_length: usize) -> Repaired;
    pub fn pool_check(bytes: *const u8, length: usize) -> u32;
    pub fn pool_begin(pool: *const u8, pool_length: usize) -> Reply;
    pub fn pool_allocate(
        transaction: Transaction,
        pool: *const u8,
        pool_length: usize,
        staging: *mut u8,
        staging_length: usize,
        tag: u32,
        body: *const u8,
        body_length: usize,
    ) -> Reply;
    pub fn pool_write(
        transaction: Transaction,
        pool: *const u8,
        pool_length: usize,
        staging: *mut u8,
        staging_length: usize,
        address: usize,
        at: usize,
        bytes: *const u8,
        bytes_length: usize,
    ) -> Reply;
    pub fn pool_free(
        transaction: Transaction,
        pool: *const u8,
        pool_length: usize,
        staging: *mut u8,
        staging_length: usize,
        address: usize,
    ) -> Reply;
    pub fn pool_commit(transaction: Transaction, pool: *const u8, pool_length: usize, staging: *const u8, staging_length: usize) -> Reply;
    pub fn pool_commit_step(
        transaction: Transaction,
        pool: *mut u8,
        pool_length: usize,
        staging: *const u8,
        staging_length: usize,
    ) -> Reply;
    pub fn pool_commit_advance(
        transaction: Transaction,
        pool: *mut u8,
        pool_length: usize,
        staging: *const u8,
        staging_length: usize,
    ) -> Reply;
    pub fn pool_save(
        pool: *const u8,
        pool_length: usize,
        staging: *mut u8,
        staging_length: usize,
        number: usize,
        body: *const u8,
        body_length: usize,
    ) -> Reply;
    pub fn pool_recall(pool: *const u8, pool_length: usize, number: usize) -> Part;
    pub fn pool_command(
        line: *const u8,
        line_length: usize,
        setup: *const u8,
        setup_length: usize,
        errors: Errors,
        pool: *const u8,
        pool_length: usize,
        staging: *mut u8,
        staging_length: usize,
        out: *mut u8,
        out_length: usize,
    ) -> Obeyed;
    pub fn pool_recover(pool: *const u8, pool_length: usize) -> RecoveryReply;
    pub fn pool_recover_step(recovery: Recovery, pool: *mut u8, pool_length: usize) -> RecoveryReply;
    pub fn pool_recover_advance(recovery: Recovery, pool: *mut u8, pool_length: usize) -> RecoveryReply;
}
