//! Commit and recovery up to the next barrier: all steps from the next one on, up to the barrier that ends its part and with it. What the
//! first step judges is judged once; the stores between leave headers, seals and log as they were judged, so that none of the steps after
//! it would be refused.

use crate::layout::{put_word, word, Shape, ENTRY, LOG_A, LOG_B, LOG_ENTRIES, WORD};
use crate::log::{entries, seal};
use crate::records::{Recovery, RecoveryReply, Reply, Transaction, BARRIER, DONE, REFUSED};
use crate::steps::{next_of_commit, next_of_recovery, recovery_steps, replayed};
use crate::writeset::{new_word, target};

pub fn commit_advance(t: Transaction, pool: &mut [u8], staging: &[u8]) -> Reply {
    let (shape, place) = match next_of_commit(t, pool, staging) {
        Ok(next) => next,
        Err(refusal) => return t.reply(REFUSED, refusal),
    };
    let made = commit_from(place, shape, pool, &staging[..t.count * ENTRY]) + 1;
    if made == t.steps() {
        return Transaction { phase: Transaction::CLOSED, ..t }.reply(DONE, made);
    }
    Transaction { phase: Transaction::COMMITTING + made, ..t }.reply(BARRIER, made)
}

pub fn recover_advance(r: Recovery, pool: &mut [u8]) -> RecoveryReply {
    let (shape, place) = match next_of_recovery(r, pool) {
        Ok(next) => next,
        Err(refusal) => return r.reply(REFUSED, refusal),
    };
    let barrier = match replayed(r.work) {
        Some((log, n)) => replay_from(place, shape, pool, n, |pool, i| entry(entries(pool, log, n), i)),
        None => clear_from(place, pool),
    };
    let made = barrier + 1;
    if made == recovery_steps(r.work) {
        return Recovery { phase: Recovery::FINISHED, ..r }.reply(DONE, made);
    }
    Recovery { phase: Recovery::RECOVERING + made, ..r }.reply(BARRIER, made)
}

/// An entry's target and word.
fn entry(entries: &[u8], i: usize) -> (usize, u64) {
    (target(entries, i) as usize, new_word(entries, i))
}

/// Makes the stores of a commit from this place to the end of its part; answers the place of the part's barrier.
fn commit_from(place: usize, shape: Shape, pool: &mut [u8], entries: &[u8]) -> usize {
    let n = entries.len() / ENTRY;
    let sealing = 4 * n + 1;
    let replay = 4 * n + 4;
    match place {
        _ if place < sealing => {
            log_from(place, pool, entries);
            4 * n
        }
        _ if place < replay => {
            let seal = seal(entries);
            [LOG_A, LOG_B].into_iter().skip(place - sealing).for_each(|log| put_word(pool, log, seal));
            sealing + 2
        }
        _ => replay + replay_from(place - replay, shape, pool, n, |_, i| entry(entries, i)),
    }
}

/// Part 1: each entry in turn, its two words in A, then in B.
fn log_from(place: usize, pool: &mut [u8], entries: &[u8]) {
    for place in place..entries.len() / ENTRY * 4 {
        let log = if place % 4 < 2 { LOG_A } else { LOG_B };
        let from = place / 4 * ENTRY + place % 2 * WORD;
        put_word(pool, log + LOG_ENTRIES + from, word(entries, from));
    }
}

/// Part 3: the data words in order. Part 4: for each entry, the parity word at its place. Part 5. The entries lie in staging memory or in the pool.
fn replay_from(place: usize, shape: Shape, pool: &mut [u8], n: usize, entry: impl Fn(&[u8], usize) -> (usize, u64)) -> usize {
    let parity = n + 1;
    let clearing = 2 * n + 2;
    match place {
        _ if place < parity => {
            for i in place..n {
                let (target, word) = entry(pool, i);
                put_word(pool, target, word);
            }
            n
        }
        _ if place < clearing => {
            for i in place - parity..n {
                let (at, sum) = shape.parity(pool, entry(pool, i).0);
                put_word(pool, at, sum);
            }
            2 * n + 1
        }
        _ => clearing + clear_from(place - clearing, pool),
    }
}

/// Part 5: clear seal A, clear seal B.
fn clear_from(place: usize, pool: &mut [u8]) -> usize {
    [LOG_A, LOG_B].into_iter().skip(place).for_each(|log| put_word(pool, log, 0));
    2
}
