//! Commit and recovery by steps: each makes one aligned 8-byte store or is one barrier.

use crate::header::{open, unsealed, Header};
use crate::layout::{put_word, word, Shape, ENTRY, LOG_A, LOG_B, LOG_ENTRIES, WORD};
use crate::log::{entries, seal, valid};
use crate::records::{Recovery, RecoveryReply, Reply, Transaction};
use crate::records::{BARRIER, DONE, REFUSED, STARTED, STORED};
use crate::refusal::{IMPOSSIBLE, NO_LOG, STATE};
use crate::transaction::judge;
use crate::writeset::{new_word, target};

/// A step: the offset and the word that it stores, or a barrier.
type Step = Option<(usize, u64)>;

/// Part 1: each entry in turn, its two words in A, then in B. Barrier. Part 2: seal A, seal B. Barrier.
fn commit_at(place: usize, shape: Shape, pool: &[u8], entries: &[u8]) -> Step {
    let n = entries.len() / ENTRY;
    if place < 4 * n {
        let log = if place % 4 < 2 { LOG_A } else { LOG_B };
        let from = place / 4 * ENTRY + place % 2 * WORD;
        return Some((log + LOG_ENTRIES + from, word(entries, from)));
    }
    match place - 4 * n {
        0 | 3 => None,
        1 => Some((LOG_A, seal(entries))),
        2 => Some((LOG_B, seal(entries))),
        rest => replay_at(rest - 4, shape, pool, entries),
    }
}

/// Part 3: the data words in order. Barrier. Part 4: for each entry, the parity word at its place. Barrier. Part 5.
fn replay_at(place: usize, shape: Shape, pool: &[u8], entries: &[u8]) -> Step {
    let n = entries.len() / ENTRY;
    match place {
        _ if place < n => Some((target(entries, place) as usize, new_word(entries, place))),
        _ if place == n || place == 2 * n + 1 => None,
        _ if place <= 2 * n => Some(shape.parity(pool, target(entries, place - n - 1) as usize)),
        _ => clear_at(place - 2 * n - 2),
    }
}

/// Part 5: clear seal A, clear seal B. Barrier.
fn clear_at(place: usize) -> Step {
    [Some((LOG_A, 0)), Some((LOG_B, 0)), None][place]
}

/// Makes the step. Its kind; "done" is said only after the last.
fn make(pool: &mut [u8], step: Step, last: bool) -> usize {
    if let Some((offset, word)) = step {
        put_word(pool, offset, word);
    }
    match step {
        _ if last => DONE,
        Some(_) => STORED,
        None => BARRIER,
    }
}

pub fn commit_step(t: Transaction, pool: &mut [u8], staging: &[u8]) -> Reply {
    let (shape, place) = match next_of_commit(t, pool, staging) {
        Ok(next) => next,
        Err(refusal) => return t.reply(REFUSED, refusal),
    };
    let step = commit_at(place, shape, pool, &staging[..t.count * ENTRY]);
    let last = place + 1 == t.steps();
    let kind = make(pool, step, last);
    let phase = if last { Transaction::CLOSED } else { t.phase + 1 };
    Transaction { phase, ..t }.reply(kind, place + 1)
}

/// The pool's shape and the next step's place: 2, 3, 4, 2, 9, 10, 11, 29, and 21 at the first step only.
pub fn next_of_commit(t: Transaction, pool: &[u8], staging: &[u8]) -> Result<(Shape, usize), usize> {
    let header = open(pool)?;
    judge(t, header, staging)?;
    let place = t.phase.checked_sub(Transaction::COMMITTING).ok_or(STATE)?;
    if place == 0 {
        unsealed(pool)?;
    }
    Ok((header.shape, place))
}

/// Starts a recovery on this pool. A finished one has nothing to do. Refusals 2, 3, 4, 2, 22.
pub fn recover(pool: &[u8]) -> RecoveryReply {
    match started(pool) {
        Ok(r) if r.phase == Recovery::FINISHED => r.reply(DONE, 0),
        Ok(r) => r.reply(STARTED, 0),
        Err(refusal) => Recovery::NONE.reply(REFUSED, refusal),
    }
}

fn started(pool: &[u8]) -> Result<Recovery, usize> {
    let Header { shape, id } = open(pool)?;
    let work = work_of(pool, shape)?;
    let phase = if work == Recovery::NOTHING { Recovery::FINISHED } else { Recovery::RECOVERING };
    Ok(Recovery { id, work, phase })
}

/// Recovery replays A if valid, else B if valid. If neither is valid and a seal is zero, it clears both; else 22.
fn work_of(pool: &[u8], shape: Shape) -> Result<usize, usize> {
    if let Some(n) = valid(pool, shape, LOG_A) {
        return Ok(Recovery::REPLAY + 2 * n);
    }
    if let Some(n) = valid(pool, shape, LOG_B) {
        return Ok(Recovery::REPLAY + 2 * n + 1);
    }
    match (word(pool, LOG_A), word(pool, LOG_B)) {
        (0, 0) => Ok(Recovery::NOTHING),
        (0, _) | (_, 0) => Ok(Recovery::CLEAR),
        _ => Err(NO_LOG),
    }
}

pub fn recover_step(r: Recovery, pool: &mut [u8]) -> RecoveryReply {
    let (shape, place) = match next_of_recovery(r, pool) {
        Ok(next) => next,
        Err(refusal) => return r.reply(REFUSED, refusal),
    };
    let step = match replayed(r.work) {
        Some((log, n)) => replay_at(place, shape, pool, entries(pool, log, n)),
        None => clear_at(place),
    };
    let last = place + 1 == recovery_steps(r.work);
    let kind = make(pool, step, last);
    let phase = if last { Recovery::FINISHED } else { r.phase + 1 };
    Recovery { phase, ..r }.reply(kind, place + 1)
}

/// The log that this work replays, and its count.
pub fn replayed(work: usize) -> Option<(usize, usize)> {
    let code = work.checked_sub(Recovery::REPLAY)?;
    Some((if code % 2 == 0 { LOG_A } else { LOG_B }, code / 2))
}

/// Parts 3 to 5 have 2n + 5 steps, part 5 alone has 3.
pub fn recovery_steps(work: usize) -> usize {
    match (work, replayed(work)) {
        (_, Some((_, n))) => 2 * n + 5,
        (Recovery::CLEAR, _) => 3,
        _ => 0,
    }
}

/// The pool's shape and the next step's place: 2, 3, 4, 2, 10, 11, 29.
pub fn next_of_recovery(r: Recovery, pool: &[u8]) -> Result<(Shape, usize), usize> {
    let header = open(pool)?;
    let place = r.phase.checked_sub(Recovery::RECOVERING);
    if !is_possible(r.work, place, pool, header.shape) {
        return Err(IMPOSSIBLE);
    }
    header.judge_id(r.id)?;
    Ok((header.shape, place.ok_or(STATE)?))
}

/// The log is judged in parts 3 and 4, with their barriers; not if the recovery is finished, and so at no place.
fn is_possible(work: usize, place: Option<usize>, pool: &[u8], shape: Shape) -> bool {
    let log = replayed(work);
    if log.is_some_and(|(_, n)| n > Shape::ENTRIES) {
        return false;
    }
    let Some(place) = place else { return true };
    let judged = log.filter(|&(_, n)| place <= 2 * n + 1);
    place < recovery_steps(work) && judged.is_none_or(|(log, n)| valid(pool, shape, log) == Some(n))
}
