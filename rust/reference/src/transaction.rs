//! The open transaction: its beginning, allocate, write, free, and the start of its commit.

use crate::checksum::updated;
use crate::header::{open, open_unsealed, unsealed, Header};
use crate::layout::{word, Shape, CELL, ENTRY, HEAD, WORD};
use crate::records::{Reply, Transaction, ADDRESS, DONE, REFUSED, STARTED, TAKEN};
use crate::refusal::{BODY, BROKEN, DAMAGED, IMPOSSIBLE, NO_OBJECT, NO_ROOM, RANGE, STAGING, STATE, TOO_MANY};
use crate::runs::{cells_for, find, walk, Head, Place, Run};
use crate::writeset::{targets_fit, WriteSet};

/// A fresh transaction on this pool: open, without entries. Refusals 2, 3, 4, 2, 21.
pub fn begin(pool: &[u8]) -> Reply {
    match open_unsealed(pool) {
        Ok(Header { id, .. }) => Transaction { id, count: 0, phase: Transaction::OPEN }.reply(TAKEN, 0),
        Err(refusal) => Transaction::NONE.reply(REFUSED, refusal),
    }
}

pub fn allocate(t: Transaction, pool: &[u8], staging: &mut [u8], tag: u32, body: &[u8]) -> Reply {
    match staged(t, pool, staging).and_then(|(shape, set)| stage_object(shape, set, tag, body)) {
        Ok((count, address)) => Transaction { count, ..t }.reply(ADDRESS, address),
        Err(refusal) => t.reply(REFUSED, refusal),
    }
}

pub fn write(t: Transaction, pool: &[u8], staging: &mut [u8], address: usize, at: usize, bytes: &[u8]) -> Reply {
    let count = staged(t, pool, staging).and_then(|(shape, set)| stage_range(shape, set, address, at, bytes));
    taken(t, count)
}

pub fn free(t: Transaction, pool: &[u8], staging: &mut [u8], address: usize) -> Reply {
    taken(t, staged(t, pool, staging).and_then(|(shape, set)| stage_free(shape, set, address)))
}

/// Starting a commit closes staging and makes no store; an empty transaction is done in no step.
pub fn commit(t: Transaction, pool: &[u8], staging: &[u8]) -> Reply {
    if let Err(refusal) = may_commit(t, pool, staging) {
        return t.reply(REFUSED, refusal);
    }
    if t.count == 0 {
        return Transaction { phase: Transaction::CLOSED, ..t }.reply(DONE, 0);
    }
    Transaction { phase: Transaction::COMMITTING, ..t }.reply(STARTED, 0)
}

/// 2, 3, 4, 2, 9, 10, 11, 29, 21.
fn may_commit(t: Transaction, pool: &[u8], staging: &[u8]) -> Result<(), usize> {
    judge(t, open(pool)?, staging)?;
    is_open(t)?;
    unsealed(pool)
}

/// The open transaction's write set: refusals 2, 3, 4, 2, 9, 10, 11, 29, 21.
fn staged<'a>(t: Transaction, pool: &'a [u8], staging: &'a mut [u8]) -> Result<(Shape, WriteSet<'a>), usize> {
    let header = open(pool)?;
    judge_counts(t, staging)?;
    let set = WriteSet::new(header.shape, pool, staging, t.count).ok_or(IMPOSSIBLE)?;
    header.judge_id(t.id)?;
    is_open(t)?;
    unsealed(pool)?;
    Ok((header.shape, set))
}

/// Refusals 9, 10 and 11: the record and its entries are judged in every state.
pub fn judge(t: Transaction, header: Header, staging: &[u8]) -> Result<(), usize> {
    judge_counts(t, staging)?;
    targets_fit(header.shape, &staging[..t.count * ENTRY]).then_some(()).ok_or(IMPOSSIBLE)?;
    header.judge_id(t.id)
}

/// 9, and of 10: a count above 127, or a place past the commit's list.
fn judge_counts(t: Transaction, staging: &[u8]) -> Result<(), usize> {
    if staging.len() < Shape::STAGING {
        return Err(STAGING);
    }
    if t.count > Shape::ENTRIES {
        return Err(IMPOSSIBLE);
    }
    match t.phase.checked_sub(Transaction::COMMITTING) {
        Some(place) if place >= t.steps() => Err(IMPOSSIBLE),
        _ => Ok(()),
    }
}

/// Refusal 29.
fn is_open(t: Transaction) -> Result<(), usize> {
    (t.phase == Transaction::OPEN).then_some(()).ok_or(STATE)
}

fn taken(t: Transaction, count: Result<usize, usize>) -> Reply {
    match count {
        Ok(count) => Transaction { count, ..t }.reply(TAKEN, 0),
        Err(refusal) => t.reply(REFUSED, refusal),
    }
}

/// Touches all words of the object's cells and, if cells remain, both head words of the remainder: 6, 23 or 26, 27.
fn stage_object(shape: Shape, mut set: WriteSet, tag: u32, body: &[u8]) -> Result<(usize, usize), usize> {
    if body.is_empty() || body.len() > Shape::BODY {
        return Err(BODY);
    }
    let cells = cells_for(body.len());
    let (zone, run) = first_fit(shape, &set, cells)?;
    let end = run.offset + cells * CELL;
    let remain = run.head.cells - cells;
    let touched = if remain > 0 { end + HEAD } else { end };
    if !set.has_room((run.offset..touched).step_by(WORD)) {
        return Err(TOO_MANY);
    }
    let mut bytes = [0; HEAD + Shape::BODY];
    bytes[HEAD..][..body.len()].copy_from_slice(body);
    touch_head(&mut set, run.offset, Head::new_object(tag, body));
    for place in (HEAD..cells * CELL).step_by(WORD) {
        set.touch(run.offset + place, word(&bytes, place));
    }
    if remain > 0 {
        touch_head(&mut set, end, Head::new_free(remain));
    }
    let address = zone * shape.zone_cells() + run.cell;
    debug_assert!(set.targets_fit(shape) && find_undamaged(shape, &set, address, &mut bytes).is_ok());
    Ok((set.count, address))
}

/// The lowest zone's lowest free run that is long enough; each zone is first judged whole: 23 or 26.
fn first_fit(shape: Shape, set: &WriteSet, cells: usize) -> Result<(usize, Run), usize> {
    for zone in 0..shape.zones {
        let mut fit = None;
        let whole = walk(set, shape, zone, |run| {
            if fit.is_none() && run.head.is_free() && run.head.cells >= cells {
                fit = Some(run);
            }
        });
        if !whole {
            return Err(BROKEN);
        }
        if let Some(run) = fit {
            return Ok((zone, run));
        }
    }
    Err(NO_ROOM)
}

/// Touches head bytes 8 to 15 and the words that hold the range: 5, 23, 24, 25, 7, 27.
fn stage_range(shape: Shape, mut set: WriteSet, address: usize, at: usize, bytes: &[u8]) -> Result<usize, usize> {
    let mut buffer = [0; HEAD + Shape::BODY];
    let Run { offset, head, .. } = find_undamaged(shape, &set, address, &mut buffer)?.object;
    if bytes.is_empty() || at > head.body || bytes.len() > head.body - at {
        return Err(RANGE);
    }
    let first = (HEAD + at) / WORD * WORD;
    let end = (HEAD + at + bytes.len()).next_multiple_of(WORD);
    let touched = (first..end).step_by(WORD);
    let mut offsets = std::iter::once(WORD).chain(touched.clone()).map(|place| offset + place);
    if !set.has_room(&mut offsets) {
        return Err(TOO_MANY);
    }
    // The check counts 12 head bytes, then the body.
    let old = &mut buffer[HEAD + at..][..bytes.len()];
    let check = updated(head.check, 12 + head.body, 12 + at, old, bytes);
    old.copy_from_slice(bytes);
    debug_assert_eq!(check, head.right_check(&buffer[HEAD..][..head.body]));
    set.touch(offset + WORD, Head { check, ..head }.words()[1]);
    for place in touched {
        set.touch(offset + place, word(&buffer, place));
    }
    debug_assert!(set.targets_fit(shape) && find_undamaged(shape, &set, address, &mut buffer).is_ok());
    Ok(set.count)
}

/// Joins the run with free neighbours and touches the two head words of the joined run: 5, 23, 24, 25, 27.
fn stage_free(shape: Shape, mut set: WriteSet, address: usize) -> Result<usize, usize> {
    let mut buffer = [0; HEAD + Shape::BODY];
    let Place { object, before, after } = find_undamaged(shape, &set, address, &mut buffer)?;
    let free = |run: Option<Run>| run.filter(|run| run.head.is_free());
    let cells = |run: Option<Run>| run.map_or(0, |run| run.head.cells);
    let (before, after) = (free(before), free(after));
    let offset = before.unwrap_or(object).offset;
    if !set.has_room([offset, offset + WORD].into_iter()) {
        return Err(TOO_MANY);
    }
    let joined = cells(before) + object.head.cells + cells(after);
    touch_head(&mut set, offset, Head::new_free(joined));
    debug_assert!(set.targets_fit(shape) && find(&set, shape, address).err() == Some(NO_OBJECT), "the zone is whole, the object gone");
    Ok(set.count)
}

/// The object at this address, and the staged bytes of its cells: 5, 23, 24, 25.
fn find_undamaged(shape: Shape, set: &WriteSet, address: usize, buffer: &mut [u8; HEAD + Shape::BODY]) -> Result<Place, usize> {
    let place = find(set, shape, address)?;
    let Run { offset, head, .. } = place.object;
    set.read(offset, &mut buffer[..head.cells * CELL]);
    if head.is_damaged(&buffer[HEAD..head.cells * CELL]) {
        return Err(DAMAGED);
    }
    Ok(place)
}

fn touch_head(set: &mut WriteSet, offset: usize, head: Head) {
    let [first, second] = head.words();
    set.touch(offset, first);
    set.touch(offset + WORD, second);
}
