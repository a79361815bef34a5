//! Request A.1: the look-up by tag, and set-ups 0 to 9 over it. Set-up n is the object with tag 100 + n, the lowest address if several; its
//! body has 120 bytes.

use crate::header::{open, open_unsealed, unsealed};
use crate::layout::Shape;
use crate::records::{Found, Part, Reply, Transaction, REFUSED};
use crate::refusal::{BROKEN, DAMAGED, NO_SETUP, SETUP_NUMBER, SETUP_SIZE, STAGING};
use crate::runs::{is_damaged, part, walk, Run};
use crate::transaction::{allocate, begin, write};

const LAST: usize = 9;
const FIRST_TAG: u32 = 100;
const SIZE: usize = 120;

/// The lowest address, at or above `from`, of an object with this tag; damaged ones count. Refusals 2, 3, 4, 2, 21, 23.
pub fn look_up(pool: &[u8], tag: u32, from: usize) -> Found {
    let found = open_unsealed(pool).and_then(|header| first_tagged(pool, header.shape, tag, from));
    match found {
        Ok(Some((address, _))) => Found { refusal: 0, found: 1, address },
        Ok(None) => Found { refusal: 0, found: 0, address: 0 },
        Err(refusal) => Found { refusal, found: 0, address: 0 },
    }
}

/// A transaction on this pool with one call staged: allocates the set-up, or writes it whole. A refused save hands back a record that no call
/// takes. Refusals 32, 33 (given), 2, 3, 4, 2, 9, 21, 23, 25, 33 (found), 26.
pub fn save(pool: &[u8], staging: &mut [u8], number: usize, body: &[u8]) -> Reply {
    let reply = match may_save(pool, staging, number, body) {
        Ok((tag, None)) => allocate(begin(pool).transaction, pool, staging, tag, body),
        Ok((_, Some(address))) => write(begin(pool).transaction, pool, staging, address, 0, body),
        Err(refusal) => Transaction::NONE.reply(REFUSED, refusal),
    };
    let transaction = if reply.kind == REFUSED { Transaction::NONE } else { reply.transaction };
    Reply { transaction, ..reply }
}

/// The set-up's body as a part of the pool, committed bytes only. Refusals 32, 2, 3, 4, 2, 21, 23, 31, 25, 33.
pub fn recall(pool: &[u8], number: usize) -> Part {
    part(find_setup(pool, number))
}

/// The set-up's tag, and its address if it is there: all refusals of a save but 26.
fn may_save(pool: &[u8], staging: &[u8], number: usize, body: &[u8]) -> Result<(u32, Option<usize>), usize> {
    let tag = setup_tag(number)?;
    judge_size(body.len())?;
    let shape = open(pool)?.shape;
    if staging.len() < Shape::STAGING {
        return Err(STAGING);
    }
    unsealed(pool)?;
    let setup = first_tagged(pool, shape, tag, 0)?;
    if let Some((_, object)) = setup {
        judge_found(pool, object)?;
    }
    Ok((tag, setup.map(|(address, _)| address)))
}

fn find_setup(pool: &[u8], number: usize) -> Result<Run, usize> {
    let tag = setup_tag(number)?;
    let shape = open_unsealed(pool)?.shape;
    let (_, object) = first_tagged(pool, shape, tag, 0)?.ok_or(NO_SETUP)?;
    judge_found(pool, object)?;
    Ok(object)
}

/// Refusal 32.
fn setup_tag(number: usize) -> Result<u32, usize> {
    if number > LAST {
        return Err(SETUP_NUMBER);
    }
    Ok(FIRST_TAG + number as u32)
}

/// Refusal 33.
fn judge_size(body: usize) -> Result<(), usize> {
    (body == SIZE).then_some(()).ok_or(SETUP_SIZE)
}

/// 25, 33.
fn judge_found(pool: &[u8], object: Run) -> Result<(), usize> {
    if is_damaged(pool, object) {
        return Err(DAMAGED);
    }
    judge_size(object.head.body)
}

/// Refusal 23: all zones are judged, also those behind the object.
fn first_tagged(pool: &[u8], shape: Shape, tag: u32, from: usize) -> Result<Option<(usize, Run)>, usize> {
    let mut first = None;
    for zone in 0..shape.zones {
        let whole = walk(pool, shape, zone, |run| {
            let address = zone * shape.zone_cells() + run.cell;
            if first.is_none() && address >= from && !run.head.is_free() && run.head.tag == tag {
                first = Some((address, run));
            }
        });
        if !whole {
            return Err(BROKEN);
        }
    }
    Ok(first)
}
