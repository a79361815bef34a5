//! The header and its copy: SGPL, R, C, Z, version 1, pool id (8), check over bytes 0 to 15 (4), zeros.

use crate::checksum::check;
use crate::layout::{word, WORD};
use crate::layout::{Shape, HEADERS, LOG_A, LOG_B, PAGE};
use crate::refusal::{HEADERS_DIFFER, LENGTH, NO_HEADER, OTHER_POOL, SEALED};

const LETTERS: &[u8; 4] = b"SGPL";
const VERSION: u8 = 1;
const ID: usize = 8;
const CHECK: usize = 16;
const REST: usize = 20;

/// What a valid copy tells.
#[derive(Clone, Copy)]
pub struct Header {
    pub shape: Shape,
    pub id: u64,
}

impl Header {
    /// Refusal 11: a record with this id was begun on another pool.
    pub fn judge_id(self, id: u64) -> Result<(), usize> {
        (id == self.id).then_some(()).ok_or(OTHER_POOL)
    }
}

/// The header of a pool of this shape.
pub fn header(shape: Shape, id: u64) -> [u8; PAGE] {
    let mut page = [0; PAGE];
    page[..4].copy_from_slice(LETTERS);
    page[4] = shape.rows as u8;
    page[5] = shape.cols as u8;
    page[6] = shape.zones as u8;
    page[7] = VERSION;
    page[ID..ID + WORD].copy_from_slice(&id.to_le_bytes());
    let sum = check(&page[..CHECK]);
    page[CHECK..REST].copy_from_slice(&sum.to_le_bytes());
    debug_assert!(valid(&page).is_some());
    page
}

/// What this copy tells, if it is valid.
fn valid(page: &[u8]) -> Option<Header> {
    let shape = Shape::new(page[4].into(), page[5].into(), page[6].into())?;
    let id = word(page, ID);
    let fits = &page[..4] == LETTERS
        && page[7] == VERSION
        && id != 0
        && page[CHECK..REST] == check(&page[..CHECK]).to_le_bytes()
        && page[REST..] == [0; PAGE - REST];
    fits.then_some(Header { shape, id })
}

/// The pool's first valid header; refusals 2 (under 512), 3, 4, 2 (length), in this order.
pub fn open(pool: &[u8]) -> Result<Header, usize> {
    if pool.len() < HEADERS {
        return Err(LENGTH);
    }
    let (first, second) = pool[..HEADERS].split_at(PAGE);
    let header = if first == second {
        valid(first).ok_or(NO_HEADER)?
    } else {
        match (valid(first), valid(second)) {
            (Some(_), Some(_)) => return Err(HEADERS_DIFFER),
            (one, other) => one.or(other).ok_or(NO_HEADER)?,
        }
    };
    if pool.len() != header.shape.length() {
        return Err(LENGTH);
    }
    Ok(header)
}

/// As `open`, and refusal 21: a seal is not zero.
pub fn open_unsealed(pool: &[u8]) -> Result<Header, usize> {
    let header = open(pool)?;
    unsealed(pool)?;
    Ok(header)
}

/// Refusal 21 of an open pool.
pub fn unsealed(pool: &[u8]) -> Result<(), usize> {
    (word(pool, LOG_A) == 0 && word(pool, LOG_B) == 0).then_some(()).ok_or(SEALED)
}

/// Header mending copies the valid header over an invalid one. It does not judge seals.
pub fn mend(pool: &mut [u8]) -> usize {
    if let Err(refusal) = open(pool) {
        return refusal;
    }
    let (first, second) = pool[..HEADERS].split_at_mut(PAGE);
    if valid(first).is_some() {
        second.copy_from_slice(first);
    } else {
        first.copy_from_slice(second);
    }
    0
}
