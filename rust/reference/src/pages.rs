//! Whole pages: format, repair and scrub.

use crate::header::{header, open_unsealed};
use crate::layout::{put_word, Shape, PAGE, WORD};
use crate::records::{Counts, Repaired};
use crate::refusal::{LENGTH, LOSS_LIST, SHAPE, TWO_LOST};
use crate::runs::{is_damaged, walk, Head};

/// Makes each zone one free run, all other bytes zero, parity right: 1, 2.
pub fn format(pool: &mut [u8], rows: usize, cols: usize, zones: usize, id: u64) -> usize {
    let Some(shape) = Shape::new(rows, cols, zones).filter(|_| id != 0) else {
        return SHAPE;
    };
    if pool.len() != shape.length() {
        return LENGTH;
    }
    pool.fill(0);
    let header = header(shape, id);
    pool[..PAGE].copy_from_slice(&header);
    pool[PAGE..2 * PAGE].copy_from_slice(&header);
    let [first, second] = Head::new_free(shape.zone_cells()).words();
    for zone in 0..zones {
        let start = shape.zone_start(zone);
        // The only bytes of the zone that are not zero: the parity row repeats them.
        for head in [start, start + rows * shape.row_bytes()] {
            put_word(pool, head, first);
            put_word(pool, head + WORD, second);
        }
    }
    debug_assert_eq!(scrub(pool), Counts { refusal: 0, objects: 0, damaged: 0, broken: 0, columns: 0 });
    0
}

/// The page of a column in this row.
fn page(shape: Shape, zone: usize, column: usize, row: usize) -> usize {
    shape.zone_start(zone) + row * shape.row_bytes() + column * PAGE
}

/// The exclusive or of a column's pages, without those in the mask.
fn column_sum(pool: &[u8], shape: Shape, zone: usize, column: usize, without: u16) -> [u8; PAGE] {
    let mut sum = [0; PAGE];
    for row in (0..=shape.rows).filter(|row| without >> row & 1 == 0) {
        let other = &pool[page(shape, zone, column, row)..][..PAGE];
        sum.iter_mut().zip(other).for_each(|(sum, byte)| *sum ^= byte);
    }
    sum
}

/// In how many places two pages differ. A byte counts those of half a page.
fn differing(before: &[u8], after: &[u8]) -> usize {
    let differs = |(before, after): (&u8, &u8)| u8::from(before != after);
    let halves = before.chunks_exact(PAGE / 2).zip(after.chunks_exact(PAGE / 2));
    halves.map(|(before, after)| usize::from(before.iter().zip(after).map(differs).sum::<u8>())).sum()
}

/// Each lost page becomes the exclusive or of the column's others; all other bytes stay. Answers how many bytes of the pool
/// differ from before. Refusals 2, 3, 4, 2, 21, 8, 28.
pub fn repair(pool: &mut [u8], lost: &[u16]) -> Repaired {
    let mut repaired = Repaired { refusal: 0, altered: 0 };
    let shape = match may_repair(pool, lost) {
        Ok(shape) => shape,
        Err(refusal) => return Repaired { refusal, ..repaired },
    };
    for (i, &mask) in lost.iter().enumerate().filter(|(_, &mask)| mask != 0) {
        let (zone, column) = (i / shape.cols, i % shape.cols);
        let sum = column_sum(pool, shape, zone, column, mask);
        let row = mask.trailing_zeros() as usize;
        let page = &mut pool[page(shape, zone, column, row)..][..PAGE];
        repaired.altered += differing(page, &sum);
        page.copy_from_slice(&sum);
        debug_assert_eq!(column_sum(pool, shape, zone, column, 0), [0; PAGE], "parity is right");
    }
    repaired
}

fn may_repair(pool: &[u8], lost: &[u16]) -> Result<Shape, usize> {
    let shape = open_unsealed(pool)?.shape;
    let above = |&mask: &u16| u32::from(mask) >> (shape.rows + 1) != 0;
    if lost.len() != shape.zones * shape.cols || lost.iter().any(above) {
        return Err(LOSS_LIST);
    }
    if lost.iter().any(|mask| mask.count_ones() > 1) {
        return Err(TWO_LOST);
    }
    Ok(shape)
}

/// Objects met, damaged ones, broken zones, columns with wrong parity: 2, 3, 4, 2, 21.
pub fn scrub(pool: &[u8]) -> Counts {
    let mut counts = Counts { refusal: 0, objects: 0, damaged: 0, broken: 0, columns: 0 };
    let shape = match open_unsealed(pool) {
        Ok(header) => header.shape,
        Err(refusal) => return Counts { refusal, ..counts },
    };
    for zone in 0..shape.zones {
        count_runs(pool, shape, zone, &mut counts);
        let wrong = |&column: &usize| column_sum(pool, shape, zone, column, 0) != [0; PAGE];
        counts.columns += (0..shape.cols).filter(wrong).count();
    }
    counts
}

/// Runs before a break count; a damaged object is also an object met.
fn count_runs(pool: &[u8], shape: Shape, zone: usize, counts: &mut Counts) {
    let whole = walk(pool, shape, zone, |run| {
        if !run.head.is_free() {
            counts.objects += 1;
            counts.damaged += usize::from(is_damaged(pool, run));
        }
    });
    counts.broken += usize::from(!whole);
}
