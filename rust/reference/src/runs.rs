//! Cells and runs. Runs cover a zone from its first cell to its last; each begins with a head of two words:
//! kind (2), run length in cells (2), body length (4); check (4), tag (4).

use crate::checksum::Sums;
use crate::header::open_unsealed;
use crate::layout::{word, Shape, CELL, HEAD, WORD};
use crate::records::Part;
use crate::refusal::{BROKEN, DAMAGED, NO_OBJECT, OUT_OF_POOL};

const FREE: u16 = 1;
const OBJECT: u16 = 2;

/// Words by their offset: of the pool as committed, or as a transaction's entries change it.
pub trait Words {
    fn word_at(&self, offset: usize) -> u64;
}

impl Words for [u8] {
    fn word_at(&self, offset: usize) -> u64 {
        word(self, offset)
    }
}

#[derive(Clone, Copy)]
pub struct Head {
    pub kind: u16,
    pub cells: usize,
    pub body: usize,
    pub check: u32,
    pub tag: u32,
}

impl Head {
    pub fn new_free(cells: usize) -> Head {
        Head { kind: FREE, cells, body: 0, check: 0, tag: 0 }.checked(&[])
    }

    pub fn new_object(tag: u32, body: &[u8]) -> Head {
        let cells = cells_for(body.len());
        Head { kind: OBJECT, cells, body: body.len(), check: 0, tag }.checked(body)
    }

    fn from_words(first: u64, second: u64) -> Head {
        Head {
            kind: first as u16,
            cells: usize::from((first >> 16) as u16),
            body: (first >> 32) as usize,
            check: second as u32,
            tag: (second >> 32) as u32,
        }
    }

    pub fn words(self) -> [u64; 2] {
        let first = u64::from(self.kind) | (self.cells as u64) << 16 | (self.body as u64) << 32;
        [first, u64::from(self.check) | u64::from(self.tag) << 32]
    }

    fn checked(self, body: &[u8]) -> Head {
        Head { check: self.right_check(body), ..self }
    }

    /// The check covers head bytes 0 to 7 and 12 to 15, then the body.
    pub fn right_check(self, body: &[u8]) -> u32 {
        let first = self.words()[0].to_le_bytes();
        Sums::START.add(&first).add(&self.tag.to_le_bytes()).add(body).check()
    }

    /// Whether an object is damaged: its check is wrong, or one of the bytes between its body's end and its last cell's
    /// end is not zero. Given are all bytes of its cells behind the head.
    pub fn is_damaged(self, behind_head: &[u8]) -> bool {
        let (body, rest) = behind_head.split_at(self.body);
        self.check != self.right_check(body) || rest.iter().any(|&byte| byte != 0)
    }

    pub fn is_free(self) -> bool {
        self.kind == FREE
    }

    /// The rules of a head alone: an object's body is 1 to 496 bytes in the fewest cells; a free head has body length
    /// 0, tag 0 and the right check.
    fn is_well_formed(self) -> bool {
        match self.kind {
            FREE => self.cells != 0 && self.body == 0 && self.tag == 0 && self.check == self.right_check(&[]),
            OBJECT => (1..=Shape::BODY).contains(&self.body) && self.cells == cells_for(self.body),
            _ => false,
        }
    }
}

/// The fewest cells that hold 16 + body.
pub fn cells_for(body: usize) -> usize {
    (HEAD + body).div_ceil(CELL)
}

/// A run: its first cell within the zone, where its head lies in the pool, and its head.
#[derive(Clone, Copy)]
pub struct Run {
    pub cell: usize,
    pub offset: usize,
    pub head: Head,
}

/// Calls `visit` with each run of a zone in order. False if the zone is broken: at a head against its rules, a run past the zone's end, or a
/// free run right after a free run.
pub fn walk<W: Words + ?Sized>(words: &W, shape: Shape, zone: usize, mut visit: impl FnMut(Run)) -> bool {
    let (start, cells) = (shape.zone_start(zone), shape.zone_cells());
    let (mut cell, mut after_free) = (0, false);
    while cell < cells {
        let offset = start + cell * CELL;
        let head = Head::from_words(words.word_at(offset), words.word_at(offset + WORD));
        let fits = head.is_well_formed() && head.cells <= cells - cell;
        if !fits || after_free && head.is_free() {
            return false;
        }
        visit(Run { cell, offset, head });
        cell += head.cells;
        after_free = head.is_free();
    }
    debug_assert_eq!(cell, cells, "runs cover a zone to its last cell");
    true
}

/// An object with its neighbours in the zone.
pub struct Place {
    pub object: Run,
    pub before: Option<Run>,
    pub after: Option<Run>,
}

/// The object at this address; refusals 5, 23 (its zone judged whole), 24, in this order.
pub fn find<W: Words + ?Sized>(words: &W, shape: Shape, address: usize) -> Result<Place, usize> {
    let cells = shape.zone_cells();
    if address >= shape.zones * cells {
        return Err(OUT_OF_POOL);
    }
    let (zone, cell) = (address / cells, address % cells);
    let (mut before, mut object, mut after) = (None, None::<Run>, None);
    let whole = walk(words, shape, zone, |run| {
        if run.cell == cell {
            object = Some(run);
        } else if object.is_none() {
            before = Some(run);
        } else if after.is_none() {
            after = Some(run);
        }
    });
    if !whole {
        return Err(BROKEN);
    }
    let object = object.filter(|run| !run.head.is_free()).ok_or(NO_OBJECT)?;
    Ok(Place { object, before, after })
}

/// Whether an object of the committed pool is damaged.
pub fn is_damaged(pool: &[u8], Run { offset, head, .. }: Run) -> bool {
    head.is_damaged(&pool[offset + HEAD..offset + head.cells * CELL])
}

/// Look: the object's body as a part of the pool, committed bytes only.
pub fn look(pool: &[u8], address: usize) -> Part {
    part(find_committed(pool, address))
}

/// The part of the pool that holds the object's body.
pub fn part(object: Result<Run, usize>) -> Part {
    match object {
        Ok(Run { offset, head, .. }) => Part { refusal: 0, offset: offset + HEAD, length: head.body },
        Err(refusal) => Part { refusal, offset: 0, length: 0 },
    }
}

fn find_committed(pool: &[u8], address: usize) -> Result<Run, usize> {
    let shape = open_unsealed(pool)?.shape;
    let object = find(pool, shape, address)?.object;
    if is_damaged(pool, object) {
        return Err(DAMAGED);
    }
    Ok(object)
}
