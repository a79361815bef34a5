//! Pools and staged transactions to measure on, made by plain Rust.
use crate::library::PLAIN;
use reference::{allocate, commit, commit_step, format, free, Transaction, ADDRESS, DONE};
use std::ops::{Deref, DerefMut};

#[derive(Clone, Copy)]
pub struct Shape {
    pub rows: usize,
    pub cols: usize,
    pub zones: usize,
}

pub const SMALL: Shape = Shape { rows: 2, cols: 2, zones: 1 };
pub const LARGEST: Shape = Shape { rows: 15, cols: 64, zones: 16 };
pub const PAGE: usize = 256;
pub const ENTRY: usize = 16;
const ZONES: usize = 18 * PAGE;

impl Shape {
    pub fn row(self) -> usize {
        self.cols * PAGE
    }

    pub fn zone_start(self, zone: usize) -> usize {
        ZONES + zone * (self.rows + 1) * self.row()
    }

    pub fn length(self) -> usize {
        self.zone_start(self.zones)
    }

    /// Where the parity word of a data word lies.
    pub fn parity_place(self, target: usize) -> usize {
        let zone = (self.rows + 1) * self.row();
        let start = ZONES + (target - ZONES) / zone * zone;
        start + self.rows * self.row() + (target - start) % self.row()
    }

    pub fn name(self) -> String {
        format!("({},{},{})", self.rows, self.cols, self.zones)
    }
}

/// A pool's bytes at an address that is a multiple of the page.
pub struct Pool {
    memory: Vec<u8>,
    start: usize,
    length: usize,
}

impl Pool {
    fn new(length: usize) -> Pool {
        let memory = vec![0; length + PAGE];
        let start = memory.as_ptr().align_offset(PAGE);
        Pool { memory, start, length }
    }
}

impl Deref for Pool {
    type Target = [u8];
    fn deref(&self) -> &[u8] {
        &self.memory[self.start..][..self.length]
    }
}

impl DerefMut for Pool {
    fn deref_mut(&mut self) -> &mut [u8] {
        &mut self.memory[self.start..][..self.length]
    }
}

impl Clone for Pool {
    fn clone(&self) -> Pool {
        let mut copy = Pool::new(self.length);
        copy.copy_from_slice(self);
        copy
    }
}

/// Above the tags of set-ups.
const FIRST_TAG: u32 = 1000;

/// A pool with at most so many objects of this body length, and their addresses.
pub fn filled(shape: Shape, body: usize, objects: usize) -> (Pool, Vec<usize>) {
    let mut pool = Pool::new(shape.length());
    assert_eq!(format(&mut pool, shape.rows, shape.cols, shape.zones, 1), 0);
    let (mut addresses, mut staging, mut t) = (Vec::new(), [0; 2032], PLAIN.open(&pool));
    while addresses.len() < objects {
        let bytes: Vec<u8> = (0..body).map(|i| (i * 7 + addresses.len()) as u8).collect();
        let reply = allocate(t, &pool, &mut staging, FIRST_TAG + addresses.len() as u32, &bytes);
        if reply.kind == ADDRESS {
            addresses.push(reply.value);
            t = reply.transaction;
        } else if t.count > 0 {
            save(t, &mut pool, &staging); // the staging memory is full, or the pool is
            t = PLAIN.open(&pool);
        } else {
            return (pool, addresses);
        }
    }
    save(t, &mut pool, &staging);
    (pool, addresses)
}

/// As many objects of this body length as fit but one, the last, and their addresses.
pub fn nearly_full(shape: Shape, body: usize) -> (Pool, Vec<usize>) {
    let (mut pool, mut addresses) = filled(shape, body, usize::MAX);
    let mut staging = [0; 2032];
    let reply = free(PLAIN.open(&pool), &pool, &mut staging, addresses.pop().unwrap());
    save(reply.transaction, &mut pool, &staging);
    (pool, addresses)
}

fn save(t: Transaction, pool: &mut [u8], staging: &[u8]) {
    let mut reply = commit(t, pool, staging);
    while reply.kind != DONE {
        reply = commit_step(reply.transaction, pool, staging);
    }
}

pub fn target(staging: &[u8], i: usize) -> usize {
    u64::from_le_bytes(staging[i * ENTRY..][..8].try_into().unwrap()) as usize
}

/// Entries for the first words of zone 0 that are not to be avoided, with the words that stand there.
pub fn staged(shape: Shape, pool: &[u8], count: usize, avoid: &[usize]) -> (Transaction, [u8; 2032]) {
    let start = shape.zone_start(0);
    let words = (start..start + shape.rows * shape.row()).step_by(8).filter(|offset| !avoid.contains(offset));
    let mut staging = [0; 2032];
    let mut t = PLAIN.open(pool);
    for (entry, offset) in staging.chunks_exact_mut(ENTRY).zip(words).take(count) {
        entry[..8].copy_from_slice(&(offset as u64).to_le_bytes());
        entry[8..].copy_from_slice(&pool[offset..offset + 8]);
        t.count += 1;
    }
    assert_eq!(t.count, count);
    (t, staging)
}

/// Brings the first entries into another order.
pub fn shuffle(staging: &mut [u8], count: usize) {
    let mut state = 1u32;
    for last in (1..count).rev() {
        state = state.wrapping_mul(1_664_525).wrapping_add(1_013_904_223);
        let other = (state >> 8) as usize % (last + 1);
        let (low, high) = staging.split_at_mut(last * ENTRY);
        if other < last {
            low[other * ENTRY..][..ENTRY].swap_with_slice(&mut high[..ENTRY]);
        }
    }
}
