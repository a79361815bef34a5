//! A transaction's entries in the lent staging memory: one for each word touched, in order of first touch.

use crate::layout::{put_word, word, Shape, ENTRY, WORD};
use crate::runs::Words;

pub fn target(entries: &[u8], i: usize) -> u64 {
    word(entries, i * ENTRY)
}

pub fn new_word(entries: &[u8], i: usize) -> u64 {
    word(entries, i * ENTRY + WORD)
}

/// Targets are multiples of 8 inside data rows, and none repeats.
pub fn targets_fit(shape: Shape, entries: &[u8]) -> bool {
    let mut ascending = true;
    let mut last = 0;
    for entry in entries.chunks_exact(ENTRY) {
        let target = word(entry, 0);
        if !shape.is_target(target) {
            return false;
        }
        ascending &= last < target;
        last = target;
    }
    ascending || Index::new(entries).is_some()
}

/// A hash table of the targets with linear probing: a slot holds an entry's number plus 1, or 0.
struct Index {
    slots: [u8; Index::SLOTS],
}

impl Index {
    const SLOTS: usize = 256; // more than twice the 127 entries

    /// None if a target repeats.
    fn new(entries: &[u8]) -> Option<Index> {
        let mut index = Index { slots: [0; Index::SLOTS] };
        for i in 0..entries.len() / ENTRY {
            let slot = index.slot(entries, target(entries, i));
            if index.slots[slot] != 0 {
                return None;
            }
            index.slots[slot] = i as u8 + 1;
        }
        Some(index)
    }

    /// The slot of this target, or the empty one where it belongs.
    fn slot(&self, entries: &[u8], sought: u64) -> usize {
        let hash = (sought / WORD as u64).wrapping_mul(0x9E37_79B9_7F4A_7C15);
        let mut slot = (hash >> 56) as usize;
        while let Some(i) = self.entry(slot) {
            if target(entries, i) == sought {
                break;
            }
            slot = (slot + 1) % Index::SLOTS;
        }
        slot
    }

    fn entry(&self, slot: usize) -> Option<usize> {
        usize::from(self.slots[slot]).checked_sub(1)
    }
}

/// The pool as the entries change it.
pub struct WriteSet<'a> {
    pool: &'a [u8],
    staging: &'a mut [u8],
    before: usize, // entries of earlier calls
    pub count: usize,
    index: Index,
}

impl<'a> WriteSet<'a> {
    /// None if a target is none, or repeats.
    pub fn new(shape: Shape, pool: &'a [u8], staging: &'a mut [u8], count: usize) -> Option<Self> {
        let entries = &staging[..count * ENTRY];
        let fit = entries.chunks_exact(ENTRY).all(|entry| shape.is_target(word(entry, 0)));
        let index = Index::new(entries)?;
        fit.then_some(WriteSet { pool, staging, before: count, count, index })
    }

    fn find(&self, offset: usize) -> Option<usize> {
        self.index.entry(self.index.slot(self.staging, offset as u64))
    }

    /// Whether 127 entries hold the words at these offsets too.
    pub fn has_room(&self, offsets: impl Iterator<Item = usize>) -> bool {
        let added = offsets.filter(|&offset| self.find(offset).is_none()).count();
        self.count + added <= Shape::ENTRIES
    }

    /// A word touched twice keeps one entry.
    pub fn touch(&mut self, offset: usize, word: u64) {
        let slot = self.index.slot(self.staging, offset as u64);
        let i = self.index.entry(slot).unwrap_or_else(|| {
            let added = self.count;
            debug_assert!(added < Shape::ENTRIES, "at most 127 entries");
            debug_assert!(added == self.before || target(self.staging, added - 1) < offset as u64, "ascending within a call");
            put_word(self.staging, added * ENTRY, offset as u64);
            self.index.slots[slot] = added as u8 + 1;
            self.count += 1;
            added
        });
        put_word(self.staging, i * ENTRY + WORD, word);
    }

    /// Whether the entries may be committed, as they always may.
    pub fn targets_fit(&self, shape: Shape) -> bool {
        targets_fit(shape, &self.staging[..self.count * ENTRY])
    }

    /// Fills the buffer with the words from this offset on.
    pub fn read(&self, offset: usize, buffer: &mut [u8]) {
        for (i, bytes) in buffer.chunks_exact_mut(WORD).enumerate() {
            bytes.copy_from_slice(&self.word_at(offset + i * WORD).to_le_bytes());
        }
    }
}

impl Words for WriteSet<'_> {
    fn word_at(&self, offset: usize) -> u64 {
        match self.find(offset) {
            Some(i) => new_word(self.staging, i),
            None => word(self.pool, offset),
        }
    }
}
