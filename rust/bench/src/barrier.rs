//! Barriers as on a cached x86-64: `clwb` for each line of 64 bytes stored to, then `sfence`.
use crate::fixture::{target, Shape, ENTRY, PAGE};
use std::arch::asm;
use std::arch::x86_64::{__cpuid, __cpuid_count, _mm_sfence};

const LINE: usize = 64;
const LOGS: [usize; 2] = [2 * PAGE, 10 * PAGE];

/// Whether the processor has `clwb`.
pub fn is_there() -> bool {
    __cpuid(0).eax >= 7 && __cpuid_count(7, 0).ebx >> 24 & 1 == 1
}

/// The barriers of one commit: its entries tell which lines each of its five parts stores to.
pub struct Lines<'a> {
    shape: Shape,
    entries: &'a [u8],
    part: usize,
}

impl<'a> Lines<'a> {
    pub fn new(shape: Shape, entries: &'a [u8]) -> Lines<'a> {
        Lines { shape, entries, part: 1 }
    }

    /// Passes the barrier of the next part.
    pub fn pass(&mut self, pool: &[u8]) {
        let count = self.entries.len() / ENTRY;
        let targets = (0..count).map(|i| target(self.entries, i));
        match self.part {
            1 => LOGS.iter().for_each(|log| write_back(pool, (log + ENTRY..log + ENTRY + ENTRY * count).step_by(8))),
            2 | 5 => write_back(pool, LOGS.into_iter()),
            3 => write_back(pool, targets),
            _ => write_back(pool, targets.map(|target| self.shape.parity_place(target))),
        }
        unsafe { _mm_sfence() };
        self.part += 1;
    }
}

/// Writes back the lines that hold these offsets; one that comes again at once only once.
fn write_back(pool: &[u8], offsets: impl Iterator<Item = usize>) {
    let mut last = usize::MAX;
    for offset in offsets {
        if offset / LINE != last {
            last = offset / LINE;
            unsafe { asm!("clwb [{}]", in(reg) &pool[offset], options(nostack, preserves_flags)) };
        }
    }
}
