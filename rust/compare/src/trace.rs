//! A call watched instruction by instruction: which words of the pool change, and at which instruction.
//!
//! With the processor's trap flag set, every instruction is followed by a trap, which the system hands to this process as the signal SIGTRAP.
//! Its handler compares the pool with what it was at the last trap. The flag is of the thread, so that calls of several threads may be watched at
//! once. A store that leaves the bytes as they are is not seen.
use std::arch::asm;
use std::cell::Cell;
use std::ptr::null_mut;
use std::sync::Once;

/// A word that changed: where it lies in the pool, what it became, and after how many instructions.
#[derive(Clone, Copy, Debug, PartialEq, Eq)]
pub struct Change {
    pub at: usize,
    pub word: u64,
    pub instruction: usize,
}

/// What the handler works on. It allocates nothing: changes beyond the room for them are counted only.
struct Watch {
    pool: *const u64,
    last: Vec<u64>,
    changes: Vec<Change>,
    changed: usize,
    instructions: usize,
}

impl Watch {
    fn trapped(&mut self) {
        self.instructions += 1;
        for (i, last) in self.last.iter_mut().enumerate() {
            // The pool is changed by the call that is being watched, outside what the compiler sees.
            let word = unsafe { self.pool.add(i).read_volatile() };
            if word != *last {
                *last = word;
                self.changed += 1;
                if self.changes.len() < self.changes.capacity() {
                    self.changes.push(Change { at: i * 8, word, instruction: self.instructions });
                }
            }
        }
    }
}

thread_local! {
    static WATCH: Cell<*mut Watch> = const { Cell::new(null_mut()) };
}

extern "C" {
    fn signal(number: i32, handler: extern "C" fn(i32)) -> usize;
}

const SIGTRAP: i32 = 5;
const ROOM: usize = 4096;

extern "C" fn on_trap(_: i32) {
    if let Some(watch) = unsafe { WATCH.get().as_mut() } {
        watch.trapped();
    }
}

/// Makes the call and answers what it answers, every change of a word in order, and the number of instructions. The pool is words, so that it
/// begins at a multiple of 8.
pub fn watched<A>(pool: &mut [u64], call: impl FnOnce(&mut [u8]) -> A) -> (A, Vec<Change>, usize) {
    static HANDLER: Once = Once::new();
    HANDLER.call_once(|| assert_ne!(unsafe { signal(SIGTRAP, on_trap) }, usize::MAX, "no handler for SIGTRAP"));
    let mut watch = Watch { pool: pool.as_ptr(), last: pool.to_vec(), changes: Vec::with_capacity(ROOM), changed: 0, instructions: 0 };
    let bytes = bytes_mut(pool);
    WATCH.set(&mut watch);
    // The flags' bit 8 is the trap flag.
    unsafe { asm!("pushfq", "or qword ptr [rsp], 0x100", "popfq") };
    let answer = call(bytes);
    unsafe { asm!("pushfq", "and qword ptr [rsp], -0x101", "popfq") };
    WATCH.set(null_mut());
    assert_eq!(watch.changed, watch.changes.len(), "more changes than there is room for");
    assert!(watch.instructions > 0, "the trap flag has no effect");
    (answer, watch.changes, watch.instructions)
}

pub fn bytes_mut(words: &mut [u64]) -> &mut [u8] {
    // Every byte of a word is a byte, and a byte has no alignment.
    unsafe { std::slice::from_raw_parts_mut(words.as_mut_ptr().cast(), words.len() * 8) }
}
