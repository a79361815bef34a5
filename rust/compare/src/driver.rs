//! Commits and recoveries of the library, with barriers where it asks for them, until they end or the power fails. They are driven by the
//! calls that go on to the next barrier, with single steps beside them: the pool after each step is what a cut inside the call meets, and
//! at each barrier both ways must have come to the same bytes and the same answer.
use crate::layout::{has_seal, pool_shape, valid_log, LOGS};
use crate::memory::{Image, Memory};
use crate::random::Random;
use crate::staged::Staged;
use linked::{BARRIER, DONE, STARTED, STORED};
use std::fmt::Debug;

/// The answer of a call that goes on to the next barrier, and the pool that it leaves: made before the first of the steps that it stands for,
/// compared after the last.
struct Advanced<R>(Option<(R, Vec<u8>)>);

impl<R: PartialEq + Debug> Advanced<R> {
    fn make(&mut self, memory: &Memory, advance: impl FnOnce(&mut [u8]) -> R) {
        self.0.get_or_insert_with(|| {
            let mut pool = memory.seen().to_vec();
            (advance(&mut pool), pool)
        });
    }

    fn compare(&mut self, memory: &Memory, stepped: R) {
        let (advanced, pool) = self.0.take().expect("the call was made");
        assert_eq!(advanced, stepped, "one call up to the barrier, and single steps");
        assert!(pool == memory.seen(), "one call up to the barrier leaves other bytes than single steps: {stepped:?}");
    }
}

/// Steps of a commit of so many entries, and up to the barrier after the seals.
pub fn commit_steps(entries: usize) -> usize {
    6 * entries + 9
}

pub fn steps_to_sealed(entries: usize) -> usize {
    4 * entries + 4
}

/// Commits. Before the first step and after each one `goes_on` is asked, with the number of steps made, whether the
/// power stays on. Answers whether the commit came to its end.
pub fn commit(memory: &mut Memory, staged: &Staged, mut goes_on: impl FnMut(&Memory, usize) -> bool) -> bool {
    let start = linked::commit(staged.transaction, memory.seen(), &staged.staging);
    assert_eq!((start.kind, start.value), (STARTED, 0));
    let mut transaction = start.transaction;
    let mut advanced = Advanced(None);
    let last = commit_steps(staged.transaction.count);
    for number in 1..=last {
        if !goes_on(memory, number - 1) {
            return false;
        }
        advanced.make(memory, |pool| linked::commit_advance(transaction, pool, &staged.staging));
        let reply = memory.step(|pool| linked::commit_step(transaction, pool, &staged.staging));
        if reply.kind != STORED {
            advanced.compare(memory, reply);
        }
        pass(memory, reply.kind, reply.value, number, last);
        transaction = reply.transaction;
    }
    goes_on(memory, last)
}

/// Steps of a recovery of this pool: log A is replayed if valid, else log B if valid, else seals that are not zero are cleared.
fn recovery_steps(pool: &[u8]) -> usize {
    let shape = pool_shape(pool).expect("a valid header");
    match LOGS.into_iter().find_map(|log| valid_log(shape, pool, log)) {
        Some(entries) => 2 * entries + 5,
        None if has_seal(pool) => 3,
        None => 0,
    }
}

/// Recovers; as `commit`.
pub fn recover(memory: &mut Memory, mut goes_on: impl FnMut(&Memory, usize) -> bool) -> bool {
    let last = recovery_steps(memory.seen());
    let start = linked::recover(memory.seen());
    assert_eq!((start.kind, start.value), (if last == 0 { DONE } else { STARTED }, 0));
    let mut recovery = start.recovery;
    let mut advanced = Advanced(None);
    for number in 1..=last {
        if !goes_on(memory, number - 1) {
            return false;
        }
        advanced.make(memory, |pool| linked::recover_advance(recovery, pool));
        let reply = memory.step(|pool| linked::recover_step(recovery, pool));
        if reply.kind != STORED {
            advanced.compare(memory, reply);
        }
        pass(memory, reply.kind, reply.value, number, last);
        recovery = reply.recovery;
    }
    goes_on(memory, last)
}

/// A commit that came to its end, or was cut and recovered: the pool, whether all objects must be new, and how many cuts there were.
pub struct Ended {
    pub pool: Vec<u8>,
    pub new: bool,
    pub cuts: usize,
}

/// Commits; perhaps the power is cut, then recovers, perhaps cut again, until a recovery ends.
pub fn commit_with_random_cuts(random: &mut Random, pool: Vec<u8>, staged: &Staged) -> Ended {
    let entries = staged.transaction.count;
    let cut_at = random.below(2 * commit_steps(entries));
    let mut memory = Memory::new(Image::new(pool));
    let done = commit(&mut memory, staged, |_, steps| steps != cut_at);
    let left = (!done).then(|| memory.random_cut(random));
    let new = done || cut_at >= steps_to_sealed(entries) || left.as_ref().is_some_and(Image::has_seal);
    let (pool, cuts) = match left {
        Some(image) => recover_with_random_cuts(random, image, entries),
        None => (memory.seen().to_vec(), 0),
    };
    Ended { pool, new, cuts }
}

/// Recovers what a cut left; perhaps the power is cut again, until a recovery ends. Answers the pool, and how many cuts there were, with the first.
pub fn recover_with_random_cuts(random: &mut Random, mut image: Image, entries: usize) -> (Vec<u8>, usize) {
    for cuts in 1.. {
        let cut_at = random.below(4 * entries + 10);
        let mut memory = Memory::new(image);
        if recover(&mut memory, |_, steps| steps != cut_at) {
            return (memory.seen().to_vec(), cuts);
        }
        image = memory.random_cut(random);
    }
    unreachable!()
}

/// Step `number` of `last` was answered so: its number must be right, and done said after the last step only.
fn pass(memory: &mut Memory, kind: usize, value: usize, number: usize, last: usize) {
    assert_eq!(value, number, "the step's number");
    assert_eq!(kind == DONE, number == last, "step {number} of {last} answers kind {kind}");
    match kind {
        STORED => (),
        BARRIER | DONE => memory.barrier(),
        _ => panic!("step {number} answers kind {kind}"),
    }
}
