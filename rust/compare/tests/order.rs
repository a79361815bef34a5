//! The order of the stores within a call, watched while the compiled code runs: each instruction changes at most one aligned word of the
//! pool, and the words change in the order of the step list, to the values that single steps store. So what a power cut inside a call can
//! leave is what a cut between single steps can leave.
//!
//! Pools and entries are such that every store changes its word: the logs hold other bytes before, the new words are random, and no two
//! entries share a parity word.
use compare::layout::{put, Shape, LOGS};
use compare::random::Random;
use compare::trace::{bytes_mut, watched, Change};
use compare::{pools, staged};
use linked::{Recovery, RecoveryReply, Reply, Transaction, BARRIER, DONE, STARTED, STORED};

const SHAPE: Shape = Shape { rows: 2, cols: 4, zones: 1 };
const COUNTS: [usize; 5] = [1, 2, 10, 26, 127];

/// A pool, as words, and staging memory with so many entries.
fn given(random: &mut Random, count: usize) -> (Vec<u64>, Vec<u8>) {
    let mut words = vec![0; SHAPE.length() / 8];
    let pool = bytes_mut(&mut words);
    pool.copy_from_slice(&pools::filled(random, SHAPE));
    for log in LOGS {
        pool[log + 16..log + 2048].copy_from_slice(&random.bytes(2032));
    }
    // Words of the first row in no order, every second one moved to the second row.
    let mut places: Vec<usize> = (0..SHAPE.row() / 8).collect();
    (1..places.len()).for_each(|i| places.swap(i, random.below(i + 1)));
    let target = |(i, place): (usize, &usize)| SHAPE.zone(0) + i % 2 * SHAPE.row() + place * 8;
    let targets: Vec<usize> = places.iter().take(count).enumerate().map(target).collect();
    let mut staging = pools::entries(random, pool, &targets, false);
    staging.resize(staged::STAGING, 0xA7);
    (words, staging)
}

/// A store as a single step makes it.
type Store = (usize, u64);

/// The word that differs between two pools; none if they are equal.
fn difference(before: &[u64], after: &[u64]) -> Option<Store> {
    let mut changed = before.iter().zip(after).enumerate().filter(|(_, (old, new))| old != new);
    let one = changed.next().map(|(i, (_, &new))| (i * 8, new));
    assert_eq!(changed.next(), None, "a step stores one word");
    one
}

/// What was seen is this list of stores: in this order, each by an instruction of its own.
fn same(seen: &[Change], wanted: &[Store], what: &str) {
    let stores: Vec<Store> = seen.iter().map(|change| (change.at, change.word)).collect();
    assert_eq!(stores, wanted, "{what}: the stores in order (offset, word)");
    for pair in seen.windows(2) {
        assert!(pair[0].instruction < pair[1].instruction, "{what}: one instruction stores two words: {pair:?}");
    }
}

/// The record of a transaction or a recovery: the pool's id and two numbers.
type Record = (u64, usize, usize);

/// An answer: its kind, its value and the record handed back.
#[derive(Clone, Copy, Debug, PartialEq, Eq)]
struct Answer {
    kind: usize,
    value: usize,
    record: Record,
}

/// A commit or a recovery: how it makes one step, and how it goes on to the next barrier.
struct Steps<'a> {
    step: &'a dyn Fn(Record, &mut [u8]) -> Answer,
    advance: &'a dyn Fn(Record, &mut [u8]) -> Answer,
}

impl Steps<'_> {
    /// Single steps from this record on, up to a barrier or the end: the stores, the pool, and the last answer.
    fn single(&self, pool: &[u64], mut record: Record) -> (Vec<Store>, Vec<u64>, Answer) {
        let (mut pool, mut stores) = (pool.to_vec(), Vec::new());
        loop {
            let before = pool.clone();
            let answer = (self.step)(record, bytes_mut(&mut pool));
            stores.extend(difference(&before, &pool));
            if answer.kind != STORED {
                return (stores, pool, answer);
            }
            record = answer.record;
        }
    }

    /// Watched calls from this record on to the end: stores, answers and bytes are those of single steps. How many stores and instructions.
    fn watch(&self, pool: &mut [u64], mut record: Record) -> (usize, usize) {
        let (mut stores, mut instructions) = (0, 0);
        loop {
            let (wanted, after, last) = self.single(pool, record);
            assert!([BARRIER, DONE].contains(&last.kind), "{last:?}");
            let (answer, seen, made) = watched(pool, |pool| (self.advance)(record, pool));
            same(&seen, &wanted, &format!("{record:?}"));
            assert_eq!(answer, last);
            assert!(pool == after, "{record:?}: the bytes");
            stores += wanted.len();
            instructions += made;
            if answer.kind == DONE {
                return (stores, instructions);
            }
            record = answer.record;
        }
    }
}

fn watch_commit(pool: &mut [u64], staging: &[u8], t: Transaction) -> (usize, usize) {
    let transaction = |(id, count, phase): Record| Transaction { id, count, phase };
    let record = |t: Transaction| (t.id, t.count, t.phase);
    let answer = |reply: Reply| Answer { kind: reply.kind, value: reply.value, record: record(reply.transaction) };
    let step = |record, pool: &mut [u8]| answer(linked::commit_step(transaction(record), pool, staging));
    let advance = |record, pool: &mut [u8]| answer(linked::commit_advance(transaction(record), pool, staging));
    Steps { step: &step, advance: &advance }.watch(pool, record(t))
}

fn watch_recovery(pool: &mut [u64], r: Recovery) -> (usize, usize) {
    let recovery = |(id, work, phase): Record| Recovery { id, work, phase };
    let record = |r: Recovery| (r.id, r.work, r.phase);
    let answer = |reply: RecoveryReply| Answer { kind: reply.kind, value: reply.value, record: record(reply.recovery) };
    let step = |record, pool: &mut [u8]| answer(linked::recover_step(recovery(record), pool));
    let advance = |record, pool: &mut [u8]| answer(linked::recover_advance(recovery(record), pool));
    Steps { step: &step, advance: &advance }.watch(pool, record(r))
}

fn started(pool: &mut [u64], staging: &[u8], count: usize) -> Transaction {
    let pool = bytes_mut(pool);
    let reply = linked::commit(Transaction { count, ..staged::begin(pool) }, pool, staging);
    assert_eq!(reply.kind, STARTED);
    reply.transaction
}

/// The pool after so many single steps of a commit, and its record.
fn after_steps(pool: &[u64], staging: &[u8], count: usize, steps: usize) -> (Vec<u64>, Transaction) {
    let mut pool = pool.to_vec();
    let mut t = started(&mut pool, staging, count);
    for _ in 0..steps {
        t = linked::commit_step(t, bytes_mut(&mut pool), staging).transaction;
    }
    (pool, t)
}

#[test]
fn a_commit_stores_in_the_lists_order() {
    let mut random = Random::new(8);
    for count in COUNTS {
        let (mut pool, staging) = given(&mut random, count);
        let t = started(&mut pool, &staging, count);
        let (stores, instructions) = watch_commit(&mut pool, &staging, t);
        assert_eq!(stores, 6 * count + 4, "every store of the list is seen");
        println!("commit of {count} entries: {stores} stores in {instructions} instructions");
    }
}

#[test]
fn a_commit_goes_on_in_the_lists_order_from_any_place() {
    let mut random = Random::new(9);
    for count in [1, 2, 10] {
        let (pool, staging) = given(&mut random, count);
        for place in 0..6 * count + 9 {
            let (mut pool, t) = after_steps(&pool, &staging, count, place);
            watch_commit(&mut pool, &staging, t);
        }
    }
}

/// From log A; from log B, when A's seal was lost; and a recovery that only clears a seal.
#[test]
fn a_recovery_stores_in_the_lists_order() {
    let mut random = Random::new(10);
    for count in COUNTS {
        let (pool, staging) = given(&mut random, count);
        let (sealed, _) = after_steps(&pool, &staging, count, 4 * count + 4);
        let [mut from_b, mut unsealed] = [sealed.clone(), sealed.clone()];
        put(bytes_mut(&mut from_b), LOGS[0], 8, 0);
        put(bytes_mut(&mut unsealed), LOGS[0], 8, 0);
        put(bytes_mut(&mut unsealed), LOGS[1], 8, 1);
        // A seal that is zero already is stored, unseen.
        for (mut pool, stores) in [(sealed, 2 * count + 2), (from_b, 2 * count + 1), (unsealed, 1)] {
            let start = linked::recover(bytes_mut(&mut pool));
            assert_eq!(start.kind, STARTED);
            let (seen, instructions) = watch_recovery(&mut pool, start.recovery);
            assert_eq!(seen, stores, "{:?}", start.recovery);
            println!("recovery of {count} entries, {:?}: {seen} stores seen in {instructions} instructions", start.recovery);
        }
    }
}

/// What is watched is told apart: two words of one instruction, a word in two halves, another order, and a store too few.
#[test]
fn other_stores_are_seen() {
    let mut pool = vec![0u64; 8];
    let two_words = |pool: &mut [u8]| unsafe {
        std::arch::asm!("movups xmmword ptr [{0}], {1}", in(reg) pool.as_mut_ptr(), in(xmm_reg) f64::from_bits(7));
    };
    pool[1] = 9;
    let (_, seen, _) = watched(&mut pool, two_words);
    assert_eq!(seen.iter().map(|change| (change.at, change.word)).collect::<Vec<_>>(), [(0, 7), (8, 0)]);
    assert_eq!(seen[0].instruction, seen[1].instruction);
    let halves = |pool: &mut [u8]| unsafe {
        std::arch::asm!("mov dword ptr [{0}], 1", "mov dword ptr [{0} + 4], 1", in(reg) pool.as_mut_ptr());
    };
    let (_, seen, _) = watched(&mut pool, halves);
    assert_eq!(seen.iter().map(|change| (change.at, change.word)).collect::<Vec<_>>(), [(0, 1), (0, 1 << 32 | 1)]);
}

#[test]
#[should_panic(expected = "one instruction stores two words")]
fn two_words_of_one_instruction_are_refused() {
    let change = |at| Change { at, word: 1, instruction: 5 };
    same(&[change(0), change(8)], &[(0, 1), (8, 1)], "test");
}

#[test]
#[should_panic(expected = "the stores in order")]
fn another_order_is_refused() {
    let change = |at, instruction| Change { at, word: 1, instruction };
    same(&[change(8, 1), change(0, 2)], &[(0, 1), (8, 1)], "test");
}
