//! Random runs with power cuts: after recovery all objects are old or new, and new if a seal reached memory. If one log is
//! overwritten after the first cut, so that it is not valid, they are new if the seal in the other log had reached memory.

mod common;

use common::open;
use reference::*;
use std::collections::BTreeMap;

/// Address, tag and body of each object.
type Book = BTreeMap<usize, (u32, Vec<u8>)>;

struct Random(u64);

impl Random {
    fn below(&mut self, limit: usize) -> usize {
        self.0 ^= self.0 << 13;
        self.0 ^= self.0 >> 7;
        self.0 ^= self.0 << 17;
        (self.0 >> 16) as usize % limit
    }

    fn bytes(&mut self, length: usize) -> Vec<u8> {
        (0..length).map(|_| self.below(256) as u8).collect()
    }
}

const LOGS: [usize; 2] = [512, 2560];
const ZONES: usize = 4608;

/// The memory behind the pool: what has reached it, whether a seal ever has, in log A and in log B, and the stores made since
/// the last barrier.
struct Memory {
    pool: Vec<u8>,
    reached: Vec<u8>,
    stores: Vec<(usize, [u8; 8])>,
    sealed: [bool; 2],
}

impl Memory {
    fn new(pool: &[u8]) -> Memory {
        Memory { pool: pool.to_vec(), reached: pool.to_vec(), stores: Vec::new(), sealed: [false; 2] }
    }

    /// Notes what one step did.
    fn step(&mut self, before: &[u8], kind: usize) {
        let words = before.chunks_exact(8).zip(self.pool.chunks_exact(8)).enumerate();
        let changed = words.filter(|(_, (old, new))| old != new);
        let made = self.stores.len() + usize::from(kind == STORED);
        self.stores.extend(changed.map(|(i, (_, new))| (i * 8, new.try_into().unwrap())));
        assert!(self.stores.len() <= made);
        if kind != STORED {
            self.cut(|| true);
        }
    }

    /// A cut keeps a subset of the stores made since, in order.
    fn cut(&mut self, mut keep: impl FnMut() -> bool) {
        for (offset, word) in self.stores.drain(..) {
            if keep() {
                self.reached[offset..offset + 8].copy_from_slice(&word);
                for (sealed, log) in self.sealed.iter_mut().zip(LOGS) {
                    *sealed |= offset == log && word != [0; 8];
                }
            }
        }
        self.pool.copy_from_slice(&self.reached);
    }
}

/// The book as the pool's runs give it.
fn book(pool: &[u8], cells: usize) -> Book {
    let object = |address| {
        let part = look(pool, address);
        let tag = u32::from_le_bytes(pool[part.offset.checked_sub(4)?..part.offset].try_into().unwrap());
        (part.refusal == 0).then(|| (address, (tag, pool[part.offset..][..part.length].to_vec())))
    };
    (0..cells).filter_map(object).collect()
}

/// A random call; the book follows from its arguments and answer.
fn call(t: Transaction, pool: &[u8], staging: &mut [u8], random: &mut Random, cells: usize, book: &mut Book) -> Transaction {
    let known = book.keys().nth(random.below(book.len() + 1)).copied();
    let address = known.unwrap_or_else(|| random.below(cells + 1));
    let (tag, length, at) = (random.below(9) as u32, random.below(200), random.below(90));
    let bytes = random.bytes(length);
    let reply = match random.below(4) {
        0 => {
            let reply = free(t, pool, staging, address);
            assert!(reply.kind != TAKEN || book.remove(&address).is_some());
            reply
        }
        1 => {
            let over = &bytes[..length.min(30)];
            let reply = write(t, pool, staging, address, at, over);
            if reply.kind == TAKEN {
                book.get_mut(&address).unwrap().1[at..][..over.len()].copy_from_slice(over);
            }
            reply
        }
        _ => {
            let reply = allocate(t, pool, staging, tag, &bytes);
            assert!(reply.kind != ADDRESS || book.insert(reply.value, (tag, bytes)).is_none());
            reply
        }
    };
    assert!(reply.kind != REFUSED || reply.transaction == t);
    reply.transaction
}

fn commit_until(memory: &mut Memory, t: Transaction, staging: &[u8], cut: usize) -> bool {
    let mut reply = commit(t, &memory.pool, staging);
    for _ in 0..cut {
        if reply.kind == DONE {
            return true;
        }
        assert_ne!(reply.kind, REFUSED);
        let before = memory.pool.clone();
        reply = commit_step(reply.transaction, &mut memory.pool, staging);
        memory.step(&before, reply.kind);
    }
    reply.kind == DONE
}

fn recover_until(memory: &mut Memory, cut: usize) -> bool {
    let mut reply = recover(&memory.pool);
    for _ in 0..cut {
        if reply.kind == DONE {
            return true;
        }
        assert_ne!(reply.kind, REFUSED);
        let before = memory.pool.clone();
        reply = recover_step(reply.recovery, &mut memory.pool);
        memory.step(&before, reply.kind);
    }
    reply.kind == DONE
}

/// Recovers, perhaps cut again, until a recovery ends.
fn recover_to_end(memory: &mut Memory, count: usize, random: &mut Random) {
    while !recover_until(memory, random.below(2 * count + 8)) {
        memory.cut(|| random.below(2) == 0);
    }
}

/// Rows, columns and zones.
type Shape = (usize, usize, usize);

const SHAPES: [Shape; 4] = [(1, 1, 1), (2, 2, 1), (3, 1, 2), (2, 3, 2)];

fn fresh((rows, cols, zones): Shape) -> Vec<u8> {
    let mut pool = vec![0; (18 + zones * (rows + 1) * cols) * 256];
    assert_eq!(format(&mut pool, rows, cols, zones, 1), 0);
    pool
}

fn cells((rows, cols, zones): Shape) -> usize {
    4 * rows * cols * zones
}

/// A transaction of random calls, its staging memory, and the book that it would leave.
fn stage(pool: &[u8], cells: usize, random: &mut Random, old: &Book) -> (Transaction, Vec<u8>, Book) {
    let (mut new, mut staging, mut t) = (old.clone(), vec![0; 2032], open(pool));
    for _ in 0..random.below(8) {
        t = call(t, pool, &mut staging, random, cells, &mut new);
    }
    (t, staging, new)
}

/// The pool must be sound, with exactly these objects.
fn judge(pool: &[u8], cells: usize, wanted: &Book) {
    assert_eq!(book(pool, cells), *wanted);
    let counts = Counts { refusal: 0, objects: wanted.len(), damaged: 0, broken: 0, columns: 0 };
    assert_eq!(scrub(pool), counts);
}

#[test]
fn random_runs() {
    let mut random = Random(0x9E37_79B9_7F4A_7C15);
    for shape in SHAPES {
        let (mut pool, cells) = (fresh(shape), cells(shape));
        let (mut cut_runs, mut new_runs) = (0, 0);
        for _ in 0..400 {
            let old = book(&pool, cells);
            let (t, staging, new) = stage(&pool, cells, &mut random, &old);
            let mut memory = Memory::new(&pool);
            let done = commit_until(&mut memory, t, &staging, random.below(6 * t.count + 14));
            if !done {
                cut_runs += 1;
                memory.cut(|| random.below(2) == 0);
                recover_to_end(&mut memory, t.count, &mut random);
            }
            let sealed = memory.sealed.contains(&true);
            new_runs += usize::from(!done && sealed);
            judge(&memory.pool, cells, if done || sealed { &new } else { &old });
            pool = memory.pool;
        }
        assert!(cut_runs > 100 && new_runs > 20);
    }
}

fn number(bytes: &[u8]) -> usize {
    bytes.iter().rev().fold(0, |sum, &byte| sum << 8 | usize::from(byte))
}

/// The check, by the remainder at every byte.
fn sums(bytes: &[u8]) -> usize {
    let add = |(low, high), &byte| {
        let low = (low + usize::from(byte)) % 65521;
        (low, (high + low) % 65521)
    };
    let (low, high) = bytes.iter().fold((1, 0), add);
    high << 16 | low
}

/// Whether the log is valid: mark, count and check fit, targets are multiples of 8 inside data rows, and no target repeats.
fn is_valid(log: &[u8], (rows, cols, zones): Shape) -> bool {
    let [sum, count, mark] = [0..4, 4..6, 6..8].map(|field| number(&log[field]));
    if mark != 0xA51C || !(1..=127).contains(&count) {
        return false;
    }
    let entries = &log[16..][..16 * count];
    let (data, zone) = (rows * cols * 256, (rows + 1) * cols * 256);
    let in_data = |at: usize| at >= ZONES && (at - ZONES) / zone < zones && (at - ZONES) % zone < data;
    let targets: Vec<usize> = entries.chunks(16).map(|entry| number(&entry[..8])).collect();
    let repeats = targets.iter().enumerate().any(|(i, target)| targets[..i].contains(target));
    sum == sums(entries) && !repeats && targets.iter().all(|&at| at % 8 == 0 && in_data(at))
}

/// Overwrites a log, after a cut of a commit with so many entries.
fn overwrite(log: &mut [u8], count: usize, random: &mut Random) {
    let entry = 16 + 16 * random.below(count);
    match random.below(10) {
        0 => log.fill(0),
        1 => log.fill(0xFF),
        2 => log.copy_from_slice(&random.bytes(2048)),
        3 => log[..8].fill(0),
        4 => log[random.below(8)] ^= 1 << random.below(8),
        5 => log[entry + random.below(16)] ^= 1 << random.below(8),
        6 => log[4..8].copy_from_slice(&[random.below(256) as u8, 0, 0x1C, 0xA5]),
        7 => {
            log[8..16].copy_from_slice(&random.bytes(8));
            log[entry..entry + 16].copy_from_slice(&random.bytes(16));
        }
        8 => {
            put_log(log, [ZONES, ZONES + 8], random);
            log[0] ^= 1;
        }
        _ => put_log(log, [ZONES, WRONG[random.below(4)]], random),
    }
}

/// The second target of a log that is not valid: the first one again, one that is not aligned, a seal, or parity in the pool R 1, C 1.
const WRONG: [usize; 4] = [ZONES, ZONES + 12, 512, ZONES + 256];

/// A sealed log with two entries: these targets, with random words.
fn put_log(log: &mut [u8], targets: [usize; 2], random: &mut Random) {
    for (entry, target) in log[16..48].chunks_mut(16).zip(targets) {
        entry[..8].copy_from_slice(&target.to_le_bytes());
        entry[8..].copy_from_slice(&random.bytes(8));
    }
    let seal = sums(&log[16..48]) | 2 << 32 | 0xA51C << 48;
    log[..8].copy_from_slice(&seal.to_le_bytes());
}

#[test]
fn the_judge_of_logs() {
    let (mut log, mut random) = (vec![0xEE; 2048], Random(1));
    put_log(&mut log, [ZONES, ZONES + 8], &mut random);
    assert!(is_valid(&log, (1, 1, 1)));
    for (byte, bit) in (0..8).chain(16..48).flat_map(|byte| (0..8).map(move |bit| (byte, bit))) {
        let mut turned = log.clone();
        turned[byte] ^= 1 << bit;
        assert!(!is_valid(&turned, (1, 1, 1)), "bit {bit} of byte {byte}");
    }
    for wrong in WRONG {
        put_log(&mut log, [ZONES, wrong], &mut random);
        assert!(!is_valid(&log, (1, 1, 1)), "target {wrong}");
    }
}

/// The pool with this log overwritten, until the log is not valid.
fn overwritten(pool: &[u8], shape: Shape, log: usize, count: usize, random: &mut Random) -> Vec<u8> {
    let mut tries = (0..100).map(|_| {
        let mut pool = pool.to_vec();
        overwrite(&mut pool[log..log + 2048], count, random);
        pool
    });
    tries.find(|pool| !is_valid(&pool[log..], shape)).expect("one of the ways leaves no valid log")
}

/// A random transaction, cut at any step or around the seals; then one log is overwritten. Answers the recovered pool, and whether
/// a seal had reached the log overwritten, and the other one; nothing if there was nothing to commit.
fn overwritten_run(pool: &[u8], shape: Shape, random: &mut Random) -> Option<(Vec<u8>, [bool; 2])> {
    let cells = cells(shape);
    let old = book(pool, cells);
    let (t, staging, new) = stage(pool, cells, random, &old);
    if t.count == 0 {
        return None;
    }
    let steps = [random.below(6 * t.count + 10), 4 * t.count + random.below(5)][random.below(2)];
    let mut memory = Memory::new(pool);
    commit_until(&mut memory, t, &staging, steps);
    memory.cut(|| random.below(2) == 0);
    let log = random.below(2);
    let [this, other] = [memory.sealed[log], memory.sealed[1 - log]];
    let mut memory = Memory::new(&overwritten(&memory.pool, shape, LOGS[log], t.count, random));
    recover_to_end(&mut memory, t.count, random);
    judge(&memory.pool, cells, if other { &new } else { &old });
    Some((memory.pool, [this, other]))
}

/// What was overwritten lies in the logs when the next transaction is committed.
#[test]
fn random_runs_with_a_log_overwritten() {
    let mut random = Random(0x2545_F491_4F6C_DD1D);
    for shape in SHAPES {
        let (mut pool, mut by_seals) = (fresh(shape), [[0; 2]; 2]);
        for _ in 0..1000 {
            if let Some((recovered, [this, other])) = overwritten_run(&pool, shape, &mut random) {
                by_seals[usize::from(this)][usize::from(other)] += 1;
                pool = recovered;
            }
        }
        println!("a seal in neither log, in the other alone, in this alone, in both: {by_seals:?}");
        assert!(by_seals.as_flattened().iter().all(|&runs| runs >= 20));
    }
}
