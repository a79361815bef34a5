//! The bench examples of document 01.

mod common;

use common::open;
use reference::*;

const LENGTH: usize = 6144; // R 2, C 2, Z 1
const ID: u64 = 0x0123_4567_89AB_CDEF;
const FIRST_CELL: usize = 18 * 256;
const SEAL_A: usize = 2 * 256;
const SEAL_B: usize = 10 * 256;

fn fresh() -> Vec<u8> {
    let mut pool = vec![0xEE; LENGTH];
    assert_eq!(format(&mut pool, 2, 2, 1, ID), 0);
    pool
}

fn number(bytes: &[u8]) -> usize {
    bytes.iter().rev().fold(0, |sum, &byte| (sum << 8) | usize::from(byte))
}

fn head_check(pool: &[u8], cell: usize) -> usize {
    number(&pool[FIRST_CELL + cell * 64 + 8..][..4])
}

/// Commits; the number of steps.
fn save(t: Transaction, pool: &mut [u8], staging: &[u8]) -> usize {
    let mut reply = commit(t, pool, staging);
    let mut steps = 0;
    while reply.kind != DONE {
        reply = commit_step(reply.transaction, pool, staging);
        steps += 1;
        assert_eq!(reply.value, steps);
    }
    steps
}

fn recover_all(pool: &mut [u8]) -> usize {
    let mut reply = recover(pool);
    let mut steps = 0;
    while reply.kind != DONE {
        reply = recover_step(reply.recovery, pool);
        steps += 1;
        assert_eq!(reply.value, steps);
    }
    steps
}

/// The pool with the tag 5 object, body hex 61.
fn with_object() -> Vec<u8> {
    let (mut pool, mut staging) = (fresh(), [0; 2032]);
    let reply = allocate(open(&pool), &pool, &mut staging, 5, b"a");
    assert_eq!((reply.kind, reply.value, reply.transaction.count), (ADDRESS, 0, 10));
    assert_eq!(save(reply.transaction, &mut pool, &staging), 69);
    pool
}

fn sound(objects: usize) -> Counts {
    Counts { refusal: 0, objects, damaged: 0, broken: 0, columns: 0 }
}

/// The checks of so many bytes FF, and of as many that are 7 times their place: about the 2,048 bytes between two remainders, and one more
/// than the 5,552 whose high sum 32 bits hold without a remainder.
const CHECKS: [(usize, u32, u32); 5] = [
    (2047, 0xE9F2_F76B, 0x2598_FB35),
    (2048, 0xE26B_F86A, 0x21D5_FC2E),
    (2049, 0xDBE3_F969, 0x1E12_FC2E),
    (4096, 0x8161_F0E2, 0x21E8_F86A),
    (5553, 0x8E29_9C8B, 0x269A_CBFF),
];

#[test]
fn checks() {
    assert_eq!(check(b""), 0x0000_0001);
    assert_eq!(check(b"abc"), 0x024D_0127);
    assert_eq!(check(&[255; 70_000]), zlib_rule(&[255; 70_000]));
    for (length, of_ones, of_ramp) in CHECKS {
        let ones = vec![255; length];
        let ramp: Vec<u8> = (0..length).map(|place| (7 * place) as u8).collect();
        assert_eq!((check(&ones), check(&ramp)), (of_ones, of_ramp), "{length} bytes");
        assert_eq!((zlib_rule(&ones), zlib_rule(&ramp)), (of_ones, of_ramp), "{length} bytes");
        let mut high = [[255; 256].as_slice(), &[239]].concat(); // the low sum is 65520, its most, after these
        high.resize(length, 0);
        high.extend(ones);
        assert_eq!(check(&high), zlib_rule(&high), "{length} bytes FF from the highest sum on");
    }
}

/// The check with each sum reduced once, at the end.
fn zlib_rule(bytes: &[u8]) -> u32 {
    let step = |(low, high): (u64, u64), &byte: &u8| (low + u64::from(byte), high + low + u64::from(byte));
    let (low, high) = bytes.iter().fold((1, 0), step);
    (((high % 65521) << 16) | (low % 65521)) as u32
}

#[test]
fn fresh_pool() {
    let pool = fresh();
    assert_eq!(scrub(&pool), sound(0));
    assert_eq!(number(&pool[FIRST_CELL..][..8]), 1 | 16 << 16);
    assert_eq!(head_check(&pool, 0), 0x00B8_0012);
    assert_eq!(pool[FIRST_CELL..][..16], pool[FIRST_CELL + 1024..][..16]);
    let mut rest = pool;
    for (at, length) in [(0, 20), (256, 20), (FIRST_CELL, 16), (FIRST_CELL + 1024, 16)] {
        rest[at..at + length].fill(0);
    }
    assert!(rest.iter().all(|&byte| byte == 0));
}

#[test]
fn lengths() {
    for length in [0, 511, LENGTH - 1, LENGTH + 1] {
        assert_eq!(format(&mut vec![0; length], 2, 2, 1, ID), 2);
        let mut pool = fresh();
        pool.resize(length, 0);
        assert_eq!(scrub(&pool).refusal, 2);
    }
    let mut pool = vec![0; 4_198_912];
    assert_eq!(format(&mut pool, 15, 64, 16, ID), 0);
    assert_eq!(scrub(&pool), sound(0));
}

#[test]
fn object_with_tag_5() {
    let (mut pool, mut staging) = (with_object(), [0; 2032]);
    assert_eq!(head_check(&pool, 0), 0x00B5_006B);
    assert_eq!(head_check(&pool, 1), 0x00AE_0011);
    assert_eq!(look(&pool, 0), Part { refusal: 0, offset: FIRST_CELL + 16, length: 1 });
    assert_eq!(scrub(&pool), sound(1));

    let reply = write(open(&pool), &pool, &mut staging, 0, 0, b"b");
    assert_eq!((reply.kind, reply.value, reply.transaction.count), (TAKEN, 0, 2));
    assert_eq!(save(reply.transaction, &mut pool, &staging), 21);
    assert_eq!(head_check(&pool, 0), 0x00B6_006C);
    assert_eq!(scrub(&pool), sound(1));

    let reply = free(open(&pool), &pool, &mut staging, 0);
    assert_eq!((reply.kind, reply.value, reply.transaction.count), (TAKEN, 0, 2));
    assert_eq!(save(reply.transaction, &mut pool, &staging), 21);
    assert_eq!(pool[FIRST_CELL..][..16], fresh()[FIRST_CELL..][..16]);
    assert_eq!(scrub(&pool), sound(0));
}

#[test]
fn cells_of_a_body() {
    for (length, cells) in [(48, 1), (49, 2), (496, 8)] {
        let (pool, mut staging) = (fresh(), [0; 2032]);
        let reply = allocate(open(&pool), &pool, &mut staging, 0, &vec![7; length]);
        assert_eq!(reply.transaction.count, cells * 8 + 2);
    }
}

#[test]
fn words_of_two_bodies() {
    for (second, kind, value, count) in [(432, ADDRESS, 8, 122), (433, REFUSED, 27, 66)] {
        let (pool, mut staging) = (fresh(), [0; 2032]);
        let reply = allocate(open(&pool), &pool, &mut staging, 1, &[1; 496]);
        assert_eq!((reply.kind, reply.value, reply.transaction.count), (ADDRESS, 0, 66));
        let before = staging;
        let reply = allocate(reply.transaction, &pool, &mut staging, 2, &vec![2; second]);
        assert_eq!((reply.kind, reply.value, reply.transaction.count), (kind, value, count));
        assert_eq!(before == staging, kind == REFUSED);
        assert_eq!(staging[count * 16..], before[count * 16..]);
    }
}

/// The commit's 69 steps: 40 stores, barrier, two seals, barrier, 10, barrier, 10, barrier, two clears, barrier.
#[test]
fn steps_of_a_commit() {
    let (mut pool, mut staging) = (fresh(), [0; 2032]);
    let t = allocate(open(&pool), &pool, &mut staging, 5, b"a").transaction;
    let mut t = commit(t, &pool, &staging).transaction;
    for number in 1..=69 {
        let before = pool.clone();
        let reply = commit_step(t, &mut pool, &staging);
        let barrier = [41, 44, 55, 66].contains(&number);
        let kind = if number == 69 {
            DONE
        } else if barrier {
            BARRIER
        } else {
            STORED
        };
        assert_eq!((reply.kind, reply.value), (kind, number));
        let changed: Vec<_> = (0..LENGTH / 8).filter(|i| pool[i * 8..][..8] != before[i * 8..][..8]).collect();
        assert!(changed.len() <= usize::from(kind == STORED));
        t = reply.transaction;
    }
    assert_eq!(t, Transaction { id: ID, count: 10, phase: 1 });
}

/// A cut with only seal A stored.
#[test]
fn cut_with_seal_a() {
    let (mut pool, mut staging) = (fresh(), [0; 2032]);
    let t = allocate(open(&pool), &pool, &mut staging, 5, b"a").transaction;
    let mut reply = commit(t, &pool, &staging);
    while reply.value < 42 {
        reply = commit_step(reply.transaction, &mut pool, &staging);
    }
    assert_eq!(number(&pool[SEAL_A + 4..][..4]), 0xA51C_000A);
    assert_eq!(number(&pool[SEAL_B..][..8]), 0);
    assert_eq!(look(&pool, 0).refusal, 21);
    assert_eq!(recover(&pool).recovery, Recovery { id: ID, work: 23, phase: 1 });
    assert_eq!(recover_all(&mut pool), 25);
    assert_eq!(pool[look(&pool, 0).offset], 0x61);
    assert_eq!(scrub(&pool), sound(1));
    assert_eq!(recover(&pool), RecoveryReply { kind: DONE, value: 0, recovery: Recovery { id: ID, work: 0, phase: 0 } });
}

#[test]
fn lost_pages() {
    let pool = with_object();
    for row in 0..3 {
        let mut damaged = pool.clone();
        damaged[FIRST_CELL + row * 512..][..256].fill(0xAA);
        assert_eq!(repair(&mut damaged, &[1 << row, 0]), Repaired { refusal: 0, altered: 256 });
        assert_eq!(damaged, pool);
    }
    let mut copy = pool.clone();
    for (lost, refusal) in [(&[5, 0][..], 28), (&[5, 8], 8), (&[4], 8)] {
        assert_eq!(repair(&mut copy, lost), Repaired { refusal, altered: 0 });
        assert_eq!(copy, pool);
    }
}
