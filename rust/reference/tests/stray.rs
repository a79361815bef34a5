//! Request A.2: the bytes between a body's end and its last cell's end are zero, or the object is damaged. R 2, C 2, Z 1.

mod common;

use common::open;
use reference::*;
use std::ops::Range;

type Staging = [u8; 2032];

const ZONE: usize = 4_608;
const DATA: usize = 1_024; // bytes of the zone's data rows
const ROW: usize = 512;

fn fresh() -> Vec<u8> {
    let mut pool = vec![0xEE; 6_144];
    assert_eq!(format(&mut pool, 2, 2, 1, 1), 0);
    pool
}

/// Allocates an object, tag 5, at cell 0, and commits; the number of entries.
fn save(pool: &mut [u8], body: &[u8]) -> usize {
    let mut staging = [0xA7; 2032];
    let reply = allocate(open(pool), pool, &mut staging, 5, body);
    assert_eq!((reply.kind, reply.value), (ADDRESS, 0));
    let mut next = commit(reply.transaction, pool, &staging);
    while next.kind != DONE {
        next = commit_advance(next.transaction, pool, &staging);
    }
    reply.transaction.count
}

fn saved(body: &[u8]) -> Vec<u8> {
    let mut pool = fresh();
    save(&mut pool, body);
    pool
}

/// The bytes behind a body of this length at cell 0.
fn behind(length: usize) -> Range<usize> {
    ZONE + 16 + length..ZONE + (16 + length).div_ceil(64) * 64
}

/// Objects, damaged ones, broken zones, columns.
fn counts(pool: &[u8]) -> [usize; 4] {
    let Counts { refusal, objects, damaged, broken, columns } = scrub(pool);
    assert_eq!(refusal, 0);
    [objects, damaged, broken, columns]
}

/// What look, a write of one byte and free at cell 0 answer: the refusal, or 0.
fn answers(pool: &[u8], t: Transaction, staging: Staging) -> [usize; 3] {
    let written = write(t, pool, &mut staging.clone(), 0, 0, b"b");
    let freed = free(t, pool, &mut staging.clone(), 0);
    let refusal = |reply: Reply| if reply.kind == REFUSED { reply.value } else { 0 };
    [look(pool, 0).refusal, refusal(written), refusal(freed)]
}

fn answers_unstaged(pool: &[u8]) -> [usize; 3] {
    answers(pool, open(pool), [0xA7; 2032])
}

/// A transaction with one entry, which changes this byte of the pool's word.
fn with_entry(pool: &[u8], at: usize, byte: u8) -> (Transaction, Staging) {
    let (mut staging, target) = ([0xA7; 2032], at / 8 * 8);
    staging[..8].copy_from_slice(&(target as u64).to_le_bytes());
    staging[8..16].copy_from_slice(&pool[target..target + 8]);
    staging[8 + at % 8] = byte;
    (Transaction { count: 1, ..open(pool) }, staging)
}

#[test]
fn bytes_behind_bodies() {
    for (length, bytes) in [(1, 47), (47, 1), (48, 0), (49, 63), (112, 0), (113, 63), (495, 1), (496, 0)] {
        assert_eq!(behind(length).len(), bytes);
        let whole = saved(&vec![7; length]);
        assert_eq!(answers_unstaged(&whole), [0; 3]);
        for at in behind(length) {
            let mut pool = whole.clone();
            pool[at] = 1;
            assert_eq!(answers_unstaged(&pool), [25; 3], "{length}, {at}");
            assert_eq!(counts(&pool), [1, 1, 0, 1], "{length}, {at}");
        }
        let mut pool = whole;
        pool[behind(length).end + 16] = 1; // of the free run behind
        assert_eq!(answers_unstaged(&pool), [0; 3]);
        assert_eq!(counts(&pool), [1, 0, 0, 1]);
    }
}

/// Writing cannot cure the object; repair can, unless parity agrees with the stray byte.
#[test]
fn repaired() {
    let whole = saved(b"a");
    assert_eq!(behind(1), 4_625..4_672);
    for at in [4_625, 4_671] {
        let mut pool = whole.clone();
        pool[at] = 1;
        let mut agreed = pool.clone();
        assert_eq!(repair(&mut pool, &[1, 0]), Repaired { refusal: 0, altered: 1 });
        assert_eq!(pool, whole);
        assert_eq!(counts(&pool), [1, 0, 0, 0]);
        agreed[at + 1_024] ^= 1;
        let before = agreed.clone();
        assert_eq!(counts(&agreed), [1, 1, 0, 0]);
        assert_eq!(repair(&mut agreed, &[1, 0]), Repaired { refusal: 0, altered: 0 });
        assert_eq!(agreed, before);
        assert_eq!(answers_unstaged(&agreed), [25; 3]);
    }
    let mut pool = whole;
    pool[4_692] = 1;
    assert_eq!(look(&pool, 0), Part { refusal: 0, offset: 4_624, length: 1 });
    assert_eq!(counts(&pool), [1, 0, 0, 1]);
}

/// Stale bytes in all free cells: allocate stages zeros behind the body, write the bytes as staged.
#[test]
fn over_stale_bytes() {
    let mut pool = fresh();
    pool[ZONE + 16..ZONE + DATA].fill(0x5A);
    for place in 0..ROW {
        pool[ZONE + DATA + place] = pool[ZONE + place] ^ pool[ZONE + ROW + place];
    }
    assert_eq!(check(&pool), 0xEEF8_6E48);
    assert_eq!(counts(&pool), [0; 4]);
    assert_eq!(save(&mut pool, b"a"), 10);
    assert_eq!(counts(&pool), [1, 0, 0, 0]);
    assert_eq!(check(&pool), 0x745B_7922);
    let mut staging = [0; 2032];
    assert_eq!(write(open(&pool), &pool, &mut staging, 0, 0, b"b").transaction.count, 2);
    assert_eq!(staging[..8], 4_616u64.to_le_bytes());
    assert_eq!(staging[8..16], [0x6C, 0, 0xB6, 0, 5, 0, 0, 0]);
    assert_eq!(staging[16..24], 4_624u64.to_le_bytes());
    assert_eq!(staging[24..32], [0x62, 0, 0, 0, 0, 0, 0, 0]);
}

/// Write and free judge the bytes as staged, look those committed.
#[test]
fn staged() {
    let whole = saved(b"a");
    for at in behind(1) {
        let (t, staging) = with_entry(&whole, at, 1);
        assert_eq!(answers(&whole, t, staging), [0, 25, 25], "{at}");
        let mut stray = whole.clone();
        stray[at] = 1;
        let (t, staging) = with_entry(&stray, at, 0);
        assert_eq!(answers(&stray, t, staging), [25, 0, 0], "{at}");
        let (t, staging) = with_entry(&stray, at, 2);
        assert_eq!(answers(&stray, t, staging), [25; 3], "{at}");
    }
    let (_, staging) = with_entry(&whole, 4_671, 1);
    assert_eq!((staging[..8].to_vec(), staging[8..16].to_vec()), (4_664u64.to_le_bytes().to_vec(), (1u64 << 56).to_le_bytes().to_vec()));
}
