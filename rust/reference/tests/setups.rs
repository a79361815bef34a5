//! Request A.1: set-ups 0 to 9, and the look-up by tag. Pools have id 1.

mod common;

use common::open;
use reference::*;

const ZONES: usize = 18 * 256;
const SEAL_B: usize = 10 * 256;
const NO_TRANSACTION: Transaction = Transaction { id: 0, count: 0, phase: 1 };
const HUGE: [usize; 4] = [1 << 8, 1 << 32, usize::MAX - 99, usize::MAX];

fn fresh(rows: usize, cols: usize, zones: usize) -> Vec<u8> {
    let mut pool = vec![0xEE; (18 + zones * (rows + 1) * cols) * 256];
    assert_eq!(format(&mut pool, rows, cols, zones, 1), 0);
    pool
}

/// Set-up k of the examples.
fn setup(k: usize) -> [u8; 120] {
    std::array::from_fn(|i| (k + 7 * i) as u8)
}

/// Commits; the number of steps.
fn committed(t: Transaction, pool: &mut [u8], staging: &[u8]) -> usize {
    let mut reply = commit(t, pool, staging);
    while reply.kind != DONE {
        assert_ne!(reply.kind, REFUSED);
        reply = commit_advance(reply.transaction, pool, staging);
    }
    reply.value
}

/// Saves and commits: the answer's kind and value, the entries and the steps.
fn saved(pool: &mut [u8], number: usize, body: &[u8]) -> (usize, usize, usize, usize) {
    let mut staging = [0xA7; 2032];
    let reply = save(pool, &mut staging, number, body);
    assert!(staging[reply.transaction.count * 16..].iter().all(|&byte| byte == 0xA7), "bytes beyond the entries stay");
    (reply.kind, reply.value, reply.transaction.count, committed(reply.transaction, pool, &staging))
}

/// Another object, saved by a transaction of its own; its address.
fn allocated(pool: &mut [u8], tag: u32, body: &[u8]) -> usize {
    let mut staging = [0; 2032];
    let reply = allocate(open(pool), pool, &mut staging, tag, body);
    assert_eq!(reply.kind, ADDRESS);
    committed(reply.transaction, pool, &staging);
    reply.value
}

fn found(address: usize) -> Found {
    Found { refusal: 0, found: 1, address }
}

/// Not found, or refused.
fn not_found(refusal: usize) -> Found {
    Found { refusal, found: 0, address: 0 }
}

fn recalled(pool: &[u8], number: usize) -> &[u8] {
    let part = recall(pool, number);
    assert_eq!(part.refusal, 0, "set-up {number}");
    &pool[part.offset..][..part.length]
}

/// A refused save leaves staging memory and hands back a record that no call takes.
fn refused_save(pool: &[u8], length: usize, number: usize, body: &[u8]) -> usize {
    let before: Vec<u8> = (0..length).map(|i| i as u8).collect();
    let mut staging = before.clone();
    let reply = save(pool, &mut staging, number, body);
    assert_eq!((reply.kind, reply.transaction), (REFUSED, NO_TRANSACTION));
    assert!(staging == before);
    assert_eq!(commit(reply.transaction, pool, &[0; 2032]).kind, REFUSED);
    reply.value
}

fn refused_recall(pool: &[u8], number: usize) -> usize {
    let Part { refusal, offset, length } = recall(pool, number);
    assert!(refusal != 0 && (offset, length) == (0, 0));
    refusal
}

/// The pool R 4, C 2, Z 1 with set-up 3.
fn with_setup_3() -> Vec<u8> {
    let mut pool = fresh(4, 2, 1);
    assert_eq!(saved(&mut pool, 3, &setup(3)), (ADDRESS, 0, 26, 165));
    pool
}

fn head_check(pool: &[u8], at: usize) -> u32 {
    u32::from_le_bytes(pool[at + 8..at + 12].try_into().unwrap())
}

#[test]
fn ten_places() {
    let mut pool = with_setup_3();
    assert_eq!(pool.len(), 7_168);
    assert_eq!((head_check(&pool, ZONES), check(&pool)), (0x4C41_3989, 0xA3A3_0874));
    assert_eq!(recall(&pool, 3), Part { refusal: 0, offset: 4_624, length: 120 });
    assert_eq!(recalled(&pool, 3), setup(3));
    assert_eq!(saved(&mut pool, 3, &setup(99)), (TAKEN, 0, 16, 105));
    assert_eq!((head_check(&pool, ZONES), check(&pool)), (0x0BDF_3C89, 0xA401_18B2));
    assert_eq!(recalled(&pool, 3), setup(99));
    assert_eq!(refused_recall(&pool, 7), 31);
    assert_eq!(refused_recall(&pool, 10), 32);
    for (i, number) in [0, 1, 2, 4, 5, 6, 7, 8, 9].into_iter().enumerate() {
        assert_eq!(saved(&mut pool, number, &setup(number)), (ADDRESS, 3 * i + 3, 26, 165));
    }
    assert_eq!(check(&pool), 0x1E1B_F48A);
    for number in 0..10 {
        assert_eq!(recalled(&pool, number), setup(if number == 3 { 99 } else { number }));
    }
    assert_eq!(scrub(&pool), Counts { refusal: 0, objects: 10, damaged: 0, broken: 0, columns: 0 });
    assert_eq!(pool[ZONES + 30 * 64..][..4], [1, 0, 2, 0], "two free cells are left");
}

#[test]
fn no_room() {
    let mut pool = fresh(2, 2, 1);
    for number in 0..5 {
        assert_eq!(saved(&mut pool, number, &setup(number)), (ADDRESS, 3 * number, 26, 165));
    }
    assert_eq!(refused_save(&pool, 2032, 5, &setup(5)), 26);
    assert_eq!(saved(&mut pool, 2, &setup(77)), (TAKEN, 0, 16, 105));
    assert_eq!(recalled(&pool, 2), setup(77));
    assert_eq!(refused_recall(&pool, 5), 31);
    let mut pool = fresh(3, 1, 1);
    let saves = [0, 1, 2, 3].map(|number| saved(&mut pool, number, &setup(number)));
    assert_eq!(saves, [(ADDRESS, 0, 26, 165), (ADDRESS, 3, 26, 165), (ADDRESS, 6, 26, 165), (ADDRESS, 9, 24, 153)]);
    assert_eq!(refused_save(&pool, 2032, 4, &setup(4)), 26);
}

/// The second save, cut after its 66th step, which stores seal A: kept, or lost with all others since the barrier before it.
#[test]
fn cut() {
    let (mut pool, mut staging) = (with_setup_3(), [0; 2032]);
    let reply = save(&pool, &mut staging, 3, &setup(99));
    let mut t = commit(reply.transaction, &pool, &staging).transaction;
    let mut before_seal = Vec::new();
    for _ in 0..66 {
        before_seal.clone_from(&pool);
        t = commit_step(t, &mut pool, &staging).transaction;
    }
    for (mut pool, steps, k) in [(pool, 37, 99), (before_seal, 0, 3)] {
        assert_eq!(recall(&pool, 3).refusal, if steps > 0 { 21 } else { 0 });
        let mut reply = recover(&pool);
        while reply.kind != DONE {
            reply = recover_advance(reply.recovery, &mut pool);
        }
        assert_eq!(reply.value, steps);
        assert_eq!(recalled(&pool, 3), setup(k));
    }
}

/// A byte of the body, or behind it: the set-up can be neither recalled nor saved over, but is found, and the others are as before.
#[test]
fn damaged() {
    let mut whole = with_setup_3();
    saved(&mut whole, 8, &setup(8));
    for place in 16..192 {
        let mut pool = whole.clone();
        pool[ZONES + place] ^= 1;
        assert_eq!(refused_recall(&pool, 3), 25, "{place}");
        assert_eq!(refused_save(&pool, 2032, 3, &setup(3)), 25, "{place}");
        assert_eq!(look_up(&pool, 103, 0), found(0));
        assert_eq!(recalled(&pool, 8), setup(8));
        assert_eq!(refused_recall(&pool, 7), 31);
        assert_eq!(save(&pool, &mut [0; 2032], 8, &setup(1)).kind, TAKEN);
        assert_eq!(save(&pool, &mut [0; 2032], 7, &setup(1)).kind, ADDRESS);
    }
}

/// The lowest address counts, whatever its length.
#[test]
fn several_objects() {
    for length in [1, 119, 121, 496] {
        let mut pool = fresh(4, 2, 1);
        assert_eq!(allocated(&mut pool, 104, &vec![7; length]), 0);
        let address = allocated(&mut pool, 104, &setup(4));
        assert_eq!(refused_recall(&pool, 4), 33);
        assert_eq!(refused_save(&pool, 2032, 4, &setup(4)), 33);
        assert_eq!([0, 1, address + 1].map(|from| look_up(&pool, 104, from)), [found(0), found(address), not_found(0)]);
        pool[ZONES + 16] ^= 1;
        assert_eq!(refused_recall(&pool, 4), 25, "25 comes before 33");
        assert_eq!(refused_save(&pool, 2032, 4, &setup(4)), 25);
    }
    let mut pool = fresh(4, 2, 1);
    for k in [5, 6] {
        allocated(&mut pool, 105, &setup(k));
    }
    assert_eq!(recall(&pool, 5), Part { refusal: 0, offset: 4_624, length: 120 });
    assert_eq!(saved(&mut pool, 5, &setup(50)), (TAKEN, 0, 16, 105));
    assert_eq!(recalled(&pool, 5), setup(50));
    assert_eq!(pool[look(&pool, 3).offset..][..120], setup(6));
}

/// R 1, C 1, Z 2 with set-up 0 in zone 0, and zone 1 broken: all zones are judged, also behind the object.
#[test]
fn broken_zone() {
    let mut pool = fresh(1, 1, 2);
    saved(&mut pool, 0, &setup(0));
    pool[ZONES + 512] = 9;
    for number in [0, 1] {
        assert_eq!(refused_recall(&pool, number), 23);
        assert_eq!(refused_save(&pool, 2032, number, &setup(0)), 23);
    }
    assert_eq!(look_up(&pool, 100, 0), not_found(23));
    assert_eq!(look(&pool, 0), Part { refusal: 0, offset: 4_624, length: 120 });
}

/// Objects with one tag in two zones; free runs have none.
#[test]
fn look_up_from() {
    let mut pool = fresh(1, 1, 2);
    for (tag, address) in [(7, 0), (0, 1), (7, 2), (u32::MAX, 3), (7, 4)] {
        assert_eq!(allocated(&mut pool, tag, b"a"), address);
    }
    for (from, address) in [(0, 0), (1, 2), (2, 2), (3, 4), (4, 4)] {
        assert_eq!(look_up(&pool, 7, from), found(address), "{from}");
    }
    for from in [5, 7, 8, 9].into_iter().chain(HUGE) {
        assert_eq!(look_up(&pool, 7, from), not_found(0), "{from}");
    }
    assert_eq!([0, 1, 2].map(|from| look_up(&pool, 0, from)), [found(1), found(1), not_found(0)]);
    assert_eq!([3, 4].map(|from| look_up(&pool, u32::MAX, from)), [found(3), not_found(0)]);
    assert_eq!([8, 16, 24].map(|bit| look_up(&pool, 7 | 1 << bit, 0)), [not_found(0); 3]);
    assert_eq!(look_up(&fresh(1, 1, 2), 0, 0), not_found(0));
}

/// Numbers and bodies, before all else: on a pool that is none, without staging memory.
#[test]
fn numbers_and_bodies() {
    for pool in [with_setup_3(), Vec::new(), vec![0xEE; 7_168]] {
        for number in [10, 11].into_iter().chain(HUGE) {
            assert_eq!(refused_recall(&pool, number), 32);
            for (length, body) in [(0, 0), (0, 120), (2032, 0), (2032, 120)] {
                assert_eq!(refused_save(&pool, length, number, &vec![0; body]), 32);
            }
        }
        for (length, body) in [0, 1, 119, 121, 376, 497].into_iter().flat_map(|body| [(0, body), (2032, body)]) {
            assert_eq!(refused_save(&pool, length, 3, &vec![0; body]), 33);
            assert_eq!(refused_save(&pool, length, 9, &vec![0; body]), 33);
        }
    }
}

/// Short or of another length, without a valid header, with two; sealed; and staging memory that is too short.
#[test]
fn pools() {
    let whole = with_setup_3();
    let with = |change: &dyn Fn(&mut Vec<u8>)| {
        let mut pool = whole.clone();
        change(&mut pool);
        pool
    };
    let mut other = whole.clone();
    assert_eq!(format(&mut other, 4, 2, 1, 2), 0);
    let cases = [
        (2, Vec::new()),
        (2, whole[..511].to_vec()),
        (3, with(&|pool| pool[..512].fill(0))),
        (4, with(&|pool| pool[..256].copy_from_slice(&other[..256]))),
        (2, with(&|pool| pool.push(0))),
        (2, whole[..7_167].to_vec()),
    ];
    for (refusal, pool) in cases {
        assert_eq!(look_up(&pool, 103, 0), not_found(refusal));
        assert_eq!(refused_recall(&pool, 3), refusal);
        assert_eq!([0, 2032].map(|length| refused_save(&pool, length, 3, &setup(3))), [refusal; 2]);
    }
    let sealed = with(&|pool| pool[SEAL_B + 7] = 0x80);
    assert_eq!(look_up(&sealed, 103, 0), not_found(21));
    assert_eq!(refused_recall(&sealed, 3), 21);
    assert_eq!(refused_recall(&sealed, 7), 21);
    assert_eq!([0, 10, 2031, 2032, 4096].map(|length| refused_save(&sealed, length, 3, &setup(3))), [9, 9, 9, 21, 21]);
    assert_eq!([0, 2031].map(|length| refused_save(&whole, length, 3, &setup(3))), [9; 2]);
    let broken = with(&|pool| pool[ZONES] = 9);
    assert_eq!([2031, 2032].map(|length| refused_save(&broken, length, 3, &setup(3))), [9, 23]);
}
