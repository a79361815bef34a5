//! Refusals in the order of document 01, and what a refused call leaves.

mod common;

use common::open;
use reference::*;

const ZONE: usize = 18 * 256;

/// R 2, C 2, Z 1 with three objects of one cell, 0 to 2, then a free run.
fn pool() -> Vec<u8> {
    let (mut pool, mut staging) = (vec![0; 6144], [0; 2032]);
    assert_eq!(format(&mut pool, 2, 2, 1, 7), 0);
    let mut t = open(&pool);
    for tag in 0..3 {
        t = allocate(t, &pool, &mut staging, tag, &[tag as u8; 20]).transaction;
    }
    save(t, &mut pool, &staging);
    pool
}

fn save(t: Transaction, pool: &mut [u8], staging: &[u8]) {
    let mut reply = commit(t, pool, staging);
    while reply.kind != DONE {
        assert_ne!(reply.kind, REFUSED);
        reply = commit_step(reply.transaction, pool, staging);
    }
}

fn refused(t: Transaction, number: usize) -> Reply {
    Reply { kind: REFUSED, value: number, transaction: t }
}

#[test]
fn headers() {
    assert_eq!(format(&mut [0; 6144], 16, 2, 1, 7), 1);
    assert_eq!(format(&mut [0; 6144], 2, 65, 1, 7), 1);
    assert_eq!(format(&mut [0; 6144], 2, 2, 17, 7), 1);
    assert_eq!(format(&mut [0; 6144], 2, 2, 0, 7), 1);
    assert_eq!(format(&mut [0; 6143], 2, 2, 1, 0), 1);
    let whole = pool();
    for first in [0, 256] {
        let mut one = whole.clone();
        one[first + 100] = 1;
        assert_eq!(scrub(&one).refusal, 0);
        assert_eq!(mend(&mut one), 0);
        assert_eq!(one, whole);
    }
    let mut none = whole.clone();
    none[0] = 0;
    none[256 + 17] ^= 1;
    assert_eq!(mend(&mut none), 3);
    let mut different = whole.clone();
    let mut other = vec![0; 6144];
    assert_eq!(format(&mut other, 2, 2, 1, 8), 0);
    different[..256].copy_from_slice(&other[..256]);
    assert_eq!(mend(&mut different), 4);
}

#[test]
fn objects() {
    let (whole, mut staging) = (pool(), [0; 2032]);
    let t = open(&whole);
    assert_eq!(look(&whole, 16).refusal, 5);
    assert_eq!(look(&whole, 3).refusal, 24);
    assert_eq!(look(&whole, 4).refusal, 24);
    assert_eq!(write(t, &whole, &mut staging, 1, 20, &[]), refused(t, 7));
    assert_eq!(write(t, &whole, &mut staging, 1, 1, &[0; 20]), refused(t, 7));
    assert_eq!(write(t, &whole, &mut staging, 1, usize::MAX, &[0; 2]), refused(t, 7));
    assert_eq!(allocate(t, &whole, &mut staging, 0, &[]), refused(t, 6));
    assert_eq!(allocate(t, &whole, &mut staging, 0, &[0; 497]), refused(t, 6));
    let mut damaged = whole.clone();
    damaged[ZONE + 64 + 16] ^= 1;
    assert_eq!(look(&damaged, 1).refusal, 25);
    assert_eq!(write(t, &damaged, &mut staging, 1, 0, &[]), refused(t, 25));
    assert_eq!(free(t, &damaged, &mut staging, 1), refused(t, 25));
    assert_eq!(scrub(&damaged), Counts { refusal: 0, objects: 3, damaged: 1, broken: 0, columns: 1 });
    for place in [36, 63] {
        let mut stray = whole.clone();
        stray[ZONE + 64 + place] = 1;
        assert_eq!([0, 1, 2, 3, 16].map(|address| look(&stray, address).refusal), [0, 25, 0, 24, 5]);
        assert_eq!(write(t, &stray, &mut staging, 1, 0, &[]), refused(t, 25));
        assert_eq!(free(t, &stray, &mut staging, 1), refused(t, 25));
        assert_eq!(scrub(&stray), Counts { refusal: 0, objects: 3, damaged: 1, broken: 0, columns: 1 });
        stray[ZONE + 128] = 9;
        assert_eq!(look(&stray, 1).refusal, 23);
        assert_eq!(free(t, &stray, &mut staging, 1), refused(t, 23));
    }
    let mut broken = whole.clone();
    broken[ZONE + 128] = 9;
    assert_eq!(look(&broken, 0).refusal, 23);
    assert_eq!(allocate(t, &broken, &mut staging, 0, &[1]), refused(t, 23));
    assert_eq!(scrub(&broken), Counts { refusal: 0, objects: 2, damaged: 0, broken: 1, columns: 1 });
    assert_eq!(staging, [0; 2032]);
}

#[test]
fn no_room() {
    let (mut pool, mut staging) = (vec![0; (18 + 2 * 2) * 256], [0; 2032]);
    assert_eq!(format(&mut pool, 1, 1, 2, 7), 0);
    let fresh = open(&pool);
    assert_eq!(allocate(fresh, &pool, &mut staging, 0, &[0; 241]), refused(fresh, 26));
    let t = allocate(fresh, &pool, &mut staging, 0, &[0; 240]).transaction;
    let reply = allocate(t, &pool, &mut staging, 0, &[0; 240]);
    assert_eq!((reply.kind, reply.value), (ADDRESS, 4));
    let t = reply.transaction;
    assert_eq!(allocate(t, &pool, &mut staging, 0, &[0]), refused(t, 26));
    // A break in the zone behind the fit is not met; one before it is.
    pool[18 * 256 + 512] = 0;
    assert_eq!(allocate(fresh, &pool, &mut staging, 0, &[0; 240]).kind, ADDRESS);
    assert_eq!(allocate(fresh, &pool, &mut staging, 0, &[0; 241]), refused(fresh, 23));
}

#[test]
fn joins() {
    let (whole, mut staging) = (pool(), [0; 2032]);
    let mut t = open(&whole);
    for address in [0, 2, 1] {
        t = free(t, &whole, &mut staging, address).transaction;
    }
    // Cells 0 and 2 have two words each; freeing cell 1 joins all into cell 0's run.
    assert_eq!(t.count, 4);
    assert_eq!(staging[8..16], [1, 0, 16, 0, 0, 0, 0, 0]);
    assert_eq!(staging[40..48], [1, 0, 14, 0, 0, 0, 0, 0]);
    let reply = allocate(t, &whole, &mut staging, 9, &[3; 20]);
    assert_eq!((reply.kind, reply.value, reply.transaction.count), (ADDRESS, 0, 12));
    assert_eq!(free(reply.transaction, &whole, &mut staging, 1), refused(reply.transaction, 24));
}

#[test]
fn records() {
    let (mut whole, mut staging) = (pool(), [0; 2032]);
    let t = free(open(&whole), &whole, &mut staging, 1).transaction;
    for phase in [1, 2, 22] {
        let t = Transaction { phase, ..t };
        assert_eq!(free(t, &whole, &mut staging, 0), refused(t, 29));
        assert_eq!(commit(t, &whole, &staging), refused(t, 29));
    }
    for phase in [23, usize::MAX] {
        let t = Transaction { phase, ..t };
        assert_eq!(free(t, &whole, &mut staging, 0), refused(t, 10));
        assert_eq!(commit_step(t, &mut whole, &staging), refused(t, 10));
    }
    assert_eq!(commit_step(t, &mut whole, &staging), refused(t, 29));
    for (count, phase) in [(128, 0), (usize::MAX, 0), (0, 2)] {
        let t = Transaction { count, phase, ..t };
        assert_eq!(commit_step(t, &mut whole, &staging), refused(t, 10));
        assert_eq!(commit(t, &whole, &staging[1..]), refused(t, 9));
    }
    for (at, byte) in [(0, 1), (1, 0), (7, 1), (16, staging[0])] {
        let mut bad = staging;
        bad[at] = byte;
        assert_eq!(commit(t, &whole, &bad), refused(t, 10), "{at}");
        assert_eq!(free(t, &whole, &mut bad, 0), refused(t, 10), "{at}");
    }
}

#[test]
fn seals() {
    let (mut whole, mut staging) = (pool(), [0; 2032]);
    let t = free(open(&whole), &whole, &mut staging, 1).transaction;
    let started = commit(t, &whole, &staging).transaction;
    whole[2 * 256] = 1;
    assert_eq!(look(&whole, 99).refusal, 21);
    assert_eq!(repair(&mut whole, &[]), Repaired { refusal: 21, altered: 0 });
    assert_eq!(allocate(t, &whole, &mut staging, 0, &[]), refused(t, 21));
    assert_eq!(commit_step(started, &mut whole, &staging), refused(started, 21));
    let r = recover(&whole).recovery;
    assert_eq!(r, Recovery { id: 7, work: 1, phase: 1 });
    whole[10 * 256] = 1;
    let refused = |recovery, value| RecoveryReply { kind: REFUSED, value, recovery };
    assert_eq!(recover(&whole), refused(Recovery { id: 0, work: 2, phase: 0 }, 22));
    for (work, phase, value) in [(2, 0, 29), (0, 1, 10), (1, 4, 10), (7, 1, 10), (259, 0, 10), (7, 10, 10)] {
        let r = Recovery { work, phase, ..r };
        assert_eq!(recover_step(r, &mut whole), refused(r, value));
    }
    let last = recover_step(Recovery { work: 7, phase: 9, ..r }, &mut whole);
    assert_eq!((last.kind, last.value, last.recovery.phase), (DONE, 9, 0));
}
