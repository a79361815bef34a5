//! The calls that go on to the next barrier, against single steps: the same answers and the same bytes, from every place on.

mod common;

use common::open;
use reference::*;

const ID: u64 = 7;

/// R 2, C 2, Z 1, empty, and a transaction with so many entries: words of the data rows, not ascending.
fn staged(entries: usize) -> (Vec<u8>, Transaction, [u8; 2032]) {
    let (mut pool, mut staging) = (vec![0; 6144], [0; 2032]);
    assert_eq!(format(&mut pool, 2, 2, 1, ID), 0);
    for (i, entry) in staging.chunks_exact_mut(16).take(entries).enumerate() {
        let target = 18 * 256 + i * 37 % 128 * 8;
        entry[..8].copy_from_slice(&(target as u64).to_le_bytes());
        entry[8..].fill(i as u8 + 1);
    }
    let t = Transaction { count: entries, ..open(&pool) };
    (pool, t, staging)
}

/// Steps up to a barrier, done or a refusal.
fn stepped(t: Transaction, pool: &mut [u8], staging: &[u8]) -> Reply {
    let mut reply = commit_step(t, pool, staging);
    while reply.kind == STORED {
        reply = commit_step(reply.transaction, pool, staging);
    }
    reply
}

fn stepped_recovery(r: Recovery, pool: &mut [u8]) -> RecoveryReply {
    let mut reply = recover_step(r, pool);
    while reply.kind == STORED {
        reply = recover_step(reply.recovery, pool);
    }
    reply
}

/// Steps through a commit; before each step an advance is made on a copy. Answers the pools before each step.
fn commits_alike(entries: usize) -> Vec<Vec<u8>> {
    let (mut pool, t, staging) = staged(entries);
    let (mut reply, mut pools) = (commit(t, &pool, &staging), Vec::new());
    while reply.kind != DONE {
        let (mut by_steps, mut by_advance) = (pool.clone(), pool.clone());
        let wanted = stepped(reply.transaction, &mut by_steps, &staging);
        assert_eq!(commit_advance(reply.transaction, &mut by_advance, &staging), wanted);
        assert!([BARRIER, DONE].contains(&wanted.kind) && by_advance == by_steps, "{entries} entries, place {}", pools.len());
        pools.push(pool.clone());
        reply = commit_step(reply.transaction, &mut pool, &staging);
    }
    assert_eq!(pools.len(), 6 * entries + 9);
    pools
}

fn recoveries_alike(mut pool: Vec<u8>) -> usize {
    let mut reply = recover(&pool);
    while reply.kind != DONE {
        let (mut by_steps, mut by_advance) = (pool.clone(), pool.clone());
        let wanted = stepped_recovery(reply.recovery, &mut by_steps);
        assert_eq!(recover_advance(reply.recovery, &mut by_advance), wanted);
        assert!([BARRIER, DONE].contains(&wanted.kind) && by_advance == by_steps, "{:?}", reply.recovery);
        reply = recover_step(reply.recovery, &mut pool);
    }
    reply.value
}

#[test]
fn from_every_place() {
    for entries in [1, 2, 10, 26, 127] {
        let pools = commits_alike(entries);
        // Only seal A is stored; both are; B is left when A is cleared, and only clearing is left of it.
        for (place, steps) in [(4 * entries + 2, 2 * entries + 5), (4 * entries + 3, 2 * entries + 5), (6 * entries + 7, 2 * entries + 5)] {
            assert_eq!(recoveries_alike(pools[place].clone()), steps);
        }
        let mut spoilt = pools[4 * entries + 2].clone();
        spoilt[2 * 256] ^= 1;
        assert_eq!(recoveries_alike(spoilt), 3);
    }
}

/// The numbers of a commit's and a recovery's barriers.
#[test]
fn calls_of_a_commit() {
    let (mut pool, t, staging) = staged(10);
    let mut t = commit(t, &pool, &staging).transaction;
    for (kind, value) in [(BARRIER, 41), (BARRIER, 44), (BARRIER, 55), (BARRIER, 66), (DONE, 69)] {
        let reply = commit_advance(t, &mut pool, &staging);
        assert_eq!((reply.kind, reply.value), (kind, value));
        t = reply.transaction;
    }
    assert_eq!(t, Transaction { id: ID, count: 10, phase: 1 });
    let (mut pool, t, staging) = staged(10);
    let t = commit(t, &pool, &staging).transaction;
    let t = commit_advance(t, &mut pool, &staging).transaction;
    commit_advance(t, &mut pool, &staging);
    let mut r = recover(&pool).recovery;
    for (kind, value) in [(BARRIER, 11), (BARRIER, 22), (DONE, 25)] {
        let reply = recover_advance(r, &mut pool);
        assert_eq!((reply.kind, reply.value), (kind, value));
        r = reply.recovery;
    }
    assert_eq!(r, Recovery { id: ID, work: 23, phase: 0 });
}

/// Records that are open, closed, finished, impossible or of another pool, a scribbled log, a sealed pool, short staging memory, a lost header.
#[test]
fn refused_as_a_step() {
    let (pool, _, staging) = staged(3);
    let mut sealed = pool.clone();
    sealed[2 * 256] = 1;
    let mut none = pool.clone();
    none[0] = 0;
    none[256] = 0;
    for before in [&pool, &sealed, &none, &pool[1..].to_vec(), &Vec::new()] {
        for id in [ID, ID + 1] {
            refused_alike(before, &staging, id);
        }
    }
}

fn refused_alike(before: &[u8], staging: &[u8], id: u64) {
    for (count, phase) in [(3, 0), (3, 1), (3, 2), (3, 15), (3, 29), (0, 2), (128, 2), (usize::MAX, usize::MAX)] {
        for staging in [staging, &staging[1..]] {
            let t = Transaction { id, count, phase };
            let (mut by_steps, mut by_advance) = (before.to_vec(), before.to_vec());
            let wanted = stepped(t, &mut by_steps, staging);
            assert_eq!(commit_advance(t, &mut by_advance, staging), wanted);
            assert_eq!(by_advance, by_steps);
        }
    }
    for (work, phase) in
        [(0, 0), (0, 1), (1, 0), (1, 1), (1, 4), (2, 1), (3, 1), (9, 1), (10, 3), (9, 9), (10, 13), (259, 1), (usize::MAX, 1)]
    {
        let r = Recovery { id, work, phase };
        let (mut by_steps, mut by_advance) = (before.to_vec(), before.to_vec());
        assert_eq!(recover_advance(r, &mut by_advance), stepped_recovery(r, &mut by_steps));
        assert_eq!(by_advance, by_steps);
    }
}
