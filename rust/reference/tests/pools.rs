//! Records know the pool that they were begun on: begin, refusal 11, and its place among the others.

mod common;

use common::open;
use reference::*;

type Staging = [u8; 2032];

const SEALS: [usize; 2] = [2 * 256, 10 * 256];
const NO_TRANSACTION: Transaction = Transaction { id: 0, count: 0, phase: 1 };
const NO_RECOVERY: Recovery = Recovery { id: 0, work: 2, phase: 0 };

fn formatted(rows: usize, cols: usize, zones: usize, id: u64) -> Vec<u8> {
    let mut pool = vec![0; (18 + zones * (rows + 1) * cols) * 256];
    assert_eq!(format(&mut pool, rows, cols, zones, id), 0);
    pool
}

/// Two modules of one shape.
fn modules() -> [Vec<u8>; 2] {
    [1, 2].map(|id| formatted(2, 2, 1, id))
}

/// A seal that is not zero, without a log behind it.
fn sealed(pool: &[u8]) -> Vec<u8> {
    let mut pool = pool.to_vec();
    pool[SEALS[0]] = 1;
    pool
}

/// A transaction on this pool with an object, and its entries.
fn staged(pool: &[u8], body: &[u8]) -> (Transaction, Staging) {
    let mut staging = [7; 2032];
    let reply = allocate(open(pool), pool, &mut staging, 5, body);
    assert_eq!((reply.kind, reply.value), (ADDRESS, 0));
    (reply.transaction, staging)
}

/// The pool after so many steps of that transaction's commit.
fn cut_after(pool: &[u8], steps: usize) -> Vec<u8> {
    let (mut pool, (t, staging)) = (pool.to_vec(), staged(pool, b"a"));
    let started = commit(t, &pool, &staging).transaction;
    (0..steps).fold(started, |t, _| commit_step(t, &mut pool, &staging).transaction);
    pool
}

/// Every call that takes a transaction, on this pool: each is refused with this number and changes nothing.
fn refused(number: usize, t: Transaction, pool: &[u8], staging: &[u8]) {
    let (mut after, mut entries) = (pool.to_vec(), staging.to_vec());
    let replies = [
        allocate(t, pool, &mut entries, 6, b"b"),
        write(t, pool, &mut entries, 0, 0, b"b"),
        free(t, pool, &mut entries, 0),
        commit(t, pool, &entries),
        commit_step(t, &mut after, &entries),
        commit_advance(t, &mut after, &entries),
    ];
    assert_eq!(replies, [Reply { kind: REFUSED, value: number, transaction: t }; 6]);
    assert!(after == pool && entries == staging);
}

/// The same of the calls that take a recovery.
fn refused_recovery(number: usize, r: Recovery, pool: &[u8]) {
    let mut after = pool.to_vec();
    let replies = [recover_step(r, &mut after), recover_advance(r, &mut after)];
    assert_eq!(replies, [RecoveryReply { kind: REFUSED, value: number, recovery: r }; 2]);
    assert!(after == pool);
}

#[test]
fn begin_on_a_pool() {
    for id in [1, 7, u64::MAX] {
        let pool = formatted(2, 2, 1, id);
        assert_eq!(begin(&pool), Reply { kind: TAKEN, value: 0, transaction: Transaction { id, count: 0, phase: 0 } });
        assert_eq!(recover(&pool), RecoveryReply { kind: DONE, value: 0, recovery: Recovery { id, work: 0, phase: 0 } });
    }
}

/// 2 (under 512), 3, 4, 2 (length), 21, in this order; recovery does not ask for 21. The records handed back are taken by no call.
#[test]
fn refused_beginnings() {
    let [whole, other] = modules();
    let mut differing = whole.clone();
    differing[..256].copy_from_slice(&other[..256]);
    let mut headless = whole.clone();
    headless[..512].fill(0);
    let sealed_longer = |pool: &[u8]| [sealed(pool), vec![0]].concat();
    let cases = [
        (2, Vec::new()),
        (2, headless[..511].to_vec()),
        (3, sealed_longer(&headless)),
        (4, sealed_longer(&differing)),
        (2, sealed_longer(&whole)),
        (2, whole[..6143].to_vec()),
        (21, sealed(&whole)),
    ];
    for (number, pool) in cases {
        assert_eq!(begin(&pool), Reply { kind: REFUSED, value: number, transaction: NO_TRANSACTION });
        if number != 21 {
            assert_eq!(recover(&pool), RecoveryReply { kind: REFUSED, value: number, recovery: NO_RECOVERY });
        }
    }
    for pool in [&whole, &sealed(&whole), &other] {
        refused(11, NO_TRANSACTION, pool, &[7; 2032]);
        refused_recovery(11, NO_RECOVERY, pool);
    }
}

/// A transaction of one module on another, of the same shape and of another.
#[test]
fn transactions_of_another_pool() {
    let ([a, b], small) = (modules(), formatted(1, 1, 1, 3));
    let (t, staging) = staged(&a, b"a");
    assert_eq!((t.id, t.count, check(&staging)), (1, 10, 0x4D31_37A6));
    for other in [&b, &small, &sealed(&b)] {
        refused(11, t, other, &staging);
        refused(11, Transaction { phase: 1, ..t }, other, &staging);
        refused(9, t, other, &staging[..2031]);
    }
    let started = commit(t, &a, &staging).transaction;
    assert_eq!(started, Transaction { id: 1, count: 10, phase: 2 });
    refused(11, started, &b, &staging);
    let step = commit_step(started, &mut a.clone(), &staging);
    assert_eq!(step, Reply { kind: STORED, value: 1, transaction: Transaction { phase: 3, ..started } });
}

/// 10 is judged by the pool given, and before 11.
#[test]
fn impossible_records_of_another_pool() {
    let ([a, b], small) = (modules(), formatted(1, 1, 1, 3));
    let (t, staging) = staged(&a, &[1; 496]);
    assert_eq!(t.count, 66);
    refused(11, t, &b, &staging);
    refused(10, t, &small, &staging);
    for (count, phase) in [(128, 0), (10, 71), (0, 2)] {
        refused(10, Transaction { count, phase, ..t }, &b, &staging);
    }
}

/// The highest id, 0, and those beside the pool's; each bit counts.
#[test]
fn ids_of_records() {
    for id in [1, 1 << 32, u64::MAX - 1, u64::MAX] {
        let pool = formatted(2, 2, 1, id);
        let (t, staging) = staged(&pool, b"a");
        let r = recover(&sealed(&pool)).recovery;
        let others = [0, u64::MAX, id.wrapping_sub(1), id.wrapping_add(1)].into_iter().filter(|&other| other != id);
        for id in others.chain((0..64).map(|bit| id ^ 1 << bit)) {
            refused(11, Transaction { id, ..t }, &pool, &staging);
            refused_recovery(11, Recovery { id, ..r }, &pool);
        }
    }
}

/// A recovery of one module on another: its log is not there while it replays; after that, and in any other state, 11.
#[test]
fn recoveries_of_another_pool() {
    let [a, b] = modules();
    let mut cut = cut_after(&a, 42); // seal A alone
    let started = recover(&cut);
    assert_eq!(started, RecoveryReply { kind: STARTED, value: 0, recovery: Recovery { id: 1, work: 23, phase: 1 } });
    let mut renamed = cut.clone();
    renamed[..512].copy_from_slice(&b[..512]);
    let mut r = started.recovery;
    for place in 0..25 {
        assert_eq!(r, Recovery { phase: place + 1, ..started.recovery });
        refused_recovery(if place < 22 { 10 } else { 11 }, r, &b);
        refused_recovery(11, r, &renamed);
        r = recover_step(r, &mut cut).recovery;
    }
    assert_eq!(r, Recovery { phase: 0, ..started.recovery });
    refused_recovery(11, r, &b);
    refused_recovery(29, r, &a);
    let clearing = recover(&sealed(&a)).recovery;
    assert_eq!(clearing, Recovery { id: 1, work: 1, phase: 1 });
    refused_recovery(11, clearing, &sealed(&b));
    refused_recovery(10, Recovery { phase: 4, ..clearing }, &b);
}

/// The id is that of the first valid copy: the bytes of an invalid one are not read for it.
#[test]
fn ids_of_headers() {
    let [whole, other] = modules();
    for (valid, invalid) in [(0, 256), (256, 0)] {
        let mut pool = whole.clone();
        pool[invalid..invalid + 256].copy_from_slice(&other[..256]);
        pool[invalid + 255] = 1;
        let t = open(&pool);
        assert_eq!(t.id, 1, "the header at {valid}");
        assert_eq!(recover(&pool).recovery.id, 1);
        let (staging, of_the_invalid) = ([7; 2032], Transaction { id: 2, ..t });
        refused(11, of_the_invalid, &pool, &staging);
        assert_eq!(commit(t, &pool, &staging), Reply { kind: DONE, value: 0, transaction: Transaction { phase: 1, ..t } });
        refused_recovery(11, Recovery { id: 2, work: 1, phase: 1 }, &pool);
        assert_eq!(recover_step(Recovery { id: 1, work: 1, phase: 1 }, &mut pool).kind, STORED);
    }
}

/// Every call of a save and of a recovery hands the id back.
#[test]
fn ids_handed_back() {
    let mut pool = formatted(2, 2, 1, u64::MAX);
    let (t, mut staging) = staged(&pool, b"a");
    let mut replies = vec![write(t, &pool, &mut staging, 0, 0, b"b")];
    replies.push(free(t, &pool, &mut staging.clone(), 0));
    replies.push(commit(replies[0].transaction, &pool, &staging));
    while replies.last().unwrap().kind != DONE {
        let t = replies.last().unwrap().transaction;
        replies.push(commit_advance(t, &mut pool.clone(), &staging));
        replies.push(commit_step(t, &mut pool, &staging));
    }
    assert!(replies.iter().all(|reply| reply.kind != REFUSED && reply.transaction.id == u64::MAX), "{replies:?}");
    let mut cut = cut_after(&formatted(2, 2, 1, u64::MAX), 44);
    let mut replies = vec![recover(&cut)];
    while replies.last().unwrap().kind != DONE {
        let r = replies.last().unwrap().recovery;
        replies.push(recover_advance(r, &mut cut.clone()));
        replies.push(recover_step(r, &mut cut));
    }
    assert!(replies.iter().all(|reply| reply.kind != REFUSED && reply.recovery.id == u64::MAX), "{replies:?}");
}
