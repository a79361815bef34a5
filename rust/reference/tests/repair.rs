//! Request A.8: how many bytes a repair alters. R 2, C 2, Z 1, id 1.

mod common;

use common::open;
use reference::*;

const FIRST_PAGE: usize = 4_608;
const PAGE: usize = 256;

/// The check of the fresh pool.
const FRESH: u32 = 0x4CB1_06AD;

fn fresh(rows: usize, cols: usize, zones: usize) -> Vec<u8> {
    let mut pool = vec![0xEE; (18 + zones * (rows + 1) * cols) * PAGE];
    assert_eq!(format(&mut pool, rows, cols, zones, 1), 0);
    pool
}

/// The pool with an object at cell 0: tag 5, body hex 61.
fn with_object() -> Vec<u8> {
    let (mut pool, mut staging) = (fresh(2, 2, 1), [0; 2032]);
    let staged = allocate(open(&pool), &pool, &mut staging, 5, b"a");
    let mut reply = commit(staged.transaction, &pool, &staging);
    while reply.kind != DONE {
        reply = commit_advance(reply.transaction, &mut pool, &staging);
    }
    pool
}

fn altered(bytes: usize) -> Repaired {
    Repaired { refusal: 0, altered: bytes }
}

fn refused(refusal: usize) -> Repaired {
    Repaired { refusal, altered: 0 }
}

/// Where bytes are laid over the fresh pool, how many, and which.
type Laid = (usize, usize, u8);

/// What is laid over the fresh pool; the masks; how many bytes the repair alters; the check of the pool then.
const WORKED: [(&[Laid], [u16; 2], usize, u32); 9] = [
    (&[], [0, 0], 0, FRESH),
    (&[], [1, 4], 0, FRESH),
    (&[(5_632, 1, 0x77)], [4, 0], 1, FRESH),
    (&[(5_632, 1, 0x77)], [0, 0], 0, 0x38C0_0723),
    (&[(4_608, 256, 0xEE)], [1, 0], 256, FRESH),
    (&[(4_608, 256, 0)], [1, 0], 4, FRESH), // four bytes of the free head
    (&[(4_608, 256, 0xEE), (5_376, 256, 0xEE)], [1, 2], 512, FRESH),
    (&[(4_608, 1, 0)], [2, 0], 1, 0x4AB1_06AD),                   // a page that was not lost
    (&[(0, 1, 0), (4_608, 256, 0xEE)], [1, 0], 256, 0x8439_065A), // a header is left to mending
];

#[test]
fn worked_numbers() {
    for (laid, lost, bytes, sum) in WORKED {
        let mut pool = fresh(2, 2, 1);
        assert_eq!(check(&pool), FRESH);
        laid.iter().for_each(|&(at, length, byte)| pool[at..at + length].fill(byte));
        for bytes in [bytes, 0] {
            assert_eq!(repair(&mut pool, &lost), altered(bytes), "{laid:?}, {lost:?}");
            assert_eq!(check(&pool), sum, "{laid:?}, {lost:?}");
        }
    }
}

/// Seven bytes of its head and body are not zero, and four of the free head behind it.
#[test]
fn the_page_of_an_object() {
    let mut pool = with_object();
    pool[FIRST_PAGE..][..PAGE].fill(0);
    assert_eq!(repair(&mut pool, &[1, 0]), altered(11));
    assert_eq!(check(&pool), 0xD0D9_1293);
}

/// None to all bytes of a page changed, from its front and from its end, in every bit; then each bit of it alone.
#[test]
fn every_number_and_every_place() {
    let whole = with_object();
    let alters = |changed: &[(usize, u8)]| {
        let mut pool = whole.clone();
        changed.iter().for_each(|&(place, bits)| pool[FIRST_PAGE + place] ^= bits);
        assert_eq!(repair(&mut pool, &[1, 0]), altered(changed.len()));
        assert_eq!(pool, whole);
    };
    for bytes in 0..=PAGE {
        alters(&(0..bytes).map(|place| (place, 0xFF)).collect::<Vec<_>>());
        alters(&(PAGE - bytes..PAGE).map(|place| (place, 0xFF)).collect::<Vec<_>>());
    }
    for (place, bit) in (0..PAGE).flat_map(|place| (0..8).map(move |bit| (place, bit))) {
        alters(&[(place, 1 << bit)]);
    }
}

/// The highest number there is: 256 * Z * C.
#[test]
fn a_page_in_each_column_of_the_largest_pool() {
    let whole = fresh(15, 64, 16);
    let mut pool = whole.clone();
    pool[FIRST_PAGE..].chunks_exact_mut(16 * 64 * PAGE).for_each(|zone| zone[..64 * PAGE].fill(0xEE));
    for bytes in [262_144, 0] {
        assert_eq!(repair(&mut pool, &[1; 16 * 64]), altered(bytes));
        assert!(pool == whole);
    }
}

/// What is refused alters nothing.
#[test]
fn refusals() {
    let mut lossy = fresh(2, 2, 1);
    lossy[FIRST_PAGE..][..PAGE].fill(0xEE);
    let lists: [(&[u16], usize); 7] = [(&[5, 0], 28), (&[0, 3], 28), (&[8, 0], 8), (&[5, 8], 8), (&[], 8), (&[4], 8), (&[1, 0, 0], 8)];
    for (lost, refusal) in lists {
        let mut pool = lossy.clone();
        assert_eq!(repair(&mut pool, lost), refused(refusal), "{lost:?}");
        assert_eq!(pool, lossy);
    }
    let with_byte = |at: usize| [&lossy[..at], &[0x80], &lossy[at + 1..]].concat();
    let pools = [(lossy[..511].to_vec(), 2), (lossy[1..].to_vec(), 3), (lossy[..6_143].to_vec(), 2), (vec![0xEE; 6_144], 3)];
    for (pool, refusal) in pools.into_iter().chain([512, 2_567].map(|at| (with_byte(at), 21))) {
        for (lost, _) in lists.into_iter().chain([(&[1, 0][..], 0)]) {
            let mut copy = pool.clone();
            assert_eq!(repair(&mut copy, lost), refused(refusal), "{lost:?}");
            assert_eq!(copy, pool);
        }
    }
}
