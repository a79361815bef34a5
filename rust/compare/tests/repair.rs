//! How many bytes a repair alters: worked numbers, every number and every place of a page, pages struck at random, and repairs that are
//! refused. Each call is made on the library and on the reference, with everything compared, and each side's number with the tests' own.
use compare::calls::{compare, Answer, Call, Given};
use compare::driver::commit;
use compare::layout::*;
use compare::memory::{Image, Memory};
use compare::random::Random;
use compare::staged::{Change, Staged};
use compare::{pools, times};
use linked::Repaired;

const SHAPE: Shape = Shape { rows: 2, cols: 2, zones: 1 };

/// The check of this pool with id 1, as format makes it.
const FRESH: u32 = 0x4CB1_06AD;

/// With id 1, as format makes it.
fn fresh(shape: Shape) -> Given {
    let Shape { rows, cols, zones } = shape;
    let mut given = Given::new(vec![0xEE; shape.length()], Vec::new());
    assert_eq!(compare(&Call::Format { rows, cols, zones, id: 1 }, &mut given, 0), Answer::Refusal(0));
    given
}

/// The pool with an object at cell 0: tag 5, body hex 61.
fn with_object() -> Given {
    let pool = fresh(SHAPE).pool;
    let mut staged = Staged::new(&pool, &[]);
    staged.stage(&pool, &Change::Allocate { tag: 5, body: b"a".to_vec() });
    let mut memory = Memory::new(Image::new(pool));
    assert!(commit(&mut memory, &staged, |_, _| true));
    Given::new(memory.seen().to_vec(), Vec::new())
}

fn repair(given: &mut Given, lost: &[u16]) -> Repaired {
    let Answer::Repaired(repaired) = compare(&Call::Repair(lost.to_vec()), given, 0) else { panic!() };
    repaired
}

fn altered(bytes: usize) -> Repaired {
    Repaired { refusal: 0, altered: bytes }
}

/// Where bytes are laid over the fresh pool, how many, and which.
type Laid = (usize, usize, u8);

/// What is laid over the fresh pool; the masks; how many bytes the repair alters; the check of the pool then.
const WORKED: [(&[Laid], [u16; 2], usize, u32); 9] = [
    (&[], [0, 0], 0, FRESH),
    (&[], [1, 4], 0, FRESH),
    (&[(5_632, 1, 0x77)], [4, 0], 1, FRESH),
    (&[(5_632, 1, 0x77)], [0, 0], 0, 0x38C0_0723),
    (&[(4_608, 256, 0xEE)], [1, 0], 256, FRESH),
    (&[(4_608, 256, 0)], [1, 0], 4, FRESH), // four bytes of the free head
    (&[(4_608, 256, 0xEE), (5_376, 256, 0xEE)], [1, 2], 512, FRESH),
    (&[(4_608, 1, 0)], [2, 0], 1, 0x4AB1_06AD),                   // a page that was not lost
    (&[(0, 1, 0), (4_608, 256, 0xEE)], [1, 0], 256, 0x8439_065A), // a header is left to mending
];

#[test]
fn worked_numbers() {
    for (laid, lost, bytes, check) in WORKED {
        let mut given = fresh(SHAPE);
        assert_eq!(linked::check(&given.pool), FRESH);
        laid.iter().for_each(|&(at, length, byte)| given.pool[at..at + length].fill(byte));
        for bytes in [bytes, 0] {
            assert_eq!(repair(&mut given, &lost), altered(bytes), "{laid:?}, {lost:?}");
            assert_eq!(linked::check(&given.pool), check, "{laid:?}, {lost:?}");
        }
    }
}

/// Seven bytes of its head and body are not zero, and four of the free head behind it.
#[test]
fn the_page_of_an_object() {
    let mut given = with_object();
    given.pool[ZONES..][..PAGE].fill(0);
    assert_eq!(repair(&mut given, &[1, 0]), altered(11));
    assert_eq!(linked::check(&given.pool), 0xD0D9_1293);
}

/// None to all bytes of a page changed, in every bit; then each bit of it alone. Each page in turn.
#[test]
fn every_number_and_every_place() {
    let whole = with_object();
    for (row, col) in (0..=SHAPE.rows).flat_map(|row| (0..SHAPE.cols).map(move |col| (row, col))) {
        let mut lost = [0; 2];
        lost[col] = 1 << row;
        let alters = |changed: &[(usize, u8)]| {
            let mut given = whole.clone();
            changed.iter().for_each(|&(place, bits)| given.pool[SHAPE.page(0, row, col) + place] ^= bits);
            assert_eq!(repair(&mut given, &lost), altered(changed.len()), "row {row}, column {col}");
            assert!(given == whole, "row {row}, column {col}");
        };
        for bytes in 0..=PAGE {
            alters(&(0..bytes).map(|place| (place, 0xFF)).collect::<Vec<_>>());
        }
        for (place, bit) in (0..PAGE).flat_map(|place| (0..8).map(move |bit| (place, bit))) {
            alters(&[(place, 1 << bit)]);
        }
    }
}

/// The highest number there is: 256 * Z * C.
#[test]
fn a_page_in_each_column_of_the_largest_pool() {
    let whole = fresh(LARGEST);
    let mut given = whole.clone();
    let lost = [1; 16 * 64];
    LARGEST.lost_pages(&lost).iter().for_each(|&at| given.pool[at..at + PAGE].fill(0xEE));
    for bytes in [262_144, 0] {
        assert_eq!(repair(&mut given, &lost), altered(bytes));
        assert!(given == whole);
    }
}

/// A page in each column, or in some.
fn losses(random: &mut Random, shape: Shape) -> Vec<u16> {
    let one_in = random.pick(&[1, 3]);
    let mut mask = || if random.once_in(one_in) { 1 << random.below(shape.rows + 1) } else { 0 };
    (0..shape.zones * shape.cols).map(|_| mask()).collect()
}

/// Changes no byte of the page, few, half of them or all.
fn strike(random: &mut Random, page: &mut [u8]) {
    let one_in = random.pick(&[usize::MAX, 100, 2, 1]);
    for byte in page {
        if random.once_in(one_in) {
            *byte ^= random.from_to(1, 255) as u8;
        }
    }
}

/// Repair restores every byte if the pages struck are named. If others of their columns are, it alters as many bytes: a column tells where
/// its pages disagree, not which is wrong. Repeated, it alters none.
#[test]
fn pages_struck_at_random() {
    let (seed, mut sum) = (9, 0);
    let mut random = Random::new(seed);
    for _ in 0..4_000 * times() {
        let shape = pools::shape(&mut random);
        let whole = Given::new(pools::filled(&mut random, shape), Vec::new());
        let (mut given, struck) = (whole.clone(), losses(&mut random, shape));
        shape.lost_pages(&struck).iter().for_each(|&at| strike(&mut random, &mut given.pool[at..at + PAGE]));
        let bytes = differing(&given.pool, &whole.pool);
        let others: Vec<u16> = struck.iter().map(|&mask| if mask == 0 { 0 } else { 1 << random.below(shape.rows + 1) }).collect();
        for (lost, restored) in [(&struck, true), (&others, others == struck)] {
            let mut given = given.clone();
            assert_eq!(repair(&mut given, lost), altered(bytes), "{lost:?}");
            assert!(!restored || given == whole, "{lost:?}");
            assert_eq!(repair(&mut given, lost), altered(0), "{lost:?}");
        }
        sum += bytes;
    }
    println!("seed {seed}, {sum} bytes struck");
}

/// Lists, and the refusal of each, or 0.
const LISTS: [(&[u16], usize); 14] = [
    (&[5, 0], 28),
    (&[0, 3], 28),
    (&[7, 7], 28),
    (&[8, 0], 8),
    (&[0, 0x8000], 8),
    (&[0xFFFF, 0], 8),
    (&[5, 8], 8),
    (&[8, 5], 8),
    (&[], 8),
    (&[4], 8),
    (&[5], 8),
    (&[1, 0, 0], 8),
    (&[5, 0, 0], 8),
    (&[1, 0], 0),
];

/// The fresh pool with its first page lost.
fn lossy() -> Given {
    let mut given = fresh(SHAPE);
    given.pool[ZONES..][..PAGE].fill(0xEE);
    given
}

/// A refused repair leaves the page lost and alters 0 bytes, which `compare` asks for.
#[test]
fn refused_lists() {
    for (lost, refusal) in LISTS {
        let bytes = if refusal == 0 { 256 } else { 0 };
        assert_eq!(repair(&mut lossy(), lost), Repaired { refusal, altered: bytes }, "{lost:?}");
    }
}

/// The pool with this byte changed.
fn with_byte(at: usize, byte: u8) -> Vec<u8> {
    let mut pool = lossy().pool;
    pool[at] = byte;
    pool
}

/// The pool with another length.
fn with_length(length: usize) -> Vec<u8> {
    let mut pool = lossy().pool;
    pool.resize(length, 0);
    pool
}

/// The pool with other bytes in place of its two headers.
fn with_headers(first: &[u8], second: &[u8]) -> Vec<u8> {
    let mut pool = lossy().pool;
    pool[..2 * PAGE].copy_from_slice(&[first, second].concat());
    pool
}

/// Short or of another length, sealed, without a valid header or with two different ones, scribbled over.
#[test]
fn refused_pools() {
    let mut pools: Vec<(Vec<u8>, usize)> = [0, 511, 512, 4_608, 6_143, 6_145].map(|length| (with_length(length), 2)).into();
    pools.extend([512, 519, 2_560, 2_567].map(|at| (with_byte(at, 0x80), 21)));
    let (right, other) = (header([2, 2, 1, 1], 1), header([2, 2, 1, 1], 2));
    pools.extend([(with_headers(&[0; PAGE], &[0; PAGE]), 3), (with_headers(&right, &other), 4)]);
    pools.extend([0, 0xEE, 0xFF].map(|byte| (vec![byte; SHAPE.length()], 3)));
    for (pool, refusal) in pools {
        for (lost, _) in LISTS {
            let mut given = Given::new(pool.clone(), Vec::new());
            assert_eq!(repair(&mut given, lost), Repaired { refusal, altered: 0 }, "{} bytes, {lost:?}", pool.len());
            assert!(given.pool == pool);
        }
    }
}
