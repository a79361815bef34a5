//! Bytes behind a body, from its end to its last cell's end: an object with one that is not zero is damaged. Worked numbers, and every place
//! of some bodies, in the pool R 2, C 2, Z 1. Each call is made on the library and on the reference, with everything compared.
use compare::calls::{compare, Answer, Call, Given};
use compare::layout::*;
use compare::pools;
use compare::random::Random;
use compare::staged::STAGING;
use linked::{Repaired, Transaction, ADDRESS, BARRIER, DONE, STARTED, TAKEN};
use std::ops::Range;

const SHAPE: Shape = Shape { rows: 2, cols: 2, zones: 1 };

/// The bytes behind the body of the object at cell 0 whose body is one byte; their parity lies 1,024 bytes further on.
const BEHIND: Range<usize> = 4_625..4_672;

/// This pool with a fresh transaction.
fn begun(pool: Vec<u8>) -> Given {
    let mut given = Given::new(pool, vec![0xA7; STAGING]);
    let Answer::Reply(reply) = compare(&Call::Begin, &mut given, 0) else { panic!() };
    assert_eq!((reply.kind, reply.value), (TAKEN, 0));
    given
}

/// The pool with id 1, as format makes it.
fn fresh() -> Given {
    let mut given = Given::new(vec![0xEE; SHAPE.length()], Vec::new());
    assert_eq!(refusal(&mut given, Call::Format { rows: 2, cols: 2, zones: 1, id: 1 }), 0);
    begun(given.pool)
}

/// Allocates an object with the tag 5: its address, and the entries that the transaction has then.
fn allocate(given: &mut Given, body: &[u8]) -> (usize, usize) {
    let call = Call::Allocate { tag: 5, body: body.to_vec() };
    let Answer::Reply(reply) = compare(&call, given, 0) else { panic!() };
    assert_eq!(reply.kind, ADDRESS);
    (reply.value, reply.transaction.count)
}

/// Commits, and begins anew.
fn save(given: &mut Given) {
    let mut kind = compare(&Call::Commit, given, 0).refusal_and_kind().1;
    while kind == Some(STARTED) || kind == Some(BARRIER) {
        kind = compare(&Call::CommitAdvance, given, 0).refusal_and_kind().1;
    }
    assert_eq!(kind, Some(DONE));
    *given = begun(given.pool.clone());
}

/// The pool with an object, tag 5, at cell 0.
fn saved(body: &[u8]) -> Given {
    let mut given = fresh();
    assert_eq!(allocate(&mut given, body).0, 0);
    save(&mut given);
    given
}

/// A pool made by hand: objects with these bodies, so many free cells, objects with those bodies.
fn laid_out(before: &[&[u8]], free: usize, behind: &[&[u8]]) -> Given {
    let mut pool = vec![0; SHAPE.length()];
    put_headers(SHAPE, &mut pool, 1);
    let mut end = ZONES;
    let mut take = |cells: usize| {
        end += cells * CELL;
        end - cells * CELL
    };
    before.iter().for_each(|body| put_object(&mut pool, take(object_cells(body.len())), 5, body));
    put_free(&mut pool, take(free), free);
    behind.iter().for_each(|body| put_object(&mut pool, take(object_cells(body.len())), 5, body));
    assert_eq!(end, ZONES + SHAPE.data(), "the zone is covered");
    put_parity(SHAPE, &mut pool);
    begun(pool)
}

fn refusal(given: &mut Given, call: Call) -> usize {
    compare(&call, given, 0).refusal_and_kind().0
}

/// Rebuilds the page with the object's first cell: how many bytes that alters.
fn repair(given: &mut Given) -> usize {
    let Answer::Repaired(Repaired { refusal: 0, altered }) = compare(&Call::Repair(vec![1, 0]), given, 0) else { panic!() };
    altered
}

fn write(address: usize, at: usize, bytes: &[u8]) -> Call {
    Call::Write { address, at, bytes: bytes.to_vec() }
}

/// What look, a write of one byte and free answer at this address, each on a copy: the refusal, or 0.
fn answers(given: &Given, address: usize) -> [usize; 3] {
    [Call::Look(address), write(address, 0, b"b"), Call::Free(address)].map(|call| refusal(&mut given.clone(), call))
}

/// Objects, damaged ones, broken zones, columns.
fn scrub(given: &Given) -> [usize; 4] {
    let Answer::Counts(counts) = compare(&Call::Scrub, &mut given.clone(), 0) else { panic!() };
    assert_eq!(counts.refusal, 0);
    [counts.objects, counts.damaged, counts.broken, counts.columns]
}

fn looked_at(given: &Given, address: usize) -> &[u8] {
    let Answer::Part(part) = compare(&Call::Look(address), &mut given.clone(), 0) else { panic!() };
    assert_eq!(part.refusal, 0);
    &given.pool[part.offset..][..part.length]
}

/// The same with this byte of the pool changed.
fn with_byte(given: &Given, at: usize, byte: u8) -> Given {
    let mut other = given.clone();
    assert_ne!(other.pool[at], byte);
    other.pool[at] = byte;
    other
}

/// The same with one entry, which gives the word of this place such a byte there; the pool stays.
fn with_staged_byte(given: &Given, at: usize, byte: u8) -> Given {
    let mut other = given.clone();
    let target = at / 8 * 8;
    put(&mut other.staging, 0, 8, target as u64);
    other.staging[8..16].copy_from_slice(&given.pool[target..target + 8]);
    other.staging[8 + at % 8] = byte;
    other.transaction.count = 1;
    other
}

#[test]
fn one_stray_byte() {
    let whole = saved(b"a");
    assert_eq!(behind_body(&whole.pool, ZONES), BEHIND);
    for at in [4_625, 4_671] {
        let mut given = with_byte(&whole, at, 1);
        assert_eq!(answers(&given, 0), [25; 3]);
        assert_eq!(scrub(&given), [1, 1, 0, 1]);
        assert_eq!(repair(&mut given), 1);
        assert!(given == whole, "repair restores every byte");
        assert_eq!(scrub(&given), [1, 0, 0, 0]);
    }
}

/// Parity agrees with the stray byte: repair alters nothing.
#[test]
fn a_stray_byte_with_its_parity() {
    let whole = saved(b"a");
    for at in [4_625, 4_671] {
        assert_eq!(SHAPE.parity(at), at + 1_024);
        let mut given = with_byte(&with_byte(&whole, at, 1), at + 1_024, 1);
        let before = given.clone();
        assert_eq!(scrub(&given), [1, 1, 0, 0]);
        assert_eq!(repair(&mut given), 0);
        assert!(given == before);
        assert_eq!(answers(&given, 0), [25; 3]);
    }
}

/// The check is judged as before, and an object with both faults is one damaged object.
#[test]
fn a_wrong_check_and_a_stray_byte() {
    let wrong = with_byte(&saved(b"a"), 4_624, b'b');
    for given in [wrong.clone(), with_byte(&wrong, 4_625, 1), with_byte(&wrong, 4_671, 1)] {
        assert_eq!(answers(&given, 0), [25; 3]);
        assert_eq!(scrub(&given), [1, 1, 0, 1]);
    }
}

/// The bytes of a free run behind its head are not read.
#[test]
fn bytes_of_a_free_run() {
    let whole = saved(b"a");
    for at in [4_692, 4_688, 4_735, 4_736, 5_119, 5_120, 5_631] {
        let given = with_byte(&whole, at, 1);
        assert_eq!(looked_at(&given, 0), b"a");
        assert_eq!(answers(&given, 0), [0; 3]);
        assert_eq!(answers(&given, 1), [24; 3]);
        assert_eq!(scrub(&given), [1, 0, 0, 1]);
    }
}

/// Stale bytes in all free cells: an allocation leaves zeros behind the body, and a write repeats them.
#[test]
fn an_object_over_stale_bytes() {
    let mut given = fresh();
    given.pool[ZONES + 16..ZONES + SHAPE.data()].fill(0x5A);
    put_parity(SHAPE, &mut given.pool);
    assert_eq!(linked::check(&given.pool), 0xEEF8_6E48);
    assert_eq!(scrub(&given), [0; 4]);
    assert_eq!(allocate(&mut given, b"a"), (0, 10));
    save(&mut given);
    assert_eq!(linked::check(&given.pool), 0x745B_7922);
    assert_eq!(scrub(&given), [1, 0, 0, 0]);
    assert!(given.pool[BEHIND].iter().all(|&byte| byte == 0));
    assert_eq!(refusal(&mut given, write(0, 0, b"b")), 0);
    assert_eq!(given.transaction.count, 2);
    let wanted = [4_616, 0x0000_0005_00B6_006C, 4_624, 0x62];
    assert_eq!([0, 8, 16, 24].map(|at| get(&given.staging, at, 8)), wanted);
    save(&mut given);
    assert_eq!(looked_at(&given, 0), b"b");
    assert_eq!(scrub(&given), [1, 0, 0, 0]);
}

/// Write and free judge the staged view, look and scrub committed bytes.
#[test]
fn a_stray_byte_in_an_entry() {
    let whole = saved(b"a");
    for at in BEHIND {
        let given = with_staged_byte(&whole, at, 1);
        assert_eq!(answers(&given, 0), [0, 25, 25], "{at}");
        assert_eq!(looked_at(&given, 0), b"a");
        assert_eq!(scrub(&given), [1, 0, 0, 0]);
    }
    let mut given = with_staged_byte(&whole, 4_671, 1);
    assert_eq!((get(&given.staging, 0, 8), get(&given.staging, 8, 8)), (4_664, 1 << 56));
    save(&mut given);
    assert_eq!(answers(&given, 0), [25; 3]);
    assert_eq!(scrub(&given), [1, 1, 0, 0]);
}

/// A stray byte in a word that an entry changes: zeros there make the object good as staged, other bytes do not.
#[test]
fn a_stray_byte_under_an_entry() {
    let whole = saved(b"a");
    for at in BEHIND {
        let stray = with_byte(&whole, at, 0x80);
        assert_eq!(answers(&with_staged_byte(&stray, at, 0), 0), [25, 0, 0], "{at}");
        assert_eq!(answers(&with_staged_byte(&stray, at, 1), 0), [25; 3], "{at}");
    }
    let mut given = with_staged_byte(&with_byte(&whole, 4_671, 0x80), 4_671, 0);
    assert_eq!(refusal(&mut given, write(0, 0, b"b")), 0);
    save(&mut given);
    assert_eq!(looked_at(&given, 0), b"b");
    assert_eq!(scrub(&given), [1, 0, 0, 0]);
}

/// A stray byte at each place behind bodies of these lengths, each bit of it; in the pool, and in an entry.
#[test]
fn every_place_behind_a_body() {
    for (length, bytes) in [(1, 47), (47, 1), (48, 0), (49, 63), (111, 1), (112, 0), (113, 63), (300, 4), (495, 1), (496, 0)] {
        let whole = saved(&vec![7; length]);
        let behind = behind_body(&whole.pool, ZONES);
        assert_eq!((behind.len(), behind.end % CELL), (bytes, 0), "{length}");
        assert_eq!(answers(&whole, 0), [0; 3]);
        for (at, bit) in behind.flat_map(|at| (0..8).map(move |bit| (at, bit))) {
            let given = with_byte(&whole, at, 1 << bit);
            assert_eq!(answers(&given, 0), [25; 3], "{length}, {at}");
            assert_eq!(scrub(&given), [1, 1, 0, 1], "{length}, {at}");
            assert_eq!(answers(&with_staged_byte(&whole, at, 1 << bit), 0), [0, 25, 25], "{length}, {at}");
        }
    }
}

/// Two stray bytes that are zero together: as an exclusive or, or as a sum of bytes or of words.
#[test]
fn two_stray_bytes() {
    let whole = saved(b"a");
    for (first, second) in BEHIND.flat_map(|first| (first + 1..BEHIND.end).map(move |second| (first, second))) {
        for [one, other] in [[1, 1], [0x80, 0x80], [1, 0xFF]] {
            let given = with_byte(&with_byte(&whole, first, one), second, other);
            assert_eq!(answers(&given, 0), [25; 3], "{first}, {second}");
            assert_eq!(scrub(&given), [1, 1, 0, 1], "{first}, {second}");
        }
    }
}

/// The byte right behind the run is the next head's: it breaks the zone, and the object is not damaged. The bytes behind that head leave all good.
#[test]
fn the_bytes_right_behind_a_run() {
    for length in [1, 47, 48, 49, 495, 496] {
        let whole = saved(&vec![7; length]);
        let end = behind_body(&whole.pool, ZONES).end;
        let broken = with_byte(&whole, end, 7);
        assert_eq!(answers(&broken, 0), [23; 3], "{length}");
        assert_eq!(scrub(&broken), [1, 0, 1, 1], "{length}");
        let good = with_byte(&whole, end + 16, 7);
        assert_eq!(answers(&good, 0), [0; 3], "{length}");
        assert_eq!(scrub(&good), [1, 0, 0, 1], "{length}");
    }
}

/// A run that ends where the zone's data rows end: right behind it lies the parity row.
#[test]
fn at_the_end_of_a_zone() {
    for length in [1, 47, 48, 49, 495, 496] {
        let cells = object_cells(length);
        let (free, body) = (SHAPE.cells() - cells, vec![7; length]);
        let whole = laid_out(&[], free, &[&body]);
        assert_eq!(answers(&whole, free), [0; 3]);
        for at in behind_body(&whole.pool, SHAPE.cell(free)) {
            let given = with_byte(&whole, at, 1);
            assert_eq!(answers(&given, free), [25; 3], "{length}, {at}");
            assert_eq!(scrub(&given), [1, 1, 0, 1], "{length}, {at}");
        }
        let parity = with_byte(&whole, SHAPE.zone(0) + SHAPE.data(), 7);
        assert_eq!(looked_at(&parity, free), body);
        assert_eq!(answers(&parity, free), [0; 3], "{length}");
        assert_eq!(scrub(&parity), [1, 0, 0, 1], "{length}");
    }
}

/// Objects beside one with stray bytes are good; they can be written and freed, and others allocated. The one struck stays as it is.
#[test]
fn objects_beside_a_struck_one() {
    let whole = laid_out(&[&[1; 20], &[2; 50], &[3; 20]], 12, &[]);
    let struck = with_byte(&with_byte(&whole, ZONES + CELL + 66, 1), ZONES + 3 * CELL - 1, 1);
    assert_eq!([0, 1, 3].map(|address| answers(&struck, address)), [[0; 3], [25; 3], [0; 3]]);
    assert_eq!(scrub(&struck), [3, 1, 0, 1]);
    let mut given = struck.clone();
    for call in [write(0, 3, b"b"), Call::Free(3), Call::Free(0), Call::Allocate { tag: 6, body: vec![4; 90] }] {
        assert_eq!(refusal(&mut given, call), 0);
    }
    save(&mut given);
    assert_eq!([0, 1, 3].map(|address| answers(&given, address)), [[24; 3], [25; 3], [0; 3]]);
    assert_eq!(given.pool[ZONES + CELL..][..2 * CELL], struck.pool[ZONES + CELL..][..2 * CELL]);
    assert_eq!(scrub(&given)[..3], [2, 1, 0]);
}

/// The same with 127 entries, which repeat the pool's words: those of all the zone's words but the second one.
fn with_all_entries(given: &Given) -> Given {
    let mut other = given.clone();
    let targets: Vec<usize> = (0..SHAPE.words()).filter(|&number| number != 1).map(|number| SHAPE.word(number)).collect();
    other.staging = pools::entries(&mut Random::new(0), &given.pool, &targets, true);
    other.transaction.count = targets.len();
    other
}

/// 25 comes before 7 and 27.
#[test]
fn before_7_and_27() {
    let whole = saved(&[1; 49]);
    let struck = with_byte(&whole, 4_673 + 62, 1);
    for call in [write(0, 0, b""), write(0, 49, b"b"), write(0, 0, &[0; 50]), write(0, usize::MAX, b"bb")] {
        assert_eq!(refusal(&mut whole.clone(), call.clone()), 7);
        assert_eq!(refusal(&mut struck.clone(), call), 25);
    }
    assert_eq!(answers(&with_all_entries(&whole), 0), [0, 27, 27]);
    assert_eq!(answers(&with_all_entries(&struck), 0), [25; 3]);
}

/// 25 comes behind 9, 10, 11, 29, 21, 5, 23 and 24.
#[test]
fn behind_the_others() {
    let mut struck = laid_out(&[&[1; 49], &[2; 20]], 13, &[]);
    let behind = behind_body(&struck.pool, ZONES);
    struck.pool[behind].fill(0xFF);
    assert_eq!(answers(&struck, 0), [25; 3]);
    assert_eq!(answers(&struck, 1), [24; 3], "inside the object");
    assert_eq!(answers(&struck, 3), [24; 3], "a free run");
    assert_eq!(answers(&struck, 16), [5; 3]);
    assert_eq!(answers(&with_byte(&struck, SHAPE.cell(3), 7), 0), [23; 3], "broken behind the object");
    assert_eq!(answers(&with_byte(&struck, LOGS[0], 1), 0), [21; 3]);
    let id = struck.transaction.id;
    for (number, id, count, phase) in [(10, id, 128, 0), (11, id + 1, 0, 0), (29, id, 0, 1)] {
        let given = Given { transaction: Transaction { id, count, phase }, ..struck.clone() };
        assert_eq!(answers(&given, 0), [25, number, number]);
    }
    let short = Given { staging: vec![0; STAGING - 1], ..struck };
    assert_eq!(answers(&short, 0), [25, 9, 9]);
}
