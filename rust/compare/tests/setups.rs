//! Set-ups 0 to 9, and the look-up by tag: worked numbers, the order of refusals, bad input, damage, power cuts; and random saves, recalls and
//! other transactions against a plain array of ten. The three calls are made on the library and on the reference, with everything compared.
use compare::calls::{compare, Answer, Call, Given, NO_TRANSACTION};
use compare::driver::{commit, recover_with_random_cuts, steps_to_sealed};
use compare::in_use::InUse;
use compare::judge::judge;
use compare::layout::*;
use compare::memory::{Image, Memory};
use compare::random::Random;
use compare::setups::*;
use compare::staged::{Staged, STAGING};
use compare::times;
use linked::{Found, Part, RecoveryReply, Reply, Transaction, ADDRESS, BARRIER, DONE, REFUSED, STARTED, TAKEN};
use std::collections::{BTreeMap, HashSet};

/// A save with this staging memory, which is left as the save leaves it.
fn save(pool: &[u8], staging: &mut Vec<u8>, number: usize, body: &[u8]) -> Reply {
    let mut given = Given::new(pool.to_vec(), std::mem::take(staging));
    let Answer::Reply(reply) = compare(&Call::Save { number, body: body.to_vec() }, &mut given, body.len() % 16) else { panic!() };
    assert!([ADDRESS, TAKEN].contains(&reply.kind) || reply == Reply { kind: REFUSED, transaction: NO_TRANSACTION, ..reply }, "{reply:?}");
    *staging = given.staging;
    reply
}

/// The refusal of a save with staging memory of this length, or 0.
fn refusal(pool: &[u8], length: usize, number: usize, body: &[u8]) -> usize {
    Answer::Reply(save(pool, &mut vec![0xA7; length], number, body)).refusal_and_kind().0
}

/// Makes the call, then goes on to the next barrier until all is done; the steps.
fn drive(given: &mut Given, start: Call, advance: Call) -> usize {
    let mut call = &start;
    loop {
        let answer = compare(call, given, 0);
        let (Answer::Reply(Reply { kind, value, .. }) | Answer::RecoveryReply(RecoveryReply { kind, value, .. })) = answer else {
            panic!()
        };
        match kind {
            STARTED | BARRIER => call = &advance,
            DONE => return value,
            _ => panic!("{answer:?}"),
        }
    }
}

/// Saves and commits: the answer's kind and value, the entries and the steps.
fn saved(pool: &mut Vec<u8>, number: usize, body: &[u8]) -> (usize, usize, usize, usize) {
    let mut staging = vec![0xA7; STAGING];
    let reply = save(pool, &mut staging, number, body);
    assert!(staging[reply.transaction.count * 16..].iter().all(|&byte| byte == 0xA7), "bytes beyond the entries stay");
    let mut given = Given { transaction: reply.transaction, ..Given::new(pool.clone(), staging) };
    let steps = drive(&mut given, Call::Commit, Call::CommitAdvance);
    *pool = given.pool;
    (reply.kind, reply.value, reply.transaction.count, steps)
}

fn part(pool: &[u8], number: usize) -> Part {
    let Answer::Part(part) = compare(&Call::Recall(number), &mut Given::new(pool.to_vec(), Vec::new()), number % 16) else { panic!() };
    part
}

/// The set-up's bytes, or the refusal.
fn recall(pool: &[u8], number: usize) -> Result<&[u8], usize> {
    match part(pool, number) {
        Part { refusal: 0, offset, length } => Ok(&pool[offset..][..length]),
        Part { refusal, offset: 0, length: 0 } => Err(refusal),
        part => panic!("{part:?}"),
    }
}

/// The address found, if there is one, or the refusal.
fn look_up(pool: &[u8], tag: u32, from: usize) -> Result<Option<usize>, usize> {
    let Answer::Found(found) = compare(&Call::LookUp { tag, from }, &mut Given::new(pool.to_vec(), Vec::new()), from % 16) else {
        panic!()
    };
    match found {
        Found { refusal: 0, found: 1, address } => Ok(Some(address)),
        Found { refusal: 0, found: 0, address: 0 } => Ok(None),
        Found { refusal, found: 0, address: 0 } => Err(refusal),
        _ => panic!("{found:?}"),
    }
}

/// The pool R 4, C 2, Z 1 with set-up 3.
fn with_setup_3() -> Vec<u8> {
    let mut pool = fresh(SHAPE);
    assert_eq!(saved(&mut pool, 3, &setup(3)), (ADDRESS, 0, 26, 165));
    pool
}

/// The check in the head at cell 0, and of the pool.
fn checks(pool: &[u8]) -> (u32, u32) {
    (get(pool, ZONES + 8, 4) as u32, linked::check(pool))
}

// ---- Worked numbers.

#[test]
fn ten_places() {
    let mut pool = with_setup_3();
    assert_eq!(pool.len(), 7_168);
    assert_eq!(checks(&pool), (0x4C41_3989, 0xA3A3_0874));
    assert_eq!(part(&pool, 3), Part { refusal: 0, offset: 4_624, length: 120 });
    assert_eq!(recall(&pool, 3), Ok(&setup(3)[..]));
    assert_eq!(saved(&mut pool, 3, &setup(99)), (TAKEN, 0, 16, 105));
    assert_eq!(checks(&pool), (0x0BDF_3C89, 0xA401_18B2));
    assert_eq!([3, 7, 10].map(|number| recall(&pool, number)), [Ok(&setup(99)[..]), Err(31), Err(32)]);
    for (i, number) in [0, 1, 2, 4, 5, 6, 7, 8, 9].into_iter().enumerate() {
        assert_eq!(saved(&mut pool, number, &setup(number)), (ADDRESS, 3 * i + 3, 26, 165));
    }
    assert_eq!(linked::check(&pool), 0x1E1B_F48A);
    for number in 0..SETUPS {
        assert_eq!(recall(&pool, number), Ok(&setup(if number == 3 { 99 } else { number })[..]));
    }
    assert_eq!(objects(&pool).expect("a sound pool").len(), SETUPS);
    assert_eq!(runs(SHAPE, &pool, 0).0.last(), Some(&Run { cell: 30, cells: 2, object: false }));
}

/// A set-up that is there is saved without room, too. In the second pool the last one fits exactly.
#[test]
fn no_room() {
    let mut pool = fresh(Shape { rows: 2, cols: 2, zones: 1 });
    for number in 0..5 {
        assert_eq!(saved(&mut pool, number, &setup(number)), (ADDRESS, 3 * number, 26, 165));
    }
    assert_eq!(refusal(&pool, STAGING, 5, &setup(5)), 26);
    assert_eq!(saved(&mut pool, 2, &setup(77)), (TAKEN, 0, 16, 105));
    assert_eq!([2, 5].map(|number| recall(&pool, number)), [Ok(&setup(77)[..]), Err(31)]);
    let mut pool = fresh(Shape { rows: 3, cols: 1, zones: 1 });
    let saves = [0, 1, 2, 3].map(|number| saved(&mut pool, number, &setup(number)));
    assert_eq!(saves, [(ADDRESS, 0, 26, 165), (ADDRESS, 3, 26, 165), (ADDRESS, 6, 26, 165), (ADDRESS, 9, 24, 153)]);
    assert_eq!(refusal(&pool, STAGING, 4, &setup(4)), 26);
}

/// What a save over set-up 3 stages.
fn saved_over() -> (Vec<u8>, Staged) {
    let (pool, mut staging) = (with_setup_3(), vec![0xA7; STAGING]);
    let reply = save(&pool, &mut staging, 3, &setup(99));
    let staged = Staged::save(reply, staging, &objects(&pool).unwrap(), 3, &setup(99));
    assert_eq!(staged.transaction, Transaction { id: 1, count: 16, phase: 0 });
    (pool, staged)
}

/// Cut after step 66, which stores seal A: kept or lost.
#[test]
fn cut_at_the_seal() {
    let (pool, staged) = saved_over();
    let mut memory = Memory::new(Image::new(pool));
    assert!(!commit(&mut memory, &staged, |_, steps| steps != 66));
    let mut left = Vec::new();
    memory.every_cut(&mut |image| left.push(image.clone()));
    assert_eq!(left.len(), 2);
    for image in left {
        let (refused, steps, k) = if image.has_seal() { (21, 37, 99) } else { (0, 0, 3) };
        assert_eq!(recall(&image.pool, 3).err().unwrap_or(0), refused, "before recovery");
        let mut given = Given::new(image.pool, Vec::new());
        assert_eq!(drive(&mut given, Call::Recover, Call::RecoverAdvance), steps);
        assert_eq!(recall(&given.pool, 3), Ok(&setup(k)[..]));
    }
}

/// The lowest object with the tag counts: if its body is not of 120 bytes, no further one is tried.
#[test]
fn several_objects() {
    for length in [1, 119, 121, 496] {
        let pool = laid_out(SHAPE, &[(104, &vec![7; length]), (104, &setup(4))]);
        assert_eq!((recall(&pool, 4), refusal(&pool, STAGING, 4, &setup(4))), (Err(33), 33), "{length}");
        let second = object_cells(length);
        assert_eq!([0, 1, second + 1].map(|from| look_up(&pool, 104, from)), [Ok(Some(0)), Ok(Some(second)), Ok(None)]);
    }
    let mut pool = laid_out(SHAPE, &[(105, &setup(5)), (105, &setup(6))]);
    assert_eq!(recall(&pool, 5), Ok(&setup(5)[..]));
    assert_eq!(saved(&mut pool, 5, &setup(50)), (TAKEN, 0, 16, 105));
    assert_eq!(recall(&pool, 5), Ok(&setup(50)[..]));
    assert_eq!(objects(&pool).unwrap()[1], Object { address: 3, tag: 105, body: setup(6) });
}

/// All zones are judged, also those behind the object.
#[test]
fn broken_zones() {
    let whole = laid_out(TWO_ZONES, &[(100, &setup(0))]);
    for (z, looked) in [(0, 23), (1, 0)] {
        let mut pool = whole.clone();
        pool[TWO_ZONES.zone(z)] = 9;
        assert_eq!((recall(&pool, 0), refusal(&pool, STAGING, 0, &setup(0)), look_up(&pool, 100, 0)), (Err(23), 23, Err(23)));
        assert_eq!((recall(&pool, 1), refusal(&pool, STAGING, 1, &setup(0)), look_up(&pool, 7, usize::MAX)), (Err(23), 23, Err(23)));
        let Answer::Part(part) = compare(&Call::Look(0), &mut Given::new(pool, Vec::new()), 0) else { panic!() };
        assert_eq!(part.refusal, looked);
    }
}

/// Each bit of a set-up, of its body, behind it, of its check: it can be neither recalled nor saved over, but is found; the others are as before.
#[test]
fn damaged() {
    let whole = laid_out(SHAPE, &[(103, &setup(3)), (108, &setup(8))]);
    let at = SHAPE.cell(0);
    for (place, bit) in (8..192).filter(|place| !(12..16).contains(place)).flat_map(|place| (0..8).map(move |bit| (place, bit))) {
        let mut pool = whole.clone();
        pool[at + place] ^= 1 << bit;
        assert_eq!((recall(&pool, 3), refusal(&pool, STAGING, 3, &setup(3))), (Err(25), 25), "byte {place}, bit {bit}");
        assert_eq!([103, 108].map(|tag| look_up(&pool, tag, 0)), [Ok(Some(0)), Ok(Some(3))]);
        assert_eq!([7, 8].map(|number| recall(&pool, number)), [Err(31), Ok(&setup(8)[..])]);
        assert_eq!([7, 8].map(|number| refusal(&pool, STAGING, number, &setup(1))), [0, 0]);
    }
}

// ---- The look-up.

/// From every cell, at and past the last one; tags that differ in one byte only.
#[test]
fn from_everywhere() {
    let shape = Shape { rows: 2, cols: 1, zones: 3 };
    let mut pool = fresh(shape);
    let other_bytes = [7 | 1 << 8, 7 | 1 << 16, 7 | 1 << 31, 7];
    let [a, b, c, _] = other_bytes;
    for (z, cells) in [(0, [a, 0, 7, 8, b, 7, 9, 0]), (1, [8; 8]), (2, [9, 9, 9, 9, 9, c, u32::MAX, 7])] {
        cells.into_iter().enumerate().for_each(|(cell, tag)| put_object(&mut pool, shape.zone(z) + cell * CELL, tag, &[1]));
    }
    let all = shape.zones * shape.cells();
    for tag in [0, 8, 9, 10, u32::MAX - 1, u32::MAX].into_iter().chain(other_bytes) {
        let addresses = tagged(shape, &pool, tag);
        for from in (0..all + 2).chain([1 << 32, (1 << 32) + 3, usize::MAX - 1, usize::MAX]) {
            assert_eq!(look_up(&pool, tag, from), Ok(addresses.iter().copied().find(|&address| address >= from)), "tag {tag} from {from}");
        }
    }
    assert_eq!(look_up(&pool, 7, all - 1), Ok(Some(all - 1)));
    assert_eq!(look_up(&fresh(shape), 0, 0), Ok(None), "a free run has no tag");
}

// ---- The order of refusals.

/// Whatever is wrong at once, each call gives the first.
#[test]
fn the_first_refusal_is_given() {
    for (Request { pool, staging, number, body }, wrong) in wrong_requests() {
        assert_eq!(refusal(&pool, staging, number, &body), first(&SAVE, &wrong), "save: {wrong:?}");
        assert_eq!(recall(&pool, number).err().unwrap_or(0), first(&RECALL, &wrong), "recall: {wrong:?}");
        assert_eq!(look_up(&pool, 103, 0).err().unwrap_or(0), first(&LOOK_UP, &wrong), "look-up: {wrong:?}");
    }
}

// ---- Bad input.

/// Among them those that are a set-up's number modulo 256 or 2^32, and those whose tag would be one.
const NUMBERS: [usize; 13] = [0, 3, 9, 10, 11, 103, 255, 259, 1 << 32, (1 << 32) + 3, usize::MAX - 96, usize::MAX - 1, usize::MAX];
#[test]
fn bad_input() {
    for (refused, before_staging, pool) in refusing_pools() {
        let of_pool = if refused == 0 { Ok(Some(3)) } else { Err(refused) };
        for from in [0, 3] {
            assert_eq!(look_up(&pool, 103, from), of_pool);
        }
        for number in NUMBERS {
            let of_number = if number > 9 { 32 } else { 0 };
            let wanted = [of_number, refused].into_iter().find(|&refusal| refusal != 0);
            assert_eq!(recall(&pool, number).err(), wanted);
            for (length, staging) in BODIES.into_iter().flat_map(|length| STAGINGS.map(|staging| (length, staging))) {
                let of_body = if length == 120 { 0 } else { 33 };
                let of_staging = if staging < 2_032 { 9 } else { 0 };
                let rest = if before_staging { [refused, of_staging] } else { [of_staging, refused] };
                let wanted = [of_number, of_body].into_iter().chain(rest).find(|&refusal| refusal != 0);
                assert_eq!(refusal(&pool, staging, number, &vec![0x5A; length]), wanted.unwrap_or(0), "{number}, {length}, {staging}");
            }
        }
    }
}

// ---- Power cuts, and a table of ten places.

/// A first save, and one over it, cut after each step, with all, none, one and some of the pending stores lost; recoveries may be cut too. The
/// set-up is old if no seal had reached memory, else new.
#[test]
fn saves_cut_after_every_step() {
    let (mut random, mut recoveries) = (Random::new(11), 0);
    let (mut staging, empty) = (vec![0xA7; STAGING], fresh(SHAPE));
    let reply = save(&empty, &mut staging, 3, &setup(3));
    let first = (empty, Staged::save(reply, staging, &[], 3, &setup(3)));
    for ((pool, staged), old, new) in [(first, Err(31), setup(3)), (saved_over(), Ok(setup(3)), setup(99))] {
        let (entries, mut left, mut known) = (staged.transaction.count, Vec::new(), HashSet::new());
        let mut memory = Memory::new(Image::new(pool));
        assert!(commit(&mut memory, &staged, |memory, steps| {
            memory.some_cuts(&mut random, 4, &mut |image| {
                let is_new = steps >= steps_to_sealed(entries) || image.has_seal();
                if known.insert((image.key, is_new)) {
                    left.push((image.clone(), is_new));
                }
            });
            true
        }));
        for (image, is_new) in left {
            let (pool, cuts) = recover_with_random_cuts(&mut random, image, entries);
            assert_eq!(recall(&pool, 3).map(<[u8]>::to_vec), if is_new { Ok(new.clone()) } else { old.clone() });
            recoveries += cuts;
        }
        assert_eq!(recall(memory.seen(), 3), Ok(&new[..]));
    }
    println!("seed 11, {recoveries} recoveries");
}

/// How often each thing came to pass.
type Counts = BTreeMap<&'static str, usize>;

/// A save, which is taken unless there is no room for a first one; it is committed, cut or dropped.
fn save_in(in_use: &mut InUse, random: &mut Random) -> &'static str {
    let (number, body, length) = (random.below(SETUPS), random.bytes(SETUP_SIZE), random.pick(&[STAGING, STAGING, STAGING + 1, 4096]));
    let mut staging = random.bytes(length);
    let reply = save(&in_use.pool, &mut staging, number, &body);
    let wanted = match (&in_use.places[number], in_use.has_room()) {
        (None, false) => (REFUSED, 26),
        (None, true) => (ADDRESS, reply.value),
        (Some(_), _) => (TAKEN, 0),
    };
    assert_eq!((reply.kind, reply.value), wanted);
    match reply.kind {
        REFUSED => "saves without room",
        _ => in_use.end_save(random, reply, staging, number, body),
    }
}

/// A save with a number, a body or staging memory that is refused.
fn save_wrongly(in_use: &InUse, random: &mut Random) -> &'static str {
    let (number, length, staging) = (random.below(SETUPS), SETUP_SIZE, STAGING);
    let high = random.pick(&NUMBERS[3..]);
    let other_length = random.pick(&BODIES.map(|length| if length == SETUP_SIZE { 0 } else { length }));
    let short = random.pick(&STAGINGS[..3]);
    let wrong = [(high, length, staging, 32), (number, other_length, staging, 33), (number, length, short, 9)];
    let (number, length, staging, wanted) = random.pick(&wrong);
    assert_eq!(refusal(&in_use.pool, staging, number, &random.bytes(length)), wanted);
    "saves with wrong input"
}

/// The pool is sound and has these objects; each place is recalled, or gives 31, and is found or not.
fn judge_places(in_use: &InUse) {
    judge(&in_use.pool, &in_use.objects);
    for (number, place) in in_use.places.iter().enumerate() {
        assert_eq!(recall(&in_use.pool, number), place.as_deref().ok_or(31), "place {number}");
        let object = in_use.objects.iter().find(|object| object.tag == setup_tag(number));
        assert_eq!(look_up(&in_use.pool, setup_tag(number), 0), Ok(object.map(|object| object.address)));
    }
    assert_eq!(recall(&in_use.pool, SETUPS), Err(32));
}

/// Saves finished, cut, dropped and refused, and other transactions, in turn on one pool: whatever came before, the ten places hold what was
/// saved last and kept, until the next save.
#[test]
fn a_table_of_ten_places() {
    let (seed, mut counts) = (12, Counts::new());
    let mut random = Random::new(seed);
    for _ in 0..500 * times() {
        let mut in_use = InUse::new(&mut random);
        judge_places(&in_use);
        for _ in 0..25 {
            let done = match random.below(8) {
                0 => save_wrongly(&in_use, &mut random),
                1 | 2 => in_use.change_others(&mut random),
                _ => save_in(&mut in_use, &mut random),
            };
            *counts.entry(done).or_default() += 1;
            judge_places(&in_use);
        }
    }
    println!("seed {seed}, {counts:?}");
    assert_eq!(counts.len(), 7);
    assert!(counts.values().all(|&count| count >= 100), "each came to pass: {counts:?}");
}
