//! Pools with set-ups, and what can be wrong with a request for one.
use crate::calls::{compare, Answer, Call, Given};
use crate::layout::*;
use crate::random::Random;
use crate::staged::STAGING;

pub const SHAPE: Shape = Shape { rows: 4, cols: 2, zones: 1 };
pub const TWO_ZONES: Shape = Shape { rows: 1, cols: 1, zones: 2 };

/// With id 1, as format makes it.
pub fn fresh(shape: Shape) -> Vec<u8> {
    let Shape { rows, cols, zones } = shape;
    let mut given = Given::new(vec![0xEE; shape.length()], Vec::new());
    assert_eq!(compare(&Call::Format { rows, cols, zones, id: 1 }, &mut given, 0), Answer::Refusal(0));
    given.pool
}

/// Set-up k of the worked numbers.
pub fn setup(k: usize) -> Vec<u8> {
    (0..SETUP_SIZE).map(|i| (k + 7 * i) as u8).collect()
}

/// A pool made by hand: objects with these tags and bodies at the front of zone 0, then one free run.
pub fn laid_out(shape: Shape, objects: &[(u32, &[u8])]) -> Vec<u8> {
    let (mut pool, mut cell) = (fresh(shape), 0);
    for (tag, body) in objects {
        put_object(&mut pool, shape.cell(cell), *tag, body);
        cell += object_cells(body.len());
    }
    put_free(&mut pool, shape.cell(cell), shape.cells() - cell);
    put_parity(shape, &mut pool);
    pool
}

/// Lengths of bodies and of staging memory, right and wrong.
pub const BODIES: [usize; 11] = [0, 1, 119, 120, 121, 128, 376, 496, 497, 600, 65_656];
pub const STAGINGS: [usize; 6] = [0, 10, 2_031, 2_032, 2_033, 4_096];

/// Pools with set-ups 0, 3 and 9 on which calls are refused: with this number, and whether it stands before 9.
pub fn refusing_pools() -> Vec<(usize, bool, Vec<u8>)> {
    let whole = laid_out(SHAPE, &[(100, &setup(0)), (103, &setup(3)), (109, &setup(9))]);
    let with = |change: &dyn Fn(&mut Vec<u8>)| {
        let mut pool = whole.clone();
        change(&mut pool);
        pool
    };
    let mut pools: Vec<(usize, bool, Vec<u8>)> =
        [0, 1, 256, 511, 512, 4_608, 7_167, 7_169].map(|length| (2, true, with(&|pool| pool.resize(length, 0)))).into();
    pools.extend([0, 0xEE, 0xFF].map(|byte| (3, true, vec![byte; SHAPE.length()])));
    pools.push((3, true, Random::new(1).bytes(SHAPE.length())));
    pools.push((4, true, with(&|pool| pool[PAGE..2 * PAGE].copy_from_slice(&header([4, 2, 1, 1], 2)))));
    pools.extend([512, 519, 2_560, 2_567].map(|at| (21, false, with(&|pool| pool[at] = 0x80))));
    pools.extend([0, 3, 9].map(|cell| (23, false, with(&|pool| pool[SHAPE.cell(cell)] = 9))));
    pools.push((0, false, whole));
    pools
}

/// What can be wrong with a request for set-up 3.
#[derive(Clone, Copy, Debug, PartialEq, Eq)]
pub enum Wrong {
    Number,
    Given,
    Short,
    NoHeader,
    HeadersDiffer,
    Length,
    Staging,
    Sealed,
    Broken,
    Absent,
    Damaged,
    Found,
    NoRoom,
}

use Wrong::*;

/// In the order in which they can be put into one request, with the refusal of each.
const ALL: [(Wrong, usize); 13] = [
    (NoRoom, 26),
    (Found, 33),
    (Absent, 31),
    (Damaged, 25),
    (Broken, 23),
    (Sealed, 21),
    (Length, 2),
    (HeadersDiffer, 4),
    (NoHeader, 3),
    (Short, 2),
    (Staging, 9),
    (Given, 33),
    (Number, 32),
];

/// The order in which each call judges them.
pub const SAVE: [Wrong; 12] = [Number, Given, Short, NoHeader, HeadersDiffer, Length, Staging, Sealed, Broken, Damaged, Found, NoRoom];
pub const RECALL: [Wrong; 10] = [Number, Short, NoHeader, HeadersDiffer, Length, Sealed, Broken, Absent, Damaged, Found];
pub const LOOK_UP: [Wrong; 6] = [Short, NoHeader, HeadersDiffer, Length, Sealed, Broken];

/// A request: pool, staging memory, number and body.
pub struct Request {
    pub pool: Vec<u8>,
    pub staging: usize,
    pub number: usize,
    pub body: Vec<u8>,
}

impl Request {
    /// R 1, C 1, Z 2 with set-up 3 in zone 0, and room for another one in zone 1.
    fn new() -> Request {
        Request { pool: laid_out(TWO_ZONES, &[(103, &setup(3))]), staging: STAGING, number: 3, body: setup(4) }
    }

    fn put(&mut self, wrong: Wrong) {
        let Request { pool, staging, number, body } = self;
        let at = TWO_ZONES.zone(0);
        match wrong {
            NoRoom => put_object(pool, TWO_ZONES.zone(1), 7, &[1; 240]),
            Found => put_object(pool, at, 103, &setup(3)[..119]),
            Absent => pool[at + 12] = 99,
            Damaged => pool[at + 20] ^= 1,
            Broken => pool[TWO_ZONES.zone(1)] = 9,
            Sealed => pool[LOGS[1] + 7] = 0x80,
            Length => pool.push(0),
            HeadersDiffer => pool[..PAGE].copy_from_slice(&header([1, 1, 2, 1], 2)),
            NoHeader => pool[..2 * PAGE].fill(0),
            Short => pool.truncate(511),
            Staging => *staging = 10,
            Given => body.truncate(119),
            Number => *number = 10,
        }
    }
}

/// The refusal of the first that is wrong, in this order, or 0. An object that is absent is neither damaged nor too short, and one that is there
/// needs no room.
pub fn first(order: &[Wrong], wrong: &[(Wrong, usize)]) -> usize {
    let is = |which: Wrong| wrong.iter().any(|&(other, _)| other == which);
    let counts = |which: Wrong| match which {
        Damaged | Found => is(which) && !is(Absent),
        NoRoom => is(NoRoom) && is(Absent),
        _ => is(which),
    };
    let first = order.iter().find(|&&which| counts(which));
    first.map_or(0, |&first| wrong.iter().find(|&&(which, _)| which == first).unwrap().1)
}

/// Every request for set-up 3 in which some of these are wrong, with what is.
pub fn wrong_requests() -> impl Iterator<Item = (Request, Vec<(Wrong, usize)>)> {
    (0..1 << ALL.len()).filter_map(|subset| {
        let wrong: Vec<(Wrong, usize)> =
            ALL.into_iter().enumerate().filter(|(i, _)| subset >> i & 1 == 1).map(|(_, wrong)| wrong).collect();
        let is = |which: Wrong| wrong.iter().any(|&(other, _)| other == which);
        if is(NoHeader) && is(HeadersDiffer) {
            return None; // no pool has both
        }
        let mut request = Request::new();
        wrong.iter().for_each(|&(which, _)| request.put(which));
        Some((request, wrong))
    })
}
