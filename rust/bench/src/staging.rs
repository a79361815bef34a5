//! Rows over calls of the open transaction: allocate, write, free.
use crate::fixture::{filled, nearly_full, staged, target, Pool, Shape, LARGEST, SMALL};
use crate::library::{Library, PLAIN, PROVED};
use crate::measure::{best, timed};
use crate::report::{Row, Unit};
use reference::{Reply, Transaction, REFUSED};
use std::hint::black_box;

const BODY: [u8; 120] = [0x5A; 120];
const RANGE: [u8; 16] = [0xA5; 16];

#[derive(Clone, Copy)]
enum Call {
    Allocate,
    Write(usize),
    Free(usize),
}

impl Call {
    fn name(self) -> &'static str {
        match self {
            Call::Allocate => "allocate 120 bytes",
            Call::Write(_) => "write 16 bytes",
            Call::Free(_) => "free",
        }
    }

    fn make(self, library: &Library, t: Transaction, pool: &[u8], staging: &mut [u8]) -> Reply {
        match self {
            Call::Allocate => (library.allocate)(t, pool, staging, 7, &BODY),
            Call::Write(address) => (library.write)(t, pool, staging, address, 40, &RANGE),
            Call::Free(address) => (library.free)(t, pool, staging, address),
        }
    }

    /// The numbers of entries staged before. An allocation of 120 bytes needs room for 26 more.
    fn staged(self) -> [usize; 5] {
        match self {
            Call::Allocate => [0, 1, 10, 60, 101],
            _ => [0, 1, 10, 60, 120],
        }
    }
}

pub fn calls() -> Vec<Row> {
    let mut rows = Vec::new();
    for shape in [SMALL, LARGEST] {
        let fills = [("one object", filled(shape, BODY.len(), 1)), ("nearly full", nearly_full(shape, BODY.len()))];
        for (fill, (pool, addresses)) in &fills {
            let middle = addresses[addresses.len() / 2];
            for call in [Call::Allocate, Call::Write(middle), Call::Free(middle)] {
                let what = format!("{}, {} {fill}", call.name(), shape.name());
                let row = |count| row(call, shape, pool, count, &what, format!("{count} staged"));
                rows.extend(call.staged().map(row));
            }
        }
    }
    rows
}

/// How the cost grows with the heads of a zone, and with the zones before the one that fits.
pub fn growth() -> Vec<Row> {
    let in_a_zone = LARGEST.rows * LARGEST.cols * 4 / 3;
    let mut rows = Vec::new();
    for objects in [1, 10, 100, 1000] {
        let (pool, addresses) = filled(LARGEST, BODY.len(), objects);
        for call in [Call::Allocate, Call::Write(addresses[0])] {
            let what = format!("{}, {}, heads in zone 0", call.name(), LARGEST.name());
            rows.push(row(call, LARGEST, &pool, 0, &what, format!("{} heads", objects + 1)));
        }
    }
    for full in [1, 2, 4, 8, 15] {
        let (pool, _) = filled(LARGEST, BODY.len(), full * in_a_zone);
        let what = format!("allocate 120 bytes, {}, full zones before the fit", LARGEST.name());
        rows.push(row(Call::Allocate, LARGEST, &pool, 0, &what, format!("{full} zones")));
    }
    rows.into_iter().map(|row| Row { group: "growth", ..row }).collect()
}

/// The staged entries lie apart from the words that the call touches, so that each call meets the same.
fn row(call: Call, shape: Shape, pool: &Pool, count: usize, what: &str, size: String) -> Row {
    let mut staging = [0; 2032];
    let touched = call.make(&PLAIN, PLAIN.open(pool), pool, &mut staging).transaction.count;
    let avoid: Vec<usize> = (0..touched).map(|i| target(&staging, i)).collect();
    let (t, staging) = staged(shape, pool, count, &avoid);
    let mut copies = [staging; 2];
    let [first, second] = &mut copies;
    let right = call.make(&PLAIN, t, pool, &mut staging.clone());
    assert_ne!(right.kind, REFUSED);
    let proved = timed(|| assert_eq!(call.make(&PROVED, t, black_box(pool), first), right));
    let plain = timed(|| assert_eq!(call.make(&PLAIN, t, black_box(pool), second), right));
    let times = best(vec![proved, plain]);
    assert_eq!(copies[0], copies[1]);
    Row::new("transaction", what, size, Unit::Time, times[0], times[1])
}
