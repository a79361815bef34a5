//! Rows over commit and recovery, by single steps and up to the next barrier at a time.
use crate::fixture::{filled, shuffle, staged, Pool, Shape, LARGEST, PAGE, SMALL};
use crate::library::{Library, Way, PLAIN, PROVED};
use crate::measure::{best, timed};
use crate::report::{Row, Unit};
use reference::{commit, commit_advance, Transaction};
use std::hint::black_box;

const COUNTS: [usize; 4] = [1, 10, 60, 127];
const SEALS: [usize; 2] = [2 * PAGE, 10 * PAGE];
const BODY: usize = 120;

/// By steps, then up to the next barrier at a time; first the library, then plain Rust.
const CONTENDERS: [(&Library, Way); 4] = [(&PROVED, Way::Steps), (&PLAIN, Way::Steps), (&PROVED, Way::Advance), (&PLAIN, Way::Advance)];

/// A pool and a transaction with so many entries.
fn transaction(shape: Shape, count: usize, ascending: bool) -> (Pool, Transaction, [u8; 2032]) {
    let (pool, _) = filled(shape, BODY, 0);
    let (t, mut staging) = staged(shape, &pool, count, &[]);
    if !ascending {
        shuffle(&mut staging, count);
    }
    (pool, t, staging)
}

pub fn commits() -> Vec<Row> {
    let mut rows = Vec::new();
    for shape in [SMALL, LARGEST] {
        rows.extend(COUNTS.map(|count| commit_rows(shape, count, true)));
        rows.extend(COUNTS[1..].iter().map(|&count| commit_rows(shape, count, false)));
    }
    in_two(rows)
}

/// First all rows of a step, then all whole ones.
fn in_two(rows: Vec<[Row; 2]>) -> Vec<Row> {
    let (steps, wholes): (Vec<Row>, Vec<Row>) = rows.into_iter().map(|[step, whole]| (step, whole)).unzip();
    steps.into_iter().chain(wholes).collect()
}

/// The mean time of a step, and the time of a whole commit up to the next barrier at a time: from the start to done.
fn commit_rows(shape: Shape, count: usize, ascending: bool) -> [Row; 2] {
    let (pool, t, staging) = transaction(shape, count, ascending);
    let steps = 6 * count + 9;
    let mut pools = CONTENDERS.map(|_| pool.clone());
    let call = |(&(library, way), pool): (&(&'static Library, Way), _)| {
        let (pool, staging): (&mut Pool, _) = (pool, &staging);
        timed(move || assert_eq!(library.save(way, black_box(t), pool, staging), steps))
    };
    let times = best(CONTENDERS.iter().zip(&mut pools).map(call).collect());
    assert!(pools.iter().all(|pool| pool[..] == pools[0][..]));
    let order = if ascending { "ascending" } else { "not ascending" };
    rows("commit", &format!("{}, {order}", shape.name()), count, steps, &times)
}

/// The two rows of a measurement with all contenders.
fn rows(group: &'static str, more: &str, count: usize, steps: usize, times: &[f64]) -> [Row; 2] {
    let (size, mean) = (format!("n = {count}"), |time: f64| time / steps as f64);
    let whole = Row::new(group, format!("{group} by advance, {more}"), &size, Unit::Time, times[2], times[3]);
    [
        Row::new(group, format!("{group} step, {more}"), &size, Unit::Time, mean(times[0]), mean(times[1])),
        Row { other: vec![("by steps", times[0])], ..whole },
    ]
}

pub fn recoveries() -> Vec<Row> {
    in_two([SMALL, LARGEST].into_iter().flat_map(|shape| COUNTS.map(|count| recovery_rows(shape, count))).collect())
}

/// As for commits: whole recoveries from log A. The seals are stored anew before each.
fn recovery_rows(shape: Shape, count: usize) -> [Row; 2] {
    let (mut pool, t, staging) = transaction(shape, count, true);
    let logged = commit_advance(commit(t, &pool, &staging).transaction, &mut pool, &staging);
    commit_advance(logged.transaction, &mut pool, &staging);
    let seals = SEALS.map(|at| pool[at..at + 8].to_vec());
    let steps = 2 * count + 5;
    let mut pools = CONTENDERS.map(|_| pool.clone());
    let call = |(&(library, way), pool): (&(&'static Library, Way), _)| {
        let (pool, seals): (&mut Pool, _) = (pool, &seals);
        timed(move || {
            SEALS.iter().zip(seals).for_each(|(&at, seal)| pool[at..at + 8].copy_from_slice(seal));
            assert_eq!(library.restart(way, pool), steps);
        })
    };
    let times = best(CONTENDERS.iter().zip(&mut pools).map(call).collect());
    assert!(pools.iter().all(|pool| pool[..] == pools[0][..]));
    rows("recovery", &shape.name(), count, steps, &times)
}
