//! Rows over bytes and whole pools: check, scrub, repair.
use crate::fixture::{filled, Pool, Shape, LARGEST, PAGE, SMALL};
use crate::library::{PLAIN, PROVED};
use crate::measure::{best, timed};
use crate::native::{self, Check};
use crate::report::{Row, Unit};
use reference::Repaired;
use std::cell::RefCell;
use std::hint::black_box;

pub fn check() -> Vec<Row> {
    let bytes: Vec<u8> = (0..65_536u32).map(|i| ((i * i) >> 7) as u8).collect();
    vec![
        check_row("check", "496 bytes", &bytes[..496], 496),
        check_row("check", "64 KiB", &bytes, 65_536),
        check_row("check, all 00", "496 bytes", &[0; 65_536], 496),
        check_row("check, all FF", "496 bytes", &[0xFF; 65_536], 496),
        check_row("check, random", "496 bytes", &random_bytes(65_536), 496),
    ]
}

/// The same ones in each run (xorshift).
fn random_bytes(length: usize) -> Vec<u8> {
    let mut state = 0x2545_F491u32;
    let next = || {
        state ^= state << 13;
        state ^= state >> 17;
        state ^= state << 5;
        (state >> 24) as u8
    };
    std::iter::repeat_with(next).take(length).collect()
}

/// One check of so many bytes, as the mean over all pieces of this length: of one piece that comes again and again a processor learns the
/// branches, even if its bytes are random.
fn check_row(what: &str, size: &str, bytes: &[u8], length: usize) -> Row {
    let pieces: Vec<(&[u8], u32)> = bytes.chunks_exact(length).map(|piece| (piece, reference::check(piece))).collect();
    let check_all = |check: Check| pieces.iter().for_each(|&(piece, right)| assert_eq!(check(black_box(piece)), right));
    let others = native::other_checks();
    let checks = [PROVED.check, PLAIN.check, native::loop_check].into_iter().chain(others.iter().map(|&(_, check)| check));
    let mut times = best(checks.map(|check| timed(move || check_all(check))).collect());
    times.iter_mut().for_each(|time| *time /= pieces.len() as f64);
    let row = Row::new("check", what, size, Unit::Rate { bytes: length }, times[0], times[1]);
    Row { c: Some(times[2]), other: others.iter().zip(&times[3..]).map(|(&(name, _), &time)| (name, time)).collect(), ..row }
}

pub fn scrub() -> Vec<Row> {
    let rows = [SMALL, LARGEST].map(|shape| [120, 496].map(|body| scrub_row(shape, body)));
    rows.into_iter().flatten().collect()
}

fn scrub_row(shape: Shape, body: usize) -> Row {
    let (pool, addresses) = filled(shape, body, usize::MAX);
    let right = reference::scrub(&pool);
    assert_eq!((right.objects, right.damaged, right.columns), (addresses.len(), 0, 0));
    let proved = timed(|| assert_eq!((PROVED.scrub)(black_box(&pool)), right));
    let plain = timed(|| assert_eq!((PLAIN.scrub)(black_box(&pool)), right));
    let c = timed(|| assert_eq!(native::loop_scrub(black_box(&pool), shape), 0));
    let times = best(vec![proved, plain, c]);
    let what = format!("scrub {} full of {body}-byte objects", shape.name());
    let zones = pool.len() - shape.zone_start(0);
    let row = Row::new("scrub", what, bytes(zones), Unit::Rate { bytes: zones }, times[0], times[1]);
    Row { c: Some(times[2]), ..row }
}

fn bytes(length: usize) -> String {
    format!("{} KiB", length as f64 / 1024.0)
}

pub fn repair() -> Vec<Row> {
    [SMALL, LARGEST].map(repair_row).into()
}

/// Repairs a pool in which so many bytes are not as they were.
type Repair<'a> = Box<dyn Fn(&mut Pool, usize) + 'a>;

/// One page lost in each column, in one row after the other.
fn repair_row(shape: Shape) -> Row {
    let (pool, _) = filled(shape, 120, usize::MAX);
    let columns = columns(shape);
    let mut lossy = pool.clone();
    columns.iter().for_each(|pages| lossy[*pages.last().unwrap()..][..PAGE].fill(0xEE));
    let lost: Vec<u16> = (0..columns.len()).map(|i| 1 << (i % (shape.rows + 1))).collect();
    let mut repairs: Vec<(&str, Repair)> = vec![
        ("library", Box::new(|pool, altered| assert_eq!((PROVED.repair)(pool, black_box(&lost)), Repaired { refusal: 0, altered }))),
        ("plain Rust", Box::new(|pool, altered| assert_eq!((PLAIN.repair)(pool, black_box(&lost)), Repaired { refusal: 0, altered }))),
        ("Rust xor loop", Box::new(|pool, _| columns.iter().for_each(|pages| xor_loop(pool, pages)))),
    ];
    if let Some(xor) = native::isal_xor() {
        let columns = &columns;
        repairs.push(("ISA-L", Box::new(move |pool, _| columns.iter().for_each(|pages| xor(pool, pages)))));
    }
    let altered = lossy.iter().zip(&pool[..]).filter(|(lost, whole)| lost != whole).count();
    for (name, repair) in &repairs {
        let mut copy = lossy.clone();
        repair(&mut copy, altered);
        assert!(copy[..] == pool[..], "{name}");
    }
    // All work on one pool, which each repair leaves as it was: with a pool each they would take the cache from each other.
    let shared = RefCell::new(pool);
    let times = best(repairs.iter().map(|(_, repair)| timed(|| repair(&mut shared.borrow_mut(), 0))).collect());
    let what = format!("repair {}, one page a column", shape.name());
    let touched = columns.len() * (shape.rows + 1) * PAGE;
    let row = Row::new("repair", what, bytes(touched), Unit::Rate { bytes: touched }, times[0], times[1]);
    Row { other: repairs.iter().zip(times).skip(2).map(|(&(name, _), time)| (name, time)).collect(), ..row }
}

/// For each column the offsets of its pages, the lost one last.
fn columns(shape: Shape) -> Vec<Vec<usize>> {
    let pages = |i: usize| {
        let first = shape.zone_start(i / shape.cols) + i % shape.cols * PAGE;
        let lost = i % (shape.rows + 1);
        let others = (0..=shape.rows).filter(move |&row| row != lost);
        others.chain([lost]).map(|row| first + row * shape.row()).collect()
    };
    (0..shape.zones * shape.cols).map(pages).collect()
}

/// The last page becomes the exclusive or of the others.
fn xor_loop(pool: &mut [u8], pages: &[usize]) {
    let (lost, others) = pages.split_last().unwrap();
    let mut sum = [0u8; PAGE];
    for &page in others {
        sum.iter_mut().zip(&pool[page..page + PAGE]).for_each(|(sum, byte)| *sum ^= byte);
    }
    pool[*lost..lost + PAGE].copy_from_slice(&sum);
}
