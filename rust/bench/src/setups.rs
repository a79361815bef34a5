//! Rows over set-ups: the look-up by tag, a save as it is staged, and a recall; and over the command lines that stand before them.
use crate::fixture::{filled, nearly_full, Pool, LARGEST, SMALL};
use crate::library::{Library, Way, PLAIN, PROVED};
use crate::measure::{best, timed};
use crate::report::{Row, Unit};
use reference::{Errors, Obeyed, Reply, ADDRESS, NOTHING, PRINTED, RECALLED, SAVING, TAKEN};
use std::fmt::Debug;
use std::hint::black_box;

const BODY: [u8; 120] = [0x5A; 120];
const NUMBER: usize = 3;
const TAG: u32 = 103;

/// On pools without the set-up, where a save allocates, and with it, where a save writes.
pub fn setups() -> Vec<Row> {
    let mut rows = Vec::new();
    for shape in [SMALL, LARGEST] {
        let fills = [("one object", filled(shape, BODY.len(), 1)), ("nearly full", nearly_full(shape, BODY.len()))];
        for (fill, (empty, _)) in &fills {
            let there = with_setup(empty);
            let name = |what| format!("{what}, {} {fill}", shape.name());
            rows.extend([
                row("set-up", name("look up a tag"), "found", |library, _| (library.look_up)(black_box(&there), TAG, 0)),
                row("set-up", name("save a set-up, staged"), "by allocate", |library, staging| save(library, empty, staging, ADDRESS)),
                row("set-up", name("save a set-up, staged"), "by write", |library, staging| save(library, &there, staging, TAKEN)),
                row("set-up", name("recall a set-up"), "120 bytes", |library, _| (library.recall)(black_box(&there), NUMBER)),
            ]);
        }
    }
    rows
}

/// Lines that are read and enter an error, the query, and a save and a recall of a set-up that is there.
pub fn commands() -> Vec<Row> {
    let there = with_setup(&nearly_full(SMALL, BODY.len()).0);
    let longest = [b"*SAV ".as_slice(), &[b'0'; 74], b"x"].concat();
    let row = |what: &str, size: &str, line: &[u8], kind| {
        let what = format!("command line, {what}");
        row("command", what, size, |library, staging| obey(library, line, &there, staging, kind))
    };
    let pool = format!("{} nearly full", SMALL.name());
    vec![
        row("an error", "5 bytes", b"*IDN?", NOTHING),
        row("an error", "80 bytes", &longest, NOTHING),
        row("the query", "24 bytes", b"SYST:ERR?", PRINTED),
        row(&format!("save, staged, {pool}"), "by write", b"*SAV 3", SAVING),
        row(&format!("recall, {pool}"), "120 bytes", b"*RCL 3", RECALLED),
    ]
}

/// One error waits. The answer, and what is printed.
fn obey(library: &Library, line: &[u8], pool: &[u8], staging: &mut [u8], kind: usize) -> (Obeyed, [u8; 25]) {
    let errors = Errors { count: 1, errors: [113, 0, 0, 0, 0, 0, 0, 0, 0, 0] };
    let mut out = [0; 25];
    let obeyed = (library.command)(black_box(line), &BODY, black_box(errors), black_box(pool), staging, &mut out);
    assert_eq!(obeyed.kind, kind);
    (obeyed, out)
}

/// The pool with the set-up saved.
fn with_setup(pool: &Pool) -> Pool {
    let (mut pool, mut staging) = (pool.clone(), [0; 2032]);
    let reply = (PLAIN.save_setup)(&pool, &mut staging, NUMBER, &BODY);
    PLAIN.save(Way::Advance, reply.transaction, &mut pool, &staging);
    pool
}

fn save(library: &Library, pool: &[u8], staging: &mut [u8], kind: usize) -> Reply {
    let reply = (library.save_setup)(black_box(pool), staging, NUMBER, &BODY);
    assert_eq!(reply.kind, kind);
    reply
}

/// Both must answer alike and leave the same staging memory.
fn row<A: PartialEq + Debug>(group: &'static str, what: String, size: &str, call: impl Fn(&Library, &mut [u8]) -> A) -> Row {
    let mut copies = [[0; 2032]; 2];
    let right = call(&PLAIN, &mut [0; 2032]);
    let [first, second] = &mut copies;
    let proved = timed(|| assert_eq!(call(&PROVED, first), right));
    let plain = timed(|| assert_eq!(call(&PLAIN, second), right));
    let times = best(vec![proved, plain]);
    assert_eq!(copies[0], copies[1]);
    Row::new(group, what, size, Unit::Time, times[0], times[1])
}
