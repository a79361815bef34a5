//! The calls of the boundary as values, made on the library and on the reference with everything compared.
use crate::layout::{differing, LOGS};
use linked::{Counts, Errors, Found, Obeyed, Part, Recovery, RecoveryReply, Repaired, Reply, Transaction};
use linked::{PRINTED, RECALLED, SAVING};

/// What calls are given and change.
#[derive(Clone, Debug, PartialEq, Eq)]
pub struct Given {
    pub pool: Vec<u8>,
    pub staging: Vec<u8>,
    pub transaction: Transaction,
    pub recovery: Recovery,
    pub errors: Errors,
    pub out: Vec<u8>,
}

/// Handed back by a refused begin or save, and by a command line that saves nothing: no call takes it.
pub const NO_TRANSACTION: Transaction = Transaction { id: 0, count: 0, phase: 1 };

impl Given {
    /// Nothing is begun: the records are those of refused calls. No error waits, and there is no room to print.
    pub fn new(pool: Vec<u8>, staging: Vec<u8>) -> Given {
        let recovery = Recovery { id: 0, work: 2, phase: 0 };
        Given { pool, staging, transaction: NO_TRANSACTION, recovery, errors: Errors::NONE, out: Vec::new() }
    }
}

#[derive(Clone, Debug)]
pub enum Call {
    Format { rows: usize, cols: usize, zones: usize, id: u64 },
    Mend,
    Look(usize),
    LookUp { tag: u32, from: usize },
    Scrub,
    Repair(Vec<u16>),
    Check(Vec<u8>),
    Begin,
    Allocate { tag: u32, body: Vec<u8> },
    Write { address: usize, at: usize, bytes: Vec<u8> },
    Free(usize),
    Commit,
    CommitStep,
    CommitAdvance,
    Save { number: usize, body: Vec<u8> },
    Recall(usize),
    Command { line: Vec<u8>, setup: Vec<u8> },
    Recover,
    RecoverStep,
    RecoverAdvance,
}

#[derive(Clone, Copy, Debug, PartialEq, Eq)]
pub enum Answer {
    Refusal(usize),
    Part(Part),
    Found(Found),
    Counts(Counts),
    Repaired(Repaired),
    Sum(u32),
    Reply(Reply),
    RecoveryReply(RecoveryReply),
    Obeyed(Obeyed),
}

impl Call {
    pub fn name(&self) -> &'static str {
        match self {
            Call::Format { .. } => "format",
            Call::Mend => "mend",
            Call::Look(_) => "look",
            Call::LookUp { .. } => "look_up",
            Call::Scrub => "scrub",
            Call::Repair(_) => "repair",
            Call::Check(_) => "check",
            Call::Begin => "begin",
            Call::Allocate { .. } => "allocate",
            Call::Write { .. } => "write",
            Call::Free(_) => "free",
            Call::Commit => "commit",
            Call::CommitStep => "commit_step",
            Call::CommitAdvance => "commit_advance",
            Call::Save { .. } => "save",
            Call::Recall(_) => "recall",
            Call::Command { .. } => "command",
            Call::Recover => "recover",
            Call::RecoverStep => "recover_step",
            Call::RecoverAdvance => "recover_advance",
        }
    }

    /// Whether it is given no record and hands one back, also if it is refused.
    fn begins(&self) -> bool {
        matches!(self, Call::Begin | Call::Save { .. } | Call::Recover)
    }
}

impl Answer {
    /// The refusal's number, or 0; and the kind, if the answer has one.
    pub fn refusal_and_kind(&self) -> (usize, Option<usize>) {
        match *self {
            Answer::Refusal(n) => (n, None),
            Answer::Part(part) => (part.refusal, None),
            Answer::Found(found) => (found.refusal, None),
            Answer::Counts(counts) => (counts.refusal, None),
            Answer::Repaired(repaired) => (repaired.refusal, None),
            Answer::Sum(_) | Answer::Obeyed(_) => (0, None),
            Answer::Reply(Reply { kind, value, .. }) | Answer::RecoveryReply(RecoveryReply { kind, value, .. }) => {
                (if kind == linked::REFUSED { value } else { 0 }, Some(kind))
            }
        }
    }

    /// Whether it is a repair's and tells another number than that of the bytes which differ.
    fn miscounts(&self, before: &[u8], after: &[u8]) -> bool {
        matches!(self, Answer::Repaired(repaired) if repaired.altered != differing(before, after))
    }

    /// Whether it is a command line's and tells or changes what a line of its kind has no use for.
    fn oversteps(&self, before: &Given, after: &Given) -> bool {
        let &Answer::Obeyed(Obeyed { kind, value, length, errors, transaction }) = self else { return false };
        after.pool != before.pool
            || kind != SAVING && (transaction != NO_TRANSACTION || after.staging != before.staging)
            || kind != PRINTED && after.out != before.out
            || kind != RECALLED && value != 0
            || ![RECALLED, PRINTED].contains(&kind) && length != 0
            || errors.errors.iter().skip(errors.count).any(|&unused| unused != 0)
    }

    /// What later calls are given: the record handed back.
    pub fn hand_back(&self, given: &mut Given) {
        match *self {
            Answer::Reply(reply) => given.transaction = reply.transaction,
            Answer::RecoveryReply(reply) => given.recovery = reply.recovery,
            Answer::Obeyed(obeyed) => {
                given.errors = obeyed.errors;
                if obeyed.kind == SAVING {
                    given.transaction = obeyed.transaction;
                }
            }
            _ => (),
        }
    }
}

macro_rules! make_call {
    ($name:ident, $side:ident) => {
        fn $name(call: &Call, pool: &mut [u8], staging: &mut [u8], out: &mut [u8], given: &Given) -> Answer {
            let (t, r, errors) = (given.transaction, given.recovery, given.errors);
            match call {
                &Call::Format { rows, cols, zones, id } => Answer::Refusal($side::format(pool, rows, cols, zones, id)),
                Call::Mend => Answer::Refusal($side::mend(pool)),
                &Call::Look(address) => Answer::Part($side::look(pool, address)),
                &Call::LookUp { tag, from } => Answer::Found($side::look_up(pool, tag, from)),
                Call::Scrub => Answer::Counts($side::scrub(pool)),
                Call::Repair(lost) => Answer::Repaired($side::repair(pool, lost)),
                Call::Check(bytes) => Answer::Sum($side::check(bytes)),
                Call::Begin => Answer::Reply($side::begin(pool)),
                Call::Allocate { tag, body } => Answer::Reply($side::allocate(t, pool, staging, *tag, body)),
                Call::Write { address, at, bytes } => Answer::Reply($side::write(t, pool, staging, *address, *at, bytes)),
                &Call::Free(address) => Answer::Reply($side::free(t, pool, staging, address)),
                Call::Commit => Answer::Reply($side::commit(t, pool, staging)),
                Call::CommitStep => Answer::Reply($side::commit_step(t, pool, staging)),
                Call::CommitAdvance => Answer::Reply($side::commit_advance(t, pool, staging)),
                Call::Save { number, body } => Answer::Reply($side::save(pool, staging, *number, body)),
                &Call::Recall(number) => Answer::Part($side::recall(pool, number)),
                Call::Command { line, setup } => Answer::Obeyed($side::command(line, setup, errors, pool, staging, out)),
                Call::Recover => Answer::RecoveryReply($side::recover(pool)),
                Call::RecoverStep => Answer::RecoveryReply($side::recover_step(r, pool)),
                Call::RecoverAdvance => Answer::RecoveryReply($side::recover_advance(r, pool)),
            }
        }
    };
}

make_call!(by_library, linked);
make_call!(by_reference, reference);

const GUARD: u8 = 0xC5;

/// Bytes lent to the library from the middle of a larger piece of memory, at any alignment: it must leave the rest
/// alone.
struct Lent {
    memory: Vec<u8>,
    start: usize,
    length: usize,
}

impl Lent {
    fn new(bytes: &[u8], start: usize) -> Lent {
        let mut memory = vec![GUARD; start];
        memory.extend_from_slice(bytes);
        memory.resize(start + bytes.len() + 64, GUARD);
        Lent { memory, start, length: bytes.len() }
    }

    fn bytes(&mut self) -> &mut [u8] {
        &mut self.memory[self.start..][..self.length]
    }

    fn guards_stand(&self) -> bool {
        let (before, rest) = self.memory.split_at(self.start);
        before.iter().chain(&rest[self.length..]).all(|&b| b == GUARD)
    }
}

/// Makes the call on both sides. The answers, and every byte of pool, staging memory and buffer, must be equal, and nothing
/// may change if the call is refused, the record apart if the call is to begin one. Each side's repair must answer how many
/// bytes it altered. `given` is left as the call leaves it.
pub fn compare(call: &Call, given: &mut Given, alignment: usize) -> Answer {
    let before = given.clone();
    let mut pool = Lent::new(&given.pool, 64 + alignment);
    let mut staging = Lent::new(&given.staging, 64 + alignment / 2);
    let mut out = Lent::new(&given.out, 64 + alignment / 4);
    let got = by_library(call, pool.bytes(), staging.bytes(), out.bytes(), &before);
    let wanted = by_reference(call, &mut given.pool, &mut given.staging, &mut given.out, &before);
    wanted.hand_back(given);
    let refused = wanted.refusal_and_kind().0 != 0;
    let memory_changed = || given.pool != before.pool || given.staging != before.staging;
    let records_changed = !call.begins() && (given.transaction, given.recovery) != (before.transaction, before.recovery);
    let faults = [
        (got.miscounts(&before.pool, pool.bytes()), "the library miscounts the bytes altered"),
        (wanted.miscounts(&before.pool, &given.pool), "the reference miscounts the bytes altered"),
        (got != wanted, "the answers differ"),
        (pool.bytes() != given.pool, "the pools differ"),
        (staging.bytes() != given.staging, "the staging memories differ"),
        (out.bytes() != given.out, "the buffers differ"),
        (![&pool, &staging, &out].into_iter().all(Lent::guards_stand), "bytes outside the lent memory changed"),
        (refused && (records_changed || memory_changed()), "a refused call changed something"),
        (wanted.oversteps(&before, given), "a command line told or changed too much"),
    ];
    for (fault, what) in faults {
        assert!(!fault, "{what}: {}\nthe library   {got:?}\nthe reference {wanted:?}", describe(call, &before));
    }
    wanted
}

/// The call and what it was given, in short.
fn describe(call: &Call, given: &Given) -> String {
    let Given { pool, staging, transaction, recovery, errors, out } = given;
    let word = |at: usize| pool.get(at..at + 8);
    format!(
        "{call:?}\n{transaction:?} {recovery:?} {errors:?} buffer {} bytes, staging {} bytes, pool {} bytes, headers {:?} {:?}, seals {:?} {:?}",
        out.len(),
        staging.len(),
        pool.len(),
        pool.get(..20),
        pool.get(256..276),
        word(LOGS[0]),
        word(LOGS[1]),
    )
}
