//! Request A.3: command lines, and the queue of errors that they fill. A line saves or recalls a set-up, or asks for the oldest error.

use crate::records::{Errors, Obeyed, Transaction, NOTHING, PRINTED, RECALLED, REFUSED, SAVING};
use crate::setups::{recall, save};

const LONGEST: usize = 80;
const QUERIES: [&[u8]; 4] = [b"SYST:ERR?", b"SYST:ERROR?", b"SYSTEM:ERR?", b"SYSTEM:ERROR?"];

// The errors, without their minus.
const DATA_TYPE: u16 = 104;
const MISSING_PARAMETER: u16 = 109;
const UNDEFINED_HEADER: u16 = 113;
const EXECUTION: u16 = 200;
const OUT_OF_RANGE: u16 = 222;
const QUEUE_OVERFLOW: u16 = 350;
const ALL: [u16; 6] = [DATA_TYPE, MISSING_PARAMETER, UNDEFINED_HEADER, EXECUTION, OUT_OF_RANGE, QUEUE_OVERFLOW];

/// What a line says.
enum Command {
    Nothing,
    Save(usize),
    Recall(usize),
    Query,
    Fault(u16),
}

/// Obeys a line, given without its end. A save takes the set-up beside the line, is staged, and hands back its transaction; a recall tells where
/// the set-up lies; the query prints, as much as `out` has room for.
pub fn command(line: &[u8], setup: &[u8], errors: Errors, pool: &[u8], staging: &mut [u8], out: &mut [u8]) -> Obeyed {
    let errors = if is_fit(&errors) { zero_unused(errors) } else { Errors::NONE };
    match read(line) {
        Command::Nothing => Obeyed::nothing(errors),
        Command::Fault(error) => Obeyed::nothing(enter(errors, error)),
        Command::Query => {
            let (oldest, rest) = take(errors);
            Obeyed { kind: PRINTED, length: put(out, error_line(oldest)), ..Obeyed::nothing(rest) }
        }
        Command::Save(number) => {
            let reply = save(pool, staging, number, setup);
            match reply.kind {
                REFUSED => Obeyed::nothing(enter(errors, EXECUTION)),
                _ => Obeyed { kind: SAVING, transaction: reply.transaction, ..Obeyed::nothing(errors) },
            }
        }
        Command::Recall(number) => {
            let part = recall(pool, number);
            match part.refusal {
                0 => Obeyed { kind: RECALLED, value: part.offset, length: part.length, ..Obeyed::nothing(errors) },
                _ => Obeyed::nothing(enter(errors, EXECUTION)),
            }
        }
    }
}

impl Obeyed {
    /// Nothing was done, but that an error may have been entered.
    fn nothing(errors: Errors) -> Obeyed {
        debug_assert!(is_fit(&errors));
        Obeyed { kind: NOTHING, value: 0, length: 0, errors, transaction: Transaction::NONE }
    }
}

/// Letters count in either case.
fn read(line: &[u8]) -> Command {
    if line.is_empty() {
        return Command::Nothing;
    }
    if line.len() > LONGEST {
        return Command::Fault(UNDEFINED_HEADER);
    }
    if QUERIES.iter().any(|query| line.eq_ignore_ascii_case(query)) {
        return Command::Query;
    }
    let (header, rest) = line.split_at(line.len().min(4));
    if header.eq_ignore_ascii_case(b"*SAV") {
        number(rest).map_or_else(Command::Fault, Command::Save)
    } else if header.eq_ignore_ascii_case(b"*RCL") {
        number(rest).map_or_else(Command::Fault, Command::Recall)
    } else {
        Command::Fault(UNDEFINED_HEADER)
    }
}

/// What stands behind the header: one blank, then the number, to the line's end. Only the last digit may be other than 0.
fn number(rest: &[u8]) -> Result<usize, u16> {
    let digits = match rest {
        b"" | b" " => return Err(MISSING_PARAMETER),
        [b' ', digits @ ..] => digits,
        _ => return Err(UNDEFINED_HEADER),
    };
    if !digits.iter().all(u8::is_ascii_digit) {
        return Err(DATA_TYPE);
    }
    match digits {
        [zeros @ .., last] if zeros.iter().all(|&digit| digit == b'0') => Ok(usize::from(last - b'0')),
        _ => Err(OUT_OF_RANGE),
    }
}

/// At most ten, and each of the six. Places that are not used are not judged.
fn is_fit(errors: &Errors) -> bool {
    errors.errors.get(..errors.count).is_some_and(|used| used.iter().all(|error| ALL.contains(error)))
}

fn zero_unused(mut errors: Errors) -> Errors {
    errors.errors[errors.count..].fill(0);
    errors
}

/// The newest of ten gives way to the overflow, and the error itself is lost.
fn enter(mut errors: Errors, error: u16) -> Errors {
    if let Some(place) = errors.errors.get_mut(errors.count) {
        *place = error;
        errors.count += 1;
    } else {
        errors.errors[errors.count - 1] = QUEUE_OVERFLOW;
    }
    errors
}

/// The oldest error, 0 if there is none, and the queue without it.
fn take(mut errors: Errors) -> (u16, Errors) {
    let oldest = errors.errors[0];
    if errors.count > 0 {
        errors.count -= 1;
        errors.errors.rotate_left(1);
    }
    (oldest, zero_unused(errors))
}

/// What the query prints.
fn error_line(error: u16) -> &'static [u8] {
    match error {
        DATA_TYPE => b"-104,\"Data type error\"\n",
        MISSING_PARAMETER => b"-109,\"Missing parameter\"\n",
        UNDEFINED_HEADER => b"-113,\"Undefined header\"\n",
        EXECUTION => b"-200,\"Execution error\"\n",
        OUT_OF_RANGE => b"-222,\"Data out of range\"\n",
        QUEUE_OVERFLOW => b"-350,\"Queue overflow\"\n",
        _ => b"0,\"No error\"\n",
    }
}

/// Writes as much as there is room for; the length of the whole line.
fn put(out: &mut [u8], line: &[u8]) -> usize {
    out.iter_mut().zip(line).for_each(|(place, &byte)| *place = byte);
    line.len()
}
