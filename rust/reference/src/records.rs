//! What the calls take and answer, as in pool.h.

/// The id of the pool that it was begun on, the entries staged, and the phase: 0 open, 1 closed, k + 2 after k steps of
/// the commit.
#[repr(C)]
#[derive(Clone, Copy, Debug, PartialEq, Eq)]
pub struct Transaction {
    pub id: u64,
    pub count: usize,
    pub phase: usize,
}

#[repr(C)]
#[derive(Clone, Copy, Debug, PartialEq, Eq)]
pub struct Reply {
    pub kind: usize,
    pub value: usize,
    pub transaction: Transaction,
}

/// The id of the pool that it was begun on. The work: 0 nothing, 1 clear both seals, 2 neither log is valid, 2n + 3
/// replay log A with n entries, 2n + 4 replay log B with n entries. The phase: 0 finished, k + 1 after k steps.
#[repr(C)]
#[derive(Clone, Copy, Debug, PartialEq, Eq)]
pub struct Recovery {
    pub id: u64,
    pub work: usize,
    pub phase: usize,
}

#[repr(C)]
#[derive(Clone, Copy, Debug, PartialEq, Eq)]
pub struct RecoveryReply {
    pub kind: usize,
    pub value: usize,
    pub recovery: Recovery,
}

/// The part of the pool that holds an object's body. If refused, offset and length are 0.
#[repr(C)]
#[derive(Clone, Copy, Debug, PartialEq, Eq)]
pub struct Part {
    pub refusal: usize,
    pub offset: usize,
    pub length: usize,
}

/// Whether an object was found, 0 or 1, and its address. If refused, or if none was found, the address is 0.
#[repr(C)]
#[derive(Clone, Copy, Debug, PartialEq, Eq)]
pub struct Found {
    pub refusal: usize,
    pub found: usize,
    pub address: usize,
}

/// Objects met, damaged ones, broken zones, columns with wrong parity. If refused, the counts are 0.
#[repr(C)]
#[derive(Clone, Copy, Debug, PartialEq, Eq)]
pub struct Counts {
    pub refusal: usize,
    pub objects: usize,
    pub damaged: usize,
    pub broken: usize,
    pub columns: usize,
}

/// How many bytes of the pool repair altered. If refused, altered is 0.
#[repr(C)]
#[derive(Clone, Copy, Debug, PartialEq, Eq)]
pub struct Repaired {
    pub refusal: usize,
    pub altered: usize,
}

/// The errors that wait, without their minus, the oldest first; `count` tells how many. What comes back has zeros in the places that are not used.
#[repr(C)]
#[derive(Clone, Copy, Debug, PartialEq, Eq)]
pub struct Errors {
    pub count: usize,
    pub errors: [u16; 10],
}

/// What a command line did: the offset of a recalled set-up as the value, its length or that of the printed line, and the transaction of a save.
/// Else value and length are 0, and the transaction is one that no call takes.
#[repr(C)]
#[derive(Clone, Copy, Debug, PartialEq, Eq)]
pub struct Obeyed {
    pub kind: usize,
    pub value: usize,
    pub length: usize,
    pub errors: Errors,
    pub transaction: Transaction,
}

// The kinds of a reply; its value is
pub const REFUSED: usize = 0; // the refusal's number
pub const ADDRESS: usize = 1; // the address of the object allocated
pub const TAKEN: usize = 2; // 0
pub const STARTED: usize = 3; // 0
pub const STORED: usize = 4; // the step's number, from 1
pub const BARRIER: usize = 5; // the step's number, from 1
pub const DONE: usize = 6; // the number of steps

// What a command line did
pub const NOTHING: usize = 0; // nothing, but that an error may have been entered
pub const SAVING: usize = 1; // staged a set-up in the transaction handed back
pub const RECALLED: usize = 2; // found a set-up
pub const PRINTED: usize = 3; // printed a line

impl Errors {
    pub const NONE: Errors = Errors { count: 0, errors: [0; 10] };
}

impl Transaction {
    pub(crate) const OPEN: usize = 0;
    pub(crate) const CLOSED: usize = 1;
    pub(crate) const COMMITTING: usize = 2; // plus the number of steps made

    /// Handed back by a refused begin or save. No call takes it: no pool has the id 0.
    pub(crate) const NONE: Transaction = Transaction { id: 0, count: 0, phase: Transaction::CLOSED };

    /// The steps of its commit; an empty transaction is done in none.
    pub(crate) fn steps(self) -> usize {
        match self.count {
            0 => 0,
            n => 6 * n + 9,
        }
    }

    pub(crate) fn reply(self, kind: usize, value: usize) -> Reply {
        Reply { kind, value, transaction: self }
    }
}

impl Recovery {
    pub(crate) const NOTHING: usize = 0;
    pub(crate) const CLEAR: usize = 1;
    pub(crate) const NO_LOG: usize = 2;
    pub(crate) const REPLAY: usize = 3; // plus 2n, plus 1 for log B

    pub(crate) const FINISHED: usize = 0;
    pub(crate) const RECOVERING: usize = 1; // plus the number of steps made

    /// Handed back by a refused start. No call takes it: no pool has the id 0.
    pub(crate) const NONE: Recovery = Recovery { id: 0, work: Recovery::NO_LOG, phase: Recovery::FINISHED };

    pub(crate) fn reply(self, kind: usize, value: usize) -> RecoveryReply {
        RecoveryReply { kind, value, recovery: self }
    }
}
