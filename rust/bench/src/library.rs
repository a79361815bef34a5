//! The two implementations behind one table of functions, so that both are called alike.
use reference::{Counts, Errors, Found, Obeyed, Part, Recovery, RecoveryReply, Repaired, Reply, Transaction};

#[allow(clippy::type_complexity)] // the signatures of pool.h
pub struct Library {
    pub look_up: fn(&[u8], u32, usize) -> Found,
    pub scrub: fn(&[u8]) -> Counts,
    pub repair: fn(&mut [u8], &[u16]) -> Repaired,
    pub check: fn(&[u8]) -> u32,
    begin: fn(&[u8]) -> Reply,
    pub allocate: fn(Transaction, &[u8], &mut [u8], u32, &[u8]) -> Reply,
    pub write: fn(Transaction, &[u8], &mut [u8], usize, usize, &[u8]) -> Reply,
    pub free: fn(Transaction, &[u8], &mut [u8], usize) -> Reply,
    pub commit: fn(Transaction, &[u8], &[u8]) -> Reply,
    pub commit_step: fn(Transaction, &mut [u8], &[u8]) -> Reply,
    pub commit_advance: fn(Transaction, &mut [u8], &[u8]) -> Reply,
    pub save_setup: fn(&[u8], &mut [u8], usize, &[u8]) -> Reply,
    pub recall: fn(&[u8], usize) -> Part,
    pub command: fn(&[u8], &[u8], Errors, &[u8], &mut [u8], &mut [u8]) -> Obeyed,
    pub recover: fn(&[u8]) -> RecoveryReply,
    pub recover_step: fn(Recovery, &mut [u8]) -> RecoveryReply,
    pub recover_advance: fn(Recovery, &mut [u8]) -> RecoveryReply,
}

macro_rules! library {
    ($name:ident, $from:ident) => {
        pub static $name: Library = Library {
            look_up: $from::look_up,
            scrub: $from::scrub,
            repair: $from::repair,
            check: $from::check,
            begin: $from::begin,
            allocate: $from::allocate,
            write: $from::write,
            free: $from::free,
            commit: $from::commit,
            commit_step: $from::commit_step,
            commit_advance: $from::commit_advance,
            save_setup: $from::save,
            recall: $from::recall,
            command: $from::command,
            recover: $from::recover,
            recover_step: $from::recover_step,
            recover_advance: $from::recover_advance,
        };
    };
}

library!(PROVED, linked);
library!(PLAIN, reference);

/// How a commit or a recovery is driven to its end: by single steps, or up to the next barrier at a time.
#[derive(Clone, Copy)]
pub enum Way {
    Steps,
    Advance,
}

impl Library {
    /// A fresh transaction on this pool.
    pub fn open(&self, pool: &[u8]) -> Transaction {
        let reply = (self.begin)(pool);
        assert_eq!(reply.kind, reference::TAKEN);
        reply.transaction
    }

    /// Commits to the end, and passes these barriers; the number of steps.
    pub fn save_with(&self, way: Way, t: Transaction, pool: &mut [u8], staging: &[u8], mut barrier: impl FnMut(&[u8])) -> usize {
        let go_on = match way {
            Way::Steps => self.commit_step,
            Way::Advance => self.commit_advance,
        };
        let mut reply = (self.commit)(t, pool, staging);
        while reply.kind != reference::DONE {
            assert_ne!(reply.kind, reference::REFUSED);
            reply = go_on(reply.transaction, pool, staging);
            if reply.kind != reference::STORED {
                barrier(pool);
            }
        }
        reply.value
    }

    /// Commits to the end, without a barrier; the number of steps.
    pub fn save(&self, way: Way, t: Transaction, pool: &mut [u8], staging: &[u8]) -> usize {
        self.save_with(way, t, pool, staging, |_| ())
    }

    /// Recovers to the end, without a barrier; the number of steps.
    pub fn restart(&self, way: Way, pool: &mut [u8]) -> usize {
        let go_on = match way {
            Way::Steps => self.recover_step,
            Way::Advance => self.recover_advance,
        };
        let mut reply = (self.recover)(pool);
        while reply.kind != reference::DONE {
            assert_ne!(reply.kind, reference::REFUSED);
            reply = go_on(reply.recovery, pool);
        }
        reply.value
    }
}
