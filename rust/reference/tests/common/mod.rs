//! What the tests of the reference share.
use reference::{begin, Transaction, TAKEN};

/// A fresh transaction on this pool.
pub fn open(pool: &[u8]) -> Transaction {
    let reply = begin(pool);
    assert_eq!((reply.kind, reply.value), (TAKEN, 0));
    reply.transaction
}
