//! Transactions staged by the library, and the objects that they must leave, worked out from the arguments and
//! answers alone.
use crate::layout::{setup_tag, Object};
use crate::random::Random;
use linked::{Reply, Transaction, ADDRESS, TAKEN};

/// Bytes of staging memory that a transaction needs.
pub const STAGING: usize = 2032;

/// A fresh transaction of the library on this pool.
pub fn begin(pool: &[u8]) -> Transaction {
    let reply = linked::begin(pool);
    assert_eq!((reply.kind, reply.value), (TAKEN, 0));
    reply.transaction
}

/// A change to be staged.
#[derive(Clone, Debug)]
pub enum Change {
    Allocate { tag: u32, body: Vec<u8> },
    Write { address: usize, at: usize, bytes: Vec<u8> },
    Free { address: usize },
}

/// A transaction with its entries, and the objects once it is committed, ascending by address.
pub struct Staged {
    pub transaction: Transaction,
    pub staging: Vec<u8>,
    pub new: Vec<Object>,
    pub refused: usize,
}

impl Staged {
    /// A fresh transaction on a pool, which has these objects.
    pub fn new(pool: &[u8], old: &[Object]) -> Staged {
        Staged { transaction: begin(pool), staging: vec![0; STAGING], new: old.to_vec(), refused: 0 }
    }

    /// A set-up saved, which was answered so, on a pool that has these objects.
    pub fn save(reply: Reply, staging: Vec<u8>, old: &[Object], number: usize, body: &[u8]) -> Staged {
        let (transaction, tag) = (reply.transaction, setup_tag(number));
        let mut staged = Staged { transaction, staging, new: old.to_vec(), refused: 0 };
        match reply.kind {
            ADDRESS => staged.enter(reply.value, tag, body),
            TAKEN => {
                let lowest = staged.new.iter_mut().find(|object| object.tag == tag).expect("the set-up is there");
                lowest.body = body.to_vec();
            }
            kind => panic!("a save answers kind {kind}"),
        }
        staged
    }

    /// Stages a change; a refused one alters nothing.
    pub fn stage(&mut self, pool: &[u8], change: &Change) {
        let (t, staging) = (self.transaction, &mut self.staging);
        let reply = match change {
            Change::Allocate { tag, body } => linked::allocate(t, pool, staging, *tag, body),
            Change::Write { address, at, bytes } => linked::write(t, pool, staging, *address, *at, bytes),
            Change::Free { address } => linked::free(t, pool, staging, *address),
        };
        self.transaction = reply.transaction;
        match (change, reply.kind) {
            (Change::Allocate { tag, body }, ADDRESS) => self.enter(reply.value, *tag, body),
            (Change::Write { address, at, bytes }, TAKEN) => {
                let place = self.new.binary_search_by_key(address, |object| object.address).expect("an object is there");
                self.new[place].body[*at..at + bytes.len()].copy_from_slice(bytes);
            }
            (Change::Free { address }, TAKEN) => self.new.retain(|object| object.address != *address),
            (_, linked::REFUSED) => self.refused += 1,
            (_, kind) => panic!("{change:?} answers kind {kind}"),
        }
    }

    fn enter(&mut self, address: usize, tag: u32, body: &[u8]) {
        let place = self.new.partition_point(|object| object.address < address);
        self.new.insert(place, Object { address, tag, body: body.to_vec() });
    }
}

/// A random change: an object of some length, other bytes for one that is there, or one taken out; sometimes one to
/// be refused.
pub fn change(random: &mut Random, now: &[Object]) -> Change {
    if now.is_empty() || random.once_in(3) {
        let length = random.pick(&[0, 1, 20, 48, 49, 112, 113, 240, 496]);
        return Change::Allocate { tag: random.next() as u32, body: random.bytes(length) };
    }
    let object = &now[random.below(now.len())];
    if random.once_in(2) {
        let off = usize::from(random.once_in(8));
        return Change::Free { address: object.address + off };
    }
    let at = random.below(object.body.len());
    let room = object.body.len() - at;
    let length = if random.once_in(8) { room + 1 } else { random.from_to(1, room.min(40)) };
    Change::Write { address: object.address, at, bytes: random.bytes(length) }
}
