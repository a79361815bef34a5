//! A pool in use, and a plain table of what its ten places must hold.
use crate::driver::{commit_with_random_cuts, Ended};
use crate::layout::*;
use crate::pools;
use crate::random::Random;
use crate::staged::{change, Change, Staged};
use linked::Reply;

/// A sound pool, its objects, and what its set-ups must be.
pub struct InUse {
    pub pool: Vec<u8>,
    pub objects: Vec<Object>,
    pub places: [Option<Vec<u8>>; SETUPS],
}

impl InUse {
    /// Without set-ups.
    pub fn new(random: &mut Random) -> InUse {
        let shape = pools::shape(random);
        let pool = pools::filled(random, shape);
        let objects = objects(&pool).expect("a sound pool");
        assert!(objects.iter().all(|object| !is_setup(object)));
        InUse { pool, objects, places: Default::default() }
    }

    /// Whether a free run has room for a set-up.
    pub fn has_room(&self) -> bool {
        let shape = pool_shape(&self.pool).expect("a valid header");
        (0..shape.zones).any(|z| runs(shape, &self.pool, z).0.iter().any(|run| !run.object && run.cells >= object_cells(SETUP_SIZE)))
    }

    /// A save that was staged and answered so is committed, cut or dropped: tells which.
    pub fn end_save(&mut self, random: &mut Random, reply: Reply, staging: Vec<u8>, number: usize, body: Vec<u8>) -> &'static str {
        let staged = Staged::save(reply, staging, &self.objects, number, &body);
        let ended = self.end(random, &staged);
        if ended.new {
            self.places[number] = Some(body);
        }
        match (ended.cuts, ended.new) {
            (0, false) => "saves dropped",
            (0, true) => "saves finished",
            (_, false) => "saves cut, old",
            (_, true) => "saves cut, new",
        }
    }

    /// Another transaction, which spares the set-ups: objects with other tags come and go.
    pub fn change_others(&mut self, random: &mut Random) -> &'static str {
        let mut staged = Staged::new(&self.pool, &self.objects);
        for _ in 0..random.from_to(1, 6) {
            let others: Vec<Object> = staged.new.iter().filter(|object| !is_setup(object)).cloned().collect();
            let change = change(random, &others);
            if !names_setup(&change, &staged.new) {
                staged.stage(&self.pool, &change);
            }
        }
        if staged.transaction.count > 0 {
            self.end(random, &staged);
        }
        "other transactions"
    }

    /// Drops the transaction, or commits it, perhaps with cuts and recoveries.
    fn end(&mut self, random: &mut Random, staged: &Staged) -> Ended {
        let pool = self.pool.clone();
        let ended = match random.once_in(5) {
            true => Ended { pool, new: false, cuts: 0 },
            false => commit_with_random_cuts(random, pool, staged),
        };
        self.pool = ended.pool.clone();
        if ended.new {
            self.objects = staged.new.clone();
        }
        ended
    }
}

fn is_setup(object: &Object) -> bool {
    (setup_tag(0)..=setup_tag(9)).contains(&object.tag)
}

/// Whether this change is of a set-up.
fn names_setup(change: &Change, objects: &[Object]) -> bool {
    match change {
        Change::Allocate { tag, .. } => (setup_tag(0)..=setup_tag(9)).contains(tag),
        Change::Write { address, .. } | Change::Free { address } => {
            objects.iter().any(|object| object.address == *address && is_setup(object))
        }
    }
}
