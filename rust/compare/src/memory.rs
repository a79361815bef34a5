//! Non-volatile memory as the pool's rules describe it: a barrier makes all stores reach memory; a power cut keeps
//! any subset of the stores since the last barrier, each whole, in order.
use crate::layout::has_seal;
use crate::random::{mix, Random};

/// An aligned 8-byte store.
#[derive(Clone, Copy)]
struct Store {
    at: usize,
    word: u64,
}

/// A pool, with a key by which pools are told apart; each store brings the key up to date.
#[derive(Clone)]
pub struct Image {
    pub pool: Vec<u8>,
    pub key: u64,
}

fn word(pool: &[u8], at: usize) -> u64 {
    u64::from_le_bytes(pool[at..at + 8].try_into().unwrap())
}

fn part_of_key(at: usize, word: u64) -> u64 {
    mix(mix(at as u64).wrapping_add(word))
}

impl Image {
    pub fn new(pool: Vec<u8>) -> Image {
        let words = (0..pool.len()).step_by(8);
        let key = words.fold(0, |sum: u64, at| sum.wrapping_add(part_of_key(at, word(&pool, at))));
        Image { pool, key }
    }

    /// Whether a seal is not zero.
    pub fn has_seal(&self) -> bool {
        has_seal(&self.pool)
    }

    /// Makes a store; answers the store that takes it back.
    fn store(&mut self, store: Store) -> Store {
        let former = Store { at: store.at, word: word(&self.pool, store.at) };
        self.pool[store.at..store.at + 8].copy_from_slice(&store.word.to_le_bytes());
        let (new, old) = (part_of_key(store.at, store.word), part_of_key(store.at, former.word));
        self.key = self.key.wrapping_add(new).wrapping_sub(old);
        former
    }
}

/// What has reached memory, the stores made since, and what the processor sees.
pub struct Memory {
    stable: Image,
    pending: Vec<Store>,
    seen: Vec<u8>,
    seen_before: Vec<u8>,
}

impl Memory {
    /// Memory that this pool has reached.
    pub fn new(image: Image) -> Memory {
        let seen = image.pool.clone();
        Memory { stable: image, pending: Vec::new(), seen_before: seen.clone(), seen }
    }

    pub fn seen(&self) -> &[u8] {
        &self.seen
    }

    /// Number of stores that a cut may lose. A store that leaves its word as the processor sees it is not among them:
    /// kept or lost, it gives a pool that the others give too.
    pub fn pending(&self) -> usize {
        self.pending.len()
    }

    /// Lets a step change what the processor sees: by one aligned word at most.
    pub fn step<A>(&mut self, step: impl FnOnce(&mut [u8]) -> A) -> A {
        let answer = step(&mut self.seen);
        let words = self.seen.chunks(8).zip(self.seen_before.chunks(8));
        let mut changed = words.enumerate().filter(|(_, (now, before))| now != before).map(|(i, _)| i * 8);
        if let Some(at) = changed.next() {
            assert_eq!(changed.next(), None, "a step stores one word");
            self.pending.push(Store { at, word: word(&self.seen, at) });
            self.seen_before[at..at + 8].copy_from_slice(&self.seen[at..at + 8]);
        }
        answer
    }

    /// All stores made so far have reached memory.
    pub fn barrier(&mut self) {
        for store in self.pending.drain(..) {
            self.stable.store(store);
        }
    }

    /// Cuts the power: every pool that may be left, one for each subset of the pending stores.
    pub fn every_cut(&self, visit: &mut impl FnMut(&Image)) {
        subsets(&mut self.stable.clone(), &self.pending, visit);
    }

    /// Cuts the power with some subsets: none, all, one store lost, one store kept, and `more` random ones.
    pub fn some_cuts(&self, random: &mut Random, more: usize, visit: &mut impl FnMut(&Image)) {
        let lone = random.below(self.pending.len().max(1));
        visit(&self.cut(|_| false));
        visit(&self.cut(|_| true));
        visit(&self.cut(|i| i != lone));
        visit(&self.cut(|i| i == lone));
        for _ in 0..more {
            visit(&self.random_cut(random));
        }
    }

    pub fn random_cut(&self, random: &mut Random) -> Image {
        let one_in = random.pick(&[2, 2, 4, 16]);
        let kept_if = random.once_in(2);
        self.cut(|_| random.once_in(one_in) == kept_if)
    }

    fn cut(&self, mut kept: impl FnMut(usize) -> bool) -> Image {
        let mut image = self.stable.clone();
        for (i, &store) in self.pending.iter().enumerate() {
            if kept(i) {
                image.store(store);
            }
        }
        image
    }
}

fn subsets(image: &mut Image, stores: &[Store], visit: &mut impl FnMut(&Image)) {
    let Some((&first, rest)) = stores.split_first() else {
        return visit(image);
    };
    subsets(image, rest, visit);
    let former = image.store(first);
    subsets(image, rest, visit);
    image.store(former);
}
