//! Power cuts: commits and recoveries of the library over a model of non-volatile memory. Whatever a cut leaves, the
//! first recovery that ends must give a sound pool, with all objects old if no seal of the commit had reached memory,
//! else all new; and every lost page is then rebuilt. If one log is overwritten after the first cut, so that it is not valid,
//! the other log alone decides: all objects are new if the commit's seal there had reached memory, else old.
use compare::driver::{commit, commit_steps, commit_with_random_cuts, recover, recover_with_random_cuts, steps_to_sealed, Ended};
use compare::judge::{judge, lose_pages};
use compare::layout::{get, objects, pool_shape, put, seal, valid_log, Object, Shape, LARGEST, LOGS};
use compare::memory::{Image, Memory};
use compare::random::Random;
use compare::scribble::{overwrite, Way, WAYS};
use compare::staged::{change, Change, Staged};
use compare::{pools, times};
use std::collections::HashSet;

/// How many cuts are tried. After every step of a commit every subset of up to so many pending stores is tried, and some of
/// more. With at most so many entries every subset is tried after every step of every recovery, however many cuts came before;
/// with more, subsets are drawn, at steps that are drawn: once in so many steps, for each entry.
#[derive(Clone, Copy)]
struct Effort {
    pending: usize,
    entries: usize,
    drawn_once_in: usize,
}

const LOGS_AS_LEFT: Effort = Effort { pending: 12, entries: 12, drawn_once_in: 1 };

/// Less, for each pool that a first cut leaves becomes some twenty.
const LOG_OVERWRITTEN: Effort = Effort { pending: 8, entries: 6, drawn_once_in: 4 };

/// So many pools of each transaction have each of their pages lost.
const POOLS_WITH_LOSSES: usize = 20;

impl Effort {
    /// Cuts the power now, for the first time or again: the pools that may be left. Answers whether there was a cut.
    fn cut(self, random: &mut Random, memory: &Memory, entries: usize, cuts: usize, keep: &mut impl FnMut(&Image)) -> bool {
        match cuts {
            1 if memory.pending() <= self.pending => memory.every_cut(keep),
            1 => memory.some_cuts(random, 8, keep),
            _ if entries <= self.entries => memory.every_cut(keep),
            2..=4 if random.once_in(self.drawn_once_in * entries) => keep(&memory.random_cut(random)),
            _ => return false,
        }
        true
    }
}

#[derive(Default)]
struct Counts {
    commits: usize,
    cuts: usize,
    subsets: usize,
    recoveries: usize,
    pools: usize,
    pages: usize,
}

impl Counts {
    /// A commit, cut and recovered so many times, and its pool judged.
    fn count_ended(&mut self, cuts: usize) {
        self.commits += 1;
        self.cuts += cuts;
        self.subsets += cuts;
        self.recoveries += cuts;
        self.pools += 1;
    }

    fn print(&self) {
        let Counts { commits, cuts, subsets, recoveries, pools, pages } = self;
        println!("{commits} commits, {cuts} cuts, {subsets} subsets of pending stores, {recoveries} recoveries");
        println!("{pools} pools judged, {pages} pages lost and rebuilt");
    }
}

/// A pool left by a cut, whether all objects must be new, and how many cuts there were.
struct Left {
    image: Image,
    new: bool,
    cuts: usize,
}

/// A pool that the first cut of a commit left, whether the commit's seal has reached log A, and log B, and the number of entries.
struct FirstCut {
    image: Image,
    reached: [bool; 2],
    entries: usize,
}

impl FirstCut {
    /// A cut after so many steps: a seal has reached memory if the barrier after the seals was passed, or the cut has kept it.
    fn new(image: Image, steps: usize, entries: usize) -> FirstCut {
        let reached = LOGS.map(|log| steps >= steps_to_sealed(entries) || get(&image.pool, log, 8) != 0);
        FirstCut { image, reached, entries }
    }
}

/// What was overwritten: pools that a first cut left; overwritings in each way; those left out, since they left a valid log; and
/// those made, by whether the commit's seal had reached the log overwritten, and whether it had reached the other log.
#[derive(Default)]
struct Overwritings {
    pools: usize,
    made: [usize; WAYS.len()],
    left_out: usize,
    by_seals: [[usize; 2]; 2],
}

impl Overwritings {
    /// The pool with this log overwritten in this way, unless that leaves a valid log. All objects must be new if the commit's
    /// seal has reached the other log.
    fn make(&mut self, random: &mut Random, cut: &FirstCut, log: usize, way: Way) -> Option<Left> {
        let shape = pool_shape(&cut.image.pool).expect("a valid header");
        let mut pool = cut.image.pool.clone();
        overwrite(random, shape, &mut pool, LOGS[log], cut.entries, way);
        if valid_log(shape, &pool, LOGS[log]).is_some() {
            self.left_out += 1;
            return None;
        }
        let (this, other) = (cut.reached[log], cut.reached[1 - log]);
        self.made[way as usize] += 1;
        self.by_seals[usize::from(this)][usize::from(other)] += 1;
        Some(Left { image: Image::new(pool), new: other, cuts: 1 })
    }

    fn print(&self) {
        let Overwritings { pools, made, left_out, by_seals } = self;
        println!("{pools} pools left by a first cut, {} overwritings of a log, {left_out} left out", made.iter().sum::<usize>());
        println!("each way {made:?}; a seal in neither log, in the other alone, in this alone, in both: {by_seals:?}");
    }

    /// At least so many pools were met, and every way and every case of seals.
    fn assert_all_met(&self, pools: usize) {
        assert!(self.pools >= pools, "{} pools", self.pools);
        assert!(!self.made.contains(&0) && !self.by_seals.as_flattened().contains(&0));
    }
}

/// One transaction with all its cuts.
struct Explorer<'a> {
    entries: usize,
    effort: Effort,
    old: Vec<Object>,
    new: Vec<Object>,
    random: &'a mut Random,
    counts: &'a mut Counts,
    known: HashSet<(u64, bool)>,
    left: Vec<Left>,
    judged: HashSet<(u64, bool)>,
}

impl<'a> Explorer<'a> {
    fn new(pool: &[u8], staged: &Staged, effort: Effort, random: &'a mut Random, counts: &'a mut Counts) -> Explorer<'a> {
        let (old, new) = (objects(pool).unwrap(), staged.new.clone());
        let (known, left, judged) = (HashSet::new(), Vec::new(), HashSet::new());
        Explorer { entries: staged.transaction.count, effort, old, new, random, counts, known, left, judged }
    }

    /// Commits, then recovers every pool that a cut of the commit or of a recovery leaves. Answers the pool of the
    /// uncut commit.
    fn explore(&mut self, pool: &[u8], staged: &Staged) -> Vec<u8> {
        let mut memory = Memory::new(Image::new(pool.to_vec()));
        commit(&mut memory, staged, |memory, steps| {
            self.cut(memory, steps >= steps_to_sealed(self.entries), 1);
            true
        });
        self.counts.commits += 1;
        self.judge(memory.seen(), true);
        self.recover_left();
        memory.seen().to_vec()
    }

    /// Commits; in every pool that a cut of the commit leaves each log is overwritten in each way; then recovers these pools, and
    /// every pool that a cut of a recovery leaves.
    fn overwrite(&mut self, pool: &[u8], staged: &Staged, overwritings: &mut Overwritings) {
        let mut memory = Memory::new(Image::new(pool.to_vec()));
        let mut met = HashSet::new();
        commit(&mut memory, staged, |memory, steps| {
            let mut images = Vec::new();
            self.effort.cut(self.random, memory, self.entries, 1, &mut |image| images.push(image.clone()));
            self.counts.cuts += 1;
            self.counts.subsets += images.len();
            for image in images {
                let cut = FirstCut::new(image, steps, self.entries);
                if met.insert((cut.image.key, cut.reached)) {
                    self.overwrite_logs(&cut, overwritings);
                }
            }
            self.recover_left();
            true
        });
        self.counts.commits += 1;
    }

    /// Notes the pools with one log overwritten.
    fn overwrite_logs(&mut self, cut: &FirstCut, overwritings: &mut Overwritings) {
        overwritings.pools += 1;
        for log in [0, 1] {
            let made: Vec<Left> = WAYS.into_iter().filter_map(|way| overwritings.make(self.random, cut, log, way)).collect();
            assert!(made.len() >= 8, "each log is overwritten in at least eight ways");
            self.left.extend(made.into_iter().filter(|left| self.known.insert((left.image.key, left.new))));
        }
    }

    fn recover_left(&mut self) {
        while let Some(Left { image, new, cuts }) = self.left.pop() {
            let mut memory = Memory::new(image);
            recover(&mut memory, |memory, _| {
                self.cut(memory, new, cuts + 1);
                true
            });
            self.counts.recoveries += 1;
            self.judge(memory.seen(), new);
        }
    }

    /// Notes the pools that a power cut leaves now. All objects must be new if a seal has reached memory before, or is
    /// kept by the first cut.
    fn cut(&mut self, memory: &Memory, sealed: bool, cuts: usize) {
        let Explorer { known, left, counts, .. } = self;
        let mut keep = |image: &Image| {
            counts.subsets += 1;
            let new = sealed || cuts == 1 && image.has_seal();
            if known.insert((image.key, new)) {
                left.push(Left { image: image.clone(), new, cuts });
            }
        };
        counts.cuts += usize::from(self.effort.cut(self.random, memory, self.entries, cuts, &mut keep));
    }

    fn judge(&mut self, pool: &[u8], new: bool) {
        if self.judged.insert((Image::new(pool.to_vec()).key, new)) {
            self.counts.pools += 1;
            judge(pool, if new { &self.new } else { &self.old });
            if self.judged.len() <= POOLS_WITH_LOSSES {
                self.counts.pages += lose_pages(self.random, pool);
            }
        }
    }
}

fn seeded(seed: u64) -> Random {
    println!("seed {seed}");
    Random::new(seed)
}

fn staged(pool: &[u8], changes: &[Change]) -> Staged {
    let mut staged = Staged::new(pool, &objects(pool).expect("the pool is sound"));
    for change in changes {
        staged.stage(pool, change);
    }
    staged
}

/// Transactions one after the other on one pool, each with the number of its entries, explored: with one log overwritten after
/// the first cut, and with the logs as the cuts leave them.
fn explore(rows: usize, cols: usize, zones: usize, transactions: &[(usize, &[Change])]) {
    let (mut random, mut counts) = (seeded(4), Counts::default());
    let (mut more_random, mut more_counts, mut overwritings) = (seeded(6), Counts::default(), Overwritings::default());
    let mut pool = vec![0xEE; Shape { rows, cols, zones }.length()];
    assert_eq!(linked::format(&mut pool, rows, cols, zones, 7), 0);
    for &(entries, changes) in transactions {
        let staged = staged(&pool, changes);
        assert_eq!(staged.transaction.count, entries);
        Explorer::new(&pool, &staged, LOG_OVERWRITTEN, &mut more_random, &mut more_counts).overwrite(&pool, &staged, &mut overwritings);
        pool = Explorer::new(&pool, &staged, LOGS_AS_LEFT, &mut random, &mut counts).explore(&pool, &staged);
    }
    counts.print();
    println!("with one log overwritten:");
    more_counts.print();
    overwritings.print();
    overwritings.assert_all_met(1_500);
}

/// A pool with a log of these targets, sealed: its count, if the tests judge it valid.
fn judged_log(shape: Shape, targets: &[usize], change: impl FnOnce(&mut [u8])) -> Option<usize> {
    let mut pool = vec![0; shape.length()];
    let entries = pools::entries(&mut Random::new(8), &pool, targets, false);
    put(&mut pool, LOGS[1], 8, seal(&entries));
    pool[LOGS[1] + 16..][..entries.len()].copy_from_slice(&entries);
    change(&mut pool[LOGS[1]..]);
    valid_log(shape, &pool, LOGS[1])
}

#[test]
fn the_judge_of_logs() {
    let shape = Shape { rows: 2, cols: 1, zones: 2 };
    let (first, last) = (shape.zone(0), shape.zone(1) + shape.data() - 8);
    assert_eq!(judged_log(shape, &[last, first], |log| log[8] = 1), Some(2));
    for wrong in [first, last + 4, last + 8, first + shape.data(), first - 8, 0, shape.length(), usize::MAX - 7] {
        assert_eq!(judged_log(shape, &[last, first, wrong], |_| ()), None, "target {wrong}");
    }
    for (byte, bit) in (0..8).chain(16..48).flat_map(|byte| (0..8).map(move |bit| (byte, bit))) {
        assert_eq!(judged_log(shape, &[last, first], |log| log[byte] ^= 1 << bit), None, "bit {bit} of byte {byte}");
    }
    let words: Vec<usize> = (0..128).map(|i| LARGEST.zone(0) + 8 * i).collect();
    assert_eq!([0, 1, 127, 128].map(|count| judged_log(LARGEST, &words[..count], |_| ())), [None, Some(1), Some(127), None]);
}

fn allocate(length: usize) -> Change {
    let body = (0..length).map(|i| i as u8 % 200 + 1).collect();
    Change::Allocate { tag: 100 + length as u32, body }
}

fn write(address: usize, at: usize, length: usize) -> Change {
    Change::Write { address, at, bytes: vec![0xD7; length] }
}

fn free(address: usize) -> Change {
    Change::Free { address }
}

#[test]
fn one_object_saved_written_and_freed() {
    explore(2, 2, 1, &[(10, &[allocate(48)]), (2, &[write(0, 3, 2)]), (3, &[write(0, 5, 6)]), (2, &[free(0)])]);
}

#[test]
fn zones_filled_exactly() {
    explore(1, 1, 2, &[(26, &[allocate(176)]), (8, &[allocate(48)]), (32, &[allocate(240)]), (4, &[free(4), free(3)])]);
}

#[test]
fn targets_that_do_not_ascend() {
    let objects = [allocate(20), allocate(20), allocate(20)];
    let downwards = [write(2, 0, 8), write(1, 0, 8), write(0, 0, 8)];
    let joined = [free(2), free(0), free(1)];
    explore(2, 1, 1, &[(26, &objects), (6, &downwards), (4, &joined)]);
}

#[test]
fn words_that_share_a_parity_word() {
    let objects = [allocate(240), allocate(48)];
    let same_place = [write(0, 0, 8), write(4, 0, 8)];
    explore(2, 1, 1, &[(42, &objects), (4, &same_place)]);
}

#[test]
fn allocate_write_and_free_together() {
    let first = [allocate(40), allocate(40)];
    let mixed = [free(0), allocate(30), write(0, 2, 9), allocate(0), write(1, 40, 1), write(1, 39, 1)];
    explore(2, 1, 2, &[(18, &first), (10, &mixed)]);
}

/// Random transactions in turn, so that old entries lie in the logs; each commit and recovery may be cut, at any
/// step.
#[test]
fn transactions_in_turn_with_random_cuts() {
    let (mut random, mut counts) = (seeded(5), Counts::default());
    for _ in 0..500 * times() {
        let shape = pools::shape(&mut random);
        let mut pool = pools::filled(&mut random, shape);
        for _ in 0..20 {
            pool = random_transaction(&mut random, &mut counts, pool);
        }
        counts.pages += lose_pages(&mut random, &pool);
    }
    counts.print();
}

fn random_transaction(random: &mut Random, counts: &mut Counts, pool: Vec<u8>) -> Vec<u8> {
    let old = objects(&pool).expect("the pool is sound");
    let staged = random_changes(random, &pool, &old);
    if staged.transaction.count == 0 {
        let reply = linked::commit(staged.transaction, &pool, &staged.staging);
        assert_eq!((reply.kind, reply.value), (linked::DONE, 0));
        return pool;
    }
    let Ended { pool, new, cuts } = commit_with_random_cuts(random, pool, &staged);
    judge(&pool, if new { &staged.new } else { &old });
    counts.count_ended(cuts);
    pool
}

fn random_changes(random: &mut Random, pool: &[u8], old: &[Object]) -> Staged {
    let mut staged = Staged::new(pool, old);
    for _ in 0..random.from_to(1, 6) {
        let change = change(random, &staged.new);
        staged.stage(pool, &change);
    }
    staged
}

/// Random transactions in turn, each cut at any step and then one of its logs overwritten, so that what was scribbled lies in the
/// logs when the next one is committed.
#[test]
fn transactions_in_turn_with_a_log_overwritten() {
    let (mut random, mut counts, mut overwritings) = (seeded(7), Counts::default(), Overwritings::default());
    for _ in 0..500 * times() {
        let shape = pools::shape(&mut random);
        let mut pool = pools::filled(&mut random, shape);
        for _ in 0..20 {
            pool = overwritten_transaction(&mut random, &mut counts, &mut overwritings, pool);
        }
        counts.pages += lose_pages(&mut random, &pool);
    }
    counts.print();
    overwritings.print();
    overwritings.assert_all_met(9_000 * times());
}

fn overwritten_transaction(random: &mut Random, counts: &mut Counts, overwritings: &mut Overwritings, pool: Vec<u8>) -> Vec<u8> {
    let old = objects(&pool).expect("the pool is sound");
    let staged = random_changes(random, &pool, &old);
    let entries = staged.transaction.count;
    if entries == 0 {
        return pool;
    }
    let steps = random.below(commit_steps(entries) + 1);
    let mut memory = Memory::new(Image::new(pool));
    assert!(!commit(&mut memory, &staged, |_, made| made != steps));
    let cut = FirstCut::new(memory.random_cut(random), steps, entries);
    overwritings.pools += 1;
    let Left { image, new, .. } = overwrite_any(random, &cut, overwritings);
    let (pool, cuts) = recover_with_random_cuts(random, image, entries);
    judge(&pool, if new { &staged.new } else { &old });
    counts.count_ended(cuts);
    pool
}

/// One of the logs overwritten, in one of the ways, until that leaves no valid log.
fn overwrite_any(random: &mut Random, cut: &FirstCut, overwritings: &mut Overwritings) -> Left {
    let tries = (0..100).map(|_| {
        let (log, way) = (random.below(2), random.pick(&WAYS));
        overwritings.make(random, cut, log, way)
    });
    tries.flatten().next().expect("one of the ways leaves no valid log")
}
