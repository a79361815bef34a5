//! The library against the reference: every answer, and every byte of pool, staging memory and record, over random
//! pools and requests.
use compare::calls::{compare, Answer, Call, Given};
use compare::layout::*;
use compare::random::Random;
use compare::{layout, pools, requests, times};
use linked::{Found, Obeyed, Repaired, NOTHING};
use std::collections::{BTreeMap, BTreeSet};

/// What each call can answer. `2` stands twice: "2 short" under 512 bytes, "2 length" after the headers. `25` stands for what is wrong with the
/// object: "25 check"; "25 stray", bytes behind the body; "25 staged", such bytes in the entries alone. So does scrub's `0`: "0 stray" if it
/// counted an object for such bytes alone. A repair's `0` altered no byte, its "0 altered" some. `33` stands for the body that is not of 120
/// bytes: "33 given", "33 found". A command line that did nothing but enter an error has that error's number, 350 if ten waited.
const ANSWERS: [(&str, &str); 19] = [
    ("format", "0, 1, 2 short, 2 length"),
    ("mend", "0, 2 short, 3, 4, 2 length"),
    ("look", "0, 2 short, 3, 4, 2 length, 21, 5, 23, 24, 25 check, 25 stray"),
    ("look_up", "found, absent, 2 short, 3, 4, 2 length, 21, 23"),
    ("scrub", "0, 0 stray, 2 short, 3, 4, 2 length, 21"),
    ("repair", "0, 0 altered, 2 short, 3, 4, 2 length, 21, 8, 28"),
    ("begin", "taken, 2 short, 3, 4, 2 length, 21"),
    ("allocate", "address, 2 short, 3, 4, 2 length, 9, 10, 11, 29, 21, 6, 23, 26, 27"),
    ("write", "taken, 2 short, 3, 4, 2 length, 9, 10, 11, 29, 21, 5, 23, 24, 25 check, 25 stray, 25 staged, 7, 27"),
    ("free", "taken, 2 short, 3, 4, 2 length, 9, 10, 11, 29, 21, 5, 23, 24, 25 check, 25 stray, 25 staged, 27"),
    ("commit", "started, done, 2 short, 3, 4, 2 length, 9, 10, 11, 29, 21"),
    ("commit_step", "stored, barrier, done, 2 short, 3, 4, 2 length, 9, 10, 11, 29, 21"),
    ("commit_advance", "barrier, done, 2 short, 3, 4, 2 length, 9, 10, 11, 29, 21"),
    ("save", "address, taken, 32, 33 given, 2 short, 3, 4, 2 length, 9, 21, 23, 25 check, 25 stray, 33 found, 26"),
    ("recall", "0, 32, 2 short, 3, 4, 2 length, 21, 23, 31, 25 check, 25 stray, 33 found"),
    ("command", "nothing, saving, recalled, printed, 104, 109, 113, 200, 222, 350"),
    ("recover", "started, done, 2 short, 3, 4, 2 length, 22"),
    ("recover_step", "stored, barrier, done, 2 short, 3, 4, 2 length, 10, 11, 29"),
    ("recover_advance", "barrier, done, 2 short, 3, 4, 2 length, 10, 11, 29"),
];

/// One step, and all up to the next barrier.
const COMMIT: [Call; 2] = [Call::CommitStep, Call::CommitAdvance];
const RECOVER: [Call; 2] = [Call::RecoverStep, Call::RecoverAdvance];

const KINDS: [&str; 7] = ["refused", "address", "taken", "started", "stored", "barrier", "done"];

/// Each answer must be met so many times.
const MET: usize = 100;

/// An answer by its name in the table; `given` is as the call left it.
fn name(call: &Call, given: &Given, answer: Answer) -> String {
    match (answer, answer.refusal_and_kind()) {
        (_, (2, _)) => if given.pool.len() < 512 { "2 short" } else { "2 length" }.to_string(),
        (_, (25, _)) => format!("25 {}", cause(call, given)),
        (Answer::Counts(counts), (0, _)) => counted(counts.damaged, &faults(&given.pool)).to_string(),
        (Answer::Repaired(Repaired { refusal: 0, altered: 1.. }), _) => "0 altered".to_string(),
        (Answer::Found(found @ Found { refusal: 0, .. }), _) => looked_up(call, &given.pool, found).to_string(),
        (Answer::Obeyed(obeyed), _) => done(call, obeyed),
        (_, (33, _)) => if is_body_given(call) { "33 given" } else { "33 found" }.to_string(),
        (_, (0, Some(kind))) => KINDS[kind].to_string(),
        (_, (n, _)) => n.to_string(),
    }
}

/// Scrub counts the damaged objects that the tests' own reader finds.
fn counted(damaged: usize, faults: &[Fault]) -> &'static str {
    assert_eq!(damaged, faults.len(), "damaged objects: {faults:?}");
    if faults.contains(&Fault::Stray) {
        "0 stray"
    } else {
        "0"
    }
}

/// Look-up answers the address that the tests' own reader finds.
fn looked_up(call: &Call, pool: &[u8], found: Found) -> &'static str {
    let &Call::LookUp { tag, from } = call else { panic!("{} answers {found:?}", call.name()) };
    let shape = pool_shape(pool).expect("a valid header");
    let first = tagged(shape, pool, tag).into_iter().find(|&address| address >= from);
    assert_eq!((found.found, found.address), first.map_or((0, 0), |address| (1, address)));
    first.map_or("absent", |_| "found")
}

/// What a command line did; without more, the newest error, unless the line is empty.
fn done(call: &Call, obeyed: Obeyed) -> String {
    let is_empty = matches!(call, Call::Command { line, .. } if line.is_empty());
    match obeyed.kind {
        NOTHING if !is_empty => obeyed.errors.errors[obeyed.errors.count - 1].to_string(),
        kind => ["nothing", "saving", "recalled", "printed"][kind].to_string(),
    }
}

/// Whether a save is given a body that is not a set-up's.
fn is_body_given(call: &Call) -> bool {
    matches!(call, Call::Save { body, .. } if body.len() != SETUP_SIZE)
}

/// What is wrong with the object that a call refuses with 25, by the tests' own reader.
fn cause(call: &Call, given: &Given) -> &'static str {
    let shape = pool_shape(&given.pool).expect("a valid header");
    let (address, pool) = match *call {
        Call::Look(address) => (address, given.pool.clone()),
        Call::Write { address, .. } | Call::Free(address) => (address, requests::view(given)),
        Call::Save { number, .. } | Call::Recall(number) => (tagged(shape, &given.pool, setup_tag(number))[0], given.pool.clone()),
        _ => panic!("{} answers 25", call.name()),
    };
    let at = shape.cell(address);
    match fault(&pool, at).expect("a damaged object") {
        Fault::Check => "check",
        Fault::Stray if given.pool[behind_body(&pool, at)].iter().all(|&byte| byte == 0) => "staged",
        Fault::Stray => "stray",
    }
}

/// The faults of all damaged objects of a pool, by the tests' own reader.
fn faults(pool: &[u8]) -> Vec<Fault> {
    let shape = pool_shape(pool).expect("a valid header");
    let heads = (0..shape.zones).flat_map(|z| object_heads(shape, pool, z));
    heads.filter_map(|at| fault(pool, at)).collect()
}

/// Random requests, compared and counted.
struct Comparison {
    random: Random,
    counts: BTreeMap<(&'static str, String), usize>,
}

impl Comparison {
    fn new(seed: u64) -> Comparison {
        println!("seed {seed}");
        Comparison { random: Random::new(seed), counts: BTreeMap::new() }
    }

    /// Makes one call on both sides; answers what both answered.
    fn answer(&mut self, call: &Call, given: &mut Given) -> String {
        let answer = compare(call, given, self.random.below(16));
        let what = name(call, given, answer);
        *self.counts.entry((call.name(), what.clone())).or_default() += 1;
        what
    }

    /// Makes one call on both sides; answers whether it started or went on with steps.
    fn make(&mut self, call: &Call, given: &mut Given) -> bool {
        ["started", "stored", "barrier"].contains(&self.answer(call, given).as_str())
    }

    /// Makes steps until they end, or, once in so many times, stops before: single ones, all up to a barrier at a time, or now these and now
    /// those.
    fn make_steps(&mut self, [step, advance]: [Call; 2], given: &mut Given, stop: usize) {
        let advances = self.random.pick(&[usize::MAX, 1, 20]);
        loop {
            let call = if self.random.once_in(advances) { &advance } else { &step };
            if !self.make(call, given) || self.random.once_in(stop) {
                break;
            }
        }
    }

    /// Some calls on one pool, each given what the one before left; commits and recoveries that start are stepped on.
    fn make_calls(&mut self, shape: Shape, given: &mut Given, calls: usize) {
        for _ in 0..calls {
            let call = requests::call(&mut self.random, shape, given);
            let started = self.make(&call, given);
            match call {
                Call::Commit if started => self.make_steps(COMMIT, given, 500),
                Call::Recover if started => self.make_steps(RECOVER, given, 200),
                Call::CommitStep | Call::CommitAdvance if started => self.make_steps(COMMIT, given, 4),
                Call::RecoverStep | Call::RecoverAdvance if started => self.make_steps(RECOVER, given, 4),
                _ => (),
            }
            self.disturb(shape, given);
        }
    }

    /// A sound pool with a fresh transaction and a recovery that found nothing to do.
    fn begun(&mut self, shape: Shape) -> Given {
        let pool = pools::filled(&mut self.random, shape);
        let mut given = Given::new(pool, self.random.bytes(2032));
        assert_eq!(self.answer(&Call::Recover, &mut given), "done");
        assert_eq!(self.answer(&Call::Begin, &mut given), "taken");
        given
    }

    /// A transaction on a sound pool: some calls, its commit with all steps, then what the pool holds; it must be sound again.
    fn make_transaction(&mut self, shape: Shape) {
        let mut given = self.begun(shape);
        for _ in 0..self.random.from_to(1, 10) {
            let call = requests::staging_call(&mut self.random, shape, &given);
            self.make(&call, &mut given);
        }
        if self.make(&Call::Commit, &mut given) {
            self.make_steps(COMMIT, &mut given, usize::MAX);
        }
        assert_eq!(objects(&given.pool).err(), None);
        self.make(&Call::Scrub, &mut given);
        for address in 0..shape.zones * shape.cells().min(16) {
            self.make(&Call::Look(address), &mut given);
        }
    }

    /// A sound pool in which bytes behind bodies are struck, and no others: scrub counts the objects struck, and look, write and free refuse
    /// them and no other.
    fn strike_behind_bodies(&mut self, shape: Shape) {
        let mut given = self.begun(shape);
        for _ in 0..self.random.from_to(1, 3) {
            pools::strike_behind_body(&mut self.random, shape, &mut given.pool);
        }
        let struck = faults(&given.pool);
        assert!(struck.iter().all(|&fault| fault == Fault::Stray));
        assert_eq!(self.answer(&Call::Scrub, &mut given), if struck.is_empty() { "0" } else { "0 stray" });
        for z in 0..shape.zones {
            for at in object_heads(shape, &given.pool, z) {
                self.make_on_object(&given, shape.address(z, at), fault(&given.pool, at).is_some());
            }
        }
    }

    /// Look, write and free at an object that is struck or good, each on a copy.
    fn make_on_object(&mut self, given: &Given, address: usize, struck: bool) {
        let write = Call::Write { address, at: 0, bytes: self.random.bytes(1) };
        for (call, good) in [(Call::Look(address), "0"), (write, "taken"), (Call::Free(address), "taken")] {
            assert_eq!(self.answer(&call, &mut given.clone()), if struck { "25 stray" } else { good });
        }
    }

    /// A commit of so many entries, then recoveries of what it leaves: from log A; from B, since an entry of A is spoilt; and of a pool with
    /// one seal and no valid log.
    fn advance_from_every_place(&mut self, shape: Shape, count: usize) {
        let mut given = self.begun(shape);
        let targets = pools::targets(&mut self.random, shape, count);
        let entries = pools::entries(&mut self.random, &given.pool, &targets, false);
        given.staging[..entries.len()].copy_from_slice(&entries);
        given.transaction.count = targets.len();
        assert!(self.make(&Call::Commit, &mut given));
        let mut sealed = given.clone();
        self.make_steps_and_advances(shape, COMMIT, &mut given);
        for _ in 0..2 {
            self.make(&Call::CommitAdvance, &mut sealed);
        }
        let mut only_b = sealed.clone();
        only_b.pool[LOGS[0] + 16] ^= 1;
        let mut no_log = only_b.clone();
        no_log.pool[LOGS[1]..][..8].fill(0);
        for mut given in [sealed, only_b, no_log] {
            assert!(self.make(&Call::Recover, &mut given));
            self.make_steps_and_advances(shape, RECOVER, &mut given);
        }
    }

    /// Single steps to the end. Before each of them all steps up to the next barrier are made on copies: one as it is, one disturbed before.
    fn make_steps_and_advances(&mut self, shape: Shape, [step, advance]: [Call; 2], given: &mut Given) {
        loop {
            let (mut copy, mut disturbed) = (given.clone(), given.clone());
            self.make(&advance, &mut copy);
            self.scribble(shape, &mut disturbed);
            self.make(&advance, &mut disturbed);
            if !self.make(&step, given) {
                break;
            }
        }
    }

    /// Bytes changed between two calls: damage to the pool, an entry's target or word, in staging memory or in a log; or a record from
    /// elsewhere.
    fn scribble(&mut self, shape: Shape, given: &mut Given) {
        let random = &mut self.random;
        let byte = 1 << random.below(8);
        let in_entries = random.below(given.transaction.count.max(1) * 16);
        match random.below(6) {
            0 | 1 => pools::damage(random, shape, &mut given.pool),
            2 => given.staging[in_entries] ^= byte,
            3 => given.pool[random.pick(&LOGS) + 16 + in_entries] ^= byte,
            4 => (given.staging, given.transaction) = requests::staged(random, shape, &given.pool),
            _ => given.recovery = requests::recovery(random, &given.pool),
        }
    }

    /// Now and then, a transaction begun anew, other records or staging memory, or damage.
    fn disturb(&mut self, shape: Shape, given: &mut Given) {
        let whole = given.pool.len() >= shape.length();
        match self.random.below(24) {
            0 | 1 => _ = self.make(&Call::Begin, given),
            2 if whole => (given.staging, given.transaction) = requests::staged(&mut self.random, shape, &given.pool),
            3 if whole => given.recovery = requests::recovery(&mut self.random, &given.pool),
            4 if whole => pools::damage(&mut self.random, shape, &mut given.pool),
            _ => (),
        }
    }

    /// A save on one of two modules, cut after its seals, and a recovery; what each call hands back is offered to the other module.
    fn save_beside_another(&mut self, shape: Shape) {
        let mut given = self.begun(shape);
        for _ in 0..self.random.from_to(1, 4) {
            let call = requests::staging_call(&mut self.random, shape, &given);
            self.make(&call, &mut given);
            self.offer(shape, &given);
        }
        let (sealed, steps) = (4 * given.transaction.count + 3, 6 * given.transaction.count + 9);
        let cut_at = self.random.from_to(sealed, steps);
        self.make_and_offer(shape, &mut given, &Call::Commit, &Call::CommitStep, cut_at);
        self.make_and_offer(shape, &mut given, &Call::Recover, &Call::RecoverStep, steps);
    }

    /// A start and its steps, until they end or as many as said are made.
    fn make_and_offer(&mut self, shape: Shape, given: &mut Given, start: &Call, step: &Call, most: usize) {
        let mut goes_on = self.make(start, given);
        self.offer(shape, given);
        for _ in 0..most {
            if !goes_on {
                break;
            }
            goes_on = self.make(step, given);
            self.offer(shape, given);
        }
    }

    /// Every call that takes a record, on a module that differs in its id alone: each is refused with 11, and nothing changes.
    fn offer(&mut self, shape: Shape, given: &Given) {
        let mut other = given.clone();
        put_headers(shape, &mut other.pool, pool_id(&given.pool) % u64::MAX + 1);
        let byte = vec![self.random.next() as u8];
        let (allocate, write) = (Call::Allocate { tag: 1, body: byte.clone() }, Call::Write { address: 0, at: 0, bytes: byte });
        for call in [allocate, write, Call::Free(0), Call::Commit].iter().chain(&COMMIT).chain(&RECOVER) {
            assert_eq!(self.answer(call, &mut other), "11", "{call:?}");
        }
    }

    /// How often each call gave each answer.
    fn print(&self) {
        for (call, _) in ANSWERS {
            let of_call = self.counts.iter().filter(|((name, _), _)| *name == call);
            let counts: Vec<String> = of_call.map(|((_, answer), count)| format!("[{answer}] {count}")).collect();
            println!("{call:15} {}", counts.join("  "));
        }
        println!("{} calls compared", self.counts.values().sum::<usize>());
    }

    /// Each answer of the table must have been met often enough, and no other.
    fn all_met(&self) {
        for (call, answers) in ANSWERS {
            let met = self.counts.keys().filter(|(name, _)| *name == call).map(|(_, answer)| answer.as_str());
            assert_eq!(met.collect::<BTreeSet<_>>(), answers.split(", ").collect::<BTreeSet<_>>(), "answers of {call}");
        }
        for ((call, answer), &count) in &self.counts {
            assert!(count >= MET, "{call} answered {answer} {count} times");
        }
    }
}

#[test]
fn calls_on_random_pools() {
    let mut comparison = Comparison::new(1);
    for _ in 0..125_000 * times() {
        let shape = pools::shape(&mut comparison.random);
        let mut given = requests::given(&mut comparison.random, shape);
        let calls = comparison.random.from_to(1, 12);
        comparison.make_calls(shape, &mut given, calls);
    }
    comparison.print();
    comparison.all_met();
}

#[test]
fn transactions_on_sound_pools() {
    let mut comparison = Comparison::new(4);
    for _ in 0..10_000 * times() {
        let shape = pools::shape(&mut comparison.random);
        comparison.make_transaction(shape);
    }
    comparison.print();
}

#[test]
fn stray_bytes_behind_bodies() {
    let mut comparison = Comparison::new(8);
    for _ in 0..2_000 * times() {
        let shape = pools::shape(&mut comparison.random);
        comparison.strike_behind_bodies(shape);
    }
    comparison.print();
    for (call, answer) in [("look", "25 stray"), ("write", "25 stray"), ("free", "25 stray"), ("scrub", "0 stray")] {
        assert!(comparison.counts[&(call, answer.to_string())] >= 10 * MET, "{call}");
    }
}

/// All steps up to the next barrier, from every place of a commit and of a recovery from either log, or one that clears the seals only.
#[test]
fn advances_from_every_place() {
    let mut comparison = Comparison::new(6);
    for count in [1, 2, 3, 10, 26, 60, 127] {
        for shape in [(2, 2, 1), (1, 2, 3), (15, 1, 1)].map(|(rows, cols, zones)| Shape { rows, cols, zones }) {
            comparison.advance_from_every_place(shape, count);
        }
    }
    comparison.advance_from_every_place(LARGEST, 2);
    comparison.print();
}

/// Two modules of one shape, with the same bytes but for their ids.
#[test]
fn records_of_another_module() {
    let mut comparison = Comparison::new(7);
    for _ in 0..100 * times() {
        let shape = pools::shape(&mut comparison.random);
        comparison.save_beside_another(shape);
    }
    comparison.print();
}

#[test]
fn calls_on_the_largest_pools() {
    let mut comparison = Comparison::new(2);
    for _ in 0..20 * times() {
        let mut given = requests::given(&mut comparison.random, LARGEST);
        comparison.make_calls(LARGEST, &mut given, 8);
    }
    comparison.make_transaction(LARGEST);
    comparison.print();
}

/// So many bytes of which the first 257 bring the low sum to 65520, its most, then as many bytes FF.
fn from_the_highest_sum(length: usize) -> Vec<u8> {
    let mut bytes = vec![0xFF; 256];
    bytes.push(239);
    bytes.resize(length, 0);
    bytes.resize(2 * length, 0xFF);
    bytes
}

/// Each is also the check by a remainder at every byte, which the tests work out themselves. At 2,048 and 4,096 bytes a block between two
/// remainders ends; 32 bits hold the high sum of 5,552 bytes without one, and not of more.
#[test]
fn check_of_random_bytes() {
    let mut comparison = Comparison::new(3);
    let mut given = Given::new(Vec::new(), Vec::new());
    let blocks = (2047..=2049).chain(4095..=4097);
    for length in (0..600).chain(blocks).chain([5551, 5552, 5553, 65520, 65521, 65522, 1 << 20]) {
        for bytes in [comparison.random.bytes(length), vec![0xFF; length], from_the_highest_sum(length)] {
            let right = Answer::Sum(layout::check(&bytes));
            assert_eq!(compare(&Call::Check(bytes), &mut given, comparison.random.below(16)), right, "{length} bytes");
        }
    }
}
