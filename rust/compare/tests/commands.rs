//! Command lines, each obeyed by the library and by the reference, with everything compared: near misses of every spelling, numbers, lengths,
//! queues, buffers, bad input; and runs of lines, with commits, cuts and recoveries, against a plain table of ten and a plain queue.
use compare::calls::{compare, Answer, Call, Given};
use compare::in_use::InUse;
use compare::layout::*;
use compare::lines::*;
use compare::random::Random;
use compare::setups::*;
use compare::staged::STAGING;
use compare::{pools, requests, times};
use linked::{Errors, Obeyed, NOTHING, PRINTED, RECALLED, REFUSED, SAVING};
use std::collections::{BTreeMap, BTreeSet};

const ROOM: usize = 40;

/// The pool R 4, C 2, Z 1 with set-ups 0 to 9, staging memory and a buffer; no error waits.
fn ten_setups() -> Given {
    let bodies: Vec<(u32, Vec<u8>)> = (0..SETUPS).map(|number| (setup_tag(number), setup(number))).collect();
    let objects: Vec<(u32, &[u8])> = bodies.iter().map(|(tag, body)| (*tag, &body[..])).collect();
    Given { out: vec![0xEE; ROOM], ..Given::new(laid_out(SHAPE, &objects), vec![0xA7; STAGING]) }
}

// ---- The plain queue: the errors that wait, the oldest first.

/// None if there are more than ten, or one that is not of the six.
fn waiting(errors: &Errors) -> Vec<u16> {
    let used: Vec<u16> = errors.errors.into_iter().take(errors.count).collect();
    if used.len() == errors.count && used.iter().all(|&error| is_error(error)) {
        used
    } else {
        Vec::new()
    }
}

/// Tells whether the error is entered or, as ten wait, lost.
fn enter(queue: &mut Vec<u16>, error: u16) -> String {
    if queue.len() < WAITING {
        queue.push(error);
        return format!("enters {error}");
    }
    queue[WAITING - 1] = 350;
    format!("loses {error}")
}

/// As a record: places that are not used are zero.
fn record(queue: &[u16]) -> Errors {
    let mut errors = Errors { count: queue.len(), ..Errors::NONE };
    errors.errors[..queue.len()].copy_from_slice(queue);
    errors
}

/// What the query prints.
fn printed(queue: &[u16]) -> &'static str {
    queue.first().map_or(NO_ERROR, |oldest| ERRORS.iter().find(|(error, _)| error == oldest).expect("one of the six").1)
}

// ---- One line.

/// The bytes of a set-up that was recalled.
fn recalled(given: &Given, obeyed: Obeyed) -> &[u8] {
    &given.pool[obeyed.value..][..obeyed.length]
}

/// Lines, and how often each thing was done.
#[derive(Default)]
struct Lines {
    done: BTreeMap<String, usize>,
}

impl Lines {
    /// Obeys a line on both sides. It does what the tests' own reading says, or is refused; the queue handed back must be the plain one, and what
    /// was printed its oldest error.
    fn obey(&mut self, line: &[u8], setup: &[u8], given: &mut Given) -> Obeyed {
        let (mut queue, room) = (waiting(&given.errors), given.out.clone());
        let call = Call::Command { line: line.to_vec(), setup: setup.to_vec() };
        let Answer::Obeyed(obeyed) = compare(&call, given, line.len() % 16) else { panic!() };
        let what = match (reading(line), obeyed.kind) {
            (Says::Nothing, NOTHING) => "does nothing".to_string(),
            (Says::Save(_), SAVING) => "saves".to_string(),
            (Says::Recall(_), RECALLED) => "recalls".to_string(),
            (Says::Query, PRINTED) => {
                let line = printed(&queue);
                let shown = line.len().min(room.len());
                assert_eq!(obeyed.length, line.len());
                assert!(given.out[..shown] == line.as_bytes()[..shown] && given.out[shown..] == room[shown..]);
                queue.drain(..queue.len().min(1));
                format!("prints {}", line.trim_end())
            }
            (Says::Save(_) | Says::Recall(_), NOTHING) => enter(&mut queue, 200),
            (Says::Error(error), NOTHING) => enter(&mut queue, error),
            (says, kind) => panic!("{says:?} answers kind {kind}"),
        };
        *self.done.entry(what).or_default() += 1;
        assert_eq!(obeyed.errors, record(&queue));
        obeyed
    }

    /// Obeys a line on a pool with ten set-ups, no error waiting, and tells its reading by what was done.
    fn done_by(&mut self, line: &[u8], ten: &Given) -> Says {
        let mut given = ten.clone();
        let obeyed = self.obey(line, &setup(77), &mut given);
        match obeyed.kind {
            SAVING => Says::Save(saved(ten, &given, obeyed, &setup(77)).expect("one of the ten")),
            RECALLED => Says::Recall((0..SETUPS).find(|&number| recalled(&given, obeyed) == setup(number)).expect("one of the ten")),
            PRINTED => Says::Query,
            _ if obeyed.errors.count == 0 => Says::Nothing,
            _ => Says::Error(obeyed.errors.errors[0]),
        }
    }

    fn print(&self) {
        println!("{} lines: {:?}", self.done.values().sum::<usize>(), self.done);
    }

    /// Everything that a line can do was done, and nothing else.
    fn all_done(&self, fewest: usize) {
        self.print();
        let mut wanted: BTreeSet<String> = ["does nothing", "saves", "recalls"].map(str::to_string).into();
        wanted.extend([104, 109, 113, 200, 222].into_iter().flat_map(|error| [format!("enters {error}"), format!("loses {error}")]));
        wanted.extend(ERRORS.map(|(_, line)| format!("prints {}", line.trim_end())));
        wanted.insert(format!("prints {}", NO_ERROR.trim_end()));
        assert_eq!(self.done.keys().cloned().collect::<BTreeSet<_>>(), wanted);
        assert!(self.done.values().all(|&count| count >= fewest), "{:?}", self.done);
    }
}

/// The number of the set-up that was staged: the call of that number leaves the same record and staging memory.
fn saved(before: &Given, after: &Given, obeyed: Obeyed, body: &[u8]) -> Option<usize> {
    (0..SETUPS).find(|&number| {
        let mut staging = before.staging.clone();
        let reply = linked::save(&before.pool, &mut staging, number, body);
        reply.kind != REFUSED && reply.transaction == obeyed.transaction && staging == after.staging
    })
}

// ---- Readings.

#[test]
fn worked_lines() {
    let (mut lines, ten) = (Lines::default(), ten_setups());
    let [recall_5, long] = [74, 75].map(|zeros| format!("*RCL {}5", "0".repeat(zeros)));
    let cases: [(&[&str], Says); 12] = [
        (&[""], Says::Nothing),
        (&["*SAV 3", "*sAv 003"], Says::Save(3)),
        (&["*rcl 0"], Says::Recall(0)),
        (&["*RCL 9"], Says::Recall(9)),
        (&[&recall_5], Says::Recall(5)),
        (&[&long], Says::Error(113)),
        (&["*SAV", "*SAV "], Says::Error(109)),
        (&["*SAV  3", "*SAV 3 ", "*SAV -1", "*SAV 12a", "*SAV 3\r"], Says::Error(104)),
        (&["*RCL 10", "*SAV 99999999999999999999"], Says::Error(222)),
        (&["*SAV3", "*SAVE 3", " *SAV 3", " ", "JSAV 3", "*SAV\t3"], Says::Error(113)),
        (&["SYSTZERR_", "SYSTE:ERR?", ":SYST:ERR?", "SYST:ERR", "SYST:ERR? "], Says::Error(113)),
        (&["SYST:ERR?", "system:error?", "SYSTem:ERR?", "SYST:ERROR?"], Says::Query),
    ];
    for (texts, says) in cases {
        for text in texts {
            assert_eq!(lines.done_by(text.as_bytes(), &ten), says, "{text:?}");
        }
    }
}

/// Every spelling, in every case of its letters.
#[test]
fn spellings() {
    let (mut lines, ten) = (Lines::default(), ten_setups());
    let commands = (0..SETUPS).flat_map(|n| [(format!("*SAV {n}"), Says::Save(n)), (format!("*RCL {n}"), Says::Recall(n))]);
    for (text, says) in commands.chain(QUERIES.map(|query| (query.to_string(), Says::Query))) {
        let letters: Vec<usize> = (0..text.len()).filter(|&i| text.as_bytes()[i].is_ascii_uppercase()).collect();
        for cases in 0..1 << letters.len() {
            let mut line = text.clone().into_bytes();
            letters.iter().enumerate().filter(|(i, _)| cases >> i & 1 == 1).for_each(|(_, &at)| line[at] += 32);
            assert_eq!(lines.done_by(&line, &ten), says);
        }
    }
    lines.print();
}

/// Every line that differs in one byte from these: changed to any value, put in, taken out. One of them has 80 bytes.
#[test]
fn near_misses_of_every_spelling() {
    let (mut lines, ten) = (Lines::default(), ten_setups());
    let longest = format!("*RCL {}5", "0".repeat(74));
    let texts = ["", "*SAV 3", "*RCL 0", "*SAV", "*RCL ", "*sav 10", "*rcl 007", "*SAV x", &longest];
    for text in texts.into_iter().chain(QUERIES) {
        for line in near_misses(text.as_bytes()) {
            assert_eq!(lines.done_by(&line, &ten), reading(&line), "{line:?}");
        }
    }
    lines.print();
}

/// All numbers up to 1,100, with and without leading zeros, and such as are a set-up's modulo 2^8, 2^16, 2^32, 2^64 and 2^128.
#[test]
fn numbers() {
    let (mut lines, ten) = (Lines::default(), ten_setups());
    let wraps = [8, 16, 32, 63, 64].into_iter().flat_map(|bits| (0..SETUPS as u128).map(move |n| (1 << bits) + n));
    let high = (0..SETUPS).map(|n| format!("3402823669209384634633746074317682114{}", n + 56));
    let low = (0..=1_100).chain(wraps).map(|number: u128| number.to_string());
    for digits in low.chain(high).chain([10, 19, 20, 39, 40, 75].map(|count| "9".repeat(count))) {
        for zeros in [0, 1, 2, 35].into_iter().filter(|zeros| zeros + digits.len() <= 75) {
            let number = format!("{}{digits}", "0".repeat(zeros));
            let one_digit = digits.parse().ok().filter(|_| digits.len() == 1);
            for (header, says) in [("*SAV", Says::Save as fn(usize) -> Says), ("*RCL", Says::Recall)] {
                assert_eq!(lines.done_by(format!("{header} {number}").as_bytes(), &ten), one_digit.map_or(Says::Error(222), says));
                if number.len() < 75 {
                    for line in [format!("{header} {number}a"), format!("{header} a{number}"), format!("{header} {number} ")] {
                        assert_eq!(lines.done_by(line.as_bytes(), &ten), Says::Error(104));
                    }
                }
            }
        }
    }
    lines.print();
}

/// Good lines, and lines of one byte, of every length up to 600, and of lengths that are small modulo 2^16; of 80 bytes at most they are read,
/// above it none is.
#[test]
fn lengths() {
    let (mut lines, ten) = (Lines::default(), ten_setups());
    let high = [65_535, 65_536, 65_536 + 6, 65_536 + 80];
    for length in (1..=600).chain(high) {
        let is_long = length > LONGEST;
        let filled = |text: &str, fill: u8| -> Vec<u8> { text.bytes().chain(std::iter::repeat(fill)).take(length).collect() };
        let ends_with = |mut line: Vec<u8>, last: u8| {
            line[length - 1] = last;
            line
        };
        if length > 5 {
            let says = |read: Says| if is_long { Says::Error(113) } else { read };
            assert_eq!(lines.done_by(&filled("*SAV ", b'0'), &ten), says(Says::Save(0)));
            assert_eq!(lines.done_by(&ends_with(filled("*rcl ", b'0'), b'7'), &ten), says(Says::Recall(7)));
            assert_eq!(lines.done_by(&ends_with(filled("*RCL ", b'0'), b'x'), &ten), says(Says::Error(104)));
            assert_eq!(lines.done_by(&filled("*SAV ", b' '), &ten), says(Says::Error(104)));
            if length > 6 {
                assert_eq!(lines.done_by(&filled("*SAV ", b'9'), &ten), says(Says::Error(222)));
            }
        }
        for query in QUERIES.into_iter().filter(|query| query.len() != length) {
            assert_eq!(lines.done_by(&filled(query, b' '), &ten), Says::Error(113));
        }
        for byte in if (79..=81).contains(&length) { 0..=255 } else { b' '..=b' ' } {
            assert_eq!(lines.done_by(&vec![byte; length], &ten), Says::Error(113));
        }
    }
    lines.print();
}

/// Every part of a text, where it stands: at any alignment, with more of the text before and behind it.
#[test]
fn parts_of_a_text() {
    let ten = ten_setups();
    let text = b"SYST:ERR?SYSTEM:ERROR?*SAV 3*RCL 10*sav x*RCL0SYST:ERROR?SYSTEM:ERR?*rcl 000000005*SAV *RCL 3 *SAV99*IDN?*sav 00000000";
    let (mut count, mut kinds) = (0, BTreeSet::new());
    for (start, end) in (0..text.len()).flat_map(|start| (start..=text.len()).map(move |end| (start, end))) {
        let line = &text[start..end];
        let memory = || (ten.staging.clone(), ten.out.clone());
        let ((mut staging, mut out), (mut same_staging, mut same_out)) = (memory(), memory());
        let got = linked::command(line, &setup(5), Errors::NONE, &ten.pool, &mut staging, &mut out);
        let wanted = reference::command(line, &setup(5), Errors::NONE, &ten.pool, &mut same_staging, &mut same_out);
        assert_eq!((got, staging, out), (wanted, same_staging, same_out), "{}", String::from_utf8_lossy(line));
        kinds.insert((got.kind, got.errors.errors[0]));
        count += 1;
    }
    println!("{count} lines");
    let wanted = [(NOTHING, 0), (NOTHING, 104), (NOTHING, 109), (NOTHING, 113), (NOTHING, 222), (SAVING, 0), (RECALLED, 0), (PRINTED, 0)];
    assert_eq!(kinds, wanted.into());
}

// ---- The queue.

/// Eleven errors and eleven queries.
#[test]
fn eleven_errors() {
    let (mut lines, mut given) = (Lines::default(), ten_setups());
    for _ in 0..11 {
        lines.obey(b"*IDN?", &[], &mut given);
    }
    assert_eq!(given.errors, record(&[113, 113, 113, 113, 113, 113, 113, 113, 113, 350]));
    for i in 0..11 {
        let length = lines.obey(QUERIES[i % 4].as_bytes(), &[], &mut given).length;
        let wanted = match i {
            0..=8 => "-113,\"Undefined header\"\n",
            9 => "-350,\"Queue overflow\"\n",
            _ => "0,\"No error\"\n",
        };
        assert_eq!(given.out[..length], *wanted.as_bytes());
    }
}

/// Lines that do each thing, on a pool with ten set-ups, with 120 bytes beside them; the last two are refused.
const EACH: [&[u8]; 11] =
    [b"", b"*SAV 3", b"*RCL 3", b"SYST:ERR?", b"*SAV", b"*RCL x", b"*SAV 10", b"*IDN?", &[b'0'; 81], b"*SAV 3", b"*RCL 3"];

fn each_line(lines: &mut Lines, given: &Given) {
    for (i, line) in EACH.into_iter().enumerate() {
        let mut given = given.clone();
        if i >= 9 {
            given.pool[ZONES] = 9;
        }
        lines.obey(line, &setup(i), &mut given);
    }
}

/// Every count up to 300 and high ones, with anything in places that are not used; every oldest and newest error; each value of 16 bits.
#[test]
fn queues() {
    let (mut lines, mut given, mut random) = (Lines::default(), ten_setups(), Random::new(21));
    let counts = (0..=300).chain([1 << 16, (1 << 16) + 3, 1 << 32, (1 << 32) + 10, 1 << 63, usize::MAX - 1, usize::MAX]);
    for count in counts {
        for unused in [0, 113, 999, u16::MAX] {
            let errors = std::array::from_fn(|place| if place < count { random.pick(&ERRORS).0 } else { unused });
            given.errors = Errors { count, errors };
            each_line(&mut lines, &given);
        }
    }
    for (oldest, newest) in ERRORS.into_iter().flat_map(|(oldest, _)| ERRORS.map(|(newest, _)| (oldest, newest))) {
        for count in 2..=WAITING {
            given.errors = record(&[oldest; WAITING][..count]);
            given.errors.errors[count - 1] = newest;
            each_line(&mut lines, &given);
        }
    }
    for error in 0..=u16::MAX {
        let (place, count) = (random.below(WAITING), random.from_to(1, WAITING));
        given.errors = Errors { count, errors: std::array::from_fn(|_| random.pick(&ERRORS).0) };
        given.errors.errors[place] = error;
        let line = random.pick(&EACH[..9]);
        lines.obey(line, &setup(1), &mut given.clone());
    }
    for error in (0..400).chain([999, u16::MAX]).chain(ERRORS.map(|(error, _)| error | 0x8000)).chain(ERRORS.map(|(error, _)| error << 8)) {
        for place in 0..WAITING {
            given.errors = Errors { count: random.from_to(1, WAITING), errors: std::array::from_fn(|_| random.pick(&ERRORS).0) };
            given.errors.errors[place] = error;
            let wanted = if place >= given.errors.count || is_error(error) { given.errors.count } else { 0 };
            let mut after = given.clone();
            lines.obey(b"", &[], &mut after);
            assert_eq!(after.errors.count, wanted);
            lines.obey(b"SYST:ERR?", &[], &mut given.clone());
        }
    }
    lines.all_done(30);
}

/// Buffers of every length up to 40, and each line that can be printed.
#[test]
fn buffers() {
    let (mut lines, mut given) = (Lines::default(), ten_setups());
    for room in 0..=ROOM {
        given.out = (0..room).map(|i| 0xF0 ^ i as u8).collect();
        for error in ERRORS.map(|(error, _)| error) {
            given.errors = record(&[error, 113]);
            each_line(&mut lines, &given);
        }
        given.errors = Errors::NONE;
        each_line(&mut lines, &given);
    }
    lines.print();
}

// ---- Bad input.

/// What is refused enters -200 and changes nothing; what the line itself says comes before.
#[test]
fn bad_pools_and_staging() {
    let (mut lines, mut refused_lines) = (Lines::default(), 0);
    for (refused, _, pool) in refusing_pools() {
        for (staging, room) in STAGINGS.into_iter().zip([0, 1, 24, 25, 26, 40]) {
            for (length, digits) in BODIES.into_iter().flat_map(|length| ["0", "3", "09"].map(|digits| (length, digits))) {
                let given = Given { out: vec![0xEE; room], errors: record(&[350]), ..Given::new(pool.clone(), vec![0xA7; staging]) };
                let body = vec![0x5A; length];
                let mut obey = |line: &str| lines.obey(line.as_bytes(), &body, &mut given.clone());
                let (save, recall) = (obey(&format!("*SAV {digits}")), obey(&format!("*rcl {digits}")));
                let is_saved = refused == 0 && length == SETUP_SIZE && staging >= STAGING;
                let entered = |is_done| if is_done { record(&[350]) } else { record(&[350, 200]) };
                assert_eq!((save.kind, save.errors), (if is_saved { SAVING } else { NOTHING }, entered(is_saved)));
                assert_eq!((recall.kind, recall.errors), (if refused == 0 { RECALLED } else { NOTHING }, entered(refused == 0)));
                refused_lines += usize::from(!is_saved) + usize::from(refused != 0);
                for (line, error) in [("*SAV 10", 222), ("*RCL 1a", 104), ("*SAV ", 109), ("*RCL3", 113)] {
                    assert_eq!(obey(line).errors, record(&[350, error]));
                }
                assert_eq!((obey("").errors, obey("SYST:ERR?").errors), (record(&[350]), Errors::NONE));
            }
        }
    }
    println!("{refused_lines} lines refused");
    lines.print();
}

/// Whatever is wrong with a set-up at once, -200 is entered, once; else the line does what the call does.
#[test]
fn whatever_is_wrong() {
    let mut lines = Lines::default();
    for (Request { pool, staging, number, body }, wrong) in wrong_requests().filter(|(request, _)| request.number < SETUPS) {
        let given = Given { errors: record(&[104]), ..Given::new(pool, vec![0xA7; staging]) };
        for (header, order, kind) in [("*SAV", &SAVE[..], SAVING), ("*RCL", &RECALL, RECALLED)] {
            let obeyed = lines.obey(format!("{header} {number}").as_bytes(), &body, &mut given.clone());
            let wanted = if first(order, &wrong) == 0 { (kind, record(&[104])) } else { (NOTHING, record(&[104, 200])) };
            assert_eq!((obeyed.kind, obeyed.errors), wanted, "{header}: {wrong:?}");
        }
    }
    lines.print();
}

/// Any lines, queues, buffers and set-ups, on any pools with any staging memory: sound, damaged, sealed, scribbled, of a wrong length.
#[test]
fn random_lines() {
    let (seed, mut lines) = (22, Lines::default());
    let mut random = Random::new(seed);
    for _ in 0..40_000 * times() {
        let shape = pools::shape(&mut random);
        let mut given = requests::given(&mut random, shape);
        for _ in 0..random.from_to(1, 6) {
            let length = random.pick(&[SETUP_SIZE, SETUP_SIZE, SETUP_SIZE, SETUP_SIZE, 0, 119, 121]);
            let (line, body) = (any_line(&mut random), random.bytes(length));
            lines.obey(&line, &body, &mut given);
            if random.once_in(4) {
                given.errors = errors(&mut random);
            }
        }
    }
    println!("seed {seed}");
    lines.all_done(100);
}

// ---- Runs of lines.

/// A terminal: a pool with a plain table of its ten places, the queue that is handed from line to line, and a plain one.
struct Terminal {
    in_use: InUse,
    errors: Errors,
    queue: Vec<u16>,
}

impl Terminal {
    fn new(random: &mut Random) -> Terminal {
        Terminal { in_use: InUse::new(random), errors: Errors::NONE, queue: Vec::new() }
    }

    /// Types a line that says this. What is done, and the queue, must be what the plain table and the plain queue say.
    fn type_line(&mut self, random: &mut Random, lines: &mut Lines, says: Says) -> &'static str {
        let (text, body, length) = (line(random, says), random.bytes(SETUP_SIZE), random.pick(&[STAGING, STAGING + 1, 4096]));
        let staging = random.bytes(length);
        let mut given = Given { errors: self.errors, out: vec![0xEE; ROOM], ..Given::new(self.in_use.pool.clone(), staging.clone()) };
        let obeyed = lines.obey(&text, &body, &mut given);
        let (kind, error) = match says {
            Says::Nothing => (NOTHING, None),
            Says::Save(number) if self.in_use.places[number].is_none() && !self.in_use.has_room() => (NOTHING, Some(200)),
            Says::Save(_) => (SAVING, None),
            Says::Recall(number) if self.in_use.places[number].is_none() => (NOTHING, Some(200)),
            Says::Recall(_) => (RECALLED, None),
            Says::Query => (PRINTED, None),
            Says::Error(error) => (NOTHING, Some(error)),
        };
        assert_eq!(obeyed.kind, kind, "{says:?}");
        if let Some(error) = error {
            enter(&mut self.queue, error);
        }
        let done = match (says, kind) {
            (Says::Query, _) => {
                assert_eq!(given.out[..obeyed.length], *printed(&self.queue).as_bytes());
                self.queue.drain(..self.queue.len().min(1));
                "queries"
            }
            (Says::Recall(number), RECALLED) => {
                assert_eq!(Some(recalled(&given, obeyed)), self.in_use.places[number].as_deref());
                "recalls"
            }
            (Says::Save(number), SAVING) => {
                let mut same = staging;
                let reply = linked::save(&self.in_use.pool, &mut same, number, &body);
                assert!(reply.transaction == obeyed.transaction && same == given.staging, "what the call stages");
                self.in_use.end_save(random, reply, same, number, body)
            }
            (Says::Save(_) | Says::Recall(_), _) => "refused",
            _ => "other lines",
        };
        self.errors = obeyed.errors;
        if done.starts_with("saves cut") {
            self.switch_on(random);
        }
        done
    }

    /// Queries until no error waits.
    fn ask_for_all(&mut self, random: &mut Random, lines: &mut Lines) -> &'static str {
        for _ in 0..=self.queue.len() {
            self.type_line(random, lines, Says::Query);
        }
        assert_eq!(self.errors, Errors::NONE);
        "queues emptied"
    }

    /// After a cut the queue is what the caller made of it: kept, zeros, or anything, which may count as empty.
    fn switch_on(&mut self, random: &mut Random) {
        match random.below(3) {
            0 => (),
            1 => self.errors = Errors::NONE,
            _ => self.errors = errors(random),
        }
        self.queue = waiting(&self.errors);
    }

    /// Each place is recalled, or enters -200; the queue is the plain one.
    fn judge(&self, random: &mut Random, lines: &mut Lines) {
        assert_eq!(waiting(&self.errors), self.queue);
        for (number, place) in self.in_use.places.iter().enumerate() {
            let mut given = Given::new(self.in_use.pool.clone(), Vec::new());
            let obeyed = lines.obey(&line(random, Says::Recall(number)), &[], &mut given);
            assert_eq!(obeyed.errors, record(if place.is_some() { &[] } else { &[200] }));
            assert_eq!((obeyed.kind == RECALLED).then(|| recalled(&given, obeyed)), place.as_deref(), "place {number}");
        }
    }
}

/// Whatever came before, *RCL n answers the bytes of the last *SAV n that was kept, and the query the oldest error.
#[test]
fn runs_of_lines() {
    let (seed, mut lines, mut counts) = (23, Lines::default(), BTreeMap::<&str, usize>::new());
    let mut random = Random::new(seed);
    for _ in 0..400 * times() {
        let mut terminal = Terminal::new(&mut random);
        for _ in 0..50 {
            let done = match random.below(30) {
                0..=2 => terminal.in_use.change_others(&mut random),
                3 => terminal.ask_for_all(&mut random, &mut lines),
                _ => {
                    let says = says(&mut random);
                    terminal.type_line(&mut random, &mut lines, says)
                }
            };
            *counts.entry(done).or_default() += 1;
            if done.starts_with("saves") || done == "other transactions" {
                terminal.judge(&mut random, &mut lines);
            }
        }
        terminal.judge(&mut random, &mut lines);
    }
    println!("seed {seed}, {counts:?}");
    assert_eq!(counts.len(), 10);
    assert!(counts.values().all(|&count| count >= 100), "each came to pass: {counts:?}");
    lines.all_done(100);
}
