//! Random requests on a pool: calls with their arguments, records, staging memory. Possible ones, edges, and
//! impossible ones.
use crate::calls::{Call, Given};
use crate::layout::*;
use crate::lines::{self, Says};
use crate::pools;
use crate::random::Random;
use linked::{Recovery, Transaction};

const HUGE: [usize; 6] = [usize::MAX, usize::MAX - 1, usize::MAX - 2, 1 << 63, 1 << 32, 65536];

/// A pool, sound or not, with its shape, and random staging memory and records for it.
pub fn given(random: &mut Random, shape: Shape) -> Given {
    let mut pool = pools::filled(random, shape);
    if random.once_in(2) {
        pools::put_setups(random, shape, &mut pool);
    }
    match random.below(20) {
        0 => pool = pools::scribbled(random, shape.length()),
        1..=8 => (0..random.from_to(1, 3)).for_each(|_| pools::damage(random, shape, &mut pool)),
        9..=11 => pools::put_log(random, shape, &mut pool),
        12 | 13 => pools::strike_setups(random, shape, &mut pool),
        _ => (),
    }
    let (staging, transaction) = staged(random, shape, &pool);
    let recovery = recovery(random, &pool);
    if random.once_in(16) {
        pools::damage_length(random, &mut pool);
    }
    let errors = lines::errors(random);
    let room = random.from_to(0, 40);
    Given { pool, staging, transaction, recovery, errors, out: random.bytes(room) }
}

/// Staging memory with entries, and a record for it.
pub fn staged(random: &mut Random, shape: Shape, pool: &[u8]) -> (Vec<u8>, Transaction) {
    let length = if random.once_in(12) { random.pick(&[2031, 2016, 16, 0]) } else { random.pick(&[2032, 2032, 2033, 4096]) };
    let mut staging = random.bytes(4096);
    let mut count = 0;
    if random.once_in(2) {
        let wanted = pools::entry_count(random);
        let list = pools::targets(random, shape, wanted);
        let same = !random.once_in(4);
        let mut bytes = pools::entries(random, pool, &list, same);
        match random.below(8) {
            0 => pools::spoil_target(random, shape, &mut bytes),
            1..=3 => pools::stage_behind_body(random, shape, pool, &mut bytes),
            _ => (),
        }
        staging[..bytes.len()].copy_from_slice(&bytes);
        count = list.len();
    }
    staging.truncate(length);
    (staging, transaction(random, pool, count))
}

/// Mostly the pool's id; else 0, the highest number, or one that differs by 1 or in a bit.
fn id(random: &mut Random, pool: &[u8]) -> u64 {
    let id = pool_id(pool);
    let others = [id.wrapping_sub(1), id.wrapping_add(1), id ^ 1 << random.below(64)];
    match random.below(16) {
        0 => random.pick(&[0, u64::MAX]),
        1 => random.pick(&others),
        _ => id,
    }
}

/// A record with so many entries, in any phase; sometimes one that cannot be, or one of another pool.
fn transaction(random: &mut Random, pool: &[u8], count: usize) -> Transaction {
    let steps = 6 * count + 9;
    let count = match random.below(24) {
        0 => random.pick(&[0, 1, 126, 127, 128, 129]),
        1 => random.pick(&HUGE),
        _ => count,
    };
    let phase = match random.below(16) {
        0..=7 => 0,
        8 => 1,
        9 => 2,
        10 => random.pick(&HUGE),
        11 => 2 + steps - random.below(3),
        _ => 2 + random.below(steps),
    };
    Transaction { id: id(random, pool), count, phase }
}

/// A record of a recovery, mostly of a log that the pool has, and of this pool.
pub fn recovery(random: &mut Random, pool: &[u8]) -> Recovery {
    let log = random.below(2);
    let count = match random.below(8) {
        0 => random.pick(&[0, 1, 2, 126, 127, 128, 129]),
        1 => random.below(200),
        _ => get(pool, LOGS[log] + 4, 2) as usize,
    };
    let work = match random.below(12) {
        0 => random.below(5),
        1 => random.pick(&HUGE),
        2 => 1,
        _ => 2 * count + 3 + log,
    };
    let steps = if work == 1 { 3 } else { 2 * count + 5 };
    let phase = match random.below(16) {
        0 | 1 => 0,
        2 => random.pick(&HUGE),
        3..=5 => 1 + steps - random.below(5),
        _ => 1 + random.below(steps),
    };
    Recovery { id: id(random, pool), work, phase }
}

/// The pool as the staged entries change it.
pub fn view(given: &Given) -> Vec<u8> {
    let mut pool = given.pool.clone();
    for entry in given.staging.chunks_exact(16).take(given.transaction.count) {
        let target = get(entry, 0, 8) as usize;
        if target < pool.len() - pool.len().min(7) {
            pool[target..target + 8].copy_from_slice(&entry[8..]);
        }
    }
    pool
}

/// An address: mostly of a run, else inside one, at the end, past it.
fn address(random: &mut Random, shape: Shape, pool: &[u8]) -> usize {
    let all = shape.zones * shape.cells();
    if pool.len() < shape.length() || random.once_in(8) {
        return match random.below(4) {
            0 => random.pick(&[0, all - 1, all, all + 1]),
            1 => random.pick(&HUGE),
            _ => random.below(all),
        };
    }
    let z = random.below(shape.zones);
    let (mut runs, _) = runs(shape, pool, z);
    if !random.once_in(4) {
        runs.retain(|run| run.object);
    }
    match runs.len() {
        0 => z * shape.cells(),
        n => z * shape.cells() + runs[random.below(n)].cell,
    }
}

/// A write that fits the object at this address, or goes just past it, or is far off.
fn write(random: &mut Random, shape: Shape, pool: &[u8]) -> Call {
    let address = address(random, shape, pool);
    let head = shape.cell(address.min(shape.zones * shape.cells() - 1));
    let body = if head + 16 <= pool.len() { (get(pool, head + 4, 4) as usize).clamp(1, 496) } else { 1 };
    let at = match random.below(10) {
        0 => random.pick(&[body, body - 1, body + 1]),
        1 => random.pick(&HUGE),
        _ => random.below(body),
    };
    let room = body.saturating_sub(at);
    let length = match random.below(8) {
        0 => random.pick(&[0, 1, room + 1, 497]),
        1 => room,
        2 => at.wrapping_neg() & 63,
        3 => random.from_to(0, room),
        _ => random.from_to(1, room.clamp(1, 20)),
    };
    Call::Write { address, at, bytes: random.bytes(length) }
}

/// A loss list: none, one page in some columns, sometimes too many pages, rows that are not, or another length.
pub fn losses(random: &mut Random, shape: Shape) -> Vec<u16> {
    let one_in = random.pick(&[1, 2, 5]);
    let mut lost = vec![0u16; shape.zones * shape.cols];
    for mask in &mut lost {
        if random.once_in(one_in) {
            *mask = 1 << random.below(shape.rows + 1);
        }
    }
    let column = random.below(lost.len());
    match random.below(8) {
        0 => lost[column] |= 1 << random.below(shape.rows + 1),
        1 => lost[column] = random.pick(&[3, 5, 0xFFFF >> (15 - shape.rows)]),
        2 => lost[column] |= 1 << random.below(16),
        3 => lost.truncate(random.below(lost.len() + 1)),
        4 => lost.push(random.pick(&[0, 1])),
        _ => (),
    }
    lost
}

fn format(random: &mut Random, shape: Shape) -> Call {
    let mut sizes = [shape.rows, shape.cols, shape.zones];
    if random.once_in(3) {
        sizes[random.below(3)] = match random.below(3) {
            0 => random.pick(&[0, 1, 2, 15, 16, 17, 64, 65]),
            1 => random.pick(&HUGE),
            _ => random.below(70),
        };
    }
    let id = if random.once_in(6) { 0 } else { random.next() };
    Call::Format { rows: sizes[0], cols: sizes[1], zones: sizes[2], id }
}

fn allocate(random: &mut Random) -> Call {
    let length = match random.below(4) {
        0 => random.pick(&[0, 1, 48, 49, 432, 433, 495, 496, 497, 600]),
        1 => random.from_to(1, 496),
        _ => random.from_to(1, 60),
    };
    Call::Allocate { tag: random.next() as u32, body: random.bytes(length) }
}

/// The number of a set-up, of one that is there or of any; or one past the last, or a high one, such that it is a set-up's number or tag modulo
/// 256 or 2^32, too.
fn setup_number(random: &mut Random, shape: Shape, pool: &[u8]) -> usize {
    let number = random.below(SETUPS);
    match random.below(16) {
        0 => random.pick(&[SETUPS, SETUPS + 1, 100 + number, 256 + number, (1 << 32) + number, number.wrapping_sub(100)]),
        1 => random.pick(&HUGE),
        2..=9 if pool.len() >= shape.length() => {
            let there = (0..SETUPS).filter(|&number| !tagged(shape, pool, setup_tag(number)).is_empty()).collect::<Vec<_>>();
            if there.is_empty() {
                number
            } else {
                random.pick(&there)
            }
        }
        _ => number,
    }
}

/// A set-up's bytes, mostly as many as it has.
fn setup(random: &mut Random) -> Vec<u8> {
    let length = if random.once_in(12) { random.pick(&[0, 1, 119, 121, 376, 496, 497]) } else { SETUP_SIZE };
    random.bytes(length)
}

fn save(random: &mut Random, shape: Shape, pool: &[u8]) -> Call {
    let body = setup(random);
    Call::Save { number: setup_number(random, shape, pool), body }
}

/// A line that saves or recalls, as the calls do, or any line.
fn command(random: &mut Random, shape: Shape, pool: &[u8]) -> Call {
    let number = setup_number(random, shape, pool);
    let line = match random.below(4) {
        0 if number < SETUPS => lines::line(random, Says::Save(number)),
        1 if number < SETUPS => lines::line(random, Says::Recall(number)),
        _ => lines::any_line(random),
    };
    Call::Command { line, setup: setup(random) }
}

/// The tag of a set-up, of any object, of free runs, or one that is nowhere; from the pool's first cell on, or from elsewhere.
fn look_up(random: &mut Random, shape: Shape, pool: &[u8]) -> Call {
    let place = address(random, shape, pool);
    let head = shape.cell(place.min(shape.zones * shape.cells() - 1));
    let tag = match random.below(8) {
        0 => random.pick(&[0, 99, 110, u32::MAX]),
        1..=3 if head + 16 <= pool.len() => get(pool, head + 12, 4) as u32,
        _ => setup_tag(random.below(SETUPS)),
    };
    let from = if random.once_in(2) { 0 } else { random.pick(&[place, place.wrapping_add(1)]) };
    Call::LookUp { tag, from }
}

/// A call that stages words; addresses are mostly those of the staged view.
pub fn staging_call(random: &mut Random, shape: Shape, given: &Given) -> Call {
    match random.below(3) {
        0 => allocate(random),
        1 => write(random, shape, &view(given)),
        _ => Call::Free(address(random, shape, &view(given))),
    }
}

/// Any call on this pool.
pub fn call(random: &mut Random, shape: Shape, given: &Given) -> Call {
    match random.below(40) {
        0 => format(random, shape),
        1 => Call::Mend,
        2 | 3 => Call::Look(address(random, shape, &given.pool)),
        4 => Call::Scrub,
        5 => Call::Repair(losses(random, shape)),
        6 => Call::Begin,
        7 | 8 => Call::Commit,
        9 | 10 => Call::CommitStep,
        11 | 12 => Call::CommitAdvance,
        13 => Call::Recover,
        14 | 15 => Call::RecoverStep,
        16 | 17 => Call::RecoverAdvance,
        18 | 19 => save(random, shape, &given.pool),
        20 => Call::Recall(setup_number(random, shape, &given.pool)),
        21 | 22 => look_up(random, shape, &given.pool),
        23..=25 => command(random, shape, &given.pool),
        _ => staging_call(random, shape, given),
    }
}
