//! Rows over whole saves of an object of 120 bytes, beside libpmemobj.
use crate::barrier;
use crate::fixture::{filled, Pool, Shape, LARGEST, PAGE, SMALL};
use crate::library::{Library, Way, PLAIN, PROVED};
use crate::measure::{best, timed, Timed};
use crate::native::Pmemobj;
use crate::report::{Row, Unit};
use reference::Transaction;

pub const BODY: [u8; 120] = [0x5A; 120];

/// How a save is made: without barriers, or with them.
#[derive(Clone, Copy)]
enum How {
    Steps,
    Advance,
    Barriers,
}

impl How {
    fn name(self) -> &'static str {
        match self {
            How::Steps => "by steps",
            How::Advance => "by advance",
            How::Barriers => "by advance, with barriers",
        }
    }

    /// All, or those without barriers if the processor cannot write back a line.
    fn all() -> &'static [How] {
        let all = &[How::Steps, How::Advance, How::Barriers];
        if barrier::is_there() {
            all
        } else {
            &all[..2]
        }
    }
}

/// One implementation and the memory that it works on.
struct Contender {
    library: &'static Library,
    how: How,
    shape: Shape,
    pool: Pool,
    staging: [u8; 2032],
}

impl Contender {
    fn commit(&mut self, t: Transaction) -> usize {
        let Contender { library, how, shape, pool, staging } = self;
        match how {
            How::Steps => library.save(Way::Steps, t, pool, staging),
            How::Advance => library.save(Way::Advance, t, pool, staging),
            How::Barriers => {
                let mut lines = barrier::Lines::new(*shape, &staging[..t.count * 16]);
                library.save_with(Way::Advance, t, pool, staging, |pool| lines.pass(pool))
            }
        }
    }

    /// Saves an object in a transaction of its own.
    fn save(&mut self) -> usize {
        let t = self.library.open(&self.pool);
        let reply = (self.library.allocate)(t, &self.pool, &mut self.staging, 7, &BODY);
        assert_eq!(self.commit(reply.transaction), 165);
        reply.value
    }

    /// Frees it in another.
    fn free(&mut self, address: usize) {
        let t = self.library.open(&self.pool);
        let reply = (self.library.free)(t, &self.pool, &mut self.staging, address);
        assert_eq!(self.commit(reply.transaction), 21);
    }
}

/// For each way the library and plain Rust, on pools of their own.
fn contenders(shape: Shape) -> Vec<Contender> {
    let (pool, _) = filled(shape, BODY.len(), 0);
    let new = |library, how| Contender { library, how, shape, pool: pool.clone(), staging: [0; 2032] };
    How::all().iter().flat_map(|&how| [new(&PROVED, how), new(&PLAIN, how)]).collect()
}

pub fn saves() -> Vec<Row> {
    [SMALL, LARGEST].into_iter().flat_map(|shape| [save_rows(shape), save_and_free_rows(shape)]).flatten().collect()
}

/// From begin to done, in a fresh pool; the pages changed, two, are copied back after each save.
fn save_rows(shape: Shape) -> Vec<Row> {
    let (pool, _) = filled(shape, BODY.len(), 0);
    let mut contenders = contenders(shape);
    contenders[1].save();
    let saved = std::mem::replace(&mut contenders[1].pool, pool.clone());
    let data = shape.zone_start(0)..shape.length();
    let pages: Vec<usize> = data.step_by(PAGE).filter(|&at| saved[at..at + PAGE] != pool[at..at + PAGE]).collect();
    let mut other = Pmemobj::open();
    let call = |contender| {
        let (contender, pages, pool): (&mut Contender, _, _) = (contender, &pages, &pool);
        timed(move || {
            assert_eq!(contender.save(), 0);
            pages.iter().for_each(|&at| contender.pool[at..at + PAGE].copy_from_slice(&pool[at..at + PAGE]));
        })
    };
    let calls = contenders.iter_mut().map(call).collect();
    rows("save", shape, calls, other.as_mut().map(|other| other.saves(&BODY)))
}

/// Saves an object in a transaction of its own, then frees it in another.
fn save_and_free_rows(shape: Shape) -> Vec<Row> {
    let mut contenders = contenders(shape);
    let mut other = Pmemobj::open();
    let call = |contender| {
        let contender: &mut Contender = contender;
        timed(move || {
            let address = contender.save();
            contender.free(address);
        })
    };
    let calls = contenders.iter_mut().map(call).collect();
    let rows = rows("save and free", shape, calls, other.as_mut().map(|other| other.saves_and_frees(&BODY)));
    assert!(contenders.iter().all(|contender| contender.pool[..] == contenders[0].pool[..]));
    rows
}

/// A row for each way, measured side by side.
fn rows<'a>(what: &str, shape: Shape, mut calls: Vec<Timed<'a>>, other: Option<Timed<'a>>) -> Vec<Row> {
    let ways = calls.len() / 2;
    calls.extend(other);
    let times = best(calls);
    let row = |(i, how): (usize, &How)| {
        let by_steps = (i > 0).then_some(("by steps", times[0]));
        let pmemobj = times.get(2 * ways).map(|&time| ("libpmemobj", time));
        let name = format!("{what}, {}, {}", shape.name(), how.name());
        let row = Row::new("save", name, "120 bytes", Unit::Time, times[2 * i], times[2 * i + 1]);
        Row { other: by_steps.into_iter().chain(pmemobj).collect(), ..row }
    };
    How::all().iter().enumerate().map(row).collect()
}
