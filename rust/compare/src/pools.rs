//! Random pools: sound ones of many shapes and fillings, and damage to them.
use crate::layout::*;
use crate::random::Random;

/// Mostly small shapes, and the edges of the ranges.
pub fn shape(random: &mut Random) -> Shape {
    let edges = [(1, 1, 1), (15, 1, 1), (1, 64, 1), (1, 1, 16), (15, 2, 2), (2, 2, 1)];
    let (rows, cols, zones) = match random.below(8) {
        0 | 1 => random.pick(&edges),
        _ => (random.from_to(1, 4), random.from_to(1, 3), random.from_to(1, 3)),
    };
    Shape { rows, cols, zones }
}

/// A sound pool: each zone empty, full of objects, or mixed; free cells hold zeros or stale bytes.
pub fn filled(random: &mut Random, shape: Shape) -> Vec<u8> {
    let mut pool = vec![0; shape.length()];
    let id = if random.once_in(8) { random.pick(&[1, u64::MAX]) } else { random.next() | 1 };
    put_headers(shape, &mut pool, id);
    if random.once_in(2) {
        pool[ZONES..].copy_from_slice(&random.bytes(shape.length() - ZONES));
    }
    let full = random.once_in(4);
    for z in 0..shape.zones {
        match random.below(if full { 1 } else { 6 }) {
            0 => fill_zone(random, shape, &mut pool, z, usize::MAX),
            1 => put_free(&mut pool, shape.zone(z), shape.cells()),
            _ => fill_zone(random, shape, &mut pool, z, 3),
        }
    }
    put_parity(shape, &mut pool);
    pool
}

/// Runs from the zone's first cell to its last; once in `free` times a run is free.
fn fill_zone(random: &mut Random, shape: Shape, pool: &mut [u8], z: usize, free: usize) {
    let (mut cell, mut after_free) = (0, false);
    while cell < shape.cells() {
        let at = shape.zone(z) + cell * CELL;
        let room = shape.cells() - cell;
        after_free = !after_free && random.once_in(free);
        if after_free {
            let cells = random.from_to(1, room.min(9));
            put_free(pool, at, cells);
            cell += cells;
        } else {
            let body = body(random, room);
            put_object(pool, at, random.next() as u32, &body);
            cell += object_cells(body.len());
        }
    }
}

/// Gives a sound pool objects with the tags of set-ups: of three cells, most with 120 bytes, in place of such objects or in free runs; and of
/// any length, another tag for an object that is there.
pub fn put_setups(random: &mut Random, shape: Shape, pool: &mut [u8]) {
    for z in 0..shape.zones {
        for run in runs(shape, pool, z).0 {
            put_setup(random, pool, shape.zone(z) + run.cell * CELL, run);
        }
    }
    put_parity(shape, pool);
}

fn put_setup(random: &mut Random, pool: &mut [u8], at: usize, run: Run) {
    const CELLS: usize = 3;
    let tag = setup_tag(random.below(SETUPS));
    let free = !run.object;
    if run.cells == CELLS || free && run.cells > CELLS && random.once_in(2) {
        let length = random.pick(&[SETUP_SIZE, SETUP_SIZE, SETUP_SIZE, SETUP_SIZE - 1, SETUP_SIZE + 1]);
        put_object(pool, at, tag, &random.bytes(length));
        if run.cells > CELLS {
            put_free(pool, at + CELLS * CELL, run.cells - CELLS);
        }
    } else if run.object && random.once_in(8) {
        let body = pool[at + 16..behind_body(pool, at).start].to_vec();
        put_object(pool, at, tag, &body);
    }
}

/// A body that fits into so many cells.
pub fn body(random: &mut Random, cells: usize) -> Vec<u8> {
    let longest = (cells * CELL - 16).min(496);
    let length = match random.below(4) {
        0 => random.pick(&[1, 2, 48, 49, 495, 496]).min(longest),
        1 => longest,
        _ => random.from_to(1, longest),
    };
    random.bytes(length)
}

/// Distinct words of the data rows, in no order.
pub fn targets(random: &mut Random, shape: Shape, count: usize) -> Vec<usize> {
    let mut list = Vec::new();
    while list.len() < count.min(shape.words()) {
        let at = shape.word(random.below(shape.words()));
        if !list.contains(&at) {
            list.push(at);
        }
    }
    list
}

/// Entries: each target, and the word that the pool has there now, or a random one.
pub fn entries(random: &mut Random, pool: &[u8], targets: &[usize], same: bool) -> Vec<u8> {
    let mut bytes = vec![0; targets.len() * 16];
    for (i, &at) in targets.iter().enumerate() {
        put(&mut bytes, i * 16, 8, at as u64);
        put(&mut bytes, i * 16 + 8, 8, if same { get(pool, at, 8) } else { random.next() });
    }
    bytes
}

/// A number of entries, with the edges 1 and 127.
pub fn entry_count(random: &mut Random) -> usize {
    match random.below(6) {
        0 => 127,
        1 => random.from_to(117, 126),
        2 => random.from_to(1, 127),
        _ => random.from_to(1, 6),
    }
}

/// Makes one entry's target wrong: repeated, unaligned, or outside the data rows.
pub fn spoil_target(random: &mut Random, shape: Shape, entries: &mut [u8]) {
    let count = entries.len() / 16;
    let (i, j) = (random.below(count), random.below(count));
    let parity = shape.zone(random.below(shape.zones)) + shape.data();
    let wrong = match random.below(6) {
        0 => get(entries, j * 16, 8),
        1 => get(entries, i * 16, 8).wrapping_add(random.pick(&[1, 4, 7])),
        2 => (parity + random.below(shape.row() / 8) * 8) as u64,
        3 => (random.below(ZONES / 8) * 8) as u64,
        4 => (shape.length() + random.pick(&[0, 8, 256])) as u64,
        _ => random.pick(&[u64::MAX, u64::MAX - 7, 1 << 63, 1 << 32]),
    };
    put(entries, i * 16, 8, wrong);
}

/// Damages a pool in place, in one of many ways.
pub fn damage(random: &mut Random, shape: Shape, pool: &mut [u8]) {
    match random.below(12) {
        0 => {
            let at = random.below(pool.len());
            pool[at] ^= 1 << random.below(8);
        }
        1 => {
            let at = ZONES + random.below(pool.len() - ZONES);
            pool[at] = random.next() as u8;
        }
        2 | 3 => damage_head(random, shape, pool),
        4 => split_free(random, shape, pool),
        5 => damage_header(random, pool),
        6 => damage_seals(random, pool),
        7 | 8 => put_log(random, shape, pool),
        9 => damage_body(random, shape, pool),
        _ => strike_behind_body(random, shape, pool),
    }
}

/// The place of a random run, and the run; none if its zone is broken at its first cell.
fn any_run(random: &mut Random, shape: Shape, pool: &[u8]) -> Option<(usize, Run)> {
    let z = random.below(shape.zones);
    let (runs, _) = runs(shape, pool, z);
    (!runs.is_empty()).then(|| {
        let run = random.pick(&runs);
        (shape.zone(z) + run.cell * CELL, run)
    })
}

/// Another value in one field of a head; the check is made right or left as it is.
fn damage_head(random: &mut Random, shape: Shape, pool: &mut [u8]) {
    let Some((at, run)) = any_run(random, shape, pool) else { return };
    let body = pool[at + 16..][..if run.object { get(pool, at + 4, 4) as usize } else { 0 }].to_vec();
    let [kind, cells, length, tag] = [(0, 2), (2, 2), (4, 4), (12, 4)].map(|(i, width)| get(pool, at + i, width));
    let other = match random.below(4) {
        0 => head(random.pick(&[0, 1, 2, 3, 0x101, 0x201, 0x102]), cells, length, tag, &body),
        1 => head(kind, random.pick(&[0, 1, cells + 1, cells - 1, 8, 9, 0x8000, 0xFFFF]), length, tag, &body),
        2 => {
            let most = 64 * cells - 16;
            let another = random.pick(&[0, 1, length + 1, length - length.min(1), most, most + 1, 496, 497, 1 << 31, 0xFFFF_FFFF]);
            head(kind, cells, another, tag, &pool[at + 16..][..another.min(most) as usize])
        }
        _ => head(kind, cells, length, random.pick(&[0, 1, tag ^ 1, 0xFFFF_FFFF]), &body),
    };
    let check_too = random.once_in(2);
    pool[at..at + 8].copy_from_slice(&other[..8]);
    pool[at + 12..at + 16].copy_from_slice(&other[12..]);
    if check_too {
        pool[at + 8..at + 12].copy_from_slice(&other[8..12]);
    }
}

/// Two free runs side by side.
fn split_free(random: &mut Random, shape: Shape, pool: &mut [u8]) {
    if let Some((at, run)) = any_run(random, shape, pool) {
        if !run.object && run.cells > 1 {
            let first = random.from_to(1, run.cells - 1);
            put_free(pool, at, first);
            put_free(pool, at + first * CELL, run.cells - first);
        }
    }
}

/// One byte of a run behind its lengths: of its check, its tag, its body, or behind the body.
fn damage_body(random: &mut Random, shape: Shape, pool: &mut [u8]) {
    if let Some((at, run)) = any_run(random, shape, pool) {
        let place = random.from_to(8, run.cells * CELL - 1);
        pool[at + place] ^= 1 << random.below(8);
    }
}

/// A byte behind a body: the first, the last, or any of them; none if no body of a random zone has bytes behind it.
fn place_behind_body(random: &mut Random, shape: Shape, pool: &[u8]) -> Option<usize> {
    let z = random.below(shape.zones);
    let heads = object_heads(shape, pool, z);
    let places: Vec<_> = heads.iter().map(|&at| behind_body(pool, at)).filter(|behind| !behind.is_empty()).collect();
    (!places.is_empty()).then(|| {
        let behind = &places[random.below(places.len())];
        let (first, last) = (behind.start, behind.end - 1);
        let any = random.from_to(first, last);
        random.pick(&[first, last, any])
    })
}

/// A byte behind a body becomes one that is not zero. Nothing else changes, or only the parity byte at its place, so that parity stays as it is.
pub fn strike_behind_body(random: &mut Random, shape: Shape, pool: &mut [u8]) {
    if let Some(at) = place_behind_body(random, shape, pool) {
        let stray = random.from_to(1, 255) as u8;
        if random.once_in(2) {
            pool[shape.parity(at)] ^= pool[at] ^ stray;
        }
        pool[at] = stray;
    }
}

/// Gives one entry the word of a byte behind a body, with this byte not zero, or zero if the pool has a stray byte there.
pub fn stage_behind_body(random: &mut Random, shape: Shape, pool: &[u8], entries: &mut [u8]) {
    if let Some(at) = place_behind_body(random, shape, pool) {
        let target = at / 8 * 8;
        let same = entries.chunks_exact(16).position(|entry| get(entry, 0, 8) == target as u64);
        let entry = &mut entries[same.unwrap_or(0) * 16..][..16];
        put(entry, 0, 8, target as u64);
        entry[8..].copy_from_slice(&pool[target..target + 8]);
        entry[8 + at % 8] = if pool[at] == 0 { 1 << random.below(8) } else { 0 };
    }
}

/// A bit of each set-up that is there: of its body or behind it.
pub fn strike_setups(random: &mut Random, shape: Shape, pool: &mut [u8]) {
    let addresses: Vec<usize> = (0..SETUPS).flat_map(|number| tagged(shape, pool, setup_tag(number))).collect();
    for address in addresses {
        let at = shape.cell(address);
        let place = random.from_to(at + 16, behind_body(pool, at).end - 1);
        pool[place] ^= 1 << random.below(8);
    }
}

/// A header with one bit turned, or with another value in a field and the check made right.
fn damage_header(random: &mut Random, pool: &mut [u8]) {
    let fields: [u8; 4] = pool[4..8].try_into().unwrap();
    let id = get(pool, 8, 8);
    let mut page = match random.below(4) {
        0 => {
            let mut page = pool[..PAGE].to_vec();
            page[random.below(PAGE)] ^= 1 << random.below(8);
            page
        }
        1 => header(fields, random.pick(&[0, id ^ 1, id.wrapping_add(256)])),
        2 => {
            let mut other = fields;
            other[random.below(4)] = random.pick(&[0, 1, 2, 3, 15, 16, 17, 64, 65, 255]);
            header(other, id)
        }
        _ => header([fields[1], fields[0], fields[2], fields[3]], id),
    };
    if random.once_in(6) {
        page[random.from_to(20, PAGE - 1)] = 1;
    }
    let copies = random.pick(&[0..1, 0..1, 1..2, 1..2, 0..2].map(|copies| (copies.start, copies.end)));
    for copy in copies.0..copies.1 {
        pool[copy * PAGE..][..PAGE].copy_from_slice(&page);
    }
}

/// Seals that are not zero, without a log behind them.
fn damage_seals(random: &mut Random, pool: &mut [u8]) {
    let which = random.from_to(1, 3);
    for (bit, log) in LOGS.into_iter().enumerate() {
        if which >> bit & 1 == 1 {
            let word = random.pick(&[1, 1 << 63, 0xA51C << 48, 0xA51C_0001 << 32, 0xA51C_0080 << 32, u64::MAX]);
            put(pool, log, 8, word);
        }
    }
}

/// Logs with a seal, valid or with one fault: a wrong target, a wrong seal, or an entry changed later.
pub fn put_log(random: &mut Random, shape: Shape, pool: &mut [u8]) {
    let count = entry_count(random);
    let list = targets(random, shape, count);
    let same = random.once_in(2);
    let which = random.from_to(1, 3);
    for (bit, log) in LOGS.into_iter().enumerate() {
        if which >> bit & 1 == 0 {
            continue;
        }
        let mut bytes = entries(random, pool, &list, same);
        let fault = random.below(8);
        if fault == 0 {
            spoil_target(random, shape, &mut bytes);
        }
        put(pool, log, 8, seal(&bytes));
        put(pool, log + 8, 8, random.pick(&[0, 0, u64::MAX]));
        pool[log + 16..][..bytes.len()].copy_from_slice(&bytes);
        if fault == 1 {
            let at = log + random.below(16 + bytes.len());
            pool[at] ^= 1 << random.below(8);
        }
    }
}

/// Another length: shorter, longer, empty, or just a header or two.
pub fn damage_length(random: &mut Random, pool: &mut Vec<u8>) {
    let n = pool.len();
    let length = match random.below(4) {
        0 => random.pick(&[0, 1, 255, 256, 511]),
        1 => random.pick(&[512, 513, 2048, 4608]),
        2 => random.pick(&[n - 1, n - 256, n + 1, n + 8, n + 256]),
        _ => random.below(n),
    };
    pool.resize(length, 0);
}

/// No pool at all: random bytes, or one byte everywhere.
pub fn scribbled(random: &mut Random, length: usize) -> Vec<u8> {
    match random.below(4) {
        0 => vec![0; length],
        1 => vec![0xFF; length],
        _ => random.bytes(length),
    }
}
