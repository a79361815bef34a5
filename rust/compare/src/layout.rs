//! The pool's bytes, made and read by the tests themselves: neither the library nor the reference is asked.
//!
//! ```text
//! page 0       1            2 to 9  10 to 17  18 ..
//!      header  header copy  log A   log B     zones: R data rows of C pages, then the parity row
//! ```
use std::ops::Range;

pub const PAGE: usize = 256;
pub const CELL: usize = 64;
pub const LOGS: [usize; 2] = [2 * PAGE, 10 * PAGE];
pub const ZONES: usize = 18 * PAGE;

#[derive(Clone, Copy, Debug, PartialEq, Eq)]
pub struct Shape {
    pub rows: usize,
    pub cols: usize,
    pub zones: usize,
}

/// Set-ups are numbered from 0; set-up n has the tag 100 + n and a body of 120 bytes.
pub const SETUPS: usize = 10;
pub const SETUP_SIZE: usize = 120;

pub fn setup_tag(number: usize) -> u32 {
    100 + number as u32
}

pub const LARGEST: Shape = Shape { rows: 15, cols: 64, zones: 16 };

impl Shape {
    pub fn length(self) -> usize {
        ZONES + self.zones * (self.rows + 1) * self.row()
    }

    /// Bytes of a row.
    pub fn row(self) -> usize {
        self.cols * PAGE
    }

    /// Bytes of a zone's data rows, which lie one after the other.
    pub fn data(self) -> usize {
        self.rows * self.row()
    }

    /// Cells of a zone.
    pub fn cells(self) -> usize {
        self.data() / CELL
    }

    /// Where zone z begins.
    pub fn zone(self, z: usize) -> usize {
        ZONES + z * (self.rows + 1) * self.row()
    }

    /// Where the cell with this address begins.
    pub fn cell(self, address: usize) -> usize {
        self.zone(address / self.cells()) + address % self.cells() * CELL
    }

    /// The address of the cell of zone z that begins here.
    pub fn address(self, z: usize, at: usize) -> usize {
        z * self.cells() + (at - self.zone(z)) / CELL
    }

    /// Number of words in all data rows.
    pub fn words(self) -> usize {
        self.zones * self.data() / 8
    }

    /// Where the word with this number, counted through all data rows, lies.
    pub fn word(self, number: usize) -> usize {
        self.zone(number / (self.data() / 8)) + number % (self.data() / 8) * 8
    }

    /// Whether the byte at this offset lies in a data row.
    pub fn is_data(self, at: usize) -> bool {
        (0..self.zones).any(|z| (self.zone(z)..self.zone(z) + self.data()).contains(&at))
    }

    /// Where the parity byte of this byte of a data row lies.
    pub fn parity(self, at: usize) -> usize {
        let zone = self.zone((at - ZONES) / (self.data() + self.row()));
        zone + self.data() + (at - zone) % self.row()
    }

    /// Where a page of zone z lies; the parity row is row `rows`.
    pub fn page(self, z: usize, row: usize, col: usize) -> usize {
        self.zone(z) + row * self.row() + col * PAGE
    }

    /// Where the pages lie that a loss list names, one in a column at most.
    pub fn lost_pages(self, lost: &[u16]) -> Vec<usize> {
        let named = lost.iter().enumerate().filter(|(_, &mask)| mask != 0);
        named.map(|(column, mask)| self.page(column / self.cols, mask.trailing_zeros() as usize, column % self.cols)).collect()
    }
}

/// A little-endian number of `width` bytes.
pub fn get(bytes: &[u8], at: usize, width: usize) -> u64 {
    bytes[at..at + width].iter().rev().fold(0, |n, &b| n << 8 | u64::from(b))
}

pub fn put(bytes: &mut [u8], at: usize, width: usize, number: u64) {
    bytes[at..at + width].copy_from_slice(&number.to_le_bytes()[..width]);
}

/// In how many places two pools of one length differ.
pub fn differing(before: &[u8], after: &[u8]) -> usize {
    assert_eq!(before.len(), after.len());
    before.iter().zip(after).filter(|(old, new)| old != new).count()
}

/// The check, by the remainder at every byte.
pub fn check<'a>(bytes: impl IntoIterator<Item = &'a u8>) -> u32 {
    let (mut low, mut high) = (1u32, 0u32);
    for &b in bytes {
        low = (low + u32::from(b)) % 65521;
        high = (high + low) % 65521;
    }
    high * 65536 + low
}

/// A header page with the right check for these fields, in their ranges or not.
pub fn header(fields: [u8; 4], id: u64) -> Vec<u8> {
    let mut page = vec![0; PAGE];
    page[..4].copy_from_slice(b"SGPL");
    page[4..8].copy_from_slice(&fields);
    put(&mut page, 8, 8, id);
    let sum = check(&page[..16]);
    put(&mut page, 16, 4, u64::from(sum));
    page
}

/// Whether this page is a valid header, and its shape.
pub fn header_shape(page: &[u8]) -> Option<Shape> {
    let fields = [page[4], page[5], page[6], page[7]];
    let [rows, cols, zones] = [page[4], page[5], page[6]].map(usize::from);
    let in_range = (1..=15).contains(&rows) && (1..=64).contains(&cols) && (1..=16).contains(&zones);
    let id = get(page, 8, 8);
    (in_range && page[7] == 1 && id != 0 && page == header(fields, id)).then_some(Shape { rows, cols, zones })
}

/// Makes both headers those of this shape and id.
pub fn put_headers(shape: Shape, pool: &mut [u8], id: u64) {
    let page = header([shape.rows as u8, shape.cols as u8, shape.zones as u8, 1], id);
    pool[..PAGE].copy_from_slice(&page);
    pool[PAGE..2 * PAGE].copy_from_slice(&page);
}

/// The first valid header of a pool.
fn valid_header(pool: &[u8]) -> Option<&[u8]> {
    pool.chunks_exact(PAGE).take(2).find(|page| header_shape(page).is_some())
}

/// The id of a pool: that of its first valid header; 0 if there is none.
pub fn pool_id(pool: &[u8]) -> u64 {
    valid_header(pool).map_or(0, |page| get(page, 8, 8))
}

/// The shape of a pool, by its first valid header.
pub fn pool_shape(pool: &[u8]) -> Option<Shape> {
    valid_header(pool).and_then(header_shape)
}

/// The check of a run: head bytes 0 to 7 and 12 to 15, then the body.
pub fn run_check(head: &[u8], body: &[u8]) -> u32 {
    check(head[..8].iter().chain(&head[12..16]).chain(body))
}

/// A head with the right check for these fields and this body.
pub fn head(kind: u64, cells: u64, length: u64, tag: u64, body: &[u8]) -> [u8; 16] {
    let mut bytes = [0; 16];
    for (at, width, number) in [(0, 2, kind), (2, 2, cells), (4, 4, length), (12, 4, tag)] {
        put(&mut bytes, at, width, number);
    }
    let sum = run_check(&bytes, body);
    put(&mut bytes, 8, 4, u64::from(sum));
    bytes
}

/// Cells of an object with a body of this length.
pub fn object_cells(length: usize) -> usize {
    (16 + length).div_ceil(CELL)
}

pub fn put_object(pool: &mut [u8], at: usize, tag: u32, body: &[u8]) {
    let cells = object_cells(body.len());
    pool[at..at + 16].copy_from_slice(&head(2, cells as u64, body.len() as u64, u64::from(tag), body));
    pool[at + 16..at + cells * CELL].fill(0);
    pool[at + 16..at + 16 + body.len()].copy_from_slice(body);
}

pub fn put_free(pool: &mut [u8], at: usize, cells: usize) {
    pool[at..at + 16].copy_from_slice(&head(1, cells as u64, 0, 0, &[]));
}

/// Makes all parity right.
pub fn put_parity(shape: Shape, pool: &mut [u8]) {
    for z in 0..shape.zones {
        let (data, parity) = pool[shape.zone(z)..shape.zone(z + 1)].split_at_mut(shape.data());
        parity.fill(0);
        for row in data.chunks(shape.row()) {
            parity.iter_mut().zip(row).for_each(|(p, d)| *p ^= d);
        }
    }
}

/// The seal of these entries.
pub fn seal(entries: &[u8]) -> u64 {
    u64::from(check(entries)) | (entries.len() as u64 / 16) << 32 | 0xA51C << 48
}

/// The count of the log that begins here, if the log is valid: mark, count and check fit, and each target is a multiple of 8
/// inside data rows, and none repeats.
pub fn valid_log(shape: Shape, pool: &[u8], log: usize) -> Option<usize> {
    let count = get(pool, log + 4, 2) as usize;
    if !(1..=127).contains(&count) {
        return None;
    }
    let entries = &pool[log + 16..][..16 * count];
    let mut targets: Vec<usize> = entries.chunks(16).map(|entry| get(entry, 0, 8) as usize).collect();
    let in_data = targets.iter().all(|&at| at % 8 == 0 && shape.is_data(at));
    targets.sort_unstable();
    targets.dedup();
    (get(pool, log, 8) == seal(entries) && in_data && targets.len() == count).then_some(count)
}

/// Whether a seal is not zero.
pub fn has_seal(pool: &[u8]) -> bool {
    LOGS.iter().any(|&log| get(pool, log, 8) != 0)
}

/// A run: its first cell in its zone, its cells, and whether it is an object.
#[derive(Clone, Copy, Debug, PartialEq, Eq)]
pub struct Run {
    pub cell: usize,
    pub cells: usize,
    pub object: bool,
}

/// The runs of zone z up to its end or its break, and whether it is broken.
pub fn runs(shape: Shape, pool: &[u8], z: usize) -> (Vec<Run>, bool) {
    let mut list: Vec<Run> = Vec::new();
    let mut cell = 0;
    while cell < shape.cells() {
        let at = shape.zone(z) + cell * CELL;
        let head = &pool[at..at + 16];
        let [kind, cells, length] = [(0, 2), (2, 2), (4, 4)].map(|(at, width)| get(head, at, width) as usize);
        let object = kind == 2 && (1..=496).contains(&length) && cells == object_cells(length);
        let free = kind == 1 && cells > 0 && head[..] == self::head(1, cells as u64, 0, 0, &[]);
        let after_free = list.last().is_some_and(|run| !run.object);
        if !(object || free && !after_free) || cell + cells > shape.cells() {
            return (list, true);
        }
        list.push(Run { cell, cells, object });
        cell += cells;
    }
    (list, false)
}

/// The bytes behind the body of the object whose head lies here: from the body's end to the run's end.
pub fn behind_body(pool: &[u8], at: usize) -> Range<usize> {
    let length = get(pool, at + 4, 4) as usize;
    at + 16 + length..at + object_cells(length) * CELL
}

/// Why an object is damaged.
#[derive(Clone, Copy, Debug, PartialEq, Eq)]
pub enum Fault {
    Check,
    /// The check is right, and a byte behind the body is not zero.
    Stray,
}

/// What is wrong with the object whose head lies here.
pub fn fault(pool: &[u8], at: usize) -> Option<Fault> {
    let behind = behind_body(pool, at);
    if get(pool, at + 8, 4) != u64::from(run_check(&pool[at..at + 16], &pool[at + 16..behind.start])) {
        return Some(Fault::Check);
    }
    pool[behind].iter().any(|&byte| byte != 0).then_some(Fault::Stray)
}

/// Where the heads of the objects of zone z lie, up to its end or its break.
pub fn object_heads(shape: Shape, pool: &[u8], z: usize) -> Vec<usize> {
    let (runs, _) = runs(shape, pool, z);
    runs.iter().filter(|run| run.object).map(|run| shape.zone(z) + run.cell * CELL).collect()
}

/// The addresses of all objects with this tag, ascending, damaged ones too; of a zone those up to its break.
pub fn tagged(shape: Shape, pool: &[u8], tag: u32) -> Vec<usize> {
    let has_tag = |at: &usize| get(pool, at + 12, 4) == u64::from(tag);
    let in_zone = |z| object_heads(shape, pool, z).into_iter().filter(has_tag).map(move |at| shape.address(z, at));
    (0..shape.zones).flat_map(in_zone).collect()
}

/// An object as the application knows it.
#[derive(Clone, Debug, PartialEq, Eq)]
pub struct Object {
    pub address: usize,
    pub tag: u32,
    pub body: Vec<u8>,
}

/// The objects of a pool, ascending by address, or what is not sound about it.
pub fn objects(pool: &[u8]) -> Result<Vec<Object>, &'static str> {
    let shape = header_shape(&pool[..PAGE]).ok_or("header")?;
    if pool.len() != shape.length() || pool[..PAGE] != pool[PAGE..2 * PAGE] {
        return Err("length or second header");
    }
    if has_seal(pool) {
        return Err("seal");
    }
    let mut parity = pool.to_vec();
    put_parity(shape, &mut parity);
    if parity != pool {
        return Err("parity");
    }
    let mut list = Vec::new();
    for z in 0..shape.zones {
        let (runs, broken) = runs(shape, pool, z);
        if broken {
            return Err("zone broken");
        }
        for run in runs.iter().filter(|run| run.object) {
            list.push(object(pool, z * shape.cells() + run.cell, shape.zone(z) + run.cell * CELL)?);
        }
    }
    Ok(list)
}

fn object(pool: &[u8], address: usize, at: usize) -> Result<Object, &'static str> {
    match fault(pool, at) {
        Some(Fault::Check) => Err("an object's check"),
        Some(Fault::Stray) => Err("bytes behind a body"),
        None => Ok(Object { address, tag: get(pool, at + 12, 4) as u32, body: pool[at + 16..behind_body(pool, at).start].to_vec() }),
    }
}
