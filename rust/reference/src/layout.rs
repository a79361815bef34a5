//! Where everything lies. A page is 256 bytes.
//!
//! ```text
//! page 0        header
//! page 1        its copy
//! pages 2..9    log A: seal (8), zero (8), 127 entries of 16 bytes
//! pages 10..17  log B
//! then          Z zones, each of R data rows and one parity row, each row of C pages
//! ```

pub const PAGE: usize = 256;
pub const HEADERS: usize = 2 * PAGE;
pub const LOG_A: usize = 2 * PAGE;
pub const LOG_B: usize = 10 * PAGE;
pub const LOG_ENTRIES: usize = 16; // of a log: where its entries begin
pub const ENTRY: usize = 16; // target offset (8), new word (8)
pub const CELL: usize = 64;
pub const HEAD: usize = 16;
pub const WORD: usize = 8;
const ZONES: usize = 18 * PAGE;

/// A pool's shape, in range: R 1 to 15, C 1 to 64, Z 1 to 16.
#[derive(Clone, Copy)]
pub struct Shape {
    pub rows: usize,
    pub cols: usize,
    pub zones: usize,
}

impl Shape {
    pub const ENTRIES: usize = 127;
    pub const BODY: usize = 496;
    pub const STAGING: usize = 2032;

    pub fn new(rows: usize, cols: usize, zones: usize) -> Option<Shape> {
        let fits = (1..=15).contains(&rows) && (1..=64).contains(&cols) && (1..=16).contains(&zones);
        fits.then_some(Shape { rows, cols, zones })
    }

    /// The pool's length: (18 + Z * (R + 1) * C) * 256.
    pub fn length(self) -> usize {
        ZONES + self.zones * self.zone_bytes()
    }

    pub fn row_bytes(self) -> usize {
        self.cols * PAGE
    }

    pub fn zone_bytes(self) -> usize {
        (self.rows + 1) * self.row_bytes()
    }

    pub fn zone_cells(self) -> usize {
        self.rows * self.cols * (PAGE / CELL)
    }

    pub fn zone_start(self, zone: usize) -> usize {
        ZONES + zone * self.zone_bytes()
    }

    /// Whether an entry may name this target: a multiple of 8 inside data rows.
    pub fn is_target(self, target: u64) -> bool {
        let data = self.rows * self.row_bytes();
        target.is_multiple_of(WORD as u64)
            && (ZONES as u64..self.length() as u64).contains(&target)
            && (target as usize - ZONES) % self.zone_bytes() < data
    }

    /// The parity word at a target's place: its offset, and the exclusive or of all data rows.
    pub fn parity(self, pool: &[u8], target: usize) -> (usize, u64) {
        let start = self.zone_start((target - ZONES) / self.zone_bytes());
        let row = self.row_bytes();
        let first = start + (target - start) % row;
        let sum = (0..self.rows).fold(0, |sum, r| sum ^ word(pool, first + r * row));
        (first + self.rows * row, sum)
    }
}

/// The 8 bytes at this offset as a little-endian integer.
pub fn word(bytes: &[u8], offset: usize) -> u64 {
    u64::from_le_bytes(bytes[offset..offset + WORD].try_into().unwrap())
}

pub fn put_word(bytes: &mut [u8], offset: usize, word: u64) {
    debug_assert!(offset.is_multiple_of(WORD), "a store is aligned");
    bytes[offset..offset + WORD].copy_from_slice(&word.to_le_bytes());
}
