//! The check: two sums modulo 65521, high * 65536 + low.

const MODULUS: u32 = 65521;

/// So many bytes bring a low sum below 65521 to at most 587,760 and a high one to at most 1,203,798,000: neither leaves its 32 bits.
const BLOCK: usize = 2048;

/// The sums after the bytes added so far.
#[derive(Clone, Copy)]
pub struct Sums {
    low: u32,
    high: u32,
}

impl Sums {
    pub const START: Sums = Sums { low: 1, high: 0 };

    /// The low sum adds each byte; the high one adds the new low sum after each byte. Each is kept below 65521 by a remainder, taken at the
    /// end of a block: there is no branch on a sum.
    pub fn add(self, bytes: &[u8]) -> Sums {
        let Sums { mut low, mut high } = self;
        for block in bytes.chunks(BLOCK) {
            for &byte in block {
                low += u32::from(byte);
                high += low;
            }
            low %= MODULUS;
            high %= MODULUS;
            debug_assert!(low < MODULUS && high < MODULUS, "each sum is kept below 65521");
        }
        Sums { low, high }
    }

    pub fn check(self) -> u32 {
        self.high << 16 | self.low
    }
}

pub fn check(bytes: &[u8]) -> u32 {
    Sums::START.add(bytes).check()
}

/// The check of `length` bytes after the old ones, from place `at` on, are replaced by the new ones. A byte at place i
/// that changes from u to v moves the low sum by v - u and the high one by (length - i) * (v - u).
pub fn updated(check: u32, length: usize, at: usize, old: &[u8], new: &[u8]) -> u32 {
    let mut low = i64::from(check & 0xffff);
    let mut high = i64::from(check >> 16);
    for (i, (&u, &v)) in old.iter().zip(new).enumerate() {
        let change = i64::from(v) - i64::from(u);
        low += change;
        high += (length - at - i) as i64 * change;
    }
    let reduced = |sum: i64| sum.rem_euclid(i64::from(MODULUS)) as u32;
    reduced(high) << 16 | reduced(low)
}
