//! One log overwritten after a power cut, in many ways; what leaves a valid log is for the caller to leave out.
use crate::layout::{put, seal, Shape, PAGE};
use crate::pools::{entries, entry_count, spoil_target, targets};
use crate::random::Random;

/// Bytes of a log.
const LOG: usize = 8 * PAGE;

/// What a log is overwritten with: the whole of it, or a part.
#[derive(Clone, Copy, Debug)]
pub enum Way {
    Zeros,
    Ones,
    Random,
    SealZero,
    SealBit,
    EntryBit,
    /// A seal with mark and check, and with a count that is not the commit's.
    OtherCount,
    /// Bytes 8 to 15, which no log's validity asks for.
    BehindSeal,
    BehindSealAndEntry,
    /// A log of other entries, with a wrong check.
    OlderWithWrongCheck,
    /// A log of other entries, with the right check and a wrong target.
    OlderWithWrongTarget,
}

pub const WAYS: [Way; 11] = [
    Way::Zeros,
    Way::Ones,
    Way::Random,
    Way::SealZero,
    Way::SealBit,
    Way::EntryBit,
    Way::OtherCount,
    Way::BehindSeal,
    Way::BehindSealAndEntry,
    Way::OlderWithWrongCheck,
    Way::OlderWithWrongTarget,
];

/// Overwrites the log that begins here, after a cut of a commit with so many entries.
pub fn overwrite(random: &mut Random, shape: Shape, pool: &mut [u8], log: usize, count: usize, way: Way) {
    let bytes = &mut pool[log..log + LOG];
    let end = 16 + 16 * count;
    match way {
        Way::Zeros => bytes.fill(0),
        Way::Ones => bytes.fill(0xFF),
        Way::Random => bytes.copy_from_slice(&random.bytes(LOG)),
        Way::SealZero => bytes[..8].fill(0),
        Way::SealBit => turn_bit(random, &mut bytes[..8]),
        Way::EntryBit => turn_bit(random, &mut bytes[16..end]),
        Way::OtherCount => {
            let sealed = seal(&bytes[16..end]);
            put(bytes, 0, 8, sealed);
            put(bytes, 4, 2, random.pick(&[0, count - 1, count + 1, 127, 128, 0xFFFF]) as u64);
        }
        Way::BehindSeal => bytes[8..16].copy_from_slice(&random.bytes(8)),
        Way::BehindSealAndEntry => {
            let entry = 16 + 16 * random.below(count);
            bytes[8..16].copy_from_slice(&random.bytes(8));
            bytes[entry..entry + 16].copy_from_slice(&random.bytes(16));
        }
        Way::OlderWithWrongCheck => {
            put_older(random, shape, pool, log, |_, _| ());
            turn_bit(random, &mut pool[log..log + 4]);
        }
        Way::OlderWithWrongTarget => put_older(random, shape, pool, log, |random, bytes| spoil_target(random, shape, bytes)),
    }
}

fn turn_bit(random: &mut Random, bytes: &mut [u8]) {
    bytes[random.below(bytes.len())] ^= 1 << random.below(8);
}

/// A log of other entries, spoilt or not, and their seal.
fn put_older(random: &mut Random, shape: Shape, pool: &mut [u8], log: usize, spoil: impl FnOnce(&mut Random, &mut [u8])) {
    let count = entry_count(random);
    let places = targets(random, shape, count);
    let mut bytes = entries(random, pool, &places, false);
    spoil(random, &mut bytes);
    put(pool, log, 8, seal(&bytes));
    pool[log + 16..][..bytes.len()].copy_from_slice(&bytes);
}
