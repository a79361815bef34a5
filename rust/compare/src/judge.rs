//! Whether a pool is as it must be: read by the tests' own reader, then by the library's scrub and look; and pages
//! lost and repaired.
use crate::layout::*;
use crate::random::Random;
use linked::Repaired;

/// The pool must be sound, with exactly these objects.
pub fn judge(pool: &[u8], wanted: &[Object]) {
    assert_eq!(objects(pool).as_deref(), Ok(wanted));
    let good = linked::Counts { refusal: 0, objects: wanted.len(), damaged: 0, broken: 0, columns: 0 };
    assert_eq!(linked::scrub(pool), good);
    for object in wanted {
        let part = linked::look(pool, object.address);
        assert_eq!((part.refusal, &pool[part.offset..][..part.length]), (0, &object.body[..]));
    }
}

/// Each page of the zones is lost in turn, then one in every column at once; repair must restore every byte, answer how many
/// it altered, and alter none when it is repeated. Answers the number of pages lost.
pub fn lose_pages(random: &mut Random, pool: &[u8]) -> usize {
    let shape = header_shape(&pool[..PAGE]).expect("a valid header");
    let columns = shape.zones * shape.cols;
    for column in 0..columns {
        for row in 0..=shape.rows {
            let mut lost = vec![0; columns];
            lost[column] = 1 << row;
            lose(random, shape, pool, &lost);
        }
    }
    let many: Vec<u16> = (0..columns).map(|_| 1 << random.below(shape.rows + 1)).collect();
    lose(random, shape, pool, &many);
    columns * (shape.rows + 2)
}

fn lose(random: &mut Random, shape: Shape, pool: &[u8], lost: &[u16]) {
    let mut damaged = pool.to_vec();
    for at in shape.lost_pages(lost) {
        damaged[at..at + PAGE].copy_from_slice(&random.bytes(PAGE));
    }
    for altered in [differing(&damaged, pool), 0] {
        assert_eq!(linked::repair(&mut damaged, lost), Repaired { refusal: 0, altered });
        assert!(damaged == pool, "repair restores every byte: {lost:?}");
    }
}
