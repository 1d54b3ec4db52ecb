//! Streams for `blockline`: images to read, counts to choose by, and blocks to
//! write.  Records do not touch each other, so nothing steers them.

use crate::blockline::{read_block_head, BlockHead, BlockRecord};
use crate::image::{Block, BLOCKS, BODY_COUNTS, ENTRIES_BYTES, MOST_COUNT, MOST_NUMBERS};
use crate::input::MOST_BYTES;
use crate::random::Random;
use crate::sketch::{any_bodies, any_counts, any_numbers, blocks, damaged, well_formed};
use crate::sketch::{NO_BLOCKS, SHARES};

/// Counts of a body that is none, as a byte holds them.
const OTHER_COUNTS: [usize; 8] = [0, 1, 23, 26, 48, 50, 200, 255];

/// The stream of a seed: so many records, of which the last may be bad.
pub fn block_stream(seed: u64, records: u64) -> Vec<u8> {
    let mut random = Random::new(seed ^ 0xB10C);
    let mut written = Vec::new();
    if records == 0 {
        return written;
    }
    let ending = ending(&mut random, seed);
    let whole = records - u64::from(!ending.is_empty());
    for _ in 0..whole {
        written.extend(any_record(&mut random).bytes());
    }
    written.extend(ending);
    written
}

fn any_record(random: &mut Random) -> BlockRecord {
    match random.between(0, 9) {
        0..=4 => reading(random),
        5..=6 => choosing(random),
        _ => writing(random),
    }
}

fn reading(random: &mut Random) -> BlockRecord {
    let bodies = any_bodies(random, &[]);
    let (filled, empty) = (blocks(&bodies, true), blocks(&bodies, false));
    let any = random.between(0, BLOCKS as i64 - 1) as u8;
    let block = match random.between(0, 9) {
        0 => random.pick(&NO_BLOCKS),
        1 | 2 if !empty.is_empty() => random.pick(&empty) as u8,
        3..=8 if !filled.is_empty() => random.pick(&filled) as u8,
        _ => any,
    };
    let image = match random.between(0, 99) {
        0..=49 => well_formed(&bodies),
        50..=98 => damaged(random, &bodies),
        // A lent buffer that is longer than the image is none.
        _ => {
            let mut image = well_formed(&bodies);
            image.resize(MOST_BYTES, 0);
            image
        }
    };
    BlockRecord::Read { block, image }
}

fn choosing(random: &mut Random) -> BlockRecord {
    let block = random.between(0, BLOCKS as i64);
    // The last count of one block and the first of the next.
    let edge = (block * (MOST_COUNT + 1) + BLOCKS as i64 - 1) / BLOCKS as i64;
    let near = (edge + random.between(-1, 1)).max(0);
    let any = random.between(0, MOST_COUNT);
    let above = random.between(MOST_COUNT + 1, 65535);
    let ends = random.pick(&[0, MOST_COUNT, MOST_COUNT + 1, 8192, 32768, 65535]);
    let count = random.pick(&[near, near, near, near, any, ends, ends, above]);
    BlockRecord::Choose {
        count: count as u16,
    }
}

fn writing(random: &mut Random) -> BlockRecord {
    let share = random.pick(&SHARES);
    let counts = any_counts(random);
    let any_count = random.pick(&[true, false]);
    let mut blocks = Box::new([Block::EMPTY; BLOCKS]);
    for block in blocks.iter_mut() {
        if random.chance(share) {
            let count = random.pick(counts);
            *block = Block::of(&any_numbers(random, count, &[]));
        } else if any_count {
            *block = unused(random);
        }
    }
    if random.chance(250) {
        for _ in 0..random.pick(&[1, 1, 2]) {
            let bad = random.between(0, BLOCKS as i64 - 1) as usize;
            blocks[bad] = Block {
                filled: true,
                ..unused(random)
            };
            blocks[bad].count = random.pick(&OTHER_COUNTS);
        }
    }
    let needed = needed(&blocks);
    let fewer = random.between(0, needed as i64 - 1) as usize;
    let lent = match random.between(0, 19) {
        0..=8 => needed,
        9..=12 => needed - 1,
        13 => 0,
        14 => ENTRIES_BYTES,
        15 => fewer,
        16..=18 => needed + random.pick(&[1, 2, 75]),
        _ => random.pick(&[MOST_BYTES, MOST_BYTES, MOST_BYTES - 1]),
    };
    let held = random.draw() as u8;
    let held = random.pick(&[0, 1, 255, held]);
    BlockRecord::Write { lent, held, blocks }
}

/// An empty block with a count and numbers, which mean nothing.
fn unused(random: &mut Random) -> Block {
    let count = random.pick(&[OTHER_COUNTS.as_slice(), &BODY_COUNTS].concat());
    let mut numbers = [0; MOST_NUMBERS];
    for number in numbers.iter_mut().take(count) {
        *number = random.draw() as u16;
    }
    Block {
        filled: false,
        count,
        numbers,
    }
}

/// The bytes that the image of these blocks takes, a bad body's not counted.
fn needed(blocks: &[Block; BLOCKS]) -> usize {
    let filled = blocks.iter().filter(|block| block.filled);
    let counts = filled.map(|block| block.count);
    let good = counts.filter(|count| BODY_COUNTS.contains(count));
    ENTRIES_BYTES + good.map(|count| 2 * count).sum::<usize>()
}

/// How the stream of a seed ends: between records, or in a bad one, and then
/// of every other seed with a good record behind it, which must not be
/// answered.
fn ending(random: &mut Random, seed: u64) -> Vec<u8> {
    let read = reading(random).bytes();
    let write = writing(random).bytes();
    let choose = choosing(random).bytes();
    let too_long = random.pick(&[[8, 1], [8, 255], [16, 0], [255, 255]]);
    let bad = match seed % 16 {
        0 => vec![random.pick(b"rawBLX?\n\0\xFF")],
        1 => return vec![b'R'],
        2 => return read[..random.between(2, 3) as usize].to_vec(),
        3 => {
            return cut(
                random,
                &BlockRecord::Read {
                    block: 0,
                    image: vec![0; 75],
                }
                .bytes(),
                4,
            )
        }
        4 => [b"R\0".as_slice(), &too_long].concat(),
        5 => [b"R\0\x08\x01".as_slice(), &[0; 2049]].concat(),
        6 => return choose[..random.between(1, 2) as usize].to_vec(),
        7 => return write[..random.between(1, 3) as usize].to_vec(),
        8 => return cut(random, &write, 4),
        9 => [b"W".as_slice(), &too_long].concat(),
        10 => [b"W\x08\x01".as_slice(), &write[3..]].concat(),
        11 => kind_above_1(random, &write, 0),
        12 => kind_above_1(random, &write, BLOCKS - 1),
        13 => {
            let block = random.between(1, BLOCKS as i64 - 2) as usize;
            kind_above_1(random, &write, block)
        }
        _ => return Vec::new(),
    };
    if (seed / 16).is_multiple_of(2) {
        [bad, choose].concat()
    } else {
        bad
    }
}

/// So many of a record's bytes at least, and one missing at least.
fn cut(random: &mut Random, whole: &[u8], least: i64) -> Vec<u8> {
    let kept = random.leaning(least, whole.len() as i64 - 1);
    whole[..kept as usize].to_vec()
}

/// A record W whose kind of one block is above 1.
fn kind_above_1(random: &mut Random, write: &[u8], block: usize) -> Vec<u8> {
    let BlockHead::Whole(BlockRecord::Write { blocks, .. }, _) = read_block_head(write) else {
        panic!("a record W");
    };
    let before = blocks[..block].iter();
    let bytes_before: usize = before
        .map(|block| 2 + 2 * block.count.min(MOST_NUMBERS))
        .sum();
    let mut bad = write.to_vec();
    bad[4 + bytes_before] = random.pick(&[2, 3, 49, 255]);
    bad
}
