//! Streams for `benchline`: those of the generator, with records N and B among
//! theirs.
//!
//! A generated stream is steered by its own records, so what is put among them
//! changes nothing that steers: an L or M becomes the N of the same numbers, or
//! the B of an image that holds them, and what comes besides is refused.  In
//! IDLE that may set flag 12, which the next accepted load takes away.

use crate::benchline::{read_bench_head, BenchHead, BenchRecord};
use crate::drive::Drive;
use crate::generator::stream;
use crate::image::BLOCKS;
use crate::input::MOST_BYTES;
use crate::load::{BAD_SENSORS, SENSORS_PLACE};
use crate::random::Random;
use crate::record::Record;
use crate::settings::SETTINGS;
use crate::sketch::{any_bodies, blocks, damaged, image_with, well_formed, NO_BLOCKS};
use crate::state::State;

const LENGTHS: [usize; 12] = [
    0,
    1,
    2,
    23,
    SETTINGS,
    SETTINGS,
    SENSORS_PLACE,
    SENSORS_PLACE,
    SENSORS_PLACE,
    26,
    48,
    255,
];

/// The stream of a seed: so many records of the generator, and those besides.
pub fn bench_stream(seed: u64, records: u64) -> Vec<u8> {
    let generated = stream(seed, records);
    let mut bench = Bench {
        random: Random::new(seed ^ 0xBE7C),
        drive: Drive::power_up(),
        last_load: vec![0; SETTINGS],
        written: Vec::new(),
    };
    // Images that are refused before any body is: none of them sets flag 12.
    for _ in 0..bench.random.between(0, 3) {
        let refused = bench.image_refused();
        bench.write_refused(refused);
    }
    let mut rest = generated.as_slice();
    while let BenchHead::Whole(record, length) = read_bench_head(rest) {
        rest = &rest[length..];
        bench.put(record);
    }
    if rest.is_empty() {
        let ending = ending(&mut bench.random, seed);
        bench.written.extend(ending);
    }
    bench.written.extend_from_slice(rest);
    bench.written
}

struct Bench {
    random: Random,
    /// The drive state after the records written so far.
    drive: Drive,
    /// The numbers of the last load of the generator.
    last_load: Vec<u16>,
    written: Vec<u8>,
}

impl Bench {
    /// A record of the generator, or the same load in another form; and now
    /// and then one besides before it.
    fn put(&mut self, record: BenchRecord) {
        let idle = self.drive.state == State::Idle;
        if self.random.chance(if idle { 100 } else { 30 }) {
            let besides = self.besides();
            self.write_refused(besides);
        }
        let numbers = record.as_in_shiftline().and_then(Record::numbers);
        let Some(numbers) = numbers.map(<[u16]>::to_vec) else {
            return self.write(record);
        };
        self.last_load = numbers.clone();
        // Flag 12 before the load that takes it away.
        let accepted = record.call(&self.drive).answer.number == 0;
        if idle && accepted && self.random.chance(700) {
            let refused = self.refused_body();
            self.write_refused(refused);
        }
        let same_load = match self.random.between(0, 2) {
            0 => record,
            1 => BenchRecord::Numbers(numbers),
            _ => self.block_of(&numbers),
        };
        self.write(same_load);
    }

    fn write(&mut self, record: BenchRecord) {
        self.written.extend_from_slice(&record.bytes());
        self.drive = record.call(&self.drive).drive;
    }

    /// Writes a record if it is refused here.
    fn write_refused(&mut self, record: BenchRecord) {
        if record.call(&self.drive).answer.number != 0 {
            self.write(record);
        }
    }

    /// What may come besides: a load by numbers or by a block.
    fn besides(&mut self) -> BenchRecord {
        match self.random.between(0, 5) {
            0 | 1 => self.any_numbers(),
            2 => self.refused_body(),
            3 => {
                let numbers = self.last_load.clone();
                self.block_of(&numbers)
            }
            _ => self.image_refused(),
        }
    }

    /// A load of any length that is refused: by its length, by a setting, or
    /// by the state.
    fn any_numbers(&mut self) -> BenchRecord {
        let random = &mut self.random;
        let length = if random.chance(200) {
            random.between(0, 255) as usize
        } else {
            random.pick(&LENGTHS)
        };
        let mut numbers: Vec<u16> = self
            .last_load
            .iter()
            .copied()
            .cycle()
            .take(length)
            .collect();
        if length > 0 && random.chance(500) {
            let spoiled = random.between(0, length as i64 - 1) as usize;
            numbers[spoiled] = random.pick(&[0, 1, 255, 256, 4096, 32768, 65535]);
        }
        if length == SENSORS_PLACE && random.chance(700) {
            numbers[SETTINGS] = random.pick(&BAD_SENSORS);
        }
        BenchRecord::Numbers(numbers)
    }

    /// A block load of these numbers.
    fn block_of(&mut self, numbers: &[u16]) -> BenchRecord {
        let block = self.random.between(0, BLOCKS as i64 - 1) as u8;
        let image = image_with(&mut self.random, block, numbers);
        BenchRecord::Block { block, image }
    }

    /// A block load of a body that load's own rules refuse.
    fn refused_body(&mut self) -> BenchRecord {
        let mut numbers = self.last_load.clone();
        numbers.truncate(SETTINGS);
        match self.random.between(0, 2) {
            0 => numbers[0] = 2,
            1 => numbers[SETTINGS - 1] = 101,
            _ => numbers.push(self.random.pick(&BAD_SENSORS)),
        }
        self.block_of(&numbers)
    }

    /// A block load that the image refuses, or the block asked for.
    fn image_refused(&mut self) -> BenchRecord {
        let random = &mut self.random;
        let bodies = any_bodies(random, &self.last_load);
        let filled = blocks(&bodies, true);
        let any = random.between(0, BLOCKS as i64 - 1) as u8;
        let block = match random.between(0, 7) {
            0 | 1 => random.pick(&NO_BLOCKS),
            2..=5 if !filled.is_empty() => random.pick(&filled) as u8,
            _ => any,
        };
        let image = match random.between(0, 19) {
            0..=8 => well_formed(&bodies),
            // A lent buffer that is longer than the image is none.
            9 => {
                let mut image = well_formed(&bodies);
                image.resize(MOST_BYTES, 0);
                image
            }
            _ => damaged(random, &bodies),
        };
        BenchRecord::Block { block, image }
    }
}

/// How the stream of a seed ends whose generated part ends between records: so,
/// or in a short N or B, or in a B that is too long.  The seeds that the
/// generator ends so are, of every seven, the last three.
fn ending(random: &mut Random, seed: u64) -> Vec<u8> {
    let numbers = BenchRecord::Numbers(vec![1; random.between(2, 255) as usize]).bytes();
    let image = vec![0; random.between(1, 100) as usize];
    let block = BenchRecord::Block { block: 0, image }.bytes();
    let too_long = random.pick(&[[8, 1], [8, 255], [16, 0], [255, 255]]);
    // A good record behind what is bad must not be answered.
    let behind = b"N\0".as_slice();
    match (seed / 7 * 3 + seed % 7) % 10 {
        0 => b"N".to_vec(),
        1 => numbers[..random.between(2, 3) as usize].to_vec(),
        2 => cut(random, &numbers, 4),
        3 => b"B".to_vec(),
        4 => block[..random.between(2, 3) as usize].to_vec(),
        5 => cut(random, &block, 4),
        6 => [b"B\0".as_slice(), &too_long, behind].concat(),
        7 => [b"B\0\x08\x01".as_slice(), &[0; MOST_BYTES + 1], behind].concat(),
        _ => Vec::new(),
    }
}

/// So many of a record's bytes at least, and one missing at least.
fn cut(random: &mut Random, whole: &[u8], least: i64) -> Vec<u8> {
    let kept = random.leaning(least, whole.len() as i64 - 1);
    whole[..kept as usize].to_vec()
}
