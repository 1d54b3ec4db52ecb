//! Images for streams: well-formed ones, and ones that are damaged in each way.
//!
//! They are drawn entry by entry and not made by the model's writer, so that
//! the reader is not tried on the writer's work alone.

use crate::damage::Entry;
use crate::image::{BLOCKS, BODY_COUNTS, ENTRIES_BYTES};
use crate::input::push_number;
use crate::random::Random;

/// The bytes of each block's body, where it has one.
pub type Bodies = Vec<Option<Vec<u8>>>;

/// Blocks that an image does not have.
pub const NO_BLOCKS: [u8; 6] = [15, 15, 16, 30, 128, 255];

#[derive(Clone, Debug)]
struct Sketch {
    entries: Vec<Entry>,
    /// What stands behind the entries.
    behind: Vec<u8>,
}

#[derive(Clone, Copy, Debug)]
enum Damage {
    GapBeforeTheFirst,
    GapBetween,
    BytesBehind,
    BodyCut,
    EntriesCut,
    NoBytes,
    EmptyWithOffset,
    EmptyWithLength,
    OtherKind,
    OtherLength,
    Shared,
    Overlapping,
    OtherOrder,
    OffsetsFromTheBodies,
    LowByteFirst,
    OneByteOfTheEntries,
}

const DAMAGES: [Damage; 16] = [
    Damage::GapBeforeTheFirst,
    Damage::GapBetween,
    Damage::BytesBehind,
    Damage::BodyCut,
    Damage::EntriesCut,
    Damage::NoBytes,
    Damage::EmptyWithOffset,
    Damage::EmptyWithLength,
    Damage::OtherKind,
    Damage::OtherLength,
    Damage::Shared,
    Damage::Overlapping,
    Damage::OtherOrder,
    Damage::OffsetsFromTheBodies,
    Damage::LowByteFirst,
    Damage::OneByteOfTheEntries,
];

const NO_ENTRY: Entry = Entry {
    kind: 0,
    offset: 0,
    length: 0,
};

/// Lengths of a body that is none; 304 and 306 have the low bytes of 48 and 50.
const OTHER_LENGTHS: [usize; 15] = [0, 0, 1, 2, 24, 25, 46, 47, 49, 51, 52, 96, 100, 304, 306];

/// Lengths of a gap, and of what stands behind: an entry's and a body's, too.
const GAPS: [usize; 7] = [1, 1, 2, 5, 48, 50, 75];

fn any_bytes(random: &mut Random, length: usize) -> Vec<u8> {
    (0..length).map(|_| random.draw() as u8).collect()
}

/// So many numbers: any, all alike, or given ones, where some are.
pub fn any_numbers(random: &mut Random, count: usize, given: &[u16]) -> Vec<u16> {
    match random.between(0, 5) {
        0 => vec![random.pick(&[0, 1, 65535]); count],
        1 | 2 if !given.is_empty() => given.iter().copied().cycle().take(count).collect(),
        _ => (0..count).map(|_| random.draw() as u16).collect(),
    }
}

fn body_of(numbers: &[u16]) -> Vec<u8> {
    numbers.iter().flat_map(|one| one.to_be_bytes()).collect()
}

/// How many of a thousand blocks are filled.
pub const SHARES: [i64; 7] = [0, 60, 60, 150, 150, 500, 1000];

/// The counts that the bodies of one image have: both, or all the longer one.
pub fn any_counts(random: &mut Random) -> &'static [usize] {
    random.pick(&[&BODY_COUNTS[..], &BODY_COUNTS[..], &BODY_COUNTS[1..]])
}

/// Bodies of any blocks, some of them with given numbers; few as a rule, so
/// that streams stay short.
pub fn any_bodies(random: &mut Random, given: &[u16]) -> Bodies {
    let share = random.pick(&SHARES);
    let counts = any_counts(random);
    let mut bodies: Bodies = vec![None; BLOCKS];
    for body in &mut bodies {
        if random.chance(share) {
            let count = random.pick(counts);
            *body = Some(body_of(&any_numbers(random, count, given)));
        }
    }
    bodies
}

/// A well-formed image in which a block holds these numbers.
pub fn image_with(random: &mut Random, block: u8, numbers: &[u16]) -> Vec<u8> {
    let mut bodies = any_bodies(random, numbers);
    bodies[block as usize] = Some(body_of(numbers));
    well_formed(&bodies)
}

/// The blocks of some bodies that are filled, or empty.
pub fn blocks(bodies: &Bodies, filled: bool) -> Vec<usize> {
    let wanted = |block: &usize| bodies[*block].is_some() == filled;
    (0..BLOCKS).filter(wanted).collect()
}

pub fn well_formed(bodies: &Bodies) -> Vec<u8> {
    Sketch::of(bodies).bytes()
}

/// An image that is damaged in one of the ways that these bodies leave room
/// for.
pub fn damaged(random: &mut Random, bodies: &Bodies) -> Vec<u8> {
    loop {
        let damage = random.pick(&DAMAGES);
        if let Some(image) = damaged_by(random, bodies, damage) {
            return image;
        }
    }
}

fn damaged_by(random: &mut Random, bodies: &Bodies, damage: Damage) -> Option<Vec<u8>> {
    let (filled, empty) = (blocks(bodies, true), blocks(bodies, false));
    let any_filled = (!filled.is_empty()).then(|| random.pick(&filled));
    let any_empty = (!empty.is_empty()).then(|| random.pick(&empty));
    // A filled block with another one before it, and that one.
    let pair = (filled.len() > 1).then(|| {
        let later = random.between(1, filled.len() as i64 - 1) as usize;
        (filled[later - 1], filled[later])
    });
    let gap = random.pick(&GAPS);
    let mut sketch = Sketch::of(bodies);
    match damage {
        Damage::GapBeforeTheFirst => {
            sketch.push_apart(*filled.first()?, any_bytes(random, gap));
        }
        Damage::GapBetween => sketch.push_apart(pair?.1, any_bytes(random, gap)),
        Damage::BytesBehind => sketch.behind.extend(any_bytes(random, gap)),
        Damage::BodyCut => {
            let length = sketch.behind.len();
            let kept = random.leaning(0, length.checked_sub(1)? as i64) as usize;
            sketch.behind.truncate(kept);
        }
        Damage::EntriesCut => {
            let kept = random.leaning(1, ENTRIES_BYTES as i64 - 1) as usize;
            return Some(sketch.bytes()[..kept].to_vec());
        }
        Damage::NoBytes => return Some(Vec::new()),
        Damage::EmptyWithOffset => {
            let next = ENTRIES_BYTES + sketch.behind.len();
            sketch.entries[any_empty?].offset = random.pick(&[1, ENTRIES_BYTES, next, 256, 65535]);
        }
        Damage::EmptyWithLength => {
            sketch.entries[any_empty?].length = random.pick(&[1, 48, 50, 256, 65535]);
        }
        Damage::OtherKind => {
            let entry = random.between(0, BLOCKS as i64 - 1) as usize;
            let kind = random.between(2, 255) as u8;
            sketch.entries[entry].kind = random.pick(&[2, 3, 31, 255, kind]);
        }
        Damage::OtherLength => {
            let mut bodies = bodies.clone();
            let length = random.pick(&OTHER_LENGTHS);
            bodies[any_filled?] = Some(any_bytes(random, length));
            sketch = Sketch::of(&bodies);
        }
        Damage::Shared => {
            let (earlier, later) = pair?;
            let mut bodies = bodies.clone();
            bodies[later] = None;
            sketch = Sketch::of(&bodies);
            sketch.entries[later] = sketch.entries[earlier];
        }
        Damage::Overlapping => {
            let (earlier, later) = pair?;
            let lengths = [earlier, later].map(|block| sketch.entries[block].length);
            let most = lengths[0].min(lengths[1]) as i64 - 1;
            sketch.pull_together(later, random.leaning(1, most) as usize);
        }
        Damage::OtherOrder => {
            let (earlier, later) = pair?;
            let mut order = filled;
            let place = order.iter().position(|&block| block == earlier)?;
            order.swap(place, place + 1);
            assert_eq!(order[place], later);
            sketch = Sketch::in_order(bodies, &order);
        }
        Damage::OffsetsFromTheBodies => {
            any_filled?;
            for block in filled {
                sketch.entries[block].offset -= ENTRIES_BYTES;
            }
        }
        Damage::LowByteFirst => {
            any_filled?;
            let swapped = |number: usize| number % 256 * 256 + number / 256;
            for entry in &mut sketch.entries {
                (entry.offset, entry.length) = (swapped(entry.offset), swapped(entry.length));
            }
        }
        Damage::OneByteOfTheEntries => {
            let mut bytes = sketch.bytes();
            let place = random.between(0, ENTRIES_BYTES as i64 - 1) as usize;
            bytes[place] ^= random.pick(&[1, 2, 128, 255]);
            return Some(bytes);
        }
    }
    Some(sketch.bytes())
}

impl Sketch {
    /// A well-formed one, if the bodies have lengths that are.
    fn of(bodies: &Bodies) -> Sketch {
        Sketch::in_order(bodies, &blocks(bodies, true))
    }

    /// The bodies behind each other in the order of these blocks.
    fn in_order(bodies: &Bodies, order: &[usize]) -> Sketch {
        let mut sketch = Sketch {
            entries: vec![NO_ENTRY; BLOCKS],
            behind: Vec::new(),
        };
        for &block in order {
            let body = bodies[block].as_ref().expect("a filled block");
            sketch.entries[block] = Entry {
                kind: 1,
                offset: ENTRIES_BYTES + sketch.behind.len(),
                length: body.len(),
            };
            sketch.behind.extend(body);
        }
        sketch
    }

    /// Puts bytes before the body of a block: it and what follows move.
    fn push_apart(&mut self, block: usize, gap: Vec<u8>) {
        let from = self.entries[block].offset;
        let length = gap.len();
        let place = from - ENTRIES_BYTES;
        self.behind.splice(place..place, gap);
        for entry in self.entries.iter_mut().filter(|one| one.offset >= from) {
            entry.offset += length;
        }
    }

    /// Lets the body of a block begin so many bytes earlier, in the body before
    /// it: it and what follows move.
    fn pull_together(&mut self, block: usize, by: usize) {
        let from = self.entries[block].offset;
        let place = from - ENTRIES_BYTES;
        self.behind.drain(place..place + by);
        for entry in self.entries.iter_mut().filter(|one| one.offset >= from) {
            entry.offset -= by;
        }
    }

    fn bytes(&self) -> Vec<u8> {
        let mut bytes = Vec::new();
        for entry in &self.entries {
            bytes.push(entry.kind);
            push_number(&mut bytes, entry.offset);
            push_number(&mut bytes, entry.length);
        }
        bytes.extend_from_slice(&self.behind);
        bytes
    }
}
