//! Parameter images (M-102, "Fifteen parameter blocks"): the reader, the
//! writer and the analog choice.
//!
//! How many blocks an image has stands here once, as `BLOCKS`; the rules below
//! speak of that many.

use crate::drive::Refusal;
use crate::load::SENSORS_PLACE;
use crate::settings::SETTINGS;

/// "Fifteen parameter blocks."
pub const BLOCKS: usize = 15;

/// "entries of kind (0 empty, 1 filled; one byte), then offset and length in
/// bytes, two bytes each, high first": entry by entry.
pub const ENTRY_BYTES: usize = 1 + 2 + 2;

/// "First come 15 entries": where "the bodies follow".
pub const ENTRIES_BYTES: usize = BLOCKS * ENTRY_BYTES;

/// What a body has: "24 or 25 numbers".
pub const BODY_COUNTS: [usize; 2] = [SETTINGS, SENSORS_PLACE];
pub const MOST_NUMBERS: usize = SENSORS_PLACE;

/// Bytes of the longest image: every block filled with 25 numbers.
pub const LONGEST_IMAGE: usize = ENTRIES_BYTES + BLOCKS * 2 * MOST_NUMBERS;

/// "Count above 4095 is 1."
pub const MOST_COUNT: i64 = 4095;

/// One block as the writer is handed it: marked empty or filled, with a count
/// and numbers, of which the first so many are the body.
#[derive(Clone, Debug, PartialEq, Eq)]
pub struct Block {
    pub filled: bool,
    pub count: usize,
    pub numbers: [u16; MOST_NUMBERS],
}

impl Block {
    /// An empty one; its count and numbers mean nothing.
    pub const EMPTY: Block = Block {
        filled: false,
        count: 0,
        numbers: [0; MOST_NUMBERS],
    };

    /// A filled one with this body, of 25 numbers at most.
    pub fn of(body: &[u16]) -> Block {
        let mut block = Block {
            filled: true,
            count: body.len(),
            ..Block::EMPTY
        };
        block.numbers[..body.len()].copy_from_slice(body);
        block
    }
}

/// What the reader answers.
#[derive(Clone, Copy, Debug, PartialEq, Eq)]
pub struct Found<'image> {
    pub number: u8,
    pub place: u8,
    /// "the part of the caller's image that holds the block; refused, an empty
    /// part"
    pub part: &'image [u8],
}

/// What the writer answers beside the lent bytes: without the length nobody
/// knows how much of these is the image.
#[derive(Clone, Copy, Debug, PartialEq, Eq)]
pub struct Written {
    pub number: u8,
    pub place: u8,
    pub length: usize,
}

/// What the analog choice answers.
#[derive(Clone, Copy, Debug, PartialEq, Eq)]
pub struct Chosen {
    pub number: u8,
    pub place: u8,
    pub block: i64,
}

/// The reader.  "Refusals: 7 image malformed, then 8 block above 14, then 9
/// block empty".  The place is "the argument's, from 1, where the number is 1
/// and otherwise 0".
pub fn read_block(image: &[u8], block: usize) -> Found<'_> {
    let (number, part): (u8, &[u8]) = match bodies(image) {
        // "An image that breaks any of this is malformed": the image, and not
        // the block that was asked for.
        None => (Refusal::ImageMalformed as u8, &[]),
        Some(_) if block > BLOCKS - 1 => (Refusal::NoSuchBlock as u8, &[]),
        Some(bodies) => match bodies[block] {
            None => (Refusal::BlockEmpty as u8, &[]),
            Some(part) => (0, part),
        },
    };
    Found {
        number,
        place: 0,
        part,
    }
}

/// The body of each block, where it has one; `None` where the image is
/// malformed.
fn bodies(image: &[u8]) -> Option<Vec<Option<&[u8]>>> {
    // "First come 15 entries"
    let entries = image.get(..ENTRIES_BYTES)?;
    // "The bodies follow in block order without gaps": each begins where the
    // one before it ends, the first where the entries end.
    let mut end = ENTRIES_BYTES;
    let mut bodies = Vec::new();
    for entry in entries.chunks(ENTRY_BYTES) {
        // "kind (0 empty, 1 filled; one byte), then offset and length in bytes,
        // two bytes each, high first"
        let kind = entry[0];
        let offset = high_first(&entry[1..3]);
        let length = high_first(&entry[3..5]);
        bodies.push(match kind {
            // "An empty entry is all zeros"
            0 if offset == 0 && length == 0 => None,
            // "24 or 25 numbers"; "offsets count from the image's first byte"
            1 if is_body_length(length) && offset == end => {
                end += length;
                Some(image.get(offset..end)?)
            }
            _ => return None,
        });
    }
    // "and nothing else follows"
    (end == image.len()).then_some(bodies)
}

/// Whether so many bytes are "24 or 25 numbers", of two bytes each.
fn is_body_length(length: usize) -> bool {
    BODY_COUNTS.iter().any(|count| length == 2 * count)
}

/// A number of two bytes, "high byte first".
fn high_first(two: &[u8]) -> usize {
    two[0] as usize * 256 + two[1] as usize
}

/// The two bytes of a number, the high one first.
fn two_bytes(number: usize) -> [u8; 2] {
    assert!(number < 65536, "{number} has more than two bytes");
    [(number / 256) as u8, (number % 256) as u8]
}

/// The numbers of a body, "high byte first".
pub fn numbers_of(body: &[u8]) -> Vec<u16> {
    body.chunks(2).map(|two| high_first(two) as u16).collect()
}

/// The writer.  "Writing: a body of another length is 2 at block + 1, then too
/// few lent bytes is 5."  "A refusal changes .. no lent byte", and "a refused
/// value is 0".
pub fn write_image(blocks: &[Block; BLOCKS], lent: &mut [u8]) -> Written {
    let refused = |refusal: Refusal, place: usize| Written {
        number: refusal as u8,
        place: place as u8,
        length: 0,
    };
    let other_length = |block: &Block| block.filled && !BODY_COUNTS.contains(&block.count);
    if let Some(block) = blocks.iter().position(other_length) {
        return refused(Refusal::BadSetting, block + 1);
    }
    let image = image_of(blocks);
    if lent.len() < image.len() {
        return refused(Refusal::NoLineOrImage, 0);
    }
    // Lent bytes after the image stand.
    lent[..image.len()].copy_from_slice(&image);
    Written {
        number: 0,
        place: 0,
        length: image.len(),
    }
}

/// The image of blocks whose bodies have a length that is one.
fn image_of(blocks: &[Block; BLOCKS]) -> Vec<u8> {
    let mut entries = Vec::new();
    let mut bodies = Vec::new();
    for block in blocks {
        if !block.filled {
            // "An empty entry is all zeros"
            entries.extend([0; ENTRY_BYTES]);
            continue;
        }
        entries.push(1);
        entries.extend(two_bytes(ENTRIES_BYTES + bodies.len()));
        entries.extend(two_bytes(2 * block.count));
        for &number in &block.numbers[..block.count] {
            bodies.extend(two_bytes(number as usize));
        }
    }
    [entries, bodies].concat()
}

/// "The analog choice is floor(count x 15 / 4096)."  "Count above 4095 is 1":
/// at the argument's place, from 1, and the refused block is 0.
pub fn analog_choice(count: u16) -> Chosen {
    let count = count as i64;
    if count > MOST_COUNT {
        return Chosen {
            number: Refusal::FieldOutOfRange as u8,
            place: 1,
            block: 0,
        };
    }
    Chosen {
        number: 0,
        place: 0,
        block: count * BLOCKS as i64 / 4096,
    }
}
