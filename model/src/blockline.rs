//! The program `blockline` of the page "What the bench programs read and
//! print": images.

use crate::image::{analog_choice, numbers_of, read_block, write_image};
use crate::image::{Block, BLOCKS, MOST_NUMBERS};
use crate::input::{push_block_and_image, push_number, Input};

/// The rows of its table.
#[derive(Clone, Debug, PartialEq, Eq)]
pub enum BlockRecord {
    /// "R | block (1 byte), length (at most 2048, more is bad), so many bytes"
    Read { block: u8, image: Vec<u8> },
    /// "A | count"
    Choose { count: u16 },
    /// "W | how many bytes are lent (at most 2048, more is bad), what they hold
    /// (1 byte), then for each of the 15 .. blocks: .."
    Write {
        lent: usize,
        held: u8,
        blocks: Box<[Block; BLOCKS]>,
    },
}

/// What stands at the head of the remaining input.
#[derive(Clone, Debug, PartialEq, Eq)]
pub enum BlockHead {
    /// "Input that ends between records adds no line."
    End,
    /// A whole record and its bytes.
    Whole(BlockRecord, usize),
    /// "A record whose letter is unknown, or that the input cuts short, or that
    /// a rule below calls bad"
    Bad,
}

pub fn read_block_head(input: &[u8]) -> BlockHead {
    let mut rest = Input::new(input);
    let Some(letter) = rest.byte() else {
        return BlockHead::End;
    };
    let record = match letter {
        b'R' => rest
            .block_and_image()
            .map(|(block, image)| BlockRecord::Read { block, image }),
        b'A' => rest.number().map(|count| BlockRecord::Choose { count }),
        b'W' => read_write(&mut rest),
        _ => None,
    };
    match record {
        Some(record) => BlockHead::Whole(record, input.len() - rest.rest().len()),
        None => BlockHead::Bad,
    }
}

fn read_write(rest: &mut Input) -> Option<BlockRecord> {
    let lent = rest.length()?;
    let held = rest.byte()?;
    let mut blocks = Box::new([Block::EMPTY; BLOCKS]);
    for block in blocks.iter_mut() {
        *block = read_one(rest)?;
    }
    Some(BlockRecord::Write { lent, held, blocks })
}

/// "0 empty or 1 filled (more is bad), count (1 byte), the first 25 at most of
/// so many numbers (a count of 200 is followed by 25). An empty block has its
/// count and numbers too; they mean nothing"
fn read_one(rest: &mut Input) -> Option<Block> {
    let filled = match rest.byte()? {
        0 => false,
        1 => true,
        _ => return None,
    };
    let count = rest.byte()? as usize;
    let mut numbers = [0; MOST_NUMBERS];
    let given = rest.numbers(count.min(MOST_NUMBERS))?;
    numbers[..given.len()].copy_from_slice(&given);
    Some(Block {
        filled,
        count,
        numbers,
    })
}

impl BlockRecord {
    pub fn bytes(&self) -> Vec<u8> {
        let mut bytes = Vec::new();
        match self {
            BlockRecord::Read { block, image } => {
                bytes.push(b'R');
                push_block_and_image(&mut bytes, *block, image);
            }
            BlockRecord::Choose { count } => {
                bytes.push(b'A');
                push_number(&mut bytes, *count as usize);
            }
            BlockRecord::Write { lent, held, blocks } => {
                bytes.push(b'W');
                push_number(&mut bytes, *lent);
                bytes.push(*held);
                for block in blocks.iter() {
                    let count = u8::try_from(block.count).expect("a byte counts them");
                    bytes.extend([u8::from(block.filled), count]);
                    for &number in block.numbers.iter().take(block.count) {
                        push_number(&mut bytes, number as usize);
                    }
                }
            }
        }
        bytes
    }

    /// Its line, by the column "prints".
    pub fn line(&self) -> String {
        match self {
            // "number, place, then the numbers of the body that the reader gave
            // back"
            BlockRecord::Read { block, image } => {
                let found = read_block(image, *block as usize);
                let numbers = numbers_of(found.part).into_iter().map(i64::from);
                line_of([found.number, found.place].map(i64::from), numbers)
            }
            // "number, place, block"
            BlockRecord::Choose { count } => {
                let chosen = analog_choice(*count);
                line_of([chosen.number, chosen.place].map(i64::from), [chosen.block])
            }
            // "number, place, length of the image, then every lent byte"
            BlockRecord::Write { lent, held, blocks } => {
                let mut bytes = vec![*held; *lent];
                let written = write_image(blocks, &mut bytes);
                let length = [written.length as i64].into_iter();
                let shown = length.chain(bytes.into_iter().map(i64::from));
                line_of([written.number, written.place].map(i64::from), shown)
            }
        }
    }
}

/// "decimal numbers .. separated by single spaces, ended by a line feed"
fn line_of(number_and_place: [i64; 2], others: impl IntoIterator<Item = i64>) -> String {
    let all = number_and_place.into_iter().chain(others);
    let words: Vec<String> = all.map(|value| value.to_string()).collect();
    words.join(" ") + "\n"
}

/// All the lines for all the records of the input: "one line for each record,
/// after it"; what is no record "prints the line `?` and ends the run".
pub fn run(input: &[u8]) -> Vec<u8> {
    let mut lines = Vec::new();
    let mut rest = input;
    loop {
        match read_block_head(rest) {
            BlockHead::End => return lines,
            BlockHead::Whole(record, length) => {
                rest = &rest[length..];
                lines.extend_from_slice(record.line().as_bytes());
            }
            BlockHead::Bad => {
                lines.extend_from_slice(b"?\n");
                return lines;
            }
        }
    }
}
