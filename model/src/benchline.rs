//! The program `benchline` of the page "What the bench programs read and
//! print": any call of the supervisor, whole answers.

use crate::drive::{Answer, Drive, Reply};
use crate::input::{push_block_and_image, push_number, Input};
use crate::record::{read_head, record_length, Head, Record};

/// The rows of its table.
#[derive(Clone, Debug, PartialEq, Eq)]
pub enum BenchRecord {
    /// "L, C, T | as in `shiftline`", and "M | as in `shiftline`"
    AsInShiftline(Record),
    /// "N | count (1 byte), then so many numbers | load of any length"
    Numbers(Vec<u16>),
    /// "B | block (1 byte), length (at most 2048, more is bad), so many bytes |
    /// block load from this image"
    Block { block: u8, image: Vec<u8> },
}

/// What stands at the head of the remaining input.
#[derive(Clone, Debug, PartialEq, Eq)]
pub enum BenchHead {
    /// "Input that ends between records adds no line."
    End,
    /// A whole record and its bytes.
    Whole(BenchRecord, usize),
    /// "A record whose letter is unknown, or that the input cuts short"
    Bad,
}

pub fn read_bench_head(input: &[u8]) -> BenchHead {
    let read = match input.first() {
        Some(b'N') => read_numbers,
        Some(b'B') => read_block_load,
        _ => return read_as_in_shiftline(input),
    };
    let mut rest = Input::new(&input[1..]);
    match read(&mut rest) {
        Some(record) => BenchHead::Whole(record, input.len() - rest.rest().len()),
        None => BenchHead::Bad,
    }
}

fn read_as_in_shiftline(input: &[u8]) -> BenchHead {
    match read_head(input) {
        Head::End => BenchHead::End,
        Head::Unknown(_) | Head::Short(_) => BenchHead::Bad,
        Head::Whole(record) => {
            let length = record_length(record.letter()).expect("a known letter");
            BenchHead::Whole(BenchRecord::AsInShiftline(record), length)
        }
    }
}

/// What follows the letter N: "count (1 byte), then so many numbers".
fn read_numbers(rest: &mut Input) -> Option<BenchRecord> {
    let count = rest.byte()? as usize;
    rest.numbers(count).map(BenchRecord::Numbers)
}

/// What follows the letter B: "block (1 byte), length (at most 2048, more is
/// bad), so many bytes".
fn read_block_load(rest: &mut Input) -> Option<BenchRecord> {
    let (block, image) = rest.block_and_image()?;
    Some(BenchRecord::Block { block, image })
}

impl BenchRecord {
    /// The record of `shiftline` that it is, where it is one.
    pub fn as_in_shiftline(&self) -> Option<&Record> {
        match self {
            BenchRecord::AsInShiftline(record) => Some(record),
            BenchRecord::Numbers(_) | BenchRecord::Block { .. } => None,
        }
    }

    /// Makes the call of the record.
    pub fn call(&self, drive: &Drive) -> Reply {
        match self {
            BenchRecord::AsInShiftline(record) => record.call(drive),
            BenchRecord::Numbers(numbers) => drive.load(numbers),
            BenchRecord::Block { block, image } => drive.load_block(image, *block as usize),
        }
    }

    pub fn bytes(&self) -> Vec<u8> {
        match self {
            BenchRecord::AsInShiftline(record) => record.bytes(),
            BenchRecord::Numbers(numbers) => {
                let count = u8::try_from(numbers.len()).expect("a byte counts them");
                let mut bytes = vec![b'N', count];
                for &number in numbers {
                    push_number(&mut bytes, number as usize);
                }
                bytes
            }
            BenchRecord::Block { block, image } => {
                let mut bytes = vec![b'B'];
                push_block_and_image(&mut bytes, *block, image);
                bytes
            }
        }
    }
}

/// "A motor's line: number, place, state, gate, live word, reference, position,
/// angle, first offset, second offset, retries; from M-105 on the letter of the
/// sample's fate, a full stop for anything but an accepted cycle"; "separated by
/// single spaces, ended by a line feed"
pub fn motor_line(answer: &Answer) -> String {
    format!(
        "{} {} {} {} {} {} {} {} {} {} {} {}\n",
        answer.number,
        answer.place,
        answer.state,
        answer.gate,
        answer.live_word,
        answer.speed_reference,
        answer.position,
        answer.angle,
        answer.offsets.first,
        answer.offsets.second,
        answer.retries_used,
        answer.fate_letter(),
    )
}

/// All the lines for all the records of the input: "one line for each record,
/// after it"; what is no record "prints the line `?` and ends the run".
pub fn run(input: &[u8]) -> Vec<u8> {
    let mut drive = Drive::power_up();
    let mut lines = Vec::new();
    let mut rest = input;
    loop {
        match read_bench_head(rest) {
            BenchHead::End => return lines,
            BenchHead::Whole(record, length) => {
                rest = &rest[length..];
                let reply = record.call(&drive);
                lines.extend_from_slice(motor_line(&reply.answer).as_bytes());
                drive = reply.drive;
            }
            BenchHead::Bad => {
                lines.extend_from_slice(b"?\n");
                return lines;
            }
        }
    }
}
