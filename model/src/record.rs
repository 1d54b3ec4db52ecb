//! Records of the program: reading and writing them.

use crate::cycle::{CycleFields, CYCLE_RULES};
use crate::drive::{Drive, Reply};
use crate::fields::{FieldRule, Form};
use crate::hall::Layout;
use crate::load::SENSORS_PLACE;
use crate::settings::SETTINGS;
use crate::tick_fields::{TickFields, TICK_RULES};

#[derive(Clone, Debug, PartialEq, Eq)]
pub enum Record {
    /// "L and 24 numbers"
    Load([u16; SETTINGS]),
    /// M-101: "A program record M carries 25."
    LoadWithSensors([u16; SENSORS_PLACE]),
    /// "C, pattern byte and two numbers"
    Cycle(CycleFields),
    /// "T, three bytes and eight numbers, in field order"
    Tick(TickFields),
}

/// What stands at the head of the remaining input.
#[derive(Clone, Debug, PartialEq, Eq)]
pub enum Head {
    /// "Input that ends between records adds no line."
    End,
    /// A whole record.
    Whole(Record),
    /// "unknown or short record"
    Unknown(u8),
    Short(u8),
}

/// Bytes of a whole record, its letter included.
pub fn record_length(letter: u8) -> Option<usize> {
    match letter {
        b'L' => Some(1 + SETTINGS * Form::Number.bytes()),
        b'M' => Some(1 + SENSORS_PLACE * Form::Number.bytes()),
        b'C' => Some(1 + bytes_of(&CYCLE_RULES)),
        b'T' => Some(1 + bytes_of(&TICK_RULES)),
        _ => None,
    }
}

fn bytes_of(rules: &[FieldRule]) -> usize {
    rules.iter().map(|rule| rule.form.bytes()).sum()
}

/// Reads the record at the head of the input.
pub fn read_head(input: &[u8]) -> Head {
    let Some(&letter) = input.first() else {
        return Head::End;
    };
    let Some(length) = record_length(letter) else {
        return Head::Unknown(letter);
    };
    if input.len() < length {
        return Head::Short(letter);
    }
    let bytes = &input[1..length];
    match letter {
        b'L' => Head::Whole(Record::Load(read_numbers(bytes))),
        b'M' => Head::Whole(Record::LoadWithSensors(read_numbers(bytes))),
        b'C' => {
            let mut fields = CycleFields::default();
            read_fields(&CYCLE_RULES, bytes, fields.each_mut());
            Head::Whole(Record::Cycle(fields))
        }
        _ => {
            let mut fields = TickFields::default();
            read_fields(&TICK_RULES, bytes, fields.each_mut());
            Head::Whole(Record::Tick(fields))
        }
    }
}

fn read_numbers<const N: usize>(bytes: &[u8]) -> [u16; N] {
    let mut numbers = [0; N];
    for (number, two) in numbers.iter_mut().zip(bytes.chunks(Form::Number.bytes())) {
        *number = Form::Number.read(two) as u16;
    }
    numbers
}

fn read_fields<const N: usize>(rules: &[FieldRule; N], bytes: &[u8], fields: [&mut i64; N]) {
    let mut rest = bytes;
    for (rule, field) in rules.iter().zip(fields) {
        *field = rule.form.read(rest);
        rest = &rest[rule.form.bytes()..];
    }
}

fn write_numbers(numbers: &[u16], bytes: &mut Vec<u8>) {
    for number in numbers {
        Form::Number.write(*number as i64, bytes);
    }
}

fn write_fields<const N: usize>(rules: &[FieldRule; N], values: [i64; N], bytes: &mut Vec<u8>) {
    for (rule, value) in rules.iter().zip(values) {
        rule.form.write(value, bytes);
    }
}

impl Record {
    pub fn letter(&self) -> u8 {
        match self {
            Record::Load(_) => b'L',
            Record::LoadWithSensors(_) => b'M',
            Record::Cycle(_) => b'C',
            Record::Tick(_) => b'T',
        }
    }

    /// The bytes of the record.
    pub fn bytes(&self) -> Vec<u8> {
        let mut bytes = vec![self.letter()];
        match self {
            Record::Load(numbers) => write_numbers(numbers, &mut bytes),
            Record::LoadWithSensors(numbers) => write_numbers(numbers, &mut bytes),
            Record::Cycle(fields) => write_fields(&CYCLE_RULES, fields.each(), &mut bytes),
            Record::Tick(fields) => write_fields(&TICK_RULES, fields.each(), &mut bytes),
        }
        bytes
    }

    /// The numbers of a load, 24 or 25; None of another record.
    pub fn numbers(&self) -> Option<&[u16]> {
        match self {
            Record::Load(numbers) => Some(numbers),
            Record::LoadWithSensors(numbers) => Some(numbers),
            Record::Cycle(_) | Record::Tick(_) => None,
        }
    }

    /// The places of its fields that are out of range with these sensors,
    /// from 1; a load has settings, and no fields.
    pub fn bad_fields(&self, layout: &Layout) -> Vec<u8> {
        match self {
            Record::Load(_) | Record::LoadWithSensors(_) => Vec::new(),
            Record::Cycle(fields) => fields.bad_fields(layout),
            Record::Tick(fields) => fields.bad_fields(),
        }
    }

    /// Makes the call of the record.
    pub fn call(&self, drive: &Drive) -> Reply {
        match self {
            Record::Load(numbers) => drive.load(numbers),
            Record::LoadWithSensors(numbers) => drive.load(numbers),
            Record::Cycle(fields) => drive.cycle(fields),
            Record::Tick(fields) => drive.tick(fields),
        }
    }
}
