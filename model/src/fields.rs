//! Fields of a cycle and a tick: their ranges, and their bytes in a record.

/// "0..4095": the most of a level, a sample and a torque.
pub const MOST_LEVEL: i64 = 4095;

/// The rule of one field: the model states its range here and nowhere else.
#[derive(Clone, Copy, Debug, PartialEq, Eq)]
pub struct FieldRule {
    pub name: &'static str,
    pub form: Form,
    pub least: i64,
    pub most: i64,
}

/// What a record holds of a field.  "Numbers are two bytes, high first, signed
/// ones in two's complement."
#[derive(Clone, Copy, Debug, PartialEq, Eq)]
pub enum Form {
    Byte,
    Number,
    Signed,
}

impl FieldRule {
    pub const fn new(name: &'static str, form: Form, least: i64, most: i64) -> FieldRule {
        FieldRule {
            name,
            form,
            least,
            most,
        }
    }

    pub fn keeps(&self, value: i64) -> bool {
        self.least <= value && value <= self.most
    }

    /// Whether a record can hold a value that breaks it.
    pub fn can_be_broken(&self) -> bool {
        let (least, most) = self.form.ends();
        least < self.least || self.most < most
    }
}

/// The places of the fields that break their rules, from 1.
pub fn bad_places(rules: &[FieldRule], values: &[i64]) -> Vec<u8> {
    let places = 1..=rules.len() as u8;
    let judged = places.zip(rules.iter().zip(values));
    judged
        .filter(|(_, (rule, value))| !rule.keeps(**value))
        .map(|(place, _)| place)
        .collect()
}

impl Form {
    pub const fn bytes(self) -> usize {
        match self {
            Form::Byte => 1,
            Form::Number | Form::Signed => 2,
        }
    }

    /// Least and most that its bytes hold.
    pub fn ends(self) -> (i64, i64) {
        match self {
            Form::Byte => (0, 255),
            Form::Number => (0, 65535),
            Form::Signed => (-32768, 32767),
        }
    }

    /// The value at the head of the bytes.
    pub fn read(self, bytes: &[u8]) -> i64 {
        match self {
            Form::Byte => bytes[0] as i64,
            Form::Number => unsigned(bytes),
            Form::Signed if unsigned(bytes) >= 32768 => unsigned(bytes) - 65536,
            Form::Signed => unsigned(bytes),
        }
    }

    /// Adds the bytes of a value; one that they cannot hold cannot be written,
    /// and the generator never asks for it.
    pub fn write(self, value: i64, bytes: &mut Vec<u8>) {
        let (least, most) = self.ends();
        assert!(least <= value && value <= most, "{value} is no {self:?}");
        let number = value.rem_euclid(65536);
        if self != Form::Byte {
            bytes.push((number / 256) as u8);
        }
        bytes.push((number % 256) as u8);
    }
}

fn unsigned(bytes: &[u8]) -> i64 {
    bytes[0] as i64 * 256 + bytes[1] as i64
}
