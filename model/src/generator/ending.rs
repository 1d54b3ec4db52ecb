//! How a stream ends: between records, or in an unknown or short record.

use super::choose_load::{load_of, TWO, UNTOLD};
use super::Generator;
use crate::record::{record_length, Record};
use crate::state::State;

#[derive(Clone, Copy, Debug, PartialEq, Eq)]
pub enum Ending {
    BetweenRecords,
    UnknownLetter,
    ShortLoad,
    ShortLoadWithSensors,
    ShortCycle,
    ShortTick,
}

impl Ending {
    pub fn of_seed(seed: u64) -> Ending {
        if super::stays_in_idle(seed) {
            return if (seed / 40).is_multiple_of(2) {
                Ending::ShortTick
            } else {
                Ending::ShortCycle
            };
        }
        match seed % 7 {
            0 => Ending::UnknownLetter,
            1 if (seed / 7).is_multiple_of(2) => Ending::ShortLoad,
            1 => Ending::ShortLoadWithSensors,
            2 => Ending::ShortCycle,
            3 => Ending::ShortTick,
            _ => Ending::BetweenRecords,
        }
    }

    /// Records that the ending adds.
    pub fn records(self) -> i64 {
        match self {
            Ending::BetweenRecords => 0,
            _ => 1,
        }
    }
}

impl Generator {
    pub(super) fn finish(&mut self, ending: Ending) {
        match ending {
            Ending::BetweenRecords => {}
            Ending::UnknownLetter => self.finish_unknown(),
            Ending::ShortLoad => {
                let record = load_of(self.good_settings(), UNTOLD);
                self.finish_short(record);
            }
            Ending::ShortLoadWithSensors => {
                let record = load_of(self.good_settings(), TWO);
                // Half of the time an L would be whole.
                let whole_with_24 = record_length(b'L').expect("L is known") as i64;
                let least = self.random.pick(&[1, whole_with_24]);
                self.finish_after(record, least);
            }
            Ending::ShortCycle => {
                let record = self.cycle_record();
                self.finish_short(record);
            }
            Ending::ShortTick => {
                let record = Record::Tick(self.quiet_tick(super::choose_tick::Command::Any));
                self.finish_short(record);
            }
        }
    }

    /// The letter and some of the other bytes, at least one missing.
    fn finish_short(&mut self, record: Record) {
        self.finish_after(record, 1);
    }

    /// So many of a record's bytes at least, and one missing at least.
    fn finish_after(&mut self, record: Record, least: i64) {
        let bytes = record.bytes();
        let most = bytes.len() as i64 - 1;
        let kept = self.random.leaning(least, most) as usize;
        self.stream.extend_from_slice(&bytes[..kept]);
    }

    /// Any letter but the four; small ones are the likeliest slip, and B and N
    /// are letters of `benchline` alone.  Half of the time a whole good record
    /// follows: number 6 "ends the run", so it must not be read.
    fn finish_unknown(&mut self) {
        let mut letter = self.random.pick(b"lmctBNSX\n\0\xFF");
        if self.random.chance(500) {
            letter = self.random.between(0, 255) as u8;
        }
        if record_length(letter).is_some() {
            letter = b'?';
        }
        self.stream.push(letter);
        if self.random.chance(500) {
            let record = if self.drive.state == State::Stop {
                self.good_load()
            } else {
                self.cycle_record()
            };
            self.stream.extend_from_slice(&record.bytes());
        }
    }
}
