//! Counts of what streams for `benchline` reach.

mod block_loads;

use crate::benchline::{read_bench_head, BenchHead, BenchRecord};
use crate::counts::Counts;
use crate::drive::{Answer, Drive, Reply};
use crate::fate_rows::{self, FateWatch};
use crate::hall::{Layout, THREE_SENSORS, TWO_SENSORS};
use crate::load::SENSORS_PLACE;
use crate::record::{record_length, Record};
use crate::settings::SETTINGS;
use block_loads::FlagWatch;

/// Whether a load has a setting 25 "outside 2..3".
fn has_bad_sensors(numbers: &[u16]) -> bool {
    let sensors = numbers.get(SETTINGS);
    sensors.is_some_and(|&sensors| Layout::of(sensors).is_none())
}

/// The letters of its records.
const LETTERS: [char; 6] = ['L', 'M', 'N', 'B', 'C', 'T'];

fn letter(record: &BenchRecord) -> char {
    match record {
        BenchRecord::AsInShiftline(record) => record.letter() as char,
        BenchRecord::Numbers(_) => 'N',
        BenchRecord::Block { .. } => 'B',
    }
}

/// Names that are counted.
const LIST: [&str; 33] = [
    "N accepted in IDLE",
    "N accepted in STOP",
    "N accepted with 25 numbers, two sensors",
    "N accepted with 25 numbers, three sensors",
    "N accepted with 24 numbers after two sensors",
    "M accepted with two sensors",
    "M accepted with three sensors",
    "N refused 2 at 0 with 0 numbers",
    "N refused 2 at 0 with 23 numbers",
    "N refused 2 at 0 with 26 numbers",
    "N refused 2 at 0 with 255 numbers",
    "N refused 2 by a setting",
    "N refused 2 at 25",
    "N refused 2 before place 25 with a bad setting 25",
    "M refused 2 at 25",
    "M refused 2 before place 25 with a bad setting 25",
    "N refused 4 with 24 numbers",
    "N refused 4 with 25 numbers",
    "N refused 4 with another length",
    "C refused 1 at 1 with two sensors, pattern 4 to 7",
    "short N: the letter alone",
    "short N: no number whole",
    "short N: in its numbers",
    "short M: 24 numbers whole",
    "? after an unknown or a short record of shiftline",
    "end between records",
    "place above 0 by a load",
    "place above 0 by a cycle",
    "place above 0 by a tick",
    "offsets that differ",
    "offsets that differ with two sensors",
    "retries above 0",
    "retries above 1",
];

pub struct BenchReached {
    counts: Counts,
    flag_watch: FlagWatch,
    fate_watch: FateWatch,
}

impl Default for BenchReached {
    fn default() -> BenchReached {
        let mut list = LIST.map(str::to_string).to_vec();
        list.extend(block_loads::list());
        list.extend(fate_rows::list(&LETTERS, &[]));
        BenchReached {
            counts: Counts::new("benchline", list),
            flag_watch: FlagWatch::default(),
            fate_watch: FateWatch::default(),
        }
    }
}

impl BenchReached {
    pub fn add_stream(&mut self, stream: &[u8]) {
        self.flag_watch = FlagWatch::default();
        self.fate_watch = FateWatch::default();
        let mut drive = Drive::power_up();
        let mut rest = stream;
        loop {
            match read_bench_head(rest) {
                BenchHead::End => return self.count("end between records"),
                BenchHead::Bad => return self.bad(rest),
                BenchHead::Whole(record, length) => {
                    rest = &rest[length..];
                    let reply = record.call(&drive);
                    self.whole(&record, &drive, &reply.answer);
                    self.flag_12(&record, &drive, &reply);
                    self.fate(&record, &drive, &reply);
                    drive = reply.drive;
                }
            }
        }
    }

    fn bad(&mut self, rest: &[u8]) {
        let whole_with_24 = record_length(b'L').expect("L is known");
        self.count(match rest {
            [b'N'] => "short N: the letter alone",
            [b'N', _] | [b'N', _, _] => "short N: no number whole",
            [b'N', ..] => "short N: in its numbers",
            [b'B', ..] => block_loads::bad(rest),
            [b'M', ..] if rest.len() >= whole_with_24 => "short M: 24 numbers whole",
            _ => "? after an unknown or a short record of shiftline",
        });
    }

    fn whole(&mut self, record: &BenchRecord, before: &Drive, answer: &Answer) {
        match record {
            BenchRecord::Numbers(numbers) => self.numbers(numbers, before, answer),
            BenchRecord::AsInShiftline(record) => self.as_in_shiftline(record, before, answer),
            BenchRecord::Block { block, image } => {
                self.block_load(image, *block as usize, before, answer);
            }
        }
        if answer.place > 0 {
            self.count(match record {
                BenchRecord::AsInShiftline(Record::Cycle(_)) => "place above 0 by a cycle",
                BenchRecord::AsInShiftline(Record::Tick(_)) => "place above 0 by a tick",
                _ => "place above 0 by a load",
            });
        }
        if answer.offsets.first != answer.offsets.second {
            self.count("offsets that differ");
            if *before.layout == TWO_SENSORS {
                self.count("offsets that differ with two sensors");
            }
        }
        if answer.retries_used > 0 {
            self.count("retries above 0");
        }
        if answer.retries_used > 1 {
            self.count("retries above 1");
        }
    }

    fn fate(&mut self, record: &BenchRecord, before: &Drive, reply: &Reply) {
        let letter = letter(record);
        let fates = &mut self.fate_watch;
        for name in fates.names(letter, before, &reply.drive, &reply.answer) {
            self.count(name);
        }
    }

    fn numbers(&mut self, numbers: &[u16], before: &Drive, answer: &Answer) {
        let after_two = *before.layout == TWO_SENSORS;
        if answer.number == 0 {
            self.count(match before.state.number() {
                0 => "N accepted in IDLE",
                _ => "N accepted in STOP",
            });
        }
        match (answer.number, answer.place, numbers.len()) {
            (0, _, SETTINGS) if after_two => {
                self.count("N accepted with 24 numbers after two sensors");
            }
            (0, _, SENSORS_PLACE) => self.count(match numbers[SETTINGS] {
                2 => "N accepted with 25 numbers, two sensors",
                _ => "N accepted with 25 numbers, three sensors",
            }),
            (2, 0, 0) => self.count("N refused 2 at 0 with 0 numbers"),
            (2, 0, 23) => self.count("N refused 2 at 0 with 23 numbers"),
            (2, 0, 26) => self.count("N refused 2 at 0 with 26 numbers"),
            (2, 0, 255) => self.count("N refused 2 at 0 with 255 numbers"),
            (2, 25, _) => self.count("N refused 2 at 25"),
            (2, 1.., _) => {
                self.count("N refused 2 by a setting");
                if has_bad_sensors(numbers) {
                    self.count("N refused 2 before place 25 with a bad setting 25");
                }
            }
            (4, _, SETTINGS) => self.count("N refused 4 with 24 numbers"),
            (4, _, SENSORS_PLACE) => self.count("N refused 4 with 25 numbers"),
            (4, _, _) => self.count("N refused 4 with another length"),
            _ => {}
        }
    }

    fn as_in_shiftline(&mut self, record: &Record, before: &Drive, answer: &Answer) {
        match (record, answer.number, answer.place) {
            (Record::LoadWithSensors(numbers), 0, _) => self.count(match numbers[SETTINGS] {
                2 => "M accepted with two sensors",
                _ => "M accepted with three sensors",
            }),
            (Record::LoadWithSensors(_), 2, 25) => self.count("M refused 2 at 25"),
            (Record::LoadWithSensors(numbers), 2, _) if has_bad_sensors(numbers) => {
                self.count("M refused 2 before place 25 with a bad setting 25");
            }
            (Record::Cycle(fields), 1, 1)
                if *before.layout == TWO_SENSORS
                    && fields.pattern <= THREE_SENSORS.most_pattern =>
            {
                self.count("C refused 1 at 1 with two sensors, pattern 4 to 7");
            }
            _ => {}
        }
    }

    fn count(&mut self, name: impl AsRef<str>) {
        self.counts.count(name);
    }

    /// The names of the list that were never counted.
    pub fn at_zero(&self) -> Vec<String> {
        self.counts.at_zero()
    }

    /// One line for each count, and the names at zero.
    pub fn lines(&self) -> Vec<String> {
        self.counts.lines()
    }
}
