//! Block loads and flag 12 (M-102), in the streams of `benchline`.

use super::{has_bad_sensors, letter, BenchReached};
use crate::benchline::BenchRecord;
use crate::drive::{Answer, Drive, Reply};
use crate::flag::Flag;
use crate::hall::TWO_SENSORS;
use crate::image::{numbers_of, read_block};
use crate::image_rows;
use crate::input::{Input, MOST_BYTES};
use crate::load::{Load, SENSORS_PLACE};
use crate::record::Record;
use crate::settings::{Setting, RULES, SETTINGS};
use crate::state::{State, ALL_STATES};

const ACCEPTED_24: &str = "B accepted with 24 numbers";
const ACCEPTED_24_AFTER_TWO: &str = "B accepted with 24 numbers after two sensors";
const ACCEPTED_TWO: &str = "B accepted with 25 numbers, two sensors";
const ACCEPTED_THREE: &str = "B accepted with 25 numbers, three sensors";
const BEFORE_25: &str = "B refused 2 before place 25 with a bad setting 25";
const REFUSED_4_AND_2: &str = "B refused 4 where 2 would hold";
const SET: &str = "flag 12 set";
const KEPT_BY_A_BODY: &str = "flag 12 kept over B refused 2";
const CLEARED_ENABLED: &str = "flag 12 cleared by settings that enable bit 12";
const CLEARED_MASKED: &str = "flag 12 cleared by settings that mask bit 12";
const TICK_AFTER: &str = "flag 12 cleared, and a tick does not trip";
const NOT_IN_STOP: &str = "no flag 12: B refused 2 in STOP";

const SHORT: [&str; 5] = [
    "short B: the letter alone",
    "short B: no length whole",
    "short B: in its image",
    "bad B: length above 2048, the bytes there",
    "bad B: length above 2048, the bytes not there",
];

/// The letters of the records that load.
const LOADS: [char; 4] = ['L', 'M', 'N', 'B'];

/// "7 image malformed, then 8 block above 14, then 9 block empty"
const BY_THE_IMAGE: [u8; 3] = [7, 8, 9];

/// What has to be remembered from record to record of one stream.
#[derive(Default)]
pub struct FlagWatch {
    /// Flag 12 was taken away by the last record that was accepted.
    just_cleared: bool,
}

pub fn list() -> Vec<String> {
    let typed = [
        ACCEPTED_24,
        ACCEPTED_24_AFTER_TWO,
        ACCEPTED_TWO,
        ACCEPTED_THREE,
        BEFORE_25,
        REFUSED_4_AND_2,
        SET,
        KEPT_BY_A_BODY,
        CLEARED_ENABLED,
        CLEARED_MASKED,
        TICK_AFTER,
        NOT_IN_STOP,
    ];
    let mut list = typed.map(str::to_string).to_vec();
    list.extend(SHORT.map(str::to_string));
    list.extend(image_rows::list().iter().map(|name| format!("B {name}")));
    for state in ALL_STATES {
        for number in BY_THE_IMAGE {
            list.push(format!("B refused {number} in {}", state.name()));
        }
        let loadable = matches!(state, State::Idle | State::Stop);
        let told = if loadable { "accepted" } else { "refused 4" };
        list.push(format!("B {told} in {}", state.name()));
    }
    let breakable = RULES.iter().filter(|rule| rule.can_be_broken());
    for place in breakable
        .map(|rule| rule.setting.place())
        .chain([SENSORS_PLACE])
    {
        for state in ["IDLE", "STOP"] {
            list.push(format!("B refused 2 at {place} in {state}"));
        }
    }
    for letter in LOADS {
        list.push(format!("flag 12 cleared by {letter}"));
    }
    for letter in ['L', 'M', 'N', 'C', 'T'] {
        list.push(format!("flag 12 kept over {letter} refused"));
    }
    for letter in ['L', 'M', 'N'] {
        list.push(format!("no flag 12: {letter} refused 2 in IDLE"));
    }
    for number in BY_THE_IMAGE {
        list.push(format!("flag 12 kept over B refused {number}"));
        list.push(format!("no flag 12: B refused {number} in IDLE"));
    }
    list
}

/// The name of a record B that is short or bad.
pub fn bad(rest: &[u8]) -> &'static str {
    let length = rest.get(2..).and_then(|rest| Input::new(rest).number());
    match length.map(usize::from) {
        _ if rest.len() == 1 => SHORT[0],
        None => SHORT[1],
        Some(length) if length <= MOST_BYTES => SHORT[2],
        Some(length) if rest.len() >= 4 + length => SHORT[3],
        Some(_) => SHORT[4],
    }
}

impl BenchReached {
    pub(super) fn block_load(
        &mut self,
        image: &[u8],
        block: usize,
        before: &Drive,
        answer: &Answer,
    ) {
        for name in image_rows::names(image, block) {
            self.count(format!("B {name}"));
        }
        let numbers = numbers_of(read_block(image, block).part);
        let state = before.state.name();
        match (answer.number, answer.place) {
            (0, _) => {
                self.count(format!("B accepted in {state}"));
                self.accepted_block(&numbers, before);
            }
            (2, place) => {
                self.count(format!("B refused 2 at {place} in {state}"));
                if usize::from(place) < SENSORS_PLACE && has_bad_sensors(&numbers) {
                    self.count(BEFORE_25);
                }
            }
            (4, _) => {
                self.count(format!("B refused 4 in {state}"));
                if Load::read(&numbers).is_err() {
                    self.count(REFUSED_4_AND_2);
                }
            }
            (number, _) => self.count(format!("B refused {number} in {state}")),
        }
    }

    fn accepted_block(&mut self, numbers: &[u16], before: &Drive) {
        match numbers.get(SETTINGS) {
            None => {
                self.count(ACCEPTED_24);
                if *before.layout == TWO_SENSORS {
                    self.count(ACCEPTED_24_AFTER_TWO);
                }
            }
            Some(2) => self.count(ACCEPTED_TWO),
            Some(_) => self.count(ACCEPTED_THREE),
        }
    }

    /// What became of flag 12 at a record.
    pub(super) fn flag_12(&mut self, record: &BenchRecord, before: &Drive, reply: &Reply) {
        let letter = letter(record);
        let number = reply.answer.number;
        let set = |drive: &Drive| Flag::BlockRefused.is_in(drive.flags);
        match (set(before), set(&reply.drive)) {
            (false, true) => self.count(SET),
            (true, true) if letter != 'B' => {
                self.count(format!("flag 12 kept over {letter} refused"));
            }
            (true, true) => self.count(format!("flag 12 kept over B refused {number}")),
            (true, false) => {
                self.count(format!("flag 12 cleared by {letter}"));
                let enabled = Flag::BlockRefused.is_in(reply.drive.settings[Setting::FaultEnable]);
                self.count(if enabled {
                    CLEARED_ENABLED
                } else {
                    CLEARED_MASKED
                });
                self.flag_watch.just_cleared = true;
                return;
            }
            (false, false) => self.no_flag_12(letter, number, before.state),
        }
        if number == 0 {
            let tick = matches!(record, BenchRecord::AsInShiftline(Record::Tick(_)));
            if tick && self.flag_watch.just_cleared && reply.drive.state == State::OffsetCal {
                self.count(TICK_AFTER);
            }
            self.flag_watch.just_cleared = false;
        }
    }

    fn no_flag_12(&mut self, letter: char, number: u8, state: State) {
        match (letter, number, state) {
            ('B', 2, State::Stop) => self.count(NOT_IN_STOP),
            ('B', 7..=9, State::Idle) => {
                self.count(format!("no flag 12: B refused {number} in IDLE"));
            }
            ('L' | 'M' | 'N', 2, State::Idle) => {
                self.count(format!("no flag 12: {letter} refused 2 in IDLE"));
            }
            _ => {}
        }
    }
}
