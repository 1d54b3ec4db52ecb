//! The cycle call: one per PWM cycle.

use crate::causes::FULL_STILL_COUNT;
use crate::drive::{Drive, Pair, Refusal, Reply};
use crate::fields::{bad_places, FieldRule, Form, MOST_LEVEL};
use crate::flag::Flag;
use crate::hall::{with_offset, Fate, Layout};
use crate::settings::Setting;
use crate::state::State;

/// "Fields: Hall pattern 0..7, two current samples 0..4095."
#[derive(Clone, Copy, Debug, PartialEq, Eq, Default)]
pub struct CycleFields {
    pub pattern: i64,
    pub samples: Pair<i64>,
}

/// In the order of the record, with three sensors.
pub const CYCLE_RULES: [FieldRule; 3] = [
    FieldRule::new("pattern", Form::Byte, 0, 7),
    FieldRule::new("first sample", Form::Number, 0, MOST_LEVEL),
    FieldRule::new("second sample", Form::Number, 0, MOST_LEVEL),
];

/// The same for a layout: M-101, "pattern above 3 with two sensors is 1".
pub fn cycle_rules(layout: &Layout) -> [FieldRule; 3] {
    let [mut pattern, first, second] = CYCLE_RULES;
    pattern.most = layout.most_pattern;
    [pattern, first, second]
}

impl CycleFields {
    /// The fields in order.
    pub fn each(&self) -> [i64; 3] {
        [self.pattern, self.samples.first, self.samples.second]
    }

    pub fn each_mut(&mut self) -> [&mut i64; 3] {
        let samples = &mut self.samples;
        [&mut self.pattern, &mut samples.first, &mut samples.second]
    }

    /// "cycle or tick field out of range": the places of all bad fields.
    pub fn bad_fields(&self, layout: &Layout) -> Vec<u8> {
        bad_places(&cycle_rules(layout), &self.each())
    }
}

impl Drive {
    /// The cycle call.  "3 before 1".
    pub fn cycle(&self, fields: &CycleFields) -> Reply {
        if self.state == State::Idle {
            return self.refuse(Refusal::InIdle, 0);
        }
        // "first bad field, from 1"
        if let Some(&place) = fields.bad_fields(self.layout).first() {
            return self.refuse(Refusal::FieldOutOfRange, place);
        }
        let mut next = self.clone();
        let fate = next.take_pattern(fields.pattern);
        next.count_cycle(fields.samples);
        let mut reply = next.accept();
        // M-105: "Cycle passes the name on in its answer"
        reply.answer.fate = Some(fate);
        reply
    }

    /// Judges the sample and does what its fate asks for; gives the fate.
    fn take_pattern(&mut self, pattern: i64) -> Fate {
        let offset = self.settings[Setting::HallAngleOffset];
        let layout = self.layout;
        let fate = layout.fate(pattern, self.kept_pattern);
        match fate {
            Fate::Dead => {
                // "0 or 7: dead streak up by one, at most 2; stray streak
                // zero. At 2, flag 15 is set and the kept pattern is
                // forgotten."
                self.dead_streak = (self.dead_streak + 1).min(2);
                self.stray_streak = 0;
                if self.dead_streak == 2 {
                    self.flags |= Flag::HallPattern.bit();
                    self.kept_pattern = None;
                }
            }
            Fate::First => {
                // "Any of 1..6 with none kept: kept; position unchanged; both
                // streaks zero." "A first pattern gives its sector's middle".
                self.angle = with_offset(layout.middle_angle(pattern), offset);
                self.kept_pattern = Some(pattern);
                self.dead_streak = 0;
                self.stray_streak = 0;
            }
            Fate::Same => {
                // "Same as kept: both streaks zero."
                self.dead_streak = 0;
                self.stray_streak = 0;
            }
            Fate::Forward | Fate::Back => {
                // "Next or previous: kept; position plus or minus 1; both
                // streaks zero.", the 1 being the width where M-101 has two
                // sensors. "The position counter runs modulo 2^32."
                let kept = self
                    .kept_pattern
                    .expect("a step starts from a kept pattern");
                let step = layout.step(kept, pattern);
                self.position = (self.position + step).rem_euclid(1 << 32);
                self.angle = with_offset(layout.boundary_angle(kept, pattern), offset);
                self.kept_pattern = Some(pattern);
                self.dead_streak = 0;
                self.stray_streak = 0;
            }
            Fate::Stray => {
                // "Another of 1..6: stray streak up, dead streak zero. At 3,
                // flag 15 is set, the pattern is forgotten and the stray
                // streak returns to zero."
                self.stray_streak += 1;
                self.dead_streak = 0;
                if self.stray_streak == 3 {
                    self.flags |= Flag::HallPattern.bit();
                    self.kept_pattern = None;
                    self.stray_streak = 0;
                }
            }
        }
        // "The still count is zero after a newly kept pattern; otherwise it
        // grows to at most 4096."
        match fate {
            Fate::First | Fate::Forward | Fate::Back => self.still_count = 0,
            Fate::Dead | Fate::Same | Fate::Stray => {
                self.still_count = (self.still_count + 1).min(FULL_STILL_COUNT);
            }
        }
        // Also of the sample that makes flag 15 and forgets the pattern.
        fate
    }

    fn count_cycle(&mut self, samples: Pair<i64>) {
        // "In OFFSETCAL the first N = 2^(13 - OffsetPsc) add their samples to
        // two sums."
        if self.state == State::OffsetCal && self.cycles_in_state < self.settings.offset_cycles() {
            self.offset_sums.first += samples.first;
            self.offset_sums.second += samples.second;
        }
        // "Cycles in the present state are counted to at most 65535."
        self.cycles_in_state = (self.cycles_in_state + 1).min(65535);
    }
}
