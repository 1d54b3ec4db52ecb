//! Records that will be refused.

use super::choose_tick::Command;
use super::Generator;
use crate::cycle::cycle_rules;
use crate::fields::{FieldRule, Form};
use crate::hall::THREE_SENSORS;
use crate::record::Record;
use crate::state::State;
use crate::tick_fields::TICK_RULES;

impl Generator {
    /// A record that will be refused in the present state.  Number 2 at place
    /// 0 is not possible: a record L always has 24 numbers, and M 25.
    pub(super) fn refused_record(&mut self) -> Record {
        match self.random.between(0, 9) {
            0..=2 => self.bad_cycle(),
            3..=5 => self.bad_tick(),
            _ => self.refused_load(),
        }
    }

    /// In IDLE every cycle and every tick is refused, good or bad.
    pub(super) fn refused_record_in_idle(&mut self) {
        assert_eq!(self.drive.state, State::Idle);
        let record = match self.random.between(0, 9) {
            0 | 1 => self.cycle_record(),
            2 => self.bad_cycle(),
            3 | 4 => Record::Tick(self.quiet_tick(Command::Any)),
            5 => self.bad_tick(),
            _ => self.refused_load(),
        };
        self.emit(record);
    }

    fn bad_cycle(&mut self) -> Record {
        let Record::Cycle(mut fields) = self.cycle_record() else {
            unreachable!("a cycle was asked for");
        };
        let rules = cycle_rules(self.drive.layout);
        let first = self.random.between(1, rules.len() as i64);
        for (place, (rule, field)) in (1..).zip(rules.iter().zip(fields.each_mut())) {
            // Fields after the first bad one are bad now and then.
            if place < first || (place > first && self.random.chance(700)) {
                continue;
            }
            *field = self.bad_cycle_value(rule);
        }
        Record::Cycle(fields)
    }

    fn bad_tick(&mut self) -> Record {
        let mut fields = self.mood_tick(Command::Any);
        // Flx_M is not among them: its two bytes hold its whole range.
        let breakable = |rule: &FieldRule| rule.can_be_broken();
        let places: Vec<i64> = (1..)
            .zip(&TICK_RULES)
            .filter(|(_, rule)| breakable(rule))
            .map(|(place, _)| place)
            .collect();
        let first = self.random.pick(&places);
        for (place, (rule, field)) in (1..).zip(TICK_RULES.iter().zip(fields.each_mut())) {
            if place < first || !breakable(rule) {
                continue;
            }
            if place > first && self.random.chance(800) {
                continue;
            }
            *field = self.bad_tick_value(rule);
        }
        Record::Tick(fields)
    }

    fn bad_cycle_value(&mut self, rule: &FieldRule) -> i64 {
        let [any] = self.beyond(rule);
        let (nearest, furthest) = (rule.most + 1, rule.form.ends().1);
        if rule.form != Form::Byte {
            return self.random.pick(&[nearest, nearest, furthest, any]);
        }
        // Two sensors refuse patterns that three have; 8 is of neither.
        let neither = THREE_SENSORS.most_pattern + 1;
        let nearby = self.random.between(nearest, neither);
        self.random.pick(&[nearby, neither, furthest, any])
    }

    /// Draws for every form of field, whichever this one has: streams of a
    /// seed are stored, so a field has to cost the same number of draws.
    fn bad_tick_value(&mut self, rule: &FieldRule) -> i64 {
        let [any_byte, any_number, any_signed] = self.beyond(rule);
        let (lowest, highest) = rule.form.ends();
        let (above, below) = (rule.most + 1, rule.least - 1);
        let random = &mut self.random;
        let byte = random.pick(&[above, above, highest, any_byte]);
        let number = random.pick(&[above, above, highest, any_number]);
        let signed = random.pick(&[above, below, highest, lowest, any_signed]);
        match rule.form {
            Form::Byte => byte,
            Form::Number => number,
            Form::Signed if above <= highest => signed,
            // Only -32768 lies beyond.
            Form::Signed => below,
        }
    }

    /// Numbers above the range of a field, where its bytes hold any.
    fn beyond<const DRAWS: usize>(&mut self, rule: &FieldRule) -> [i64; DRAWS] {
        let highest = rule.form.ends().1;
        let nearest = (rule.most + 1).min(highest);
        std::array::from_fn(|_| self.random.between(nearest, highest))
    }
}
