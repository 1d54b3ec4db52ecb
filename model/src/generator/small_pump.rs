//! What M-101 brings, on purpose and not by chance: turns of a motor with two
//! sensors, its stray samples, its refusals, and loads of either kind.

use super::choose_cycle::Wish;
use super::choose_load::{load_of, THREE, TWO, UNTOLD};
use super::choose_tick::Command;
use super::episodes::LASTING;
use super::mood::Mood;
use super::Generator;
use crate::hall::TWO_SENSORS;
use crate::load::BAD_SENSORS;
use crate::record::Record;
use crate::settings::{Setting, RULES};
use crate::state::State;

impl Generator {
    pub(super) fn small_pumps(&mut self) {
        for _ in 0..3 {
            self.turns_through_zero();
            self.stray_trips();
            self.refused_by_two_sensors();
            self.refused_on_the_way();
            self.loads_of_either_kind();
        }
    }

    fn cycles(&mut self, patterns: &[i64]) {
        for &pattern in patterns {
            let record = self.cycle_with(pattern);
            self.emit(record);
        }
    }

    fn wishes(&mut self, wish: Wish, count: i64) {
        for _ in 0..count {
            let record = self.wished_cycle(wish);
            self.emit(record);
        }
    }

    fn fresh_pump(&mut self) {
        self.load_with_sensors(&[(Setting::FaultEnable, 65535)], TWO);
        self.mood = Mood::calm(&mut self.random);
    }

    /// A turn back and two forward from each sector, so that 0 is passed by
    /// each width; and with the position moved on by 1 against the sectors,
    /// so that a width of 2 leaves and enters at 1 as well.
    fn turns_through_zero(&mut self) {
        for &first in TWO_SENSORS.clockwise {
            self.fresh_pump();
            self.cycles(&[first]);
            self.wishes(Wish::Previous, TWO_SENSORS.clockwise.len() as i64);
            self.wishes(Wish::Next, 2 * TWO_SENSORS.clockwise.len() as i64);
        }
        self.fresh_pump();
        self.cycles(&[3, 2, 1, 1, 1, 3, 1, 3]);
    }

    /// Three strays trip, and since no cause stands the first tick in FAULT
    /// may clear; a pattern that is kept meanwhile changes nothing of that.
    fn stray_trips(&mut self) {
        for kept_in_fault in [false, true] {
            self.fresh_pump();
            self.go_to(State::MotorRun, 1000);
            self.wishes(Wish::Same, 1);
            self.wishes(Wish::Stray, 3);
            let record = Record::Tick(self.quiet_tick(Command::Any));
            self.emit(record);
            self.wishes(Wish::Same, kept_in_fault as i64);
            let mut fields = self.quiet_tick(Command::Any);
            fields.clear = 1;
            self.emit(Record::Tick(fields));
        }
    }

    /// Patterns, setting 25, and each other setting with whatever it says.
    fn refused_by_two_sensors(&mut self) {
        self.fresh_pump();
        self.cycles(&[4, 5, 6, 7, 8, 255]);
        for sensors in BAD_SENSORS {
            let record = load_of(self.good_settings(), Some(sensors));
            self.emit(record);
        }
        for rule in RULES.iter().filter(|rule| rule.can_be_broken()) {
            let settings = self.bad_settings(rule.setting);
            let told = self.random.pick(&[UNTOLD, TWO, Some(BAD_SENSORS[0])]);
            self.emit(load_of(settings, told));
        }
    }

    /// A pattern that two sensors do not give, in a state of a start.
    fn refused_on_the_way(&mut self) {
        let (state, given) = self.random.pick(&LASTING);
        self.load_with_sensors(given, TWO);
        self.mood = Mood::calm(&mut self.random);
        self.go_to(state, 1000);
        self.cycles(&[4, 5, 6, 7]);
    }

    /// Each kind after each, and what three sensors take after two.
    fn loads_of_either_kind(&mut self) {
        for told in [
            UNTOLD, TWO, TWO, UNTOLD, UNTOLD, THREE, THREE, TWO, THREE, UNTOLD,
        ] {
            self.load_with_sensors(&[], told);
            let most = self.drive.layout.most_pattern;
            self.cycles(&[1, 0, 1, most]);
        }
    }
}
