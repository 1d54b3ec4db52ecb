//! Slots of flag 4, placed on purpose.

use super::choose_tick::Command;
use super::mood::Mood;
use super::{all_but, Generator};
use crate::causes::GOOD_FLUX;
use crate::flag::Flag;
use crate::record::Record;
use crate::settings::Setting;
use crate::state::State;

impl Generator {
    /// The grid of the slots begins at each entry to MOTORRUN, and what an
    /// earlier stay has counted is forgotten.
    pub(super) fn flux_slots(&mut self) {
        for flux_fault_time in [1, 2, 3, 4, 5, 7, 13108] {
            let fault_enable = self.random.pick(&[65535, 65535, all_but(Flag::Flux)]);
            let given = [
                (Setting::FaultEnable, fault_enable),
                (Setting::FluxFaultTime, flux_fault_time),
                (Setting::TCatchSpin, 0),
                (Setting::IsPulses, 1),
            ];
            self.load_with(&given);
            self.mood = Mood::calm(&mut self.random);
            self.go_to(State::MotorRun, 1000);
            if flux_fault_time == 13108 {
                // 5 x 13108 leaves 4 in sixteen bits: far from one slot.
                self.flux_ticks(40, true);
                continue;
            }
            // Bad slots and a part of one, then a stop and a new start.
            let ticks = self.drive.settings.flux_slot_ticks();
            for _ in 0..self.random.between(0, 7) {
                self.flux_slot(true);
            }
            self.flux_ticks(ticks / 2, true);
            let record = Record::Tick(self.quiet_tick(Command::Low));
            self.emit(record);
            self.go_to(State::MotorRun, 1000);
            // A good slot first: seven bad ones after it are not eight.
            for bad_slots in [7, 7, 0, 9] {
                self.flux_slot(false);
                for _ in 0..bad_slots {
                    self.flux_slot(true);
                }
            }
        }
    }

    /// One slot; a bad one has at least one bad tick, at any place.
    fn flux_slot(&mut self, bad: bool) {
        if self.left == 0 {
            // The load may not have been written: then a slot has no ticks.
            return;
        }
        let ticks = self.drive.settings.flux_slot_ticks();
        let bad_tick = self.random.between(1, ticks);
        for tick in 1..=ticks {
            self.flux_ticks(1, bad && tick == bad_tick);
        }
    }

    fn flux_ticks(&mut self, count: i64, bad: bool) {
        let (least, most) = (*GOOD_FLUX.start(), *GOOD_FLUX.end());
        for _ in 0..count {
            let mut fields = self.quiet_tick(Command::NotLow);
            fields.flx_m = if bad {
                self.random
                    .pick(&[0, least - 1, least - 1, most + 1, most + 1, 65535])
            } else {
                self.random.leaning(least, most)
            };
            self.emit(Record::Tick(fields));
        }
    }
}
