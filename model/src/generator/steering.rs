//! The next record, chosen by the state; and the ways to a wanted state.

use super::choose_cycle::Wish;
use super::choose_tick::Command;
use super::Generator;
use crate::flag::Flag;
use crate::record::Record;
use crate::settings::Setting;
use crate::state::State;
use crate::tick::FAULT_WAIT;

impl Generator {
    /// One record as mood and state have it.
    pub(super) fn step(&mut self) {
        if self.drive.state != State::Idle && self.random.chance(self.mood.burst) {
            self.burst();
            return;
        }
        let refused = self.random.chance(self.mood.refused);
        let record = if refused {
            self.refused_record()
        } else {
            self.useful_record()
        };
        self.emit(record);
    }

    /// Dead or stray samples enough to set flag 15.
    fn burst(&mut self) {
        let (wish, count) = self.random.pick(&[(Wish::Dead, 2), (Wish::Stray, 3)]);
        for _ in 0..count {
            let record = self.wished_cycle(wish);
            self.emit(record);
        }
    }

    pub(super) fn steps(&mut self, count: i64) {
        for _ in 0..count {
            self.step();
        }
    }

    /// A record that will be accepted, and mostly carries the drive on.
    fn useful_record(&mut self) -> Record {
        let settings = self.drive.settings;
        match self.drive.state {
            State::Idle => self.good_load(),
            State::Stop => self.record_in_stop(),
            State::OffsetCal => self.record_awaiting_cycles(settings.offset_cycles()),
            State::BtsCharge => self.record_awaiting_cycles(settings[Setting::BtsChargeTime]),
            State::AngleSensing => self.record_awaiting_cycles(6 * settings[Setting::IsPulses]),
            State::CatchSpin | State::Parking | State::OpenLoop | State::MotorRun => {
                if self.random.chance(self.mood.cycle) {
                    self.cycle_record()
                } else {
                    self.running_tick()
                }
            }
            State::Fault => self.record_in_fault(),
        }
    }

    fn record_in_stop(&mut self) -> Record {
        if self.random.chance(self.mood.cycle / 2) {
            return self.cycle_record();
        }
        // A high without arming must not start: it is tried often.
        let command = match self.random.between(0, 9) {
            0..=4 => Command::High,
            5 => Command::NotLow,
            6 if !self.drive.armed => Command::High,
            _ => Command::Low,
        };
        Record::Tick(self.mood_tick(command))
    }

    /// In a state that counts cycles: cycles until they are done, with some
    /// early ticks; then ticks, with some cycles too many.
    fn record_awaiting_cycles(&mut self, wanted: i64) -> Record {
        let done = self.drive.cycles_in_state >= wanted;
        let tick = if done {
            self.random.chance(900)
        } else {
            self.random.chance(self.mood.early_tick)
        };
        if tick {
            self.running_tick()
        } else {
            self.cycle_record()
        }
    }

    fn running_tick(&mut self) -> Record {
        let command = if self.drive.state == State::OffsetCal {
            Command::Any
        } else if self.random.chance(self.mood.low) {
            Command::Low
        } else {
            self.random
                .pick(&[Command::High, Command::High, Command::NotLow])
        };
        Record::Tick(self.mood_tick(command))
    }

    /// In FAULT the plan made at its entry is followed.
    fn record_in_fault(&mut self) -> Record {
        let dead_cause =
            self.drive.dead_streak == 2 && Flag::HallPattern.is_in(self.drive.settings.live_bits());
        if self.mood.fault_standing > 0 {
            self.mood.fault_standing -= 1;
            return self.standing_tick(dead_cause);
        }
        if dead_cause && self.random.chance(700) {
            return self.wished_cycle(Wish::Same);
        }
        let due = self.drive.ticks_in_state + 1 >= FAULT_WAIT;
        if due && self.mood.fault_standing_when_due > 0 {
            self.mood.fault_standing_when_due -= 1;
            return self.standing_tick(dead_cause);
        }
        let mut fields = self.quiet_tick(Command::Any);
        self.add_masked_causes(&mut fields);
        if self.mood.fault_quiet > 0 {
            let cycle = if self.mood.fault_wait.is_some() {
                2
            } else {
                200
            };
            if self.random.chance(cycle) {
                return self.cycle_record();
            }
            self.mood.fault_quiet -= 1;
            fields.clear = 0;
        } else {
            fields.clear = 1;
        }
        Record::Tick(fields)
    }

    /// A tick in FAULT with a live cause: neither a clear nor a retry may end
    /// the trip.
    pub(super) fn standing_tick(&mut self, dead_cause: bool) -> Record {
        let mut fields = self.quiet_tick(Command::Any);
        self.add_masked_causes(&mut fields);
        fields.clear = self.random.between(0, 1);
        if !dead_cause || self.random.chance(500) {
            self.add_live_cause(&mut fields);
        }
        Record::Tick(fields)
    }

    /// Brings the drive to STOP by the shortest way.
    pub(super) fn go_to_stop(&mut self) {
        for _ in 0..100 {
            let record = match self.drive.state {
                State::Idle | State::Stop => return,
                State::Fault => {
                    if self.drive.dead_streak == 2 {
                        self.wished_cycle(Wish::Same)
                    } else {
                        let mut fields = self.quiet_tick(Command::Any);
                        fields.clear = 1;
                        Record::Tick(fields)
                    }
                }
                // OFFSETCAL can be long: a trip is shorter.
                State::OffsetCal => {
                    let mut fields = self.quiet_tick(Command::Any);
                    fields.gate_kill = 1;
                    Record::Tick(fields)
                }
                _ => Record::Tick(self.quiet_tick(Command::Low)),
            };
            self.emit(record);
        }
    }

    /// Brings the drive to the given state, as the mood has it; gives up
    /// after so many records.
    pub(super) fn go_to(&mut self, state: State, most: i64) {
        for _ in 0..most {
            if self.drive.state == state {
                return;
            }
            self.step();
        }
    }

    /// Carries the drive on without a low, until a trip.
    pub(super) fn hold_high(&mut self, records: i64) {
        for _ in 0..records {
            let settings = &self.drive.settings;
            let wanted = match self.drive.state {
                State::Fault => return,
                State::OffsetCal => settings.offset_cycles(),
                State::BtsCharge => settings[Setting::BtsChargeTime],
                State::AngleSensing => 6 * settings[Setting::IsPulses],
                _ => 0,
            };
            let record = if self.drive.cycles_in_state < wanted {
                self.cycle_record()
            } else {
                Record::Tick(self.quiet_tick(Command::High))
            };
            self.emit(record);
        }
    }
}
