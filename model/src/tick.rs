//! The tick call: one per millisecond.

use crate::drive::{Drive, Pair, Refusal, Reply};
use crate::settings::Setting;
use crate::state::State;
use crate::tick_fields::TickFields;

/// FAULT's wait in ticks: "from its 10,000th tick on".
pub const FAULT_WAIT: i64 = 10_000;

impl Drive {
    /// The tick call.  "3 before 1".
    pub fn tick(&self, fields: &TickFields) -> Reply {
        if self.state == State::Idle {
            return self.refuse(Refusal::InIdle, 0);
        }
        // "first bad field, from 1"
        if let Some(&place) = fields.bad_fields().first() {
            return self.refuse(Refusal::FieldOutOfRange, place);
        }
        let mut next = self.clone();
        // The n-th tick of a state is the n-th after the one that entered it,
        // so this one is counted before anything asks for its number.
        next.ticks_in_state += 1;
        // "Causes standing at a tick set these flags, which stay until
        // cleared": before the move, in the same tick.
        next.count_tick(fields);
        let causes = next.standing_causes(fields);
        next.flags |= causes;
        // "A low, where the state before the tick is not FAULT, arms."
        if fields.is_low(&next.settings) && self.state != State::Fault {
            next.armed = true;
        }
        next.make_move(fields, causes);
        next.take_speed_reference(fields, self.state);
        next.accept()
    }

    /// "Move. One at most per tick, by the state before it."
    fn make_move(&mut self, fields: &TickFields, causes: i64) {
        if self.state == State::Fault {
            self.make_move_out_of_fault(fields, causes);
        } else if self.live_word() != 0 {
            // "Outside FAULT, any live flag moves to FAULT." "A start or entry
            // to FAULT disarms, also in that tick."
            self.armed = false;
            self.enter(State::Fault);
        } else if self.state.is_starting_or_running() && fields.is_low(&self.settings) {
            // "Else, in the six starting and running states (3, 4, 6, 7, 8,
            // 9), a low moves to STOP."
            self.enter(State::Stop);
        } else {
            self.make_move_of_state(fields);
        }
    }

    /// The list under "Else:", all but FAULT.
    fn make_move_of_state(&mut self, fields: &TickFields) {
        let settings = self.settings;
        match self.state {
            State::Stop => {
                // "offsets not measured, to 2; else armed and high, to 3 (the
                // start)."
                if !self.offsets_measured {
                    self.enter(State::OffsetCal);
                } else if self.armed && fields.is_high(&settings) {
                    self.armed = false;
                    self.enter(State::BtsCharge);
                }
            }
            State::OffsetCal => {
                // "N cycles done, to 1; each offset is its sum divided by N,
                // rounded down."
                let cycles = settings.offset_cycles();
                if self.cycles_in_state >= cycles {
                    self.offsets = Pair {
                        first: self.offset_sums.first / cycles,
                        second: self.offset_sums.second / cycles,
                    };
                    self.offsets_measured = true;
                    self.enter(State::Stop);
                }
            }
            State::BtsCharge => {
                // "BtsChargeTime cycles done, to 6."
                if self.cycles_in_state >= settings[Setting::BtsChargeTime] {
                    self.enter(State::CatchSpin);
                }
            }
            State::CatchSpin => {
                // "TCatchSpin 0, to 9. Else at its TCatchSpin-th tick: absolute
                // speed above DirectStartThr, to 4, otherwise to 9."
                if settings[Setting::TCatchSpin] == 0 {
                    self.enter(State::AngleSensing);
                } else if self.ticks_in_state >= settings[Setting::TCatchSpin] {
                    if fields.speed.abs() > settings[Setting::DirectStartThr] {
                        self.enter(State::MotorRun);
                    } else {
                        self.enter(State::AngleSensing);
                    }
                }
            }
            State::AngleSensing => {
                // "IS_Pulses 0, to 7; else 6 x IS_Pulses cycles done, to 4".
                if settings[Setting::IsPulses] == 0 {
                    self.enter(State::Parking);
                } else if self.cycles_in_state >= 6 * settings[Setting::IsPulses] {
                    self.enter(State::MotorRun);
                }
            }
            State::Parking => {
                // "at its ParkTime-th tick, or its first if that is 0, to 8."
                if self.ticks_in_state >= settings[Setting::ParkTime].max(1) {
                    self.enter(State::OpenLoop);
                }
            }
            State::OpenLoop => {
                // "OpenLoopRamp 0, or absolute speed at least MinSpd, to 4."
                if settings[Setting::OpenLoopRamp] == 0
                    || fields.speed.abs() >= settings[Setting::MinSpd]
                {
                    self.enter(State::MotorRun);
                }
            }
            // "4 MOTORRUN: stays."  FAULT has its own function, and a tick in
            // IDLE was refused.
            State::MotorRun | State::Fault | State::Idle => {}
        }
    }

    /// "5 FAULT: no live cause may stand."
    fn make_move_out_of_fault(&mut self, fields: &TickFields, causes: i64) {
        if causes & self.settings.live_bits() != 0 {
            return;
        }
        if fields.clear == 1 {
            // "Then clear = 1, in either mode (house), zeroes flags and
            // retries, to 1."
            self.flags = 0;
            self.retries_used = 0;
            self.enter(State::Stop);
        } else if self.settings[Setting::ControlMode] == 1
            && self.ticks_in_state >= FAULT_WAIT
            && self.retries_used < self.settings[Setting::RetryLimit]
        {
            // "Else in mode 1, from its 10,000th tick on, with fewer than
            // RetryLimit retries used: flags zero, retries up by one, armed,
            // to 1."
            self.flags = 0;
            self.retries_used += 1;
            self.armed = true;
            self.enter(State::Stop);
        }
    }

    /// "Entering MOTORRUN takes the measured speed. Each tick staying there
    /// moves it toward the target by at most SpdRampRate without passing it;
    /// other states hold 0."
    fn take_speed_reference(&mut self, fields: &TickFields, before: State) {
        if self.state != State::MotorRun {
            self.speed_reference_times_2048 = 0;
        } else if before != State::MotorRun {
            self.speed_reference_times_2048 = fields.speed * 2048;
        } else {
            let target = fields.reference_target(&self.settings) * 2048;
            let rate = self.settings[Setting::SpdRampRate];
            let reference = self.speed_reference_times_2048;
            self.speed_reference_times_2048 = if reference < target {
                (reference + rate).min(target)
            } else {
                (reference - rate).max(target)
            };
        }
    }
}
