//! The causes that stand at a tick.

use crate::drive::Drive;
use crate::flag::Flag;
use crate::settings::Setting;
use crate::state::State;
use crate::tick_fields::TickFields;

/// "a slot is bad if any tick has Flx_M below 512 or above 8192."
pub const GOOD_FLUX: std::ops::RangeInclusive<i64> = 512..=8192;

/// "the eighth consecutive bad slot"
pub const BAD_SLOTS: i64 = 8;

/// "otherwise it grows to at most 4096": the still count, when it is full.
pub const FULL_STILL_COUNT: i64 = 4096;

/// "the absolute speed lies in MinSpd..4095"; M-103: "the range is every
/// absolute speed up to 4095."
pub const LOCKED_SPEEDS: std::ops::RangeInclusive<i64> = 0..=4095;

impl Drive {
    /// Counts this tick for flags 4, 7 and 14.  "Bits 4, 7 and 14 count only
    /// ticks taken in MOTORRUN": a tick is taken in the state before it.
    pub fn count_tick(&mut self, fields: &TickFields) {
        if self.state == State::MotorRun {
            self.count_flux(fields);
            self.count_rotor_lock(fields);
            self.count_hall_still();
        }
    }

    /// The drive with this tick counted, and nothing else done.
    pub fn counted(&self, fields: &TickFields) -> Drive {
        let mut counted = self.clone();
        counted.count_tick(fields);
        counted
    }

    /// The causes that stand at a tick that was just counted, as a word.
    ///
    /// The drive is still in the state before the tick.
    pub fn standing_causes(&self, fields: &TickFields) -> i64 {
        let standing = Flag::OF_CAUSES
            .into_iter()
            .filter(|&flag| self.cause_stands(flag, fields));
        standing.map(Flag::bit).sum()
    }

    fn cause_stands(&self, flag: Flag, fields: &TickFields) -> bool {
        let settings = &self.settings;
        let counting = self.state == State::MotorRun;
        match flag {
            // "0: gate kill is 1."
            Flag::GateKill => fields.gate_kill == 1,
            // "1: VdcRaw above CriticalOvLevel."
            Flag::CriticalOverVoltage => fields.vdc_raw > settings[Setting::CriticalOvLevel],
            // "2: VdcFilt above VdcOvLevel."
            Flag::OverVoltage => fields.vdc_filt > settings[Setting::VdcOvLevel],
            // "3: VdcFilt below VdcLvLevel."
            Flag::UnderVoltage => fields.vdc_filt < settings[Setting::VdcLvLevel],
            // "4: [...] It stands at the end of the eighth consecutive bad
            // slot, and of each bad one following."  The tick that ended a
            // slot has set its ticks to zero.
            Flag::Flux => counting && self.flux_slot_ticks == 0 && self.flux_bad_slots >= BAD_SLOTS,
            // "6: temperature above Tshutdown."
            Flag::OverTemperature => fields.temperature > settings[Setting::Tshutdown],
            // "7: [...] for 10 x RotorLockTime consecutive ticks, and while
            // this goes on."
            Flag::RotorLock => {
                counting && self.rotor_lock_ticks >= 10 * settings[Setting::RotorLockTime]
            }
            // "14: [...] for 10 x HallTimeoutPeriod consecutive ticks, and
            // while this goes on."
            Flag::HallTimeOut => {
                counting && self.hall_still_ticks >= 10 * settings[Setting::HallTimeoutPeriod]
            }
            // M-102: a refused block load sets it, and no cause of a tick.
            Flag::BlockRefused => false,
            // "15: dead streak is 2."
            Flag::HallPattern => self.dead_streak == 2,
        }
    }

    /// "4: slots of floor(5 x FluxFaultTime / 4) ticks; a slot is bad if any
    /// tick has Flx_M below 512 or above 8192."
    fn count_flux(&mut self, fields: &TickFields) {
        if !GOOD_FLUX.contains(&fields.flx_m) {
            self.flux_slot_bad = true;
        }
        self.flux_slot_ticks += 1;
        if self.flux_slot_ticks < self.settings.flux_slot_ticks() {
            return;
        }
        // The slot's last tick: the next tick is the first of the next slot.
        if self.flux_slot_bad {
            self.flux_bad_slots += 1;
        } else {
            self.flux_bad_slots = 0;
        }
        self.flux_slot_ticks = 0;
        self.flux_slot_bad = false;
    }

    /// "7: the absolute TrqRef is at least MotorLim and the absolute speed
    /// lies in MinSpd..4095"; M-103: "01 starts its speed range at MinSpd.
    /// [...] the house rule now differs: the range is every absolute speed up
    /// to 4095."
    fn count_rotor_lock(&mut self, fields: &TickFields) {
        let settings = &self.settings;
        let torque_high = fields.trq_ref.abs() >= settings[Setting::MotorLim];
        if torque_high && LOCKED_SPEEDS.contains(&fields.speed.abs()) {
            self.rotor_lock_ticks += 1;
        } else {
            self.rotor_lock_ticks = 0;
        }
    }

    /// "14: the still count is 4096".  The count is looked at once per tick.
    fn count_hall_still(&mut self) {
        if self.still_count == FULL_STILL_COUNT {
            self.hall_still_ticks += 1;
        } else {
            self.hall_still_ticks = 0;
        }
    }
}
