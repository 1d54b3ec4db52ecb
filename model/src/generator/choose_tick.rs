//! The fields of a tick.

use super::Generator;
use crate::causes::{BAD_SLOTS, GOOD_FLUX, LOCKED_SPEEDS};
use crate::fields::MOST_LEVEL;
use crate::flag::Flag;
use crate::random::Random;
use crate::settings::Setting;
use crate::state::State;
use crate::tick_fields::TickFields;

/// What the command of a tick is to be.
#[derive(Clone, Copy, Debug, PartialEq, Eq)]
pub enum Command {
    Low,
    High,
    /// Not low: high, or in mode 1 neither of the two.
    NotLow,
    Any,
}

impl Generator {
    /// A tick at which no cause of flags 0, 1, 2, 3 and 6 stands; its target
    /// is the one that later ticks keep.
    pub(super) fn quiet_tick(&mut self, command: Command) -> TickFields {
        let fields = self.passing_tick(command);
        self.mood.target = fields.target;
        fields
    }

    /// The same with a target that may be for this tick alone.  Values lean to
    /// the last ones that are still good.
    pub(super) fn passing_tick(&mut self, command: Command) -> TickFields {
        let settings = self.drive.settings;
        let (field_command, control) = self.command_fields(command);
        let target = if self.random.chance(30) {
            self.new_target()
        } else {
            self.mood.target
        };
        let random = &mut self.random;
        let vdc_raw = random.leaning(0, settings[Setting::CriticalOvLevel]);
        let vdc_filt = random.leaning(settings[Setting::VdcLvLevel], settings[Setting::VdcOvLevel]);
        let temperature = random.leaning(0, settings[Setting::Tshutdown]);
        self.plan_flux_slot();
        TickFields {
            gate_kill: 0,
            clear: 0,
            command: field_command,
            control,
            vdc_raw,
            vdc_filt,
            temperature,
            flx_m: self.flux(),
            trq_ref: self.torque(),
            speed: self.speed(),
            target,
        }
    }

    /// A tick as the mood has it outside FAULT: masked causes, and seldom a
    /// live one.
    pub(super) fn mood_tick(&mut self, command: Command) -> TickFields {
        let mut fields = self.quiet_tick(command);
        fields.clear = if self.random.chance(50) { 1 } else { 0 };
        self.add_masked_causes(&mut fields);
        if self.random.chance(self.mood.live_cause) {
            self.add_live_cause(&mut fields);
        }
        fields
    }

    pub(super) fn add_masked_causes(&mut self, fields: &mut TickFields) {
        for flag in Flag::OF_ONE_TICK
            .into_iter()
            .filter(|flag| flag.can_be_masked())
        {
            let masked = !flag.is_in(self.drive.settings.live_bits());
            if masked && self.random.chance(self.mood.masked_cause) && self.can_stand(flag) {
                self.add_cause(fields, flag);
            }
        }
    }

    /// Adds one live cause, or more than one now and then.
    pub(super) fn add_live_cause(&mut self, fields: &mut TickFields) {
        let live_bits = self.drive.settings.live_bits();
        loop {
            let flag = self.random.pick(&[
                Flag::GateKill,
                Flag::CriticalOverVoltage,
                Flag::CriticalOverVoltage,
                Flag::OverVoltage,
                Flag::UnderVoltage,
                Flag::OverTemperature,
            ]);
            if !flag.is_in(live_bits) || !self.can_stand(flag) {
                continue;
            }
            self.add_cause(fields, flag);
            if self.random.chance(800) {
                return;
            }
        }
    }

    /// Whether the settings leave a tick a value with which the cause stands.
    fn can_stand(&self, flag: Flag) -> bool {
        let settings = &self.drive.settings;
        match flag {
            Flag::GateKill => true,
            Flag::CriticalOverVoltage => settings[Setting::CriticalOvLevel] < MOST_LEVEL,
            Flag::OverVoltage => settings[Setting::VdcOvLevel] < MOST_LEVEL,
            Flag::UnderVoltage => settings[Setting::VdcLvLevel] > 0,
            Flag::OverTemperature => settings[Setting::Tshutdown] < MOST_LEVEL,
            // These take more than one tick.
            Flag::Flux | Flag::RotorLock | Flag::HallTimeOut | Flag::HallPattern => false,
            // No tick sets it.
            Flag::BlockRefused => false,
        }
    }

    /// Makes the cause of a flag stand that can.
    fn add_cause(&mut self, fields: &mut TickFields, flag: Flag) {
        let settings = &self.drive.settings;
        let mut above = |setting| self.random.leaning(settings[setting] + 1, MOST_LEVEL);
        match flag {
            Flag::GateKill => fields.gate_kill = 1,
            Flag::CriticalOverVoltage => fields.vdc_raw = above(Setting::CriticalOvLevel),
            Flag::OverVoltage => fields.vdc_filt = above(Setting::VdcOvLevel),
            Flag::UnderVoltage => {
                let least_good = settings[Setting::VdcLvLevel];
                fields.vdc_filt = self.random.leaning(0, least_good - 1);
            }
            Flag::OverTemperature => fields.temperature = above(Setting::Tshutdown),
            Flag::Flux
            | Flag::RotorLock
            | Flag::BlockRefused
            | Flag::HallTimeOut
            | Flag::HallPattern => unreachable!("{flag:?} is not of one tick"),
        }
    }

    /// The command and the control of a tick.  The one that the mode does not
    /// look at is anything.
    fn command_fields(&mut self, command: Command) -> (i64, i64) {
        let settings = self.drive.settings;
        let random = &mut self.random;
        let not_low_within_range = settings[Setting::CmdStop] < MOST_LEVEL;
        let command = match command {
            Command::Any => random.pick(&[Command::Low, Command::High, Command::NotLow]),
            given => given,
        };
        if settings[Setting::ControlMode] == 0 {
            let field_command = if command == Command::Low { 0 } else { 1 };
            let near = [settings[Setting::CmdStart], settings[Setting::CmdStop]];
            let control = random.pick(&near) + random.between(-1, 1);
            let any = random.between(0, MOST_LEVEL);
            let near = control.clamp(0, MOST_LEVEL);
            (field_command, random.pick(&[near, any]))
        } else {
            let control = match command {
                Command::Low => random.leaning(0, settings[Setting::CmdStop]),
                Command::NotLow if not_low_within_range => {
                    random.leaning(settings[Setting::CmdStop] + 1, settings[Setting::CmdStart])
                }
                _ => random.leaning(settings[Setting::CmdStart], MOST_LEVEL),
            };
            (random.between(0, 1), control)
        }
    }

    /// At the start of a slot: whether it is to become a bad one.
    fn plan_flux_slot(&mut self) {
        let drive = &self.drive;
        if drive.state == State::MotorRun && drive.flux_slot_ticks == 0 {
            // The eighth slot is often spared, so that runs of seven occur.
            let spared = drive.flux_bad_slots == BAD_SLOTS - 1;
            let chance = if spared { 600 } else { 960 };
            self.mood.slot_to_be_bad = self.mood.flux_bad && self.random.chance(chance);
        }
    }

    /// Flx_M: good unless the mood wants the present slot to be bad.
    fn flux(&mut self) -> i64 {
        let drive = &self.drive;
        let random = &mut self.random;
        let (least, most) = (*GOOD_FLUX.start(), *GOOD_FLUX.end());
        if drive.state != State::MotorRun {
            return random.pick(&[0, least - 1, least, 2048, most, most + 1, 65535]);
        }
        let last = drive.flux_slot_ticks + 1 == drive.settings.flux_slot_ticks();
        let due = last && !drive.flux_slot_bad;
        if self.mood.slot_to_be_bad && (due || random.chance(300)) {
            random.pick(&[least - 1, most + 1, 0, 65535])
        } else {
            random.leaning(least, most)
        }
    }

    /// TrqRef: at least MotorLim while the mood locks the rotor.
    fn torque(&mut self) -> i64 {
        // In IDLE there are no settings yet, and the limit is 0.
        let limit = self.drive.settings[Setting::MotorLim].max(1);
        let needed = 10 * self.drive.settings[Setting::RotorLockTime];
        // Runs often end one tick before they would stand.
        let break_off = self.drive.rotor_lock_ticks + 1 == needed && self.random.chance(300);
        let random = &mut self.random;
        let locked = self.mood.rotor_lock && !break_off && random.chance(990);
        let value = if locked {
            random.leaning(limit, MOST_LEVEL)
        } else {
            random.leaning(0, limit - 1)
        };
        random.either_sign(value)
    }

    /// Speed: around what the state compares it with.
    fn speed(&mut self) -> i64 {
        let settings = self.drive.settings;
        let random = &mut self.random;
        let any = random.between(0, 32767);
        let most = *LOCKED_SPEEDS.end();
        let around =
            |value: i64, random: &mut Random| (value + random.between(-1, 1)).clamp(0, 32767);
        let value = match self.drive.state {
            State::CatchSpin => {
                let near = around(settings[Setting::DirectStartThr], random);
                random.pick(&[near, near, near, any, 32767, 0])
            }
            State::OpenLoop => {
                let below = (settings[Setting::MinSpd] - 1).max(0);
                let slow = [below, below, below, below, 0, 0];
                let fast = [settings[Setting::MinSpd], settings[Setting::MinSpd] + 1];
                if random.chance(850) {
                    random.pick(&slow)
                } else {
                    random.pick(&fast)
                }
            }
            State::MotorRun if self.mood.rotor_lock => {
                if random.chance(990) {
                    // Held fast, or at the speed where 01's range began.
                    let least = around(settings[Setting::MinSpd], random).min(most);
                    let turning = random.leaning(0, most);
                    random.pick(&[0, 0, least, turning, turning])
                } else {
                    most + 1
                }
            }
            _ => {
                let near = around(settings[Setting::MinSpd], random);
                random.pick(&[near, most - 1, most, most + 1, 0, 1, 32767, any, any])
            }
        };
        random.either_sign(value)
    }

    /// A target to be kept for a while.
    pub(super) fn new_target(&mut self) -> i64 {
        let least = self.drive.settings[Setting::MinSpd];
        let reference = self.drive.speed_reference();
        let random = &mut self.random;
        let any = random.between(0, 32767);
        let near = (reference.abs() + random.between(-3, 3)).clamp(0, 32767);
        let value = random.pick(&[
            0,
            1,
            2,
            (least - 1).max(0),
            least,
            least + 1,
            near,
            any,
            32767,
        ]);
        random.either_sign(value)
    }
}
