//! The fields of a tick: their ranges, and what their values mean.

use crate::fields::{bad_places, FieldRule, Form, MOST_LEVEL};
use crate::settings::{Setting, Settings};

/// "Fields: gate kill, clear, command (0..1 each); control, VdcRaw, VdcFilt,
/// temperature number (0..4095, rising with heat); Flx_M (0..65535); TrqRef
/// (-4095..4095); speed, target (-32767..32767)."
#[derive(Clone, Copy, Debug, PartialEq, Eq, Default)]
pub struct TickFields {
    pub gate_kill: i64,
    pub clear: i64,
    pub command: i64,
    pub control: i64,
    pub vdc_raw: i64,
    pub vdc_filt: i64,
    pub temperature: i64,
    pub flx_m: i64,
    pub trq_ref: i64,
    pub speed: i64,
    pub target: i64,
}

pub const TICK_FIELDS: usize = 11;

/// In the order of the record.
pub const TICK_RULES: [FieldRule; TICK_FIELDS] = [
    FieldRule::new("gate kill", Form::Byte, 0, 1),
    FieldRule::new("clear", Form::Byte, 0, 1),
    FieldRule::new("command", Form::Byte, 0, 1),
    FieldRule::new("control", Form::Number, 0, MOST_LEVEL),
    FieldRule::new("VdcRaw", Form::Number, 0, MOST_LEVEL),
    FieldRule::new("VdcFilt", Form::Number, 0, MOST_LEVEL),
    FieldRule::new("temperature", Form::Number, 0, MOST_LEVEL),
    FieldRule::new("Flx_M", Form::Number, 0, 65535),
    FieldRule::new("TrqRef", Form::Signed, -MOST_LEVEL, MOST_LEVEL),
    FieldRule::new("speed", Form::Signed, -32767, 32767),
    FieldRule::new("target", Form::Signed, -32767, 32767),
];

impl TickFields {
    /// The fields in order.
    pub fn each(&self) -> [i64; TICK_FIELDS] {
        [
            self.gate_kill,
            self.clear,
            self.command,
            self.control,
            self.vdc_raw,
            self.vdc_filt,
            self.temperature,
            self.flx_m,
            self.trq_ref,
            self.speed,
            self.target,
        ]
    }

    pub fn each_mut(&mut self) -> [&mut i64; TICK_FIELDS] {
        [
            &mut self.gate_kill,
            &mut self.clear,
            &mut self.command,
            &mut self.control,
            &mut self.vdc_raw,
            &mut self.vdc_filt,
            &mut self.temperature,
            &mut self.flx_m,
            &mut self.trq_ref,
            &mut self.speed,
            &mut self.target,
        ]
    }

    /// "cycle or tick field out of range": the places of all bad fields.
    pub fn bad_fields(&self) -> Vec<u8> {
        bad_places(&TICK_RULES, &self.each())
    }

    /// "Mode 0: low is command 0 [...]. Mode 1: low is control at most
    /// CmdStop".
    pub fn is_low(&self, settings: &Settings) -> bool {
        if settings[Setting::ControlMode] == 0 {
            self.command == 0
        } else {
            self.control <= settings[Setting::CmdStop]
        }
    }

    /// "Mode 0: [...] high is command 1. Mode 1: [...] high is control at
    /// least CmdStart."
    pub fn is_high(&self, settings: &Settings) -> bool {
        if settings[Setting::ControlMode] == 0 {
            self.command == 1
        } else {
            self.control >= settings[Setting::CmdStart]
        }
    }

    /// The target of the speed reference, not yet times 2048.
    pub fn reference_target(&self, settings: &Settings) -> i64 {
        if settings[Setting::ControlMode] == 0 {
            // "Mode 0 target: where its absolute value is below MinSpd,
            // MinSpd with its sign, 0 being positive."
            if self.target.abs() >= settings[Setting::MinSpd] {
                self.target
            } else if self.target < 0 {
                -settings[Setting::MinSpd]
            } else {
                settings[Setting::MinSpd]
            }
        } else if self.control < settings[Setting::CmdStart] {
            // "MinSpd where control is below CmdStart."
            settings[Setting::MinSpd]
        } else {
            // "Mode 1: MinSpd plus floor((control - CmdStart) x CmdGain /
            // 4096), at most 16383": the whole target is limited.
            let gained =
                (self.control - settings[Setting::CmdStart]) * settings[Setting::CmdGain] / 4096;
            (settings[Setting::MinSpd] + gained).min(16383)
        }
    }
}
