//! Values at, just below and just above what they are compared with.

use super::{Reached, Seen};
use crate::causes::{GOOD_FLUX, LOCKED_SPEEDS};
use crate::settings::Setting;
use crate::state::State;
use crate::tick_fields::{TickFields, TICK_RULES};

counted_names! {
    /// Compared at every accepted tick (the control in mode 1 only).
    Plain {
        VdcRawCritical => "VdcRaw against CriticalOvLevel",
        VdcFiltOver => "VdcFilt against VdcOvLevel",
        VdcFiltUnder => "VdcFilt against VdcLvLevel",
        Temperature => "temperature against Tshutdown",
        ControlStart => "control against CmdStart",
        ControlStop => "control against CmdStop",
    }
}

counted_names! {
    /// Compared as an absolute value, so for both signs.
    Absolute {
        SpeedDirectStart => "speed against DirectStartThr at the deciding tick",
        SpeedInOpenLoop => "speed against MinSpd in OPENLOOP",
        LeastLockedSpeed => "speed against MinSpd with torque at least MotorLim in MOTORRUN",
        MostLockedSpeed => "speed against 4095 with torque at least MotorLim in MOTORRUN",
        Torque => "TrqRef against MotorLim with speed in range in MOTORRUN",
    }
}

const SIDES: [&str; 3] = ["just below", "at", "just above"];

/// Just outside and just inside of what is good.
const FLUX: [i64; 4] = [
    *GOOD_FLUX.start() - 1,
    *GOOD_FLUX.start(),
    *GOOD_FLUX.end(),
    *GOOD_FLUX.end() + 1,
];

pub fn add_to_list(list: &mut Vec<String>) {
    for side in SIDES {
        for name in Plain::ALL {
            list.push(format!("threshold {}: {side}", name.as_ref()));
        }
        for name in Absolute::ALL {
            let name = name.as_ref();
            list.push(format!("threshold {name}, forward: {side}"));
            list.push(format!("threshold {name}, reverse: {side}"));
        }
    }
    for flux in FLUX {
        list.push(format!("threshold Flx_M {flux} in MOTORRUN"));
    }
    for rule in TICK_RULES {
        list.push(format!("tick accepted with {} {}", rule.name, rule.least));
        list.push(format!("tick accepted with {} {}", rule.name, rule.most));
    }
}

fn side(difference: i64) -> Option<&'static str> {
    if (-1..=1).contains(&difference) {
        Some(SIDES[(difference + 1) as usize])
    } else {
        None
    }
}

impl Reached {
    fn plain(&mut self, name: Plain, difference: i64) {
        if let Some(side) = side(difference) {
            self.count(format!("threshold {}: {side}", name.as_ref()));
        }
    }

    /// 0 has no sign; it counts for both.
    fn absolute(&mut self, name: Absolute, value: i64, limit: i64) {
        let Some(side) = side(value.abs() - limit) else {
            return;
        };
        let name = name.as_ref();
        self.count_if(value >= 0, format!("threshold {name}, forward: {side}"));
        self.count_if(value <= 0, format!("threshold {name}, reverse: {side}"));
    }

    pub(super) fn observe_thresholds(&mut self, seen: &Seen, fields: &TickFields) {
        let before = seen.before;
        let settings = &before.settings;
        self.plain(
            Plain::VdcRawCritical,
            fields.vdc_raw - settings[Setting::CriticalOvLevel],
        );
        self.plain(
            Plain::VdcFiltOver,
            fields.vdc_filt - settings[Setting::VdcOvLevel],
        );
        self.plain(
            Plain::VdcFiltUnder,
            fields.vdc_filt - settings[Setting::VdcLvLevel],
        );
        self.plain(
            Plain::Temperature,
            fields.temperature - settings[Setting::Tshutdown],
        );
        if settings[Setting::ControlMode] == 1 {
            self.plain(
                Plain::ControlStart,
                fields.control - settings[Setting::CmdStart],
            );
            self.plain(
                Plain::ControlStop,
                fields.control - settings[Setting::CmdStop],
            );
        }
        // A live flag or a low decides before the speed does.
        let undisturbed = !matches!(seen.after.state, State::Fault | State::Stop);
        match before.state {
            State::CatchSpin => {
                let deciding = settings[Setting::TCatchSpin] > 0
                    && before.ticks_in_state + 1 == settings[Setting::TCatchSpin];
                if undisturbed && deciding {
                    self.absolute(
                        Absolute::SpeedDirectStart,
                        fields.speed,
                        settings[Setting::DirectStartThr],
                    );
                }
            }
            State::OpenLoop if undisturbed && settings[Setting::OpenLoopRamp] != 0 => {
                self.absolute(
                    Absolute::SpeedInOpenLoop,
                    fields.speed,
                    settings[Setting::MinSpd],
                );
            }
            State::MotorRun => {
                if fields.trq_ref.abs() >= settings[Setting::MotorLim] {
                    // 01's range began there, M-103's does not.
                    self.absolute(
                        Absolute::LeastLockedSpeed,
                        fields.speed,
                        settings[Setting::MinSpd],
                    );
                    let most = *LOCKED_SPEEDS.end();
                    self.absolute(Absolute::MostLockedSpeed, fields.speed, most);
                }
                if LOCKED_SPEEDS.contains(&fields.speed.abs()) {
                    self.absolute(
                        Absolute::Torque,
                        fields.trq_ref,
                        settings[Setting::MotorLim],
                    );
                }
                let flux = fields.flx_m;
                self.count_if(
                    FLUX.contains(&flux),
                    format!("threshold Flx_M {flux} in MOTORRUN"),
                );
            }
            _ => {}
        }
        self.observe_field_ends(fields);
    }

    fn observe_field_ends(&mut self, fields: &TickFields) {
        for (rule, value) in TICK_RULES.iter().zip(fields.each()) {
            if value == rule.least || value == rule.most {
                self.count(format!("tick accepted with {} {value}", rule.name));
            }
        }
    }
}
