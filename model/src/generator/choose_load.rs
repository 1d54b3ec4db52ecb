//! Loads: by L, which means three sensors, or by M, whose 25th number chooses.

use super::choose_settings::Numbers;
use super::Generator;
use crate::hall::{THREE_SENSORS, TWO_SENSORS};
use crate::load::{BAD_SENSORS, SENSORS_PLACE};
use crate::record::Record;
use crate::settings::{Setting, SETTINGS};
use crate::state::State;

/// The number of sensors as a load tells it: `None` is a load of 24 numbers.
pub type Told = Option<u16>;

pub const UNTOLD: Told = None;
pub const TWO: Told = Some(TWO_SENSORS.sensors as u16);
pub const THREE: Told = Some(THREE_SENSORS.sensors as u16);

/// The record of these settings.
pub fn load_of(settings: Numbers, told: Told) -> Record {
    let Some(sensors) = told else {
        return Record::Load(settings.0);
    };
    let mut numbers = [sensors; SENSORS_PLACE];
    numbers[..SETTINGS].copy_from_slice(&settings.0);
    Record::LoadWithSensors(numbers)
}

impl Generator {
    pub(super) fn any_sensors(&mut self) -> Told {
        self.random.pick(&[UNTOLD, UNTOLD, TWO, TWO, THREE])
    }

    /// A load that is accepted in IDLE and STOP.
    pub(super) fn good_load(&mut self) -> Record {
        let settings = self.good_settings();
        let told = self.any_sensors();
        load_of(settings, told)
    }

    /// Loads good settings in which some are given.
    pub(super) fn load_with(&mut self, given: &[(Setting, u16)]) {
        let told = self.any_sensors();
        self.load_with_sensors(given, told);
    }

    /// The same with the sensors given, too.
    pub(super) fn load_with_sensors(&mut self, given: &[(Setting, u16)], told: Told) {
        self.go_to_stop();
        let mut settings = self.good_settings();
        for &(setting, value) in given {
            settings[setting] = value;
        }
        self.emit(load_of(settings, told));
    }

    /// Bad settings; outside IDLE and STOP good ones are refused as well.
    pub(super) fn refused_load(&mut self) -> Record {
        let loadable = matches!(self.drive.state, State::Idle | State::Stop);
        if !loadable && self.random.chance(400) {
            return self.good_load();
        }
        let bad_sensors = Some(self.bad_sensors());
        if self.random.chance(150) {
            return load_of(self.good_settings(), bad_sensors);
        }
        // Setting 25 may be bad as well: the first one counts.
        let setting = self.refusable_setting();
        let settings = self.bad_settings(setting);
        let told = self.random.pick(&[UNTOLD, UNTOLD, TWO, THREE, bad_sensors]);
        load_of(settings, told)
    }

    /// Setting 25 "outside 2..3".
    fn bad_sensors(&mut self) -> u16 {
        if self.random.chance(800) {
            self.random.pick(&BAD_SENSORS)
        } else {
            self.random.between(4, 65535) as u16
        }
    }
}
