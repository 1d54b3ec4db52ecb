//! What a load brings: the 24 settings and, by M-101, the number of Hall
//! sensors beside them.

use crate::hall::{Layout, THREE_SENSORS};
use crate::settings::{PerSetting, Settings, SETTINGS};

/// The place of the setting that "chooses 2 or 3 sensors", and how many
/// numbers a load has that holds it: "A program record M carries 25."
pub const SENSORS_PLACE: usize = SETTINGS + 1;

/// What streams give for a setting 25 "outside 2..3": next to it, the most of
/// two bytes, and numbers of which one byte alone would be good.
pub const BAD_SENSORS: [u16; 8] = [0, 1, 4, 258, 259, 512, 768, 65535];

#[derive(Clone, Copy, Debug, PartialEq, Eq)]
pub struct Load {
    pub settings: Settings,
    pub layout: &'static Layout,
}

impl Load {
    /// Reads the numbers of a load, or gives the place of the refusal with
    /// number 2.
    ///
    /// "lengths other than 24 and 25 are 2 at place 0": the upper of the rows
    /// with number 2, so it is looked at first.  The place of the others is
    /// that of the "first bad setting", so setting 25 is looked at last.
    pub fn read(numbers: &[u16]) -> Result<Load, u8> {
        let (settings, sensors) = match numbers.len() {
            SETTINGS => (numbers, None),
            SENSORS_PLACE => (&numbers[..SETTINGS], Some(numbers[SETTINGS])),
            _ => return Err(0),
        };
        let settings = settings.try_into().map(PerSetting).expect("24 of them");
        let settings = Settings::read(&settings)?;
        let layout = match sensors {
            // "a load of 24 numbers means 3"
            None => &THREE_SENSORS,
            // "setting 25 outside 2..3 is 2 at place 25"
            Some(sensors) => Layout::of(sensors).ok_or(SENSORS_PLACE as u8)?,
        };
        Ok(Load { settings, layout })
    }
}
