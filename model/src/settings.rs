//! The 24 settings and the rules they must keep.
//!
//! `RULES` is the one place where the model states a rule of a setting: what
//! a load refuses, what the generator chooses and what `reached` counts all
//! take their limits from it.

use crate::flag::Flag;
use std::ops::{Index, IndexMut};
use std::sync::OnceLock;
use Setting::*;

/// The settings under the names of the paper; the number is the place.
#[derive(Clone, Copy, Debug, PartialEq, Eq)]
pub enum Setting {
    ControlMode = 1,
    FaultEnable,
    VdcOvLevel,
    VdcLvLevel,
    CriticalOvLevel,
    Tshutdown,
    RotorLockTime,
    FluxFaultTime,
    HallTimeoutPeriod,
    HallAngleOffset,
    MinSpd,
    SpdRampRate,
    MotorLim,
    OffsetPsc,
    BtsChargeTime,
    TCatchSpin,
    DirectStartThr,
    IsPulses,
    ParkTime,
    OpenLoopRamp,
    CmdStart,
    CmdStop,
    CmdGain,
    RetryLimit,
}

pub const SETTINGS: usize = 24;

/// "Settings, in order".
///
/// A relation belongs to the setting that states it: 4 is "below setting 3",
/// 5 is "not below setting 3", 22 is "below setting 21".
pub static RULES: [Rule; SETTINGS] = [
    within(ControlMode, "ControlMode", 0, 1),
    any(FaultEnable, "FaultEnable"),
    within(VdcOvLevel, "VdcOvLevel", 0, 4095),
    within(VdcLvLevel, "VdcLvLevel", 0, 4095).below(VdcOvLevel, 1),
    within(CriticalOvLevel, "CriticalOvLevel", 0, 4095).not_below(VdcOvLevel),
    within(Tshutdown, "Tshutdown", 0, 4095),
    // "7 RotorLockTime, 8 FluxFaultTime, 9 HallTimeoutPeriod 1..65535": one
    // range for the three names before it.
    within(RotorLockTime, "RotorLockTime", 1, 65535),
    within(FluxFaultTime, "FluxFaultTime", 1, 65535),
    within(HallTimeoutPeriod, "HallTimeoutPeriod", 1, 65535),
    any(HallAngleOffset, "HallAngleOffset"),
    within(MinSpd, "MinSpd", 0, 16383),
    within(SpdRampRate, "SpdRampRate", 0, 32767),
    within(MotorLim, "MotorLim", 1, 4095),
    within(OffsetPsc, "OffsetPsc", 0, 7),
    any(BtsChargeTime, "BtsChargeTime"),
    any(TCatchSpin, "TCatchSpin"),
    within(DirectStartThr, "DirectStartThr", 0, 16383),
    within(IsPulses, "IS_Pulses", 0, 255),
    any(ParkTime, "ParkTime"),
    any(OpenLoopRamp, "OpenLoopRamp"),
    within(CmdStart, "CmdStart", 0, 4095),
    within(CmdStop, "CmdStop", 0, 4095).below(CmdStart, 1),
    any(CmdGain, "CmdGain"),
    within(RetryLimit, "RetryLimit", 0, 100),
];

/// The rule of one setting.
#[derive(Clone, Copy, Debug)]
pub struct Rule {
    pub setting: Setting,
    pub name: &'static str,
    pub least: i64,
    pub most: i64,
    pub relation: Option<Relation>,
}

/// How a setting has to lie to another one.
#[derive(Clone, Copy, Debug, PartialEq, Eq)]
pub enum Relation {
    /// "below": less by so much at least.
    Below { other: Setting, by: i64 },
    /// "not below"
    NotBelow { other: Setting },
}

const fn within(setting: Setting, name: &'static str, least: i64, most: i64) -> Rule {
    Rule {
        setting,
        name,
        least,
        most,
        relation: None,
    }
}

/// "any": whatever two bytes hold.
const fn any(setting: Setting, name: &'static str) -> Rule {
    within(setting, name, 0, 65535)
}

impl Rule {
    const fn below(mut self, other: Setting, by: i64) -> Rule {
        self.relation = Some(Relation::Below { other, by });
        self
    }

    const fn not_below(mut self, other: Setting) -> Rule {
        self.relation = Some(Relation::NotBelow { other });
        self
    }

    fn keeps(&self, numbers: &PerSetting<u16>) -> bool {
        let value = numbers[self.setting] as i64;
        self.least <= value
            && value <= self.most
            && self
                .relation
                .is_none_or(|relation| relation.holds(value, numbers))
    }

    /// Whether any number breaks it.
    pub fn can_be_broken(&self) -> bool {
        self.least > 0 || self.most < 65535 || self.relation.is_some()
    }
}

impl Relation {
    pub fn other(self) -> Setting {
        match self {
            Relation::Below { other, .. } | Relation::NotBelow { other } => other,
        }
    }

    /// The last value that keeps it, where the other setting has this one.
    pub fn edge(self, other: i64) -> i64 {
        match self {
            Relation::Below { by, .. } => other - by,
            Relation::NotBelow { .. } => other,
        }
    }

    fn holds(self, value: i64, numbers: &PerSetting<u16>) -> bool {
        let edge = self.edge(numbers[self.other()] as i64);
        match self {
            Relation::Below { .. } => value <= edge,
            Relation::NotBelow { .. } => value >= edge,
        }
    }
}

impl Setting {
    /// Its place, from 1.
    pub fn place(self) -> usize {
        self as usize
    }

    pub fn rule(self) -> Rule {
        RULES[self.place() - 1]
    }

    pub fn name(self) -> &'static str {
        self.rule().name
    }

    /// Least and most that an accepted load can hold.
    pub fn accepted_ends(self) -> (i64, i64) {
        accepted_ends()[self]
    }
}

/// Least and most of each setting that an accepted load can hold; worked out
/// once, since every load of a stream asks for it.
pub fn accepted_ends() -> &'static PerSetting<(i64, i64)> {
    static ENDS: OnceLock<PerSetting<(i64, i64)>> = OnceLock::new();
    ENDS.get_or_init(narrowed_ends)
}

/// A relation narrows the ranges of both its settings: each has to leave room
/// for the other.
fn narrowed_ends() -> PerSetting<(i64, i64)> {
    let mut ends = PerSetting(RULES.map(|rule| (rule.least, rule.most)));
    // One relation may narrow what another one looks at.
    for _ in 0..SETTINGS {
        for rule in &RULES {
            let Some(relation) = rule.relation else {
                continue;
            };
            let (own, other) = (ends[rule.setting], ends[relation.other()]);
            let (own, other) = match relation {
                Relation::Below { by, .. } => (
                    (own.0, own.1.min(other.1 - by)),
                    (other.0.max(own.0 + by), other.1),
                ),
                Relation::NotBelow { .. } => {
                    ((own.0.max(other.0), own.1), (other.0, other.1.min(own.1)))
                }
            };
            ends[rule.setting] = own;
            ends[relation.other()] = other;
        }
    }
    ends
}

/// Something for each setting, in order.
#[derive(Clone, Copy, Debug, PartialEq, Eq, Default)]
pub struct PerSetting<T>(pub [T; SETTINGS]);

impl<T> Index<Setting> for PerSetting<T> {
    type Output = T;

    fn index(&self, setting: Setting) -> &T {
        &self.0[setting.place() - 1]
    }
}

impl<T> IndexMut<Setting> for PerSetting<T> {
    fn index_mut(&mut self, setting: Setting) -> &mut T {
        &mut self.0[setting.place() - 1]
    }
}

/// "The drive state keeps its 24 settings as loaded": one wide integer each.
pub type Settings = PerSetting<i64>;

impl Settings {
    /// Reads 24 numbers, or gives the place of the first that breaks its
    /// rule.
    pub fn read(numbers: &PerSetting<u16>) -> Result<Settings, u8> {
        if let Some(broken) = RULES.iter().find(|rule| !rule.keeps(numbers)) {
            return Err(broken.setting.place() as u8);
        }
        let mut settings = PerSetting(numbers.0.map(|number| number as i64));
        // "HallAngleOffset any (signed)": two's complement.  "CmdGain any" is
        // not marked signed, so it is unsigned.
        settings[HallAngleOffset] = numbers[HallAngleOffset] as i16 as i64;
        Ok(settings)
    }

    /// "In OFFSETCAL the first N = 2^(13 - OffsetPsc)".
    pub fn offset_cycles(&self) -> i64 {
        let mut cycles = 1;
        for _ in 0..(13 - self[OffsetPsc]) {
            cycles *= 2;
        }
        cycles
    }

    /// "slots of floor(5 x FluxFaultTime / 4) ticks".
    pub fn flux_slot_ticks(&self) -> i64 {
        5 * self[FluxFaultTime] / 4
    }

    /// "A flag is live if its FaultEnable bit is 1; 0 and 1 are always live."
    /// M-102: "flag 12, always live".
    pub fn live_bits(&self) -> i64 {
        let never_masked = Flag::NEVER_MASKED.into_iter();
        never_masked.fold(self[FaultEnable], |bits, flag| bits | flag.bit())
    }
}
