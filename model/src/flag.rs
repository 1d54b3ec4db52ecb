//! The flags that have a meaning, by their bits.

/// "Causes standing at a tick set these flags", all but flag 12.
#[derive(Clone, Copy, Debug, PartialEq, Eq)]
pub enum Flag {
    GateKill = 0,
    CriticalOverVoltage = 1,
    OverVoltage = 2,
    UnderVoltage = 3,
    Flux = 4,
    OverTemperature = 6,
    RotorLock = 7,
    /// M-102: set by a block load; no cause of a tick sets it.
    BlockRefused = 12,
    HallTimeOut = 14,
    HallPattern = 15,
}

impl Flag {
    /// The flags that a cause sets, or Hall samples.
    pub const OF_CAUSES: [Flag; 9] = [
        Flag::GateKill,
        Flag::CriticalOverVoltage,
        Flag::OverVoltage,
        Flag::UnderVoltage,
        Flag::Flux,
        Flag::OverTemperature,
        Flag::RotorLock,
        Flag::HallTimeOut,
        Flag::HallPattern,
    ];

    pub fn number(self) -> i64 {
        self as i64
    }

    /// The flag alone, as a word of sixteen bits.
    pub fn bit(self) -> i64 {
        1 << self.number()
    }

    pub fn is_in(self, word: i64) -> bool {
        word & self.bit() != 0
    }

    /// "0 and 1 are always live", and M-102: "flag 12, always live": no mask
    /// can hide them.
    pub const NEVER_MASKED: [Flag; 3] = [
        Flag::GateKill,
        Flag::CriticalOverVoltage,
        Flag::BlockRefused,
    ];

    pub fn can_be_masked(self) -> bool {
        !Flag::NEVER_MASKED.contains(&self)
    }

    /// The flags whose cause a tick's own fields decide, whatever came before.
    pub const OF_ONE_TICK: [Flag; 5] = [
        Flag::GateKill,
        Flag::CriticalOverVoltage,
        Flag::OverVoltage,
        Flag::UnderVoltage,
        Flag::OverTemperature,
    ];

    /// "Bits 4, 7 and 14 count only ticks taken in MOTORRUN".
    pub const COUNTED: [Flag; 3] = [Flag::Flux, Flag::RotorLock, Flag::HallTimeOut];
}
