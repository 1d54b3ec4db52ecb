//! The ten states, with the numbers and names that document 01 gives them.

#[derive(Clone, Copy, Debug, PartialEq, Eq, PartialOrd, Ord)]
pub enum State {
    Idle,
    Stop,
    OffsetCal,
    BtsCharge,
    MotorRun,
    Fault,
    CatchSpin,
    Parking,
    OpenLoop,
    AngleSensing,
}

pub const ALL_STATES: [State; 10] = [
    State::Idle,
    State::Stop,
    State::OffsetCal,
    State::BtsCharge,
    State::MotorRun,
    State::Fault,
    State::CatchSpin,
    State::Parking,
    State::OpenLoop,
    State::AngleSensing,
];

/// "name of the state, padded with full stops to twelve": the names by number.
pub const NAMES: [&str; 10] = [
    "IDLE",
    "STOP",
    "OFFSETCAL",
    "BTSCHARGE",
    "MOTORRUN",
    "FAULT",
    "CATCHSPIN",
    "PARKING",
    "OPENLOOP",
    "ANGLESENSING",
];

impl State {
    /// The numbers stand in the list under "Move"; IDLE, which that list does
    /// not hold, is 0, because "Power-up is IDLE, all zero".
    pub fn number(self) -> u8 {
        match self {
            State::Idle => 0,
            State::Stop => 1,
            State::OffsetCal => 2,
            State::BtsCharge => 3,
            State::MotorRun => 4,
            State::Fault => 5,
            State::CatchSpin => 6,
            State::Parking => 7,
            State::OpenLoop => 8,
            State::AngleSensing => 9,
        }
    }

    pub fn name(self) -> &'static str {
        NAMES[self.number() as usize]
    }

    /// "in the six starting and running states (3, 4, 6, 7, 8, 9)".
    pub fn is_starting_or_running(self) -> bool {
        match self {
            State::BtsCharge
            | State::MotorRun
            | State::CatchSpin
            | State::Parking
            | State::OpenLoop
            | State::AngleSensing => true,
            State::Idle | State::Stop | State::OffsetCal | State::Fault => false,
        }
    }
}
