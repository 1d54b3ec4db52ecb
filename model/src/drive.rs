//! The drive state, the load call, the answer and the gates.

use crate::flag::Flag;
use crate::hall::{Fate, Layout, THREE_SENSORS};
use crate::load::Load;
use crate::settings::Settings;
use crate::state::State;

/// Everything that a call can change.  All numbers are wide; the paper's
/// moduli and limits are applied where the paper names them.
#[derive(Clone, Debug, PartialEq, Eq)]
pub struct Drive {
    pub state: State,
    pub settings: Settings,
    /// What setting 25 chose; it stands beside the 24.
    pub layout: &'static Layout,
    /// The sixteen flags, bit n of the number being flag n.
    pub flags: i64,
    pub armed: bool,
    pub retries_used: i64,

    pub kept_pattern: Option<i64>,
    pub dead_streak: i64,
    pub stray_streak: i64,
    /// 0 to 2^32 - 1.
    pub position: i64,
    /// -32768 to 32767.
    pub angle: i64,
    pub still_count: i64,

    /// Cycles and ticks in the present state.
    pub cycles_in_state: i64,
    pub ticks_in_state: i64,

    pub offset_sums: Pair<i64>,
    pub offsets: Pair<i64>,
    pub offsets_measured: bool,

    /// "Speed reference, kept times 2048."
    pub speed_reference_times_2048: i64,

    /// Flag 4: ticks of the present slot, whether one of them was bad, and
    /// the consecutive bad slots that ended before it.
    pub flux_slot_ticks: i64,
    pub flux_slot_bad: bool,
    pub flux_bad_slots: i64,
    /// Flags 7 and 14: consecutive ticks so far.
    pub rotor_lock_ticks: i64,
    pub hall_still_ticks: i64,
}

/// What there is of both current samples.
#[derive(Clone, Copy, Debug, PartialEq, Eq, Default)]
pub struct Pair<T> {
    pub first: T,
    pub second: T,
}

/// The gates, by their numbers.
#[derive(Clone, Copy, Debug, PartialEq, Eq)]
pub enum Gate {
    Off = 0,
    Charge = 1,
    Drive = 2,
    /// "all low sides on"
    Brake = 3,
}

/// "its answer: number, place, state, gate, live word, speed reference,
/// position, angle, two offsets, retries used", in the widths of the paper:
/// "The live word has 16 bits, the position 32; reference and angle are
/// signed 16-bit."  M-105 adds the fate: "Cycle passes the name on in its
/// answer".
#[derive(Clone, Debug, PartialEq, Eq)]
pub struct Answer {
    pub number: u8,
    pub place: u8,
    pub state: u8,
    pub gate: u8,
    pub live_word: u16,
    pub speed_reference: i16,
    pub position: u32,
    pub angle: i16,
    pub offsets: Pair<u16>,
    pub retries_used: u16,
    /// None but in the answer of an accepted cycle: a refused sample is not
    /// judged, and no other call takes one.
    pub fate: Option<Fate>,
}

impl Answer {
    /// "one letter (F, S, W, B, D, X, or a full stop otherwise)"
    pub fn fate_letter(&self) -> char {
        self.fate.map_or('.', Fate::letter)
    }
}

/// The numbers of the table of refusals.
#[derive(Clone, Copy, Debug, PartialEq, Eq)]
pub enum Refusal {
    /// "cycle or tick field out of range"; M-102: "Count above 4095 is 1."
    FieldOutOfRange = 1,
    /// a load or a body of another length, or a setting that breaks its rule
    BadSetting = 2,
    /// "cycle or tick in IDLE"
    InIdle = 3,
    /// "load outside IDLE and STOP"
    NotStopped = 4,
    /// no line for this answer, or no room for it or for an image
    NoLineOrImage = 5,
    /// "unknown or short record"
    UnknownOrShort = 6,
    /// M-102: "7 image malformed, then 8 block above 14, then 9 block empty"
    ImageMalformed = 7,
    NoSuchBlock = 8,
    BlockEmpty = 9,
}

/// "Each hands the next drive state back beside its answer".
#[derive(Clone, Debug, PartialEq, Eq)]
pub struct Reply {
    pub drive: Drive,
    pub answer: Answer,
}

impl Drive {
    /// "Power-up is IDLE, all zero."  Which layout stands there shows in no
    /// answer: a cycle in IDLE is refused whatever its pattern.
    pub fn power_up() -> Drive {
        Drive {
            state: State::Idle,
            settings: Settings::default(),
            layout: &THREE_SENSORS,
            flags: 0,
            armed: false,
            retries_used: 0,
            kept_pattern: None,
            dead_streak: 0,
            stray_streak: 0,
            position: 0,
            angle: 0,
            still_count: 0,
            cycles_in_state: 0,
            ticks_in_state: 0,
            offset_sums: Pair::default(),
            offsets: Pair::default(),
            offsets_measured: false,
            speed_reference_times_2048: 0,
            flux_slot_ticks: 0,
            flux_slot_bad: false,
            flux_bad_slots: 0,
            rotor_lock_ticks: 0,
            hall_still_ticks: 0,
        }
    }

    /// The load call.  "4 before 2": the state is looked at first.
    pub fn load(&self, numbers: &[u16]) -> Reply {
        // "load outside IDLE and STOP"
        if self.state != State::Idle && self.state != State::Stop {
            return self.refuse(Refusal::NotStopped, 0);
        }
        match Load::read(numbers) {
            Err(place) => self.refuse(Refusal::BadSetting, place),
            Ok(load) => {
                // "An accepted load gives STOP and clears everything else to
                // power-up values: flags, position, pattern, offsets and
                // arming."
                let mut next = Drive::power_up();
                next.settings = load.settings;
                next.layout = load.layout;
                next.state = State::Stop;
                next.accept()
            }
        }
    }

    /// "Entering a state zeroes its cycle and tick counts, and in OFFSETCAL
    /// its sums."
    pub fn enter(&mut self, state: State) {
        self.state = state;
        self.cycles_in_state = 0;
        self.ticks_in_state = 0;
        if state == State::OffsetCal {
            self.offset_sums = Pair::default();
        }
        if state == State::MotorRun {
            // "Bits 4, 7 and 14 count only ticks taken in MOTORRUN, from zero
            // at each entry."
            self.flux_slot_ticks = 0;
            self.flux_slot_bad = false;
            self.flux_bad_slots = 0;
            self.rotor_lock_ticks = 0;
            self.hall_still_ticks = 0;
        }
    }

    /// The flags that are live.
    pub fn live_word(&self) -> i64 {
        self.flags & self.settings.live_bits()
    }

    /// "Gates after any call: live bit 0, off (0); else live bit 1, all low
    /// sides on (3); else any live flag, off; else 3 gives charge (1);
    /// 4, 6, 7, 8, 9 give drive (2); others off."
    pub fn gate(&self) -> Gate {
        let live = self.live_word();
        if Flag::GateKill.is_in(live) {
            return Gate::Off;
        }
        if Flag::CriticalOverVoltage.is_in(live) {
            return Gate::Brake;
        }
        if live != 0 {
            return Gate::Off;
        }
        match self.state {
            State::BtsCharge => Gate::Charge,
            State::MotorRun
            | State::CatchSpin
            | State::Parking
            | State::OpenLoop
            | State::AngleSensing => Gate::Drive,
            State::Idle | State::Stop | State::OffsetCal | State::Fault => Gate::Off,
        }
    }

    /// "Reported divided by 2048, rounded toward zero", which is what the
    /// division of the language does.
    pub fn speed_reference(&self) -> i64 {
        self.speed_reference_times_2048 / 2048
    }

    /// The answer that shows this drive state.  The fate is not part of that:
    /// it is a sample's and not kept.
    pub fn answer(&self, number: u8, place: u8) -> Answer {
        Answer {
            number,
            place,
            state: self.state.number(),
            gate: self.gate() as u8,
            live_word: self.live_word() as u16,
            speed_reference: self.speed_reference() as i16,
            position: self.position as u32,
            angle: self.angle as i16,
            offsets: Pair {
                first: self.offsets.first as u16,
                second: self.offsets.second as u16,
            },
            retries_used: self.retries_used as u16,
            fate: None,
        }
    }

    /// "accepted": number 0, place 0.
    pub fn accept(self) -> Reply {
        let answer = self.answer(0, 0);
        Reply {
            drive: self,
            answer,
        }
    }

    /// "A refusal changes no state and no lent byte; its other fields show
    /// the unchanged state."
    pub fn refuse(&self, refusal: Refusal, place: u8) -> Reply {
        self.refuse_by(refusal as u8, place)
    }

    /// The same by the refusal's number.
    pub fn refuse_by(&self, number: u8, place: u8) -> Reply {
        Reply {
            drive: self.clone(),
            answer: self.answer(number, place),
        }
    }
}
