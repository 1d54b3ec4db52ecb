//! The episodes of a stream, all but the long waits in FAULT.

use super::choose_cycle::Wish;
use super::choose_tick::Command;
use super::mood::{HallMood, Mood};
use super::{all_but, Generator};
use crate::flag::Flag;
use crate::record::Record;
use crate::settings::Setting;
use crate::state::State;

/// The states of a start, each with settings that let it last.
pub(super) const LASTING: [(State, &[(Setting, u16)]); 5] = [
    (State::BtsCharge, &[(Setting::BtsChargeTime, 65535)]),
    (State::CatchSpin, &[(Setting::TCatchSpin, 65535)]),
    (
        State::AngleSensing,
        &[(Setting::TCatchSpin, 0), (Setting::IsPulses, 255)],
    ),
    (
        State::Parking,
        &[
            (Setting::TCatchSpin, 0),
            (Setting::IsPulses, 0),
            (Setting::ParkTime, 65535),
        ],
    ),
    (
        State::OpenLoop,
        &[
            (Setting::TCatchSpin, 0),
            (Setting::IsPulses, 0),
            (Setting::OpenLoopRamp, 1),
            (Setting::MinSpd, 16383),
        ],
    ),
];

impl Generator {
    /// Anything that a mood brings about.
    pub(super) fn free_episode(&mut self) {
        self.mood = Mood::choose(&mut self.random);
        match self.random.between(0, 9) {
            0..=4 => {
                self.load_with(&[]);
            }
            5 => {
                // Straight to MOTORRUN, then the mood.
                self.load_with(&[]);
                let mood = self.mood.clone();
                self.mood = Mood::calm(&mut self.random);
                self.go_to(State::MotorRun, 1000);
                self.mood = mood;
            }
            // STOP with a live flag that a cycle has set: a load is accepted.
            6 => {
                self.go_to_stop();
                for _ in 0..2 {
                    let record = self.wished_cycle(Wish::Dead);
                    self.emit(record);
                }
                self.load_with(&[]);
            }
            7 | 8 => self.linger(),
            _ => {}
        }
        let length = self.random.pick(&[50, 150, 400, 800]);
        self.steps(length);
    }

    /// A state of the start that lasts, so that the mood has time in it.
    fn linger(&mut self) {
        // OPENLOOP, the last of them, most often: a stream comes there least.
        let place = self.random.between(0, 6).min(LASTING.len() as i64 - 1);
        let (state, given) = LASTING[place as usize];
        // Half of the time Hall noise does not trip.
        let masked = self.random.chance(500);
        let mut given = given.to_vec();
        if masked {
            given.push((Setting::FaultEnable, self.random.between(0, 32767) as u16));
        }
        self.load_with(&given);
        let mood = self.mood.clone();
        self.mood = Mood::calm(&mut self.random);
        self.go_to(state, 1000);
        self.mood = mood;
        if masked {
            self.mood.burst = 30;
        }
    }

    /// Speed references that climb, fall and pass zero, with odd rates.
    pub(super) fn ramps(&mut self) {
        for _ in 0..12 {
            let mode = self.random.pick(&[0, 0, 1]);
            let rate = self.random.between(0, 16383) as u16 * 2 + 1;
            let small = self.random.chance(600);
            let rate = if small { rate % 512 } else { rate };
            let least = self.random.pick(&[0, 1, 2, 40]);
            self.load_with(&[
                (Setting::ControlMode, mode),
                (Setting::FaultEnable, 3),
                (Setting::MinSpd, least),
                (Setting::SpdRampRate, rate),
                (Setting::DirectStartThr, 0),
                (Setting::TCatchSpin, 1),
            ]);
            self.mood = Mood::calm(&mut self.random);
            self.go_to(State::MotorRun, 500);
            for _ in 0..6 {
                let near = self.random.between(1, 8);
                let far = self.new_target().abs();
                let target = if small { near } else { far };
                let upward = self.drive.speed_reference_times_2048 < 0;
                self.mood.target = if upward { target } else { -target };
                for _ in 0..self.random.pick(&[10, 60, 120]) {
                    // Staying takes a command that is not low.
                    let record = Record::Tick(self.passing_tick(Command::NotLow));
                    self.emit(record);
                }
            }
        }
    }

    /// Offsets measured with every OffsetPsc, the longest first or last.
    pub(super) fn offsets_of_every_length(&mut self) {
        self.charge_beyond_every_count();
        let mut prescalers: Vec<u16> = (0..=7).collect();
        if self.random.chance(500) {
            prescalers.reverse();
        }
        for prescaler in prescalers {
            // Bit 15 is masked: noise on the way must not cost the sums.
            self.load_with(&[
                (Setting::FaultEnable, all_but(Flag::HallPattern)),
                (Setting::OffsetPsc, prescaler),
            ]);
            self.mood = Mood::choose(&mut self.random);
            self.mood.hall = self.random.pick(&[HallMood::Forward, HallMood::Rest]);
            self.mood.early_tick = 1;
            self.mood.live_cause = 0;
            self.mood.refused = 1;
            self.go_to(State::OffsetCal, 20);
            self.go_to(State::Stop, 9000);
            self.steps(20);
        }
    }

    /// Only in streams long enough: BTSCHARGE with more cycles than the count
    /// holds.  The count must stay at 65535 and not wrap.
    fn charge_beyond_every_count(&mut self) {
        if self.left < 80_000 {
            return;
        }
        self.load_with(&[(Setting::OffsetPsc, 7), (Setting::BtsChargeTime, 65535)]);
        self.mood = Mood::calm(&mut self.random);
        self.mood.hall = HallMood::Forward;
        self.go_to(State::BtsCharge, 1000);
        for _ in 0..65_534 {
            let record = self.wished_cycle(Wish::Next);
            self.emit(record);
        }
        // One short of BtsChargeTime: stays.
        let record = Record::Tick(self.quiet_tick(Command::High));
        self.emit(record);
        for _ in 0..self.random.between(2, 10) {
            let record = self.wished_cycle(Wish::Next);
            self.emit(record);
        }
        let record = Record::Tick(self.quiet_tick(Command::High));
        self.emit(record);
    }

    /// Long runs of steps both ways, through 0 both ways, with noise between.
    pub(super) fn long_hall_runs(&mut self) {
        for _ in 0..4 {
            self.load_with(&[]);
            self.mood = Mood::choose(&mut self.random);
            for _ in 0..8 {
                let wish = self.random.pick(&[Wish::Next, Wish::Previous]);
                for _ in 0..self.random.pick(&[3, 30, 150, 300]) {
                    let record = self.wished_cycle(wish);
                    self.emit(record);
                }
                self.mood.hall = self.random.pick(&[HallMood::Noisy, HallMood::Any]);
                for _ in 0..self.random.between(0, 12) {
                    let record = self.cycle_record();
                    self.emit(record);
                }
            }
            self.steps(60);
        }
    }
}
