//! Streams of records, steered by a copy of the drive state.
//!
//! Every stream is one run of the program.  A stream is a sequence of
//! episodes; an episode has a mood, and each record is chosen by what would be
//! interesting in the state that the records before it have led to.  The seed
//! decides everything: which episodes open the stream (its theme), how it
//! ends, and every choice in between.

mod choose_cycle;
mod choose_load;
mod choose_settings;
mod choose_tick;
mod ending;
mod episodes;
mod fault_waits;
mod mood;
mod refusals;
mod slots;
mod small_pump;
mod steering;
mod stillness;

use crate::drive::Drive;
use crate::flag::Flag;
use crate::random::Random;
use crate::record::Record;
use crate::state::State;
use ending::Ending;
use mood::Mood;

pub struct Generator {
    random: Random,
    /// The drive state after the records written so far.
    drive: Drive,
    stream: Vec<u8>,
    /// Whole records still to be written.
    left: i64,
    mood: Mood,
}

/// The stream of a seed: `records` records, the last of which may be unknown
/// or short.
pub fn stream(seed: u64, records: u64) -> Vec<u8> {
    if records == 0 {
        return Vec::new();
    }
    let ending = Ending::of_seed(seed);
    let mut random = Random::new(seed);
    let mood = Mood::choose(&mut random);
    let mut generator = Generator {
        random,
        drive: Drive::power_up(),
        stream: Vec::new(),
        left: records as i64 - ending.records(),
        mood,
    };
    generator.fill(seed);
    generator.finish(ending);
    generator.stream
}

/// Streams of these seeds never leave IDLE: only so can a stream end in a
/// short record where number 3 would hold as well.
pub fn stays_in_idle(seed: u64) -> bool {
    seed % 40 == 39
}

/// A FaultEnable that masks one flag.
fn all_but(flag: Flag) -> u16 {
    !flag.bit() as u16
}

impl Generator {
    fn fill(&mut self, seed: u64) {
        if stays_in_idle(seed) {
            while self.left > 0 {
                self.refused_record_in_idle();
            }
            return;
        }
        for _ in 0..self.random.between(0, 20) {
            self.refused_record_in_idle();
        }
        match seed % 10 {
            1 => self.small_pumps(),
            2 => self.flux_slots(),
            3 => self.ramps(),
            4 => self.retries_to_the_limit(seed / 10),
            5 => self.retry_refused_at_limit_zero(),
            6 => self.hall_time_outs(seed / 10),
            7 => self.offsets_of_every_length(),
            8 => self.long_hall_runs(),
            9 => self.causes_at_the_exit((seed / 10) % 3),
            _ => {}
        }
        while self.left > 0 {
            self.free_episode();
        }
    }

    /// Writes a record and makes its call on the copy of the drive state.
    /// Once the stream is full nothing happens, so episodes need not count.
    fn emit(&mut self, record: Record) {
        if self.left == 0 {
            return;
        }
        self.left -= 1;
        self.stream.extend_from_slice(&record.bytes());
        let before = self.drive.state;
        self.drive = record.call(&self.drive).drive;
        if before != State::Fault && self.drive.state == State::Fault {
            self.mood.plan_fault(&mut self.random);
        }
    }
}
