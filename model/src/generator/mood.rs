//! The mood of an episode: how often what happens in it.

use crate::random::Random;

/// How the Hall patterns of the cycles go on.
#[derive(Clone, Copy, Debug, PartialEq, Eq)]
pub enum HallMood {
    Forward,
    Backward,
    /// Nearly always the kept pattern.
    Rest,
    /// Steps both ways.
    Wander,
    /// Dead and stray samples among the steps.
    Noisy,
    /// Any of the patterns that the sensors have.
    Any,
    /// Dead samples only; episodes ask for it.
    Dead,
}

/// Chances are in thousandths.
#[derive(Clone, Debug)]
pub struct Mood {
    /// A record that will be refused.
    pub refused: i64,
    /// A live cause at a tick outside FAULT.
    pub live_cause: i64,
    /// A cause of each masked flag at a tick.
    pub masked_cause: i64,
    /// A low at a tick in a starting or running state.
    pub low: i64,
    /// A cycle where a tick would do as well.
    pub cycle: i64,
    /// A tick where the state waits for cycles.
    pub early_tick: i64,
    /// Dead or stray samples in a row.
    pub burst: i64,
    pub hall: HallMood,
    /// The most that the current samples reach.
    pub most_sample: i64,
    /// In MOTORRUN: torque and speed that lock the rotor; a flux that is bad.
    pub rotor_lock: bool,
    pub flux_bad: bool,
    /// What the present slot of flag 4 is to become.
    pub slot_to_be_bad: bool,
    /// The target that ticks keep for a while.
    pub target: i64,

    /// In FAULT: ticks with a live cause standing, then ticks without one and
    /// without a clear, then clears.
    pub fault_standing: i64,
    pub fault_quiet: i64,
    /// Ticks, from the one at which a retry is due, with a live cause.
    pub fault_standing_when_due: i64,
    /// When set, every entry to FAULT is waited out for so many ticks.
    pub fault_wait: Option<i64>,
}

impl Mood {
    pub fn choose(random: &mut Random) -> Mood {
        Mood {
            refused: random.pick(&[0, 5, 20, 100]),
            live_cause: random.pick(&[0, 2, 10, 40]),
            masked_cause: random.pick(&[0, 50, 300]),
            low: random.pick(&[0, 5, 20, 100]),
            cycle: random.pick(&[100, 400, 700]),
            early_tick: random.pick(&[10, 50, 200]),
            burst: random.pick(&[0, 0, 3, 10]),
            hall: random.pick(&[
                HallMood::Forward,
                HallMood::Backward,
                HallMood::Rest,
                HallMood::Wander,
                HallMood::Noisy,
                HallMood::Any,
            ]),
            most_sample: random.pick(&[4095, 4095, 4095, 1, 0]),
            rotor_lock: random.chance(350),
            flux_bad: random.chance(400),
            slot_to_be_bad: true,
            target: random.between(-32767, 32767),
            fault_standing: 0,
            fault_quiet: 0,
            fault_standing_when_due: 0,
            fault_wait: None,
        }
    }

    /// A mood in which a drive comes to MOTORRUN and stays there.
    pub fn calm(random: &mut Random) -> Mood {
        let mut mood = Mood::choose(random);
        mood.refused = 0;
        mood.live_cause = 0;
        mood.masked_cause = 0;
        mood.low = 0;
        mood.early_tick = 0;
        mood.burst = 0;
        mood.hall = HallMood::Rest;
        mood.rotor_lock = false;
        mood.flux_bad = false;
        mood
    }

    /// What is done about the trip that has just begun.
    pub fn plan_fault(&mut self, random: &mut Random) {
        match self.fault_wait {
            Some(wait) => {
                self.fault_standing = random.between(0, 3);
                self.fault_quiet = wait;
            }
            None => {
                self.fault_standing = random.pick(&[0, 0, 1, 3, 10]);
                self.fault_quiet = random.pick(&[0, 1, 3, 10]);
            }
        }
    }
}
