//! Counts of what streams reach, against an explicit list.
//!
//! Each module below holds a part of the list beside the code that counts it,
//! so that the two can be read together.  Names that end in "(long)" need a
//! stream longer than 20,000 records: two waits in FAULT with what lies
//! between take 20,003 of them, and counters are full after 65,535.

/// Names that are counted, as an enum: code, list and output take the text of
/// a name from the one line that has it.
macro_rules! counted_names {
    ($(#[$about:meta])* $kind:ident { $($name:ident => $text:literal,)+ }) => {
        $(#[$about])*
        #[derive(Clone, Copy)]
        enum $kind {
            $($name,)+
        }

        impl $kind {
            const ALL: &'static [$kind] = &[$($kind::$name,)+];
        }

        impl AsRef<str> for $kind {
            fn as_ref(&self) -> &str {
                match self {
                    $($kind::$name => $text,)+
                }
            }
        }
    };
}

mod commands;
mod ends;
mod faults;
mod flags;
mod hall;
mod loads;
mod moves;
mod running;
mod sensors;
mod thresholds;

use crate::counts::of_layout;
use crate::drive::{Answer, Drive};
use crate::fate_rows::{self, FateWatch};
use crate::hall::Layout;
use crate::record::{read_head, record_length, Head, Record};
use crate::state::State;
use sensors::loaded_by;
use std::collections::{BTreeMap, BTreeSet};

/// One record with what was before and after it.
pub struct Seen<'a> {
    pub before: &'a Drive,
    pub record: &'a Record,
    pub after: &'a Drive,
    pub answer: &'a Answer,
}

/// What has to be remembered from record to record of one stream.
#[derive(Default)]
pub struct Watch {
    pub steps_forward: u64,
    pub steps_backward: u64,
    pub newly_kept_since_tick: bool,
    /// Masked causes that stood at an exit from FAULT one tick ago.
    pub masked_at_exit: i64,
    pub last_exit: LastExit,
    pub low_since_exit: bool,
    pub low_since_load: bool,
    /// How the settings came, and those before them.
    pub loaded: Loaded,
    pub loaded_before: Loaded,
    pub fates: FateWatch,
}

/// By which record the settings came.
#[derive(Clone, Copy, Debug, Default, PartialEq, Eq)]
pub enum Loaded {
    #[default]
    Nothing,
    By24,
    By25(i64),
}

#[derive(Clone, Copy, Debug, Default, PartialEq, Eq)]
pub enum LastExit {
    #[default]
    NoneSinceLoad,
    Clear,
    Retry,
}

#[derive(Default)]
pub struct Reached {
    counts: BTreeMap<String, u64>,
    watch: Watch,
}

impl Reached {
    pub fn new() -> Reached {
        Reached::default()
    }

    /// Runs the model over one stream and counts.
    pub fn add_stream(&mut self, stream: &[u8]) {
        self.watch = Watch::default();
        self.count("streams");
        let mut drive = Drive::power_up();
        let mut rest = stream;
        while let Head::Whole(record) = read_head(rest) {
            let length = record_length(record.letter()).expect("a known letter");
            rest = &rest[length..];
            let reply = record.call(&drive);
            self.observe(&Seen {
                before: &drive,
                record: &record,
                after: &reply.drive,
                answer: &reply.answer,
            });
            drive = reply.drive;
        }
        self.observe_end(rest, &drive);
    }

    fn observe(&mut self, seen: &Seen) {
        self.count("records");
        self.observe_fate(seen);
        self.observe_moves(seen);
        self.observe_flags(seen);
        if seen.answer.number != 0 {
            self.observe_refusal(seen);
            return;
        }
        self.observe_sensors(seen);
        match seen.record {
            Record::Load(_) | Record::LoadWithSensors(_) => {
                self.observe_load(seen.record.numbers().expect("a load has numbers"));
                self.watch = Watch {
                    loaded: loaded_by(seen.record),
                    loaded_before: self.watch.loaded,
                    ..Watch::default()
                };
            }
            Record::Cycle(fields) => self.observe_hall(seen, fields),
            Record::Tick(fields) => {
                self.observe_offsets(seen);
                self.observe_thresholds(seen, fields);
                self.observe_running(seen, fields);
                self.observe_faults(seen, fields);
                self.observe_commands(seen, fields);
                self.watch.newly_kept_since_tick = false;
            }
        }
    }

    fn observe_fate(&mut self, seen: &Seen) {
        let letter = seen.record.letter() as char;
        let fates = &mut self.watch.fates;
        for name in fates.names(letter, seen.before, seen.after, seen.answer) {
            self.count(name);
        }
    }

    fn count(&mut self, name: impl AsRef<str>) {
        let name = name.as_ref();
        match self.counts.get_mut(name) {
            Some(count) => *count += 1,
            None => {
                self.counts.insert(name.to_string(), 1);
            }
        }
    }

    /// Counts what is listed for each layout.
    fn count_of(&mut self, layout: &Layout, name: impl AsRef<str>) {
        self.count(of_layout(layout, name));
    }

    /// Counts where the condition holds.
    fn count_if(&mut self, condition: bool, name: impl AsRef<str>) {
        if condition {
            self.count(name);
        }
    }

    /// The names of the list that were never counted.
    pub fn at_zero(&self) -> Vec<String> {
        list()
            .into_iter()
            .filter(|name| !self.counts.contains_key(name))
            .collect()
    }

    /// The names that were counted though the list does not hold them: there
    /// should be none.
    pub fn unlisted(&self) -> Vec<String> {
        let listed: BTreeSet<String> = list().into_iter().collect();
        self.counts
            .keys()
            .filter(|name| !listed.contains(*name))
            .cloned()
            .collect()
    }

    /// One line for each count, sorted; then the lines about the list.
    pub fn lines(&self) -> Vec<String> {
        let mut lines: Vec<String> = self
            .counts
            .iter()
            .map(|(name, count)| format!("{name}: {count}"))
            .collect();
        lines.push(format!("listed: {} names", list().len()));
        lines.push(format!(
            "counted but not listed: {}",
            joined(self.unlisted())
        ));
        lines.push(format!("at zero: {}", joined(self.at_zero())));
        lines
    }
}

fn joined(names: Vec<String>) -> String {
    if names.is_empty() {
        "none".to_string()
    } else {
        names.join("; ")
    }
}

/// Everything that streams can reach.
pub fn list() -> Vec<String> {
    let mut list = Vec::new();
    add_all(&mut list, &["streams", "records"]);
    ends::add_to_list(&mut list);
    moves::add_to_list(&mut list);
    flags::add_to_list(&mut list);
    loads::add_to_list(&mut list);
    hall::add_to_list(&mut list);
    list.extend(fate_rows::list(&['L', 'M', 'C', 'T'], &[ends::NUMBER_6]));
    sensors::add_to_list(&mut list);
    thresholds::add_to_list(&mut list);
    running::add_to_list(&mut list);
    faults::add_to_list(&mut list);
    commands::add_to_list(&mut list);
    list
}

fn add_all<Name: AsRef<str>>(list: &mut Vec<String>, names: &[Name]) {
    list.extend(names.iter().map(|name| name.as_ref().to_string()));
}

/// The nine states in which cycles and ticks are accepted.
fn states_but_idle() -> Vec<State> {
    crate::state::ALL_STATES[1..].to_vec()
}
