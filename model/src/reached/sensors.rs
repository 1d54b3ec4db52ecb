//! M-101: which load chose the sensors, setting 25, and what two sensors
//! refuse and trip by.  Their samples are listed with the others', in `hall`.

use super::{add_all, of_layout, states_but_idle, Loaded, Reached, Seen};
use crate::cycle::CycleFields;
use crate::drive::Refusal;
use crate::flag::Flag;
use crate::hall::{Fate, Layout, THREE_SENSORS, TWO_SENSORS};
use crate::load::{Load, BAD_SENSORS, SENSORS_PLACE};
use crate::record::Record;
use crate::settings::SETTINGS;
use crate::state::State;
use crate::tick_fields::TickFields;

counted_names! {
    Name {
        AnotherPlaceWins => "refused 2 before place 25 with a bad setting 25",
        NotStoppedWins => "refused 4 at 0 by M with a bad setting 25 alone",
        LiveFlagAtLoad => "two sensors: load accepted with flag 15 live from stray samples",
        PatternAndSample => "two sensors: refused 1 at 1 by pattern 4 to 7 with a bad sample after it",
        Trip => "two sensors: trip by stray samples alone",
        ClearAtOnce => "two sensors: clear at FAULT's first tick after a trip by stray samples",
        KeptInFault => "two sensors: first pattern in FAULT after a trip by stray samples",
        Retry => "two sensors: exit by retry",
        DeadAgain => "three sensors after two: pattern 0 is dead",
        WideAgain => "three sensors after two: pattern above 3 accepted",
    }
}

/// Patterns that three sensors have and two have not; then those of neither.
const REFUSED: [i64; 6] = [4, 5, 6, 7, 8, 255];

const LOADS: [Loaded; 3] = [Loaded::By24, Loaded::By25(2), Loaded::By25(3)];

pub fn add_to_list(list: &mut Vec<String>) {
    add_all(list, Name::ALL);
    for loaded in LOADS {
        for before in [Loaded::Nothing].iter().chain(&LOADS) {
            list.push(load_name(loaded, *before));
        }
    }
    for state in [State::Idle, State::Stop] {
        list.push(place_name(state));
        for sensors in BAD_SENSORS {
            list.push(sensors_name(sensors, state));
        }
    }
    for pattern in REFUSED {
        list.push(pattern_name(pattern));
    }
    for place in [2, 3] {
        list.push(sample_name(place));
    }
    for state in states_but_idle() {
        list.push(pattern_in_name(state));
    }
}

pub fn loaded_by(record: &Record) -> Loaded {
    match record {
        Record::LoadWithSensors(numbers) => Loaded::By25(numbers[SETTINGS] as i64),
        _ => Loaded::By24,
    }
}

fn told(loaded: Loaded) -> String {
    match loaded {
        Loaded::Nothing => "power-up".to_string(),
        Loaded::By24 => "L".to_string(),
        Loaded::By25(sensors) => format!("M with {sensors} sensors"),
    }
}

fn load_name(loaded: Loaded, before: Loaded) -> String {
    format!("load accepted by {} after {}", told(loaded), told(before))
}

/// As `loads` counts every place.
fn place_name(state: State) -> String {
    format!("refused 2 at {SENSORS_PLACE} by M in {}", state.name())
}

fn sensors_name(sensors: u16, state: State) -> String {
    format!("refused 2 with setting 25 {sensors} in {}", state.name())
}

fn pattern_name(pattern: i64) -> String {
    of_layout(&TWO_SENSORS, format!("refused 1 at 1 by pattern {pattern}"))
}

fn sample_name(place: u8) -> String {
    of_layout(&TWO_SENSORS, format!("refused 1 at {place} by C"))
}

fn pattern_in_name(state: State) -> String {
    of_layout(
        &TWO_SENSORS,
        format!("refused 1 at 1 by pattern 4 to 7 in {}", state.name()),
    )
}

fn is_two(layout: &Layout) -> bool {
    *layout == TWO_SENSORS
}

impl Reached {
    /// Of an accepted record.
    pub(super) fn observe_sensors(&mut self, seen: &Seen) {
        let two = is_two(seen.before.layout);
        match seen.record {
            Record::Load(_) | Record::LoadWithSensors(_) => {
                let strayed = Flag::HallPattern.is_in(seen.before.live_word());
                self.count_if(two && strayed, Name::LiveFlagAtLoad);
                self.count(load_name(loaded_by(seen.record), self.watch.loaded));
            }
            Record::Cycle(fields) if two => self.observe_two(seen, fields),
            Record::Cycle(fields) => {
                let after_two = self.watch.loaded_before == Loaded::By25(TWO_SENSORS.sensors);
                let pattern = fields.pattern;
                self.count_if(after_two && pattern == 0, Name::DeadAgain);
                self.count_if(
                    after_two && pattern > TWO_SENSORS.most_pattern,
                    Name::WideAgain,
                );
            }
            Record::Tick(fields) if two => self.observe_trip(seen, fields),
            Record::Tick(_) => {}
        }
    }

    fn observe_two(&mut self, seen: &Seen, fields: &CycleFields) {
        let before = seen.before;
        let fate = before.layout.fate(fields.pattern, before.kept_pattern);
        self.count_if(
            fate == Fate::First && before.state == State::Fault && strays_alone(seen),
            Name::KeptInFault,
        );
    }

    fn observe_trip(&mut self, seen: &Seen, fields: &TickFields) {
        let (before, after) = (seen.before, seen.after);
        let tripped = before.state != State::Fault && after.state == State::Fault;
        let left = before.state == State::Fault && after.state == State::Stop;
        let first = before.ticks_in_state == 0;
        self.count_if(tripped && strays_alone(seen), Name::Trip);
        self.count_if(
            left && first && fields.clear == 1 && strays_alone(seen),
            Name::ClearAtOnce,
        );
        self.count_if(left && fields.clear == 0, Name::Retry);
    }

    /// Of a refused record.
    pub(super) fn observe_refused_sensors(&mut self, seen: &Seen) {
        let (number, place, state) = (seen.answer.number, seen.answer.place, seen.before.state);
        match seen.record {
            Record::LoadWithSensors(numbers) => {
                let sensors = numbers[SETTINGS];
                if place as usize == SENSORS_PLACE && BAD_SENSORS.contains(&sensors) {
                    self.count(sensors_name(sensors, state));
                }
                let bad = Layout::of(sensors).is_none();
                let settings_refused = number == Refusal::BadSetting as u8;
                self.count_if(
                    settings_refused && bad && (place as usize) < SENSORS_PLACE,
                    Name::AnotherPlaceWins,
                );
                let alone = Load::read(numbers) == Err(SENSORS_PLACE as u8);
                self.count_if(
                    number == Refusal::NotStopped as u8 && alone,
                    Name::NotStoppedWins,
                );
            }
            Record::Cycle(fields) if is_two(seen.before.layout) => {
                let pattern = fields.pattern;
                if place != 1 {
                    self.count(sample_name(place));
                    return;
                }
                self.count_if(REFUSED.contains(&pattern), pattern_name(pattern));
                if pattern <= THREE_SENSORS.most_pattern {
                    self.count(pattern_in_name(state));
                    let bad = fields.bad_fields(seen.before.layout).len();
                    self.count_if(bad > 1, Name::PatternAndSample);
                }
            }
            _ => {}
        }
    }
}

/// Flag 15 is the only live one; with two sensors that is by strays.
fn strays_alone(seen: &Seen) -> bool {
    seen.before.live_word() == Flag::HallPattern.bit()
}
