//! Refusals of every call, and the settings of accepted loads.

use super::{states_but_idle, Reached, Seen};
use crate::cycle::CYCLE_RULES;
use crate::drive::Refusal;
use crate::fields::FieldRule;
use crate::load::Load;
use crate::settings::{accepted_ends, PerSetting, Relation, Rule, RULES, SETTINGS};
use crate::state::State;
use crate::tick_fields::TICK_RULES;

const FIELD_OUT_OF_RANGE: u8 = Refusal::FieldOutOfRange as u8;
const IN_IDLE: u8 = Refusal::InIdle as u8;

const SECOND_BAD_FIELD: &str = "refused 1 with a second bad field after the first";
const FIELD_REFUSED_AS_WELL: &str = "refused 3 at 0 where 1 would hold";
const SETTING_REFUSED_AS_WELL: &str = "refused 4 at 0 where 2 would hold";

/// The letters of the records that load.
const LOADS: [char; 2] = ['L', 'M'];

pub fn add_to_list(list: &mut Vec<String>) {
    for place in breakable_places(&CYCLE_RULES) {
        list.push(format!("refused 1 at {place} by C"));
    }
    for place in breakable_places(&TICK_RULES) {
        list.push(format!("refused 1 at {place} by T"));
    }
    // 0 is missing: L always has 24 numbers, and M 25.
    for rule in RULES.iter().filter(|rule| rule.can_be_broken()) {
        let place = rule.setting.place();
        for letter in LOADS {
            list.push(format!("refused 2 at {place} by {letter} in IDLE"));
            list.push(format!("refused 2 at {place} by {letter} in STOP"));
        }
    }
    list.push("refused 3 at 0 by C".to_string());
    list.push("refused 3 at 0 by T".to_string());
    for state in states_but_idle() {
        for letter in LOADS.iter().filter(|_| state != State::Stop) {
            list.push(format!("refused 4 at 0 by {letter} in {}", state.name()));
        }
        list.push(format!("refused 1 by C in {}", state.name()));
        list.push(format!("refused 1 by T in {}", state.name()));
    }
    list.push(SECOND_BAD_FIELD.to_string());
    for edge in edges() {
        list.push(edge.broken_name());
        list.extend(edge.no_room_name());
    }
    list.push(FIELD_REFUSED_AS_WELL.to_string());
    list.push(SETTING_REFUSED_AS_WELL.to_string());
    list.extend(edges().map(|edge| edge.kept_name()));
    for rule in &RULES {
        let (least, most) = rule.setting.accepted_ends();
        list.push(end_name(rule, least));
        list.push(end_name(rule, most));
    }
}

/// The places of fields that a record can hold out of range; Flx_M is none.
fn breakable_places(rules: &[FieldRule]) -> impl Iterator<Item = usize> + '_ {
    let places = (1..).zip(rules);
    places
        .filter(|(_, rule)| rule.can_be_broken())
        .map(|(place, _)| place)
}

fn end_name(rule: &Rule, value: i64) -> String {
    format!("load accepted with {} {value}", rule.name)
}

/// The 24 settings of a load, whether or not setting 25 follows.
fn settings_of(numbers: &[u16]) -> PerSetting<u16> {
    PerSetting(numbers[..SETTINGS].try_into().expect("24 of them"))
}

/// A relation between two settings, seen at its edge.
struct Edge {
    rule: &'static Rule,
    relation: Relation,
}

fn edges() -> impl Iterator<Item = Edge> {
    RULES.iter().filter_map(|rule| {
        let relation = rule.relation?;
        Some(Edge { rule, relation })
    })
}

impl Edge {
    /// How far below the other setting the last value is that keeps it, and
    /// the first that breaks it.
    fn distances(&self) -> (i64, i64) {
        let kept = -self.relation.edge(0);
        match self.relation {
            Relation::Below { .. } => (kept, kept - 1),
            Relation::NotBelow { .. } => (kept, kept + 1),
        }
    }

    fn distance(&self, numbers: &PerSetting<u16>) -> i64 {
        numbers[self.relation.other()] as i64 - numbers[self.rule.setting] as i64
    }

    fn lies(&self, distance: i64) -> String {
        let lies = match distance {
            0 => "equal to".to_string(),
            1 => "one below".to_string(),
            more => format!("{more} below"),
        };
        let other = self.relation.other().name();
        format!("{} {lies} {other}", self.rule.name)
    }

    fn kept_name(&self) -> String {
        format!("load accepted with {}", self.lies(self.distances().0))
    }

    fn broken_name(&self) -> String {
        let place = self.rule.setting.place();
        format!(
            "refused 2 at {place} with {}",
            self.lies(self.distances().1)
        )
    }

    /// The other setting where it leaves no room for this one.
    fn no_room(&self) -> Option<i64> {
        match self.relation {
            Relation::Below { other, .. } => Some(other.accepted_ends().0 - 1),
            Relation::NotBelow { .. } => None,
        }
    }

    fn no_room_name(&self) -> Option<String> {
        let (place, other) = (self.rule.setting.place(), self.relation.other().name());
        let value = self.no_room()?;
        Some(format!("refused 2 at {place} with {other} {value}"))
    }
}

impl Reached {
    pub(super) fn observe_load(&mut self, numbers: &[u16]) {
        let numbers = settings_of(numbers);
        let ends = accepted_ends();
        for rule in &RULES {
            let value = numbers[rule.setting] as i64;
            let (least, most) = ends[rule.setting];
            if value == least || value == most {
                self.count(end_name(rule, value));
            }
        }
        for edge in edges() {
            let at_edge = edge.distance(&numbers) == edge.distances().0;
            self.count_if(at_edge, edge.kept_name());
        }
    }

    pub(super) fn observe_refusal(&mut self, seen: &Seen) {
        self.observe_refused_sensors(seen);
        let (number, place) = (seen.answer.number, seen.answer.place);
        let state = seen.before.state.name();
        let letter = seen.record.letter() as char;
        match number {
            FIELD_OUT_OF_RANGE => {
                self.count(format!("refused 1 at {place} by {letter}"));
                self.count(format!("refused 1 by {letter} in {state}"));
                let bad = seen.record.bad_fields(seen.before.layout).len();
                self.count_if(bad > 1, SECOND_BAD_FIELD);
            }
            IN_IDLE => {
                self.count(format!("refused 3 at {place} by {letter}"));
                let bad = seen.record.bad_fields(seen.before.layout).len();
                self.count_if(bad > 0, FIELD_REFUSED_AS_WELL);
            }
            _ => self.count(format!(
                "refused {number} at {place} by {letter} in {state}"
            )),
        }
        if let Some(numbers) = seen.record.numbers() {
            if number == Refusal::NotStopped as u8 {
                self.count_if(Load::read(numbers).is_err(), SETTING_REFUSED_AS_WELL);
            } else {
                self.observe_broken_relation(&settings_of(numbers), place);
            }
        }
    }

    fn observe_broken_relation(&mut self, numbers: &PerSetting<u16>, place: u8) {
        for edge in edges().filter(|edge| edge.rule.setting.place() == place as usize) {
            let just_broken = edge.distance(numbers) == edge.distances().1;
            self.count_if(just_broken, edge.broken_name());
            let other = numbers[edge.relation.other()] as i64;
            if edge.no_room() == Some(other) {
                self.count(edge.no_room_name().expect("no room has a name"));
            }
        }
    }
}
