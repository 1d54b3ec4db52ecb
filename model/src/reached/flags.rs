//! Flags raised, that is set where they were not set before.

use super::{of_layout, states_but_idle, Reached, Seen};
use crate::flag::Flag;
use crate::hall::LAYOUTS;
use crate::record::Record;
use crate::state::State;

const DEAD: &str = "dead samples";
const STRAY: &str = "stray samples";

pub fn add_to_list(list: &mut Vec<String>) {
    for state in states_but_idle() {
        for flag in Flag::OF_ONE_TICK {
            list.push(name(flag, "tick", true, state));
        }
        let maskable = Flag::OF_ONE_TICK.into_iter();
        for flag in maskable.filter(|flag| flag.can_be_masked()) {
            list.push(name(flag, "tick", false, state));
        }
        for live in [true, false] {
            list.push(name(Flag::HallPattern, DEAD, live, state));
            for layout in LAYOUTS {
                list.push(of_layout(
                    layout,
                    name(Flag::HallPattern, STRAY, live, state),
                ));
            }
        }
    }
    for flag in Flag::COUNTED {
        for live in [true, false] {
            list.push(name(flag, "tick", live, State::MotorRun));
        }
    }
    // A tick raises flag 15 only after an exit from FAULT has cleared it while
    // the streak stood, which takes a mask.
    list.push(name(Flag::HallPattern, "tick", false, State::Stop));
    for flag in Flag::OF_CAUSES {
        list.push(set_name(flag));
    }
}

fn set_name(flag: Flag) -> String {
    format!("flag {} set", flag.number())
}

fn name(flag: Flag, way: &str, live: bool, state: State) -> String {
    let (flag, state) = (flag.number(), state.name());
    let live = if live { "live" } else { "masked" };
    format!("flag {flag} raised by {way}, {live}, in {state}")
}

impl Reached {
    pub(super) fn observe_flags(&mut self, seen: &Seen) {
        let raised = seen.after.flags & !seen.before.flags;
        if raised == 0 {
            return;
        }
        let layout = seen.before.layout;
        let way = match seen.record {
            Record::Load(_) | Record::LoadWithSensors(_) => "load",
            Record::Tick(_) => "tick",
            Record::Cycle(fields) if layout.dead.contains(&fields.pattern) => DEAD,
            Record::Cycle(_) => STRAY,
        };
        let flags = Flag::OF_CAUSES.into_iter();
        for flag in flags.filter(|flag| flag.is_in(raised)) {
            let live = flag.is_in(seen.before.settings.live_bits());
            self.count(set_name(flag));
            let name = name(flag, way, live, seen.before.state);
            if way == STRAY {
                self.count_of(layout, name);
            } else {
                self.count(name);
            }
        }
    }
}
