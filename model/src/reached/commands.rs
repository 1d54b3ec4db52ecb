//! Arming, starts and stops.

use super::{add_all, states_but_idle, LastExit, Reached, Seen};
use crate::settings::Setting;
use crate::state::State;
use crate::tick_fields::TickFields;

counted_names! {
    Name {
        StartInMode0 => "start in mode 0",
        StartInMode1 => "start in mode 1",
        StartAfterLowSinceClear => "start after a low since the last exit by clear",
        StartAfterLowSinceRetry => "start after a low since the last exit by retry",
        StartAfterRetryWithoutLow => "start after a retry, no low since",
        StartAfterRetryWithoutLowSinceLoad => "start after a retry, no low since the load",
        HighNotTakenSinceLoad => "high not taken in STOP, no low since the load",
        HighNotTakenSinceClear => "high not taken in STOP, no low since the clear",
        ArmedBetweenLowAndHigh => "armed in STOP, neither low nor high",
        LowInFaultDoesNotArm => "low in FAULT does not arm",
        LowAtEntryToFaultDisarmed => "low at the tick that enters FAULT, disarmed",
        LiveFlagWinsOverLow => "live flag wins over a low in a starting or running state",
        BetweenLowAndHighKeepsState => "neither low nor high keeps a starting or running state",
        ClearOutsideFault => "clear outside FAULT leaves flags standing",
    }
}

pub fn add_to_list(list: &mut Vec<String>) {
    add_all(list, Name::ALL);
    for state in states_but_idle() {
        if state != State::Fault {
            list.push(arms_name(state));
        }
    }
}

fn arms_name(state: State) -> String {
    format!("low arms in {}", state.name())
}

impl Reached {
    pub(super) fn observe_commands(&mut self, seen: &Seen, fields: &TickFields) {
        let (before, after) = (seen.before, seen.after);
        let low = fields.is_low(&before.settings);
        let high = fields.is_high(&before.settings);
        let entered_fault = before.state != State::Fault && after.state == State::Fault;
        if before.state == State::Stop && after.state == State::BtsCharge {
            self.observe_start(seen);
        }
        if before.state == State::Stop && after.state == State::Stop && before.offsets_measured {
            self.observe_waiting(seen, high);
        }
        if low && before.state != State::Fault && !before.armed && after.armed {
            self.count(arms_name(before.state));
        }
        self.count_if(
            low && before.state == State::Fault && !after.armed,
            Name::LowInFaultDoesNotArm,
        );
        self.count_if(
            low && entered_fault && !after.armed,
            Name::LowAtEntryToFaultDisarmed,
        );
        let running = before.state.is_starting_or_running();
        self.count_if(low && entered_fault && running, Name::LiveFlagWinsOverLow);
        self.count_if(
            !low && !high && running && after.state.is_starting_or_running(),
            Name::BetweenLowAndHighKeepsState,
        );
        let outside_fault = before.state != State::Fault;
        self.count_if(
            outside_fault && fields.clear == 1 && before.flags != 0,
            Name::ClearOutsideFault,
        );
        // The exit tick itself was dealt with before; a low in it does not
        // count as one since the exit.
        if low && before.state != State::Fault {
            self.watch.low_since_exit = true;
            self.watch.low_since_load = true;
        }
    }

    fn observe_start(&mut self, seen: &Seen) {
        let mode_1 = seen.before.settings[Setting::ControlMode] == 1;
        self.count_if(!mode_1, Name::StartInMode0);
        self.count_if(mode_1, Name::StartInMode1);
        let low = self.watch.low_since_exit;
        let low_since_load = self.watch.low_since_load;
        match self.watch.last_exit {
            LastExit::NoneSinceLoad => {}
            LastExit::Clear => self.count_if(low, Name::StartAfterLowSinceClear),
            LastExit::Retry => {
                self.count_if(low, Name::StartAfterLowSinceRetry);
                self.count_if(!low, Name::StartAfterRetryWithoutLow);
                self.count_if(!low_since_load, Name::StartAfterRetryWithoutLowSinceLoad);
            }
        }
    }

    fn observe_waiting(&mut self, seen: &Seen, high: bool) {
        let armed = seen.before.armed;
        let cleared = self.watch.last_exit == LastExit::Clear;
        let loaded = self.watch.last_exit == LastExit::NoneSinceLoad;
        self.count_if(high && !armed && loaded, Name::HighNotTakenSinceLoad);
        self.count_if(high && !armed && cleared, Name::HighNotTakenSinceClear);
        self.count_if(
            armed && seen.after.armed && !high,
            Name::ArmedBetweenLowAndHigh,
        );
    }
}
