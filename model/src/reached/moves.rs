//! States, moves and gates.

use super::{add_all, states_but_idle, Reached, Seen};
use crate::drive::Gate;
use crate::flag::Flag;
use crate::record::Record;
use crate::settings::Setting;
use crate::state::{State, ALL_STATES};

/// The moves that a tick may make, all but those to FAULT and those of a low.
const MOVES: [(State, State); 11] = [
    (State::Stop, State::OffsetCal),
    (State::Stop, State::BtsCharge),
    (State::OffsetCal, State::Stop),
    (State::BtsCharge, State::CatchSpin),
    (State::CatchSpin, State::MotorRun),
    (State::CatchSpin, State::AngleSensing),
    (State::AngleSensing, State::Parking),
    (State::AngleSensing, State::MotorRun),
    (State::Parking, State::OpenLoop),
    (State::OpenLoop, State::MotorRun),
    (State::Fault, State::Stop),
];

counted_names! {
    Way {
        ChargeTimeZero => "way on: BTSCHARGE left with BtsChargeTime 0",
        ChargedLonger => "way on: BTSCHARGE left with more cycles than BtsChargeTime",
        CatchSpinZero => "way on: CATCHSPIN left with TCatchSpin 0",
        CatchSpinOne => "way on: CATCHSPIN left with TCatchSpin 1",
        CatchSpinMore => "way on: CATCHSPIN left with TCatchSpin 2 or more",
        ParkTimeZero => "way on: PARKING left with ParkTime 0",
        ParkTimeOne => "way on: PARKING left with ParkTime 1",
        ParkTimeMore => "way on: PARKING left with ParkTime 2 or more",
        OpenLoopRampZero => "way on: OPENLOOP left by OpenLoopRamp 0 below MinSpd",
        OpenLoopBySpeed => "way on: OPENLOOP left by speed",
        OpenLoopMinSpdZero => "way on: OPENLOOP left with MinSpd 0",
    }
}

pub fn add_to_list(list: &mut Vec<String>) {
    for state in ALL_STATES {
        list.push(format!("state {}", state.name()));
    }
    list.push("move by load IDLE -> STOP".to_string());
    list.push("move by load STOP -> STOP".to_string());
    list.push("move by load STOP -> STOP with a live flag standing".to_string());
    for (from, to) in MOVES {
        list.push(move_name(from, to));
    }
    for state in states_but_idle() {
        list.push(stay_name(state));
        if state != State::Fault {
            list.push(move_name(state, State::Fault));
        }
        if state.is_starting_or_running() {
            // "a low moves to STOP"
            list.push(move_name(state, State::Stop));
        }
    }
    add_all(list, Way::ALL);
    for state in ALL_STATES {
        // Off: at rest, or through a flag that a cycle has set.
        list.push(gate_name(Gate::Off, state));
        match state {
            State::BtsCharge => list.push(gate_name(Gate::Charge, state)),
            // Bit 1 is set by a tick, which moves to FAULT at once.
            State::Fault => list.push(gate_name(Gate::Brake, state)),
            State::Idle | State::Stop | State::OffsetCal => {}
            _ => list.push(gate_name(Gate::Drive, state)),
        }
    }
    list.push("gate 0 with bits 0 and 1 live".to_string());
    list.push("gate 3 with bit 1 and others live".to_string());
}

fn move_name(from: State, to: State) -> String {
    format!("move {} -> {}", from.name(), to.name())
}

fn stay_name(state: State) -> String {
    format!("move none in {}", state.name())
}

fn gate_name(gate: Gate, state: State) -> String {
    format!("gate {} in {}", gate as u8, state.name())
}

impl Reached {
    pub(super) fn observe_moves(&mut self, seen: &Seen) {
        let (before, after) = (seen.before, seen.after);
        self.count(format!("state {}", after.state.name()));
        let gate = after.gate();
        self.count(gate_name(gate, after.state));
        let live = after.live_word();
        let both = |word| Flag::GateKill.is_in(word) && Flag::CriticalOverVoltage.is_in(word);
        self.count_if(
            gate == Gate::Off && both(live),
            "gate 0 with bits 0 and 1 live",
        );
        self.count_if(
            gate == Gate::Brake && live != Flag::CriticalOverVoltage.bit(),
            "gate 3 with bit 1 and others live",
        );
        if seen.answer.number != 0 {
            return;
        }
        match seen.record {
            Record::Load(_) | Record::LoadWithSensors(_) => {
                let from = before.state.name();
                self.count(format!("move by load {from} -> STOP"));
                self.count_if(
                    before.live_word() != 0,
                    "move by load STOP -> STOP with a live flag standing",
                );
            }
            Record::Tick(fields) => {
                if before.state == after.state {
                    self.count(stay_name(before.state));
                } else {
                    self.count(move_name(before.state, after.state));
                    self.observe_way(seen, fields.speed.abs());
                }
            }
            Record::Cycle(_) => {}
        }
    }

    fn observe_way(&mut self, seen: &Seen, speed: i64) {
        let settings = &seen.before.settings;
        if matches!(seen.after.state, State::Fault | State::Stop) {
            return;
        }
        match seen.before.state {
            State::BtsCharge => {
                let wanted = settings[Setting::BtsChargeTime];
                self.count_if(wanted == 0, Way::ChargeTimeZero);
                self.count_if(seen.before.cycles_in_state > wanted, Way::ChargedLonger);
            }
            State::CatchSpin => self.count(match settings[Setting::TCatchSpin] {
                0 => Way::CatchSpinZero,
                1 => Way::CatchSpinOne,
                _ => Way::CatchSpinMore,
            }),
            State::Parking => self.count(match settings[Setting::ParkTime] {
                0 => Way::ParkTimeZero,
                1 => Way::ParkTimeOne,
                _ => Way::ParkTimeMore,
            }),
            State::OpenLoop => {
                let fast = speed >= settings[Setting::MinSpd];
                self.count_if(
                    settings[Setting::OpenLoopRamp] == 0 && !fast,
                    Way::OpenLoopRampZero,
                );
                self.count_if(
                    settings[Setting::OpenLoopRamp] != 0 && fast,
                    Way::OpenLoopBySpeed,
                );
                self.count_if(
                    settings[Setting::OpenLoopRamp] != 0 && settings[Setting::MinSpd] == 0,
                    Way::OpenLoopMinSpdZero,
                );
            }
            _ => {}
        }
    }
}
