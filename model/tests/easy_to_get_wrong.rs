//! "Easy to get wrong, decided by the text": moves, faults, commands.

mod common;
use common::*;
use model::state::ALL_STATES;
use model::{Drive, State, TickFields};

fn states_but_idle() -> impl Iterator<Item = State> {
    ALL_STATES.into_iter().filter(|&state| state != State::Idle)
}

#[test]
fn causes_are_flagged_before_the_move_in_the_same_tick() {
    let drive = tick(&running(&[]), &kill());
    assert_eq!(
        (drive.state, drive.flags, shown(&drive).gate),
        (State::Fault, 1, 0)
    );
}

#[test]
fn a_live_flag_wins_over_a_low() {
    let fields = TickFields {
        gate_kill: 1,
        ..low()
    };
    for state in states_but_idle() {
        assert_eq!(tick(&in_state(state, &[]), &fields).state, State::Fault);
    }
}

#[test]
fn one_move_a_tick_out_of_fault_too() {
    // Offsets not measured: the next tick, not this one, goes to OFFSETCAL.
    let drive = tick(&tick(&loaded(&[]), &kill()), &clear());
    assert_eq!(drive.state, State::Stop);
    assert_eq!(tick(&drive, &high()).state, State::OffsetCal);
}

#[test]
fn the_nth_tick_of_a_state_is_the_nth_after_the_one_that_entered_it() {
    let drive = in_state(State::Parking, &[(ParkTime, 3)]);
    let drive = ticks(&drive, &high(), 2);
    assert_eq!(drive.state, State::Parking);
    assert_eq!(tick(&drive, &high()).state, State::OpenLoop);
    // ParkTime 0 and 1: the first.
    for park_time in [0, 1] {
        let drive = in_state(State::Parking, &[(ParkTime, park_time)]);
        assert_eq!(tick(&drive, &high()).state, State::OpenLoop);
    }
    let drive = in_state(State::CatchSpin, &[(TCatchSpin, 2)]);
    let drive = tick(&drive, &high());
    assert_eq!(drive.state, State::CatchSpin);
    assert_eq!(tick(&drive, &high()).state, State::AngleSensing);
}

#[test]
fn faults_ticks_are_counted_while_a_cause_stands() {
    let drive = ticks(&in_state(State::Fault, &[(ControlMode, 1)]), &kill(), 9_999);
    assert_eq!(drive.state, State::Fault);
    let drive = tick(&drive, &high());
    assert_eq!((drive.state, drive.retries_used), (State::Stop, 1));
    // Without the cause as well, not one tick sooner.
    let drive = ticks(&in_state(State::Fault, &[(ControlMode, 1)]), &high(), 9_999);
    assert_eq!(drive.state, State::Fault);
    assert_eq!(tick(&drive, &high()).state, State::Stop);
}

#[test]
fn in_fault_new_causes_set_flags_and_the_gates_follow() {
    let drive = tick(
        &loaded(&[]),
        &TickFields {
            vdc_filt: 3001,
            ..high()
        },
    );
    assert_eq!((shown(&drive).live_word, shown(&drive).gate), (4, 0));
    let drive = tick(
        &drive,
        &TickFields {
            vdc_raw: 3501,
            ..high()
        },
    );
    assert_eq!((shown(&drive).live_word, shown(&drive).gate), (6, 3));
    let drive = tick(&drive, &kill());
    assert_eq!((shown(&drive).live_word, shown(&drive).gate), (7, 0));
}

#[test]
fn clear_wins_over_a_retry_in_one_tick() {
    let drive = ticks(&in_state(State::Fault, &[(ControlMode, 1)]), &high(), 9_999);
    let drive = tick(&drive, &clear());
    assert_eq!(
        (drive.state, drive.retries_used, drive.armed),
        (State::Stop, 0, false)
    );
}

#[test]
fn an_exit_zeroes_all_sixteen_flags() {
    // Only bits 0 and 1 are live; 2, 6 and 15 are set and masked.
    let drive = patterns(&loaded(&[(FaultEnable, 0)]), &[0, 0, 1]);
    let fields = TickFields {
        vdc_filt: 4095,
        temperature: 4095,
        ..kill()
    };
    let drive = tick(&drive, &fields);
    assert_eq!((drive.flags, shown(&drive).live_word), (0x8045, 1));
    assert_eq!(tick(&drive, &clear()).flags, 0);
}

/// "A masked cause cleared while standing is flagged again at the next tick."
#[test]
fn a_masked_cause_is_flagged_again() {
    let hot = TickFields {
        temperature: 4095,
        ..high()
    };
    let drive = tick(
        &loaded(&[(FaultEnable, 0)]),
        &TickFields {
            gate_kill: 1,
            ..hot
        },
    );
    let drive = tick(&drive, &TickFields { clear: 1, ..hot });
    assert_eq!((drive.state, drive.flags), (State::Stop, 0));
    let drive = tick(&drive, &hot);
    assert_eq!((drive.state, drive.flags), (State::OffsetCal, 1 << 6));
}

#[test]
fn a_low_arms_in_every_state_but_fault() {
    for state in states_but_idle() {
        let before = in_state(state, &[]);
        assert!(!before.armed);
        let after = tick(&before, &low());
        assert_eq!(after.armed, state != State::Fault, "{}", state.name());
        if state.is_starting_or_running() {
            assert_eq!(after.state, State::Stop);
        }
    }
}

#[test]
fn a_tick_that_enters_fault_ends_disarmed() {
    let drive = tick(
        &armed(&[]),
        &TickFields {
            gate_kill: 1,
            ..low()
        },
    );
    assert_eq!((drive.state, drive.armed), (State::Fault, false));
}

#[test]
fn a_retry_arms() {
    // The command has been high since the load: the retry stands in for the
    // low.
    let drive = ticks(
        &in_state(State::Fault, &[(ControlMode, 1)]),
        &high(),
        10_000,
    );
    assert_eq!(
        (drive.state, drive.armed, drive.retries_used),
        (State::Stop, true, 1)
    );
    let drive = tick(&drive, &high());
    assert_eq!((drive.state, drive.armed), (State::BtsCharge, false));
}

#[test]
fn retries_end_at_the_limit_and_a_clear_gives_them_back() {
    let mut drive = measured(&[(ControlMode, 1), (RetryLimit, 2)]);
    for retry in 1..=2 {
        drive = ticks(&tick(&drive, &kill()), &high(), 10_000);
        assert_eq!((drive.state, drive.retries_used), (State::Stop, retry));
    }
    drive = ticks(&tick(&drive, &kill()), &high(), 10_100);
    assert_eq!((drive.state, drive.retries_used), (State::Fault, 2));
    drive = tick(&drive, &clear());
    assert_eq!((drive.state, drive.retries_used), (State::Stop, 0));
}

#[test]
fn mode_0_has_no_retry() {
    let drive = ticks(&in_state(State::Fault, &[]), &high(), 10_100);
    assert_eq!(drive.state, State::Fault);
    assert_eq!(tick(&drive, &clear()).state, State::Stop);
}

#[test]
fn load_in_stop_with_a_live_flag_clears_everything() {
    let drive = measured(&[(ControlMode, 1)]);
    let drive = ticks(&tick(&drive, &kill()), &high(), 10_000);
    let drive = patterns(&drive, &[1, 3, 3, 0, 0]);
    let answer = shown(&drive);
    assert_eq!(
        (drive.state, answer.live_word, answer.retries_used),
        (State::Stop, 0x8000, 1)
    );
    let fresh = accepted(drive.load(&EXAMPLE));
    assert_eq!(fresh, loaded(&[]));
    let mut cleared = Drive::power_up();
    cleared.state = State::Stop;
    cleared.settings = fresh.settings;
    assert_eq!(fresh, cleared);
}

#[test]
fn counters_do_not_wrap() {
    // A cause that ends after FAULT's 65,536th tick still gets its retry.
    for standing in [65_535, 65_536, 65_537, 70_000] {
        let drive = ticks(
            &in_state(State::Fault, &[(ControlMode, 1)]),
            &kill(),
            standing,
        );
        assert_eq!(drive.state, State::Fault);
        assert_eq!(tick(&drive, &high()).state, State::Stop);
    }
    // "Cycles in the present state are counted to at most 65535."
    let drive = tick(&armed(&[(BtsChargeTime, 65535)]), &high());
    let drive = cycles(&drive, 1, 65_534);
    assert_eq!(tick(&drive, &high()).state, State::BtsCharge);
    for more in [1, 2, 10] {
        assert_eq!(
            tick(&cycles(&drive, 1, more), &high()).state,
            State::CatchSpin
        );
    }
}
