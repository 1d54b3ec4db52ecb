//! M-103: "the range is every absolute speed up to 4095."

mod common;
use common::*;
use model::{State, TickFields};

#[test]
fn flag_7_takes_every_speed_up_to_4095_whatever_min_spd_is() {
    let locked = |speed| TickFields {
        trq_ref: -4095,
        speed,
        ..high()
    };
    for least in [0, 600, 4095, 4096, 16383] {
        let drive = running(&[(RotorLockTime, 1), (MinSpd, least)]);
        for speed in [0, 1, -1, 599, -600, 4095, -4095] {
            assert_eq!(ticks(&drive, &locked(speed), 9).state, State::MotorRun);
            let drive = ticks(&drive, &locked(speed), 10);
            assert_eq!((drive.state, drive.flags), (State::Fault, 1 << 7));
        }
        for speed in [4096, -4096, 32767] {
            assert_eq!(ticks(&drive, &locked(speed), 30).flags, 0);
        }
    }
}

#[test]
fn a_standing_shaft_with_bit_7_masked_runs_on() {
    let drive = running(&[(RotorLockTime, 1), (FaultEnable, 0xFF7F)]);
    let held = TickFields {
        trq_ref: 4095,
        speed: 0,
        ..high()
    };
    assert_eq!(ticks(&drive, &held, 9).flags, 0);
    for count in [10, 11, 30] {
        let drive = ticks(&drive, &held, count);
        assert_eq!((drive.state, drive.flags), (State::MotorRun, 1 << 7));
        assert_eq!(shown(&drive).live_word, 0);
    }
}

#[test]
fn flag_7_counts_no_tick_outside_motorrun() {
    let held = TickFields {
        trq_ref: 4095,
        speed: 0,
        ..high()
    };
    let drive = in_state(State::OpenLoop, &[(RotorLockTime, 1), (OpenLoopRamp, 5)]);
    let drive = ticks(&drive, &held, 30);
    assert_eq!((drive.state, drive.flags), (State::OpenLoop, 0));
    // The tick that enters is not counted, either.
    let entering = TickFields { speed: 600, ..held };
    let drive = tick(&drive, &entering);
    assert_eq!(ticks(&drive, &held, 9).state, State::MotorRun);
    assert_eq!(ticks(&drive, &held, 10).flags, 1 << 7);
}
