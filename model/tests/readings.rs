//! The points where document 01 leaves a choice, and "Errors a bench has
//! met".

mod common;
use common::*;
use model::{State, TickFields};

fn locked() -> TickFields {
    TickFields {
        trq_ref: -4095,
        speed: -600,
        ..high()
    }
}

fn flux(flx_m: i64) -> TickFields {
    TickFields { flx_m, ..high() }
}

/// Bits 4, 7 and 14 do not stand in FAULT: nothing is counted there.
#[test]
fn slow_causes_do_not_stand_in_fault() {
    let drive = cycles(
        &running(&[
            (RotorLockTime, 1),
            (FluxFaultTime, 1),
            (HallTimeoutPeriod, 1),
        ]),
        1,
        4096,
    );
    let fields = TickFields {
        flx_m: 0,
        ..locked()
    };
    let drive = ticks(&drive, &fields, 8);
    assert_eq!((drive.state, drive.flags), (State::Fault, 1 << 4));
    let drive = ticks(&drive, &fields, 30);
    assert_eq!(drive.flags, 1 << 4);
    assert_eq!(
        tick(&drive, &TickFields { clear: 1, ..fields }).state,
        State::Stop
    );
    // A Hall time-out can be cleared though the shaft stays at rest.
    let drive = cycles(&running(&[(HallTimeoutPeriod, 1)]), 1, 4096);
    let drive = ticks(&drive, &high(), 10);
    assert_eq!((drive.state, drive.flags), (State::Fault, 1 << 14));
    assert_eq!(tick(&drive, &clear()).state, State::Stop);
}

/// "at most 16383" limits the whole target.
#[test]
fn the_whole_target_is_limited() {
    let drive = loaded(&[(ControlMode, 1), (MinSpd, 16000), (CmdGain, 4096)]);
    let target = |control| TickFields { control, ..high() }.reference_target(&drive.settings);
    assert_eq!(target(399), 16000);
    assert_eq!(target(400), 16000);
    assert_eq!(target(783), 16383);
    assert_eq!(target(784), 16383);
    assert_eq!(target(4095), 16383);
}

/// The tick that enters MOTORRUN is not counted; the (10 x n)-th taken there
/// is the one at which flags 7 and 14 stand.
#[test]
fn the_entering_tick_is_not_counted() {
    let open_loop = in_state(State::OpenLoop, &[(RotorLockTime, 1)]);
    let drive = ticks(&tick(&open_loop, &locked()), &locked(), 9);
    assert_eq!((drive.state, drive.flags), (State::MotorRun, 0));
    let drive = tick(&drive, &locked());
    assert_eq!((drive.state, drive.flags), (State::Fault, 1 << 7));
    let open_loop = cycles(
        &in_state(State::OpenLoop, &[(HallTimeoutPeriod, 1)]),
        1,
        4096,
    );
    let drive = ticks(&tick(&open_loop, &high()), &high(), 9);
    assert_eq!((drive.state, drive.flags), (State::MotorRun, 0));
    assert_eq!(tick(&drive, &high()).flags, 1 << 14);
}

/// The run of flag 7 is broken by one tick below MotorLim or out of range.
#[test]
fn a_rotor_lock_run_must_be_consecutive() {
    let breaks = [
        TickFields {
            trq_ref: 4094,
            ..locked()
        },
        TickFields {
            speed: 4096,
            ..locked()
        },
        TickFields {
            speed: -4096,
            ..locked()
        },
    ];
    for fields in breaks {
        let drive = ticks(&running(&[(RotorLockTime, 1)]), &locked(), 9);
        let drive = ticks(&tick(&drive, &fields), &locked(), 9);
        assert_eq!(drive.flags, 0);
        assert_eq!(tick(&drive, &locked()).flags, 1 << 7);
    }
}

/// Flag 4 stands at the last tick of the eighth bad slot, on a fixed grid
/// from the entry to MOTORRUN.
#[test]
fn slots_of_flag_4() {
    // floor(5 x 4 / 4) = 5 ticks a slot, one bad tick in each, at its start.
    let mut drive = running(&[(FluxFaultTime, 4)]);
    for slot in 1..=8 {
        drive = ticks(&tick(&drive, &flux(511)), &flux(512), 3);
        assert_eq!(drive.flags, 0, "slot {slot}");
        drive = tick(&drive, &flux(8192));
    }
    assert_eq!((drive.state, drive.flags), (State::Fault, 1 << 4));
    // The grid begins at the entry, not at the first bad tick: two bad ticks
    // in one slot and none in the next.
    let mut drive = running(&[(FluxFaultTime, 2)]);
    for _ in 0..20 {
        drive = ticks(&ticks(&drive, &flux(8193), 2), &flux(2048), 2);
    }
    assert_eq!(drive.flags, 0);
    // Shifted by one tick, every slot is bad.
    let mut drive = tick(&running(&[(FluxFaultTime, 2)]), &flux(8193));
    drive = tick(&drive, &flux(2048));
    for _ in 0..6 {
        drive = tick(&tick(&drive, &flux(2048)), &flux(8193));
    }
    assert_eq!(drive.flags, 0);
    assert_eq!(ticks(&drive, &flux(0), 2).flags, 1 << 4);
}

/// "and of each bad one following": masked, the cause stands at the end of the
/// ninth as well, and not after a good one.
#[test]
fn flag_4_after_the_eighth_slot() {
    let mut drive = ticks(
        &running(&[(FaultEnable, 0), (FluxFaultTime, 1)]),
        &flux(0),
        8,
    );
    let stands =
        |drive: &model::Drive, fields: &TickFields| drive.counted(fields).standing_causes(fields);
    assert_eq!(drive.flags, 1 << 4);
    assert_eq!(stands(&drive, &flux(65535)), 1 << 4);
    drive = tick(&drive, &flux(512));
    assert_eq!(stands(&drive, &flux(65535)), 0);
    assert_eq!(drive.flags, 1 << 4);
}

/// The still count is looked at once per tick: a step and 4096 still cycles
/// between two ticks do not break the run; a step alone does.
#[test]
fn the_still_count_is_looked_at_once_per_tick() {
    let drive = ticks(
        &cycles(&running(&[(HallTimeoutPeriod, 1)]), 1, 4096),
        &high(),
        9,
    );
    let rested = cycles(&cycle(&drive, 3), 3, 4096);
    assert_eq!(tick(&rested, &high()).flags, 1 << 14);
    let stepped = cycles(&cycle(&drive, 3), 3, 4095);
    let drive = tick(&stepped, &high());
    assert_eq!((drive.flags, drive.hall_still_ticks), (0, 0));
}

/// CATCHSPIN at equality, and with DirectStartThr 0.
#[test]
fn catchspin_at_equality() {
    let to = |threshold, speed| {
        let drive = in_state(
            State::CatchSpin,
            &[(TCatchSpin, 1), (DirectStartThr, threshold)],
        );
        tick(&drive, &TickFields { speed, ..high() }).state
    };
    assert_eq!(to(300, 300), State::AngleSensing);
    assert_eq!(to(300, 301), State::MotorRun);
    assert_eq!(to(300, -300), State::AngleSensing);
    assert_eq!(to(0, 0), State::AngleSensing);
    assert_eq!(to(0, -1), State::MotorRun);
}

/// Error met: "The offset subtracted."
#[test]
fn error_offset_subtracted() {
    assert_eq!(
        shown(&patterns(&loaded(&[(HallAngleOffset, 1000)]), &[1, 3])).angle,
        1000
    );
    assert_eq!(
        shown(&patterns(&loaded(&[(HallAngleOffset, 64536)]), &[1, 3])).angle,
        -1000
    );
}

/// Error met: "A command already high after load or clear taken as a start."
#[test]
fn error_high_taken_as_a_start() {
    for mode in [0, 1] {
        let drive = measured(&[(ControlMode, mode)]);
        assert_eq!(ticks(&drive, &high(), 20).state, State::Stop);
        let drive = tick(&in_state(State::Fault, &[(ControlMode, mode)]), &clear());
        assert_eq!(ticks(&drive, &high(), 20).state, State::Stop);
        // A low in the very tick that leaves FAULT does not arm either.
        let drive = in_state(State::Fault, &[(ControlMode, mode)]);
        let drive = tick(&drive, &TickFields { clear: 1, ..low() });
        assert_eq!(ticks(&drive, &high(), 20).state, State::Stop);
        let drive = tick(&drive, &low());
        assert_eq!(tick(&drive, &high()).state, State::BtsCharge);
    }
}

/// Error met: "Every fault shutting the gates, though bit 1 brakes."
#[test]
fn error_brake_shut() {
    let drive = tick(
        &running(&[]),
        &TickFields {
            vdc_raw: 3501,
            ..high()
        },
    );
    assert_eq!((drive.state, shown(&drive).gate), (State::Fault, 3));
    let drive = tick(
        &running(&[]),
        &TickFields {
            vdc_raw: 3500,
            ..high()
        },
    );
    assert_eq!((drive.state, shown(&drive).gate), (State::MotorRun, 2));
}

/// Error met: "A retry clearing flags while a live cause stands."
#[test]
fn error_retry_with_a_cause() {
    let hot = TickFields {
        temperature: 3501,
        ..high()
    };
    let drive = tick(&measured(&[(ControlMode, 1)]), &hot);
    let drive = ticks(&drive, &hot, 10_050);
    assert_eq!(
        (drive.state, drive.flags, drive.retries_used),
        (State::Fault, 1 << 6, 0)
    );
    let drive = tick(
        &drive,
        &TickFields {
            temperature: 3500,
            ..high()
        },
    );
    assert_eq!(
        (drive.state, drive.flags, drive.retries_used),
        (State::Stop, 0, 1)
    );
}

/// Error met: "A reverse spin judged by signed speed."
#[test]
fn error_reverse_spin() {
    let drive = in_state(State::CatchSpin, &[(TCatchSpin, 1)]);
    let drive = tick(
        &drive,
        &TickFields {
            speed: -301,
            ..high()
        },
    );
    assert_eq!(
        (drive.state, shown(&drive).speed_reference),
        (State::MotorRun, -301)
    );
}
