//! "Easy to get wrong, decided by the text": cycles, counts, references.

mod common;
use common::*;
use model::state::ALL_STATES;
use model::{report_line, CycleFields, State, TickFields};

#[test]
fn a_cycle_sets_flag_15_in_every_state_but_idle() {
    for state in ALL_STATES {
        let drive = in_state(state, &[]);
        if state == State::Idle {
            continue;
        }
        for noise in [[0, 7].as_slice(), [6, 6, 6].as_slice()] {
            let drive = patterns(&cycle(&drive, 1), noise);
            // The gates go off at once, the state moves at the next tick.
            assert_eq!((drive.state, shown(&drive).gate), (state, 0));
            assert_eq!(shown(&drive).live_word & 0x8000, 0x8000);
            assert_eq!(tick(&drive, &high()).state, State::Fault);
        }
    }
}

#[test]
fn a_masked_flag_15_leaves_the_gates() {
    let drive = patterns(&running(&[(FaultEnable, 0x7FFF)]), &[0, 0]);
    assert_eq!(
        (drive.flags, shown(&drive).live_word, shown(&drive).gate),
        (0x8000, 0, 2)
    );
    assert_eq!(tick(&drive, &high()).state, State::MotorRun);
}

#[test]
fn dead_samples_with_none_kept_count_too() {
    assert_eq!(patterns(&loaded(&[]), &[0]).flags, 0);
    assert_eq!(patterns(&loaded(&[]), &[0, 0]).flags, 0x8000);
}

#[test]
fn no_exit_from_fault_resets_the_dead_streak() {
    // Masked: the exit is allowed, and the next tick flags again.
    let drive = tick(&patterns(&loaded(&[(FaultEnable, 0)]), &[0, 0]), &kill());
    let drive = tick(&drive, &clear());
    assert_eq!(
        (drive.state, drive.flags, drive.dead_streak),
        (State::Stop, 0, 2)
    );
    assert_eq!(tick(&drive, &high()).flags, 0x8000);
    // Live: no exit until a pattern of 1..6 has come.
    let drive = ticks(&patterns(&loaded(&[]), &[0, 0]), &clear(), 5);
    assert_eq!(drive.state, State::Fault);
    assert_eq!(tick(&cycle(&drive, 5), &clear()).state, State::Stop);
}

#[test]
fn the_third_stray_is_not_kept() {
    let drive = patterns(&loaded(&[]), &[1, 6, 2, 4]);
    assert_eq!((drive.kept_pattern, drive.stray_streak), (None, 0));
    assert_eq!(drive.flags, 0x8000);
    // A dead sample or a good one between them ends the streak.
    assert_eq!(patterns(&loaded(&[]), &[1, 6, 6, 0, 6, 6]).flags, 0);
    assert_eq!(patterns(&loaded(&[]), &[1, 6, 6, 1, 6, 6]).flags, 0);
    assert_eq!(patterns(&loaded(&[]), &[1, 6, 6, 3, 4, 5]).flags, 0);
    // A stray ends a dead streak.
    assert_eq!(patterns(&loaded(&[]), &[1, 0, 6, 0, 6, 0]).flags, 0);
}

#[test]
fn the_offset_is_added_to_middles_too() {
    assert_eq!(
        shown(&patterns(&loaded(&[(HallAngleOffset, 100)]), &[3])).angle,
        5561
    );
    assert_eq!(
        shown(&patterns(&loaded(&[(HallAngleOffset, 100)]), &[3, 2])).angle,
        11022
    );
    // "Before any pattern it is 0, without offset."
    assert_eq!(
        shown(&patterns(&loaded(&[(HallAngleOffset, 100)]), &[0])).angle,
        0
    );
    // A forgotten pattern leaves the angle.
    assert_eq!(
        shown(&patterns(&loaded(&[(HallAngleOffset, 100)]), &[3, 0, 0])).angle,
        5561
    );
}

#[test]
fn the_still_count_grows_with_none_kept_and_in_every_state() {
    assert_eq!(cycles(&loaded(&[]), 0, 10).still_count, 10);
    assert_eq!(cycles(&loaded(&[]), 0, 5000).still_count, 4096);
    for state in ALL_STATES {
        if state != State::Idle {
            let drive = patterns(&in_state(state, &[]), &[1, 3]);
            assert_eq!(drive.still_count, 0);
            assert_eq!(patterns(&drive, &[3, 0, 4]).still_count, 3);
        }
    }
}

#[test]
fn counts_are_judged_at_ticks() {
    // BtsChargeTime 0 is done at the first tick.
    let drive = tick(&armed(&[(BtsChargeTime, 0)]), &high());
    assert_eq!(tick(&drive, &high()).state, State::CatchSpin);
    // MinSpd 0 leaves OPENLOOP at once, though the ramp is not 0.
    let drive = in_state(State::OpenLoop, &[(MinSpd, 0), (OpenLoopRamp, 5)]);
    assert_eq!(tick(&drive, &high()).state, State::MotorRun);
    // Any other MinSpd waits for the speed, of either sign.
    let drive = in_state(State::OpenLoop, &[(OpenLoopRamp, 5)]);
    let speed = |speed| TickFields { speed, ..high() };
    assert_eq!(tick(&drive, &speed(-599)).state, State::OpenLoop);
    assert_eq!(tick(&drive, &speed(-600)).state, State::MotorRun);
    // 6 x IS_Pulses cycles.
    let drive = in_state(State::AngleSensing, &[(IsPulses, 2)]);
    let drive = cycles(&drive, 1, 11);
    assert_eq!(tick(&drive, &high()).state, State::AngleSensing);
    assert_eq!(tick(&cycle(&drive, 1), &high()).state, State::MotorRun);
}

#[test]
fn entering_motorrun_takes_the_ticks_speed_whole() {
    let drive = in_state(State::OpenLoop, &[]);
    for speed in [-32767, -5, 0, 32767] {
        let drive = tick(
            &drive,
            &TickFields {
                speed,
                target: 700,
                ..high()
            },
        );
        assert_eq!(drive.state, State::MotorRun);
        assert_eq!(shown(&drive).speed_reference as i64, speed);
    }
}

#[test]
fn cmd_gain_is_unsigned() {
    let drive = running(&[
        (ControlMode, 1),
        (SpdRampRate, 32767),
        (MinSpd, 0),
        (CmdGain, 65535),
    ]);
    let fields = TickFields {
        control: 500,
        ..high()
    };
    // floor(100 x 65535 / 4096) = 1599
    assert_eq!(fields.reference_target(&drive.settings), 1599);
}

#[test]
fn a_reference_between_minus_1_and_0_prints_a_plus() {
    let drive = tick(&in_state(State::OpenLoop, &[(MinSpd, 0)]), &high());
    let drive = tick(
        &drive,
        &TickFields {
            target: -5,
            ..high()
        },
    );
    assert_eq!(drive.speed_reference_times_2048, -64);
    let mut line = [0; 47];
    assert_eq!(report_line(&shown(&drive), &mut line), (0, 0));
    assert_eq!(
        &line[..],
        b"0 MOTORRUN.... 2 0000 +00000 00000000 -05462 .\n"
    );
}

#[test]
fn the_least_speed_and_target_are_refused() {
    let drive = loaded(&[]);
    let answer = drive
        .tick(&TickFields {
            speed: -32768,
            ..low()
        })
        .answer;
    assert_eq!((answer.number, answer.place), (1, 10));
    let answer = drive
        .tick(&TickFields {
            target: -32768,
            ..low()
        })
        .answer;
    assert_eq!((answer.number, answer.place), (1, 11));
}

#[test]
fn refused_calls_count_nothing_and_reset_nothing() {
    let drive = ticks(
        &running(&[(RotorLockTime, 1)]),
        &TickFields {
            trq_ref: 4095,
            speed: 600,
            ..high()
        },
        9,
    );
    let reply = drive.tick(&TickFields {
        speed: -32768,
        ..low()
    });
    assert_eq!(reply.drive, drive);
    let reply = drive.cycle(&CycleFields {
        pattern: 3,
        samples: pair(0, 4096),
    });
    assert_eq!(reply.drive, drive);
    let reply = drive.load(&EXAMPLE);
    assert_eq!(reply.drive, drive);
}

#[test]
fn offsets_are_the_first_n_samples_rounded_down() {
    let mut drive = tick(&loaded(&[]), &low());
    let samples = |first, second| CycleFields {
        pattern: 1,
        samples: pair(first, second),
    };
    for _ in 0..63 {
        drive = accepted(drive.cycle(&samples(100, 4095)));
    }
    // One short: stays.
    assert_eq!(tick(&drive, &low()).state, State::OffsetCal);
    drive = accepted(drive.cycle(&samples(163, 4094)));
    // Too late to be added.
    drive = accepted(drive.cycle(&samples(4095, 0)));
    drive = tick(&drive, &low());
    // floor(6463 / 64) = 100, floor(262079 / 64) = 4094
    assert_eq!(
        (drive.state, shown(&drive).offsets),
        (State::Stop, pair(100, 4094))
    );
}

#[test]
fn a_trip_in_offsetcal_loses_the_sums() {
    let drive = tick(&loaded(&[]), &low());
    let drive = accepted(drive.cycle(&CycleFields {
        pattern: 1,
        samples: pair(4095, 4095),
    }));
    let drive = tick(&tick(&tick(&drive, &kill()), &clear()), &high());
    assert_eq!(
        (drive.state, drive.offset_sums),
        (State::OffsetCal, pair(0, 0))
    );
    let drive = tick(&cycles(&drive, 1, 64), &high());
    assert_eq!(
        (drive.state, shown(&drive).offsets),
        (State::Stop, pair(0, 0))
    );
}
