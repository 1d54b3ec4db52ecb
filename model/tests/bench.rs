//! The bench cases P1 to P10 of document 01, and its tables.

mod common;
use common::*;
use model::hall::{ANGLES, THREE_SENSORS};
use model::{State, TickFields};

/// "P1 patterns 1, 3, 2, 3: position 1, angle 10922."
#[test]
fn p1_position_and_angle() {
    let answer = shown(&patterns(&loaded(&[]), &[1, 3, 2, 3]));
    assert_eq!((answer.position, answer.angle), (1, 10922));
}

/// "P2 from 0, patterns 3, 1: FFFFFFFF."
#[test]
fn p2_position_wraps() {
    assert_eq!(
        shown(&patterns(&loaded(&[]), &[3, 1])).position,
        0xFFFF_FFFF
    );
    // And back again through 0.
    assert_eq!(shown(&patterns(&loaded(&[]), &[3, 1, 3])).position, 0);
}

/// "P3 patterns 1, 6, 6, 6: flag 15; a fourth 6 is kept, angle 27306."
#[test]
fn p3_three_strays() {
    let two = patterns(&loaded(&[]), &[1, 6, 6]);
    assert_eq!(shown(&two).live_word, 0);
    let three = cycle(&two, 6);
    assert_eq!(shown(&three).live_word, 0x8000);
    assert_eq!((three.kept_pattern, shown(&three).angle), (None, -5462));
    let four = cycle(&three, 6);
    assert_eq!((four.kept_pattern, shown(&four).angle), (Some(6), 27306));
    assert_eq!(shown(&four).position, 0);
}

/// "P4 1, 0, 1, 0: no flag; 1, 0, 0: flag."
#[test]
fn p4_two_dead_samples() {
    assert_eq!(shown(&patterns(&loaded(&[]), &[1, 0, 1, 0])).live_word, 0);
    assert_eq!(shown(&patterns(&loaded(&[]), &[1, 0, 0])).live_word, 0x8000);
    assert_eq!(shown(&patterns(&loaded(&[]), &[1, 7, 0])).live_word, 0x8000);
}

/// "P5 boundary -32768 with offset -1: 32767."
#[test]
fn p5_angle_wraps() {
    let drive = loaded(&[(HallAngleOffset, 65535)]);
    assert_eq!(shown(&patterns(&drive, &[6, 4])).angle, 32767);
    assert_eq!(shown(&patterns(&drive, &[4, 6])).angle, 32767);
}

/// "P6 bits 0 and 1 live: gate 0; bit 1 alone: 3."
#[test]
fn p6_gates() {
    let brake = TickFields {
        vdc_raw: 3501,
        ..high()
    };
    let drive = tick(&loaded(&[]), &brake);
    assert_eq!((shown(&drive).live_word, shown(&drive).gate), (2, 3));
    let both = TickFields {
        gate_kill: 1,
        ..brake
    };
    let drive = tick(&loaded(&[]), &both);
    assert_eq!((shown(&drive).live_word, shown(&drive).gate), (3, 0));
    // Also with a FaultEnable that masks everything else.
    let drive = tick(&loaded(&[(FaultEnable, 0)]), &brake);
    assert_eq!((shown(&drive).live_word, shown(&drive).gate), (2, 3));
}

/// "P7 VdcFilt equal to VdcOvLevel: no flag."
#[test]
fn p7_voltage_at_its_level() {
    let at = TickFields {
        vdc_filt: 3000,
        ..high()
    };
    assert_eq!(tick(&loaded(&[]), &at).flags, 0);
    let above = TickFields {
        vdc_filt: 3001,
        ..high()
    };
    assert_eq!(tick(&loaded(&[]), &above).flags, 4);
}

/// "P8 reference 600, target 700, rate 64: 601 after 32 ticks."
#[test]
fn p8_ramp() {
    let open_loop = in_state(State::OpenLoop, &[]);
    let drive = tick(
        &open_loop,
        &TickFields {
            speed: 600,
            ..high()
        },
    );
    assert_eq!(
        (drive.state, shown(&drive).speed_reference),
        (State::MotorRun, 600)
    );
    let target = TickFields {
        target: 700,
        ..high()
    };
    let drive = ticks(&drive, &target, 31);
    assert_eq!(shown(&drive).speed_reference, 600);
    assert_eq!(shown(&tick(&drive, &target)).speed_reference, 601);
}

/// "P9 control 1424, CmdStart 400, gain 4096, MinSpd 600: target 1624."
#[test]
fn p9_target_of_mode_1() {
    let drive = loaded(&[(ControlMode, 1)]);
    let fields = TickFields {
        control: 1424,
        ..high()
    };
    assert_eq!(fields.reference_target(&drive.settings), 1624);
    // A run that arrives there.
    let drive = running(&[(ControlMode, 1), (SpdRampRate, 32767)]);
    let drive = ticks(&drive, &fields, 1000);
    assert_eq!(shown(&drive).speed_reference, 1624);
}

/// "P10 the settings above, offsets measured, armed: with command held at 1,
/// three cycles between the first tick and the second, and no flag, MOTORRUN
/// at the sixth tick, the start being the first."
#[test]
fn p10_start() {
    let mut drive = tick(&armed(&[]), &high());
    let mut seen = vec![drive.state];
    drive = cycles(&drive, 1, 3);
    for _ in 0..5 {
        drive = tick(&drive, &high());
        seen.push(drive.state);
    }
    let expected = [
        State::BtsCharge,
        State::CatchSpin,
        State::AngleSensing,
        State::Parking,
        State::OpenLoop,
        State::MotorRun,
    ];
    assert_eq!(seen, expected);
}

/// "k times 30 degrees is floor(65536k/12), read as signed 16 bits".
#[test]
fn angles_of_the_table() {
    for (k, angle) in ANGLES.into_iter().enumerate() {
        assert_eq!((65536 * k as i64 / 12) as u16 as i16 as i64, angle);
    }
}

/// The middle of a sector lies 30 degrees past the boundary before it.
#[test]
fn middles_and_boundaries_fit_together() {
    for &pattern in THREE_SENSORS.clockwise {
        let previous = THREE_SENSORS.previous_pattern(pattern);
        let boundary = THREE_SENSORS.boundary_angle(previous, pattern);
        assert_eq!(boundary, THREE_SENSORS.boundary_angle(pattern, previous));
        let place = |angle| ANGLES.iter().position(|&entry| entry == angle).unwrap();
        let middle = place(THREE_SENSORS.middle_angle(pattern));
        assert_eq!(middle, (place(boundary) + 1) % 12);
    }
}
