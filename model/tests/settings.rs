//! The rules of the settings, worked out by hand: a changed rule is changed in
//! src/settings.rs and here.

mod common;
use common::*;
use model::settings::RULES;
use model::{Drive, State};

/// Each setting just outside its range, the first bad one counting.
#[test]
fn settings_that_break_their_rules() {
    let idle = Drive::power_up();
    let bad: [(Setting, u16); 24] = [
        (ControlMode, 2),
        (VdcOvLevel, 4096),
        (VdcLvLevel, 3000),
        (VdcLvLevel, 4096),
        (CriticalOvLevel, 2999),
        (CriticalOvLevel, 4096),
        (Tshutdown, 4096),
        (RotorLockTime, 0),
        (FluxFaultTime, 0),
        (HallTimeoutPeriod, 0),
        (MinSpd, 16384),
        (SpdRampRate, 32768),
        (MotorLim, 0),
        (MotorLim, 4096),
        (OffsetPsc, 8),
        (DirectStartThr, 16384),
        (IsPulses, 256),
        (CmdStart, 4096),
        (CmdStop, 400),
        (CmdStop, 4096),
        (RetryLimit, 101),
        (RetryLimit, 65535),
        (CmdStop, 401),
        (VdcLvLevel, 3001),
    ];
    for (setting, value) in bad {
        let place = setting.place() as u8;
        let numbers = settings_with(&[(setting, value)]);
        refused(idle.load(&numbers), &idle, 2, place);
        let stop = loaded(&[]);
        refused(stop.load(&numbers), &stop, 2, place);
    }
    refused(
        idle.load(&settings_with(&[(RetryLimit, 101), (RotorLockTime, 0)])),
        &idle,
        2,
        7,
    );
}

#[test]
fn rules_stand_in_the_order_of_the_places() {
    for (place, rule) in (1..).zip(&RULES) {
        assert_eq!(rule.setting.place(), place, "{}", rule.name);
    }
}

/// The ends of every range are accepted.
#[test]
fn settings_at_their_ends() {
    let least: [u16; 24] = [
        0, 0, 1, 0, 1, 0, 1, 1, 1, 0, 0, 0, 1, 0, 0, 0, 0, 0, 0, 0, 1, 0, 0, 0,
    ];
    let most: [u16; 24] = [
        1, 65535, 4095, 4094, 4095, 4095, 65535, 65535, 65535, 65535, 16383, 32767, 4095, 7, 65535,
        65535, 16383, 255, 65535, 65535, 4095, 4094, 65535, 100,
    ];
    for numbers in [least, most] {
        let drive = accepted(Drive::power_up().load(&numbers));
        assert_eq!(drive.state, State::Stop);
    }
    // What the generator and `reached` take for the ends.
    for (rule, (least, most)) in RULES.iter().zip(least.into_iter().zip(most)) {
        let ends = (least as i64, most as i64);
        assert_eq!(rule.setting.accepted_ends(), ends, "{}", rule.name);
    }
    assert_eq!(
        loaded(&[(HallAngleOffset, 32768)]).settings[Setting::HallAngleOffset],
        -32768
    );
}

#[test]
fn a_relation_belongs_to_the_setting_that_states_it() {
    let place = |changes: &[(Setting, u16)]| {
        let answer = Drive::power_up().load(&settings_with(changes)).answer;
        (answer.number, answer.place)
    };
    // VdcOvLevel 0: 3 itself is good, 4 is not below it.
    assert_eq!(place(&[(VdcOvLevel, 0), (VdcLvLevel, 0)]), (2, 4));
    // VdcOvLevel above CriticalOvLevel: 5.
    assert_eq!(place(&[(VdcOvLevel, 3501)]), (2, 5));
    // CmdStart 0: 22.
    assert_eq!(place(&[(CmdStart, 0), (CmdStop, 0)]), (2, 22));
    // At the edge: accepted.
    assert_eq!(
        place(&[(VdcLvLevel, 2999), (CriticalOvLevel, 3000), (CmdStop, 399)]),
        (0, 0)
    );
}
