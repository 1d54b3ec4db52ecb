//! Drives and fields that the tests start from.
#![allow(dead_code, unused_imports)] // every test file uses its own part of this one

pub mod images;

use model::settings::PerSetting;
pub use model::settings::Setting::{self, *};
use model::{Answer, CycleFields, Drive, Pair, Reply, State, TickFields};

/// The settings of the example of document 01.
pub const EXAMPLE: [u16; 24] = [
    0, 65535, 3000, 1000, 3500, 3500, 100, 800, 100, 0, 600, 64, 4095, 7, 3, 0, 300, 0, 0, 0, 400,
    300, 4096, 2,
];

/// The example's settings with some changed.
pub fn settings_with(changes: &[(Setting, u16)]) -> [u16; 24] {
    let mut settings = PerSetting(EXAMPLE);
    for &(setting, value) in changes {
        settings[setting] = value;
    }
    settings.0
}

/// The same with setting 25 behind them.
pub fn with_sensors(changes: &[(Setting, u16)], sensors: u16) -> [u16; 25] {
    let mut numbers = [sensors; 25];
    numbers[..24].copy_from_slice(&settings_with(changes));
    numbers
}

/// A drive with two sensors after an accepted load.
pub fn small_pump(changes: &[(Setting, u16)]) -> Drive {
    accepted(Drive::power_up().load(&with_sensors(changes, 2)))
}

/// A drive after an accepted load.
pub fn loaded(changes: &[(Setting, u16)]) -> Drive {
    let reply = Drive::power_up().load(&settings_with(changes));
    assert_eq!((reply.answer.number, reply.answer.place), (0, 0));
    reply.drive
}

/// "T 0,0,0,0,2623,2623,1000,2048,0,0,0", a low in both modes.
pub fn low() -> TickFields {
    TickFields {
        gate_kill: 0,
        clear: 0,
        command: 0,
        control: 0,
        vdc_raw: 2623,
        vdc_filt: 2623,
        temperature: 1000,
        flx_m: 2048,
        trq_ref: 0,
        speed: 0,
        target: 0,
    }
}

/// The same with a high in both modes.
pub fn high() -> TickFields {
    TickFields {
        command: 1,
        control: 4095,
        ..low()
    }
}

/// A clear with a high.
pub fn clear() -> TickFields {
    TickFields { clear: 1, ..high() }
}

/// A gate kill with a high.
pub fn kill() -> TickFields {
    TickFields {
        gate_kill: 1,
        ..high()
    }
}

/// Of the first and the second sample.
pub fn pair<T>(first: T, second: T) -> Pair<T> {
    Pair { first, second }
}

pub fn cycle(drive: &Drive, pattern: i64) -> Drive {
    accepted(drive.cycle(&CycleFields {
        pattern,
        samples: pair(0, 0),
    }))
}

pub fn patterns(drive: &Drive, patterns: &[i64]) -> Drive {
    let mut drive = drive.clone();
    for &pattern in patterns {
        drive = cycle(&drive, pattern);
    }
    drive
}

pub fn cycles(drive: &Drive, pattern: i64, count: i64) -> Drive {
    let mut drive = drive.clone();
    for _ in 0..count {
        drive = cycle(&drive, pattern);
    }
    drive
}

pub fn tick(drive: &Drive, fields: &TickFields) -> Drive {
    accepted(drive.tick(fields))
}

pub fn ticks(drive: &Drive, fields: &TickFields, count: i64) -> Drive {
    let mut drive = drive.clone();
    for _ in 0..count {
        drive = tick(&drive, fields);
    }
    drive
}

pub fn accepted(reply: Reply) -> Drive {
    assert_eq!((reply.answer.number, reply.answer.place), (0, 0));
    reply.drive
}

/// A refusal leaves the drive as it was and shows it.
pub fn refused(reply: Reply, before: &Drive, number: u8, place: u8) {
    assert_eq!((reply.answer.number, reply.answer.place), (number, place));
    assert_eq!(&reply.drive, before);
    assert_eq!(reply.answer, before.answer(number, place));
}

/// The answer that shows a drive.
pub fn shown(drive: &Drive) -> Answer {
    drive.answer(0, 0)
}

/// STOP with offsets measured, no low given since the load.
pub fn measured(changes: &[(Setting, u16)]) -> Drive {
    measured_from(&loaded(changes))
}

fn measured_from(loaded: &Drive) -> Drive {
    let drive = tick(loaded, &high());
    assert_eq!(drive.state, State::OffsetCal);
    let wanted = drive.settings.offset_cycles();
    let drive = tick(&cycles(&drive, 1, wanted), &high());
    assert_eq!(drive.state, State::Stop);
    drive
}

/// STOP with offsets measured and armed.
pub fn armed(changes: &[(Setting, u16)]) -> Drive {
    let drive = tick(&measured(changes), &low());
    assert!(drive.armed);
    drive
}

/// The drive in one of the states 1 to 9; the settings given may not keep it
/// from getting there with few cycles and ticks.
pub fn in_state(state: State, changes: &[(Setting, u16)]) -> Drive {
    if state == State::Idle {
        return Drive::power_up();
    }
    in_state_from(state, &loaded(changes))
}

/// The same from a drive that has just been loaded.
pub fn in_state_from(state: State, loaded: &Drive) -> Drive {
    match state {
        State::Idle => panic!("a loaded drive is not in IDLE"),
        State::Stop => measured_from(loaded),
        State::OffsetCal => tick(loaded, &high()),
        State::Fault => tick(&measured_from(loaded), &kill()),
        _ => {
            let mut drive = tick(&measured_from(loaded), &low());
            for _ in 0..100 {
                drive = tick(&drive, &high());
                if drive.state == state {
                    return drive;
                }
                drive = cycles(&drive, 1, 5);
            }
            panic!("{} not reached", state.name());
        }
    }
}

/// MOTORRUN just entered, with a speed of 0.
pub fn running(changes: &[(Setting, u16)]) -> Drive {
    in_state(State::MotorRun, changes)
}
