//! The table of numbers: when, place and order.

mod common;
use common::*;
use model::state::ALL_STATES;
use model::{CycleFields, Drive, State, TickFields};

/// M-101: "lengths other than 24 and 25 are 2 at place 0".
#[test]
fn load_of_another_length() {
    let idle = Drive::power_up();
    for length in [0, 1, 23, 26, 48, 49, 50, 1000] {
        // Bad numbers throughout: the upper row comes first.
        refused(idle.load(&vec![65535; length]), &idle, 2, 0);
    }
}

/// "3 before 1": cycle or tick in IDLE.
#[test]
fn cycle_and_tick_in_idle() {
    let idle = Drive::power_up();
    refused(
        idle.cycle(&CycleFields {
            pattern: 1,
            samples: pair(0, 0),
        }),
        &idle,
        3,
        0,
    );
    refused(
        idle.cycle(&CycleFields {
            pattern: 9,
            samples: pair(-1, 9999),
        }),
        &idle,
        3,
        0,
    );
    refused(idle.tick(&low()), &idle, 3, 0);
    refused(
        idle.tick(&TickFields {
            gate_kill: 2,
            ..low()
        }),
        &idle,
        3,
        0,
    );
}

/// "4 before 2": load outside IDLE and STOP.
#[test]
fn load_in_other_states() {
    for state in ALL_STATES {
        let drive = in_state(state, &[]);
        if matches!(state, State::Idle | State::Stop) {
            assert_eq!(accepted(drive.load(&EXAMPLE)).state, State::Stop);
        } else {
            refused(drive.load(&EXAMPLE), &drive, 4, 0);
            refused(drive.load(&[1, 2, 3]), &drive, 4, 0);
            refused(drive.load(&with_sensors(&[], 2)), &drive, 4, 0);
            refused(drive.load(&with_sensors(&[], 4)), &drive, 4, 0);
        }
    }
}

#[test]
fn fields_out_of_range() {
    let stop = loaded(&[]);
    let cycle = |pattern, first, second| CycleFields {
        pattern,
        samples: pair(first, second),
    };
    refused(stop.cycle(&cycle(8, 4096, 4096)), &stop, 1, 1);
    refused(stop.cycle(&cycle(-1, 0, 0)), &stop, 1, 1);
    refused(stop.cycle(&cycle(7, 4096, 4096)), &stop, 1, 2);
    refused(stop.cycle(&cycle(0, 4095, 4096)), &stop, 1, 3);
    let bad = [
        (
            TickFields {
                gate_kill: 2,
                clear: 2,
                ..low()
            },
            1,
        ),
        (
            TickFields {
                clear: 2,
                target: -32768,
                ..low()
            },
            2,
        ),
        (
            TickFields {
                command: 2,
                ..low()
            },
            3,
        ),
        (
            TickFields {
                control: 4096,
                ..low()
            },
            4,
        ),
        (
            TickFields {
                vdc_raw: 4096,
                ..low()
            },
            5,
        ),
        (
            TickFields {
                vdc_filt: 4096,
                ..low()
            },
            6,
        ),
        (
            TickFields {
                temperature: 4096,
                ..low()
            },
            7,
        ),
        (
            TickFields {
                flx_m: 65536,
                ..low()
            },
            8,
        ),
        (
            TickFields {
                trq_ref: -4096,
                ..low()
            },
            9,
        ),
        (
            TickFields {
                trq_ref: 4096,
                ..low()
            },
            9,
        ),
        (
            TickFields {
                speed: -32768,
                ..low()
            },
            10,
        ),
        (
            TickFields {
                target: -32768,
                ..low()
            },
            11,
        ),
    ];
    for (fields, place) in bad {
        refused(stop.tick(&fields), &stop, 1, place);
    }
}
