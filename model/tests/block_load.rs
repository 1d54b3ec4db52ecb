//! M-102, the block load call and flag 12, by its sentences.

mod common;
use common::images::*;
use common::*;
use model::benchline::{run, BenchRecord};
use model::state::ALL_STATES;
use model::{CycleFields, Drive, State};

/// Flag 12 alone: 1000 in hexadecimal.
const FLAG_12: u16 = 4096;

/// A body that load's rules refuse at place 3: VdcOvLevel is 0..4095.
fn bad_body() -> [u16; 24] {
    settings_with(&[(VdcOvLevel, 4096)])
}

/// IDLE with flag 12 set.
fn flagged() -> Drive {
    Drive::power_up()
        .load_block(&image_with(4, &bad_body()), 4)
        .drive
}

/// "A block load call reads a block and loads its body": the same as a load of
/// the body's numbers.
#[test]
fn the_body_is_loaded() {
    let bodies = [
        EXAMPLE.to_vec(),
        with_sensors(&[], 2).to_vec(),
        with_sensors(&[], 3).to_vec(),
    ];
    for body in bodies {
        for block in [0, 7, 14] {
            for before in [Drive::power_up(), loaded(&[(RetryLimit, 9)]), flagged()] {
                let reply = before.load_block(&image_with(block, &body), block);
                assert_eq!(reply, Drive::power_up().load(&body));
                assert_eq!(accepted(reply).state, State::Stop);
            }
        }
    }
}

/// "Refusals: 7 image malformed, then 8 block above 14, then 9 block empty,
/// then load's own": in every state, and none of the first three sets a flag.
#[test]
fn refusals_by_the_image_in_every_state() {
    let good = image_with(4, &EXAMPLE);
    let cut = &good[..good.len() - 1];
    for state in ALL_STATES {
        let drive = in_state(state, &[]);
        for block in [0, 4, 15] {
            refused(drive.load_block(cut, block), &drive, 7, 0);
            refused(drive.load_block(b"", block), &drive, 7, 0);
        }
        for block in [15, 16, 255] {
            refused(drive.load_block(&good, block), &drive, 8, 0);
        }
        for block in [0, 3, 5, 14] {
            refused(drive.load_block(&good, block), &drive, 9, 0);
        }
        if !matches!(state, State::Idle | State::Stop) {
            refused(drive.load_block(&good, 4), &drive, 4, 0);
            // "4 before 2"
            refused(
                drive.load_block(&image_with(4, &bad_body()), 4),
                &drive,
                4,
                0,
            );
        }
    }
}

/// "A body that it finds and load's own rules refuse in IDLE also sets flag
/// 12, always live": its own answer shows it, with load's own place, and
/// nothing else is changed.
#[test]
fn a_refused_body_sets_flag_12_in_idle() {
    let idle = Drive::power_up();
    for (body, place) in [
        (bad_body().to_vec(), 3),
        (
            settings_with(&[(ControlMode, 2), (RetryLimit, 101)]).to_vec(),
            1,
        ),
        (settings_with(&[(RetryLimit, 101)]).to_vec(), 24),
        (with_sensors(&[], 4).to_vec(), 25),
        // FaultEnable 0: the settings that are refused mask nothing either.
        (
            settings_with(&[(FaultEnable, 0), (MotorLim, 0)]).to_vec(),
            13,
        ),
    ] {
        let reply = idle.load_block(&image_with(9, &body), 9);
        assert_eq!((reply.answer.number, reply.answer.place), (2, place));
        assert_eq!((reply.answer.state, reply.answer.gate), (0, 0));
        assert_eq!(reply.answer.live_word, FLAG_12);
        let mut expected = Drive::power_up();
        expected.flags = FLAG_12 as i64;
        assert_eq!(reply.drive, expected);
        assert_eq!(reply.answer, expected.answer(2, place));
    }
}

/// In STOP the refusal changes nothing, and a plain load sets no flag.
#[test]
fn no_flag_in_stop_and_none_by_a_plain_load() {
    let stop = measured(&[]);
    refused(stop.load_block(&image_with(4, &bad_body()), 4), &stop, 2, 3);
    let idle = Drive::power_up();
    refused(idle.load(&bad_body()), &idle, 2, 3);
    refused(idle.load(&EXAMPLE[..23]), &idle, 2, 0);
}

/// "until a load of either kind is accepted": nothing else takes it away, and
/// IDLE does not move.
#[test]
fn flag_12_stays_until_a_load_is_accepted() {
    let flagged = flagged();
    let good = image_with(4, &EXAMPLE);
    refused(flagged.load(&bad_body()), &flagged, 2, 3);
    refused(flagged.load(&[]), &flagged, 2, 0);
    refused(flagged.load_block(&good[1..], 4), &flagged, 7, 0);
    refused(flagged.load_block(&good, 15), &flagged, 8, 0);
    refused(flagged.load_block(&good, 5), &flagged, 9, 0);
    // A second body that is refused sets what is set.
    refused(
        flagged.load_block(&image_with(0, &[0; 24]), 0),
        &flagged,
        2,
        4,
    );
    let cycle = CycleFields {
        pattern: 1,
        samples: pair(0, 0),
    };
    refused(flagged.cycle(&cycle), &flagged, 3, 0);
    for tick in [low(), high(), clear(), kill()] {
        refused(flagged.tick(&tick), &flagged, 3, 0);
    }
    for loaded in [
        accepted(flagged.load(&EXAMPLE)),
        accepted(flagged.load(&with_sensors(&[], 2))),
        accepted(flagged.load_block(&good, 4)),
    ] {
        assert_eq!((loaded.flags, shown(&loaded).live_word), (0, 0));
        // The drive works: no flag moves it to FAULT.
        assert_eq!(tick(&loaded, &low()).state, State::OffsetCal);
    }
}

fn lines(input: &[u8]) -> Vec<String> {
    let printed = String::from_utf8(run(input)).expect("ASCII");
    printed.lines().map(str::to_string).collect()
}

fn record(block: u8, image: &[u8]) -> Vec<u8> {
    let length = (image.len() as u16).to_be_bytes();
    let bytes = [b"B".as_slice(), &[block], &length, image].concat();
    let made = BenchRecord::Block {
        block,
        image: image.to_vec(),
    };
    assert_eq!(made.bytes(), bytes);
    bytes
}

/// "B | block (1 byte), length (..), so many bytes | block load from this
/// image", and the live word "plain decimal".
#[test]
fn record_b_of_benchline() {
    let good = image_with(4, &with_sensors(&[], 2));
    let mut input = record(4, &image_with(4, &bad_body()));
    input.extend(record(4, b""));
    input.extend(record(255, &good));
    input.extend(record(0, &good));
    input.extend(record(4, &good));
    input.extend(b"C\x01\0\0\0\0C\x03\0\0\0\0");
    assert_eq!(
        lines(&input),
        [
            "2 3 0 0 4096 0 0 0 0 0 0 .",
            "7 0 0 0 4096 0 0 0 0 0 0 .",
            "8 0 0 0 4096 0 0 0 0 0 0 .",
            "9 0 0 0 4096 0 0 0 0 0 0 .",
            "0 0 1 0 0 0 0 0 0 0 0 .",
            // Two sensors: 1 is -60 degrees, and 1 to 3 counts 2.
            "0 0 1 0 0 0 0 -10923 0 0 0 F",
            "0 0 1 0 0 0 2 0 0 0 0 W",
        ]
    );
}

/// "length (at most 2048, more is bad)", whether or not the bytes are there;
/// and a record "that the input cuts short".
#[test]
fn bad_records_b() {
    assert_eq!(lines(&record(0, &[0; 2048])), ["7 0 0 0 0 0 0 0 0 0 0 ."]);
    assert_eq!(lines(&record(0, &[0; 2049])), ["?"]);
    assert_eq!(lines(b"B\0\x08\x01"), ["?"]);
    assert_eq!(lines(b"B\0\xFF\xFF"), ["?"]);
    let whole = record(4, &image_with(4, &EXAMPLE));
    for kept in 1..whole.len() {
        assert_eq!(lines(&whole[..kept]), ["?"], "{kept} bytes");
    }
}
