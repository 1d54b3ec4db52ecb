//! M-105, what became of a Hall sample: each letter, and what has none.  The
//! letters are worked out by hand; `fate_lines.rs` has the lines.

mod common;
use common::images::image_with;
use common::*;
use model::state::ALL_STATES;
use model::{CycleFields, Drive, Fate, Reply, State, TickFields};

fn fields(pattern: i64) -> CycleFields {
    CycleFields {
        pattern,
        samples: pair(0, 0),
    }
}

/// The letter of one accepted cycle.
fn letter(drive: &Drive, pattern: i64) -> char {
    let reply = drive.cycle(&fields(pattern));
    assert_eq!((reply.answer.number, reply.answer.place), (0, 0));
    reply.answer.fate_letter()
}

/// The letters of cycles, one after the other.
fn letters(drive: &Drive, patterns: &[i64]) -> String {
    let mut drive = drive.clone();
    let mut letters = String::new();
    for &pattern in patterns {
        letters.push(letter(&drive, pattern));
        drive = cycle(&drive, pattern);
    }
    letters
}

/// The letters of patterns from 0 on, each after the same.
fn row(drive: &Drive, most_pattern: i64) -> String {
    let each = 0..=most_pattern;
    each.map(|pattern| letter(drive, pattern)).collect()
}

/// By the kept pattern, the letters of 0 to 7: "Clockwise order is 1, 3, 2, 6,
/// 4, 5, then 1."
const THREE: [(i64, &str); 6] = [
    (1, "DSXWXBXD"),
    (2, "DXSBXXWD"),
    (3, "DBWSXXXD"),
    (4, "DXXXSWBD"),
    (5, "DWXXBSXD"),
    (6, "DXBXWXSD"),
];

/// The letters of 0 to 3: "the clockwise order is 1, 3, 2, 0".  "The
/// dead-pattern test does not apply", so there is no D.
const TWO: [(i64, &str); 4] = [(0, "SWBX"), (1, "BSXW"), (2, "WXSB"), (3, "XBWS")];

#[test]
fn each_letter_with_three_sensors() {
    assert_eq!(row(&loaded(&[]), 7), "DFFFFFFD");
    for (kept, expected) in THREE {
        let drive = cycle(&loaded(&[]), kept);
        assert_eq!(row(&drive, 7), expected, "{kept} kept");
        // One dead sample does not forget the pattern, nor do two strays.
        assert_eq!(row(&cycle(&drive, 0), 7), expected, "{kept} kept, 0");
        let stray = expected.find('X').unwrap() as i64;
        let strayed = cycles(&drive, stray, 2);
        assert_eq!(row(&strayed, 7), expected, "{kept} kept, strays");
    }
}

#[test]
fn each_letter_with_two_sensors() {
    assert_eq!(row(&small_pump(&[]), 3), "FFFF");
    for (kept, expected) in TWO {
        let drive = cycle(&small_pump(&[]), kept);
        assert_eq!(row(&drive, 3), expected, "{kept} kept");
        let stray = expected.find('X').unwrap() as i64;
        let strayed = cycles(&drive, stray, 2);
        assert_eq!(row(&strayed, 3), expected, "{kept} kept, strays");
    }
}

/// The state of the drive, its flags and its gates have no part in it.
#[test]
fn each_letter_in_every_state() {
    for state in ALL_STATES.into_iter().filter(|&one| one != State::Idle) {
        let three = cycle(&in_state_from(state, &loaded(&[])), 1);
        assert_eq!((three.state, row(&three, 7).as_str()), (state, THREE[0].1));
        let two = cycle(&in_state_from(state, &small_pump(&[])), 1);
        assert_eq!((two.state, row(&two, 3).as_str()), (state, TWO[1].1));
    }
}

/// P1 and P2 of 01, and turns: W is clockwise, whatever the position does.
#[test]
fn runs_of_samples() {
    let three = loaded(&[]);
    assert_eq!(letters(&three, &[1, 3, 2, 3]), "FWWB");
    assert_eq!(letters(&three, &[3, 1, 3]), "FBW");
    assert_eq!(letters(&three, &[1, 3, 2, 6, 4, 5, 1, 1]), "FWWWWWWS");
    assert_eq!(letters(&three, &[1, 5, 4, 6, 2, 3, 1, 1]), "FBBBBBBS");
    let two = small_pump(&[]);
    assert_eq!(letters(&two, &[1, 3, 2, 0, 1, 1]), "FWWWWS");
    assert_eq!(letters(&two, &[0, 2, 3, 1, 0, 0]), "FBBBBS");
}

/// The second dead sample sets flag 15 and keeps its name; the next good one
/// is the first again.  Also where bit 15 is masked.
#[test]
fn the_dead_sample_that_sets_flag_15() {
    for (enabled, live) in [(65535, 0x8000), (0x7FFF, 0)] {
        let drive = cycle(&loaded(&[(FaultEnable, enabled)]), 1);
        assert_eq!(letters(&drive, &[0, 0, 1]), "DDF");
        assert_eq!(letters(&drive, &[7, 0, 3, 3]), "DDFS");
        assert_eq!(letters(&drive, &[0, 7, 7, 0, 6]), "DDDDF");
        let second = cycle(&drive, 0).cycle(&fields(7));
        assert_eq!(second.drive.flags, 0x8000);
        assert_eq!(second.answer.live_word, live);
        assert_eq!(second.answer.fate, Some(Fate::Dead));
    }
    // P4, and dead samples before any pattern.
    assert_eq!(letters(&loaded(&[]), &[1, 0, 1, 0]), "FDSD");
    assert_eq!(letters(&loaded(&[]), &[0, 7, 0, 1]), "DDDF");
}

/// The third stray sample likewise: P3, and the same with two sensors.
#[test]
fn the_stray_sample_that_sets_flag_15() {
    for (enabled, live) in [(65535, 0x8000), (0x7FFF, 0)] {
        let masked = [(FaultEnable, enabled)];
        for (drive, opposite) in [(loaded(&masked), 6), (small_pump(&masked), 2)] {
            let all = [1, opposite, opposite, opposite, opposite, 1];
            assert_eq!(letters(&drive, &all), "FXXXFX");
            let third = patterns(&drive, &all[..3]).cycle(&fields(opposite));
            assert_eq!(third.drive.flags, 0x8000);
            assert_eq!(third.answer.live_word, live);
            assert_eq!(third.answer.fate, Some(Fate::Stray));
        }
    }
    // A dead sample ends the streak of strays, and keeps its own name.
    let three = loaded(&[]);
    assert_eq!(letters(&three, &[1, 6, 4, 0, 2, 6, 4, 4]), "FXXDXXXF");
    assert_eq!(letters(&small_pump(&[]), &[3, 0, 0, 0, 0]), "FXXXF");
}

fn has_none(reply: &Reply, number: u8) {
    assert_eq!(reply.answer.number, number);
    assert_eq!((reply.answer.fate, reply.answer.fate_letter()), (None, '.'));
}

/// Only "Cycle passes the name on in its answer", and a refused sample is not
/// judged: no other answer has a letter, also right after one that has.
#[test]
fn what_has_a_full_stop() {
    let idle = Drive::power_up();
    has_none(&idle.cycle(&fields(1)), 3);
    has_none(&idle.tick(&low()), 3);
    let bad_tick = TickFields { clear: 2, ..low() };
    let bad_load = settings_with(&[(MotorLim, 0)]);
    for loaded in [loaded(&[]), small_pump(&[])] {
        for drive in [cycle(&loaded, 1), patterns(&loaded, &[1, 3]), loaded] {
            has_none(&drive.cycle(&fields(8)), 1);
            for samples in [pair(4096, 0), pair(0, 4096)] {
                let bad = CycleFields {
                    samples,
                    ..fields(1)
                };
                has_none(&drive.cycle(&bad), 1);
            }
            has_none(&drive.tick(&low()), 0);
            has_none(&drive.tick(&bad_tick), 1);
            has_none(&drive.load(&EXAMPLE), 0);
            has_none(&drive.load(&with_sensors(&[], 2)), 0);
            has_none(&drive.load(&bad_load), 2);
            has_none(&drive.load_block(&image_with(4, &EXAMPLE), 4), 0);
            has_none(&drive.load_block(&image_with(4, &bad_load), 4), 2);
            has_none(&drive.load_block(b"", 4), 7);
            has_none(&cycle(&tick(&drive, &low()), 1).load(&EXAMPLE), 4);
        }
    }
    // With two sensors pattern 7 is refused, and not dead.
    has_none(&small_pump(&[]).cycle(&fields(7)), 1);
}

/// What is refused is as if it had not come.
#[test]
fn a_refused_sample_is_not_judged() {
    let drive = cycle(&loaded(&[]), 1);
    let refused = CycleFields {
        pattern: 3,
        samples: pair(0, 4096),
    };
    let after = drive.cycle(&refused).drive;
    assert_eq!(letters(&after, &[3, 3]), "WS");
}
