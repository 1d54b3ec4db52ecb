//! M-101, motors with two Hall sensors: what its sentences say, worked out by
//! hand.

mod common;
use common::*;
use model::hall::{Fate, ANGLES, LAYOUTS, THREE_SENSORS, TWO_SENSORS};
use model::state::ALL_STATES;
use model::{CycleFields, Drive, State};

fn fields(pattern: i64, first: i64, second: i64) -> CycleFields {
    CycleFields {
        pattern,
        samples: pair(first, second),
    }
}

fn states_but_idle() -> impl Iterator<Item = State> {
    ALL_STATES.into_iter().filter(|&state| state != State::Idle)
}

/// Where each sector begins and ends, in degrees: "the sectors run from -120
/// to 0, 0 to 60, 60 to 180 and 180 to 240 degrees, with middles -60, 30, 120
/// and 210", in "the clockwise order .. 1, 3, 2, 0".
const SECTORS: [(i64, i64, i64, i64); 4] = [
    (1, -120, 0, -60),
    (3, 0, 60, 30),
    (2, 60, 180, 120),
    (0, 180, 240, 210),
];

/// The entry of the table of angles for so many degrees.
fn angle_of(degrees: i64) -> i64 {
    assert_eq!(degrees % 30, 0);
    ANGLES[degrees.rem_euclid(360) as usize / 30]
}

/// "with middles -60, 30, 120 and 210": a first pattern gives its sector's.
#[test]
fn a_first_pattern_gives_the_middle() {
    for (pattern, _, _, middle) in SECTORS {
        let drive = cycle(&small_pump(&[]), pattern);
        assert_eq!(drive.kept_pattern, Some(pattern));
        assert_eq!((drive.angle, drive.position), (angle_of(middle), 0));
    }
    let offset = small_pump(&[(HallAngleOffset, 65535)]);
    assert_eq!(cycle(&offset, 0).angle, angle_of(210) - 1);
}

/// "A clockwise step adds the width of the sector left, a counter-clockwise
/// one subtracts the width of the sector entered: 1 for 60 degrees, 2 for
/// 120."  And a step gives the boundary crossed.
#[test]
fn a_step_counts_the_width_and_gives_the_boundary() {
    for (index, (left, begin, end, _)) in SECTORS.into_iter().enumerate() {
        let (entered, ..) = SECTORS[(index + 1) % 4];
        let width = (end - begin) / 60;
        let forward = patterns(&small_pump(&[]), &[left, entered]);
        assert_eq!((forward.position, forward.angle), (width, angle_of(end)));
        // Back over the same boundary: the sector entered is the one that was
        // left.
        let back = patterns(&small_pump(&[]), &[entered, left]);
        assert_eq!(
            (back.position, back.angle),
            ((1 << 32) - width, angle_of(end))
        );
        assert_eq!(cycle(&forward, left).position, 0);
    }
}

/// "That a full turn is six counts either way", from every sector and with
/// every layout.
#[test]
fn a_full_turn_is_six_counts_either_way() {
    for layout in LAYOUTS {
        let pump = accepted(Drive::power_up().load(&with_sensors(&[], layout.sensors as u16)));
        let sectors = layout.clockwise.len();
        for start in 0..sectors {
            let turn: Vec<i64> = (0..=sectors)
                .map(|step| layout.clockwise[(start + step) % sectors])
                .collect();
            assert_eq!(patterns(&pump, &turn).position, 6);
            let back: Vec<i64> = turn.into_iter().rev().collect();
            assert_eq!(patterns(&pump, &back).position, (1 << 32) - 6);
        }
    }
}

/// Each pattern against each that can be kept, "none kept" being another
/// thing than pattern 0: the opposite sector alone is stray.
#[test]
fn fates_of_two_sensors() {
    let opposite = |pattern| match pattern {
        1 => 2,
        2 => 1,
        3 => 0,
        _ => 3,
    };
    for pattern in 0..=3 {
        assert_eq!(TWO_SENSORS.fate(pattern, None), Fate::First);
        for kept in 0..=3 {
            let stray = pattern == opposite(kept);
            let fate = TWO_SENSORS.fate(pattern, Some(kept));
            assert_eq!(fate == Fate::Stray, stray, "{pattern} after {kept}");
            assert_eq!(fate == Fate::Same, pattern == kept);
            assert_ne!(fate, Fate::Dead);
        }
    }
    let kept = cycle(&small_pump(&[]), 0);
    assert_eq!((kept.kept_pattern, kept.still_count), (Some(0), 0));
    // Kept, so that the next sector is a step and the same one is none.
    assert_eq!((cycle(&kept, 1).position, cycle(&kept, 0).position), (1, 0));
}

/// "The dead-pattern test does not apply."
#[test]
fn no_pattern_is_dead() {
    let drive = cycles(&small_pump(&[]), 0, 1000);
    assert_eq!((drive.dead_streak, drive.flags), (0, 0));
    assert_eq!(drive.still_count, 999);
    let drive = patterns(&small_pump(&[]), &[1, 0, 0, 0, 1]);
    assert_eq!((drive.dead_streak, drive.flags, drive.position), (0, 0, 0));
}

/// Strays stay: three set flag 15 and forget the pattern, the fourth sample is
/// kept.
#[test]
fn three_strays() {
    for (kept, opposite) in [(1, 2), (2, 1), (3, 0), (0, 3)] {
        let two = patterns(&small_pump(&[]), &[kept, opposite, opposite]);
        assert_eq!((two.flags, two.stray_streak), (0, 2));
        // What is no stray ends the streak.
        for other in (0..=3).filter(|&other| other != opposite) {
            assert_eq!(cycle(&two, other).stray_streak, 0);
        }
        let three = cycle(&two, opposite);
        assert_eq!((three.flags, three.kept_pattern), (0x8000, None));
        assert_eq!((three.stray_streak, three.position), (0, 0));
        let four = cycle(&three, opposite);
        assert_eq!(four.kept_pattern, Some(opposite));
        assert_eq!(four.angle, TWO_SENSORS.middle_angle(opposite));
    }
}

/// Cause 15 never stands: after a trip by strays a clear works at once, and a
/// retry too.
#[test]
fn a_trip_by_strays_is_cleared_at_once() {
    for state in states_but_idle().filter(|&state| state != State::Fault) {
        let drive = in_state_from(state, &small_pump(&[]));
        let drive = patterns(&drive, &[1, 2, 2, 2]);
        assert_eq!((drive.state, shown(&drive).gate), (state, 0));
        assert_eq!(shown(&drive).live_word, 0x8000);
        let tripped = tick(&drive, &high());
        assert_eq!(tripped.state, State::Fault);
        assert_eq!(tick(&tripped, &clear()).state, State::Stop);
    }
    let mode_1 = small_pump(&[(ControlMode, 1)]);
    let tripped = tick(&patterns(&mode_1, &[3, 0, 0, 0]), &high());
    assert_eq!(ticks(&tripped, &high(), 9999).state, State::Fault);
    assert_eq!(ticks(&tripped, &high(), 10_000).state, State::Stop);
}

/// "pattern above 3 with two sensors is 1", at place 1 and so before the
/// samples; in IDLE 3 goes first.
#[test]
fn patterns_that_two_sensors_lack() {
    for state in states_but_idle() {
        let drive = in_state_from(state, &small_pump(&[]));
        for pattern in [4, 5, 6, 7, 8, 255] {
            refused(drive.cycle(&fields(pattern, 0, 0)), &drive, 1, 1);
            refused(drive.cycle(&fields(pattern, 4096, 4096)), &drive, 1, 1);
        }
        refused(drive.cycle(&fields(3, 4096, 0)), &drive, 1, 2);
        refused(drive.cycle(&fields(0, 0, 4096)), &drive, 1, 3);
        for pattern in 0..=3 {
            accepted(drive.cycle(&fields(pattern, 4095, 4095)));
        }
    }
    let idle = Drive::power_up();
    refused(idle.cycle(&fields(4, 0, 0)), &idle, 3, 0);
}

/// "Setting 25 chooses 2 or 3 sensors; a load of 24 numbers means 3", also
/// after one of 25.
#[test]
fn setting_25_chooses() {
    let three = Drive::power_up().load(&EXAMPLE).drive;
    assert_eq!(*three.layout, THREE_SENSORS);
    let two = small_pump(&[]);
    assert_eq!((two.state, two.layout.sensors), (State::Stop, 2));
    assert_eq!(two.settings, three.settings);
    assert_eq!(accepted(two.load(&EXAMPLE)), three);
    assert_eq!(accepted(two.load(&with_sensors(&[], 3))), three);
    assert_eq!(accepted(three.load(&with_sensors(&[], 2))), two);
    // What was known of the old sectors is gone.
    let turned = patterns(&two, &[1, 3, 2]);
    assert_eq!(accepted(turned.load(&EXAMPLE)), three);
    assert_eq!(accepted(turned.load(&with_sensors(&[], 2))), two);
}

/// "setting 25 outside 2..3 is 2 at place 25", where the others are good.
#[test]
fn setting_25_outside_its_range() {
    for before in [Drive::power_up(), loaded(&[]), small_pump(&[])] {
        for sensors in [0, 1, 4, 5, 255, 256, 258, 515, 65535] {
            refused(before.load(&with_sensors(&[], sensors)), &before, 2, 25);
            let both = with_sensors(&[(RetryLimit, 101)], sensors);
            refused(before.load(&both), &before, 2, 24);
            let both = with_sensors(&[(ControlMode, 2)], sensors);
            refused(before.load(&both), &before, 2, 1);
        }
        let bad = with_sensors(&[(MotorLim, 0)], 2);
        refused(before.load(&bad), &before, 2, 13);
    }
}

/// Everything but the sectors is as with three sensors: the same start.
#[test]
fn a_start_with_two_sensors() {
    let drive = in_state_from(State::MotorRun, &small_pump(&[]));
    assert_eq!(shown(&drive).gate, 2);
    assert_eq!(shown(&drive).offsets, pair(0, 0));
    // Back from pattern 1 over 0/1 and 2/0, then forward over three boundaries.
    let drive = patterns(&drive, &[0, 2, 0, 1, 3]);
    assert_eq!(shown(&drive).position, 2);
    assert_eq!(shown(&drive).angle, 0);
}
