//! Hall samples, position, angle, still count and offsets.
//!
//! What depends on the layout is listed and counted for each; the names of two
//! sensors begin with these words.

use super::{add_all, of_layout, states_but_idle, Reached, Seen};
use crate::causes::FULL_STILL_COUNT;
use crate::cycle::CycleFields;
use crate::hall::{Fate, Layout, LAYOUTS};
use crate::settings::Setting;
use crate::state::State;

/// Steps in one run that make it a long one.
const LONG_RUN: u64 = 100;

counted_names! {
    Name {
        DeadWithNoneKept => "hall dead sample with none kept",
        SecondDeadForgets => "hall second dead sample forgets the pattern",
        DeadStreakStays => "hall dead streak stays at 2",
        StillCountStaysFull => "still count stays at 4096",
        StillCountWithNoneKept => "still count grows with none kept",
        CycleBeyondN => "offsets: cycle beyond N in OFFSETCAL",
        OffsetCalLeftByTrip => "offsets: OFFSETCAL left by a trip after samples were added",
        OffsetsRoundedDown => "offsets: rounded down",
        CycleCountFull => "cycle count full at 65535 (long)",
    }
}

counted_names! {
    /// Of each layout.
    Each {
        ThirdStrayForgets => "hall third stray sample forgets the pattern",
        LongRunForward => "hall run of 100 steps forward",
        LongRunBackward => "hall run of 100 steps backward",
        AngleWrapsAbove => "angle plus offset wraps above 32767",
        AngleWrapsBelow => "angle plus offset wraps below -32768",
        StillCountFull => "still count reaches 4096",
        StillCountEnded => "still count 4096 ended by a newly kept pattern",
    }
}

pub fn add_to_list(list: &mut Vec<String>) {
    for layout in LAYOUTS {
        let names = names_of(layout);
        list.extend(names.into_iter().map(|name| of_layout(layout, name)));
    }
    for fate in ["First", "Same", "Forward", "Back", "Stray"] {
        list.push(format!("hall dead streak of 1 ended by {fate}"));
    }
    list.push("hall dead streak of 2 ended by First".to_string());
    for prescaler in 0..=7 {
        list.push(format!("offsets: measured with OffsetPsc {prescaler}"));
    }
    add_all(list, Name::ALL);
}

fn names_of(layout: &Layout) -> Vec<String> {
    let mut names = Vec::new();
    for pattern in layout.dead {
        names.push(format!("hall dead {pattern}"));
    }
    for &pattern in layout.clockwise {
        names.push(format!("hall first {pattern}"));
        for &other in layout.clockwise {
            let fate = layout.fate(other, Some(pattern));
            names.push(pair_name(fate, pattern, other));
        }
        names.extend(wraps_after(
            layout.step(pattern, layout.next_pattern(pattern)),
        ));
    }
    for fate in [Fate::Dead, Fate::Same, Fate::Forward, Fate::Back] {
        if fate != Fate::Dead || !layout.dead.is_empty() {
            names.push(stray_end_name(fate));
        }
    }
    for state in states_but_idle() {
        names.push(format!("cycle in {}", state.name()));
    }
    add_all(&mut names, Each::ALL);
    names.sort();
    names.dedup();
    names
}

fn pair_name(fate: Fate, kept: i64, pattern: i64) -> String {
    format!("hall {fate:?} {kept} -> {pattern}").to_lowercase()
}

fn stray_end_name(fate: Fate) -> String {
    format!("hall stray streak of 2 ended by {fate:?}")
}

/// Through 0 by a step of this width, upward and downward.
fn wraps_after(width: i64) -> impl Iterator<Item = String> {
    let ends = (0..width).map(move |past| ((1 << 32) - width + past, past));
    ends.flat_map(|(low, high)| [wrap_name(low, high), wrap_name(high, low)])
}

fn wrap_name(before: i64, after: i64) -> String {
    format!("position wraps {before:X} -> {after:X}")
}

impl Reached {
    pub(super) fn observe_hall(&mut self, seen: &Seen, fields: &CycleFields) {
        let (before, after) = (seen.before, seen.after);
        let (pattern, layout) = (fields.pattern, before.layout);
        let fate = layout.fate(pattern, before.kept_pattern);
        self.count_of(layout, format!("cycle in {}", before.state.name()));
        let name = match (fate, before.kept_pattern) {
            (Fate::Dead, _) => format!("hall dead {pattern}"),
            (_, None) => format!("hall first {pattern}"),
            (_, Some(kept)) => pair_name(fate, kept, pattern),
        };
        self.count_of(layout, name);
        let none_kept = before.kept_pattern.is_none();
        if fate == Fate::Dead {
            self.count_if(none_kept, Name::DeadWithNoneKept);
            self.count_if(
                !none_kept && after.kept_pattern.is_none(),
                Name::SecondDeadForgets,
            );
            self.count_if(before.dead_streak == 2, Name::DeadStreakStays);
        } else if before.dead_streak > 0 {
            let streak = before.dead_streak;
            self.count(format!("hall dead streak of {streak} ended by {fate:?}"));
        }
        if before.stray_streak == 2 {
            if fate == Fate::Stray {
                self.count_of(layout, Each::ThirdStrayForgets);
            } else {
                self.count_of(layout, stray_end_name(fate));
            }
        }
        self.observe_steps(seen, fate, pattern);
        self.observe_still_count(seen, none_kept);
        let added = before.settings.offset_cycles();
        self.count_if(
            before.state == State::OffsetCal && before.cycles_in_state >= added,
            Name::CycleBeyondN,
        );
        self.count_if(before.cycles_in_state == 65535, Name::CycleCountFull);
    }

    fn observe_steps(&mut self, seen: &Seen, fate: Fate, pattern: i64) {
        let (before, after) = (seen.before, seen.after);
        let watch = &mut self.watch;
        watch.steps_forward = if fate == Fate::Forward {
            watch.steps_forward + 1
        } else {
            0
        };
        watch.steps_backward = if fate == Fate::Back {
            watch.steps_backward + 1
        } else {
            0
        };
        let long_forward = watch.steps_forward == LONG_RUN;
        let long_backward = watch.steps_backward == LONG_RUN;
        let layout = before.layout;
        if long_forward {
            self.count_of(layout, Each::LongRunForward);
        }
        if long_backward {
            self.count_of(layout, Each::LongRunBackward);
        }
        let (from, to) = (before.position, after.position);
        if (fate == Fate::Forward && to < from) || (fate == Fate::Back && to > from) {
            self.count_of(layout, wrap_name(from, to));
        }
        let angle = match (fate, before.kept_pattern) {
            (Fate::First, _) => layout.middle_angle(pattern),
            (Fate::Forward | Fate::Back, Some(kept)) => layout.boundary_angle(kept, pattern),
            _ => return,
        };
        self.watch.newly_kept_since_tick = true;
        let sum = angle + before.settings[Setting::HallAngleOffset];
        if sum > 32767 {
            self.count_of(layout, Each::AngleWrapsAbove);
        }
        if sum < -32768 {
            self.count_of(layout, Each::AngleWrapsBelow);
        }
    }

    fn observe_still_count(&mut self, seen: &Seen, none_kept: bool) {
        let (before, after) = (seen.before.still_count, seen.after.still_count);
        let layout = seen.before.layout;
        if before < FULL_STILL_COUNT && after == FULL_STILL_COUNT {
            self.count_of(layout, Each::StillCountFull);
        }
        if before == FULL_STILL_COUNT && after == 0 {
            self.count_of(layout, Each::StillCountEnded);
        }
        self.count_if(
            before == FULL_STILL_COUNT && after == FULL_STILL_COUNT,
            Name::StillCountStaysFull,
        );
        self.count_if(none_kept && after > before, Name::StillCountWithNoneKept);
    }

    /// At a tick: what became of OFFSETCAL.
    pub(super) fn observe_offsets(&mut self, seen: &Seen) {
        let before = seen.before;
        if before.state != State::OffsetCal {
            return;
        }
        let added = before.cycles_in_state > 0;
        self.count_if(
            seen.after.state == State::Fault && added,
            Name::OffsetCalLeftByTrip,
        );
        if seen.after.state == State::Stop {
            let prescaler = before.settings[Setting::OffsetPsc];
            self.count(format!("offsets: measured with OffsetPsc {prescaler}"));
            let cycles = before.settings.offset_cycles();
            self.count_if(
                before.offset_sums.first % cycles != 0,
                Name::OffsetsRoundedDown,
            );
        }
    }
}
