//! MOTORRUN: the counts of flags 4, 7 and 14, and the speed reference.

use super::{add_all, Reached, Seen};
use crate::causes::{BAD_SLOTS, GOOD_FLUX, LOCKED_SPEEDS};
use crate::flag::Flag;
use crate::settings::Setting;
use crate::state::State;
use crate::tick_fields::TickFields;

counted_names! {
    Count {
        EighthBadSlot => "run: flag 4 stands at the eighth bad slot",
        BadSlotFollowing => "run: flag 4 stands at a bad slot following",
        SevenBadSlotsEnded => "run: seven bad slots ended by a good one",
        OneBadTickInSlot => "run: slot of several ticks with one bad tick only",
        RotorLockStands => "run: flag 7 stands at the (10 x RotorLockTime)-th tick",
        RotorLockGoesOn => "run: flag 7 goes on standing",
        RotorLockEndedShort => "run: rotor lock ended one tick short",
        TimeOutStands => "run: flag 14 stands at the (10 x HallTimeoutPeriod)-th tick",
        TimeOutGoesOn => "run: flag 14 goes on standing",
        StillnessEndedShort => "run: Hall stillness ended one tick short",
        StillnessKeptOverStep => "run: Hall stillness kept over a step and 4096 still cycles",
        StandingShaft => "run: flag 7 stands at speed 0",
        StandingShaftMasked => "run: flag 7 goes on standing at speed 0",
        LockedBelowMinSpd => "run: flag 7 stands below MinSpd",
        MinSpdAboveLockedSpeeds => "run: flag 7 stands with MinSpd above 4095",
    }
}

counted_names! {
    Ramp {
        Up => "ramp up",
        Down => "ramp down",
        ThroughZeroUpward => "ramp through zero upward",
        ThroughZeroDownward => "ramp through zero downward",
        Arrives => "ramp arrives at the target",
        Stays => "ramp stays at the target",
        OddRate => "ramp with an odd rate",
        RateZero => "ramp rate 0 away from the target",
        JustBelowZero => "ramp reference between -1 and 0",
        JustAboveZero => "ramp reference between 0 and 1",
        NegativeFraction => "ramp reference negative with a fraction",
    }
}

counted_names! {
    Target {
        AsGivenPositive => "target mode 0 as given, positive",
        AsGivenNegative => "target mode 0 as given, negative",
        LiftedPositive => "target mode 0 lifted to MinSpd, positive",
        LiftedNegative => "target mode 0 lifted to MinSpd, negative",
        LiftedZero => "target mode 0 lifted to MinSpd, zero",
        BelowCmdStart => "target mode 1 MinSpd below CmdStart",
        ByGain => "target mode 1 by the gain",
        ByGainRoundedDown => "target mode 1 by the gain, rounded down",
        Limited => "target mode 1 limited to 16383",
    }
}

counted_names! {
    Entry {
        AtZero => "entry to MOTORRUN at speed 0",
        Forward => "entry to MOTORRUN at a positive speed",
        Reverse => "entry to MOTORRUN at a negative speed",
        MostForward => "entry to MOTORRUN at speed 32767",
        MostReverse => "entry to MOTORRUN at speed -32767",
    }
}

/// Slot lengths that streams use: FluxFaultTime 1, 2, 3, 4, 5 and 7.
const SLOTS: [i64; 6] = [1, 2, 3, 5, 6, 8];

pub fn add_to_list(list: &mut Vec<String>) {
    add_all(list, Count::ALL);
    add_all(list, Ramp::ALL);
    add_all(list, Target::ALL);
    add_all(list, Entry::ALL);
    for ticks in SLOTS {
        list.push(slot_name(ticks));
    }
}

fn slot_name(ticks: i64) -> String {
    format!("run: flag 4 stands with slots of {ticks} ticks")
}

impl Reached {
    pub(super) fn observe_running(&mut self, seen: &Seen, fields: &TickFields) {
        if seen.before.state == State::MotorRun {
            self.observe_counts(seen, fields);
        }
        if seen.after.state != State::MotorRun {
            return;
        }
        if seen.before.state == State::MotorRun {
            self.observe_ramp(seen, fields);
            self.observe_target(seen, fields);
        } else {
            self.count_if(fields.speed == 0, Entry::AtZero);
            self.count_if(fields.speed > 0, Entry::Forward);
            self.count_if(fields.speed < 0, Entry::Reverse);
            self.count_if(fields.speed == 32767, Entry::MostForward);
            self.count_if(fields.speed == -32767, Entry::MostReverse);
        }
    }

    fn observe_counts(&mut self, seen: &Seen, fields: &TickFields) {
        let before = seen.before;
        let settings = &before.settings;
        let counted = before.counted(fields);
        let causes = counted.standing_causes(fields);

        let slot = settings.flux_slot_ticks();
        let slot_ends = before.flux_slot_ticks + 1 == slot;
        if Flag::Flux.is_in(causes) {
            self.count_if(counted.flux_bad_slots == BAD_SLOTS, Count::EighthBadSlot);
            self.count_if(counted.flux_bad_slots > BAD_SLOTS, Count::BadSlotFollowing);
            self.count_if(SLOTS.contains(&slot), slot_name(slot));
        }
        let broken = before.flux_bad_slots == BAD_SLOTS - 1 && counted.flux_bad_slots == 0;
        self.count_if(slot_ends && broken, Count::SevenBadSlotsEnded);
        let bad_now = !GOOD_FLUX.contains(&fields.flx_m);
        self.count_if(
            slot_ends && slot > 1 && !before.flux_slot_bad && bad_now,
            Count::OneBadTickInSlot,
        );

        let needed = 10 * settings[Setting::RotorLockTime];
        self.count_if(counted.rotor_lock_ticks == needed, Count::RotorLockStands);
        self.count_if(counted.rotor_lock_ticks > needed, Count::RotorLockGoesOn);
        let short = before.rotor_lock_ticks == needed - 1 && counted.rotor_lock_ticks == 0;
        self.count_if(short, Count::RotorLockEndedShort);
        let stands = fields.speed == 0;
        self.count_if(
            stands && counted.rotor_lock_ticks == needed,
            Count::StandingShaft,
        );
        self.count_if(
            stands && counted.rotor_lock_ticks > needed,
            Count::StandingShaftMasked,
        );
        let least = settings[Setting::MinSpd];
        let locked = Flag::RotorLock.is_in(causes);
        self.count_if(
            locked && fields.speed.abs() < least,
            Count::LockedBelowMinSpd,
        );
        self.count_if(
            locked && !LOCKED_SPEEDS.contains(&least),
            Count::MinSpdAboveLockedSpeeds,
        );

        let needed = 10 * settings[Setting::HallTimeoutPeriod];
        self.count_if(counted.hall_still_ticks == needed, Count::TimeOutStands);
        self.count_if(counted.hall_still_ticks > needed, Count::TimeOutGoesOn);
        let short = before.hall_still_ticks == needed - 1 && counted.hall_still_ticks == 0;
        self.count_if(short, Count::StillnessEndedShort);
        let kept_over = self.watch.newly_kept_since_tick && counted.hall_still_ticks >= 2;
        self.count_if(kept_over, Count::StillnessKeptOverStep);
    }

    fn observe_ramp(&mut self, seen: &Seen, fields: &TickFields) {
        let settings = &seen.before.settings;
        let from = seen.before.speed_reference_times_2048;
        let to = seen.after.speed_reference_times_2048;
        let target = fields.reference_target(settings) * 2048;
        self.count_if(to > from, Ramp::Up);
        self.count_if(to < from, Ramp::Down);
        self.count_if(from < 0 && to > 0, Ramp::ThroughZeroUpward);
        self.count_if(from > 0 && to < 0, Ramp::ThroughZeroDownward);
        self.count_if(from != target && to == target, Ramp::Arrives);
        self.count_if(from == target, Ramp::Stays);
        let rate = settings[Setting::SpdRampRate];
        self.count_if((to - from).abs() == rate && rate % 2 == 1, Ramp::OddRate);
        self.count_if(rate == 0 && from != target, Ramp::RateZero);
        self.count_if(-2048 < to && to < 0, Ramp::JustBelowZero);
        self.count_if(0 < to && to < 2048, Ramp::JustAboveZero);
        self.count_if(to < -2048 && to % 2048 != 0, Ramp::NegativeFraction);
    }

    fn observe_target(&mut self, seen: &Seen, fields: &TickFields) {
        let settings = &seen.before.settings;
        let given = fields.target;
        if settings[Setting::ControlMode] == 0 {
            let lifted = given.abs() < settings[Setting::MinSpd];
            self.count_if(!lifted && given > 0, Target::AsGivenPositive);
            self.count_if(!lifted && given < 0, Target::AsGivenNegative);
            self.count_if(lifted && given > 0, Target::LiftedPositive);
            self.count_if(lifted && given < 0, Target::LiftedNegative);
            self.count_if(lifted && given == 0, Target::LiftedZero);
            return;
        }
        if fields.control < settings[Setting::CmdStart] {
            self.count(Target::BelowCmdStart);
            return;
        }
        let product = (fields.control - settings[Setting::CmdStart]) * settings[Setting::CmdGain];
        if settings[Setting::MinSpd] + product / 4096 > 16383 {
            self.count(Target::Limited);
        } else {
            self.count(Target::ByGain);
            self.count_if(product % 4096 != 0, Target::ByGainRoundedDown);
        }
    }
}
